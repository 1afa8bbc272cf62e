"""What a part of a proof cites, and the shorter bodies that cite the same."""
import re

from lemmas import arguments, flat, named, words

# Words that a tactic has already, or that are no lemma.
NO_FACTS = {'arith', 'common_steps', 'refl', 'rules', 'nat_tests', 'tt', 'absurd', 'zero', 'suc', 'inl', 'inr', 'true',
            'false', '_', '?', '[]', 'None', 'Some', 'as'}
TACTICS = {'omega', 'cc', 'grind', 'search', 'simp', 'rw', 'assumption'}
# Words whose arguments are read each by itself, from the one of that number on.
THROUGH = {**dict.fromkeys([*TACTICS, 'sym', 'absurd', 'inl', 'inr', '←'], 1), 'ap': 2, 'subst': 2, 'elim': 1}
# A candidate may replace a `let` by its value, if that is not longer.
LONGEST_VALUE = 90
# How far the search of a planted `grind` goes, so that one that fails ends. What is applied has no such number.
STEPS = 300000


class Facts:
    """Reads what the nodes of a text cite. `locals` are the names of hypotheses, which the tactics have already, and
    `own` is the declaration's name: the hypothesis of an induction."""

    def __init__(self, text, local, own):
        self.text, self.local, self.own = text, local - {own}, own

    def source(self, node, values):
        """The text of a node with the values of names that a `let` gives."""
        text = flat(self.text[node.start:node.end])
        for name, value in values.items():
            text = re.sub(rf"(?<![\w'.\-]){re.escape(name)}(?![\w'\-])", lambda _, value=value: value, text)
        return text

    def of(self, node, values=None, bound=frozenset()):
        """The facts of a node in their order, each once. None names what is bound inside the node."""
        values = values or {}
        if node.kind == 'word':
            found = self.of_word(node, values, bound)
        elif node.kind == 'application':
            found = self.of_application(node, values, bound)
        elif node.kind == 'let':
            found = self.of_let(node, values, bound)
        elif node.kind in ('implicit', 'field', 'operation'):
            found = []
        else:
            found = [fact for child, names in zip(node.children, node.bound)
                     for fact in self.of(child, values, bound | names)]
        return list(dict.fromkeys(fact for fact in found if 'λ' not in fact))

    def of_word(self, node, values, bound):
        front = node.text.split('.')[0]
        known = {node.text, front} & (NO_FACTS | TACTICS | self.local | bound | set(values))
        return [node.text] if not known and (re.match('[a-z]', front) or '-' in front) else []

    def of_application(self, node, values, bound):
        head, parts = node.head(), node.children
        if head in THROUGH or not head:
            return [fact for part in parts[THROUGH.get(head, 0):] for fact in self.of(part, values, bound)]
        if head == 'coe':
            return []
        sources = [self.source(part, values) for part in parts]
        free = next((at for at, source in enumerate(sources) if words(source) & bound), len(parts))
        if free == len(parts):
            return [' '.join(sources)]
        # With what is bound inside: as many arguments as come before it, and what the others cite.
        front = sources[0].split('.')[0]
        is_lemma = free > 1 or free == 1 and front not in self.local and front != self.own
        inner = [fact for part in parts[1:] for fact in self.of(part, values, bound) if not words(fact) & bound]
        return [' '.join(sources[:free])] * (is_lemma and re.match('[a-z]', head) is not None) + inner

    def of_let(self, node, values, bound):
        value, tail = node.children
        text = self.source(value, values)
        by_tactic = value.head() in TACTICS | {'subst', 'elim', 'absurd'}
        if value.kind in ('let', 'function', 'record') or by_tactic or len(text) > LONGEST_VALUE or 'λ' in text:
            inner = {name: other for name, other in values.items() if name != node.text}
            return self.of(value, values, bound) + self.of(tail, inner, bound | {node.text})
        inner = {**values, node.text: text if re.fullmatch(r"[\w.']+", text) else f'({text})'}
        return self.of(value, values, bound) + self.of(tail, inner, bound)


def listed(facts):
    """Facts as a tactic takes them: one word by itself, several in brackets."""
    one = len(facts) == 1 and (' ' not in facts[0] or facts[0][0] == '(' and facts[0][-1] == ')')
    return facts[0] if one and len(arguments(facts[0])) == 1 else f'({", ".join(facts)})'


def called(tactic, facts):
    """A tactic with facts."""
    return f'{tactic} {listed(facts)}' if facts else tactic


def bare(facts, own):
    """The names of the lemmas of facts, without arguments: the tactic finds these. The induction's own hypothesis has
    to say at what it is."""
    heads = [fact if named(own, fact) else fact.split(' ')[0] for fact in facts]
    return list(dict.fromkeys(head for head in heads if named(own, head) or re.fullmatch(r"[\w'\-≤<+]+", head)))


def bodies(facts, own):
    """Bodies that may take the place of one that cites these facts: each as tactic and list."""
    found = [('cc', ()), ('cc', tuple(facts)), ('omega', ('arith',)), ('omega', ('arith', *facts)),
             ('grind', ('arith',)), ('grind', ('arith', *bare(facts, own))),
             ('grind', ('arith', 'common_steps', *facts))]
    return list(dict.fromkeys(found))


def rewrites(node, text):
    """Bodies by `rw` for a `subst` with its family or an `ap`."""
    parts = [flat(text[part.start:part.end]) for part in node.children]
    if node.head() == 'subst' and len(parts) == 4:
        equation, rest = parts[2:]
        turned = re.fullmatch(r'\(sym (.*)\)', equation)
        yield f'rw {turned[1] if turned and len(arguments(turned[1])) == 1 else f"(← {equation})"} {rest}'
        yield f'rw {equation} at {rest}'
    if node.head() == 'ap' and len(parts) == 3:
        yield f'rw {parts[2]}'


def narrower(cited):
    """Lists with one fact less."""
    return [[*cited[:at], *cited[at + 1:]] for at in range(len(cited))]
