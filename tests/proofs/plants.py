"""Shorter bodies of the lemmas of a file, and the file with each of them as a lemma of its own."""
import bisect
import re

from facts import STEPS, Facts, bodies, called, narrower, rewrites
from lemmas import RELATION, Unread, arguments, declarations, depths, flat, imports, named, words
from trees import Reader

# A shorter text is looked for where at least so many characters stand, and it must save as many as this.
LEAST, GAIN = 30, 10
# What the tactics cite, and where it is.
NEEDED = {'arith': 'use Rattle.std.proofs.Common.{arith}',
          'common_steps': 'use Rattle.std.proofs.lemmas.Grind.{common_steps}'}


class Plant:
    """A text that may take the place of a part of a declaration, from `start` to `end` in the file. By a tactic it is
    made of `frame`, which has %s for the call, with what the call cites; `number` is that of its lemma."""

    def __init__(self, declaration, start, end, old, frame, tactic='', cited=()):
        self.declaration, self.start, self.end = declaration, start, end
        self.frame, self.tactic, self.cited = frame, tactic, list(cited)
        self.new = frame % called(tactic, self.cited) if tactic else frame
        self.gain = len(flat(old)) - len(flat(self.new))
        self.number, self.passes = None, False

    def tried(self):
        """The text as it is planted: a search has its limit."""
        limit = f' steps {STEPS}' if self.tactic == 'grind' else ''
        return self.frame % (called(self.tactic, self.cited) + limit) if self.tactic else self.new

    def narrower(self, text):
        """The same with one fact less."""
        return [Plant(self.declaration, self.start, self.end, text[self.start:self.end], self.frame, self.tactic, less)
                for less in narrower(self.cited)]


def is_lemma(declaration, stated):
    """Whether the body of a declaration is a proof. It is not if the declaration is opened elsewhere, if a statement
    names it, or if its result is a plain value or a type: then the body says what something is."""
    if {'abbrev', 'unfoldable'} & set(declaration.modifiers) or declaration.name in stated:
        return False
    result = declaration.result()
    plain = not RELATION.search(result) and re.match(r'\s*(?:[A-Z]|ℕ|Bool|List|Option|Result|Type)\b', result)
    return re.match(r"[a-z][\w'\-]*$", declaration.name) is not None and not plain


def of_node(declaration, text, node, place, facts):
    """The plants in the place of a node: `place` has where that begins and ends. A whole right side comes into the line
    of its pattern."""
    start, end = place
    frame = ' ' * (start < node.start) + ('(%s)' if node.kind in ('bracket', 'field') else '%s')
    old = text[start:end]
    tuples = node.kind in ('function', 'record') or node.kind == 'bracket' and len(node.children) > 1
    for tactic, cited in bodies(facts, declaration.name):
        if not (tactic == 'omega' and tuples) and node.head() not in ('cc', 'rw'):
            yield Plant(declaration, start, end, old, frame, tactic, cited)
    for new in rewrites(node, text):
        yield Plant(declaration, start, end, old, frame.replace('%s', new))


def of_clause(declaration, text, clause, local):
    """The plants in a clause and in what is declared in its `where` part."""
    local = local | words(text[clause.start:clause.head_end]) | {inner.name for inner in clause.inner}
    try:
        whole = Reader(text, clause.body, clause.body_end).whole()
    except Unread:
        return
    for node, bound in whole.below():
        facts = Facts(text, local | bound, declaration.name).of(node)
        # A shorter right side needs no `where` part: what that declares is no hypothesis, so no fact names it.
        start, end = (clause.body, clause.end) if node is whole else (node.start, node.end)
        if len(flat(text[start:end])) >= LEAST and node.kind not in ('arms', 'word', 'implicit'):
            facts = [fact for fact in facts if not words(fact) & {inner.name for inner in clause.inner}]
            yield from of_node(declaration, text, node, (start, end), facts)
        if node.kind == 'let' and not named(node.text, text[node.children[1].start:node.end]):
            start, end = node.start, node.children[1].start
            yield Plant(declaration, start, end, text[start:end], '')
    for inner in clause.inner:
        for other in inner.clauses(text):
            yield from of_clause(declaration, text, other, local)


def binders(signature):
    """The names of the arguments in a statement, in their order; None for one that it does not name."""
    found, start = [], signature.index(' : ') + 3
    for depth, token, begin, end in depths(signature, start, len(signature)):
        if depth == 0 and token == '→':
            groups = arguments(signature[start:begin])
            named_groups = [re.match(r'[({]([^(){}:]+) : ', group) for group in groups]
            for group, match in zip(groups, named_groups) if all(named_groups) else [('(', None)]:
                found += (match[1].split() if match else [None]) if group[0] == '(' else []
            start = end
    return found


def joined(declaration, text, local):
    """All clauses as one: a pattern that they share stays, and others are names, those of the statement if there."""
    clauses = declaration.clauses(text)
    heads = [arguments(text[clause.start:clause.head_end])[1:] for clause in clauses]
    if len(clauses) < max(2, len(declaration.places)) or len(set(map(len, heads))) != 1:
        return
    shared = words(' '.join(column[0] for column in zip(*heads) if len(set(column)) == 1))
    names = dict(enumerate(binders(declaration.signature)))
    names = {at: name for at, name in names.items() if name and name not in shared}
    patterns = [column[0] if len(set(column)) == 1 else names.get(at, f'h{at}')
                for at, column in enumerate(zip(*heads))]
    lost = words(' '.join(sum(heads, []))) - shared
    facts = []
    for clause in clauses:
        try:
            whole = Reader(text, clause.body, clause.body_end).whole()
        except Unread:
            return
        inner = {other.name for other in clause.inner}
        facts += Facts(text, local | words(text[clause.start:clause.head_end]) | inner, declaration.name).of(whole)
    # Of a fact about what a pattern took apart, the lemma's name is left.
    facts = [fact.split(' ')[0].lstrip('(') if words(fact) & lost else fact for fact in dict.fromkeys(facts)]
    facts = [fact for fact in dict.fromkeys(facts) if not words(fact) & lost and fact != declaration.name]
    start, end = clauses[0].start, clauses[-1].end
    head = ' ' * declaration.indent + ' '.join([declaration.name, *patterns]).replace('%', '%%')
    for tactic, cited in bodies(facts, declaration.name):
        yield Plant(declaration, start, end, text[start:end], f'{head} = %s', tactic, cited)


def plants(text, stated=frozenset()):
    """All plants of a file, the same once. What is `stated` is left as it is, and a part with a comment too."""
    local = words(' '.join(re.findall(r'module _ ((?:.|\n)*?) where', text)))
    found = {}
    for declaration in declarations(text):
        if is_lemma(declaration, stated):
            clauses = declaration.clauses(text)
            every = [plant for clause in clauses for plant in of_clause(declaration, text, clause, local)]
            for plant in [*every, *joined(declaration, text, local)]:
                comment = re.search(r'(?:^|\s)--\s', text[plant.start:plant.end])
                if plant.gain >= GAIN and not comment:
                    found.setdefault((plant.start, plant.end, plant.new), plant)
    return list(found.values())


def lemma_of(text, plant, new, name):
    """The declaration of a plant under another name, with a new text in its place: its recursion is its own."""
    declaration = plant.declaration
    whole = text[declaration.start:plant.start] + new + text[plant.end:declaration.end]
    whole = re.sub(r'\A( *)pub ', r'\1', whole)
    return re.sub(rf"(?<![\w'\-.]){re.escape(declaration.name)}(?![\w'\-])", name, whole)


def with_imports(text):
    """A file with the imports that its tactics need."""
    used, body = imports(text)
    lines = [line for word, line in NEEDED.items() if named(word, body) and not named(word, used)]
    place = re.search(r'^use ', text, re.M)
    at = place.start() if place else 0
    return text[:at] + ''.join(f'{line}\n' for line in lines) + text[at:]


def planted(text, found, first):
    """A file with these plants, each as a lemma beside its own. They are numbered from `first`; after them comes one
    that is false, with the number after theirs: if that is not refused, the file was not read."""
    beside = {}
    for number, plant in enumerate(found, first):
        plant.number = number
        lemma = lemma_of(text, plant, plant.tried(), f'plant-{number}')
        beside.setdefault(plant.declaration.end, []).append(lemma)
    for place in sorted(beside, reverse=True):
        text = text[:place] + ''.join(f'\n\n{lemma}' for lemma in beside[place]) + text[place:]
    return with_control(with_imports(text), first + len(found))


def with_control(text, number):
    """A file with a false lemma of this number at its end, which the prover must refuse."""
    name = f'plant-{number}'
    return f'{text.rstrip()}\n\npub {name} : ⊥\n{name} = tt\n'


def best(found):
    """Of the plants that pass those that together save most: no two meet."""
    found = sorted((plant for plant in found if plant.passes and plant.gain > 0), key=lambda plant: plant.end)
    ends = [plant.end for plant in found]
    chosen = [(0, [])]
    for at, plant in enumerate(found):
        before = chosen[bisect.bisect_right(ends, plant.start, 0, at)]
        with_it = before[0] + plant.gain, [*before[1], plant]
        chosen.append(max(chosen[-1], with_it, key=lambda pair: pair[0]))
    return chosen[-1][1]


def applied(text, chosen):
    """A file with these plants in the place of what they replace."""
    for plant in sorted(chosen, key=lambda plant: plant.start, reverse=True):
        text = text[:plant.start] + plant.new + text[plant.end:]
    return with_imports(text)
