"""Reads the declarations of a lemma file: their statements, their clauses, and where these are in the text."""
import re

# A word of a proof, or a bracket or a mark that stands by itself; and what is between them.
TOKEN = re.compile(r'"[^"\n]*"|\s+|--[^\n]*|\|\||[(){}\[\],;|]|[^\s(){}\[\],;|"]+')
WORD = re.compile(r"[^\s(){}\[\],;|\"]+")
# The first line of a declaration: its indent, its modifiers and its name.
BEGIN = re.compile(r'( *)((?:(?:abbrev|unfoldable|pub) )*)(?!--)([^\s:(){}]+) : ')
# Declarations that have no clauses, or whose clauses belong to several names.
OTHER = re.compile(r' *(?:(?:abbrev|pub) )*(?:record|data|mutual)\b')
TYPE = re.compile(r'^( *)((?:(?:abbrev|pub) )*)(?:record|data) ([^\s{]+)(?:.|\n)*?(?=\n\n|\Z)', re.M)
# Signs of a statement, where it isn't one by a name.
RELATION = re.compile('[≡≢≤<≥>⊎×⊥¬∃]')
# Files of proofs/ that are no lemma files.
NO_LEMMAS = ('Answers.antt', 'Invariants.antt', 'Proof.antt', 'Lib.antt', 'Common.antt')


class Unread(Exception):
    """A text that this reader does not know: the proof is left as it is."""


def flat(text):
    """A text on one line."""
    return ' '.join(text.split())


def words(text):
    """The words of a text, and of `record.field` the front too."""
    found = set(WORD.findall(text))
    return found | {word.split('.')[0] for word in found}


def named(name, text):
    """Whether a text has a name as a whole word."""
    return re.search(rf"(?<![\w'\-]){re.escape(name)}(?![\w'\-])", text) is not None


def tokens(text, start, end):
    """The tokens of a part of a text, without comments: each with its start and its end."""
    found = []
    while start < end:
        match = TOKEN.match(text, start, end)
        if not match:
            raise Unread(text[start:start + 20])
        if not match[0].isspace() and not match[0].startswith('--'):
            found.append((match[0], match.start(), match.end()))
        start = match.end()
    return found


def depths(text, start, end):
    """The tokens, each with the number of brackets round it: a bracket stands outside its own pair."""
    depth = 0
    for token in tokens(text, start, end):
        depth -= token[0] in ')]}'
        yield (depth, *token)
        depth += token[0] in '([{'


def arguments(text):
    """The words and the bracketed parts of an application, each as text."""
    found, begin = [], 0
    for depth, token, start, end in depths(text, 0, len(text)):
        if depth == 0 and token not in ')]}':
            begin = start
        if depth == 0 and token not in '([{':
            joined = token.startswith('.') and found and text[start - 1] == ')'
            found[-1:] = [found[-1] + token] if joined else [*found[-1:], text[begin:end]]
    return found


def outside_brackets(text):
    """A text without what its brackets hold."""
    while re.search(r'[({\[][^(){}\[\]]*[)}\]]', text):
        text = re.sub(r'[({\[][^(){}\[\]]*[)}\]]', ' ', text)
    return text


class Clause:
    """A clause `name pattern .. = body`, with its `where` part: places in the text. Unread if it has no body."""

    def __init__(self, text, start, end, indent):
        equals = [token for token in depths(text, start, end) if token[:2] == (0, '=')]
        if not equals:
            raise Unread('a clause without a body')
        where = re.compile(rf'\n {{{indent + 2}}}where\n').search(text, equals[0][3], end)
        self.start, self.end, self.head_end, self.body = start, end, equals[0][2], equals[0][3]
        self.where = where.start() if where else None
        self.body_end = where.start() if where else end
        self.inner = declarations(text, self.where, end) if where else []


class Declaration:
    """A declaration with clauses: its name, indent and modifiers, and the places of its parts in the text."""

    def __init__(self, text, begin, start, body, clauses):
        self.indent, self.modifiers, self.name = len(begin[1]), begin[2].split(), begin[3]
        self.start, self.body, self.end = start, body, clauses[-1][1]
        self.places = clauses
        self.signature = text[start:body]

    def result(self):
        """What the statement says under its hypotheses, without what is in brackets."""
        return re.split(r'→|\A[^:]* : ', outside_brackets(self.signature))[-1]

    def clauses(self, text):
        """The clauses that can be read."""
        found = []
        for start, end in self.places:
            try:
                found.append(Clause(text, start, end, self.indent))
            except Unread:
                pass
        return found


class Lines:
    """The lines of a part of a text, with their places."""

    def __init__(self, text, start, end):
        self.lines = text[start:end].split('\n')
        self.places = [start]
        for line in self.lines:
            self.places.append(self.places[-1] + len(line) + 1)

    def depth(self, row):
        """The indent of a line; None past the last one, and of an empty line."""
        line = self.lines[row] if row < len(self.lines) else ''
        return len(line) - len(line.lstrip()) if line.strip() else None

    def past(self, row, indent, closing=False, blank=False):
        """The first row from this one that is not deeper than the indent: with `closing` a line of the indent may
        begin with a bracket that closes, with `blank` empty lines belong to what they are in."""
        while row < len(self.lines):
            depth, line = self.depth(row), self.lines[row]
            if not (blank if depth is None else depth > indent or closing and depth == indent
                    and line.lstrip()[0] in ')]}'):
                break
            row += 1
        return row


def clause_places(lines, row, indent, name):
    """Where the clauses are that begin at a row, and the row after them."""
    found = []
    while row < len(lines.lines) and lines.lines[row].startswith(f'{" " * indent}{name} '):
        after = lines.past(row + 1, indent, closing=True, blank=True)
        last = after
        while not lines.lines[last - 1].strip():
            last -= 1
        found.append((lines.places[row], lines.places[last] - 1))
        row = after
    return found, row


def declarations(text, start=0, end=None):
    """The declarations with clauses in a part of a text. Those of a `mutual` block are left out."""
    lines = Lines(text, start, len(text) if end is None else end)
    found, row = [], 0
    while row < len(lines.lines):
        begin = BEGIN.match(lines.lines[row])
        if OTHER.match(lines.lines[row]):
            row = lines.past(row + 1, lines.depth(row), blank=True)
        elif not begin:
            row += 1
        else:
            first, indent = row, len(begin[1])
            row = body = lines.past(row + 1, indent)
            if lines.depth(row) == indent and lines.lines[row].lstrip().startswith('unfolding '):
                row = lines.past(row + 1, indent)
            places, row = clause_places(lines, row, indent, begin[3])
            if places:
                found.append(Declaration(text, begin, lines.places[first], lines.places[body], places))
    return found


def imports(text):
    """The lines of a file that import, as one text; and the others."""
    lines = text.split('\n')
    is_import = [re.match(r' *(?:pub )?use ', line) is not None for line in lines]
    return tuple('\n'.join(line for line, it in zip(lines, is_import) if it is which) for which in (True, False))


def lemma_files(crate):
    """The lemma files of the crate in a folder."""
    return sorted(path for path in (crate / 'proofs').rglob('*.antt') if path.name not in NO_LEMMAS)
