"""A source that is ported: edits line by line, each noted with its line, and what a person must decide.

What every dialect needs is here: texts, numbers, controls, names of registers, END (docs/PORTING.md).
"""
import re
import zlib

from guesses import MOST_OF_NAME
from reserved import MNEMONICS, RESERVED

# A text in either kind of quotes, a comment, or what is between them.
PIECE = re.compile(r'"[^"]*"|\'(?:\'\'|\\.|[^\'])*\'|;.*|[^"\';]+|["\']')
ESCAPES = {'\\0': '0', '\\n': '10', '\\r': '13', '\\t': '9'}
KNOWN_CONTROLS = ('INCLUDE', 'MOD51', 'NOMOD51', 'TITLE', 'LIST', 'NOLIST', 'DEBUG', 'NODEBUG', 'EJECT', 'IF', 'ELSEIF',
                  'ELSE', 'ENDIF', 'SET', 'RESET')
REGISTER = re.compile(r'\s*([A-Za-z_]\w*)\s+(?:EQU|REG|SET)\s+(R[0-7]|@R[01]|A|DPTR)\s*$', re.I)
NAME = re.compile(r'[A-Za-z_?][\w?]*')
# How much of a longer name is kept.
BEGIN_OF_NAME = 24
WITH_BYTES = re.compile(r'\s*(?:[\w?]+\s*:)?\s*(?:DB|DW|DS|' + '|'.join(MNEMONICS) + r')\b', re.I)
ORG = re.compile(r'\s*(?:\w+:)?\s*ORG\b', re.I)
BEGINS_BODY, ENDS_BODY = re.compile(r'\b(?:MACRO|REPT|IRPC?)\b', re.I), re.compile(r'\s*ENDM\b', re.I)
BEGINS_SEGMENT = re.compile(r'\s*(?:[CDXIB]SEG|RSEG)\b', re.I)
LEFT = (
    (re.compile(r'<<|>>|[|&~^]|!='), 'a sign for an operator: SHL, SHR, OR, AND, NOT, XOR, NE, HIGH(..), LOW(..)'),
    (re.compile(r'^\s*(?:\w+:)?\s*\.\w+'), 'a directive with a dot that has no rule'),
    (re.compile(r'^\s*\$(?:INCLUDE|IC)\b', re.I), 'the include is an argument of m51, under the same name'),
    (re.compile(r'\bJMP\s+@A\+DPTR', re.I), 'a computed jump: OVERLAY(unit > target) in a control file'),
)


def pieces(line):
    """The pieces of a line: texts, the comment, and what is between them."""
    return PIECE.findall(line)


def code_of(line):
    """A line without its texts and its comment."""
    return ''.join(part for part in pieces(line) if part[0] not in '"\';')


def outside(line, change):
    """A line whose pieces outside texts and comments are changed."""
    return ''.join(part if part[0] in '"\';' else change(part) for part in pieces(line))


def number(found):
    """0x1F as 01FH."""
    return '0' + found[1].upper() + 'H'


def quoted(text):
    """A text of double quotes in single ones; escapes become numbers."""
    parts = re.split(r'(\\[0nrt])', text[1:-1].replace("'", "''"))
    return ','.join(ESCAPES.get(part) or f"'{part}'" for part in parts if part) or "''"


def short_name(name):
    """A name of at most 31 characters. Of a longer one these are its first 24, and six digits that are of the whole
    name, so that it is the same in each source."""
    if len(name) <= MOST_OF_NAME:
        return name
    return f'{name[:BEGIN_OF_NAME]}_{zlib.crc32(name.upper().encode()) & 0xFFFFFF:06X}'


class Port:
    """A source that is ported: its lines, what was changed in which, and what is left to decide."""

    def __init__(self, text):
        self.lines = text.replace('\r\n', '\n').splitlines()
        # `before` counts the lines that come before the first of the source.
        self.changed, self.left, self.before = {}, [], 0

    def put_first(self, what, head):
        """Puts lines before all others."""
        self.lines, self.before = head + self.lines, self.before + len(head)
        for numbers in self.changed.values():
            numbers[:] = [number + len(head) for number in numbers]
        self.left = [(number + len(head), why) for number, why in self.left]
        if head:
            self.changed[what] = list(range(1, len(head) + 1))

    def above_first_org(self):
        """The place of the first ORG, if bytes are above it that no other line has placed; else 0."""
        has_bytes, depth = False, 0
        for at, line in enumerate(self.lines, 1):
            depth += bool(BEGINS_BODY.search(code_of(line))) - bool(ENDS_BODY.match(line))
            if ORG.match(line):
                return at if has_bytes else 0
            if BEGINS_SEGMENT.match(line):
                return 0
            has_bytes |= bool(not depth and WITH_BYTES.match(line))
        return 0

    def rule(self, what, change):
        """Applies a rule to each line."""
        for at, line in enumerate(self.lines):
            made = change(line)
            if made != line:
                self.changed.setdefault(what, []).append(at + 1)
                self.lines[at] = made

    def replace(self, what, pattern, new):
        """Replaces a pattern outside texts and comments."""
        self.rule(what, lambda line: outside(line, lambda part: re.sub(pattern, new, part, flags=re.I)))

    def plain(self):
        """What every dialect needs at last: plain ASCII, known controls, and END."""
        self.rule('a byte order mark or the byte 1AH is taken out', lambda line: line.strip('\ufeff\x1a').replace(
            '\xef\xbb\xbf', ''))
        self.rule('a comment becomes plain ASCII', lambda line: ''.join(
            part.encode('ascii', 'replace').decode() if part[0] == ';' else part for part in pieces(line)))
        self.rule('a name of over 31 characters becomes 24 of them with six digits', lambda line: line if (
            line.lstrip()[:1] == '$') else outside(
                line, lambda part: re.sub(r'(?<![\w?])' + NAME.pattern, lambda found: short_name(found[0]), part)))
        self.rule('a control comes to the first column, or becomes a comment if m51 has none of it', self.control)
        self.registers()
        if not any(re.match(r'\s*(?:\w+:\s*)?END\b', code_of(line), re.I) for line in self.lines):
            self.lines.append('        END')
            self.changed['END at the end'] = [len(self.lines)]
        self.decide()

    @staticmethod
    def control(line):
        if re.match(r'\s*(?:nolist|list)\s*(?:;.*)?$', line, re.I):
            return '; ' + line.strip()
        found = re.match(r'\s*\$\s*(\w+)', line)
        if not found or found[1].upper() in KNOWN_CONTROLS:
            return line.lstrip() if found else line
        return '; ' + line.strip()

    def registers(self):
        """Names of registers become the registers."""
        names = {}
        for line in self.lines:
            found = REGISTER.match(code_of(line))
            if found:
                names[found[1].upper()] = found[2]

        def change(line):
            if REGISTER.match(code_of(line)):
                return '; ' + line.strip()
            return outside(line, lambda part: NAME.sub(lambda word: names.get(word[0].upper(), word[0]), part))

        if names:
            self.rule('a name of a register becomes the register', change)

    def texts(self):
        self.rule('a text in double quotes, or with escapes of C, is written as m51 takes it', lambda line: ''.join(
            quoted(part) if part[0] == '"' and len(part) > 1 or part[0] == "'" and '\\' in part else part
            for part in pieces(line)))

    def numbers(self):
        self.replace('a number of C is written as 1FH or 101B', r'\b0x([0-9a-f]+)\b', number)
        self.replace('a number of C is written as 1FH or 101B', r'\b0b([01]+)\b', r'\1B')

    def decide(self):
        """Notes what is left for a person."""
        places = [at for at, line in enumerate(self.lines, 1) if ORG.match(line)]
        if len(places) > 1:
            self.note(places[1], f'{len(places)} ORG: each begins a unit. Parts that jump to each other need `DS x-$`, '
                                 'and vectors of interrupts CSEG AT (PORTING, "ORG")')
        above = self.above_first_org()
        if above and re.search(r'(?i)\bORG\s+0+H?\s*$', code_of(self.lines[above - 1])):
            self.note(above, 'the lines above have these addresses too (L9): one of both is elsewhere')
        for at, line in enumerate(self.lines, 1):
            code = code_of(line)
            for pattern, why in LEFT:
                if pattern.search(code):
                    self.note(at, why)
            found = re.match(r'\s*([A-Za-z_?][\w?]*)\s*(?::|\b(?:EQU|SET|DATA|BIT)\b)', code, re.I)
            if found and found[1].upper() in RESERVED:
                self.note(at, f'{found[1]} is a word of the language and can be no name')
            if not code.isascii() or any(not part.isascii() for part in pieces(line) if part[0] in '"\''):
                self.note(at, 'a letter with an accent outside a comment')

    def note(self, line, why):
        self.left.append((line, why))
