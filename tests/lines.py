"""Random lines, cut into tokens apart from the program after docs/LANGUAGE.md: of each the fault of its bytes, its
length, its tokens or its control, or that it has none of these. And random lines that have no expression in their form
and are out of it: whether an expression is missing in them."""
import random
import re

from expressions import RANKS
from links import text_of

COUNT = 60
LINES = 60
NAME, NUMBER = re.compile(r'[A-Za-z?_][A-Za-z0-9?_]*'), re.compile(r'[0-9][A-Za-z0-9]*')
TEXT = re.compile(r"'(?:[^']|'')*'")
BASES = {'H': (16, '[0-9A-F]+'), 'B': (2, '[01]+'), 'D': (10, '[0-9]+'), 'O': (8, '[0-7]+'), 'Q': (8, '[0-7]+')}
SIGNS = ',:+-*/()#@.$'
WORDS = 'MOD51|NOMOD51|TITLE|LIST|NOLIST|DEBUG|NODEBUG|EJECT'
INNER = r'[ \t]*\([^);]+\)'
CONTROL = re.compile(rf'\$(?:(?P<include>INCLUDE){INNER}|TITLE{INNER}|(?:{WORDS}))[ \t]*(?:;.*)?', re.I)


def number_is_right(run):
    base, digits = BASES.get(run[-1].upper(), (10, '[0-9]+'))
    front = run[:-1] if run[-1].upper() in BASES else run
    return bool(re.fullmatch(digits, front, re.I)) and int(front, base) <= 0xFFFF


def token_fault(line):
    """The leftmost fault of a token, or none."""
    at = 0
    while at < len(line) and line[at] != ';':
        name, number, text = (form.match(line, at) for form in (NAME, NUMBER, TEXT))
        if line[at] == "'" and not text:
            return 2
        if name and len(name[0]) > 31:
            return 4
        if number and not number_is_right(number[0]):
            return 3
        found = name or number or text
        if not found and line[at] not in SIGNS + ' \t':
            return 1
        at = found.end() if found else at + 1
    return None


def fault_of(line):
    """The fault that a line has by its bytes, its length, its tokens or as a control, or none."""
    if any(byte != '\t' and not ' ' <= byte <= '~' for byte in line):
        return 18
    if len(line) > 255:
        return 5
    if line.startswith('%'):
        return 12
    if not line.startswith('$'):
        return token_fault(line)
    control = CONTROL.fullmatch(line)
    return 12 if not control else 17 if control['include'] else None


def number(rng):
    kinds = ['01', '01234567', '0123456789', '0123456789', '0123456789ABCDEFabcdef']
    digits = ''.join(rng.choices(rng.choice(kinds), k=rng.randint(0, 5)))
    return rng.choice('0129') + digits + rng.choice(['', 'H', 'h', 'B', 'D', 'O', 'q', '_', 'X'])


def part(rng):
    draws = [lambda: 'A' * rng.choice([1, 5, 31, 32]), lambda: number(rng), lambda: number(rng), lambda: number(rng),
             lambda: rng.choice(["'ab'", "''", "'it''s'", "'a;b'", "'", "'''"]), lambda: rng.choice(SIGNS),
             lambda: rng.choice(SIGNS), lambda: rng.choice(['MOV', 'DB', 'X?', '_9', '? ']), lambda: ' ', lambda: '\t']
    odd = rng.choice(['^', '%', '"', '=', '<', '\x01', '\x7f', '\x0c', '!', ';', ';\x1a', '~', ' ' * 240])
    return odd if rng.random() < 0.06 else rng.choice(draws)()


def control(rng):
    """A control in either case, often with a part changed."""
    name = rng.choice([*WORDS.split('|'), 'TITLE', 'INCLUDE', 'INCLUDE', 'INCLUDES'])
    inner = rng.choice(['(a.inc)', ' (x y)', '()', '(a;b)', '(a', ''])
    text = '$' + (name if rng.random() < 0.5 else name.lower()) + (inner if rng.random() < 0.6 else '')
    return text + rng.choice(['', ' ', '\t; a comment', ';^', ' x', ')'])


def drawn(rng):
    if rng.random() < 0.15:
        return control(rng)
    return ''.join(part(rng) for _ in range(rng.randint(1, 7))).replace('\n', '')


def is_right(ran, wanted):
    """Whether the faults of the lines are these, and each other line has at most one of its form."""
    status, text, _ = ran
    told = {int(line): int(fault) for line, fault in re.findall(r'a\.a51\((\d+)\): E(\d+)\n', text.decode())}
    by_form = {line: fault for line, fault in told.items() if wanted.get(line) is None}
    exact = all(told.get(line) == fault for line, fault in wanted.items() if fault)
    return status == 3 and exact and set(by_form.values()) <= {6, 11, 12}


def case(number):
    rng = random.Random(number)
    lines = ['^', *(drawn(rng) for _ in range(LINES))]
    wanted = {line: fault_of(text) for line, text in enumerate(lines, 1)}
    files = {'a.a51': text_of([*lines, 'END']).encode('latin-1')}
    return f'lines {number}', ['build', '--steps', '1', 'a.a51'], files, lambda ran: is_right(ran, wanted)


# What begins a line that has no expression in its form, and puts it out of its form.
BEGINNINGS = ['END X', 'CSEG X', 'BSEG )', 'RSEG X Y1', 'NAME X )', 'PUBLIC X Y1', 'EXTRN DATA (X) )',
              'S SEGMENT CODE X']
PREFIXES = ['+', '-', 'HIGH', 'LOW', 'NOT']
INFIXES = [word for operators, stands_before in RANKS if not stands_before for word in operators.split()]
OPERANDS = ['X', 'Y1', '$', '5', "'a'", "'ab'"]
LONG_TEXTS = ["'abc'", "''"]
PARTS = [*PREFIXES, *INFIXES, *OPERANDS, *OPERANDS, *LONG_TEXTS, 'A', 'MOV', *'@@##,,,(((()))):']


class Missing(Exception):
    """No expression begins where one is needed."""


def after_operand(tokens, at):
    if tokens[at] == '(':
        at = after_expression(tokens, at + 1)
        if tokens[at] != ')':
            raise Missing
    elif tokens[at] not in OPERANDS:
        raise Missing
    return at + 1


def after_expression(tokens, at, rank=len(RANKS)):
    """The index after the longest expression of a rank that begins at a token."""
    if rank == 0:
        return after_operand(tokens, at)
    operators, stands_before = RANKS[rank - 1]
    if stands_before and tokens[at] in operators.split():
        return after_expression(tokens, at + 1, rank)
    at = after_expression(tokens, at, rank - 1)
    while not stands_before and tokens[at] in operators.split():
        at = after_expression(tokens, at + 1, rank - 1)
    return at


def look_inside(tokens, at):
    """After a parenthesis of a list an expression begins, and further on the parenthesis is closed."""
    first, depth = at, 0
    while tokens[at] in PREFIXES:
        if tokens[at] == 'NOT' and at > first and tokens[at - 1] != 'NOT':
            raise Missing
        at += 1
    after_operand(tokens, at)
    for token in tokens[first:]:
        depth += (token == '(') - (token == ')')
        if depth < 0:
            return
    raise Missing


def look_through(tokens):
    """Raises Missing where no expression begins after a sign or an operator of a line without expressions."""
    at = 0
    while at < len(tokens) - 1:
        token = tokens[at]
        if token == '(':
            look_inside(tokens, at + 1)
        if token in LONG_TEXTS and tokens[at + 1] in INFIXES:
            raise Missing
        if token in OPERANDS or token in PREFIXES:
            at = after_expression(tokens, at)
        elif token in INFIXES or token == '#':
            at = after_expression(tokens, at + 1)
        else:
            at += 3 if token == '@' and tokens[at + 1:at + 3] == ['A', '+'] else 1


def defines_reserved(tokens):
    """Whether a reserved word is after a parenthesis of EXTRN, or after a comma inside one."""
    depth = 0
    for token, after in zip(tokens, tokens[1:]):
        depth = max(0, depth + (token == '(') - (token == ')'))
        if (token == '(' or token == ',' and depth) and after.isalpha() and after not in OPERANDS:
            return True
    return False


def fault_of_form(line):
    tokens = [*re.findall(r"'[^']*'|[A-Z0-9]+|\S", line), 'the end']
    if tokens[0] == 'EXTRN' and defines_reserved(tokens[:-1]):
        return 12
    try:
        look_through(tokens[3 if tokens[1] == 'SEGMENT' else 1:])
    except Missing:
        return 6
    return 12


def form_case(number):
    rng = random.Random(number)
    lines = [' '.join([rng.choice(BEGINNINGS), *rng.choices(PARTS, k=rng.randint(1, 5))]) for _ in range(LINES)]
    told = ''.join(f'a.a51({at}): E{fault_of_form(line)}\n' for at, line in enumerate(lines, 1))
    files = {'a.a51': text_of([*lines, 'END']).encode()}
    wanted = 3, told.encode(), files
    return f'forms of lines {number}', ['build', '--steps', '1', 'a.a51'], files, lambda ran: ran == wanted


CASES = [*(case(number) for number in range(COUNT)), *(form_case(number) for number in range(COUNT // 3))]
