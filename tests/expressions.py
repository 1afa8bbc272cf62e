"""Random expressions, valued apart from the program after docs/LANGUAGE.md: sources of DW lines whose words or faults
are known.
"""
import random

import objects

LINES = 300
PREFIXES = {
    '+': lambda x: x, '-': lambda x: -x, 'HIGH': lambda x: x // 256, 'LOW': lambda x: x % 256, 'NOT': lambda x: ~x,
}
OPERATORS = {
    '*': lambda x, y: x * y, '/': lambda x, y: x // y, 'MOD': lambda x, y: x % y,
    'SHL': lambda x, y: x << y if y < 16 else 0, 'SHR': lambda x, y: x >> y if y < 16 else 0,
    '+': lambda x, y: x + y, '-': lambda x, y: x - y,
    'EQ': lambda x, y: -(x == y), 'NE': lambda x, y: -(x != y), 'LT': lambda x, y: -(x < y),
    'LE': lambda x, y: -(x <= y), 'GT': lambda x, y: -(x > y), 'GE': lambda x, y: -(x >= y),
    'AND': lambda x, y: x & y, 'OR': lambda x, y: x | y, 'XOR': lambda x, y: x ^ y,
}
# The operators of each rank, the tightest first, and whether they stand before an operand.
RANKS = [
    ('.', False), ('+ - HIGH LOW', True), ('* / MOD SHL SHR', False), ('+ -', False), ('EQ NE LT LE GT GE', False),
    ('NOT', True), ('AND', False), ('OR XOR', False),
]
REGISTERS = {'P1': 0x90, 'ACC': 0xE0, 'B': 0xF0, 'SBUF': 0x99, 'TR0': 0x8C, 'AR3': 3}


class Fault(Exception):
    """The number of a fault, as E9."""


def bit_of(byte, number):
    if number <= 7 and 0x20 <= byte <= 0x2F:
        return 8 * (byte - 0x20) + number
    if number <= 7 and 0x80 <= byte <= 0xF8 and byte % 8 == 0:
        return byte + number
    raise Fault('E10')


def value_of(tree):
    """The number of a tree: a number, or an operator with its operands; faults come from left to right."""
    if isinstance(tree, int):
        return tree
    operator, *operands = tree
    values = [value_of(operand) for operand in operands]
    if operator == '.':
        return bit_of(*values)
    if operator in ('/', 'MOD') and values[1] == 0:
        raise Fault('E9')
    return (PREFIXES if len(values) == 1 else OPERATORS)[operator](*values) % 65_536


def number(rng):
    """A number or what stands for one, and its text."""
    value = rng.choice([rng.randrange(65_536), rng.randrange(64), rng.randrange(8), 0x20 + rng.randrange(16)])
    name = rng.choice(sorted(REGISTERS))
    pair = ''.join(rng.choice('AZaz09?') for _ in range(rng.randint(1, 2)))
    return rng.choice([
        (value, str(value)), (value, f'{value}D'), (value, f'0{value:X}H'), (value, f'{value:x}h'.zfill(6)),
        (value, f'{value:o}O'), (value, f'{value:o}q'), (value, f'{value:b}B'), (REGISTERS[name], name),
        (int.from_bytes(pair.encode(), 'big'), f"'{pair}'"),
    ])


def joined(rng, *parts):
    """The parts of an expression, with blanks where words would touch."""
    text = ''
    for part in parts:
        touches = text[-1:].isalnum() and part[:1].isalnum()
        text += (' ' if touches or rng.random() < 0.2 else '') + part
    return text


def expression(rng, rank=len(RANKS)):
    """A tree whose operators have that rank or a tighter one, and its text."""
    if rank == 0:
        if rng.random() < 0.25:
            tree, text = expression(rng)
            return tree, f'({text})'
        return number(rng)
    operators, stands_before = RANKS[rank - 1]
    if rng.random() > (0.1 if rank == 1 else 0.2):
        return expression(rng, rank - 1)
    operator = rng.choice(operators.split())
    if stands_before:
        tree, text = expression(rng, rank)
        return (operator, tree), joined(rng, operator, text)
    left, front = expression(rng, rank)
    right, back = expression(rng, rank - 1)
    return (operator, left, right), joined(rng, front, operator, back)


def lines_of(rng):
    """Lines of DW with the word of each, or its fault."""
    while True:
        tree, text = expression(rng)
        if len(text) < 200:
            try:
                yield f'DW {text}', value_of(tree)
            except Fault as fault:
                yield f'DW {text}', str(fault)


def drawn(rng, count, is_wanted):
    found = []
    for line, answer in lines_of(rng):
        if is_wanted(answer):
            found.append((line, answer))
            if len(found) == count:
                return found


def words_case(start):
    """A source without a fault: the HEX file has its words."""
    rows = drawn(random.Random(start), LINES, lambda answer: isinstance(answer, int))
    text = '\n'.join(['CSEG AT 0', *(line for line, _ in rows), 'END', ''])
    wanted = b''.join(answer.to_bytes(2, 'big') for _, answer in rows)

    def is_right(ran):
        return ran[0] in (0, 1) and objects.read_hex(ran[2]['a.hex']) == dict(enumerate(wanted))

    words = ['build', '--steps', '1', '--hex', 'a.hex', 'a.a51']
    return f'expressions from {start}', words, {'a.a51': text.encode()}, is_right


def faults_case(start):
    """A source in which every second line has a fault, and all of them are told."""
    rng = random.Random(start)
    right = drawn(rng, LINES // 5, lambda answer: isinstance(answer, int))
    wrong = drawn(rng, LINES // 5, lambda answer: isinstance(answer, str))
    lines = [line for pair in zip(right, wrong) for line, _ in pair]
    text = '\n'.join(['CSEG AT 0', *lines, 'END', ''])
    told = ''.join(f'a.a51({2 * at + 3}): {answer}\n' for at, (_, answer) in enumerate(wrong))
    files = {'a.a51': text.encode()}
    words = ['build', '--steps', '1', 'a.a51']
    return f'faults of expressions from {start}', words, files, lambda ran: ran == (3, told.encode(), files)


CASES = [*(words_case(start) for start in range(4)), *(faults_case(start) for start in range(4, 6))]
