"""Random control files, read apart from the program after docs/LINKER.md: of each the first line that has no form."""
import random
import re

COUNT = 300
SOURCE = b'CSEG AT 0\nSJMP $\nEND\n'
NAME = r'[A-Z?_][A-Z0-9?_]{0,30}'
UNIT, NUMBER = rf'(?:{NAME}|@[0-9A-F]{{4}})', r'([0-9][0-9A-Z]*)'
CLASS = '(?:BITADDRESSABLE|BIT|DATA|IDATA|XDATA|CODE)'


def form(*parts):
    """The parts with blanks between them, in either case."""
    return re.compile(r'[ \t]*'.join(parts), re.I | re.A)


FORMS = [
    form('OVERLAY', r'\(', UNIT, '[>~]', UNIT, rf'(?:,[ \t]*{UNIT}[ \t]*)*\)'), form('NOOVERLAY', r'\(', UNIT, r'\)'),
    form('ORDER', r'\(', CLASS, rf'(?:,[ \t]*{NAME}[ \t]*)+\)'),
]
RESERVE = form('RESERVE', r'\(', '(DATA|XDATA)', r'\(', NUMBER, '-', NUMBER, r'\)', r'\)')
BASES = {'H': (16, '[0-9A-F]+'), 'B': (2, '[01]+'), 'O': (8, '[0-7]+'), 'Q': (8, '[0-7]+'), 'D': (10, '[0-9]+')}


def number_of(text):
    """The number that a row of letters and digits writes, or none."""
    base, digits = BASES.get(text[-1].upper(), (10, '[0-9]+'))
    row = text[:-1] if text[-1].upper() in BASES else text
    return int(row, base) if re.fullmatch(digits, row, re.I) and int(row, base) <= 0xFFFF else None


def has_form(line):
    if len(line) > 255:
        return False
    found = RESERVE.fullmatch(line)
    if not found:
        return any(it.fullmatch(line) for it in FORMS)
    low, high = number_of(found[2]), number_of(found[3])
    if low is None or high is None or low > high:
        return False
    return high <= 0xFF if found[1].upper() == 'DATA' else high - low < 65_535


def refused_line(lines):
    rows = (number for number, line in enumerate(lines, 1) if line.strip(' \t') and not line.startswith(';'))
    return next((number for number in rows if not has_form(lines[number - 1])), None)


def drawn_line(rng):
    def name():
        return 'X' * 32 if rng.random() < 0.01 else rng.choice(['?PR?MAIN', 'A', 'mov', '_9', '?', 'X' * 31])

    def unit():
        return rng.choice([name(), name(), '@0000', '@00fF'])

    def number(least, most):
        value = rng.randint(least, most)
        texts = [f'{value}', f'0{value:X}H', f'0{value:x}h', f'{value:b}B', f'{value:o}O', f'{value:o}q', f'{value}D']
        return rng.choice(texts), value

    def names(draw):
        return [part for _ in range(rng.randint(1, 4)) for part in (',', draw())]

    kind, most = rng.choice([('DATA', 0xFF), ('xdata', 0xFFFF), ('DATA', 0x101)])
    low, value = number(0, most)
    high, _ = number(value, most)
    forms = [
        ['OVERLAY', '(', unit(), rng.choice('>~'), *names(unit)[1:], ')'], ['NoOverlay', '(', unit(), ')'],
        ['RESERVE', '(', kind, '(', low, '-', high, ')', ')'],
        ['order', '(', rng.choice(['BIT', 'DATA', 'BITADDRESSABLE', 'code', 'NUMBER']), *names(name), ')'],
    ]
    blanks = ['', ''] if rng.random() < 0.5 else ['', ' ', '\t', '  ']
    text = ''.join(part + rng.choice(blanks) for part in rng.choice(forms)).rstrip()
    return text if rng.random() < 0.8 else rng.choice(['', ' \t', '; \x01', ' ;', text + ' '])


def drawn(rng):
    """Up to five lines, often with one character changed, and sometimes a long one."""
    lines = [drawn_line(rng) for _ in range(rng.randint(1, 5))]
    at = rng.randrange(len(lines))
    if rng.random() < 0.4:
        place = rng.randint(0, len(lines[at]))
        lines[at] = lines[at][:place] + rng.choice(' 09AHgx?_@,()->~;.') + lines[at][place + rng.randrange(2):]
    if rng.random() < 0.05:
        lines.append('OVERLAY(A > B' + ',C' * 120 + ' ' * rng.choice([1, 2]) + ')')
    return lines


def case(number):
    rng = random.Random(number)
    lines = drawn(rng)
    text = rng.choice(['\n', '\r\n']).join([*lines, ''] if rng.random() < 0.7 else lines)
    refused = refused_line(lines)
    told = f'CONTROL LINE {refused}: C1\n'.encode()
    begins = {0: b'SEGMENTS\n', 4: b'LINK '}
    files = {'a.a51': SOURCE, 'c': text.encode()}
    words = ['build', '--control', 'c', '--steps', '1', 'a.a51']

    def is_right(ran):
        return ran[:2] == (6, told) if refused else ran[0] in begins and ran[1].startswith(begins[ran[0]])

    return f'control file {number}', words, files, is_right


CASES = [case(number) for number in range(COUNT)]
