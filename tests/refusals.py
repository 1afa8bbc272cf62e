"""Damaged objects, libraries and HEX files, with what the program must print of each: a name, the words, the files, and
a test of the answer. The answers are those of objects.py, which reads these files apart from the program.
"""
import objects
from objects import ABSOLUTE, BYTE, CODE, DATA, IDATA, UNIT, WORD

# The module of the case echo, coded by hand from its source.
ECHO_SEGMENTS = [
    (IDATA, UNIT, 32, '?STACK'), (CODE, UNIT, 40, '?PR?MAIN'),
    (CODE, UNIT, 5, '?PR?CONV'), (DATA, UNIT, 1, '?DT?CONV', 0, 1),
    (CODE, UNIT, 11, '?PR?SEND'), (DATA, UNIT, 1, '?DT?SEND', 0, 1),
    (CODE, UNIT, 7, '?PR?TICK'), (DATA, UNIT, 1, '?DT?TICK', 0, 1),
    (CODE, ABSOLUTE, 3, '', 0), (CODE, ABSOLUTE, 3, '', 0x0B),
]
ECHO_PIECES = [
    (2, 0, '758100 758921 758DFD 758BFD 759850 758CFF 75A882 D28E D28C 3098FD C298 E599 120000 120000 80F1'),
    (3, 0, 'F500 54DF 22'), (5, 0, 'F500 850099 3099FD C299 22'), (7, 0, 'F500 B290 E500 32'),
    (9, 0, '020000'), (10, 0, '020000'),
]
ECHO_FIXUPS = [
    (2, 2, BYTE, 1, -1), (2, 33, WORD, 3), (2, 36, WORD, 5), (3, 1, BYTE, 4), (5, 1, BYTE, 6), (5, 3, BYTE, 6),
    (7, 1, BYTE, 8), (7, 5, BYTE, 8), (9, 1, WORD, 2), (10, 1, WORD, 7),
]
ECHO = b''.join([
    objects.header('ECHO'), *[objects.segment(*row) for row in ECHO_SEGMENTS],
    *[objects.piece(*row) for row in ECHO_PIECES], *[objects.fixup(*row) for row in ECHO_FIXUPS], objects.end('ECHO'),
])

# MOV P1,#55H and SJMP $ at 0000H.
PORT = '75905580FE'


def small(version):
    program = objects.segment(CODE, ABSOLUTE, 5) + objects.piece(1, 0, PORT)
    return objects.header('A', version) + program + objects.end('A')


SMALL, SMALL_RAISED = small(1), small(2)

# A has the small object's program and the public F; B has an external, an argument segment and fixups.
PUBLIC_OF_A = [
    objects.header('A'), objects.segment(CODE, ABSOLUTE, 5), objects.public(CODE, 1, 3, 'F'), objects.piece(1, 0, PORT),
    objects.end('A'),
]
CALLER = [
    objects.header('B', 2), objects.segment(CODE, UNIT, 6, '?PR?B'), objects.segment(DATA, UNIT, 1, '?AG?B', 0, 3),
    objects.external(CODE, 'F'), objects.public(CODE, 1, 0, 'B'), objects.piece(1, 0, 'F500 120000 22'),
    objects.fixup(1, 1, BYTE, 2), objects.fixup(1, 3, WORD, 1, is_external=True), objects.end('B', 3),
]
PAIR = objects.library(b''.join(PUBLIC_OF_A), b''.join(CALLER))

HEX = ''.join(line + '\n' for line in [
    objects.hex_record(0, PORT), objects.hex_record(0xFFF0, '9A BC DE'), objects.hex_record(0, '', 1),
]).encode()

# The small object with one byte more by one: the places of the byte, and the refusal.
SMALL_PLUS_ONE = """
0: O3 AT 0
1: O2 RECORD 0 FOUND 0E NEEDED FF
2: O1 AT 38
3-5: O2 RECORD 0 FOUND B7 NEEDED B6
6: O2 RECORD 0 FOUND B8 NEEDED B7
7: O3 AT 7
8: O2 RECORD 1 FOUND 06 NEEDED FF
9: O1 AT 38
10-17: O2 RECORD 1 FOUND E4 NEEDED E3
18: O2 RECORD 1 FOUND E5 NEEDED E4
19: O3 AT 19
20: O2 RECORD 2 FOUND 04 NEEDED FF
21: O1 AT 38
22-29: O2 RECORD 2 FOUND 18 NEEDED 17
30: O2 RECORD 2 FOUND 19 NEEDED 18
31: O3 AT 31
32-33: O1 AT 38
34-36: O2 RECORD 3 FOUND B5 NEEDED B4
37: O2 RECORD 3 FOUND B6 NEEDED B5
"""


def fronts(data):
    """Each front of the bytes that is not the whole."""
    for size in range(len(data)):
        yield f'the first {size} bytes', data[:size]


def plus_one(data):
    for at in range(len(data)):
        yield f'byte {at} plus one', data[:at] + bytes([(data[at] + 1) % 256]) + data[at + 1:]


def mended(data):
    """Each byte of the contents of a record plus one, with the right checksum."""
    begin = 0
    while begin < len(data):
        last = begin + 2 + int.from_bytes(data[begin + 1:begin + 3], 'little')
        for at in range(begin + 3, last):
            changed = bytearray(data)
            changed[at] = (changed[at] + 1) % 256
            changed[last] = -sum(changed[begin:last]) % 256
            yield f'byte {at} plus one, with its checksum', bytes(changed)
        begin = last + 1


def named_rows(text):
    """The refusal of each place of a table."""
    for row in text.split('\n')[1:-1]:
        places, answer = row.split(': ')
        first, _, last = places.partition('-')
        for place in range(int(first), int(last or first) + 1):
            yield place, answer


def is_refused(name, why, files):
    """Whether an answer is the refusal of that file, with no file changed."""
    return lambda answer: answer == (5, f'OBJECT {name}: {why}\n'.encode(), files)


def object_case(label, data):
    """An object that is put into a library: the library, or the refusal."""
    files, why = {'a.obj': data}, objects.object_refusal(data)
    kept = {**files, 'l.lib': objects.library(data)}
    right = is_refused('a.obj', why, files) if why else lambda answer: answer == (0, b'', kept)
    return label, ['lib', 'build', 'l.lib', 'a.obj'], files, right


def library_case(label, data):
    """A library whose modules are listed."""
    files, why = {'l.lib': data}, objects.library_refusal(data)
    names = '' if why else ''.join(f'{module.name.decode()}\n' for module in objects.read_library(data))
    right = is_refused('l.lib', why, files) if why else lambda answer: answer == (0, names.encode(), files)
    return label, ['lib', 'list', 'l.lib'], files, right


def hex_case(label, data):
    """A HEX file that is run. What is accepted here has the bytes of the whole file, or no program at all."""
    files, why = {'a.hex': data}, objects.hex_refusal(data)
    run = (0, b'RUN\n0 P1 55\nEND 2 STEPS 4 CYCLES\n', files)
    right = is_refused('a.hex', why, files) if why else lambda answer: answer == run
    return label, ['flat', '--steps', '2', 'a.hex'], files, right


def link_case(label, name, data, why):
    """The same refusal where the file is linked."""
    files = {name: data}
    return f'{label}, linked', ['build', '--steps', '1', name], files, is_refused(name, why, files)


def damages(title, data, ways, case_of):
    return [case_of(f'{title}: {label}', damaged) for way in ways for label, damaged in way(data)]


def small_table():
    """The small object's table, which does not come from objects.py."""
    damaged = list(plus_one(SMALL))
    rows = [(*damaged[place], why) for place, why in named_rows(SMALL_PLUS_ONE)]
    return [link_case(f'small object: {label}', 'a.obj', data, why) for label, data, why in rows]


def echo_table():
    """Each front of the object of echo ends too early."""
    return [link_case(f'echo: {label}', 'echo.obj', data, f'O1 AT {len(data)}') for label, data in fronts(ECHO)]


CASES = [
    *small_table(), *echo_table(),
    *damages('small object', SMALL, [fronts, plus_one, mended], object_case),
    *damages('echo', ECHO, [fronts, plus_one, mended], object_case),
    *damages('library of two', PAIR, [fronts, plus_one, mended], library_case),
    *damages('HEX file', HEX, [fronts, plus_one], hex_case),
    *damages('HEX file with CR LF', HEX.replace(b'\n', b'\r\n'), [fronts, plus_one], hex_case),
]
