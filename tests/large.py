"""Programs at the limits, made here, with what each must answer: a name, the words, the files, and a test of the
answer.
"""
import objects


def lines(*parts):
    return ''.join(f'{part}\n' for part in parts).encode()


def is_refused(status, text):
    return lambda answer: answer[:2] == (status, text.encode())


def ends(status, last):
    return lambda answer: answer[0] == status and answer[1].endswith(last.encode())


def nested(levels):
    """A source whose includes lie so many levels deep."""
    files = {f'i{level}.inc': lines('NOP', f'$INCLUDE(i{level + 1}.inc)') for level in range(1, levels)}
    files[f'i{levels}.inc'] = lines('NOP')
    files['a.a51'] = lines('CSEG AT 0', '$INCLUDE(i1.inc)', 'SJMP $', 'END')
    return ['build', '--steps', '1', 'a.a51', *sorted(name for name in files if name.endswith('.inc'))], files


def segments(count):
    """A source of so many declared segments beside the opening one."""
    return {'a.a51': lines('NOP', 'SJMP $', *[f'S{k} SEGMENT XDATA' for k in range(count)], 'END')}


def procedures(count):
    """A source whose reset calls so many procedures, each of which goes through the same 61,900 instructions."""
    calls = [f'LCALL F{k}' for k in range(count)]
    begins = [f'F{k}: NOP' for k in range(count)]
    # DS leaves FFH, which is MOV R7,A.
    unit = ['P SEGMENT CODE UNIT', 'RSEG P', 'MAIN: MOV SP,#30H', *calls, 'W: SJMP W', *begins, 'DS 61900', 'RET']
    return ['stack', 'a.a51'], {'a.a51': lines('CSEG AT 0', 'LJMP MAIN', *unit, 'END')}


def fixups(count, *more):
    """A source with so many fixups of a byte, up to 120 in a line, in two segments, and more lines after them."""
    rows = [min(120, count - at) for at in range(0, count, 120)]
    half = len(rows) // 2
    lists = [f'DB {",".join(["X"] * row)}' for row in rows]
    declared = ['EXTRN XDATA (X)', 'S SEGMENT CODE', 'T SEGMENT CODE']
    return {'a.a51': lines(*declared, 'RSEG S', *lists[:half], 'RSEG T', *lists[half:], *more, 'END')}


def layers(count):
    """Two units in each layer, each of which calls both of the next; each has a local of one byte."""
    parts = []
    for depth in range(count):
        for side in 'AB':
            unit = f'{side}{depth}'
            parts += [f'?PR?{unit} SEGMENT CODE', f'?DT?{unit} SEGMENT DATA OVERLAYABLE', f'RSEG ?DT?{unit}',
                      f'V{unit}: DS 1', f'RSEG ?PR?{unit}', f'F{unit}: MOV V{unit},A']
            parts += [f'LCALL F{next_side}{depth + 1}' for next_side in 'AB'] if depth + 1 < count else []
            parts += ['RET']
    return {'a.a51': lines(*parts, 'CSEG AT 0', 'LCALL FA0', 'LCALL FB0', 'SJMP $', 'END')}


def is_ladder(answer):
    """Whether the two units of each layer share a byte, from 08H to 2FH, and the heaviest chain has one of each."""
    locals_ = [f'DATA  {8 + depth:04X} 0001 O ?DT?{side}{depth}\n' for depth in range(40) for side in 'AB']
    told = [*locals_, 'CHAIN @0000 40 @0000,?PR?A0,?PR?A1,', 'OVERLAID 40 BYTES\n']
    return all(line.encode() in answer[1] for line in told)


def chain_of(sizes):
    """Units of which each calls the next, with locals of these sizes."""
    parts = []
    for k, size in enumerate(sizes):
        parts += [f'?PR?U{k} SEGMENT CODE', f'?DT?U{k} SEGMENT DATA OVERLAYABLE', f'RSEG ?DT?U{k}', f'V{k}: DS {size}',
                  f'RSEG ?PR?U{k}', f'F{k}: MOV V{k},A']
        parts += [f'LCALL F{k + 1}'] if k + 1 < len(sizes) else []
        parts += ['RET']
    return {'a.a51': lines(*parts, 'CSEG AT 0', 'LCALL F0', 'SJMP $', 'END')}


def many_segments(count, kind, statement):
    """So many declared segments, up to 250 from a source, and one at the reset."""
    files = {'s.a51': lines('CSEG AT 0', 'SJMP $', 'END')}
    for first in range(0, count, 250):
        names = [f'X{number}' for number in range(first, min(count, first + 250))]
        parts = [part for name in names for part in (f'{name} SEGMENT {kind}', f'RSEG {name}', statement)]
        files[f's{first:04}.a51'] = lines(*parts, 'END')
    return ['build', '--steps', '1', *sorted(files)], files


def chosen(count):
    """A program that needs so many modules of a library."""
    names = [f'F{number}' for number in range(count)]
    wanted = b''.join(objects.external(objects.CODE, name) for name in names)
    loop = objects.segment(objects.CODE, objects.ABSOLUTE, 2) + wanted + objects.piece(1, 0, '80FE')
    given = [objects.header(name) + objects.public(objects.CODE, 0, 9, name) + objects.end(name) for name in names]
    files = {'a.obj': objects.header('A') + loop + objects.end('A'), 'l.lib': objects.library(*given)}
    return ['build', '--steps', '1', 'a.obj', 'l.lib'], files


def object_of(*records):
    """An object with these records, which is put into a library."""
    return ['lib', 'build', 'l.lib', 'a.obj'], {'a.obj': b''.join([objects.header('A'), *records, objects.end('A')])}


def single_units(count):
    """So many units of one byte, from 0000H on, whose bytes are FFH, in two sources."""
    parts = [[f'CSEG AT {at}', 'DS 1'] for at in range(count)]
    files = {name: lines(*sum(half, []), 'END') for name, half in (('a.a51', parts[::2]), ('b.a51', parts[1::2]))}
    return ['dis', *files], files


def disassembled(size):
    """One unit of so many bytes, each FFH."""
    return ['dis', 'a.a51'], {'a.a51': lines('CSEG AT 0', f'DS {size}', 'END')}


def controlled(*lines_of_file):
    """The loop with a control file."""
    return CONTROLLED, {'c': lines(*lines_of_file), **LOOP_SOURCE}


def wide_listing():
    """A source whose last line but one is that of a call far up, which has a fixup, and has five digits."""
    source = lines('EXTRN CODE (SEND)', 'CSEG AT 0FA0BH', *[''] * 65_531, ' LCALL SEND', 'END')
    return ASM, {'a.a51': source}


def is_in_order(answer):
    rows = [row.split() for row in answer[1].decode().splitlines() if row.startswith('XDATA')]
    return len(rows) == 1999 and all(int(row[1], 16) == 32 * k and row[4] == f'X{k}' for k, row in enumerate(rows))


def full_library(*more, raised=None):
    """A library of 255 modules, one of them raised, and the objects of modules of these names."""
    names = [f'M{k}' for k in range(255)]
    modules = [objects.header(name, 2 if name == raised else 1) + objects.end(name) for name in names]
    added = {f'{name}.obj': objects.header(name) + objects.end(name) for name in more}
    return {'l.lib': objects.library(*modules), **added}


def is_object(answer):
    """Whether an object is kept that can be read."""
    return answer[0] == 0 and objects.object_refusal(answer[2].get('a.obj', b'')) is None


BUILD = ['build', '--steps', '1', 'a.a51']
ASM = ['asm', '--out', 'a.obj', 'a.a51']
CONTROLLED, SCRIPTED = ['build', '--control', 'c', *BUILD[1:]], ['build', '--script', 's', *BUILD[1:]]
FLAT = ['flat', '--steps', '1', 'a.hex']
LOOP_SOURCE = {'a.a51': lines('CSEG AT 0', 'SJMP $', 'END')}
# A byte is awaited, and then shown with the levels of port 1.
RECEIVER = {'a.a51': lines('CSEG AT 0', 'MOV SCON,#0D0H', 'JNB RI,$', 'MOV P0,SBUF', 'MOV P2,P1', 'SJMP $', 'END')}
TIMED = {'s': b'PIN 7 P1 0F\nRX 7 41\n' * 32_768, **RECEIVER}
LOOP_HEX = lines(objects.hex_record(0, '80FE'), objects.hex_record(0, '', 1))
LAST = 'END 1 STEPS 1 CYCLES\n'
LOOP = 'RUN\nEND 1 STEPS 2 CYCLES\n'

LONG_RUN = b'UNITS 106\nOVERLAID 20 OF 256 BYTES\nENTRIES 166161\nEND 1000000 STEPS 1349233 CYCLES\n'

CASES = [
    ('65,535 lines', BUILD, {'a.a51': lines('NOP', 'SJMP $', *[''] * 65_532, 'END')}, ends(0, LAST)),
    ('65,536 lines', BUILD, {'a.a51': lines('NOP', 'SJMP $', *[''] * 65_533, 'END')},
     is_refused(3, 'a.a51(65536): E19\n')),
    ('includes to level 8', *nested(8), ends(0, LAST)),
    ('includes to level 9', *nested(9), is_refused(3, 'i8.inc(2): E17\n')),
    ('254 segments', BUILD, segments(253), ends(0, LAST)),
    ('255 segments', BUILD, segments(254), is_refused(3, 'a.a51(256): E19\n')),
    ('255 externals', ASM, {'a.a51': lines(*[f'EXTRN CODE (X{k})' for k in range(255)], 'END')},
     is_object),
    ('256 externals', ASM, {'a.a51': lines(*[f'EXTRN CODE (X{k})' for k in range(256)], 'END')},
     is_refused(3, 'a.a51(256): E19\n')),
    ('65,535 fixups', ASM, fixups(65_535), is_object),
    ('65,536 fixups', ASM, fixups(65_536), is_refused(3, 'a.a51(552): E19\n')),
    ('65,536 fixups and other faults', ASM, fixups(65_534, 'DB X,X', 'CJNE A,#X,Y', 'CJNE A,#Y,X', 'DB X,Y', 'DB 1'),
     is_refused(3, ''.join(f'a.a51({at}): E{fault}\n' for at, fault in [(553, 19), (554, 19), (555, 7), (556, 19)]))),
    ('the largest list', BUILD, {'a.a51': lines('CSEG AT 0', f'DB {",".join(["0"] * 126)}', 'SJMP $', 'END')},
     ends(0, LAST)),
    ('40 layers of two units', BUILD, layers(40), is_ladder),
    ('a chain that fills the run', BUILD, chain_of([40, 40, 40]), lambda answer: b'OVERLAID 120 BYTES\n' in answer[1]),
    ('a chain of a byte more', BUILD, chain_of([40, 40, 41]), is_refused(4, 'LINK L12 ?DT?U2\n')),
    ('1,999 segments of external memory', *many_segments(1_999, 'XDATA', 'DS 32'), is_in_order),
    ('2,000 segments of external memory', *many_segments(2_000, 'XDATA', 'DS 1'),
     is_refused(7, 'LIMIT SEGMENTS 2000\n')),
    ('1,000 units', *many_segments(999, 'CODE', 'NOP'), ends(0, 'IMAGE 1001 BYTES\n' + LOOP)),
    ('1,001 units', *many_segments(1_000, 'CODE', 'NOP'), is_refused(7, 'LIMIT UNITS 1000\n')),
    ('255 modules', *chosen(254), ends(0, 'IMAGE 2 BYTES\n' + LOOP)),
    ('256 modules', *chosen(255), is_refused(7, 'LIMIT MODULES 255\n')),
    ('1,000 control lines', CONTROLLED, {'c': b'\n' * 1_000, **LOOP_SOURCE}, ends(0, LOOP)),
    ('1,001 control lines', CONTROLLED, {'c': b'\n' * 1_000 + b';', **LOOP_SOURCE},
     is_refused(7, 'LIMIT CONTROLLINES 1000\n')),
    ('a wrong 1,000th control line', *controlled(*[''] * 999, 'A'), is_refused(6, 'CONTROL LINE 1000: C1\n')),
    ('a wrong control line of 1,001', *controlled(*[''] * 999, 'A', ';'), is_refused(7, 'LIMIT CONTROLLINES 1000\n')),
    ('a control line of 255 bytes', *controlled(f'NOOVERLAY({" " * 243}A)'), is_refused(4, 'LINK L7 LINE 1\n')),
    ('a control line of 256 bytes', *controlled(f'NOOVERLAY({" " * 244}A)'), is_refused(6, 'CONTROL LINE 1: C1\n')),
    ('65,536 script lines', SCRIPTED, {'s': b'\n' * 65_536, **LOOP_SOURCE}, ends(0, LOOP)),
    ('65,537 script lines', SCRIPTED, {'s': b'\n' * 65_536 + b';', **LOOP_SOURCE},
     is_refused(7, 'LIMIT SCRIPTLINES 65536\n')),
    ('65,536 timed script lines', ['build', '--script', 's', '--steps', '9', 'a.a51'], TIMED,
     ends(0, 'RUN\n10 P0 41\n12 P2 0F\nEND 9 STEPS 18 CYCLES\n')),
    ('990,000 points of a stack', *procedures(16), ends(0, 'STACK @0000 50 RESET,0038\nBOUND 32\n')),
    ('1,052,000 points of a stack', *procedures(17), is_refused(7, 'LIMIT POINTS 1000000\n')),
    ('254 units of a disassembly', *single_units(254),
     lambda answer: answer[0] == 0 and len(answer[1]) == 9 + 254 * 24 + 4),
    ('255 units of a disassembly', *single_units(255), is_refused(7, 'LIMIT PARTS 254\n')),
    ('65,535 lines of a disassembly', *disassembled(65_532),
     lambda answer: answer[0] == 0 and answer[1].count(b'\n') == 65_535),
    ('65,536 lines of a disassembly', *disassembled(65_533), is_refused(7, 'LIMIT LINES 65535\n')),
    ('65,535 lines of a listing', *wide_listing(), ends(0, '65534 FA0B 120000*  LCALL SEND\n65535              END\n')),
    ('a piece of 1,025 bytes', *object_of(objects.segment(objects.CODE, objects.ABSOLUTE, 2_048),
                                          objects.piece(1, 0, '00' * 1_025)),
     is_refused(5, 'OBJECT a.obj: O4 AT 1049\n')),
    ('an object of 255 segments', *object_of(*[objects.segment(objects.CODE, objects.ABSOLUTE, 1)] * 255),
     is_refused(5, 'OBJECT a.obj: O4 AT 3058\n')),
    ('an object of 256 externals', *object_of(*[objects.external(objects.NUMBER, one + two)
                                                for one in 'ABCDEFGHIJKLMNOP' for two in 'ABCDEFGHIJKLMNOP']),
     is_refused(5, 'OBJECT a.obj: O4 AT 2050\n')),
    ('a file of 1,048,576 bytes', FLAT, {'a.hex': LOOP_HEX.ljust(1_048_576)}, ends(0, LOOP)),
    ('a file of 1,048,577 bytes', FLAT, {'a.hex': LOOP_HEX.ljust(1_048_577)}, is_refused(7, 'LIMIT BYTES 1048576\n')),
    ('a full library is listed', ['lib', 'list', 'l.lib'], full_library(),
     lambda answer: answer[:2] == (0, lines(*(f'M{k}' for k in range(255))))),
    ('a 256th module', ['lib', 'add', 'l.lib', 'N.obj'], full_library('N'), is_refused(7, 'LIMIT MODULES 255\n')),
    ('the name of a module of a full library', ['lib', 'add', 'l.lib', 'M7.obj'], full_library('M7'),
     is_refused(5, 'LIBRARY B1 M7\n')),
    ('a module of a full library raised', ['lib', 'raise', 'l.lib', 'M7'], full_library(),
     lambda answer: answer == (0, b'', full_library(raised='M7'))),
    ('a module of a full library replaced', ['lib', 'replace', 'l.lib', 'M7.obj'], full_library('M7', raised='M7'),
     lambda answer: answer == (0, b'', full_library('M7'))),
    ('256 modules in a library', ['lib', 'list', 'l.lib'], {'l.lib': objects.record(objects.LIBRARY, b'\x00\x01')},
     is_refused(5, 'OBJECT l.lib: O4 AT 3\n')),
    ('a long run of 100 generated units', ['gen', '--units', '100', '--start', '1', '--steps', '1000000'], {},
     lambda answer: answer[:2] == (0, LONG_RUN)),
]
