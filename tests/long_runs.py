"""The longest runs within the limits, and the longest bounds of a stack: a size gives arguments and files."""
import large
import objects
from near_limits import external, module

STEPS = 10_000_000
RET, NOP = '22', '00'
# A loop at the reset that calls; the address of the call is at 4.
CALLING = '758160' + '120000' + '80FB'


def build(steps, *rows):
    """A run of so many steps of a source."""
    return ['build', '--steps', str(steps), 'a.a51'], {'a.a51': large.lines(*rows, 'END')}


# Runs.

def arguments(size):
    """Ten million steps of a loop that calls a unit. It, and so many others, refer to 120 units with argument segments,
    whose owners all of these are."""
    called = range(120)
    segments = [objects.segment(objects.CODE, objects.UNIT, 1, f'?PR?T{k}') for k in called]
    segments += [objects.segment(objects.DATA, objects.UNIT, 0, f'?AG?T{k}', flags=3) for k in called]
    publics = [objects.public(objects.CODE, k + 1, 0, f'F{k}') for k in called]
    files = {'t.obj': module('T', *segments, *publics, *[objects.piece(k + 1, 0, RET) for k in called], version=2)}
    wanted = [external(f'F{k}') for k in called]
    # Callers come first, so that their numbers are lower.
    for first in range(0, size, 120):
        own = range(1, min(120, size - first) + 1)
        units = [objects.segment(objects.CODE, objects.UNIT, 120, f'?PR?C{first + k}') for k in own]
        fields = [objects.fixup(k, to, objects.LOW, to + 1, is_external=True) for k in own for to in called]
        pieces = [objects.piece(k, 0, NOP * 120) for k in own]
        files[f'c{first:03}.obj'] = module(f'C{first}', *units, *wanted, *pieces, *fields)
    caller = objects.segment(objects.CODE, objects.UNIT, 121, '?PR?M')
    fields = [objects.fixup(1, to + 1, objects.LOW, to + 1, is_external=True) for to in called]
    files['m.obj'] = module('M', caller, *wanted, objects.public(objects.CODE, 1, 0, 'M'),
                            objects.piece(1, 0, RET + NOP * 120), *fields)
    reset = objects.segment(objects.CODE, objects.ABSOLUTE, 8)
    target = objects.fixup(1, 4, objects.WORD, 1, is_external=True)
    files['a.obj'] = module('A', reset, external('M'), objects.piece(1, 0, CALLING), target)
    return ['build', '--steps', str(STEPS), *sorted(files)], files


def large_local(size):
    """Ten million steps of a loop that calls a unit with a local of so many bytes of external memory."""
    return build(STEPS, '?PR?F SEGMENT CODE', '?XD?F SEGMENT XDATA OVERLAYABLE', 'RSEG ?XD?F', f'DS {size}',
                 'RSEG ?PR?F', 'F: RET', 'CSEG AT 0', 'MOV SP,#60H', 'L: LCALL F', 'SJMP L')


def vectorings(size):
    """Ten million steps, each third one a vectoring, among so many units, of which the handler is the last."""
    files = {}
    for first in range(0, size - 2, 240):
        names = [f'U{k}' for k in range(first, min(first + 240, size - 2))]
        rows = [row for name in names for row in (f'{name} SEGMENT CODE', f'RSEG {name}', 'NOP')]
        files[f'u{first:03}.a51'] = large.lines(*rows, 'END')
    files['z.a51'] = large.lines(
        'CSEG AT 0', 'LJMP S', 'CSEG AT 0BH', 'RETI', 'CSEG AT 100H', 'S: MOV SP,#60H', 'MOV TMOD,#2', 'MOV TH0,#0FFH',
        'MOV TL0,#0FFH', 'MOV IE,#82H', 'SETB TR0', 'L: SJMP L', 'END')
    return ['build', '--steps', str(STEPS), *sorted(files)], files


def scripted(size):
    """Ten million steps of a loop, with a script of so many lines, each second one a frame."""
    words, files = build(STEPS, 'CSEG AT 0', 'L: INC A', 'MOV 30H,A', 'SJMP L')
    rows = [f'PIN {150 * k} P{k // 2 % 4} {k % 256:02X}' if k % 2 else f'RX {150 * k} 55' for k in range(1, size + 1)]
    return [words[0], '--script', 's', *words[1:]], {**files, 's': large.lines(*rows)}


def port_writes(size):
    """So many steps, of which nearly each writes a port."""
    return build(size, 'CSEG AT 0', *['INC P1'] * 60, 'SJMP 0')


def flat_port_writes(size):
    """The same on the flat board."""
    records = [objects.hex_record(0, '0590' * 60 + '8086'), objects.hex_record(0, '', 1)]
    return ['flat', '--steps', str(size), 'a.hex'], {'a.hex': large.lines(*records)}


def party(size):
    """So many steps of each of eight boards, which send all the time."""
    text = large.lines('CSEG AT 0', 'LJMP S', 'CSEG AT 23H', 'CLR TI', 'CLR RI', 'MOV A,SBUF', 'MOV SBUF,A', 'RETI',
                       'CSEG AT 40H', 'S: MOV SP,#60H', 'MOV SCON,#90H', 'MOV IE,#90H', 'MOV SBUF,A', 'L: INC A',
                       'MOV 30H,A', 'SJMP L', 'END')
    files = {f'b{k}.a51': text for k in range(8)}
    return ['party', '--steps', str(size), *files], files


def generated(size):
    """So many steps of a generated program of 100 units."""
    return ['gen', '--units', '100', '--start', '1', '--steps', str(size)], {}


# Bounds of the stack.

def stack(*rows):
    return ['stack', 'a.a51'], {'a.a51': large.lines('CSEG AT 0', 'LJMP MAIN', 'P SEGMENT CODE UNIT', 'RSEG P', *rows,
                                                     'END')}


def main_calls(names):
    return ['MAIN: MOV SP,#7', *(f'LCALL {name}' for name in names), 'W: SJMP W']


def before_recursion(size):
    """So many procedures that call a recursive one, which goes through 896,000 points."""
    names, bodies = [f'S{k}' for k in range(size)], [f'B{k}' for k in range(32)]
    callers = [row for name in names for row in (f'{name}: LCALL R', 'RET')]
    return stack(*main_calls(names), *callers, 'R: LCALL R', *(f'LCALL {name}' for name in bodies), 'RET',
                 *(f'{name}: NOP' for name in bodies), 'DS 28000', 'RET')


def before_calls(size):
    """So many procedures that call the first of 1,340, each of which calls all after it: 900,000 points, all calls."""
    names = [f'S{k}' for k in range(size)]
    callers = [row for name in names for row in (f'{name}: LCALL C0', 'RET')]
    enters = [f'C{k}: LJMP T{k}' for k in range(1_340)]
    calls = [f'T{k}: LCALL C{k + 1}' for k in range(1_339)]
    return stack(*main_calls(names), *callers, *enters, *calls, 'T1339: RET')


def levels(size):
    """118 levels of calls, each of which goes through so many calls of one procedure."""
    enters = [row for k in range(118) for row in (f'Q{k}: LCALL Q{k + 1}', 'LJMP BODY')]
    return stack(*main_calls(['Q0']), *enters, 'Q118: RET', 'BODY: NOP', *['LCALL Q118'] * size, 'RET')
