"""The source that `m51 gen` makes, written down a second time and apart from the program, for tests."""


def units_of(count, start):
    """The units 1 to count: for each its parent (0 for the main program) and the bytes of its local."""
    state = start
    parents, depths, sizes = [0], [0], [0]

    def draw(bound):
        nonlocal state
        state = (1664525 * state + 1013904223) % 2**32
        return state // 65536 % bound

    for unit in range(1, count + 1):
        parent = 0 if unit == 1 else draw(unit)
        if depths[parent] == 8:
            parent = 0
        parents.append(parent)
        depths.append(depths[parent] + 1)
        sizes.append(1 + draw(4))
    return parents, sizes


def unit_lines(unit, parents, sizes):
    calls = [f'LCALL F{child}' for child in range(1, len(parents)) if parents[child] == unit]
    return [
        f'?PR?U{unit} SEGMENT CODE', f'?DT?U{unit} SEGMENT DATA OVERLAYABLE',
        f'RSEG ?DT?U{unit}', f'L{unit}: DS {sizes[unit]}',
        f'RSEG ?PR?U{unit}', f'F{unit}: MOV L{unit},A', *calls,
        f'MOV A,L{unit}', 'INC A', 'MOV P1,A', 'RET',
    ]


def handler_lines(letter, port):
    return [
        f'?PR?H{letter} SEGMENT CODE', f'?DT?H{letter} SEGMENT DATA OVERLAYABLE',
        f'RSEG ?DT?H{letter}', f'V{letter}: DS 1',
        f'RSEG ?PR?H{letter}', f'H{letter}: MOV V{letter},A', f'INC {port}', f'MOV A,V{letter}', 'RETI',
    ]


def source(count, start):
    """The text of the source, each line ended by LF."""
    parents, sizes = units_of(count, start)
    lines = ['NAME GEN', '?STACK SEGMENT IDATA', 'RSEG ?STACK', 'DS 64']
    for unit in range(1, count + 1):
        lines += unit_lines(unit, parents, sizes)
    lines += handler_lines('A', 'P0') + handler_lines('B', 'P2')
    lines += [
        'CSEG AT 0', 'LJMP MAIN', 'CSEG AT 0BH', 'LJMP HA', 'CSEG AT 1BH', 'LJMP HB', 'CSEG AT 30H',
        'MAIN: MOV SP,#?STACK-1', 'MOV TMOD,#22H', 'MOV TH0,#38H', 'MOV TH1,#64H', 'MOV IP,#8', 'MOV IE,#8AH',
        'SETB TR0', 'SETB TR1', 'LOOP: CLR A',
        *[f'LCALL F{unit}' for unit in range(1, count + 1) if parents[unit] == 0], 'LJMP LOOP', 'END',
    ]
    return ''.join(line + '\n' for line in lines)
