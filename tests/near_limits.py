"""Inputs near the limits, of many modules, publics, fixups, units, statements: a size gives arguments and files.

`longest.py` and `long_runs.py` have those that take longest.
"""
import large
import objects

LOOP = objects.segment(objects.CODE, objects.ABSOLUTE, 2)
LOOP_CODE = objects.piece(1, 0, '80FE')
RUN = ['build', '--steps', '1']
ASM = ['asm', '--out', 'a.obj', 'a.a51']


def module(name, *records, version=1):
    return objects.header(name, version) + b''.join(records) + objects.end(name)


def public(name):
    return objects.public(objects.CODE, 0, 9, name)


def external(name):
    return objects.external(objects.CODE, name)


def source_lines(size):
    """A source of so many lines of code, each tenth with a label, that is assembled."""
    rows = [f'L{k}: DB LOW L{k}' if k % 10 == 0 else 'NOP' for k in range(size - 3)]
    return ASM, {'a.a51': large.lines('CSEG AT 0', *rows, 'SJMP $', 'END')}


def crossed(size):
    """Modules of a library of which each has 40 publics and wants 240 of the others."""
    names = [[f'P{of}_{k}' for k in range(40)] for of in range(size)]
    first = module('A', LOOP, *[external(row[0]) for row in names], LOOP_CODE)
    wanted = [[names[(of + 1 + k // 40) % size][k % 40] for k in range(240)] for of in range(size)]
    rest = [module(f'M{of}', *map(external, wanted[of]), *map(public, names[of])) for of in range(size)]
    half = size // 2
    files = {'a.obj': first, 'k.lib': objects.library(*rest[:half]), 'l.lib': objects.library(*rest[half:])}
    return [*RUN, 'a.obj', 'k.lib', 'l.lib'], files


def wanted_in_turn(size):
    """A library of which each member has 20 publics and wants the member before it; the last is wanted first."""
    names = [[f'P{of}_{k}' for k in range(20)] for of in range(size)]
    members = [module(f'M{of}', *map(external, names[of - 1][:1] if of else []), *map(public, names[of]))
               for of in range(size)]
    first = module('A', LOOP, external(names[-1][0]), LOOP_CODE)
    return [*RUN, 'a.obj', 'l.lib'], {'a.obj': first, 'l.lib': objects.library(*members)}


def object_of_publics(size):
    """An object of so many publics, some 16 bytes each, that goes into a library."""
    return ['lib', 'build', 'l.lib', 'a.obj'], {'a.obj': module('A', *[public(f'P{k:06}') for k in range(size)])}


def library_of_publics(size):
    """A library of 250 modules with so many publics together, that is listed."""
    each = size // 250
    members = [module(f'M{of}', *[public(f'P{of:03}{k:03}') for k in range(each)]) for of in range(250)]
    return ['lib', 'list', 'l.lib'], {'l.lib': objects.library(*members)}


def fixups_of(size):
    """So many fixups of a byte that fill a segment."""
    begins = [(at, min(1_024, size - at)) for at in range(0, size, 1_024)]
    pieces = [objects.piece(1, at, '00' * count) for at, count in begins]
    fields = [objects.fixup(1, at, objects.LOW, 1) for at in range(size)]
    return [objects.segment(objects.CODE, objects.UNIT, size, 'S'), *pieces, *fields]


def object_of_fixups(size):
    """An object of so many fixups, that goes into a library."""
    return ['lib', 'build', 'l.lib', 'a.obj'], {'a.obj': module('A', *fixups_of(size))}


def library_of_fixups(size):
    """A library of one module with so many fixups, that is listed."""
    return ['lib', 'list', 'l.lib'], {'l.lib': objects.library(module('A', *fixups_of(size)))}


def linked_fixups(size):
    """A module of so many fixups, that is linked."""
    first = module('A', LOOP, LOOP_CODE)
    return [*RUN, 'a.obj', 'b.obj'], {'a.obj': first, 'b.obj': module('B', *fixups_of(size))}


def unit_records(first, wanted, called):
    """The segments, externals, publics, pieces and fixups of four units and their locals in one module."""
    own = range(first, first + 4)
    sizes = [len(called[k]) + 1 for k in own]
    records = [objects.segment(objects.CODE, objects.UNIT, size, f'?PR?U{k}') for k, size in zip(own, sizes)]
    records += [objects.segment(objects.DATA, objects.UNIT, int(k % 50 == 0), f'?DT?U{k}', flags=1) for k in own]
    records += [external(f'F{to}') for to in wanted]
    records += [objects.public(objects.CODE, k - first + 1, 0, f'F{k}') for k in own]
    for part in range(4):
        records.append(objects.piece(part + 1, 0, '00' * len(called[first + part]) + '22'))
    for part in range(4):
        for at, to in enumerate(called[first + part]):
            is_own = to in own
            target = to - first + 1 if is_own else wanted.index(to) + 1
            records.append(objects.fixup(part + 1, at, objects.LOW, target, is_external=not is_own))
    return records


def units(size):
    """Modules of four units with a local each; a unit refers to the thirty after it, and a line adds twenty calls."""
    count = 4 * size
    called = {k: range(k + 1, min(k + 31, count)) for k in range(count)}
    members = []
    for first in range(0, count, 4):
        wanted = sorted({to for k in range(first, first + 4) for to in called[k] if to >= first + 4})
        members.append(module(f'M{first}', *unit_records(first, wanted, called)))
    reset = objects.segment(objects.CODE, objects.ABSOLUTE, 5)
    call = objects.piece(1, 0, '80FE120000') + objects.fixup(1, 3, objects.WORD, 1, is_external=True)
    controls = [f'OVERLAY(?PR?U{k} > {",".join(f"?PR?U{to}" for to in range(k + 31, min(k + 51, count)))})'
                for k in range(count - 31)]
    files = {'a.obj': module('A', reset, external('F0'), call), 'l.lib': objects.library(*members),
             'c': large.lines(*controls)}
    return ['build', '--control', 'c', *RUN[1:], 'a.obj', 'l.lib'], files


def statements(size):
    """A program of so many statements, that is disassembled."""
    rows = ['NOP'] * (size - 1)
    return ['dis', 'a.a51'], {'a.a51': large.lines('CSEG AT 0', *rows, 'SJMP $', 'END')}


def steps_with_locals(size):
    """A run of so many steps through 99 routines, each with a local."""
    parts = [part for k in range(99) for part in (
        f'?PR?F{k} SEGMENT CODE', f'?DT?F{k} SEGMENT DATA OVERLAYABLE', f'RSEG ?DT?F{k}', f'V{k}: DS 1',
        f'RSEG ?PR?F{k}', f'F{k}: MOV V{k},A', 'RET')]
    calls = [f'LCALL F{k}' for k in range(99)]
    text = large.lines(*parts, '?PR?MAIN SEGMENT CODE', 'RSEG ?PR?MAIN', 'MAIN: MOV SP,#60H', 'LOOP:', *calls,
                       'LJMP LOOP', 'CSEG AT 0', 'LJMP MAIN', 'END')
    return ['build', '--steps', str(size), 'a.a51'], {'a.a51': text}


def points(size):
    """So many procedures of 61,900 instructions each, whose stack is bounded."""
    return large.procedures(size)
