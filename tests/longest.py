"""The longest inputs within the limits, for `asm`, links, libraries and `dis`: a size gives arguments and files.

`long_runs.py` has those of runs and of `stack`.
"""
import random
from typing import NamedTuple

import large
import objects
from near_limits import ASM, LOOP, LOOP_CODE, RUN, external, module, public

MOST_BYTES = 1_048_576


def main_module(*wanted):
    """A module of an endless loop at the reset that wants these names."""
    return module('A', LOOP, *map(external, wanted), LOOP_CODE)


# Sources.

# With a label each tenth line, 60,000 lines of these are below 64 KiB of code.
SHAPES = [
    'ADD A,R{register}', 'MOV R{register},A', 'MOV A,@R0', 'MOVX A,@DPTR', 'INC R{register}', 'NOP', 'MOVC A,@A+DPTR',
    'RET', 'CLR C', 'SUBB A,@R1', 'RRC A', 'MOV A,#{number}', 'MOV 48,A', 'JNZ L{label}', 'SETB TR0', 'ANL A,#15',
    '{byte} {number}', '{word} L{label}', 'MOV DPTR,#L{label}', 'JB TF0,L{label}', 'LCALL L{label}',
    *['; a line of comment'] * 5, *[''] * 4]


class Dialect(NamedTuple):
    """How an assembler writes the beginning of a source, a list of bytes and of words, a name for a number, the end."""
    first: str
    byte: str
    word: str
    equ: str
    end: str


M51 = Dialect('S SEGMENT CODE\nRSEG S', 'DB', 'DW', '{} EQU {}', 'END')
AS31 = Dialect('.org 0', '.byte', '.word', '.equ {}, {}', '.end')
SDAS = Dialect('.area CODE (ABS)\n.org 0', '.db', '.dw', '{} = {}', '')


def usual_lines(size, dialect):
    """So many lines as programs have them, each tenth with a label, each 25th a name for a number."""
    rng = random.Random(size)
    yield dialect.first
    for at in range(size):
        shape = SHAPES[rng.randrange(len(SHAPES))]
        if at % 10 == 0:
            yield f'L{at // 10}: NOP'
        elif at % 25 == 3:
            yield dialect.equ.format(f'C{at}', at)
        else:
            yield shape.format(number=rng.randrange(256), register=rng.randrange(8), label=at // 10,
                               byte=dialect.byte, word=dialect.word)
    yield dialect.end


def usual_source(size):
    """A source of so many lines as programs have them."""
    return ASM, {'a.a51': large.lines(*usual_lines(size, M51))}


def labels(size):
    """A source of so many lines that are labels, and public."""
    names = [f'Q{k}' for k in range(size // 2)]
    declared = [f'PUBLIC {name}' for name in names]
    return ASM, {'a.a51': large.lines(*(f'{name}: NOP' for name in names), *declared, 'END')}


def repeated(statement, count):
    """A source's lines and its includes, which are so many times this statement."""
    whole = min(count, MOST_BYTES // (len(statement) + 1))
    times, rest = divmod(count, whole)
    files = {'i.inc': large.lines(*[statement] * whole), 'j.inc': large.lines(*[statement] * rest)}
    return ['$INCLUDE(i.inc)'] * times + ['$INCLUDE(j.inc)'], files


def long_lines(statement, *before):
    """A maker of a source of so many times one statement of up to 255 bytes."""
    def made(size):
        rows, files = repeated(statement, size - len(before) - 20)
        return [*ASM, *files], {'a.a51': large.lines(*before, *rows, 'END'), **files}
    return made


SUMS = 'X SET ' + '+'.join('1' * 124)
NAMES = 'X SET ' + '+'.join(['A1'] * 82)
BIT_NAMES = 'X SET ' + '+'.join(['CY'] * 82)
MANY_OPERANDS = 'MOV ' + ','.join('0' * 124)
OPEN_PARENTHESES = 'DB ' + '(' * 251


def long_sources(size):
    """So many sources of 65,500 lines of 255 bytes each."""
    rows, files = repeated(SUMS, 65_480)
    sources = {f's{k:02}.a51': large.lines(*rows, 'END') for k in range(1, size)}
    sources['s00.a51'] = large.lines('SJMP $', *rows, 'END')
    return [*RUN, *sorted(sources), *files], {**sources, **files}


def comments(size):
    """So many sources of a million bytes each, which are comments."""
    text = b';23456789012345\n' * 65_530
    sources = {f's{k:02}.a51': text + b'END\n' for k in range(1, size)}
    sources['s00.a51'] = b'SJMP $\n' + text + b'END\n'
    return [*RUN, *sorted(sources)], sources


# Libraries.

def full_library(number):
    """A library of nearly a million bytes, of publics that nobody wants."""
    members = [module(f'N{k}', *[public(f'P{number:02}{k:03}{j:03}') for j in range(340)]) for k in range(168)]
    return objects.library(*members)


def libraries(size):
    """So many such libraries, and one whose 254 members are wanted in turn, the last one first."""
    chain = [module(f'M{k}', *([external(f'W{k - 1}')] if k else []), public(f'W{k}')) for k in range(254)]
    files = {f'l{k:02}.lib': full_library(k) for k in range(size)}
    files.update({'z.lib': objects.library(*chain), 'a.obj': main_module('W253')})
    return [*RUN, 'a.obj', *sorted(name for name in files if name.endswith('.lib'))], files


def edited(verb, size):
    """A library of 190 modules, and so many objects of 60,000 publics each that are added or put in place of others."""
    members = [module(f'M{k}', *[public(f'P{k:03}{j:03}') for j in range(250)]) for k in range(190)]
    name = 'M' if verb == 'replace' else 'Z'
    files = {f'o{k:02}.obj': module(f'{name}{k}', *[public(f'R{k:02}{j:05}') for j in range(60_000)])
             for k in range(size)}
    return ['lib', verb, 'l.lib', *sorted(files)], {**files, 'l.lib': objects.library(*members)}


def added(size):
    return edited('add', size)


def replaced(size):
    return edited('replace', size)


# Links.

def unit_modules(count, degree, is_backwards):
    """Modules of 120 units each; a unit refers to so many of those after it, or before it."""
    for first in range(0, count, 120):
        own = range(first, min(count, first + 120))
        called = {k: range(max(0, k - degree), k)[::-1] if is_backwards else range(k + 1, min(count, k + 1 + degree))
                  for k in own}
        others = sorted({to for k in own for to in called[k]} - set(own))
        records = [objects.segment(objects.CODE, objects.UNIT, len(called[k]) + 1, f'?PR?U{k}') for k in own]
        records += [external(f'F{to}') for to in others]
        records += [objects.public(objects.CODE, k - first + 1, 0, f'F{k}') for k in own]
        records += [objects.piece(k - first + 1, 0, '00' * len(called[k]) + '22') for k in own]
        records += [objects.fixup(k - first + 1, at, objects.LOW, to - first + 1 if to in own else others.index(to) + 1,
                                  is_external=to not in own) for k in own for at, to in enumerate(called[k])]
        yield module(f'M{first}', *records)


def more_calls(count, degree, is_backwards):
    """A control line for each unit, with as many more calls as it has room for."""
    for k in range(count):
        rest = range(k - degree - 1, -1, -1) if is_backwards else range(k + 1 + degree, count)
        line = f'OVERLAY(?PR?U{k} > ' + ','.join(f'?PR?U{to}' for to in rest[:30])
        if rest:
            yield (line if len(line) < 255 else line[:line.rindex(',', 0, 254)]) + ')'


def graph(size, is_backwards, degree=60):
    """So many units with calls to those after or before them, by fixups and control lines, and a local of the last."""
    first, last = (size - 1, 0) if is_backwards else (0, size - 1)
    call = objects.piece(1, 0, '80FE120000') + objects.fixup(1, 3, objects.WORD, 1, is_external=True)
    reset = objects.segment(objects.CODE, objects.ABSOLUTE, 5)
    local = objects.segment(objects.DATA, objects.UNIT, 1, f'?DT?U{last}', flags=1)
    files = {'a.obj': module('A', reset, external(f'F{first}'), call), 'z.obj': module('Z', local)}
    for at, content in enumerate(unit_modules(size, degree, is_backwards)):
        files[f'm{at}.obj'] = content
    words = sorted(files)
    files['c'] = large.lines(*more_calls(size, degree, is_backwards))
    return ['build', '--control', 'c', *RUN[1:], *words], files


def forwards(size):
    return graph(size, False)


def backwards(size):
    return graph(size, True)


def orders(size):
    """So many control lines that order 80 names each, beside 1,999 segments."""
    words, files = large.many_segments(1_999, 'XDATA', 'DS 1')
    files['c'] = large.lines(*[f'ORDER(XDATA,{",".join(["X0"] * 80)})'] * size)
    return ['build', '--control', 'c', *words[1:]], files


def reserves(size):
    """So many control lines that keep a byte of external memory free, beside 1,999 segments in pages."""
    words, files = large.many_segments(1_999, 'XDATA INPAGE', 'DS 24')
    files['c'] = large.lines(*[f'RESERVE(XDATA({at * 64}-{at * 64}))' for at in range(size)])
    return ['build', '--control', 'c', *words[1:]], files


# Disassemblies and HEX files.

def random_bytes(size):
    """A unit of so many random bytes, that is disassembled."""
    rng = random.Random(size)
    begins = [(at, min(1_024, size - at)) for at in range(0, size, 1_024)]
    pieces = [objects.piece(1, at, bytes(rng.randrange(256) for _ in range(count)).hex()) for at, count in begins]
    return ['dis', 'a.obj'], {'a.obj': module('A', objects.segment(objects.CODE, objects.ABSOLUTE, size), *pieces)}


def short_records(size):
    """A HEX file of so many records of one byte."""
    record = objects.hex_record(0, '00')
    return ['flat', '--steps', '1', 'a.hex'], {'a.hex': large.lines(*[record] * size, objects.hex_record(0, '', 1))}
