"""The forms of the tool `symbols` that are text: cdb, lst and json (docs/SYMBOLS.md)."""
import bisect
import json
import os
import re
from collections import Counter

from image import image_of
from listings import call_of, statement_of
from m51files import KINDS
from program import Label, part_of

# The letter of a memory in cdb, and the type of a byte of it; a function has a type of its own.
SPACES = {'XDATA': ('F', '{1}SC:U'), 'DATA': ('E', '{1}SC:U'), 'IDATA': ('G', '{1}SC:U'), 'BIT': ('H', '{1}SX:U')}
FUNCTION = '{2}DF,SV:S'
# The opcodes that take two machine cycles; MUL and DIV take four, all others one.
TWO_CYCLES = {
    0x02, 0x12, 0x22, 0x32, 0x10, 0x20, 0x30, 0x40, 0x50, 0x60, 0x70, 0x43, 0x53, 0x63, 0x72, 0x82, 0xA0, 0xB0, 0x73,
    0x75, 0x80, 0x83, 0x93, 0x85, 0x86, 0x87, 0x90, 0x92, 0xA3, 0xA6, 0xA7, 0xC0, 0xD0, 0xD5, 0xE0, 0xE2, 0xE3, 0xF0,
    0xF2, 0xF3, *range(0x88, 0x90), *range(0xA8, 0xB0), *range(0xB4, 0xC0), *range(0xD8, 0xE0),
    *range(0x01, 0x100, 0x10)}
BYTES_OF_LINE = 3


def cycles(opcode):
    """The machine cycles of an instruction."""
    return 4 if opcode in (0x84, 0xA4) else 2 if opcode in TWO_CYCLES else 1


def is_instruction(row):
    """Whether a row is an instruction, and no DB, DW or DS."""
    return bool(row.data) and not re.match(r'D[BW]\b', statement_of(row), re.I)


def labels_of(of):
    """The labels of a program, and its publics that lie in no segment: they are defined by EQU, DATA and the like."""
    named = [Label(KINDS[public.kind], public.number, 1, public.name, module.name, None, module.name, True, None, None)
             for module in of.modules for public in module.publics if not public.segment]
    return sorted(of.labels + named, key=lambda it: (KINDS.index(it.kind), it.address, it.name))


def spans(of, image):
    """Of each module the lines of its listing: the line, its address, its bytes."""
    for module in of.modules:
        listing = of.listings.get(module.name)
        if not listing:
            continue
        places = {id(row): of.address_of(module, row) for row in listing.rows}
        starts = sorted(set(places.values()) - {None})
        made = []
        for line in listing.lines:
            address, data = places.get(id(line.row)) if line.row else None, b''
            if address is not None and line.row.data:
                number = part_of(module, line.row)
                end = of.bases[module.name, number] + module.segments[number - 1].size
                size = size_of(line.row, address, starts, end, image)
                data = bytes(image[address + at] for at in range(size))
            made.append((line, address, data))
        yield module, made


def size_of(row, address, starts, end, image):
    """How many bytes a row has: its listing has three at most, and DB and DW may have more, up to the next row."""
    size = len(row.data)
    if size < BYTES_OF_LINE or is_instruction(row):
        return size
    after = bisect.bisect(starts, address)
    stop = min(end, starts[after]) if after < len(starts) else end
    while address + size < stop and address + size in image:
        size += 1
    return size


def lst(of):
    """The listings, one after the other. A line has its number in its file; +1 is one of a macro."""
    image = image_of(of)
    for module, lines in spans(of, image):
        yield f'MODULE {module.name}'
        file = None
        for line, address, data in lines:
            if not line.depth and line.file != file:
                file = line.file
                yield f'FILE {file}'
            head = f'{line.number:5}' + (f'+{line.depth}' if line.depth else '')
            if address is None:
                yield f'{head:8}{"":15}{line.text}'.rstrip()
                continue
            time = str(cycles(data[0])) if data and is_instruction(line.row) else ''
            yield f'{head:8}{address:04X} {data[:BYTES_OF_LINE].hex().upper():6} {time:1}  {line.text}'.rstrip()
            for at in range(BYTES_OF_LINE, len(data), BYTES_OF_LINE):
                yield f'{"":8}{address + at:04X} {data[at : at + BYTES_OF_LINE].hex().upper()}'
        yield ''


def stem_of(of, module):
    """The name of a module in cdb: that of its source, which sdcdb looks for as NAME.asm."""
    source = of.listings[module].source if module in of.listings else module
    return os.path.splitext(os.path.basename(source))[0]


def cdb_name(of, label, count):
    """A name in cdb: of the whole program if no other module has it, else of its module."""
    is_global = label.is_public or count[label.name] == 1
    return (f'G${label.name}' if is_global else f'F{stem_of(of, label.module)}${label.name}') + '$0$0'


def cdb(of):
    """The records of cdb: the modules, the names with their memories, their addresses, the lines."""
    labels = [label for label in labels_of(of) if label.kind in SPACES or label.kind == 'CODE']
    count = Counter(label.name for label in labels)
    for module in of.modules:
        yield f'M:{stem_of(of, module.name)}'
        for label in (it for it in labels if it.module == module.name):
            name = cdb_name(of, label, count)
            if label.kind == 'CODE':
                yield f'F:{name}({FUNCTION}),C,0,0,0,0,0'
            else:
                letter, kind = SPACES[label.kind]
                is_array = label.size > 1 and label.kind != 'BIT'
                many = f'{{{label.size}}}DA{label.size}d,' + kind[3:] if is_array else kind
                yield f'S:{name}({many}),{letter},0,0'
    for label in labels:
        yield f'L:{cdb_name(of, label, count)}:{label.address:X}'
        if label.kind == 'CODE' and label.size:
            yield f'L:X{cdb_name(of, label, count)}:{label.address + label.size - 1:X}'
    for address, row in sorted(of.lines.items()):
        file, line = call_of(row)
        if row.data:
            yield f'L:A${os.path.splitext(os.path.basename(file))[0]}${line}:{address:X}'


def as_json(of):
    """One object: map, symbols, lines."""
    of_map = of.map
    image = image_of(of)
    rows = [(module, line.row, address, data) for module, lines in spans(of, image) for line, address, data in lines]
    made = {
        'format': 'm51 symbols 1',
        'map': {
            'extents': [{'memory': it.kind, 'base': it.base, 'size': it.size, 'mark': it.mark, 'title': it.title}
                        for it in of_map.extents],
            'units': [{'title': it.title, 'roots': it.roots, 'callees': it.callees} for it in of_map.units.values()],
            'chains': [{'root': it.root, 'bytes': it.weight, 'units': it.units} for it in of_map.chains],
            'overlaid': of_map.overlaid, 'image': of_map.image},
        'symbols': [
            {'name': it.name, 'memory': it.kind, 'address': it.address, 'size': it.size, 'segment': it.title,
             'module': it.module, 'public': it.is_public, 'file': it.file, 'line': it.line}
            for it in labels_of(of)],
        'lines': [
            {'address': address, 'bytes': data.hex().upper(), 'module': module.name, 'file': row.file, 'line': row.line,
             'through': row.through.strip(), 'statement': statement_of(row),
             'cycles': cycles(data[0]) if is_instruction(row) else None}
            for module, row, address, data in rows if data and row.kind in (None, 'CODE')]}
    yield json.dumps(made, indent=1)


FORMATS = {'cdb': cdb, 'lst': lst, 'json': as_json}
