"""A linked program: its map, its modules, and where each label and statement of them lies."""
import contextlib
import os
import subprocess
import sys
import tempfile
from collections import namedtuple

import m51files
import sources
from listings import Listing, place_of, read_listing, statement_of
from m51files import KINDS, PAGE, BadFile
from same_program import stop_unless_same, stop_unless_same_bytes, stop_unless_same_listing

Label = namedtuple('Label', 'kind address size name place title module is_public file line')


def bases_of(modules, of_map):
    """The base of each segment of each module, by the module's name and the segment's number; nothing if not linked."""
    bases, used = {}, {}
    for module in modules:
        for number, segment in enumerate(module.segments, 1):
            base = segment.base
            if segment.type:
                start = used.get(segment.name, 0)
                start += -start % 256 if segment.type == PAGE else 0
                used[segment.name] = start + segment.size
                extent = of_map.of_title(segment.name, KINDS[segment.kind])
                base = extent.base + start if extent else None
            bases[module.name, number] = base
    return bases


def part_of(module, row):
    """The number of the module's segment in which a row of its listing lies, or nothing."""
    for number, segment in enumerate(module.segments, 1):
        if row.segment:
            if segment.name == row.segment:
                return number
        elif not segment.type and KINDS[segment.kind] == row.kind:
            if segment.base <= row.offset < segment.base + segment.size:
                return number
    return None


def plus(name, distance, number='{:X}'):
    """A name, and how far after it."""
    return name + ('+' + number.format(distance) if distance else '')


class Program:
    """A linked program: its map, its modules in the order of the link, and where each part of them lies."""

    def __init__(self, of_map, modules, listings):
        stop_unless_same(of_map, modules)
        self.map, self.modules, self.bases = of_map, modules, bases_of(modules, of_map)
        self.lines, self.labels = {}, []
        self.listings = {listing.name: listing for listing in listings}
        rows = {listing.name: listing.rows for listing in listings}
        for module in modules:
            placed = [(part_of(module, row), row) for row in rows.get(module.name, [])]
            stop_unless_same_listing(module, placed)
            self.add_rows(module, placed)

    def add_rows(self, module, placed):
        """Adds the labels and the lines of a module, and its publics that have no line."""
        known = set()
        for number, row in placed:
            base = self.bases.get((module.name, number))
            if base is None:
                continue
            segment = module.segments[number - 1]
            place = row.offset if row.segment else row.offset - base
            # A line with a label and nothing else has no bytes: they are of the statement below it.
            if KINDS[segment.kind] == 'CODE' and statement_of(row):
                self.lines.setdefault(base + place, row)
            if row.label:
                known.add(row.label)
                later = [it.offset - row.offset for part, it in placed
                         if it.label and it.offset > row.offset and part == number]
                size = min([segment.size - place, *later])
                self.add_label(module, segment, base + place, size, row.label, row)
        for public in module.publics:
            base = self.bases.get((module.name, public.segment))
            if public.name not in known and base is not None:
                segment = module.segments[public.segment - 1]
                self.add_label(module, segment, base + public.number, 1, public.name)

    def add_label(self, module, segment, address, size, name, row=None):
        title = segment.name or f'@{segment.base:04X}'
        is_public = any(public.name == name for public in module.publics)
        place = place_of(row) if row else module.name
        of_row = (row.file, row.line) if row else (None, None)
        self.labels.append(Label(
            KINDS[segment.kind], address, size, name, place, title, module.name, is_public, *of_row))

    def address_of(self, module, row):
        """The address of a row, or nothing if its segment is not linked."""
        number = part_of(module, row)
        base = self.bases.get((module.name, number))
        if base is None:
            return None
        return base + row.offset - (0 if row.segment else module.segments[number - 1].base)

    def line_of(self, address):
        """The row of the source at whose statement a code address lies, or nothing."""
        extent = self.map.code_at(address)
        places = [place for place in self.lines if extent and extent.base <= place <= address]
        return self.lines[max(places)] if places else None

    def line_text(self, address):
        """`file(line), LABEL+n: statement` of a code address, or why there is none."""
        extent, row = self.map.code_at(address), self.line_of(address)
        if not extent:
            return 'no code is linked there'
        near = [it for it in self.labels if it.kind == 'CODE' and extent.base <= it.address <= address]
        best = max(near, key=lambda it: it.address, default=None)
        name, start = (best.name, best.address) if best else (extent.title, extent.base)
        text = plus(name, address - start)
        if not row:
            return f'{text}, of which no listing is here'
        return f'{place_of(row)}, {text}: {statement_of(row)}'

    def covers(self, label, space, address, bit):
        """Whether a label covers a byte of internal RAM (space D) or of external memory (X), or a bit of it."""
        if label.kind == 'BIT' and space == 'D':
            return bit is not None and 0 <= (address - 0x20) * 8 + bit - label.address < label.size
        kinds = ('DATA', 'IDATA') if space == 'D' else ('XDATA',)
        return label.kind in kinds and 0 <= address - label.address < label.size

    def cell_text(self, space, address, bit=None):
        """The labels that cover a byte, or a bit of it."""
        for label in self.labels:
            if self.covers(label, space, address, bit):
                distance = 0 if label.kind == 'BIT' else address - label.address
                yield f'{plus(label.name, distance, "{}")} of {label.title}, {label.place}'


def command():
    """The program: that of the environment's M51_PROGRAM, else the one of m51, else the script, which compiles it."""
    built = sources.proved() or (sources.unproved() if sources.is_current() else None)
    return os.environ.get('M51_PROGRAM') or built or os.path.join(sources.TOP, 'm51')


def assemble(source, includes):
    """The module of a source and its listing, by `m51 asm`."""
    with tempfile.TemporaryDirectory() as folder:
        out = os.path.join(folder, 'out.obj')
        words = [command(), 'asm', '--out', out, '--', source, *includes]
        ran = subprocess.run(words, stdout=subprocess.PIPE)
        text = ran.stdout.decode('ascii', 'replace')
        if ran.returncode:
            sys.stderr.write(text)
            raise BadFile(f'{source} is not assembled (status {ran.returncode})')
        with open(out, 'rb') as file:
            return m51files.read_module(file.read())[0], Listing(text, source)


def listings_beside(files, named):
    """The listings that lie beside objects and libraries, but for those of modules that are named."""
    folders = {os.path.dirname(path) for path in files if path.lower().endswith(('.obj', '.lib'))}
    for folder in sorted(folders):
        for name in sorted(os.listdir(folder or '.')):
            if name.lower().endswith('.lst'):
                with contextlib.suppress(BadFile):
                    listing = read_listing(os.path.join(folder, name))
                    if listing.name not in named:
                        yield listing


def read_files(files):
    """The modules of the link of these files, as `m51 build` takes them, and the listings that are there.

    A source is assembled again; the listing of an object is a file that is named too, or NAME.lst beside NAME.obj.
    """
    given, libraries, listings = [], [], []
    includes = [path for path in files if path.lower().endswith('.inc')]
    for path in files:
        ending = os.path.splitext(path)[1].lower()
        if ending == '.a51':
            module, listing = assemble(path, includes)
            given.append(module)
            listings.append(listing)
        elif ending == '.obj':
            given += m51files.read_modules(path)
        elif ending == '.lib':
            libraries.append(m51files.read_modules(path))
        elif ending == '.lst':
            listings.append(read_listing(path))
        elif ending != '.inc':
            raise BadFile(f'{path} has none of the endings .a51, .inc, .obj, .lib and .lst')
    listings += listings_beside(files, {listing.name for listing in listings})
    return m51files.choose(given, libraries), listings


def read_program(lines, files, hex_file=None):
    """The program of a map and of the files of its build; its bytes are those of a HEX file, if one is named."""
    of = Program(m51files.Map(lines), *read_files(files))
    if hex_file:
        stop_unless_same_bytes(of, hex_file)
    return of


def add_arguments(parser):
    """The arguments that name a program."""
    parser.add_argument('-m', '--map', metavar='MAP', help='what m51 build wrote; else standard input is that')
    parser.add_argument('--hex', metavar='F', help='what that build kept as HEX: its bytes are compared as well')
    parser.add_argument('files', metavar='FILE', nargs='+', help='the files of the build, and listings')
