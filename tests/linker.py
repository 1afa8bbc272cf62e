"""The link, made a second time and apart from the program, after docs/LINKER.md.

`link` gives the bases, the map and the image of modules, members of libraries and control lines, or raises Refused with
what the program prints. It is slow and plain: it looks at each pair of segments again.
"""
from dataclasses import dataclass, field
from itertools import product

from objects import (
    ABSOLUTE, BIT, BIT_FIELD, BITADDRESSABLE, BYTE, CODE, CONV, DATA, HIGH, IDATA, INBLOCK, INBLOCK_FIELD, INPAGE, LOW,
    MEMORY, NUMBER, PAGE, RELATIVE, UNIT, WORD, XDATA)

OVERLAYABLE, ARGUMENT = 1, 2
ROOTS = [0x00, 0x03, 0x0B, 0x13, 0x1B, 0x23, 0x2B]
LOCALS = {'?DT?': DATA, '?ID?': IDATA, '?BI?': BIT, '?XD?': XDATA}
KIND_NAMES = {CODE: 'CODE', XDATA: 'XDATA', DATA: 'DATA', IDATA: 'IDATA', BIT: 'BIT'}
CLASSES = ['BITADDRESSABLE', 'BIT', 'DATA', 'IDATA', 'XDATA', 'CODE']
BLOCKS = {INPAGE: 256, INBLOCK: 2048}


class Refused(Exception):
    """The first rule that fails, as it is printed after `LINK `."""


@dataclass
class Segment:
    kind: int
    type: int
    size: int
    name: str = ''
    base: int = 0
    flags: int = 0


@dataclass
class Public:
    kind: int
    segment: int
    number: int
    name: str


@dataclass
class Fixup:
    segment: int
    offset: int
    form: int
    target: int
    addend: int = 0
    is_external: bool = False
    bit: int = 0


@dataclass
class Module:
    name: str
    segments: list = field(default_factory=list)
    externals: list = field(default_factory=list)     # the kind and the name of each
    publics: list = field(default_factory=list)
    pieces: list = field(default_factory=list)        # the segment, the offset and the bytes of each
    fixups: list = field(default_factory=list)
    banks: int = 1


@dataclass
class Joined:
    title: str
    kind: int
    type: int
    flags: int
    base: int
    size: int
    parts_agree: bool = True

    @property
    def class_(self):
        return 'BITADDRESSABLE' if self.type == BITADDRESSABLE else KIND_NAMES[self.kind]

    def own_unit(self):
        """The title of the unit whose local or argument segment this is, or none."""
        front, rest = self.title[:4], self.title[4:]
        if self.flags & ARGUMENT:
            return '?PR?' + rest
        return '?PR?' + rest if self.flags & OVERLAYABLE and LOCALS.get(front) == self.kind else None

    def largest(self):
        if self.type == BITADDRESSABLE:
            return 16
        return BLOCKS.get(self.type) or {DATA: 128, BIT: 128, IDATA: 256}.get(self.kind, 65_535)


@dataclass
class Extent:
    kind: int
    base: int
    size: int
    mark: str
    title: str

    def cells(self):
        """The space, the first cell and the one after the last: bits of internal RAM, else bytes."""
        first, last = self.base, self.base + self.size
        if self.kind in (DATA, IDATA):
            return 'RAM', 8 * first, 8 * last
        return ('RAM', 256 + first, 256 + last) if self.kind == BIT else (KIND_NAMES[self.kind], first, last)

    def meets(self, other):
        (space, first, last), (other_space, other_first, other_last) = self.cells(), other.cells()
        return space == other_space and max(first, other_first) < min(last, other_last)

    def line(self):
        return f'{KIND_NAMES[self.kind]:5} {self.base:04X} {self.size:04X} {self.mark} {self.title}\n'


def chosen(given, libraries):
    """The given modules, and after them the members that are wanted, in the order of their choice."""
    modules = list(given)
    members = [member for library in libraries for member in library]
    while True:
        defined = {public.name for module in modules for public in module.publics}
        missing = {name for module in modules for _, name in module.externals} - defined
        wanted = (member for member in members if all(member is not module for module in modules)
                  and any(public.name in missing for public in member.publics))
        member = next(wanted, None)
        if member is None:
            return modules
        modules.append(member)


def fits(kind, type_, base, size):
    end = base + size
    if type_ == BITADDRESSABLE:
        return 0x20 <= base and end <= 0x30
    if type_ in BLOCKS and size and base // BLOCKS[type_] != (end - 1) // BLOCKS[type_]:
        return False
    return end <= MEMORY[kind] and (type_ != PAGE or base % 256 == 0)


class Link:
    """The link of these modules and control lines; a line is its number, its word and its operands."""

    def __init__(self, modules, controls):
        self.modules, self.controls = modules, controls
        self.joined, self.parts = [], {}
        self.test_publics()
        self.join()
        self.test_segments()
        self.draw()
        self.test_lines()
        self.test_graph()
        self.place()
        self.fill()

    # Publics and externals.

    def test_publics(self):
        self.defined = {}
        for number, module in enumerate(self.modules):
            for public in module.publics:
                self.defined.setdefault(public.name, []).append((number, public))
        for module in self.modules:
            for public in module.publics:
                if len(self.defined[public.name]) > 1:
                    raise Refused(f'L1 {public.name}')
        externals = [external for module in self.modules for external in module.externals]
        for _, name in externals:
            if name not in self.defined:
                raise Refused(f'L2 {name}')
        for kind, name in externals:
            other = self.defined[name][0][1].kind
            if kind != other and NUMBER not in (kind, other):
                raise Refused(f'L3 {name}')

    # Joined segments.

    def join(self):
        numbers = {}
        for module_number, module in enumerate(self.modules):
            for number, segment in enumerate(module.segments, 1):
                self.join_part((module_number, number), segment, numbers)

    def join_part(self, part, segment, numbers):
        if segment.type != ABSOLUTE and segment.name in numbers:
            index = numbers[segment.name]
            whole = self.joined[index]
            begin = -(-whole.size // 256) * 256 if whole.type == PAGE else whole.size
            kept = whole.kind, whole.type, whole.flags
            whole.parts_agree &= kept == (segment.kind, segment.type, segment.flags)
            whole.size = begin + segment.size
            self.parts[part] = index, begin
            return
        title = segment.name if segment.type != ABSOLUTE else f'@{segment.base:04X}'
        numbers[title] = len(self.joined)
        self.parts[part] = len(self.joined), 0
        self.joined.append(
            Joined(title, segment.kind, segment.type, segment.flags, segment.base, segment.size))

    def test_segments(self):
        for joined in self.joined:
            if not joined.parts_agree:
                raise Refused(f'L4 {joined.title}')
        for joined in self.joined:
            if joined.size > joined.largest():
                raise Refused(f'L5 {joined.title}')

    # The graph.

    def unit(self, title):
        return next((number for number in self.units if self.joined[number].title == title), None)

    def target(self, module_number, fixup):
        """The joined segment that a fixup refers to, or none, and the offset there or the value."""
        segment, value, owner = fixup.target, 0, module_number
        if fixup.is_external:
            owner, public = self.defined[self.modules[module_number].externals[fixup.target - 1][1]][0]
            segment, value = public.segment, public.number
        if segment == 0:
            return None, value + fixup.addend
        joined, begin = self.parts[owner, segment]
        return joined, begin + value + fixup.addend

    def draw(self):
        self.units = [number for number, joined in enumerate(self.joined) if joined.kind == CODE]
        self.made = set()
        for module_number, module in enumerate(self.modules):
            for fixup in module.fixups:
                here = self.parts[module_number, fixup.segment][0]
                there, _ = self.target(module_number, fixup)
                if there is not None and self.joined[there].kind == CODE and there != here:
                    self.made.add((here, there))
        for joined in self.joined:
            if joined.flags & OVERLAYABLE and (joined.own_unit() is None or self.unit(joined.own_unit()) is None):
                raise Refused(f'L6 {joined.title}')

    def test_lines(self):
        self.plain_units = {operands[0] for _, word, operands in self.controls if word == 'NOOVERLAY'}
        added, cut = set(), set()
        for line, word, operands in self.controls:
            if not self.stands(word, operands):
                raise Refused(f'L7 LINE {line}')
            if word in ('>', '~'):
                ends = {(self.unit(operands[0]), self.unit(title)) for title in operands[1:]}
                (added if word == '>' else cut).update(ends)
        self.edges = (self.made | added) - cut

    def stands(self, word, operands):
        if word == 'ORDER':
            return all(self.may_be_ordered(operands[0], name) for name in operands[1:])
        if word == 'RESERVE':
            return True
        units = [self.unit(title) for title in operands]
        if None in units:
            return False
        if word == '~':
            return all((units[0], other) in self.made for other in units[1:])
        return word != '>' or units[0] not in units[1:]

    def may_be_ordered(self, class_, name):
        named = [joined for joined in self.joined if joined.title == name]
        return bool(named) and not self.is_overlaid(named[0]) and named[0].class_ == class_

    def is_overlaid(self, joined):
        return bool(joined.flags & OVERLAYABLE) and joined.own_unit() not in self.plain_units

    def reach_of(self, unit):
        reached, ahead = set(), [unit]
        while ahead:
            here = ahead.pop()
            for begin, there in self.edges:
                if begin == here and there not in reached:
                    reached.add(there)
                    ahead.append(there)
        return reached

    def level(self, unit):
        return max((self.level(begin) + 1 for begin, there in self.edges if there == unit), default=0)

    def test_graph(self):
        begins = {address: [unit for unit in self.units if self.joined[unit].type == ABSOLUTE
                            and self.joined[unit].base == address] for address in ROOTS}
        self.roots = {address: units for address, units in begins.items() if units}
        if 0 not in self.roots:
            raise Refused('L8')
        self.reach = {unit: self.reach_of(unit) for unit in self.units}
        around = [self.joined[unit].title for unit in self.units if unit in self.reach[unit]]
        if around:
            raise Refused(' '.join(['L10', *around]))
        self.over = {unit: [address for address, roots in self.roots.items()
                            if any(unit == root or unit in self.reach[root] for root in roots)]
                     for unit in self.units}
        overlaid = {self.unit(joined.own_unit()) for joined in self.joined if self.is_overlaid(joined)}
        for unit in self.units:
            if unit in overlaid and len(self.over[unit]) > 1:
                raise Refused('L11 {} @{:04X} @{:04X}'.format(self.joined[unit].title, *self.over[unit][:2]))

    def owners(self, joined):
        own = self.unit(joined.own_unit())
        callers = {begin for begin, there in self.edges if there == own} if joined.flags & ARGUMENT else set()
        return {own} | callers

    def may_clash(self, one, two):
        """Whether two units may run at the same time, or one of them is not known to run."""
        return one == two or two in self.reach[one] or one in self.reach[two] or self.over[one] != self.over[two] \
            or not self.over[one]

    def in_conflict(self, one, two):
        if not (self.is_overlaid(one) and self.is_overlaid(two)):
            return True
        return any(self.may_clash(*pair) for pair in product(self.owners(one), self.owners(two)))

    # Placing.

    def fixed(self):
        """Banks, reserves and absolute segments, each with its joined number or none."""
        banks = 1
        for module in self.modules:
            banks |= module.banks
        for bank in range(4):
            if banks >> bank & 1:
                yield None, Extent(DATA, 8 * bank, 8, 'B', f'BANK{bank}')
        for _, word, operands in self.controls:
            if word == 'RESERVE':
                kind, low, high = operands
                yield None, Extent(kind, low, high - low + 1, 'R', 'RESERVE')
        for number, joined in enumerate(self.joined):
            if joined.type == ABSOLUTE:
                yield number, Extent(joined.kind, joined.base, joined.size, 'A', joined.title)

    def order(self, number):
        """What a relocatable segment is placed by."""
        joined = self.joined[number]
        named = [name for _, word, operands in self.controls if word == 'ORDER' for name in operands[1:]]
        class_ = CLASSES.index(joined.class_)
        if self.is_overlaid(joined):
            unit = self.unit(joined.own_unit())
            return class_, 1, (self.over[unit] or [65_536])[0], self.level(unit), number
        if joined.title in named:
            return class_, 0, 0, named.index(joined.title), number
        return class_, 2 if joined.title == '?STACK' and joined.kind == IDATA else 0, 1, 0, number

    def place(self):
        self.placed = []
        for number, extent in self.fixed():
            for _, earlier in self.placed:
                if earlier.meets(extent):
                    raise Refused(f'L9 {earlier.title} {extent.title}')
            self.placed.append((number, extent))
        relocatable = [number for number, joined in enumerate(self.joined) if joined.type != ABSOLUTE]
        for number in sorted(relocatable, key=self.order):
            self.placed.append((number, self.lowest(self.joined[number], number)))
        self.bases = {number: extent.base for number, extent in self.placed if number is not None}

    def lowest(self, joined, number):
        mark = 'O' if self.is_overlaid(joined) else 'P'
        extent = Extent(joined.kind, 0, joined.size, mark, joined.title)
        others = [other for earlier, other in self.placed
                  if earlier is None or self.in_conflict(joined, self.joined[earlier])]
        while extent.base <= MEMORY[joined.kind]:
            met = next((other for other in others if other.meets(extent)), None)
            if met:
                _, _, last = met.cells()
                extent.base = {DATA: -(-last // 8), IDATA: -(-last // 8), BIT: last - 256}.get(joined.kind, last)
            elif fits(joined.kind, joined.type, extent.base, joined.size):
                return extent
            else:
                extent.base += 1
        raise Refused(f'L12 {joined.title}')

    # Fields and the image.

    def fill(self):
        self.image = {}
        fields = []
        for module_number, module in enumerate(self.modules):
            for segment, offset, data in module.pieces:
                joined, begin = self.parts[module_number, segment]
                self.image.update({self.bases[joined] + begin + offset + k: byte for k, byte in enumerate(data)})
            for fixup in module.fixups:
                joined, begin = self.parts[module_number, fixup.segment]
                fields.append((joined, begin + fixup.offset, module_number, fixup))
        for joined, offset, module_number, fixup in sorted(fields, key=lambda it: it[:2]):
            there, value = self.target(module_number, fixup)
            address = (value + (0 if there is None else self.bases[there])) % 65_536
            at = self.bases[joined] + offset
            filled = self.field(fixup, address, at)
            if filled is None:
                raise Refused(f'L13 {self.joined[joined].title} {offset:04X}')
            self.image.update({at + k: byte for k, byte in enumerate(filled)})

    def field(self, fixup, address, at):
        """The bytes of a field, or none where its rule fails."""
        low, high = address % 256, address // 256
        if fixup.form == BYTE:
            return [low] if high in (0, 0xFF) else None
        if fixup.form == RELATIVE:
            distance = (address - at - 1 + 0x8000) % 65_536 - 0x8000
            return [distance % 256] if -128 <= distance <= 127 else None
        if fixup.form == INBLOCK_FIELD:
            first = self.image[at] % 32 + high % 8 * 32
            return [first, low] if address >> 11 == (at + 2) % 65_536 >> 11 else None
        if fixup.form == BIT_FIELD:
            return [low] if high == 0 else None
        if fixup.form == CONV:
            return self.bit_address(address, fixup.bit)
        return {LOW: [low], HIGH: [high], WORD: [high, low]}[fixup.form]

    def bit_address(self, address, bit):
        if 0x20 <= address <= 0x2F:
            return [8 * (address - 0x20) + bit]
        return [address + bit] if 0x80 <= address <= 0xFF and address % 8 == 0 else None

    # The map.

    def weight(self, unit):
        return sum(joined.size for joined in self.joined if self.is_overlaid(joined) and joined.kind == DATA
                   and joined.type == UNIT and self.unit(joined.own_unit()) == unit)

    def chain(self, unit):
        """The sum and the units of the heaviest walk from a unit; of equals the least by unit numbers."""
        walks = [(0, [])] + [self.chain(there) for begin, there in self.edges if begin == unit]
        best = min(walks, key=lambda walk: (-walk[0], walk[1]))
        return best[0] + self.weight(unit), [unit, *best[1]]

    def titles(self, units):
        return ','.join(self.joined[unit].title for unit in units) or '-'

    def unit_line(self, unit):
        over = ','.join(f'@{address:04X}' for address in self.over[unit]) or '-'
        calls = self.titles(sorted(there for begin, there in self.edges if begin == unit))
        return f'{self.joined[unit].title} FROM {over} TO {calls}\n'

    def chain_line(self, root):
        weight, units = self.chain(root)
        return f'CHAIN {self.joined[root].title} {weight} {self.titles(units)}\n'

    def map(self):
        shared = {byte for number, extent in self.placed if extent.mark == 'O' and extent.kind == DATA
                  for byte in range(extent.base, extent.base + extent.size)}
        return ''.join([
            'SEGMENTS\n', *[extent.line() for _, extent in self.placed],
            'UNITS\n', *[self.unit_line(unit) for unit in self.units],
            *[self.chain_line(units[0]) for units in self.roots.values()],
            f'OVERLAID {len(shared)} BYTES\n', f'IMAGE {len(self.image)} BYTES\n',
        ])


def link(given, libraries, controls):
    return Link(chosen(given, libraries), controls)
