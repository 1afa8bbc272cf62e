"""The assembler from the second group of faults on, a second time and apart from the program, after docs/LANGUAGE.md.

`assemble` takes lines that are read already: tuples of a label or none, a word, and operands, whose expressions are
trees. It gives the faults, or the module and what the listing says of each line.
"""
from dataclasses import dataclass, replace

import board
from linker import ARGUMENT, OVERLAYABLE, Fixup, Module, Public, Segment
from objects import (
    ABSOLUTE, BIT, BIT_FIELD, BITADDRESSABLE, BYTE, CODE, CONV, DATA, HIGH, IDATA, INBLOCK_FIELD, LOW, MEMORY, NUMBER,
    RELATIVE, WORD)

PORTS_AND_REGISTERS = {
    'P0': 0x80, 'SP': 0x81, 'DPL': 0x82, 'DPH': 0x83, 'PCON': 0x87, 'TCON': 0x88, 'P1': 0x90, 'SCON': 0x98,
    'SBUF': 0x99, 'P2': 0xA0, 'IE': 0xA8, 'P3': 0xB0, 'IP': 0xB8, 'T2CON': 0xC8, 'PSW': 0xD0, 'ACC': 0xE0, 'B': 0xF0}
NAMED_BITS = {'TR0': 0x8C, 'RI': 0x98, 'EA': 0xAF, 'CY': 0xD7, 'TF2': 0xCF, 'T2': 0x90, 'RXD': 0xB0}
PREDEFINED = {*PORTS_AND_REGISTERS, *NAMED_BITS, *[f'AR{number}' for number in range(8)]}
# The least opcode of each form.
OPCODES = {board.form_of(opcode): opcode for opcode in reversed(range(256))}
HIGH_PART, LOW_PART = 'HIGH', 'LOW'


class Fault(Exception):
    """A fault by its number."""

    def __init__(self, number):
        super().__init__(number)
        self.number = number


@dataclass(frozen=True)
class Value:
    number: int
    class_: int = NUMBER
    base: tuple = None                                # ('segment', Filled) or ('external', number)
    part: object = None                               # HIGH, LOW or a number of a bit

    def plain(self):
        """Whether it is based on nothing, or on an absolute segment."""
        return self.base is None or self.base[0] == 'segment' and self.base[1].type == ABSOLUTE

    def counted(self):
        """The number that a value without a base, or with that of an absolute segment, counts as."""
        if self.base is None or self.part is None:
            return self.number
        if self.part in (HIGH_PART, LOW_PART):
            return self.number >> 8 if self.part == HIGH_PART else self.number & 0xFF
        return bit_address(self.number, self.part)


def bit_address(byte, bit):
    if 0x20 <= byte <= 0x2F:
        return 8 * (byte - 0x20) + bit
    return byte + bit


def is_bit_byte(byte):
    return 0x20 <= byte <= 0x2F or 0x80 <= byte <= 0xF8 and byte % 8 == 0


@dataclass(eq=False)
class Filled:
    """A segment while it is filled: where it begins, how far it reaches, and its bytes by their offsets."""
    kind: int
    type: int
    name: str = ''
    base: int = 0
    flags: int = 0
    size: int = 0

    def __post_init__(self):
        self.content, self.fixups = {}, []

    @property
    def at(self):
        return self.base + self.size


def without_base(value):
    """The number of an operand that may have no base; E8 where it has one that counts."""
    if not value.plain():
        raise Fault(8)
    return value.counted()


def joined_class(one, two):
    return one.class_ if two.class_ == NUMBER else two.class_ if one.class_ == NUMBER else NUMBER


def settled(value):
    """A value under an operator: after HIGH, LOW or `.` an absolute one is a number, another stands under none."""
    if value.base is None or value.part is None:
        return value
    return Value(without_base(value), value.class_)


def added(one, two):
    one, two = settled(one), settled(two)
    class_, number = joined_class(one, two), (one.number + two.number) % 65_536
    if one.base and two.base:
        if one.plain() and two.plain():
            return Value(number, class_)
        if not one.plain() and not two.plain():
            raise Fault(8)
        return Value(number, class_, two.base if one.plain() else one.base)
    return Value(number, class_, one.base or two.base)


def subtracted(one, two):
    same = one.base is not None and one.base == two.base and one.part is None and two.part is None
    one, two = settled(one), settled(two)
    class_, number = one.class_ if two.class_ == NUMBER else NUMBER, (one.number - two.number) % 65_536
    if same:
        return Value(number, class_)
    if not two.plain():
        raise Fault(8)
    return Value(number, class_, None if one.plain() and two.base else one.base)


def divided(one, two, make):
    if two == 0:
        raise Fault(9)
    return make(one, two)


def truth(holds):
    return 0xFFFF if holds else 0


NUMBERS = {
    '*': lambda one, two: one * two, '/': lambda one, two: divided(one, two, int.__floordiv__),
    'MOD': lambda one, two: divided(one, two, int.__mod__),
    'SHL': lambda one, two: one << two if two < 16 else 0, 'SHR': lambda one, two: one >> two if two < 16 else 0,
    'EQ': lambda one, two: truth(one == two), 'NE': lambda one, two: truth(one != two),
    'LT': lambda one, two: truth(one < two), 'LE': lambda one, two: truth(one <= two),
    'GT': lambda one, two: truth(one > two), 'GE': lambda one, two: truth(one >= two),
    'AND': int.__and__, 'OR': int.__or__, 'XOR': int.__xor__,
}


def part_of(word, value):
    if value.base is None:
        return Value(value.number >> 8 if word == HIGH_PART else value.number & 0xFF)
    if value.part is None:
        return Value(value.number, NUMBER, value.base, word)
    number = without_base(value)
    return Value(number >> 8 if word == HIGH_PART else number & 0xFF)


def dotted(one, two):
    if not two.plain() or not one.plain() and one.part is not None:
        raise Fault(8)
    bit = two.counted()
    if one.plain():
        byte = one.counted()
        if bit > 7 or not is_bit_byte(byte):
            raise Fault(10)
        if one.base is None or one.part is not None:
            return Value(bit_address(byte, bit), BIT)
        return Value(one.number, BIT, one.base, bit)
    kind, owner = one.base
    allowed = one.class_ == DATA if kind == 'external' else owner.type == BITADDRESSABLE
    if bit > 7 or not allowed:
        raise Fault(10)
    return Value(one.number, BIT, one.base, bit)


def value_of(tree, names):
    """The value of an expression; its operands come before its operator, from left to right."""
    if isinstance(tree, int):
        return Value(tree)
    if isinstance(tree, str):
        return names(tree)
    word, *operands = tree
    values = [value_of(operand, names) for operand in operands]
    if len(values) == 1:
        return unary(word, *values)
    if word in '+-':
        return added(*values) if word == '+' else subtracted(*values)
    if word == '.':
        return dotted(*values)
    return Value(NUMBERS[word](without_base(values[0]), without_base(values[1])) % 65_536)


def unary(word, value):
    if word in (HIGH_PART, LOW_PART):
        return part_of(word, value)
    number = without_base(value)
    if word == '+':
        return Value(number, value.class_)
    return Value((-number if word == '-' else ~number) % 65_536)


class Assembler:
    """Goes through the lines twice: places first, then content."""

    def __init__(self, lines):
        self.lines = lines
        self.defined_lines = {}
        for number, (label, word, operands) in enumerate(lines):
            for name in self.defines(label, word, operands):
                self.defined_lines.setdefault(name, number)
        self.values, self.sets, self.externals, self.named = {}, {}, [], {}
        self.is_set, self.last, self.bank, self.banks = set(), {}, 0, 1
        self.segments = []
        self.current = self.begin(Filled(CODE, ABSOLUTE))
        self.published = []
        self.steps = []                               # of each line its segment, its place, its bank and its form

    def defines(self, label, word, operands):
        names = [label] if label else []
        if word in ('EQU', 'SET', 'SEGMENT', 'ADDRESS'):
            names.append(operands[0])
        return names + (operands[1] if word == 'EXTRN' else [])

    def begin(self, place):
        self.segments.append(place)
        if place.type == ABSOLUTE:
            self.last[place.kind] = place
        return place

    # Names.

    def known(self, name, line, above):
        """The value of a name at a line; where only names above count, else all of the module."""
        if name == '$':
            segment, at = self.steps[line][:2]
            return Value(at, segment.kind, ('segment', segment))
        if name in self.sets:
            earlier = [value for at, value in self.sets[name] if at < line]
            if earlier:
                return earlier[-1]
            raise Fault(7)
        if name in self.values and (not above or self.defined_lines[name] < line):
            return self.values[name]
        if name in self.defined_lines:
            raise Fault(7)
        if name in PORTS_AND_REGISTERS:
            return Value(PORTS_AND_REGISTERS[name], DATA)
        if name in NAMED_BITS:
            return Value(NAMED_BITS[name], BIT)
        if len(name) == 3 and name.startswith('AR') and name[2] in '01234567':
            return Value(8 * self.steps[line][2] + int(name[2]), DATA)
        raise Fault(7)

    def evaluated(self, tree, line, above=True):
        return value_of(tree, lambda name: self.known(name, line, above))

    # Places.

    def places(self):
        """The fault of the second group, by its line, or none."""
        for number, (label, word, operands) in enumerate(self.lines):
            self.steps.append([self.current, self.current.at, self.bank, None])
            try:
                self.place(number, label, word, operands)
            except Fault as fault:
                return [(number, fault.number)]
        return []

    def place(self, number, label, word, operands):
        here = self.current
        published = [name for _, name in self.published]
        names = [*published, *operands] if word == 'PUBLIC' else self.defines(label, word, operands)
        taken = {*self.values, *self.sets} - {name for name in self.is_set if word == 'SET'}
        if len(set(names)) < len(names) or word != 'PUBLIC' and taken & set(names):
            raise Fault(13)
        getattr(self, 'place_' + word.lower())(number, *operands)
        if label:
            self.values[label] = Value(self.steps[number][1], here.kind, ('segment', here))

    def grow(self, count):
        self.current.size += count

    def test_growth(self, count):
        """E15 comes before E12 by place."""
        segment = self.current
        if segment.at + count > MEMORY[segment.kind] or segment.size + count > 65_535:
            raise Fault(15)

    def number_of(self, tree, number):
        return without_base(self.evaluated(tree, number))

    def place_none(self, number):
        pass

    def place_segment(self, number, name, kind, type_, overlays):
        flags = OVERLAYABLE if overlays else 0
        if overlays and kind == DATA and name.startswith('?AG?'):
            flags |= ARGUMENT
        segment = Filled(kind, type_, name, flags=flags)
        self.named[name] = segment
        self.segments.append(segment)
        self.values[name] = Value(0, kind, ('segment', segment))

    def place_rseg(self, number, name):
        if name not in self.named:
            is_other = name in self.values or name in self.sets
            raise Fault(14 if is_other or name in PREDEFINED and name not in self.defined_lines else 7)
        self.current = self.named[name]

    def place_select(self, number, kind, tree):
        if tree is None:
            self.current = self.last.get(kind) or self.begin(Filled(kind, ABSOLUTE))
            return
        self.start(kind, self.number_of(tree, number))

    def start(self, kind, base):
        if base > MEMORY[kind]:
            raise Fault(15)
        self.current = self.begin(Filled(kind, ABSOLUTE, base=base))

    def place_org(self, number, tree):
        if self.current.type != ABSOLUTE:
            raise Fault(12)
        self.start(self.current.kind, self.number_of(tree, number))

    def place_using(self, number, tree):
        bank = self.number_of(tree, number)
        if bank > 3:
            raise Fault(14)
        self.bank = bank
        self.banks |= 1 << bank

    def sized(self, number, tree, allowed):
        """A reserve: its number is only there to be tested for E15 if it has no fault of its own."""
        try:
            count, fault = self.number_of(tree, number), None
        except Fault as failed:
            count, fault = 0, failed
        self.test_growth(count)
        if not allowed:
            raise Fault(12)
        if fault:
            raise fault
        self.grow(count)

    def place_ds(self, number, tree):
        self.sized(number, tree, self.current.kind != BIT)

    def place_dbit(self, number, tree):
        self.sized(number, tree, self.current.kind == BIT)

    def place_equ(self, number, name, tree):
        self.values[name] = self.evaluated(tree, number)

    def place_set(self, number, name, tree):
        value = self.evaluated(tree, number)
        self.is_set.add(name)
        self.sets.setdefault(name, []).append((number, value))

    def place_address(self, number, name, kind, tree):
        value = self.evaluated(tree, number)
        narrow = kind in (DATA, IDATA, BIT)
        if value.class_ not in (kind, NUMBER) or value.plain() and narrow and value.counted() > 0xFF:
            raise Fault(14)
        self.values[name] = replace(value, class_=kind)

    def place_extrn(self, number, kind, names):
        for name in names:
            self.externals.append((kind, name))
            self.values[name] = Value(0, kind, ('external', len(self.externals)))

    def place_public(self, number, *names):
        self.published += [(number, name) for name in names]

    def code(self, count):
        self.test_growth(count)
        if self.current.kind != CODE:
            raise Fault(12)
        self.grow(count)

    def place_db(self, number, *items):
        self.code(items_size(items))

    def place_dw(self, number, *items):
        self.code(2 * len(items))

    def place_code(self, number, form, *operands):
        if form in ('JMP', 'CALL'):
            form = self.chosen(number, form, operands[0])
        self.steps[number][3] = form
        self.code(board.length_of(form))

    def chosen(self, number, word, tree):
        """The form of a generic JMP or CALL."""
        far = {'JMP': 'LJMP addr16', 'CALL': 'LCALL addr16'}[word]
        segment, at = self.current, self.current.at
        label = self.lines[number][0]
        own = Value(at, segment.kind, ('segment', segment))
        try:
            value = value_of(tree, lambda name: own if name == label else self.known(name, number, True))
        except Fault:
            return far
        if value.base is not None and value.base != ('segment', segment) or value.part in (HIGH_PART, LOW_PART):
            return far
        if segment.type != ABSOLUTE and value.base is None:
            return far
        target = value.counted() if value.plain() else value.number
        if word == 'JMP' and is_near(target, at + 2):
            return 'SJMP rel'
        if segment.type == ABSOLUTE and target >> 11 == (at + 2) % 65_536 >> 11:
            return {'JMP': 'AJMP addr11', 'CALL': 'ACALL addr11'}[word]
        return far

    # Content.

    def contents(self):
        faults = []
        for number, (_, word, operands) in enumerate(self.lines):
            try:
                if word in ('CODE', 'DB', 'DW'):
                    self.content(number, word, operands)
                elif word == 'PUBLIC':
                    for name in operands:
                        self.public(number, name)
            except Fault as fault:
                faults.append((number, fault.number))
        return faults

    def content(self, number, word, operands):
        segment, at, _, form = self.steps[number]
        self.at, self.segment, self.number = at, segment, number
        if word == 'CODE':
            self.instruction(form, list(operands[1:]))
        for item in operands if word != 'CODE' else []:
            if isinstance(item, tuple) and item[0] == 'text':
                self.emit(item[1])
            else:
                self.field('#data' if word == 'DB' else '#data16', item)

    def emit(self, data):
        for byte in data:
            self.segment.content[self.at - self.segment.base] = byte
            self.at += 1

    def instruction(self, form, operands):
        name, words = board.parts_of(form)
        opcode = OPCODES[form]
        trees = []
        for word in words:
            if word in ('Rn', '@Ri'):
                opcode += operands.pop(0)
            elif word in board.FIELDS:
                trees.append((word, operands.pop(0)))
        self.after = self.at + board.length_of(form)
        if words == ['addr11']:
            self.near(opcode, trees[0][1])
            return
        self.emit([opcode])
        if form == 'MOV direct,direct':
            # The source comes first in the bytes; faults are told from left to right.
            self.check('direct', trees[0][1])
            trees.reverse()
        for word, tree in trees:
            self.field(word, tree)

    def check(self, word, tree):
        self.tested(word, self.evaluated(tree, self.number, above=False))

    def tested(self, word, value):
        """The rules of a place on a value; its number where no fixup is made, else none."""
        classes = {'direct': DATA, 'bit': BIT, '/bit': BIT, 'rel': CODE, 'addr11': CODE, 'addr16': CODE}
        if word in classes and value.class_ not in (classes[word], NUMBER):
            raise Fault(14)
        if value.base is not None and value.part is not None:
            places = ('#data', 'direct') if value.part in (HIGH_PART, LOW_PART) else ('#data', 'direct', 'bit', '/bit')
            if word not in places:
                raise Fault(14)
        if not value.plain():
            return None
        number = value.counted()
        if word == '#data' and 0xFF < number < 0xFF00 or word in ('direct', 'bit', '/bit') and number > 0xFF:
            raise Fault(14)
        return number

    def makes_fixup(self, value):
        if value.base is None:
            return False
        kind, owner = value.base
        if kind == 'external' or owner.type != ABSOLUTE:
            return True
        return owner is not self.segment and owner.size > 0

    def field(self, word, tree):
        value = self.evaluated(tree, self.number, above=False)
        number = self.tested(word, value)
        if word == 'rel':
            self.relative(value, number)
        elif self.makes_fixup(value):
            forms = {'#data16': WORD, 'addr16': WORD, 'bit': BIT_FIELD, '/bit': BIT_FIELD}
            form = forms.get(word, BYTE)
            form = {HIGH_PART: HIGH, LOW_PART: LOW, None: form}.get(value.part, CONV)
            self.fix(value, form, [0, 0] if form == WORD else [0])
        elif word in ('#data16', 'addr16'):
            self.emit([number >> 8, number & 0xFF])
        else:
            self.emit([number & 0xFF])

    def fix(self, value, form, data):
        self.segment.fixups.append((self.at - self.segment.base, form, value))
        self.emit(data)

    def is_own(self, value):
        return value.base == ('segment', self.segment)

    def relative(self, value, number):
        if self.is_own(value):
            number = value.number
        elif self.makes_fixup(value):
            self.fix(value, RELATIVE, [0])
            return
        elif self.segment.type != ABSOLUTE:
            raise Fault(14)
        if not is_near(number, self.after):
            raise Fault(14)
        self.emit([(number - self.after) % 256])

    def near(self, opcode, tree):
        value = self.evaluated(tree, self.number, above=False)
        number = self.tested('addr11', value)
        if self.makes_fixup(value):
            self.fix(value, INBLOCK_FIELD, [opcode, 0])
            return
        if self.segment.type != ABSOLUTE or number >> 11 != self.after % 65_536 >> 11:
            raise Fault(14)
        self.emit([opcode + (number >> 8 & 7) * 32, number & 0xFF])

    def public(self, number, name):
        if name in self.is_set or name in self.named:
            raise Fault(8)
        value = self.known(name, number, above=False)
        if value.base is not None and (value.base[0] == 'external' or value.part is not None):
            raise Fault(8)
        if value.base is not None and value.class_ != value.base[1].kind:
            raise Fault(14)

    # The module.

    def row(self, number):
        """The place of a line, if it has one, its first three bytes, and whether a fixup lies in it."""
        label, word, operands = self.lines[number]
        segment, at, _, form = self.steps[number]
        has_place = label or word in ('CODE', 'DB', 'DW', 'DS', 'DBIT')
        count = {'CODE': board.length_of(form or ''), 'DB': items_size(operands), 'DW': 2 * len(operands)}.get(word, 0)
        held = range(at - segment.base, at - segment.base + count)
        is_marked = any(offset in held for offset, _, _ in segment.fixups)
        return f'{at % 65_536:04X}' if has_place else '', bytes(segment.content[k] for k in held[:3]), is_marked

    def numbers(self):
        kept = [segment for segment in self.segments if segment.type != ABSOLUTE or segment.size]
        return {segment: number for number, segment in enumerate(kept, 1)}

    def made(self, name):
        numbers = self.numbers()
        module = Module(name, externals=self.externals, banks=self.banks)
        for segment, number in numbers.items():
            module.segments.append(
                Segment(segment.kind, segment.type, segment.size, segment.name, segment.base, segment.flags))
            module.pieces += pieces(number, segment.content)
            module.fixups += [self.fixup(number, numbers, *parts) for parts in segment.fixups]
        for line, public in self.published:
            value = self.known(public, line, above=False)
            owner = numbers.get(value.base[1], 0) if value.base else 0
            offset = value.number - (value.base[1].base if owner else 0)
            module.publics.append(Public(value.class_, owner, offset % 65_536, public))
        return module

    def fixup(self, number, numbers, offset, form, value):
        kind, owner = value.base
        bit = value.part if form == CONV else 0
        if kind == 'external':
            return Fixup(number, offset, form, owner, value.number, True, bit)
        return Fixup(number, offset, form, numbers[owner], (value.number - owner.base) % 65_536, False, bit)


def items_size(items):
    return sum(len(item[1]) if isinstance(item, tuple) and item[0] == 'text' else 1 for item in items)


def is_near(target, after):
    return (target - after + 128) % 65_536 < 256


def pieces(number, content):
    """The bytes in rows of at most 1,024 that go on."""
    rows = []
    for offset in sorted(content):
        if not rows or rows[-1][1] + len(rows[-1][2]) != offset or len(rows[-1][2]) == 1024:
            rows.append((number, offset, bytearray()))
        rows[-1][2].append(content[offset])
    return [(number, offset, bytes(data)) for number, offset, data in rows]


def assemble(name, lines):
    """The faults, each its line counted from 0 and its number, and the module and the rows, or none."""
    assembler = Assembler(lines)
    faults = assembler.places() or assembler.contents()
    return faults, None if faults else assembler.made(name), [] if faults else map(assembler.row, range(len(lines)))
