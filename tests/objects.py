"""Objects, libraries and HEX files, written and read a second time and apart from the program, after docs/OBJECTS.md.

`object_refusal`, `library_refusal` and `hex_refusal` give what the program prints after `OBJECT file: `, or None of a
file that is accepted.
"""
import string

HEADER, SEGMENT, EXTERNAL, PUBLIC, PIECE, FIXUP, END, LIBRARY = 0x02, 0x0E, 0x18, 0x16, 0x06, 0x08, 0x04, 0x2C
ORDER = [HEADER, SEGMENT, EXTERNAL, PUBLIC, PIECE, FIXUP, END]

CODE, XDATA, DATA, IDATA, BIT, NUMBER = range(6)
ABSOLUTE, UNIT, BITADDRESSABLE, INPAGE, INBLOCK, PAGE = range(6)
LOW, BYTE, RELATIVE, HIGH, WORD, INBLOCK_FIELD, BIT_FIELD, CONV = range(8)

# The types that a segment of each kind may have, its largest size, and the end of its memory.
TYPES = {
    CODE: {ABSOLUTE, UNIT, INPAGE, INBLOCK, PAGE}, XDATA: {ABSOLUTE, UNIT, INPAGE, PAGE},
    DATA: {ABSOLUTE, UNIT, BITADDRESSABLE}, IDATA: {ABSOLUTE, UNIT}, BIT: {ABSOLUTE, UNIT},
}
LARGEST = {CODE: 65_535, XDATA: 65_535, DATA: 128, IDATA: 256, BIT: 128}
MEMORY = {CODE: 65_536, XDATA: 65_536, DATA: 128, IDATA: 256, BIT: 128}
FIELD_BYTES = {WORD: 2, INBLOCK_FIELD: 2}
FIRST_LETTERS = set((string.ascii_uppercase + '?_').encode())
LETTERS = FIRST_LETTERS | set(string.digits.encode())


# Writing.

def two(number):
    return (number % 65_536).to_bytes(2, 'little')


def name_field(name):
    return bytes([len(name)]) + name.encode()


def record(kind, contents):
    front = bytes([kind]) + two(len(contents) + 1) + bytes(contents)
    return front + bytes([-sum(front) % 256])


def header(name, version=1):
    return record(HEADER, name_field(name) + bytes([version]))


def segment(kind, type_, size, name='', base=0, flags=0):
    return record(SEGMENT, bytes([kind, type_, flags]) + two(base) + two(size) + name_field(name))


def external(kind, name):
    return record(EXTERNAL, bytes([kind]) + name_field(name))


def public(kind, segment_number, number, name):
    return record(PUBLIC, bytes([kind, segment_number]) + two(number) + name_field(name))


def piece(segment_number, offset, digits):
    return record(PIECE, bytes([segment_number]) + two(offset) + bytes.fromhex(digits))


def fixup(segment_number, offset, form, target, addend=0, is_external=False, bit=0):
    fields = bytes([form, bit, int(is_external), target])
    return record(FIXUP, bytes([segment_number]) + two(offset) + fields + two(addend))


def end(name, banks=1):
    return record(END, name_field(name) + bytes([banks]))


def empty_module(name, version=1):
    return header(name, version) + end(name)


def library(*modules):
    return record(LIBRARY, two(len(modules))) + b''.join(modules)


def hex_record(address, digits, kind=0):
    data = bytes.fromhex(digits)
    front = bytes([len(data)]) + address.to_bytes(2, 'big') + bytes([kind]) + data
    return ':' + (front + bytes([-sum(front) % 256])).hex().upper()


# Reading.

class Refused(Exception):
    """The first test that fails, as it is printed."""


class Record:
    """The fields of a record from left to right; `place` is where the next one begins."""

    def __init__(self, data, at, number, types):
        if at == len(data):
            raise Refused(f'O1 AT {len(data)}')
        self.type = data[at]
        if self.type not in types:
            raise Refused(f'O3 AT {at}')
        if at + 3 > len(data):
            raise Refused(f'O1 AT {len(data)}')
        length = int.from_bytes(data[at + 1:at + 3], 'little')
        if length == 0:
            raise Refused(f'O4 AT {at + 1}')
        self.after = at + 3 + length
        if self.after > len(data):
            raise Refused(f'O1 AT {len(data)}')
        found, needed = data[self.after - 1], -sum(data[at:self.after - 1]) % 256
        if found != needed:
            raise Refused(f'O2 RECORD {number} FOUND {found:02X} NEEDED {needed:02X}')
        self.data, self.place, self.last = data, at + 3, self.after - 1

    def need(self, holds, at, refusal='O4'):
        if not holds:
            raise Refused(f'{refusal} AT {at}')

    def field(self, size=1):
        """The place and the number of a field of so many bytes."""
        at = self.place
        self.need(at + size <= self.last, at)
        self.place += size
        return at, int.from_bytes(self.data[at:at + size], 'little')

    def name(self):
        """The place and the bytes of a name field, which may be no name."""
        at, size = self.field()
        self.need(self.place + size <= self.last, at)
        self.place += size
        return at, self.data[at + 1:self.place]

    def ended(self):
        self.need(self.place == self.last, self.place)
        return self.after


def is_name(name):
    return 1 <= len(name) <= 31 and name[0] in FIRST_LETTERS and set(name) <= LETTERS


class Module:
    def __init__(self):
        self.segments, self.segment_names, self.externals, self.publics = [], set(), [], []
        self.pieces, self.held, self.fixups = [], set(), 0
        self.last_field = (0, 0)

    def header(self, read):
        at, self.name = read.name()
        read.need(is_name(self.name), at)
        at, self.version = read.field()
        read.need(self.version in (1, 2), at)

    def segment(self, read):
        read.need(len(self.segments) < 254, read.place)
        at, kind = read.field()
        read.need(kind in TYPES, at)
        at, type_ = read.field()
        read.need(type_ in TYPES[kind], at)
        at, flags = read.field()
        argument = self.version == 2 and kind == DATA and flags == 3
        read.need(flags == 0 or kind != CODE and type_ != ABSOLUTE and (flags == 1 or argument), at)
        at, base = read.field(2)
        read.need(type_ == ABSOLUTE or base == 0, at)
        at, size = read.field(2)
        read.need(size <= LARGEST[kind] and (type_ != ABSOLUTE or 0 < size and base + size <= MEMORY[kind]), at)
        at, name = read.name()
        if type_ == ABSOLUTE:
            read.need(name == b'', at)
        else:
            read.need(is_name(name) and name not in self.segment_names, at)
            read.need(not argument or name.startswith(b'?AG?'), at)
            self.segment_names.add(name)
        self.segments.append((kind, size))

    def external(self, read):
        read.need(len(self.externals) < 255, read.place)
        at, kind = read.field()
        read.need(kind <= NUMBER, at)
        at, name = read.name()
        read.need(is_name(name) and name not in self.externals, at)
        self.externals.append(name)

    def public(self, read):
        at, kind = read.field()
        read.need(kind <= NUMBER, at)
        at, number = read.field()
        read.need(number <= len(self.segments), at, 'O5')
        read.need(number == 0 or self.segments[number - 1][0] == kind, at)
        read.field(2)
        at, name = read.name()
        read.need(is_name(name) and name not in self.publics, at)
        self.publics.append(name)

    def piece(self, read):
        at, number = read.field()
        read.need(1 <= number <= len(self.segments), at, 'O5')
        kind, size = self.segments[number - 1]
        before, last, count = self.pieces[-1] if self.pieces else (0, 0, 0)
        read.need(kind == CODE and before <= number, at)
        at, offset = read.field(2)
        least = 0 if before != number else last + count + (count < 1024)
        read.need(least <= offset, at)
        held = read.last - read.place
        read.need(0 < held and offset + min(held, 1024) <= size, read.place)
        read.need(held <= 1024, read.place + 1024)
        read.place += held
        self.pieces.append((number, offset, held))
        self.held |= {(number, offset + k) for k in range(held)}

    def fixup(self, read):
        read.need(self.fixups < 65_535, read.place)
        self.fixups += 1
        at, number = read.field()
        read.need(1 <= number <= len(self.segments), at, 'O5')
        before, least = self.last_field
        read.need(before <= number, at)
        at, offset = read.field(2)
        read.need(before != number or least <= offset, at)
        at, form = read.field()
        field = range(offset, offset + FIELD_BYTES.get(form, 1))
        read.need(form <= CONV and {(number, k) for k in field} <= self.held, at)
        at, bit = read.field()
        read.need(bit <= 7 if form == CONV else bit == 0, at)
        at, tag = read.field()
        read.need(tag <= 1, at)
        at, target = read.field()
        read.need(1 <= target <= len(self.externals if tag else self.segments), at, 'O5')
        read.field(2)
        self.last_field = (number, field.stop)

    def end(self, read):
        at, name = read.name()
        read.need(name == self.name, at)
        at, banks = read.field()
        read.need(banks % 2 == 1 and banks <= 15, at)


READERS = {
    HEADER: Module.header, SEGMENT: Module.segment, EXTERNAL: Module.external, PUBLIC: Module.public,
    PIECE: Module.piece, FIXUP: Module.fixup, END: Module.end,
}


def read_module(data, at, number):
    """The module, where it ends, and the number of the record that follows."""
    module, types = Module(), ORDER[:1]
    while True:
        read = Record(data, at, number, types)
        READERS[read.type](module, read)
        at, number = read.ended(), number + 1
        if read.type == END:
            return module, at, number
        types = ORDER[max(1, ORDER.index(read.type)):]


def read_object(data):
    _, at, _ = read_module(data, 0, 0)
    if at != len(data):
        raise Refused(f'O3 AT {at}')


def read_library(data):
    read = Record(data, 0, 0, [LIBRARY])
    at, count = read.field(2)
    read.need(count <= 255, at)
    at, number, modules = read.ended(), 1, []
    for _ in range(count):
        module, at, number = read_module(data, at, number)
        modules.append(module)
    if at != len(data):
        raise Refused(f'O3 AT {at}')
    for index, module in enumerate(modules):
        if module.name in [other.name for other in modules[:index]]:
            raise Refused(f'B1 {module.name.decode()}')
        taken = {name for other in modules[:index] for name in other.publics}
        for name in module.publics:
            if name in taken:
                raise Refused(f'B3 {name.decode()}')
    return modules


def hex_line(line, number):
    """The type, the address and the data of a line."""
    if line[:1] != b':':
        raise Refused(f'H1 LINE {number}')
    digits = line[1:]
    if not set(digits) <= set(string.hexdigits.encode()):
        raise Refused(f'H2 LINE {number}')
    if len(digits) % 2 or len(digits) < 10:
        raise Refused(f'H3 LINE {number}')
    fields = bytes.fromhex(digits.decode())
    count, address, kind, data = fields[0], fields[1] * 256 + fields[2], fields[3], fields[4:-1]
    passes = kind == 0 and address + count > 65_536
    if count != len(data) or kind > 1 or kind == 1 and data or passes:
        raise Refused(f'H3 LINE {number}')
    if sum(fields) % 256:
        raise Refused(f'H4 LINE {number}')
    return kind, address, data


def read_hex(text):
    """The bytes that records have, by their addresses."""
    image, lines = {}, text.split(b'\n')
    for number, line in enumerate(lines, 1):
        is_ended = number < len(lines)
        if not is_ended and line == b'':
            break
        kind, address, data = hex_line(line[:-1] if is_ended and line.endswith(b'\r') else line, number)
        if kind == 1:
            return image
        image.update({address + k: byte for k, byte in enumerate(data)})
    raise Refused('H5')


def refusal(read, data):
    try:
        read(data)
    except Refused as refused:
        return str(refused)
    return None


def object_refusal(data):
    return refusal(read_object, data)


def library_refusal(data):
    return refusal(read_library, data)


def hex_refusal(data):
    return refusal(read_hex, data)
