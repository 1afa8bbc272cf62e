"""A linked program as an absolute OMF-51 module (docs/SYMBOLS.md, "OMF-51").

Source: Intel, MCS-51 Object Module Format, version 5.0 of 1982: module header, scope definition, debug items, content,
module end.
"""
from image import image_of
from listings import call_of
from m51files import KINDS

HEADER, END, CONTENT, SCOPE, DEBUG = 0x02, 0x04, 0x06, 0x10, 0x12
MODULE_BEGIN, MODULE_END = 0, 3
LOCALS, PUBLICS, LINES = 0, 1, 3
# The program that made the module: the linker.
LINKER = 0xFF
# Set in the byte on a symbol that is data, and no code.
VARIABLE = 0x40
# The segment of what has an absolute address.
ABSOLUTE = 0
# The most bytes of items or of content in a record, as Intel's tools write them.
MOST = 1_024


def word(number):
    return number.to_bytes(2, 'little')


def name_field(name):
    return bytes([len(name)]) + name.encode('ascii')


def record(kind, content):
    """A record: its type, the length of what follows, the content, and the checksum, with which all bytes add up to
    0."""
    data = bytes([kind]) + word(len(content) + 1) + content
    return data + bytes([-sum(data) & 0xFF])


def items(kind, fields):
    """Debug items of a kind, in as many records as they need."""
    part = b''
    for field in fields:
        if len(part) + len(field) > MOST:
            yield record(DEBUG, bytes([kind]) + part)
            part = b''
        part += field
    if part:
        yield record(DEBUG, bytes([kind]) + part)


def symbol(label):
    """The item of a symbol."""
    info = KINDS.index(label.kind) | (0 if label.kind == 'CODE' else VARIABLE)
    return bytes([ABSOLUTE, info]) + word(label.address) + b'\0' + name_field(label.name)


def lines(of, module):
    """The items of a module's line numbers: each is a line of its source at which code begins."""
    listing = of.listings.get(module.name)
    found = {}
    for row in listing.rows if listing else []:
        address = of.address_of(module, row) if row.data else None
        file, line = call_of(row)
        if address is not None and file == listing.source and of.lines.get(address) is not None:
            found.setdefault(address, line)
    return [bytes([ABSOLUTE]) + word(address) + word(line) for address, line in sorted(found.items())]


def content(of):
    """The content of the program, in records of bytes that follow each other."""
    image, part, start = image_of(of), b'', 0
    for address in sorted(image):
        if part and (address != start + len(part) or len(part) == MOST):
            yield record(CONTENT, bytes([ABSOLUTE]) + word(start) + part)
            part = b''
        start = start if part else address
        part += bytes([image[address]])
    if part:
        yield record(CONTENT, bytes([ABSOLUTE]) + word(start) + part)


def banks(of):
    """A bit for each register bank of the map."""
    titles = {extent.title for extent in of.map.extents if extent.mark == 'B'}
    return sum(1 << bank for bank in range(4) if f'BANK{bank}' in titles)


def omf51(of, labels):
    """The bytes of the module, which has the name of the program's first module."""
    name = name_field(of.modules[0].name)
    yield record(HEADER, name + bytes([LINKER, 0]))
    for module in of.modules:
        own = [label for label in labels if label.module == module.name]
        yield record(SCOPE, bytes([MODULE_BEGIN]) + name_field(module.name))
        yield from items(PUBLICS, (symbol(label) for label in own if label.is_public))
        yield from items(LOCALS, (symbol(label) for label in own if not label.is_public))
        yield from items(LINES, lines(of, module))
        yield record(SCOPE, bytes([MODULE_END]) + name_field(module.name))
    yield from content(of)
    yield record(END, name + bytes([0, 0, banks(of), 0]))
