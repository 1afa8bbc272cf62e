"""The bytes of a linked program, from its objects and its map (docs/OBJECTS.md, "Fixups"), and those of a HEX file."""
from m51files import BadFile

LOW, BYTE, RELATIVE, HIGH, WORD, INBLOCK, BIT, CONV = range(8)


def field(form, target, place, bit, first):
    """The bytes of a field; `first` is the one that is there."""
    if form == HIGH:
        return [target >> 8]
    if form == WORD:
        return [target >> 8, target & 255]
    if form == RELATIVE:
        return [(target - place - 1) & 255]
    if form == INBLOCK:
        return [target >> 3 & 0xE0 | first & 0x1F, target & 255]
    if form == CONV:
        return [8 * (target - 0x20) + bit if 0x20 <= target < 0x30 else (target + bit) & 255]
    return [target & 255]


def value_of(of, publics, module, fixup):
    """The address to which a field refers."""
    owner, number, offset = module, fixup.id, fixup.addend
    if fixup.tag:
        name = module.externals[fixup.id - 1].name
        if name not in publics:
            raise BadFile(f'no file has the public {name}')
        owner, public = publics[name]
        number, offset = public.segment, offset + public.number
    base = of.bases[owner.name, number] if number else 0
    return ((base or 0) + offset) & 0xFFFF


def image_of(of):
    """The bytes of a program by their addresses."""
    publics = {public.name: (module, public) for module in of.modules for public in module.publics}
    image = {}
    for module in of.modules:
        for piece in module.pieces:
            base = of.bases[module.name, piece.segment]
            image.update((base + piece.offset + at, byte) for at, byte in enumerate(piece.data))
        for fixup in module.fixups:
            place = of.bases[module.name, fixup.segment] + fixup.offset
            target = value_of(of, publics, module, fixup)
            made = field(fixup.form, target, place, fixup.bit, image[place])
            image.update((place + at, byte) for at, byte in enumerate(made))
    return image


def read_hex(path):
    """The bytes of an Intel HEX file by their addresses."""
    found = {}
    with open(path, encoding='ascii', errors='replace') as file:
        for number, line in enumerate(file.read().split(), 1):
            try:
                row = bytes.fromhex(line[1:])
                if line[0] != ':' or row[0] != len(row) - 5 or sum(row) & 255:
                    raise ValueError
            except (ValueError, IndexError) as error:
                raise BadFile(f'{path} is no HEX file: line {number}') from error
            if row[3] == 0:
                at = row[1] << 8 | row[2]
                found.update((at + k, byte) for k, byte in enumerate(row[4:-1]))
    return found
