"""Whether a map, objects, listings and a HEX file are of one program: tools that join them refuse where they are not.

What a map says of a program is compared whole: the units in their order, each extent with its size, fixed bases, and
how many bytes the image has. It has no bytes, so files of equal sizes are told apart by the HEX file only.
"""
from collections import Counter

from image import image_of, read_hex
from m51files import KINDS, PAGE, BadFile

AGAIN = 'the map is of another build than these files'


def joined(modules):
    """The joined segments in their order: title and kind, and of each its size and its base, if that is fixed."""
    sizes, fixed = {}, []
    for module in modules:
        for segment in module.segments:
            if not segment.type:
                key = (f'@{segment.base:04X}', KINDS[segment.kind], len(fixed))
                fixed.append(key)
                sizes[key] = segment.size
                continue
            key = (segment.name, KINDS[segment.kind], None)
            start = sizes.get(key, 0)
            sizes[key] = start + (-start % 256 if segment.type == PAGE else 0) + segment.size
    return [(title, kind, size, fixed is not None) for (title, kind, fixed), size in sizes.items()]


def differences(of_map, modules):
    """What differs between a map and the modules of a link, in words."""
    parts = joined(modules)
    units = [title for title, kind, _, _ in parts if kind == 'CODE']
    wanted = Counter((title, kind, size, is_fixed) for title, kind, size, is_fixed in parts)
    found = Counter((it.title, it.kind, it.size, it.mark == 'A') for it in of_map.extents if it.mark not in 'BR')
    for title, kind, size, _ in found - wanted:
        yield f'{kind} {title} of {size:04X} is in the map and not in the files'
    for title, kind, size, _ in wanted - found:
        yield f'{kind} {title} of {size:04X} is in the files and not in the map'
    if wanted == found and units != list(of_map.units):
        yield 'the units come in another order'
    content = sum(len(piece.data) for module in modules for piece in module.pieces)
    if wanted == found and content != of_map.image:
        yield f'the image of the map has {of_map.image} bytes, and the files have {content}'


def stop_unless_same(of_map, modules):
    """Refuses files that are not those of the map."""
    names = Counter(module.name for module in modules)
    twice = next((name for name, count in names.items() if count > 1), None)
    if twice:
        raise BadFile(f'two modules are called {twice}: a file may be named twice, or NAME be missing in a source')
    why = next(differences(of_map, modules), None)
    if why:
        raise BadFile(f'{AGAIN}: {why}')


def stop_unless_same_listing(module, placed):
    """Refuses rows of a listing that have other bytes than the object of their module."""
    content = {}
    for piece in module.pieces:
        content.update(((piece.segment, piece.offset + at), byte) for at, byte in enumerate(piece.data))
    for number, row in placed:
        if not row.data:
            continue
        segment = module.segments[number - 1] if number else None
        start = row.offset - (0 if row.segment or not segment else segment.base)
        if not number or any(content.get((number, start + at)) != byte for at, byte in enumerate(row.data)):
            raise BadFile(f'the listing of {module.name} is not of its object: {row.file}({row.line}) has '
                          f'{row.data.hex().upper()} at {row.offset:04X}; assemble it again')
    listed = sum(min(1, len(row.data)) for _, row in placed)
    if placed and module.pieces and not listed:
        raise BadFile(f'the listing of {module.name} has no byte of its object; assemble it again')


def stop_unless_same_bytes(of, path):
    """Refuses a program whose bytes are not those of a HEX file."""
    own, kept = image_of(of), read_hex(path)
    apart = sorted(at for at in own.keys() | kept.keys() if own.get(at) != kept.get(at))
    if apart:
        at = apart[0]
        own_text, kept_text = (f'{it[at]:02X}' if at in it else 'nothing' for it in (own, kept))
        raise BadFile(f'{path} is of another build: {kept_text} at {at:04X}, and {own_text} by these files and the map')
