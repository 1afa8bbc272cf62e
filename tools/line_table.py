"""The table that `m51 expand` keeps beside what it writes, as main.a51.lines beside main.a51: from which line of which
source each line comes, and through which macros.

Its first line has the checksum of main.a51: a table of another text is not used. Then comes a row for each line, with
tabs between: file, line, and for each macro from the innermost on its name, and file and line of its call. Files are
named from the table's folder.
"""
import functools
import hashlib
import os
from collections import namedtuple

HEAD = 'm51 lines 1 '
Place = namedtuple('Place', 'file line macros')


def through_of(place):
    """The macros through which a line came, in words: ` in DELAY, called at main.asm(40)`; empty if through none."""
    return ','.join(f' in {name}, called at {file}({line})' for name, file, line in place.macros)


def text_of(place):
    """A place in words, as `main.asm(12) in DELAY, called at main.asm(40)`."""
    return f'{place.file}({place.line}){through_of(place)}'


def checksum(text):
    return hashlib.sha256(text).hexdigest()


def table_text(out, text, places):
    """The table of a text that is written to a file."""
    folder = os.path.dirname(out) or '.'

    @functools.lru_cache(None)
    def named(file):
        return os.path.relpath(file, folder)

    rows = [HEAD + checksum(text)]
    for file, line, macros in places:
        calls = [word for name, at, number in macros for word in (name, named(at), str(number))]
        rows.append('\t'.join([named(file), str(line), *calls]))
    return '\n'.join(rows) + '\n'


@functools.lru_cache(None)
def places_of(file):
    """The places of the lines of a file; nothing if it has no table, or one of another text."""
    try:
        with open(file + '.lines', encoding='utf-8', errors='surrogateescape') as table:
            head, *rows = table.read().splitlines()
    except (OSError, ValueError):
        return None
    if os.path.exists(file):
        with open(file, 'rb') as source:
            if head != HEAD + checksum(source.read()):
                return None
    folder = os.path.dirname(file)

    @functools.lru_cache(None)
    def named(name):
        return os.path.normpath(os.path.join(folder, name))

    try:
        words = [row.split('\t') for row in rows]
        return [Place(named(row[0]), int(row[1]), [(name, named(at), int(number)) for name, at, number in zip(
            row[2::3], row[3::3], row[4::3])]) for row in words]
    except (ValueError, IndexError):
        return None


def real(file, line):
    """The place from which a line of a file comes, or nothing."""
    places = places_of(file)
    return places[line - 1] if places and 0 < line <= len(places) else None


def root(file):
    """The source of which a file was made, or nothing: its last line is in no include."""
    places = places_of(file)
    return places[-1].file if places else None
