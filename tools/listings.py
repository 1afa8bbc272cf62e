"""Reads listings of `m51 asm`: which statement of which file gives which address."""
import os
import re
from collections import namedtuple

import line_table
from m51files import BadFile, Row

# A line of a listing: its text, its row if it has an address, and where it comes from, through how many macros.
Line = namedtuple('Line', 'text row file number depth')

LABEL = r'\s*(?:([A-Za-z?_][\w?]*)\s*:)?'
STATEMENT = re.compile(LABEL + r'\s*([A-Za-z?_][\w?]*)?\s*([A-Za-z?_][\w?]*)?')
INCLUDE = re.compile(r'\$INCLUDE\(([^);]+)\)', re.I)
ABSOLUTE = {'CSEG': 'CODE', 'XSEG': 'XDATA', 'DSEG': 'DATA', 'ISEG': 'IDATA', 'BSEG': 'BIT'}


def statement_of(row):
    """The statement of a row, without its label and its comment."""
    text = row.text.partition(':')[2] if row.label else row.text
    return re.match(r"(?:'[^']*'|[^;'])*", text)[0].strip()


def place_of(row):
    """`file(line)` of a row, and through which macros it came."""
    return f'{row.file}({row.line}){row.through}'


def call_of(row):
    """File and line of a row, or of the call outside all macros through which it came."""
    found = re.findall(r'called at (.*?)\((\d+)\)(?:,|$)', row.through)
    return (found[-1][0], int(found[-1][1])) if found else (row.file, row.line)


def module_name(path):
    """The name of a module without a NAME statement (docs/LANGUAGE.md, "The name of the module")."""
    stem = re.sub(r'[^A-Z0-9?_]', '', os.path.splitext(os.path.basename(path))[0].upper())
    return (stem if stem and not stem[0].isdigit() else f'M{stem}')[:31]


def count_lines(path):
    """How many lines a file has; nothing if it is not there."""
    try:
        with open(path, 'rb') as file:
            return len(file.read().splitlines())
    except OSError:
        return None


class File:
    """A source or an include of which rows are read: how many lines it has, if that is known, and the last row's."""

    def __init__(self, name, lines=None):
        self.name, self.lines, self.last = name, lines, 0

    def is_over(self, number):
        """Whether it has ended before a row of this number."""
        return number != self.last + 1 if self.lines is None else self.last == self.lines


class Listing:
    """The name of a module and its source, its lines, and the rows of those that have an address.

    A row of an absolute segment names none. If `m51 expand` wrote the source, all is said of what that was made of. A
    listing has the lines of an include without its name, so its end is taken from the file, if that is in the folder.
    """

    def __init__(self, text, source, folder='.'):
        self.name, self.rows, self.lines, self.folder = None, [], [], folder
        self.source = line_table.root(self.path_of(source)) or source
        self.files, self.segment, self.kind = [File(source)], None, 'CODE'
        for line in filter(None, text.split('\n')):
            self.add(int(line[:5]), line[6:10].strip(), bytes.fromhex(line[11:17].strip()), line[19:])
        self.name = self.name or module_name(source)

    def path_of(self, file):
        """A file of the listing, as it is found from here."""
        return os.path.join(self.folder, file) if self.folder != '.' else file

    def add(self, number, place, data, text):
        """Adds a line: its number, its address, its first bytes, and the statement."""
        while len(self.files) > 1 and self.files[-1].is_over(number):
            self.files.pop()
        self.files[-1].last = number
        file = self.files[-1].name
        label, first, second = (word and word.upper() for word in STATEMENT.match(text).groups())
        include = INCLUDE.match(text)
        if include:
            self.files.append(File(include[1], count_lines(os.path.join(self.folder, include[1]))))
        elif first == 'NAME' and second:
            self.name = second
        elif first == 'RSEG':
            self.segment, self.kind = second, None
        elif first in ABSOLUTE:
            self.segment, self.kind = None, ABSOLUTE[first]
        real = line_table.real(self.path_of(file), number)
        at, row = (real.file, real.line) if real else (file, number), None
        if place:
            through = line_table.through_of(real) if real else ''
            row = Row(*at, self.segment, self.kind, int(place, 16), label, text.strip(), data, through)
            self.rows.append(row)
        self.lines.append(Line(text, row, *at, len(real.macros) if real else 0))


def read_listing(path):
    """A listing that was kept in a file; its source is taken to have the same name."""
    source = os.path.splitext(os.path.basename(path))[0] + '.a51'
    with open(path, encoding='ascii', errors='replace') as file:
        try:
            return Listing(file.read(), source, os.path.dirname(path) or '.')
        except ValueError as error:
            raise BadFile(f'{path} is no listing of m51 asm') from error
