"""Which lines and routines of the sources a run has executed."""
from collections import namedtuple

import m51files
from listings import statement_of
from routines import Routines

DATA = ('DB', 'DW', 'DS', 'DBIT')

# Of a file or a routine how many lines have an instruction, and how many of these were executed.
Share = namedtuple('Share', 'name lines done')


def is_instruction(row):
    """Whether a row of code has an instruction, and no data."""
    words = statement_of(row).split(None, 1)
    return bool(words) and words[0].upper() not in DATA


class Cover:
    """The lines with an instruction, how often each began, and of which routine each is."""

    def __init__(self, counts, of):
        self.counts, self.of, self.lines = counts, of, {}
        self.routines, self.of_routine = Routines(of, counts), {}
        for address, row in of.lines.items():
            if is_instruction(row):
                self.add(address, row, counts.at[address].times if address in counts.at else 0)
        listed = {name for name, listing in of.listings.items() if listing.rows}
        self.bare = sorted(it.name for it in of.modules if it.name not in listed and has_code(it))

    def add(self, address, row, times):
        """Adds an instruction. A line has several if it came out of a macro."""
        of_file = self.lines.setdefault(row.file, {})
        of_file[row.line] = (of_file.get(row.line, (0, row))[0] + times, row)
        routine = self.routines.at(address)
        if routine:
            self.of_routine.setdefault(routine.address, set()).add((row.file, row.line))

    def times(self, place):
        """How often the line at a place, a file and a number, began."""
        return self.lines[place[0]][place[1]][0]

    def files(self):
        """The share of each file."""
        for file, lines in sorted(self.lines.items()):
            yield Share(file, len(lines), sum(1 for times, _ in lines.values() if times))

    def all_routines(self):
        """The routines with lines, and the share of each."""
        for start, places in sorted(self.of_routine.items()):
            yield self.routines.found[start], Share(
                self.routines.found[start].name, len(places), sum(1 for it in places if self.times(it)))

    def missed(self, file):
        """The lines of a file that were not executed, as ranges of lines that follow each other among those counted."""
        found, is_in_range = [], False
        for line, (times, _) in sorted(self.lines[file].items()):
            if not times and is_in_range:
                found[-1][1] = line
            elif not times:
                found.append([line, line])
            is_in_range = not times
        return ', '.join(f'{a}' if a == b else f'{a}-{b}' for a, b in found)

    def share(self):
        """The share of all lines."""
        rows = list(self.files())
        return Share('in all', sum(it.lines for it in rows), sum(it.done for it in rows))


def has_code(module):
    """Whether a module has a byte of code."""
    return any(m51files.KINDS[it.kind] == 'CODE' and it.size for it in module.segments)


def percent(share):
    """A share in percent; without a line all of it."""
    return 100 * share.done / share.lines if share.lines else 100.0
