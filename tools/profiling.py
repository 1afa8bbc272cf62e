"""The cycles of a run by routine and by line."""
from collections import namedtuple

from routines import Calls, Routines

# Of a routine how often it was entered, its instructions and cycles, and its cycles with those of what it called.
Spent = namedtuple('Spent', 'routine entered times own whole')
# Of a line how often its first instruction began, and the cycles of all of them.
SpentLine = namedtuple('SpentLine', 'file line times cycles row')


class Profile:
    """The cycles of runs by routine and by line. `calls` is nothing if the order of the steps is not known."""

    def __init__(self, counts, of):
        self.counts, self.of, self.routines = counts, of, Routines(of, counts)
        self.calls = Calls(self.routines, counts.runs) if len(counts.runs) == len(counts.ends) else None
        self.own = {start: [0, 0] for start in self.routines.starts}
        self.by_line, self.total = {}, counts.total()
        for address, count in counts.at.items():
            self.add(address, count)
        for address, count in counts.vectors.items():
            self.own.setdefault(address, [0, 0])[1] += count.cycles

    def add(self, address, count):
        """Adds the count of an address to its routine and to its line."""
        routine, row = self.routines.at(address), self.of.line_of(address)
        if routine:
            self.own[routine.address][0] += count.times
            self.own[routine.address][1] += count.cycles
        if row:
            of_line = self.by_line.setdefault((row.file, row.line), [0, 0, row])
            of_line[0] += count.times if self.of.lines.get(address) is row else 0
            of_line[1] += count.cycles

    def share(self, cycles):
        """Of all cycles, from 0 to 1."""
        return cycles / self.total if self.total else 0

    def spent(self):
        """The routines that ran or could run, by their cycles. With the order of the steps not known `whole` is
        nothing, and `entered` leaves out jumps through a register."""
        entered = self.calls.times if self.calls else self.routines.entries
        for start, (times, own) in sorted(self.own.items(), key=lambda it: (-it[1][1], it[0])):
            if start in self.routines.found:
                whole = self.calls.cycles.get(start, 0) if self.calls else None
                yield Spent(self.routines.found[start], entered.get(start, 0), times, own, whole)

    def lines(self):
        """Lines by their cycles."""
        for (file, line), (times, cycles, row) in sorted(self.by_line.items(), key=lambda it: (-it[1][1], it[0])):
            yield SpentLine(file, line, times, cycles, row)
