"""A run of m51-trace whose states are read as they are needed, and kept in a file of our own.

The program waits while nobody reads, so a state costs only the steps up to it. Going back reads the file: the run is
determined by its arguments, so it would be the same again.
"""
import bisect
import tempfile
from array import array
from collections import namedtuple

import m51files
import tracing
from counting import LAST_LINE

# After how many states a copy of what holds is kept.
MARK = 256
PORTS = ('P0', 'P1', 'P2', 'P3')
MOVX_DPTR, MOVX_RI = 0xF0, (0xF2, 0xF3)
BANK_BITS = 0x18

# A call that has not returned: its word, the state in which it began, where it led, and where it returns.
Frame = namedtuple('Frame', 'word state target after sp')
Mark = namedtuple('Mark', 'ram frames')


class History:
    """What holds in a state, followed from one to the next: internal RAM, and the calls that have not returned."""

    def __init__(self, mark):
        self.ram, self.frames, self.last = dict(mark.ram), mark.frames, None

    def follow(self, state):
        """Goes on to the next state."""
        before = self.last
        if before and before.word in (*tracing.CALLS, tracing.VECTOR):
            after = before.pc if before.word == tracing.VECTOR else before.pc + len(before.code)
            self.frames = (*self.frames, Frame(before.word, before, state.pc, after, state.sp))
        elif before and before.word in tracing.RETURNS:
            self.frames = self.frames[:-1]
        self.ram.update(state.ram)
        self.last = state


class Run:
    """The states of a run by their numbers of steps, with the map before them and the lines between them."""

    def __init__(self, given):
        self.map, self.lines, self.file = [], tracing.lines_of(['--ram'], given), tempfile.TemporaryFile('w+b')
        self.places, self.marks, self.last, self.end = array('Q'), [], None, None
        # What the steps have written: the number of the step before, and the line; and bytes of external memory.
        self.told, self.ports = [], {port: [(-1, 0xFF)] for port in PORTS}
        self.outer = {}
        self.history = History(Mark({}, ()))
        for line in self.lines:
            if tracing.is_titles(line.split('\t')):
                break
            self.map.append(line)
        else:
            raise m51files.BadFile('\n'.join(['there is no run', *self.map]))
        self.read_to(0)

    def close(self):
        """Lets the program end."""
        self.lines.close()

    # Reading

    def read_to(self, steps):
        """Reads the states up to this number of steps, or to the end of the run."""
        while len(self.places) <= steps and self.last is None:
            line = next(self.lines, None)
            if line is None:
                self.last = len(self.places) - 1
                if not self.end:
                    raise m51files.BadFile('m51-trace has ended before its run')
            elif '\t' in line:
                self.add_state(line)
            elif LAST_LINE.match(line):
                self.end = line
            else:
                self.add_told(line)

    def add_state(self, line):
        """Keeps the line of a state."""
        state = tracing.read_state(line.split('\t'))
        self.see_outer(self.history.last)
        self.history.follow(state)
        if len(self.places) % MARK == 0:
            self.marks.append(Mark(dict(self.history.ram), self.history.frames))
        self.file.seek(0, 2)
        self.places.append(self.file.tell())
        self.file.write(line.encode('ascii') + b'\n')

    def add_told(self, line):
        """Keeps a line that the step after the last state has written."""
        step, words = len(self.places) - 1, line.split()
        self.told.append((step, line))
        if words[1] in self.ports:
            self.ports[words[1]].append((step, int(words[2], 16)))

    def see_outer(self, state):
        """Notes what a MOVX of this state has written."""
        if not state or state.word != 'MOVX':
            return
        if state.code[0] == MOVX_DPTR:
            self.outer.setdefault(state.dptr, []).append((state.steps, state.a))
        elif state.code[0] in MOVX_RI:
            low = self.history.ram.get((state.psw & BANK_BITS) + state.code[0] % 2, '')
            if len(low) == 2:
                address = self.ports['P2'][-1][1] << 8 | int(low, 16)
                self.outer.setdefault(address, []).append((state.steps, state.a))

    # What holds

    def bounded(self, steps):
        """This number of steps, or that of the whole run."""
        self.read_to(steps)
        return max(0, steps if self.last is None else min(steps, self.last))

    def at(self, steps):
        """The state after this number of steps, or the last one."""
        self.file.seek(self.places[self.bounded(steps)])
        return tracing.read_state(self.file.readline().decode('ascii').rstrip('\n').split('\t'))

    def states(self, first):
        """The states from a number of steps on, as far as anybody reads."""
        while first == self.bounded(first):
            yield self.at(first)
            first += 1

    def known(self, steps):
        """What holds after a number of steps: internal RAM, and the calls that have not returned."""
        steps = self.bounded(steps)
        first = steps - steps % MARK
        history = History(self.marks[first // MARK])
        for at in range(first, steps + 1):
            history.follow(self.at(at))
        return history

    def end_at(self, steps):
        """The last line of the run, if it ends after this number of steps."""
        self.read_to(steps + 1)
        return self.end if self.last == steps else None

    def told_between(self, first, last):
        """The lines that the steps from one state to another have written."""
        return [line for step, line in self.told if first <= step < last]

    def port(self, port, steps):
        """The latch of a port after a number of steps."""
        found = self.ports[port]
        return found[bisect.bisect_left(found, (steps, -1)) - 1][1]

    def outer_byte(self, address, steps):
        """What MOVX has written to external data memory up to a number of steps, or nothing."""
        found = self.outer.get(address, [])
        place = bisect.bisect_left(found, (steps, -1))
        return found[place - 1][1] if place else None
