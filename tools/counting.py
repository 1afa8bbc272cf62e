"""What a run has done, added up: for each address how often an instruction began there and how many cycles it took.

It comes from what `m51-trace --counts` writes, or from the lines of all states, which also have the order of the steps.
"""
import re
from array import array
from collections import namedtuple

import m51files
import program
import tracing

LAST_LINE = re.compile(r'(END|EVENT) .*?(\d+) STEPS (\d+) CYCLES$')
COUNTED = ['PC', 'TIMES', 'CYCLES', 'NEXT']

Count = namedtuple('Count', 'times cycles word code')


class Steps:
    """The steps of a run in their order: where each began, how many cycles it took, and what it did."""

    WORDS = ('', *tracing.CALLS, *tracing.RETURNS, tracing.VECTOR, tracing.IDLE)

    def __init__(self):
        self.places, self.cycles, self.words, self.deepest, self.last = array('H'), bytearray(), bytearray(), 0, None

    def add(self, state):
        """Adds a state of the run, which ends the step before."""
        if self.last:
            self.cycles.append(state.cycle - self.last.cycle)
            self.words.append(self.WORDS.index(self.last.word) if self.last.word in self.WORDS else 0)
        self.places.append(state.pc)
        self.deepest, self.last = max(self.deepest, state.sp), state

    def each(self):
        """Place, place of the next step, cycles and word of each step; other words than those of WORDS are empty."""
        for at, (cycles, word) in enumerate(zip(self.cycles, self.words)):
            yield self.places[at], self.places[at + 1], cycles, self.WORDS[word]


class Counts:
    """The counts of one run, or of several runs of one program; `runs` has the steps of those of which all states were
    read."""

    def __init__(self, lines):
        self.map, self.trace, self.at, self.vectors, self.runs = [], [], {}, {}, []
        self.idle = Count(0, 0, tracing.IDLE, b'')
        self.ends = []
        self.read(lines)

    def read(self, lines):
        """Reads the map, the lines of the run, and its states or the table of counts."""
        part, take = self.map, None
        for line in lines:
            words = line.split('\t')
            if tracing.is_titles(words):
                self.runs.append(Steps())
                part, take = self.trace, self.add_state
            elif words == COUNTED:
                take = self.add_row
            elif len(words) > 1 and take:
                take(words)
            else:
                part.append(line)
                part = self.trace if line == 'RUN' else part
        if not take:
            raise m51files.BadFile('this is nothing that m51-trace wrote of a run')
        self.ends.append(self.trace[-1])
        ended = LAST_LINE.match(self.trace[-1])
        if not ended or sum(it.times for it in (*self.at.values(), *self.vectors.values(), self.idle)) != int(ended[2]):
            raise m51files.BadFile('this is a part of a run: all its steps are needed')

    def add_row(self, words):
        """Adds a row of the table."""
        word, code = tracing.word_and_code(words[3])
        self.add(int(words[0], 16) if words[0] not in (tracing.VECTOR, tracing.IDLE) else 0,
                 Count(int(words[1]), int(words[2]), word, code))

    def add_state(self, words):
        """Adds a state, and with it the step before."""
        state, steps = tracing.read_state(words), self.runs[-1]
        before = steps.last
        steps.add(state)
        if before:
            self.add(before.pc, Count(1, state.cycle - before.cycle, before.word, before.code))

    def add(self, address, more):
        """Adds the count of an instruction at an address, of a vectoring or of idle cycles."""
        if more.word == tracing.IDLE:
            self.idle = sum_of(self.idle, more)
        elif more.word == tracing.VECTOR:
            vector = int.from_bytes(more.code, 'big')
            self.vectors[vector] = sum_of(self.vectors.get(vector), more)
        else:
            self.at[address] = sum_of(self.at.get(address), more)

    def join(self, other):
        """Adds the counts of another run of the same program."""
        if other.map != self.map:
            raise m51files.BadFile('the runs are of two programs: their maps differ')
        for address, count in other.at.items():
            self.add(address, count)
        for count in (*other.vectors.values(), other.idle):
            self.add(0, count)
        self.runs += other.runs
        self.ends += other.ends

    def total(self):
        """The cycles of all steps."""
        return sum(it.cycles for it in (*self.at.values(), *self.vectors.values(), self.idle))


def sum_of(one, other):
    """Two counts of one place."""
    return other._replace(times=one.times + other.times, cycles=one.cycles + other.cycles) if one else other


def add_arguments(parser):
    """The arguments of a tool that adds up runs."""
    tracing.add_arguments(parser)
    parser.add_argument('--run', metavar='F', action='append', default=[],
                        help='what m51 trace has written of a run, in place of a run; several are added up')


def read_run(given, options):
    """The counts of the run that the arguments name, or of those that were kept, and the program."""
    if given.run:
        counts = Counts(m51files.read_lines(given.run[0]))
        for path in given.run[1:]:
            counts.join(Counts(m51files.read_lines(path)))
    elif given.steps:
        counts = Counts(tracing.lines_of(options, given))
    else:
        raise m51files.BadFile('--steps N is missing, or --run F with what m51 trace has written')
    return counts, program.read_program(counts.map, given.files)
