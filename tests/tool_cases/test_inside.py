"""m51-trace: that what it writes is the run of `build`, and what tests/board.py does. This is about the program."""
import os
import unittest

import counting
import m51files
import tracing
from support import SECOND_TRACE, TRACE, TUTORIAL, Folder, build, ran

FILES = ['main.a51', 'tick.a51', 'scale.a51']
EXAMPLES = TUTORIAL.parent
RUNS = [
    (['--steps', '4', 'port.a51'], 0),
    (['--script', 'echo.brd', '--steps', '200', 'echo.a51'], 0),
    (['--control', 'overlay.ctl', '--steps', '20', 'overlay.a51'], 0),
    (['--control', 'table.ctl', '--steps', '6', 'table.a51', 'squares.inc'], 0),
    (['--steps', '9', 'past-end.a51'], 1),
]


@unittest.skipUnless(TRACE, 'm51-trace is not built')
class Trace(Folder):
    def test_lines_without_tabs_are_those_of_build(self):
        for words, status in RUNS:
            for options in ([], ['--ram'], ['--from', '2', '--to', '3']):
                text = ran([TRACE, *options, *words], folder=EXAMPLES, status=status)
                kept = [line for line in text.splitlines() if '\t' not in line]
                self.assertEqual('\n'.join(kept) + '\n', build(*words, folder=EXAMPLES, status=status))

    def test_it_is_the_second_trace(self):
        for words, status in RUNS:
            for options in ([], ['--ram'], ['--from', '2', '--to', '3'], ['--ram', '--from', '2'], ['--counts']):
                one, two = (ran([it, *options, *words], folder=EXAMPLES, status=status) for it in (TRACE, SECOND_TRACE))
                self.assertEqual(one.splitlines(), two.splitlines(), (options, words))

    def test_a_refusal_is_that_of_build(self):
        bad = self.path(self.keep('bad.a51', 'CSEG AT 0 / MOV A,NONE / END'))
        self.assertEqual(ran([TRACE, '--steps', '1', bad], status=3), build('--steps', '1', bad, status=3))


class Reading(Folder):
    """What the tools read of it; by the second trace where the program is not built."""

    def lines(self, *options, words=RUNS[0][0], status=0):
        return ran([os.environ['M51_TRACE'], *options, *words], folder=EXAMPLES, status=status).splitlines()

    def test_the_last_state_is_that_of_the_event(self):
        text = ran([os.environ['M51_TRACE'], '--steps', '300', *FILES], folder=TUTORIAL, status=1).splitlines()
        state = tracing.read_state(text[-2].split('\t'))
        self.assertEqual((state.steps, state.cycle, state.pc, state.word), (14, 23, 0x29, 'CJNE'))

    def test_counts_sum_up_to_the_run(self):
        for words, status in RUNS:
            counts = [counting.Counts(self.lines(*options, words=words, status=status))
                      for options in (['--counts'], [], ['--ram'])]
            steps, cycles = map(int, counts[0].ends[0].split()[-4::2])
            self.assertEqual(counts[0].total(), cycles)
            self.assertEqual(sum(it.times for it in (
                *counts[0].at.values(), *counts[0].vectors.values(), counts[0].idle)), steps)
            for other in counts[1:]:
                self.assertEqual((other.at, other.vectors, other.idle, other.map), (
                    counts[0].at, counts[0].vectors, counts[0].idle, counts[0].map))
                self.assertEqual(sum(other.runs[0].cycles), cycles)

    def test_refused(self):
        whole = self.lines()
        for lines in ([], whole[:-1], self.lines('--from', '2'), build(*RUNS[0][0], folder=EXAMPLES).splitlines()):
            self.assertRaises(m51files.BadFile, counting.Counts, lines)
        one, other = (counting.Counts(lines) for lines in (whole, self.lines(words=['--steps', '2', 'past-end.a51'])))
        self.assertRaises(m51files.BadFile, one.join, other)
