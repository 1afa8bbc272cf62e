"""profile and cover: cycles and lines of a run that are known from the manual's table of cycles."""
import os

import counting
from profiling import Profile
from program import read_program
from support import TUTORIAL, Folder, build, ran, tool

# 1, and twice 2 + 2 + 1 + 2 + 2 + 1 + 2 + 2, and three times 2 cycles.
CALLS = (
    '?PR?OUTER SEGMENT CODE / ?PR?TAIL SEGMENT CODE / ?PR?IDLE SEGMENT CODE / CSEG AT 0 / MOV R2,#2 / '
    'AGAIN: LCALL OUTER / DJNZ R2,AGAIN / SJMP $ / RSEG ?PR?OUTER / OUTER: ACALL INNER / LJMP TAIL / INNER: / INC A / '
    'RET / RSEG ?PR?TAIL / TAIL: NOP / RET / RSEG ?PR?IDLE / NEVER: NOP / LCALL TAIL / DB 1,2 / RET / END')
# Name, how often entered, own cycles, cycles with what it calls, of 35 in all.
CYCLES = {'@0000': (1, 15, 35), 'OUTER': (2, 8, 20), 'INNER': (2, 6, 6), 'TAIL': (2, 6, 6), 'NEVER': (0, 0, 0)}
INTERRUPTED = (
    'CSEG AT 0 / LJMP MAIN / CSEG AT 0BH / RETI / CSEG AT 30H / MAIN: MOV TMOD,#2 / MOV TH0,#0E0H / MOV TL0,#0E0H / '
    'MOV IE,#82H / SETB TR0 / LOOP: LCALL WORK / MOV PCON,#1 / SJMP LOOP / WORK: NOP / RET / END')


class Cycles(Folder):
    def trace(self, name, *words, folder=None, status=0):
        """Keeps what m51-trace writes."""
        text = ran([os.environ['M51_TRACE'], *words], folder=folder or self.folder, status=status)
        with open(self.path(name), 'w') as file:
            file.write(text)
        return self.path(name)

    def profile(self, *words):
        with open(self.trace('t.txt', *words)) as file:
            counts = counting.Counts(file.read().splitlines())
        here = os.getcwd()
        os.chdir(self.folder)
        try:
            return Profile(counts, read_program(counts.map, words[-1:]))
        finally:
            os.chdir(here)

    def test_cycles_of_each_routine(self):
        self.keep('calls.a51', CALLS)
        words = ['--steps', '20', 'calls.a51']
        self.assertTrue(build(*words, folder=self.folder).endswith('END 20 STEPS 35 CYCLES\n'))
        found = {it.routine.name: (it.entered, it.own, it.whole) for it in self.profile(*words).spent()}
        self.assertEqual(found, CYCLES)
        own = {it.routine.name: (it.entered, it.own, it.whole) for it in self.profile('--counts', *words).spent()}
        self.assertEqual(own, {name: (entered, own, None) for name, (entered, own, _) in CYCLES.items()})

    def test_an_interrupt_is_no_cycle_of_what_it_came_upon(self):
        self.keep('irq.a51', INTERRUPTED)
        profile = self.profile('--steps', '200', 'irq.a51')
        found = {it.routine.name: it for it in profile.spent()}
        reset, main, handler, work = (found[name] for name in ('@0000', 'MAIN', '@000B', 'WORK'))
        self.assertGreater(profile.counts.idle.times, 9)
        self.assertEqual(reset.whole + handler.whole, profile.total)
        self.assertEqual((reset.own, reset.whole), (2, main.whole + 2))
        self.assertEqual(main.own + work.own + profile.counts.idle.cycles, main.whole)
        self.assertEqual(handler.own, handler.whole)
        # The vectoring and RETI have two cycles each; the last may not be done.
        self.assertIn(handler.own, (4 * handler.entered, 4 * handler.entered - 2))
        self.assertIn(work.own, (3 * work.entered, 3 * work.entered - 2, 3 * work.entered - 3))
        self.assertEqual(work.own, work.whole)
        self.assertEqual((main.entered, handler.entered), (1, profile.counts.vectors[0xB].times))

    def test_profile(self):
        self.keep('calls.a51', CALLS)
        text = tool('profile', '--calls', '--top', '2', '--steps', '20', 'calls.a51', folder=self.folder)
        self.assertEqual(text.splitlines(), [
            '35 cycles; END 20 STEPS 35 CYCLES', '',
            '   cycles  share with calls  share  entered per entry  routine',
            '       15  42.9%         35 100.0%        1      35.0  @0000',
            '        8  22.9%         20  57.1%        2      10.0  OUTER (?PR?OUTER, calls.a51(10))',
            '        6  17.1%          6  17.1%        2       3.0  INNER (?PR?OUTER, calls.a51(12))',
            '        6  17.1%          6  17.1%        2       3.0  TAIL (?PR?TAIL, calls.a51(16))', '',
            '   cycles  share    times  line',
            '        6  17.1%        3  calls.a51(8)         SJMP $                       '
            '##############################',
            '        4  11.4%        2  calls.a51(6)         LCALL OUTER                  ####################',
            '8 more lines; --top 10 shows all'])
        self.assertIn('--steps N is missing', self.refused('profile', 'calls.a51'))

    def refused(self, name, *words):
        """What a tool says that refuses a call."""
        with self.assertRaises(AssertionError) as found:
            tool(name, *words, folder=self.folder)
        self.assertIn('ended with 2', str(found.exception))
        return str(found.exception)

    def test_cover(self):
        self.keep('calls.a51', CALLS)
        words = ['--steps', '20', 'calls.a51']
        text = tool('cover', *words, folder=self.folder)
        self.assertEqual(text.splitlines(), [
            ' lines   done  share  file', '    13     10  76.9%  calls.a51', '                      not: 19-22',
            '    13     10  76.9%  in all; END 20 STEPS 35 CYCLES', '4 of 5 routines ran, not these:',
            '                      NEVER (?PR?IDLE, calls.a51(19))'])
        for least, status in (('76.9', 0), ('77', 1), ('0', 0), ('100', 1)):
            tool('cover', '--at-least', least, *words, folder=self.folder, status=status)
        for least in ('101', '-1', 'x', 'nan'):
            tool('cover', f'--at-least={least}', *words, folder=self.folder, status=2)

    def test_runs_add_up(self):
        self.keep('calls.a51', CALLS)
        kept = [self.trace('a.txt', '--counts', '--steps', '2', 'calls.a51'),
                self.trace('b.txt', '--steps', '20', 'calls.a51')]
        text = tool('cover', '--run', kept[0], 'calls.a51', folder=self.folder)
        self.assertIn('    13      2  15.4%  in all; END 2 STEPS 3 CYCLES\n', text)
        for order in (kept, kept[::-1]):
            words = [word for path in order for word in ('--run', path)]
            text = tool('cover', *words, 'calls.a51', folder=self.folder)
            self.assertIn('    13     10  76.9%  in all; END', text)
            text = tool('profile', *words, 'calls.a51', folder=self.folder)
            self.assertTrue(text.startswith('38 cycles; END'))
            self.assertNotIn('with calls', text)
        other = self.trace('c.txt', '--steps', '2', 'first.a51', folder=TUTORIAL)
        self.assertIn('maps differ', self.refused('cover', '--run', kept[0], '--run', other, 'calls.a51'))

    def test_a_routine_that_only_a_call_shows(self):
        """A call that did not run makes a routine of where it leads, which has no public label and begins no unit."""
        never = '?PR?N SEGMENT CODE / RSEG ?PR?N / NEVER: LCALL DEEP / RET / DEEP: RET'
        self.keep('n.a51', f'CSEG AT 0 / SJMP $ / {never} / END')
        text = tool('cover', '--steps', '1', 'n.a51', folder=self.folder)
        self.assertIn('1 of 3 routines ran, not these:\n', text)
        self.assertIn(' DEEP (?PR?N, n.a51(7))\n', text)

    def test_an_event_stops_before_its_line(self):
        text = tool('cover', '--steps', '300', 'main.a51', 'tick.a51', 'scale.a51', folder=TUTORIAL)
        self.assertIn('not: 24, 36-43\n', text)
        self.assertIn('in all; EVENT V3', text)

    def test_a_module_without_a_listing(self):
        for name in ('main', 'tick', 'scale'):
            ran([os.environ['M51_PROGRAM'], 'asm', '--out', self.path(f'{name}.obj'), f'{name}.a51'], folder=TUTORIAL)
        text = tool('cover', '--steps', '20', 'main.obj', 'tick.obj', 'scale.obj', folder=self.folder, status=0)
        self.assertIn('no listing of module TICK is here: its lines do not count\n', text)
