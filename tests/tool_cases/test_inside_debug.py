"""debug: forwards and back through a run."""
import os

from support import TUTORIAL, Folder, on_terminal, ran, tool, TOOLS

FILES = ['main.a51', 'tick.a51', 'scale.a51']
BUG = ['--steps', '300', *FILES]
CURED = ['--control', 'show.ctl', '--steps', '300', *FILES]
OUTER = (
    'X SEGMENT XDATA / RSEG X / HERE: DS 2 / F SEGMENT BIT / RSEG F / FLAG: DBIT 1 / CSEG AT 0 / MOV DPTR,#HERE+1 / '
    'MOV A,#5 / MOVX @DPTR,A / MOV P2,#HIGH(HERE) / MOV R1,#LOW(HERE) / INC A / MOVX @R1,A / SETB FLAG / PUSH ACC / '
    'MOV P1,A / SJMP $ / END')


class Debug(Folder):
    def session(self, commands, *words, folder=TUTORIAL):
        """What a session writes."""
        return tool('debug', *words, text=commands.replace(' / ', '\n') + '\n', folder=folder).splitlines()

    def answers(self, commands, *words, folder=TUTORIAL):
        """What it writes after each of the commands."""
        found = []
        for line in self.session(commands, *words, folder=folder):
            if line.startswith('(m51) '):
                found.append([])
            elif found:
                found[-1].append(line)
        return found

    def test_it_ends_at_the_statement_of_the_event(self):
        end = [
            '14 steps, 23 cycles: 0029 main.a51(39), SHOW: CJNE  A,LAST,NEW',
            'the run ends here: EVENT V3 D:09.0 IN ?DT?SHOW AT 0029 AFTER 14 STEPS 23 CYCLES',
            '  D:09.0 is LAST of ?DT?SHOW, main.a51(18); or ONCE of ?DT?SCALE, scale.a51(7)',
            '  AT 0029 is main.a51(39), SHOW: CJNE  A,LAST,NEW']
        commands = ('until event', 'continue', 'goto 99', 'step 99', 'until cycle 23', 'until SHOW', 'until 0x29',
                    'until main.a51(39)', 'until 39')
        found = self.answers(' / goto 0 / '.join(commands), *BUG)[::2]
        self.assertEqual(found, len(commands) * [end])

    def test_locals_and_what_has_a_dead_byte(self):
        found = self.answers('until event / locals / print LAST / print ONCE / back / locals / print LAST', *BUG)
        self.assertEqual(found[1], ['  LAST         not written  09 of ?DT?SHOW, main.a51(18)'])
        self.assertEqual(found[3], [
            '  ONCE is dead: ?PR?SCALE is not active (09 of ?DT?SCALE, scale.a51(7))',
            '  its byte is now LAST not written, 09 of ?DT?SHOW, main.a51(18)'])
        self.assertEqual(found[4], ['13 steps, 21 cycles: 0024 main.a51(35), LOOP+5: LCALL SHOW'])
        self.assertEqual(found[5], ['  none'])
        self.assertEqual(found[6], ['  LAST is dead: ?PR?SHOW is not active (09 of ?DT?SHOW, main.a51(18))'])

    def test_next_and_finish(self):
        found = self.answers('until SCALE / finish / back 5 / next / goto 13 / next / finish', *CURED)
        self.assertEqual(found[0], ['9 steps, 16 cycles: 0003 scale.a51(9), SCALE: MOV   ONCE,A'])
        self.assertEqual(found[1], ['13 steps, 21 cycles: 0024 main.a51(35), LOOP+5: LCALL SHOW'])
        self.assertEqual(found[2], ['8 steps, 14 cycles: 0021 main.a51(34), LOOP+2: LCALL SCALE'])
        self.assertEqual(found[3], found[1])
        self.assertEqual(found[5], ['16 steps, 27 cycles: 0027 main.a51(36), LOOP+8: SJMP  LOOP'])
        self.assertIn('the run ends here: END 300 STEPS 467 CYCLES', found[6])

    def test_breaks_watches_and_back(self):
        found = self.answers(
            'break TICK / continue / stack / back / watch TICKS / delete TICK / continue / continue / reverse SCALE / '
            'delete / break / until event', *CURED)
        self.assertEqual(found[0], ['  0032 tick.a51(12), TICK: MOV   SAVED,A'])
        place = found[1][-1]
        self.assertRegex(place, r'steps, \d+ cycles: 0032 tick.a51\(12\), TICK: MOV   SAVED,A$')
        self.assertIn('  @000B, interrupt at ', found[2][1])
        self.assertIn('LJMP  TICK', found[3][-1])
        self.assertRegex(found[6][0], r'tick.a51\(17\), TICK\+9: MOV   A,SAVED$')
        self.assertEqual(found[6][1], '  TICKS 01, 08 of STATE, main.a51(15)')
        self.assertEqual(found[7][-1], '  TICKS 02, 08 of STATE, main.a51(15)')
        self.assertIn('SCALE: MOV   ONCE,A', found[8][-1])
        self.assertEqual(found[10], [])
        self.assertIn('the run ends here: END 300 STEPS 467 CYCLES', found[11])

    def test_memory_and_ports(self):
        self.keep('outer.a51', OUTER)
        self.keep('outer.brd', 'PIN 3 P1 0F / PIN 90 P3 00')
        found = self.answers(
            'until cycle 14 / memory x 0 3 / print HERE / print FLAG / memory 20 1 / stack / step / ports / '
            'memory c 0 4 / regs / goto 2 / print HERE / memory x 0 2',
            '--script', 'outer.brd', '--steps', '20', 'outer.a51', folder=self.folder)
        self.assertEqual(found[1], ['  0000  06 05 ..'])
        self.assertEqual(found[2], ['  HERE 06 05, 00 of X, outer.a51(3)'])
        self.assertEqual(found[3], ['  FLAG 1, bit 00 of F, outer.a51(6)'])
        self.assertEqual(found[5], ['  SP 08', '  @0000, from the reset'])
        self.assertEqual(found[6][0], '    14 P1 06')
        self.assertEqual(found[7], ['  latches P0 FF  P1 06  P2 00  P3 FF', '  levels  P0 FF  P1 0F  P2 FF  P3 FF'])
        self.assertEqual(found[8], ['  0000  90 00 01 74'])
        self.assertIn('A 06  B 00  DPTR 0001  SP 08', found[9][0])
        self.assertEqual(found[11], ['  HERE .. ..' + ', 00 of X, outer.a51(3)'])
        self.assertEqual(found[12], ['  0000  .. ..'])

    def test_commands_that_are_wrong(self):
        found = self.answers(
            'fly / step x / until NOWHERE / print NOTHING / watch NOTHING / memory GG / goto 0 / help step', *BUG)
        for lines, words in zip(found, ('no command fly', 'x is no number', 'NOWHERE is no label', 'no variable',
                                        'no variable', 'hexadecimal', '0 steps', 'step [N]: N steps')):
            self.assertIn(words, lines[0])

    def test_commands_of_a_file(self):
        with open(self.path('c.txt'), 'w') as file:
            file.write('until SHOW   # where it ends\n\nquit\nstep\n')
        text = tool('debug', '--commands', self.path('c.txt'), *BUG)
        self.assertEqual(text, tool('debug', *BUG, text='until SHOW\n\nquit\n'))
        self.assertIn('(m51) until SHOW\n', text)
        self.assertTrue(text.endswith('(m51) quit\n'))

    def test_a_link_that_is_refused(self):
        self.keep('bad.a51', 'CSEG AT 0 / MOV A,NONE / END')
        with self.assertRaises(AssertionError) as found:
            tool('debug', '--steps', '1', 'bad.a51', folder=self.folder)
        self.assertIn('E7', str(found.exception))

    def test_a_terminal(self):
        """On a terminal nothing is written twice; its end ends the session."""
        words = ['sh', '-c', f'cd {TUTORIAL} && printf "step\\nquit\\n" | {TOOLS}/debug {" ".join(BUG)}']
        status, text = on_terminal(words)
        self.assertEqual(status, 0)
        self.assertIn('1 steps, 2 cycles: 000E main.a51(27), MAIN: MOV   SP,#?STACK-1\n', text)
