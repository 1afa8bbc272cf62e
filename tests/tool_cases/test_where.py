"""where: labels, addresses, events."""
import os
import re

from support import PROGRAM, TOOLS, TUTORIAL, Folder, build, ran, sources, tool

FILES = ['main.a51', 'tick.a51', 'scale.a51']
ZEROS = 'DB 0' + ',0' * 99 + ' / '
FIRST = (
    'V SEGMENT DATA / X SEGMENT XDATA PAGE / B SEGMENT BIT / RSEG V / V1: DS 2 / RSEG X / X1: DS 3 / RSEG B / '
    'B1: DBIT 9 / DSEG AT 30H / D1: DS 2 / DSEG AT 40H / D2: DS 1 / CSEG AT 0 / L1: SJMP $ / '
    + 4 * ZEROS + 'L2: NOP / END')
SECOND = (
    'V SEGMENT DATA / X SEGMENT XDATA PAGE / B SEGMENT BIT / RSEG V / V2: DS 2 / V3: DS 1 / RSEG X / X2: DS 3 / '
    'RSEG B / B2: DBIT 2 / END')
THIRD = 'V SEGMENT DATA / X SEGMENT XDATA PAGE / RSEG V / V4: DS 1 / RSEG X / X3: DS 1 / END'
ADDRESSES = {
    'L1': '0000', 'L2': '0192', 'X1': '0000', 'X2': '0100', 'X3': '0200', 'V1': '0008', 'V2': '000A', 'V3': '000C',
    'V4': '000D', 'D1': '0030', 'D2': '0040', 'B1': '0000', 'B2': '0009'}
CELLS = {
    'D:21.2': 'B2 of B, b.a51(10)', 'D:31.0': 'D1+1 of @0030, a.a51(11)', 'D:32.0': 'in no label',
    'D:40.0': 'D2 of @0040, a.a51(13)', 'D:0C.7': 'V3 of V, b.a51(6)', 'X:0102': 'X2+2 of X, b.a51(8)'}


class Where(Folder):
    def test_event_of_the_tutorial(self):
        answer = build('--steps', '300', *FILES, status=1)
        self.assertEqual(
            tool('where', *FILES, text=answer),
            answer + '  D:09.0 is LAST of ?DT?SHOW, main.a51(18); or ONCE of ?DT?SCALE, scale.a51(7)\n'
            '  AT 0029 is main.a51(39), SHOW: CJNE  A,LAST,NEW\n')

    def test_objects_and_library(self):
        for name in ('main', 'tick', 'scale', 'halve'):
            text = ran([PROGRAM, 'asm', '--out', self.path(f'{name}.obj'), f'{name}.a51'])
            if name != 'tick':
                self.keep(f'{name}.lst', text)
        ran([PROGRAM, 'lib', 'build', 'parts.lib', 'halve.obj', 'scale.obj'], folder=self.folder)
        files = ['main.obj', 'tick.obj', 'parts.lib']
        self.keep('m.map', build('--steps', '300', *files, folder=self.folder, status=1))
        labels = tool('where', '-m', 'm.map', *files, folder=self.folder)
        lines = [line.split() for line in labels.splitlines()]
        self.assertIn(['DATA', '0009', 'ONCE', 'scale.a51(7)', '?DT?SCALE'], lines)
        self.assertIn(['CODE', '0032', 'TICK', 'TICK', '?PR?TICK'], lines)
        self.assertNotIn('HALVE', labels)
        found = tool('where', '-m', 'm.map', '-a', '0033', '-a', '21', '-a', 'FFFF', *files, folder=self.folder)
        self.assertEqual(
            found,
            '0033 TICK+1, of which no listing is here\n0021 main.a51(34), LOOP+2: LCALL SCALE\n'
            'FFFF no code is linked there\n')

    def test_parts_pages_bits_and_absolute(self):
        files = [self.keep(f'{name}.a51', text) for name, text in zip('abc', (FIRST, SECOND, THIRD))]
        answer = build('--steps', '1', *files, folder=self.folder)
        self.keep('m.map', answer)
        labels = [line.split() for line in tool('where', '-m', 'm.map', *files, folder=self.folder).splitlines()]
        self.assertEqual({line[2]: line[1] for line in labels}, ADDRESSES)
        answer += ''.join(f'EVENT V2 {cell} AT 0000 AFTER 1 STEPS 1 CYCLES\n' for cell in CELLS)
        found = tool('where', *files, text=answer, folder=self.folder)
        self.assertEqual(re.findall('^  (\\S+) is (.*)$', found, re.M), [*CELLS.items()])

    def test_refused(self):
        ran([TOOLS / 'where'], status=2)
        self.keep('m.map', build('--steps', '1', *FILES))
        for address in ('29H', '0x29', '0029', '29'):
            said = tool('where', '-m', self.path('m.map'), '-a', address, *FILES)
            self.assertTrue(said.startswith('0029 main.a51(39)'), address)
        for address in ('G', '10000', '', '29HH', '-1'):
            tool('where', '-m', self.path('m.map'), f'--address={address}', *FILES, status=2)
        for text, file in (('SEGMENTS\n', 'nosuch.obj'), ('LINK L8\n', 'main.a51'), ('SEGMENTS\n', 'main.c')):
            self.assertEqual(tool('where', file, text=text, folder=TUTORIAL, status=2), '')

    def test_the_environment(self):
        """M51, which Makefiles export, names the script of a project; the program of the tools is M51_PROGRAM alone."""
        self.keep('m.map', build('--steps', '1', *FILES))
        words, environment = ['-m', self.path('m.map'), *FILES], {**os.environ, 'M51': '/bin/false'}
        for name in ('where', 'foreign'):
            tool(name, *words, env={**environment, 'M51_PROGRAM': '/bin/false'}, status=2)
        del environment['M51_PROGRAM']
        if not sources.proved() and not sources.is_current():
            self.skipTest('no program is built here')
        for name in ('where', 'foreign'):
            tool(name, *words, env=environment)

    def test_a_label_alone(self):
        """A line with a label and nothing else does not hide the statement below it, in any tool."""
        self.keep('a.a51', 'CSEG AT 0 / START: / MOV P1,#1 / LAST: / SJMP LAST / END')
        self.keep('m.map', build('--steps', '3', 'a.a51', folder=self.folder))
        found = tool('where', '-m', 'm.map', '-a', '0', '-a', '2', '-a', '3', '-a', '4', 'a.a51', folder=self.folder)
        self.assertEqual(found, ''.join(f'{line}\n' for line in (
            '0000 a.a51(3), START: MOV P1,#1', '0002 a.a51(3), START+2: MOV P1,#1', '0003 a.a51(5), LAST: SJMP LAST',
            '0004 a.a51(5), LAST+1: SJMP LAST')))
        self.assertIn(' a.a51(4) @0000\n', tool('where', '-m', 'm.map', 'a.a51', folder=self.folder))
        records = tool('symbols', '--format', 'cdb', '-m', 'm.map', 'a.a51', folder=self.folder)
        self.assertIn('L:A$a$3:0\n', records)
