"""wave: the dump and the picture."""
import re
import shutil
import unittest
import xml.etree.ElementTree

from support import Folder, ran, tool

TRACE = 'RUN\n5 P1 55\n5 P3 0F\n7 TX 41\n7 P1 56\nEVENT V4 AT 0000 AFTER 5 STEPS 9 CYCLES\n'
SCRIPT = 'FILL 00 / ; PIN 1 P0 00 / PIN 2 P1 0F / RX 6 42 1 / PIN 99 P1 00'


def read_dump(text):
    """The changes of a dump, as (time, scope, name, value), its unit, and its last time."""
    names, changes, time, scope = {}, [], 0, None
    head, _, body = text.partition('$enddefinitions $end\n')
    for words in filter(None, map(str.split, head.splitlines())):
        if words[0] == '$scope':
            scope = words[2]
        elif words[0] == '$var':
            names[words[3]] = (scope, words[4])
    for line in filter(None, body.splitlines()):
        if line[0] == '#':
            time = int(line[1:])
        elif line[0] == 'b':
            value, code = line[1:].split()
            changes.append((time, *names[code], value if 'x' in value else int(value, 2)))
        elif line[0] == '1':
            changes.append((time, *names[line[1:]], None))
    return changes, re.search(r'\$timescale\s+(.*?)\s+\$end', head)[1], time


class Wave(Folder):
    def test_changes(self):
        self.keep('s.brd', SCRIPT)
        changes, unit, end = read_dump(tool('wave', '--script', 's.brd', text=TRACE, folder=self.folder))
        self.assertEqual((unit, end), ('1 us', 9))
        self.assertEqual(
            sorted((change for change in changes if change[0]), key=str),
            sorted([
                (2, 'board1', 'pins1', 15), (5, 'board1', 'P1', 0x55), (5, 'board1', 'P3', 15),
                (6, 'board1', 'RX', 0x42), (6, 'board1', 'arrives', None), (7, 'board1', 'TX', 0x41),
                (7, 'board1', 'sent', None), (7, 'board1', 'P1', 0x56)], key=str))
        for name, value in (('P1', 255), ('pins1', 255), ('TX', 'x'), ('RX', 'x')):
            self.assertIn((0, 'board1', name, value), changes)

    def test_crystal(self):
        changes, unit, end = read_dump(tool('wave', '--mhz', '11.0592', text=TRACE))
        self.assertEqual((unit, end), ('1 ns', round(9 * 12000 / 11.0592)))
        self.assertIn((round(5 * 12000 / 11.0592), 'board1', 'P1', 0x55), changes)

    def test_times_ascend(self):
        self.keep('s.brd', SCRIPT)
        text = tool('wave', '--script', 's.brd', text=TRACE, folder=self.folder)
        times = [int(time) for time in re.findall(r'^#(\d+)$', text, re.M)]
        self.assertEqual(times, sorted(set(times)))

    def test_boards(self):
        lines = ['PARTY 8'] + [f'{it}: {it} P0 {it:02X}' for it in range(1, 9)]
        lines += [f'{it}: END 9 STEPS 20 CYCLES' for it in range(1, 9)]
        self.keep('s.brd', 'PIN 2 P1 0F')
        text = tool('wave', '--script', 's.brd', text='\n'.join(lines) + '\n', folder=self.folder)
        self.assertTrue(text.isascii())
        self.assertEqual(
            {change for change in read_dump(text)[0] if change[2] == 'P0' and change[0]},
            {(it, f'board{it}', 'P0', it) for it in range(1, 9)})
        self.assertEqual(len(set(re.findall(r'^\$var \S+ \d+ (\S+) ', text, re.M))), 8 * 12)

    @unittest.skipUnless(shutil.which('vcd2fst'), 'gtkwave is not installed')
    def test_another_reader(self):
        self.keep('s.brd', SCRIPT)
        self.keep('r.vcd', tool('wave', '--script', 's.brd', text=TRACE, folder=self.folder))
        ran(['vcd2fst', 'r.vcd', 'r.fst'], folder=self.folder)
        again = read_dump(ran(['fst2vcd', 'r.fst'], folder=self.folder))[0]
        with open(self.path('r.vcd')) as file:
            before = read_dump(file.read())[0]
        # It gives a value at the start for each signal.
        self.assertEqual({change for change in before if change[0]}, {change for change in again if change[0]})

    def test_picture(self):
        self.keep('s.brd', SCRIPT)
        text = tool('wave', '--svg', '--title', 'A & B', '--script', 's.brd', text=TRACE, folder=self.folder)
        picture = xml.etree.ElementTree.fromstring(text)
        texts = [it.text for it in picture.iter('{http://www.w3.org/2000/svg}text')]
        event = 'EVENT V4 AT 0000 AFTER 5 STEPS 9 CYCLES'
        for shown in ('A & B', 'P1', 'P3', 'TX', 'pins1', 'RX', '55', "42 'B'", event):
            self.assertIn(shown, texts)
        for hidden in ('P0', 'P2', 'pins0'):
            self.assertNotIn(hidden, texts)
        later = tool('wave', '--svg', '--from', '7', text=TRACE)
        self.assertNotIn('>55<', later)
        self.assertNotRegex(later, ' width="0(\\.0*)?"', 'what is before the first cycle is not drawn')
        self.assertIn('>56<', later)
        tool('wave', '--svg', '--from', '9', text=TRACE, status=2)

    def test_no_trace(self):
        tool('wave', text='LINK L8\n', status=2)

    def test_arguments(self):
        for words in (['--mhz', '0'], ['--mhz', '-1'], ['--mhz', 'nan'], ['--mhz', 'inf'], ['--from', '3'],
                      ['--to', '9']):
            self.assertEqual(tool('wave', *words, text=TRACE, status=2), '', words)
