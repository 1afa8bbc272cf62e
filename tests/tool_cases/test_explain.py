"""explain: the table, and answers. .ci/documents holds the table against docs/WHERE.md."""
import os
import re
import shutil
import subprocess

from support import PROGRAM, SHARED, TOP, Folder, build, ran, tool

import guesses
import numbers_table

KEY_OF_LINE = {
    'e1.a51(3): E14': 'E14',
    'a b.a51(3): E7': 'E7',
    'LINK L2 E1': 'L2',
    'LINK L7 LINE 3': 'L7',
    'STACK K4 0003': 'K4',
    'EVENT V1 NOEDGE FROM 0004 TO 0100 AFTER 2 STEPS 3 CYCLES': 'V1 NOEDGE',
    '2: EVENT V5 AT 0000 AFTER ..': 'V5',
    'EVENT V3 D:09.0 IN ?DT?SHOW AT 0029 AFTER 14 STEPS 23 CYCLES': 'V3',
    'OBJECT e1.obj: O3 AT 0': 'O3',
    'LIBRARY B2 THIRD': 'B2',
    'SCRIPT LINE 4: S2': 'S2',
    'CONTROL LINE 1: C1': 'C1',
    'LIMIT FILES 64': 'LIMIT FILES',
    'READ FAULT e1.a51': 'READ FAULT',
    'WRITE FAULT x': 'WRITE FAULT'}


# A source, the fault that it has, and what `explain` says that it is most likely about.
GUESSED = (
    ('MOV A,"x" / END', '(1): E1', '" in column 7 begins no token'),
    ("MOV A,'x / END", '(1): E2', 'the text that begins in column 7 is not closed'),
    ("DB 5,'''' / DB ''' / END", '(2): E2', 'the text that begins in column 4 is not closed'),
    ('MOV A,0x55 / END', '(1): E3', '0x55 in column 7 is no number of 16 bits'),
    ('DW 0FFFFH,65536 / END', '(1): E3', '65536 in column 11 is no number of 16 bits'),
    ('DB 1,0FD / END', '(1): E3', '0FD in column 6 is no number of 16 bits'),
    (f'{32 * "N"}: NOP / END', '(1): E4', 'NNNNNNNN.. in column 1 has 32 characters'),
    (f'NOP ;{251 * " "} / END', '(1): E5', 'it has 256 bytes'),
    ('MOV A,#FFH / END', '(1): E7', 'FFH in column 8 has no value here'),
    ('N EQU 1 /  MOV A,#N+Nope / END', '(2): E7', 'NOPE in column 11 has no value here'),
    ('PUBLIC NIX / END', '(1): E7', 'NIX in column 8 has no value here'),
    ('$NOMOD51 / MOV P1,#1 / END', '(2): E7', 'P1 in column 5 has no value here'),
    ('N EQU M / M EQU 1 / END', '(1): E7', 'M in column 7 is defined further down, in line 2'),
    ('N: MVO A,#1 / END', '(1): E11', 'MVO in column 4 is no instruction and no directive'),
    ('#include "x" / END', '(1): E1', '" in column 10 begins no token'),
    ('$DATE(1) / END', '(1): E12', 'this control is not known, or not written so'),
    ('%DEFINE (X) / END', '(1): E12', 'a line of the macro language; `m51 expand` writes macros out'),
    ('DATA: NOP / END', '(1): E12', 'DATA in column 1 is a reserved word, and can be no name'),
    (' C EQU 5 / END', '(1): E12', 'C in column 2 is a reserved word, and can be no name'),
    ('X SEGMENT DATA / RSEG X / DB 5 / END', '(3): E12', 'DB is for segments of CODE, and line 2 opens X of DATA'),
    ('XSEG / NOP / END', '(2): E12', 'NOP is for segments of CODE, and line 1 opens an absolute segment of XDATA'),
    ('X SEGMENT CODE / RSEG X / ORG 5 / END', '(3): E12', 'ORG is for absolute segments, and line 2 opens X of CODE'),
    ('DBIT 5 / END', '(1): E12', 'DBIT is only for segments of BIT, and the source begins in CODE'),
    ('BSEG / DS 1 / END', '(2): E12', 'DS is not for segments of BIT, and line 1 opens an absolute segment of BIT'),
    ('EXTRN (F) / END', '(1): E12', 'EXTRN is not written so'),
    ('X SEGMENT RAM / END', '(1): E12', 'SEGMENT is not written so'),
    ('X: NOP / X: NOP / END', '(2): E13', 'X in column 1 is defined in line 1 too'))


class Explain(Folder):
    def test_table(self):
        for key, text in numbers_table.entries():
            lines = text.split('\n')
            self.assertTrue(all(len(line) <= 120 and line.isascii() for line in lines), key)
            self.assertGreater(len(lines[0].partition('  ')[2]), 10, key)

    def test_numbers(self):
        self.assertTrue(tool('explain', 'e14').startswith('E14  an operand out of its range'))
        self.assertEqual(tool('explain', 'E1').count('\n\n'), 0)
        self.assertIn('\n\nL11  ', tool('explain', 'K2', 'L11'))
        self.assertEqual(tool('explain', 'LIMIT').count('cure:'), 10)
        self.assertTrue(tool('explain', 'LIMIT POINTS').startswith('LIMIT POINTS  '))
        self.assertTrue(tool('explain', 'NOEDGE').startswith('V1 NOEDGE  '))
        self.assertEqual(tool('explain', 'Z9', status=2), '')

    def test_lines(self):
        self.assertEqual({line: numbers_table.short(line)[0] for line in KEY_OF_LINE}, KEY_OF_LINE)
        self.assertTrue(tool('explain', 'LINK L2 E1').startswith('L2  '))

    def test_answer(self):
        self.keep('a.a51', 'CSEG AT 0 / MOV IE,#FFH / END')
        answer = build('--steps', '1', 'a.a51', folder=self.folder, status=3)
        lines = tool('explain', text=answer, folder=self.folder).splitlines()
        self.assertEqual(
            lines[:4],
            ['a.a51(2): E7', '    | MOV IE,#FFH', '    FFH in column 9 has no value here',
             '    a name without a value'])
        self.assertEqual(tool('explain', text=SHARED), SHARED)

    def test_answer_says_each_number_once(self):
        """A fault that comes again, and what the script says of it, has no second explanation."""
        self.keep('a.a51', 'CSEG AT 0 / FOO 1 / BAR 2 / END')
        answer = 'm51: E11: no such instruction (a.a51, line 2)\na.a51(2): E11\na.a51(3): E11\nm51: a.a51(3): E11\n'
        said = tool('explain', text=answer, folder=self.folder)
        self.assertEqual(said.count('cure:'), 1)
        for line in ('    | FOO 1\n    FOO in column 1 is no', '    | BAR 2\n    BAR in column 1 is no'):
            self.assertIn(line, said)
        self.assertTrue(said.endswith('\nm51: a.a51(3): E11\n'))

    def test_cure_of_letters_with_accents(self):
        """What E18 tells to type works on UTF-8, the usual coding, where no language is set, as in make."""
        cure = re.search(r'iconv -f \S+ -t [^\s,]+', dict(numbers_table.entries())['E18'])[0]
        page = (TOP / 'docs' / 'PORTING.md').read_text()
        self.assertIn(f'`{cure}`', page)
        if shutil.which('iconv'):
            done = subprocess.run(['sh', '-c', cure], input='; Zähler\n'.encode(), stdout=subprocess.PIPE,
                                  env={**os.environ, 'LC_ALL': 'C'})
            self.assertEqual((done.returncode, done.stdout.isascii()), (0, True))

    def test_statuses(self):
        self.assertEqual(tool('explain', '3'), 'status 3  a source has faults: E1 to E19\n')
        self.assertIn('of the script', tool('explain', '70'))
        for word in ('13', '71', '-1'):
            self.assertEqual(tool('explain', '--', word, status=2), '')

    def test_guesses(self):
        lines = ['AUX EQU 8EH', 'MOV AUXR,#AUX', 'N EQU M+1', 'M EQU 2', 'X: DB Hello', '$DATE(1)', 'A: NOP', 'ORG 5',
                 'DS 3', '.org 5', 'MOV R0,R1', 'EXTRN CODE (F)', 'LCALL F', "DB 'NIX'", 'B2 BIT B.2', 'P9 DATA P9']
        for number, key, said in (
                (2, 'E7', 'AUXR in column 5 has no value here'),
                (3, 'E7', 'M in column 7 is defined further down, in line 4'),
                (5, 'E7', 'HELLO in column 7 has no value here'),
                (6, 'E12', 'this control is not known, or not written so'),
                (7, 'E12', 'A in column 1 is a reserved word, and can be no name'),
                (8, 'E12', 'ORG is not written so'), (9, 'E12', 'DS is not written so'),
                (10, 'E11', '.org in column 1 is no instruction and no directive'), (11, 'E11', None), (13, 'E7', None),
                (14, 'E7', None), (15, 'E7', None), (99, 'E7', None), (1, 'E14', None)):
            self.assertEqual(guesses.guess(key, 'a.a51', number, lambda file: lines), said, number)

    def test_guesses_of_faults(self):
        """What the program's own faults are most likely about."""
        for source, fault, said in GUESSED:
            self.keep('a.a51', source)
            answer = ran([PROGRAM, 'asm', '--out', '/dev/null', 'a.a51'], folder=self.folder, status=3)
            self.assertIn(f'a.a51{fault}\n', answer, source)
            self.assertIn(f'    {said}\n', tool('explain', f'a.a51{fault}', folder=self.folder), source)

    def test_guess_of_a_byte(self):
        with open(self.path('a.a51'), 'wb') as file:
            file.write(b'NOP ; gr\xc3\xbc\xc3\x9fe\r\nEND\r\n')
        answer = ran([PROGRAM, 'asm', '--out', '/dev/null', 'a.a51'], folder=self.folder, status=3)
        said = tool('explain', text=answer, folder=self.folder)
        self.assertIn('    | NOP ; gr????e\n    the byte C3H in column 9\n', said)

    def test_guesses_with_includes(self):
        files = {'a.a51': ['$INCLUDE(b.inc)', 'MOV N,#M'], 'b.inc': ['N EQU 5', 'MOV A,#Q+R']}

        def guess(file, line):
            return guesses.guess('E7', file, line, lambda name: files.get(name, []))

        self.assertEqual(guess('a.a51', 2), 'M in column 8 has no value here')
        # What else the source defines is not known from its include, nor what an include defines that is not there.
        self.assertEqual(guess('b.inc', 2), None)
        files['a.a51'] += ['$INCLUDE(c.inc)', 'MOV Q,#R']
        self.assertEqual(guess('a.a51', 4), None)
        self.assertEqual(guess('a.a51', 2), 'M in column 8 has no value here')
