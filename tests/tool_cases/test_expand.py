"""expand: macros and conditions, the table of lines, and what names the real line."""
import os
import random
import re
import shutil
import subprocess
import sys

import expansion
import expressions
import line_table
import random_macros
from expansions import REFUSED, SEVERAL, WRITTEN
from support import PROGRAM, TOOLS, TOP, Folder, ran, tool

sys.path.insert(0, str(TOP / 'tests'))


class Expand(Folder):
    def expanded(self, text, *words, status=0):
        """The lines that a source becomes, without the comments of calls."""
        with open(self.path('a.asm'), 'w') as file:
            file.write(text.replace(' / ', '\n') + '\n')
        said = tool('expand', *words, 'a.asm', folder=self.folder, status=status)
        return [re.sub(r'^(\w+:) ; .*', r'\1 ', line) for line in said.splitlines() if not line.startswith('; ')]

    def fault(self, text, *words):
        """What is said of a source."""
        with open(self.path('a.asm'), 'w') as file:
            file.write(text.replace(' / ', '\n') + '\n')
        done = subprocess.run([TOOLS / 'expand', *words, 'a.asm'], cwd=self.folder, stdout=subprocess.PIPE,
                              stderr=subprocess.PIPE)
        return done.returncode, done.stdout.decode(), done.stderr.decode()

    def run_over(self, text):
        """A run over a source in this process: the lines without the comments of calls, and the faults in words."""
        path = self.path('a.asm')
        with open(path, 'w') as file:
            file.write(text.replace(' / ', '\n') + '\n')
        run = expansion.Expansion({}, [])
        run.run(path)
        lines = [re.sub(r'^(\w+:) ; .*', r'\1 ', line) for line in run.written.lines if not line.startswith('; ')]
        faults = [f'{it.place[1]} {it.kind}: {it.why}' + line_table.through_of(line_table.Place(*it.place))
                  for it in run.faults]
        return lines, [fault.replace(path, 'a.asm') for fault in faults]

    def test_written(self):
        for text, wanted in WRITTEN:
            self.assertEqual(self.run_over(text), (wanted.split(' / '), []), text)

    def test_refused(self):
        for text, line, why in REFUSED:
            faults = self.run_over(text)[1]
            self.assertEqual(len(faults), 1, (text, faults))
            self.assertTrue(faults[0].startswith(f'{line} {why}'), (text, faults))

    def test_several(self):
        """All faults of a text are said, up to a hundred, each once."""
        for text, wanted in SEVERAL:
            faults = self.run_over(text)[1]
            self.assertEqual(tuple(it.partition(':')[0] for it in faults), wanted, faults)

    def test_said(self):
        status, out, said = self.fault('M MACRO / IF 1 / ENDM / N / M / EXITM / N MACRO / ENDM')
        self.assertEqual((status, out), (2, ''))
        self.assertEqual(said.splitlines(), [
            'a.asm(2): OPEN: IF without ENDIF in the macro M (in M, called at a.asm(5))',
            'a.asm(6): LONE: EXITM outside a macro', 'a.asm(4): NAME: N is used above its definition'])

    def test_random_macros(self):
        """Random macros give what a second way of expansion gives."""
        for seed in range(200):
            source, wanted = random_macros.pair(seed)
            lines, faults = self.run_over(source)
            self.assertEqual(faults, [], source)
            self.assertEqual([' '.join(line.split()) for line in lines], wanted, source)

    def test_defined(self):
        text = 'IFDEF FAST / DB 1 / ENDIF / $IF (N = 3) / DB 2 / $ENDIF / IF N-3 / DB 3 / ENDIF'
        self.assertEqual(self.expanded(text, '-D', 'FAST', '-D', 'n=3'), ['DB 1', 'DB 2'])
        self.assertEqual(self.expanded(text, '-DN=0FFH-1'), ['DB 3'])
        for word in ('1=2', '=2', 'N=', 'N=1/', 'N=70000'):
            self.assertEqual(self.fault(text, '-D', word)[0], 2, word)

    def test_includes(self):
        os.mkdir(self.path('sub'))
        os.mkdir(self.path('lib'))
        self.keep('sub/m.inc', 'M MACRO X / DB X / ENDM / $include (n.inc) / $INCLUDE(o.inc)')
        self.keep('sub/o.inc', 'O EQU 6')
        self.keep('lib/n.inc', 'N EQU 5')
        text = '$INCLUDE(sub/m.inc) / M %N'
        self.assertEqual(self.expanded(text, '-I', 'lib'), ['N EQU 5', 'O EQU 6', 'DB 5'])
        self.assertIn('sub/m.inc(4): FILE: there is no include n.inc', self.fault(text)[2])

    def test_limits_of_lines(self):
        """A comment that makes a line too long is cut, and one with accents becomes plain."""
        long = 'NOP ;' + 300 * 'x'
        self.assertEqual(self.expanded(f'{long} / DB 1 ; \xfc'), ['NOP', 'DB 1 ; ' + 2 * '?'])

    def test_ends_of_lines(self):
        with open(self.path('a.asm'), 'wb') as file:
            file.write(b'NOP\r\nEND\r\n\x1a')
        tool('expand', '--out', 'a.a51', 'a.asm', folder=self.folder)
        with open(self.path('a.a51'), 'rb') as file:
            self.assertEqual(file.read(), b'NOP\nEND\n')

    def test_nothing_is_kept_after_a_fault(self):
        self.fault('ELSE', '--out', 'a.a51')
        self.assertEqual(os.listdir(self.folder), ['a.asm'])
        self.keep('b.asm', 'NOP')
        tool('expand', '--out', 'b.asm', 'b.asm', folder=self.folder, status=2)
        tool('expand', 'nosuch.asm', folder=self.folder, status=2)

    def test_table(self):
        os.mkdir(self.path('sub'))
        self.keep('m.inc', 'INNER MACRO / INC A / ENDM')
        self.keep('a.asm', '$INCLUDE(m.inc) / M MACRO / INNER / NOP / ENDM / CSEG AT 0 / M / END')
        tool('expand', '--out', 'sub/a.a51', 'a.asm', folder=self.folder)
        with open(self.path('sub', 'a.a51')) as file:
            lines = file.read().splitlines()
        at = lines.index('INC A') + 1
        place = line_table.real(self.path('sub', 'a.a51'), at)
        self.assertEqual(
            line_table.text_of(place).replace(self.folder + '/', ''),
            'm.inc(2) in INNER, called at a.asm(3), in M, called at a.asm(7)')
        self.assertIsNone(line_table.real(self.path('sub', 'a.a51'), len(lines) + 1))
        line_table.places_of.cache_clear()
        with open(self.path('sub', 'a.a51'), 'a') as file:
            file.write('; changed\n')
        self.assertIsNone(line_table.real(self.path('sub', 'a.a51'), at))

    def test_real_lines(self):
        """Hints, explain, where and foreign name the line of the source, and its macro."""
        self.keep('a.asm', 'M MACRO X / MOV R0,#X / ENDM / CSEG AT 0 / M 1 / M 555H / SJMP $ / END')
        tool('expand', '--out', 'a.a51', 'a.asm', folder=self.folder)
        done = subprocess.run([TOP / 'm51', 'build', '--steps', '1', 'a.a51'], cwd=self.folder, stdout=subprocess.PIPE,
                              stderr=subprocess.PIPE)
        answer = done.stdout.decode()
        self.assertEqual((done.returncode, answer), (3, 'a.a51(5): E14\n'))
        hint = ('a.asm(2): E14: an operand out of its range or class in M, called at a.asm(6) (a.a51, line 5)\n')
        self.assertTrue(done.stderr.decode().endswith(hint), done.stderr)
        said = tool('explain', text=answer, folder=self.folder)
        self.assertIn('\n    a.asm(2) in M, called at a.asm(6)\n    | MOV R0,#555H\n', said)
        self.keep('a.asm', 'M MACRO X / MOV R0,#X / ENDM / CSEG AT 0 / M 1 / M 55H / HERE: SJMP $ / END')
        tool('expand', '--out', 'a.a51', 'a.asm', folder=self.folder)
        self.keep('m.map', ran([PROGRAM, 'build', '--steps', '1', 'a.a51'], folder=self.folder))
        found = tool('where', '-m', 'm.map', '-a', '0002', '-a', '0004', 'a.a51', folder=self.folder)
        self.assertIn('0002 a.asm(2) in M, called at a.asm(6), @0000+2: MOV R0,#55H\n', found)
        self.assertIn('0004 a.asm(7), HERE: SJMP $\n', found)
        text = ran([PROGRAM, 'asm', '--out', 'a.obj', 'a.a51'], folder=self.folder)
        with open(self.path('a.lst'), 'w') as file:
            file.write(text)
        self.assertEqual(
            tool('where', '-m', 'm.map', '-a', '0002', '-a', '0004', 'a.obj', folder=self.folder), found)

    def test_a_macro_of_an_include(self):
        """A fault in line 3 of a macro that line 40 of an include calls: the hint, explain, where and vim name both."""
        macro = ['DELAY MACRO N, REG', ' NOP', ' MOV REG,#N', ' DJNZ REG,$', ' ENDM']
        self.keep('d.inc', '\n'.join([*macro, *['; ..'] * 33, 'PAUSE:', ' DELAY 555,R7', ' RET']))
        self.keep(
            'm.m51', ' CSEG AT 0 / LCALL PAUSE / SJMP $ / ?PR?P SEGMENT CODE / RSEG ?PR?P / $INCLUDE(d.inc) / END')
        tool('expand', '--out', 'm.a51', 'm.m51', folder=self.folder)
        done = subprocess.run([TOP / 'm51', 'build', '--steps', '1', 'm.a51'], cwd=self.folder, stdout=subprocess.PIPE,
                              stderr=subprocess.PIPE)
        answer = done.stdout.decode()
        said = done.stderr.decode().splitlines()[-1]
        self.assertEqual(
            said, 'd.inc(3): E14: an operand out of its range or class in DELAY, called at d.inc(40) (m.a51, line 42)')
        self.assertIn('    d.inc(3) in DELAY, called at d.inc(40)\n    | MOV R7,#555\n',
                      tool('explain', text=answer, folder=self.folder))
        if shutil.which('vim'):
            self.keep('said.txt', said)
            words = ['vim', '-es', '-u', 'NONE', '-N', '-c', 'cfile said.txt', '-c', 'redir! > place.txt', '-c',
                     'echo expand("%") line(".")', '-c', 'qa!']
            subprocess.run(words, cwd=self.folder, stdin=subprocess.DEVNULL, stdout=subprocess.DEVNULL, timeout=120)
            with open(self.path('place.txt')) as file:
                self.assertEqual(file.read().strip(), 'd.inc 3')
        with open(self.path('d.inc')) as file:
            text = file.read()
        self.keep('d.inc', text.replace('555', '55').rstrip('\n'))
        tool('expand', '--out', 'm.a51', 'm.m51', folder=self.folder)
        self.keep('m.map', ran([PROGRAM, 'build', '--steps', '1', 'm.a51'], folder=self.folder))
        found = tool('where', '-m', 'm.map', '-a', '0006', 'm.a51', folder=self.folder)
        self.assertEqual(found, '0006 d.inc(3) in DELAY, called at d.inc(40), PAUSE+1: MOV R7,#55\n')

    def test_rule_of_make(self):
        """The Makefiles of the projects write a .m51 and a .mac out, and again after a change of an include."""
        for name, inc in (('shell', 'board.inc'), ('logger', 'log.inc'), ('keypad', 'board.inc')):
            folder = self.path(name)
            os.mkdir(folder)
            shutil.copy(TOP / 'examples' / name / 'Makefile', folder)
            for file, text in ((inc, 'N EQU 1\n'), ('a.m51', f'$INCLUDE({inc})\n'), ('b.mac', 'REPT 2\nNOP\nENDM\n')):
                with open(os.path.join(folder, file), 'w') as out:
                    out.write(text)
            words = ['make', f'M51={TOP}/m51', 'a.a51', 'b.a51']
            self.assertEqual(ran(words, folder=folder), 'write a.a51\nwrite b.a51\n')
            with open(os.path.join(folder, 'b.a51')) as file:
                self.assertEqual(file.read(), 'NOP\nNOP\n')
            self.assertTrue(os.path.isfile(os.path.join(folder, 'b.a51.lines')))
            os.utime(os.path.join(folder, 'b.mac'), (1, 1))
            later = os.stat(os.path.join(folder, 'a.a51')).st_mtime + 5
            os.utime(os.path.join(folder, 'a.m51'), (later, later))
            self.assertEqual(ran(words, folder=folder), "write a.a51\nmake: 'b.a51' is up to date.\n")

    def test_expressions_are_those_of_the_program(self):
        """Random expressions have the value that the program gives them."""
        rng, lines = random.Random(51), []
        signs = ['+', '-', '*', ' AND ', ' OR ', ' XOR ', ' EQ ', ' NE ', ' LT ', ' LE ', ' GT ', ' GE ', ' SHL ',
                 ' SHR ', ' MOD ', '/']

        def operand(depth):
            if depth and rng.random() < 0.4:
                return '(' + made(depth - 1) + ')'
            number = str(rng.choice([0, 1, 2, 3, 7, 255, 256, 65535, '0FFH', '101B', '17Q', "'A'", "'AB'", 'N', 'K']))
            return rng.choice(['', '', '', '-', '+', 'HIGH ', 'LOW ']) + number

        def made(depth):
            text = operand(depth)
            for _ in range(rng.randrange(4)):
                sign = rng.choice(signs)
                text += sign + ('3' if sign in ('/', ' MOD ', ' SHL ', ' SHR ') else operand(depth))
            return 'NOT ' + text if rng.random() < 0.2 and depth == 3 else text

        values = {'N': 5, 'K': 0xFFFE}
        texts = [made(3) for _ in range(300)]
        lines = ['N EQU 5', 'K SET -2', 'CSEG AT 0', *(f'DW {text}' for text in texts if len(text) < 200), 'END']
        with open(self.path('a.a51'), 'w') as file:
            file.write('\n'.join(lines) + '\n')
        listing = ran([PROGRAM, 'asm', '--out', '/dev/null', 'a.a51'], folder=self.folder)
        rows = [(line[11:15], line[19:]) for line in listing.splitlines() if line[19:].startswith('DW ')]
        self.assertGreater(len(rows), 250)
        for value, text in rows:
            self.assertEqual(f'{expressions.evaluate(text[3:], values.get):04X}', value, text)

    def test_examples_of_mcu8051ide(self):
        """Its example with macros gives the bytes of its own assembler, as it is."""
        source = '/usr/share/mcu8051ide/demo/demo4'
        if not os.path.isfile(source + '.asm'):
            self.skipTest('mcu8051ide is not installed')
        tool('expand', '--out', 'a.a51', source + '.asm', folder=self.folder)
        ran([PROGRAM, 'build', '--hex', 'a.hex', '--steps', '1', 'a.a51'], folder=self.folder)
        import image

        self.assertEqual(image.read_hex(self.path('a.hex')), image.read_hex(source + '.hex'))
