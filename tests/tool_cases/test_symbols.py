"""symbols: cdb, omf, lst and json; that maps, objects, listings and HEX files of several programs are told apart."""
import json
import os
import re
import shutil
import subprocess
import sys
import unittest

import image
import omf51_reader
import symbol_formats
from support import PROGRAM, TOOLS, TOP, TUTORIAL, Folder, build, ran, tool

from typed import differences

sys.path.insert(0, str(TOP / 'tests'))
import board  # noqa: E402

FILES = ['main.a51', 'tick.a51', 'scale.a51']
# All forms of fields: the targets lie in other segments or modules.
FORMS = (
    "NAME ONE / EXTRN CODE (G),DATA (Y),BIT (T),NUMBER (N) / PUBLIC F / V SEGMENT DATA BITADDRESSABLE / "
    "B SEGMENT BIT / "
    "PART SEGMENT CODE INBLOCK / RSEG V / X: DS 2 / RSEG B / U: DBIT 3 / CSEG AT 0 / LJMP F / CSEG AT 100H / "
    "F: ACALL F / "
    "RSEG PART / DS 200H / H: AJMP H / ACALL K / SJMP K / K: MOV X+1,Y / MOV A,#N / MOV DPTR,#G+3 / DW K,G,0FFFFH / "
    "SETB X.3 / "
    "CLR U / CPL T / MOV A,#LOW(G) / MOV A,#HIGH(G) / DB 'Hello',LOW(K) / JB X.7,K / END",
    "NAME TWO / PUBLIC G,Y,T,N / N EQU 0FF80H / W SEGMENT DATA / PART SEGMENT CODE INBLOCK / B SEGMENT BIT / "
    "RSEG W / DS 3 / Y: DS 1 / RSEG B / DBIT 2 / T: DBIT 1 / RSEG PART / NOP / G: SJMP G / DS 4 / DB 1 / END")


class Symbols(Folder):
    def link(self, *texts):
        """Links sources that are written here, and keeps map and HEX file."""
        files = [self.keep(f'm{at}.a51', text) for at, text in enumerate(texts)]
        ran([PROGRAM, 'build', '--hex', 'm.hex', '--steps', '1', *files], folder=self.folder)
        self.keep('m.map', build('--steps', '1', *files, folder=self.folder))
        return files

    def symbols(self, form, files, **how):
        return tool('symbols', '--format', form, '-m', 'm.map', *files, folder=self.folder, **how)

    def kept_omf(self, files):
        """The absolute module of a program, read by a reader that knows the specification only."""
        with open(self.path('m.omf'), 'wb') as file:
            file.write(self.symbols('omf', files).encode('latin-1'))
        with open(self.path('m.omf'), 'rb') as file:
            return omf51_reader.Reader(file.read())

    def test_listing(self):
        """Each byte of the HEX file is in the linked listing once."""
        files = self.link(*FORMS)
        lines = self.symbols('lst', ['--hex', 'm.hex', *files]).splitlines()
        made, found = image.read_hex(self.path('m.hex')), []
        for line in lines:
            if line[8:12].strip() and line[13:19].strip():
                found += [(int(line[8:12], 16) + at, byte) for at, byte in enumerate(bytes.fromhex(line[13:19]))]
        self.assertEqual(len(found), len(dict(found)))
        self.assertEqual(dict(found), made)
        self.assertTrue(any(line.endswith(' 2  F: ACALL F') for line in lines), lines)
        self.assertEqual(lines[:2], ['MODULE ONE', 'FILE m0.a51'])

    def test_near_jumps_to_another_module(self):
        """Their distances are those of the HEX file too."""
        part = 'PART SEGMENT CODE / RSEG PART'
        files = self.link(f'NAME ONE / EXTRN CODE (G) / CSEG AT 0 / SJMP $ / {part} / JZ G / DJNZ R2,G / END',
                          f'NAME TWO / PUBLIC G / {part} / NOP / G: SJMP G / END')
        lines = self.symbols('lst', ['--hex', 'm.hex', *files]).splitlines()
        self.assertIn('    7   0002 6003   2  JZ G', lines)
        self.assertIn('    8   0004 DA01   2  DJNZ R2,G', lines)

    def test_bytes_of_a_module_without_a_listing(self):
        """They are none of the line before."""
        texts = ('NAME ONE / CSEG AT 0 / SJMP $ / DB 1,2,3 / END', 'NAME TWO / CSEG AT 5 / DB 4,5 / END')
        for name, text in zip('ab', texts):
            said = ran([PROGRAM, 'asm', '--out', f'{name}.obj', self.keep(f'{name}.a51', text)], folder=self.folder)
            self.keep('a.lst', said.rstrip('\n')) if name == 'a' else None
        self.keep('m.map', build('--steps', '1', 'a.obj', 'b.obj', folder=self.folder))
        made = json.loads(self.symbols('json', ['a.obj', 'b.obj']))
        self.assertEqual([it['bytes'] for it in made['lines']], ['80FE', '010203'])

    def test_real_lines(self):
        """The listing and the lines for debuggers are those of the source that was expanded."""
        self.keep('m.inc', 'M MACRO X / MOV A,#X / RL A / ENDM / CSEG AT 0 / NOP')
        self.keep('m0.asm', '$INCLUDE(m.inc) / M 1 / W MACRO / M 2 / ENDM / HERE: W / SJMP $ / END')
        tool('expand', '--out', 'm0.a51', 'm0.asm', folder=self.folder)
        with open(self.path('m0.a51')) as file:
            files = self.link(file.read().rstrip('\n'))
        lines = self.symbols('lst', files).splitlines()
        for line in ('FILE m.inc', '    6   0000 00     1  NOP', 'FILE m0.asm', '    2+1 0001 7401   1  MOV A,#1',
                     '    6   0004           HERE: ; W', '    2+2 0004 7402   1  MOV A,#2',
                     '    7   0007 80FE   2  SJMP $'):
            self.assertIn(line, lines)
        read = self.kept_omf(files)
        self.assertEqual(read.blocks[0].lines, [(1, 2), (3, 2), (4, 6), (6, 6), (7, 7)])
        records = self.symbols('cdb', files).splitlines()
        for record in ('M:m0', 'L:A$m0$2:1', 'L:A$m0$6:4', 'L:A$m0$6:6', 'L:A$m$6:0', 'L:G$HERE$0$0:4'):
            self.assertIn(record, records)

    def test_omf(self):
        """The absolute OMF-51 module has the names, the lines, the banks and the bytes of the program."""
        files = self.link(*FORMS, 'NAME THREE / PUBLIC Q / Q DATA 70H / S SEGMENT CODE / RSEG S / USING 2 / ' +
                          ' / '.join(f'A{at:030}: DW {at}' for at in range(200)) + ' / END')
        read = self.kept_omf(files)
        self.assertEqual((read.name, read.translator), ('ONE', 0xFF))
        self.assertEqual([(it.kind, it.name) for it in read.blocks], [('module', it) for it in ('ONE', 'TWO', 'THREE')])
        self.assertEqual(read.content, image.read_hex(self.path('m.hex')))
        made = json.loads(self.symbols('json', files))
        wanted = {(it['name'], it['memory'], it['address'], it['module'], it['public']) for it in made['symbols']}
        found = {(it.name, it.usage, it.address, block.name, public) for block in read.blocks
                 for public, part in ((True, block.publics), (False, block.locals)) for it in part}
        self.assertEqual(found, wanted)
        self.assertIn(('Q', 'DATA', 0x70, 'THREE', True), found)
        self.assertIn(('N', 'NUMBER', 0xFF80, 'TWO', True), found)
        self.assertTrue(all(it.is_variable == (it.usage != 'CODE') for block in read.blocks for it in block.locals))
        rows = {(it['address'], it['line']) for it in made['lines']}
        self.assertEqual({it for block in read.blocks for it in block.lines}, rows)
        self.assertEqual(read.banks, 0b0101)

    def test_omf_of_another_writer(self):
        """The reader takes what sdcc's linker writes, which is by somebody else."""
        if not shutil.which('sdcc'):
            self.skipTest('sdcc is not installed')
        with open(self.path('a.c'), 'w') as file:
            file.write('unsigned char n; void main(void) { n = 5; while (1); }\n')
        ran(['sdcc', '-mmcs51', '--debug', 'a.c'], folder=self.folder)
        with open(self.path('a.omf'), 'rb') as file:
            read = omf51_reader.Reader(file.read())
        self.assertEqual(read.content, image.read_hex(self.path('a.ihx')))
        self.assertIn('main', [it.name for it in read.blocks[0].publics])

    def test_page(self):
        """What docs/SYMBOLS.md shows is what is written."""
        folder = self.path('tutorial')
        shutil.copytree(TUTORIAL, folder)
        os.mkdir(self.path('bin'))
        os.symlink(TOP / 'm51', self.path('bin', 'm51'))
        environment = {**os.environ, 'PATH': f'{self.path("bin")}:{os.environ["PATH"]}'}
        page = (TOP / 'docs' / 'SYMBOLS.md').read_text()
        self.assertEqual(list(differences(page, folder, environment)), [])

    def test_schema(self):
        """Each field of the JSON is in docs/SYMBOLS.md with its type, and no other."""
        page = (TOP / 'docs' / 'SYMBOLS.md').read_text()
        rows = dict(re.findall(r'(?m)^\| `([\w.\[\]]+)` \| ([^|]+) \|', page))
        kinds = {'text': str, 'number': int, 'yes or no': bool, 'list': list, 'object': dict}
        found = set()

        def walk(value, name):
            if isinstance(value, dict):
                for key, part in value.items():
                    walk(part, f'{name}.{key}' if name else key)
            if name:
                found.add(name)
                self.assertIn(name, rows)
                allowed = [kinds.get(word, type(None)) for word in rows[name].strip().split(' or ')] if (
                    rows[name].strip() != 'yes or no') else [bool]
                self.assertIn(type(value), allowed, (name, value))
            if isinstance(value, list):
                for part in value:
                    walk(part, f'{name}[]')

        walk(json.loads(self.symbols('json', self.link(*FORMS))), '')
        self.assertEqual(found, set(rows))

    def test_bytes_of_examples(self):
        """The bytes of linked examples are those of their HEX files."""
        for name in ('shell', 'logger', 'keypad'):
            folder = self.path(name)
            shutil.copytree(TOP / 'examples' / name, folder)
            subprocess.run(['make', '-s', f'M51={TOP}/m51'], cwd=folder, stdout=subprocess.DEVNULL, env=os.environ)
            kept = sorted(os.listdir(folder))
            if f'{name}.map' not in kept:
                self.fail(f'make of {name} keeps {kept}')
            with open(os.path.join(folder, 'Makefile')) as file:
                lines = dict(line.partition('=')[::2] for line in file if ' = ' in line)
            parts = {key.strip(): value.split() for key, value in lines.items()}
            files = parts['OBJ'] + parts.get('LIB', []) if 'OBJ' in parts else parts['PARTS']
            words = ['--format', 'json', '-m', f'{name}.map', '--hex', f'{name}.hex', *files]
            said = tool('symbols', *words, folder=folder)
            self.assertGreater(len(json.loads(said)['lines']), 100)

    def test_cycles(self):
        """The cycles of each opcode are those of the second board."""
        for opcode in set(range(256)) - {0xA5}:
            self.assertEqual(symbol_formats.cycles(opcode), board.cycles_of(board.form_of(opcode)), hex(opcode))

    def test_json(self):
        files = self.link(*FORMS)
        made = json.loads(self.symbols('json', files))
        names = {it['name']: it for it in made['symbols']}
        self.assertEqual((names['F']['address'], names['F']['memory'], names['F']['public']), (0x100, 'CODE', True))
        self.assertEqual((names['X']['file'], names['X']['line'], names['X']['size']), ('m0.a51', 8, 2))
        self.assertEqual(made['map']['image'], len(image.read_hex(self.path('m.hex'))))
        row = next(it for it in made['lines'] if it['statement'] == 'MOV A,#N')
        self.assertEqual((row['bytes'], row['cycles']), ('7480', 1))

    def test_cdb(self):
        files = self.link(*FORMS)
        lines = self.symbols('cdb', files).splitlines()
        for line in ('M:m0', 'F:G$F$0$0({2}DF,SV:S),C,0,0,0,0,0', 'L:G$F$0$0:100', 'L:A$m0$12:0',
                     'S:G$Y$0$0({1}SC:U),E,0,0', 'S:G$T$0$0({1}SX:U),H,0,0'):
            self.assertIn(line, lines)

    @staticmethod
    def simulator():
        return shutil.which('s51') or shutil.which('ucsim_51')

    def test_ucsim(self):
        """A breakpoint by name is hit at the address of the map."""
        if not self.simulator():
            self.skipTest('s51 of ucsim is not installed')
        files = [self.keep(name, (TUTORIAL / name).read_text()) for name in FILES]
        text = build('--hex', self.path('m.hex'), '--steps', '1', *files, folder=self.folder)
        self.keep('m.map', text)
        with open(self.path('m.cdb'), 'w') as file:
            file.write(self.symbols('cdb', files))
        done = subprocess.run(
            [self.simulator(), '-t', '8052'], input=b'file "m"\nbreak TICK\nrun\nbreak SHOW\nrun\nquit\n',
            cwd=self.folder, stdout=subprocess.PIPE, stderr=subprocess.STDOUT, timeout=300)
        said = done.stdout.decode('latin-1')
        self.assertRegex(said, r'[1-9]\d* symbols read from m\.cdb')
        bases = [re.search(rf'(?m)^CODE  (\w+) \w+ P \?PR\?{name}$', text)[1] for name in ('TICK', 'SHOW')]
        stops = re.findall(r'Stop at 0x00([0-9a-f]{4}): \(104\) Breakpoint', said)
        self.assertEqual(stops, [base.lower() for base in bases])

    @unittest.skipUnless(shutil.which('sdcdb'), 'sdcdb is not installed')
    def test_sdcdb(self):
        """It lists a source, and sets a breakpoint at a line and at a label."""
        files = [self.keep(name, (TUTORIAL / name).read_text()) for name in FILES]
        self.keep('m.map', build('--hex', self.path('m.ihx'), '--steps', '1', *files, folder=self.folder))
        with open(self.path('m.cdb'), 'w') as file:
            file.write(self.symbols('cdb', files))
        for name in FILES:
            os.symlink(name, self.path(name.replace('.a51', '.asm')))
        done = subprocess.run(
            ['sdcdb', '-directory=.', 'm'], cwd=self.folder, stdout=subprocess.PIPE, stderr=subprocess.STDOUT,
            timeout=60, input=b'set srcmode\nlist main.asm:39\nbreak main.asm:39\nbreak TICK\nquit\n')
        said = done.stdout.decode('latin-1')
        for wanted in ('SHOW:   CJNE  A,LAST,NEW', 'Breakpoint 1 at 0x29: file main.asm, line 39.',
                       'Breakpoint 2 at 0x32'):
            self.assertIn(wanted, said)


class SameProgram(Folder):
    """Files that are not those of the map are refused, by each tool that joins them."""

    def setUp(self):
        super().setUp()
        for name in FILES:
            shutil.copy(TUTORIAL / name, self.folder)
        ran([PROGRAM, 'build', '--hex', 'm.hex', '--steps', '1', *FILES], folder=self.folder)
        self.keep('m.map', build('--steps', '1', *FILES, folder=self.folder))

    def refusals(self, *files):
        """What the tools say of these files."""
        for name, words in (('where', []), ('foreign', []), ('symbols', ['--format', 'json'])):
            done = subprocess.run([TOOLS / name, *words, '-m', 'm.map', *files], cwd=self.folder,
                                  stdout=subprocess.PIPE, stderr=subprocess.PIPE)
            self.assertEqual((done.returncode, done.stdout), (2, b''), (name, done.stderr))
            yield done.stderr.decode().partition(': ')[2]

    def change(self, name, old, new):
        with open(self.path(name)) as file:
            text = file.read()
        self.assertEqual(text.count(old), 1)
        with open(self.path(name), 'w') as file:
            file.write(text.replace(old, new))

    def test_the_same(self):
        for name in ('where', 'foreign'):
            tool(name, '-m', 'm.map', '--hex', 'm.hex', *FILES, folder=self.folder)

    def test_a_stale_map(self):
        self.change('main.a51', 'LOOP:   MOV', 'NOP\n NOP\nLOOP:   MOV')
        for said in self.refusals(*FILES):
            self.assertIn('the map is of another build than these files: CODE ?PR?MAIN of 0', said)

    def test_another_order(self):
        for said in self.refusals('tick.a51', 'main.a51', 'scale.a51'):
            self.assertIn('the units come in another order', said)

    def test_files_twice_or_missing(self):
        for said in self.refusals('main.a51', *FILES):
            self.assertIn('two modules are called MAIN', said)
        for said in self.refusals('main.a51', 'tick.a51'):
            self.assertIn('in the map and not in the files', said)

    def test_content_of_the_image(self):
        self.change('main.a51', 'NEW:    MOV   LAST,A', 'NEW:    DS 1\n NOP')
        for said in self.refusals(*FILES):
            self.assertIn('the image of the map has', said)

    def test_a_stale_listing(self):
        for name in ('main', 'tick', 'scale'):
            text = ran([PROGRAM, 'asm', '--out', f'{name}.obj', f'{name}.a51'], folder=self.folder)
            with open(self.path(f'{name}.lst'), 'w') as file:
                file.write(text)
        objects = [name.replace('.a51', '.obj') for name in FILES]
        tool('where', '-m', 'm.map', *objects, folder=self.folder)
        self.change('main.lst', 'D28C  ', 'D28D  ')
        for said in self.refusals(*objects):
            self.assertIn('the listing of MAIN is not of its object: main.a51(32) has D28D at 000F', said)

    def test_other_bytes(self):
        """Only the HEX file tells programs of equal sizes apart."""
        self.change('main.a51', '#156        ; a tick', '#155        ; a tick')
        tool('where', '-m', 'm.map', *FILES, folder=self.folder)
        for name in ('where', 'foreign', 'symbols'):
            words = ['--format', 'cdb'] if name == 'symbols' else []
            done = subprocess.run([TOOLS / name, *words, '-m', 'm.map', '--hex', 'm.hex', *FILES], cwd=self.folder,
                                  stdout=subprocess.PIPE, stderr=subprocess.PIPE)
            self.assertEqual(done.returncode, 2)
            self.assertIn('m.hex is of another build: 9C at 0016, and 9B by these files', done.stderr.decode())
