"""The arguments that the script calls wrong are those that the program refuses."""
import subprocess
import tempfile
import unittest

import arguments
from support import PROGRAM

NUMBERS = [
    '0', '1', '4', '100', '101', '10000000', '10000001', '99999999', '4294967295', '4294967296', 'x', '-1', '',
    '00000004', '000000004', '004']
NAMES = ('a.asm', 'A.A51', 'x.obj', 'x.lib', 'x.inc', '', '-', '.', 'x.hex', 'a51')
FORMS = (
    '', 'a.a51', '--steps 4', '--steps 4 a.a51', '--steps 4 a.a51 b.a51', '--out /dev/null', '--out /dev/null a.a51',
    '--out /dev/null a.a51 b.a51', '--out /dev/null a.inc', '-- a.a51', '--control c a.a51',
    '--script c --steps 4 a.hex', '--hex', '--step 4 a.a51', '--steps 4 --steps 4 a.a51', 'list', 'list l.lib',
    'lst l.lib', 'build', 'build l.lib', 'build l.lib o.obj', 'build l.lib x', 'add l.lib', 'add l.lib o',
    'replace l.lib',
    'delete l.lib', 'delete l.lib M', 'delete l.lib m n', 'delete l.lib 9X', 'delete l.lib scale.obj', 'raise l.lib',
    'raise l.lib ?m', 'raise l.lib A', 'raise l.lib mov', 'extract l.lib', 'extract l.lib A', 'extract l.lib A B',
    'extract l.lib ' + 31 * 'n', 'extract l.lib ' + 32 * 'n', 'list l.lib more', 'a.a51 --steps 4',
    '--hex - --steps 4 a.a51', '--hex -x --steps 4 a.a51')


def calls():
    """Calls with right and wrong arguments."""
    for number in NUMBERS:
        yield ['build', '--steps', number, 'a.a51']
        yield ['build', f'--steps={number}', 'a.a51']
        yield ['gen', '--units', number, '--start', '1', '--steps', '1']
        yield ['gen', '--units', '1', '--start', number, '--steps', '0']
    for name in NAMES:
        yield ['build', '--steps', '4', name]
    for verb in (*arguments.VERBS, 'run', ''):
        for form in FORMS:
            yield [verb, *form.split()]
    for operation in arguments.OPERATIONS:
        yield from (['lib', operation, *words] for words in ([''], ['l.lib', ''], ['l.lib', 'a', ''], ['', 'a']))
    for count in range(10):
        yield ['party', '--steps', '4', *['a.a51'] * count]
    yield ['gen', '--units', '1', '--start', '1', '--steps', '1', 'a.a51']


class Arguments(unittest.TestCase):
    def test_wrong_is_refused(self):
        with tempfile.TemporaryDirectory() as folder:
            for words in calls():
                status = subprocess.run(
                    [PROGRAM, *words], cwd=folder, stdin=subprocess.DEVNULL, stdout=subprocess.DEVNULL,
                    stderr=subprocess.DEVNULL).returncode
                self.assertEqual(bool(arguments.wrong(words)), status == 2, (words, status, arguments.wrong(words)))

    def test_files(self):
        for words, read, made, kept in (
                ('build --control=c --script s --hex h a.a51 b.inc', ['a.a51', 'b.inc', 'c', 's'], ['h'], ['h']),
                ('asm --out o -- a.a51', ['a.a51'], ['o'], ['o']),
                ('lib build l a b', ['a', 'b'], ['l'], ['l']),
                ('lib add l a', ['l', 'a'], [], ['l']),
                ('lib delete l m', ['l'], [], ['l']),
                ('lib extract l m', ['l'], [], ['M.obj']),
                ('lib list l', ['l'], [], []),
                ('lib', [], [], [])):
            found = [function(words.split()) for function in (arguments.inputs, arguments.made, arguments.kept)]
            found[1] = [name for _, name in found[1]]
            self.assertEqual(found, [read, made, kept], words)
