"""tests/wrong-bodies/try over a crate of its own, with a stand-in for the prover that looks for a word."""
import os
import shutil
import subprocess

from support import TOP, Folder

# Proves a crate unless one of its sources has a value that is wrong, refuses its edits, and notes each call.
PROVER = """#!/bin/sh
echo "$1" >> "$CALLS"
case $1 in
    version) echo kit ;;
    check)
        ls -d ../*/src ../*/out/* > "$CALLS.copied"
        cat src/sum.rt > "$CALLS.text"
        grep -rnw wrong src && { echo "src/sum.rt:1:1: error: not proved"; exit 1; } ;;
    must-fail) echo "rt: must-fail sum/carry.edit: refused, as it must be: ${PLACE:-src/sum.rt:2:5}: not proved" ;;
esac
exit 0
"""
SUM = 'fn add() {\n    let sum = first + second;\n    let carry = sum > 255;\n}\n\nfn other() {\n    sum\n}\n'


class WrongBodies(Folder):
    def setUp(self):
        super().setUp()
        self.tries = self.path('top', 'tests', 'wrong-bodies', 'try')
        for name in ('top/tests/wrong-bodies/sum', 'top/crates/sum/src', 'top/crates/sum/must-fail', 'bin'):
            os.makedirs(self.path(name))
        for name in ('try', 'edits.py', 'copies.py'):
            shutil.copy(TOP / 'tests' / 'wrong-bodies' / name, self.path('top', 'tests', 'wrong-bodies', name))
        self.keep('top/crates.txt', 'sum:')
        self.keep('top/HANDLES', 'Handles allowed: none.')
        self.keep('top/crates/sum/src/sum.rt', SUM.rstrip('\n'))
        self.keep('bin/rt', PROVER.rstrip('\n'))
        os.chmod(self.path('bin/rt'), 0o755)
        self.pair('carry', 'first + second', 'first + second + 1', 'second + first')

    def pair(self, name, old, new, same):
        """An edit of the gate, and its twin."""
        kind = 'top/crates/sum/must-fail/{}.edit', 'top/tests/wrong-bodies/sum/{}.twin'
        self.keep(kind[0].format(name), f'# refused at: add / file: src/sum.rt / old: {old} / new: {new}')
        self.keep(kind[1].format(name), f'file: src/sum.rt / old: {old} / new: {same}')

    def call(self, *words, **environment):
        """The status, and what is said."""
        paths = {'PATH': f'{self.path("bin")}:{os.environ["PATH"]}', 'CALLS': self.path('calls')}
        done = subprocess.run([self.tries, *words], env={**os.environ, **paths, **environment},
                              stdout=subprocess.PIPE, stderr=subprocess.STDOUT)
        return done.returncode, done.stdout.decode()

    def checks(self):
        """How many checks the prover has made."""
        with open(self.path('calls')) as file:
            return file.read().split().count('check')

    def test_a_twin_writes_the_line_of_another(self):
        """Each `old:` text is looked for in the crate's own text: what one twin writes is nothing that another
        changes."""
        self.pair('carry', 'first + second', 'first + second + 1', 'second + first + 0 * (sum > 255)')
        self.pair('limit', 'sum > 255', 'sum > 256', '255 < sum')
        status, said = self.call('--twins')
        self.assertIn('sum: proved, as they must be: carry, limit\n', said)
        self.assertEqual((status, said.splitlines()[-1]), (0, '2 of 2 twins proved'))
        with open(self.path('calls.text')) as file:
            self.assertEqual(file.read(), SUM.replace('sum > 255', '255 < sum').replace(
                'first + second', 'second + first + 0 * (sum > 255)'))

    def test_twins_of_one_text(self):
        """Twins whose texts meet are not tried together, whatever their lines are."""
        self.pair('limit', 'sum > 255', 'sum > 256', '255 < sum')
        self.pair('sign', 'carry = sum', 'carry = !sum', 'carry = (sum)')
        status, said = self.call('--twins')
        self.assertIn('proved, as they must be: carry, limit\nsum: proved, as they must be: sign\n', said)
        self.assertEqual(status, 0)

    def test_a_twin_with_a_wrong_value(self):
        """It is not proved, and those that were tried with it are."""
        self.pair('limit', 'sum > 255', 'sum > 256', 'sum > wrong')
        status, said = self.call('--twins', '--kept', self.path('kept'))
        self.assertIn('sum: NOT PROVED: carry, limit\n', said)
        self.assertIn('| add | tests/wrong-bodies/sum/carry.twin | yes |\n', said)
        self.assertIn('| add | tests/wrong-bodies/sum/limit.twin | **no** |\n', said)
        self.assertEqual((status, said.splitlines()[-1]), (1, '1 of 2 twins proved'))

    def test_what_was_proved_is_kept(self):
        kept = ['--twins', '--kept', self.path('kept')]
        self.assertEqual([self.call(*kept)[0] for _ in range(2)], [0, 0])
        self.assertEqual(self.checks(), 1)
        self.keep('top/crates/sum/src/other.rt', 'fn other() {}')
        self.assertEqual(self.call(*kept)[0], 0)
        self.assertEqual(self.checks(), 2, 'the crate has changed')
        self.pair('carry', 'first + second', 'first + second + 1', 'second + first + 0')
        self.assertEqual(self.call(*kept)[0], 0)
        self.assertEqual(self.checks(), 3, 'the twin has changed')

    def test_a_twin_that_does_not_apply(self):
        for old in ('sum > 254', 'sum', 'first'):
            self.pair('limit', old, 'wrong', old)
            self.keep('top/tests/wrong-bodies/sum/carry.twin', 'file: src/sum.rt / old: first + second / new: first')
            status, said = self.call('--twins')
            self.assertEqual(status == 0, old == 'first', said)
        self.keep('top/tests/wrong-bodies/sum/limit.twin',
                  'file: src/sum.rt / old: sum > 255 / new: sum / old: > 255; / new: > 255;')
        self.assertEqual(self.call('--twins')[0], 1, 'two pairs of one twin meet')

    def test_what_is_copied(self):
        """The crate and those below it, with the libraries of these and what was kept of the crate."""
        for name in ('low', 'above'):
            os.makedirs(self.path('top', 'crates', name, 'src'))
        for name in ('low/out/rlib', 'low/out/incremental', 'sum/out/rlib', 'sum/out/incremental', 'sum/out/other'):
            os.makedirs(self.path('top', 'crates', name))
            self.keep(f'top/crates/{name}/a.oantt', 'kept')
        self.keep('top/crates.txt', 'low: / sum: low / above: sum')
        self.assertEqual(self.call('--twins')[0], 0)
        with open(self.path('calls.copied')) as file:
            self.assertEqual(file.read().split(), [
                '../low/out/rlib', '../low/src', '../sum/out/incremental', '../sum/out/rlib', '../sum/src'])

    def test_edits(self):
        self.assertEqual(self.call()[0], 0)
        status, said = self.call(PLACE='src/sum.rt:7:5')
        self.assertIn('crates/sum/must-fail/carry.edit must be refused at add, and is refused at sum::other', said)
        self.assertEqual(status, 1)
