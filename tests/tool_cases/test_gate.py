""".ci/run over a small repository of its own, with a stand-in for rt: what must end it with a status that is not 0."""
import os
import shutil
import subprocess

from support import TOP, Folder

FILES = {
    'VERSION': '1.0 / kit',
    'CHANGELOG.md': '# Changes /  / ## 1.0',
    'README.md': 'The toolchain is `kit`. /  / | `build` | builds |',
    'crates/m51_sum/README.md': '# m51_sum',
    'crates/m51_sum/src/sum.rt': 'fn add() { /     let sum = first + second; / } /  / fn other() { /     sum / }',
    'crates/m51_sum/specs/Sum.antt': 'sum : Nat',
    'crates/m51_sum/must-fail/carry.edit':
        '# refused at: add / file: src/sum.rt / old: first + second / new: first + second + 1',
    'tests/wrong-bodies/m51_sum/carry.twin': 'file: src/sum.rt / old: first + second / new: second + first',
    'tests/wrong-bodies/README.md':
        '# Wrong bodies /  / ## Planted by hand /  / | what | edit | refused at | / |---|---|---| / '
        '| the sum | `carry` | `m51_sum`, `add` | /  / ## Planted by the tool /  / '
        '| crate | functions | refused | let through | / |---|---|---|---| / | `m51_sum` | 1 | 1 | `other` |',
    'docs/WHERE.md': '| E1 | the sum | `m51_sum` | `Sum`, `sum` | `sum`, `add` |',
    'docs/m51.1': '.IP "E1" 4 / the sum / .B m51 build',
    'docs/PROOFS.md': '| [m51_sum](a) | `sum::add` |',
    'docs/COMMAND.md': '    m51 build a.a51',
    'docs/CONTRIBUTING.md': '# How /  / ## Words /  / | not | but | as in | / |---|---|---| / | stands | is | it is |',
    'docs/DECISIONS.md':
        '- Choices: One choice /  / ## Choices /  / ### One choice /  / - **Chosen:** a / - **Because:** b / '
        '- **Instead of:** c',
    'tools/numbers.txt': 'E1  the sum /     cure: none',
}
EDIT = 'rt: must-fail m51_sum/carry.edit: '
REFUSED = 'refused, as it must be: src/sum.rt:2:5: not proved'
# The last lines of `rt ci`: of a toolchain that proves everything in each run, and of one that keeps what passed.
OK = 'rt: ok; handles allowed: none'
KEPT = '; done in this run: 0 of the 1 proofs and 0 of the 1 edits; the others are kept'
PASSED = '2 passed, 0 failed'
ENDS = (f'{OK} / {PASSED}', f'{OK}; must-fail edits: 1 refused{KEPT} / {PASSED}')


class Gate(Folder):
    def setUp(self):
        super().setUp()
        for name, text in FILES.items():
            self.write(name, text)
        shutil.copytree(TOP / '.ci', self.path('top', '.ci'))
        for name in ('tests/markdown.py', 'tests/wrong-bodies/edits.py'):
            shutil.copy(TOP / name, self.path('top', name))
        self.log(EDIT + REFUSED)
        self.script('bin/rt', 'cat "$0.log"; exit ${STATUS:-0}')
        self.script('top/tests/run', 'echo "over $1"; exit ${TESTS:-0}')

    def write(self, name, text):
        os.makedirs(os.path.dirname(self.path('top', name)), exist_ok=True)
        self.keep(f'top/{name}', text)

    def script(self, name, text):
        os.makedirs(os.path.dirname(self.path(name)), exist_ok=True)
        self.keep(name, f'#!/bin/sh / {text}')
        os.chmod(self.path(name), 0o755)

    def log(self, lines, end=ENDS[0]):
        """What rt ci writes: lines on edits, and its last ones."""
        os.makedirs(self.path('bin'), exist_ok=True)
        self.keep('bin/rt.log', f'rt: m51_sum: trying its must-fail edits (1) / {lines} / {end}')

    def gate(self, **environment):
        """The status of .ci/run, and what it says."""
        path = f'{self.path("bin")}:{os.environ["PATH"]}'
        done = subprocess.run([self.path('top', '.ci', 'run')], env={**os.environ, 'PATH': path, **environment},
                              stdout=subprocess.PIPE, stderr=subprocess.STDOUT)
        return done.returncode, done.stdout.decode()

    def assert_ends(self, line, status=1, **environment):
        """The gate ends with that status before the tests, after a line that ends so."""
        found, said = self.gate(**environment)
        self.assertEqual(found, status, said)
        self.assertTrue(any(it.endswith(line) for it in said.splitlines()), said)
        self.assertNotIn('over --proved', said)

    def assert_each_ends(self, lines, *ends):
        """The gate ends so after these lines on edits, whichever the toolchain is."""
        for end in ENDS:
            self.log(lines, end)
            for line in ends:
                self.assert_ends(line)

    def test_nothing_is_wrong(self):
        for end in ENDS:
            self.log(EDIT + REFUSED, end)
            status, said = self.gate()
            self.assertEqual(status, 0, said)
            self.assertTrue(said.endswith('1 in the gate, 0 beside it, 1 twins; 0 faults\nover --proved\n'), said)
        self.assertEqual(self.gate(TESTS='4')[0], 4)

    def test_the_status_of_rt(self):
        self.assert_ends('2 passed, 0 failed', status=3, STATUS='3')

    def test_a_run_that_did_not_pass(self):
        """Whatever its status is: each of these ends is of no run that passed."""
        failed = 'rt: FAILED: m51_sum'
        for end in ('rt: stopped', PASSED, OK, f'{OK} / 2 passed, 1 failed', f'{OK} / 0 passed, 0 failed',
                    f'{PASSED} / {OK}', f'{OK} / {OK} / {PASSED}', f'{failed} / {PASSED}',
                    f'{failed} / {OK} / {PASSED}'):
            self.log(EDIT + REFUSED, end)
            last = [line for line in end.split(' / ') if line.startswith(('rt: ok;', 'rt: FAILED'))]
            said = last[-1] if last else 'it has no such line'
            self.assert_ends(f'rt ci did not end with one line "rt: ok; .." and "N passed, 0 failed": {said}')

    def test_another_count(self):
        """Where the toolchain counts the refused edits, it must have counted those that have a line."""
        for count in ('0 refused', '2 refused', '11 refused', '1 refused, 1 bad'):
            self.log(EDIT + REFUSED, f'{OK}; must-fail edits: {count}{KEPT} / {PASSED}')
            self.assert_ends(f'rt ci says "must-fail edits: {count}", and its lines refuse 1')

    def test_an_edit_that_is_not_refused(self):
        for told in ('NOT REFUSED: the crate is still proved with this edit', 'BAD EDIT: it did not reach the prover'):
            self.assert_each_ends(EDIT + told, f'm51_sum/carry.edit is not refused: {told}')
        self.assert_each_ends('rt: m51_sum proved', 'm51_sum/carry.edit is not refused: not tried')

    def test_an_edit_with_two_lines(self):
        self.assert_each_ends(f'{EDIT}{REFUSED} / {EDIT}{REFUSED}', 'm51_sum/carry.edit has 2 lines, and not one')

    def test_an_edit_that_is_not_there(self):
        self.assert_each_ends(f'{EDIT}{REFUSED} / rt: must-fail m51_sum/sign.edit: {REFUSED}',
                              'm51_sum/sign.edit was tried, and crates/*/must-fail has no such edit')

    def test_an_edit_that_is_refused_elsewhere(self):
        for told in ('refused, as it must be: src/sum.rt:6:5: not proved',
                     'refused, as it must be: proofs/sum/other/Answers.antt:6:5: not proved'):
            where = 'sum::other' if 'src' in told else 'other'
            self.assert_each_ends(EDIT + told, f'must be refused at add, and is refused at {where}: {told}')

    def test_an_edit_that_names_no_function(self):
        name = 'crates/m51_sum/must-fail/carry.edit'
        self.write(name, FILES[name].partition(' / ')[2])
        self.assert_ends('carry.edit has no line "# refused at: FUNCTION", or several')
        self.write(name, FILES[name].replace('add', 'other'))
        self.assert_ends('carry.edit is refused at other, and changes sum::add')

    def test_an_edit_without_a_twin(self):
        os.remove(self.path('top', 'tests', 'wrong-bodies', 'm51_sum', 'carry.twin'))
        self.assert_ends('crates/m51_sum/must-fail/carry.edit has no twin')

    def test_a_twin_that_does_not_apply(self):
        self.write('tests/wrong-bodies/m51_sum/carry.twin', 'file: src/sum.rt / old: third / new: third')
        self.assert_ends('carry.twin changes a line that is there 0 times: third')

    def test_a_row_that_is_gone(self):
        self.write('docs/WHERE.md', '# Where each number is defined')
        self.assert_ends('docs/WHERE.md: 0 rows for E1, and not 1')

    def test_a_function_that_is_gone(self):
        name = 'crates/m51_sum/src/sum.rt'
        self.write(name, FILES[name].replace('fn add', 'fn sum'))
        self.assert_ends('docs/WHERE.md: m51_sum/src/sum.rt has no function add')
        self.write(name, FILES[name].replace('fn other', 'fn another'))
        self.assert_ends('tests/wrong-bodies/README.md names other in the row of m51_sum, and no crate has it')

    def test_a_definition_that_is_gone(self):
        self.write('crates/m51_sum/specs/Sum.antt', 'add : Nat')
        self.assert_ends('docs/WHERE.md: m51_sum/specs/Sum.antt does not define sum')

    def test_a_wide_line(self):
        for name in 'crates/m51_sum/src/sum.rt', 'docs/COMMAND.md', 'tools/tool.py', 'tests/more':
            before = FILES.get(name, '#!/usr/bin/env python3')
            self.write(name, f'{before} / # {118 * "w"}')
            self.assertEqual(self.gate()[0], 0, name)
            self.write(name, f'{before} / # {119 * "w"}')
            self.assert_ends(f'{name}:{before.count(" / ") + 2}: over 120 characters')
            self.write(name, before)

    def test_a_word_of_the_list(self):
        self.write('crates/m51_sum/README.md', 'It stands there.')
        self.assert_ends('crates/m51_sum/README.md:1: "stands" is in the list of words')
