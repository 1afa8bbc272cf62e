"""The second program, m51-trace: compiled once without a proof, found, and installed."""
import os
import shutil

from stand_in import StandIn
from support import TOP, ran

PARTS = ('install', 'm51', 'README.md', 'CHANGELOG.md', 'SECURITY.md', 'LICENSE', 'VERSION', 'tools', 'docs',
         'completions', 'examples', 'editors')
CALL = ('trace', '--steps', '7', 'a.a51')


class SecondProgram(StandIn):
    def setUp(self):
        super().setUp()
        self.environment.pop('M51_TRACE', None)
        self.out_of_trace = self.path('top', 'crates', 'm51_trace', 'out')
        os.makedirs(self.path('top', 'crates', 'm51_trace', 'src'))
        self.keep('top/crates.txt', 'm51: / m51_trace: m51')
        self.keep('top/crates/m51_trace/src/main.rt', 'fn main')

    def test_compiled_once(self):
        status, text, said = self.call(*CALL)
        self.assertEqual((status, text), (0, 'm51_trace-unproved --steps 7 a.a51\n'))
        self.assertIn('compiling the program m51-trace', said)
        self.assertEqual(self.call(*CALL), (0, text, ''))
        self.assertEqual(self.compiled(), 1)
        self.assertEqual(self.left(), [])
        self.assertEqual(os.listdir(self.out), [])
        said = self.call('--version')[1]
        self.assertIn('\nno program is built yet\nm51-trace: the unproved program ', said)
        self.change_source('fn other')
        self.call(*CALL)
        self.assertEqual(self.compiled(), 2, 'a crate below it has changed')
        path = self.path(self.keep('top/crates/m51_trace/src/main.rt', 'fn another'))
        later = os.path.getmtime(path) + 200
        os.utime(path, (later, later))
        self.call(*CALL)
        self.assertEqual(self.compiled(), 3, 'its own crate has changed')

    def test_the_proved_one_and_one_that_is_named(self):
        os.makedirs(self.out_of_trace)
        shutil.copy(self.path('top', 'fake'), os.path.join(self.out_of_trace, 'm51_trace'))
        self.assertEqual(self.call(*CALL), (0, 'm51_trace --steps 7 a.a51\n', ''))
        self.assertIn('\nm51-trace: the proved program ', self.call('--version')[1])
        shutil.copy(self.path('top', 'fake'), self.path('another'))
        self.assertEqual(self.call(*CALL, M51_TRACE=self.path('another'))[1], 'another --steps 7 a.a51\n')
        self.assertEqual(self.compiled(), 0)

    def test_no_program_comes(self):
        status, text, said = self.call(*CALL, MODE='refused')
        self.assertEqual((status, text), (2, ''))
        self.assertIn('no such type', said)
        self.assertTrue(said.endswith('m51 trace: the program m51-trace is not built\n'))

    def test_installed(self):
        os.mkdir(self.path('tree'))
        for name in PARTS:
            (shutil.copytree if (TOP / name).is_dir() else shutil.copy)(TOP / name, self.path('tree', name))
        words = [self.path('tree', 'install'), '--program', self.path('top', 'fake'), self.path('usr')]
        command = self.path('usr', 'bin', 'm51')
        ran(words, folder=self.folder)
        status, text, said = self.call(*CALL, command=command)
        self.assertEqual((status, text), (2, ''))
        self.assertIn('m51-trace is not installed', said)
        os.makedirs(self.path('tree', 'crates', 'm51_trace', 'out'))
        # Beside a program that nothing says to be proved, m51-trace is not said to be proved either.
        installed = 'trace-program-unproved'
        for built in ('m51_trace-unproved', 'm51_trace'):
            shutil.copy(self.path('top', 'fake'), self.path('tree', 'crates', 'm51_trace', 'out', built))
            ran(words, folder=self.folder)
            self.assertEqual(self.call(*CALL, command=command), (0, f'{installed} --steps 7 a.a51\n', ''))
            self.assertEqual([it for it in os.listdir(self.path('usr', 'lib', 'm51')) if 'trace' in it], [installed])
        for tool in ('profile', 'cover', 'debug', 'report'):
            self.assertIn(f'usage: m51 {tool}', self.call(tool, '--help', command=command)[1])
