"""The unproved program: compiled once, and kept with its stamp."""
import os
import signal
import subprocess
import sys
import time

from stand_in import TOOLCHAIN, StandIn

GEN = ['gen', '--units', '1', '--start', '1', '--steps', '1']


class Unproved(StandIn):
    def start(self, *words):
        """Starts a call in the background."""
        return subprocess.Popen(
            [self.script_path, *words], cwd=self.folder, env=self.environment, stdin=subprocess.DEVNULL,
            stdout=subprocess.PIPE, stderr=subprocess.PIPE, start_new_session=True)

    def test_compiled_once(self):
        status, text, said = self.call('build', '--steps', '7', 'a.a51')
        self.assertEqual((status, text), (0, 'm51-unproved build --steps 7 a.a51\n'))
        self.assertIn('compiling', said)
        elsewhere = os.path.join('..', os.path.basename(self.folder), 'a.a51')
        self.assertEqual(self.call('asm', '--out', 'x.obj', elsewhere, STATUS='3')[0], 3)
        said = self.call(*GEN)[2]
        self.assertEqual((said.count('\n'), 'without a proof' in said), (1, True))
        self.assertEqual(self.compiled(), 1)
        self.assertIn('the unproved program /', self.call('--version')[1])
        self.assertEqual(self.left(), [])
        with open(self.environment['CALLS'] + '.pid') as file:
            self.assert_ends(int(file.read()))

    def assert_ends(self, process):
        """The process ends within ten seconds: on a busy machine it may outlive the call by a moment."""
        for _ in range(100):
            try:
                os.kill(process, 0)
            except ProcessLookupError:
                return
            time.sleep(0.1)
        self.fail(f'process {process} still runs')

    def test_compiled_again_when_a_source_or_the_toolchain_changes(self):
        self.call(*GEN)
        self.change_source()
        self.call(*GEN)
        self.assertEqual(self.compiled(), 1, 'the same text')
        self.change_source('fn other')
        self.call(*GEN)
        self.assertEqual(self.compiled(), 2, 'another text')
        self.script('bin/rt', TOOLCHAIN + '# moved\n')
        self.call(*GEN)
        self.assertEqual(self.compiled(), 2, 'the same toolchain')
        with open(self.path('top', 'VERSION'), 'w') as file:
            file.write('1.0\nkit 2 logic 2\n')
        self.script('bin/rt', TOOLCHAIN + '# another one\n')
        self.call(*GEN, VERSION='kit 2 logic 2')
        self.assertEqual(self.compiled(), 3, 'another toolchain')
        os.remove(self.path('top', 'crates', 'm51', 'src', 'main.rt'))
        self.call(*GEN, VERSION='kit 2 logic 2')
        self.assertEqual(self.compiled(), 4, 'a source less')

    def test_another_kit(self):
        """A kit of another logic than that of VERSION compiles nothing, and one line says what to do; what the right
        one compiled stays right beside it."""
        for kit in ('kit 9', 'kit 9 logic 9', self.kit() + '9', self.kit().partition(' ')[0], 'kit logic '):
            why = (f'm51: {self.path("bin", "rt")} is {kit.strip()}, and these sources need one with the logic of '
                   f'{self.kit()}: put its rt first on the path, or try this one by '
                   f'{self.path("top", "tools", "unproved")} --any-kit\n')
            self.assertEqual(self.call(*GEN, VERSION=kit), (70, '', why))
        self.assertEqual((self.compiled(), self.left(), os.listdir(self.out)), (0, [], ['m51-unproved.lock']))
        said = self.call(*GEN)[2]
        self.assertEqual((self.compiled(), 'these sources need' in said), (1, False))
        for number, kit in enumerate(('kit 9', self.kit(), 'kit 9')):
            self.script('bin/rt', TOOLCHAIN + f'# another one {number}\n')
            self.assertEqual((self.call(*GEN, VERSION=kit)[0], self.compiled()), (0, 1))
        self.change_source('fn other')
        self.assertEqual(self.call(*GEN, VERSION='kit 9')[0], 70)
        self.assertEqual(self.compiled(), 1)

    def test_a_kit_of_the_same_logic(self):
        """It is as good as the one of VERSION, which is named where it compiles; what it compiled stays right."""
        kit, moved = self.same_logic(), TOOLCHAIN + '# another one\n'
        status, text, said = self.call(*GEN, VERSION=kit)
        self.assertEqual((status, text, self.compiled()), (0, 'm51-unproved gen --units 1 --start 1 --steps 1\n', 1))
        named = f'm51: {kit} compiles what {self.kit().partition(" ")[0]} has proved: its logic is the same\n'
        self.assertEqual((said.count(named), said.count('is the same')), (1, 1))
        self.assertNotIn('is the same', self.call(*GEN, VERSION=kit)[2])
        self.script('bin/rt', moved)
        status, _, said = self.call(*GEN)
        self.assertEqual((status, self.compiled(), said.count('\n')), (0, 1, 1))
        self.change_source('fn other')
        self.assertNotIn('is the same', self.call(*GEN)[2])
        self.assertEqual(self.compiled(), 2)

    def test_what_another_kit_is_asked_once(self):
        """Where the kit has changed and its program stays right, the next call does not ask for its name again."""
        self.call(*GEN)
        self.script('bin/rt', TOOLCHAIN + '# another one\n')
        for kit in (self.same_logic(), 'kit 9 logic 9'):
            os.remove(self.environment['CALLS'])
            self.assertEqual([self.call(*GEN, VERSION=kit)[0] for _ in range(3)], [0, 0, 0])
            with open(self.environment['CALLS']) as file:
                self.assertEqual(file.read(), 'version\n')
            self.script('bin/rt', TOOLCHAIN + '# a third one\n')

    def test_another_kit_that_is_tried(self):
        """A kit that is asked for by hand compiles; its program is right until a kit of the right logic is there."""
        unproved = self.path('top', 'tools', 'unproved')
        status, _, said = self.call('--any-kit', command=unproved, VERSION='kit 9')
        self.assertEqual((status, self.compiled()), (0, 1))
        self.assertIn(f'/bin/rt is kit 9, and these sources need one with the logic of {self.kit()}\n', said)
        self.assertEqual(self.call(*GEN, VERSION='kit 9')[0], 0)
        self.assertEqual(self.compiled(), 1)
        self.script('bin/rt', TOOLCHAIN + '# another one\n')
        self.assertEqual(self.call(*GEN, VERSION=self.same_logic())[0], 0)
        self.assertEqual(self.compiled(), 2)

    def test_an_rt_that_does_not_run(self):
        for text in ('no program', '#!/no/such/file', '#!/bin/sh / exit 3'):
            self.keep('bin/rt', text)
            os.chmod(self.path('bin', 'rt'), 0o755)
            status, text, said = self.call(*GEN)
            self.assertEqual((status, text, said.count('\n')), (70, '', 1))
            self.assertIn('/bin/rt is no rattle-kit, and these sources need one with the logic of ', said)

    def test_no_toolchain(self):
        """What is kept needs none; a program of other sources does."""
        unproved, path = self.path('top', 'tools', 'unproved'), os.path.dirname(sys.executable) + ':/usr/bin:/bin'
        self.call(*GEN)
        self.assertEqual(self.call(command=unproved, PATH=path), (0, '', ''))
        self.assertEqual(self.call(*GEN, PATH=path)[0], 0)
        self.change_source('fn other')
        status, _, said = self.call(command=unproved, PATH=path)
        self.assertEqual((status, said), (1, "m51: no program came:\nthe toolchain's command rt is not on the path\n"))

    def test_beside_a_proved_program(self):
        self.prove()
        self.assertEqual(self.call(*GEN)[1].split()[0], 'm51')
        self.assertEqual(self.call(*GEN, M51_UNPROVED='1')[1].split()[0], 'm51-unproved')
        self.assertEqual(self.compiled(), 1)

    def test_a_line_every_ten_seconds(self):
        self.environment['SECONDS_OF_COMPILING'] = '22'
        said = self.call(*GEN)[2]
        self.assertRegex(said, r'm51: compiling: 1\d seconds\n(.*\n)*m51: compiling: 2\d seconds\n')

    def test_interrupt(self):
        self.environment['SECONDS_OF_COMPILING'] = '600'
        job = self.start('dis', 'a.a51')
        for _ in range(600):
            if any(name.startswith('rt-try') for folder in self.left() for name in os.listdir(self.path(folder))):
                break
            time.sleep(0.1)
        os.killpg(job.pid, signal.SIGINT)
        said = job.communicate()[1]
        self.assertNotIn(b'Traceback', said)
        self.assertEqual(job.returncode, -signal.SIGINT)
        self.assertEqual(self.left(), [])
        self.assertEqual(os.listdir(self.out), ['m51-unproved.lock'])

    def test_several_calls_compile_once(self):
        jobs = [self.start('dis', 'a.a51') for _ in range(3)]
        self.assertEqual([job.communicate()[0] for job in jobs], [b'm51-unproved dis a.a51\n'] * 3)
        self.assertEqual(self.compiled(), 1)

    def test_no_program_comes(self):
        status, text, said = self.call('dis', 'a.a51', MODE='refused')
        self.assertEqual((status, text), (70, ''))
        self.assertIn('no such type', said)
        self.assertEqual(self.left(), [])

    def test_a_checkout_that_may_not_be_written(self):
        os.rmdir(self.out)
        self.keep('top/crates/m51/out', 'a file')
        status, text, said = self.call('dis', 'a.a51')
        self.assertEqual((status, text), (70, ''))
        self.assertIn('crates/m51/out', said)
        self.assertNotIn('Traceback', said)
