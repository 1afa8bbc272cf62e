"""The script m51 over a program that is there."""
import os
import shutil
import signal
import subprocess
import time
import unittest

import arguments
from stand_in import StandIn
from support import ran

NUMBERED = (1, 3, 4, 5, 6, 7, 11)
HINTS = (
    (2, 'build --step 4 a.asm', 'm51: build has no option --step, did you mean --steps?\nm51: --steps is missing\n'
     'm51: a.asm ends in .asm; it should be .a51\nm51: usage: m51 build '),
    (2, 'bild', 'm51: there is no verb bild, did you mean build?\n'),
    (2, 'BUILD --steps 4 a.a51', 'm51: there is no verb BUILD, did you mean build?\n'),
    (2, 'lib lst x', 'did you mean list?'),
    (2, 'asm a.a51', 'm51: --out is missing\nm51: usage: m51 asm --out F FILE..\n'),
    (2, 'gen --units 101 --start 0 --steps=1', 'm51: --units is a number from 1 to 100, not 101\n'),
    (2, 'build --out x a.a51', 'm51: build has no option --out, did you mean --hex?\n'),
    (2, 'link a.obj', 'm51: there is no verb link, did you mean build?\n'),
    (2, 'a.a51', 'm51: a verb is missing before a.a51: m51 build --steps N a.a51 links and runs it\n'),
    (2, ['asm', '--out', 'o', 'a.a51 '], 'm51: "a.a51 " ends in ".a51 "\n'),
    (2, 'asm --out o *.xyz', 'm51: "*.xyz" ends in .xyz; no file is called so: the shell found none\n'),
    (2, 'build --steps 000000004 a.a51', 'a number from 1 to 10000000 in at most 8 digits, not 000000004\n'),
    (2, 'lib build p.lib', 'm51: lib build needs an object\n'),
    (2, 'lib list a.lib more', 'm51: lib list takes one library and nothing else\n'),
    (2, 'lib delete a.lib scale.obj', 'm51: scale.obj is no name of a module'),
    (2, 'lib extract a.lib A B', 'm51: lib extract takes one module\n'),
    (8, 'stack A.a51 b', 'm51: there is no file A.a51, did you mean a.a51?\n'),
    (8, 'build --steps 4 a.a51 d.a51', 'm51: d.a51 is a folder\n'),
    (8, 'flat --steps 4 no/a.hex', 'm51: there is no folder no\n'),
    (8, 'stack --control=c a.a51', 'm51: there is no file c\n'),
    (8, 'lib add l.lib b.obj', 'm51: there is no file l.lib\nm51: there is no file b.obj\nm51: `m51 lib build` '),
    (9, 'asm --out no/a.obj a.a51', 'm51: there is no folder no for no/a.obj\n'),
    (9, 'asm --out= a.a51', 'm51: the name of a file to keep is empty\n'),
    (9, 'asm --out d.a51 a.a51', 'm51: d.a51 is a folder\n'),
    (9, 'lib extract l.lib d', 'm51: D.obj is a folder\n'),
    (9, ['asm', '--out', 250 * 'n', 'a.a51'], 'n is too long: a file that is kept has at most 246 bytes in its name\n'),
    (9, 'asm --out /dev/full a.a51', 'm51: /dev/full could not be kept\n'),
    (9, 'build --steps 5 a.a51', 'm51: standard output could not be written\n'),
    (9, 'build --steps 5 --hex /dev/null a.a51', 'm51: standard output could not be written\n'),
    (12, 'build', 'm51: an argument is not valid UTF-8\n'))
OVERWRITTEN = (
    'asm --out Makefile a.a51', 'build --hex a.lib --steps 1 a.a51', 'lib build Makefile a.obj',
    'asm --out a.a51 a.a51', 'asm --out=./a.a51 a.a51', 'build --hex b.a51 a.a51', 'asm --out link.obj a.a51',
    'build --hex a.obj --steps 3 a.obj', 'lib build a.a51 a.obj', 'lib build a.obj a.obj',
    'build --hex c --control c a.a51')
NOT_OVERWRITTEN = (
    'asm --out o.obj a.a51', 'build --steps 1 --hex o.hex a.a51', 'lib build o.lib a.obj', 'asm --out empty a.a51',
    'build --steps 1 --hex empty a.a51', 'asm --out new.a51 a.a51', 'lib add a.obj b.obj',
    'build --steps 1 --hex /dev/null a.a51')


class Command(StandIn):
    def setUp(self):
        super().setUp()
        self.prove()

    def test_status_and_output_are_handed_on(self):
        for status in range(13):
            said = self.call('build', '--steps', '7', 'a.a51', STATUS=str(status))
            self.assertEqual(said[:2], (status, 'm51 build --steps 7 a.a51\n'))
            self.assertEqual(said[2] != '', status not in (0, 8, 10), said)
            self.assertEqual('m51 explain' in said[2], status in NUMBERED, said)

    def test_odd_bytes_are_handed_on(self):
        words = [self.script_path.encode(), b'\xff.a51']
        done = subprocess.run(words, stdout=subprocess.PIPE, stdin=subprocess.DEVNULL)
        self.assertEqual(done.stdout, b'm51 \xff.a51\n')

    def test_standard_input_is_handed_on(self):
        shutil.copy(self.script('cat', '#!/bin/sh\ncat\n'), os.path.join(self.out, 'm51'))
        self.assertEqual(ran([self.script_path, 'flat'], text='abc'), 'abc')

    def test_link(self):
        os.symlink('top/m51', self.path('link'))
        os.symlink('../link', self.path('bin', 'm51'))
        self.assertEqual(self.call('gen', command='m51'), (0, 'm51 gen\n', ''))
        self.assertEqual(self.call('explain', 'E7', command='m51')[0], 0)

    def test_older_than_its_sources(self):
        self.change_source()
        status, text, said = self.call('gen')
        self.assertEqual((status, text), (0, 'm51 gen\n'))
        self.assertIn('older than crates/m51/src/main.rt', said)

    def test_an_older_python(self):
        version = os.path.join(os.path.dirname(self.script_path), 'tools', 'start.py')
        with open(version) as file:
            text = file.read()
        with open(version, 'w') as file:
            file.write(text.replace('sys.version_info <', '(3, 7, 9) <').replace(
                'sys.version_info[:2]', '(3, 7, 9)[:2]'))
        said = 'm51: python3 on the path is 3.7, and 3.8 or later is needed\n'
        self.assertEqual(self.call('gen'), (70, '', said))

    def test_a_copy_of_the_script(self):
        copy = shutil.copy(self.script_path, self.path('bin', 'm51'))
        status, text, said = self.call('gen', command=copy)
        self.assertEqual((status, text), (70, ''))
        self.assertIn('in place of a copy of this script take a link to it', said)

    def test_a_long_run_ends_with_the_script(self):
        """A script that is killed takes a run of many steps with it."""
        program = self.script('long', '#!/bin/sh\necho $$\nexec sleep 300\n')
        shutil.copy(program, os.path.join(self.out, 'm51'))
        job = subprocess.Popen([self.script_path, 'gen', '--steps', '1000000'], stdout=subprocess.PIPE)
        process = int(job.stdout.readline())
        job.kill()
        job.wait()
        for _ in range(100):
            try:
                os.kill(process, 0)
            except ProcessLookupError:
                break
            time.sleep(0.1)
        else:
            os.kill(process, signal.SIGKILL)
            self.fail('the run is not ended')
        job.stdout.close()

    def test_a_long_run_is_handed_on(self):
        for status in (0, 1, 7):
            said = self.call('gen', '--steps=1000000', STATUS=str(status))
            self.assertEqual(said[:2], (status, 'm51 gen --steps=1000000\n'))

    def test_no_python(self):
        os.mkdir(self.path('path'))
        os.symlink(shutil.which('readlink'), self.path('path', 'readlink'))
        done = subprocess.run([shutil.which('sh'), self.script_path, 'gen'], env={'PATH': self.path('path')},
                              stdout=subprocess.PIPE, stderr=subprocess.PIPE)
        self.assertEqual((done.returncode, done.stdout), (70, b''))
        self.assertIn(b'python3', done.stderr)

    def test_hints(self):
        for name in ('d.a51', 'D.obj'):
            os.mkdir(self.path(name))
        for status, words, hint in HINTS:
            said = self.call(*(words.split(' ') if isinstance(words, str) else words), STATUS=str(status))
            self.assertEqual(said[0], status, words)
            self.assertIn(hint, said[2], words)

    def test_answer_in_a_file(self):
        """Where standard output is a file, the answer is said too."""
        for status, answer, said in (
                (1, 'RUN\nEVENT V4 AT 0000 AFTER 5 STEPS 9 CYCLES', 'EVENT V4 AT 0000 AFTER 5 STEPS 9 CYCLES: the '),
                (3, 'a b.a51(2): E7\na b.a51(3): E1',
                 'E7: a name without a value (a b.a51, line 2); `m51 explain E7` says'),
                (4, 'LINK L8', 'LINK L8: nothing begins at 0000H; `m51 explain L8` says'),
                (7, 'no number', '`m51 explain LIMIT` says')):
            program = self.script('says', f'#!/bin/sh\necho "{answer}"\nexit {status}\n')
            shutil.copy(program, os.path.join(self.out, 'm51'))
            with open(self.path('answer'), 'w') as file:
                file.write('LINK L1 earlier\n')
                file.flush()
                done = subprocess.run([self.script_path, 'gen'], stdout=file, stderr=subprocess.PIPE)
            self.assertEqual(done.returncode, status)
            self.assertTrue(done.stderr.decode().startswith(f'm51: {said}'), done.stderr)

    def test_kept_file_is_standard_output(self):
        """Where both are one file, that is said before the run; through a pipe they are two texts."""
        how = {'cwd': self.folder, 'env': self.environment, 'stdin': subprocess.DEVNULL, 'stderr': subprocess.PIPE}
        for name in ('/dev/stdout', 'answer'):
            words = [self.script_path, 'build', '--steps', '1', '--hex', name, 'a.a51']
            with open(self.path('answer'), 'w') as file:
                done = subprocess.run(words, stdout=file, **how)
            said = f'm51: {name} is the file that standard output goes to: what is kept and the text are '
            self.assertEqual((done.returncode, done.stderr.decode()[: len(said)]), (0, said))
        words[-2] = '/dev/stdout'
        done = subprocess.run(words, stdout=subprocess.PIPE, **how)
        self.assertEqual((done.returncode, done.stderr), (0, b''))

    def test_fault_is_said_wherever_the_answer_goes(self):
        """A call with a fault keeps nothing, so it is made again to know the fault, if its files can be read again."""
        self.keep('a.a51', 'CSEG AT 0 / MOV A,#FFH / END')
        program = self.script(
            'says', f'#!/bin/sh\necho x >> {self.path("made")}\necho "a.a51(2): E7"\nexit ${{STATUS}}\n')
        shutil.copy(program, os.path.join(self.out, 'm51'))
        said = self.call('asm', '--out', 'o', 'a.a51', STATUS='3')
        self.assertEqual(said, (3, 'a.a51(2): E7\n', 'm51: E7: FFH in column 8 has no value here (a.a51, line 2); '
                                                     '`m51 explain E7` says more\n'))
        os.mkfifo(self.path('pipe.a51'))
        for status, file, calls in ((3, 'a.a51', 2), (3, 'pipe.a51', 1), (4, 'a.a51', 1), (0, 'a.a51', 1)):
            os.remove(self.path('made'))
            self.call('asm', '--out', 'o', file, STATUS=str(status))
            with open(self.path('made')) as made:
                self.assertEqual(len(made.readlines()), calls, (status, file))

    def test_output_that_is_closed_or_full(self):
        for words, said in (
                ('>&-', 'standard output is closed'), ('> /dev/full', 'standard output could not be written'),
                ('| :', 'the reader of standard output has gone')):
            if '|' in words:
                self.script('late', '#!/bin/sh\nsleep 1\nexec "$@"\n')
                words = f'2>&1 >&3 3>&- | cat >&2; }} 3>&1 {words}'.replace('}} ', '} ')
                done = subprocess.run(
                    ['bash', '-c', f'{{ {self.path("late")} "$0" gen {words}', self.script_path],
                    stderr=subprocess.PIPE, stdin=subprocess.DEVNULL, env={**self.environment, 'STATUS': '9'})
                self.assertIn(f'm51: {said}\n', done.stderr.decode())
                continue
            done = subprocess.run(['sh', '-c', f'"$0" gen {words}', self.script_path], stderr=subprocess.PIPE,
                                  stdin=subprocess.DEVNULL, env={**self.environment, 'STATUS': '9'})
            self.assertEqual((done.returncode, f'm51: {said}\n' in done.stderr.decode()), (9, True), done.stderr)

    @unittest.skipUnless(os.geteuid() == 0 and shutil.which('python3', path=os.defpath),
                         'only root can take the rights of another user, who needs a python3 of the system')
    def test_permissions(self):
        os.chmod(self.folder, 0o755)
        self.keep('secret.a51', 'END')
        os.chmod(self.path('secret.a51'), 0)
        for status, words, said in (
                (8, 'build --steps 5 secret.a51', 'permission denied: secret.a51 may not be read'),
                (9, 'asm --out new.obj a.a51', 'permission denied: the folder . may not be written'),
                (9, 'asm --out a.obj a.a51', 'permission denied: a.obj may not be written')):
            open(self.path('a.obj'), 'w').close()
            done = subprocess.run(
                [self.script_path, *words.split()], cwd=self.folder,
                env={**self.environment, 'STATUS': str(status), 'PATH': os.defpath},
                stdin=subprocess.DEVNULL, stdout=subprocess.DEVNULL, stderr=subprocess.PIPE,
                preexec_fn=lambda: os.setuid(65534))
            self.assertEqual((done.returncode, done.stderr.decode()), (status, f'm51: {said}\n'))

    def test_sources_are_not_overwritten(self):
        for name in ('b.a51', 'a.obj', 'c', 'Makefile', 'a.lib'):
            self.keep(name, 'END')
        for name, begin in (('o.obj', b'\x02'), ('o.hex', b':'), ('o.lib', b'\x2c'), ('empty', b'')):
            with open(self.path(name), 'wb') as file:
                file.write(begin)
        os.symlink('a.a51', self.path('link.obj'))
        for words in OVERWRITTEN:
            status, text, said = self.call(*words.split())
            self.assertEqual((status, text), (70, ''), words)
            self.assertIn(', and would be overwritten; nothing was done\n', said)
        said = self.call('asm', '--out', 'link.obj', 'a.a51')[2]
        self.assertIn('m51: a.a51 is read by the same call, and would be', said)
        for words in NOT_OVERWRITTEN:
            self.assertEqual(self.call(*words.split())[0], 0, words)

    def await_sleep(self, process):
        """Until a process waits for another: on a busy machine a program may have begun before its script goes on."""
        for _ in range(600):
            with open(f'/proc/{process}/stat') as file:
                if file.read().rpartition(') ')[2].startswith('S'):
                    return
            time.sleep(0.1)

    def test_signals(self):
        for number, word, status in (
                (signal.SIGTERM, 'wait', -15), (signal.SIGHUP, 'wait', -1), (signal.SIGINT, 'wait', -2),
                (signal.SIGINT, 'catch', 7)):
            # Under nohup these tests would hand on that SIGHUP is ignored.
            job = subprocess.Popen(
                [self.script_path, word], stdout=subprocess.PIPE, stderr=subprocess.DEVNULL, start_new_session=True,
                preexec_fn=lambda: signal.signal(signal.SIGHUP, signal.SIG_DFL))
            self.assertEqual(job.stdout.readline(), b'started\n')
            self.await_sleep(job.pid)
            if number == signal.SIGINT:
                # As a terminal does.
                os.killpg(job.pid, number)
            else:
                job.send_signal(number)
            self.assertEqual(job.wait(60), status)
            # Nobody holds it any more.
            self.assertEqual(job.stdout.read(), b'')
            job.stdout.close()


class WithoutProgram(StandIn):
    """What needs no program."""

    def test_help(self):
        status, text, said = self.call()
        usage = 'usage: m51 build [--control F] [--script F] [--hex F] --steps N FILE..\n'
        self.assertEqual((status, text), (2, usage))
        for words in (['-h'], ['--help'], ['help']):
            status, text, _ = self.call(*words)
            self.assertEqual((status, text), (0, said))
            for verb in 'build asm lib flat gen dis stack party explain'.split():
                self.assertIn(f'\n  m51 {verb} ', text)
        for tool in arguments.TOOLS:
            self.assertIn(f'usage: m51 {tool} ', self.call('help', tool)[1])
        for words in (['asm', '--help'], ['help', 'asm'], ['asm', 'a.a51', '-h']):
            self.assertEqual(self.call(*words)[:2], (0, 'usage: m51 asm --out F FILE..\n  FILE ends in .a51, .inc\n'))
        self.assertEqual(self.call('bild')[0], 2)
        self.assertIn('did you mean build?', self.call('bild')[2])
        self.assertEqual(self.compiled(), 0)

    def test_version(self):
        first, program, verbs = self.call('--version')[1].splitlines()
        self.assertRegex(first, r'^m51 [0-9.]+, rattle-kit-\w+ logic [0-9a-f]+$')
        self.assertEqual((program, verbs), ('no program is built yet', 'verbs: build asm lib flat gen dis stack party'))
        self.prove()
        self.assertIn('the proved program /', self.call('--version')[1])

    def test_arguments_are_looked_at_first(self):
        self.assertEqual(self.call('build', '--steps', '0', 'a.a51')[0], 2)
        self.assertEqual(self.call('build', '--steps', '7', 'b.a51'), (70, '', 'm51: there is no file b.a51\n'))
        self.assertEqual(self.compiled(), 0)

    def test_no_toolchain(self):
        os.mkdir(self.path('path'))
        for name in ('python3', 'readlink'):
            os.symlink(shutil.which(name), self.path('path', name))
        status, text, said = self.call('dis', 'a.a51', PATH=self.path('path'))
        self.assertEqual((status, text), (70, ''))
        self.assertIn('command rt is not on the path', said)
