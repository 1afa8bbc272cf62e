"""tools/release: the same bytes each time, what it refuses, and what can be done with a release on a clean machine."""
import hashlib
import os
import pathlib
import shutil
import subprocess
import sys
import tarfile
from unittest import mock

from stand_in import StandIn
from support import PROGRAM, TOP, ran, sources, sum_of

sys.path.insert(0, str(TOP / 'tests'))
import pages  # noqa: E402

# Of two crates and an edit.
PASSED = 'm51 proved / 3 passed, 0 failed'
PACKED = (
    'README.md', 'CHANGELOG.md', 'SECURITY.md', 'LICENSE', 'install', 'docs', 'examples', 'completions', 'editors')
WRITE_STAMP = (
    'import sys, time; sys.path.insert(0, "tools"); import sources; '
    'sources.write_stamp(sources.stamp_of(sources.checksum(), sources.toolchain_command()), time.time_ns())')
# Where nothing of the toolchain is.
CLEAN_PATH = '/usr/bin:/bin'
# A root of its own, in which only what the system has in /usr is there, and nothing in /usr/local: unpacks the release
# $2, installs it, and types a page of it by the tests in $3.
OWN_ROOT = """set -e
mount -t tmpfs none "$1"
cd "$1"
for name in usr bin lib lib64 sbin; do
    if [ -L "/$name" ]; then
        cp -P "/$name" .
    elif [ -d "/$name" ]; then
        mkdir "$name"
        mount --rbind "/$name" "$name"
    fi
done
mount -t tmpfs none usr/local
mkdir dev proc tmp home home/tests home/tests/tool_cases
mount --rbind /dev dev
mount --rbind /proc proc
cp "$3"/pages "$3"/*.py home/tests
cp "$3"/tool_cases/second_trace.py home/tests/tool_cases
cp "$2" home/release.tar
exec chroot . /bin/sh -ec '
    cd /home
    tar xf release.tar
    m51-*/install
    cp -R /usr/local/share/doc/m51/* .
    rm -r m51-*
    m51 --version
    [ -e /usr/local/lib/m51/trace-program ] ||
        export M51_PROGRAM=/usr/local/bin/m51 M51_TRACE=/home/tests/tool_cases/second_trace.py
    tests/pages --m51 /usr/local/bin/m51 docs/TUTORIAL.md
    ls -A / /usr/local
    command -v rt || echo no rt
'
"""
IN_OWN_ROOT = ('unshare', '--mount', '--propagation', 'private',
               *(() if os.geteuid() == 0 else ('--user', '--map-root-user')), 'sh', '-c')


class Checkout(StandIn):
    """A checkout of its own, with a stand-in for rt."""

    def fill(self):
        """Puts in what a release has, and commits it."""
        for name in PACKED:
            kept = shutil.ignore_patterns('*.obj', '*.lst', '*.lib', '*.map', '*.log', '__pycache__')
            copy = shutil.copytree if (TOP / name).is_dir() else shutil.copy
            copy(TOP / name, self.path('top', name), **({'ignore': kept} if (TOP / name).is_dir() else {}))
        os.remove(self.path('top', 'fake'))
        self.keep('top/.gitignore', 'crates/*/out/ / __pycache__/')
        self.git('init', '-q')
        self.commit()

    def git(self, *words):
        names = ['-c', 'user.name=a', '-c', 'user.email=a@b']
        subprocess.run(['git', *names, *words], cwd=self.path('top'), check=True, stdout=subprocess.DEVNULL)

    def commit(self):
        self.git('add', '-A')
        self.git('commit', '-q', '-m', 'text')

    def pack(self, name, *options, status=0, **environment):
        """Packs a release; gives what is said of it."""
        return ran([self.path('top', 'tools', 'release'), *options, self.path(name)],
                   env={**self.environment, **environment}, status=status)

    def unpack(self, name):
        """Unpacks a tar, and gives the folder."""
        ran(['tar', 'xf', self.path(name)], folder=self.folder)
        return next(self.path(it) for it in os.listdir(self.folder) if it.startswith('m51-0'))


class Release(Checkout):
    def setUp(self):
        super().setUp()
        self.fill()
        self.keep('top/crates.txt', '# Programs / m51: /  / m51_trace: m51')
        os.makedirs(self.path('top', 'crates', 'm51', 'must-fail'))
        self.keep('top/crates/m51/must-fail/a.edit', 'file: src/main.rt')
        self.commit()
        os.makedirs(self.path('top', 'crates', 'm51_trace', 'out'))
        self.proved = self.script('top/crates/m51/out/m51', '#!/bin/sh\n')
        self.trace = self.script('top/crates/m51_trace/out/m51_trace', '#!/bin/sh\nexit 3\n')
        self.keep('log', PASSED)

    def pack_proved(self, name, status=0, **environment):
        return self.pack(name, '--log', self.path('log'), status=status, **environment)

    def test_the_same_bytes(self):
        said = self.pack_proved('a.tar')
        os.utime(self.path('top', 'README.md'), (5, 5))
        self.pack_proved('b.tar')
        self.assertEqual(sum_of(self.path('a.tar')), sum_of(self.path('b.tar')))
        self.assertTrue(said.startswith(sum_of(self.path('a.tar'))))
        self.assertIn('\ngate 3 passed, 0 failed\n', said)
        folder = self.unpack('a.tar')
        ran(['sha256sum', '--quiet', '--strict', '-c', 'CERTIFICATE'], folder=folder)
        with open(os.path.join(folder, 'CERTIFICATE')) as file:
            lines = file.read().splitlines()
        self.assertIn(hashlib.sha256(b'#!/bin/sh\n').hexdigest() + '  program', lines)
        with tarfile.open(self.path('a.tar')) as tar:
            names = [entry.name.partition('/')[2] for entry in tar]
            self.assertEqual({entry.mode for entry in tar}, {0o644, 0o755})
        self.assertEqual(names, sorted(names))
        # Each file has its sum, but for the certificate itself.
        self.assertEqual({line[66:] for line in lines if line[0] != '#'} | {'CERTIFICATE'}, set(names))
        for name in ('program', 'trace-program', 'm51', 'install', 'tools/explain', 'docs/m51.1', 'editors/README.md',
                     'completions/_m51'):
            self.assertIn(name, names)

    def test_a_kit_of_the_same_logic(self):
        """The certificate names the one that has proved this program."""
        self.assertIn(f'\nkit {self.kit()}\n', self.pack_proved('a.tar'))
        self.assertIn(f'\nkit {self.same_logic()}\n', self.pack_proved('a.tar', VERSION=self.same_logic()))

    def test_the_second_program(self):
        self.assertRegex(self.pack_proved('a.tar'), r'\ntrace-program [0-9a-f]{64}\n')
        ran([os.path.join(self.unpack('a.tar'), 'install'), self.path('usr')])
        self.assertEqual(sum_of(self.path('usr', 'lib', 'm51', 'trace-program')), sum_of(self.trace))
        os.makedirs(self.path('top', 'crates', 'm51_trace', 'src'))
        self.keep('top/crates/m51_trace/src/later.rt', 'fn later')
        os.utime(self.path('top', 'crates', 'm51_trace', 'src', 'later.rt'), (2**32, 2**32))
        self.commit()
        self.pack_proved('b.tar', status=1)
        os.utime(self.path('top', 'crates', 'm51_trace', 'src', 'later.rt'), (5, 5))
        self.script('top/crates/m51_trace/out/m51_trace', '#!/bin/sh\nexit 3\n')
        self.pack_proved('b.tar')
        os.remove(self.trace)
        refused = self.call('--log', self.path('log'), self.path('c.tar'), command=self.path('top', 'tools', 'release'))
        self.assertEqual(refused, (1, '', 'release: the proved program of m51_trace is not built\n'))

    def test_a_log_of_the_whole_gate(self):
        """Of the log of .ci/run the last line of `rt ci` is taken, and that of tests/run beside it."""
        rest = ' / over the proved program, crates/m51/out/m51 / 900 passed, {} failed'
        self.keep('log', PASSED + rest.format(0))
        self.assertIn('\ngate 3 passed, 0 failed\ntests 900 passed, 0 failed\n', self.pack_proved('a.tar'))
        for text in (PASSED + rest.format(2), '2 passed, 1 failed' + rest.format(0), 'm51 proved' + rest.format(0)):
            self.keep('log', text)
            self.pack_proved('b.tar', status=1)

    def test_refused(self):
        for text in ('2 passed, 1 failed', '', '0 passed, 0 failed', 'm51 proved', '2 passed, 0 failed',
                     '4 passed, 0 failed', '3 passed, 1 failed'):
            self.keep('log', text)
            self.pack_proved('a.tar', status=1)
        self.keep('log', PASSED)
        for kit in ('another kit', self.kit() + '9', 'kit logic '):
            self.pack_proved('a.tar', status=1, VERSION=kit)
        self.keep('top/README.md', 'changed')
        self.pack_proved('a.tar', status=1)
        self.commit()
        self.pack_proved('a.tar')
        os.utime(self.path('log'), (5, 5))
        self.pack_proved('b.tar', status=1)
        self.keep('log', PASSED)
        self.change_source('fn other')
        self.commit()
        self.pack_proved('b.tar', status=1)
        os.remove(self.proved)
        self.pack_proved('b.tar', status=1)
        self.assertFalse(os.path.exists(self.path('b.tar')))


class CleanMachine(Checkout):
    """A release with the real program, on a machine without the toolchain. The program may be an unproved one, and then
    the certificate says so."""

    def setUp(self):
        super().setUp()
        self.fill()
        shutil.copy(PROGRAM, self.unproved_path)
        ran([sys.executable, '-c', WRITE_STAMP], folder=self.path('top'), env=self.environment)

    def pack_program(self, name):
        """Packs the program that is tested as what it is: the proved one with m51-trace, if both are proved."""
        trace = sources.proved(sources.TRACE)
        if PROGRAM != sources.proved() or not trace:
            return self.pack(name, '--unproved')
        os.makedirs(self.path('top', 'crates', 'm51_trace', 'out'))
        shutil.copy(PROGRAM, os.path.join(self.out, 'm51'))
        shutil.copy(trace, self.path('top', 'crates', 'm51_trace', 'out', 'm51_trace'))
        self.keep('log', '1 passed, 0 failed')
        return self.pack(name, '--log', self.path('log'))

    def test_an_unproved_release_says_so(self):
        said = self.pack('a.tar', '--unproved')
        self.pack('b.tar', '--unproved')
        self.assertEqual(sum_of(self.path('a.tar')), sum_of(self.path('b.tar')))
        self.assertIn('\ngate none: this program is not proved, and is for tests only\n', said)
        self.assertIn(f'\nprogram-unproved {sum_of(PROGRAM)}\n', said)
        self.assertIn(f'\nkit {self.kit()}\n', said)
        folder = self.unpack('a.tar')
        self.assertTrue(folder.endswith('-unproved'))
        ran([os.path.join(folder, 'install'), self.path('usr')])
        said = self.call('--version', command=self.path('usr', 'bin', 'm51'))[1]
        self.assertIn('\nthe unproved program ', said)
        self.assertIn(f'\nsha256 {sum_of(PROGRAM)}, that of the certificate\ncommit ', said)
        self.assertIn('\ngate none: ', said)
        self.change_source('fn other')
        self.commit()
        self.pack('c.tar', '--unproved', status=1)

    def test_the_tutorial_to_its_end(self):
        self.assertIsNone(shutil.which('rt', path=CLEAN_PATH))
        self.pack_program('a.tar')
        shutil.rmtree(self.path('top'))
        environment = {'PATH': CLEAN_PATH, 'DESTDIR': self.path('root')}
        ran([os.path.join(self.unpack('a.tar'), 'install'), '/usr'], env=environment)
        command, docs = self.path('root', 'usr', 'bin', 'm51'), self.path('root', 'usr', 'share', 'doc', 'm51')
        with open(os.path.join(docs, 'docs', 'TUTORIAL.md')) as file:
            page = file.read()
        with mock.patch.dict(os.environ, {'PATH': CLEAN_PATH}), mock.patch.object(pages, 'TOP', pathlib.Path(docs)):
            os.environ.pop('M51_UNPROVED', None)
            self.assertEqual(pages.faults_of(page, command), [])
        # A copy of an example takes the m51 on the path.
        shutil.copytree(os.path.join(docs, 'examples', 'shell'), self.path('mine'))
        path = f'{os.path.dirname(command)}:{CLEAN_PATH}'
        said = ran(['make', '-s'], folder=self.path('mine'), env={'PATH': path})
        self.assertTrue(said.endswith('link  shell.hex\n'), said)

    def test_the_tutorial_in_a_root_of_its_own(self):
        """Where the system lets this test make one."""
        os.mkdir(self.path('root'))
        words = [*IN_OWN_ROOT, 'mount -t tmpfs none "$0"', self.path('root')]
        if not shutil.which('unshare') or subprocess.run(words, stderr=subprocess.DEVNULL).returncode:
            self.skipTest('no root of its own can be made here')
        # What is mounted must be seen there only, since the folder is removed.
        self.assertFalse(os.path.ismount(self.path('root')))
        self.pack_program('a.tar')
        said = ran([*IN_OWN_ROOT, OWN_ROOT, 'sh', self.path('root'), self.path('a.tar'), TOP / 'tests'],
                   env={'PATH': f'/usr/local/bin:/usr/sbin:{CLEAN_PATH}'})
        self.assertIn(f'\nsha256 {sum_of(PROGRAM)}, that of the certificate\ncommit ', said)
        self.assertIn('\ndocs/TUTORIAL.md: right\n1 passed, 0 failed\n', said)
        self.assertTrue(said.endswith('\nno rt\n'), said)
        self.assertNotIn('opt', said.split())
