"""How long a run of tests/run may take: so much processor time, whatever the clock says."""
import subprocess
import sys
import time
from unittest import mock

from support import TOP, Folder

sys.path.insert(0, str(TOP / 'tests'))
import running  # noqa: E402

# Needs more than its time, and ends by itself where nothing ends it.
SPIN = 'import time; end = time.monotonic() + 40\nwhile time.monotonic() < end: pass'
WAIT = 'import time; time.sleep({})'


class Running(Folder):
    def seconds(self, code, seconds=1):
        """The status of a Python that runs this, and how long it took."""
        start = time.monotonic()
        status = running.ended([sys.executable, '-c', code], seconds, cwd=self.folder).returncode
        return status, time.monotonic() - start

    def test_a_run_that_waits_for_a_busy_machine(self):
        """By the clock it may take longer than its processor time."""
        status, seconds = self.seconds(WAIT.format(2))
        self.assertEqual((status, seconds >= 2), (0, True))

    def test_a_run_without_end(self):
        with mock.patch.object(running, 'CLOCK', 60), \
                self.assertRaisesRegex(running.NoAnswer, '^no answer in 1 seconds of processor time$'):
            self.seconds(SPIN)

    def test_a_run_that_waits_for_nothing(self):
        start = time.monotonic()
        with mock.patch.object(running, 'CLOCK', 2), \
                self.assertRaisesRegex(running.NoAnswer, '^no answer in 2 seconds by the clock$'):
            self.seconds(WAIT.format(60))
        self.assertLess(time.monotonic() - start, 50)

    def test_what_a_run_starts(self):
        """Each process has the same limit, so that make and a shell end too."""
        code = f'import subprocess, sys; sys.exit(-subprocess.call([sys.executable, "-c", {SPIN!r}]))'
        with mock.patch.object(running, 'CLOCK', 60):
            self.assertEqual(self.seconds(code)[0], 24)

    def test_a_lower_limit(self):
        """Under a limit of the shell, which nobody but root may raise, a run has no more than that."""
        code = 'import sys; sys.path.insert(0, sys.argv[1]); import running; running.ended(["true"], 60)'
        words = ['sh', '-c', 'ulimit -t 50; exec "$@"', 'sh', sys.executable, '-B', '-c', code, str(TOP / 'tests')]
        self.assertEqual(subprocess.run(words, stderr=subprocess.PIPE).stderr, b'')

    def test_what_a_run_writes(self):
        code = 'import sys; sys.stdout.write("a"); sys.stderr.write("b"); sys.exit(3)'
        ran = running.ended([sys.executable, '-c', code])
        self.assertEqual((ran.returncode, ran.stdout, ran.stderr), (3, b'a', b'b'))
