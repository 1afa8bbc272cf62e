"""Runs of the built program in a folder of their own."""
import os
import pathlib
import resource
import signal
import subprocess
import sys
import tempfile

TESTS = pathlib.Path(__file__).resolve().parent
# As for the script m51, this asks for the unproved program.
IS_UNPROVED = bool(os.environ.get('M51_UNPROVED'))
PROGRAM = TESTS.parent / 'crates' / 'm51' / 'out' / ('m51-unproved' if IS_UNPROVED else 'm51')
# The stored cases, which m51_rows runs too.
ROWS = TESTS.parent / 'crates' / 'm51_rows' / 'data'
# The most processor time that a run may take; the unproved program is slower. By the clock it may be ten times as much,
# since on a busy machine a run gets a small part of a processor.
SECONDS = 600 if IS_UNPROVED else 120
CLOCK = 10


class NoAnswer(Exception):
    """Why a run has no answer."""


def stop_unless_built(program=PROGRAM):
    """Ends with status 2 and one line if there is no program to test."""
    if not program.is_file():
        print(f'{program} is not built: rt ci, at the top of the repository, builds it; tests/run --unproved tests the '
              'unproved program', file=sys.stderr)
        sys.exit(2)


def files_of(folder):
    return {path.name: path.read_bytes() for path in folder.iterdir()} if folder.is_dir() else {}


def filled_of(path):
    """The files of lines with a name, a count and a byte in hexadecimal."""
    rows = [line.split() for line in path.read_text().splitlines()]
    return {name: bytes.fromhex(byte) * int(count) for name, count, byte in rows}


def ended(words, seconds=SECONDS, **how):
    """A command that has ended in its time, as subprocess.run gives it; else NoAnswer."""
    pipes = {'stdout': subprocess.PIPE, 'stderr': subprocess.PIPE}
    with subprocess.Popen(words, **{**pipes, **how}) as running:
        # What this process starts has the same limit, each by itself; whoever runs the tests may have a lower one.
        most = resource.getrlimit(resource.RLIMIT_CPU)[1]
        limit = seconds if most == resource.RLIM_INFINITY else min(seconds, most)
        resource.prlimit(running.pid, resource.RLIMIT_CPU, (limit, most))
        try:
            text, said = running.communicate(timeout=CLOCK * seconds)
        except subprocess.TimeoutExpired:
            running.kill()
            raise NoAnswer(f'no answer in {CLOCK * seconds} seconds by the clock')
    if running.returncode == -signal.SIGXCPU:
        raise NoAnswer(f'no answer in {seconds} seconds of processor time')
    return subprocess.CompletedProcess(words, running.returncode, text, said)


def run_in_folder(words, files):
    """The status, the text and the files that a run leaves. Nothing may come on standard error."""
    with tempfile.TemporaryDirectory() as name:
        folder = pathlib.Path(name)
        for file, content in files.items():
            (folder / file).write_bytes(content)
        ran = ended([PROGRAM, *words], cwd=folder)
        return ran.returncode, ran.stdout + ran.stderr, files_of(folder)
