"""What a command takes: processor time, memory, machine instructions."""
import os
import re
import resource
import signal
import subprocess
import tempfile
from typing import NamedTuple, Optional


class Run(NamedTuple):
    """How a command ended: its status (less than 0 by a signal; None if it was stopped, as it took more than its
    seconds), processor time, peak memory, and the end of its text."""
    status: Optional[int]
    seconds: float
    megabytes: float
    text: str


def run(words, folder, given='', most=None):
    """Runs a command over what it is given as standard input; after so many seconds of processor time it is stopped."""
    def limit():
        resource.setrlimit(resource.RLIMIT_CPU, (most, most + 1))

    with tempfile.TemporaryFile() as read, tempfile.TemporaryFile() as written:
        read.write(given.encode())
        read.seek(0)
        child = subprocess.Popen(
            words, cwd=folder, stdin=read, stdout=written, stderr=subprocess.STDOUT, preexec_fn=limit if most else None)
        _, status, used = os.wait4(child.pid, 0)
        child.returncode = os.WEXITSTATUS(status) if os.WIFEXITED(status) else -os.WTERMSIG(status)
        written.seek(max(0, written.seek(0, os.SEEK_END) - 2_000))
        text = written.read().decode(errors='replace')
    ended = None if child.returncode == -signal.SIGXCPU else child.returncode
    return Run(ended, used.ru_utime + used.ru_stime, used.ru_maxrss / 1024, text)


def instructions(words, folder):
    """How many machine instructions a command takes, as valgrind counts them."""
    counted = run(['valgrind', '--tool=callgrind', '--callgrind-out-file=/dev/null', *words], folder)
    found = re.search(r'Collected : (\d+)', counted.text)
    if not found:
        raise SystemExit(f'{words}: valgrind counts nothing: {counted.text[-300:]!r}')
    return int(found[1])


def load():
    return f'load {os.getloadavg()[0]:.1f}, {os.cpu_count()} processors'
