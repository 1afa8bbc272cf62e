"""Stored runs of m51-trace, and the same runs where calls on the system fail.

A folder of tests/traces is a run: `args` (a word a line), `data` (its files), `status`, `stdout`, and `fails`, whose
lines are those of the cases of m51_rows: what is answered, ` = `, and what goes wrong:

- `start 2`, `piece 5`: the second opening of a file fails, the fifth read and all later ones
- `write 3`: the third write to standard output fails, and only that; `room 10`: it has room for 10 bytes
- `short`: each read gives one byte; `memory`: each growth of memory by itself is refused with all later ones

The answer is `same`, a refusal with its status as `8 READ FAULT a.a51`, `9 after 19 lines`: the first lines of
`stdout`, and nothing after them, or `9 cut`: as many bytes of it as there is room for. In no run is a file changed.

The calls fail by failing.c, which is loaded before the program, so these need a C compiler; `room` needs prlimit. They
are left out over the unproved program, which takes half a second for each.
"""
import os
import pathlib
import re
import shutil
import subprocess
import tempfile
import threading

from running import IS_UNPROVED, TESTS, ended, files_of

FOLDER = TESTS / 'traces'
PROGRAM = TESTS.parent / 'crates' / 'm51_trace' / 'out' / ('m51_trace-unproved' if IS_UNPROVED else 'm51_trace')
COMPILER, PRLIMIT = shutil.which(os.environ.get('CC', 'cc')), shutil.which('prlimit')
# What fails, as failing.c names it: the letter of the calls, and whether only one fails, or all later ones too.
KINDS = {'start': ('s', 'once'), 'piece': ('p', 'on'), 'write': ('t', 'once'), 'short': ('p', 'short'),
         'memory': ('a', 'on')}
MADE, LOCK = [], threading.Lock()


def shim():
    """The library that lets calls fail, compiled once."""
    with LOCK:
        if not MADE:
            MADE.append(tempfile.TemporaryDirectory())
            words = [COMPILER, '-shared', '-fPIC', '-O1', '-o', f'{MADE[0].name}/failing.so', TESTS / 'failing.c']
            subprocess.run(words, check=True)
    return f'{MADE[0].name}/failing.so'


def settings(kind, at):
    """The environment in which the call of that number goes wrong."""
    letter, how = KINDS[kind]
    told = {'LOG': 'log', 'KIND': letter, 'AT': str(at), 'HOW': how}
    return {'LD_PRELOAD': shim(), **{f'FAILING_{name}': value for name, value in told.items()}}


def run(case, environment=None, before=()):
    """The status, the text and the letters of the calls of a run; and what is wrong with its files, or nothing."""
    words, files = (case / 'args').read_text().splitlines(), files_of(case / 'data')
    with tempfile.TemporaryDirectory() as name:
        folder = pathlib.Path(name)
        for file, content in files.items():
            (folder / file).write_bytes(content)
        with tempfile.TemporaryFile() as out:
            # The signal of a limit on files, which Python ignores, is ignored by the program too.
            ran = ended([*before, PROGRAM, *words], cwd=folder, env={**os.environ, **(environment or {})},
                        stdin=subprocess.DEVNULL, stdout=out, stderr=subprocess.STDOUT, restore_signals=False)
            out.seek(0)
            text = out.read()
        left = files_of(folder)
        calls = left.pop('log', b'').decode()
        return ran.returncode, text, calls, None if left == files else f'files {sorted(left)}'


def whole(case):
    """What a run answers when nothing fails."""
    return int((case / 'status').read_text()), (case / 'stdout').read_bytes()


def wanted(case, text, number):
    """What a row of `fails` says: the status and the text."""
    status, _, rest = text.partition(' ')
    if status == 'same':
        return whole(case)
    if rest == 'cut':
        return int(status), whole(case)[1][:number]
    after = re.fullmatch(r'after (\d+) lines', rest)
    lines = whole(case)[1].splitlines(True)
    return int(status), b''.join(lines[: int(after[1])]) if after else f'{rest}\n'.encode()


def run_differs(case):
    """What differs where nothing fails, or nothing."""
    status, text, _, wrong = run(case)
    return wrong or (None if (status, text) == whole(case) else f'{status} {text[-200:]!r}')


def failing_differs(job):
    """What differs where calls go wrong as a row of `fails` says, or nothing."""
    case, row = job
    right, what = row.split(' = ')
    kind, _, number = what.partition(' ')
    numbers = [int(number or 1)]
    if kind == 'memory':
        numbers = range(1, run(case, settings(kind, 0))[2].count('a') + 1)
    for at in numbers:
        if kind == 'room':
            status, text, calls, wrong = run(case, before=[PRLIMIT, f'--fsize={at}'])
        else:
            status, text, calls, wrong = run(case, settings(kind, at))
            letters = 'pq' if KINDS[kind][0] == 'p' else KINDS[kind][0]
            if sum(map(calls.count, letters)) < at and right != 'same':
                return f'{what}: there are fewer calls'
        if wrong or (status, text) != wanted(case, right, at):
            return f'{what} {at}: {wrong or ""} {status} {text[-200:]!r}'
    return None if numbers else f'{what}: there is no such call'


def cases():
    """Each test, if m51-trace is built: its name, the function that says what is wrong, and the case that it gets."""
    return list(all_cases()) if PROGRAM.is_file() else []


def all_cases():
    for case in sorted(FOLDER.iterdir()):
        yield f'trace {case.name}', run_differs, case
        rows = (case / 'fails').read_text().splitlines() if (case / 'fails').is_file() else []
        for row in rows if not IS_UNPROVED else []:
            if PRLIMIT if ' room ' in row else COMPILER:
                yield f'trace {case.name}, {row.partition(" = ")[2]}', failing_differs, (case, row)


def left_out():
    """What is not run here, in lines."""
    if not PROGRAM.is_file():
        yield 'left out: the runs of m51-trace, which is not built'
    elif IS_UNPROVED or not COMPILER or not PRLIMIT:
        yield 'left out: runs of m51-trace in which calls fail (the proved program, a C compiler and prlimit have them)'
