#!/usr/bin/env python3
"""Writes what m51-trace writes, by the board of tests/board.py and not by the program: for tests where that is not
built, and for comparison with it. It takes the arguments of m51-trace, with --steps N and the files last."""
import os
import pathlib
import subprocess
import sys
import tempfile
from collections import Counter

sys.dont_write_bytecode = True
sys.path.insert(0, str(pathlib.Path(__file__).resolve().parent.parent))
import objects  # noqa: E402
import states  # noqa: E402

OWN = {'--ram': 0, '--counts': 0, '--from': 1, '--to': 1}


def own_options(words):
    """The options of m51-trace, and the words after them."""
    options = {}
    while words and words[0] in OWN:
        name, *words = words
        options[name] = int(words.pop(0)) if OWN[name] else True
    return options, words


def linked(words):
    """What `build` writes for one step of the same files, its status, and the image that it keeps."""
    at = words.index('--steps')
    with tempfile.TemporaryDirectory() as folder:
        kept = os.path.join(folder, 'a.hex')
        ran = subprocess.run(
            [os.environ['M51_PROGRAM'], 'build', '--hex', kept, *words[:at], '--steps', '1', *words[at + 2 :]],
            stdout=subprocess.PIPE)
        if not os.path.exists(kept):
            return ran.stdout.decode(), ran.returncode, None
        with open(kept, 'rb') as file:
            return ran.stdout.decode(), ran.returncode, objects.read_hex(file.read())


def counts(lines):
    """The lines of `build`, and the table of counts after them."""
    before, times, cycles = None, Counter(), Counter()
    for line in lines:
        words = line.split('\t')
        if len(words) == 1:
            yield line
        elif words[0] != 'STEP':
            if before:
                is_code = before[3].partition(' ')[0] not in ('VECTOR', 'IDLE')
                row = (0, before[2], before[3]) if is_code else (
                    1 + (before[3] == 'IDLE'), before[3].partition(' ')[0], before[3])
                times[row] += 1
                cycles[row] += int(words[1]) - int(before[1])
            before = words
    yield 'PC\tTIMES\tCYCLES\tNEXT'
    for row in sorted(times):
        yield f'{row[1]}\t{times[row]}\t{cycles[row]}\t{row[2]}'


def window(lines, options):
    """The lines without the states that are not in the window."""
    first, last = options.get('--from', 0), options.get('--to', 1 << 32)
    for line in lines:
        number = line.partition('\t')[0]
        if '\t' not in line or number == 'STEP' or first <= int(number) <= last:
            yield line


def main():
    options, words = own_options(sys.argv[1:])
    text, status, image = linked(words)
    if image is None:
        sys.stdout.write(text)
        sys.exit(status)
    script = ''
    if '--script' in words:
        with open(words[words.index('--script') + 1]) as file:
            script = file.read()
    told, steps = text[: text.index('RUN\n') + 4], int(words[words.index('--steps') + 1])
    lines = states.trace_of(told, image, script, steps, '--ram' in options, options.get('--from', 0))
    for line in counts(lines) if '--counts' in options else window(lines, options):
        print(line)
    sys.exit(int(lines[-1].startswith('EVENT')))


if __name__ == '__main__':
    main()
