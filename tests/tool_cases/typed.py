"""Types the blocks of docs/TOOLS.md, as a reader would who begins in examples/tutorial."""
import os
import re
import subprocess

FILE = re.compile(r'`([\w.]+)`:$')


def blocks(text):
    """The indented blocks of a page, each with the line of text before it."""
    before, block = '', []
    for line in [*text.splitlines(), '.']:
        if line.startswith('    '):
            block.append(line[4:])
        elif line and block:
            yield before, block
            block, before = [], line
        elif line:
            before = line
        elif block:
            block.append('')


def steps(block):
    """The commands of a block, each with the lines that it writes."""
    found = []
    for line in block:
        if line.startswith('$ '):
            found.append((line[2:], []))
        elif found and line:
            found[-1][1].append(line)
    return found


def differences(text, folder, environment):
    """The commands of a page that write something else than it says: command, what it says, what came."""
    for before, block in blocks(text):
        file = FILE.search(before)
        if file:
            with open(os.path.join(folder, file[1]), 'w') as out:
                out.write('\n'.join(block).rstrip() + '\n')
            continue
        script = ''.join(f'{command}\necho "===$?"\n' for command, _ in steps(block))
        ran = subprocess.run(
            ['bash', '-c', script], cwd=folder, env=environment, stdin=subprocess.DEVNULL, stdout=subprocess.PIPE,
            stderr=subprocess.PIPE)
        written = re.split(r'===\d+\n', ran.stdout.decode('utf-8', 'replace'))
        for (command, said), came in zip(steps(block), written):
            if came.splitlines() != said:
                yield command, said, came.splitlines()
