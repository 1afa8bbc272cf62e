"""Runs m51-trace, the program that writes what happens inside a run of `m51 build`, and reads the lines of its states.

A line of a state has tabs, and says what holds after a number of steps and what the next step is; all other lines are
those of `m51 build`.
"""
import os
import subprocess
from collections import namedtuple

import m51files
import sources

COMPILER = os.path.join(sources.TOP, 'tools', 'unproved')
COLUMNS = ['STEP', 'CYCLE', 'PC', 'NEXT', 'A', 'B', 'PSW', 'SP', 'DPTR', 'UNIT']
# What the word NEXT begins with where the next step is no instruction.
VECTOR, IDLE = 'VECTOR', 'IDLE'
CALLS, RETURNS = ('LCALL', 'ACALL'), ('RET', 'RETI')

State = namedtuple('State', 'steps cycle pc word code a b psw sp dptr unit active ram')


def command():
    """The program: that of the environment's M51_TRACE, else the proved one, else the unproved one, which is compiled
    where that has not been done."""
    found = os.environ.get('M51_TRACE') or sources.proved(sources.TRACE)
    if not found and not sources.is_current(sources.TRACE):
        if not sources.has_sources():
            raise m51files.BadFile('the program m51-trace is not installed, and there are no sources here')
        if subprocess.run([COMPILER, '--trace']).returncode:
            raise m51files.BadFile('the program m51-trace is not built')
    return found or sources.unproved(sources.TRACE)


def add_arguments(parser, steps=None):
    """The arguments that name a run, as `m51 build` takes them; with a number of steps for a call that gives none."""
    parser.add_argument('--control', metavar='F', help='the control file of the build')
    parser.add_argument('--script', metavar='F', help='the script of the run')
    parser.add_argument('--steps', metavar='N', default=steps,
                        help='how many steps the run has at most' + (f'; else {steps}' if steps else ''))
    parser.add_argument('files', metavar='FILE', nargs='+', help='the files of the build, and listings of objects')


def words_of(given, steps=None):
    """The same arguments for a program, without the listings."""
    words = []
    for name, value in (('control', given.control), ('script', given.script), ('steps', steps or given.steps)):
        words += [f'--{name}', value] if value else []
    return [*words, '--', *(name for name in given.files if not name.lower().endswith('.lst'))]


def lines_of(options, given):
    """The lines that m51-trace writes, as they come. A refusal ends the tool with its text."""
    words, said = [command(), *options, *words_of(given)], []
    with subprocess.Popen(words, stdout=subprocess.PIPE) as job:
        try:
            for line in job.stdout:
                text = line.decode('ascii', 'replace').rstrip('\n')
                if len(said) < 20:
                    said.append(text)
                yield text
        finally:
            # Who has read enough lets the program end at its next write.
            job.stdout.close()
            job.wait()
    if job.returncode not in (0, 1):
        raise m51files.BadFile('\n'.join([f'm51-trace ends with status {job.returncode}', *said]))


def word_and_code(text):
    """The first word of what a step does, and its bytes, or the address of its vector."""
    word, _, code = text.partition(' ')
    return word, bytes.fromhex(code)


def is_titles(words):
    """Whether a line is the one that names the columns of states."""
    return words[:len(COLUMNS)] == COLUMNS


def read_state(words):
    """The state of a line, cut at its tabs; with active units and changed bytes of internal RAM, where it has them."""
    word, code = word_and_code(words[3])
    numbers = (int(text, 16) for text in words[4:9])
    active = words[10].split(',') if len(words) > 10 else []
    ram = {int(item[:2], 16): item[3:] for item in words[11].split()} if len(words) > 11 else {}
    return State(int(words[0]), int(words[1]), int(words[2], 16), word, code, *numbers, words[9], active, ram)
