"""What the tests of the script and of the tools share."""
import hashlib
import os
import pathlib
import shutil
import subprocess
import sys
import tempfile
import unittest

TOP = pathlib.Path(__file__).resolve().parent.parent.parent
TOOLS = TOP / 'tools'
TUTORIAL = TOP / 'examples' / 'tutorial'
sys.path.insert(0, str(TOOLS))
import sources  # noqa: E402

PROGRAM = os.environ.get('M51') or sources.proved() or sources.unproved()
# The tools find the programs by these. Where m51-trace is not built, a second one takes its place.
os.environ['M51_PROGRAM'] = PROGRAM or ''
TRACE = os.environ.get('M51_TRACE') or sources.proved(sources.TRACE) or sources.unproved(sources.TRACE)
SECOND_TRACE = str(TOP / 'tests' / 'tool_cases' / 'second_trace.py')
os.environ['M51_TRACE'] = TRACE or SECOND_TRACE


def ran(words, text='', folder=TUTORIAL, status=0, **how):
    """The standard output of a command; its status must be the one that is given."""
    done = subprocess.run(
        list(map(str, words)), input=text.encode('latin-1'), stdout=subprocess.PIPE, stderr=subprocess.PIPE, cwd=folder,
        **how)
    if done.returncode != status:
        raise AssertionError(f'{words} ended with {done.returncode}: {(done.stdout + done.stderr).decode("latin-1")}')
    return done.stdout.decode('latin-1')


def tool(name, *words, **how):
    """The same of a tool."""
    return ran([TOOLS / name, *words], **how)


def build(*words, **how):
    """The answer of a build."""
    return ran([PROGRAM, 'build', *words], **how)


def sum_of(path):
    """The sha256 sum of a file."""
    with open(path, 'rb') as file:
        return hashlib.sha256(file.read()).hexdigest()


def on_terminal(words, **environment):
    """What a command writes to a terminal, from which nothing comes; and its status."""
    main, other = os.openpty()
    done = subprocess.run(list(map(str, words)), stdin=other, stdout=other, stderr=other, timeout=60,
                          env={**os.environ, **environment})
    os.close(other)
    text = b''
    try:
        while True:
            part = os.read(main, 65536)
            if not part:
                break
            text += part
    except OSError:
        # A terminal that nobody holds ends so.
        pass
    os.close(main)
    return done.returncode, text.decode('latin-1').replace('\r\n', '\n')


class Folder(unittest.TestCase):
    """A test with a folder of its own."""

    def setUp(self):
        self.folder = tempfile.mkdtemp()
        self.addCleanup(shutil.rmtree, self.folder)

    def path(self, *names):
        return os.path.join(self.folder, *names)

    def keep(self, name, text):
        """Writes a file, with ` / ` between its lines."""
        with open(self.path(name), 'w') as file:
            file.write(text.replace(' / ', '\n') + '\n')
        return name


# A map, whose parts the tests replace.
SHARED = """SEGMENTS
DATA  0000 0008 B BANK0
DATA  0070 0010 R RESERVE
BIT   0003 0006 P FLAGS
DATA  0008 0002 O ?DT?F
DATA  0008 0001 O ?DT?G
IDATA 000A 0010 P ?STACK
XDATA 0010 0020 P BUFFER
CODE  0000 0003 A @0000
CODE  0003 0010 P ?PR?F
CODE  0013 0010 P ?PR?G
UNITS
@0000 FROM @0000 TO ?PR?F,?PR?G
?PR?F FROM @0000 TO ?PR?G
?PR?G FROM @0000 TO -
CHAIN @0000 3 @0000,?PR?F,?PR?G
OVERLAID 2 BYTES
IMAGE 35 BYTES
RUN
END 1 STEPS 2 CYCLES
"""
