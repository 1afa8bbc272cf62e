"""The examples as their pages say: each row of examples/README.md, `make test` of each project, each include."""
import pathlib
import re
import shutil
import tempfile

from running import PROGRAM, TESTS, ended, run_in_folder

TOP = TESTS.parent
EXAMPLES = TOP / 'examples'
PROJECTS = ('shell', 'keypad', 'logger')
# A row: the command, and the last line of its answer.
ROW = re.compile(r'^\| `\.\./m51 ([^`]*)` \|[^|]*\| (?:`(.*)` )?\|$', re.M)
# A name that reg52.inc defines: the class and the value that m51 gives it by itself.
NAME = re.compile(r'^(\w+) +(?:DATA|BIT) ', re.M)


def copied(folder, room):
    """A copy of a folder of examples without what a run of make has left there."""
    left = shutil.ignore_patterns('*.obj', '*.lst', '*.lib', '*.map', '*.log')
    return pathlib.Path(shutil.copytree(folder, pathlib.Path(room) / folder.name, ignore=left))


def rows_differ():
    """The first row whose status or last line is another one; later rows use what earlier ones keep."""
    rows = ROW.findall((EXAMPLES / 'README.md').read_text())
    if len(rows) < 13:
        return f'only {len(rows)} rows in examples/README.md'
    with tempfile.TemporaryDirectory() as room:
        folder = copied(EXAMPLES, room)
        for words, wanted in rows:
            ran = ended([PROGRAM, *words.split()], cwd=folder, text=True)
            last = (ran.stdout.splitlines() or [''])[-1].strip()
            if (ran.returncode, last) != (1 if 'EVENT' in wanted else 0, wanted):
                return f'{words}: {ran.returncode} {last!r}'
    return None


def project_differs(name):
    """What `make test` of a project says if it fails, or what it prints that the project's page does not show."""
    if not shutil.which('make'):
        return 'make is not on the path'
    with tempfile.TemporaryDirectory() as room:
        words = ['make', '-s', '-C', copied(EXAMPLES / name, room), 'test', f'M51={TOP / "m51"}']
        ran = ended(words, text=True)
    if ran.returncode:
        return f'{ran.stdout[-600:]}{ran.stderr[-600:]}'
    shown = {line.strip() for line in (EXAMPLES / name / 'README.md').read_text().splitlines()}
    said = [line for line in ran.stdout.splitlines() if not line.startswith(('asm ', 'lib ', 'link '))]
    return next((f'its page does not show {line!r}' for line in said if line.strip() not in shown), None)


def include_differs(path):
    """Whether a file of names changes a name of the 8052, or can't stand with `$NOMOD51`."""
    names = NAME.findall((EXAMPLES / 'include' / 'reg52.inc').read_text())
    values = ''.join(f'DB {name}\n' for name in names if name not in ('CP_RL2', 'C_T2')) + 'END\n'
    texts = [f'$INCLUDE({path.name})\nCSEG AT 0\n{values}', f'$NOMOD51\n$INCLUDE({path.name})\nCSEG AT 0\n{values}']
    images = []
    for source, given in ('CSEG AT 0\n' + values, []), *((text, [path.name]) for text in texts):
        files = {'a.a51': source.encode(), path.name: path.read_bytes()}
        status, text, left = run_in_folder(['build', '--hex', 'a.hex', '--steps', '1', 'a.a51', *given], files)
        if status not in (0, 1) or not left.get('a.hex'):
            return f'{status} {text[:200]!r}'
        images.append(left['a.hex'])
    return None if images[0] == images[1] == images[2] else f'{images[1][:200]!r}'


CASES = [('examples', lambda _: rows_differ(), None)]
CASES += [(f'example {name}', project_differs, name) for name in PROJECTS]
CASES += [(f'example {path.name}', include_differs, path) for path in sorted((EXAMPLES / 'include').glob('*.inc'))]
