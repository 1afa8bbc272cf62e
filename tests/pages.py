"""Pages typed as a reader would: their files are written, their commands run, and what comes is compared.

What a block of code is follows from what a reader sees before it:

- a file, if the text before it ends with a name and a colon, `first.a51:`; after "keeps first.hex:" one that is kept;
- commands, if its first line begins with one; a shell runs all lines, in the folder where the one before ended;
- an answer: of the last command in a code span of the text before it, else of the commands before it. It is the whole
  answer, or its end ("ends with"), its head ("begins with"), or lines of it in their order ("among others");
- a source without a name, if its last line is END. The page says what such a source is called and how it is run.

"Write `X` instead of `Y` in f" and "Add the line `X` after `Y` in f" in a text are edits. A number after "status" in
the text before an answer is that of the command. Rows of a table `LINK ..` | sources are sources too. A block after a
comment `<!-- not typed: why -->` is left out; any other that is none of these is a fault of the page.
"""
import os
import pathlib
import re
import shutil
import subprocess
import tempfile

import markdown
from running import TESTS, NoAnswer, ended

TOP = TESTS.parent
PAGES = ('README.md', *(f'docs/{name}.md' for name in 'TUTORIAL PROJECT PORTING COMMAND LINKER SIMULATOR'.split()))
COMMANDS = 'm51 ./m51 ../m51 ../../m51 cat cd cp diff echo grep m4 make mkdir mv printf rm sed srec_cat tail'.split()
# Commands that not every machine has: without one its block and its answer are left out.
OPTIONAL = ('m4', 'srec_cat')
FILE = re.compile(r'`?([\w./-]+\.(?:a51|asm|brd|ctl|hex|inc|py|txt|want)|Makefile)`?( holding|:)$')
EDIT = re.compile(r'[Ww]rite `([^`]*)` instead of `([^`]*)` in `?([\w./-]+\w)')
ADD = re.compile(r'[Aa]dd the line `([^`]*)` after `([^`]*)` in `?([\w./-]+\w)')
SPAN = re.compile(r'`([^`]+)`')
STATUS = re.compile(r'status(?: is| of it is)? (\d+)')
UNNAMED = re.compile(r'source without a name is (?:in )?`?([\w.]+)`?[^`]*`(m51 [^`]*)`')
ROW = re.compile(r'^\| `(LINK [^`]*)` \|')


def is_command(text):
    return text.split(' ', 1)[0] in COMMANDS and ' ' in text


def agrees(wanted, said, intro):
    """Whether an answer is what the page shows, as far as its text says."""
    if 'among others' in intro:
        lines = iter(said.splitlines())
        return all(line in lines for line in wanted.splitlines())
    if 'ends with' in intro:
        return ('\n' + said.rstrip('\n')).endswith('\n' + wanted)
    if 'begins with' in intro:
        return (said + '\n').startswith(wanted + '\n')
    return said.rstrip('\n') == wanted


class Reader:
    """Somebody who types a page, in a folder that has the examples and m51 as the top of the repository has them."""

    def __init__(self, room, m51):
        self.room = self.folder = pathlib.Path(room)
        kept = shutil.ignore_patterns('*.obj', '*.lib', '*.log')
        shutil.copytree(TOP / 'examples', self.room / 'examples', ignore=kept)
        (self.room / 'bin').mkdir()
        for name in 'm51', 'bin/m51':
            (self.room / name).symlink_to(m51)
        self.faults, self.said, self.status, self.unnamed, self.intro, self.left_out = [], None, 0, None, '', False

    def run(self, lines):
        """Runs lines in a shell; the next ones run where it ended."""
        where = self.room / 'where'
        settings = {**os.environ, 'PATH': f'{self.room / "bin"}:{os.environ["PATH"]}', 'LC_ALL': 'C'}
        script = f"trap 'pwd > {where}' EXIT\n{lines}\n"
        try:
            ran = ended(['sh', '-c', script], cwd=self.folder, env=settings, stdin=subprocess.DEVNULL)
        except NoAnswer as why:
            self.said, self.status = f'({why})', 1
            return
        self.folder = pathlib.Path(where.read_text().strip())
        self.said, self.status = ran.stdout.decode(), ran.returncode

    def fault(self, block, why):
        self.faults.append(f'{block.line}: {why}')

    def write(self, name, text):
        (self.folder / name).write_text(text.rstrip('\n') + '\n')

    def compare(self, block):
        """Compares an answer, and takes it as read."""
        status = STATUS.search(self.intro)
        if not agrees(block.text, self.said, self.intro):
            self.fault(block, f'the answer is {self.said[-400:]!r}')
        elif status and int(status[1]) != self.status:
            self.fault(block, f'the status is {self.status}')
        self.said = None

    def edit(self, block):
        """Makes the edits of a text."""
        for new, old, name in EDIT.findall(block.text):
            self.change(block, name, old, new)
        for new, old, name in ADD.findall(block.text):
            self.change(block, name, old, f'{old}\n        {new}')

    def change(self, block, name, old, new):
        path = self.folder / name
        text = path.read_text() if path.exists() else ''
        if text.count(old) != 1:
            self.fault(block, f'{old!r} is not once in {name}')
        path.write_text(text.replace(old, new))

    def read_text(self, block):
        """A text: its edits, what it says of sources without a name, and its last command if an answer follows."""
        self.intro = block.text
        self.edit(block)
        self.unnamed = UNNAMED.search(block.text) or self.unnamed

    def read_code(self, block):
        """A block of code, by what comes before it."""
        name = FILE.search(self.intro)
        commands = [span for span in SPAN.findall(self.intro) if is_command(span)]
        lacking = [word for word in OPTIONAL if not shutil.which(word)]
        if any(line.split(' ', 1)[0] in lacking for line in block.text.splitlines()):
            self.left_out = True
        elif self.left_out and self.said is None and not name:
            self.left_out = False
        elif is_command(block.text.splitlines()[0]):
            self.run(block.text)
            if self.status and not STATUS.search(self.intro) and '\nEVENT' not in self.said:
                self.fault(block, f'the status is {self.status}: {self.said[-300:]!r}')
        elif name and 'keeps' in self.intro:
            kept = self.folder / name[1]
            if not kept.exists() or kept.read_text().rstrip('\n') != block.text:
                self.fault(block, f'{name[1]} is not what is kept')
        elif name:
            self.write(name[1], block.text)
        elif commands and not UNNAMED.search(self.intro):
            self.run(commands[-1])
            self.compare(block)
        elif block.text.splitlines()[-1].strip() == 'END' and self.unnamed:
            self.write(self.unnamed[1], block.text)
            self.run(self.unnamed[2])
        elif self.said is not None:
            self.compare(block)
        else:
            self.fault(block, f'a block of no kind: {block.text.splitlines()[0]!r}')

    def read_row(self, block):
        """A row of a table that shows a refusal of the link and the sources that get it."""
        wanted = ROW.match(block.text)
        spans = SPAN.findall(block.text)[1:]
        if not wanted or not any(span.endswith('END') for span in spans):
            return
        controls = [span for span in spans if not span.endswith('END') and 'control line' in block.text]
        words = 'm51 build --steps 1'
        for name, text in zip('ab', (span for span in spans if span.endswith('END'))):
            self.write(f'{name}.a51', text.replace(' / ', '\n'))
            words += f' {name}.a51'
        if controls:
            self.write('c.ctl', controls[0])
            words += ' --control c.ctl'
        self.run(words)
        if self.said != wanted[1] + '\n':
            self.fault(block, f'the answer is {self.said[-200:]!r}')
        self.said = None

    def read(self, page):
        """Types a page, and returns its faults."""
        left_out = False
        for block in markdown.blocks(page):
            if block.kind == 'text':
                self.read_text(block)
            elif block.kind == 'row':
                self.read_row(block)
            elif block.kind == 'code' and not left_out:
                self.read_code(block)
            if block.kind == 'heading':
                self.intro = ''
            left_out = block.kind == 'comment' and 'not typed' in block.text
        return self.faults


def faults_of(page, m51=TOP / 'm51'):
    """What is wrong with the text of a page."""
    with tempfile.TemporaryDirectory() as room:
        return Reader(pathlib.Path(room).resolve(), m51).read(page)


def differs(name):
    """The faults of a page, or nothing."""
    return '; '.join(faults_of((TOP / name).read_text())) or None


def links():
    """The links of all pages that lead nowhere."""
    pages = [TOP / 'README.md', *sorted(TOP.glob('docs/*.md')), *sorted(TOP.glob('examples/**/README.md'))]
    return [why for path in pages for why in markdown.broken_links(path, TOP)]


CASES = [('links', lambda _: '; '.join(links()) or None, None)]
CASES += [(f'page {name}', differs, name) for name in PAGES]
