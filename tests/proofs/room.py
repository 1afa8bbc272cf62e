"""A copy of a crate in a folder of its own, in which the prover is asked about other texts of its lemma files."""
import re
import subprocess
import sys
from pathlib import Path

sys.path.insert(0, str(Path(__file__).resolve().parent.parent / 'wrong-bodies'))
sys.dont_write_bytecode = True
from copies import copy_of_crates  # noqa: E402
from lemmas import declarations  # noqa: E402
from plants import with_control  # noqa: E402

ERROR = re.compile(r'(?:\./)?(proofs/[^:\s]+\.antt):(\d+):\d+: error: (.*)')
PLANT = re.compile(r'\bplant-(\d+)')


def law_of(crate):
    """The function of the crate in a folder whose proof is shortest, a law before others: over it the lemma files are
    checked. None if no function has a file of answers."""
    files = sorted((crate / 'proofs').rglob('Answers.antt'))
    files.sort(key=lambda path: (path.relative_to(crate / 'proofs').parts[0] != 'laws', path.stat().st_size))
    return '::'.join(files[0].relative_to(crate / 'proofs').parts[:-1]) if files else None


class Refusal:
    """An error of the prover: its file in the crate, its line and its text."""

    def __init__(self, file, line, text):
        self.file, self.line, self.text = file, int(line), text

    def of_plant(self):
        """Whether it is about a plant."""
        return PLANT.search(self.text) is not None


class Room:
    """The copy. `texts` are the lemma files of the crate by their names in it."""

    def __init__(self, folder, crate, law, texts, jobs):
        self.folder, self.crate, self.law = folder / 'crates' / crate, crate, law
        self.texts, self.jobs, self.log = texts, jobs, ''
        copy_of_crates(folder, crate)
        self.answers = self.folder / 'proofs' / law.replace('::', '/') / 'Answers.antt'
        self.own_answers = self.answers.read_text(encoding='utf-8') if self.answers.is_file() else None

    def write(self, texts, controls=None):
        """Gives the lemma files these texts, and the others their own. The law imports the false lemma of each number
        in `controls`, so that each of these files is read; without these it is as it was."""
        for file, text in {**self.texts, **texts}.items():
            (self.folder / file).write_text(text, encoding='utf-8')
        module = {file: file[:-len('.antt')].replace('/', '.') for file in controls or {}}
        lines = [f'use Rattle.{self.crate}.{module[file]}.{{plant-{number}}}\n'
                 for file, number in (controls or {}).items()]
        if lines or self.own_answers is not None:
            self.answers.parent.mkdir(parents=True, exist_ok=True)
            self.answers.write_text(''.join(lines) + (self.own_answers or ''), encoding='utf-8')
        elif self.answers.is_file():
            self.answers.unlink()

    def run(self, *words):
        """Runs `rt` in the copy, and returns its status; what it wrote is in `log`. One that is interrupted ends it."""
        with subprocess.Popen(['rt', *words], cwd=self.folder, text=True, encoding='utf-8', errors='replace',
                              stdout=subprocess.PIPE, stderr=subprocess.STDOUT) as running:
            try:
                self.log = running.communicate()[0]
            except BaseException:
                running.terminate()
                raise
        return running.returncode

    def refusals(self, texts, controls):
        """What the prover refuses of these texts, checked over the law."""
        self.write(texts, controls)
        self.run('check', '--jobs', str(self.jobs), '--only', self.law)
        return [Refusal(*found) for found in ERROR.findall(self.log)]

    def faults(self, texts):
        """What the prover refuses of these texts beside the false lemma at the end of each, and the files of which it
        does not refuse that one: they were not read."""
        controls = {file: number for number, file in enumerate(texts)}
        planted = {file: with_control(text, controls[file]) for file, text in texts.items()}
        refused = self.refusals(planted, controls)
        unread = [file for file, number in controls.items()
                  if number not in refused_plants(planted[file], file, refused)]
        answers = self.answers.relative_to(self.folder).as_posix()
        return [refusal for refusal in refused if refusal.file != answers and not refusal.of_plant()], unread

    def laid_out(self, texts):
        """These texts as `rt fmt` writes them."""
        self.write(texts)
        if self.run('fmt'):
            raise ValueError(f'rt fmt refuses what was made:\n{self.log}')
        return {file: (self.folder / file).read_text(encoding='utf-8') for file in texts}

    def is_proved(self, texts):
        """Whether the whole crate is proved with these texts."""
        self.write(texts)
        return self.run('check', '--jobs', str(self.jobs)) == 0


def refused_plants(text, file, refused):
    """The numbers of the plants of a file that these errors are about: each names its plant, or lies in it."""
    ours = [refusal for refusal in refused if refusal.file == file]
    found = {int(number) for refusal in ours for number in PLANT.findall(refusal.text)}
    for declaration in declarations(text):
        number = PLANT.fullmatch(declaration.name)
        if number:
            first, last = (text.count('\n', 0, place) + 1 for place in (declaration.start, declaration.end))
            found |= {int(number[1]) for refusal in ours if first <= refusal.line <= last}
    return found
