"""tests/proofs/shorter and tests/proofs/same over a crate of their own, with a stand-in for the prover."""
import os
import pathlib
import shutil
import subprocess
import sys

from support import TOP, Folder

sys.path.insert(0, str(TOP / 'tests' / 'proofs'))
import leftovers  # noqa: E402
import plants  # noqa: E402
from comparison import of_files  # noqa: E402
from facts import Facts  # noqa: E402
from lemmas import declarations  # noqa: E402
from room import Refusal, law_of, refused_plants  # noqa: E402
from statements import definitions  # noqa: E402
from trees import Reader  # noqa: E402

# Refuses each plant whose text has none of the words of $TAKEN, each false lemma, and, with $BROKEN, the whole crate.
PROVER = r"""#!/usr/bin/env python3
import glob, os, re, sys
if sys.argv[1] == 'fmt':
    sys.exit(0)
if '--only' not in sys.argv:
    with open(os.environ['CALLS'], 'a') as to:
        to.write(open('proofs/Sums.antt').read())
    sys.exit('BROKEN' in os.environ)
read = re.findall(r'use Rattle.sum.(proofs.\w+).{plant', open('proofs/laws/same/Answers.antt').read())
for file in [name.replace('.', '/') + '.antt' for name in read if name != os.environ.get('UNREAD')]:
    lines = open(file).read().split('\n')
    for number, line in enumerate(lines, 1):
        rest = '\n'.join(lines[number:]).split('\n\n')[0]
        if re.match(r'(pub )?plant.* : ', line) and os.environ['TAKEN'] not in rest or ': ⊥' in line:
            print(f"./{file}:{number}:1: error: `{line.split(' : ')[0].split()[-1]}`: no")
sys.exit(1)
"""
SUMS = """-- Sums of two numbers.
use Rattle.std.proofs.Common.{◌≡◌, ℕ, zero, suc, ap, sym}
use Rattle.sum.specs.Sum.{sum}

-- what statements are about
one : ℕ
one = suc (suc (suc (suc (suc (suc zero)))))

-- nothing names it once the lemma below is shorter
helped : (n : ℕ) → sum n zero ≡ n
helped zero = refl
helped (suc n) = ap (λ k. suc k) (sym (sym (helped n)))

pub right : (n m : ℕ) → sum n zero ≡ n → sum m one ≡ sum one m
right n m h =
    let other : sum m zero ≡ m = helped m in
    ap (λ k. suc k) (sym (ap (λ k. sum k m) (helped n)))
    ∙ sym (ap (λ k. suc k) (helped m))
"""


class Shorter(Folder):
    def setUp(self):
        super().setUp()
        for name in ('proofs/laws/same', 'src', 'specs'):
            os.makedirs(self.path('top', 'crates', 'sum', name))
        os.makedirs(self.path('bin'))
        for name in ('proofs', 'wrong-bodies'):
            os.makedirs(self.path('top', 'tests', name))
            for path in (TOP / 'tests' / name).glob('*'):
                if path.is_file():
                    shutil.copy(path, self.path('top', 'tests', name, path.name))
        self.crate = pathlib.Path(self.path('top', 'crates', 'sum'))
        for name, text in (('top/crates.txt', 'sum:'), ('top/HANDLES', 'none'), ('bin/rt', PROVER.rstrip('\n')),
                           ('top/crates/sum/src/sum.rt', 'fn same() {}'), ('top/crates/sum/specs/Sum.antt', 'sum : ℕ'),
                           ('top/crates/sum/proofs/Sums.antt', SUMS.rstrip('\n')),
                           ('top/crates/sum/proofs/laws/same/Answers.antt', 'use Rattle.sum.proofs.Sums.{right}')):
            with open(self.path(name), 'w', encoding='utf-8') as file:
                file.write(text + '\n')
        os.chmod(self.path('bin/rt'), 0o755)

    def call(self, name, *words, **environment):
        """The status of a command, and what it says."""
        paths = {'PATH': f'{self.path("bin")}:{os.environ["PATH"]}', 'CALLS': self.path('calls'), 'TAKEN': 'nothing',
                 'PYTHONIOENCODING': 'utf-8'}
        done = subprocess.run([self.path('top', 'tests', 'proofs', name), *words], stderr=subprocess.STDOUT,
                              env={**os.environ, **paths, **environment}, stdout=subprocess.PIPE)
        return done.returncode, done.stdout.decode()

    def lemmas(self):
        return (self.crate / 'proofs' / 'Sums.antt').read_text(encoding='utf-8')

    def of(self, name):
        """The plants of a lemma: for each its old text and its new one."""
        found = plants.plants(SUMS, definitions(self.crate))
        return {(SUMS[plant.start:plant.end].strip(), plant.new) for plant in found if plant.declaration.name == name}

    def test_declarations(self):
        """Each has its statement and its clauses, and what a statement names is a definition."""
        found = {declaration.name: declaration for declaration in declarations(SUMS)}
        self.assertEqual(list(found), ['one', 'helped', 'right'])
        self.assertEqual([clause.body_end for clause in found['right'].clauses(SUMS)], [len(SUMS) - 1])
        self.assertEqual([SUMS[start:end] for start, end in found['helped'].places],
                         ['helped zero = refl', 'helped (suc n) = ap (λ k. suc k) (sym (sym (helped n)))'])
        self.assertEqual({'one', 'helped', 'right'} & definitions(self.crate), {'one'})
        self.assertEqual(law_of(self.crate), 'laws::same')

    def test_facts(self):
        """What is cited: lemmas with their arguments, without those that are bound inside."""
        for text, cited in (
                ('ap f (low n) ∙ sym (high m)', ['low n', 'high m']),
                ('let a : ℕ = low n in high a h', ['low n', 'high (low n) h']),
                ('elim (cases a) [\n | inl e ↦ low a e | inr e ↦ h ]', ['cases a', 'low a'])):
            self.assertEqual(Facts(text, {'n', 'm', 'a', 'h'}, 'own').of(Reader(text, 0, len(text)).whole()), cited)

    def test_plants(self):
        """Shorter texts for a lemma's whole body, for parts of it, and for all clauses; none for a definition."""
        news = {new.strip() for _, new in self.of('right')}
        self.assertIn('cc', news)
        self.assertIn('grind (arith, helped)', news)
        self.assertIn('grind (arith, common_steps, helped m, helped n)', news)
        self.assertIn(('let other : sum m zero ≡ m = helped m in', ''), self.of('right'))
        self.assertIn('helped n = grind arith', {new for _, new in self.of('helped')})
        self.assertEqual(self.of('one'), set())
        names = {plant.declaration.name for plant in plants.plants(SUMS, {'one', 'helped'})}
        self.assertEqual(names, {'right'}, 'a statement may name what looks like a lemma')

    def test_binders(self):
        """The names of arguments that patterns match."""
        for signature, names in (
                ('a : (n m : ℕ) {k : ℕ} → n ≤ m → (low : (i : ℕ) → i ≤ n) → ℕ', ['n', 'm', None, 'low']),
                ('a : ((i : ℕ) → ℕ) → (n + n) ≤ n → ⊥', [None, None]), ('a : ⊥', [])):
            self.assertEqual(plants.binders(signature), names)

    def test_planted(self):
        """All of the old text stays; each plant is a lemma of its own that cites itself where the old one did."""
        found = plants.plants(SUMS, {'one'})
        text = plants.planted(SUMS, found, 7)
        names = [declaration.name for declaration in declarations(text)]
        self.assertEqual(names.count('right'), 1)
        self.assertEqual([f'plant-{plant.number}' for plant in found],
                         sorted((name for name in names if 'plant' in name), key=lambda name: int(name[6:]))[:-1])
        self.assertTrue(text.endswith(f'\n\npub plant-{7 + len(found)} : ⊥\nplant-{7 + len(found)} = tt\n'))
        own = [plant for plant in found if plant.declaration.name == 'helped' and plant.new == ' cc (helped n)']
        self.assertIn(f'plant-{own[0].number} (suc n) = cc (plant-{own[0].number} n)\n', text)
        self.assertIn('use Rattle.std.proofs.lemmas.Grind.{common_steps}\n', text)

    def test_refused(self):
        """An error is about the plant that it names, or that its line is in."""
        text = 'plant-1 : ⊥\nplant-1 = a\n\nplant-2 : ⊥\nplant-2 = a\n\nplant-3 : ⊥\nplant-3 = tt\n\nplant-4 : ⊥\n'
        text += 'plant-4 = tt\n'
        refused = [Refusal('A', '5', '`inner`: no'), Refusal('A', '1', '`plant-3`: no'), Refusal('B', '11', 'no')]
        self.assertEqual(refused_plants(text, 'A', refused), {1, 2, 3})

    def test_best(self):
        """Of plants that meet those that save most together."""
        found = [plants.Plant(None, start, end, 'a' * gain, '') for start, end, gain in (
            (0, 10, 30), (0, 4, 20), (4, 10, 15), (20, 30, 5), (21, 22, 9))]
        for plant in found[:4]:
            plant.passes = True
        self.assertEqual(plants.best(found), [found[1], found[2], found[3]])

    def test_a_run(self):
        """The shortest that the prover takes is kept, and what nothing names any more goes."""
        status, said = self.call('shorter', 'sum', TAKEN='= grind arith')
        self.assertEqual((status, said.splitlines()[-1][-26:]), (0, 'bytes less in 1 of 1 files'), said)
        self.assertIn('right n m h = grind arith\n', self.lemmas())
        self.assertNotIn('helped', self.lemmas())
        self.assertIn('use Rattle.std.proofs.Common.{arith}\nuse Rattle.std.proofs.Common.{◌≡◌, ℕ, zero, suc}\n',
                      self.lemmas(), 'ap and sym are imported no more')
        self.assertIn('one = suc (suc (suc (suc (suc (suc zero)))))\n', self.lemmas())
        with open(self.path('calls'), encoding='utf-8') as file:
            self.assertEqual(file.read(), self.lemmas(), 'the whole crate was proved with this')

    def test_nothing_is_written(self):
        """Where the whole crate is not proved, where a file was not read, and with --show."""
        for words, status, environment in (((), 1, {'BROKEN': '1'}), ((), 0, {'UNREAD': 'proofs.Sums'}),
                                           (('--show',), 0, {}), ((), 0, {'TAKEN': 'no such text'})):
            given = {'TAKEN': '= grind arith', **environment}
            ended, said = self.call('shorter', 'sum', *words, **given)
            self.assertEqual((ended, 'NOT READ' in said), (status, 'UNREAD' in environment), said)
            self.assertEqual(self.lemmas(), SUMS)

    def test_arguments(self):
        """Files may come after an option, and a law, a file or a crate that is not there is refused."""
        status, said = self.call('shorter', 'sum', '--law', 'laws::same', 'Sums', '--show')
        self.assertEqual((status, said.splitlines()[0]), (0, 'sum, 1 files, over laws::same'), said)
        for words, why in ((('sum', '--law', 'same'), 'sum has no folder of proofs of same'),
                           (('sum', 'Other'), 'sum has no lemma file Other'), (('other',), 'no crate other')):
            status, said = self.call('shorter', *words)
            self.assertEqual((status, said.splitlines()[-1]), (2, f'shorter: error: {why}'))

    def test_same(self):
        """Bodies of lemmas may change, and nothing else."""
        shutil.copytree(self.path('top', 'crates'), self.path('old'))
        for file, old, new, is_same in (
                ('proofs/Sums.antt', '(sym (sym (helped n)))', '(helped n)', True),
                ('proofs/Sums.antt', 'pub right', 'right', False),
                ('proofs/Sums.antt', 'sum m one ≡', 'sum one m ≡', False),
                ('proofs/Sums.antt', 'zero)))', 'one)))', False),
                ('proofs/Sums.antt', 'specs.Sum', 'specs.Other', False),
                ('specs/Sum.antt', 'sum', 'other', False),
                ('src/sum.rt', 'same', 'other', False)):
            text = (self.crate / file).read_text(encoding='utf-8')
            self.assertIn(old, text)
            (self.crate / file).write_text(text.replace(old, new), encoding='utf-8')
            status, said = self.call('same', self.path('old'), self.path('top'))
            self.assertEqual(status, 0 if is_same else 1, said)
            (self.crate / file).write_text(text, encoding='utf-8')

    def test_same_above(self):
        """With --above a lemma may change that no other crate imports."""
        (self.crate.parent / 'upper' / 'proofs').mkdir(parents=True)
        uses = self.crate.parent / 'upper' / 'proofs' / 'Uses.antt'
        (self.crate / 'proofs' / 'Sums.antt').write_text(SUMS.replace('sum m one ≡', 'sum one m ≡'), encoding='utf-8')
        for name, is_same in (('other', True), ('right', False)):
            uses.write_text(f'use Rattle.sum.proofs.Sums.{{{name}}}\n', encoding='utf-8')
            shutil.copytree(self.path('top', 'crates'), self.path(name))
            (pathlib.Path(self.path(name)) / 'sum' / 'proofs' / 'Sums.antt').write_text(SUMS, encoding='utf-8')
            status, said = self.call('same', '--above', self.path(name), self.path('top'))
            self.assertEqual(status, 0 if is_same else 1, said)

    def test_a_record_in_a_body(self):
        """A record that a body makes is no type, though it begins a line."""
        text = 'pub pair : (n : ℕ) → Pair n\npair n =\n    record { one = n; other = two }\n'
        self.assertEqual(of_files('a', text, text.replace('two', 'n'), set()), ([], []))

    def test_long_lines(self):
        line = f'right n = grind ({", ".join(["helped (suc n)"] * 12)})'
        found = leftovers.broken(line).split('\n')
        self.assertLessEqual(max(map(len, found)), 120)
        self.assertEqual(' '.join(part.strip() for part in found), line)
