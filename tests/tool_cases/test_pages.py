"""What the pages show of the tools is what they write, and the pictures are those that are made."""
import os
import re
import shutil

import arguments
from support import PROGRAM, TOP, Folder, ran

from typed import differences

PICTURES = TOP / 'docs' / 'pictures'
# What docs/PROJECT.md tells to change in the Makefile of a copy, here for the program of the tutorial.
CHANGES = (
    ('NAME   = shell\n', 'NAME   = show\n'), ('INC    = board.inc\n', 'INC    =\n'),
    ('OBJ    = main.obj uart.obj cmd.obj led.obj\n', 'OBJ    = main.obj tick.obj scale.obj\n'),
    ('STEPS ?= 35000\n', 'STEPS ?= 300\n'), ('LIB    = util.lib\n', ''),
    ('util.lib: num.obj text.obj hex.obj\n\t@echo "lib   $@"\n\t@$(M51) lib build $@ $^\n', ''))


class Pages(Folder):
    def test_tools(self):
        shutil.copytree(TOP / 'examples', self.path('examples'))
        shutil.copytree(TOP / 'docs', self.path('docs'))
        os.mkdir(self.path('bin'))
        os.symlink(TOP / 'm51', self.path('bin', 'm51'))
        environment = {**os.environ, 'PATH': f'{self.path("bin")}:{os.environ["PATH"]}'}
        page = (TOP / 'docs' / 'TOOLS.md').read_text()
        self.assertEqual(list(differences(page, self.path('examples', 'tutorial'), environment)), [])

    def test_a_project_of_its_own(self):
        """A copy of the shell's Makefile, changed as docs/PROJECT.md says, links and tests another program."""
        changed = re.search(r'\*\*What a project of your own changes\*\* in the Makefile: (.*?)\n\n',
                            (TOP / 'docs' / 'PROJECT.md').read_text(), re.S)[1]
        for words in ('NAME, INC and OBJ; LIB and its rule', 'STEPS.', 'NAME.ctl may be empty', 'NAME.txt,'):
            self.assertIn(words, ' '.join(changed.split()))
        text = (TOP / 'examples' / 'shell' / 'Makefile').read_text()
        for old, new in CHANGES:
            self.assertEqual(text.count(old), 1, old)
            text = text.replace(old, new)
        with open(self.path('Makefile'), 'w') as file:
            file.write(text)
        for name in ('main', 'tick', 'scale'):
            shutil.copy(TOP / 'examples' / 'tutorial' / f'{name}.a51', self.folder)
        for name in ('show.ctl', 'show.txt'):
            open(self.path(name), 'w').close()
        make = ['make', '-s', f'M51={TOP / "m51"}']
        self.assertTrue(ran(make, folder=self.folder).endswith('link  show.hex\n'))
        self.assertIn('  D:09.0 is LAST of ?DT?SHOW, main.a51(18)', ran([*make, 'test'], folder=self.folder, status=2))
        self.keep('show.ctl', 'NOOVERLAY(?PR?SHOW)')
        ran([*make, 'test'], folder=self.folder, status=2)
        self.keep('show.want', ran(['sed', '-n', '/^RUN/,$p', 'test.log'], folder=self.folder).rstrip('\n'))
        ran([*make, 'test'], folder=self.folder)

    def test_cost_of_the_unproved_program(self):
        """The pages that offer it say what a link and a step cost."""
        for name in ('README.md', 'docs/TUTORIAL.md', 'docs/COMMAND.md'):
            text = ' '.join((TOP / name).read_text().split())
            self.assertRegex(text, 'a link [a-z ]*takes half a second, and a run some 5,000 steps a second', name)

    def test_pictures(self):
        ran([PICTURES / 'make', self.folder], env={**os.environ, 'M51': str(TOP / 'm51')})
        for name in ('tutorial-ram.svg', 'line-wave.svg'):
            with open(self.path(name)) as file:
                self.assertEqual(file.read(), (PICTURES / name).read_text(), f'{name}: run docs/pictures/make')

    def test_help(self):
        """Each verb and tool of the script is in --help, each verb in COMMAND.md as it is here."""
        text = ran([TOP / 'm51', '--help'])
        page = (TOP / 'docs' / 'COMMAND.md').read_text()
        for verb, (words, does) in arguments.VERBS.items():
            self.assertRegex(text, rf'\n  m51 {verb} ')
            self.assertIn(' '.join(f'm51 {verb} {words}'.split()) + ' ' + does, ' '.join(page.split()))
        for verb in arguments.TOOLS:
            self.assertRegex(text, rf'\n  m51 {verb} ')
            self.assertIn(f'usage: m51 {verb}', ran([TOP / 'tools' / verb, '--help']))

    def completed(self, *words):
        """What bash completes the last of these words to."""
        script = f'. "$0"; COMP_WORDS=("$@"); COMP_CWORD={len(words) - 1}; _m51; echo "${{COMPREPLY[*]}}"'
        return ran(['bash', '-c', script, TOP / 'completions' / 'm51.bash', *words], folder=self.folder).split()

    def test_completions_of_bash(self):
        verbs = [*arguments.VERBS, *arguments.TOOLS, 'help', '--help', '--version']
        self.assertEqual(sorted(self.completed('m51', '')), sorted(verbs))
        for verb, (words, _) in arguments.VERBS.items():
            options = [word.strip('[]') for word in words.split() if '--' in word]
            self.assertEqual(sorted(self.completed('m51', verb, '--')), sorted([*options, '--help']), verb)
        self.assertEqual(self.completed('m51', 'lib', ''), list(arguments.OPERATIONS))
        for tool in arguments.TOOLS:
            for option in self.completed('m51', tool, '--'):
                words = ['rx'] if tool == 'serial' and option not in ('--board', '--help') else []
                words = ['tx'] if option == '--board' else words
                self.assertIn(option, ran([TOP / 'tools' / tool, *words, '--help']), tool)
        for name in ('a.a51', 'b.hex', 'c.obj', 'd.lib', 'e.txt'):
            self.keep(name, '')
        self.assertEqual(self.completed('m51', 'asm', ''), ['a.a51'])
        self.assertEqual(sorted(self.completed('m51', 'build', '')), ['a.a51', 'c.obj', 'd.lib'])
        self.assertEqual(self.completed('m51', 'lib', 'add', ''), ['d.lib'])
        self.assertEqual(self.completed('m51', 'lib', 'add', 'd.lib', ''), ['c.obj'])
        for words in (['where', '-m', ''], ['symbols', '--map', ''], ['foreign', '--map', '=', 'e']):
            self.assertIn('e.txt', self.completed('m51', *words), words)
        self.assertEqual(self.completed('m51', 'build', '--hex', '='), ['b.hex'])
        self.assertEqual(self.completed('m51', 'build', '--hex', '=', 'b'), ['b.hex'])
        self.assertEqual(self.completed('m51', 'where', '-a', ''), [])
        self.assertEqual(self.completed('m51', 'help', ''), [*arguments.VERBS, *arguments.TOOLS])
        self.assertEqual(self.completed('m51', 'explain', 'NO'), ['NOUNIT', 'NOEDGE', 'NOTCALLED', 'NOHANDLER'])
        self.assertEqual(self.completed('m51', 'explain', '7'), ['7', '70'])
        self.assertEqual(self.completed('m51', 'symbols', '--format', ''), ['cdb', 'omf', 'lst', 'json'])
        os.symlink(PROGRAM, self.path('m51'))
        self.keep('p.a51', 'NAME PART / END')
        ran([PROGRAM, 'asm', '--out', 'p.obj', 'p.a51'], folder=self.folder)
        os.remove(self.path('d.lib'))
        ran([PROGRAM, 'lib', 'build', 'd.lib', 'p.obj'], folder=self.folder)
        for operation in ('delete', 'raise', 'extract'):
            self.assertEqual(self.completed('./m51', 'lib', operation, 'd.lib', ''), ['PART'])

    def test_completions_of_zsh(self):
        text = (TOP / 'completions' / '_m51').read_text()
        for verb, (_, does) in (*arguments.VERBS.items(), *arguments.TOOLS.items()):
            self.assertIn(f"    '{verb}:", text)
            self.assertTrue(verb == 'explain' or f"'{verb}:{does}'" in text, verb)

    def test_usage_is_that_of_the_program(self):
        self.assertEqual(ran([PROGRAM], status=2), arguments.USAGE + '\n')
