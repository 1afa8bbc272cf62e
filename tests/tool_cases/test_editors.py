"""The files for editors: the words and the tokens of the language, and the places to which an editor goes."""
import json
import os
import re
import shutil
import subprocess
import unittest

import expansion
import guesses
from reserved import PREDEFINED, RESERVED
from support import PROGRAM, TOP, Folder

EDITORS = TOP / 'editors'
GRAMMAR = json.loads((EDITORS / 'vscode' / 'syntaxes' / 'asm51.tmLanguage.json').read_text())
SAID = (
    ('m51: E14: an operand out of its range (tick.a51, line 21); `m51 explain E14` says more', None),
    ('m51: tick.a51(21): E14', None), ('tick.a51(21): E14', ('tick.a51', 21)), ('asm   main.a51', None),
    ('main.asm(3): ENDM outside a macro (in D, called at main.asm(7))', ('main.asm', 3)),
    ('make: *** [Makefile:17: main.obj] Error 3', None))
# What each kind of token looks like: the first word of its scope in VS Code, and its group in vim, where a known word
# is one also as a label.
SCOPES = {'text': ('string',), 'number': ('constant',), 'reserved': ('keyword', 'storage', 'variable'),
          'predefined': ('constant',), 'label': ('entity',), 'name': (None,)}
GROUPS = {'text': ('m51Text',), 'number': ('m51Number',),
          'reserved': ('m51Mnemonic', 'm51Directive', 'm51Kind', 'm51Register', 'm51Operator'),
          'predefined': ('m51Special',), 'label': ('m51Label', 'm51Special'), 'name': ('',)}
OWN = {'MACRO', 'ENDM', 'EXITM', 'LOCAL', 'REPT', 'IRP', 'IRPC', 'IF', 'IFN', 'IFDEF', 'IFNDEF', 'IFB', 'IFNB', 'ELSE',
       'ELSEIF', 'ELSEIFN', 'ENDIF'}


def in_vim(folder, *lines):
    """Runs lines of vim script without a screen."""
    with open(os.path.join(folder, 'v.vim'), 'w') as file:
        file.write('\n'.join([f'set rtp^={EDITORS}/vim', 'filetype plugin on', *lines, 'qa!']) + '\n')
    subprocess.run(['vim', '-u', 'NONE', '-i', 'NONE', '-N', '-n', '-es', '-S', 'v.vim'], cwd=folder, timeout=120,
                   stdin=subprocess.DEVNULL, stdout=subprocess.DEVNULL, stderr=subprocess.DEVNULL,
                   env={**os.environ, 'TERM': 'dumb'})


def all_sources():
    """The sources of the repository."""
    paths = [path for place in ('examples', 'docs', 'crates') if (TOP / place).is_dir()
             for path in sorted((TOP / place).rglob('*.[ai][5n][1c]')) if 'out' not in path.parts]
    return [path for path in paths if path.is_file()]


def kinds_of(line):
    """The tokens of a line with what each is; nothing of a line that has a wrong one, or is a control or empty."""
    tokens = guesses.tokens(line)
    if line.startswith(('$', '%')) or any(it.kind in ('bad', 'open') for it in tokens):
        return
    for at, it in enumerate(tokens):
        is_label = at == 0 and tokens[1:2] and tokens[1].text == ':'
        if it.kind == 'text' or it.kind == 'number' and not guesses.is_wrong_number(it.text):
            yield it, it.kind
        elif it.kind == 'name' and it.text.upper() not in OWN:
            word = it.text.upper()
            yield it, 'reserved' if word in RESERVED else 'label' if is_label else \
                'predefined' if word in PREDEFINED else 'name'


def scopes(line):
    """The scope of each character, by the rules of the grammar: at each place the first rule that matches first."""
    found, at = [None] * len(line), 0
    while at < len(line):
        matches = [(rule, re.compile(rule['match']).search(line, at)) for rule in GRAMMAR['patterns']]
        matches = [(match.start(), order, rule, match) for order, (rule, match) in enumerate(matches)
                   if match and match.end() > at]
        if not matches:
            break
        _, _, rule, match = min(matches, key=lambda it: it[:2])
        parts = [(0, rule['name'])] if 'name' in rule else [(int(k), it['name']) for k, it in rule['captures'].items()]
        for group, name in parts:
            found[match.start(group):match.end(group)] = [name] * (match.end(group) - match.start(group))
        at = match.end()
    return found


class Editors(Folder):
    def test_words(self):
        """vim and VS Code know the words of the language, and those of expand."""
        vim = (EDITORS / 'vim' / 'syntax' / 'm51.vim').read_text()
        words = {word for line in re.findall(r'^syntax keyword m51\w+ (.*)', vim, re.M) for word in line.split()}
        rules = ' '.join(rule['match'] for rule in GRAMMAR['patterns'])
        for word in RESERVED | PREDEFINED | OWN:
            self.assertIn(word, words)
            self.assertRegex(rules, rf'[:|]{word}[|)]')
        self.assertLess({'IF', 'ELSE', 'ENDIF', *expansion.REPEATS}, words)

    def test_grammar(self):
        """The grammar of VS Code, over each source of the repository."""
        sources, count = all_sources(), 0
        self.assertGreater(len(sources), 20)
        for path in sources:
            for number, line in enumerate(path.read_text(encoding='latin-1').splitlines(), 1):
                found = scopes(line)
                place = f'{path}({number}): {line}'
                comment = next((it.start() for it in guesses.TOKEN.finditer(line) if it[0][0] == ';'), len(line))
                if any(kinds_of(line)):
                    self.assertEqual({str(it).partition('.')[0] for it in found[comment:]} - {'comment'}, set(), place)
                for it, kind in kinds_of(line):
                    count += 1
                    whole = found[it.column - 1:it.column - 1 + len(it.text)]
                    scope = {name and name.partition('.')[0] for name in whole}
                    self.assertEqual(len(scope), 1, (place, it))
                    self.assertIn(scope.pop(), SCOPES[kind], (place, it))
        self.assertGreater(count, 5_000)
        self.assertEqual(set(scopes('$INCLUDE(a.inc) ; text')[:15]), {'keyword.control.directive.asm51'})
        self.assertEqual(scopes('X: DB "a')[6], 'invalid.illegal.asm51')
        self.assertEqual(scopes("X: DB 'a")[6], 'invalid.illegal.asm51')

    @unittest.skipUnless(shutil.which('vim'), 'vim is not installed')
    def test_syntax_of_vim(self):
        """The colours of vim, over each source of the examples."""
        wanted = []
        for path in (it for it in all_sources() if 'examples' in it.parts):
            self.keep('asked', ' / '.join(
                [str(path)] + [f'{number} {it.column}' for number, line in enumerate(path.read_text().splitlines(), 1)
                               for it, _ in kinds_of(line)]))
            wanted.append((path, open(self.path('asked')).read()))
        with open(self.path('asked'), 'w') as file:
            file.write(''.join(text for _, text in wanted))
        in_vim(self.folder, 'syntax on', 'let out = []', "for word in readfile('asked')", '  let at = split(word)',
               '  if len(at) == 1', "    execute 'edit ' . at[0]", '    setfiletype m51', '  else',
               "    call add(out, synIDattr(synID(at[0], at[1], 1), 'name'))", '  endif', 'endfor',
               "call writefile(out, 'said')")
        said = open(self.path('said')).read().split('\n')
        at = 0
        for path, _ in wanted:
            for number, line in enumerate(path.read_text().splitlines(), 1):
                for it, kind in kinds_of(line):
                    self.assertIn(said[at], GROUPS[kind], f'{path}({number}): {line}: {it}')
                    at += 1
        self.assertEqual(len(said), at + 1)
        self.assertGreater(at, 3_000)

    def test_problem_matcher(self):
        made = json.loads((EDITORS / 'vscode' / 'package.json').read_text())
        pattern = made['contributes']['problemMatchers'][0]['pattern']
        for line, place in SAID:
            found = re.match(pattern['regexp'], line)
            self.assertEqual(found and (found[pattern['file']], int(found[pattern['line']])), place, line)
        self.assertEqual(made['version'], (TOP / 'VERSION').read_text().split()[0])

    @unittest.skipUnless(shutil.which('vim'), 'vim is not installed')
    def test_errorformat_of_vim(self):
        lines = [line for line, _ in SAID] + ['  AT 0029 is main.a51(39), SHOW: CJNE  A,LAST,NEW']
        with open(self.path('said'), 'w') as file:
            file.write('\n'.join(lines) + '\n')
        self.keep('main.a51', 'X: MOV A,#1 ; text')
        in_vim(self.folder, 'edit main.a51', 'syntax on', 'cgetfile said', 'redir! > list', 'silent clist',
               'silent echo &ft synIDattr(synID(1,4,1),"name")', 'redir END')
        with open(self.path('list')) as file:
            said = file.read()
        self.assertEqual(re.findall(r'^ *\d+ ([\w.]+):(\d+):', said, re.M),
                         [('tick.a51', '21'), ('main.asm', '3'), ('main.a51', '39')])
        self.assertTrue(said.rstrip().endswith('m51 m51Mnemonic'), said)

    @unittest.skipUnless(shutil.which('vim') and shutil.which('make'), 'vim or make is not installed')
    def test_make_in_vim(self):
        """`:make` goes to the line of a fault, and opens nothing else."""
        shutil.copytree(TOP / 'examples' / 'tutorial', self.path('own'))
        script = os.path.join(self.folder, 'm51')
        with open(script, 'w') as file:
            # As the script m51 does where the answer goes into a file.
            file.write(f'#!/bin/sh\n{PROGRAM} "$@" || {{ echo "m51: tick.a51(6): E7 or so" >&2; exit 3; }}\n')
        os.chmod(script, 0o755)
        with open(self.path('own', 'Makefile'), 'w') as file:
            file.write(f'tick.obj: tick.a51\n\t@{script} asm --out $@ $< > tick.lst || {{ cat tick.lst; exit 3; }}\n')
        with open(self.path('own', 'tick.a51')) as file:
            text = file.read().split('\n')
        line = text.index('        MOV   A,TICKS')
        text[line] = '        MOV   A,#NOSUCH'
        with open(self.path('own', 'tick.a51'), 'w') as file:
            file.write('\n'.join(text))
        in_vim(self.path('own'), 'edit main.a51', 'silent make',
               "call writefile([expand('%'), line('.'), len(getbufinfo({'buflisted': 1}))], 'said')")
        with open(self.path('own', 'said')) as file:
            self.assertEqual(file.read().split(), ['tick.a51', str(line + 1), '2'])
