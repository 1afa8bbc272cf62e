"""The arguments of m51: its verbs, what is wrong with a call, and which files it reads and keeps.

Nothing here decides what the program does. tests/tools compares `wrong` with the calls that the program refuses.
"""
import os
import re

USAGE = 'usage: m51 build [--control F] [--script F] [--hex F] --steps N FILE..'
VERBS = {
    'build': ('[--control F] [--script F] [--hex F] --steps N FILE..', 'assembles, links and runs'),
    'asm': ('--out F FILE..', 'assembles one source'),
    'lib': ('OP L [ARG..]', 'makes, edits and looks into a library'),
    'flat': ('[--script F] --steps N F', 'runs a HEX file on one memory'),
    'gen': ('--units U --start S --steps N', 'makes a test program, links and runs it'),
    'dis': ('[--control F] FILE..', 'links, and writes the program as a source again'),
    'stack': ('[--control F] FILE..', 'links, and writes a bound on the stack'),
    'party': ('[--script F] --steps N FILE..', 'runs two to eight boards on one serial line'),
}
TOOLS = {
    'explain': ('NUMBER', 'says what E14, L11, V3 .. in an answer mean'),
    'where': ('-m MAP FILE..', 'lists the labels; finds the line of an address'),
    'ram': ('[--svg] MAP', 'draws what has which byte of memory'),
    'wave': ('[--script F] RECORD', 'writes a run for a viewer of waveforms'),
    'serial': ('rx TEXT.. | tx RECORD', 'text to lines of a script, and a run to text'),
    'foreign': ('-m MAP FILE..', 'finds uses of locals of other units'),
    'trace': ('[--ram | --counts] --steps N FILE..', 'writes what happens inside a run'),
    'profile': ('[--calls] [--html P] --steps N FILE..', 'says where a run spends its cycles'),
    'cover': ('[--at-least N] [--html P] --steps N FILE..', 'says which lines a run has executed'),
    'debug': ('[--commands C] --steps N FILE..', 'goes through a run, forwards and back'),
    'report': ('--out P --steps N FILE..', 'writes one page of a program and a run'),
    'expand': ('[--out F] [-D NAME=VALUE] FILE', 'writes macros and conditions of a source out'),
    'port': ('--from as31|sdas|asem|mcu8051ide FILE', 'edits a source of another assembler for m51'),
    'symbols': ('--format cdb|omf|lst|json -m MAP FILE..', 'symbols, lines, a listing with final addresses'),
}
OPERATIONS = ('build', 'add', 'replace', 'delete', 'raise', 'extract', 'list')
LINKED = ('.a51', '.inc', '.obj', '.lib')
ENDINGS = {'build': LINKED, 'asm': ('.a51', '.inc'), 'dis': LINKED, 'stack': LINKED, 'party': ('.a51',)}
BOUNDS = {'--steps': (1, 10_000_000), '--units': (1, 100), '--start': (0, 4_294_967_295)}
# Endings that other tools give to the same files.
LIKELY = {'.asm': '.a51', '.s': '.a51', '.src': '.a51', '.s51': '.a51', '.a': '.lib', '.rel': '.obj', '.o': '.obj'}
LIKELY['.h'] = '.inc'
# Words by which other tools call the same.
OTHER_VERBS = {'assemble': 'asm', 'as': 'asm', 'link': 'build', 'ld': 'build', 'run': 'build', 'sim': 'build',
               'library': 'lib', 'ar': 'lib', 'disassemble': 'dis', 'macro': 'expand', 'pp': 'expand', 'map': 'ram'}
OTHER_OPTIONS = {
    ('build', '--out'): '--hex', ('asm', '--hex'): '--out', ('build', '-o'): '--hex', ('asm', '-o'): '--out'}
NAME = re.compile('[A-Z?_][A-Z0-9?_]{0,30}')


def help_text():
    """All verbs and tools."""
    lines = ['m51 assembles, links and runs programs for the Intel MCS-51 (8052).', '']
    for table in (VERBS, TOOLS):
        lines += [f'  m51 {verb:7} {words:53} {does}' for verb, (words, does) in table.items()]
    return '\n'.join([*lines, '', 'm51 VERB --help says more of one of them.'])


def usage(verb):
    """The arguments of one verb."""
    lines = [f'usage: m51 {verb} {VERBS[verb][0]}']
    if verb == 'lib':
        lines.append('  OP L is build L O.., add L O.., replace L O.., delete L M.., raise L M.., extract L M or '
                     'list L')
    if verb in ENDINGS:
        lines.append('  FILE ends in ' + ', '.join(ENDINGS[verb]))
    if '--steps' in lines[0]:
        lines.append('  N is 1 to 10000000')
    return '\n'.join(lines)


def parse(words):
    """The options after a verb, as pairs of name and value (nothing if it is missing), and the other arguments."""
    options, others, left = [], [], list(words)
    while left:
        word = left.pop(0)
        if word == '--':
            return options, others + left
        if word.startswith('-') and word != '-':
            name, sign, value = word.partition('=')
            takes = not sign and left and (left[0] == '-' or not left[0].startswith('-'))
            options.append((name, left.pop(0) if takes else value if sign else None))
        else:
            others.append(word)
    return options, others


def near(word, words):
    """A question, if a word is like one of these."""
    import difflib

    lower = {name.lower(): name for name in words}
    found = difflib.get_close_matches(word.lower(), lower, 1)
    return f', did you mean {shown(lower[found[0]])}?' if found else ''


def shown(name):
    """A name as a text shows it: in quotes if it has anything that may not be seen."""
    return name if re.fullmatch(r'[\w./+~%@,:=-]+', name) else f'"{name}"'


def is_number(name, value):
    """Whether an option takes this value: its digits are counted, and units have no 0 in front."""
    low, high = BOUNDS[name]
    is_long = len(value) > len(str(high)) or (name == '--units' and value.startswith('0'))
    return value.isascii() and value.isdigit() and not is_long and low <= int(value) <= high


def wrong_options(verb, options):
    """What is wrong with the options of a verb."""
    words = VERBS[verb][0]
    known = [word.strip('[]') for word in words.split() if '--' in word]
    names = [name for name, _ in options]
    for name, value in options:
        if name not in known:
            other = OTHER_OPTIONS.get((verb, name))
            yield f'{verb} has no option {name}' + (f', did you mean {other}?' if other else near(name, known))
        elif value is None:
            yield f'{name} has no value'
        elif name in BOUNDS and not is_number(name, value):
            low, high = BOUNDS[name]
            is_in = value.isascii() and value.isdigit() and low <= int(value) <= high
            form = ', without a 0 in front' if name == '--units' else f' in at most {len(str(high))} digits'
            digits = form if is_in else ''
            yield f'{name} is a number from {low} to {high}{digits}, not {shown(value) if value else "an empty word"}'
    yield from (f'{name} is there twice' for name in sorted(set(names)) if names.count(name) > 1)
    yield from (f'{name} is missing' for name in known if name not in names and f'[{name}' not in words)


def wrong_endings(verb, files):
    """What is wrong with the endings of the files of a verb."""
    for file in files if verb in ENDINGS else ():
        ending = os.path.splitext(file)[1].lower()
        if ending not in ENDINGS[verb]:
            said = f'ends in {shown(ending)}' if ending else 'has no ending'
            better = LIKELY.get(ending)
            left = '; no file is called so: the shell found none' if '*' in file and not os.path.exists(file) else ''
            why = f'; it should be {better}' if better else left
            yield f'{shown(file) if file else "an empty word"} {said}{why}'


def wrong_library(operation, others):
    """What is wrong with the library, the objects and the names of modules after an operation of `lib`."""
    if not others:
        return 'a library is missing'
    names, is_of_names = others[1:], operation in ('delete', 'raise', 'extract')
    if operation == 'list':
        return 'lib list takes one library and nothing else' if names else None
    if not names:
        return f'lib {operation} needs ' + ('the name of a module' if is_of_names else 'an object')
    if operation == 'extract' and len(names) > 1:
        return 'lib extract takes one module'
    bad = next((name for name in names if is_of_names and not NAME.fullmatch(name.upper())), None)
    if bad is not None:
        return f'{shown(bad)} is no name of a module; `m51 lib list` tells the names'
    return 'an object is an empty word' if '' in names else None


def wrong_count(verb, others):
    """What is wrong with how many files, or with the operation of `lib`."""
    if verb == 'lib':
        if not others:
            return 'an operation is missing'
        if others[0] not in OPERATIONS:
            return f'lib has no operation {others[0]}{near(others[0], OPERATIONS)}'
        return wrong_library(others[0], others[1:])
    if verb == 'gen':
        return 'gen takes no file' if others else None
    if not others:
        return 'a file is missing'
    if verb == 'asm' and sum(file.lower().endswith('.a51') for file in others) != 1:
        return 'asm takes exactly one source'
    if verb == 'flat' and len(others) != 1:
        return 'flat takes exactly one file'
    return 'party takes two to eight sources' if verb == 'party' and not 2 <= len(others) <= 8 else None


def wrong(words):
    """What is wrong with a call, a line each; nothing if the program takes it."""
    if not words:
        return ['a verb is missing']
    verb = words[0]
    if verb not in VERBS:
        if os.path.splitext(verb)[1].lower() in LINKED:
            return [f'a verb is missing before {shown(verb)}: m51 build --steps N {shown(verb)} links and runs it']
        other = OTHER_VERBS.get(verb.lower())
        like = f', did you mean {other}?' if other else near(verb, [*VERBS, *TOOLS])
        return [f'there is no verb {shown(verb) if verb else "that is an empty word"}{like}']
    options, others = parse(words[1:])
    count = wrong_count(verb, others)
    return [*wrong_options(verb, options), *wrong_endings(verb, others), *([count] if count else [])]


def inputs(words):
    """The files that a call reads."""
    options, others = parse(words[1:])
    if words[0] == 'lib':
        operation, others = others[:1], others[1:]
        if operation == ['build']:
            others = others[1:]
        elif operation not in (['add'], ['replace']):
            others = others[:1]
    return others + [value for name, value in options if name in ('--control', '--script') and value]


def made(words):
    """The files that a call makes anew, each after its option or `lib`: --out, --hex, the library of `lib build`."""
    options, others = parse(words[1:])
    files = [(name, value) for name, value in options if name in ('--out', '--hex') and value is not None]
    return files + ([('lib', name) for name in others[1:2]] if words[0] == 'lib' and others[:1] == ['build'] else [])


def kept(words):
    """The files that a call keeps: those that it makes, and what the other operations of `lib` keep."""
    _, others = parse(words[1:])
    if words[0] != 'lib' or others[:1] in ([], ['build'], ['list']):
        return [name for _, name in made(words)]
    return [f'{name.upper()}.obj' for name in others[2:3]] if others[0] == 'extract' else others[1:2]
