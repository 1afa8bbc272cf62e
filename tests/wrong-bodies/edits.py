"""Wrong bodies as files: where they are, what they change, and which function must refuse each."""
import re
from pathlib import Path

TOP = Path(__file__).resolve().parent.parent.parent
BESIDE = TOP / 'tests' / 'wrong-bodies'
# The beginning of an impl or a trait as `rt fmt` lays it out, that of a function in it or in a file, and its end.
HEADER = re.compile(r'(?:pub(?:\(\w+\))? )?(?:impl|trait)\b(?:<.*?>)? (?:.* for )?(\w+)')
FUNCTION = re.compile(r'(?: {4})?(?:pub(?:\(\w+\))? )?(?:const )?fn (\w+)')
END = re.compile(r'(?: {4})?\{?\}$')
# How `rt` begins what it says of an edit that the prover refuses.
REFUSED = 'refused, as it must be'


def crate_of(path):
    """The crate that an edit or a twin belongs to: the folder above must-fail, or the folder that it lies in."""
    return path.parent.parent.name if path.parent.name == 'must-fail' else path.parent.name


def gate_edits(crate='*'):
    """All files of must-fail: `rt ci` takes one that has another ending, or is in a folder there, for a bad edit."""
    return sorted(path for path in (TOP / 'crates').glob(f'{crate}/must-fail/**/*') if path.is_file())


def other_edits(crate='*'):
    return sorted(BESIDE.glob(f'{crate}/*.edit'))


def twins(crate='*'):
    return sorted(BESIDE.glob(f'{crate}/*.twin'))


def refused_at(path):
    """The function that must refuse an edit, by its one line such as `# refused at: add`; None without such a line."""
    named = re.findall(r'^# refused at: (\S+)$', path.read_text(encoding='utf-8'), re.M)
    return named[0] if len(named) == 1 else None


def functions_of(file):
    """The functions of a file by their whole names, with the numbers of their first and last lines: `sum::add`, and
    `seat::Seat::step` where one belongs to a type or a trait."""
    found, owner, indent = [], None, None
    for number, line in enumerate(file.read_text(encoding='utf-8').splitlines(), 1):
        header, function, depth = HEADER.match(line), FUNCTION.match(line), len(line) - len(line.lstrip())
        if header or line == '}' and indent != 0:
            owner, indent = header and header[1], None
        if function:
            whole = '::'.join([file.stem, *([owner] if owner else []), function[1]])
            found.append([whole, number, number])
            indent = depth
        elif indent is not None:
            found[-1][2] = number
            indent = None if END.match(line) and depth == indent else indent
    return found


def functions(crate):
    """The whole names of the functions of a crate."""
    files = sorted((TOP / 'crates' / crate / 'src').rglob('*.rt'))
    return [name for file in files for name, _, _ in functions_of(file)]


def public_functions(crate):
    """The public functions of a crate that have a body, by their names in their file, as `add` and `Seat::step`."""
    for file in sorted((TOP / 'crates' / crate / 'src').rglob('*.rt')):
        lines = file.read_text(encoding='utf-8').splitlines()
        for name, first, last in functions_of(file):
            is_law = lines[last - 1].strip() != '}' or lines[last - 2].strip() == '{'
            if lines[first - 1].lstrip().startswith('pub fn') and not is_law:
                yield name.partition('::')[2]


def function_at(file, number):
    """The function of a file that the line of that number is in, or that follows it: its docstring is above it."""
    return next((name for name, _, last in functions_of(file) if number <= last), None)


def is_named(whole, name):
    """Whether a whole name is one that `add`, `sum::add` or `Seat::step` names."""
    return f'::{whole}'.endswith(f'::{name}')


def refused_elsewhere(crate, name, text):
    """The function that a line of `rt` on an edit is about, if it is another than this: a message is at a line of a
    source, or in the proofs of a function, whose folder has its name."""
    place = re.search(r'(?:^|\s)(?:\./)?(src|proofs)/([\w/]+)\.(?:rt|antt):(\d+):\d+: ', text)
    if not place:
        return None
    if place[1] == 'src':
        where = function_at(TOP / 'crates' / crate / 'src' / f'{place[2]}.rt', int(place[3]))
        return None if where and is_named(where, name) else where
    folder = place[2].split('/')[-2:-1]
    return None if folder in ([], [name.rpartition('::')[2]]) else folder[0]


def changes(path):
    """What an edit changes: for each pair of lines its file, the old text and the new one."""
    found, file, old = [], None, None
    for line in path.read_text(encoding='utf-8').splitlines():
        word, _, text = line.partition(':')
        if word == 'file':
            file = text[1:]
        elif word == 'old':
            old = text[1:]
        elif word == 'new' and file and old:
            found.append((file, old, text[1:]))
            old = None
    return found


def places(folder, path):
    """What an edit changes in the crate in a folder: for each pair of lines the file, where the old text begins and
    ends there, and the new text. ValueError says why it does not apply."""
    found = []
    for file, old, new in changes(path):
        source = folder / file
        if not source.is_file():
            raise ValueError(f'names {file}, which is not there')
        text = source.read_text(encoding='utf-8')
        if text.count(old) != 1:
            raise ValueError(f'changes a line that is there {text.count(old)} times: {old.strip()}')
        start = text.index(old)
        if meet(found, [(file, start, start + len(old), new)]):
            raise ValueError(f'changes a text twice: {old.strip()}')
        found.append((file, start, start + len(old), new))
    if not found:
        raise ValueError('has no file with a pair of lines')
    return found


def meet(some, others):
    """Whether two of these places have a character in common."""
    return any(file == other and start < last and first < end
               for file, start, end, _ in some for other, first, last, _ in others)


def changed(folder, *paths):
    """The files of the crate in a folder that these edits change together, with their new texts. Each old text is
    looked for in the crate's own text, not in what another edit writes there. ValueError says why one does not
    apply."""
    texts = {}
    # From the end of a file to its beginning, so that the places before a change stay what they are.
    for file, start, end, new in sorted((place for path in paths for place in places(folder, path)), reverse=True):
        text = texts.get(file) or (folder / file).read_text(encoding='utf-8')
        texts[file] = text[:start] + new + text[end:]
    return texts
