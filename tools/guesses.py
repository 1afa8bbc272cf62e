"""What a fault of a line is most likely about: the name without a value, the column, or which rule is broken.

These are guesses from the text of a source and its includes, for `m51 explain` and the hints of the script: nothing
depends on them. Where it is not sure what a fault is about, nothing is guessed.
"""
import re
from collections import namedtuple

from reserved import DEFINING, MNEMONICS, PREDEFINED, RESERVED

Token = namedtuple('Token', 'kind text column')
# The tokens of a line; a text that is not closed and a character that begins no token take the rest of their own.
TOKEN = re.compile(
    r"(?P<text>'(?:[^']|'')*'(?!'))|(?P<open>'.*)|(?P<name>[A-Za-z?_][\w?]*)|(?P<number>\d[0-9A-Za-z]*)"
    r'|(?P<sign>[,:+*/()#@.$-])|;.*|[ \t]+|(?P<bad>.)', re.ASCII)
INCLUDE = re.compile(r'\$INCLUDE\(([^);]+)\)', re.I)
MOST_OF_NAME, MOST_OF_LINE, MOST_OF_NUMBER, DEEPEST = 31, 255, 0xFFFF, 8
BASES = {'H': 16, 'B': 2, 'O': 8, 'Q': 8, 'D': 10}
ABSOLUTE = {'CSEG': 'CODE', 'DSEG': 'DATA', 'XSEG': 'XDATA', 'ISEG': 'IDATA', 'BSEG': 'BIT'}
# Words whose operands see only what is defined above.
NEEDS_ABOVE = {'EQU', 'SET', 'CODE', 'DATA', 'IDATA', 'XDATA', 'BIT', 'DS', 'DBIT', 'ORG', 'USING', 'AT', 'RSEG'}


def tokens(line):
    """The tokens of a line, without blanks and comments; columns count from 1."""
    return [Token(found.lastgroup, found[0], found.start() + 1) for found in TOKEN.finditer(line) if found.lastgroup]


def words(line):
    """The names and words of a line, in capitals; none of a control or a macro line."""
    if line.startswith(('$', '%')):
        return []
    return [it._replace(text=it.text.upper()) for it in tokens(line) if it.kind == 'name']


def defined_by(line):
    """The names that a line defines; an external counts as a label does."""
    found = words(line)
    if not found:
        return []
    if found[0].text == 'EXTRN':
        # The names of a kind are in parentheses, whose column says so.
        inside = [range(it.start(), it.end()) for it in re.finditer(r'\([^)]*', line)]
        return [it for it in found if any(it.column - 1 in columns for columns in inside)]
    is_label = re.match(r'\s*[\w?]+\s*:', line)
    return found[:1] if is_label or len(found) > 1 and found[1].text in DEFINING else []


def all_lines(lines, read, depth=0):
    """The lines of a source and of its includes: the number in the source itself, and the line; nothing for a file
    that is not there."""
    for number, line in enumerate(lines, 1):
        yield number, line
        found = INCLUDE.match(line)
        if found and depth < DEEPEST:
            inner = read(found[1])
            yield from ((number, text) for _, text in all_lines(inner, read, depth + 1)) if inner else [(number, None)]


def without_value(number, lines, read, is_include):
    """The names of a line that have no value there, as far as its files say."""
    known, is_whole, predefined = {}, not is_include, PREDEFINED
    for at, line in all_lines(lines, read):
        is_whole = is_whole and line is not None
        predefined = set() if re.match(r'\$NOMOD51\b', line or '', re.I) else predefined
        for it in defined_by(line or ''):
            known.setdefault(it.text, at)
    all_words = words(lines[number - 1])
    above = any(it.text in NEEDS_ABOVE for it in all_words)
    is_definition = len(all_words) > 1 and all_words[1].text in DEFINING
    used = {it.text: it for it in reversed(all_words[is_definition:]) if it.text not in RESERVED}
    found = []
    for name, it in sorted(used.items(), key=lambda pair: pair[1].column):
        if name in known and above and known[name] >= number + (not is_definition):
            found.append(f'{name} in column {it.column} is defined further down, in line {known[name]}')
        elif name not in known and name not in predefined:
            found.append(f'{name} in column {it.column} has no value here')
    return found if is_whole or len(found) == 1 else []


def is_wrong_number(text):
    """Whether a number has a digit that its base lacks, or more than 16 bits."""
    base, digits = (BASES[text[-1].upper()], text[:-1]) if text[-1].upper() in BASES else (10, text)
    try:
        return int(digits, base) > MOST_OF_NUMBER
    except ValueError:
        return True


def token_fault(key, line):
    """Which token of a line has a fault of E1 to E4."""
    for it in tokens(line):
        if key == 'E1' and it.kind == 'bad':
            return f'{it.text} in column {it.column} begins no token'
        if key == 'E2' and it.kind == 'open':
            return f'the text that begins in column {it.column} is not closed'
        if key == 'E3' and it.kind == 'number' and is_wrong_number(it.text):
            return f'{it.text} in column {it.column} is no number of 16 bits'
        if key == 'E4' and it.kind == 'name' and len(it.text) > MOST_OF_NAME:
            return f'{it.text[:8]}.. in column {it.column} has {len(it.text)} characters'
    return None


def first_word(line):
    """The word after the label, with what is before it if that is no blank, as in .org; nothing if there is none."""
    found = re.match(r'\s*(?:[\w?]+\s*:)?\s*([.#@%]?[\w?]+)', line, re.ASCII)
    return Token('name', found[1], found.start(1) + 1) if found else None


def current_segment(number, lines):
    """The kind of the segment in which a line is, its name, and the line that opens it; nothing if it is not known."""
    kinds = {}
    now = 'CODE', None, 0
    for at, line in enumerate(lines[:number - 1], 1):
        found = [it.text for it in words(line)]
        if found[1:2] == ['SEGMENT'] and len(found) > 2:
            kinds[found[0]] = found[2]
        elif found[:1] == ['RSEG'] and len(found) > 1:
            now = (kinds[found[1]], found[1], at) if found[1] in kinds else None
        elif found[:1] and found[0] in ABSOLUTE:
            now = ABSOLUTE[found[0]], None, at
    return now


def misplaced(word, number, lines):
    """That a statement is in a segment that does not take it, or nothing."""
    now = current_segment(number, lines)
    if not now:
        return None
    kind, name, at = now
    here = f'line {at} opens {name or "an absolute segment"} of {kind}' if at else 'the source begins in CODE'
    if word == 'ORG' and name:
        return f'ORG is for absolute segments, and {here}'
    if (word in ('DB', 'DW') or word in MNEMONICS) and kind != 'CODE':
        return f'{word} is for segments of CODE, and {here}'
    if word == 'DBIT' and kind != 'BIT' or word == 'DS' and kind == 'BIT':
        return f'{word} is {"only" if word == "DBIT" else "not"} for segments of BIT, and {here}'
    return None


def directive(number, lines):
    """Which meaning of E12 a line most likely has."""
    line = lines[number - 1]
    if line.startswith('$'):
        return 'this control is not known, or not written so'
    if line.startswith('%'):
        return 'a line of the macro language; `m51 expand` writes macros out'
    bad = next((it for it in defined_by(line) if it.text in RESERVED), None)
    if bad:
        return f'{bad.text} in column {bad.column} is a reserved word, and can be no name'
    first = first_word(line)
    if not first:
        return None
    word = first.text.upper()
    is_definition = [it.text for it in words(line)][1:2]
    shown = is_definition[0] if is_definition and is_definition[0] in DEFINING else word
    return misplaced(word, number, lines) or (f'{shown} is not written so' if shown in RESERVED else None)


def twice(number, lines, read):
    """Which name of a line is defined in another one too."""
    for it in defined_by(lines[number - 1]):
        for at, line in all_lines(lines, read):
            if at < number and any(it.text == other.text for other in defined_by(line or '')):
                return f'{it.text} in column {it.column} is defined in line {at} too'
    return None


def odd_byte(line):
    """The first byte of a line that E18 does not take; lines are read as Latin-1, so a character is a byte."""
    found = re.search(r'[^\t\x20-\x7e]', line)
    return f'the byte {ord(found[0]):02X}H in column {found.start() + 1}' if found else None


def guess(key, file, number, read):
    """What a fault of a line is most likely about, or nothing. `read` gives the lines of a file; none if it is not
    there."""
    lines = read(file)
    if not 0 < number <= len(lines):
        return None
    line = lines[number - 1]
    if key in ('E1', 'E2', 'E3', 'E4'):
        return token_fault(key, line)
    if key == 'E5':
        return f'it has {len(line)} bytes' if len(line) > MOST_OF_LINE else None
    if key == 'E7':
        return '; '.join(without_value(number, lines, read, file.lower().endswith('.inc'))) or None
    if key == 'E11':
        word = first_word(line)
        is_known = not word or word.text.upper() in RESERVED
        return None if is_known else f'{word.text} in column {word.column} is no instruction and no directive'
    if key == 'E12':
        return directive(number, lines)
    if key == 'E13':
        return twice(number, lines, read)
    return odd_byte(line) if key == 'E18' else None
