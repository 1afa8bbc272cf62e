"""The table of the numbers in the answers of m51, tools/numbers.txt: what each means, a common cause, and the cure."""
import os
import re

TABLE = os.path.join(os.path.dirname(os.path.realpath(__file__)), 'numbers.txt')
LINE = re.compile(
    r'(?:(.*)\((\d+)\): (E\d+)|(?:\d+: )?(?:LINK|EVENT|STACK|LIBRARY) ([A-Z]\d+)(?: ([A-Z]{6,}) FROM)?'
    r'|(?:OBJECT .*|SCRIPT .*|CONTROL .*): ([A-Z]\d)|(LIMIT|READ|WRITE) ([A-Z]+))'
)
# What the script says of itself on standard error.
SAID = 'm51: '
STATUSES = {
    0: 'all was accepted, and the run had no event', 1: 'an event stopped the run: V1 to V5',
    2: 'the arguments are refused', 3: 'a source has faults: E1 to E19', 4: 'the link is refused: L1 to L13',
    5: 'an object, a library, a HEX file or a library edit is refused: O1 to O5, H1 to H5, B1 to B3',
    6: 'the control file or the script is refused: C1, S1 to S3', 7: 'a limit is passed: LIMIT',
    8: 'a file could not be read: READ FAULT', 9: 'a file could not be kept, or the text not be written: WRITE FAULT',
    10: 'out of memory', 11: 'the stack of the program has no bound: K1 to K6', 12: 'an argument is not valid UTF-8',
    70: 'of the script: nothing was run; standard error says why'}
FAMILIES = 'E1 to E19, L1 to L13, V1 to V5, K1 to K6, O1 to O5, H1 to H5, B1 to B3, C1, S1 to S3, LIMIT, READ, WRITE'


def entries():
    """Each paragraph of the table with its key, as `E14`, `V1 NOEDGE` or `LIMIT FILES`."""
    with open(TABLE, encoding='ascii') as file:
        for text in file.read().strip().split('\n\n'):
            yield text.partition('  ')[0], text


def find(number, reason=''):
    """The paragraphs of a number, as `E14`, or of a word, as `LIMIT` or `NOEDGE`; with a reason only that one."""
    table = list(entries())
    exact = [text for key, text in table if key == f'{number} {reason}'.strip()]
    return exact or [text for key, text in table if number in key.split()]


def find_status(word):
    """The paragraph of an exit status, as a list."""
    known = word.isascii() and word.isdigit() and int(word) in STATUSES
    return [f'status {int(word)}  {STATUSES[int(word)]}'] if known else []


def find_line(line):
    """The paragraphs of a line that m51 printed."""
    found = None if line.startswith(SAID) else LINE.match(line)
    return find(*(word for word in found.groups()[2:] if word)) if found else []


def short(line):
    """The key of a line that m51 printed, and what it means in a line; empty if it has no number."""
    found = find_line(line)
    key, _, text = found[0].partition('  ') if found else ('', '', '')
    return key, text.partition('\n')[0].strip()


def guess_of(line):
    """What the fault that a line names is most likely about, or nothing."""
    import guesses

    place = place_of(line)
    return guesses.guess(short(line)[0], *place, lines_of) if place else None


def place_of(line):
    """The file and the line of a fault, or nothing."""
    found = LINE.match(line)
    return (found[1], int(found[2])) if found and found[3] else None


def lines_of(file):
    """The lines of a source, a character for each byte; none if it is not there."""
    try:
        with open(file, encoding='latin-1', newline='') as source:
            lines = source.read().split('\n')
    except OSError:
        return []
    return [line[:-1] if line.endswith('\r') else line for line in lines]


def source_of(line):
    """The line of the source that a fault names, if the file is there."""
    file, number = place_of(line) or ('', 0)
    lines = lines_of(file)
    return lines[number - 1].strip().encode('ascii', 'replace').decode() if 0 < number <= len(lines) else None
