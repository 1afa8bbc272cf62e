"""The rows of words.txt, files.txt and system.txt: a name, the words, the files, and a test of the answer."""
import re

import objects
from running import ROWS, TESTS, filled_of, files_of

USAGE = (ROWS / 'cases' / 'usage' / 'stdout').read_bytes()
FILES = files_of(ROWS / 'words')
# Files that are there only where the words name them.
FILLED = filled_of(ROWS / 'filled.txt')


def bytes_of(text):
    return re.sub(rb'\\x(..)', lambda found: bytes.fromhex(found[1].decode()), text.encode())


def words_of(text):
    """The words, parted by blanks, as the program is to get them."""
    words = []
    for word in text.split():
        times = re.fullmatch(r'\{(\d+)\*(.*)\}', word)
        words += int(times[1]) * [bytes_of(times[2])] if times else [b'' if word == "''" else bytes_of(word)]
    return words


def given(text):
    """The words of a row, and the file that it gives: its last word, with a text or with bytes by their digits."""
    words, mark, contents = text.partition(' <')
    if not mark:
        return words, {}
    data = bytes.fromhex(contents[1:]) if contents.startswith('<') else bytes_of(contents[1:])
    return words, {words.split()[-1]: data}


def has_run(status, written):
    """Whether a text ends with the last line of a run, and the status is that of the line."""
    last = (written.splitlines() or [b''])[-1].split(b' ')[0]
    return (status, last) in ((0, b'END'), (1, b'EVENT'))


def has_image(wanted, ran):
    """Whether it is run, and the kept HEX file has the bytes that a row such as `1000:3433` wants."""
    at, digits = wanted.split(':')
    image = objects.read_hex(ran[2].get('h', b''))
    has_bytes = all(image.get(int(at, 16) + offset) == byte for offset, byte in enumerate(bytes.fromhex(digits)))
    return has_run(*ran[:2]) and has_bytes


def is_right_for(answer, files):
    """A test for `2`, `0`, `0 > file`, `8 READ FAULT file` or `1000:3433`."""
    if answer[4:5] == ':':
        return lambda ran: has_image(answer, ran)
    front, _, kept = answer.partition(' > ')
    status, _, text = front.partition(' ')
    wanted = USAGE if status == '2' else bytes_of(text) + b'\n' if text else b'' if status == '12' else None

    def is_right(ran):
        number, written, left = ran
        changed = [name for name in left if left[name] != files.get(name)]
        is_kept = changed == [kept] if kept else not changed
        is_told = written == wanted if wanted is not None else written or kept
        return number == int(status) and is_told and is_kept and set(files) <= set(left)

    return is_right


def cases():
    tables = [ROWS / 'words.txt', ROWS / 'files.txt', TESTS / 'system.txt']
    for row in [row for table in tables for row in table.read_text().splitlines()]:
        if row and not row.startswith('#'):
            answer, text = re.fullmatch(r'(.*?) = ?(.*)', row).groups()
            words, file = given(text)
            filled = {name: content for name, content in FILLED.items() if name in words.split()}
            files = {**FILES, **filled, **file}
            yield f'words {text}', words_of(words), files, is_right_for(answer, files)


CASES = list(cases())
