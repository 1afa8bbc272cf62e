"""What standard error says after a status of m51: what is wrong with the arguments, why a file can't be read or kept,
and where a number is explained.

The program's text goes straight to standard output, so it is known here only where that is a plain file.
"""
import os
import stat
import sys

import arguments
from command import NUMBERED, say

EXAMPLES = {1: 'V3', 3: 'E14', 4: 'L11', 5: 'O3', 6: 'S1', 7: 'LIMIT', 11: 'K2'}
# What a kept file may need.
LITTLE_ROOM = 1_048_576
UNWRITTEN = 'standard output could not be written'
# How long the name of a file that is kept may be: the part beside it has the longest name that a folder takes.
MOST_OF_NAME = 246
# How much of an answer in a file is read again.
MOST_READ = 65_536
# How many seconds a call may take that is made again to know its faults.
MOST_SECONDS = 5


def no_file(name, folder):
    """That there is no such file, and one of its kind that has nearly this name."""
    import difflib

    stem, ending = os.path.splitext(os.path.basename(name))
    try:
        parts = [os.path.splitext(it) for it in os.listdir(folder) if not it.startswith('.')]
    except OSError:
        parts = []
    stems = {it.lower(): it + end for it, end in parts if end.lower() == ending.lower()}
    found = difflib.get_close_matches(stem.lower(), stems, 1)
    like = f', did you mean {arguments.shown(os.path.join(os.path.dirname(name), stems[found[0]]))}?' if found else ''
    return f'there is no file {arguments.shown(name)}{like}'


def why_unread(name):
    """Why a file can't be read, or nothing."""
    folder = os.path.dirname(name) or '.'
    if os.path.isdir(name):
        return f'{name} is a folder'
    if not os.path.isdir(folder):
        return f'there is no folder {folder}'
    if not os.path.exists(name):
        return no_file(name, folder) if name else 'the name of a file is empty'
    return None if os.access(name, os.R_OK) else f'permission denied: {name} may not be read'


def why_unkept(name):
    """Why a file can't be kept, or nothing."""
    folder = os.path.dirname(name) or '.'
    if not name:
        return 'the name of a file to keep is empty'
    if os.path.isdir(name):
        return f'{name} is a folder'
    if not os.path.isdir(folder):
        return f'there is no folder {folder} for {name}'
    if len(os.fsencode(os.path.basename(name))) > MOST_OF_NAME:
        return f'the name {name} is too long: a file that is kept has at most {MOST_OF_NAME} bytes in its name'
    if os.path.exists(name) and not os.access(name, os.W_OK):
        return f'permission denied: {name} may not be written'
    if (os.path.isfile(name) or not os.path.exists(name)) and not os.access(folder, os.W_OK):
        return f'permission denied: the folder {folder} may not be written'
    return no_room(f'for {name}', os.statvfs(folder))


def no_room(what, disk):
    """That a disk is full or nearly so, or nothing."""
    left = disk.f_bavail * disk.f_frsize
    if left < LITTLE_ROOM:
        return f'no room {what}: {left} bytes are free on that disk'
    return f'no room {what}: that disk has no entry for a file left' if disk.f_files and not disk.f_favail else None


def why_unwritten():
    """Why standard output can't be written, as far as it can be seen."""
    try:
        kind = os.fstat(1).st_mode
    except OSError:
        return 'standard output is closed'
    if stat.S_ISFIFO(kind) or stat.S_ISSOCK(kind):
        return 'the reader of standard output has gone' if has_gone() else None
    return no_room('for standard output', os.fstatvfs(1))


def has_gone():
    """Whether nobody reads standard output any more."""
    import select

    poll = select.poll()
    poll.register(1, 0)
    return any(state & (select.POLLERR | select.POLLHUP) for _, state in poll.poll(0))


def say_unkept(words):
    """Why a file could not be kept, or the text not be written."""
    kept = [name for name in arguments.kept(words) if os.path.realpath(name) != os.devnull]
    causes = [why for why in map(why_unkept, kept) if why] or [why for why in [why_unwritten()] if why]
    for why in causes or [f'{arguments.shown(name)} could not be kept' for name in kept] or [UNWRITTEN]:
        say(why)


def say_one_file(words):
    """That the file which is kept is the one that standard output goes to, so that both are written from its
    beginning."""
    for name in arguments.kept(words):
        if os.path.exists(name) and os.path.samestat(os.stat(name), os.fstat(1)):
            say(f'{arguments.shown(name)} is the file that standard output goes to: what is kept and the text are '
                'written over each other; through a pipe, as `| cat`, one comes after the other')


def say_unread(words):
    """Why a file could not be read."""
    for why in filter(None, map(why_unread, arguments.inputs(words))):
        say(why)
    if words[:1] == ['lib'] and words[1:2] in (['add'], ['replace']) and not os.path.exists((words + [''])[2]):
        say('`m51 lib build` makes a new library')


def say_wrong(words):
    """What is wrong with the arguments, and the usage of the verb."""
    for why in arguments.wrong(words):
        say(why)
    verb = words[0] if words else ''
    say(arguments.usage(verb) if verb in arguments.VERBS else '`m51 --help` lists the verbs')


def printed(status, size):
    """Lines that the program has written after so many bytes of standard output, if that is a plain file."""
    try:
        with open('/proc/self/fd/1', 'rb') as file:
            # An event is the last line, a refusal the first.
            file.seek(max(size, os.fstat(1).st_size - MOST_READ) if status == 1 else size)
            return file.read(MOST_READ).decode('ascii', 'replace').splitlines()
    except (OSError, TypeError):
        return []


def said_again(words, program):
    """The faults of a call, where standard output has gone elsewhere: a source with faults keeps nothing, so the same
    call says the same again. Nothing if its files can't be read twice, or it takes long."""
    import subprocess

    if not all(map(os.path.isfile, arguments.inputs(words))):
        return []
    try:
        ran = subprocess.run([program, *words], stdin=subprocess.DEVNULL, stdout=subprocess.PIPE,
                             stderr=subprocess.DEVNULL, timeout=MOST_SECONDS)
    except (OSError, subprocess.TimeoutExpired):
        return []
    return ran.stdout.decode('utf-8', 'replace').splitlines() if ran.returncode == 3 else []


def say_real(lines):
    """The faults at the places of which `m51 expand` made their lines; whether there is one."""
    import line_table
    import numbers_table

    pairs = [(line, numbers_table.place_of(line)) for line in lines]
    places = [(line, place, line_table.real(*place)) for line, place in pairs if place]
    for line, place, real in places:
        if real:
            # An editor goes to this place.
            key, meaning = numbers_table.short(line)
            through = line_table.through_of(real)
            print(f'{real.file}({real.line}): {key}: {meaning}{through} ({place[0]}, line {place[1]})', file=sys.stderr)
    return any(real for _, _, real in places)


def number_text(line):
    """What a line with a number says: what it is most likely about, or else what the number means; and its key."""
    import numbers_table

    key, meaning = numbers_table.short(line)
    # An editor takes `file(line):` for a place to go to, and this line is none.
    place = numbers_table.place_of(line)
    if not place:
        return key, f'{line}: {meaning}'
    return key, f'{key}: {numbers_table.guess_of(line) or meaning} ({place[0]}, line {place[1]})'


def say_number(status, lines):
    """Where the number of the answer is explained; what it means in the answer, if that is known."""
    for line in lines:
        key, text = number_text(line)
        if key:
            say(f'{text}; `m51 explain {key}` says more')
            return
    say(f'`m51 explain {EXAMPLES[status]}` says what {EXAMPLES[status]} means, and so for each number')


def after(status, words, size, program=None):
    """Says what may help after a status."""
    if status == 2:
        say_wrong(words)
    elif status == 8:
        say_unread(words)
    elif status == 9:
        say_unkept(words)
    elif status == 12:
        say('an argument is not valid UTF-8')
    elif status in NUMBERED:
        lines = printed(status, size) or (said_again(words, program) if status == 3 and program else [])
        if status != 3 or not say_real(lines):
            say_number(status, lines)
