"""`party` of sources of boards.py, answered apart from the program: each board is run alone, again and again, with the
frames that the others sent in the run before, until no record changes."""
import random
import re

import board
import boards
import objects

COUNT = 30
DELAY = 4
SENT = re.compile(r'(\d+) TX (..) ([01])\n')


def frames_from(records, receiver):
    """The frames that a board gets, by cycles: those of the other boards, in their order."""
    frames = {}
    for sender, record in enumerate(records):
        for _, line in record if sender != receiver else []:
            sent = SENT.fullmatch(line)
            if sent:
                frames.setdefault(int(sent[1]) + DELAY, []).append((int(sent[2], 16), int(sent[3])))
    return frames


def family(programs, script, steps):
    """The one family of records: for each board its entries, with the cycles of their steps, and its last line."""
    records = [[] for _ in programs]
    while True:
        ran = []
        for number, (text, image) in enumerate(programs):
            one = board.Board(text, image, script, frames_from(records, number))
            last = one.run(steps).splitlines(keepends=True)[-1]
            ran.append((one.entries, last))
        if [entries for entries, _ in ran] == records:
            return ran
        records = [entries for entries, _ in ran]


def text_of(ran):
    entries = [(start, number, line) for number, (record, _) in enumerate(ran, 1) for start, line in record]
    lines = [f'{number}: {line}' for _, number, line in sorted(entries, key=lambda it: it[:2])]
    return ''.join([f'PARTY {len(ran)}\n', *lines, *[f'{number}: {last}' for number, (_, last) in enumerate(ran, 1)]])


def case(number):
    """The sources, the script and the steps of a party."""
    rng = random.Random(number)
    sources = [boards.text_of(boards.Drawn(rng, speaks=True).lines()) for _ in range(rng.randint(2, 5))]
    return f'party {number}', sources, boards.script(rng), rng.choice([100, 300, 700])


def differs(run, made):
    """What is wrong with a party, or nothing."""
    _, sources, script, steps = made
    programs = []
    for source in sources:
        _, text, kept = run(['build', '--hex', 'h', '--steps', '1', 'a.a51'], {'a.a51': source.encode()})
        programs.append((text.decode().partition('RUN\n')[0], objects.read_hex(kept['h'])))
    files = {f'{number}.a51': source.encode() for number, source in enumerate(sources)}
    names, files['s'] = [*files], script.encode()
    status, written, _ = run(['party', '--script', 's', '--steps', str(steps), *names], files)
    ran = family(programs, script, steps)
    wanted = int(any('EVENT' in last for _, last in ran)), text_of(ran)
    return None if (status, written.decode()) == wanted else f'party {status} {written!r} for {wanted}'


CASES = [case(number) for number in range(COUNT)]
