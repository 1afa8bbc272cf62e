"""Random scripts, read apart from the program after docs/SIMULATOR.md: of each the first refused line, or none."""
import random
import re

import objects

COUNT = 400
PROGRAM = (objects.hex_record(0, '80FE') + '\n' + objects.hex_record(0, '', 1) + '\n').encode()
BLANKS, BYTE = r'[ \t]+', r'([0-9A-Fa-f]{1,4})'
FILL = re.compile(rf'FILL{BLANKS}{BYTE}')
PIN = re.compile(rf'PIN{BLANKS}([0-9]{{1,10}}){BLANKS}P([0-9]){BLANKS}{BYTE}')
RX = re.compile(rf'RX{BLANKS}([0-9]{{1,10}}){BLANKS}{BYTE}(?:{BLANKS}([0-9]))?')


def fault_of(line, last):
    """The fault of a line, or the cycle that it comes to; last is the cycle of the timed lines before, or none."""
    fill, pin, received = FILL.fullmatch(line), PIN.fullmatch(line), RX.fullmatch(line)
    if fill and last is None:
        return 'S3' if int(fill[1], 16) > 255 else -1
    if pin:
        cycle, is_right = int(pin[1]), int(pin[2]) <= 3 and int(pin[3], 16) <= 255
    elif received:
        cycle = int(received[1])
        is_right = cycle > 0 and int(received[2], 16) <= 255 and received[3] in (None, '0', '1')
    else:
        return 'S1'
    if cycle > 99_999_999 or not is_right:
        return 'S3'
    return 'S2' if last is not None and cycle < last else cycle


def refusal(lines):
    last = None
    for number, line in enumerate(lines, 1):
        if line.startswith(';') or not line.strip(' \t'):
            continue
        answer = fault_of(line, last)
        if isinstance(answer, str):
            return f'SCRIPT LINE {number}: {answer}\n'
        last = max(last or -1, answer)
    return None


def drawn_line(rng, cycle):
    value = 256 if rng.random() < 0.03 else rng.randrange(256)
    byte = format(value, rng.choice(['X', 'x', '04X']))
    blank = rng.choice([' ', ' ', '  ', '\t'])
    when = str(cycle).zfill(rng.choice([*20 * [1], 10, 11]))
    timed = [
        f'PIN{blank}{when}{blank}P{rng.choice(4 * "0123" + "4")}{blank}{byte}', f'RX{blank}{when} {byte}',
        f'RX {when}{blank}{byte}{blank}{rng.choice(8 * "01" + "2")}',
    ]
    others = [f'FILL{blank}{byte}'] if rng.random() < 0.1 else ['', ' \t', '; a comment']
    return rng.choice([*others, *timed, *timed, *timed])


def drawn(rng):
    """Up to six lines whose cycles mostly ascend, often with one character changed."""
    lines, cycle = [f'FILL {rng.randrange(256):02X}'] if rng.random() < 0.3 else [], rng.choice([0, 1, 5, 99_999_990])
    for _ in range(rng.randint(1, 6)):
        lines.append(drawn_line(rng, cycle))
        cycle = max(0, cycle + rng.choice([0, 1, 1, 4, 4, 9, -1]))
    if rng.random() < 0.4:
        at = rng.randrange(len(lines))
        place = rng.randint(0, len(lines[at]))
        lines[at] = lines[at][:place] + rng.choice(' 09AgPR;-') + lines[at][place + rng.randrange(2):]
    return lines


def case(number):
    rng = random.Random(number)
    lines = drawn(rng)
    text = rng.choice(['\n', '\r\n']).join([*lines, ''] if rng.random() < 0.7 else lines)
    why = refusal(lines)
    wanted = (6, why.encode()) if why else (0, b'RUN\nEND 1 STEPS 2 CYCLES\n')
    files = {'a.hex': PROGRAM, 's.brd': text.encode()}
    words = ['flat', '--script', 's.brd', '--steps', '1', 'a.hex']
    return f'script {number}', words, files, lambda answer: answer[:2] == wanted


CASES = [case(number) for number in range(COUNT)]
