"""The picture of the tool `wave`: a lane for each signal that changes."""
from m51files import BadFile
from picture import EDGE, GREY, INK, Picture

WIDTH, LEFT, RIGHT, LANE, HEIGHT = 1080, 120, 1050, 34, 22
# How far the value of a bus goes over from one to the next.
SLOPE = 3
NARROW = 4
COLOURS = {'P': '#d6eaf8', 'T': '#fdebd0', 'p': '#eaeded', 'R': '#e8daef'}
EVENT, DENSE = '#c0392b', '#bfc9ca'


def step_of(cycles):
    """The distance of the marks of the time: 1, 2 or 5 times a power of ten, for at most ten of them."""
    step = 1
    while cycles / step > 10:
        step = step * 5 // 2 if str(step).startswith('2') else step * 2
    return step


def value_text(name, value):
    """A value in hexadecimal, on the line with its character."""
    is_text = name in ('TX', 'RX') and 0x20 < value < 0x7F
    return f"{value:02X} '{chr(value)}'" if is_text else f'{value:02X}'


class Lanes:
    """The lanes, from one cycle to another."""

    def __init__(self, picture, first, last):
        self.picture, self.first, self.last = picture, first, max(last, first + 1)

    def x_of(self, cycle):
        inside = min(max(cycle, self.first), self.last)
        return LEFT + (RIGHT - LEFT) * (inside - self.first) / (self.last - self.first)

    def value(self, start, end, top, name, value):
        """A value of a bus between two places."""
        width, middle, slope = end - start, top + HEIGHT / 2, min(SLOPE, (end - start) / 2)
        corners = [(start, middle), (start + slope, top), (end - slope, top), (end, middle),
                   (end - slope, top + HEIGHT), (start + slope, top + HEIGHT)]
        self.picture.path(corners, COLOURS[name[0]])
        text = value_text(name, value)
        if width < len(text) * 7 + 6:
            text = f'{value:02X}'
        if width >= len(text) * 7 + 4:
            self.picture.text((start + end) / 2, middle + 4, text, 11, anchor='middle')

    def lane(self, top, title, name, changes):
        """A signal: its values, and a grey box where they change too often to be seen."""
        self.picture.text(LEFT - 12, top + HEIGHT / 2 + 4, title, 12, anchor='end')
        ends = [cycle for cycle, _ in changes[1:]] + [self.last]
        dense = None
        for (cycle, value), end in zip(changes, ends):
            if end <= self.first or cycle >= self.last or end == cycle:
                continue
            start, stop = self.x_of(cycle), self.x_of(end)
            if stop - start < NARROW:
                dense = start if dense is None else dense
                continue
            if dense is not None:
                self.picture.box(dense, top, start - dense, HEIGHT, DENSE)
                dense = None
            self.value(start, stop, top, name, value)
        if dense is not None:
            self.picture.box(dense, top, self.x_of(ends[-1]) - dense, HEIGHT, DENSE)

    def scale(self, top, bottom):
        """The marks of the time."""
        step = step_of(self.last - self.first)
        for cycle in range(-(-self.first // step) * step, self.last + 1, step):
            x = self.x_of(cycle)
            self.picture.path([(x, top), (x, bottom)], edge=EDGE)
            self.picture.text(x, top - 6, str(cycle), 10, GREY, 'middle')

    def end(self, top, bottom, found):
        """Where a board ends, and how."""
        x, is_event = self.x_of(int(found[4])), found[2] == 'EVENT'
        self.picture.path([(x, top), (x, bottom)], edge=EVENT if is_event else INK)


def is_shown(changes, last):
    """Whether a signal changes before the end."""
    return len([cycle for cycle, _ in changes if 0 < cycle <= last]) > 0


def svg(run, title, first, last):
    """The picture of a run from a cycle to another."""
    if first >= last:
        raise BadFile(f'the picture would end before it begins: --from {first} --to {last}')
    shown = {key: changes for key, changes in run.signals.items() if is_shown(changes, last)}
    picture, top = Picture(), 30
    if title:
        picture.text(LEFT, top, title, 15, is_bold=True)
        top += 28
    picture.text(LEFT - 12, top, 'cycle', 10, GREY, 'end')
    lanes, top = Lanes(picture, first, last), top + 6
    lanes.scale(top, top + 6 + LANE * len(shown))
    boards = {board for board, _ in run.signals}
    for index, ((board, name), changes) in enumerate(shown.items()):
        of_board = f'{board}: {name}' if len(boards) > 1 else name
        lanes.lane(top + 10 + index * LANE, of_board, name, changes)
    bottom = top + 10 + LANE * len(shown)
    for index, found in enumerate(run.ends):
        lanes.end(top, bottom, found)
        picture.text(LEFT, bottom + 12 + 16 * index, found[0], 11, EVENT if found[2] == 'EVENT' else INK)
    return picture.svg(WIDTH)
