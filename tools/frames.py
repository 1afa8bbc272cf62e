"""Where the lines of an expansion come from and go to: files and bodies in each other, and what is written with its
places.

A fault of a line is `Wrong`, and the run goes on with the next line; a limit of the whole run is `Fault`, and ends it.
"""
import conditions
import macro_text
from macro_text import LONG_NAME, MOST_OF_NAME, Wrong

MOST_OF_LINE = 255
MOST_LINES, MOST_DEPTH, MOST_FILES, MOST_STEPS, MOST_FAULTS = 65_535, 64, 8, 1_000_000, 100


class Fault(Exception):
    """A fault at a place: file, line, the macros through which it came; a word for its kind, and why."""

    def __init__(self, place, kind, why):
        super().__init__(why)
        self.place, self.kind, self.why = place, kind, why


class Frame:
    """Where lines come from: a file or a body. `calls` are the macros through which it came, the innermost first."""

    def __init__(self, kind, name, rows, calls=()):
        self.kind, self.name, self.rows, self.calls, self.at = kind, name, rows, calls, 0
        self.conditions = conditions.Conditions()


def rows_of(path):
    """The lines of a file, each with its place."""
    with open(path, encoding='latin-1', newline='') as file:
        text = file.read()
    text = text[:-1] if text.endswith('\x1a') else text
    lines = text.split('\n')[:-1] if text.endswith('\n') else text.split('\n') if text else []
    return [(path, number, line.rstrip('\r')) for number, line in enumerate(lines, 1)]


class Written:
    """The lines that are written, each with its place."""

    def __init__(self):
        self.lines, self.places = [], []

    def add(self, text, place):
        """Writes a line: its comment in plain ASCII, and without it if the line is too long."""
        if not text.isascii():
            text = ''.join(part.encode('ascii', 'replace').decode() if part[0] == ';' else part
                           for part in macro_text.pieces(text))
        if len(text) > MOST_OF_LINE:
            text = macro_text.without_comment(text)
        if len(text) > MOST_OF_LINE:
            raise Wrong('LIMIT', f'this becomes a line of {len(text)} bytes; the most are {MOST_OF_LINE}')
        if place[2] and len(text) > MOST_OF_NAME:
            code = ''.join(part for part in macro_text.pieces(text) if part[0] not in '\'";')
            long = LONG_NAME.search(code)
            if long:
                raise Wrong('LIMIT',
                            f'{long[0]} becomes a name of {len(long[0])} characters; the most are {MOST_OF_NAME}')
        if len(self.lines) == MOST_LINES:
            raise Fault(place, 'LIMIT', f'this would be more than {MOST_LINES} lines')
        self.lines.append(text)
        self.places.append(place)


class Run:
    """A run over the lines of a source: the frames, the place of the line, what is written, and the faults.

    `line` takes each line, and sets `is_over` at the last one.
    """

    def __init__(self):
        self.frames, self.written, self.faults, self.steps = [], Written(), [], 0
        self.place, self.is_over = ('', 0, ()), False

    def line(self, text):
        raise NotImplementedError

    def note(self, fault):
        """Notes a fault, once for each line of the source."""
        key = (*fault.place[:2], fault.kind, fault.why)
        if all(key != (*it.place[:2], it.kind, it.why) for it in self.faults):
            self.faults.append(fault)

    def lines(self):
        """Takes each line, and notes the faults of lines."""
        while len(self.faults) < MOST_FAULTS:
            text = self.next_line()
            if text is None:
                return
            try:
                self.line(text)
            except Wrong as wrong:
                self.note(Fault(self.place, wrong.kind, wrong.why))
            if self.is_over:
                self.leave()
                return

    def next_line(self):
        """The next line of the innermost frame that has one; a frame that is over is left."""
        while self.frames:
            frame = self.frames[-1]
            if frame.at < len(frame.rows):
                file, number, text = frame.rows[frame.at]
                frame.at += 1
                self.place = (file, number, frame.calls)
                self.steps += 1
                if self.steps > MOST_STEPS:
                    raise Fault(self.place, 'LIMIT', f'this takes more than {MOST_STEPS} lines of macros: do they end?')
                return text
            self.leave()
        return None

    def leave(self):
        """Leaves a frame that is over."""
        frame = self.frames.pop()
        for open_one in frame.conditions.open[-1:]:
            what = f'the macro {frame.name}' if frame.kind == 'macro' else frame.name
            self.note(Fault(open_one.place, 'OPEN', f'IF without ENDIF in {what}'))

    def enter(self, frame):
        """Enters a frame."""
        files = sum(it.kind == 'file' for it in self.frames)
        if frame.kind == 'file' and files > MOST_FILES:
            raise Fault(self.place, 'LIMIT', f'includes are more than {MOST_FILES} deep')
        if len(self.frames) - files >= MOST_DEPTH:
            raise Fault(self.place, 'LIMIT',
                        f'{frame.name} is more than {MOST_DEPTH} macros deep: does it call itself without an end?')
        self.frames.append(frame)

    def is_taken(self):
        """Whether lines are taken now."""
        return self.frames[-1].conditions.are_taken()

    def write(self, text):
        """Writes a line."""
        self.written.add(text, self.place)
