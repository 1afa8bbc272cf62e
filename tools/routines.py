"""Routines of a linked program: where each begins, by its source, its calls and a run."""
import bisect
from collections import namedtuple

import tracing
from image import image_of

Routine = namedtuple('Routine', 'address name unit place file line')

LCALL, LJMP = 0x12, 0x02
# The lower five bits of AJMP and ACALL.
AJMP, ACALL = 0x01, 0x11
SJMP = 0x80


def target_of(address, code):
    """Where a call or a jump leads whose target is in its bytes, or nothing."""
    after = address + len(code)
    if code[0] in (LCALL, LJMP):
        return code[1] << 8 | code[2]
    if code[0] & 0x1F in (AJMP, ACALL):
        return after & 0xF800 | (code[0] & 0xE0) << 3 | code[1]
    if code[0] == SJMP:
        return after + (code[1] ^ 0x80) - 0x80 & 0xFFFF
    return None


def is_call(code):
    return code[0] == LCALL or code[0] & 0x1F == ACALL


def entries_of(counts, of_map):
    """How often each routine was entered: by a call, by a vectoring, and by a jump from another unit."""
    found = {0: len(counts.ends)}
    for address, count in counts.vectors.items():
        found[address] = found.get(address, 0) + count.times
    for address, count in counts.at.items():
        target = target_of(address, count.code)
        if target is not None and (is_call(count.code) or of_map.code_at(address) != of_map.code_at(target)):
            found[target] = found.get(target, 0) + count.times
    return found


def called_in(of):
    """The targets of all calls in the source, also of those that a run did not reach."""
    image = image_of(of)
    for address, row in of.lines.items():
        code = bytes(image.get(address + at, 0) for at in range(len(row.data)))
        if code and is_call(code) and len(code) == (3 if code[0] == LCALL else 2):
            yield target_of(address, code)


class Routines:
    """The routines of a program: each begins where a unit does, at a public label, or where a call leads."""

    def __init__(self, of, counts):
        self.of, self.entries = of, entries_of(counts, of.map)
        names = {}
        for it in sorted((it for it in of.labels if it.kind == 'CODE'), key=lambda it: not it.is_public):
            names.setdefault(it.address, it)
        units = {it.base: it for it in of.map.extents if it.kind == 'CODE' and it.title in of.map.units}
        places = {*units, *self.entries, *called_in(of), *(at for at, it in names.items() if it.is_public)}
        self.starts = sorted(address for address in places if of.map.code_at(address))
        self.found = {address: self.routine(address, names.get(address)) for address in self.starts}
        self.known = {}

    def routine(self, address, label):
        """The routine that begins at an address, with its name: the label's, else the unit's, else the address."""
        extent = self.of.map.code_at(address)
        name = label.name if label else extent.title if address == extent.base else f'{address:04X}'
        row = self.of.line_of(address)
        return Routine(address, name, extent.title, label.place if label else '', *(
            (row.file, row.line) if row else (None, None)))

    def at(self, address):
        """The routine in which an address lies, or nothing."""
        if address not in self.known:
            extent, place = self.of.map.code_at(address), bisect.bisect_right(self.starts, address) - 1
            inside = extent and place >= 0 and self.starts[place] >= extent.base
            self.known[address] = self.found[self.starts[place]] if inside else None
        return self.known[address]


class Context:
    """The main program, or a handler: its calls that have not returned, and the cycles that it has had."""

    def __init__(self):
        self.frames, self.clock = [], 0


class Calls:
    """The calls of runs whose steps are known: of each routine how often it was entered, its cycles with those of what
    it called, and how often one entered another. What an interrupt took is none of the cycles of what it came upon."""

    def __init__(self, routines, runs):
        self.routines, self.times, self.cycles, self.edges = routines, {}, {}, {}
        for steps in runs:
            self.walk(steps)

    def start_of(self, address):
        routine = self.routines.at(address)
        return routine.address if routine else address

    def enter(self, context, frame, start, caller=None):
        """A routine begins in a frame, unless it has begun there."""
        if all(start != it for it, _ in frame):
            frame.append((start, context.clock))
            self.times[start] = self.times.get(start, 0) + 1
            if caller is not None:
                self.edges[caller, start] = self.edges.get((caller, start), 0) + 1

    def leave(self, context):
        """The innermost frame ends. Of a routine that is in an outer frame too, only that one counts."""
        frame = context.frames.pop()
        outer = {start for it in context.frames for start, _ in it}
        for start, clock in frame:
            if start not in outer:
                self.cycles[start] = self.cycles.get(start, 0) + context.clock - clock

    def walk(self, steps):
        """Goes through the steps of a run."""
        contexts = [Context()]
        contexts[0].frames.append([])
        for place, after, cycles, word in steps.each():
            if word == tracing.VECTOR:
                contexts.append(Context())
                contexts[-1].frames.append([])
                self.enter(contexts[-1], contexts[-1].frames[-1], self.start_of(after))
                contexts[-1].clock += cycles
                continue
            context, start = contexts[-1], self.start_of(place)
            before = context.frames[-1][-1][0] if context.frames[-1] else None
            self.enter(context, context.frames[-1], start, before)
            context.clock += cycles
            if word in tracing.CALLS:
                context.frames.append([])
                self.enter(context, context.frames[-1], self.start_of(after), start)
            elif word in tracing.RETURNS:
                self.leave(context)
                if word == 'RETI' and len(contexts) > 1:
                    contexts.pop()
        for context in contexts:
            while context.frames:
                self.leave(context)
