"""What a state of a run means in the words of its sources."""
import os
import re

import m51files
import tracing
from image import image_of
from listings import statement_of

OVERLAID = ('?DT?', '?AG?', '?BI?', '?XD?', '?ID?')
INTERNAL = ('DATA', 'IDATA', 'BIT')
LINE = re.compile(r'(?:(.+)\((\d+)\)|(?:(.+):)?(\d+))$')
FLAGS = ((0x80, 'CY'), (0x40, 'AC'), (0x20, 'F0'), (0x04, 'OV'), (0x01, 'P'))
FIRST_BITS = 0x20
# How many bytes of a variable are shown.
SHOWN = 16


def owner_of(title):
    """The unit that owns a segment of locals or arguments by its name, or nothing."""
    return m51files.unit_of_local(title) if title[:4] in OVERLAID else None


def shown(value):
    """A byte as it is written: its value, or why it has none. One of which only some bits are set has eight signs."""
    return {'?': 'not written', '-': 'dead'}.get(value, value)


class Inspector:
    """Finds places and variables of a program. `history` is what holds after the step before."""

    def __init__(self, of):
        self.of = of
        self.overlaid = {it.title for it in of.map.extents if it.mark == 'O'}

    # Places

    def text(self, address):
        """`file(line), LABEL+n: statement` of a code address."""
        return self.of.line_text(address)

    def place(self, state):
        """The line of the source, and what is done there."""
        if state.word == tracing.VECTOR:
            vector = int.from_bytes(state.code, 'big')
            return f'interrupt to {vector:04X}, before {state.pc:04X} {self.text(state.pc)}'
        return f'{state.pc:04X} {"idle, before " if state.word == tracing.IDLE else ""}{self.text(state.pc)}'

    def end_places(self, line):
        """What an event names."""
        for space, byte, bit, outer in re.findall(r'\b(?:(D):([0-9A-F]{2})\.([0-7])|X:([0-9A-F]{4}))\b', line):
            name = f'D:{byte}.{bit}' if space else f'X:{outer}'
            found = (self.of.cell_text('D', int(byte, 16), int(bit)) if space else
                     self.of.cell_text('X', int(outer, 16)))
            yield f'  {name} is {"; or ".join(found) or "in no label"}'
        for what, address in re.findall(r'\b(FROM|TO|AT) ([0-9A-F]{4})\b', line):
            yield f'  {what} {address} is {self.text(int(address, 16))}'

    def places(self, text, state):
        """The code addresses of a label, of a line, or of an address."""
        if re.fullmatch('0[xX][0-9A-Fa-f]{1,4}', text):
            return [int(text, 16)]
        found = [it.address for it in self.of.labels if it.kind == 'CODE' and it.name == text.upper()]
        line = LINE.match(text)
        if found or not line:
            return found
        row = self.of.line_of(state.pc)
        place = line[1] or line[3] or (row and row.file), int(line[2] or line[4])
        found = [(at, (it.file, it.line)) for at, it in self.of.lines.items()]
        found += [(it.address, (it.file, it.line)) for it in self.of.labels if it.kind == 'CODE']
        return sorted(at for at, it in found if it == place)[:1]

    def around(self, address, count):
        """The lines of the source around an address."""
        row = self.of.line_of(address)
        if not row or not os.path.isfile(row.file):
            return
        with open(row.file, encoding='ascii', errors='replace') as file:
            lines = file.read().expandtabs().splitlines()
        for number in range(max(1, row.line - count), min(len(lines), row.line + count) + 1):
            yield f'  {">" if number == row.line else " "} {number:5} {lines[number - 1]}'.rstrip()

    # The processor

    def active(self, state):
        """The active units, the current one last."""
        return [*(it for it in state.active if it not in (state.unit, '-')), state.unit]

    def registers(self, state, history):
        """The registers of a state."""
        flags = ' '.join(name for bit, name in FLAGS if state.psw & bit) or '-'
        bank = state.psw >> 3 & 3
        yield (f'  A {state.a:02X}  B {state.b:02X}  DPTR {state.dptr:04X}  SP {state.sp:02X}  PC {state.pc:04X}  '
               f'PSW {state.psw:02X} ({flags})')
        yield f'  bank {bank}: ' + '  '.join(f'R{at} {history.ram.get(8 * bank + at, "")}' for at in range(8))

    def stack(self, state, history):
        """The calls that have not returned, the last one first, each with its bytes of the stack."""
        top = state.sp
        for frame in reversed(history.frames):
            pushed = range(frame.sp + 1, top + 1)
            if pushed:
                yield f'    pushed {self.stack_bytes(pushed, history)}'
            how = 'interrupt' if frame.word == tracing.VECTOR else frame.word
            yield f'  {self.name_at(frame.target)}, {how} at {frame.state.steps} steps'
            yield f'    from {frame.state.pc:04X} {self.text(frame.state.pc)}'
            yield f'    to return to {frame.after:04X} {self.text(frame.after)}'
            yield f'    address {self.stack_bytes(range(frame.sp - 1, frame.sp + 1), history)}'
            top = frame.sp - 2
        yield f'  {self.name_at(0)}, from the reset'

    def stack_bytes(self, places, history):
        """Bytes of the stack, with where they are."""
        return ' '.join(f'{at & 255:02X}={history.ram.get(at & 255, "")}' for at in places)

    def name_at(self, address):
        """The label at an address, or the unit there."""
        near = next((it for it in self.of.labels if it.kind == 'CODE' and it.address == address), None)
        extent = self.of.map.code_at(address)
        return near.name if near else extent.title if extent else f'{address:04X}'

    # Variables

    def labels(self, name, kinds=(*INTERNAL, 'XDATA')):
        """The labels of a name in these memories."""
        return [it for it in self.of.labels if it.kind in kinds and it.name == name.upper()]

    def bytes_of(self, name):
        """The addresses of the bytes of internal RAM of a variable."""
        found = []
        for it in self.labels(name, INTERNAL):
            at = FIRST_BITS + it.address // 8 if it.kind == 'BIT' else it.address
            found += [at] if it.kind == 'BIT' else range(at, at + it.size)
        return found

    def value(self, label, history, outer):
        """What a variable holds; `outer` gives a byte of external memory."""
        if label.kind == 'BIT':
            byte, bit = history.ram.get(FIRST_BITS + label.address // 8, '-'), label.address % 8
            if len(byte) == 8:
                return shown(byte[7 - bit])
            return shown(byte) if byte in '?-' else str(int(byte, 16) >> bit & 1)
        places = range(label.address, label.address + min(label.size, SHOWN))
        if label.kind == 'XDATA':
            return ' '.join('..' if outer(at) is None else f'{outer(at):02X}' for at in places)
        found = [history.ram.get(at, '-') for at in places]
        if len(set(found)) == 1:
            return shown(found[0]) if found[0] in '?-' else ' '.join(found)
        return ' '.join(found)

    def is_live(self, label, state):
        """Whether a variable has its bytes now: its segment is plain, or its unit is active."""
        if label.title not in self.overlaid:
            return True
        owner, active = owner_of(label.title), self.active(state)
        callers = [it for it in active if owner in self.of.map.units.get(it, m51files.Unit(it, [], [])).callees]
        return owner in active or label.title.startswith('?AG?') and bool(callers)

    def place_of(self, label):
        """The address of a variable, its segment and its line."""
        return f'{"bit " if label.kind == "BIT" else ""}{label.address:02X} of {label.title}, {label.place}'

    def variables(self, state, history, outer, is_all):
        """The locals and arguments of the current unit, or of all active ones."""
        units = self.active(state) if is_all else [state.unit]
        found = [it for it in self.of.labels if it.kind != 'CODE' and owner_of(it.title) in units]
        for it in sorted(found, key=lambda it: (units.index(owner_of(it.title)), it.kind, it.address)):
            yield f'  {it.name:12} {self.value(it, history, outer):12} {self.place_of(it)}'
        if not found:
            yield '  none'

    def variable(self, name, state, history, outer):
        """A variable; if it is dead, what has its bytes now."""
        found = self.labels(name)
        if not found:
            yield f'  {name} is no variable'
        for it in found:
            if self.is_live(it, state):
                yield f'  {it.name} {self.value(it, history, outer)}, {self.place_of(it)}'
                continue
            yield f'  {it.name} is dead: {owner_of(it.title) or it.title} is not active ({self.place_of(it)})'
            for other in self.of.labels:
                if other != it and self.meets(other, it) and self.is_live(other, state):
                    yield (f'  its byte is now {other.name} {self.value(other, history, outer)}, '
                           f'{self.place_of(other)}')

    def meets(self, one, other):
        """Whether two variables have a byte in common."""
        spaces = [it.kind == 'XDATA' if it.kind != 'CODE' else None for it in (one, other)]
        (a, b), (c, d) = (self.span(it) for it in (one, other))
        return None not in spaces and spaces[0] == spaces[1] and a < d and c < b

    def span(self, label):
        """The first byte of a variable, and the first after it."""
        if label.kind == 'BIT':
            return FIRST_BITS + label.address // 8, FIRST_BITS + (label.address + label.size + 7) // 8
        return label.address, label.address + label.size

    # Memory

    def dump(self, cell, first, count, width):
        """Bytes of a memory, sixteen a line; `cell` gives two signs for an address, which has so many digits."""
        for row in range(first & -16, first + count, 16):
            cells = [cell(at) if first <= at < first + count else '' for at in range(row, row + 16)]
            yield f'  {row:0{width}X}  {" ".join(f"{it:>2}" for it in cells)}'.rstrip()

    def code(self):
        """The bytes of program memory by their addresses."""
        return image_of(self.of)
