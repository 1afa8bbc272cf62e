"""The lines of m51-trace, made a second time and apart from the program: by board.py, after docs/TRACE.md."""
from board import ACC, B, DPH, DPL, FIELDS, PCON, PSW, SP, VECTORS, Board, Stopped, form_of, length_of, parts_of

TITLES = 'STEP\tCYCLE\tPC\tNEXT\tA\tB\tPSW\tSP\tDPTR\tUNIT'
RESERVED = 0xA5
BYTES = 256


def next_of(board):
    """What the next step is."""
    source = None if board.held else board.source()
    if source is not None:
        return f'VECTOR {VECTORS[source]:04X}'
    if board.registers[PCON] & 1:
        return 'IDLE'
    opcode = board.image.get(board.pc, 0xFF)
    if opcode == RESERVED:
        return 'RESERVED A5'
    form = form_of(opcode)
    code = bytes(board.image.get((board.pc + at) % 65_536, 0xFF) for at in range(length_of(form)))
    return f'{parts_of(form)[0]} {code.hex().upper()}'


def bit_shown(board, at):
    """A bit of internal RAM: 0, 1, ? for unset, - for outside."""
    owner = board.owner(('D', at))
    if owner is None:
        return '-'
    if owner in board.program.owners and (owner, ('D', at)) not in board.stores:
        return '?'
    return str(board.stores.get((owner, ('D', at)), board.filled(('D', at))))


def shown(board, address):
    """A byte of internal RAM, as the column RAM shows it."""
    bits = ''.join(bit_shown(board, 8 * address + bit) for bit in range(7, -1, -1))
    if set(bits) <= set('01'):
        return f'{int(bits, 2):02X}'
    return bits[0] if len(set(bits)) == 1 else bits


class States:
    """The lines of a run of a board."""

    def __init__(self, board, with_ram, first):
        self.board, self.with_ram, self.first, self.ram = board, with_ram, first, {}

    def line(self, steps):
        """The line of the state after this number of steps."""
        board = self.board
        registers = [f'{board.registers[it]:02X}' for it in (ACC, B, PSW, SP)]
        pointer = f'{board.registers[DPH]:02X}{board.registers[DPL]:02X}'
        fields = [str(steps), str(board.cycle), f'{board.pc:04X}', next_of(board), *registers, pointer, board.current()]
        # The first line that is shown has all of internal RAM.
        self.ram = {} if steps == self.first else self.ram
        return '\t'.join([*fields, *(self.more() if self.with_ram else [])])

    def more(self):
        """The columns ACTIVE and RAM."""
        active = {unit for record in self.board.records for unit in record.units}
        yield ','.join(title for title in self.board.program.calls if title in active)
        now = {address: shown(self.board, address) for address in range(BYTES)}
        changed = [f'{address:02X}={text}' for address, text in now.items() if self.ram.get(address) != text]
        self.ram = now
        if changed:
            yield ' '.join(changed)

    def lines(self, steps):
        """The titles, the lines of all states with what the steps between them write, and the last line."""
        yield TITLES + ('\tACTIVE\tRAM' if self.with_ram else '')
        last = f'END {steps} STEPS'
        for done in range(steps):
            yield self.line(done)
            before = len(self.board.entries)
            try:
                self.board.step()
            except Stopped as event:
                last = f'EVENT {event} AFTER {done} STEPS'
                break
            yield from (text.rstrip('\n') for _, text in self.board.entries[before:])
        else:
            yield self.line(steps)
        yield f'{last} {self.board.cycle} CYCLES'


def trace_of(told, image, script, steps, with_ram=False, first=0):
    """The whole answer: the map up to RUN, and what comes after it; the first state that is shown has this number."""
    return [*told.splitlines(), *States(Board(told, image, script), with_ram, first).lines(steps)]
