"""The watched board, a second time and apart from the program, after docs/SIMULATOR.md and the family manual.

`Board` takes a map, the bytes of a HEX and a script, keeps a store of its own for each segment, and gives the record of
a run. It is slow and plain.
"""
import re

from devices import SBUF, Devices, Script

P0, SP, DPL, DPH, PCON, TCON, P1, SCON, P2, IE, P3, IP, T2CON, PSW, ACC, B = (
    0x80, 0x81, 0x82, 0x83, 0x87, 0x88, 0x90, 0x98, 0xA0, 0xA8, 0xB0, 0xB8, 0xC8, 0xD0, 0xE0, 0xF0)
PORTS = {P0: 'P0', P1: 'P1', P2: 'P2', P3: 'P3'}
TIMERS = {*range(0x88, 0x8E), T2CON, *range(0xCA, 0xCE)}
REGISTERS = {*PORTS, *TIMERS, SP, DPL, DPH, PCON, SCON, SBUF, IE, IP, PSW, ACC, B}
VECTORS = [0x03, 0x0B, 0x13, 0x1B, 0x23, 0x2B]

ARITHMETIC = 'ADD ADDC ORL ANL XRL'.split()
# By the low digit of the opcode, 6 also for 7 and 8 also for 9 to F: the forms by the high digit.
FORMS = {
    0: ['NOP', 'JBC bit,rel', 'JB bit,rel', 'JNB bit,rel', 'JC rel', 'JNC rel', 'JZ rel', 'JNZ rel', 'SJMP rel',
        'MOV DPTR,#data16', 'ORL C,/bit', 'ANL C,/bit', 'PUSH direct', 'POP direct', 'MOVX A,@DPTR', 'MOVX @DPTR,A'],
    1: ['AJMP addr11', 'ACALL addr11'] * 8,
    2: ['LJMP addr16', 'LCALL addr16', 'RET', 'RETI', 'ORL direct,A', 'ANL direct,A', 'XRL direct,A', 'ORL C,bit',
        'ANL C,bit', 'MOV bit,C', 'MOV C,bit', 'CPL bit', 'CLR bit', 'SETB bit', 'MOVX A,@Ri', 'MOVX @Ri,A'],
    3: ['RR A', 'RRC A', 'RL A', 'RLC A', 'ORL direct,#data', 'ANL direct,#data', 'XRL direct,#data', 'JMP @A+DPTR',
        'MOVC A,@A+PC', 'MOVC A,@A+DPTR', 'INC DPTR', 'CPL C', 'CLR C', 'SETB C', 'MOVX A,@Ri', 'MOVX @Ri,A'],
    4: ['INC A', 'DEC A', *[f'{name} A,#data' for name in ARITHMETIC], 'MOV A,#data', 'DIV AB', 'SUBB A,#data',
        'MUL AB', 'CJNE A,#data,rel', 'SWAP A', 'DA A', 'CLR A', 'CPL A'],
    5: ['INC direct', 'DEC direct', *[f'{name} A,direct' for name in ARITHMETIC], 'MOV direct,#data',
        'MOV direct,direct', 'SUBB A,direct', '', 'CJNE A,direct,rel', 'XCH A,direct', 'DJNZ direct,rel',
        'MOV A,direct', 'MOV direct,A'],
    6: ['INC @Ri', 'DEC @Ri', *[f'{name} A,@Ri' for name in ARITHMETIC], 'MOV @Ri,#data', 'MOV direct,@Ri',
        'SUBB A,@Ri', 'MOV @Ri,direct', 'CJNE @Ri,#data,rel', 'XCH A,@Ri', 'XCHD A,@Ri', 'MOV A,@Ri', 'MOV @Ri,A'],
    8: ['INC Rn', 'DEC Rn', *[f'{name} A,Rn' for name in ARITHMETIC], 'MOV Rn,#data', 'MOV direct,Rn', 'SUBB A,Rn',
        'MOV Rn,direct', 'CJNE Rn,#data,rel', 'XCH A,Rn', 'DJNZ Rn,rel', 'MOV A,Rn', 'MOV Rn,A'],
}
FIELDS = {'direct': 1, 'bit': 1, '/bit': 1, '#data': 1, 'rel': 1, 'addr11': 1, 'addr16': 2, '#data16': 2}
FOUR_CYCLES = {'MUL', 'DIV'}
JUMPS = set('AJMP LJMP SJMP JMP JC JNC JZ JNZ JB JNB JBC ACALL LCALL RET RETI CJNE DJNZ'.split())
TWO_CYCLES = JUMPS | {'MOVX', 'MOVC', 'PUSH', 'POP'}
TWO_CYCLE_FORMS = {
    'MOV DPTR,#data16', 'INC DPTR', 'MOV direct,#data', 'MOV direct,direct', 'MOV direct,@Ri', 'MOV direct,Rn',
    'MOV Rn,direct', 'MOV @Ri,direct', 'MOV bit,C', 'ORL C,bit', 'ORL C,/bit', 'ANL C,bit', 'ANL C,/bit',
    'ORL direct,#data', 'ANL direct,#data', 'XRL direct,#data'}


class Stopped(Exception):
    """An event, as it is printed before AFTER."""


def form_of(opcode):
    low = opcode % 16
    return FORMS[8 if low > 7 else 6 if low == 7 else low][opcode // 16]


def parts_of(form):
    """The mnemonic and the operands of a form."""
    name, _, operands = form.partition(' ')
    return name, operands.split(',') if operands else []


def length_of(form):
    return 1 + sum(FIELDS.get(word, 0) for word in parts_of(form)[1])


def cycles_of(form):
    name = parts_of(form)[0]
    return 4 if name in FOUR_CYCLES else 2 if name in TWO_CYCLES or form in TWO_CYCLE_FORMS else 1


def signed(byte):
    return byte - 256 if byte > 127 else byte


class Program:
    """What the map says: extents of segments, units, edges, and the owners of overlaid segments."""

    def __init__(self, text):
        segments, units = re.fullmatch(r'SEGMENTS\n(.*)UNITS\n(.*?)CHAIN .*', text, re.S).groups()
        self.titles, self.owners, self.covers, self.code = [], {}, {}, {}
        self.calls = {}
        for line in units.splitlines():
            title, _, _, _, called = line.split()
            self.calls[title] = set(called.split(',')) - {'-'}
        for line in segments.splitlines():
            self.add(*line.split())

    def add(self, kind, base, size, mark, title):
        base, size, number = int(base, 16), int(size, 16), len(self.titles)
        self.titles.append(title)
        if kind == 'CODE':
            self.code[title] = range(base, base + size)
        elif mark not in 'BR':
            first, last = (8 * base, 8 * (base + size)) if kind in ('DATA', 'IDATA') else (base, base + size)
            space, more = ('X', 0) if kind == 'XDATA' else ('D', 256 if kind == 'BIT' else 0)
            for cell in range(first + more, last + more):
                self.covers.setdefault((space, cell), []).append(number)
        if mark == 'O':
            own = '?PR?' + title[4:]
            callers = {unit for unit, called in self.calls.items() if own in called and title.startswith('?AG?')}
            self.owners[number] = {own} | callers

    def unit_at(self, address):
        return next((title for title, addresses in self.code.items() if address in addresses), None)


class Record:
    """A return record; that of the reset has the cause `reset`."""

    def __init__(self, cause, address, sp, units):
        self.cause, self.address, self.sp, self.units = cause, address, sp, units


class Board:
    def __init__(self, text, image, script='', frames=None):
        self.program, self.image, self.script = Program(text), image, Script(script)
        for cycle, more in (frames or {}).items():
            self.script.frames.setdefault(cycle, []).extend(more)
        self.devices = Devices(self.script)
        self.registers = {address: 0xFF if address in PORTS else 7 if address == SP else 0 for address in REGISTERS}
        self.pc, self.low, self.high, self.held = 0, False, False, False
        self.records = [Record('reset', 0, 0, ['@0000'])]
        self.stores, self.turns = {}, {}
        self.cycle, self.entries = 0, []             # an entry has the cycle at which its step starts, and its line
        self.enliven()

    def run(self, steps):
        """The record of so many steps, or up to the first event."""
        last = f'END {steps} STEPS'
        for done in range(steps):
            try:
                self.step()
            except Stopped as event:
                last = f'EVENT {event} AFTER {done} STEPS'
                break
        return ''.join([*[line for _, line in self.entries], f'{last} {self.cycle} CYCLES\n'])

    # Cells.

    def enliven(self):
        """The overlaid segments that are live now; of those that turn live all cells are unset."""
        active = {unit for record in self.records for unit in record.units}
        for number, owners in self.program.owners.items():
            if not owners & active:
                self.turns.pop(number, None)
            elif number not in self.turns:
                self.turns[number] = max(self.turns.values(), default=0) + 1
                self.stores = {place: bit for place, bit in self.stores.items() if place[0] != number}

    def owner(self, cell):
        """The segment that a cell belongs to, `common`, or none."""
        covering = self.program.covers.get(cell, [])
        if not covering:
            return 'common'
        live = [number for number in covering if number not in self.program.owners or number in self.turns]
        return max(live, key=lambda number: self.turns.get(number, 0), default=None)

    def cell_text(self, cell):
        space, at = cell
        return f'D:{at // 8:02X}.{at % 8}' if space == 'D' else f'X:{at:04X}'

    def seen(self, cell):
        owner = self.owner(cell)
        if owner is None:
            raise Stopped(f'V2 {self.cell_text(cell)} AT {self.pc:04X}')
        if owner in self.program.owners and (owner, cell) not in self.stores:
            raise Stopped(f'V3 {self.cell_text(cell)} IN {self.program.titles[owner]} AT {self.pc:04X}')
        return self.stores.get((owner, cell), self.filled(cell))

    def filled(self, cell):
        space, at = cell
        return self.script.fill if space == 'X' else self.script.fill >> at % 8 & 1

    def ram(self, address):
        return sum(self.seen(('D', 8 * address + bit)) << bit for bit in range(8))

    def put_ram(self, address, value):
        self.puts.append([(('D', 8 * address + bit), value >> bit & 1) for bit in range(8)])

    # Operands.

    def register_byte(self, address, latch):
        """A register; of a port its pins, if its latch is not asked for."""
        byte = self.registers.get(address, 0)
        if address in PORTS and not latch:
            byte &= self.script.levels(self.cycle)[address // 16 - 8]
        return byte

    def direct(self, address, latch):
        return self.ram(address) if address < 0x80 else self.register_byte(address, latch)

    def put_register(self, address, value):
        if address == SBUF:
            self.sends = value
        elif address in REGISTERS:
            self.new[address] = value
        self.port = address if address in PORTS else self.port
        self.holds |= address in (IE, IP)

    def put_direct(self, address, value):
        if address < 0x80:
            self.put_ram(address, value)
        else:
            self.put_register(address, value)

    def bit(self, address, latch):
        if address < 0x80:
            return self.seen(('D', 256 + address))
        return self.register_byte(address & 0xF8, latch) >> address % 8 & 1

    def put_bit(self, address, value):
        if address < 0x80:
            self.puts.append([(('D', 256 + address), value)])
        else:
            byte = self.register_byte(address & 0xF8, latch=True)
            self.put_register(address & 0xF8, byte & ~(1 << address % 8) | value << address % 8)

    def register(self, number):
        return (self.registers[PSW] & 0x18) + number

    def place(self, word):
        """Where an operand is; its pointer is read."""
        if word == 'Rn':
            return 'ram', self.register(self.opcode % 8)
        if word == '@Ri':
            return 'ram', self.ram(self.register(self.opcode % 2))
        if word in ('A', 'C'):
            return ('direct', ACC) if word == 'A' else ('bit', PSW + 7)
        return word.strip('#'), self.fields[word].pop()

    def value(self, place, latch=False):
        word, at = place
        if word in ('bit', '/bit'):
            return self.bit(at, latch) ^ (word == '/bit')
        if word == 'direct':
            return self.direct(at, latch)
        return self.ram(at) if word == 'ram' else at

    def put(self, place, value):
        {'ram': self.put_ram, 'direct': self.put_direct, 'bit': self.put_bit}[place[0]](place[1], value)

    def flags(self, **values):
        for name, value in values.items():
            bit = {'cy': 0x80, 'ac': 0x40, 'ov': 0x04}[name]
            self.new[PSW] = self.new[PSW] & ~bit | bit * bool(value)

    @property
    def a(self):
        return self.registers[ACC]

    @property
    def carry(self):
        return self.registers[PSW] >> 7

    # Steps.

    def step(self):
        self.new, self.puts, self.holds = dict(self.registers), [], False
        self.port = self.sends = None
        source = None if self.held else self.source()
        if source is not None:
            move, cycles = self.vectoring(source), 2
        elif self.registers[PCON] & 1:
            move, cycles = (self.pc, lambda: None), 1
        else:
            move, cycles = self.instruction()
        self.make(*move)
        start = self.cycle
        if self.port is not None:
            self.entries.append((start, f'{start} {PORTS[self.port]} {self.registers[self.port]:02X}\n'))
        if self.sends is not None:
            self.devices.send(self.registers, self.sends)
        for _ in range(cycles):
            self.cycle += 1
            sent = self.devices.tick(self.registers, self.cycle)
            if sent:
                self.entries.append((start, sent))

    def make(self, pc, change):
        for put in self.puts:
            for cell, bit in put:
                self.stores[self.owner(cell), cell] = bit
        self.new[PSW] = self.new[PSW] & 0xFE | bin(self.new[ACC]).count('1') % 2
        self.registers, self.pc, self.held = self.new, pc, self.holds
        change()
        self.enliven()

    def source(self):
        """The number of the interrupt that is taken, or none."""
        tcon, enables, priorities = self.registers[TCON], self.registers[IE], self.registers[IP]
        serial, timer_2 = self.registers[SCON] & 3, self.registers[T2CON] & 0xC0
        asking = [tcon & 0x02, tcon & 0x20, tcon & 0x08, tcon & 0x80, serial, timer_2]
        if not enables & 0x80 or self.high:
            return None
        asked = [number for number in range(6) if asking[number] and enables >> number & 1]
        first = [number for number in asked if priorities >> number & 1]
        return next(iter(first or ([] if self.low else asked)), None)

    def vectoring(self, source):
        target = VECTORS[source]
        self.push_address(self.pc)
        self.new[PCON] &= 0xFE
        if source in (1, 3):
            self.new[TCON] &= ~(0x20 if source == 1 else 0x80)
        if source in (0, 2) and self.new[TCON] & (1 if source == 0 else 4):
            self.new[TCON] &= ~(2 if source == 0 else 8)
        self.test_puts()
        title = f'@{target:04X}'
        if title not in self.program.code:
            self.stop('NOHANDLER', target)
        if any(record.cause == 'interrupt' and record.units[0] == title for record in self.records):
            self.stop('ROOTBUSY', target)
        self.test_sp(target, called=True)

        def change():
            if self.registers[IP] >> source & 1:
                self.high = True
            else:
                self.low = True
            self.records.append(Record('interrupt', before, self.registers[SP], [title]))

        before = self.pc
        return target, change

    def instruction(self):
        self.opcode = self.image.get(self.pc, 0xFF)
        form = form_of(self.opcode)
        after = (self.pc + length_of(form)) % 65_536
        unit = self.program.code[self.current()]
        if any((self.pc + k) % 65_536 not in unit for k in range(length_of(form))):
            self.stop('PASTEND', after)
        if not form:
            raise Stopped(f'V4 AT {self.pc:04X}')
        name, words = parts_of(form)
        self.take_fields(form, words)
        self.after = after
        move = getattr(self, name.lower() + '_')(*words) or ('next', after)
        self.test_puts()
        if self.new[PCON] & 2:
            raise Stopped(f'V5 AT {self.pc:04X}')
        return self.judged(*move), cycles_of(form)

    def take_fields(self, form, words):
        """The numbers of the operands, those of one word from the last to the first."""
        self.fields, at = {}, self.pc + 1
        for word in words:
            count = FIELDS.get(word, 0)
            number = int.from_bytes([self.image.get((at + k) % 65_536, 0xFF) for k in range(count)], 'big')
            if count:
                self.fields.setdefault(word, []).append(number)
            at += count
        # MOV direct,direct has its source first.
        if form != 'MOV direct,direct':
            self.fields = {word: numbers[::-1] for word, numbers in self.fields.items()}

    # Transfers.

    def stop(self, why, target):
        raise Stopped(f'V1 {why} FROM {self.pc:04X} TO {target:04X}')

    def current(self, records=None):
        return next(record.units[-1] for record in reversed(records or self.records) if record.units)

    def test_puts(self):
        for put in self.puts:
            for cell, _ in put:
                if self.owner(cell) is None:
                    raise Stopped(f'V2 {self.cell_text(cell)} AT {self.pc:04X}')

    def test_sp(self, target, called=False):
        top = self.records[-1]
        if top.cause != 'reset' and self.new[SP] < top.sp + 2 * called:
            self.stop('SPBELOW', target)

    def judged(self, kind, target):
        if kind in ('call', 'interrupt'):
            return self.returned(kind, target)
        here, there = self.current(), self.program.unit_at(target)
        if kind == 'next':
            if target not in self.program.code[here]:
                self.stop('PASTEND', target)
        elif there is None:
            self.stop('NOUNIT', target)
        elif there != here and there not in self.program.calls[here]:
            self.stop('NOEDGE', target)
        self.test_sp(target, called=kind == 'lcall')
        before = self.after

        def change():
            if kind == 'lcall':
                self.records.append(Record('call', before, self.registers[SP], [there] if there != here else []))
            elif kind == 'jump' and there != here:
                self.records[-1].units.append(there)

        return target, change

    def returned(self, kind, target):
        top = self.records[-1]
        if top.cause != kind:
            self.stop('NOTCALLED', target)
        if self.registers[SP] != top.sp:
            self.stop('SPMOVED', target)
        if target != top.address:
            self.stop('WRONGADDRESS', target)
        if target not in self.program.code[self.current(self.records[:-1])]:
            self.stop('PASTEND', target)

        def change():
            self.records.pop()
            self.end_level(kind)

        return target, change

    def end_level(self, kind):
        """RETI ends the higher level in progress."""
        if kind == 'interrupt' and self.high:
            self.high = False
        elif kind == 'interrupt':
            self.low = False

    def branch(self, taken):
        return ('jump', (self.after + signed(self.fields['rel'][0])) % 65_536) if taken else None

    def push_address(self, address):
        sp = self.registers[SP]
        self.put_ram((sp + 1) % 256, address % 256)
        self.put_ram((sp + 2) % 256, address // 256)
        self.new[SP] = (sp + 2) % 256

    def call(self, target):
        self.push_address(self.after)
        return 'lcall', target

    def near(self):
        return self.after & 0xF800 | self.opcode // 32 << 8 | self.fields['addr11'][0]

    # Instructions, by mnemonic.

    def nop_(self):
        pass

    def ajmp_(self, _):
        return 'jump', self.near()

    def ljmp_(self, _):
        return 'jump', self.fields['addr16'][0]

    def sjmp_(self, _):
        return self.branch(True)

    def jmp_(self, _):
        return 'jump', (self.a + 256 * self.registers[DPH] + self.registers[DPL]) % 65_536

    def acall_(self, _):
        return self.call(self.near())

    def lcall_(self, _):
        return self.call(self.fields['addr16'][0])

    def ret_(self, kind='call'):
        sp = self.registers[SP]
        high = self.ram(sp)
        low = self.ram((sp - 1) % 256)
        self.new[SP] = (sp - 2) % 256
        return kind, 256 * high + low

    def reti_(self):
        self.holds = True
        return self.ret_('interrupt')

    def jc_(self, _):
        return self.branch(self.carry)

    def jnc_(self, _):
        return self.branch(not self.carry)

    def jz_(self, _):
        return self.branch(self.a == 0)

    def jnz_(self, _):
        return self.branch(self.a)

    def jb_(self, word, _):
        return self.branch(self.value(self.place(word)))

    def jnb_(self, word, _):
        return self.branch(not self.value(self.place(word)))

    def jbc_(self, word, _):
        place = self.place(word)
        is_set = self.value(place, latch=True)
        if is_set:
            self.put(place, 0)
        return self.branch(is_set)

    def cjne_(self, word, other, _):
        first = self.value(self.place(word))
        second = self.value(self.place(other))
        self.flags(cy=first < second)
        return self.branch(first != second)

    def djnz_(self, word, _):
        place = self.place(word)
        value = (self.value(place, latch=True) - 1) % 256
        self.put(place, value)
        return self.branch(value)

    def mov_(self, word, other):
        if word == 'DPTR':
            value = self.fields[other][0]
            self.new[DPH], self.new[DPL] = value // 256, value % 256
            return
        place = self.place(word)
        self.put(place, self.value(self.place(other)))

    def movc_(self, _, pointer):
        base = self.after if pointer.endswith('PC') else 256 * self.registers[DPH] + self.registers[DPL]
        self.new[ACC] = self.image.get((base + self.a) % 65_536, 0xFF)

    def movx_(self, word, other):
        pointer = other if word == 'A' else word
        if pointer == '@DPTR':
            cell = 'X', 256 * self.registers[DPH] + self.registers[DPL]
        else:
            cell = 'X', 256 * self.registers[P2] + self.ram(self.register(self.opcode % 2))
        if word == 'A':
            self.new[ACC] = self.seen(cell)
        else:
            self.puts.append([(cell, self.a)])

    def push_(self, word):
        sp = (self.registers[SP] + 1) % 256
        place = self.place(word)
        self.put_ram(sp, sp if place == ('direct', SP) else self.value(place))
        self.new[SP] = sp

    def pop_(self, word):
        sp = self.registers[SP]
        value = self.ram(sp)
        self.new[SP] = (sp - 1) % 256
        self.put(self.place(word), value)

    def xch_(self, _, other):
        place = self.place(other)
        value = self.value(place)
        self.put(place, self.a)
        self.new[ACC] = value

    def xchd_(self, _, other):
        place = self.place(other)
        value = self.value(place)
        self.put(place, value & 0xF0 | self.a & 0x0F)
        self.new[ACC] = self.a & 0xF0 | value & 0x0F

    def inc_(self, word, more=1):
        if word == 'DPTR':
            value = (256 * self.registers[DPH] + self.registers[DPL] + 1) % 65_536
            self.new[DPH], self.new[DPL] = value // 256, value % 256
            return
        place = self.place(word)
        self.put(place, (self.value(place, latch=True) + more) % 256)

    def dec_(self, word):
        self.inc_(word, -1)

    def sum(self, other, carry):
        second, a = self.value(self.place(other)), self.a
        whole = signed(a) + signed(second) + carry
        self.new[ACC] = (a + second + carry) % 256
        self.flags(cy=a + second + carry > 255, ac=a % 16 + second % 16 + carry > 15, ov=not -128 <= whole <= 127)

    def add_(self, _, other):
        self.sum(other, 0)

    def addc_(self, _, other):
        self.sum(other, self.carry)

    def subb_(self, _, other):
        second, a, carry = self.value(self.place(other)), self.a, self.carry
        whole = signed(a) - signed(second) - carry
        self.new[ACC] = (a - second - carry) % 256
        self.flags(cy=a < second + carry, ac=a % 16 < second % 16 + carry, ov=not -128 <= whole <= 127)

    def logic(self, word, other, make):
        place = self.place(word)
        first = self.value(place, latch=True)
        second = self.value(self.place(other))
        self.put(place, make(first, second))

    def orl_(self, word, other):
        self.logic(word, other, lambda one, two: one | two)

    def anl_(self, word, other):
        self.logic(word, other, lambda one, two: one & two)

    def xrl_(self, word, other):
        self.logic(word, other, lambda one, two: one ^ two)

    def clr_(self, word):
        self.put(self.place(word), 0)

    def setb_(self, word):
        self.put(self.place(word), 1)

    def cpl_(self, word):
        place = self.place(word)
        self.put(place, self.value(place, latch=True) ^ (0xFF if word == 'A' else 1))

    def rr_(self, _):
        self.new[ACC] = self.a >> 1 | self.a % 2 << 7

    def rrc_(self, _):
        self.new[ACC] = self.a >> 1 | self.carry << 7
        self.flags(cy=self.a & 1)

    def rl_(self, _):
        self.new[ACC] = self.a << 1 & 0xFF | self.a >> 7

    def rlc_(self, _):
        self.new[ACC] = self.a << 1 & 0xFF | self.carry
        self.flags(cy=self.a & 0x80)

    def swap_(self, _):
        self.new[ACC] = self.a >> 4 | self.a << 4 & 0xF0

    def da_(self, _):
        a, carry = self.a, self.carry
        if a % 16 > 9 or self.registers[PSW] & 0x40:
            carry, a = carry or a + 6 > 255, (a + 6) % 256
        if a // 16 > 9 or carry:
            carry, a = carry or a + 0x60 > 255, (a + 0x60) % 256
        self.new[ACC] = a
        self.flags(cy=carry)

    def mul_(self, _):
        product = self.a * self.registers[B]
        self.new[ACC], self.new[B] = product % 256, product // 256
        self.flags(cy=0, ov=product > 255)

    def div_(self, _):
        divisor = self.registers[B]
        if divisor:
            self.new[ACC], self.new[B] = divmod(self.a, divisor)
        self.flags(cy=0, ov=not divisor)


# One unit of all addresses, and no segment of data.
ALL_CODE = 'SEGMENTS\nCODE 0000 10000 A @0000\nUNITS\n@0000 FROM @0000 TO -\nCHAIN @0000 0 @0000\n'


class Flat(Board):
    """The same machine over one memory, as the chip has it: it looks at no record, and only V4 and V5 stop it."""

    def __init__(self, image, script):
        super().__init__(ALL_CODE, image, script)

    def current(self, records=None):
        return '@0000'

    def stop(self, why, target):
        pass

    def returned(self, kind, target):
        return target, lambda: self.end_level(kind)
