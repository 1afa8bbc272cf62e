"""Random sources of units with locals, arguments and handlers, and random scripts, run apart from the program by
board.py over the map and the HEX that `build` writes: of each the whole record, up to the first event."""
import random

import board
import objects
from links import text_of

COUNT = 300
# Statements by what they touch. {n} is a byte, {r} and {i} a register and a pointer, {l} a label of the unit, {d} a
# direct address, {b} a bit, {p} an address of internal RAM and {x} one of external memory.
PLAIN = '''
NOP / MOV A,#{n} / MOV P1,A / INC A / DEC A / RL A / RR A / RLC A / RRC A / SWAP A / CPL A / CLR A / DA A / CPL C
CLR C / SETB C / MUL AB / DIV AB / ADD A,#{n} / ADDC A,#{n} / SUBB A,#{n} / ORL A,#{n} / ANL A,#{n} / XRL A,#{n}
MOV R{r},#{n} / MOV R{r},A / MOV A,R{r} / INC R{r} / DEC R{r} / ADD A,R{r} / ADDC A,R{r} / SUBB A,R{r} / ORL A,R{r}
ANL A,R{r} / XRL A,R{r} / XCH A,R{r} / CJNE A,#{n},{l} / CJNE R{r},#{n},{l} / DJNZ R{r},{l} / JZ {l} / JNZ {l} / JC {l}
JNC {l} / SJMP {l} / INC DPTR / MOVC A,@A+PC'''
DIRECT = '''
INC {d} / DEC {d} / ADD A,{d} / ADDC A,{d} / SUBB A,{d} / ORL A,{d} / ANL A,{d} / XRL A,{d} / MOV {d},#{n} / MOV {d},{d}
MOV A,{d} / MOV {d},A / XCH A,{d} / ORL {d},A / ANL {d},A / XRL {d},A / ORL {d},#{n} / ANL {d},#{n} / XRL {d},#{n}
CJNE A,{d},{l} / DJNZ {d},{l} / MOV R{r},{d} / MOV {d},R{r} / PUSH {d} / POP {d} / MOV {d},@R{i} / MOV @R{i},{d}'''
BITS = '''
SETB {b} / CLR {b} / CPL {b} / MOV C,{b} / MOV {b},C / ORL C,{b} / ORL C,/{b} / ANL C,{b} / ANL C,/{b} / JB {b},{l}
JNB {b},{l} / JBC {b},{l}'''
POINTED = '''
MOV R{i},#{p} / MOV A,@R{i} / MOV @R{i},A / MOV @R{i},#{n} / INC @R{i} / DEC @R{i} / ADD A,@R{i} / ADDC A,@R{i}
SUBB A,@R{i} / ORL A,@R{i} / ANL A,@R{i} / XRL A,@R{i} / XCH A,@R{i} / XCHD A,@R{i} / CJNE @R{i},#{n},{l}'''
EXTERNAL = '''
MOV DPTR,#{x} / MOVX @DPTR,A / MOVX A,@DPTR / MOVX A,@R{i} / MOVX @R{i},A / MOVC A,@A+DPTR'''
HOSTILE = '''
RET / RETI / PUSH ACC / POP ACC / DEC SP / INC SP / MOV SP,#{n} / DB 0A5H / MOV PCON,#2 / MOV PCON,#1 / JMP @A+DPTR
LJMP {n} / LJMP 0 / LCALL 0 / MOV PSW,#{n} / POP SP / PUSH SP / MOV 8,#{n} / LCALL {l} / ACALL {l} / AJMP {l} / MOV P3,A
MOV 9AH,A / ADD A,9AH'''
ASKS = '''
SETB TF0 / SETB TF1 / SETB TI / SETB IT0 / SETB IE1 / CLR P3.2 / SETB P3.2 / SETB TF2 / CLR TI / CLR TF2 / SETB IT1
CLR P3.3 / MOV IE,#9FH / MOV IP,#8 / MOV IP,#2 / SETB EA / CLR EA / SETB PT0 / SETB ES / SETB ET2'''
DEVICES = '''
MOV TMOD,#{n} / SETB TR0 / SETB TR1 / CLR TR0 / CLR TR1 / MOV TH0,#{n} / MOV TL0,#{n} / MOV TH1,#0FDH / MOV TL1,#0FDH
MOV TH1,#{n} / MOV T2CON,#{n} / MOV T2CON,#34H / MOV RCAP2H,#0FFH / MOV RCAP2L,#0F0H / MOV TH2,#0FFH / MOV TL2,#{n}
MOV SCON,#{n} / MOV SCON,#0D0H / MOV SCON,#50H / MOV SCON,#98H / MOV SBUF,A / MOV SBUF,#{n} / MOV A,SBUF / JNB TI,{l}
JNB RI,{l} / JBC RI,{l} / CLR RI / CLR TI / MOV PCON,#80H / MOV A,P1 / MOV A,P3 / JB P1.3,{l} / MOV C,P3.0 / MOV P1,#{n}
MOV A,TL0 / MOV A,T2CON / MOV A,TCON / MOV A,SCON / CLR P1.0 / SETB P1.0 / CLR P1.1 / SETB P1.1 / CLR P3.4 / SETB P3.4
ORL P1,#{n} / ANL P3,#0F3H / XCH A,P1 / MOV P1,SBUF / MOV P1,TL2 / MOV P1,TL1'''
WATCHED = '''
MOV P0,TL0 / MOV P0,TH0 / MOV P0,TL1 / MOV P0,TH1 / MOV P0,TL2 / MOV P0,TH2 / MOV P0,TCON / MOV P0,T2CON / MOV P0,SCON
MOV P0,SBUF / MOV P0,RCAP2L / MOV P0,RCAP2H / NOP / MUL AB / MOV SBUF,#{n} / CLR TF0 / CLR TF1 / CLR TF2 / CLR EXF2
CLR RI / CLR TI / MOV P0,P3 / CPL P1.0 / CPL P1.1 / CPL P3.2 / CPL P3.3 / CPL P3.4 / CPL P3.5 / JNB TI,{l}
JNB RI,{l}'''
# Blocks of several statements, parted by bars.
SPOKEN = '''
MOV SBUF,#{n}|JNB TI,$|CLR TI / MOV SBUF,A|INC A|JNB TI,$|CLR TI / JNB RI,$|MOV P1,SBUF|CLR RI / SETB TB8 / CLR TB8
JNB RI,{l}|MOV P1,SBUF|CLR RI / MOV R7,#{n}|DJNZ R7,$ / SETB SM2 / CLR SM2 / MOV C,RB8|MOV P1.2,C / MOV P0,SCON
JNB RI,{l}|MOV C,RB8|MOV P1.2,C / MOV SBUF,#{n}|JNB TI,$|CLR TI / MOV SBUF,A|JNB TI,$|CLR TI / CPL P0.0'''
HANDLED = '''
INC W0 / MOV P1,W1 / CPL P1.0 / PUSH ACC / POP ACC / CLR TI / CLR TF2 / SETB TF0 / SETB PT0 / MOV A,#7 / MOV HL,A
MOV A,HL / SETB P3.2'''
REGISTERS = 'ACC B DPL DPH P1 P2 P0 ACC B PSW IE IP SP 9AH'.split()
BIT_NAMES = 'ACC.0 ACC.7 P1.1 B.4 PSW.5 PSW.1 OV AC'.split()
ODD_BITS = 'RS0 P EA TF0 IP.3'.split()
# The vectors, each with what makes its source ask with high priority.
VECTORS = {0x03: 'SETB PX0|SETB IT0|SETB IE0', 0x0B: 'SETB PT0|SETB TF0', 0x13: 'SETB PX1|SETB IT1|SETB IE1',
           0x1B: 'SETB PT1|SETB TF1', 0x23: 'SETB PS|SETB TI', 0x2B: 'SETB PT2|SETB TF2'}
# The locals of a unit: the kind of memory, how they are reserved, and how often a unit has them.
LOCALS = {'DT': ('DATA', 'DS 2', 0.8), 'ID': ('IDATA', 'DS 2', 0.3), 'BI': ('BIT', 'DBIT 3', 0.4),
          'XD': ('XDATA', 'DS 2', 0.3), 'AG': ('DATA', 'DS 1', 0.4)}
SHARED = ['?STACK SEGMENT IDATA', 'RSEG ?STACK', 'W SEGMENT DATA', 'RSEG W', 'W0: DS 1', 'W1: DS 1', 'Z SEGMENT XDATA',
          'RSEG Z', 'Z0: DS 2']


def cut(text):
    return text.strip().replace('\n', ' / ').split(' / ')


KINDS = [cut(text) for text in (PLAIN, DIRECT, BITS, POINTED, EXTERNAL, HOSTILE, ASKS, DEVICES, WATCHED, SPOKEN)]
TIMERS = ['TL0', 'TL1', 'TL2', 'TH0', 'TH1', 'TH2', 'RCAP2L']


class Drawn:
    """A random source: a main unit, some that it calls, and handlers. Some only watch the devices, or speak."""

    def __init__(self, rng, speaks=False):
        self.rng, self.speaks = rng, speaks
        self.watches = not speaks and rng.random() < 0.3
        self.units = 1 if speaks or self.watches else rng.choice([1, 3, 4, 6])
        hostile, asks, devices = rng.choice([0, 0, 0.3, 2]), rng.choice([0, 0.5, 1.5]), rng.choice([0, 2, 8])
        self.weights = [8, 6, 3, 4, 2, hostile, asks, devices, 20 * self.watches, 50 * speaks]
        self.handlers = rng.sample([*VECTORS], rng.choice([0, 1, 2, 3]))
        self.has = {kind: [self.chance(part) for _ in range(self.units)] for kind, (_, _, part) in LOCALS.items()}

    def chance(self, part):
        return self.rng.random() < part

    def lines(self):
        lines = [*SHARED[:2], f'DS {self.rng.choice([6, 20, 40])}', *SHARED[2:]]
        for unit in range(self.units):
            lines += self.locals_of(unit)
        lines += ['CSEG AT 0', 'LJMP F0']
        for number, vector in enumerate(self.handlers):
            lines += [f'CSEG AT 0{vector:X}H', f'LJMP H{number}', *self.handler(number, VECTORS[vector])]
        for unit in range(self.units):
            lines += self.unit(unit)
        if self.chance(0.1):
            lines += ['CSEG AT 0FFFAH', 'T: MOV P1,A', 'JNZ T', self.rng.choice(['SJMP T', 'AJMP 5', 'MOV A,B', 'NOP'])]
        return [*lines, 'END']

    def locals_of(self, unit):
        for kind, (memory, reserve, _) in LOCALS.items():
            if self.has[kind][unit]:
                name = f'?{kind}?F{unit}'
                yield from (f'{name} SEGMENT {memory} OVERLAYABLE', f'RSEG {name}', f'{kind}{unit}: {reserve}')

    def handler(self, number, asks):
        """A handler; some ask again for what they handle, with high priority."""
        code, own = f'?PR?H{number}', f'?DT?H{number}'
        body = [self.rng.choice(cut(HANDLED)).replace('HL', f'HL{number}') for _ in range(self.rng.randint(0, 4))]
        if self.chance(0.2):
            body += [*asks.split('|'), 'NOP']
        return [f'{code} SEGMENT CODE', f'{own} SEGMENT DATA OVERLAYABLE', f'RSEG {own}', f'HL{number}: DS 1',
                f'RSEG {code}', f'H{number}: NOP', *body, 'RETI']

    def unit(self, unit):
        name, count = f'?PR?F{unit}', self.rng.randint(3, 24)
        start = self.begun() if unit == 0 else []
        body = [row for at in range(count) for row in self.rows(unit, at, count)]
        last = ['RET'] if self.chance(0.97) else []
        if unit == 0:
            last = ['LJMP U0N0' if self.speaks or self.watches else self.rng.choice(['SJMP $', 'LJMP F0'])]
        return [f'{name} SEGMENT CODE', f'RSEG {name}', f'F{unit}:', *start, *self.set_locals(unit), *body,
                f'U{unit}N{count}:', *last]

    def begun(self):
        """How the main unit begins: the stack, mostly, then IE and IP, where it has handlers, and the serial line."""
        lines = ['MOV SP,#?STACK-1'] if self.chance(0.95) else []
        if self.handlers and self.chance(0.8):
            enabled = 0xBF if self.chance(0.1) else 0x80 + sum(1 << vector // 8 for vector in self.handlers)
            lines += [f'MOV IE,#{enabled}', f'MOV IP,#{self.rng.choice([0, 2, 8, self.rng.randrange(64)])}']
        return lines + (self.set_line() if self.speaks else self.set_devices() if self.watches else [])

    def set_line(self):
        """Mode 2, or mode 3 with timer 2, which overflows in each cycle or in each second one."""
        if self.chance(0.6):
            return ['MOV SCON,#98H', f'MOV PCON,#{self.rng.choice([0, 0x80])}']
        least = self.rng.choice([0xFF, 0xFE, 0xF4])
        return ['MOV RCAP2H,#0FFH', f'MOV RCAP2L,#{least}', 'MOV TH2,#0FFH', 'MOV T2CON,#34H', 'MOV SCON,#0D8H']

    def set_devices(self):
        high = [f'MOV {name},#{self.rng.choice([0xFF, 0xFE, 0x1F, self.rng.randrange(256)])}' for name in TIMERS]
        runs = self.rng.choice([0x50, 0x55, 0x10, 0x40, self.rng.randrange(256)])
        return [*high, 'MOV RCAP2H,#0FFH', f'MOV TMOD,#{self.rng.randrange(256)}', f'MOV T2CON,#{self.byte()}',
                f'MOV SCON,#{self.rng.randrange(256)}', f'MOV PCON,#{self.rng.choice([0, 0x80])}', f'MOV TCON,#{runs}']

    def set_locals(self, unit):
        """Mostly the locals are written before they are read, in some units only where CY is 0."""
        sets = {'DT': [f'MOV DT{unit},#1', f'MOV DT{unit}+1,#2'], 'BI': [f'CLR BI{unit}'],
                'ID': [f'MOV R0,#ID{unit}', 'MOV @R0,A', 'INC R0', 'MOV @R0,A']}
        written = [line for kind, lines in sets.items() if self.has[kind][unit] and self.chance(0.9) for line in lines]
        return [f'JC U{unit}N0', *written, 'CPL C'] if unit and self.chance(0.3) else written

    def rows(self, unit, at, count):
        """The statements at a place of a unit; now and then a call, mostly with its argument."""
        label = f'U{unit}N{at}:'
        if unit + 1 < self.units and self.chance(0.2):
            called = self.rng.randint(unit + 1, min(unit + 2, self.units - 1))
            is_given = self.has['AG'][called] and self.chance(0.9)
            given = [f'MOV AG{called},#{self.rng.randrange(256)}'] if is_given else []
            return [label, *given, f'{"LCALL" if self.chance(0.9) else "LJMP"} F{called}']
        kind, = self.rng.choices(KINDS, self.weights)
        return [label, *self.filled(self.rng.choice(kind), unit, at, count).split('|')]

    def filled(self, text, unit, at, count):
        """Statements with their operands."""
        draws = {
            '{n}': self.byte, '{r}': lambda: self.rng.randrange(8), '{i}': lambda: self.rng.randrange(2),
            '{l}': lambda: self.label(unit, at, count), '{d}': lambda: self.direct(unit), '{b}': lambda: self.bit(unit),
            '{p}': lambda: self.pointer(unit), '{x}': lambda: self.external(unit),
        }
        for word, draw in draws.items():
            while word in text:
                text = text.replace(word, str(draw()), 1)
        return text

    def byte(self):
        return self.rng.choice([0, 1, 2, 0x7F, 0x80, 0xFF, self.rng.randrange(256)])

    def label(self, unit, at, count):
        """A label a little further on, or now and then before."""
        least = max(0, at - 1) if self.chance(0.2) else at + 1
        return f'U{unit}N{self.rng.randint(least, min(count, at + 3))}'

    def own(self, unit, *kinds):
        return [f'{kind}{unit}' for kind in kinds if self.has[kind][unit]]

    def direct(self, unit):
        if self.chance(0.04):
            return self.rng.choice([*self.own(self.rng.randrange(self.units), 'DT', 'AG'), self.rng.randrange(128)])
        second = [f'{name}+1' for name in self.own(unit, 'DT')]
        shared = ['W0', 'W1', 'W0', 'W1', *3 * [self.rng.choice(REGISTERS)]]
        return self.rng.choice([*6 * self.own(unit, 'DT', 'AG'), *second, *shared])

    def bit(self, unit):
        if self.chance(0.05):
            others = self.own(self.rng.randrange(self.units), 'BI')
            return self.rng.choice([*others, *ODD_BITS, self.rng.randrange(128)])
        return self.rng.choice([*4 * self.own(unit, 'BI'), *BIT_NAMES])

    def pointer(self, unit):
        own = 4 * self.own(unit, 'ID', 'DT', 'AG')
        return self.rng.choice([*own, 'W0', 'W1', '0FFH', '80H', self.rng.randrange(256)])

    def external(self, unit):
        return self.rng.choice(['Z0', 'Z0+1', *3 * self.own(unit, 'XD'), '100'])


def script(rng):
    """A script of levels and frames."""
    lines, cycle = [f'FILL {rng.randrange(256):02X}'] if rng.random() < 0.3 else [], 1
    for _ in range(rng.choice([0, 0, 3, 12])):
        cycle += rng.choice([0, 1, 2, 5, 20, 60])
        level = rng.choice([0xFF, 0, 0xF3, 0xCF, 0xFC, rng.randrange(256)])
        frame = f'RX {cycle} {rng.randrange(256):02X}{rng.choice(["", " 0", " 1"])}'
        lines.append(frame if rng.random() < 0.4 else f'PIN {cycle} P{rng.randrange(4)} {level:02X}')
    return text_of(lines)


def is_right(ran, steps):
    status, text, kept = ran
    if 'h' not in kept:
        return False
    told, _, record = text.decode().partition('RUN\n')
    wanted = board.Board(told, objects.read_hex(kept['h']), kept['s'].decode()).run(steps)
    return (status, record) == (int('EVENT' in wanted), wanted)


def case(number):
    rng = random.Random(number)
    lines, steps = Drawn(rng, speaks=rng.random() < 0.15).lines(), rng.choice([20, 60, 200, 500])
    words = ['build', '--hex', 'h', '--script', 's', '--steps', str(steps), 'a.a51']
    files = {'a.a51': text_of(lines).encode(), 's': script(rng).encode()}
    return f'board {number}', words, files, lambda ran: is_right(ran, steps)


CASES = [case(number) for number in range(COUNT)]
