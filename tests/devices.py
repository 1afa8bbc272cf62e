"""The timers, the serial line and the external interrupts of the 8052, a second time and apart from the program, after
docs/SIMULATOR.md and the family manual; and the script that gives their pins and frames."""

P0, PCON, TCON, TMOD, TL0, TL1, TH0, TH1, P1, SCON, SBUF, P2, P3, T2CON, RCAP2L, RCAP2H, TL2, TH2 = (
    0x80, 0x87, 0x88, 0x89, 0x8A, 0x8B, 0x8C, 0x8D, 0x90, 0x98, 0x99, 0xA0, 0xB0, 0xC8, 0xCA, 0xCB, 0xCC, 0xCD)
PORTS = [P0, P1, P2, P3]
TIMERS = [(TL0, TH0, 0x20, 0x10, 0x04, 0x10), (TL1, TH1, 0x80, 0x40, 0x08, 0x20)]     # TL, TH, TF, TR, pins INT and T
CAPTURES, FROM_PIN_2, RUNS_2, SEES_PIN_2, SENDS_2, RECEIVES_2, PIN_2, OVERFLOW_2 = (1 << bit for bit in range(8))
RI, TI, RB8, TB8, REN, SM2, SM1, SM0 = (1 << bit for bit in range(8))
SMOD = 0x80


class Script:
    """The lines of a script: the fill, the outer levels of the ports, and the frames of a cycle."""

    def __init__(self, text=''):
        self.fill, self.pins, self.frames = 0, [], {}
        for line in text.splitlines():
            words = line.split()
            if words[:1] == ['FILL']:
                self.fill = int(words[1], 16)
            elif words[:1] == ['PIN']:
                self.pins.append((int(words[1]), int(words[2][1]), int(words[3], 16)))
            elif words[:1] == ['RX']:
                frame = int(words[2], 16), int(words[3]) if len(words) > 3 else 1
                self.frames.setdefault(int(words[1]), []).append(frame)

    def levels(self, cycle):
        levels = [0xFF] * 4
        for begin, port, level in self.pins:
            if begin <= cycle:
                levels[port] = level
        return levels


class Devices:
    def __init__(self, script):
        self.script = script
        self.levels = script.levels(0)
        self.left = self.count = 0

    def send(self, registers, byte):
        """A write to SBUF."""
        scon = registers[SCON]
        self.mode = 2 * bool(scon & SM0) + bool(scon & SM1)
        self.sent = byte, f' {scon >> 3 & 1}' if self.mode > 1 else ''
        self.left, self.count = [8, 9, 10, 10][self.mode], 0

    def tick(self, registers, cycle):
        """The machine cycle that ends as this one; the text of the byte whose sending ends, or none."""
        outer = self.script.levels(cycle)
        now = [registers[port] & level for port, level in zip(PORTS, outer)]
        self.falls = [before & ~level for before, level in zip(self.levels, now)]
        self.now, self.registers = now, registers
        overflows_1 = self.timers()
        overflows_2 = self.timer_2()
        text = self.sending(overflows_1, overflows_2)
        for frame in self.script.frames.get(cycle, []):
            self.receive(*frame)
        self.external()
        self.levels = now
        return text and f'{cycle} TX {text}\n'

    # Timers 0 and 1.

    def timers(self):
        """Counts both, and gives the overflows of timer 1."""
        tmod = self.registers[TMOD]
        if tmod & 3 != 3:
            self.timer(0, tmod & 15, self.runs(0, tmod & 15), True)
            return tmod >> 4 & 3 != 3 and self.timer(1, tmod >> 4, self.runs(1, tmod >> 4), True)
        overflows = tmod >> 4 & 3 != 3 and self.timer(1, tmod >> 4, True, False)
        if self.runs(0, tmod & 15) and self.is_counted(0, tmod & 15):
            self.eight_bits(TL0, 0x20)
        if self.registers[TCON] & 0x40:
            self.eight_bits(TH0, 0x80)
        return overflows

    def runs(self, number, mode):
        _, _, _, run, pin, _ = TIMERS[number]
        return self.registers[TCON] & run and (not mode & 8 or self.now[3] & pin)

    def is_counted(self, number, mode):
        return not mode & 4 or self.falls[3] & TIMERS[number][5]

    def eight_bits(self, register, flag):
        self.registers[register] = (self.registers[register] + 1) % 256
        if self.registers[register] == 0:
            self.registers[TCON] |= flag

    def timer(self, number, mode, runs, flags):
        """Counts a timer in one of the modes 0 to 2; whether it overflows."""
        low, high, flag, _, _, _ = TIMERS[number]
        registers = self.registers
        if not runs or not self.is_counted(number, mode):
            return False
        size = [32, 256, 256][mode & 3]
        value = registers[low] % size + 1
        registers[low] = registers[low] // size * size + value % size
        overflows = value == size
        if overflows and mode & 3 == 2:
            registers[low] = registers[high]
        elif overflows:
            registers[high] = (registers[high] + 1) % 256
            overflows = registers[high] == 0
        if overflows and flags:
            registers[TCON] |= flag
        return overflows

    # Timer 2.

    def timer_2(self):
        """Counts timer 2, and gives its overflows."""
        control, overflows = self.registers[T2CON], 0
        rates = control & (SENDS_2 | RECEIVES_2)
        if control & RUNS_2:
            times = bool(self.falls[1] & 1) if control & FROM_PIN_2 else 6 if rates else 1
            overflows = sum(self.count_2(rates) for _ in range(times))
        if control & SEES_PIN_2 and self.falls[1] & 2:
            self.registers[T2CON] |= PIN_2
            if not rates and control & CAPTURES:
                self.registers[RCAP2L], self.registers[RCAP2H] = self.registers[TL2], self.registers[TH2]
            elif not rates:
                self.reload_2()
        return overflows

    def reload_2(self):
        self.registers[TL2], self.registers[TH2] = self.registers[RCAP2L], self.registers[RCAP2H]

    def count_2(self, rates):
        value = (256 * self.registers[TH2] + self.registers[TL2] + 1) % 65_536
        self.registers[TH2], self.registers[TL2] = divmod(value, 256)
        if value:
            return False
        if not rates:
            self.registers[T2CON] |= OVERFLOW_2
        if rates or not self.registers[T2CON] & CAPTURES:
            self.reload_2()
        return True

    # The serial line and the external interrupts.

    def sending(self, overflows_1, overflows_2):
        if not self.left:
            return None
        doubled = self.registers[PCON] & SMOD
        if self.mode == 0:
            more, needed = 1, 1
        elif self.mode == 2:
            more, needed = 12, 32 if doubled else 64
        elif self.registers[T2CON] & SENDS_2:
            more, needed = overflows_2, 16
        else:
            more, needed = overflows_1, 16 if doubled else 32
        self.count += more
        if self.count < needed:
            return None
        self.count -= needed
        self.left -= 1
        if self.left:
            return None
        self.registers[SCON] |= TI
        return f'{self.sent[0]:02X}{self.sent[1]}'

    def receive(self, byte, ninth):
        scon = self.registers[SCON]
        has_ninth = scon & (SM0 | SM1)
        if not scon & REN or scon & RI or has_ninth and scon & SM2 and not ninth:
            return
        self.registers[SBUF] = byte
        self.registers[SCON] |= RI
        if has_ninth:
            self.registers[SCON] = self.registers[SCON] & ~RB8 | RB8 * ninth

    def external(self):
        for pin, flag in ((0x04, 0x02), (0x08, 0x08)):
            tcon = self.registers[TCON]
            asks = tcon & flag or self.falls[3] & pin if tcon & flag // 2 else not self.now[3] & pin
            self.registers[TCON] = tcon & ~flag | flag * bool(asks)
