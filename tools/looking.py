"""The commands of the tool `debug` that look at a state."""
import re

AROUND = 4
HISTORY = 10
# The levels at the pins of a port before a script says any.
HIGH = 0xFF
PIN = re.compile(r'PIN (\d+) P([0-3]) ([0-9A-F]{1,4})\s*$')


class Looking:
    """Commands over a run, the state in which it is, and what is known of its program."""

    def known(self):
        """What holds now: internal RAM, and the calls that have not returned."""
        return self.run.known(self.state.steps)

    def outer(self, address):
        """A byte of external data memory, if the run has written it."""
        return self.run.outer_byte(address, self.state.steps)

    def do_where(self, text):
        """where: the place, the active units, and the source around it."""
        self.show()
        print(f'  active: {", ".join(self.see.active(self.state))}')
        for line in self.see.around(self.state.pc, AROUND):
            print(line)

    def do_history(self, text):
        """history [N]: the last N steps before this state, else ten."""
        count = self.number(text, HISTORY)
        for steps in range(max(0, self.state.steps - (count or 0)), self.state.steps):
            state = self.run.at(steps)
            print(f'  {steps} steps, {state.cycle} cycles: {self.see.place(state)}')

    def do_regs(self, text):
        """regs: the registers."""
        for line in self.see.registers(self.state, self.known()):
            print(line)

    def do_stack(self, text):
        """stack: the calls and interrupts that have not returned, the last one first, with their bytes of the stack."""
        print(f'  SP {self.state.sp:02X}')
        for line in self.see.stack(self.state, self.known()):
            print(line)

    def do_locals(self, text):
        """locals [all]: locals and arguments of the current unit, or of all active units."""
        for line in self.see.variables(self.state, self.known(), self.outer, text.strip() == 'all'):
            print(line)

    def do_print(self, text):
        """print NAME: a variable; of one that is dead, what has its bytes now. In external memory a byte that the run
        has not written is '..'."""
        for line in self.see.variable(text.strip(), self.state, self.known(), self.outer):
            print(line)

    def do_memory(self, text):
        """memory [HH [N]] | x HHHH [N] | c HHHH [N]: N bytes of internal RAM from an address on, else all; of external
        data memory what the run has written; of program memory. - is dead, ? was not written, bb has some bits."""
        words = text.split()
        space = words.pop(0).lower() if words[:1] and words[0].lower() in ('x', 'c') else ''
        width = 4 if space else 2
        if not all(re.fullmatch(f'[0-9A-Fa-f]{{1,{width}}}', it) for it in words[:1]):
            print(f'  an address has one to {width} hexadecimal digits')
            return
        first = int(words[0], 16) if words else 0
        most = (0x10000 if space else 0x100) - first
        count = self.number(' '.join(words[1:]), 16 if words or space else most)
        if count is not None:
            for line in self.see.dump(self.cell_of(space), first, min(count, most), width):
                print(line)

    def cell_of(self, space):
        """What is shown of a byte of a memory by its address."""
        if space == 'x':
            return lambda at: '..' if self.outer(at) is None else f'{self.outer(at):02X}'
        if space == 'c':
            code = self.see.code()
            return lambda at: f'{code[at]:02X}' if at in code else '..'
        ram = self.known().ram
        return lambda at: 'bb' if len(ram.get(at, '')) == 8 else ram.get(at, '')

    def do_ports(self, text):
        """ports: the latches of the ports, and the levels that the script puts at their pins."""
        latches = [f'P{at} {self.run.port(f"P{at}", self.state.steps):02X}' for at in range(4)]
        print('  latches ' + '  '.join(latches))
        levels = {at: HIGH for at in range(4)}
        for found in filter(None, map(PIN.match, self.script)):
            if int(found[1]) <= self.state.cycle:
                levels[int(found[2])] = int(found[3], 16)
        print('  levels  ' + '  '.join(f'P{at} {level:02X}' for at, level in levels.items()))

    do_p, do_l, do_w = do_print, do_locals, do_where
