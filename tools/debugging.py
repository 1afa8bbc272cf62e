"""The commands of the tool `debug`."""
import cmd
import re

import tracing
from looking import Looking

LINES_ON_THE_WAY = 5


class Debugger(Looking, cmd.Cmd):
    """The commands that go through a run; those that look at it are in Looking."""

    intro = None
    prompt = '(m51) '

    def __init__(self, run, see, script, source):
        cmd.Cmd.__init__(self, stdin=source)
        self.run, self.see, self.script, self.state = run, see, script, run.at(0)
        self.breaks, self.watched = [], []
        # Where nobody types, each command is written before its answer.
        self.use_rawinput = source.isatty()

    # Reading commands

    def precmd(self, line):
        line = line.partition('#')[0].strip() if not self.use_rawinput else line.strip()
        if not self.use_rawinput:
            print('quit' if line == 'EOF' else line)
        return 'quit' if line == 'EOF' else line

    def emptyline(self):
        self.do_step('')

    def default(self, line):
        print(f'  there is no command {line.split()[0]}; help lists them')

    def completedefault(self, text, *_):
        """The names that begin with a text."""
        return sorted({it.name for it in self.see.of.labels if it.name.startswith(text.upper())})

    def number(self, text, usual):
        """A number of a command, or nothing after a line about it."""
        text = text.strip()
        if text and not (text.isascii() and text.isdigit() and len(text) < 10):
            print(f'  {text} is no number')
            return None
        return int(text) if text else usual

    def places(self, text):
        """The code addresses that a text names, or nothing after a line about it."""
        found = self.see.places(text.strip(), self.state)
        if not found:
            print(f'  {text.strip()} is no label, no line with an instruction, and no address in code')
        return found

    # Going

    def show(self):
        """Where the run is."""
        state = self.state
        print(f'{state.steps} steps, {state.cycle} cycles: {self.see.place(state)}')
        end = self.run.end_at(state.steps)
        if end:
            print(f'the run ends here: {end}')
            for line in self.see.end_places(end):
                print(line)

    def go(self, steps):
        """Goes to the state after this number of steps, or to the last one, and shows what was written on the way."""
        before, self.state = self.state.steps, self.run.at(steps)
        told = self.run.told_between(before, self.state.steps)
        if len(told) > LINES_ON_THE_WAY:
            print(f'    {len(told) - LINES_ON_THE_WAY} more lines')
        for line in told[-LINES_ON_THE_WAY:]:
            print(f'    {line}')
        self.show()

    def go_until(self, stop):
        """Goes to the next state for which `stop` holds, or which has a break, or to the last one."""
        steps = self.state.steps
        for state in self.run.states(steps + 1):
            steps = state.steps
            if stop(state) or state.pc in self.breaks:
                break
        self.go(steps)

    def go_out(self, depth):
        """Goes on until this number of calls and interrupts, less one, have returned."""
        last = self.state

        def stop(state):
            nonlocal depth, last
            depth += (last.word in (*tracing.CALLS, tracing.VECTOR)) - (last.word in tracing.RETURNS)
            last = state
            return depth <= 0

        self.go_until(stop)

    def do_step(self, text):
        """step [N]: N steps, else one; an empty line does the same."""
        count = self.number(text, 1)
        if count is not None:
            self.go(self.state.steps + count)

    def do_next(self, text):
        """next [N]: N steps, else one; a call or an interrupt with all that it does is one, unless it has a break."""
        for _ in range(self.number(text, 1) or 0):
            if self.state.word in (*tracing.CALLS, tracing.VECTOR):
                self.go_out(0)
            else:
                self.go(self.state.steps + 1)

    def do_finish(self, text):
        """finish: goes on until the current call or interrupt has returned, or to a break."""
        self.go_out(1)

    def do_continue(self, text):
        """continue: goes on to a break, to a change of what is watched, or to the end of the run."""
        history, steps = self.run.known(self.state.steps), self.state.steps
        before = [history.ram.get(it) for it in self.watched]

        def stop(state):
            history.follow(state)
            return [history.ram.get(it) for it in self.watched] != before

        self.go_until(stop)
        if self.watched and self.state.steps > steps:
            for name in self.names:
                self.do_print(name)

    def do_until(self, text):
        """until WHERE | cycle N | event: goes on to a place, to the first step that starts in cycle N or later, or to
        the end of the run; a break stops it too."""
        words = text.split()
        if words[:1] == ['cycle']:
            cycle = self.number(' '.join(words[1:]), None)
            if cycle is not None:
                self.go_until(lambda state: state.cycle >= cycle)
        elif words in (['event'], ['end']):
            self.go_until(lambda state: False)
        else:
            places = self.places(text)
            if places:
                self.go_until(lambda state: state.pc in places)

    def do_back(self, text):
        """back [N]: N steps back, else one."""
        count = self.number(text, 1)
        if count is not None:
            self.go(max(0, self.state.steps - count))

    def do_reverse(self, text):
        """reverse [WHERE]: back to the last time at a place or at a break, or to the start."""
        places = self.places(text) if text.strip() else []
        if places or not text.strip():
            steps = self.state.steps - 1
            while steps > 0 and self.run.at(steps).pc not in (*places, *self.breaks):
                steps -= 1
            self.go(max(0, steps))

    def do_goto(self, text):
        """goto N: to the state after N steps of the run."""
        count = self.number(text, None)
        if count is not None:
            self.go(count)

    def do_quit(self, text):
        """quit: ends."""
        return True

    # Breaks and what is watched

    def do_break(self, text):
        """break [WHERE]: whatever goes on stops there; without a place lists the breaks."""
        if text.strip():
            self.breaks += [it for it in self.places(text) if it not in self.breaks]
        for address in sorted(self.breaks):
            print(f'  {address:04X} {self.see.text(address)}')

    def do_delete(self, text):
        """delete [WHERE]: no break there any more; without a place no break, and nothing that is watched."""
        gone = self.places(text) if text.strip() else self.breaks
        self.breaks = [it for it in self.breaks if it not in gone]
        if not text.strip():
            self.watched, self.names = [], []

    names = []

    def do_watch(self, text):
        """watch NAME: `continue` stops after a step that changes the variable, or makes it live or dead."""
        found = self.see.bytes_of(text.strip())
        if not found:
            print(f'  {text.strip()} is no variable in internal RAM')
            return
        self.watched = [*self.watched, *found]
        self.names = [*self.names, text.strip()]

    do_s, do_n, do_c, do_b, do_q, do_u = do_step, do_next, do_continue, do_back, do_quit, do_until

    def do_help(self, text):
        """help [COMMAND]: the commands, or what one does."""
        found = [name for name in dir(self) if name.startswith('do_') and len(name) > 4]
        wanted = [f'do_{text.strip()}'] if text.strip() else found
        for name in wanted:
            say = getattr(self, name, None)
            print(re.sub(r'\s+', ' ', say.__doc__) if say else f'  there is no command {text.strip()}')
