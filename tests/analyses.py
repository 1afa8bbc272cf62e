"""`stack` and `dis` of the sources of boards.py, and `flat` of their HEX, answered apart from the program over the map
and the HEX of `build`, after docs/COMMAND.md: the heights of the stack, the text of the code, the record."""
import board
import boards
import objects
from links import text_of

COUNT = 100
RESET = -1
SP = 0x81
# The forms that write a direct address.
WRITING = {'XCH A,direct'} | {form for row in board.FORMS.values() for form in row
                              if board.parts_of(form)[1][:1] == ['direct'] and form != 'PUSH direct'}
UNCONDITIONAL = {'AJMP', 'LJMP', 'SJMP', 'JMP'}


class Instruction:
    """The instruction at an address: its form, its bytes, the address after it, and where it leads, or none."""

    def __init__(self, image, at):
        opcode = image.get(at, 0xFF)
        self.at, self.form = at, board.form_of(opcode)
        self.name, self.words = board.parts_of(self.form)
        self.length = board.length_of(self.form)
        self.bytes = [image.get((at + k) % 65_536, 0xFF) for k in range(self.length)]
        self.after = at + self.length
        self.target = None
        if self.words and self.words[-1] == 'rel':
            self.target = self.after + board.signed(self.bytes[-1])
        elif self.words == ['addr16']:
            self.target = 256 * self.bytes[1] + self.bytes[2]
        elif self.words == ['addr11']:
            self.target = self.after & 0xF800 | opcode // 32 << 8 | self.bytes[1]

    @property
    def direct(self):
        """The direct address that it writes, or none."""
        if self.form not in WRITING:
            return None
        return self.bytes[2 if self.form == 'MOV direct,direct' else 1]

    def is_call(self):
        return self.name in ('ACALL', 'LCALL')


# The bound of the stack.

class Bound:
    """The points of a program, what starts call, and the refusals by their numbers."""

    def __init__(self, text, image):
        self.program, self.image = board.Program(text), image
        self.heights, self.calls, self.faults = {}, {}, {number: set() for number in range(1, 7)}
        self.roots = [address for address in [0, *board.VECTORS] if f'@{address:04X}' in self.program.code]
        self.ahead = [(RESET, 0, 7)] + [(vector, vector, 0) for vector in self.roots[1:]]
        while self.ahead:
            point = self.ahead.pop()
            start, at, height = point
            seen = self.heights.setdefault(start, {}).setdefault(at, set())
            if height not in seen:
                seen.add(height)
                self.follow(*point)

    def follow(self, start, at, height):
        unit = self.program.unit_at(at)
        instruction = Instruction(self.image, at)
        if any((at + k) % 65_536 not in self.program.code[unit] for k in range(instruction.length)):
            return
        name = instruction.name
        if name in ('', 'RET', 'RETI') or self.is_faulty(start, at, height, instruction):
            return
        here, above = self.program.code[unit], self.above(instruction, height)
        target = None if instruction.target is None else instruction.target % 65_536
        counts = target is not None and self.counts(unit, target)
        if instruction.is_call():
            if not counts:
                return
            self.calls.setdefault(start, set()).add((height, target))
            self.ahead.append((target, target, 0))
        elif counts:
            self.ahead.append((start, target, above))
        if name not in UNCONDITIONAL and instruction.after % 65_536 in here:
            self.ahead.append((start, instruction.after % 65_536, above))

    def above(self, instruction, height):
        if instruction.form == 'MOV direct,#data' and instruction.direct == SP:
            return instruction.bytes[2]
        return height + {'PUSH': 1, 'POP': -1}.get(instruction.name, 0)

    def counts(self, unit, target):
        there = self.program.unit_at(target)
        return there is not None and (there == unit or there in self.program.calls[unit])

    def is_faulty(self, start, at, height, instruction):
        """Notes K1, K2, K3 and the PUSH of K6."""
        sets = instruction.form == 'MOV direct,#data' and start == RESET
        tests = {1: instruction.direct == SP and not sets, 2: instruction.name == 'JMP',
                 3: instruction.name == 'POP' and height == 0, 6: instruction.name == 'PUSH' and height == 255}
        for number, fails in tests.items():
            if fails:
                self.faults[number].add((start, at))
        return any(tests.values())

    def called(self, start):
        """All starts that a start calls, directly or through others."""
        reached, ahead = set(), [start]
        while ahead:
            for _, target in self.calls.get(ahead.pop(), ()):
                if target not in reached:
                    reached.add(target)
                    ahead.append(target)
        return reached

    def own(self, start):
        return max(height for heights in self.heights[start].values() for height in heights)

    def depth(self, start):
        called = [height + 2 + self.depth(target) for height, target in self.calls.get(start, ())]
        return max([self.own(start), *called])

    def path(self, start):
        if self.own(start) == self.depth(start):
            return [start]
        depth = self.depth(start)
        deepest = [target for height, target in self.calls[start] if height + 2 + self.depth(target) == depth]
        return [start, *self.path(min(deepest))]

    def refusal(self):
        for number in (1, 2, 3):
            if self.faults[number]:
                start, at = min(self.faults[number])
                return f'STACK K{number} {start_text(start)} AT {at:04X}\n'
        around = [start for start in sorted(self.heights) if start in self.called(start)]
        if around:
            return f'STACK K4 {start_text(around[0])}\n'
        unlike = [(start, at) for start, places in self.heights.items()
                  for at, heights in places.items() if len(heights) > 1]
        if unlike:
            start, at = min(unlike)
            return f'STACK K5 {start_text(start)} AT {at:04X}\n'
        return 'STACK K6\n' if self.faults[6] or self.total() > 255 else None

    def total(self):
        handlers = sorted((2 + self.depth(vector) for vector in self.roots[1:]), reverse=True)
        return self.depth(RESET) + sum(handlers[:2])

    def text(self):
        """The status and the text of `stack`."""
        refusal = self.refusal()
        if refusal:
            return 11, refusal
        starts = sorted(set(self.heights) - {RESET})
        lines = [f'PROC {start:04X} {self.program.unit_at(start)} {self.depth(start)}' for start in starts]
        for address in self.roots:
            start = address or RESET
            path = ','.join(map(start_text, self.path(start)))
            lines.append(f'STACK @{address:04X} {self.depth(start)} {path}')
        return 0, text_of([*lines, f'BOUND {self.total():02X}'])


def start_text(start):
    return 'RESET' if start == RESET else f'{start:04X}'


# The text of the code.

class Unit:
    """The statements of a unit, each an instruction, or none where it is a byte."""

    def __init__(self, image, addresses):
        self.image, self.statements = image, {}
        at = addresses.start
        while at < addresses.stop:
            instruction = Instruction(image, at)
            is_kept = self.is_written(instruction, addresses.stop)
            self.statements[at] = instruction if is_kept else None
            at += instruction.length if is_kept else 1
        jumps = {it.target for it in self.statements.values() if it}
        self.labels = jumps & set(self.statements)

    def is_written(self, instruction, end):
        if not instruction.form or instruction.after > end:
            return False
        near = instruction.words and instruction.words[-1] in ('rel', 'addr11')
        if near and instruction.after == 65_536:
            return False
        return instruction.words[-1:] != ['rel'] or 0 <= instruction.target < 65_536

    def lines(self):
        for at, instruction in self.statements.items():
            label = f'L{at:04X}: ' if at in self.labels else ''
            yield label + (self.statement(instruction) if instruction else f'DB {byte_text(self.image.get(at, 0xFF))}')

    def statement(self, instruction):
        fields = instruction.bytes[1:]
        words = instruction.words
        if instruction.form == 'MOV direct,direct':
            fields = fields[::-1]
        operands = [self.operand(word, fields, instruction) for word in words]
        return ' '.join([instruction.name, *([','.join(operands)] if operands else [])])

    def operand(self, word, fields, instruction):
        """An operand; its bytes are taken from the fields."""
        if word in ('rel', 'addr11', 'addr16'):
            target = instruction.target
            return f'L{target:04X}' if target in self.labels else f'0{target:04X}H'
        if word in ('direct', 'bit', '/bit', '#data'):
            return {'/bit': '/', '#data': '#'}.get(word, '') + byte_text(fields.pop(0))
        if word == '#data16':
            return f'#0{fields[0]:02X}{fields[1]:02X}H'
        number = instruction.bytes[0]
        return {'Rn': f'R{number % 8}', '@Ri': f'@R{number % 2}'}.get(word, word)


def byte_text(byte):
    return f'0{byte:02X}H'


def code_text(text, image):
    lines = ['$NOMOD51']
    for addresses in sorted(board.Program(text).code.values(), key=lambda it: it.start):
        if addresses:
            lines += [f'CSEG AT 0{addresses.start:04X}H', *Unit(image, addresses).lines()]
    return text_of([*lines, 'END'])


def flat_differs(run, hex_text, script, steps):
    status, written, _ = run(['flat', '--script', 's', '--steps', steps, 'h'], {'h': hex_text, 's': script})
    record = board.Flat(objects.read_hex(hex_text), script.decode()).run(int(steps))
    wanted = int('EVENT' in record), f'RUN\n{record}'
    return None if (status, written.decode()) == wanted else f'flat {status} {written[:300]!r} for {wanted}'


def differs(run, case):
    """What is wrong with `stack`, `dis` or `flat` of a source, or nothing."""
    _, words, files, _ = case
    _, text, kept = run(words, files)
    told, image = text.decode().partition('RUN\n')[0], objects.read_hex(kept['h'])
    status, written, _ = run(['stack', 'a.a51'], files)
    wanted = Bound(told, image).text()
    if (status, written.decode()) != wanted:
        return f'stack {status} {written!r} for {wanted}'
    status, written, _ = run(['dis', 'a.a51'], files)
    if (status, written.decode()) != (0, code_text(told, image)):
        return f'dis {status} {written[:300]!r}'
    return flat_differs(run, kept['h'], files['s'], words[words.index('--steps') + 1])


CASES = boards.CASES[:COUNT]
