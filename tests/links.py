"""Random objects, libraries and control files, linked apart from the program by linker.py: of each the first rule that
fails, or the map and the bytes of the HEX."""
import random

import linker
import objects
from linker import ARGUMENT, OVERLAYABLE, Fixup, Module, Public, Segment
from objects import (
    ABSOLUTE, BIT, BIT_FIELD, BITADDRESSABLE, BYTE, CODE, CONV, DATA, FIELD_BYTES, HIGH, IDATA, INBLOCK, INBLOCK_FIELD,
    INPAGE, LOW, NUMBER, PAGE, RELATIVE, UNIT, WORD, XDATA)

COUNT = 400
FORMS = {
    CODE: [*12 * [WORD], LOW, HIGH, *3 * [INBLOCK_FIELD], RELATIVE], XDATA: [WORD, LOW, HIGH], DATA: [BYTE, LOW, WORD],
    IDATA: [BYTE, LOW], BIT: [BIT_FIELD, BIT_FIELD, WORD], NUMBER: [WORD, LOW],
}
CODE_TYPES, XDATA_TYPES = [*6 * [UNIT], INPAGE, INBLOCK, PAGE], [*4 * [UNIT], INPAGE, PAGE]


def title_of(segment):
    return segment.name or f'@{segment.base:04X}'


def public_of(title):
    """The name of the public in a segment."""
    return 'P' + title.lstrip('@')


class Drawn:
    """A random program: its segments by name, what each unit refers to, and modules with all of that."""

    def __init__(self, rng):
        self.rng = rng
        self.letters = 'ABCDEFGH'[:rng.choice([1, 3, 5, 8, 8])]
        self.scale = rng.choice([2, 6, 6, 20, 40])
        self.declared = self.relocatable()
        self.modules = [Module(f'M{number}') for number in range(rng.randint(1, 5))]
        self.numbers = {}                             # the modules and the numbers of the parts of each name
        self.publics = {}                             # the kind of each public
        self.declare()
        self.export()
        self.due = self.calls()
        self.refer()

    def chance(self, part):
        return self.rng.random() < part

    def size(self, most):
        return 0 if self.chance(0.04) else self.rng.randint(1, most)

    def relocatable(self):
        """The kind, type, flags and largest part of each name."""
        draw, names = self.rng.choice, {}
        for letter in self.letters:
            names[f'?PR?{letter}'] = CODE, draw(CODE_TYPES), 0, draw([20, 20, 20, 100, 400])
            if self.chance(0.7):
                names[f'?DT?{letter}'] = DATA, draw([*9 * [UNIT], BITADDRESSABLE]), OVERLAYABLE, self.scale
            if self.chance(0.15):
                names[f'?ID?{letter}'] = IDATA, UNIT, OVERLAYABLE, self.scale
            if self.chance(0.2):
                names[f'?BI?{letter}'] = BIT, UNIT, OVERLAYABLE, 12
            if self.chance(0.15):
                names[f'?XD?{letter}'] = XDATA, draw(XDATA_TYPES), OVERLAYABLE, 200
            if self.chance(0.3):
                names[f'?AG?{letter}'] = DATA, UNIT, OVERLAYABLE | ARGUMENT, self.scale
        for number in range(self.rng.randint(0, 4)):
            kind = draw([CODE, XDATA, DATA, DATA, IDATA, BIT])
            types = {CODE: CODE_TYPES, XDATA: XDATA_TYPES, DATA: [UNIT, UNIT, BITADDRESSABLE]}.get(kind, [UNIT])
            names[f'S{number}'] = kind, draw(types), 0, {CODE: 600, XDATA: 600, BIT: 40}.get(kind, self.scale)
        if self.chance(0.4):
            names['?STACK'] = IDATA, UNIT, 0, 4 * self.scale
        return names

    # Segments.

    def declare(self):
        if not self.chance(0.02):
            self.add(self.modules[0], Segment(CODE, ABSOLUTE, self.rng.choice([2, 3, 3, 3, 3, 20])))
        for vector in linker.ROOTS[1:]:
            if self.chance(0.12):
                self.add(self.rng.choice(self.modules), Segment(CODE, ABSOLUTE, self.rng.randint(3, 8), base=vector))
        if self.chance(0.2):
            self.add(self.rng.choice(self.modules), self.absolute())
        for name, shape in self.declared.items():
            parts = self.rng.choice([1, 1, 1, 2, 3])
            for module in self.rng.sample(self.modules, min(parts, len(self.modules))):
                self.add(module, self.part(name, *shape))

    def absolute(self):
        kind = self.rng.choice([CODE, XDATA, DATA, IDATA, BIT])
        base = self.rng.randrange(min(objects.MEMORY[kind], 0x900))
        return Segment(kind, ABSOLUTE, self.rng.randint(1, min(20, objects.MEMORY[kind] - base)), base=base)

    def part(self, name, kind, type_, flags, most):
        if self.chance(0.003):
            type_ = UNIT
        if self.chance(0.003):
            flags = 0
        if type_ in (BITADDRESSABLE, INPAGE) and not self.chance(0.05):
            most = min(most, 4 if type_ == BITADDRESSABLE else 80)
        return Segment(kind, type_, self.size(min(most, objects.LARGEST[kind])), name, flags=flags)

    def add(self, module, segment):
        """Adds a segment to a module, and bytes to all of it or to two parts of it."""
        module.segments.append(segment)
        number = len(module.segments)
        title = title_of(segment)
        self.numbers.setdefault(title, []).append((module, number))
        if segment.kind == CODE and segment.size and not self.chance(0.05):
            cut = self.rng.randint(1, segment.size) if self.chance(0.3) else segment.size
            pieces = [(0, cut), (cut + 1, segment.size)]
            module.pieces += [(number, low, bytes(self.rng.choices(range(256), k=high - low)))
                              for low, high in pieces if low < high]
        module.banks |= 1 << self.rng.choice([1, 2, 3]) if self.chance(0.01) else 0

    # Publics, externals and fixups.

    def export(self):
        """A public in the first part of each name, and some numbers."""
        for title, parts in self.numbers.items():
            module, number = parts[0]
            segment = module.segments[number - 1]
            self.publish(module, segment.kind, number, self.rng.randint(0, segment.size), public_of(title))
            if self.chance(0.003):
                self.publish(self.rng.choice(self.modules), segment.kind, 0, 5, public_of(title))
        for name in ('N1', 'N2'):
            kind, number = self.rng.choice([NUMBER, NUMBER, DATA, CODE]), self.rng.choice([5, 0x20, 0x90, 0x1234])
            self.publish(self.rng.choice(self.modules), kind, 0, number, name)

    def publish(self, module, kind, segment, number, name):
        if name not in [public.name for public in module.publics]:
            module.publics.append(Public(kind, segment, number, name))
            self.publics[name] = kind

    def calls(self):
        """For most units one that calls it: the reset calls the first."""
        handlers = [title for title in self.numbers if title.startswith('@')]
        callers = {'?PR?A': '@0000'}
        for before, letter in zip(self.letters, self.letters[1:]):
            others = [f'?PR?{earlier}' for earlier in self.letters[:self.letters.index(before) + 1]]
            callers[f'?PR?{letter}'] = self.rng.choice([*3 * others, *handlers, 'none'])
        return {title: [unit for unit, caller in callers.items() if caller == title] for title in callers.values()}

    def refer(self):
        for module in self.modules:
            for number, begin, data in module.pieces:
                self.refer_from(module, number, begin, begin + len(data))
            module.fixups.sort(key=lambda it: (it.segment, it.offset))

    def refer_from(self, module, number, at, after):
        """The calls that are due, and a few more fields, as far as the piece reaches."""
        title = title_of(module.segments[number - 1])
        names = self.due.pop(title, []) + [self.other(title) for _ in range(self.rng.randint(0, 3))]
        for name in names:
            at += self.rng.randint(0, 2)
            fixup = self.fixup(module, number, at, name)
            at += FIELD_BYTES.get(fixup.form, 1)
            if at > after:
                return
            module.fixups.append(fixup)

    def other(self, title):
        """A name that a segment refers to: data, a number, a later unit, or with little chance any unit."""
        units = [name for name in self.declared if self.declared[name][0] == CODE]
        later = [name for name in units if title < name]
        rest = [name for name in self.declared if name not in units]
        return self.rng.choice(units if self.chance(0.02) else [*rest, 'N1', *later[:1]])

    def fixup(self, module, number, at, name):
        kind = self.declared[name][0] if name in self.declared else NUMBER
        form = self.rng.choice(FORMS[kind])
        if name in self.declared and self.declared[name][1] == BITADDRESSABLE or self.chance(0.005):
            form = CONV
        bit = self.rng.randrange(8) if form == CONV else 0
        addend = self.rng.choice([0, 0, 0, 1, 2, 0xFFFF])
        own = [part for owner, part in self.numbers.get(name, []) if owner is module]
        if own and self.chance(0.7):
            return Fixup(number, at, form, own[0], addend, False, bit)
        return Fixup(number, at, form, self.external(module, kind, name), addend, True, bit)

    def external(self, module, kind, name):
        """The number of an external of that name."""
        public = public_of(name) if name in self.declared else name
        if self.chance(0.004):
            public = 'UNKNOWN'
        names = [known for _, known in module.externals]
        if public not in names:
            shown = NUMBER if self.chance(0.1) else XDATA if self.chance(0.005) else self.publics.get(public, kind)
            module.externals.append((shown, public))
            names.append(public)
        return names.index(public) + 1

    # The control file.

    def lines(self):
        """Control lines, each as its word and operands."""
        draws = [self.overlay, self.overlay, self.cut, self.no_overlay, self.reserve, self.order]
        return [self.rng.choice(draws)() for _ in range(self.rng.choice([0, 0, 1, 1, 2, 3]))]

    def unit(self):
        units = [title for title, shape in self.declared.items() if shape[0] == CODE]
        return self.rng.choice([*units, '@0000', *[title for title in self.numbers if title.startswith('@')]])

    def overlay(self):
        """A line that adds calls of later units, or, with little chance, of any."""
        titles = [self.unit() for _ in range(self.rng.randint(2, 4))]
        if self.chance(0.1):
            return '>', titles
        first, *others = sorted(set(titles), key=lambda title: title.replace('@', ' '))
        return '>', [first, *(others or ['?PR?A'])]

    def cut(self):
        """An edge that a fixup makes inside a module, where there is one."""
        edges = [(module.segments[fixup.segment - 1], module.segments[fixup.target - 1])
                 for module in self.modules for fixup in module.fixups if not fixup.is_external]
        titles = [[title_of(segment) for segment in edge] for edge in edges if edge[1].kind == CODE]
        return '~', self.rng.choice(titles) if titles and not self.chance(0.1) else [self.unit(), self.unit()]

    def no_overlay(self):
        return 'NOOVERLAY', [self.unit()]

    def reserve(self):
        kind, least, most, count = self.rng.choice(
            [(DATA, 0x08, 0xFF, 20), (DATA, 0, 0xFF, 90), (XDATA, 0, 0xFFFF, 0x300), (XDATA, 0, 0x400, 9)])
        low = self.rng.randint(least, most)
        return 'RESERVE', [kind, low, min(low + self.rng.randrange(count), most)]

    def order(self):
        names = [name for name, shape in self.declared.items() if not shape[2] or self.chance(0.02)] or ['NONE']
        name = self.rng.choice(names)
        shape = self.declared.get(name, (CODE, UNIT))
        class_ = 'BITADDRESSABLE' if shape[1] == BITADDRESSABLE else linker.KIND_NAMES[shape[0]]
        alike = [other for other in names if self.declared.get(other, shape)[:2] == shape[:2]]
        return 'ORDER', [class_, *self.rng.sample(alike, self.rng.randint(1, len(alike)))]


def text_of(lines):
    return ''.join(line + '\n' for line in lines)


def line_text(word, operands):
    if word in ('>', '~'):
        return f'OVERLAY({operands[0]} {word} {", ".join(operands[1:])})'
    if word == 'RESERVE':
        kind, low, high = operands
        return f'RESERVE({linker.KIND_NAMES[kind]}({low}-{high}))'
    return f'{word}({", ".join(operands)})'


def object_of(module):
    version = 2 if any(segment.flags & ARGUMENT for segment in module.segments) else 1
    records = [objects.segment(it.kind, it.type, it.size, it.name, it.base, it.flags) for it in module.segments]
    records += [objects.external(kind, name) for kind, name in module.externals]
    records += [objects.public(it.kind, it.segment, it.number, it.name) for it in module.publics]
    records += [objects.piece(number, offset, data.hex()) for number, offset, data in module.pieces]
    records += [objects.fixup(it.segment, it.offset, it.form, it.target, it.addend, it.is_external, it.bit)
                for it in module.fixups]
    return objects.header(module.name, version) + b''.join(records) + objects.end(module.name, module.banks)


def wanted(files, given, libraries, controls):
    """The status and the text of a refusal, or the link."""
    for name, content in files.items():
        read = {'obj': objects.object_refusal, 'lib': objects.library_refusal}.get(name[-3:])
        if read and read(content):
            return 5, f'OBJECT {name}: {read(content)}\n'
    try:
        return linker.link(given, libraries, controls)
    except linker.Refused as refused:
        return 4, f'LINK {refused}\n'


def is_link(ran, link):
    status, text, kept = ran
    is_map = status in (0, 1) and text.startswith(f'{link.map()}RUN\n'.encode())
    return is_map and objects.read_hex(kept['h']) == link.image


def case(number):
    rng = random.Random(number)
    drawn = Drawn(rng)
    count = rng.randint(1, len(drawn.modules))
    given, members = drawn.modules[:count], drawn.modules[count:]
    cut = rng.randint(0, len(members))
    libraries = [part for part in (members[:cut], members[cut:]) if part]
    controls = [(line, *parts) for line, parts in enumerate(drawn.lines(), 1)]
    files = {f'{k}.obj': object_of(module) for k, module in enumerate(given)}
    files.update({f'{k}.lib': objects.library(*map(object_of, library)) for k, library in enumerate(libraries)})
    words = ['build', '--control', 'c', '--hex', 'h', '--steps', '1', *files]
    files['c'] = text_of(line_text(word, operands) for _, word, operands in controls).encode()
    answer = wanted(files, given, libraries, controls)

    def is_right(ran):
        if isinstance(answer, tuple):
            return (ran[0], ran[1].decode()) == answer
        return is_link(ran, answer)

    return f'link {number}', words, files, is_right


CASES = [case(number) for number in range(COUNT)]
