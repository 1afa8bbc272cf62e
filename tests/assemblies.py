"""Random sources of names, segments and expressions, assembled apart from the program by assembler.py: of each the
faults, or the object and the listing."""
import random

import assembler
import board
import links
from objects import (
    BIT, BITADDRESSABLE, CODE, DATA, IDATA, INBLOCK, INPAGE, NUMBER, PAGE, UNIT, XDATA)

COUNT = 500
KINDS = {CODE: 'CODE', XDATA: 'XDATA', DATA: 'DATA', IDATA: 'IDATA', BIT: 'BIT', NUMBER: 'NUMBER'}
TYPES = {UNIT: '', BITADDRESSABLE: ' BITADDRESSABLE', INPAGE: ' INPAGE', INBLOCK: ' INBLOCK', PAGE: ' PAGE'}
SELECTORS = {CODE: 'CSEG', XDATA: 'XSEG', DATA: 'DSEG', IDATA: 'ISEG', BIT: 'BSEG'}
BINARY = '+ + + - - * / MOD SHL SHR EQ NE LT LE GT GE AND OR XOR'.split()
UNARY = 'HIGH LOW HIGH LOW - NOT +'.split()
NUMBERS = [0, 1, 2, 7, 8, 0x1F, 0x20, 0x2F, 0x30, 0x7F, 0x80, 0x90, 0xFF, 0x100, 0x7FF, 0x800, 0xFF00, 0xFFFF]
ADDRESSES = {'D': DATA, 'C': CODE, 'T': BIT}
CLASSES = {'direct': DATA, 'bit': BIT, '/bit': BIT, 'rel': CODE, 'addr11': CODE, 'addr16': CODE}
WORDS = [*12 * ['CODE'], *2 * ['DB', 'DW', 'DS', 'RSEG', 'SELECT', 'DEFINITION'], 'SELECT', 'DEFINITION', 'NONE',
         'USING', 'ORG']
FORMS = sorted({board.form_of(opcode) for opcode in range(256)} - {''})


class Drawn:
    """A random source. Most names are defined; those of EQU and of reserves mostly above the line that uses them."""

    def __init__(self, rng):
        self.rng = rng
        self.count = rng.choice([4, 8, 20, 40])
        self.wild = rng.choice([0, 0, 0.01, 0.05])
        self.segments = {f'S{number}': rng.choice([CODE, CODE, XDATA, DATA, DATA, IDATA, BIT]) for number in range(4)}
        self.labels = [f'L{number}' for number in range(self.count // 2)]
        self.free = list(self.labels)
        self.new = [('EQU', f'E{number}', None) for number in range(3)]
        self.new += [('ADDRESS', f'{word}{number}', kind) for word, kind in ADDRESSES.items() for number in range(2)]
        self.sets = []
        # The names that may be used anywhere, and those that are defined by now, each with its class.
        self.known = {'P1': DATA, 'ACC': DATA, 'EA': BIT, 'AR3': DATA, 'RI': BIT}
        self.above = dict(self.known)
        self.current, self.is_absolute = CODE, True

    def chance(self, part):
        return self.rng.random() < part

    def lines(self):
        lines = [self.segment(name, kind) for name, kind in self.segments.items()]
        lines += [self.external(f'X{number}') for number in range(4)]
        self.known.update({name: CODE for name in self.labels})
        lines += [self.line() for _ in range(self.count)]
        lines += [(label, 'NONE', ()) for label in self.free if not self.chance(self.wild)]
        if self.chance(0.5):
            lines.append((None, 'SET', ('V0', self.rng.choice(NUMBERS))))
        for name in self.rng.sample([*self.above], self.rng.choice([0, 0, 1, 3])):
            lines.insert(self.rng.randint(0, len(lines)), (None, 'PUBLIC', (name,)))
        if self.chance(0.1):
            lines.insert(self.rng.randint(0, len(lines)), self.again(lines))
        return lines

    def again(self, lines):
        """A line that defines a name of the source a second time, or makes it public twice."""
        name = self.rng.choice([*self.segments, *(label for label, _, _ in lines if label), 'X0', 'X1'])
        number = self.rng.choice(NUMBERS)
        return self.rng.choice([
            (name, 'NONE', ()), (None, 'EQU', (name, number)), (None, 'SET', (name, number)),
            (None, 'PUBLIC', (name, name)), (None, 'SEGMENT', (name, CODE, UNIT, False)),
            (None, 'EXTRN', (CODE, [name])), (None, 'ADDRESS', (name, DATA, 0x20))])

    def segment(self, name, kind):
        types = {CODE: [UNIT, INPAGE, INBLOCK, PAGE], XDATA: [UNIT, INPAGE, PAGE], DATA: [UNIT, BITADDRESSABLE]}
        overlays = kind != CODE and self.chance(0.2)
        return None, 'SEGMENT', (name, kind, self.rng.choice(types.get(kind, [UNIT])), overlays)

    def external(self, name):
        kind = self.rng.choice([CODE, DATA, BIT, XDATA, NUMBER])
        self.known[name] = self.above[name] = kind
        return None, 'EXTRN', (kind, [name])

    def definition(self):
        """The next name of EQU or of an address, or a new value of a name of SET."""
        if not self.new or self.chance(0.3):
            name = self.rng.choice(['V0', 'V0', 'V1'])
            line = None, 'SET', (name, self.tree(None, above=True))
            self.above[name] = None
            return line
        word, name, kind = self.new.pop(self.rng.randrange(len(self.new)))
        tree = self.tree(kind, above=True)
        self.known[name] = self.above[name] = kind
        return None, word, (name, kind, tree) if word == 'ADDRESS' else (name, tree)

    def line(self):
        word = self.rng.choice(WORDS)
        if word == 'DEFINITION':
            return self.definition()
        label, kind = self.free.pop(0) if self.free and self.chance(0.5) else None, self.current
        if self.current != CODE and word in ('CODE', 'DB', 'DW') and not self.chance(self.wild):
            word = 'DS'
        line = label, *getattr(self, 'draw_' + word.lower())()
        if label:
            self.known[label] = self.above[label] = kind
        return line

    def draw_none(self):
        return 'NONE', ()

    def draw_ds(self):
        word = 'DBIT' if (self.current == BIT) != self.chance(self.wild) else 'DS'
        return word, (self.rng.choice([0, 1, 2, 5]) if self.chance(0.98) else self.tree(None, above=True),)

    def draw_rseg(self):
        name = self.rng.choice([*self.segments])
        self.current, self.is_absolute = self.segments[name], False
        return 'RSEG', (self.rng.choice([*self.above]) if self.chance(self.wild) else name,)

    def draw_select(self):
        self.current = kind = self.rng.choice([CODE, CODE, CODE, XDATA, DATA, IDATA, BIT])
        self.is_absolute = True
        base = self.rng.choice([0x10, 0x20, 0x7D, 0x7F] if kind != CODE else NUMBERS)
        base = None if self.chance(0.4) else self.tree(None, above=True) if self.chance(0.03) else base
        return 'SELECT', (kind, base)

    def draw_using(self):
        return 'USING', (self.rng.randrange(4) if self.chance(0.98) else self.tree(None, above=True),)

    def draw_org(self):
        if not self.is_absolute and not self.chance(self.wild):
            return self.draw_none()
        return 'ORG', (self.rng.choice(NUMBERS[:12]) if self.chance(0.98) else self.tree(None, above=True),)

    def draw_db(self):
        texts = [('text', b'ab'), ('text', b''), ('text', b"it's")]
        count = self.rng.randint(1, 3)
        return 'DB', tuple(self.rng.choice(texts) if self.chance(0.2) else self.small() for _ in range(count))

    def draw_dw(self):
        has_set = 'V0' in self.above
        count = self.rng.randint(1, 2)
        return 'DW', tuple('V0' if has_set and self.chance(0.3) else self.tree(None) for _ in range(count))

    def draw_code(self):
        if self.chance(0.2):
            return 'CODE', (self.rng.choice(['JMP', 'JMP', 'CALL']), self.tree(CODE))
        form = self.rng.choice(FORMS)
        operands = []
        for word in board.parts_of(form)[1]:
            if word in ('Rn', '@Ri'):
                operands.append(self.rng.randrange(8 if word == 'Rn' else 2))
            elif word in board.FIELDS:
                operands.append(self.small() if word == '#data' else self.tree(CLASSES.get(word)))
        return 'CODE', (form, *operands)

    # Expressions.

    def leaf(self, class_, above):
        """A name, mostly one of that class, `$` or a number."""
        names = self.above if above else {**self.known, **self.above}
        if self.chance(self.wild):
            return self.rng.choice([*self.known, *self.segments, *self.labels, 'NONE'])
        if class_ is None and 'V0' in names and self.chance(0.1):
            return 'V0'
        alike = [name for name, kind in names.items() if class_ in (None, kind) or self.chance(0.02)]
        here = ['$', *self.segments] if class_ is None else ['$'] if class_ == CODE else []
        small = NUMBERS[:12] if class_ in (DATA, BIT) else NUMBERS
        return self.rng.choice([*alike, *here, self.rng.choice(small), self.rng.choice(small)])

    def small(self):
        """A tree for a place of eight bits."""
        if self.chance(0.5):
            return self.rng.choice(['HIGH', 'LOW']), self.tree(self.rng.choice([CODE, None]))
        return self.rng.choice([*NUMBERS[:13], self.tree(DATA)])

    def tree(self, class_, above=False, depth=0):
        if depth > 2 or self.chance(0.6):
            return self.leaf(class_, above)
        if class_ == BIT and self.chance(0.7):
            byte = self.rng.choice(['ACC', 'P1', 0x20, 0x2F, *3 * [self.leaf(DATA, above)]])
            return '.', byte, self.rng.choice([0, 7, 3, 5, 8])
        if class_ is None and self.chance(0.3):
            inner = self.tree(None, above, depth + 1) if self.chance(0.3) else self.number(depth + 1)
            return self.rng.choice(UNARY), inner
        if self.chance(0.7):
            number = self.rng.choice(NUMBERS[:4] if self.chance(0.8) else NUMBERS[:13])
            return self.rng.choice('+-'), self.tree(class_, above, depth + 1), number
        if self.chance(0.3):
            word = self.rng.choice(['+', '+', '-', *BINARY])
            return word, self.tree(class_, above, depth + 1), self.tree(None, above, depth + 1)
        if self.chance(0.2):
            return '+', self.tree(class_, above, depth + 1)
        return self.rng.choice(BINARY), self.number(depth), self.number(depth)

    def number(self, depth):
        """A tree of numbers."""
        if depth > 2 or self.chance(0.7):
            return self.rng.choice(NUMBERS)
        if self.chance(0.3):
            return self.rng.choice(UNARY), self.number(depth + 1)
        return self.rng.choice(BINARY), self.number(depth + 1), self.number(depth + 1)


# Texts.

def number_text(number):
    return f'{number}' if number % 3 else f'0{number:X}H'


def tree_text(tree, inner=False):
    if isinstance(tree, int):
        return number_text(tree)
    if isinstance(tree, str):
        return tree
    word, *operands = tree
    parts = [tree_text(operand, True) for operand in operands]
    text = f' {word} '.join(parts) if len(parts) == 2 else f'{word} {parts[0]}'
    return f'({text})' if inner else text


def item_text(item):
    if isinstance(item, tuple) and item[0] == 'text':
        return "'" + item[1].decode().replace("'", "''") + "'"
    return tree_text(item)


def code_text(form, *operands):
    if form in ('JMP', 'CALL'):
        return f'{form} {tree_text(operands[0])}'
    name, words = board.parts_of(form)
    operands, texts = list(operands), []
    for word in words:
        if word in ('Rn', '@Ri'):
            texts.append(word[:-1] + str(operands.pop(0)))
        elif word in board.FIELDS:
            texts.append({'#': '#', '/': '/'}.get(word[0], '') + tree_text(operands.pop(0)))
        else:
            texts.append(word)
    return f'{name} {",".join(texts)}'.strip()


def line_text(label, word, operands):
    front = f'{label}: ' if label else ''
    if word == 'NONE':
        return front
    if word == 'CODE':
        return front + code_text(*operands)
    if word in ('DB', 'DW'):
        return f'{front}{word} {",".join(item_text(item) for item in operands)}'
    if word == 'SELECT':
        kind, tree = operands
        return front + SELECTORS[kind] + ('' if tree is None else f' AT {tree_text(tree)}')
    if word == 'SEGMENT':
        name, kind, type_, overlays = operands
        return f'{name} SEGMENT {KINDS[kind]}{TYPES[type_]}{" OVERLAYABLE" * overlays}'
    if word == 'EXTRN':
        return f'EXTRN {KINDS[operands[0]]} ({",".join(operands[1])})'
    if word == 'PUBLIC':
        return f'PUBLIC {",".join(operands)}'
    if word == 'ADDRESS':
        return f'{operands[0]} {KINDS[operands[1]]} {tree_text(operands[2])}'
    if word in ('EQU', 'SET'):
        return f'{operands[0]} {word} {tree_text(operands[1])}'
    return f'{front}{word} {tree_text(operands[0])}'


def listing(texts, rows):
    """The listing of these lines, each with its row."""
    told = [f'{number:5} {place:4} {data.hex().upper():6}{"*" if marked else " "} {text}'
            for number, (text, (place, data, marked)) in enumerate(zip(texts, rows), 1)]
    return links.text_of([*told, f'{len(told) + 1:5} {"":4} {"":6}  END'])


def case(number):
    lines = Drawn(random.Random(number)).lines()
    texts = [line_text(*line) for line in lines]
    faults, module, rows = assembler.assemble('A', lines)
    wanted = links.text_of(f'a.a51({line + 1}): E{fault}' for line, fault in faults) or listing(texts, rows)

    def is_right(ran):
        status, written, left = ran
        if written.decode() != wanted:
            return False
        return status == 3 if faults else status == 0 and left.get('o') == links.object_of(module)

    files = {'a.a51': links.text_of([*texts, 'END']).encode()}
    return f'assembly {number}', ['asm', '--out', 'o', 'a.a51'], files, is_right


CASES = [case(number) for number in range(COUNT)]
