"""Reads an absolute OMF-51 module, strictly, by Intel's specification; it has nothing from the tool that writes them.

A record is a type, a length of two bytes, its content, and a checksum; numbers have their low byte first. An absolute
module has a module header (02H), scope definitions (10H), debug items (12H) and content (06H), and a module end (04H).
"""
import struct
from collections import namedtuple

Symbol = namedtuple('Symbol', 'name usage is_variable address')
USAGES = ('CODE', 'XDATA', 'DATA', 'IDATA', 'BIT', 'NUMBER')
# Which block begins and which ends: module, DO, procedure.
BEGINS, ENDS = {0: 'module', 1: 'do', 2: 'procedure'}, {3: 'module', 4: 'do', 5: 'procedure'}
MOST_OF_NAME = 40


class Wrong(Exception):
    """What is wrong with a module."""


class Content:
    """The content of a record, which is read from its begin to its end."""

    def __init__(self, data):
        self.data, self.at = data, 0

    def take(self, form):
        size = struct.calcsize(form)
        if self.at + size > len(self.data):
            raise Wrong('a record ends inside a field')
        values = struct.unpack_from(form, self.data, self.at)
        self.at += size
        return values

    def name(self):
        size, = self.take('<B')
        text = self.take(f'{size}s')[0].decode('ascii')
        if not 1 <= size <= MOST_OF_NAME or not all(sign.isalnum() or sign in '?_@$' for sign in text):
            raise Wrong(f'{text!r} is no name')
        return text

    def is_over(self):
        return self.at == len(self.data)


class Block:
    """A scope: its kind and name, and its debug items."""

    def __init__(self, kind, name):
        self.kind, self.name, self.publics, self.locals, self.lines = kind, name, [], [], []


class Reader:
    """A module that is read."""

    def __init__(self, data):
        self.name, self.translator, self.banks, self.blocks, self.open, self.content = None, None, None, [], [], {}
        at = 0
        while at < len(data):
            if self.banks is not None:
                raise Wrong('a record follows the module end')
            kind, size = struct.unpack_from('<BH', data, at)
            whole = data[at : at + 3 + size]
            if size < 1 or len(whole) < 3 + size or sum(whole) % 256:
                raise Wrong(f'the record at {at} is cut off, or its checksum is wrong')
            if (kind == 0x02) != (self.name is None):
                raise Wrong('the module header is not first, or there are two')
            self.record(kind, Content(whole[3:-1]))
            at += 3 + size
        if self.banks is None:
            raise Wrong('there is no module end')

    def record(self, kind, content):
        reader = {0x02: self.header, 0x04: self.end, 0x06: self.bytes, 0x10: self.scope, 0x12: self.items}.get(kind)
        if not reader:
            raise Wrong(f'a record of type {kind:02X} is not one of an absolute module')
        reader(content)
        if not content.is_over():
            raise Wrong(f'a record of type {kind:02X} has bytes left over')

    def header(self, content):
        self.name = content.name()
        self.translator, zero = content.take('<BB')
        if zero:
            raise Wrong('the last byte of the header is not 0')

    def end(self, content):
        if content.name() != self.name or self.open:
            raise Wrong('the end has another name than the header, or a block is open')
        first, banks, last = content.take('<HBB')
        if first or last or banks > 15:
            raise Wrong('a byte of the end that must be 0 is not')
        self.banks = banks

    def bytes(self, content):
        segment, start = content.take('<BH')
        data = content.take(f'{len(content.data) - content.at}s')[0]
        for at, byte in enumerate(data, start):
            if segment or at in self.content or at > 0xFFFF:
                raise Wrong(f'content at {at:04X} is in a segment, twice, or past the end')
            self.content[at] = byte

    def scope(self, content):
        kind, name = content.take('<B')[0], content.name()
        if kind in BEGINS:
            self.open.append(Block(BEGINS[kind], name))
            self.blocks.append(self.open[-1])
        elif not self.open or ENDS.get(kind) != self.open[-1].kind or name != self.open[-1].name:
            raise Wrong(f'the end of {name} has no begin')
        else:
            self.open.pop()

    def items(self, content):
        kind, = content.take('<B')
        if not self.open or kind not in (0, 1, 3):
            raise Wrong(f'debug items of kind {kind}, or outside a block')
        block = self.open[-1]
        while not content.is_over():
            segment, = content.take('<B')
            if segment:
                raise Wrong('an item of an absolute module has a segment')
            if kind == 3:
                block.lines.append(content.take('<HH'))
                continue
            info, address, zero = content.take('<BHB')
            if zero or info & 7 >= len(USAGES):
                raise Wrong('the bytes of a symbol are wrong')
            symbol = Symbol(content.name(), USAGES[info & 7], bool(info & 0x40), address)
            (block.publics if kind else block.locals).append(symbol)
