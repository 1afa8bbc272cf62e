"""The picture of the tool `ram`."""
from memory import SORTS, UPPER, bars, bytes_of, described, free_text, ranges, sort_of, tree
from picture import EDGE, GREY, Picture, fitting

COLOURS = {
    'bank': '#c9ced6', 'reserve': '#9aa3b0', 'absolute': '#b58ad6', 'plain': '#7fb3e6', 'overlaid': '#f5b041',
    'stack': '#7bc96f', 'free': '#ffffff'}
# Overlaid extents differ from their neighbours.
SHADES = ('#f5b041', '#f7dc6f', '#e59866', '#f1948a', '#d7bde2', '#edbb99')
UNITS = ('#7fb3e6', '#a9cce3')
BITS = '#c0392b'
TITLES = {'XDATA': 'External data memory', 'CODE': 'Program memory'}
WIDTH, LEFT, CELL, ROW = 1080, 60, 60, 30
RIGHT = LEFT + 16 * CELL
# A byte of a unit in the tree of calls, and where its bar begins.
WEIGHT, WEIGHTS = 14, LEFT + 400


class Grid:
    """Internal RAM, sixteen bytes a row, drawn from a place downwards."""

    def __init__(self, picture, of_map, top):
        self.picture, self.map, self.top, self.cells = picture, of_map, top, bytes_of(of_map)
        self.overlaid = [it for it in of_map.extents if it.mark == 'O']

    def shade(self, extent):
        if extent in self.overlaid:
            return SHADES[self.overlaid.index(extent) % len(SHADES)]
        return COLOURS[sort_of(extent)]

    def y_of(self, row):
        return self.top + row * ROW + (8 if row >= UPPER // 16 else 0)

    def byte(self, number):
        """One byte: its segments one below the other, bits side by side."""
        cell, x, y = self.cells[number], LEFT + number % 16 * CELL, self.y_of(number // 16)
        whole = [it for it in cell if it.kind != 'BIT']
        told = f'{number:02X}: ' + ('\n'.join(map(described, cell)) or 'free')
        self.picture.box(x, y, CELL, ROW, COLOURS['free'], told)
        for place, extent in enumerate(whole):
            height = ROW / len(whole)
            self.picture.box(x, y + place * height, CELL, height, self.shade(extent), told)
        for extent in (it for it in cell if it.kind == 'BIT'):
            for bit in range(8):
                if 0 <= (number - 0x20) * 8 + bit - extent.base < extent.size:
                    self.picture.box(x + (7 - bit) * CELL / 8, y, CELL / 8, ROW, self.shade(extent), told, '#fff')
        self.picture.box(x, y, CELL, ROW, 'none', edge=EDGE)

    def names(self, row):
        """The names in a row, each over the bytes that it has there."""
        cells = self.cells[16 * row : 16 * row + 16]
        for extent in dict.fromkeys(it for cell in cells for it in cell):
            for first, last in ranges([column for column in range(16) if extent in cells[column]]):
                whole = [it for it in cells[first] if it.kind != 'BIT']
                mates = cells[first] if extent.kind == 'BIT' else whole
                height = ROW / len(mates)
                size = min(11.0, height - 3)
                name = fitting(extent.title, (last - first + 1) * CELL, size)
                middle = self.y_of(row) + (mates.index(extent) + 0.5) * height
                if size > 5:
                    self.picture.text(LEFT + first * CELL + 3, middle + size * 0.36, name, size)

    def draw(self):
        """Draws it, and gives where it ends."""
        rows = 16 if any(self.cells[UPPER:]) else 8
        for column in range(16):
            self.picture.text(LEFT + (column + 0.5) * CELL, self.top - 6, f'{column:X}', 11, GREY, 'middle')
        for row in range(rows):
            self.picture.text(LEFT - 8, self.y_of(row) + 19, f'{16 * row:02X}', 12, GREY, 'end')
            for column in range(16):
                self.byte(16 * row + column)
            self.names(row)
        self.picture.box(LEFT, self.y_of(2), 16 * CELL, ROW, 'none', edge=BITS)
        self.picture.text(RIGHT + 6, self.y_of(2) + 19, 'bits', 11, BITS)
        if rows == 16:
            self.picture.text(RIGHT + 6, self.y_of(8) + 19, 'by @R0', 11, GREY)
            return self.y_of(16)
        self.picture.box(LEFT, self.y_of(8), 16 * CELL, ROW / 2, COLOURS['free'], edge=EDGE)
        self.picture.text(LEFT + 3, self.y_of(8) + 11, '80 to FF, by @R0, @R1 and the stack only: free', 10, GREY)
        return self.y_of(8) + ROW / 2


def draw_legend(picture, top):
    """What the colours mean; gives where it ends."""
    x = LEFT
    for sort in SORTS:
        picture.box(x, top - 11, 14, 14, COLOURS[sort], edge='#aaa')
        picture.text(x + 20, top, sort)
        x += 46 + 8 * len(sort)
    picture.text(LEFT, top + 20, 'Segments that share a byte are one below the other in it; bits are side by side, bit 7 '
                 'at the left.', 11, GREY)
    return top + 50


def draw_head(picture, top, title, told):
    picture.text(LEFT, top, title, 15, is_bold=True)
    picture.text(RIGHT, top, told, 11, anchor='end')


def draw_bar(picture, top, kind, end, extents, used):
    """External data or program memory."""
    names = ', '.join(f'{it.title} {it.base:04X}-{it.base + it.size - 1:04X}' for it in extents)
    told = f'{names}; ' if len(names) < 60 else ''
    draw_head(picture, top, TITLES[kind], f'{told}{used} bytes used of the {end} that are shown')
    picture.box(LEFT, top + 8, 16 * CELL, 30, COLOURS['free'], edge=EDGE)
    for place, it in enumerate(extents):
        x, width = LEFT + 16 * CELL * it.base / end, max(3.0, 16 * CELL * it.size / end)
        colour = UNITS[place % 2] if kind == 'CODE' and it.mark != 'A' else COLOURS[sort_of(it)]
        picture.box(x, top + 8, width, 30, colour, described(it), '#fff' if width > 3 else 'none')
        picture.text(x + 3, top + 27, fitting(it.title, width, 10), 10)
    for part, anchor in enumerate(('start', 'middle', 'middle', 'middle', 'end')):
        place = end * part // 4 - (part == 4)
        picture.text(LEFT + part * 4 * CELL, top + 52, f'{place:04X}', 10, GREY, anchor)


def draw_calls(picture, of_map, top):
    """The calls below each root, each unit with a bar as long as its bytes of overlaid DATA."""
    draw_head(picture, top, 'Calls, and the bytes of overlaid DATA of each unit', f'overlaid {of_map.overlaid} bytes')
    chains = {chain.root: chain for chain in of_map.chains}
    heavy, top = (), top + 8
    for depth, unit, weight, again in tree(of_map):
        top += 18 if depth else 24
        if not depth:
            heaviest = chains[unit].weight
            heavy = chains[unit].units if heaviest else ()
            told = f'heaviest chain {heaviest} byte' + ('' if heaviest == 1 else 's') + (', in bold' if heavy else '')
            picture.text(RIGHT, top, told, 11, anchor='end')
        picture.text(LEFT + depth * 20, top, unit + (' ^' if again else ''), is_bold=unit in heavy)
        if weight:
            told = ', '.join(map(described, of_map.locals_of(unit)))
            picture.box(WEIGHTS, top - 10, weight * WEIGHT, 12, COLOURS['overlaid'], told)
            picture.text(WEIGHTS + 4 + weight * WEIGHT, top, str(weight), 11)
    picture.text(LEFT, top + 22, '^ what it calls is further up', 11, GREY)


def svg(of_map, title):
    """The picture of a map."""
    picture = Picture()
    picture.text(LEFT, 34, title, 18, is_bold=True)
    top = draw_legend(picture, 62) + 6
    draw_head(picture, top, 'Internal RAM, byte by byte', free_text(of_map))
    top = Grid(picture, of_map, top + 24).draw() + 40
    for bar in bars(of_map):
        draw_bar(picture, top, *bar)
        top += 84
    draw_calls(picture, of_map, top + 6)
    return picture.svg(WIDTH)
