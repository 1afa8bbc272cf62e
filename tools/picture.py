"""Elements of a picture in SVG."""
import html

INK, GREY, EDGE, PAPER = '#222', '#777', '#d5d8dc', '#fbfbfa'
FONT = 'DejaVu Sans Mono, Menlo, Consolas, monospace'
# How wide a character is, in heights of the font.
CHARACTER = 0.61


def number(value):
    """A coordinate, as short as it can be written."""
    return f'{value:.1f}'.replace('.0', '')


class Picture:
    """The elements of a picture, and how far down they reach."""

    def __init__(self):
        self.parts, self.bottom = [], 0

    def add(self, element, bottom):
        self.parts.append(element)
        self.bottom = max(self.bottom, bottom)

    def box(self, x, y, width, height, fill, told='', edge='none'):
        """A rectangle, and what is shown when the pointer stays on it."""
        place = f'x="{number(x)}" y="{number(y)}" width="{number(width)}" height="{number(height)}"'
        title = f'><title>{html.escape(told)}</title></rect>' if told else '/>'
        self.add(f'<rect {place} fill="{fill}" stroke="{edge}"{title}', y + height)

    def path(self, points, fill='none', edge=INK):
        """A line through points, which is closed if it is filled."""
        way = 'M' + ' L'.join(f'{number(x)} {number(y)}' for x, y in points) + ('' if fill == 'none' else ' Z')
        self.add(f'<path d="{way}" fill="{fill}" stroke="{edge}"/>', max(y for _, y in points))

    def text(self, x, y, text, size=12, fill=INK, anchor='start', is_bold=False):
        """A text; x and y are those of its base line."""
        place = f'x="{number(x)}" y="{number(y)}" font-size="{number(size)}" fill="{fill}"'
        where = '' if anchor == 'start' else f' text-anchor="{anchor}"'
        weight = ' font-weight="bold"' if is_bold else ''
        self.add(f'<text {place}{where}{weight} pointer-events="none">{html.escape(text)}</text>', y)

    def svg(self, width):
        """The whole file."""
        height = number(self.bottom + 20)
        size = f'width="{width}" height="{height}" viewBox="0 0 {width} {height}"'
        first = f'<svg xmlns="http://www.w3.org/2000/svg" {size} font-family="{FONT}">'
        return '\n'.join([first, f'<rect width="100%" height="100%" fill="{PAPER}"/>', *self.parts, '</svg>'])


def fitting(text, width, size):
    """As much of a name as has room in a width: without its prefix where that helps."""
    room = int((width - 4) / (size * CHARACTER))
    if len(text) > room and text.startswith('?') and '?' in text[1:]:
        text = text[1:].partition('?')[2]
    if len(text) <= room:
        return text
    return text[: room - 1] + '.' if room > 1 else ''
