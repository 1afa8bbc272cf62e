"""The blocks of a Markdown page as a reader sees them: headings, text, code and rows of tables, with links."""
import re
from typing import NamedTuple

FENCE = re.compile(r' {0,3}(`{3,}|~{3,})')
HEADING = re.compile(r'#{1,6} +(.*?)( +#+)?$')
ITEM = re.compile(r'( {0,3}(?:[-*+]|\d{1,9}[.)]) +)\S')
LINK = re.compile(r'\[[^][]*\]\(([^()\s]+)\)')
CODE = 4


class Block(NamedTuple):
    kind: str  # heading, text, code, row or comment
    text: str
    line: int


def without_indent(line, width):
    """A line without blanks at its head, at most so many."""
    blanks = len(line) - len(line.lstrip(' '))
    return line[min(blanks, width):]


def code_from(lines, at, inset):
    """The lines of an indented block of code, and the line after it. An empty line ends no such block."""
    taken = []
    while at < len(lines) and (not lines[at].strip() or lines[at].startswith(' ' * (inset + CODE))):
        taken.append(without_indent(lines[at], inset + CODE))
        at += 1
    while not taken[-1].strip():
        taken.pop()
        at -= 1
    return '\n'.join(taken), at


def fenced_from(lines, at, inset, mark):
    """The lines between two fences, and the line after the second."""
    taken = []
    while at < len(lines) and not lines[at].strip().startswith(mark):
        taken.append(without_indent(lines[at], inset))
        at += 1
    return '\n'.join(taken), at + 1


def ends_text(line, inset):
    """Whether a line can't go on with the text before it."""
    body = line[inset:]
    begins = FENCE.match(body) or HEADING.match(body) or ITEM.match(line) or body.startswith(('|', '<!--'))
    return not line.strip() or begins


def blocks(page):
    """The blocks of a page in their order. Text that is indented after a list item belongs to the item."""
    lines, at, inset, found = page.splitlines(), 0, 0, []
    while at < len(lines):
        line, start = lines[at], at + 1
        if line.strip() and not line.startswith(' ' * inset):
            inset = 0
        item = ITEM.match(line)
        fence = FENCE.match(line[inset:])
        if not line.strip():
            at += 1
        elif line.startswith(' ' * (inset + CODE)) and not item:
            text, at = code_from(lines, at, inset)
            found.append(Block('code', text, start))
        elif fence:
            text, at = fenced_from(lines, at + 1, inset, fence[1])
            found.append(Block('code', text, start))
        elif HEADING.match(line):
            found.append(Block('heading', HEADING.match(line)[1], start))
            at += 1
        elif line.lstrip().startswith(('|', '<!--')):
            found.append(Block('row' if '|' in line[:inset + 1] else 'comment', line.strip(), start))
            at += 1
        else:
            inset = len(item[1]) if item else inset
            at += 1
            while at < len(lines) and not ends_text(lines[at], inset):
                at += 1
            found.append(Block('text', ' '.join(part.strip() for part in lines[start - 1:at]), start))
    return found


def anchor(heading):
    """The name by which a link reaches a heading: as forges make it."""
    return re.sub(r'[^\w -]', '', heading.lower()).replace(' ', '-')


def cells(row):
    """The cells of a row, without the bars; a bar in a code span is written as it is nowhere here."""
    return [cell.strip() for cell in row.strip('|').split('|')]


def broken_links(path, top):
    """The links of a page that lead nowhere, and names of pages that are no links."""
    for block in blocks(path.read_text()):
        for target in LINK.findall(block.text) if block.kind in ('text', 'row', 'heading') else []:
            name, _, part = target.partition('#')
            if ':' in name:
                continue
            file = (path.parent / name).resolve() if name else path
            if not file.exists():
                yield f'{path.relative_to(top)}:{block.line}: {target} is not there'
            elif part and part not in {anchor(it.text) for it in blocks(file.read_text()) if it.kind == 'heading'}:
                yield f'{path.relative_to(top)}:{block.line}: {target} is no heading'
