"""A page in HTML that stands alone: its style, its tables, and pictures in it, for light and for dark screens.

Nothing in it is of another place, and there is no script. Its colours follow what the reader's screen asks for
(prefers-color-scheme); the colours of pictures, which are drawn for light paper, are turned round for dark screens.
"""
import colorsys
import html
import re

LIGHT = {'paper': '#fbfbfa', 'ink': '#1f2328', 'grey': '#646b73', 'edge': '#d5d8dc', 'bar': '#c0504d',
         'done': '#dff0dc', 'not': '#f9dcd8', 'link': '#0b57a4'}
DARK = {'paper': '#16181c', 'ink': '#e4e6e8', 'grey': '#9aa3ad', 'edge': '#3a3f46', 'bar': '#d9776f',
        'done': '#17361f', 'not': '#4c211e', 'link': '#7db7f0'}
STYLE = """
body { font: 14px/1.45 DejaVu Sans, Helvetica, Arial, sans-serif; color: var(--ink); background: var(--paper);
  margin: 2em; max-width: 1120px; }
h1 { font-size: 22px; } h2 { font-size: 17px; margin-top: 2em; border-bottom: 1px solid var(--edge); }
a { color: var(--link); text-decoration: none; } a:hover { text-decoration: underline; }
table { border-collapse: collapse; margin: 1em 0; }
td, th { padding: 1px 10px; text-align: right; white-space: pre; vertical-align: baseline; }
td.t, th.t { text-align: left; }
td.w { text-align: left; white-space: normal; max-width: 460px; } td.w a { white-space: nowrap; }
td.t, td.w, code, pre { font-family: DejaVu Sans Mono, Menlo, Consolas, monospace; font-size: 12px; }
th { border-bottom: 1px solid var(--grey); font-weight: normal; color: var(--grey); }
td.bar { width: 160px; text-align: left; padding: 3px 4px; }
td.bar div { height: 10px; background: var(--bar); }
tr.done td.t { background: var(--done); } tr.not td.t { background: var(--not); }
tr.none td { color: var(--grey); }
tr:target td, dt:target { outline: 2px solid var(--link); outline-offset: -2px; }
p.note { color: var(--grey); max-width: 760px; }
nav a { margin-right: 1.2em; } summary { cursor: pointer; font-weight: bold; margin-top: 1em; }
.picture { overflow-x: auto; } .picture svg { max-width: none; }
@media print { details { display: block; } nav { display: none; } }
"""
COLOUR = re.compile(r'(fill|stroke)="(#[0-9a-f]{3,6})"')


def escaped(text):
    return html.escape(str(text))


def whole(colour):
    """A colour of six digits."""
    return colour if len(colour) == 7 else '#' + ''.join(2 * digit for digit in colour[1:])


def turned_round(colour):
    """The colour for dark paper that does what this one does on light paper: dark for light, and the same hue."""
    red, green, blue = (int(whole(colour)[at : at + 2], 16) / 255 for at in (1, 3, 5))
    hue, light, strong = colorsys.rgb_to_hls(red, green, blue)
    if max(red, green, blue) - min(red, green, blue) < 0.1:
        # Paper, ink and the greys between them: on the darker ones no text is written.
        light, strong = 0.1 + (0.75 if light > 0.5 else 0.93) * (1 - light), 0
    elif light > 0.5:
        light, strong = 0.13 + 0.27 * (1 - light), strong * 0.8
    else:
        light = 0.62
    return '#' + ''.join(f'{round(255 * part):02x}' for part in colorsys.hls_to_rgb(hue, light, strong))


def dark_rules(parts):
    """The rules that turn the colours of the pictures in these parts round."""
    found = sorted({it for part in parts if '<svg' in part for it in COLOUR.findall(part)})
    return ' '.join(f'svg [{name}="{colour}"] {{ {name}: {turned_round(colour)}; }}' for name, colour in found)


def variables(colours):
    return ' '.join(f'--{name}: {colour};' for name, colour in colours.items())


def page(title, parts):
    """A whole page of these parts."""
    style = (f':root {{ color-scheme: light dark; {variables(LIGHT)} }}\n'
             f'@media (prefers-color-scheme: dark) {{ :root {{ {variables(DARK)} }} {dark_rules(parts)} }}{STYLE}')
    head = (f'<!DOCTYPE html>\n<html lang="en">\n<head><meta charset="utf-8">\n'
            f'<meta name="viewport" content="width=device-width">\n<title>{escaped(title)}</title>\n'
            f'<style>{style}</style>')
    return '\n'.join([f'{head}</head>\n<body>\n<h1>{escaped(title)}</h1>', *parts, '</body></html>\n'])


def keep_page(path, title, parts):
    """Writes a page into a file."""
    with open(path, 'w', encoding='utf-8') as file:
        file.write(page(title, parts))


def cell(content):
    """A cell with a number."""
    return f'<td>{escaped(content)}</td>'


def text_cell(content, target=None):
    """A cell with a text, which leads to a place of the page."""
    inner = link(content, target) if target else escaped(content)
    return f'<td class="t">{inner}</td>'


def link(content, target):
    """A text that leads to a place of the page."""
    return f'<a href="#{escaped(target)}">{escaped(content)}</a>'


def bar(share):
    """A bar of a share from 0 to 1."""
    return f'<td class="bar"><div style="width:{100 * share:.1f}%"></div></td>'


def table(titles, rows):
    """A table, whose rows are given as HTML; titles with a blank in front are those of texts."""
    head = ''.join(f'<th{" class=t" if it[:1] == " " else ""}>{it.strip()}</th>' for it in titles)
    return '\n'.join([f'<table><tr>{head}</tr>', *rows, '</table>'])


def anchor(*words):
    """The name of a place of the page."""
    return re.sub(r'[^\w.?@-]', '-', '-'.join(map(str, words)))


def heading(name, title):
    return f'<h2 id="{escaped(name)}">{escaped(title)}</h2>'


def note(text):
    return f'<p class="note">{escaped(text)}</p>'


def picture(svg):
    """A picture in the page."""
    return f'<div class="picture">{svg}</div>'
