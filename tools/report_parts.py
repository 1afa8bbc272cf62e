"""The parts of a report on a program that are neither its profile nor its sources: units, memory, stack, ports."""
import re
from collections import namedtuple

import m51files
from covering import percent
from html_page import anchor, cell, escaped, heading, link, note, picture, table, text_cell
from profile_page import routine_place
from ram_picture import svg as ram_svg
from source_pages import place_name

# What a report is made of.
Report = namedtuple('Report', 'title of counts profile cover stack waves')
SORTED = ('DATA', 'IDATA', 'BIT', 'XDATA')
PLACE = re.compile(r'\b((?:FROM|TO|AT|PROC|STACK K\d) )([0-9A-F]{4})\b')


def unit_place(title):
    """Where a unit is in the page."""
    return anchor('unit', title)


def unit_links(titles):
    """Units, each with its place."""
    return ', '.join(link(it, unit_place(it)) for it in titles) or '-'


def deepest(counts):
    """The highest SP of runs whose states are known, or nothing."""
    return max((it.deepest for it in counts.runs), default=None)


def bound(report):
    """The bound on SP that `m51 stack` answers, or nothing."""
    found = next((line.split() for line in report.stack if line.startswith('BOUND ')), None)
    return found[1] if found else None


def summary_rows(report):
    """What is said of the program as a whole, and where more of it is."""
    of_map, top, share = report.of.map, deepest(report.counts), report.cover.share()
    yield 'run', '; '.join(report.counts.ends), 'profile'
    yield 'image', f'{of_map.image} bytes, {len(of_map.units)} units, {len(report.of.modules)} modules', 'units'
    yield 'overlaid', f'{of_map.overlaid} bytes of internal RAM', 'memory'
    said = f'at most {bound(report)}' if bound(report) else 'no bound by m51 stack'
    yield 'SP', said + (f', highest in the run {top:02X}' if top is not None else ''), 'stack'
    yield 'cycles', str(report.profile.total), 'profile'
    yield 'lines that ran', f'{share.done} of {share.lines}, {percent(share):.1f}%', 'cover'


def summary(report):
    yield '<nav>' + ' '.join(link(it, it) for it in (
        'memory', 'units', 'stack', 'profile', 'cover', 'ports', 'sources')) + '</nav>'
    yield table([' ', ' '], [f'<tr>{text_cell(name, target)}<td class="w">{linked(text, report.of)}</td></tr>'
                             for name, text, target in summary_rows(report)])


def linked(text, of):
    """A text in which each place of code leads to its line."""
    def place(found):
        row = of.line_of(int(found[2], 16))
        return found[1] + (link(found[2], place_name(row.file, row.line)) if row else found[2])

    return PLACE.sub(place, escaped(text))


def memory(report):
    """The picture of memory, and the variables."""
    yield heading('memory', 'Memory')
    yield picture(ram_svg(report.of.map, report.title))
    rows = []
    for it in sorted((it for it in report.of.labels if it.kind in SORTED),
                     key=lambda it: (SORTED.index(it.kind), it.address, it.name)):
        place = place_name(it.file, it.line) if it.file else None
        owner = m51files.unit_of_local(it.title) if it.title.startswith('?') else None
        unit = link(it.title, unit_place(owner)) if owner in report.of.map.units else escaped(it.title)
        rows.append(f'<tr>{text_cell(it.kind)}{text_cell(f"{it.address:04X}")}{cell(it.size)}'
                    f'{text_cell(it.name, place)}<td class="t">{unit}</td>{text_cell(it.place)}</tr>')
    listed = table([' memory', ' address', 'size', ' variable', ' segment', ' place'], rows)
    yield f'<details><summary>{len(rows)} variables</summary>{listed}</details>'


def units(report):
    """The units with who calls whom, their cycles and their locals; then the chains of the overlay."""
    of_map, own = report.of.map, {}
    for it in report.profile.spent():
        own[it.routine.unit] = own.get(it.routine.unit, 0) + it.own
    rows = []
    for title, unit in of_map.units.items():
        extent = of_map.of_title(title, 'CODE')
        callers = [it.title for it in of_map.units.values() if title in it.callees]
        routines = [link(it.name, routine_place(it)) if it.file else escaped(it.name)
                    for it in report.profile.routines.found.values() if it.unit == title]
        local = sum(it.size for it in of_map.locals_of(title))
        where = f'{extent.base:04X}' if extent else ''
        rows.append(f'<tr id="{escaped(unit_place(title))}">{text_cell(title)}{cell(where)}'
                    f'{cell(extent.size if extent else 0)}{cell(local or "-")}{cell(own.get(title, 0))}'
                    f'<td class="w">{unit_links(unit.callees)}</td><td class="w">{unit_links(callers)}</td>'
                    f'<td class="w">{unit_links(unit.roots)}</td><td class="w">{", ".join(routines)}</td></tr>')
    yield heading('units', 'Units and calls')
    yield table([' unit', 'base', 'bytes', 'locals', 'cycles', ' calls', ' called by', ' from', ' routines'], rows)
    yield note('Locals are the bytes of overlaid DATA. A chain is the way of calls below a root whose locals need the '
               'most bytes; what lies on different ways shares its bytes.')
    yield table([' chain of', 'bytes', ' units'], [
        f'<tr><td class="t">{link(it.root, unit_place(it.root))}</td>{cell(it.weight)}'
        f'<td class="w">{unit_links(it.units)}</td></tr>' for it in of_map.chains])


def stack(report):
    """What `m51 stack` says, with the highest SP of the run."""
    yield heading('stack', 'Stack')
    top = deepest(report.counts)
    if top is not None:
        yield note(f'The highest SP of the run is {top:02X}. A run shows what it needed, not what is enough.')
    yield '<pre>' + '\n'.join(linked(line, report.of) for line in report.stack) + '</pre>'
    if not bound(report):
        yield note('m51 stack finds no bound: docs/LINKER.md, "Sizing the stack", says how to size it by hand.')


def ports(report):
    """The ports and the serial line over the cycles."""
    yield heading('ports', 'Ports and serial line')
    for title, wave in report.waves:
        is_first = (title, wave) == report.waves[0]
        shown = ' open' if is_first else ''
        yield f'<details{shown}><summary>{escaped(title)}</summary>{picture(wave)}</details>'

