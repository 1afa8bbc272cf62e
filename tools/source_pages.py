"""The sources of a program as parts of a page: each line with how often it ran, and its cycles."""
import os

from html_page import anchor, bar, cell, escaped, table, text_cell
from profiling import SpentLine


def text_of(file, known):
    """The lines of a source with their numbers: of the file if it is there, else those that are known."""
    if os.path.isfile(file):
        with open(file, encoding='ascii', errors='replace') as text:
            return list(enumerate(text.read().expandtabs().splitlines(), 1))
    return sorted((line, row.text) for line, row in known.items())


def place_name(file, line):
    """Where a line is in the page."""
    return anchor('line', file, line)


def file_name(file):
    """Where a source is in the page."""
    return anchor('source', file)


def rows_of(file, cover, spent, most):
    """The rows of the table of a source."""
    counted = cover.lines.get(file, {})
    known = {**{line: it.row for line, it in spent.items()}, **{line: row for line, (_, row) in counted.items()}}
    for number, text in text_of(file, known):
        line = spent.get(number, SpentLine(file, number, '', '', None))
        times = counted[number][0] if number in counted else ''
        kind = 'none' if number not in counted else 'done' if times else 'not'
        yield (f'<tr class="{kind}" id="{escaped(place_name(file, number))}">{cell(number)}{cell(times)}'
               f'{cell(line.cycles)}{bar((line.cycles or 0) / most)}{text_cell(text)}</tr>')


def sources(profile, cover):
    """Each source with its lines: green if the line was executed, red if it was not."""
    by_file, most = {}, 1
    for line in profile.lines():
        by_file.setdefault(line.file, {})[line.line] = line
        most = max(most, line.cycles)
    for file in sorted({*by_file, *cover.lines}):
        rows = rows_of(file, cover, by_file.get(file, {}), most)
        listed = table(['line', 'times', 'cycles', '', ' source'], rows)
        yield f'<details open id="{escaped(file_name(file))}"><summary>{escaped(file)}</summary>\n{listed}</details>'
