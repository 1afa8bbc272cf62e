"""The parts of a page that show a profile and what was covered."""
from covering import percent
from html_page import bar, cell, escaped, heading, note, table, text_cell
from listings import statement_of
from source_pages import file_name, place_name

TOP = 20


def routine_place(routine):
    """Where the routine's first line is in the page, or nothing."""
    return place_name(routine.file, routine.line) if routine.file else None


def profile_parts(profile):
    """The routines by their cycles, and the lines with the most cycles."""
    rows = []
    for it in (it for it in profile.spent() if it.times or it.entered or it.own):
        whole = cell(it.whole) + cell(f'{profile.share(it.whole):.1%}') if it.whole is not None else ''
        rows.append(f'<tr>{text_cell(it.routine.name, routine_place(it.routine))}{text_cell(it.routine.unit)}'
                    f'{cell(it.entered or "-")}{cell(it.times)}{cell(it.own)}{cell(f"{profile.share(it.own):.1%}")}'
                    f'{bar(profile.share(it.own))}{whole}</tr>')
    idle = profile.counts.idle
    if idle.times:
        rows.append(f'<tr>{text_cell("(idle)")}{text_cell("")}{cell("")}{cell(idle.times)}{cell(idle.cycles)}'
                    f'{cell(f"{profile.share(idle.cycles):.1%}")}{bar(profile.share(idle.cycles))}</tr>')
    with_calls = ['with calls', ''] if profile.calls else []
    yield heading('profile', 'Cycles')
    yield table([' routine', ' unit', 'entered', 'steps', 'own cycles', '', '', *with_calls], rows)
    yield note('Own cycles are those of the routine itself, with the vectoring of a handler. With calls are those of '
               'all that it calls too, without what an interrupt took.')
    rows = []
    for it in list(profile.lines())[:TOP]:
        rows.append(f'<tr>{text_cell(f"{it.file}({it.line})", place_name(it.file, it.line))}{cell(it.times)}'
                    f'{cell(it.cycles)}{cell(f"{profile.share(it.cycles):.1%}")}{bar(profile.share(it.cycles))}'
                    f'{text_cell(statement_of(it.row))}</tr>')
    yield table([' line', 'times', 'cycles', '', '', ' statement'], rows)


def missed_links(cover, file):
    """The lines of a file that were not executed, each range with its place."""
    for text in filter(None, cover.missed(file).split(', ')):
        first = text.partition('-')[0]
        yield f'<a href="#{escaped(place_name(file, first))}">{text}</a>'


def cover_parts(cover):
    """The share of each file, and of each routine that was not executed whole."""
    yield heading('cover', 'Lines and routines that ran')
    rows = [f'<tr>{text_cell(it.name, file_name(it.name))}{cell(it.lines)}{cell(it.done)}{cell(f"{percent(it):.1f}%")}'
            f'{bar(percent(it) / 100)}<td class="w">{", ".join(missed_links(cover, it.name))}</td></tr>'
            for it in cover.files()]
    rows.append(f'<tr><td class="t">in all</td>{cell(cover.share().lines)}{cell(cover.share().done)}'
                f'{cell(f"{percent(cover.share()):.1f}%")}{bar(percent(cover.share()) / 100)}<td></td></tr>')
    yield table([' file', 'lines', 'executed', '', '', ' not executed'], rows)
    routines = list(cover.all_routines())
    ran = sum(1 for _, share in routines if share.done)
    rows = [f'<tr>{text_cell(it.name, routine_place(it))}{text_cell(it.unit)}{cell(share.lines)}{cell(share.done)}'
            f'{cell(f"{percent(share):.1f}%")}{bar(percent(share) / 100)}</tr>'
            for it, share in routines if share.done < share.lines]
    yield note(f'{ran} of {len(routines)} routines ran.' + (' These did not run, or not whole:' if rows else ''))
    if rows:
        yield table([' routine', ' unit', 'lines', 'executed', '', ''], rows)
    for name in cover.bare:
        yield note(f'No listing of module {name} is here: its lines do not count.')
