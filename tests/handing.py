"""What one verb keeps, passed to another: each test takes `run` (arguments and files to a status, a text and the files
that are left) and the files of the case echo, and returns what is wrong, or nothing.
"""
import generator
import objects
import refusals

ECHO_RUN = ['--script', 'echo.brd', '--steps', '2000']


def first_wrong(*checks):
    return next((f'{name}: {found!r}' for name, found, wanted in checks if found != wanted), None)


def an_object_goes_through_a_library(run, echo):
    _, _, left = run(['asm', '--out', 'a.obj', 'echo.a51'], echo)
    built = run(['lib', 'build', 'l.lib', 'a.obj'], {'a.obj': left['a.obj']})
    listed = run(['lib', 'list', 'l.lib'], {'l.lib': built[2]['l.lib']})
    extracted = run(['lib', 'extract', 'l.lib', 'echo'], {'l.lib': built[2]['l.lib']})
    return first_wrong(
        ('object', left['a.obj'], refusals.ECHO), ('build', built[:2], (0, b'')), ('list', listed[:2], (0, b'ECHO\n')),
        ('extract', extracted[2].get('ECHO.obj'), refusals.ECHO),
    )


def an_object_links_as_its_source(run, echo):
    from_source = run(['build', '--hex', 'h', *ECHO_RUN, 'echo.a51'], echo)
    as_object = {'echo.brd': echo['echo.brd'], 'echo.obj': refusals.ECHO}
    from_object = run(['build', '--hex', 'h', *ECHO_RUN, 'echo.obj'], as_object)
    return first_wrong(
        ('answer', from_object[:2], from_source[:2]), ('HEX file', from_object[2]['h'], from_source[2]['h']),
    )


def a_hex_file_runs_as_it_was_built(run, echo):
    """The flat board makes the trace of the watched one, and the file has as many bytes as the map says."""
    _, text, left = run(['build', '--hex', 'h', *ECHO_RUN, 'echo.a51'], echo)
    flat = run(['flat', *ECHO_RUN, 'h'], {'h': left['h'], 'echo.brd': echo['echo.brd']})
    count = len(objects.read_hex(left['h']))
    return first_wrong(
        ('trace', flat[:2], (0, text[text.index(b'RUN\n'):])),
        ('bytes', f'IMAGE {count} BYTES\n'.encode() in text, True),
    )


def libraries_are_edited_back(run, echo):
    """Each edit of a library leaves the library that objects.py makes of the modules that are then in it."""
    one, two = refusals.SMALL, objects.empty_module('B')
    objects_of = {'a.obj': one, 'b.obj': two}
    both, files = objects.library(one, two), {**objects_of, 'l.lib': objects.library(one)}
    raised = objects.library(refusals.SMALL_RAISED, two)
    checks = [
        ('build', run(['lib', 'build', 'l.lib', 'a.obj', 'b.obj'], objects_of)[2]['l.lib'], both),
        ('add', run(['lib', 'add', 'l.lib', 'b.obj'], files)[2]['l.lib'], both),
    ]
    files['l.lib'] = both
    checks += [
        ('delete', run(['lib', 'delete', 'l.lib', 'b'], files)[2]['l.lib'], objects.library(one)),
        ('delete all', run(['lib', 'delete', 'l.lib', 'b', 'a'], files)[2]['l.lib'], objects.library()),
        ('replace', run(['lib', 'replace', 'l.lib', 'b.obj', 'a.obj'], files)[2]['l.lib'], both),
        ('raise', run(['lib', 'raise', 'l.lib', 'a'], files)[2]['l.lib'], raised),
    ]
    files['l.lib'] = raised
    checks += [('replace the raised', run(['lib', 'replace', 'l.lib', 'a.obj'], files)[2]['l.lib'], both)]
    return first_wrong(*checks)


def a_generated_program_is_summed_up(run, echo):
    """`gen` says of its program what `build` says of the same source."""
    for count, start in ((1, 0), (7, 3), (30, 12345)):
        steps = ['--steps', '3000']
        _, text, _ = run(['build', *steps, 'gen.a51'], {'gen.a51': generator.source(count, start).encode()})
        _, told, _ = run(['gen', '--units', str(count), '--start', str(start), *steps], {})
        lines = text.decode().splitlines()
        at = {name: lines.index(name) for name in ('SEGMENTS', 'UNITS', 'RUN')}
        chain = next(k for k, line in enumerate(lines) if line.startswith('CHAIN'))
        covered = next(line.split()[1] for line in lines if line.startswith('OVERLAID'))
        sizes = sum(int(line.split()[2], 16) for line in lines[1:at['UNITS']] if line.split()[3] == 'O')
        wanted = f'UNITS {chain - at["UNITS"] - 1}\nOVERLAID {covered} OF {sizes} BYTES\n'
        wanted += f'ENTRIES {len(lines) - at["RUN"] - 2}\n{lines[-1]}\n'
        if told.decode() != wanted:
            return f'{count} units from {start}: {told!r} for {wanted!r}'
    return None


def a_disassembly_is_a_source_of_its_image(run, echo):
    """What `dis` writes is linked to the same HEX file, and gives the same text again."""
    sources = [echo['echo.a51']] + [generator.source(count, start).encode() for count, start in ((1, 0), (12, 5))]
    for source in sources:
        files = {'p.a51': source}
        _, _, built = run(['build', '--hex', 'h', '--steps', '1', 'p.a51'], files)
        status, text, _ = run(['dis', 'p.a51'], files)
        again = {'d.a51': text}
        _, _, rebuilt = run(['build', '--hex', 'h', '--steps', '1', 'd.a51'], again)
        wrong = first_wrong(
            ('status', status, 0), ('HEX file', rebuilt.get('h'), built['h']),
            ('text', run(['dis', 'd.a51'], again)[1], text),
        )
        if wrong:
            return wrong
    return None


TESTS = [
    an_object_goes_through_a_library, an_object_links_as_its_source, a_hex_file_runs_as_it_was_built,
    libraries_are_edited_back, a_generated_program_is_summed_up, a_disassembly_is_a_source_of_its_image,
]
