"""A copy of a crate and of those below it, in which a text is changed and the prover asked."""
import os
import shutil

from edits import TOP


def below(crate):
    """The crate and those below it, with their lines of crates.txt."""
    lines = (TOP / 'crates.txt').read_text(encoding='utf-8').splitlines()
    rows = {line.split(':')[0].split()[0]: line for line in lines if ':' in line}
    found, left = {}, [crate]
    while left:
        name = left.pop()
        if name in rows and name not in found:
            found[name] = rows[name]
            left += rows[name].split(':')[1].split()
    return dict(sorted(found.items()))


def linked(old, new):
    """A second name of a file that `rt` replaces and never changes: of a library, or a proof that was checked. Others
    are copied, and so are these where the system links nothing."""
    try:
        if old.endswith('.oantt') or '/out/rlib/' in old:
            return os.link(old, new)
    except OSError:
        pass
    return shutil.copy2(old, new)


def copy_of_crates(room, crate):
    """Copies what the prover reads of a crate and those below it, without the edits of the gate: the texts, the
    libraries that were built here, and what `rt check` kept of the crate."""
    rows = below(crate)
    for name in rows:
        folder, to = TOP / 'crates' / name, room / 'crates' / name
        shutil.copytree(folder, to, ignore=shutil.ignore_patterns('must-fail', 'out'))
        for part in ('rlib', *(['incremental'] if name == crate else [])):
            if (folder / 'out' / part).is_dir():
                shutil.copytree(folder / 'out' / part, to / 'out' / part, copy_function=linked)
    (room / 'crates.txt').write_text(''.join(f'{row}\n' for row in rows.values()), encoding='utf-8')
    shutil.copy(TOP / 'HANDLES', room / 'HANDLES')
