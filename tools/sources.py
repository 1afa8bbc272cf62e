"""Where the programs m51 and m51-trace and their sources are, and whether a program is that of the sources.

A program is known by its crate, which is m51 where none is said. `rt ci` builds the proved one. tools/unproved compiles
the unproved one and keeps it beside that, with a stamp: the checksum of the sources, the name of the toolchain, and
where its command lies. What ./install has put into a folder has no sources.
"""
import os

TOP = os.path.dirname(os.path.dirname(os.path.realpath(__file__)))
OUT = os.path.join(TOP, 'crates', 'm51', 'out')
UNPROVED = os.path.join(OUT, 'm51-unproved')
STAMP = UNPROVED + '.stamp'
INSTALLED = os.path.join(TOP, 'program')
INSTALLED_UNPROVED = os.path.join(TOP, 'program-unproved')
CRATES = os.path.join(TOP, 'crates.txt')
TRACE = 'm51_trace'
INSTALLED_AS = {'m51': 'program', TRACE: 'trace-program'}


def is_program(path):
    return os.path.isfile(path) and os.access(path, os.X_OK)


def out_of(crate):
    """The folder in which a program is kept."""
    return os.path.join(TOP, 'crates', crate, 'out')


def kept_unproved(crate):
    """Where an unproved program is kept."""
    return os.path.join(out_of(crate), f'{crate}-unproved')


def proved(crate='m51'):
    """The proved program, or nothing."""
    places = (os.path.join(TOP, INSTALLED_AS[crate]), os.path.join(out_of(crate), crate))
    return next(filter(is_program, places), None)


def unproved(crate='m51'):
    """The unproved program, or nothing."""
    places = (os.path.join(TOP, f'{INSTALLED_AS[crate]}-unproved'), kept_unproved(crate))
    return next(filter(is_program, places), None)


def installed():
    """The program that ./install has put here, or nothing."""
    return next(filter(is_program, (INSTALLED, INSTALLED_UNPROVED)), None)


def lines_of(name):
    """The lines of a file at the top; none if it is not there."""
    try:
        with open(os.path.join(TOP, name)) as file:
            return file.read().splitlines()
    except OSError:
        return []


def has_sources():
    return os.path.isfile(CRATES)


def version():
    """The version, and the toolchain that proved it: its name, and the sum of its logic."""
    with open(os.path.join(TOP, 'VERSION')) as file:
        return file.read().splitlines()[:2]


def logic_of(toolchain):
    """The sum of the logic of a toolchain, in the line that `rt version` writes; nothing if it names none."""
    return toolchain.partition(' logic ')[2]


def has_logic(toolchain):
    """Whether a toolchain has the logic of the one that VERSION names: what one proves or compiles, the other does."""
    return logic_of(toolchain) == logic_of(version()[1]) != ''


def crates(program='m51'):
    """The crates of which a program is made."""
    with open(CRATES) as file:
        uses = {name: words.split() for name, _, words in (line.partition(':') for line in file)}
    found, left = set(), [program]
    while left:
        name = left.pop()
        if name in uses and name not in found:
            found.add(name)
            left += uses[name]
    return sorted(found)


def entries(program='m51'):
    """The sources of a program with their state, and the folders in which they lie; proofs are none of them."""
    yield CRATES, os.stat(CRATES)
    left = [os.path.join(TOP, 'crates', crate, part) for crate in crates(program) for part in ('src', 'specs')]
    while left:
        folder = left.pop()
        if not os.path.isdir(folder):
            continue
        yield folder, os.stat(folder)
        with os.scandir(folder) as found:
            for entry in found:
                if entry.is_dir():
                    left.append(entry.path)
                else:
                    yield entry.path, entry.stat()


def newer(time, program='m51'):
    """A source, or a folder of sources, that is newer than a time in nanoseconds, or nothing."""
    return next((os.path.relpath(path, TOP) for path, state in entries(program) if state.st_mtime_ns > time),
                None)


def newer_than_proved(program):
    """A source that is newer than the proved program, or nothing."""
    if program == INSTALLED or not has_sources():
        return None
    return newer(os.stat(program).st_mtime_ns)


def checksum(program='m51'):
    """The checksum of the sources."""
    import hashlib

    total = hashlib.sha256()
    for path in sorted(path for path, _ in entries(program) if os.path.isfile(path)):
        with open(path, 'rb') as file:
            text = file.read()
        total.update(f'{os.path.relpath(path, TOP)} {len(text)}\n'.encode() + text)
    return total.hexdigest()


def toolchain_command():
    """The toolchain's command rt, or nothing."""
    paths = (os.path.join(folder, 'rt') for folder in os.environ.get('PATH', '').split(os.pathsep))
    return next(filter(is_program, paths), None)


def toolchain_place(command):
    """What changes with another toolchain: where its command lies, and since when."""
    place = os.path.realpath(command)
    return f'{place} {os.stat(place).st_mtime_ns}'


def toolchain_name(command):
    """The first line that `rt version` writes; nothing of an rt that does not run."""
    import subprocess

    try:
        ran = subprocess.run([command, 'version'], stdout=subprocess.PIPE, stderr=subprocess.DEVNULL,
                             stdin=subprocess.DEVNULL)
    except OSError:
        return ''
    return ran.stdout.decode('utf-8', 'replace').strip().partition('\n')[0]


def stamp_of(sources, command):
    """The lines of a stamp."""
    return [sources, toolchain_name(command), toolchain_place(command)]


def stamp_file(crate):
    """Where the stamp of an unproved program is kept."""
    return kept_unproved(crate) + '.stamp'


def compiled_by(crate='m51'):
    """The toolchain that has compiled the unproved program, which is kept."""
    return lines_of(stamp_file(crate))[1]


def write_stamp(lines, time, crate='m51'):
    """Keeps a stamp, with the time from which on a source is newer than its program."""
    stamp = stamp_file(crate)
    part = f'{stamp}.{os.getpid()}'
    with open(part, 'w') as file:
        file.write('\n'.join(lines) + '\n')
    os.utime(part, ns=(time, time))
    os.replace(part, stamp)


def is_current(crate='m51'):
    """Whether the unproved program that is kept is that of the sources and of the toolchain."""
    if is_program(os.path.join(TOP, f'{INSTALLED_AS[crate]}-unproved')):
        return True
    kept = lines_of(stamp_file(crate))
    if not is_program(kept_unproved(crate)) or len(kept) != 3:
        return False
    command = toolchain_command()
    time = os.stat(stamp_file(crate)).st_mtime_ns
    is_moved = command and toolchain_place(command) != kept[-1]
    if not is_moved and not newer(time, crate):
        return True
    now = max(state.st_mtime_ns for _, state in entries(crate))
    found = [checksum(crate), *(stamp_of('', command)[1:] if command else kept[1:])]
    if found[0] != kept[0]:
        return False
    # What a toolchain of the right logic has compiled stays right beside another one.
    if found[1] != kept[1] and not has_logic(kept[1]):
        return False
    try:
        write_stamp([found[0], kept[1], found[2]], max(time, now), crate)
    except OSError:
        # Where the folder may not be written, the next call asks for the checksum again.
        pass
    return True
