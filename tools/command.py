"""The command m51: runs the program, and says on standard error what the program doesn't say.

The program is the proved one, where there is one; else the unproved one, which is compiled once. Its standard output
and its status are handed on as they are. docs/COMMAND.md, "The script m51", says what is added. Modules that take long
to load are loaded where they are needed: a call should cost little more than the program.
"""
# The module `signal` makes enumerations, which takes as long as the whole start of Python.
import _signal as signal
import os
import stat
import sys

import arguments
import sources

NOT_RUN = 70
NUMBERED = (1, 3, 4, 5, 6, 7, 11)
HINTED = (2, 8, 9, 12, *NUMBERED)
# Python ignores these two, and a program should not.
DEFAULT = (signal.SIGPIPE, signal.SIGXFSZ)
# How a file begins that a call may write over: an object, a HEX file, a library.
BEGINS = {'--out': b'\x02', '--hex': b':', 'lib': b'\x2c'}


def say(text):
    """Writes a line on standard error."""
    if sys.stderr:
        print('m51: ' + text, file=sys.stderr, flush=True)


def fail(text):
    """Says why nothing was run, and gives the status for that."""
    say(text)
    return NOT_RUN


def is_long(words):
    """Whether a run may take so long that it should not outlive a script that is killed."""
    return any(len(word.rpartition('=')[2]) > 5 and word.rpartition('=')[2].isdigit() for word in words)


def start_long(program, words):
    """Starts a program that ends with this process, also where that is killed."""
    import ctypes

    library, parent = ctypes.CDLL(None), os.getpid()
    child = os.fork()
    if child:
        return child
    try:
        library.prctl(1, signal.SIGKILL, 0, 0, 0)
        for number in DEFAULT:
            signal.signal(number, signal.SIG_DFL)
        if os.getppid() == parent:
            os.execv(program, [program, *words])
    finally:
        os._exit(NOT_RUN)


def run(program, words):
    """Runs a program, and gives its status. Signals go on to it, and one that ends it ends this process too."""
    child, early = None, []

    def hand_on(number, _):
        if child:
            os.kill(child, number)
        else:
            early.append(number)

    # A terminal sends this one to the program as well.
    signal.signal(signal.SIGINT, lambda *_: None)
    for number in (signal.SIGTERM, signal.SIGHUP):
        if signal.getsignal(number) != signal.SIG_IGN:
            signal.signal(number, hand_on)
    child = start_long(program, words) if is_long(words) else os.posix_spawn(
        program, [program, *words], os.environ, setsigdef=DEFAULT)
    for number in early:
        os.kill(child, number)
    status = os.waitpid(child, 0)[1]
    if os.WIFSIGNALED(status):
        signal.signal(os.WTERMSIG(status), signal.SIG_DFL)
        os.kill(os.getpid(), os.WTERMSIG(status))
    return os.WEXITSTATUS(status)


def size_of_output():
    """The size of standard output, if it is a plain file: there the program's text begins; else nothing."""
    try:
        state = os.fstat(1)
    except OSError:
        return None
    return state.st_size if stat.S_ISREG(state.st_mode) else None


def is_other_file(name, begin):
    """Whether a plain file is there that has bytes and does not begin as what would be kept."""
    try:
        with open(name, 'rb') as file:
            return os.path.isfile(name) and file.read(1) not in (b'', begin)
    except OSError:
        return False


def overwritten(words):
    """Why a call would write over a file that it should not, or nothing."""
    for what, made in arguments.made(words):
        shown = arguments.shown(made)
        for name in arguments.inputs(words):
            if os.path.exists(made) and os.path.exists(name) and os.path.samefile(made, name):
                return f'{arguments.shown(name)} is read by the same call'
        if made.lower().endswith(('.a51', '.inc')) and os.path.isfile(made):
            return f'{shown} is a source'
        if is_other_file(made, BEGINS[what]):
            kind = {'--out': 'object', '--hex': 'HEX file', 'lib': 'library'}[what]
            return f'{shown} is there and is no {kind}'
    return None


def version():
    """The version, the programs with their sums, and the verbs."""
    number, kit = sources.version()
    trace = [f'm51-trace: {line}' for line in lines_of_program(sources.TRACE)]
    program = lines_of_program('m51') or ['no program is built yet']
    return '\n'.join([f'm51 {number}, {kit}', *program, *trace, f'verbs: {" ".join(arguments.VERBS)}'])


def lines_of_program(crate):
    """Whether a program is the proved one, where it is, and its sum, with what the certificate says of it; no lines if
    there is none."""
    program = sources.proved(crate) or sources.unproved(crate)
    if not program:
        return []
    kind = 'proved' if program == sources.proved(crate) else 'unproved'
    said, is_certified = judged(program)
    lines = sources.lines_of('CERTIFICATE') if is_certified and crate == 'm51' else []
    return [f'the {kind} program {program}', said,
            *(line[2:] for line in lines if line.startswith(('# commit ', '# gate ')))]


def judged(program):
    """What the sum of a program is, whether that is the one of its certificate, or of what was installed; and whether a
    certificate has it."""
    import hashlib

    with open(program, 'rb') as file:
        found = hashlib.sha256(file.read()).hexdigest()
    lines = sources.lines_of('CERTIFICATE')
    if f'{found}  {os.path.basename(program)}' in lines:
        return f'sha256 {found}, that of the certificate', True
    if lines:
        return f'sha256 {found}, WHICH IS NOT THAT OF THE CERTIFICATE', False
    if program == sources.installed() and sources.lines_of('SHA256') != [found]:
        return f'sha256 {found}, WHICH IS NOT WHAT WAS INSTALLED', False
    return f'sha256 {found}, without a certificate', False


def answer_without_program(words):
    """Answers a call that needs no program: its status, or nothing if it needs one."""
    verb, verbs = words[0] if words else '', arguments.VERBS
    if not words:
        print(arguments.USAGE, flush=True)
        print(arguments.help_text(), file=sys.stderr)
        return 2
    if verb == '--version':
        print(version())
        return 0
    if verb in ('-h', '--help', 'help'):
        of_verb = words[1:2] and words[1] in verbs
        if words[1:2] and words[1] in arguments.TOOLS:
            run_tool([words[1], '--help'])
        print(arguments.usage(words[1]) if of_verb else arguments.help_text())
        return 0
    flags = words[: words.index('--')] if '--' in words else words
    if verb in verbs and ('-h' in flags or '--help' in flags):
        print(arguments.usage(verb))
        return 0
    why = overwritten(words) if verb in verbs else None
    return fail(f'{why}, and would be overwritten; nothing was done') if why else None


def refuse_before_compiling(words):
    """Answers a call that is wrong or lacks a file, before a program is compiled: its status, or nothing."""
    import hints

    if arguments.wrong(words):
        print(arguments.USAGE, flush=True)
        hints.after(2, words, None)
        return 2
    missing = [why for why in map(hints.why_unread, arguments.inputs(words)) if why]
    return fail('; '.join(missing)) if missing else None


def unproved(words, why):
    """The unproved program, compiled if it has to be, and the status of a call that can't have it."""
    if not sources.is_current():
        if not sources.has_sources():
            return None, fail(f'{why}, and there are no sources here')
        refused = refuse_before_compiling(words)
        if refused:
            return None, refused
        if not sources.toolchain_command():
            return None, fail(f"{why}, and the toolchain's command rt is not on the path; README.md says what is "
                              'needed')
        if run(os.path.join(sources.TOP, 'tools', 'unproved'), []):
            return None, NOT_RUN
    say(f'{why}: this one is compiled from the same sources without a proof, with checks for faults')
    return sources.unproved(), 0


def program_for(words):
    """The program to run, and the status of a call that can't have one."""
    program = sources.proved()
    if not program:
        return unproved(words, 'the proved program is not built')
    if os.environ.get('M51_UNPROVED'):
        return unproved(words, 'M51_UNPROVED asks for the unproved program')
    source = sources.newer_than_proved(program)
    if source:
        say(f'the proved program is older than {source}: it is what was proved, not these sources')
    return program, 0


def run_tool(words):
    """Runs a tool in place of this process."""
    tool = os.path.join(sources.TOP, 'tools', words[0])
    os.execv(tool, [tool, *words[1:]])


def main(words):
    """Answers a call, and gives its status."""
    signal.signal(signal.SIGINT, signal.SIG_DFL)
    signal.signal(signal.SIGPIPE, signal.SIG_DFL)
    if words and words[0] in arguments.TOOLS:
        run_tool(words)
    answered = answer_without_program(words)
    if answered is not None:
        return answered
    program, refused = program_for(words)
    if not program:
        return refused
    size = size_of_output()
    if size is not None and words[0] in arguments.VERBS and arguments.kept(words):
        import hints

        hints.say_one_file(words)
    try:
        status = run(program, words)
    except OSError as error:
        return fail(f'{program}: {error.strerror}')
    if status in HINTED:
        import hints

        hints.after(status, words, size, program)
    return status
