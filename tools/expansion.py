"""Macros and conditional assembly, as Intel's ASM51 with A51's standard macros and ASEM-51 have them, written out.

Lines come from frames: files, and bodies of macros and of REPT, IRP and IRPC. A frame has its own open conditions, so
what begins in one ends there. What is written is plain ASM51, each line with the place that it comes from.
"""
import os
import re

import conditions
import macro_text
import macros
from constants import TRUE, Constants
from frames import MOST_OF_LINE, MOST_STEPS, Fault, Frame, Run, rows_of
from guesses import RESERVED
from macro_text import MOST_OF_NAME, Wrong
from macros import REPEATS

CONTROL = re.compile(r'\s*\$\s*([A-Za-z]\w*)\s*(.*)', re.S)
SET_PART = re.compile(r'\s*([A-Za-z?_][\w?]*)\s*(?:=\s*([^,]+))?\s*$')
DEFINITION = re.compile(r'(EQU|SET|CODE|DATA|IDATA|XDATA|BIT|SEGMENT)\b(.*)', re.I | re.S)
OF_NAME = re.compile(r'(?:EQU|SET|CODE|DATA|IDATA|XDATA|BIT|MACRO)\b', re.I)
INCLUDE = re.compile(r"\(\s*'?([^)']+?)'?\s*\)|'?([^()']+?)'?")
LABEL_OF_CALL = MOST_OF_LINE - MOST_OF_NAME - 2


class Expansion(Run):
    """One run over a source, with its macros and constants."""

    def __init__(self, defined, folders):
        super().__init__()
        self.constants, self.macros, self.folders = Constants(defined), {}, folders
        self.unknown_words, self.count_of_locals = {}, 0

    def run(self, path):
        """Writes a source out. Without faults the lines and their places are in `written`."""
        try:
            self.enter(Frame('file', path, rows_of(path)))
            self.lines()
            for name, place in self.unknown_words.items():
                if name in self.macros:
                    self.note(Fault(place, 'NAME', f'{name} is used above its definition'))
        except Fault as fault:
            self.note(fault)

    def line(self, text):
        """One line: a control, a condition, a definition, a call, or a line of the assembler."""
        body = macro_text.without_comment(text)
        if body.lstrip()[:1] == '$':
            control = CONTROL.match(body)
            if control:
                self.control(control[1].upper(), control[2].strip(), text)
                return
        label, word, rest = macros.parts_of(body)
        if word in conditions.WORDS and not OF_NAME.match(rest):
            if label:
                raise Wrong('FORM', f'the label {label} is before {word}; write it on a line of its own')
            self.condition(word, rest, False)
        elif self.is_taken():
            self.statement(text, body, label, word, rest)
        elif word in REPEATS or macros.macro_head(label, rest) is not None:
            # A body that is not taken may have an ENDIF of its own.
            self.read_body(word or 'MACRO')

    def statement(self, text, body, label, word, rest):
        """A line that is taken and is no condition."""
        parameters = macros.macro_head(label, rest)
        if parameters is not None and word:
            self.define_macro(word, parameters)
        elif word in self.macros:
            self.label_line(label, body[body.index(':') + 1 :].strip() if label else body.strip())
            self.call(self.macros[word], rest)
        elif word in REPEATS:
            self.label_line(label)
            self.repeat(word, rest)
        elif word in macros.WORDS and not OF_NAME.match(rest):
            self.word_of_macros(label, word, rest)
        elif body.lstrip()[:1] == '%':
            raise Wrong('MPL', 'the macro language of ASM51 (%*DEFINE, %IF) is not known: write MACRO and IF')
        else:
            self.plain(text, label, word, rest)

    def word_of_macros(self, label, word, rest):
        """EXITM and PURGE, and ENDM and LOCAL where they may not be."""
        if label:
            raise Wrong('FORM', f'the label {label} is before {word}')
        if word == 'PURGE':
            for name in macros.names_of(rest) or ['PURGE without a name']:
                if name not in self.macros:
                    raise Wrong('NAME', f'{name}: there is no such macro to purge')
                del self.macros[name]
        elif word != 'EXITM':
            why = 'ENDM outside a macro' if word == 'ENDM' else f'{word} that is not the first of a macro'
            raise Wrong('LONE', why)
        elif self.frames[-1].kind != 'macro':
            raise Wrong('LONE', 'EXITM outside a macro')
        else:
            # What is open in the body ends with it.
            self.frames.pop()

    def label_line(self, label, call=''):
        """The label of a call on a line of its own, and the call as a comment."""
        if label:
            self.constants.note(label)
        if label or call:
            self.write((f'{label}: ' if label else '') + (f'; {call}'[:LABEL_OF_CALL] if call else ''))

    def plain(self, text, label, word, rest):
        """A line of the assembler, of which names and values are noted."""
        if label:
            self.constants.note(label)
        elif word and word not in RESERVED:
            found = DEFINITION.match(rest)
            if found and found[1].upper() == 'SEGMENT':
                self.constants.note(word)
            elif found:
                self.constants.define(word, found[2])
        if word == 'EXTRN':
            for name in macro_text.NAME.findall(rest):
                self.constants.values.setdefault(name.upper(), None)
        elif word and word not in RESERVED:
            self.unknown_words.setdefault(word, self.place)
        self.write(text)
        self.is_over = word == 'END' and len(self.frames) == 1

    # Conditions and controls.

    def condition(self, word, rest, is_control):
        """IF, ELSEIF, ELSE, ENDIF and their like."""
        self.frames[-1].conditions.line(word, self.place, is_control, lambda asked: self.holds(asked, rest, is_control))

    def holds(self, word, rest, is_control):
        """Whether a condition holds."""
        if word in ('IFDEF', 'IFNDEF'):
            name = rest.strip().upper()
            if not macro_text.NAME.fullmatch(name):
                raise Wrong('FORM', f'{word} needs one name')
            return self.constants.is_defined(name) == (word == 'IFDEF')
        if word in ('IFB', 'IFNB'):
            return (not any(self.arguments(rest))) == (word == 'IFB')
        if not rest.strip():
            raise Wrong('FORM', f'{word} needs an expression')
        return bool(self.constants.evaluated(rest, is_control)) == (word == 'IF')

    def control(self, word, rest, text):
        """A control: of conditions and switches, an include, or one of the assembler, which is written."""
        if word in conditions.WORDS:
            self.condition(word, rest, True)
        elif not self.is_taken():
            return
        elif word in ('SET', 'RESET'):
            self.switch(word, rest)
        elif word in ('INCLUDE', 'IC'):
            self.include(rest)
        else:
            if word == 'NOMOD51':
                self.constants.has_predefined = False
            self.write(text.lstrip())

    def switch(self, word, rest):
        """$SET and $RESET."""
        inner = re.fullmatch(r'\((.*)\)', rest)
        parts = [SET_PART.match(part) for part in inner[1].split(',')] if inner else [None]
        if not all(parts) or word == 'RESET' and any(part[2] for part in parts):
            raise Wrong(
                'FORM', f'${word} is written ' + ('$SET(NAME=VALUE, NAME)' if word == 'SET' else '$RESET(NAME, NAME)'))
        for part in parts:
            value = self.constants.evaluated(part[2], True) if part[2] else TRUE
            self.constants.switch(part[1], value if word == 'SET' else 0)

    def include(self, rest):
        """Enters an include, which lies beside the file that includes it or in a folder of -I."""
        found = INCLUDE.fullmatch(rest)
        if not found:
            raise Wrong('FORM', '$INCLUDE is written $INCLUDE(file)')
        name = found[1] or found[2]
        folders = [os.path.dirname(self.place[0]), *self.folders]
        path = next(filter(os.path.isfile, (os.path.join(folder, name) for folder in folders)), None)
        if not path:
            where = ' or in the folders of -I' if self.folders else ''
            raise Wrong('FILE', f'there is no include {name} beside this file{where}')
        self.enter(Frame('file', path, rows_of(path), self.frames[-1].calls))

    # Macros.

    def read_body(self, what):
        """The lines up to the ENDM of this definition; without one the frame is over."""
        frame = self.frames[-1]
        at, frame.at = frame.at, len(frame.rows)
        rows, frame.at, label = macros.read_body(frame.rows, at, what)
        if label:
            raise Wrong('FORM', f'the label {label} is before ENDM')
        return rows

    def define_macro(self, name, parameters):
        """Defines a macro. A macro may define another one again."""
        rows = self.read_body(f'MACRO {name}')
        known = self.macros.get(name)
        if known and not self.place[2] and known.place != self.place:
            first = f'{known.place[0]}({known.place[1]})'
            raise Wrong('NAME', f'the macro {name} is defined twice, first in {first}: PURGE {name} comes between')
        self.macros[name] = macros.Macro(name, self.place, parameters, rows)

    def arguments(self, text):
        """The arguments of a call; those with a percent sign are the numbers of their values."""
        return [str(self.constants.evaluated(part)) if sign == '%' else part
                for sign, part in macro_text.split_arguments(text)]

    def local_name(self, name):
        """A name that nothing else has."""
        while True:
            self.count_of_locals += 1
            ending = f'?{self.count_of_locals}'
            made = name[: MOST_OF_NAME - len(ending)] + ending
            if made not in self.constants.values:
                return made

    def enter_body(self, name, rows):
        """Enters a body that the line of this place has called."""
        file, number, calls = self.place
        self.enter(Frame('macro', name, rows, ((name, file, number), *calls)))

    def call(self, macro, rest):
        """Enters the body of a macro."""
        self.enter_body(macro.name, macro.lines(self.arguments(rest), self.local_name))

    def repeat(self, word, rest):
        """REPT, IRP or IRPC: enters its body as often as it says."""
        rows = self.read_body(word)
        if word == 'REPT':
            name, given = '', [''] * self.constants.evaluated(rest)
        else:
            name, given = self.values_of(word, rest)
        if len(given) * len(rows) > MOST_STEPS:
            raise Fault(self.place, 'LIMIT', f'{word} gives more than {MOST_STEPS} lines')
        body = macros.Body(rows, {name})
        self.enter_body(word, [row for value in given for row in body.put({name: value})])

    def values_of(self, word, rest):
        """The name of an IRP or IRPC, and the texts that it becomes in turn."""
        name, comma, values = rest.partition(',')
        name, values = name.strip().upper(), values.strip()
        if not comma or not macro_text.NAME.fullmatch(name):
            raise Wrong('FORM', f'{word} is written {word} NAME, <..>')
        if word == 'IRPC':
            return name, list(self.arguments(values)[0]) if values else []
        return name, self.arguments(self.arguments(values)[0] if values.startswith('<') else values)
