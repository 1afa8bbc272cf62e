"""Definitions of macros, and the bodies of macros and of repetitions."""
import re

import conditions
from guesses import RESERVED
from macro_text import NAME, Template, Wrong, without_comment

# Blanks, a label, the first word and the rest of a line without its comment.
STATEMENT = re.compile(r'(\s*)(?:([A-Za-z?_][\w?]*)\s*:)?\s*(?:([A-Za-z?_][\w?]*)(?![\w?])\s*)?(.*)', re.S)
REPEATS = ('REPT', 'IRP', 'IRPC')
WORDS = {*conditions.WORDS, *REPEATS, 'MACRO', 'ENDM', 'EXITM', 'LOCAL', 'PURGE'}
HEAD = re.compile(r'MACRO\b(.*)', re.I | re.S)
LOCAL = re.compile(r'\s*LOCAL\b(.*)', re.I | re.S)


def parts_of(text):
    """The statement of a line without its comment: its label, its first word in capitals, and the rest."""
    _, label, word, rest = STATEMENT.match(text).groups()
    return label, (word or '').upper(), rest


def macro_head(label, rest):
    """What follows MACRO, if a line begins a macro; an empty text counts too."""
    found = not label and HEAD.match(rest)
    return found[1] if found else None


def names_of(text):
    """The names of a list, in capitals."""
    return [part.strip().upper() for part in text.split(',')] if text.strip() else []


class Body:
    """The lines of a body with their places, made ready for the names that arguments replace."""

    def __init__(self, rows, names):
        # Bodies that are read inside a body come from the same lines.
        self.rows = [(file, number, Template(line, names)) for file, number, line in rows]

    def put(self, given):
        """The lines with these arguments."""
        return [(file, number, line.put(given)) for file, number, line in self.rows]


class Macro:
    """A macro: its name and place, its parameters, its local names, and its body."""

    def __init__(self, name, place, parameters, rows):
        self.name, self.place = name, place
        if name in RESERVED or name in WORDS:
            raise Wrong('NAME', f'{name} is a word of the language and can be no macro')
        self.parameters, self.local, at = names_of(parameters), [], 0
        for at, row in enumerate(rows):
            text = without_comment(row[2])
            found = LOCAL.match(text)
            if found:
                self.local += names_of(found[1])
            elif text.strip():
                break
        else:
            at = len(rows)
        self.check_names()
        self.body = Body(rows[at:], {*self.parameters, *self.local})

    def check_names(self):
        """Refuses parameters and local names that are no names, or are there twice."""
        seen = set()
        for part in self.parameters + self.local:
            if not NAME.fullmatch(part):
                raise Wrong('FORM', f'{part or "an empty word"} is no name of a parameter of {self.name}')
            if part in seen:
                raise Wrong('NAME', f'{part} is twice among the parameters and local names of {self.name}')
            seen.add(part)

    def lines(self, given, local_name):
        """The lines of a call; `local_name` makes a name that nothing else has."""
        if len(given) > len(self.parameters):
            raise Wrong('ARGUMENTS',
                        f'{self.name} has {len(self.parameters)} parameters, and {len(given)} arguments are here')
        table = dict.fromkeys(self.parameters, '')
        table.update(zip(self.parameters, given))
        for name in self.local:
            table[name] = local_name(name)
        return self.body.put(table)


def read_body(rows, at, what):
    """The lines from an index on up to the ENDM of this definition, with those of definitions inside; the index after
    it; and a label before it, where none may be."""
    depth, start = 1, at
    while at < len(rows):
        label, word, rest = parts_of(without_comment(rows[at][2]))
        at += 1
        if word == 'ENDM':
            depth -= 1
            if not depth:
                return rows[start : at - 1], at, label
        elif word in REPEATS or macro_head(label, rest) is not None:
            depth += 1
    raise Wrong('OPEN', f'{what} without ENDM')
