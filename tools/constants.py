"""The names of a source that are known at a line, and the values of those that are constants there."""
import re

import expressions
from guesses import PREDEFINED
from macro_text import Wrong

NUL = re.compile(r'\s*NUL\b(.*)', re.I | re.S)
NUMBER = re.compile(r'\s*(\d+)\s*')
TRUE = 0xFFFF


class Constants:
    """The names of the source (`values`) and those of $SET, $RESET and -D (`switches`), in capitals.

    A name of the source without a value is a label, a segment or no constant.
    """

    def __init__(self, defined):
        self.values, self.switches, self.has_predefined = {}, dict(defined), True

    def is_defined(self, name):
        """Whether a name is defined above: by the source, as a switch, or as one of ASM51's own."""
        return name in self.values or name in self.switches or self.has_predefined and name in PREDEFINED

    def value_of(self, name, is_control=False):
        """The value of a name at this line: of the source and then of the switches, or the reverse in a control."""
        tables = (self.switches, self.values) if is_control else (self.values, self.switches)
        for table in tables:
            if table.get(name) is not None:
                return table[name]
        if self.is_defined(name):
            raise expressions.Unknown(f'the value of {name} is not known here: it is no constant')
        what = '$SET or $RESET' if is_control else 'EQU, SET'
        raise expressions.Unknown(f'{name} has no value here: define it above by {what}, or by -D {name}=0')

    def evaluated(self, text, is_control=False):
        """The value of an expression at this line; `NUL x` is true if nothing follows it."""
        found = NUL.match(text)
        if found:
            return 0 if found[1].strip() else TRUE
        try:
            return expressions.evaluate(text, lambda name: self.value_of(name, is_control))
        except expressions.Unknown as error:
            raise Wrong('VALUE', str(error)) from error

    def note(self, name):
        """Notes a name that has no value here."""
        self.values[name.upper()] = None

    def define(self, name, text):
        """Notes a name, with its value if the expression is a constant here."""
        number = NUMBER.fullmatch(text)
        if number and int(number[1]) <= TRUE:
            self.values[name.upper()] = int(number[1])
            return
        try:
            self.values[name.upper()] = expressions.evaluate(text, self.value_of)
        except expressions.Unknown:
            self.values[name.upper()] = None

    def switch(self, name, value):
        """Gives a switch its value."""
        self.switches[name.upper()] = value
