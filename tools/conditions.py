"""Conditional assembly: the words, and the conditions that are open in a file or in a body."""
from macro_text import Wrong

IFS = ('IF', 'IFN', 'IFDEF', 'IFNDEF', 'IFB', 'IFNB')
# What each ELSEIF asks.
ELSE_IFS = {'ELSEIF': 'IF', 'ELSEIFN': 'IFN', 'ELSEIFDEF': 'IFDEF', 'ELSEIFNDEF': 'IFNDEF', 'ELSEIFND': 'IFNDEF',
            'ELSEIFB': 'IFB', 'ELSEIFNB': 'IFNB'}
WORDS = {*IFS, *ELSE_IFS, 'ELSE', 'ENDIF'}


class Condition:
    """An open condition: the place of its IF, whether its lines are taken now, and whether a part was or may not be."""

    def __init__(self, place, is_control, is_taken, is_done):
        self.place, self.is_control, self.is_taken, self.is_done = place, is_control, is_taken, is_done
        self.has_else = False


class Conditions:
    """The open conditions of a file or of a body, which end where it ends.

    `holds` is asked only for a part that may be taken; if it raises `Wrong`, no part of that condition is taken.
    """

    def __init__(self):
        self.open = []

    def are_taken(self):
        """Whether lines are taken now."""
        return not self.open or self.open[-1].is_taken

    def line(self, word, place, is_control, holds):
        """Takes a line of IF, ELSEIF, ELSE or ENDIF."""
        if word in IFS:
            may_be = self.are_taken()
            self.open.append(Condition(place, is_control, False, True))
            if may_be:
                self.open[-1].is_taken = self.open[-1].is_done = holds(word)
            return
        now = self.of_word(word, is_control)
        if word == 'ENDIF':
            self.open.pop()
            return
        if now.has_else:
            sign = '$' if is_control else ''
            raise Wrong('LONE', f'{sign}{word} after {sign}ELSE')
        now.has_else, now.is_taken = word == 'ELSE', False
        if not now.is_done:
            now.is_done = True
            now.is_taken = now.is_done = word == 'ELSE' or holds(ELSE_IFS[word])

    def of_word(self, word, is_control):
        """The condition to which an ELSEIF, ELSE or ENDIF belongs."""
        sign = '$' if is_control else ''
        if not self.open:
            raise Wrong('LONE', f'{sign}{word} without {sign}IF')
        now = self.open[-1]
        if now.is_control != is_control:
            if word == 'ENDIF':
                self.open.pop()
            raise Wrong('LONE', f'{sign}{word} of {"IF" if is_control else "$IF"} in line {now.place[1]}')
        return now
