"""Expressions over constants, by the operators and the ranks of ASM51 (docs/LANGUAGE.md, "Expressions").

Beside the words of the relations their signs are taken, as A51 and others have them. A value is 16 bits, a relation
0FFFFH or 0.
"""
import operator
import re

TOKEN = re.compile(
    r"\s*(?:(?P<number>\d[0-9A-Za-z]*)|(?P<name>[A-Za-z?_][\w?]*)|(?P<text>'(?:''|[^'])*')|"
    r'(?P<sign><=|>=|<>|==|!=|[-+*/()=<>$.]))')
RELATIONS = {
    'EQ': operator.eq, 'NE': operator.ne, 'LT': operator.lt, 'LE': operator.le, 'GT': operator.gt, 'GE': operator.ge}
SIGNS = {'=': 'EQ', '==': 'EQ', '<>': 'NE', '!=': 'NE', '<': 'LT', '<=': 'LE', '>': 'GT', '>=': 'GE'}
BITWISE = {'AND': operator.and_, 'OR': operator.or_, 'XOR': operator.xor}
MOST_TOKENS, MOST_PARENTHESES = 300, 50
BASES = {'H': 16, 'B': 2, 'O': 8, 'Q': 8, 'D': 10}
WORDS = {*RELATIONS, *BITWISE, 'NOT', 'HIGH', 'LOW', 'MOD', 'SHL', 'SHR'}


class Unknown(Exception):
    """Why an expression has no value."""


def number(text):
    """The value of a number as ASM51 writes it, or as C does."""
    text = text.upper()
    digits, base = (text[:-1], BASES[text[-1]]) if text[-1] in BASES else (text, 10)
    if text.startswith('0X'):
        digits, base = text[2:], 16
    try:
        value = int(digits, base)
    except ValueError:
        value = None
    if value is None or value > 0xFFFF:
        raise Unknown(f'{text} is no number of 16 bits')
    return value


def quoted(text):
    """The value of a text of one or two characters."""
    data = text[1:-1].replace("''", "'")
    if not 1 <= len(data) <= 2:
        raise Unknown(f'{text} has not one or two characters')
    return int.from_bytes(data.encode('latin-1', 'replace'), 'big')


def tokens(text):
    """The tokens of an expression: numbers, words and signs of operators, and names as pairs with `name`."""
    at, found = 0, []
    text = text.rstrip()
    while at < len(text):
        part = TOKEN.match(text, at)
        if not part:
            raise Unknown(f'{text[at:].strip()[:20]} is no part of an expression')
        at = part.end()
        if part['number']:
            found.append(number(part['number']))
        elif part['text']:
            found.append(quoted(part['text']))
        elif part['sign']:
            found.append(SIGNS.get(part['sign'], part['sign']))
        else:
            word = part['name'].upper()
            found.append(word if word in WORDS else ('name', word))
    return found


class Reader:
    """Reads the tokens of an expression, with a function that gives the value of a name."""

    def __init__(self, text, value_of):
        self.left, self.value_of = tokens(text), value_of

    def next_is(self, words):
        """Takes the next token if it is one of these words."""
        return self.left.pop(0) if self.left and isinstance(self.left[0], str) and self.left[0] in words else None

    def operand(self):
        if self.next_is(['(']):
            value = self.disjunction()
            if not self.next_is([')']):
                raise Unknown('a parenthesis is not closed')
            return value
        token = self.left.pop(0) if self.left else None
        if isinstance(token, int):
            return token
        if isinstance(token, tuple):
            return self.value_of(token[1])
        if token == '$':
            raise Unknown('the place $ is known to the assembler only')
        raise Unknown('an expression is missing' if token is None else f'an operand is missing before {token}')

    def unary(self):
        word = self.next_is(['+', '-', 'HIGH', 'LOW'])
        if not word:
            return self.operand()
        value = self.unary()
        return {'+': value, '-': -value & 0xFFFF, 'HIGH': value >> 8, 'LOW': value & 255}[word]

    def product(self):
        value = self.unary()
        while True:
            word = self.next_is(['*', '/', 'MOD', 'SHL', 'SHR'])
            if not word:
                return value
            other = self.unary()
            if word in ('/', 'MOD') and not other:
                raise Unknown('a division by 0')
            value = {
                '*': lambda: value * other, '/': lambda: value // other, 'MOD': lambda: value % other,
                'SHL': lambda: value << min(other, 16), 'SHR': lambda: value >> min(other, 16)}[word]() & 0xFFFF

    def total(self):
        value = self.product()
        while True:
            word = self.next_is(['+', '-'])
            if not word:
                return value
            other = self.product()
            value = (value + other if word == '+' else value - other) & 0xFFFF

    def relation(self):
        value = self.total()
        while True:
            word = self.next_is(RELATIONS)
            if not word:
                return value
            value = 0xFFFF if RELATIONS[word](value, self.total()) else 0

    def negation(self):
        return ~self.negation() & 0xFFFF if self.next_is(['NOT']) else self.relation()

    def conjunction(self):
        value = self.negation()
        while self.next_is(['AND']):
            value &= self.negation()
        return value

    def disjunction(self):
        value = self.conjunction()
        while True:
            word = self.next_is(['OR', 'XOR'])
            if not word:
                return value
            value = BITWISE[word](value, self.conjunction())


def evaluate(text, value_of):
    """The value of an expression."""
    reader = Reader(text, value_of)
    if len(reader.left) > MOST_TOKENS or reader.left.count('(') > MOST_PARENTHESES:
        raise Unknown('this expression is too long')
    value = reader.disjunction()
    if reader.left:
        token = reader.left[0]
        raise Unknown(f'{token[1] if isinstance(token, tuple) else token} is left over')
    return value
