"""Reads an expression of a proof as a tree of nodes, each with its place in the text."""
import re

from lemmas import Unread, tokens, words

CLOSERS = (')', ']', '}', ',', ';', '|', 'in', '↦', '=')


class Node:
    """A part of an expression: `kind` says which, `children` are its parts, and `bound` has for each of these the names
    that the node binds in it. A `word` has its text, an `application` its head as the first child, a `let` its name."""

    def __init__(self, kind, start, end, children=(), bound=(), text=''):
        self.kind, self.start, self.end, self.text = kind, start, end, text
        self.children = list(children)
        self.bound = list(bound) or [set() for _ in self.children]

    def head(self):
        """The word that an application begins with."""
        return self.children[0].text if self.kind == 'application' else ''

    def below(self, bound=frozenset()):
        """The node and all nodes in it, each with the names that are bound round it."""
        yield self, bound
        for child, names in zip(self.children, self.bound):
            yield from child.below(bound | names)


def is_operator(token):
    """Whether a token stands between operands."""
    is_word = token in ('_', '...', '.') or re.search(r'[\w()\[\]{},;|"?λ⊥⊤⦃◌]', token)
    return token in (':', '→', '||') or not is_word


class Reader:
    """Reads the tokens of a part of a text, one after another."""

    def __init__(self, text, start, end):
        self.text, self.tokens, self.at, self.end = text, tokens(text, start, end), 0, end

    def next(self):
        return self.tokens[self.at][0] if self.at < len(self.tokens) else None

    def place(self):
        return self.tokens[self.at][1] if self.at < len(self.tokens) else self.end

    def last(self):
        return self.tokens[self.at - 1][2]

    def take(self, wanted=None):
        token = self.next()
        if token is None or wanted not in (None, token):
            raise Unread(f'{token} in place of {wanted}')
        self.at += 1
        return token

    def skip(self, *stops):
        """Goes to one of these tokens that stands outside of brackets, and returns the text before it."""
        start, depth = self.place(), 0
        while depth or self.next() not in stops:
            token = self.take()
            depth += (token in '([{') - (token in ')]}')
        return self.text[start:self.last()]

    def whole(self):
        """The expression that is all of the text."""
        node = self.expression()
        if self.next() is not None:
            raise Unread(self.next())
        return node

    def expression(self):
        start, token = self.place(), self.next()
        if token == 'let':
            return self.let(start)
        if token is not None and token.startswith('λ'):
            return self.function(start)
        operands, operators = [[]], []
        while self.next() is not None and self.next() not in CLOSERS:
            if is_operator(self.next()):
                operators.append(self.take())
                operands.append([])
            else:
                operands[-1].append(self.atom())
        nodes = [parts[0] if len(parts) == 1 else Node('application', parts[0].start, parts[-1].end, parts)
                 for parts in operands if parts]
        if operators:
            return Node('chain' if set(operators) <= {'∙'} else 'operation', start, self.last(), nodes)
        if not nodes:
            raise Unread('nothing')
        return nodes[0]

    def let(self, start):
        self.take('let')
        name = self.skip(':', '=').strip()
        if self.next() == ':':
            self.skip('=')
        self.take('=')
        value = self.expression()
        self.take('in')
        tail = self.expression()
        return Node('let', start, self.last(), [value, tail], [set(), {name}], name)

    def function(self, start):
        depth, begin = 0, self.place()
        while depth or not self.take().endswith('.'):
            depth += self.tokens[self.at - 1][0] in '([{'
            while depth:
                token = self.take()
                depth += (token in '([{') - (token in ')]}')
        names = words(self.text[begin:self.last()].replace('λ', ' ').replace('.', ' '))
        body = self.expression()
        return Node('function', start, self.last(), [body], [names])

    def atom(self):
        start, token = self.place(), self.next()
        if token == 'let' or token.startswith('λ'):
            return self.expression()
        if token == '(':
            return self.bracketed(start)
        if token == '{':
            self.take()
            self.skip('}')
            self.take('}')
            return Node('implicit', start, self.last())
        if token == '[':
            return self.arms(start)
        if token == 'record':
            return self.record(start)
        if token in CLOSERS:
            raise Unread(token)
        self.take()
        return Node('word', start, self.last(), text=token)

    def bracketed(self, start):
        self.take('(')
        items = []
        while self.next() != ')':
            items.append(self.expression())
            if self.next() == ',':
                self.take()
        self.take(')')
        if (self.next() or '').startswith('.') and self.place() == self.last():
            self.take()
            return Node('field', start, self.last())
        return Node('bracket', start, self.last(), items)

    def arms(self, start):
        self.take('[')
        bodies, bound = [], []
        while self.next() != ']':
            if self.next() == '|':
                self.take()
            bound.append(words(self.skip('↦')))
            self.take('↦')
            bodies.append(self.expression())
            if self.next() not in ('|', ']'):
                raise Unread('an arm')
        self.take(']')
        return Node('arms' if bodies else 'word', start, self.last(), bodies, bound, text='' if bodies else '[]')

    def record(self, start):
        self.take('record')
        parts = [] if self.next() == '{' else [self.atom()]
        self.take('{')
        while self.next() != '}':
            self.take()
            self.take('=')
            parts.append(self.expression())
            if self.next() == ';':
                self.take()
        self.take('}')
        return Node('record', start, self.last(), parts)
