"""Random sources with macros and conditions, each with its expansion, which is made from the same tree by another way.

A tree has lines, conditions, repetitions and calls of macros. It is written as a source, and walked with the values of
its names; no code of `tools/` takes part.
"""
import random

LEAST = 3


class Scope:
    """The names that a body may use: texts of parameters, and local names."""

    def __init__(self, parameters=(), local=()):
        self.parameters, self.local = list(parameters), list(local)


class Maker:
    """Makes a source and its expansion."""

    def __init__(self, seed):
        self.rng, self.macros, self.count = random.Random(seed), {}, 0
        self.constants = {f'K{at}': self.rng.randrange(6) for at in range(LEAST)}
        self.counter = 0

    # A tree: tuples whose first part is the kind.

    def line(self, scope):
        """A line as a template, in which (name, joined) is a parameter."""
        rng, names = self.rng, scope.parameters
        kind = rng.randrange(5) if names else 0
        if kind == 1:
            return ('line', ['MOV R0,#', (rng.choice(names), '')])
        if kind == 2:
            return ('line', ['V', (rng.choice(names), '&'), ': NOP'])
        if kind == 3:
            return ('line', ["DB 'a&b ", (rng.choice(names), '&'), "'"])
        if kind == 4 and scope.local:
            return ('line', [(rng.choice(scope.local), ''), ': NOP'])
        return ('line', [rng.choice(['NOP', 'INC A', "DB 'X;&Y'", 'MOV A,#LOW(1+2)'])])

    def tree(self, scope, depth, is_macro=False):
        return [self.node(scope, depth, is_macro) for _ in range(self.rng.randrange(1, 4))]

    def node(self, scope, depth, is_macro):
        rng = self.rng
        kind = rng.randrange(9) if depth else 0
        if kind == 3:
            return ('if', rng.choice(list(self.constants)), rng.choice(['=', 'GT', '<=', 'NE']), rng.randrange(5),
                    self.tree(scope, depth - 1, is_macro), self.tree(scope, depth - 1, is_macro))
        if kind == 4:
            return ('rept', rng.randrange(3), self.tree(scope, depth - 1))
        if kind == 5:
            self.counter += 1
            name = f'X{self.counter}'
            inner = Scope([*scope.parameters, name], scope.local)
            values = [self.argument() for _ in range(rng.randrange(1, 4))]
            return ('irp', name, values, self.tree(inner, depth - 1))
        if kind == 6 and self.macros:
            name = rng.choice(list(self.macros))
            return ('call', name, [self.argument() for _ in self.macros[name][0].parameters])
        if kind == 7 and is_macro:
            return ('exit',)
        if kind == 8:
            self.counter += 1
            return ('irpc', f'Y{self.counter}', str(rng.randrange(100, 999)),
                    self.tree(Scope([*scope.parameters, f'Y{self.counter}'], scope.local), depth - 1))
        return self.line(scope)

    def argument(self):
        """An argument: its text in the source, and what it becomes."""
        rng = self.rng
        number, name = rng.randrange(200), rng.choice(list(self.constants))
        return rng.choice([(str(number), str(number)), (f'%{name}+{number}', str(self.constants[name] + number)),
                           ('<7>', '7'), ('Q!9', 'Q9'), (f'<R{number}>', f'R{number}')])

    def macro(self, at):
        scope = Scope([f'P{at}_{k}' for k in range(self.rng.randrange(3))],
                      [f'L{at}_{k}' for k in range(self.rng.randrange(3))])
        self.macros[f'MAC{at}'] = scope, self.tree(scope, 3, True)

    # The source.

    def source(self, nodes):
        for kind, *rest in nodes:
            if kind == 'line':
                yield ''.join(part if isinstance(part, str) else part[1] + part[0] + part[1] for part in rest[0])
            elif kind == 'if':
                name, sign, value, first, second = rest
                yield from [f' IF {name} {sign} {value}', *self.source(first), ' ELSE', *self.source(second), ' ENDIF']
            elif kind == 'rept':
                yield from [f' REPT {rest[0]}', *self.source(rest[1]), ' ENDM']
            elif kind == 'irp':
                yield from [f' IRP {rest[0]},<{",".join(text for text, _ in rest[1])}>', *self.source(rest[2]), ' ENDM']
            elif kind == 'irpc':
                yield from [f' IRPC {rest[0]},{rest[1]}', *self.source(rest[2]), ' ENDM']
            else:
                yield ' EXITM' if kind == 'exit' else f' {rest[0]} {",".join(text for text, _ in rest[1])}'

    # The expansion.

    def expand(self, nodes, values, out):
        """Writes the expansion; whether an EXITM ended it."""
        for kind, *rest in nodes:
            if kind == 'line':
                out.append(''.join(part if isinstance(part, str) else values[part[0]] for part in rest[0]))
            elif kind == 'exit':
                return True
            elif kind == 'if':
                name, sign, value, first, second = rest
                have = self.constants[name]
                holds = {'=': have == value, 'GT': have > value, '<=': have <= value, 'NE': have != value}[sign]
                if self.expand(first if holds else second, values, out):
                    return True
            elif kind == 'call':
                scope, body = self.macros[rest[0]]
                own = {name: made for name, (_, made) in zip(scope.parameters, rest[1])}
                for name in scope.local:
                    self.count += 1
                    own[name] = f'{name}?{self.count}'
                self.expand(body, own, out)
            else:
                self.repeat(kind, rest, values, out)
        return False

    def repeat(self, kind, rest, values, out):
        """Writes a repetition."""
        given = {'rept': lambda: [{}] * rest[0], 'irp': lambda: [{rest[0]: made} for _, made in rest[1]],
                 'irpc': lambda: [{rest[0]: letter} for letter in rest[1]]}[kind]()
        for value in given:
            self.expand(rest[-1], {**values, **value}, out)


def pair(seed):
    """A source, and the lines of its expansion."""
    maker = Maker(seed)
    for at in range(4):
        maker.macro(at)
    nodes = maker.tree(Scope(), 3) + [('call', name, [maker.argument() for _ in scope.parameters])
                                      for name, (scope, _) in maker.macros.items()]
    lines = [f'{name} EQU {value}' for name, value in maker.constants.items()]
    wanted, source = list(lines), list(lines)
    for name, (scope, body) in maker.macros.items():
        local = [f' LOCAL {",".join(scope.local)}'] if scope.local else []
        source += [f'{name} MACRO {",".join(scope.parameters)}', *local, *maker.source(body), ' ENDM']
    maker.expand(nodes, {}, wanted)
    return '\n'.join([*source, *maker.source(nodes)]), [' '.join(line.split()) for line in wanted]
