"""Sources of sdas8051 as sources of m51: areas become segments, globals PUBLIC and EXTRN, local labels names."""
import re

from guesses import PREDEFINED, RESERVED
from porting_rules import outside

# The kinds of areas, by a word of their attributes; other areas are code. The area ISEG is reached by @R0 only.
AREA_KINDS = (('XDATA', 'XDATA'), ('DATA', 'DATA'), ('BIT', 'BIT'))
SDAS_WORDS = (('db', 'DB'), ('byte', 'DB'), ('ascii', 'DB'), ('dw', 'DW'), ('word', 'DW'), ('ds', 'DS'))


def area_of(words):
    """The name of an area, and the kind of its segment; none for an area of names only, or of a register bank."""
    attributes = ' '.join(words[2:]).upper()
    kind = next((kind for word, kind in AREA_KINDS if word in attributes), 'CODE')
    if words[1].startswith('REG_BANK') or kind == 'DATA' and 'ABS' in attributes:
        return words[1], None
    return words[1], 'IDATA' if words[1] == 'ISEG' else kind


class Areas:
    """The areas with their kinds, the one of the line (nothing in one of names only), and those that have content."""

    def __init__(self):
        self.kinds, self.now, self.used = {}, '', set()

    def begin(self, words):
        """The line that begins an area."""
        name, kind = area_of(words)
        self.now = f'AREA_{name}' if kind else None
        if kind:
            self.kinds.setdefault(self.now, kind)
        return f'        RSEG {self.now}' if kind else ''

    def line(self, made):
        """A line of the area; nothing is in an area of names only."""
        if self.now is None and re.match(r'\s*(?:\.org|\.?ds)\b', made, re.I):
            return ''
        self.used.add(self.now)
        return re.sub(r'\bDS\b', 'DBIT', made) if self.kinds.get(self.now) == 'BIT' else made


class Banks:
    """The register bank to which AR0 to AR7 belong; sdas8051 has them as names with values."""

    def __init__(self):
        self.now = 0

    def line(self, name, value):
        """The line for a name of these with a value: USING where the bank changes."""
        number = re.fullmatch(r'([0-9A-F]+)H', value)
        bank, register = divmod(int(number[1], 16), 8) if number else (4, 0)
        if bank > 3 or register != int(name[2]):
            return f'{name} EQU {value}'
        before, self.now = self.now, bank
        return f'        USING {bank}' if bank != before else ''


def sdas(port):
    """sdas8051: areas, globals, local labels; lines with the segments and the externals come first."""
    scope, areas, banks, values, taken, shared = 0, Areas(), Banks(), {}, [], set()
    port.numbers()
    port.texts()
    port.replace('#(x >> 8) becomes #HIGH(x)', r'#\((.*) >> 8\)', r'#HIGH(\1)')
    port.replace('#(x >> 8) becomes #HIGH(x)', r'\((\w+|\([\w +]+\)) >> 8\)', r'HIGH(\1)')
    for word, new in SDAS_WORDS:
        port.replace('a directive with a dot is written without it', rf'(?<![\w.])\.{word}\b', new)
    port.replace('. for the place becomes $', r'(?<![\w.])\.(?![\w.])', '$')
    port.rule('# before a number of DB and DW goes', lambda line: outside(line, lambda part: part.replace('#', '')) if (
        re.match(r'\s*(?:\w+::?)?\s*D[BW]\b', line)) else line)
    for sign, operator in (('\\^', 'XOR'), ('&', 'AND')):
        port.replace('^ and & of two numbers become XOR and AND', rf'\((\d\w*) ?{sign} ?(\d\w*)\)',
                     rf'(\1 {operator} \2)')

    def change(line):
        nonlocal scope, taken
        words = line.partition(';')[0].replace('==', '=').split() or ['']
        if re.match(r'\s*[A-Za-z_][\w$]*::?', line):
            scope += 1
        if words[0] in ('.if', '.else', '.endif'):
            taken = {'.if': [*taken, values.get(words[-1], '0') != '0'], '.else': [*taken[:-1], not (taken or [1])[-1]],
                     '.endif': taken[:-1]}[words[0]]
            return ''
        found = re.match(r'\s*(?:\.globl\s+(\w+)|(\w+)::)', line) if all(taken) else None
        if found:
            shared.add(found[1] or found[2])
        if not all(taken) or words[0] in ('.globl', '.module', '.optsdcc'):
            return ''
        if words[0] == '.area' and len(words) > 1:
            return areas.begin(words)
        if words[1:2] == ['='] and len(words) > 2:
            values[words[0]] = words[2]
            if re.fullmatch('AR[0-7]', words[0].upper()):
                return banks.line(*words[::2][:2])
            return '' if words[0].upper() in PREDEFINED | RESERVED else f'{words[0]} EQU {words[2]}'
        made = outside(line, lambda part: re.sub(r'\b(\d{1,5})\$', lambda found: f'L{scope}_{found[1]}', part))
        # Other names with this sign are no local ones.
        made = outside(made, lambda part: re.sub(r'\b([A-Za-z_]\w*)\$', r'\1?', part))
        made = re.sub(r'^(\s*[\w?]+)::', r'\1:', made)
        return areas.line(made) if words[0] else made

    port.rule('areas, globals, local labels and = are written as m51 takes them', change)
    port.rule('an area in which nothing is is left out', lambda line: '' if re.match(r'\s*RSEG AREA_', line) and (
        line.split()[1] not in areas.used) else line)
    code = re.sub(r';.*', '', '\n'.join(port.lines))
    defined = set(re.findall(r'^\s*([\w?]+)(?::|\s+EQU\b)', code, re.M))
    rest = re.sub(r"'(?:''|[^'])*'", "''", re.sub(r'^\s*([\w?]+:)?\s*\w+', '', code, flags=re.M))
    used = set(re.findall(r'(?<![\w.?])[A-Za-z_][\w?]*', rest))
    names = {name for name in used - defined - set(areas.kinds) if name.upper() not in PREDEFINED | RESERVED}
    head = [f'{area} SEGMENT {kind}' for area, kind in areas.kinds.items() if area in areas.used]
    head += [f'        EXTRN NUMBER ({name})' for name in sorted(names)]
    head += [f'        PUBLIC {name}' for name in sorted(shared & defined)]
    known = {}
    for at, line in enumerate(port.lines, 1):
        found = re.match(r'\s*([\w?]+)(?::|\s+EQU\b)', line)
        if found and known.setdefault(found[1].upper(), found[1]) != found[1]:
            port.note(at, f'{found[1]} and {known[found[1].upper()]} are one name here')
    port.put_first('segments and externals come first', head)
    port.plain()
