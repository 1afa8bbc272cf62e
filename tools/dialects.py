"""Sources of other assemblers as sources of m51, by the rules of docs/PORTING.md, line by line.

`ported` makes the edits that need no thought, notes each with its line, and notes what a person must decide. Macros and
conditions of ASEM-51 and MCU 8051 IDE stay: `m51 expand` writes them out.
"""
import re

from porting_rules import Port
from sdas import sdas

SIMPLE = r'\(?[\w.+ ]+?\)?'


def as31(port):
    """as31: names with dots, 0x, double quotes, & and >> for bytes of a word, * for the place."""
    port.numbers()
    port.texts()
    bytes_of = '& 255 and >> 8 become LOW and HIGH'
    port.replace(bytes_of, r'(>> *8\)) *& *(?:255|0FFH)', r'\1')
    port.replace(bytes_of, rf'({SIMPLE}) *>> *8', r'HIGH(\1)')
    port.replace(bytes_of, rf'({SIMPLE}) *& *(?:255|0FFH)', r'LOW(\1)')
    port.replace(bytes_of, r'\b(HIGH|LOW)\(\(([\w.+ ]+?) *\)\)', r'\1(\2)')
    port.replace('* becomes $', r'([,\t ])\*(?=\s*$)', r'\1$')
    dots = 'a directive with a dot is written without it'
    port.rule(dots, lambda line: re.sub(r'^(\s*)\.equ\s+(\w+)\s*,', r'\1\2 EQU ', line, flags=re.I))
    port.rule(dots, lambda line: re.sub(r'^(\s*)\.flag\s+(\w+)\s*,', r'\1\2 BIT ', line, flags=re.I))
    for word, new in (('db', 'DB'), ('byte', 'DB'), ('dw', 'DW'), ('word', 'DW'), ('skip', 'DS'), ('end', 'END')):
        port.replace(dots, rf'(?<!\w)\.{word}\b', new)
    count = [0]

    def org(line):
        found = re.match(r'(\s*)\.org\s+([^;]*?)\s*(;.*)?$', line, re.I)
        if not found:
            return line
        count[0] += 1
        made = f'DS {found[2]}-$' if count[0] > 1 else f'ORG {found[2]}'
        return f'        {made} {found[3] or ""}'.rstrip()

    port.rule('.org: the first becomes ORG, each later one DS x-$', org)
    port.plain()


def asem(port):
    """ASEM-51: other controls; macros and conditions stay."""
    port.numbers()
    port.texts()
    port.plain()


def mcu8051ide(port):
    """MCU 8051 IDE: other controls, escapes of C in texts, DATA for IDATA, what is above the first ORG; macros and
    conditions stay."""
    port.texts()
    first = port.above_first_org()
    if first:
        port.lines[first - 1] = re.sub(r'(?i)\bORG\b', 'CSEG AT', port.lines[first - 1], count=1)
        port.put_first('what is above the first ORG gets a segment: it is placed after all others', [
            'ABOVE_ORG SEGMENT CODE', '        RSEG ABOVE_ORG'])
    port.rule('IDATA for a name of a byte becomes DATA', lambda line: re.sub(
        r'^(\w+\s+)idata\b', r'\1data', line, flags=re.I))
    for at in port.changed.get('IDATA for a name of a byte becomes DATA', []):
        port.note(at, 'a byte from 80H on is reached by @R0 only, and DATA there is a register')
    port.plain()


DIALECTS = {'as31': as31, 'sdas': sdas, 'asem': asem, 'mcu8051ide': mcu8051ide}


def ported(dialect, text):
    """A source that is ported from a dialect."""
    port = Port(text)
    DIALECTS[dialect](port)
    return port
