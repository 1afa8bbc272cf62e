"""port: the edits of each dialect, and what is left for a person."""
import os
import re
import shutil
import subprocess

import dialects
import image
from support import PROGRAM, TOOLS, Folder, ran, tool

EDITS = (
    ('as31', '.equ X,0x1f', 'X EQU 01FH'), ('as31', ' .flag F,0x90.1', ' F BIT 090H.1'),
    ('as31', 'L: .db "It\'s",0 ; "x" 0x5', "L: DB 'It''s',0 ; \"x\" 0x5"), ('as31', ' .byte "a\\n"', " DB 'a',10"),
    ('as31', ' .word 5', ' DW 5'), ('as31', ' .skip 4', ' DS 4'), ('as31', ' mov a,#(X >> 8) & 255', ' mov a,#HIGH(X)'),
    ('as31', ' mov a,#X & 255', ' mov a,#LOW(X)'), ('as31', ' sjmp *', ' sjmp $'),
    ('as31', ' mov a,#0b101', ' mov a,#101B'),
    ('sdas', ' mov a,#0x1F', ' mov a,#01FH'), ('sdas', 'f::', 'f:'), ('sdas', ' .ds 2', ' DS 2'),
    ('sdas', ' mov a,#(f >> 8)', ' mov a,#HIGH(f)'), ('sdas', 'x = 5', 'x EQU 5'), ('sdas', 'ar7 = 0x07', ''),
    ('sdas', '00001$:', 'L0_00001:'), ('sdas', ' .globl f', ''),
    ('sdas', ' .byte (f >> 8),f', ' DB HIGH(f),f'), ('sdas', ' .ascii "it\'s"', " DB 'it''s'"),
    ('sdas', ' .area RSEG (ABS,DATA)\n .org 0x0000', ''), ('sdas', '_P0 = 0x0080', '_P0 EQU 00080H'),
    ('sdas', ' mov a,#(0x00 ^ 0x80)', ' mov a,#(000H XOR 080H)'),
    ('sdas', ' mov dptr,#(0x0A&0x00FF)', ' mov dptr,#(00AH AND 000FFH)'), ('sdas', ' sjmp 2$', ' sjmp L0_2'),
    ('sdas', 'L00101$:', 'L00101?:'), ('sdas', "to$: sjmp to$ ; '$'", "to?: sjmp to? ; '$'"),
    ('sdas', 'x: nop\ny$: sjmp 1$', 'x: nop\ny?: sjmp L2_1'), ('sdas', ' sjmp . ; 2.', ' sjmp $ ; 2.'),
    ('sdas', 'ar7 = 0x0f', '        USING 1'),
    ('sdas', 'ar7 = 0x0F\nar6 = 0x0e ; x\nar0 = 0x00\nar1 = 0x01', '        USING 1\n\n        USING 0\n'),
    ('sdas', " jb a.2,. + 3 ; '.'", " jb a.2,$ + 3 ; '.'"),
    ('sdas', "x: .db #0x1F,'#'", "x: DB 01FH,'#'"), ('sdas', ' mov a,#1', ' mov a,#1'),
    ('as31', 'list: nop', 'list: nop'), ('as31', ' .dw list', ' DW list'),
    ('asem', '$MOD52', '; $MOD52'), ('asem', '  $NOLIST', '$NOLIST'), ('asem', '$INCLUDE(a.inc)', '$INCLUDE(a.inc)'),
    ('asem', '$IF (X)', '$IF (X)'), ('asem', ' IFDEF X ; \xfc', ' IFDEF X ; ?'), ('asem', ' DB "a"', " DB 'a'"),
    ('mcu8051ide', "s: db 'Hi\\0'", "s: db 'Hi',0"), ('mcu8051ide', 'x idata 0Fh', 'x data 0Fh'),
    ('mcu8051ide', '\tnolist', '; nolist'), ('mcu8051ide', "$DATE(1)", '; $DATE(1)'),
    ('mcu8051ide', 'm macro a0', 'm macro a0'),
    # The six digits are the same in each source, in capitals or not.
    ('asem', 32 * 'n' + f': SJMP {32 * "N"}', f'{24 * "n"}_DF41F2: SJMP {24 * "N"}_DF41F2'),
    ('asem', 31 * 'n' + f": DB '{32 * 'n'}' ; {32 * 'n'}", 31 * 'n' + f": DB '{32 * 'n'}' ; {32 * 'n'}"),
    ('asem', f'$INCLUDE({32 * "n"}.inc)', f'$INCLUDE({32 * "n"}.inc)'))
LEFT = (
    ('as31', ' .org 0\n .org 5', None), ('asem', ' ORG 0\n ORG 5', '2 ORG'),
    ('asem', ' MOV A,#X >> 8', 'a sign for an op'),
    ('asem', 'UNIT: NOP', 'UNIT is a word of the language'), ('asem', '$INCLUDE(a.inc)', 'the include is an argument'),
    ('asem', ' DB 1\n ORG 0', 'the lines above have these addresses too'), ('asem', ' DSEG AT 8\n DS 1\n ORG 0', None),
    ('asem', ' DB 1\n ORG 0100H', None), ('asem', 'X EQU 1\n ORG 0000h ; reset', None),
    ('asem', "DB '\xfc'", 'a letter with an accent'),
    ('as31', ' .macro x', 'a directive with a dot'), ('asem', ' JMP @A+DPTR', 'a computed jump'),
    ('sdas', 'ar7 = 0x10', 'ar7 is a word of the language'), ('sdas', 'ar0 = 0x20', 'ar0 is a word of the language'),
    ('sdas', 'xy: nop\nxY: nop', 'xY and xy are one name here'), ('sdas', 'xy: nop\nxz: nop', None),
    ('mcu8051ide', 'x idata 90h', 'a byte from 80H on'), ('asem', 'X: NOP ; a | b', None))

AS31 = r"""
        .equ    LAMP,0x90
        .equ    K,0x1234
        .org    0
        ljmp    start           ; "go" 0x5
        .org    0x30
start:  mov     LAMP,#K & 255
        mov     a,#(K >> 8)
        mov     dptr,#text
        mov     r0,#text & 255
        mov     r1,#(text >> 8) & 255
        cjne    a,#0b101,*
        sjmp    *
text:   .byte   "It's ok",13,'\n',0
        .word   start,0x55AA
buf:    .skip   3
        .byte   1
"""


class Port(Folder):
    def test_edits(self):
        for dialect, old, new in EDITS:
            port = dialects.ported(dialect, old)
            lines = port.lines[port.before:]
            self.assertEqual('\n'.join(lines[:new.count('\n') + 1]), new, (dialect, old))
            self.assertEqual(re.sub(r'\s', '', port.lines[-1]), 'END')

    def test_left(self):
        for dialect, text, why in LEFT:
            left = dialects.ported(dialect, text).left
            found = [it[1].startswith(why) or why in it[1] for it in left]
            self.assertEqual(found, [True] if why else [], (text, left))

    def test_registers(self):
        port = dialects.ported('asem', "CNT EQU R7\nP EQU @R0\n MOV CNT,#5 ; CNT\n MOV A,P\n DB 'CNT'\n END")
        self.assertEqual(port.lines, [
            '; CNT EQU R7', '; P EQU @R0', ' MOV R7,#5 ; CNT', ' MOV A,@R0', " DB 'CNT'", ' END'])

    def test_areas(self):
        port = dialects.ported('sdas', ' .area DSEG (DATA)\nx: .ds 1\n .area CSEG (CODE)\n_f::\n mov x,_g\n ret')
        self.assertEqual(port.lines[:4], [
            'AREA_DSEG SEGMENT DATA', 'AREA_CSEG SEGMENT CODE', '        EXTRN NUMBER (_g)', '        PUBLIC _f'])
        self.assertEqual(port.before, 4)
        port = dialects.ported('sdas', ' .area CSEG (CODE)\nxy: nop\nxY: nop')
        self.assertEqual([(at, port.lines[at - 1]) for at, _ in port.left], [(4, 'xY: nop')])

    def test_kinds_of_areas(self):
        """Areas without content and those of names only are left out; bits are counted; globals of other modules stay
        so."""
        text = (' .area BSEG (BIT)\nb: .ds 2\n .area XSEG (XDATA)\nx: .ds 300\n .area ISEG (DATA)\ni: .ds 1\n'
                ' .area EMPTY (CODE)\n'
                ' .area REG_BANK_0 (REL,OVR,DATA)\n .ds 8\n .globl b\n .globl other\n')
        port = dialects.ported('sdas', text)
        lines = [line.strip() for line in port.lines if line.strip()]
        self.assertEqual(lines, [
            'AREA_BSEG SEGMENT BIT', 'AREA_XSEG SEGMENT XDATA', 'AREA_ISEG SEGMENT IDATA', 'PUBLIC b', 'RSEG AREA_BSEG',
            'b: DBIT 2', 'RSEG AREA_XSEG', 'x: DS 300', 'RSEG AREA_ISEG', 'i: DS 1', 'END'])

    def test_what_is_above_the_first_org(self):
        """MCU 8051 IDE places it after all others, so it gets a segment; elsewhere a person decides."""
        text = "X EQU 5\nT: DB 1,'\\n'\n ORG 0\n SJMP $\n JMP @A+DPTR"
        port = dialects.ported('mcu8051ide', text)
        self.assertEqual(port.lines[:5], ['ABOVE_ORG SEGMENT CODE', '        RSEG ABOVE_ORG', 'X EQU 5', 'T: DB 1,10',
                                          ' CSEG AT 0'])
        self.assertEqual(port.before, 2)
        self.assertEqual([at for numbers in port.changed.values() for at in numbers], [4, 1, 2, 8])
        self.assertEqual([at for at, _ in port.left], [7])
        self.keep('o.a51', '\n'.join(line for line in port.lines if 'JMP @A' not in line))
        ran([PROGRAM, 'build', '--hex', 'o.hex', '--steps', '1', 'o.a51'], folder=self.folder)
        self.assertEqual(image.read_hex(self.path('o.hex')), dict(enumerate(b'\x80\xfe\x01\x0a')))
        for text in ('X EQU 5\n ORG 0\n SJMP $', 'M MACRO\n NOP\n ENDM\n ORG 0',
                     ' CSEG AT 8\n NOP\n ORG 0\n SJMP $', ' NOP'):
            self.assertEqual(dialects.ported('mcu8051ide', text).before, 0, text)

    def test_tool(self):
        with open(self.path('o.asm'), 'w') as file:
            file.write('.org 0\n mov a,#0x10\n sjmp *\n')
        done = subprocess.run([TOOLS / 'port', '--from', 'as31', 'o.asm'], cwd=self.folder, stdout=subprocess.PIPE,
                              stderr=subprocess.PIPE)
        self.assertEqual(done.returncode, 0)
        said = done.stderr.decode()
        self.assertIn('m51 port: a number of C is written as 1FH or 101B: line 2\n', said)
        with open(self.path('o.a51'), 'wb') as file:
            file.write(done.stdout)
        ran([PROGRAM, 'build', '--hex', 'o.hex', '--steps', '1', 'o.a51'], folder=self.folder)
        self.assertEqual(image.read_hex(self.path('o.hex')), dict(enumerate(b'\x74\x10\x80\xfe')))
        tool('port', 'o.asm', folder=self.folder, status=2)

    def test_bytes_of_as31(self):
        if not shutil.which('as31'):
            self.skipTest('as31 is not installed')
        with open(self.path('o.asm'), 'w') as file:
            file.write(AS31)
        ran(['as31', '-Fhex', '-Otheirs.hex', 'o.asm'], folder=self.folder)
        with open(self.path('o.a51'), 'w') as file:
            file.write(tool('port', '--from', 'as31', 'o.asm', folder=self.folder))
        ran([PROGRAM, 'build', '--hex', 'o.hex', '--steps', '1', 'o.a51'], folder=self.folder)
        self.assertEqual(image.read_hex(self.path('o.hex')), image.read_hex(self.path('theirs.hex')))

    def test_examples_of_mcu8051ide(self):
        """With `expand`, six of its examples give the bytes of its own assembler."""
        source = '/usr/share/mcu8051ide/demo'
        if not os.path.isdir(source):
            self.skipTest('mcu8051ide is not installed')
        for name in ('demo0', 'demo1', 'demo2', 'demo4', 'demo5', 'LCD'):
            text = tool('port', '--from', 'mcu8051ide', f'{source}/{name}.asm', folder=self.folder)
            with open(self.path(f'{name}.asm'), 'w', encoding='latin-1') as file:
                file.write(text)
            tool('expand', '--out', f'{name}.a51', f'{name}.asm', folder=self.folder)
            ran([PROGRAM, 'build', '--hex', f'{name}.hex', '--steps', '1', f'{name}.a51'], folder=self.folder)
            self.assertEqual(image.read_hex(self.path(f'{name}.hex')), image.read_hex(f'{source}/{name}.hex'), name)
