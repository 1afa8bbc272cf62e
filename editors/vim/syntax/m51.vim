" Sources of m51: ASM51, with the words of m51 expand.
if exists('b:current_syntax')
  finish
endif
syntax case ignore
syntax iskeyword @,48-57,_,?
syntax keyword m51Mnemonic ACALL ADD ADDC AJMP ANL CALL CJNE CLR CPL DA DEC DIV DJNZ INC JB JBC JC JMP JNB JNC JNZ JZ LCALL
syntax keyword m51Mnemonic LJMP MOV MOVC MOVX MUL NOP ORL POP PUSH RET RETI RL RLC RR RRC SETB SJMP SUBB SWAP XCH XCHD XRL
syntax keyword m51Directive AT BSEG CSEG DB DBIT DS DSEG DW END EQU EXTRN ISEG NAME ORG PUBLIC RSEG SEGMENT SET USING XSEG
syntax keyword m51Kind BIT CODE DATA IDATA NUMBER XDATA BITADDRESSABLE INBLOCK INPAGE OVERLAYABLE PAGE UNIT
syntax keyword m51Register A AB C DPTR PC R0 R1 R2 R3 R4 R5 R6 R7 AR0 AR1 AR2 AR3 AR4 AR5 AR6 AR7
syntax keyword m51Operator HIGH LOW NOT MOD SHL SHR EQ NE LT LE GT GE AND OR XOR
syntax keyword m51Macro MACRO ENDM EXITM LOCAL REPT IRP IRPC IF IFN IFDEF IFNDEF IFB IFNB ELSEIF ELSEIFN ELSE ENDIF
syntax keyword m51Special AC ACC B CY DPH DPL EA ES ET0 ET1 ET2 EX0 EX1 EXEN2 EXF2 F0 IE IE0 IE1 INT0 INT1 IP IT0 IT1 OV P
syntax keyword m51Special P0 P1 P2 P3 PCON PS PSW PT0 PT1 PT2 PX0 PX1 RB8 RCAP2H RCAP2L RCLK RD REN RI RS0 RS1 RXD SBUF
syntax keyword m51Special SCON SM0 SM1 SM2 SP T0 T1 T2 T2CON T2EX TB8 TCLK TCON TF0 TF1 TF2 TH0 TH1 TH2 TI TL0 TL1 TL2
syntax keyword m51Special TMOD TR0 TR1 TR2 TXD WR
syntax match m51Label /^\s*[A-Za-z?_][0-9A-Za-z?_]*\s*:/he=e-1
syntax match m51Number /\<\d[0-9A-Fa-f]*[HhBbOoQqDd]\?\>/
syntax region m51Text start=/'/ end=/'/ oneline
syntax match m51Comment /;.*$/ contains=m51Todo
syntax match m51Control /^\s*\$.*$/ contains=m51Comment
syntax keyword m51Todo TODO FIXME contained
highlight default link m51Mnemonic Statement
highlight default link m51Directive PreProc
highlight default link m51Kind Type
highlight default link m51Register Identifier
highlight default link m51Operator Operator
highlight default link m51Macro Macro
highlight default link m51Special Constant
highlight default link m51Label Label
highlight default link m51Number Number
highlight default link m51Text String
highlight default link m51Comment Comment
highlight default link m51Control PreProc
highlight default link m51Todo Todo
let b:current_syntax = 'm51'
