"""foreign: locals of others."""
import subprocess

from support import PROGRAM, SHARED, Folder, build, tool

# Two units with a local each, which share a byte, and the arguments of the second.
TWO_UNITS = (
    '?STACK SEGMENT IDATA / ?PR?A SEGMENT CODE / ?DT?A SEGMENT DATA OVERLAYABLE / ?PR?B SEGMENT CODE / '
    '?DT?B SEGMENT DATA OVERLAYABLE / ?AG?B SEGMENT DATA OVERLAYABLE / RSEG ?STACK / DS 8 / RSEG ?DT?A / X: DS 1 / '
    'RSEG ?DT?B / Y: DS 1 / RSEG ?AG?B / ARG: DS 1 / CSEG AT 0 / MOV SP,#?STACK-1 / {} / '
    'RSEG ?PR?A / FA: MOV X,#1 / {} / RET / RSEG ?PR?B / FB: MOV Y,#2 / {} / RET / END')
BOTH, FIRST = 'LCALL FA / LCALL FB / SJMP $', 'LCALL FA / SJMP $'


class Foreign(Folder):
    def said(self, start, in_a, in_b, *words, status=0):
        """What it writes of two units, whatever their run ends with."""
        self.keep('f.a51', TWO_UNITS.format(start, in_a, in_b))
        answer = subprocess.run([PROGRAM, 'build', '--steps', '9', *words, 'f.a51'], cwd=self.folder,
                                stdout=subprocess.PIPE).stdout.decode()
        return tool('foreign', 'f.a51', text=answer, folder=self.folder, status=status)

    def test_no_caller_and_no_callee(self):
        self.assertEqual(
            self.said(BOTH, 'NOP', 'INC X', status=1),
            'f.a51(26): ?PR?B uses X, a local of ?PR?A, which need not be active then\n')

    def test_own_and_arguments(self):
        self.assertEqual(self.said(f'MOV ARG,#1 / {BOTH}', 'INC X', 'INC ARG'), '')

    def test_argument_of_a_unit_that_is_not_called(self):
        self.assertIn('?PR?A uses ARG, an argument of ?PR?B', self.said(BOTH, 'INC ARG', 'NOP', status=1))

    def test_caller_that_is_always_active(self):
        self.assertEqual(self.said(FIRST, 'LCALL FB', 'INC X'), '')

    def test_caller_that_is_not_always_active(self):
        said = self.said(BOTH, 'LCALL FB', 'INC X', status=1)
        self.assertIn('f.a51(26): ?PR?B uses X, a local of ?PR?A, which calls it, but', said)

    def test_callee(self):
        self.assertIn('which it calls', self.said(FIRST, 'LCALL FB / INC Y', 'NOP', status=1))

    def test_plain(self):
        self.keep('c', 'NOOVERLAY(?PR?A)')
        self.assertEqual(self.said(BOTH, 'NOP', 'INC X', '--control', 'c'), '')

    def test_map_of_another_program(self):
        self.keep('f.a51', TWO_UNITS.format(BOTH, 'NOP', 'INC X'))
        self.keep('h.a51', 'CSEG AT 0 / ?PR?B SEGMENT CODE / RSEG ?PR?B / FB: RET / EXTRN DATA (Q) / MOV A,Q / END')
        self.keep('m.map', SHARED.replace('?PR?F', '?PR?X').replace('?DT?F', '?DT?A'))
        for file in ('f.a51', 'h.a51'):
            tool('foreign', '-m', 'm.map', file, folder=self.folder, status=2)

    def test_other_module(self):
        self.keep('g.a51', 'PUBLIC Z / ?PR?G SEGMENT CODE / ?DT?G SEGMENT DATA OVERLAYABLE / RSEG ?DT?G / W: DS 1 / '
                  'Z: DS 1 / END')
        self.keep('h.a51', 'EXTRN DATA (Z) / CSEG AT 0 / MOV A,Z / MOV R0,#LOW(Z) / SJMP $ / END')
        answer = build('--steps', '1', 'h.a51', 'g.a51', folder=self.folder, status=1)
        said = tool('foreign', 'h.a51', 'g.a51', text=answer, folder=self.folder, status=1)
        self.assertEqual(
            said.splitlines(),
            [f'h.a51({line}): @0000 uses Z, a local of ?PR?G, which need not be active then' for line in (3, 4)])
