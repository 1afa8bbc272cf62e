"""serial: RX lines and sent bytes."""
from support import Folder, build, tool

ECHO = (
    'CSEG AT 0 / MOV SCON,#50H / MOV TMOD,#20H / MOV TH1,#0FFH / SETB TR1 / W: JNB RI,W / CLR RI / MOV SBUF,SBUF / '
    'SJMP W / END')


class Serial(Folder):
    def test_arguments(self):
        written = tool('serial', 'rx', '--at', '20', '--every', '5', '--pause', '100', 'a\\r', '\\x7Fb\\\\')
        self.assertEqual(written, 'RX 20 61\nRX 25 0D\nRX 130 7F\nRX 135 62\nRX 140 5C\n')

    def test_standard_input(self):
        for words, text, written in (
                (['--ninth', '1'], 'A\nB', 'RX 1000 41 1\nRX 2000 0D 1\nRX 3000 42 1\n'),
                (['--newline', 'crlf'], '\n', 'RX 1000 0D\nRX 2000 0A\n'),
                (['--newline', 'lf'], '\n\xe9', 'RX 1000 0A\nRX 2000 E9\n')):
            self.assertEqual(tool('serial', 'rx', *words, text=text), written)

    def test_refused(self):
        for words in (['--at', '0', 'a'], ['--at', '99999999', 'ab'], ['a\\q']):
            tool('serial', 'rx', *words, status=2)

    def test_sent(self):
        trace = 'RUN\n4 P1 0D\n5 TX 48\n9 TX 69 1\n2: 10 TX 21\n12 TX FF\nEND 5 STEPS 20 CYCLES\n'
        self.assertEqual(tool('serial', 'tx', text=trace), 'Hi\xff')
        self.assertEqual(tool('serial', 'tx', '--board', '2', text=trace), '!')

    def test_there_and_back(self):
        self.keep('e.a51', ECHO)
        self.keep('e.brd', tool('serial', 'rx', '--at', '100', '--every', '500', 'echo 1'))
        answer = build('--script', 'e.brd', '--steps', '3000', 'e.a51', folder=self.folder)
        self.assertEqual(tool('serial', 'tx', text=answer), 'echo 1')

    def test_no_trace(self):
        self.assertEqual(tool('serial', 'tx', text='        CSEG AT 0\n        END\n', status=2), '')
        self.assertEqual(tool('serial', 'tx', text='RUN\n'), '')
        self.assertEqual(tool('serial', status=2), '')
