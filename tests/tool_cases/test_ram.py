"""ram: the text and the picture."""
import xml.etree.ElementTree

from support import SHARED, TOOLS, Folder, on_terminal, tool

SPACE = '{http://www.w3.org/2000/svg}'


def titles(picture):
    """What is shown of each rectangle."""
    return [box.findtext(f'{SPACE}title') or '' for box in picture.iter(f'{SPACE}rect')]


def coloured(picture, byte):
    """Top and height of the coloured rectangles of a byte."""
    for box in picture.iter(f'{SPACE}rect'):
        title = box.findtext(f'{SPACE}title') or ''
        if title.startswith(f'{byte}: ') and box.get('fill') not in ('#ffffff', 'none'):
            yield float(box.get('y')), float(box.get('height'))


class Ram(Folder):
    def test_text(self):
        lines = tool('ram', text=SHARED).splitlines()
        for line in (
                '           00  b0 b0 b0 b0 b0 b0 b0 b0 BC  B  D  D  D  D  D  D  banks',
                '           20   A  A  .  .  .  .  .  .  .  .  .  .  .  .  .  .  bits 00 to 7F',
                '           70   r  r  r  r  r  r  r  r  r  r  r  r  r  r  r  r',
                '             free: 84 bytes below 80 (1A-1F, 22-6F), 128 above',
                ' B  DATA  ?DT?F 0008, 2 bytes, overlaid, shares with C',
                ' D  IDATA ?STACK 000A, 16 bytes, stack',
                'XDATA 0000 to 003F: 32 bytes used',
                'CODE 0000 to 003F: 35 bytes used',
                '  @0000                                      0, heaviest chain 3',
                '      ?PR?G                                  1'):
            self.assertIn(line, lines)

    def test_upper_half(self):
        text = SHARED.replace('IDATA 000A 0010', 'IDATA 00F0 0010')
        written = tool('ram', text=text)
        self.assertIn('           F0   D  D  D  D  D  D  D  D  D  D  D  D  D  D  D  D', written.splitlines())
        self.assertIn('free: 100 bytes below 80 (0A-1F, 22-6F), 112 above', written)
        self.assertIn('>F0</text>', tool('ram', '--svg', text=text))

    def test_colours(self):
        self.assertNotIn('\x1b', tool('ram', text=SHARED))
        self.assertIn('\x1b[43;30mBC\x1b[0m', tool('ram', '--colour', text=SHARED))

    def test_picture(self):
        picture = xml.etree.ElementTree.fromstring(tool('ram', '--svg', text=SHARED))
        found = titles(picture)
        for byte in range(128):
            self.assertTrue(any(title.startswith(f'{byte:02X}: ') for title in found), byte)
        self.assertIn('08: ?DT?F 0008, 2 bytes, overlaid\n?DT?G 0008, 1 byte, overlaid', found)
        self.assertIn('22: free', found)
        upper, lower = coloured(picture, '08')
        self.assertEqual((upper[1], lower[1], upper[0] + 15), (15, 15, lower[0]))
        self.assertEqual([height for _, height in coloured(picture, '09')], [30])
        # The bits 3 to 7 of 20H.
        self.assertEqual(len(list(coloured(picture, '20'))), 5)
        texts = [it.text for it in picture.iter(f'{SPACE}text')]
        self.assertIn('heaviest chain 3 bytes, in bold', texts)
        height = float(picture.get('height'))
        for box in list(picture.iter(f'{SPACE}rect'))[1:]:
            self.assertLessEqual(float(box.get('y')) + float(box.get('height')), height)

    def test_recursion_of_calls_ends(self):
        text = SHARED.replace('?PR?G FROM @0000 TO -', '?PR?G FROM @0000 TO ?PR?F')
        self.assertIn('?PR?F                                2 ^', tool('ram', text=text))

    def test_no_map(self):
        tool('ram', text='LINK L8\n', status=2)
        tool('ram', 'nosuch', status=2)

    def test_colours_of_a_terminal(self):
        """On a terminal, but not where somebody asks for none."""
        self.keep('m.map', SHARED)
        words = [TOOLS / 'ram', self.path('m.map')]
        for environment, is_coloured in (
                ({'TERM': 'xterm', 'NO_COLOR': ''}, True), ({'TERM': 'dumb', 'NO_COLOR': ''}, False),
                ({'TERM': 'xterm', 'NO_COLOR': '1'}, False)):
            self.assertEqual('\x1b[' in on_terminal(words, **environment)[1], is_coloured, environment)
        for word in ('--colour', '--color'):
            self.assertIn('\x1b[', tool('ram', word, text=SHARED))
        self.assertEqual(tool('ram', '-', text=SHARED), tool('ram', text=SHARED))

    def test_a_terminal_and_no_map(self):
        for words in (['ram'], ['wave'], ['serial', 'tx'], ['symbols', '--format', 'lst', 'a.a51'], ['where', 'a.a51']):
            status, said = on_terminal([TOOLS / words[0], *words[1:]])
            self.assertEqual(status, 2, words)
            self.assertIn('missing', said)
