"""The pages of profile, cover and report: whole, alone, with places for all links, legible on both papers."""
import html.parser
import os
import re
import shutil

import html_page
from support import TOP, TUTORIAL, Folder, ran, tool

FILES = ['main.a51', 'tick.a51', 'scale.a51']
CURED = ['--control', 'show.ctl', '--steps', '300', *FILES]
EMPTY = ('meta', 'rect', 'path', 'br')


class Page(html.parser.HTMLParser):
    """The elements of a page: those that do not end, the names of places, and the links."""

    def __init__(self, text):
        super().__init__()
        self.open, self.names, self.links, self.wrong, self.tags = [], [], [], [], set()
        self.feed(text)

    def handle_starttag(self, tag, attributes):
        self.tags.add(tag)
        found = dict(attributes)
        self.names += [found['id']] if 'id' in found else []
        self.links += [found[name] for name in ('href', 'src') if name in found]
        if tag not in EMPTY or tag == 'rect' and not self.get_starttag_text().endswith('/>'):
            self.open.append(tag)

    def handle_startendtag(self, tag, attributes):
        self.tags.add(tag)

    def handle_endtag(self, tag):
        if not self.open or self.open.pop() != tag:
            self.wrong.append(tag)


def light_of(colour):
    """The relative luminance of a colour, after WCAG 2."""
    parts = [int(html_page.whole(colour)[at : at + 2], 16) / 255 for at in (1, 3, 5)]
    red, green, blue = (part / 12.92 if part <= 0.03928 else ((part + 0.055) / 1.055) ** 2.4 for part in parts)
    return 0.2126 * red + 0.7152 * green + 0.0722 * blue


def contrast(one, other):
    low, high = sorted((light_of(one), light_of(other)))
    return (high + 0.05) / (low + 0.05)


class Pages(Folder):
    def page(self, name, *words, option='--html'):
        tool(name, option, self.path('p.html'), *words, folder=TUTORIAL)
        with open(self.path('p.html')) as file:
            text = file.read()
        found = Page(text)
        self.assertEqual((found.open, found.wrong), ([], []))
        self.assertEqual(len(found.names), len(set(found.names)))
        self.assertEqual([it for it in found.links if it[:1] != '#' or it[1:] not in found.names], [])
        self.assertFalse(found.tags & {'script', 'link', 'img', 'iframe', 'object'})
        self.assertNotRegex(text.replace('http://www.w3.org/2000/svg', ''), r'https?:|url\(|@import')
        self.assertIn('@media (prefers-color-scheme: dark)', text)
        return text, found

    def test_profile(self):
        text, found = self.page('profile', *CURED)
        self.assertIn('line-main.a51-39', found.names)
        self.assertIn('#line-main.a51-39', found.links)
        self.assertRegex(text, r'CJNE  A,LAST,NEW      ; a new value is shown')

    def test_cover(self):
        text, found = self.page('cover', *CURED)
        self.assertIn('#source-tick.a51', found.links)
        self.assertRegex(text, r'<tr class="done" id="line-main.a51-39"><td>39</td><td>\d+</td>')
        self.assertRegex(text, r'<tr class="none" id="line-main.a51-1"><td>1</td><td></td>')
        text, found = self.page('cover', '--steps', '14', *FILES)
        self.assertRegex(text, r'<tr class="not" id="line-main.a51-41"><td>41</td><td>0</td>')
        self.assertIn('#line-main.a51-36', found.links)

    def test_signs_of_a_source(self):
        """What has a meaning in HTML is written out."""
        self.keep('a.a51', "CSEG AT 0 / SJMP $ ; <i> & 'x' / END")
        text, _ = self.page('cover', '--steps', '1', self.path('a.a51'))
        self.assertIn('SJMP $ ; &lt;i&gt; &amp; ', text)

    def test_report(self):
        text, found = self.page('report', '--title', 'A & B', *CURED, option='--out')
        for name in ('memory', 'units', 'stack', 'profile', 'cover', 'ports', 'sources', 'unit--PR-SHOW'):
            self.assertIn(name.replace('-PR-', '?PR?'), found.names)
        self.assertIn('<title>A &amp; B</title>', text)
        self.assertIn('BOUND 0F</pre>', text)
        self.assertIn('The highest SP of the run is 0F.', text)
        self.assertRegex(text, r'unit-\?PR\?MAIN">\?PR\?MAIN</a>, <a href="#unit-\?PR\?SCALE')
        self.assertEqual(text.count('<svg '), 2)
        self.assertIn('END 300 STEPS 467 CYCLES', text)

    def test_make_report(self):
        shutil.copytree(TOP / 'examples' / 'shell', self.path('shell'))
        make = ['make', '-s', f'M51={TOP / "m51"}', 'STEPS=300']
        said = ran([*make, 'report', 'cover'], folder=self.path('shell'))
        self.assertIn('shell.html: END 300 STEPS ', said)
        self.assertIn('routines ran', said)
        self.assertTrue(os.path.isfile(self.path('shell', 'shell.html')))
        ran([*make, 'cover', 'LEAST=100'], folder=self.path('shell'), status=2)

    def test_every_colour_is_legible_on_dark_paper(self):
        text, _ = self.page('report', *CURED, option='--out')
        fills = {colour for name, colour in html_page.COLOUR.findall(text) if name == 'fill'}
        inks = {'#222', '#777'}
        ink, paper = (html_page.turned_round(it) for it in ('#222', '#fbfbfa'))
        self.assertGreaterEqual(len(fills), 8)
        for fill in fills - inks:
            if light_of(fill) > 0.3:
                self.assertGreater(contrast(ink, html_page.turned_round(fill)), 4.5, fill)
        for colours in (html_page.LIGHT, html_page.DARK):
            for name in ('ink', 'grey', 'link'):
                self.assertGreater(contrast(colours[name], colours['paper']), 4.5, name)
            for name in ('done', 'not'):
                self.assertGreater(contrast(colours['ink'], colours[name]), 4.5, name)
        self.assertGreater(contrast(html_page.turned_round('#777'), paper), 4.5)
        self.assertTrue(re.fullmatch('#[0-9a-f]{6}', paper))
