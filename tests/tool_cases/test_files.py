"""m51files, listings, program: objects, libraries, listings, the choice of modules."""
import os

import listings
import m51files
from support import SHARED, Folder

# The object of docs/OBJECTS.md.
OBJECT = bytes.fromhex('02040001 4101B7 0E0900000000000005 0000E4 0609000100007590 5580FE18 04040001 4101B5')


def module(name, publics, externals):
    """A module with publics and externals of one letter."""
    made = m51files.Module(name)
    made.publics = [m51files.Public(letter, 0, 0, 0) for letter in publics]
    made.externals = [m51files.External(0, letter) for letter in externals]
    return made


class Files(Folder):
    def test_object_of_the_page(self):
        found, end = m51files.read_module(OBJECT)
        self.assertEqual((found.name, end), ('A', 38))
        self.assertEqual(found.segments, [m51files.Segment('', 0, 0, 0, 0, 5)])

    def test_library(self):
        with open(self.path('a.lib'), 'wb') as file:
            file.write(bytes.fromhex('2C03000100D0') + OBJECT)
        self.assertEqual([found.name for found in m51files.read_modules(self.path('a.lib'))], ['A'])

    def test_damage_is_seen(self):
        damaged = [OBJECT[:length] for length in range(38)] + [b'CSEG AT 0\n']
        damaged += [OBJECT[:at] + bytes([OBJECT[at] ^ 0x55]) + OBJECT[at + 1 :] for at in range(38)]
        for data in damaged:
            with open(self.path('a.obj'), 'wb') as file:
                file.write(data)
            with self.assertRaises(m51files.BadFile, msg=data.hex()):
                m51files.read_modules(self.path('a.obj'))

    def test_choice_of_the_page(self):
        first = [module('M1', 'P', 'Q'), module('M4', 'R', '')]
        second = [module('M2', 'P', ''), module('M3', 'Q', 'R')]
        chosen = m51files.choose([module('MAIN', '', 'P')], [first, second])
        self.assertEqual([found.name for found in chosen], ['MAIN', 'M1', 'M3', 'M4'])

    def test_lines_of_includes(self):
        """The file of a label after an include, with a comment before it or without, and without the include."""
        rows = [
            '    1              ; a source', '    2              $INCLUDE(a.inc)', '    1              X EQU 1',
            '    2              Y EQU 2', '    3 0000 00      L: NOP', '    4              END']
        self.keep('a.inc', 'X EQU 1 / Y EQU 2')
        for first, kept, file in ((0, True, 'a.a51'), (1, True, 'a.a51'), (0, False, 'a.inc'), (1, False, 'a.a51')):
            if not kept and first == 0:
                os.remove(self.path('a.inc'))
            here = [row if first == 0 or 'EQU' in row else f'{int(row[:5]) - 1:5}{row[5:]}' for row in rows[first:]]
            found = listings.Listing('\n'.join(here), 'a.a51', self.folder).rows
            self.assertEqual([(row.file, row.line, row.label) for row in found], [(file, 3 - first, 'L')])

    def test_module_names(self):
        names = {'dir/main.a51': 'MAIN', '8051-x.y.a51': 'M8051XY', '-.a51': 'M', 'a' * 40 + '.a51': 'A' * 31}
        self.assertEqual({path: listings.module_name(path) for path in names}, names)

    def test_a_map_that_is_cut(self):
        lines = SHARED.splitlines()
        self.assertEqual(m51files.Map(lines).image, 35)
        for count in range(lines.index('IMAGE 35 BYTES') + 1):
            with self.assertRaises(m51files.BadFile):
                m51files.Map(lines[:count])
