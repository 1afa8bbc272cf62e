"""The faults that tests/broken plants: each can be planted, and names tests that are there. No test hides another."""
import collections
import pathlib
import re
import unittest

from support import TOP

CASES = pathlib.Path(__file__).resolve().parent


def names_of(suite):
    """The names of the tests of a suite."""
    for test in suite:
        yield from names_of(test) if isinstance(test, unittest.TestSuite) else [test.id()]


class Faults(unittest.TestCase):
    def test_each_can_be_planted(self):
        """The text of each is once in its file, what takes its place is another, and its tests exist."""
        names = list(names_of(unittest.defaultTestLoader.discover(str(CASES), 'test_*.py')))
        for paragraph in (CASES / 'faults.txt').read_text().strip().split('\n\n'):
            with self.subTest(paragraph):
                head, old, new = paragraph.split('\n')
                file, *tests = head.split()
                text, other = (line.partition(': ')[2].replace('\\n', '\n') for line in (old, new))
                self.assertEqual((TOP / file).read_text().count(text), 1)
                self.assertNotEqual(text, other)
                self.assertTrue(tests)
                for name in tests:
                    self.assertTrue(any(name in it for it in names), name)

    def test_no_test_hides_another(self):
        """Of two tests of one name in a class, and of two classes in a file, Python would keep the second alone."""
        for path in sorted(CASES.glob('test_*.py')):
            of_class, found = '', []
            for kind, name in re.findall(r'^(class|    def) (\w+)', path.read_text(), re.M):
                of_class = name if kind == 'class' else of_class
                found.append(name if kind == 'class' else f'{of_class}.{name}')
            self.assertEqual([name for name, count in collections.Counter(found).items() if count > 1], [], path.name)
