"""What tests/run leaves out over the unproved program, which takes half a second of processor time for a link and
performs some 5,000 steps a second: a whole run should take minutes on two processors.

Of random tests the first of each family stay. Of programs at the limits those are left out that need more than twenty
seconds of processor time. All stored cases, rows, damaged files, files that go from verb to verb, examples and pages
stay.
"""
# The tests of these names, and what takes so long.
NAMED = {
    'a long run of 100 generated units': 'run of 1,000,000 steps',
    '990,000 points of a stack': 'bound over nearly all points',
    '1,052,000 points of a stack': 'bound over too many points',
    '1,000 units': 'link of the most units',
    '1,999 segments of external memory': 'link of nearly the most segments',
    '65,535 fixups': 'source with the most fixups',
    '65,536 fixups': 'source with one fixup too many',
}
# Of random tests of these families those from this number on.
RANDOM = {
    'assembly': 150, 'link': 80, 'board': 60, 'analyses of board': 20, 'control file': 80, 'script': 80, 'party': 6}


def parted(tests):
    """The tests that stay, and how many of each kind are left out, in words."""
    left, kinds = [], {}
    for test in tests:
        kind = why(test[0])
        if kind:
            kinds[kind] = kinds.get(kind, 0) + 1
        else:
            left.append(test)
    return left, kinds


def why(name):
    """The kind of tests that are left out to which a name belongs, or nothing."""
    if name in NAMED:
        return f'{NAMED[name]}, "{name}"'
    family, _, number = name.rpartition(' ')
    if family in RANDOM and number.isdigit() and int(number) >= RANDOM[family]:
        return f'of the random tests "{family} N", from {RANDOM[family]} on'
    return None
