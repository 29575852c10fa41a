"""Lengths of label slices for tests/direct/cases.py, which count numbers, two for each label, and what is counted of
them and of the labels."""
import depths
import long_labels
import reference
from reference import digits_of, places

# What is counted of a labelling call.
LONGEST = 'longest label of %d digits'
KINDS = (depths.KINDS + [LONGEST % length for length in long_labels.LENGTHS]
         + ['labels alike in the first 18 digits', 'longest label of more than 18 digits beside one of fewer',
            'outside cells beside labels of more than 18 digits', 'exact', 'an odd number past the labels',
            'an odd number past more labels', 'a record past the labels', 'refused: one number too few',
            'refused: a record too few', 'refused: as many numbers as cells', 'refused: a number alone'])

# What is counted of an index call.
UNIT_KINDS = ['exact', 'an odd number past the units', 'an odd number past more units', 'a record past the units',
              'refused: one number too few', 'refused: a record too few', 'refused: as many numbers as units',
              'refused: a number alone']


def kinds(sheet, dirs, length, labelled):
    """The kinds that a labelling call belongs to; `length` is that of the labels."""
    rows, cols, depth, least, split = sheet
    n, number = rows * cols, labelled[0]
    if number != 1:
        yield from depths.kinds(depth)
    if number == 3:
        yield from short_kinds(length, n, 'cells')
    if number == 0:
        yield from length_kinds(length, n, 'labels')
        yield from digit_kinds(dirs, labelled[3])


def unit_kinds(length, count, number):
    """The kinds that an index call belongs to in which labelling accepted; there are so many units."""
    return length_kinds(length, count, 'units') if number == 0 else short_kinds(length, count, 'units')


def length_kinds(length, count, name):
    if length == reference.RECORD * count:
        yield 'exact'
    elif length % 2 == 1:
        yield 'an odd number past ' + ('the ' if places(length) == count else 'more ') + name
    elif places(length) == count + 1:
        yield 'a record past the ' + name


def short_kinds(length, count, name):
    """Of a call that is refused by 3; another slice may be short."""
    if length == reference.RECORD * count - 1:
        yield 'refused: one number too few'
    if length == reference.RECORD * (count - 1):
        yield 'refused: a record too few'
    if length == count > 1:
        yield 'refused: as many numbers as ' + name
    if length == 1:
        yield 'refused: a number alone'


def digit_kinds(dirs, labels):
    inside = {label for label, code in zip(labels, dirs) if code != reference.OUTSIDE}
    longest = long_labels.longest(inside)
    if longest in long_labels.LENGTHS:
        yield LONGEST % longest
    if len({first for first, rest in inside}) < len(inside):
        yield 'labels alike in the first 18 digits'
    if longest > reference.MAX_DIGITS:
        if min(len(digits_of(label)) for label in inside) < reference.MAX_DIGITS:
            yield 'longest label of more than 18 digits beside one of fewer'
        if reference.OUTSIDE in dirs[:len(labels)]:
            yield 'outside cells beside labels of more than 18 digits'


def edges(count):
    """Numbers to lend for so many labels: none, one, as many as labels, and around the right number."""
    exact = reference.RECORD * count
    return sorted({0, 1, count, count + 1, exact - 2, exact - 1, exact, exact + 1, exact + 2, exact + 3})
