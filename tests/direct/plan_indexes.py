"""Makes the indexes of tests/direct/plans.py, each of one basin: made-up labels of which none begins another, and the
labels of basins of sheets, with the units whose water passes each outlet, by the water itself."""
from itertools import combinations
from typing import NamedTuple

import depths
import long_labels
import no_labels
import outlets
import reference
import splits
from reference import record_of

MOST = reference.MAX_DEPTH
ODD, EVEN, ALL = '13579', '2468', '123456789'
FEW = ['1', '2', '3', '11', '12', '13', '21', '22', '23', '31', '111', '113', '122']
BEFORE_FEW = ['', '2', '1' * 16, '2' * 17, '1' * 18, '4' * 15 + '3', '1' * 33, '9' * 32 + '8']  # digits before the few
LARGE, LARGEST = 120, 520  # units of large indexes


class Index(NamedTuple):
    labels: list  # records in dictionary order
    above: dict  # for each label the others whose water passes its outlet
    by_water: bool  # whether that comes from the water of a sheet, not from the digits


def index_of(texts):
    """The index of these labels, given as text."""
    labels = [record_of(text) for text in sorted(texts)]
    return Index(labels, reference.units_upstream(tuple(labels)), False)


# Made-up labels, as text.

def parting(texts):
    """Those that begin none of the others."""
    return [text for text in set(texts) if not any(other != text and other.startswith(text) for other in texts)]


def split(rng, base, count, depth, digits):
    """Units split, one after the other, into units with one of the first digits more, until there are so many; some
    stretches are empty."""
    texts, newest = [base], rng.random() < 0.3
    while len(texts) < count:
        shorter = [text for text in texts if len(text) < depth]
        if not shorter:
            break
        text = shorter[-1] if newest else rng.choice(shorter)
        texts.remove(text)
        own = [text + digit for digit in digits[:rng.choice([3, 3, 5, 7, 9])]]
        texts += rng.sample(own, len(own) - rng.choice([0, 0, 0, 1]))
    return texts


def whole(rng, count):
    """A basin split to a depth at which there can be so many units."""
    return split(rng, '', count, 18 if count > 9 else depths.by_chance(rng), ALL)


def odd(rng, count):
    """A river of stretches alone: every unit is upstream of all before it in the index."""
    return split(rng, '', count, rng.choice([18, MOST]), ODD)


def deep(rng, count, digits=None):
    """Labels that begin with many equal digits, and some others."""
    digits = digits or rng.choice([ODD, ALL, ALL])
    base = ''.join(rng.choices(digits, k=rng.choice([15, 16, 17, 18, 19, 33, 34, 35])))
    depth = min(MOST, len(base) + rng.choice([1, 2, 3, MOST]))
    texts = split(rng, base, count, depth, digits)
    for _ in range(rng.randint(0, 6)):
        shared = base[:rng.randrange(len(base))]
        texts.append(shared + ''.join(rng.choices(digits, k=rng.choice([1, 1, 2, min(18, MOST - len(shared))]))))
    return parting(texts)


def deep_odd(rng, count):
    return deep(rng, count, ODD)


def by_chance(rng, count):
    """Any labels, mostly no basin of a sheet."""
    longest = rng.choice([2, 3, 18, MOST])
    return parting([''.join(rng.choices(rng.choice([ODD, ALL]), k=rng.randint(1, longest))) for _ in range(count)])


def even_last(rng, count):
    """No unit is upstream of another."""
    texts = split(rng, '', count, rng.choice([17, 18, 35]), ALL)
    return [text + rng.choice(EVEN) for text in texts]


MADE = [whole, whole, odd, deep, deep, deep_odd, by_chance, by_chance, even_last]


def made_up(rng):
    """Indexes without end."""
    while True:
        count = rng.choice([1, 2, 3, 4, 6, 9, 14, 25, 40])
        yield index_of(rng.choice(MADE)(rng, count) if rng.random() < 0.97 else [''])


def few():
    """Every set of up to three of a few labels of which none begins another, behind digits that they share."""
    for before in BEFORE_FEW:
        for count in (1, 2, 3):
            for texts in combinations(FEW, count):
                if len(parting(texts)) == count:
                    yield index_of([before + text for text in texts])


def of_lengths():
    """One unit, of each number of digits."""
    return [index_of([digit * count]) for count in range(MOST + 1) for digit in '123'[:max(1, min(3, count))]]


def large(rng):
    for make, count in [(whole, LARGEST), (whole, LARGE), (odd, LARGEST), (deep, LARGE), (deep_odd, LARGE),
                        (even_last, LARGE)]:
        yield index_of(make(rng, count))


# Basins of sheets.

def basins_of(sheet, dirs, lent):
    """The index of each basin of an accepted sheet."""
    rows, cols = sheet[:2]
    labelled = reference.label(*sheet, dirs, lent, *reference.lengths_for(rows * cols))
    units, passing = outlets.units_of(rows, cols, dirs, *labelled[3:]), outlets.passing_cells(rows, cols, dirs)
    for basin in range(1, max(labelled[4]) + 1):
        own = [unit for unit in units if unit.basin == basin]
        above = {p.label: {q.label for q in own if q.label != p.label and not q.cells.isdisjoint(passing[p.outlet])}
                 for p in own}
        yield Index([unit.label for unit in own], above, True)


def sheets(rng):
    """Sheets without end, as (sheet, directions, weights): small ones, and some with long labels."""
    while True:
        for rows, cols, dirs, lent in outlets.sheets(rng, 4):
            least = splits.good_least(rng, splits.mouth_areas(rows, cols, dirs, lent))
            chosen = rng.choice([splits.NEITHER, splits.NEITHER, (least, splits.good_split(rng))])
            yield (rows, cols, depths.by_chance(rng), *chosen), dirs, lent
        *sheet, dirs, lent = long_labels.by_chance(rng)
        if sheet[0] * sheet[1] < 200:
            yield tuple(sheet), bytes(dirs), lent


def long_sheets(rng):
    """Sheets with labels of each number of digits that is counted, one tributary taken at a time."""
    return [sheet for sheet in long_labels.of_digits(rng) if sheet.split == 1]


def of_sheets(rng):
    """The indexes of their basins; of many basins of one sheet a few, and few with one unit."""
    for sheet in sheets(rng):
        found = [index for index in basins_of(*sheet) if len(index.labels) > 1 or rng.random() < 0.05]
        yield from rng.sample(found, min(len(found), 3))


def with_units(indexes, count):
    return (index for index in indexes if len(index.labels) == count)


def some_label(rng, text):
    """A label like this one: some of its first digits, then others."""
    shared = text[:rng.randint(0, len(text))]
    return shared + no_labels.some_digits(rng, rng.randint(0, min(3, MOST - len(shared))))
