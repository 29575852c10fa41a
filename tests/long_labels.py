"""Makes sheets whose labels have many digits, for tests/fuzz.py and tests/direct/: rivers with a tributary at each of
their cells, of which the heaviest always stand at the ends of what is left, so that every split leaves the others in
one run. Tells how many digits labels have."""
from typing import NamedTuple

import reference
import splits

LENGTHS = [17, 18, 19, 35, 36]  # numbers of digits that are counted
DEPTHS = [17, 18, 19, 20, 27, 34, 35, 36]
MOST_LEFT = 5  # mouths in a unit that is cut
EAST, SOUTH, WEST, NORTH = 1, 4, 16, 64


class Sheet(NamedTuple):
    rows: int
    cols: int
    depth: int
    least: int
    split: int
    dirs: list
    weights: list


def longest(labels):
    """The number of digits of the longest of these labels."""
    return max(len(reference.digits_of(label)) for label in labels)


# Rivers, as (rows, cols, directions, weights), with so many mouths.

def along_a_row(rng, mouths):
    """Equal areas; the river flows west or east, its tributaries come from the north or the south."""
    cols, ahead = mouths + 1, rng.choice([WEST, EAST])
    rows = [[ahead] * cols, [NORTH] * cols] if rng.random() < 0.5 else [[SOUTH] * cols, [ahead] * cols]
    return 2, cols, rows[0] + rows[1], [rng.choice([1, 7, 1000])] * 2


def along_a_column(rng, mouths):
    """The river flows north or south; by its weights the heaviest mouths stand, by chance, at one end or the other."""
    rows, ahead = mouths + 1, rng.choice([NORTH, SOUTH])
    dirs = [ahead, WEST] * rows if rng.random() < 0.5 else [EAST, ahead] * rows
    places = list(range(rows))
    weights = [0] * rows
    for weight in range(1000, 1000 - rows, -1):
        weights[places.pop(rng.choice([0, -1]))] = weight
    return rows, 2, dirs, weights


def along_another_river(rng, mouths):
    """The river flows into the outlet of another with some heavier mouths, which are taken before it is."""
    heavy, cols = rng.randint(1, min(30, mouths)), mouths + 1
    above = [SOUTH] * heavy + [0] * (cols - heavy)
    other = [WEST] * (heavy + 1) + [0] * (cols - heavy - 1)
    return 4, cols, above + other + [NORTH] + [WEST] * (cols - 1) + [NORTH] * cols, [1000, 1000, 1, 1]


RIVERS = [along_a_row, along_a_column, along_a_column]


def finished(rng, digits, split, river):
    """A sheet whose longest label is finished with so many digits."""
    mouths = split * digits - rng.randrange(split)
    return made(rng, river(rng, mouths), rng.choice([digits, reference.MAX_DEPTH]), split)


def cut(rng, digits, split, river):
    """A sheet whose longest label is cut at so many digits, which are the depth."""
    return made(rng, river(rng, split * digits + rng.randint(1, MOST_LEFT)), digits, split)


def made(rng, basin, depth, split):
    """Mostly with least 1; else every mouth is still counted, or some are not."""
    rows, cols, dirs, weights = basin
    areas = splits.mouth_areas(rows, cols, dirs, weights)
    least = rng.choice([1, 1, 1, min(areas), min(areas) + 1])
    return Sheet(rows, cols, depth, least, split, dirs, weights)


def of_digits(rng):
    """Sheets for each number of digits that is counted and each split: finished and cut, along each river."""
    for digits in LENGTHS:
        for split in range(1, reference.MAX_SPLIT + 1):
            for river in (along_a_row, along_a_column):
                yield finished(rng, digits, split, river)._replace(least=1)
                yield cut(rng, digits, split, river)._replace(least=1)
            yield cut(rng, digits, split, along_another_river)


def by_chance(rng):
    """One sheet."""
    digits, split = rng.choice(LENGTHS + DEPTHS), rng.choice([1, 1, 2, 3, 4])
    if rng.random() < 0.3:
        return cut(rng, digits, split, along_another_river)
    return rng.choice([finished, cut])(rng, digits, split, rng.choice(RIVERS))
