"""Makes the weights of sheets, one for each row, for tests/fuzz.py and tests/direct/cases.py, and tells what they
change."""
import math

import reference

LEAST, MOST = 1, reference.MAX_WEIGHT


def all_one(rng, rows, cols, dirs):
    return [LEAST] * rows


def all_largest(rng, rows, cols, dirs):
    return [MOST] * rows


def one_or_largest(rng, rows, cols, dirs):
    return [rng.choice([LEAST, MOST]) for _ in range(rows)]


def any_weights(rng, rows, cols, dirs):
    return [rng.randint(LEAST, MOST) for _ in range(rows)]


def small(rng, rows, cols, dirs):
    """Few values, so that many areas are equal."""
    return [rng.randint(1, 3) for _ in range(rows)]


def in_degrees(rng, rows, cols, dirs):
    """Rows of equal height from a latitude of 85 to 0 degrees, the northern ones lighter."""
    return [round(MOST * math.cos(math.radians(85 - 85 * row / rows))) for row in range(rows)]


def equal_areas(rng, rows, cols, dirs):
    """Weights with which two donors of one cell, of unequal counts, have equal areas; any if none are found."""
    weights = [rng.randint(LEAST, rng.choice([5, 50, MOST])) for _ in range(rows)]
    if plain_areas(rows, cols, dirs) is None:
        return weights
    donors = reference.donors_and_outlets(rows, cols, reference.codes_of(dirs[:rows * cols]))[0]
    confluences = [cell for cell in donors if len(donors[cell]) > 1]
    for cell in rng.sample(confluences, min(len(confluences), 10)):
        first, second = (cells_by_row(rows, cols, donors, donor) for donor in rng.sample(donors[cell], 2))
        if sum(first) != sum(second) and made_equal(rng, weights, [a - b for a, b in zip(first, second)]):
            break
    return weights


def cells_by_row(rows, cols, donors, cell):
    """How many of the cells whose water passes the cell lie in each row."""
    counts = [0] * rows
    for passing in reference.upstream(donors, [cell]):
        counts[passing // cols] += 1
    return counts


def made_equal(rng, weights, differences):
    """Changes the weights of two rows so that the sum of weight x difference is 0; False if no such two are found."""
    more = [row for row, difference in enumerate(differences) if difference > 0]
    fewer = [row for row, difference in enumerate(differences) if difference < 0]
    pairs = [(a, b) for a in more for b in fewer]
    return any(made_equal_by(rng, weights, differences, a, b) for a, b in rng.sample(pairs, min(len(pairs), 8)))


def made_equal_by(rng, weights, differences, a, b):
    """The same by the weights of the rows a and b."""
    rest = sum(weights[row] * differences[row] for row in range(len(weights)) if row not in (a, b))
    for weight in rng.sample(range(LEAST, MOST + 1), MOST):
        wanted, left = divmod(-rest - weight * differences[b], differences[a])
        if left == 0 and LEAST <= wanted <= MOST:
            weights[a], weights[b] = wanted, weight
            return True
    return False


KINDS = [all_one, all_largest, one_or_largest, any_weights, any_weights, small, in_degrees] + 4 * [equal_areas]


def made(rng, rows, cols, dirs):
    """Weights of one of these kinds."""
    return rng.choice(KINDS)(rng, rows, cols, dirs)


# What weights change.

def plain_areas(rows, cols, dirs):
    """The areas of a sheet without weights; None if it is refused."""
    n = rows * cols
    return reference.label(rows, cols, 1, 1, 4, dirs, [1] * rows, *reference.lengths_for(n))[2]


def effects(rows, cols, dirs, areas):
    """Of an accepted sheet with these areas: are there donors of one cell that have equal areas but unequal counts of
    cells, and is some cell's heaviest donor another than by counts?"""
    counts = plain_areas(rows, cols, dirs)
    codes = reference.codes_of(dirs[:rows * cols])
    equal = other_heaviest = False
    for donors in reference.donors_and_outlets(rows, cols, codes)[0].values():
        if len(donors) > 1:
            by_area = sorted(donors, key=lambda cell: (areas[cell], cell))
            equal |= any(areas[a] == areas[b] and counts[a] != counts[b] for a, b in zip(by_area, by_area[1:]))
            other_heaviest |= by_area[-1] != max(donors, key=lambda cell: (counts[cell], cell))
    return equal, other_heaviest
