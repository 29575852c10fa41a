"""Chooses least and split for sheets, for tests/fuzz.py and tests/direct/, and tells what they change."""
import reference

NEITHER = reference.LEAST, reference.SPLIT
MOST = reference.MAX_LEAST


def mouth_areas(rows, cols, dirs, lent):
    """The areas of the mouths of tributaries, with these weights; none if labelling refuses the sheet."""
    n = rows * cols
    areas = reference.label(rows, cols, 1, *NEITHER, dirs, lent, *reference.lengths_for(n))[2]
    return mouth_areas_by(rows, cols, dirs, areas) if areas is not None else []


def mouth_areas_by(rows, cols, dirs, areas):
    """The same of an accepted sheet, from its areas."""
    found = []
    for donors in reference.donors_and_outlets(rows, cols, reference.codes_of(dirs[:rows * cols]))[0].values():
        found += sorted(areas[donor] for donor in donors)[:-1]
    return found


def good_least(rng, found):
    """1, 2, the area of a mouth or one more, or a larger one; `found` are the areas of the mouths."""
    kind = rng.random()
    if kind < 0.2 or kind < 0.8 and not found:
        return rng.choice([1, 2])
    if kind < 0.8:
        area = rng.choice(rng.choice([found, sorted(set(found))]))
        return min(area + rng.choice([0, 0, 1]), MOST)
    return rng.choice([1, 2, 3, rng.randint(1, 20), rng.randint(1, 10 ** rng.randint(1, 7)), MOST])


def bad_least(rng):
    """Outside 1 to 65,536,000, with at most 8 digits."""
    return rng.choice([0, 0, MOST + 1, MOST + 1, 99999999, rng.randint(MOST + 1, 99999999)])


def good_split(rng):
    return rng.randint(1, reference.MAX_SPLIT)


def bad_split(rng):
    return rng.choice([0, 0, 5, 5, 6, 9, 256 + 4, 65535, 99999])


def chosen(rng, found):
    """Least and split; in one of twelve one of them or both are out of bounds."""
    least, split = good_least(rng, found), good_split(rng)
    if rng.random() < 1 / 12:
        bad = rng.randrange(3)
        least = bad_least(rng) if bad != 1 else least
        split = bad_split(rng) if bad != 0 else split
    return least, split


def changes(sizes, dirs, lent, labels):
    """Of an accepted sheet with these labels: would it have others with least 1, and would it with split 4?"""
    rows, cols, depth, least, split = sizes
    n = rows * cols
    other_sizes = (rows, cols, depth, reference.LEAST, split), (rows, cols, depth, least, reference.SPLIT)
    return [other != sizes and reference.label(*other, dirs, lent, *reference.lengths_for(n))[3] != labels
            for other in other_sizes]
