"""Makes the sheets of tests/direct/cases.py that are labelled with least and split, good and bad; tells of which kinds
these are."""
import depths
import lent_weights
import long_labels
import other_splits
import reference
import shapes
import splits
import weights

MOST = splits.MOST
LARGEST = 2 ** 64 - 1
# Numbers that are good once they are cut to 32 or to 8 bits, and others.
BAD_LEASTS = [0, MOST + 1, 99999999, 2 ** 31, 2 ** 32 - 1, 2 ** 32, 2 ** 32 + 1, 2 ** 32 + 2, 2 ** 63, 2 ** 63 + 2,
              LARGEST]
BAD_SPLITS = [0, 5, 6, 255, 256, 256 + 4, 65536 + 4, 2 ** 32, 2 ** 32 + 1, 2 ** 32 + 4, 2 ** 63 + 4, LARGEST]
SPLITS = range(1, reference.MAX_SPLIT + 1)
REFUSALS = [3, 17, 4, 5, 6]  # of labelling, after 19
SMALL = 400  # cells of a sheet with one basin and short labels that is labelled in other ways too
SAMPLE_A = [0, 4, 16, 8, 16, 16, 16, 16, 64, 64, 32, 64]

# What is counted of a sheet: refused,
REFUSED_KINDS = (['19 for ' + name for name in ('least', 'split', 'both')]
                 + ['19 for least %d' % least for least in BAD_LEASTS]
                 + ['19 for split %d' % split for split in BAD_SPLITS]
                 + ['19 before %d' % number for number in REFUSALS] + ['1 before 19', '2 before 19'])

# or accepted.
LEAST_KINDS = ['least 1', 'least 2', 'least 65536000', 'the area of a mouth as least',
               'one more than the area of a mouth', 'least over 65536', 'least of 8 digits with a counted mouth']
CHANGE_KINDS = ['neither changes a label', 'other labels than with least 1', 'other labels than with split 4',
                'other labels than with each', 'no mouth counted', 'some mouths counted',
                'weighted, some mouths counted']
CHANGE_KINDS += ['%d digits with split %d' % (digits, split) for digits in (18, 36) for split in (1, 2, 3)]
UNLIKE = 'unlike %s'
KINDS = (REFUSED_KINDS + ['accepted with split %d' % split for split in SPLITS] + LEAST_KINDS + CHANGE_KINDS
         + [UNLIKE % name for name in other_splits.NAMES])


# What is counted.

def kinds(sheet, dirs, lent, lengths, labelled):
    """The kinds that a sheet belongs to, once labelling has given `labelled`."""
    rows, cols, depth, least, split = sheet
    number = labelled[0]
    bad = not reference.is_least(least), split not in SPLITS
    if number == 19:
        yield from kinds_of_refused(sheet, dirs, lent, lengths, bad)
    elif number in (1, 2) and any(bad):
        yield '%d before 19' % number
    elif number == 0 and (least, split) != splits.NEITHER:
        yield from kinds_of_accepted(sheet, dirs, lent, labelled)


def kinds_of_refused(sheet, dirs, lent, lengths, bad):
    rows, cols, depth, least, split = sheet
    yield '19 for ' + ('both' if all(bad) else 'least' if bad[0] else 'split')
    if bad == (True, False) and least in BAD_LEASTS:
        yield '19 for least %d' % least
    if bad == (False, True) and split in BAD_SPLITS:
        yield '19 for split %d' % split
    number = reference.label(rows, cols, depth, *splits.NEITHER, dirs, lent, *lengths)[0]
    if number != 0:
        yield '19 before %d' % number


def kinds_of_accepted(sheet, dirs, lent, labelled):
    rows, cols, depth, least, split = sheet
    yield 'accepted with split %d' % split
    found = splits.mouth_areas_by(rows, cols, dirs, labelled[2])
    some = any(area < least for area in found) and any(area >= least for area in found)
    told = {'least %d' % least: least in (1, 2, MOST), 'the area of a mouth as least': least in found,
            'one more than the area of a mouth': least - 1 in found, 'least over 65536': least > 65536,
            'least of 8 digits with a counted mouth': least >= 10 ** 7 and max(found, default=0) >= least,
            'no mouth counted': found != [] and max(found) < least, 'some mouths counted': some,
            'weighted, some mouths counted': some and len(set(lent[:rows])) > 1}
    yield from (kind for kind, holds in told.items() if holds)
    longest = long_labels.longest(labelled[3])
    if longest in (18, 36) and split < 4:
        yield '%d digits with split %d' % (longest, split)
    if rows * cols <= SMALL and longest <= reference.MAX_DIGITS and max(labelled[4]) == 1:
        yield from kinds_of_small(sheet, dirs, lent, labelled[3])


def kinds_of_small(sheet, dirs, lent, labels):
    by_least, by_split = splits.changes(sheet, dirs, lent, labels)
    told = {'neither changes a label': not by_least and not by_split, 'other labels than with least 1': by_least,
            'other labels than with split 4': by_split, 'other labels than with each': by_least and by_split}
    yield from (kind for kind, holds in told.items() if holds)
    yield from (UNLIKE % name for name in other_splits.names_unlike(sheet, dirs, lent, labels))


# Sheets, as (sheet, directions, weights, lengths of areas, labels, basins and work places). A sheet is (rows, cols,
# depth, least, split).

def exact(rows, cols):
    return reference.lengths_for(rows * cols)


def refusable():
    """One sheet that labelling accepts with a good least and split, and for each of its refusals one or more; with the
    directions, the weights and the lengths, all that is needed but least and split."""
    yield (3, 4, 2), SAMPLE_A, [1, 1, 1], exact(3, 4)
    yield (257, 1, 2), [4] * 257, [1] * 257, exact(257, 1)
    yield (0, 0, 0), [], [], [0] * 4
    yield (3, 4, 37), SAMPLE_A, [1, 1, 1], exact(3, 4)
    yield (3, 4, 0), SAMPLE_A, [1, 1, 1], exact(3, 4)
    for missing in range(6):
        lengths = [12, 3, 12, 24, 12, 96]
        lengths[missing] -= 1
        yield (3, 4, 2), SAMPLE_A[:lengths[0]], [1, 1, 1][:lengths[1]], lengths[2:]
    yield (3, 4, 36), [], [], [0] * 4
    yield (3, 4, 2), SAMPLE_A, [1, 1, 1001], exact(3, 4)
    for dirs in ([5, 0], [0, 0], [1, 16]):
        yield (1, 2, 1), dirs, [1], exact(1, 2)


def boundaries(rng):
    """Every least with a good split, every split with a good least, and some of both out of bounds."""
    pairs = [(least, split) for least in [1, 2, 3, 4, MOST - 1, MOST, *BAD_LEASTS] for split in SPLITS]
    pairs += [(least, split) for split in BAD_SPLITS for least in (1, 2, MOST)]
    pairs += [(rng.choice(BAD_LEASTS), rng.choice(BAD_SPLITS)) for _ in range(12)]
    for sizes, dirs, lent, lengths in refusable():
        for least, split in pairs:
            yield (*sizes, least, split), dirs, lent, lengths


def many_mouths(rng):
    """Rivers along row 0 with a tributary of one cell for each of their cells. With few taken at a time labels get many
    digits."""
    for split in SPLITS:
        for depth in (18, 36):
            for cols in (12, 25, split * depth + 3):
                for least in (1, 2):
                    dirs = shapes.comb(rng, 2, cols)
                    yield (2, cols, depth, least, split), dirs, rng.choice([[1, 1], [1, 2], [2, 1]]), exact(2, cols)


def two_halves(rng, rows, cols):
    """Every row flows west to column 0, and that from both ends to its middle, where the outlet is."""
    return [16 if cell % cols or cell // cols == rows // 2 else 4 if cell // cols < rows // 2 else 64
            for cell in range(rows * cols)]


def large(rng):
    for shape, kind, share in [(two_halves, weights.all_largest, 1), (shapes.northwest, weights.any_weights, 0.5)]:
        dirs = shape(rng, 256, 256)
        lent = kind(rng, 256, 256, dirs)
        found = sorted(set(splits.mouth_areas(256, 256, dirs, lent)))
        least = found[int(share * (len(found) - 1))]  # the area of the heaviest mouth, or of one in the middle
        yield (256, 256, rng.choice([18, 36]), least, splits.good_split(rng)), dirs, lent, exact(256, 256)


def random_sides(rng):
    side = rng.choice([3, 6, 10, 16, 16, 24])
    return rng.randint(1, side), rng.randint(1, side)


def by_chance(rng, count):
    """So many sheets of any shape, with any weights; sometimes with too few places or a weight at fault."""
    for _ in range(count):
        rows, cols = random_sides(rng)
        dirs = rng.choice(shapes.SHAPES + 3 * [shapes.flat, shapes.northwest])(rng, rows, cols)
        lent = rng.choice([weights.all_one, weights.made, lent_weights.chosen])(rng, rows, cols, dirs)
        found = splits.mouth_areas(rows, cols, dirs, lent)
        least, split = splits.chosen(rng, found)
        if rng.random() < 0.03:
            least, split = rng.choice([(rng.choice(BAD_LEASTS), split), (least, rng.choice(BAD_SPLITS))])
        lengths = exact(rows, cols)
        if rng.random() < 0.1:
            lengths = [max(0, wanted + rng.choice([-1, 0, 0, 1, 7])) for wanted in lengths]
        yield (rows, cols, depths.by_chance(rng), least, split), dirs, lent, lengths


def sheets(rng, count):
    """A fixed number of sheets, and so many random ones."""
    yield from boundaries(rng)
    yield from many_mouths(rng)
    yield from large(rng)
    yield from by_chance(rng, count)
