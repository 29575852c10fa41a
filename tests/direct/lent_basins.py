"""Lengths of basin slices for tests/direct/cases.py, and what is counted of them, of the basins and of circles beside
them. Each basin of small sheets is compared with the sheet on which the others are set to 0."""
import basins
import reference
import shapes

# Basin numbers to ask about: those that differ in few bits, or in high ones alone, and the largest.
EDGES = [0, 1, 2, 255, 256, 257, 65535, 65536, 65537, 2 ** 31 - 1, 2 ** 31, 2 ** 32 - 2, 2 ** 32 - 1]
LARGEST = EDGES[-1]
SMALL = 400  # cells of a sheet of which every basin is labelled alone
SOME = 5  # basins of a larger one that are

# What is counted of a labelling call.
LENGTH_KINDS = ['exact', 'one more', 'many more', 'refused: one too few', 'refused: none',
                'refused: short basins alone']
ALONE = 'basins labelled alone'
KINDS = basins.KINDS + LENGTH_KINDS + basins.CIRCLE_KINDS + [ALONE]

# What is counted of an index call: the lengths of its basins.
UNIT_KINDS = LENGTH_KINDS


def some_basin(rng):
    """Any number."""
    return rng.choice([1, 2, 3, rng.choice(EDGES), rng.choice(EDGES), rng.getrandbits(32)])


def other_than(rng, basin):
    """Another number, often one that differs from it in few bits."""
    while True:
        other = rng.choice([some_basin(rng), basin + 1, basin - 1, basin ^ 1 << rng.randrange(32)]) % 2 ** 32
        if other != basin:
            return other


def kinds(sheet, dirs, lengths, labelled):
    """The kinds that a labelling call belongs to; `lengths` are those of areas, labels, basins and work places."""
    rows, cols = sheet[:2]
    n, number = rows * cols, labelled[0]
    wanted = reference.lengths_for(n)
    short = [length < needed for length, needed in zip(lengths, wanted)]
    alone = short == [False, False, True, False] and len(dirs) >= n
    if number == 0:
        yield from basins.kinds(rows, cols, dirs, labelled)
    if number in (0, 3):
        yield from length_kinds(lengths[2], n, number, alone)
    if number == 6:
        yield from basins.circle_kinds(rows, cols, dirs[:n], labelled[1])


def length_kinds(length, count, number, alone):
    """Of a basin slice; `alone` says that it is the only one that is too short."""
    if number == 0:
        more = length - count
        yield 'exact' if more == 0 else 'one more' if more == 1 else 'many more'
    elif length < count:
        if length == count - 1:
            yield 'refused: one too few'
        if length == 0:
            yield 'refused: none'
        if alone:
            yield 'refused: short basins alone'


def compare_alone(rng, sheet, dirs, lent, labelled):
    """Compares the basins of an accepted sheet, or some of them, and gives their number."""
    count = max(labelled[4])
    n = len(labelled[4])
    numbers = range(1, count + 1)
    if n > SMALL or count > SMALL // 4:
        numbers = rng.sample(numbers, min(count, SOME))
    for number in numbers:
        basins.check_alone(sheet, dirs, lent, labelled, number)
    return len(numbers)


# Sheets, as (rows, cols, directions).

def sheets(rng):
    """Fixed small ones, and the largest: with the most outlets, with tens of thousands, with hundreds."""
    for dirs in ([16, 1], [1, 16], [16, 0], [16, 16], [1, 1], [64, 4]):
        yield 1, 2, dirs
        yield 2, 1, dirs
    for dirs in ([16, 1, 16, 0, 1], [16, 1, 16, 1, 1], [1, 1, 16, 16, 1], [16, 0, 1, 16, 1]):
        yield 1, 5, dirs
    yield 3, 3, [64, 64, 64, 16, 0, 1, 4, 4, 4]
    yield 3, 3, [2, 4, 8, 1, 0, 16, 128, 64, 32]  # all flow to the inner outside cell
    yield 3, 3, [1, 4, 8, 64, 0, 16, 128, 64, 16]
    for rows, cols in [(1, 1), (1, 7), (7, 1), (2, 9), (3, 3), (4, 4), (5, 6), (8, 8), (11, 13)]:
        yield rows, cols, shapes.most_outlets(rng, rows, cols)
    yield 256, 256, shapes.most_outlets(rng, 256, 256)
    for shape in (shapes.many_outlets, shapes.strips, shapes.tiles, shapes.several):
        yield 256, 256, shape(rng, 256, 256)
    yield 256, 256, shapes.most_outlets(rng, 256, 256)[:-2] + [1, 16]  # a circle at the end
