"""Makes the weights that tests/direct/cases.py lends, good and bad, and tells of which kinds they are."""
import reference
import weights

EDGES = [0, 1, 1000, 1001, 65535]
BAD = [0, 1001, 65535]
LARGEST_AREA = 65536 * reference.MAX_WEIGHT

# What is counted of the weights of a sheet.
ROWS = ['first', 'middle', 'last']
KINDS = (['equal areas of unequal counts', 'another heaviest donor than by counts', 'area over 65536', 'area 65536000',
          'accepted with 1', 'accepted with 1000', 'short', 'longer', 'bad past the rows', '3 before 17']
         + ['17 at %d' % value for value in BAD] + ['17 in the %s row' % row for row in ROWS]
         + ['17 in a row without an inside cell'] + ['17 before %d' % number for number in (4, 5, 6)])


def kinds(sheet, dirs, lent, labelled):
    """The kinds that the weights of a sheet belong to, once labelling has given `labelled`."""
    rows, cols = sheet[:2]
    number = labelled[0]
    bad = [row for row, weight in enumerate(lent[:rows]) if not reference.is_weight(weight)]
    if number == 0:
        yield from kinds_of_accepted(rows, cols, dirs, lent, labelled[2])
    if number == 17:
        yield from kinds_of_refused(sheet, dirs, lent, bad)
    if number == 3:
        if len(lent) < rows:
            yield 'short'
        if bad:
            yield '3 before 17'


def kinds_of_accepted(rows, cols, dirs, lent, areas):
    unequal = len(set(lent[:rows])) > 1
    equal, other_heaviest = weights.effects(rows, cols, dirs, areas) if unequal else (False, False)
    found = {'equal areas of unequal counts': equal, 'another heaviest donor than by counts': other_heaviest,
             'area over 65536': max(areas) > 65536, 'area 65536000': max(areas) == LARGEST_AREA,
             'accepted with 1': 1 in lent[:rows], 'accepted with 1000': 1000 in lent[:rows],
             'longer': len(lent) > rows, 'bad past the rows': not all(map(reference.is_weight, lent[rows:]))}
    yield from (kind for kind, holds in found.items() if holds)


def kinds_of_refused(sheet, dirs, lent, bad):
    rows, cols = sheet[:2]
    for row in bad:
        if lent[row] in BAD:
            yield '17 at %d' % lent[row]
        if not any(dirs[row * cols:(row + 1) * cols]):
            yield '17 in a row without an inside cell'
    if len(bad) == 1 and rows > 2:
        yield '17 in the %s row' % ('first' if bad == [0] else 'last' if bad == [rows - 1] else 'middle')
    number = reference.label(*sheet, dirs, [1] * rows, *reference.lengths_for(rows * cols))[0]
    if number != 0:
        yield '17 before %d' % number


def rubbish(rng, count):
    """Places past the rows, which are not looked at."""
    return [rng.choice([0, 65535, 1001, rng.randrange(65536)]) for _ in range(count)]


def chosen(rng, rows, cols, dirs):
    """Weights as lent with a sheet: mostly one good weight a row; sometimes a bad one, more than needed, or too few."""
    lent = weights.made(rng, rows, cols, dirs)
    if rng.random() < 0.1:
        lent[rng.choice([0, rows - 1, rng.randrange(rows)])] = rng.choice(BAD + [rng.randint(1001, 65535)])
    if rng.random() < 0.04:
        return lent[:rng.choice([0, rows - 1, rng.randrange(rows)])]
    return lent + rubbish(rng, rng.choice([0, 0, 0, 1, 7, 256 - rows]))


def edges(rng, rows, cols, dirs):
    """Good weights with a good or a bad one in the first, a middle or the last row; exact, longer and too few."""
    for value in EDGES:
        for row in sorted({0, rows // 2, rows - 1}):
            lent = weights.made(rng, rows, cols, dirs)
            lent[row] = value
            yield lent
            yield lent + rubbish(rng, rng.randint(1, 300))
            yield lent[:-1]
