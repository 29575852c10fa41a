"""Makes the calls of tests/direct/cases.py that share a total among the units of a basin, good and bad; tells of which
kinds they are."""
import math
from itertools import accumulate
from typing import NamedTuple

import depths
import lent_basins
import lent_splits
import lent_weights
import long_labels
import other_dues
import reference
import shapes
import splits
import weights

MOST = reference.MAX_TOTAL
LARGEST = 2 ** 64 - 1
PRIMES = [2, 3, 7, 13, 97, 251, 997, 7919, 65537, 1299709, 15485863, 2147483647, 4294967291, 4294967311, 10000000019,
          68719476731, 99999999947, 99999999977]
LARGE_PRIME = 10 ** 10  # a prime above it is large
EDGES = [*range(13), 99, 100, 65535, 65536, 10 ** 6, 2 ** 31, 2 ** 32 - 1, 2 ** 32, 2 ** 32 + 1, 2 ** 33 + 5, 2 ** 36,
         MOST - 1, MOST]
TOO_LARGE = [MOST + 1, MOST + 2, 2 ** 37, MOST + 2 ** 32, 10 ** 12, 2 ** 40, 2 ** 40 + 5, 2 ** 53, 2 ** 63 - 1, 2 ** 63,
             2 ** 63 + 5, LARGEST - MOST, LARGEST - 1, LARGEST]
HARDLY = 65536  # a sum less than 1/65536 of a cent above or below a whole cent is hardly above or below it
MANY = 60  # places more than are needed
REFUSALS = [1, 2, 19, 3, 17, 4, 5, 6]  # of labelling
SLICES = ['labels', 'outlets', 'counts', 'basins', 'dues']  # of units

# What is counted of a call: how it ends,
NAMED = {0: 'the total 0', 1: 'the total 1', MOST: 'the total 10^11', MOST + 1: 'the total 10^11 + 1',
         LARGEST: 'the total 2^64 - 1'}
ACCEPTED, TOO_MUCH = 'accepted with %s', 'refused by 18 with %s'
REFUSED, UNSEEN, FIRST = 'refused by %d', '%d before short slices', '18 before %d'
TOTAL_KINDS = ([ACCEPTED % name for total, name in NAMED.items() if total <= MOST]
               + [ACCEPTED % name for name in ('a small prime', 'a large prime', 'another total')]
               + [TOO_MUCH % name for total, name in NAMED.items() if total > MOST] + [TOO_MUCH % 'another total'])
REFUSED_KINDS = ([FIRST % number for number in REFUSALS] + ['18 before short slices', '18 with nothing else at fault']
                 + [kind % number for number in REFUSALS for kind in (REFUSED, UNSEEN)])

# its places for units,
ALONE = ['short %s', '%s short by one', 'no place for %s', 'longer %s', 'longer slices but %s']
ROOM_KINDS = ([kind % name for name in SLICES for kind in ALONE]
              + ['%s short slices' % number for number in ('two', 'three', 'four', 'five')]
              + ['no place for units', 'exact slices',
                 'longer slices', 'many places more', 'a place for each cell', 'an odd number past the units',
                 'an odd number past longer labels', 'one number too few for the labels'])

# its sheet, if it is accepted,
SHEET_KINDS = ['one cell', 'one unit of several cells', 'three units', 'more than 256 units', 'more than 10000 units',
               'outside cells', 'all weights 1', 'equal weights over 1', 'unequal weights',
               'a unit of unequal weights', 'a weight of a unit over 65535', 'more lent for labelling',
               '256 x 256', 'whole weight 65536000 with the total 10^11', 'least above 1', 'split below 4',
               'other units than with least 1 and split 4', 'units alike in the first 18 digits']
LONGEST = 'longest label of %d digits'
SHEET_KINDS += [LONGEST % length for length in long_labels.LENGTHS]

# its basin,
BASIN_KINDS = ['one basin', 'two basins', 'dozens of basins', 'more than 10000 basins', 'the first of several basins',
               'a basin between others', 'the last of several basins', 'a basin of one unit beside others',
               'dues for the basin alone', 'short dues of a basin that has fewer units', 'basin 0', 'one basin more',
               'basin 2^32 - 1', 'alike in 8 bits to a basin', 'alike in 16 bits to a basin',
               'alike in 31 bits to a basin', 'a lacking basin and no place for dues',
               'a lacking basin and places for dues', 'refused by 3 with a lacking basin',
               'refused by 18 with a lacking basin', 'refused by labelling with basin 0']

# and its dues.
UNLIKE = 'unlike %s'
DUE_KINDS = ['a due of 0', 'a due of 0 for the first unit', 'one unit owes all', 'fewer cents than units',
             'a due over 2^32', 'unequal dues of equal weights', 'a sum of whole cents',
             'a sum hardly above a whole cent', 'a sum hardly below a whole cent']
DUE_KINDS += [UNLIKE % name for name in other_dues.NAMES]
KINDS = TOTAL_KINDS + REFUSED_KINDS + ROOM_KINDS + SHEET_KINDS + BASIN_KINDS + DUE_KINDS + depths.KINDS


class Sheet(NamedTuple):
    """A sheet as it is lent, what labelling gives, and the units of an accepted one with their weights."""
    sizes: tuple  # rows, cols, depth, least, split
    dirs: bytes
    lent: list  # weights
    lengths: list  # of areas, labels, basins and work places
    labelled: tuple
    units: list
    weights: list  # of the units
    other_units: bool  # than with least 1 and split 4

    def basins(self):
        """How many there are."""
        return self.units[-1][3] if self.units else 0

    def of_basin(self, basin):
        """The units of a basin, and their weights."""
        own = [place for place, unit in enumerate(self.units) if unit[3] == basin]
        return [self.units[place] for place in own], [self.weights[place] for place in own]

    def needed(self, basin):
        """The places for labels, outlets, counts, basins and dues of units that a levy of the basin needs."""
        return [len(self.units)] * 4 + [sum(unit[3] == basin for unit in self.units)]


class Call(NamedTuple):
    sheet: Sheet
    rooms: list  # places for labels, outlets, counts, basins and dues of units
    total: int
    odd: int = 0  # numbers past the places for labels, 0 or 1
    basin: int = 1

    def lengths(self):
        """Of the five slices."""
        return [reference.RECORD * self.rooms[0] + self.odd, *self.rooms[1:]]

    def short(self):
        """Which of the five slices are too short for a sheet that labelling accepts."""
        return [room < needed for room, needed in zip(self.rooms, self.sheet.needed(self.basin))]


# What is counted.

def total_name(total):
    if total in NAMED:
        return NAMED[total]
    if total in PRIMES and (total < 1000 or total > LARGE_PRIME):
        return 'a small prime' if total < 1000 else 'a large prime'
    return 'another total'


def outcome_kinds(call, number):
    refused, few = call.sheet.labelled[0], any(call.short())
    if number == 18:
        yield TOO_MUCH % total_name(call.total)
        yield FIRST % refused if refused else '18 before short slices' if few else '18 with nothing else at fault'
    elif refused:
        yield REFUSED % refused
        if max(call.rooms) == 0:
            yield UNSEEN % refused
    elif number == 0:
        yield ACCEPTED % total_name(call.total)


def short_kinds(call):
    """Of a call with a sheet that labelling accepts, refused by 3."""
    needed, short = call.sheet.needed(call.basin), call.short()
    if sum(short) == 1:
        place = short.index(True)
        missing = needed[place] - call.rooms[place]
        return {'short %s' % SLICES[place]: True, '%s short by one' % SLICES[place]: missing == 1,
                'no place for %s' % SLICES[place]: missing == needed[place],
                'one number too few for the labels': call.odd == missing == 1 and place == 0,
                'short dues of a basin that has fewer units': place == 4 and needed[4] < needed[0]}
    number = {2: 'two', 3: 'three', 4: 'four', 5: 'five'}[sum(short)]
    return {'%s short slices' % number: True, 'no place for units': max(call.rooms) == 0}


def room_kinds(call):
    """Of an accepted call."""
    rows, cols = call.sheet.sizes[:2]
    needed = call.sheet.needed(call.basin)
    more = [room - wanted for room, wanted in zip(call.rooms, needed)]
    longer = [room > 0 for room in more]
    found = {'exact slices': not any(longer), 'longer slices': all(longer), 'many places more': min(more) > 9,
             'a place for each cell': call.rooms == [rows * cols] * 5 and rows * cols > needed[0],
             'an odd number past the units': call.odd and not longer[0],
             'an odd number past longer labels': call.odd and longer[0],
             'dues for the basin alone': needed[4] <= call.rooms[4] < needed[0]}
    if longer.count(True) == 1:
        found['longer %s' % SLICES[longer.index(True)]] = True
    if longer.count(False) == 1:
        found['longer slices but %s' % SLICES[longer.index(False)]] = True
    return found


def basin_kinds(call, number):
    """Of the basin that a call names."""
    basin, count = call.basin, call.sheet.basins()
    lacking = not 1 <= basin <= count
    if call.sheet.labelled[0] != 0:
        return {'refused by labelling with basin 0': basin == 0}
    if number != 0:
        return {'refused by %d with a lacking basin' % number: lacking}
    own = call.sheet.needed(basin)[4]
    alike = [bits for bits in (8, 16, 31) if lacking and 1 <= basin % 2 ** bits <= count]
    return {**{'alike in %d bits to a basin' % bits: True for bits in alike},
            'one basin': count == 1, 'two basins': count == 2, 'dozens of basins': 24 <= count < 100,
            'more than 10000 basins': count > 10000, 'the first of several basins': basin == 1 < count,
            'a basin between others': 1 < basin < count, 'the last of several basins': 1 < basin == count,
            'a basin of one unit beside others': own == 1 < len(call.sheet.units), 'basin 0': basin == 0,
            'one basin more': basin == count + 1, 'basin 2^32 - 1': basin == lent_basins.LARGEST,
            'a lacking basin and no place for dues': lacking and call.rooms[4] == 0,
            'a lacking basin and places for dues': lacking and call.rooms[4] > 0}


def sheet_kinds(call):
    """Of an accepted call of a basin that the sheet has."""
    sheet = call.sheet
    rows, cols, depth, least, split = sheet.sizes
    units, summed = sheet.of_basin(call.basin)
    n, count, lent, whole = rows * cols, len(units), sheet.lent[:rows], sum(summed)
    inside = sum(code != reference.OUTSIDE for code in sheet.dirs[:n])
    equal = len(set(lent)) == 1
    unequal = any(weight != cells * lent[outlet // cols]
                  for (label, outlet, cells, basin), weight in zip(units, summed))
    return {'one cell': n == 1, 'one unit of several cells': count == 1 < inside, 'three units': count == 3,
            'more than 256 units': count > 256, 'more than 10000 units': count > 10000, 'outside cells': inside < n,
            'all weights 1': equal and lent[0] == 1, 'equal weights over 1': equal and lent[0] > 1 and rows > 1,
            'unequal weights': not equal, 'a unit of unequal weights': unequal,
            'a weight of a unit over 65535': max(summed) > 65535,
            'more lent for labelling': len(sheet.dirs) > n and len(sheet.lent) > rows and sheet.lengths[3] > 8 * n,
            '256 x 256': rows == cols == reference.MAX_SIDE,
            'whole weight 65536000 with the total 10^11': (whole, call.total) == (65536000, MOST),
            'least above 1': least > 1, 'split below 4': split < 4,
            'other units than with least 1 and split 4': sheet.other_units,
            'units alike in the first 18 digits': alike_units(units),
            LONGEST % long_labels.longest(unit[0] for unit in units): True}


def alike_units(units):
    """Have two neighbours equal first numbers?"""
    return any(a[0][0] == b[0][0] for a, b in zip(units, units[1:]))


def due_kinds(call, dues):
    """Of an accepted call with more than one unit and a total above 0."""
    total, summed = call.total, call.sheet.of_basin(call.basin)[1]
    whole = sum(summed)
    rests = {total * first % whole for first in [*accumulate(summed)][:-1]}
    owed = {}
    for weight, due in zip(summed, dues):
        owed.setdefault(weight, set()).add(due)
    found = {'a due of 0': 0 in dues, 'a due of 0 for the first unit': dues[0] == 0, 'one unit owes all': total in dues,
             'fewer cents than units': total < len(dues), 'a due over 2^32': max(dues) > 2 ** 32,
             'unequal dues of equal weights': any(len(values) > 1 for values in owed.values()),
             'a sum of whole cents': 0 in rests,
             'a sum hardly above a whole cent': any(0 < HARDLY * rest < whole for rest in rests),
             'a sum hardly below a whole cent': any(HARDLY * (whole - rest) < whole for rest in rests)}
    found.update((UNLIKE % name, True) for name in other_dues.names_unlike(call, dues))
    return found


def kinds(call, number, dues):
    """The kinds that a call belongs to, once it has given its refusal number, or 0, and the dues."""
    found = dict.fromkeys(outcome_kinds(call, number), True)
    if number not in (18, 1):
        found.update(dict.fromkeys(depths.kinds(call.sheet.sizes[2]), True))
    found.update(basin_kinds(call, number))
    if number == 0:
        found.update(room_kinds(call))
        found.update(sheet_kinds(call) if dues else {})
        if call.total > 0 and len(dues) > 1:
            found.update(due_kinds(call, dues))
    elif number == 3 and call.sheet.labelled[0] == 0:
        found.update(short_kinds(call))
    return [kind for kind, holds in found.items() if holds and kind in KINDS]


# Totals.

def six_totals(rng):
    """The totals that each sheet of by_chance is shared with."""
    return [0, 1, rng.choice(PRIMES), MOST, MOST + 1, LARGEST]


def good_total(rng):
    return rng.choice([rng.choice(EDGES + PRIMES), rng.randint(0, 1000), rng.randint(0, MOST),
                       int(MOST ** rng.random()), MOST - rng.randrange(1000)])


def too_large_total(rng):
    return rng.choice([rng.choice(TOO_LARGE), MOST + rng.randint(1, 1000), rng.randint(MOST + 1, LARGEST)])


def close_total(rng, summed):
    """A total of which some first units together owe whole cents, or the least part of one more or less; the units have
    these weights."""
    whole, first = sum(summed), sum(summed[:rng.randint(1, max(1, len(summed) - 1))])
    common = math.gcd(first, whole)
    period = whole // common  # totals that differ by it leave the same part of a cent
    least = rng.choice([0, 1, -1, -1]) * pow(first // common, -1, period) % period
    most = (MOST - least) // period
    return least + period * rng.choice([most, most, rng.randint(0, most)])


# Places for units; `needed` are those that a levy needs.

def enough(rng, needed):
    """Exact, a few more or many more, the five alike or not."""
    if rng.random() < 0.3:
        more = rng.choice([0, 1, MANY])
        return [room + more for room in needed]
    return [room + rng.choice([0, 0, 1, rng.randint(0, MANY)]) for room in needed]


def too_few(rng, needed):
    """One or more of the five too short, where it needs a place."""
    rooms, places = enough(rng, needed), [place for place, room in enumerate(needed) if room > 0]
    for short in rng.sample(places, min(len(places), rng.choice([1, 1, 1, 2, 3, 4, 5]))):
        rooms[short] = rng.choice([0, needed[short] - 1, needed[short] - 1, rng.randrange(needed[short])])
    return rooms


def any_rooms(rng, n):
    """For a sheet of n cells that is refused."""
    return rng.choice([[0] * 5, [n] * 5, [rng.randint(0, 9) for _ in range(5)]])


def edge_rooms(needed):
    """So many places, none, one, one fewer, one more and many more: for all five, for each alone and for all but
    each; then every two of them too few."""
    fewer, more = [max(0, room - 1) for room in needed], [room + 1 for room in needed]
    for other in (needed, [0] * 5, [1] * 5, fewer, more, [5 * room for room in needed]):
        yield other
        for place in range(5):
            yield [other[at] if at == place else needed[at] for at in range(5)]
            yield [needed[at] if at == place else other[at] for at in range(5)]
    for first in range(5):
        for second in range(first):
            yield [fewer[at] if at in (first, second) else more[at] for at in range(5)]


# Basins.

def basins_of(rng, sheet):
    """The first, the last and one between, and some that the sheet lacks."""
    count = sheet.basins()
    lacking = [0, count + 1, lent_basins.LARGEST, 256 + rng.randint(1, max(1, count)),
               65536 + rng.randint(1, max(1, count)), 2 ** 31 + rng.randint(1, max(1, count))]
    return sorted({1, count, rng.randint(1, max(1, count)), *lacking})


def some_basin(rng, sheet):
    """Mostly one that the sheet has."""
    return rng.choice([1, rng.randint(1, max(1, sheet.basins())), rng.randint(1, max(1, sheet.basins())),
                       rng.choice(basins_of(rng, sheet))])


# Sheets.

def sheet_of(rows, cols, depth, dirs, lent, lengths=None, named=splits.NEITHER):
    """Without lengths the slices of labelling are exact; `named` are least and split."""
    n, dirs = rows * cols, bytes(dirs)
    lengths = lengths or reference.lengths_for(n)
    labelled = reference.label(rows, cols, depth, *named, dirs, lent, *lengths)
    units, summed, other_units = [], {}, False
    if labelled[0] == 0:
        units = reference.units_of(rows, cols, dirs, *labelled[3:])
        for cell in reference.codes_of(dirs[:n]):
            unit = labelled[4][cell], labelled[3][cell]
            summed[unit] = summed.get(unit, 0) + lent[cell // cols]
    if labelled[0] == 0 and named != splits.NEITHER:
        others = reference.label(rows, cols, depth, *splits.NEITHER, dirs, lent, *lengths)[3:]
        other_units = reference.units_of(rows, cols, dirs, *others) != units
    own = [summed[basin, label] for label, outlet, count, basin in units]
    return Sheet((rows, cols, depth, *named), dirs, lent, lengths, labelled, units, own, other_units)


SAMPLE_A = [0, 4, 16, 8, 16, 16, 16, 16, 64, 64, 32, 64]
# Two streams of three cells in row 0 and two in row 2 come together in row 1.
NORTH_AND_SOUTH = [0, 8, 16, 16, 16, 0, 0, 0, 0, 32, 16, 0]


def small_sheets(rng):
    """Accepted ones, of one cell and more."""
    for weight in (1, 2, 999, 1000):
        yield sheet_of(1, 1, 1, [rng.choice(shapes.CODES)], [weight])
    yield sheet_of(1, 5, 18, [16] * 5, [7])
    yield sheet_of(5, 1, 18, [64] * 5, [1, 10, 100, 1000, 1])
    yield sheet_of(2, 2, 1, [16, 16, 64, 64], [1, 1])
    yield sheet_of(3, 4, 2, SAMPLE_A + [3, 1], [8, 9, 10, 0, 65535], [13, 33, 20, 100])
    for lent in ([1, 1, 1], [2, 5, 3], [1, 9, 2], [201, 5, 300], [1000, 1000, 1000]):
        yield sheet_of(3, 4, 1, NORTH_AND_SOUTH, lent)
        yield sheet_of(3, 4, 2, SAMPLE_A, lent)
    for named in [(2, 4), (1, 1), (2, 1), (3, 2), (splits.MOST, 4)]:
        yield sheet_of(3, 4, 2, SAMPLE_A, [1, 1, 1], None, named)


def bad_sizes():
    for rows, cols, depth in [(0, 1, 1), (1, 0, 1), (257, 1, 1), (1, 257, 1), (2 ** 64 - 1, 1, 1), (1, 2 ** 64 - 1, 1),
                              (2 ** 32, 2 ** 32, 1), (257, 1, 37), (0, 0, 0), (256, 1, 2 ** 32 + 1),
                              *[(1, 1, depth) for depth in depths.BAD]]:
        n = rows * cols if rows <= 256 and cols <= 256 else 300
        yield sheet_of(rows, cols, depth, [16] * n, [1] * min(rows, 300), reference.lengths_for(n))


def bad_splits(rng):
    """Refused by 19, and by what comes before it; some would be refused by what comes after it."""
    for least in lent_splits.BAD_LEASTS:
        yield sheet_of(3, 4, 2, SAMPLE_A, [1, 1, 1], None, (least, splits.good_split(rng)))
    for split in lent_splits.BAD_SPLITS:
        yield sheet_of(3, 4, 2, SAMPLE_A, [1, 1, 1], None, (rng.choice([1, 2]), split))
    for (rows, cols, depth), dirs, lent, lengths in lent_splits.refusable():
        for named in [(0, 4), (1, 5), (rng.choice(lent_splits.BAD_LEASTS), rng.choice(lent_splits.BAD_SPLITS))]:
            yield sheet_of(rows, cols, depth, dirs, lent, lengths, named)


def refused_sheets(rng):
    """Refused by each number of labelling: sizes; least and split; a slice too short; weights, good and bad, with
    directions that are refused too, and with sample A."""
    yield from bad_sizes()
    yield from bad_splits(rng)
    for missing in range(6):
        lengths = [12, 3, 12, 24, 12, 96]
        for fewer in (1, lengths[missing]):
            lengths[missing] -= fewer
            for weight in (1, 1001):
                yield sheet_of(3, 4, 2, SAMPLE_A[:lengths[0]], [weight] * lengths[1], lengths[2:])
            lengths[missing] += fewer
    for weight in (1, 1000, 0, 1001, 65535):
        for dirs in ([1, 16], [0, 0], [5, 0], [0, 255]):
            yield sheet_of(1, 2, 1, dirs, [weight])
            yield sheet_of(1, 2, 36, dirs + [rng.randrange(256)], [weight, 0], [3, 5, 4, 20])
        yield sheet_of(1, 5, 1, [16, 1, 16, 0, 1], [weight])  # a circle between two basins
    for row in range(3):
        yield sheet_of(3, 4, 2, SAMPLE_A, [1001 if at == row else 1 for at in range(3)])


def random_sheet(rng):
    """Often accepted; of any shape, with any weights, mostly with least 1 and split 4, and sometimes with more or too
    few places for labelling; some with long labels."""
    if rng.random() < 0.08:
        rows, cols, depth, least, split, dirs, lent = long_labels.by_chance(rng)
        return sheet_of(rows, cols, depth, dirs, lent, None, (least, split))
    side = rng.choice([3, 6, 12, 24, 40])
    rows, cols = rng.choice(4 * [(rng.randint(1, side), rng.randint(1, side))] + [(rng.randint(1, 256), 3)])
    n, dirs = rows * cols, rng.choice(shapes.SHAPES)(rng, rows, cols)
    if rng.random() < 0.05:
        dirs[rng.randrange(n)] = rng.randrange(256)
    lengths = reference.lengths_for(n)
    if rng.random() < 0.4:
        dirs += [rng.randrange(256) for _ in range(rng.randint(0, MANY))]
        lengths = [wanted + rng.choice([0, 1, rng.randint(0, MANY)]) for wanted in lengths]
        if rng.random() < 0.2:
            lengths[rng.randrange(4)] = rng.randrange(n)
    depth = depths.by_chance(rng)
    lent, named = lent_weights.chosen(rng, rows, cols, dirs), splits.NEITHER
    if rng.random() < 0.4:
        named = splits.chosen(rng, splits.mouth_areas(rows, cols, dirs, lent))
    return sheet_of(rows, cols, depth, dirs, lent, lengths, named)


def large_sheets(rng):
    for shape, depth, kind in [(shapes.northwest, 18, weights.all_largest), (shapes.comb, 2, weights.all_largest),
                               (shapes.snake, 1, weights.all_largest), (shapes.grown, 36, weights.any_weights),
                               (shapes.northwest, 3, weights.in_degrees), (shapes.comb, 36, weights.all_one)]:
        dirs = shape(rng, 256, 256)
        yield sheet_of(256, 256, depth, dirs, kind(rng, 256, 256, dirs))


def basin_sheets(rng):
    """Accepted sheets with several basins: two, dozens, the most that a sheet can hold, and others."""
    yield sheet_of(1, 2, 1, [16, 1], [7])
    yield sheet_of(2, 1, 1, [64, 4], [7, 9])
    yield sheet_of(4, 9, 6, [64] * 9 + [16] * 9 + [64] * 9 + [16] * 9, [5, 1, 30, 2])
    yield sheet_of(6, 8, 3, shapes.comb(rng, 3, 8) + shapes.comb(rng, 3, 8), [1, 2, 3, 9, 8, 7])  # joined at column 0
    yield sheet_of(7, 8, 3, shapes.comb(rng, 3, 8) + [0] * 8 + shapes.comb(rng, 3, 8), [1, 2, 3, 1, 9, 8, 7])
    yield sheet_of(40, 3, 2, [16, 16, 16] * 40, [rng.randint(1, 1000) for _ in range(40)])
    for shape in shapes.BORDER:
        for _ in range(4):
            rows, cols = rng.randint(4, 16), rng.randint(4, 16)
            dirs = shape(rng, rows, cols)
            yield sheet_of(rows, cols, depths.by_chance(rng), dirs, weights.made(rng, rows, cols, dirs))


def large_basin_sheets(rng):
    for shape, depth, kind in [(shapes.most_outlets, 1, weights.any_weights), (shapes.strips, 36, weights.any_weights),
                               (shapes.many_outlets, 18, weights.all_largest)]:
        dirs = shape(rng, 256, 256)
        yield sheet_of(256, 256, depth, dirs, kind(rng, 256, 256, dirs))


# Calls.

def call_of(rng, sheet, total, basin=None, odd=0):
    """With enough places."""
    basin = some_basin(rng, sheet) if basin is None else basin
    return Call(sheet, enough(rng, sheet.needed(basin)), total, odd, basin)


def of_small(rng):
    """Every total that matters, for small sheets."""
    for sheet in small_sheets(rng):
        for total in EDGES + PRIMES + TOO_LARGE:
            yield call_of(rng, sheet, total, 1)


def of_close(rng):
    """Totals by which some sum hardly differs from whole cents, for sheets of many weights."""
    for _ in range(20):
        rows, cols = rng.randint(12, 30), rng.randint(12, 30)
        dirs = shapes.northwest(rng, rows, cols)
        sheet = sheet_of(rows, cols, 18, dirs, weights.any_weights(rng, rows, cols, dirs))
        for _ in range(10):
            yield call_of(rng, sheet, close_total(rng, sheet.weights), 1)


def of_rooms(rng):
    """Every number of places that matters, for sample A and for sheets with several basins."""
    sheets = [sheet_of(3, 4, depth, SAMPLE_A, rng.choice([[1, 1, 1], [3, 1000, 20], [999, 999, 999]]))
              for depth in (1, 2, 36)]
    sheets.append(sheet_of(7, 8, 3, shapes.comb(rng, 3, 8) + [0] * 8 + shapes.comb(rng, 3, 8), [1, 2, 3, 1, 9, 8, 7]))
    sheets.append(sheet_of(1, 2, 1, [16, 1], [7]))
    for sheet in sheets:
        for basin in {1, sheet.basins(), rng.choice([0, sheet.basins() + 1])}:
            for rooms in edge_rooms(sheet.needed(basin)):
                for odd in (0, 1):
                    yield Call(sheet, rooms, good_total(rng), odd, basin)
                yield Call(sheet, rooms, too_large_total(rng), 0, basin)


def of_basins(rng):
    """Each basin that matters, of sheets with several: with enough places, with dues for it alone, and with too few."""
    for sheet in basin_sheets(rng):
        for basin in basins_of(rng, sheet) if sheet.units else []:
            needed = sheet.needed(basin)
            yield Call(sheet, needed, good_total(rng), 0, basin)
            yield call_of(rng, sheet, rng.choice([0, 1, MOST, too_large_total(rng)]), basin, rng.randint(0, 1))
            yield Call(sheet, too_few(rng, needed), good_total(rng), rng.randint(0, 1), basin)
            yield Call(sheet, [*needed[:4], max(0, needed[4] - 1)], good_total(rng), 0, basin)
            yield Call(sheet, [*needed[:3], needed[3] - 1, needed[4]], good_total(rng), 0, basin)


def of_large_basins(rng):
    for sheet in large_basin_sheets(rng):
        for basin in basins_of(rng, sheet):
            yield Call(sheet, rng.choice([[256 * 256] * 5, sheet.needed(basin)]), good_total(rng), 0, basin)


def of_refused(rng):
    for sheet in refused_sheets(rng):
        for rooms in ([0] * 5, [1] * 5, [12] * 5):
            for total in six_totals(rng):
                yield Call(sheet, rooms, total, 0, rng.choice([0, 1, 1, 2, lent_basins.LARGEST]))


def of_large(rng):
    """The six totals and one more, with a place for each cell or places that are just enough."""
    for sheet in large_sheets(rng):
        for total in six_totals(rng) + [close_total(rng, sheet.weights)]:
            yield Call(sheet, rng.choice([[256 * 256] * 5, [len(sheet.units)] * 5]), total)


def by_chance(rng, count):
    """So many sheets that labelling accepts, and others that it refuses in between, each with the six totals; accepted
    ones with more totals, with each basin that matters, and with too few places."""
    while count > 0:
        sheet = random_sheet(rng)
        rows, cols = sheet.sizes[:2]
        for total in six_totals(rng):
            if sheet.units:
                yield call_of(rng, sheet, total, None, rng.randint(0, 1))
            else:
                yield Call(sheet, any_rooms(rng, rows * cols), total, rng.randint(0, 1), rng.choice([0, 1, 1, 2]))
        if sheet.units:
            yield from of_accepted(rng, sheet)
            count -= 1


def of_accepted(rng, sheet):
    rows, cols = sheet.sizes[:2]
    basin = rng.randint(1, sheet.basins())
    yield Call(sheet, [rows * cols] * 5, good_total(rng), 0, basin)
    yield call_of(rng, sheet, close_total(rng, sheet.of_basin(basin)[1]), basin)
    yield call_of(rng, sheet, good_total(rng), rng.choice(basins_of(rng, sheet)))
    basin = some_basin(rng, sheet)
    yield Call(sheet, too_few(rng, sheet.needed(basin)), rng.choice(4 * [good_total(rng)] + [too_large_total(rng)]),
               rng.randint(0, 1), basin)


def of_long(rng):
    """Sheets with labels of each length that is counted, and sample A at each depth that is."""
    for sheet in long_labels.of_digits(rng):
        if sheet.split < 3:
            made = sheet_of(*sheet[:3], sheet.dirs, sheet.weights, None, (sheet.least, sheet.split))
            yield call_of(rng, made, good_total(rng), 1, rng.randint(0, 1))
    for depth in depths.EDGES:
        yield call_of(rng, sheet_of(3, 4, depth, SAMPLE_A, [1, 2, 3]), good_total(rng), 1)


def questions(rng, count):
    """A fixed number of calls, and random ones for so many sheets that labelling accepts."""
    for made in (of_small, of_long, of_close, of_rooms, of_basins, of_large_basins, of_refused, of_large):
        yield from made(rng)
    yield from by_chance(rng, count)
