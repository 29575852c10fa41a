"""Ways to share a total among the units of a basin that are not the one asked for. The calls of tests/direct/levies.py
must tell each of them from the right one."""
from itertools import accumulate

import reference

NAMES = ['shares rounded down', 'shares rounded up', 'shares rounded to the nearest',
         'shares rounded down, the rest to the first unit', 'shares rounded down, the rest to the last unit',
         'shares rounded to the nearest, the rest to the last unit',
         'shares rounded down, a cent more from the first unit on',
         'shares rounded down, a cent more for the largest parts of a cent',
         'sums rounded up', 'sums rounded to the nearest', 'sums of double precision',
         'sums in reading order of outlets', 'sums in order of labels as numbers',
         'sums in order of the first 18 digits alone', 'counts of cells as weights',
         'areas of outlets as weights', 'all cells of a unit weighed as its outlet', 'the count of cells as the whole',
         'outside cells in the whole', 'the due of the unit before', 'the whole of all basins',
         'sums from the first unit of all basins', 'shared among the units of all basins',
         'the dues of the first basin', 'the dues of the next basin']


# Roundings of parts / whole.

def down(parts, whole):
    return parts // whole


def up(parts, whole):
    return -(-parts // whole)


def nearest(parts, whole):
    return (2 * parts + whole) // (2 * whole)


def by_double(parts, whole):
    return int(float(parts) / whole)


# Dues. `summed` are the weights of the units of the basin in index order.

def by_shares(total, summed, rounded):
    """Each share rounded by itself."""
    whole = sum(summed)
    return [rounded(total * weight, whole) for weight in summed]


def by_sums(total, summed, whole, rounded):
    owed = [rounded(total * first, whole) for first in [0, *accumulate(summed)]]
    return [after - before for before, after in zip(owed, owed[1:])]


def in_order(total, summed, keys):
    """With sums that run over the units by these keys."""
    places = sorted(range(len(keys)), key=keys.__getitem__)
    owed = dict(zip(places, reference.dues_of(total, [summed[place] for place in places])))
    return [owed[place] for place in range(len(places))]


def rest_to(total, dues, place):
    """These dues, with the rest of the total for one place."""
    rest = total - sum(dues)
    return [due + rest if at == place else due for at, due in enumerate(dues)]


def cents_to(total, dues, places):
    """These dues, with a cent more for the first of these places, as many as the rest has cents."""
    taken = set(places[:total - sum(dues)])
    return [due + (at in taken) for at, due in enumerate(dues)]


def of_shares(total, summed):
    """Those in which each share is rounded by itself."""
    floors, rounds = by_shares(total, summed, down), by_shares(total, summed, nearest)
    last, places, whole = len(summed) - 1, range(len(summed)), sum(summed)
    by_part = sorted(places, key=lambda place: -(total * summed[place] % whole))
    return {'shares rounded down': floors,
            'shares rounded up': by_shares(total, summed, up),
            'shares rounded to the nearest': rounds,
            'shares rounded down, the rest to the first unit': rest_to(total, floors, 0),
            'shares rounded down, the rest to the last unit': rest_to(total, floors, last),
            'shares rounded to the nearest, the rest to the last unit': rest_to(total, rounds, last),
            'shares rounded down, a cent more from the first unit on': cents_to(total, floors, places),
            'shares rounded down, a cent more for the largest parts of a cent': cents_to(total, floors, by_part)}


def of_sums(total, summed, sheet, units):
    """Those with sums of weights; the sheet is as in tests/direct/levies.py, and `units` are those of the basin."""
    (rows, cols), lent, areas = sheet.sizes[:2], sheet.lent, sheet.labelled[2]
    labels, outlets, counts, _ = zip(*units)
    whole = sum(summed)
    first_digits = [(reference.digits_of((first, 0)), outlet) for (first, rest), outlet in zip(labels, outlets)]
    as_outlets = [count * lent[outlet // cols] for outlet, count in zip(outlets, counts)]
    return {'sums rounded up': by_sums(total, summed, whole, up),
            'sums rounded to the nearest': by_sums(total, summed, whole, nearest),
            'sums of double precision': by_sums(total, summed, whole, by_double),
            'sums in reading order of outlets': in_order(total, summed, outlets),
            'sums in order of labels as numbers': in_order(total, summed, labels),
            'sums in order of the first 18 digits alone': in_order(total, summed, first_digits),
            'counts of cells as weights': reference.dues_of(total, counts),
            'areas of outlets as weights': reference.dues_of(total, [areas[outlet] for outlet in outlets]),
            'all cells of a unit weighed as its outlet': reference.dues_of(total, as_outlets),
            'the count of cells as the whole': by_sums(total, summed, sum(counts), down),
            'outside cells in the whole': by_sums(total, summed, cols * sum(lent[:rows]), down),
            'the due of the unit before': [0, *reference.dues_of(total, summed)[:-1]]}


def of_basins(call, summed):
    """Those that mistake the basin; none where the sheet has one."""
    sheet, total, basin = call.sheet, call.total, call.basin
    if sheet.basins() == 1:
        return {}
    before = sum(unit[3] < basin for unit in sheet.units)
    all_basins = reference.dues_of(total, sheet.weights)[before:before + len(summed)]
    ahead = sum(sheet.weights[:before])
    owed = [total * first // sum(summed) for first in accumulate([ahead, *summed])]
    return {'the whole of all basins': by_sums(total, summed, sum(sheet.weights), down),
            'sums from the first unit of all basins': [after - before for before, after in zip(owed, owed[1:])],
            'shared among the units of all basins': all_basins,
            'the dues of the first basin': reference.dues_of(total, sheet.of_basin(1)[1]),
            'the dues of the next basin': reference.dues_of(total, sheet.of_basin(basin % sheet.basins() + 1)[1])}


def names_unlike(call, dues):
    """The names of those that differ from these dues of an accepted call."""
    units, summed = call.sheet.of_basin(call.basin)
    others = {**of_shares(call.total, summed), **of_sums(call.total, summed, call.sheet, units),
              **of_basins(call, summed)}
    return [name for name, other in others.items() if other != dues]
