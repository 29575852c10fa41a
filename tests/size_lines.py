"""Makes the first two lines of the files of tests/fuzz.py, the names of sizes and their values, good and damaged: with
the three names, or with least and split among them."""
from itertools import permutations

import splits

NAMES = [b'rows', b'cols', b'depth']
SPLIT_NAMES = [b'least', b'split']
ORDERS = list(permutations(NAMES + SPLIT_NAMES))  # all 120 of the five names

# Fields that are put in place of values, good and bad.
ODD_LEASTS = [b'0', b'1', b'2', b'9999999', b'10000000', b'65536000', b'65536001', b'99999999', b'100000000',
              b'655360000', b'4294967297', b'18446744073709551617', b'00', b'02', b'00000002', b'000000002', b'', b' ',
              b'-2', b'+2', b'2 ', b'2\r', b'\t2', b'2e1', b'        2', b'         2', b'        65536000',
              b'        65536001', b'        100000000', b'        0']
ODD_SPLITS = [b'0', b'1', b'4', b'5', b'9', b'99999', b'100000', b'10000000', b'256', b'260', b'65540', b'04', b'',
              b' ', b'4 ', b'4\r', b'        4', b'         4', b'        100000']
ODD_SIZES = [b'0', b'1', b'257', b'19', b'36', b'37', b'99999', b'100000', b'10000000', b'00003', b'',
             b'        99999', b'        100000']


def lines(names, values):
    """The two lines; `values` has the field of each name."""
    return [b','.join(names), b','.join(values[name] for name in names)]


def values_of(rows, cols, depth, least, split):
    return dict(zip(NAMES + SPLIT_NAMES, (b'%d' % size for size in (rows, cols, depth, least, split))))


def with_odd_value(rng, values):
    """The values with an odd one for one name, mostly for least or split."""
    name = rng.choice(2 * SPLIT_NAMES + NAMES)
    odd = {b'least': ODD_LEASTS, b'split': ODD_SPLITS}.get(name, ODD_SIZES)
    return {**values, name: rng.choice(odd)}


def out_of_bounds(rng, values):
    """Least or split out of bounds, or both; sometimes with other sizes that are refused before or after 19."""
    values = dict(values)
    for name in rng.choice([[b'least'], [b'split'], SPLIT_NAMES]):
        values[name] = b'%d' % (splits.bad_least(rng) if name == b'least' else splits.bad_split(rng))
    if rng.random() < 0.6:
        too_large = {b'rows': b'33', b'cols': b'64'}  # for the program
        values.update(rng.choice([{b'depth': b'0'}, {b'depth': b'37'}, {b'rows': b'0'}, {b'cols': b'257'}, too_large,
                                  {b'rows': b'256', b'cols': b'256'}]))
    return values


def with_odd_names(rng, names, values):
    """One of the two alone, with its value or without; a name twice, or another in its place; a name too many."""
    names, named = list(names), list(names)
    at = names.index(rng.choice(SPLIT_NAMES))
    kind = rng.randrange(5)
    if kind < 2:
        del names[at]
        named = names if kind == 0 else named
    elif kind == 2:
        names[at] = rng.choice(names)
    elif kind == 3:
        odd = [b'LEAST', b'Split', b'leas', b'splits', b' least', b'split ', b'split\r', b'', b'weight', b'row']
        names[at] = rng.choice(odd)
    else:
        names.insert(rng.randint(0, 5), rng.choice(names + [b'weight']))
        named = [*named, named[0]] if rng.random() < 0.5 else named
    return [b','.join(names), b','.join(values[name] for name in named)]


def with_odd_count(rng, names, values):
    """Three or four values for five names, six, or five for three names."""
    fields = [values[name] for name in names]
    if rng.random() < 0.25:
        names = [name for name in names if name in NAMES]
    else:
        fields = rng.choice([fields[:3], fields[:4], fields[2:], fields + [b'1'], fields + [b'']])
    return [b','.join(names), b','.join(fields)]


def damaged(rng, names, values):
    """The two lines of five names with one thing wrong, or that may be wrong."""
    kind = rng.randrange(7)
    if kind < 2:
        return lines(names, with_odd_value(rng, values))
    if kind < 4:
        return lines(names, out_of_bounds(rng, values))
    if kind < 6:
        return with_odd_names(rng, names, values)
    return with_odd_count(rng, names, values)


def made(rng, rows, cols, depth, found):
    """Mostly three names; else five in any order, some of these damaged. `found` gives the areas of the mouths."""
    if rng.random() < 0.65:
        return lines(rng.sample(NAMES, 3), values_of(rows, cols, depth, *splits.NEITHER))
    names, values = rng.choice(ORDERS), values_of(rows, cols, depth, *splits.chosen(rng, found()))
    return damaged(rng, names, values) if rng.random() < 0.3 else lines(names, values)
