"""Makes small sheets for tests/direct/cases.py, some of them with long labels, and answers for every two labels of each
both questions: whether water from the one passes the outlet of the other's unit, and whether it passes the other's
cells. The answers come from the water itself: of the digits of a label they look at no more than how many there are,
and of basins at none but whether a unit is the same. Also checks that the cells of a basin that share leading digits
drain to one of them. A label that is asked about is (basin, label)."""
from typing import NamedTuple

import long_labels
import reference
import shapes
import splits
import weights

DEPTHS = [1, 2, 3, 18, 36]
NO, YES, SAME, UNDECIDED = 0, 1, 2, 3

# What is counted of a sheet at a depth.
AT_DEPTH, OUTLET_ALONE = 'depth %d', 'outlet alone passed at depth %d'
WHOLE_YES, WHOLE_ALL = 'pairs Yes with a whole label', 'pairs Undecided with a whole label, all cells passed'
WHOLE_SOME = 'pairs Undecided with a whole label, some cells not passed'
EQUAL, SHARED = 'equal areas of unequal counts', 'leading digits of several labels'
SHARED_LONG = 'more than 18 leading digits of several labels'
LONG_YES = 'pairs Yes with a whole label of more than 18 digits'
LONGEST = 'longest label of %d digits'
PART_LATE = ['pairs %s that part after 18 digits' % answer for answer in ('No', 'Yes')]
OF_TWO = {'Same': 'pairs of two basins with equal labels', 'Yes': 'pairs of two basins that would be Yes in one',
          ('Refused', 12): 'pairs of two basins where one label begins the other'}
KINDS = ([AT_DEPTH % depth for depth in DEPTHS] + [OUTLET_ALONE % depth for depth in DEPTHS]
         + ['weighted', EQUAL, 'one unit', 'units of several cells', 'least above 1',
            'split below 4', 'other labels than with least 1', 'other labels than with split 4', 'pairs No',
            'pairs Yes', 'pairs Same', 'pairs Yes for Undecided', WHOLE_YES, WHOLE_ALL, WHOLE_SOME, SHARED,
            SHARED_LONG, LONG_YES, *PART_LATE, 'one basin', 'two basins', 'more than two basins',
            'pairs of two basins', *OF_TWO.values()] + [LONGEST % length for length in long_labels.LENGTHS])


class Unit(NamedTuple):
    basin: int
    label: tuple
    outlet: int
    cells: set

    def named(self):
        return self.basin, self.label


class Questions(NamedTuple):
    """A sheet at a depth, its weights and what labelling gives; the labels of its units; the answers for the first
    label as p and every label as q, then for the second as p, and so on; and how many there are of each kind."""
    sheet: tuple  # rows, cols, depth, least, split
    dirs: bytes
    lent: list
    labelled: tuple
    labels: list
    outlet_answers: list
    flow_answers: list
    counts: dict


# Sheets.

def sides(rng):
    """Rows and columns: a few of both, or a strip, whose river can have so many tributaries that three digits do not
    tell them apart."""
    strip = 2, rng.randint(10, 30)
    least = rng.choice([1, 4])
    return rng.choice(2 * [(rng.randint(least, 9), rng.randint(least, 9))] + [strip, strip[::-1]])


def has_tributary(rows, cols, dirs):
    """Do two cells flow into one? Without that all cells have the label 0."""
    donors = reference.donors_and_outlets(rows, cols, reference.codes_of(dirs))[0]
    return any(len(own) > 1 for own in donors.values())


def sheets(rng, count):
    """So many sheets that labelling accepts and that have more than one label, and some with one label in between, as
    (rows, cols, directions, weights)."""
    while count > 0:
        rows, cols = sides(rng)
        dirs = rng.choice(shapes.SHAPES)(rng, rows, cols)
        if weights.plain_areas(rows, cols, dirs) is not None:
            yield rows, cols, bytes(dirs), weights.made(rng, rows, cols, dirs)
            count -= has_tributary(rows, cols, dirs)


# Answers.

def passing_cells(rows, cols, dirs):
    """For each cell the set of those whose water passes it. The water of every inside cell is followed to its end."""
    passing, codes = [set() for _ in dirs], reference.codes_of(dirs)
    for source in codes:
        cell = source
        while cell is not None:
            passing[cell].add(source)
            cell = reference.step_end(rows, cols, codes, cell)
    return passing


def units_of(rows, cols, dirs, labels, basins):
    cells_of = {}
    for cell in reference.codes_of(dirs):
        cells_of.setdefault((basins[cell], labels[cell]), set()).add(cell)
    return [Unit(basin, label, outlet, cells_of[basin, label])
            for label, outlet, count, basin in reference.units_of(rows, cols, dirs, labels, basins)]


class Pair(NamedTuple):
    """The answers for a unit p and a unit q; has p's label fewer digits than the depth, has it more than 18, are both
    labels alike in the first 18, does all water of q pass every cell of p, and what would the outlet answer be by the
    labels alone, if they are of two basins? An answer is None where the water does what none of the answers says."""
    outlet: int
    flow: int
    whole: bool
    long: bool
    alike: bool
    all_passed: bool
    by_labels: object = None


def outlet_answer(passing, p, q):
    """Does water from the unit q pass the outlet of the unit p?"""
    if q.cells <= passing[p.outlet]:
        return SAME if p.named() == q.named() else YES
    return NO if q.cells.isdisjoint(passing[p.outlet]) and p.named() != q.named() else None


def flow_answer(p, q, some_pass, all_passed, surely):
    """Does water from the unit q pass the unit p? `some_pass` are the cells whose water passes some cell of p. With
    `surely` it must then pass every cell of p; else Undecided stands for Yes."""
    if p.named() == q.named():
        return SAME
    if q.cells.isdisjoint(some_pass):
        return NO
    return UNDECIDED if not surely else YES if all_passed else None


def pairs_with(passing, depth, least, p, units):
    """The pairs of the unit p and each of the units."""
    whole = len(reference.digits_of(p.label)) < depth
    all_pass = set.intersection(*(passing[cell] for cell in p.cells))
    some_pass = set.union(*(passing[cell] for cell in p.cells))
    for q in units:
        all_passed = q.cells <= all_pass
        flow = flow_answer(p, q, some_pass, all_passed, whole and least == 1)
        by_labels = reference.outlet_flow(depth, 1, p.label, 1, q.label) if p.basin != q.basin else None
        alike = p.basin == q.basin and p.label[0] == q.label[0]
        yield Pair(outlet_answer(passing, p, q), flow, whole, p.label[1] != 0, alike, all_passed, by_labels)


def groups_of(dirs, labels, basins):
    """For each basin and each leading digits that occur in it, the inside cells that share them."""
    groups = {}
    for cell in reference.codes_of(dirs):
        digits = reference.digits_of(labels[cell])
        for count in range(len(digits) + 1):
            groups.setdefault((basins[cell], digits[:count]), set()).add(cell)
    return groups


def drain_to_one(rows, cols, codes, cells):
    """Is there exactly one of these cells whose step does not end on another of them? Then the way of each comes to it
    through these cells, since an accepted sheet has no circle."""
    return sum(reference.step_end(rows, cols, codes, cell) not in cells for cell in cells) == 1


def chosen_splits(rng, found):
    """Neither, and another least and split, mostly with least above 1; `found` are the areas of the mouths."""
    least = rng.choice([1, max(2, splits.good_least(rng, found)), max(2, splits.good_least(rng, found))])
    return splits.NEITHER, (least, splits.good_split(rng))


def asked_of(sheet, dirs, lent, passing, equal):
    """The questions about one sheet at a depth; `equal` says that it has equal areas of unequal counts."""
    rows, cols, depth, least, split = sheet
    labelled = reference.label(*sheet, dirs, lent, *reference.lengths_for(rows * cols))
    units, groups = units_of(rows, cols, dirs, *labelled[3:]), groups_of(dirs, *labelled[3:])
    pairs = [pair for p in units for pair in pairs_with(passing, depth, least, p, units)]
    outlet_answers, flow_answers = [pair.outlet for pair in pairs], [pair.flow for pair in pairs]
    codes = reference.codes_of(dirs)
    drained = all(drain_to_one(rows, cols, codes, cells) for cells in groups.values())
    if not drained or None in outlet_answers or None in flow_answers:
        raise AssertionError('the water does otherwise: %s' % [sheet, list(dirs), lent, *labelled[3:]])
    shared = [len(digits) for (_, digits), cells in groups.items() if len({labelled[3][cell] for cell in cells}) > 1]
    counts = {**sheet_counts(sheet, dirs, lent, labelled, units), EQUAL: equal, **pair_counts(depth, pairs),
              SHARED: len(shared), SHARED_LONG: sum(count > reference.MAX_DIGITS for count in shared)}
    labels = [unit.named() for unit in units]
    return Questions(sheet, dirs, lent, labelled, labels, outlet_answers, flow_answers, counts)


def long_sheets(rng, count):
    """Sheets with labels of each length that is counted, few tributaries taken at a time, and so many random ones."""
    for sheet in long_labels.of_digits(rng):
        if sheet.split == 1 or sheet.split == 2 and sheet.depth == 19:
            yield sheet
    for _ in range(count):
        sheet = long_labels.by_chance(rng)
        if sheet.rows * sheet.cols < 200:
            yield sheet


def questions(rng, count):
    """Questions about so many sheets, at each of the depths, with least 1 and split 4 and with others; then about
    sheets with long labels, an eighth as many and some more."""
    yield from small_questions(rng, count)
    for rows, cols, depth, least, split, dirs, lent in long_sheets(rng, count // 8):
        dirs = bytes(dirs)
        yield asked_of((rows, cols, depth, least, split), dirs, lent, passing_cells(rows, cols, dirs), False)


def small_questions(rng, count):
    for rows, cols, dirs, lent in sheets(rng, count):
        n, passing = rows * cols, passing_cells(rows, cols, dirs)
        areas = reference.label(rows, cols, 1, *splits.NEITHER, dirs, lent, *reference.lengths_for(n))[2]
        equal, found = weights.effects(rows, cols, dirs, areas)[0], splits.mouth_areas_by(rows, cols, dirs, areas)
        for depth in DEPTHS:
            for least, split in chosen_splits(rng, found):
                yield asked_of((rows, cols, depth, least, split), dirs, lent, passing, equal)


# What is counted.

def sheet_counts(sheet, dirs, lent, labelled, units):
    rows, cols, depth, least, split = sheet
    by_least, by_split = splits.changes(sheet, dirs, lent, labelled[3])
    longest = LONGEST % long_labels.longest(unit.label for unit in units)
    basins = max(labelled[4])
    return {**({longest: 1} if longest in KINDS else {}), **({AT_DEPTH % depth: 1} if depth in DEPTHS else {}),
            'one basin': basins == 1, 'two basins': basins == 2, 'more than two basins': basins > 2,
            'weighted': len(set(lent)) > 1, 'one unit': len(units) == 1,
            'units of several cells': sum(len(unit.cells) > 1 for unit in units),
            'least above 1': least > 1, 'split below 4': split < 4, 'other labels than with least 1': by_least,
            'other labels than with split 4': by_split}


def pair_counts(depth, pairs):
    undecided = [pair for pair in pairs if pair.flow == UNDECIDED]
    outlet_answers = [pair.outlet for pair in pairs]
    counts = {'pairs No': outlet_answers.count(NO), 'pairs Yes': outlet_answers.count(YES),
              'pairs Same': outlet_answers.count(SAME), 'pairs Yes for Undecided': len(undecided),
              WHOLE_YES: sum(pair.flow == YES for pair in pairs),
              LONG_YES: sum(pair.flow == YES and pair.long for pair in pairs),
              PART_LATE[0]: sum(pair.outlet == NO and pair.alike for pair in pairs),
              PART_LATE[1]: sum(pair.outlet == YES and pair.alike for pair in pairs),
              WHOLE_ALL: sum(pair.whole and pair.all_passed for pair in undecided),
              WHOLE_SOME: sum(pair.whole and not pair.all_passed for pair in undecided)}
    of_two = [pair.by_labels for pair in pairs if pair.by_labels is not None]
    counts['pairs of two basins'] = len(of_two)
    counts.update((name, of_two.count(answer)) for answer, name in OF_TWO.items())
    if depth in DEPTHS and not all(pair.all_passed for pair in undecided):
        counts[OUTLET_ALONE % depth] = 1
    return counts
