"""Checks of several basins on a sheet by direct call, for tests/cases.py: their numbers, areas and labels, refusals 3
and 6, the index, the lookup, the levy, both flow questions and pairs. What is expected was worked out by hand."""
from labels import of_units, record, records, slice_of
from reference import flow, flow_pairs, index, label, levy, lengths_for, lookup, outlet_flow

LARGEST = 2 ** 32 - 1
MOST = 100000000000  # cents of a levy

# Two rivers along the rows 0 and 2, each with three tributaries of one cell from the row below. The first one flows
# west off the sheet, the second east to column 4 and there south off the sheet. In row 0 of column 4 a cell is a basin
# of its own. The outlets are the cells 0, 4 and 19.
TWO_RIVERS = bytes([16, 16, 16, 16, 1,
                    64, 64, 64, 64, 0,
                    1, 1, 1, 1, 4,
                    64, 64, 64, 64, 4])
RIVER_AREAS = [8, 6, 4, 2, 1,
               1, 1, 1, 1, 0,
               2, 4, 6, 8, 9,
               1, 1, 1, 1, 10]
RIVER_BASINS = [1, 1, 1, 1, 2,
                1, 1, 1, 1, 0,
                3, 3, 3, 3, 3,
                3, 3, 3, 3, 3]
# First basin: the river list is 0, mouth 5, 1, mouth 6, 2, mouth 7, 3, 8. Third basin: 19, 14, 13, mouth 18, 12, mouth
# 17, 11, mouth 16, 10, 15.
RIVER_LABELS = [1, 3, 5, 7, 0,
                2, 4, 6, 7, 0,
                7, 5, 3, 1, 1,
                7, 6, 4, 2, 1]
RIVER_UNITS = [(1, 0, 1), (2, 5, 1), (3, 1, 1), (4, 6, 1), (5, 2, 1), (6, 7, 1), (7, 3, 2), (0, 4, 1, 2),
               (1, 19, 3, 3), (2, 18, 1, 3), (3, 12, 1, 3), (4, 17, 1, 3), (5, 11, 1, 3), (6, 16, 1, 3), (7, 10, 2, 3)]

# (name, rows, cols, directions; number, place, areas, labels, basins), at depth 2, with weights 1
SHEETS = [
    ('codes 16 and 1', 1, 2, [16, 1], 0, 0, [1, 1], [0, 0], [1, 2]),
    ('codes 64 and 4, one above the other', 2, 1, [64, 4], 0, 0, [1, 1], [0, 0], [1, 2]),
    ('codes 1 and 16', 1, 2, [1, 16], 6, 0, None, None, None),
    ('an outside cell between', 1, 3, [1, 0, 16], 0, 0, [1, 0, 1], [0, 0, 0], [1, 0, 2]),
    ('three cells to the first outlet', 1, 4, [1, 1, 64, 1], 0, 0, [1, 2, 3, 1], [0, 0, 0, 0], [1, 1, 1, 2]),
    ('the larger basin second', 1, 4, [16, 1, 1, 1], 0, 0, [1, 1, 2, 3], [0] * 4, [1, 2, 2, 2]),
    ('numbers by outlets, not by first cells', 2, 3, [1, 1, 4, 16, 16, 1], 0, 0, [1, 2, 3, 2, 1, 4], [0] * 6,
     [2, 2, 2, 1, 1, 2]),
    ('all to an inner outside cell', 3, 3, [2, 4, 8, 1, 0, 16, 128, 64, 32], 0, 0, [1, 1, 1, 1, 0, 1, 1, 1, 1], [0] * 9,
     [1, 2, 3, 4, 0, 5, 6, 7, 8]),
    ('two rivers', 4, 5, TWO_RIVERS, 0, 0, RIVER_AREAS, RIVER_LABELS, RIVER_BASINS),
    ('a circle between two basins', 1, 5, [16, 1, 16, 0, 1], 6, 1, None, None, None),
    ('a circle after two basins', 1, 5, [16, 1, 0, 1, 16], 6, 3, None, None, None),
    ('a cell upstream of a circle before it', 1, 5, [16, 1, 1, 16, 1], 6, 1, None, None, None),
]

# (name, basin, leading digits, (basin, label) of the entries, basins lent; number, start, length)
ENTRIES = [(1, 1), (1, 12), (1, 2), (3, 0), (3, 1), (3, 11), (LARGEST, 1)]
LOOKUPS = [
    ('labels of the first basin', 1, 1, ENTRIES, 7, 0, 0, 2),
    ('all of the first basin', 1, 0, ENTRIES, 7, 0, 0, 3),
    ('all of a basin between', 3, 0, ENTRIES, 7, 0, 3, 3),
    ('labels of a basin between', 3, 1, ENTRIES, 7, 0, 4, 2),
    ('labels of the largest basin', LARGEST, 1, ENTRIES, 7, 0, 6, 1),
    ('none in the first basin, some in the next', 1, 11, ENTRIES, 7, 0, 1, 0),
    ('none, after all of the first basin', 1, 3, ENTRIES, 7, 0, 3, 0),
    ('none in a basin between, some before', 3, 12, ENTRIES, 7, 0, 6, 0),
    ('basin 0', 0, 1, ENTRIES, 7, 0, 0, 0),
    ('a basin that is lacking', 2, 1, ENTRIES, 7, 0, 3, 0),
    ('a basin that is lacking, no leading digits', 2, 0, ENTRIES, 7, 0, 3, 0),
    ('a basin that is lacking, after 3', 4, 0, ENTRIES, 7, 0, 6, 0),
    ('basin 0 with labels', 0, 1, [(0, 1), (1, 1)], 2, 0, 0, 1),
    ('nothing lent', 1, 1, [], 0, 0, 0, 0),
    ('one basin too few', 1, 1, ENTRIES, 6, 3, 0, 0),
    ('no basins', 1, 1, ENTRIES, 0, 3, 0, 0),
    ('more basins', 1, 1, ENTRIES, 9, 0, 0, 2),
    ('3 before 11 of the leading digits', 1, 10, ENTRIES, 6, 3, 0, 0),
    ('3 before 11 of an entry', 1, 1, [(1, 1), (1, 10)], 1, 3, 0, 0),
    ('3 before 16', 1, 1, [(1, 2), (1, 1)], 1, 3, 0, 0),
    ('11 before 16', 1, 1, [(2, 1), (1, 10)], 2, 11, 0, 0),
    ('basins that fall', 1, 1, [(2, 1), (1, 2)], 2, 16, 0, 0),
    ('labels that fall in a basin', 1, 1, [(1, 2), (1, 1)], 2, 16, 0, 0),
    ('labels that fall at the next basin', 2, 1, [(1, 2), (2, 1)], 2, 0, 1, 1),
    ('equal labels in two basins', 2, 1, [(1, 1), (2, 1)], 2, 0, 1, 1),
    ('equal labels in one basin', 1, 1, [(1, 1), (1, 1)], 2, 16, 0, 0),
    ('the largest basin before the smallest', 0, 1, [(LARGEST, 1), (0, 1)], 2, 16, 0, 0),
    ('basins on both sides of 2^31', 2 ** 31, 1, [(2 ** 31 - 1, 1), (2 ** 31, 1)], 2, 0, 1, 1),
]

# (name, depth, p's basin, p, q's basin, q, answer), as in tests/cases.py
FLOW = [
    ('the rule is met in one basin', 3, 2, 91, 2, 92, 'Yes'),
    ('and in two', 3, 1, 91, 2, 92, 'No'),
    ('equal labels in two basins', 3, 1, 91, 2, 91, 'No'),
    ('0 in two basins', 3, 1, 0, 2, 0, 'No'),
    ('labels 9 and 91 in two basins', 3, 1, 9, 2, 91, 'No'),
    ('Undecided in one basin', 2, 7, 91, 7, 92, 'Undecided'),
    ('and in two', 2, 7, 91, 8, 92, 'No'),
    ('label 105 as p in two basins: 11', 3, 1, 105, 2, 3, ('Refused', 11)),
    ('label 105 as q in two basins: 11', 3, 1, 3, 2, 105, ('Refused', 11)),
    ('depth 0 in two basins: 2', 0, 1, 3, 2, 3, ('Refused', 2)),
    ('basin 0 twice', 3, 0, 91, 0, 91, 'Same'),
    ('basins 0 and 1', 3, 0, 91, 1, 91, 'No'),
    ('the largest basin twice', 3, LARGEST, 91, LARGEST, 92, 'Yes'),
    ('the largest basin and the next below', 3, LARGEST, 91, LARGEST - 1, 92, 'No'),
    ('basins alike in 16 bits', 3, 1, 91, 65537, 91, 'No'),
]

# (name, basins of P, basins of Q, places; number, answers), of the pairs 91 and 92, 91 and 91, 9 and 91, 105 and 3
P, Q = [91, 91, 9, 105], [92, 91, 91, 3]
PAIRS = [
    ('one basin', [5] * 4, [5] * 4, 4, 0, [1, 2, 140, 139]),
    ('two basins', [5] * 4, [6] * 4, 4, 0, [0, 0, 0, 139]),
    ('the second pair alone in one basin', [5, 6, 7, 8], [4, 6, 8, 9], 4, 0, [0, 2, 0, 139]),
    ('more basins', [5] * 9, [5] * 4 + [0], 4, 0, [1, 2, 140, 139]),
    ('one basin of P too few', [5] * 3, [5] * 4, 4, 3, None),
    ('one basin of Q too few', [5] * 4, [5] * 3, 4, 3, None),
    ('no basins', [], [], 4, 3, None),
    ('one answer too few', [5] * 4, [5] * 4, 3, 3, None),
]


def labelled(rows, cols, dirs, depth=2):
    return label(rows, cols, depth, 1, 4, bytes(dirs), [1] * rows, *lengths_for(rows * cols))


def sheet_checks():
    for name, rows, cols, dirs, number, place, areas, labels, basins in SHEETS:
        expected = number, place, areas, labels and records(labels), basins
        yield 'basins: ' + name, labelled(rows, cols, dirs), expected
    exact = lengths_for(20)
    for length, number in [(0, 3), (19, 3), (20, 0), (21, 0)]:
        lengths = [*exact[:2], length, exact[3]]
        got = label(4, 5, 2, 1, 4, TWO_RIVERS, [1] * 4, *lengths)
        yield 'basins: %d places for 20 cells' % length, (got[0], got[4]), (number, None if number else RIVER_BASINS)
    yield 'basins: 3 before 17', label(4, 5, 2, 1, 4, TWO_RIVERS, [0] * 4, 20, 40, 19, 160)[0], 3
    yield 'basins: 19 before 3', label(4, 5, 2, 0, 4, TWO_RIVERS, [1] * 4, 20, 40, 19, 160)[0], 19


def index_checks():
    units, sheet = of_units(RIVER_UNITS), [4, 5, 2, 1, 4, TWO_RIVERS, [1] * 4, *lengths_for(20)]
    count = len(units)
    yield 'basins, index: two rivers', index(*sheet, 2 * count, count, count, count)[5], units
    for place in range(4):
        rooms = [2 * count, count, count, count]
        rooms[place] -= 1
        got = index(*sheet, *rooms)
        yield 'basins, index: one place too few', (*got[:2], *got[4:]), (3, 0, RIVER_BASINS, None)


def levy_checks():
    """With the weights 2, 3, 5, 7 the first basin weighs 4 x 2 + 4 x 3 = 20, the second 2, the third 5 x 5 + 5 x 7 =
    60, and the units of the third weigh 17, 7, 5, 7, 5, 7, 12: up to each of them 17, 24, 29, 36, 41, 48, 60."""
    sheet = [4, 5, 2, 1, 4, TWO_RIVERS, [2, 3, 5, 7], *lengths_for(20), 30, 15, 15, 15]
    units = index(*sheet)[5]
    dues = {1: [2, 3, 2, 3, 2, 3, 5], 2: [20], 3: [5, 3, 1, 3, 1, 3, 4], 0: [], 4: [], LARGEST: []}
    for basin, owed in dues.items():
        for room in (len(owed), 15):
            got = levy(*sheet, basin, 20, room)
            yield 'basins, levy: of basin %d' % basin, (*got[:2], *got[5:]), (0, 0, units, owed)
        if owed:
            got = levy(*sheet, basin, 20, len(owed) - 1)
            yield 'basins, levy: one due too few', (*got[:2], *got[4:]), (3, 0, RIVER_BASINS, None, None)
        yield 'basins, levy: 18', levy(*sheet, basin, MOST + 1, 15), (18, 0, *5 * [None])
    short = [*sheet[:-1], 14]
    yield 'basins, levy: 3 for a basin that is lacking', levy(*short, 4, 20, 0)[0], 3


def question_checks():
    for name, basin, leading, entries, lent, *answer in LOOKUPS:
        labels, basins = slice_of([label for _, label in entries]), [basin for basin, _ in entries] + [0] * 9
        yield 'basins, lookup: ' + name, lookup(basin, record(leading), labels, basins[:lent]), tuple(answer)
    for name, depth, p_basin, p, q_basin, q, answer in FLOW:
        outlet_answer = 'Yes' if answer == 'Undecided' else answer
        yield 'basins, flow: ' + name, flow(depth, 1, p_basin, record(p), q_basin, record(q)), answer
        yield 'basins, outlet flow: ' + name, outlet_flow(depth, p_basin, record(p), q_basin, record(q)), outlet_answer
    yield 'basins, flow: 19 in two basins', flow(3, 0, 1, record(91), 2, record(91)), ('Refused', 19)
    for name, p_basins, q_basins, room, number, answers in PAIRS:
        got = flow_pairs(3, 1, slice_of(P), p_basins, slice_of(Q), q_basins, room)
        yield 'basins, pairs: ' + name, got, (number, answers)
    yield 'basins, pairs: 2 before 3', flow_pairs(0, 1, slice_of(P), [], slice_of(Q), [], 4), (2, None)
    yield 'basins, pairs: 19 before 3', flow_pairs(3, 0, slice_of(P), [], slice_of(Q), [], 4), (19, None)


def checks():
    return [*sheet_checks(), *index_checks(), *levy_checks(), *question_checks()]
