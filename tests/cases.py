# Recomputes the stored cases with reference.py, and checks sheets, labels and boundaries of documents 01 and 02 by
# direct call.
#
# A file can get refusals 1 to 6, 8 to 10, 14, 17 and 19. It cannot get
#   7: no call gives it any more;
#   11, 12, 16, 18 and 20 to 22: they belong to the flow question, the outlet question, the lookup, the levy and the
#   check of a plan, of which the programs make no use;
#   13: the programs hand over no line and no end after the end;
#   15: the programs label only after the intake has accepted the end.
# Nor can it get 1 to 4, 17 or 19 from labelling, since the intake has refused such sizes, directions and weights
# before; nor 9 for a state that waits for the weight of a row outside its sheet, which no line leads to.
# No line of 80 bytes keeps the file's rules: five sizes with their blanks and commas have at most 72 bytes.
# So cell_80_bytes and cell_81_bytes both get 8.

import pathlib
import sys

sys.dont_write_bytecode = True
import atlas_checks
import basin_checks
import long_label_checks
import plan_checks
import split_checks
from labels import of_units, record, records, slice_of
from reference import (Intake, first_bad, flow, flow_pairs, index, index_intake, label, label_intake, levy,
                       levy_intake, lookup, outlet_flow, report, take_end, take_line, text_of)

CASES = pathlib.Path(__file__).resolve().parent / 'cases'
INDEX_EXAMPLE = CASES.parent.parent / 'examples' / 'index.out'
LEVY_EXAMPLE = CASES.parent.parent / 'examples' / 'levy.out'

ONES = [1] * 256
SAMPLE_A = bytes([0, 4, 16, 8, 16, 16, 16, 16, 64, 64, 32, 64])

# The calls of the lists below that take least and split are told 1 and 4; split_checks.py has those with others. Labels
# stand as labels.py says, and lengths of label slices are numbers of labels; long_label_checks.py has labels of more
# than 18 digits, and slices that end with an odd number. Basins are 1, and there are as many places for them as for
# labels; basin_checks.py has those with others.
NEITHER = [1, 4]

# (name, depth, p, q, answer): does water from q pass p? The outlet question, whether it passes the outlet of p's unit,
# has the same answer, but Yes where this one is Undecided.
FLOW = [
    ('depth 3, from 92 past 91', 3, 91, 92, 'Yes'),
    ('digits before the parting may be even', 3, 21, 22, 'Yes'),
    ('depth 3, from 14 past 131', 3, 131, 14, 'Undecided'),
    ('depth 2, from 92 past 91', 2, 91, 92, 'Undecided'),
    ('depth 1, from 3 past 1', 1, 1, 3, 'Undecided'),
    ('digits of q may be even from the parting on', 4, 1313, 1428, 'Undecided'),
    ('digits before the parting may be even, at the depth', 2, 21, 22, 'Undecided'),
    ('all digits before the parting are even', 4, 2485, 2486, 'Undecided'),
    ('depth 18, the first digits part', 18, 111111111111111111, 2, 'Undecided'),
    ('depth 18, the last digits part', 18, 888888888888888887, 888888888888888889, 'Undecided'),
    ('depth 3, from 91 past 92', 3, 92, 91, 'No'),
    ('No before Undecided', 2, 92, 91, 'No'),
    ('from 91 past 93: an odd digit that is larger', 2, 93, 91, 'No'),
    ('from 93 past 92: a smaller digit that is even', 2, 92, 93, 'No'),
    ('depth 3, from 3 past 21', 3, 21, 3, 'No'),
    ('a later digit of p is even', 3, 12, 3, 'No'),
    ('a later digit of p is even, at the depth', 2, 12, 3, 'No'),
    ('an even digit of p between odd ones', 3, 121, 3, 'No'),
    ('larger where they part, smaller later', 3, 311, 199, 'No'),
    ('depth 18, the last digit of p is even', 18, 111111111111111112, 2, 'No'),
    ('equal labels: Same before 12', 3, 91, 91, 'Same'),
    ('equal labels of as many digits as the depth', 2, 91, 91, 'Same'),
    ('equal labels of even digits', 3, 24, 24, 'Same'),
    ('0 twice: Same before 12', 3, 0, 0, 'Same'),
    ('depth 18, equal labels', 18, 10**18 - 1, 10**18 - 1, 'Same'),
    ('labels 9 and 91', 3, 9, 91, ('Refused', 12)),
    ('labels 91 and 9', 3, 91, 9, ('Refused', 12)),
    ('labels 1 and 12: 12 before Yes and No', 2, 1, 12, ('Refused', 12)),
    ('0 begins all', 3, 0, 5, ('Refused', 12)),
    ('all begin with 0', 3, 5, 0, ('Refused', 12)),
    ('label 105 as p', 3, 105, 3, ('Refused', 11)),
    ('label 105 as q', 3, 3, 105, ('Refused', 11)),
    ('label 105 twice: 11 before Same', 3, 105, 105, ('Refused', 11)),
    ('labels 1 and 105: 11 before 12', 3, 1, 105, ('Refused', 11)),
    ('labels 0 and 105: 11 before 12', 3, 0, 105, ('Refused', 11)),
    ('four digits at depth 3, as p', 3, 1111, 2, ('Refused', 11)),
    ('four digits at depth 3, as q', 3, 1, 2222, ('Refused', 11)),
    ('four digits at depth 3, twice: 11 before Same', 3, 1111, 1111, ('Refused', 11)),
    ('four digits at depth 3: 11 before 12', 3, 111, 1111, ('Refused', 11)),
    ('depth 18, 19 digits as p', 18, 1111111111111111111, 2, ('Refused', 11)),
    ('depth 18, 19 digits as q', 18, 1, 2222222222222222222, ('Refused', 11)),
    ('depth 18, 19 digits in the first number, as p', 18, (1111111111111111111, 0), 2, ('Refused', 11)),
    ('depth 18, 19 digits in the first number, as q', 18, 1, (2222222222222222222, 0), ('Refused', 11)),
    ('depth 0', 0, 1, 3, ('Refused', 2)),
    ('depth 0: 2 before 11', 0, 105, 3, ('Refused', 2)),
    ('depth 0: 2 before Same', 0, 1, 1, ('Refused', 2)),
    ('depth 0, 0 twice: 2 before Same', 0, 0, 0, ('Refused', 2)),
    ('depth 0: 2 before 12', 0, 0, 5, ('Refused', 2)),
    ('depth 19', 19, 1, 3, 'Yes'),
    ('depth 19: 11', 19, 105, 105, ('Refused', 11)),
    ('depth 19: Same', 19, 91, 91, 'Same'),
    ('depth 19: 12', 19, 9, 91, ('Refused', 12)),
    ('depth 19, 19 digits', 19, 1111111111111111111, 2, 'Undecided'),
    ('depth 36', 36, 1, 3, 'Yes'),
    ('depth 37', 37, 1, 3, ('Refused', 2)),
    ('depth 37: 2 before 11', 37, 105, 105, ('Refused', 2)),
    ('depth 37: 2 before Same', 37, 91, 91, ('Refused', 2)),
    ('depth 37: 2 before 12', 37, 9, 91, ('Refused', 2)),
    ('depth 37, 19 digits', 37, 1111111111111111111, 2, ('Refused', 2)),
]

# (name, depth, P's labels, Q's labels, places for answers; number, answers): the flow question about many pairs
PAIRS = [
    ('several gauges, one spill', 3, [91, 93, 92, 21, 131, 9, 105], [92] * 7, 7, 0, [1, 0, 2, 0, 3, 140, 139]),
    ('one gauge, several spills', 3, [91] * 7, [92, 93, 91, 21, 131, 9, 105], 7, 0, [1, 1, 2, 0, 0, 140, 139]),
    ('the same labels at depth 2', 2, [91, 93, 92, 21, 131, 9, 105], [92] * 7, 7, 0, [3, 0, 2, 0, 139, 140, 139]),
    ('a refused pair stops no other', 2, [10, 91, 9, 1], [1, 92, 91, 10], 4, 0, [139, 3, 140, 139]),
    ('refused pairs alone', 1, [0, 11], [5, 11], 2, 0, [140, 139]),
    ('one pair, places past it', 1, [1], [3], 9, 0, [3]),
    ('more of P, no labels', 2, [1, 10, 105], [21], 1, 0, [1]),
    ('more of Q, no labels', 2, [21], [1, (2 ** 64 - 1, 2 ** 64 - 1)], 1, 0, [0]),
    ('no labels of P', 18, [], [1, 2], 0, 0, []),
    ('no labels of Q', 18, [1, 2], [], 5, 0, []),
    ('nothing lent', 18, [], [], 0, 0, []),
    ('the largest number twice', 18, [(2 ** 64 - 1, 0), 10 ** 18 - 1], [(2 ** 64 - 1, 0), 10 ** 18 - 1], 2, 0,
     [139, 2]),
    ('no place', 3, [91], [92], 0, 3, None),
    ('one place too few', 3, [91, 91, 91], [92, 92, 92], 2, 3, None),
    ('one place too few, more of P', 3, [91, 91, 91], [92, 92], 1, 3, None),
    ('one place too few, all pairs refused', 3, [10, 10], [10, 10], 1, 3, None),
    ('depth 0', 0, [91], [92], 1, 2, None),
    ('depth 19', 19, [91], [92], 1, 0, [1]),
    ('depth 36', 36, [91], [92], 1, 0, [1]),
    ('depth 37', 37, [91], [92], 1, 2, None),
    ('depth 37 and nothing lent', 37, [], [], 0, 2, None),
    ('2 before 3', 37, [91, 91], [92, 92], 1, 2, None),
]

# (name, rows, cols, depth, directions, weights, areas, labels, work places; number, place)
SHEETS = [
    ('256 rows', 256, 1, 1, bytes([4] * 256), ONES, 256, 256, 2048, 0, 0),
    ('257 rows', 257, 1, 1, bytes([4] * 257), ONES, 257, 257, 2056, 1, 0),
    ('256 columns', 1, 256, 1, bytes([1] * 256), ONES, 256, 256, 2048, 0, 0),
    ('257 columns', 1, 257, 1, bytes([1] * 257), ONES, 257, 257, 2056, 1, 0),
    ('0 rows', 0, 1, 1, bytes([4]), ONES, 1, 1, 8, 1, 0),
    ('0 columns', 1, 0, 1, bytes([4]), ONES, 1, 1, 8, 1, 0),
    ('depth 18', 1, 1, 18, bytes([1]), ONES, 1, 1, 8, 0, 0),
    ('depth 19', 1, 1, 19, bytes([1]), ONES, 1, 1, 8, 0, 0),
    ('depth 36', 1, 1, 36, bytes([1]), ONES, 1, 1, 8, 0, 0),
    ('depth 37', 1, 1, 37, bytes([1]), ONES, 1, 1, 8, 2, 0),
    ('depth 255', 1, 1, 255, bytes([1]), ONES, 1, 1, 8, 2, 0),
    ('the largest number as depth', 1, 1, 2 ** 64 - 1, bytes([1]), ONES, 1, 1, 8, 2, 0),
    ('depth 0', 1, 1, 0, bytes([1]), ONES, 1, 1, 8, 2, 0),
    ('257 rows and depth 37', 257, 1, 37, b'', ONES, 0, 0, 0, 1, 0),
    ('depth 37 and nothing lent', 1, 1, 37, b'', ONES, 0, 0, 0, 2, 0),
    ('depth 36 and nothing lent', 1, 1, 36, b'', ONES, 0, 0, 0, 3, 0),
    ('one direction too few', 3, 4, 2, SAMPLE_A[:11], ONES, 12, 12, 96, 3, 0),
    ('one area too few', 3, 4, 2, SAMPLE_A, ONES, 11, 12, 96, 3, 0),
    ('one label too few', 3, 4, 2, SAMPLE_A, ONES, 12, 11, 96, 3, 0),
    ('one work place too few', 3, 4, 2, SAMPLE_A, ONES, 12, 12, 95, 3, 0),
    ('3 before 4', 1, 2, 1, bytes([3, 1]), ONES, 2, 2, 15, 3, 0),
    ('direction 3 before direction 5', 1, 3, 1, bytes([1, 3, 5]), ONES, 3, 3, 24, 4, 1),
    ('4 before 5', 1, 2, 1, bytes([0, 3]), ONES, 2, 2, 16, 4, 1),
    ('bad direction past the sheet', 1, 1, 1, bytes([1, 3]), ONES, 1, 1, 8, 0, 0),
    ('bad direction in the ninth of nine cells', 1, 9, 1, bytes([16] * 8 + [3]), ONES, 9, 9, 72, 4, 8),
    ('bad directions from the sixteenth cell on', 1, 17, 1, bytes([0] * 15 + [5, 3]), ONES, 17, 17, 136, 4, 15),
    ('bad directions past the ninth of nine cells', 1, 9, 1, bytes([16] * 9 + [3] * 7), ONES, 9, 9, 72, 0, 0),
    ('no cell inside', 1, 2, 1, bytes([0, 0, 1]), ONES, 2, 2, 16, 5, 0),
    ('codes 1 and 16', 1, 2, 1, bytes([1, 16]), ONES, 2, 2, 16, 6, 0),
    ('codes 16 and 1', 1, 2, 1, bytes([16, 1]), ONES, 2, 2, 16, 0, 0),
    ('a circle between two basins', 1, 5, 1, bytes([16, 1, 16, 0, 1]), ONES, 5, 5, 40, 6, 1),
    ('no weights lent', 3, 4, 2, SAMPLE_A, [], 12, 12, 96, 3, 0),
    ('one weight too few', 3, 4, 2, SAMPLE_A, [1, 1], 12, 12, 96, 3, 0),
    ('one weight a row', 3, 4, 2, SAMPLE_A, [1, 1, 1], 12, 12, 96, 0, 0),
    ('bad weights past the rows', 3, 4, 2, SAMPLE_A, [1, 1000, 1, 0, 65535], 12, 12, 96, 0, 0),
    ('weight 0 in the first row', 3, 4, 2, SAMPLE_A, [0, 1, 1], 12, 12, 96, 17, 0),
    ('weight 1001 in a middle row', 3, 4, 2, SAMPLE_A, [1, 1001, 1], 12, 12, 96, 17, 0),
    ('weight 65535 in the last row', 3, 4, 2, SAMPLE_A, [1, 1, 65535], 12, 12, 96, 17, 0),
    ('weight 0 in a row without an inside cell', 2, 1, 1, bytes([1, 0]), [1, 0], 2, 2, 16, 17, 0),
    ('1 before 17', 257, 1, 1, bytes([4] * 257), [0] * 257, 257, 257, 2056, 1, 0),
    ('2 before 17', 1, 1, 37, bytes([1]), [0], 1, 1, 8, 2, 0),
    ('3 before 17', 1, 1, 1, bytes([1]), [0], 1, 1, 7, 3, 0),
    ('17 before 4', 1, 2, 1, bytes([3, 1]), [0], 2, 2, 16, 17, 0),
    ('17 before 5', 1, 2, 1, bytes([0, 0]), [1001], 2, 2, 16, 17, 0),
    ('17 before 6', 1, 2, 1, bytes([1, 16]), [0], 2, 2, 16, 17, 0),
    ('17 with two basins', 1, 2, 1, bytes([16, 1]), [1001], 2, 2, 16, 17, 0),
]

# (name, word of eight directions; place of its first bad byte, or 8)
WORDS = [
    ('all 0', 0, 8),
    ('the eight other codes', 0x8040201008040201, 8),
    ('128 eight times', 0x8080808080808080, 8),
    ('1 above 0', 0x0100010001000100, 8),
    ('3 above 0', 0x0300, 1),
    ('3 above 128', 0x0380, 1),
    ('3 below 1', 0x0103, 0),
    ('the highest byte alone', 0xFF00000000000000, 7),
    ('the highest byte, 129 above codes', 0x8140201008040201, 7),
    ('two bad bytes', 0x0000C00000050000, 2),
    ('all bad', 0xFFFFFFFFFFFFFFFF, 0),
]

# The units of sample A: label, outlet cell, count of cells.
SAMPLE_A_UNITS = [(1, 4, 1), (2, 8, 1), (3, 5, 1), (4, 9, 1), (6, 10, 1), (8, 1, 2), (91, 6, 1), (92, 3, 1), (93, 7, 2)]
SAMPLE_A_UNITS_CUT = [(1, 4, 1), (2, 8, 1), (3, 5, 1), (4, 9, 1), (6, 10, 1), (8, 1, 2), (9, 6, 4)]

# (name, rows, cols, depth, directions, weights, areas, labels, work places, labels, outlets and counts of units;
# number, place, units)
INDEXES = [
    ('sample A', 3, 4, 2, SAMPLE_A, ONES, 12, 12, 96, 9, 9, 9, 0, 0, SAMPLE_A_UNITS),
    ('sample A at depth 1', 3, 4, 1, SAMPLE_A, ONES, 12, 12, 96, 9, 7, 8, 0, 0, SAMPLE_A_UNITS_CUT),
    ('1 by 1, code 1', 1, 1, 1, bytes([1]), ONES, 1, 1, 8, 1, 1, 1, 0, 0, [(0, 0, 1)]),
    ('an outside cell is no unit', 1, 2, 1, bytes([0, 1]), ONES, 2, 2, 16, 1, 1, 1, 0, 0, [(0, 1, 1)]),
    ('one unit too few', 3, 4, 2, SAMPLE_A, ONES, 12, 12, 96, 8, 9, 9, 3, 0, None),
    ('one outlet too few', 3, 4, 2, SAMPLE_A, ONES, 12, 12, 96, 9, 8, 9, 3, 0, None),
    ('one count too few', 3, 4, 2, SAMPLE_A, ONES, 12, 12, 96, 9, 9, 8, 3, 0, None),
    ('6 before 3 of the index', 1, 2, 1, bytes([1, 16]), ONES, 2, 2, 16, 0, 0, 0, 6, 0, None),
    ('counts of cells, whatever their weights', 1, 2, 1, bytes([16, 16]), [9], 2, 2, 16, 1, 1, 1, 0, 0, [(0, 0, 2)]),
    ('17 before 3 of the index', 1, 1, 1, bytes([1]), [1001], 1, 1, 8, 0, 0, 0, 17, 0, None),
]

# Three cells of row 0 and two of row 2 come together at the cell in row 1, column 0. At depth 1 the label of that cell
# is 1; those of the streams are 2 and 3, the heavier the larger.
NORTH_AND_SOUTH = bytes([0, 8, 16, 16, 16, 0, 0, 0, 0, 32, 16, 0])

MOST = 100000000000  # cents of a levy

# (name, rows, cols, depth, directions, weights, areas, labels, work places, labels, outlets and counts of units, total,
# dues of units; number, place, dues)
LEVIES = [
    ('sample A', 3, 4, 2, SAMPLE_A, ONES, 12, 12, 96, 9, 9, 9, 100, 9, 0, 0, [9, 9, 9, 9, 9, 18, 9, 9, 19]),
    ('sample A at depth 1', 3, 4, 1, SAMPLE_A, ONES, 12, 12, 96, 7, 7, 7, 100, 7, 0, 0, [9, 9, 9, 9, 9, 18, 37]),
    ('the total 0', 3, 4, 2, SAMPLE_A, ONES, 12, 12, 96, 9, 9, 9, 0, 9, 0, 0, [0] * 9),
    ('one cent', 3, 4, 2, SAMPLE_A, ONES, 12, 12, 96, 9, 9, 9, 1, 9, 0, 0, [0] * 8 + [1]),
    ('a cent for each cell', 3, 4, 2, SAMPLE_A, ONES, 12, 12, 96, 9, 9, 9, 11, 9, 0, 0, [1, 1, 1, 1, 1, 2, 1, 1, 2]),
    ('the largest total', 3, 4, 1, SAMPLE_A, ONES, 12, 12, 96, 7, 7, 7, MOST, 7, 0, 0,
     [9090909090, 9090909091, 9090909091, 9090909091, 9090909091, 18181818182, 36363636364]),
    ('by weights', 3, 4, 1, NORTH_AND_SOUTH, [2, 5, 3], 12, 12, 96, 3, 3, 3, 17, 3, 0, 0, [5, 6, 6]),
    ('equal weights', 3, 4, 1, NORTH_AND_SOUTH, [2, 5, 3], 12, 12, 96, 3, 3, 3, 100, 3, 0, 0, [29, 35, 36]),
    ('a row without an inside cell', 2, 2, 1, bytes([0, 0, 16, 16]), [9, 3], 4, 4, 32, 1, 1, 1, 7, 1, 0, 0, [7]),
    ('1 by 1, code 1', 1, 1, 1, bytes([1]), [1000], 1, 1, 8, 1, 1, 1, MOST, 1, 0, 0, [MOST]),
    ('one cent too much', 1, 1, 1, bytes([1]), ONES, 1, 1, 8, 1, 1, 1, MOST + 1, 1, 18, 0, None),
    ('the largest number', 1, 1, 1, bytes([1]), ONES, 1, 1, 8, 1, 1, 1, 2 ** 64 - 1, 1, 18, 0, None),
    ('18 before 1', 257, 1, 1, bytes([4] * 257), ONES, 257, 257, 2056, 1, 1, 1, MOST + 1, 1, 18, 0, None),
    ('18 before 2', 1, 1, 37, bytes([1]), ONES, 1, 1, 8, 1, 1, 1, MOST + 1, 1, 18, 0, None),
    ('18 before 3', 1, 1, 1, b'', [], 0, 0, 0, 0, 0, 0, MOST + 1, 0, 18, 0, None),
    ('18 before 17', 1, 1, 1, bytes([1]), [0], 1, 1, 8, 1, 1, 1, MOST + 1, 1, 18, 0, None),
    ('18 before 6', 1, 2, 1, bytes([1, 16]), ONES, 2, 2, 16, 1, 1, 1, MOST + 1, 1, 18, 0, None),
    ('18 before 3 of the dues', 1, 1, 1, bytes([1]), ONES, 1, 1, 8, 1, 1, 1, MOST + 1, 0, 18, 0, None),
    ('one unit too few', 3, 4, 2, SAMPLE_A, ONES, 12, 12, 96, 8, 9, 9, 100, 9, 3, 0, None),
    ('one outlet too few', 3, 4, 2, SAMPLE_A, ONES, 12, 12, 96, 9, 8, 9, 100, 9, 3, 0, None),
    ('one count too few', 3, 4, 2, SAMPLE_A, ONES, 12, 12, 96, 9, 9, 8, 100, 9, 3, 0, None),
    ('one due too few', 3, 4, 2, SAMPLE_A, ONES, 12, 12, 96, 9, 9, 9, 100, 8, 3, 0, None),
    ('17 before 3 of the dues', 1, 1, 1, bytes([1]), [1001], 1, 1, 8, 1, 1, 1, 100, 0, 17, 0, None),
    ('6 before 3 of the dues', 1, 2, 1, bytes([1, 16]), ONES, 2, 2, 16, 1, 1, 1, 100, 0, 6, 0, None),
]

LABELS = [label for label, outlet, count in SAMPLE_A_UNITS]

# (name, leading digits, labels; number, start, length)
LOOKUPS = [
    ('three labels', 9, LABELS, 0, 6, 3),
    ('no leading digits', 0, LABELS, 0, 0, 9),
    ('a whole label', 92, LABELS, 0, 7, 1),
    ('between 4 and 6', 5, LABELS, 0, 4, 0),
    ('past a label that they begin with', 921, LABELS, 0, 8, 0),
    ('after all', 94, LABELS, 0, 9, 0),
    ('before all', 1, [2, 3], 0, 0, 0),
    ('nothing lent', 5, [], 0, 0, 0),
    ('none, and nothing lent', 0, [], 0, 0, 0),
    ('a label before those it begins', 1, [1, 11, 111, 2], 0, 0, 3),
    ('the label 0 before all', 0, [0, 1], 0, 0, 2),
    ('dictionary order, not that of numbers', 2, [11, 2], 0, 1, 1),
    ('order of numbers', 2, [2, 11], 16, 0, 0),
    ('a label after one it begins', 1, [11, 1], 16, 0, 0),
    ('the label 0 at the end', 1, [1, 0], 16, 0, 0),
    ('equal neighbours', 3, [1, 1], 16, 0, 0),
    ('a leading 0 digit', 10, LABELS, 11, 0, 0),
    ('an entry with a 0 digit', 1, [1, 105], 11, 0, 0),
    ('18 digits', 10 ** 18 - 1, [10 ** 18 - 1], 0, 0, 1),
    ('19 leading digits in the first number', (1111111111111111111, 0), [], 11, 0, 0),
    ('an entry of 19 digits in the first number', 0, [(1111111111111111111, 0)], 11, 0, 0),
    ('11 at the end before 16 at the start', 1, [2, 1, 20], 11, 0, 0),
    ('leading digits by 11 before 16', 20, [2, 1], 11, 0, 0),
]


def file_checks():
    for given in sorted(CASES.glob('*.in')):
        expected, printed = given.with_suffix('.out'), report(given.read_bytes())
        yield given.stem, printed, expected.read_bytes() if expected.exists() else None
        if expected.exists():
            yield from atlas_checks.of_case(given, printed)
    for expected in sorted([*CASES.glob('*.out'), *CASES.glob('*.atlas')]):
        if not expected.with_suffix('.in').exists():
            yield expected.name, None, expected.read_bytes()


def told(arguments):
    """The arguments of a call as it takes them: with least and split straight after the depth, two numbers for each
    label in the lengths, as many basins as labels, and the basin 1 before a total."""
    rows, cols, depth, dirs, weights, areas, labels, work, *others = arguments
    told_sheet = [rows, cols, depth, *NEITHER, dirs, weights, areas, 2 * labels, labels, work]
    if not others:
        return told_sheet
    units, outlets, counts, *levied = others
    return told_sheet + [2 * units, outlets, counts, units, *([1, *levied] if levied else [])]


def flow_checks():
    for name, depth, p, q, answer in FLOW:
        yield 'flow: ' + name, flow(depth, 1, 1, record(p), 1, record(q)), answer
        outlet_answer = 'Yes' if answer == 'Undecided' else answer
        yield 'outlet flow: ' + name, outlet_flow(depth, 1, record(p), 1, record(q)), outlet_answer


def pair_checks():
    for name, depth, p, q, room, number, answers in PAIRS:
        got = flow_pairs(depth, 1, slice_of(p), [1] * len(p), slice_of(q), [1] * len(q), room)
        yield 'pairs: ' + name, got, (number, answers)


def sheet_checks():
    for name, *arguments, number, place in SHEETS:
        yield 'label: ' + name, label(*told(arguments))[:2], (number, place)


def index_checks():
    for name, *arguments, number, place, units in INDEXES:
        got = index(*told(arguments))
        yield 'index: ' + name, (*got[:2], got[5]), (number, place, None if units is None else of_units(units))
        labelled = label(*told(arguments[:-3]))
        yield 'index, areas, labels and basins: ' + name, got[2:5], labelled[2:]
    lines = ['1,%d,%d,%d,%d' % (label, outlet // 4, outlet % 4, count) for label, outlet, count in SAMPLE_A_UNITS]
    yield 'index: the example in C', INDEX_EXAMPLE.read_text().splitlines()[1:-1], lines


def levy_checks():
    for name, *arguments, number, place, dues in LEVIES:
        got, total = levy(*told(arguments)), arguments[-2]
        yield 'levy: ' + name, (*got[:2], got[6]), (number, place, dues)
        if number != 18:
            yield 'levy, areas, labels and basins: ' + name, got[2:5], label(*told(arguments[:-5]))[2:]
        if number == 0:
            yield 'levy, units: ' + name, got[5], index(*told(arguments[:-2]))[5]
            yield 'levy, the sum: ' + name, sum(dues), total
    sheet = [3, 4, 3, *NEITHER, SAMPLE_A, [3, 2, 1], 12, 24, 12, 96]
    units, dues = levy(*sheet, 24, 12, 12, 12, 1, 1000, 12)[5:]
    lines = ['%s,%d,%d' % (text_of(label), count, due) for (label, outlet, count, basin), due in zip(units, dues)]
    yield 'levy: the example in C', LEVY_EXAMPLE.read_text().splitlines()[1:-1], lines
    yield 'levy: 18 writes nothing', levy(*sheet, 18, 9, 9, 9, 1, MOST + 1, 9)[2:], (None,) * 5


def lookup_checks():
    for name, leading, labels, *answer in LOOKUPS:
        got = lookup(1, record(leading), slice_of(labels), [1] * len(labels))
        yield 'lookup: ' + name, got, tuple(answer)


def word_checks():
    for name, word, place in WORDS:
        yield 'word: ' + name, first_bad(word), place


def sample_checks():
    areas = [0, 2, 1, 1, 11, 9, 4, 2, 1, 1, 1, 1]
    # The tributaries of cell 5 stand as 9, 10, 1: they get 4, 6, 8.
    labels, basins = records([0, 8, 8, 92, 1, 3, 91, 93, 2, 4, 6, 93]), [0] + [1] * 11
    for depth in (2, 18, 19, 36):
        got = label(3, 4, depth, *NEITHER, SAMPLE_A, ONES, 12, 24, 12, 96)
        yield 'label: sample A at depth %d' % depth, got, (0, 0, areas, labels, basins)
    cut = records([0, 8, 8, 9, 1, 3, 9, 9, 2, 4, 6, 9])
    got = label(3, 4, 1, *NEITHER, SAMPLE_A, ONES, 12, 24, 12, 96)
    yield 'label: sample A at depth 1', got, (0, 0, areas, cut, basins)
    got = label(1, 1, 1, *NEITHER, bytes([1]), ONES, 1, 2, 1, 8)
    yield 'label: 1 by 1, code 1', got, (0, 0, [1], [(0, 0)], [1])


def weight_checks():
    def labelled(weights):
        return label(3, 4, 1, *NEITHER, NORTH_AND_SOUTH, weights, 12, 24, 12, 96)[2:4]

    north = records([0, 3, 3, 3, 1, 0, 0, 0, 0, 2, 2, 0])  # the river comes from the north
    south = records([0, 2, 2, 2, 1, 0, 0, 0, 0, 3, 3, 0])
    yield 'weights: counts', labelled([1, 1, 1]), ([0, 3, 2, 1, 6, 0, 0, 0, 0, 2, 1, 0], north)
    yield 'weights: fewer cells', labelled([1, 9, 2]), ([0, 3, 2, 1, 16, 0, 0, 0, 0, 4, 2, 0], south)
    yield 'weights: equal areas', labelled([2, 5, 3]), ([0, 6, 4, 2, 17, 0, 0, 0, 0, 6, 3, 0], south)
    yield 'weights: one more', labelled([201, 5, 300]), ([0, 603, 402, 201, 1208, 0, 0, 0, 0, 600, 300, 0], north)
    comb = bytes([16] * 256 + [64] * 65280)
    areas = label(256, 256, 1, *NEITHER, comb, [1000] * 256, 65536, 2 * 65536, 65536, 8 * 65536)[2]
    yield 'weights: the largest area', areas[0], 65536000
    stored = [(CASES / (name + '.out')).read_bytes() for name in ('sample_a', 'weights_all_1')]
    yield 'weights: all 1, the listing of none', *stored


def intake_checks():
    cells = Intake('cells', 1, 1, 1, (b'row', b'col', b'dir'))
    ended = cells._replace(stage='ended')
    dirs, weights = bytearray([1, 7]), [8, 9]
    yield 'intake: a line after the end', take_line(ended, b'', dirs, weights), (13, ended)
    yield 'intake: an end after the end', take_end(ended), (13, ended)
    yield 'intake: an end before cell names', take_end(Intake()), (14, Intake())
    yield 'intake: labelling before the end', label_intake(cells, dirs, weights, *4 * [0]), (15, 0, *3 * [None])
    yield 'intake: an index before the end', index_intake(cells, dirs, weights, *8 * [0]), (15, 0, *4 * [None])
    yield ('intake: an index after the end', index_intake(ended, bytes([1, 7]), [5], 1, 2, 1, 8, 2, 1, 1, 1),
           (0, 0, [5], [(0, 0)], [1], [((0, 0), 0, 1, 1)]))
    yield ('intake: a levy before the end', levy_intake(cells, dirs, weights, *8 * [0], 1, MOST, 0),
           (15, 0, *5 * [None]))
    yield ('intake: a larger total before the end', levy_intake(cells, dirs, weights, *8 * [0], 1, MOST + 1, 0),
           (18, 0, *5 * [None]))
    yield ('intake: a levy after the end', levy_intake(ended, bytes([1, 7]), [5], 1, 2, 1, 8, 2, 1, 1, 1, 1, 7, 1),
           (0, 0, [5], [(0, 0)], [1], [((0, 0), 0, 1, 1)], [7]))
    yield ('intake: a levy of basin 2', levy_intake(ended, bytes([1, 7]), [5], 1, 2, 1, 8, 2, 1, 1, 1, 2, 7, 0),
           (0, 0, [5], [(0, 0)], [1], [((0, 0), 0, 1, 1)], []))
    yield 'intake: labelling with no weights lent', label_intake(ended, bytes([1]), [], 1, 2, 1, 8)[0], 3
    yield 'intake: labelling with no basins lent', label_intake(ended, bytes([1]), [1], 1, 2, 0, 8)[0], 3
    yield 'intake: labelling with a bad weight', label_intake(ended, bytes([1]), [0], 1, 2, 1, 8)[0], 17
    yield 'intake: byte 10 in a line', take_line(Intake(), b'rows,cols,depth\n', dirs, weights), (8, Intake())
    yield 'intake: nothing lent, 3 before 8', take_line(cells, b'', bytearray(), weights), (3, cells)
    yield 'intake: no weights lent, 3 before 8', take_line(cells, b'', dirs, []), (3, cells)
    yield 'intake: refused lines write nothing', (bytes(dirs), list(weights)), (bytes([1, 7]), [8, 9])
    sizes = Intake('sizes', names=(b'rows', b'cols', b'depth'))
    state = cells._replace(stage='weight or cell names', names=sizes.names)
    yield 'intake: sizes, no weights lent', take_line(sizes, b'1,1,1', dirs, []), (3, sizes)
    yield 'intake: sizes', take_line(sizes, b'1,1,1', dirs, weights), (0, state)
    yield 'intake: sizes set their bytes to 0, weights to 1', (bytes(dirs), list(weights)), (bytes([0, 7]), [1, 9])


def intake_weight_checks():
    dirs, weights = bytearray([4, 5]), [8, 9, 0]
    first = Intake('weights', 2, 1, 1, (b'weight',), 0)
    second, names = first._replace(row=1), first._replace(stage='cell names')
    yield 'intake: a weight of 0', take_line(first, b'0', dirs, weights), (17, first)
    yield 'intake: refused weights write nothing', list(weights), [8, 9, 0]
    yield 'intake: a weight', take_line(first, b'1000', dirs, weights), (0, second)
    yield 'intake: it sets its own row', list(weights), [1000, 9, 0]
    yield 'intake: the last weight', take_line(second, b'3', dirs, weights), (0, names)
    yield 'intake: it sets its own row, and no byte', (list(weights), bytes(dirs)), ([1000, 3, 0], bytes([4, 5]))
    yield 'intake: weight again', take_line(names, b'weight', dirs, weights), (8, names)
    for state in (first, second, names, first._replace(stage='weight or cell names')):
        yield 'intake: an end in the stage ' + state.stage, take_end(state), (14, state)
    for row in (2, 3, 2 ** 64 - 1):
        outside = first._replace(row=row)
        for line in (b'', b'1', b'0', b'weight', b'row,col,dir', b'1\n', b'1' * 81):
            yield 'intake: waits for row %d' % row, take_line(outside, line, dirs, weights), (9, outside)
        yield 'intake: 1 before 9', take_line(outside._replace(rows=0), b'1', dirs, weights)[0], 1
        yield 'intake: 2 before 9', take_line(outside._replace(depth=37), b'1', dirs, weights)[0], 2
        yield 'intake: depth 36, and 9', take_line(outside._replace(depth=36), b'1', dirs, weights)[0], 9
        yield 'intake: 3 before 9, directions', take_line(outside, b'1', dirs[:1], weights)[0], 3
        yield 'intake: 3 before 9, weights', take_line(outside, b'1', dirs, weights[:1])[0], 3
        yield 'intake: an end, waiting for row %d' % row, take_end(outside), (14, outside)


def intake_withdrawal_checks():
    cells = Intake('cells', 1, 3, 1, (b'row', b'col', b'dir'))
    dirs, weights = bytearray([16, 7, 0, 9]), [8]

    def taken(line):
        return *take_line(cells, line, dirs, weights), bytes(dirs)

    yield 'intake: a code for a cell that has one', taken(b'0,0,16'), (10, cells, bytes([16, 7, 0, 9]))
    yield 'intake: a withdrawal', taken(b'0,0,0'), (0, cells, bytes([0, 7, 0, 9]))
    yield 'intake: a second withdrawal', taken(b'0,0,0'), (0, cells, bytes([0, 7, 0, 9]))
    yield 'intake: listed again', taken(b'0,0,1'), (0, cells, bytes([1, 7, 0, 9]))
    yield 'intake: listed twice after a withdrawal', taken(b'0,0,1'), (10, cells, bytes([1, 7, 0, 9]))
    yield 'intake: a code where the byte is no code', taken(b'0,1,1'), (10, cells, bytes([1, 7, 0, 9]))
    yield 'intake: a withdrawal where the byte is no code', taken(b'0,1,0'), (0, cells, bytes([1, 0, 0, 9]))
    yield 'intake: dir 0 for a cell that is not listed', taken(b'0,2,0'), (0, cells, bytes([1, 0, 0, 9]))
    yield 'intake: 9 before a withdrawal', taken(b'0,3,0'), (9, cells, bytes([1, 0, 0, 9]))
    yield 'intake: 4 before 10', taken(b'0,0,3'), (4, cells, bytes([1, 0, 0, 9]))
    yield 'intake: cell lines write no weight', weights, [8]


def main():
    files = list(file_checks())
    checks = files + [('there are stored cases', len(files) > 0, True)]
    checks += [*flow_checks(), *pair_checks(), *sheet_checks(), *word_checks(), *sample_checks(), *weight_checks()]
    checks += [*index_checks(), *levy_checks(), *lookup_checks(), *intake_checks(), *intake_weight_checks()]
    checks += [*intake_withdrawal_checks(), *split_checks.checks(), *long_label_checks.checks()]
    checks += basin_checks.checks() + plan_checks.checks() + atlas_checks.checks()
    failures = [check for check in checks if check[1] != check[2]]
    for name, got, expected in failures:
        print(f'{name}: expected {expected!r:.200}, got {got!r:.200}')
    print(f'{len(checks) - len(failures)} passed, {len(failures)} failed')
    return 1 if failures else 0


if __name__ == '__main__':
    sys.exit(main())
