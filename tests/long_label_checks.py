"""Checks of labels of up to 36 digits by direct call, for tests/cases.py: records of two numbers, refusal 11, sheets,
both flow questions, the lookup, and label slices that end with an odd number. What is expected was worked out by
hand."""
from labels import of_units, record, records, slice_of
from reference import (digits_of, flow, flow_pairs, index, is_label, label, levy, lookup, outlet_flow, record_of,
                       text_of)

LARGEST = 2 ** 64 - 1
SAMPLE_A = bytes([0, 4, 16, 8, 16, 16, 16, 16, 64, 64, 32, 64])
SAMPLE_A_UNITS = of_units([(1, 4, 1), (2, 8, 1), (3, 5, 1), (4, 9, 1), (6, 10, 1), (8, 1, 2), (91, 6, 1), (92, 3, 1),
                           (93, 7, 2)])


def ones(count):
    """So many digits 1 as one number."""
    return int('1' * count)


# (digits, record, text)
RECORDS = [
    ('', (0, 0), '0'),
    ('7', (7, 0), '7'),
    ('1' * 17, (ones(17), 0), '1' * 17),
    ('9' * 18, (10 ** 18 - 1, 0), '9' * 18),
    ('1' * 18 + '2', (ones(18), 2), '1' * 18 + '2'),
    ('123456789987654321' + '12345678998765432', (123456789987654321, 12345678998765432),
     '12345678998765432112345678998765432'),
    ('9' * 36, (10 ** 18 - 1, 10 ** 18 - 1), '9' * 36),
]

# (name, depth, record, is it a label?)
LABELS = [
    ('no digits', 1, (0, 0), True),
    ('as many digits as the depth, 18', 18, (ones(18), 0), True),
    ('18 digits at depth 17', 17, (ones(18), 0), False),
    ('as many digits as the depth, 19', 19, (ones(18), 1), True),
    ('19 digits at depth 18', 18, (ones(18), 1), False),
    ('as many digits as the depth, 35', 35, (ones(18), ones(17)), True),
    ('36 digits at depth 35', 35, (ones(18), ones(18)), False),
    ('36 digits', 36, (ones(18), ones(18)), True),
    ('19 digits in the first number', 36, (ones(19), 0), False),
    ('20 digits in the first number', 36, (LARGEST, 0), False),
    ('19 digits in the second number', 36, (ones(18), ones(19)), False),
    ('20 digits in the second number', 36, (ones(18), LARGEST), False),
    ('a second number beside 17 digits', 36, (ones(17), 1), False),
    ('a second number beside 17 digits, 18 in all', 18, (ones(17), 1), False),
    ('a second number beside 1 digit', 36, (1, 1), False),
    ('a second number beside no digits', 36, (0, 1), False),
    ('18 digits in the second number alone', 36, (0, ones(18)), False),
    ('a digit 0 in the first number', 36, (10, 0), False),
    ('a digit 0 at the end of 18', 36, (ones(17) * 10, 0), False),
    ('a digit 0 in the first number before a second', 36, (ones(17) * 10, 1), False),
    ('a digit 0 in the second number', 36, (ones(18), 101), False),
    ('a digit 0 at the end of the second number', 36, (ones(18), 10), False),
    ('a digit 0 in the second number, 36 digits', 36, (ones(18), ones(17) * 10), False),
    ('10^18 in the first number', 36, (10 ** 18, 0), False),
    ('10^18 in the second number', 36, (ones(18), 10 ** 18), False),
]

# (name, depth, p, q, answer), as in tests/cases.py
FLOW = [
    ('the 19th digits part', 36, ones(18) * 10 + 1, ones(18) * 10 + 2, 'Yes'),
    ('the 19th digits part, q first', 36, ones(18) * 10 + 3, ones(18) * 10 + 2, 'No'),
    ('the 19th digits part, p even', 36, ones(18) * 10 + 2, ones(18) * 10 + 3, 'No'),
    ('the 19th digits part, at the depth', 19, ones(18) * 10 + 1, ones(18) * 10 + 2, 'Undecided'),
    ('the 18th digits part, a later one of p is even', 36, ones(18) * 10 + 2, ones(17) * 10 + 3, 'No'),
    ('the 18th digits part, a later one of p is odd', 36, ones(18) * 10 + 3, ones(17) * 10 + 3, 'Yes'),
    ('18 and 19 digits, the 18th part', 36, ones(18), ones(17) * 100 + 21, 'Yes'),
    ('the first digits part, the 36th of p is even', 36, ones(36) + 1, 2, 'No'),
    ('the first digits part, the 36th of p is odd', 36, ones(36), 2, 'Undecided'),
    ('the first digits part, 35 digits of p', 36, ones(35), 2, 'Yes'),
    ('the first digits part, 35 digits of p at depth 35', 35, ones(35), 2, 'Undecided'),
    ('the 36th digits part', 36, ones(36), ones(36) + 1, 'Undecided'),
    ('the 36th digits part, p even', 36, ones(36) + 1, ones(36) + 2, 'No'),
    ('even digits before the parting', 36, int('2' * 18 + '1'), int('2' * 18 + '2'), 'Yes'),
    ('equal labels of 36 digits', 36, ones(36), ones(36), 'Same'),
    ('equal labels of 19 digits at depth 19', 19, ones(19), ones(19), 'Same'),
    ('18 digits begin 19', 36, ones(18), ones(19), ('Refused', 12)),
    ('19 digits begin with 18', 36, ones(19), ones(18), ('Refused', 12)),
    ('19 digits begin 36', 36, ones(19), ones(36), ('Refused', 12)),
    ('17 digits begin 19', 36, ones(17), ones(19), ('Refused', 12)),
    ('no digits begin 36', 36, 0, ones(36), ('Refused', 12)),
    ('equal records that are no labels: 11 before Same', 36, (1, 1), (1, 1), ('Refused', 11)),
    ('equal second numbers of no labels', 36, (1, 5), (2, 5), ('Refused', 11)),
    ('19 digits at depth 18: 11 before 12', 18, ones(18), ones(19), ('Refused', 11)),
]

# (name, depth, P's slice, Q's slice, places for answers; number, answers). A number in brackets stands alone.
PAIRS = [
    ('pairs that part past 18 digits', 36, [ones(18) * 10 + 1, ones(18) * 10 + 3], [ones(18) * 10 + 2] * 2, 2, 0,
     [1, 0]),
    ('an odd number at the end of P', 36, [1, [2]], [3, 3], 1, 0, [1]),
    ('an odd number at the end of Q', 36, [1, 1], [3, [0]], 1, 0, [1]),
    ('an odd number at the end of both', 36, [1, [LARGEST]], [3, [LARGEST]], 1, 0, [1]),
    ('an odd number alone', 36, [[1]], [3], 0, 0, []),
    ('two records are two pairs', 36, [1, 1], [3, 3], 1, 3, None),
    ('a second number of no label', 36, [(1, 1), 1], [3, 3], 2, 0, [139, 1]),
]

# (name, leading digits, labels; number, start, length)
BORDER = [ones(17), ones(18), ones(19), ones(18) * 10 + 2, ones(17) * 10 + 2, ones(17) * 100 + 21, 2]
LOOKUPS = [
    ('17 leading digits', ones(17), BORDER, 0, 0, 6),
    ('18 leading digits', ones(18), BORDER, 0, 1, 3),
    ('19 leading digits', ones(19), BORDER, 0, 2, 1),
    ('19 leading digits that none has', ones(18) * 10 + 3, BORDER, 0, 4, 0),
    ('20 leading digits', ones(20), BORDER, 0, 3, 0),
    ('36 leading digits', ones(36), [ones(36), ones(36) + 1], 0, 0, 1),
    ('35 leading digits', ones(35), [ones(36), ones(36) + 1], 0, 0, 2),
    ('labels alike in the first number, in falling order', 1, [ones(18) * 10 + 2, ones(19)], 16, 0, 0),
    ('18 digits after 19 that they begin', 1, [ones(19), ones(18)], 16, 0, 0),
    ('equal labels of 36 digits', 1, [ones(36), ones(36)], 16, 0, 0),
    ('equal second numbers, rising first ones', 2, [ones(18) * 10 + 1, (ones(18) + 1) * 10 + 1], 0, 2, 0),
    ('falling second numbers, rising first ones', 1, [ones(18) * 10 + 9, (ones(18) + 1) * 10 + 1], 0, 0, 2),
    ('an odd number at the end', 1, [1, [1]], 0, 0, 1),
    ('an odd number alone', 1, [[10]], 0, 0, 0),
    ('an odd number at the end that is no label', 1, [1, 2, [LARGEST]], 0, 0, 1),
    ('a second number beside 1 digit, leading', (1, 1), [], 11, 0, 0),
    ('a second number beside 1 digit, an entry', 1, [1, (2, 1)], 11, 0, 0),
    ('11 for a second number before 16', 1, [2, 1, (ones(18), 10)], 11, 0, 0),
]


def record_checks():
    for digits, pair, text in RECORDS:
        name = 'record: %d digits' % len(digits)
        yield name, (record_of(digits), digits_of(pair), text_of(pair)), (pair, digits, text)
    for name, depth, pair, good in LABELS:
        yield 'record: ' + name, is_label(pair, depth), good
        answer = 'Same' if good else ('Refused', 11)
        yield 'record, flow: ' + name, flow(depth, 1, 1, pair, 1, pair), answer
        yield 'record, outlet flow: ' + name, outlet_flow(depth, 1, pair, 1, pair), answer
        if depth == 36:
            yield 'record, lookup: ' + name, lookup(1, pair, [], []), (0 if good else 11, 0, 0)
            yield 'record, an entry: ' + name, lookup(1, (0, 0), [*pair], [1]), (0, 0, 1) if good else (11, 0, 0)


def river_labels(mouths, depth, split):
    """The labels of a river along row 0 to the west with so many tributaries of one cell, each of which flows from row
    1 to its north; where two are left to choose from, the eastern one is heavier. So they come off from the east,
    `split` at a time, and the west keeps the digits 1."""
    river, row_1 = ['1' * min(depth, -(-mouths // split))] * (mouths + 1), ['1' * depth] * (mouths + 1)
    for mouth in range(mouths):
        taken_before, place = divmod(mouths - 1 - mouth, split)
        if taken_before < depth:
            taken = min(split, mouths - split * taken_before)
            digit = 2 * (taken - place)
            row_1[mouth] = '1' * taken_before + str(digit)
            river[mouth + 1] = '1' * taken_before + str(digit + 1)
    row_1[mouths] = river[mouths]  # the river begins there
    return [record_of(digits) for digits in river + row_1]


def river_checks():
    for split in (1, 2, 3, 4):
        for mouths in (17, 18, 19, 35, 36, 37, 40, 36 * split, 36 * split + 1):
            for depth in (1, 17, 18, 19, 35, 36):
                cols = mouths + 1
                dirs, n = bytes([16] * cols + [64] * cols), 2 * cols
                got = label(2, cols, depth, 1, split, dirs, [1, 1], n, 2 * n, n, 8 * n)[3]
                name = 'river: %d mouths, %d at a time, depth %d' % (mouths, split, depth)
                yield name, got, river_labels(mouths, depth, split)


def flow_checks():
    for name, depth, p, q, answer in FLOW:
        outlet_answer = 'Yes' if answer == 'Undecided' else answer
        yield 'long labels, flow: ' + name, flow(depth, 1, 1, record(p), 1, record(q)), answer
        yield 'long labels, outlet flow: ' + name, outlet_flow(depth, 1, record(p), 1, record(q)), outlet_answer
        if answer == 'Yes':
            yield 'long labels, least 2: ' + name, flow(depth, 2, 1, record(p), 1, record(q)), 'Undecided'
    for name, depth, p, q, room, number, answers in PAIRS:
        got = flow_pairs(depth, 1, slice_of(p), [1] * len(p), slice_of(q), [1] * len(q), room)
        yield 'long labels, pairs: ' + name, got, (number, answers)
    for name, leading, labels, *answer in LOOKUPS:
        got = lookup(1, record(leading), slice_of(labels), [1] * len(labels))
        yield 'long labels, lookup: ' + name, got, tuple(answer)


def length_checks():
    """Sample A has 12 cells and 9 units. 23 numbers are 11 places, 24 and 25 are 12; 17 are 8, 18 and 19 are 9."""
    sheet = [3, 4, 2, 1, 4, SAMPLE_A, [1, 1, 1], 12]
    labels = records([0, 8, 8, 92, 1, 3, 91, 93, 2, 4, 6, 93])
    for length, number in [(0, 3), (1, 3), (12, 3), (22, 3), (23, 3), (24, 0), (25, 0), (26, 0)]:
        got = label(*sheet, length, 12, 96)
        yield 'label: %d numbers for labels' % length, (got[0], got[3]), (number, None if number else labels)
    for length, number in [(0, 3), (9, 3), (16, 3), (17, 3), (18, 0), (19, 0), (24, 0)]:
        units = None if number else SAMPLE_A_UNITS
        got = index(*sheet, 24, 12, 96, length, 9, 9, 9)
        yield 'index: %d numbers for units' % length, (got[0], got[3], got[5]), (number, labels, units)
        got = levy(*sheet, 24, 12, 96, length, 9, 9, 9, 1, 11, 9)
        dues = None if number else [1, 1, 1, 1, 1, 2, 1, 1, 2]
        yield 'levy: %d numbers for units' % length, (got[0], got[3], *got[5:]), (number, labels, units, dues)


def checks():
    return [*record_checks(), *river_checks(), *flow_checks(), *length_checks()]
