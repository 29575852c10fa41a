"""Checks of survey plans by direct call, for tests/cases.py. What is expected was worked out by hand."""
from labels import slice_of
from reference import check_plan


def ones(count):
    """So many digits 1 as one number."""
    return int('1' * count)


# Sample A at depth 3. The water of 92 and 93 passes the outlet of 91, that of all these and of 4, 6 and 8 the outlet of
# 3, and all water that of 1.
SAMPLE_A = [1, 2, 3, 4, 6, 8, 91, 92, 93]
LONG = [ones(18) * 10 + digit for digit in (1, 2, 3)] + [ones(17) * 10 + 2]  # 19 digits, and 18

# (name, index, plan, work places; number, place)
PLANS = [
    ('falling order', SAMPLE_A, SAMPLE_A[::-1], 9, 0, 0),
    ('streams first', SAMPLE_A, [2, 4, 6, 8, 92, 93, 91, 3, 1], 9, 0, 0),
    ('2 late', SAMPLE_A, [93, 92, 91, 8, 6, 4, 3, 2, 1], 9, 0, 0),
    ('more work places', SAMPLE_A, SAMPLE_A[::-1], 99, 0, 0),
    ('rising order', SAMPLE_A, SAMPLE_A, 9, 21, 1),
    ('91 before 92', SAMPLE_A, [93, 91, 92, 8, 6, 4, 3, 2, 1], 9, 21, 2),
    ('91 before 93', SAMPLE_A, [92, 91, 93, 8, 6, 4, 3, 2, 1], 9, 21, 2),
    ('3 before 4', SAMPLE_A, [93, 92, 91, 8, 6, 3, 4, 2, 1], 9, 21, 6),
    ('3 before 8', SAMPLE_A, [93, 92, 91, 6, 4, 3, 8, 2, 1], 9, 21, 6),
    ('1 before 2', SAMPLE_A, [93, 92, 91, 8, 6, 4, 3, 1, 2], 9, 21, 8),
    ('1 first', SAMPLE_A, [1, 93, 92, 91, 8, 6, 4, 3, 2], 9, 21, 1),
    ('no plan', SAMPLE_A, [], 9, 22, 1),
    ('1 missing', SAMPLE_A, SAMPLE_A[:0:-1], 9, 22, 1),
    ('93 missing, and so 21', SAMPLE_A, SAMPLE_A[-2::-1], 9, 21, 2),
    ('8 twice', SAMPLE_A, [93, 92, 91, 8, 8, 6, 4, 3, 2, 1], 9, 20, 5),
    ('93 again at the end', SAMPLE_A, SAMPLE_A[::-1] + [93], 9, 20, 10),
    ('5 unknown', SAMPLE_A, [93, 92, 91, 8, 6, 5, 4, 3, 2, 1], 9, 20, 6),
    ('9 begins 91', SAMPLE_A, [93, 92, 91, 9, 8, 6, 4, 3, 2, 1], 9, 20, 4),
    ('931 is begun by 93', SAMPLE_A, [931, 92, 91, 8, 6, 4, 3, 2, 1], 9, 20, 1),
    ('0 unknown', SAMPLE_A, SAMPLE_A[::-1] + [0], 9, 20, 10),
    ('no label: 20', SAMPLE_A, [10], 9, 20, 1),
    ('no label: a rest beside 93', SAMPLE_A, [(93, 1)], 9, 20, 1),
    ('5 unknown and 8 not come', SAMPLE_A, [5], 9, 20, 1),
    ('20 before 21', SAMPLE_A, [93, 93, 91], 9, 20, 2),
    ('21 before 20', SAMPLE_A, [93, 91, 93], 9, 21, 2),
    ('20 before 22', SAMPLE_A, [5], 9, 20, 1),
    ('one work place too few', SAMPLE_A, SAMPLE_A[::-1], 8, 3, 0),
    ('no work place', SAMPLE_A, SAMPLE_A[::-1], 0, 3, 0),
    ('3 before 20', SAMPLE_A, [5], 8, 3, 0),
    ('no unit', [], [], 0, 0, 0),
    ('no unit, a plan', [], [1], 0, 20, 1),
    ('the label 0', [0], [0], 1, 0, 0),
    ('the label 0, no plan', [0], [], 1, 22, 1),
    ('the label 0 twice', [0], [0, 0], 1, 20, 2),
    ('the label 0, another plan', [0], [1], 1, 20, 1),
    ('the label 0 beside another: 12', [0, 1], [1, 0], 2, 12, 0),
    ('the label 0 after another: 16', [1, 0], [1, 0], 2, 16, 0),
    ('9 begins 91: 12', [8, 9, 91], [91, 9, 8], 3, 12, 0),
    ('9 begins 91, which is first: 16', [91, 8, 9], [91, 9, 8], 3, 16, 0),
    ('equal labels: 16', [8, 8], [8], 2, 16, 0),
    ('12 is before 2', [12, 2], [2, 12], 2, 0, 0),
    ('2 before 12: 16', [2, 12], [2, 12], 2, 16, 0),
    ('11 before 16', [2, 10, 1], [2, 1], 3, 11, 0),
    ('11 before 12', [1, 10, 11], [11], 3, 11, 0),
    ('11 before 3', [10], [], 0, 11, 0),
    ('16 before 3', [2, 1], [], 0, 16, 0),
    ('12 before 3', [1, 11], [], 0, 12, 0),
    ('11 before 20', [1, (1, 1)], [5], 2, 11, 0),
    ('two streams, any order', [2, 4], [2, 4], 2, 0, 0),
    ('two streams, the first missing', [2, 4], [4], 2, 22, 1),
    ('two streams, the last missing', [2, 4], [2], 2, 22, 2),
    ('an even digit before the odd ones', [21, 22, 4], [22, 21, 4], 3, 0, 0),
    ('an even digit before the odd ones, 21 first', [21, 22, 4], [4, 21, 22], 3, 21, 2),
    ('odd digits alone', [11, 13, 3], [3, 13, 11], 3, 0, 0),
    ('odd digits alone, 13 before 3', [11, 13, 3], [13, 3, 11], 3, 21, 1),
    ('an even digit at the end', [12, 13, 3], [12, 3, 13], 3, 0, 0),
    ('19 digits', LONG, LONG[::-1], 4, 0, 0),
    ('19 digits, the 18th digit parts', LONG, [LONG[1], LONG[2], LONG[3], LONG[0]], 4, 21, 2),
    ('19 digits, the 19th digit parts', LONG, [LONG[3], LONG[2], LONG[0], LONG[1]], 4, 21, 3),
    ('19 digits, an even one first', LONG, [LONG[1], LONG[3], LONG[2], LONG[0]], 4, 0, 0),
    ('an odd number after the plan', [2, 4], [4, 2, [7]], 2, 0, 0),
    ('an odd number after the index', [2, 4, [10]], [4, 2], 2, 0, 0),
    ('an odd number for the missing unit', [2, 4], [4, [2]], 2, 22, 1),
    ('odd numbers alone', [[2]], [[2]], 0, 0, 0),
    ('36 digits', [ones(36), ones(36) + 1], [ones(36) + 1, ones(36)], 2, 0, 0),
    ('36 digits, the first first', [ones(36), ones(36) + 1], [ones(36), ones(36) + 1], 2, 21, 1),
]


def checks():
    return [('plan: ' + name, check_plan(slice_of(index), slice_of(plan), room), (number, place))
            for name, index, plan, room, number, place in PLANS]
