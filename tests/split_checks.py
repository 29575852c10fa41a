"""Checks of least and split by direct call, for tests/cases.py: sheets, refusal 19 and its order, both flow questions,
the index, the levy and the intake. What is expected was worked out by hand."""
from labels import of_units, record, records, slice_of
from reference import (Intake, flow, flow_pairs, index, label, label_intake, levy, levy_intake, outlet_flow, take_end,
                       take_line)

MOST = 65536000  # the largest least
HUGE = [2 ** 32, 2 ** 32 + 1, 2 ** 63, 2 ** 64 - 1]
ONES = [1] * 256
# Its river list is 4, mouth 8, 5, mouths 9, 10 and 1, 6, mouth 3, 7, 11. Mouth 1 has the area 2, the others have 1.
SAMPLE_A = bytes([0, 4, 16, 8, 16, 16, 16, 16, 64, 64, 32, 64])
SAMPLE_A_LEAST_2 = [0, 2, 2, 3, 1, 1, 3, 3, 1, 1, 1, 3]

# (name, depth, least, split, weights; labels): sample A
LABELS = [
    ('least 1, split 4', 2, 1, 4, ONES, [0, 8, 8, 92, 1, 3, 91, 93, 2, 4, 6, 93]),
    ('only mouth 1 is counted', 2, 2, 4, ONES, SAMPLE_A_LEAST_2),
    ('the same for every split', 18, 2, 1, ONES, SAMPLE_A_LEAST_2),
    ('no mouth is counted', 2, 3, 4, ONES, [0] * 12),
    ('the largest least', 2, MOST, 4, ONES, [0] * 12),
    ('mouths 1, then 10 and 3, then 9, then 8', 18, 1, 1, ONES, [0, 2, 2, 32, 1111, 1113, 31, 33, 1112, 112, 12, 33]),
    ('split 1 at depth 1', 1, 1, 1, ONES, [0, 2, 2, 3, 1, 1, 3, 3, 1, 1, 1, 3]),
    ('mouths 10 and 1', 1, 1, 2, ONES, [0, 4, 4, 5, 1, 1, 5, 5, 1, 1, 2, 5]),
    ('mouths 9, 10 and 1', 1, 1, 3, ONES, [0, 6, 6, 7, 1, 1, 7, 7, 1, 2, 4, 7]),
    ('by weights mouth 1 has the area 4', 2, 4, 4, [2, 1, 1], SAMPLE_A_LEAST_2),
    ('and mouth 3 the area 2', 2, 2, 4, [2, 1, 1], [0, 2, 2, 4, 1, 1, 3, 5, 1, 1, 1, 5]),
    ('one more than the area by weights', 2, 5, 4, [2, 1, 1], [0] * 12),
]

# (name, rows, cols, depth, least, split, directions, weights, areas, labels, work places; number, place)
SHEETS = [
    ('least 0', 1, 1, 1, 0, 4, bytes([1]), ONES, 1, 1, 8, 19, 0),
    ('the largest least', 1, 1, 1, MOST, 4, bytes([1]), ONES, 1, 1, 8, 0, 0),
    ('one more', 1, 1, 1, MOST + 1, 4, bytes([1]), ONES, 1, 1, 8, 19, 0),
    ('split 0', 1, 1, 1, 1, 0, bytes([1]), ONES, 1, 1, 8, 19, 0),
    ('split 1', 1, 1, 1, 1, 1, bytes([1]), ONES, 1, 1, 8, 0, 0),
    ('split 5', 1, 1, 1, 1, 5, bytes([1]), ONES, 1, 1, 8, 19, 0),
    ('1 before 19', 257, 1, 1, 0, 0, bytes([4] * 257), ONES, 257, 257, 2056, 1, 0),
    ('2 before 19', 1, 1, 37, 0, 5, bytes([1]), ONES, 1, 1, 8, 2, 0),
    ('19 before 3', 1, 1, 18, 0, 4, b'', [], 0, 0, 0, 19, 0),
    ('19 before 3 of the work places', 3, 4, 2, 2, 5, SAMPLE_A, ONES, 12, 12, 95, 19, 0),
    ('19 before 17', 1, 1, 1, 0, 4, bytes([1]), [0], 1, 1, 8, 19, 0),
    ('19 before 4', 1, 1, 1, 1, 5, bytes([3]), ONES, 1, 1, 8, 19, 0),
    ('19 before 5', 1, 1, 1, 0, 4, bytes([0]), ONES, 1, 1, 8, 19, 0),
    ('19 before 6', 1, 2, 1, 1, 0, bytes([1, 16]), ONES, 2, 2, 16, 19, 0),
    ('19 with two basins', 1, 2, 1, MOST + 1, 4, bytes([16, 1]), ONES, 2, 2, 16, 19, 0),
    ('3 with least 2', 3, 4, 2, 2, 4, SAMPLE_A, ONES, 12, 12, 95, 3, 0),
    ('6 with least 2', 1, 2, 1, 2, 1, bytes([1, 16]), ONES, 2, 2, 16, 6, 0),
]
SHEETS += [('least %d' % huge, 1, 1, 1, huge, 4, bytes([1]), ONES, 1, 1, 8, 19, 0) for huge in HUGE]
SHEETS += [('split %d' % huge, 1, 1, 1, 1, huge, bytes([1]), ONES, 1, 1, 8, 19, 0) for huge in [260, *HUGE]]

# (name, depth, least, p, q, answer): does water from q pass p?
FLOW = [
    ('least 1, a whole label', 2, 1, 1, 3, 'Yes'),
    ('least 2, a whole label', 2, 2, 1, 3, 'Undecided'),
    ('the largest least, a whole label', 2, MOST, 1, 3, 'Undecided'),
    ('least 2, a label of as many digits as the depth', 1, 2, 1, 3, 'Undecided'),
    ('least 2, the rule is not met', 2, 2, 3, 1, 'No'),
    ('least 2, an even digit', 2, 2, 2, 3, 'No'),
    ('least 2, equal labels', 2, 2, 1, 1, 'Same'),
    ('least 2, labels 1 and 12', 2, 2, 1, 12, ('Refused', 12)),
    ('least 2, label 105', 3, 2, 105, 1, ('Refused', 11)),
    ('least 0', 2, 0, 1, 3, ('Refused', 19)),
    ('one more than the largest least', 2, MOST + 1, 1, 3, ('Refused', 19)),
    ('least 0: 2 before 19', 0, 0, 1, 3, ('Refused', 2)),
    ('the largest number: 2 before 19', 37, 2 ** 64 - 1, 1, 3, ('Refused', 2)),
    ('least 0: 19 before 11', 3, 0, 105, 105, ('Refused', 19)),
    ('least 0: 19 before Same', 3, 0, 91, 91, ('Refused', 19)),
    ('least 0: 19 before 12', 3, 0, 9, 91, ('Refused', 19)),
    ('least 0: 19 before No', 3, 0, 92, 91, ('Refused', 19)),
]
FLOW += [('least %d' % huge, 2, huge, 1, 3, ('Refused', 19)) for huge in HUGE]

# (name, depth, least, P's labels, Q's labels, places for answers; number, answers)
PAIRS = [
    ('least 1', 3, 1, [91, 93, 92, 131, 9, 105], [92] * 6, 6, 0, [1, 0, 2, 3, 140, 139]),
    ('least 2', 3, 2, [91, 93, 92, 131, 9, 105], [92] * 6, 6, 0, [3, 0, 2, 3, 140, 139]),
    ('the largest least', 3, MOST, [91], [92], 1, 0, [3]),
    ('least 0', 3, 0, [91], [92], 1, 19, None),
    ('one more than the largest least', 3, MOST + 1, [91], [92], 1, 19, None),
    ('least 0 and nothing lent', 3, 0, [], [], 0, 19, None),
    ('2 before 19', 37, 0, [91], [92], 1, 2, None),
    ('19 before 3', 3, 0, [91, 91], [92, 92], 1, 19, None),
    ('19 before 11', 3, 0, [105], [105], 1, 19, None),
    ('3 with least 2', 3, 2, [91, 91], [92, 92], 1, 3, None),
]
PAIRS += [('least %d' % huge, 3, huge, [91], [92], 1, 19, None) for huge in HUGE]


def label_checks():
    for name, depth, least, split, weights, labels in LABELS:
        got = label(3, 4, depth, least, split, SAMPLE_A, weights, 12, 24, 12, 96)
        yield 'least and split: ' + name, (*got[:2], got[3]), (0, 0, records(labels))
    for name, *arguments, areas, places, work, number, place in SHEETS:
        yield 'least and split: ' + name, label(*arguments, areas, 2 * places, places, work)[:2], (number, place)


def flow_checks():
    for name, depth, least, p, q, answer in FLOW:
        yield 'flow: ' + name, flow(depth, least, 1, record(p), 1, record(q)), answer
    yield 'outlet flow: it is not told least', outlet_flow(2, 1, record(1), 1, record(3)), 'Yes'
    for name, depth, least, p, q, room, number, answers in PAIRS:
        got = flow_pairs(depth, least, slice_of(p), [1] * len(p), slice_of(q), [1] * len(q), room)
        yield 'pairs: ' + name, got, (number, answers)


def unit_checks():
    """Sample A at least 2 has three units: of cells 4, 5, 8, 9 and 10; 1 and 2; 3, 6, 7 and 11."""
    units = of_units([(1, 4, 5), (2, 1, 2), (3, 6, 4)])
    rooms = [12, 24, 12, 96, 6, 3, 3, 3]
    sheet = [3, 4, 2, 2, 4, SAMPLE_A, ONES]
    yield 'index: least 2', index(*sheet, *rooms)[5], units
    yield 'levy: least 2', levy(*sheet, *rooms, 1, 110, 3)[5:], (units, [50, 20, 40])
    refused = [3, 4, 2, 0, 4, SAMPLE_A, ONES, 12, 24, 12, 96, 0, 0, 0, 0]
    yield 'index: 19', index(*refused), (19, 0, *4 * [None])
    yield 'levy: 19', levy(*refused, 1, 100, 0), (19, 0, *5 * [None])
    yield 'levy: 18 before 19', levy(*refused, 1, 10 ** 11 + 1, 0), (18, 0, *5 * [None])


def intake_checks():
    dirs, weights = bytearray([7, 7]), [8, 9]
    names = (b'split', b'rows', b'least', b'cols', b'depth')
    sizes = Intake('sizes', names=names)
    state = Intake('weight or cell names', 1, 1, 1, names, least=MOST, split=3)
    yield 'intake: five names', take_line(Intake(), b','.join(names), dirs, weights), (0, sizes)
    for line, number in [(b'0,1,1,1,1', 19), (b'4,1,0,1,1', 19), (b'5,1,1,1,1', 19), (b'0,1,1,1,0', 2),
                         (b'0,0,1,1,0', 1), (b'4,1,100000000,1,1', 8), (b'4,1,65536001,256,1', 19), (b'4,1,1,256,1', 3),
                         (b'1,1,1', 8)]:
        yield 'intake: %s' % line.decode(), take_line(sizes, line, dirs, weights), (number, sizes)
    yield 'intake: refused sizes write nothing', (bytes(dirs), list(weights)), (bytes([7, 7]), [8, 9])
    yield 'intake: sizes with least and split', take_line(sizes, b'3,1,65536000,1,1', dirs, weights), (0, state)
    three = Intake('sizes', names=(b'rows', b'cols', b'depth'))
    yield 'intake: neither', take_line(three, b'1,1,1', dirs, weights)[1].sizes(), (1, 1, 1, 1, 4)


def state_checks():
    """States with a least or a split that no line leads to."""
    dirs, weights = bytearray([7, 7]), [8, 9]
    good = Intake('cells', 1, 1, 1, (b'row', b'col', b'dir'))
    for other in [{'least': 0}, {'least': MOST + 1}, {'split': 0}, {'split': 5}, {'least': 2 ** 64 - 1, 'split': 0}]:
        for stage, names in [('weight or cell names', ()), ('weights', (b'weight',)), ('cell names', ()),
                             ('cells', (b'row', b'col', b'dir'))]:
            state = good._replace(stage=stage, names=names, **other)
            name = 'intake: %s in the stage %s' % (other, stage)
            yield name, take_line(state, b'', dirs, weights), (19, state)
            yield name + ', 19 before 3', take_line(state, b'', bytearray(), []), (19, state)
            yield name + ', 2 before 19', take_line(state._replace(depth=0), b'', dirs, weights)[0], 2
            yield name + ', 13', take_line(state._replace(stage='ended'), b'', dirs, weights)[0], 13
        ended = good._replace(stage='ended', **other)
        yield 'intake: labelling, 19', label_intake(ended, dirs, weights, *4 * [0]), (19, 0, *3 * [None])
        yield ('intake: labelling, 15 before 19', label_intake(ended._replace(stage='cells'), dirs, weights, *4 * [0]),
               (15, 0, *3 * [None]))
        yield 'intake: a levy, 18 before 19', levy_intake(ended, dirs, weights, *8 * [0], 1, 10 ** 11 + 1, 0)[0], 18
        waiting = good._replace(stage='weights', names=(b'weight',), row=1, **other)
        yield 'intake: 19 before 9', take_line(waiting, b'1', dirs, weights), (19, waiting)
        yield 'intake: the end looks at neither', take_end(good._replace(**other))[0], 0
    yield 'intake: refused lines write nothing', (bytes(dirs), weights), (bytes([7, 7]), [8, 9])


def checks():
    return [*label_checks(), *flow_checks(), *unit_checks(), *intake_checks(), *state_checks()]
