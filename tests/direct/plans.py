"""Makes the plans of tests/direct/cases.py: an index, a plan, a number of work places, and odd numbers at the ends of
both label slices, good and bad. plan_indexes.py makes the indexes, plan_kinds.py tells of which kinds the calls are.
Where an index is that of a sheet's basin, what is expected is compared with the water."""
from itertools import chain, islice, permutations, product
from typing import NamedTuple

import no_labels
import plan_indexes
import reference
from reference import digits_of, numbers_of, record_of

MOST = reference.MAX_DEPTH
MANY = 60  # work places more than are needed
OF_INDEX = 20  # random plans of one index
UNKNOWN = [record_of('9' * 5), (10, 0), (1, 1)]  # labels of none of the few units of small indexes, and no labels


class Call(NamedTuple):
    index: list
    plan: list
    room: int  # work places
    index_odd: list = []  # an odd number at the end of the index, or none
    plan_odd: list = []
    above: dict = None  # for each unit the others whose water passes its outlet, by the water; where that is known

    def slices(self):
        return numbers_of(self.index) + self.index_odd, numbers_of(self.plan) + self.plan_odd


def is_good(plan, above):
    """Does each unit stand once in the plan, after every other unit whose water passes its outlet?"""
    if len(plan) != len(above) or set(plan) != set(above):
        return False
    place = {label: at for at, label in enumerate(plan)}
    return all(place[q] < place[p] for p in above for q in above[p])


def expected(call):
    """The answer by the reference program. A plan of a basin of a sheet must be accepted exactly if it is good by the
    water."""
    answer = reference.check_plan(*call.slices(), call.room)
    if call.above is not None and (answer == (0, 0)) != is_good(call.plan, call.above):
        raise AssertionError('the water does otherwise: %s' % [answer, call])
    return answer


# Good orders.

def good_order(rng, above):
    """The units from the headwaters down: always any one of those with nothing left upstream, or the newest or the
    oldest of them."""
    left = {label: set(own) for label, own in above.items()}
    below = {label: [other for other in above if label in above[other]] for label in above}
    free, order = [label for label, own in left.items() if not own], []
    rng.shuffle(free)
    kind = rng.randrange(3)
    while free:
        label = free.pop(rng.randrange(len(free)) if kind == 0 else -1 if kind == 1 else 0)
        order.append(label)
        for other in below[label]:
            left[other].discard(label)
            if not left[other]:
                free.append(other)
    return order


def order(rng, index):
    return index.labels[::-1] if rng.random() < 0.2 else good_order(rng, index.above)


# Plans with an error; mostly they have no other.

def unknown_record(rng, labels):
    """A record that is not in the index: no label, one that begins one of its labels or that one of them begins, or
    another; often like one of them."""
    text = digits_of(rng.choice(labels)) if labels else ''
    first, rest = record_of(text)
    while True:
        made = rng.choice([
            no_labels.made(rng, MOST, text), record_of(text[:rng.randint(0, max(0, len(text) - 1))]),
            record_of((text + no_labels.some_digits(rng, rng.randint(1, 3)))[:MOST]),
            record_of(text[:-1] + rng.choice('123456789')), (first, rng.choice([rest + 1, rest // 10, 1, 0])),
            (rng.choice([first + 1, first // 10, 0]), rest), record_of(plan_indexes.some_label(rng, text)),
            (rng.getrandbits(64), rng.getrandbits(64)), rng.choice(no_labels.EDGES)])
        if made not in labels:
            return made


def unknown(rng, index, plan):
    """With a record that is not in the index, at any place, or for one of the plan's."""
    at = rng.choice([0, len(plan), rng.randint(0, len(plan))])
    return plan[:at] + [unknown_record(rng, index.labels)] + plan[at + rng.choice([0, 0, 1]):]


def twice(rng, index, plan):
    """A unit again, straight after itself, later, or at the end."""
    if not plan:
        return plan
    at = rng.randrange(len(plan))
    again = rng.choice([at + 1, len(plan), rng.randint(at + 1, len(plan))])
    return plan[:again] + [plan[at]] + plan[again:]


def exchanged(rng, index, plan):
    """Two units exchanged, neighbours or any."""
    if len(plan) < 2:
        return plan
    one = rng.randrange(len(plan) - 1)
    other = rng.choice([one + 1, rng.randrange(len(plan))])
    plan = list(plan)
    plan[one], plan[other] = plan[other], plan[one]
    return plan


def too_early(rng, index, plan):
    """A unit straight before one that is upstream of it, or first of all."""
    pairs = [label for label in plan if index.above.get(label)]
    if not pairs:
        return plan
    label = rng.choice(pairs)
    others = [other for other in plan if other != label]
    upstream = [at for at, other in enumerate(others) if other in index.above[label]] or [0]
    at = rng.choice([0, upstream[0], upstream[-1], upstream[-1], rng.choice(upstream)])
    return others[:at] + [label] + others[at:]


def missing(rng, index, plan):
    """Without a unit and all that it is upstream of, without the first, the last or any unit, or cut off."""
    if not plan:
        return plan
    label = rng.choice([rng.choice(plan), index.labels[0], index.labels[-1]])
    kind = rng.randrange(4)
    if kind == 0:
        return [other for other in plan if other != label]
    if kind == 1:
        return plan[:rng.randrange(len(plan))]
    return [other for other in plan if other != label and label not in index.above.get(other, ())]


ERRORS = [unknown, unknown, twice, exchanged, too_early, missing]


# Indexes with an error.

def no_label(rng, labels):
    at = rng.choice([0, len(labels) - 1, rng.randrange(len(labels))])
    return labels[:at] + [no_labels.made(rng, MOST, digits_of(labels[at]))] + labels[at + rng.randint(0, 1):]


def fallen(rng, labels):
    """Neighbours or any two exchanged, one twice, all in the order of numbers, or backwards."""
    at, other = rng.randrange(len(labels)), rng.randrange(len(labels))
    labels = list(labels)
    kind = rng.randrange(6)
    if kind == 0:
        labels[at], labels[other] = labels[other], labels[at]
    elif kind == 1:
        labels.insert(at, labels[at])
    elif kind == 2:
        labels.sort()
    elif kind == 3:
        labels.reverse()
    else:
        labels[at:at + 2] = labels[at:at + 2][::-1]
    return labels


def begun(rng, labels):
    """With a label that begins one of them, or that one of them begins, at its place in the order."""
    text = digits_of(rng.choice(labels))[:MOST]
    texts = [text[:rng.randint(0, len(text))], (text + no_labels.some_digits(rng, 2))[:MOST], text[:-1]]
    return sorted({*labels, record_of(rng.choice(texts))}, key=digits_of)


def begun_far_off(rng, labels):
    """The same, but at another place."""
    text = digits_of(rng.choice(labels))[:MOST]
    made = record_of(rng.choice([text[:rng.randint(0, len(text))], (text + '1')[:MOST]]))
    at = rng.choice([0, len(labels), rng.randint(0, len(labels))])
    return labels[:at] + [made] + labels[at:]


INDEX_ERRORS = [no_label, fallen, begun, begun, begun_far_off]


# Calls.

def odd_end(rng, others):
    """An odd number at the end of a slice, or none; often the first number of a record of the other slice."""
    if rng.random() < 0.75:
        return []
    firsts = [first for first, _ in rng.sample(others, min(2, len(others)))]
    return [rng.choice([0, 1, 9, rng.getrandbits(64), *firsts])]


def enough(rng, count):
    """Work places for so many labels."""
    return count + rng.choice([0, 0, 0, 0, 1, 7, MANY, count, rng.randint(0, MANY)])


def some_room(rng, count):
    """The same, but sometimes one too few, or none."""
    return enough(rng, count) if count == 0 or rng.random() < 0.96 else rng.choice([count - 1, 0])


def call_of(rng, index, labels, plan, room=None):
    """A call with the index, or these labels for it, and a plan; without a number of work places some are chosen."""
    room = some_room(rng, len(labels)) if room is None else room
    of_basin = index.by_water and labels == index.labels and room >= len(labels)
    above = index.above if of_basin else None
    return Call(labels, plan, room, odd_end(rng, plan), odd_end(rng, labels), above)


def random_calls(rng, index, count):
    """Calls with one index: good orders, plans with one or two errors, some with errors of the index."""
    for _ in range(count):
        plan, labels = order(rng, index), index.labels
        for error in rng.choices(ERRORS, k=rng.choice([0, 0, 1, 1, 1, 2])):
            plan = error(rng, index, plan)
        for error in rng.choices(INDEX_ERRORS, k=rng.choice([0] * 8 + [1, 1, 2])) if labels else []:
            labels = error(rng, labels)
        yield call_of(rng, index, labels, plan)


def all_orders(index):
    above = index.above if index.by_water else None
    return (Call(index.labels, list(plan), len(index.labels), above=above) for plan in permutations(index.labels))


def all_lists(rng, index):
    """Every plan of up to one place more than there are units, of the units and records that are not in the index."""
    for count in range(len(index.labels) + 2):
        for plan in product([*index.labels, *UNKNOWN], repeat=count):
            yield call_of(rng, index, index.labels, list(plan), len(index.labels) + rng.randint(0, 2))


def small(rng):
    """All orders of a few units; of some all lists."""
    for index in plan_indexes.few():
        yield from all_orders(index)
        if rng.random() < 0.02 and len(index.labels) < 3:
            yield from all_lists(rng, index)
    for index in plan_indexes.of_lengths():
        for plan in ([], index.labels, 2 * index.labels):
            yield call_of(rng, index, index.labels, plan)


def all_orders_of_some(rng, count):
    """All orders of so many basins of sheets and as many made-up ones, of each number of units up to six; a basin of a
    sheet has never two."""
    of_sheets, made_up = plan_indexes.of_sheets(rng), plan_indexes.made_up(rng)
    for turn in range(count):
        yield from all_orders(next(plan_indexes.with_units(of_sheets, 3 + turn % 4)))
        yield from all_orders(next(plan_indexes.with_units(made_up, 2 + turn % 5)))


EXAMPLES = [['1', '2', '31', '32', '33'], ['1' * 18, '1' * 17 + '2', '1' * 17 + '31', '1' * 17 + '32', '1' * 17 + '33'],
            ['2' * 17 + '1' + '1' * 17 + digit for digit in '12345'], ['21', '22', '23', '4', '6']]


def near(labels, label):
    """Labels that are not among these: some begin this one or are begun by it, others differ from it in the last
    digit."""
    text = digits_of(label)
    texts = [text[:-1], text[:1], '', (text + '2')[:MOST], *(text[:-1] + digit for digit in '1357')]
    return [record_of(text) for text in texts if record_of(text) not in labels]


def index_places(rng):
    """Records that are no labels alone in an index, and errors at each place of one."""
    for bad in no_labels.EDGES:
        yield Call([bad], [bad], rng.randint(0, 2))
    for index in map(plan_indexes.index_of, EXAMPLES):
        labels, falling = index.labels, index.labels[::-1]
        for at in range(len(labels)):
            lent = [labels[:at] + labels[at:at + 2][::-1] + labels[at + 2:], labels[:at + 1] + labels[at:]]
            lent += [labels[:at] + [bad] + labels[at + skipped:] for bad in no_labels.EDGES for skipped in (0, 1)]
            lent += [sorted([*labels, other], key=digits_of) for other in near(labels, labels[at])]
            for changed in lent:
                yield call_of(rng, index, changed, rng.choice([falling, falling[1:], labels, falling + falling[:1]]))


def plan_places(rng):
    """Errors at each place of a plan, with work places enough."""
    for index in map(plan_indexes.index_of, EXAMPLES):
        labels, falling, plans = index.labels, index.labels[::-1], []
        others = [*no_labels.EDGES, *(other for label in labels for other in near(labels, label))]
        for at in range(len(labels) + 1):
            plans += [falling[:at] + [other] + falling[at:] for other in others]
            plans += [falling[:at] + falling[end:] for end in range(at + 1, len(labels) + 1)]
            plans += [falling[:at] + falling[at + 1:end] + falling[end + 1:] for end in range(at + 2, len(labels))]
            plans += [falling[:again] + [falling[at]] + falling[again:] for again in range(at + 1, len(labels) + 1)]
        for plan in plans:
            yield call_of(rng, index, labels, plan, enough(rng, len(labels)))


def no_units(rng):
    """Plans of an empty index."""
    for plan in ([], [record_of('')], [record_of('1')], [(10, 0)], 2 * [record_of('1')]):
        for room in (0, 1, MANY):
            yield call_of(rng, plan_indexes.index_of([]), [], plan, room)


def rooms(rng):
    """Every number of work places that matters, with indexes and plans good and bad."""
    for texts in ([], [''], ['1'], ['1', '2'], *EXAMPLES):
        index = plan_indexes.index_of(texts)
        labels, falling = index.labels, index.labels[::-1]
        indexes = [labels, *([error(rng, labels) for error in INDEX_ERRORS] if labels else [])]
        for lent in indexes:
            for plan in (falling, labels, falling[1:], falling + falling[:1], [], [(10, 0)], falling[::2]):
                for room in {0, 1, len(lent) - 1, len(lent), len(lent) + 1, len(lent) + MANY} - {-1}:
                    yield call_of(rng, index, lent, plan, room)


def odd_numbers(rng):
    """Odd numbers that would be a missing unit, or a label beside which there is one."""
    for texts in ([], [''], ['1'], ['1', '2'], *EXAMPLES):
        labels = plan_indexes.index_of(texts).labels
        for number in (0, 1, 2, 6, 10, no_labels.ones(18), no_labels.LARGEST):
            for index_odd, plan_odd in (([number], []), ([], [number]), ([number], [number])):
                for plan in (labels[::-1], labels[:0:-1], labels[:1], []):
                    for room in {0, len(labels), len(labels) + 1}:
                        yield Call(labels, plan, room, index_odd, plan_odd)


def of_long_sheets(rng):
    """Basins with labels of 17 digits and more."""
    for *sheet, dirs, lent in plan_indexes.long_sheets(rng):
        for index in plan_indexes.basins_of(tuple(sheet), bytes(dirs), lent):
            yield from random_calls(rng, index, 5)


def large(rng):
    """Good orders of many units, and errors late in them."""
    for index in plan_indexes.large(rng):
        plan = good_order(rng, index.above)
        for late in (plan, index.labels[::-1], plan[:-1], plan + plan[:1], plan[:-1] + [(10, 0)], plan[1:],
                     plan[:-2] + plan[:-3:-1], exchanged(rng, index, plan)):
            yield call_of(rng, index, index.labels, late)
        yield call_of(rng, index, index.labels[:-2] + index.labels[:-3:-1], plan)


def huge(rng):
    """Calls with more than 65,536 units, with answers that need no reference program, as (call, answer): a river of
    stretches alone, which has one good order, and many tributaries of one stretch, in any order."""
    river = [record_of(''.join(digits)) for digits in product(plan_indexes.ODD, repeat=7)]
    streams = [record_of('1')] + [record_of('2%d2' % first) for first, _ in river]
    count, falling, last = len(river), river[::-1], streams[1:]
    rng.shuffle(last)
    for index, plan, answer in [
            (river, falling, (0, 0)), (river, falling[:-1], (22, 1)), (river, falling[1:], (21, 1)),
            (river, falling[:-2] + river[:2], (21, count - 1)), (river, falling + falling[:1], (20, count + 1)),
            (streams, last + streams[:1], (0, 0)), (streams, last[1:] + streams[:1] + last[:1], (21, count)),
            (streams, last[:-1] + last[:1] + streams[:1], (20, count)), (river + river[:1], falling, (16, 0)),
            (streams[1:], streams[1:-1], (22, count))]:
        yield Call(index, plan, len(index)), answer
    yield Call(river, falling, count - 1), (3, 0)


def of_other_sheets(rng, indexes, count):
    """Plans of basins of the sheets whose indexes these are, lists of (basin, label)."""
    for units in rng.sample(indexes, min(len(indexes), count)):
        basin = rng.choice(units)[0]
        labels = [label for of, label in units if of == basin]
        if len(labels) <= plan_indexes.LARGE:
            yield from random_calls(rng, plan_indexes.index_of(map(digits_of, labels)), OF_INDEX // 2)


def questions(rng, count, indexes):
    """A fixed number of calls, all orders of some indexes, and `count` random ones."""
    for made in (small, index_places, plan_places, no_units, rooms, odd_numbers, of_long_sheets, large):
        yield from made(rng)
    yield from all_orders_of_some(rng, 10 + count // 400)
    both = chain.from_iterable(zip(plan_indexes.of_sheets(rng), plan_indexes.made_up(rng)))
    calls = chain(of_other_sheets(rng, indexes, count // 200),
                  chain.from_iterable(random_calls(rng, index, OF_INDEX) for index in both))
    yield from islice(calls, count)
