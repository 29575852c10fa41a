"""Tells of which kinds the plans of tests/direct/plans.py are: their answers, what is at fault in index and plan, and
the lengths of the lent slices."""
import long_labels
import no_labels
import reference
from reference import digits_of, numbers_of

MOST = reference.MAX_DEPTH
HALF = reference.MAX_DIGITS
OF_INDEX, OF_PLAN = [11, 16, 12, 3], [20, 21, 22]
NAMES = {0: 'a good plan', 20: '20', 21: '21', 22: '22'}

# What is counted of the index and of lengths.
LENGTHS = [1, *long_labels.LENGTHS]
LONGEST = 'longest label of %d digits'
SIZE_KINDS = ['no unit, no plan', 'no unit, a plan', 'no plan', 'one unit', 'the label 0 alone', 'two units',
              'three to six units', 'more than 100 units', 'more than 500 units', 'labels alike in the first 18 digits',
              'odd digits alone', 'labels that fall as numbers', 'no unit upstream of another',
              'of a sheet, more than 18 digits', 'as many records as units']
SIZE_KINDS += [LONGEST % length for length in LENGTHS]
ROOM_KINDS = ['%s after %s' % (room, NAMES[number]) for room in ('as many work places as units', 'one work place more',
                                                                 'many work places more') for number in NAMES]
ODD_KINDS = ['an odd number at the end of %s, %s' % (name, NAMES[number])
             for name in ('the index', 'the plan', 'both') for number in NAMES]
ODD_KINDS += ['an odd number alone for %s' % name for name in ('the index', 'the plan', 'both')]
ODD_KINDS += ['an odd number that is the missing unit', 'an odd number that would be a unit twice',
              'an odd number that would not rise in the index', 'an odd number that is the unknown label',
              'an odd number for which there is no work place', 'an odd number and one work place too few']

# What is counted of a refused index.
WITH = '%d before %s'
INDEX_KINDS = [WITH % (number, other) for number in OF_INDEX for other in NAMES.values()]
INDEX_KINDS += ['11 before 16', '11 before 12', '11 before 3', '16 before 12: neighbours', '16 before 12: far apart',
                '16 before 3', '12 before 3']
INDEX_KINDS += ['no label %s in the index' % where for where in ('first', 'between', 'last', 'alone')]
INDEX_KINDS += ['no label in the index: ' + kind for kind in no_labels.AT_MOST]
INDEX_KINDS += ['16 for the first two', '16 for two between', '16 for the last two', '16 for equal labels',
                '16 for a label after one that it begins', '16 for labels alike in 18 digits',
                '16 for equal labels of more than 18 digits', '16 for labels that rise as numbers']
INDEX_KINDS += ['12 for the first two', '12 for two between', '12 for the last two', '12 for the label 0',
                '12 for 18 digits and more', '12 for more than 18 digits', '12 for several labels']
INDEX_KINDS += ['one work place too few', 'several work places too few', 'no work place']

# What is counted of a plan.
GOOD_KINDS = ['falling dictionary order', 'another good order', 'rising dictionary order, accepted',
              'another good order of the index before', 'units upstream up to the last of the index',
              'units upstream and others after them']
TAIL_KINDS = ['last odd digits from digit %s' % at for at in ('1', '2 to 17', '18', '19', '20 or later')]
TAIL_KINDS += ['last odd digits on both sides of digit 18']
UNKNOWN = 'unknown: '
UNKNOWN_KINDS = [UNKNOWN + kind for kind in [
    *no_labels.AT_MOST, 'begins a unit', 'begun by a unit', 'the label 0', 'before all', 'after all', 'between',
    "a unit's first number and another rest", "a unit's rest beside another first", 'alone', 'several',
    'an upstream unit has not come', 'all upstream units have come', 'at a place past the number of units']]
USED_KINDS = ['used twice: ' + kind for kind in ('alone', 'straight after', 'later', 'after all units',
                                                 'with no unit upstream', 'with units upstream')]
EARLY_KINDS = ['too early: ' + kind for kind in (
    'alone', 'two neighbours exchanged', 'the next of the index alone is missing', 'one between alone is missing',
    'the last one upstream alone is missing', 'all upstream are missing', 'the upstream unit never comes',
    'the next of the index has come', 'downstream first')]
MISSING_KINDS = ['missing: ' + kind for kind in ('the first alone', 'the last alone', 'one between alone', 'several',
                                                 'several, the first of the index has come', 'all')]
AT_KINDS = ['%d at the %s place' % (number, where) for number in (20, 21) for where in ('first', 'middle', 'last')]
SECOND_KINDS = ['%d, then %d' % (number, other) for number in (20, 21) for other in OF_PLAN]
KINDS = (['accepted'] + ['refused by %d' % number for number in OF_INDEX + OF_PLAN] + SIZE_KINDS + ROOM_KINDS
         + ODD_KINDS + INDEX_KINDS + GOOD_KINDS + TAIL_KINDS + UNKNOWN_KINDS + USED_KINDS + EARLY_KINDS
         + MISSING_KINDS + AT_KINDS + SECOND_KINDS + ['by the water: ' + name for name in NAMES.values()]
         + ['more than 65536 units'])


def holding(kinds):
    return [kind for kind, holds in kinds.items() if holds]


def texts_of(records):
    return [digits_of(record) for record in records]


def kinds(call, answer, before):
    """The kinds that a call belongs to; `before` is the call before it, or None."""
    number, place = answer
    yield 'refused by %d' % number if number else 'accepted'
    yield from odd_kinds(call, number)
    if number in OF_INDEX:
        yield from index_kinds(call, number)
        return
    yield from holding(size_kinds(call))
    yield from holding(room_kinds(call, number))
    yield from holding(tail_kinds(call))
    if call.above is not None and len(call.index) > 1:
        yield 'by the water: ' + NAMES[number]
    if number in (20, 21):
        yield from place_kinds(call, number, place)
    told = {0: good_kinds, 20: unknown_or_used, 21: early_kinds, 22: missing_kinds}[number]
    yield from told(call, before if number == 0 else place)


# Lengths.

def size_kinds(call):
    """Of an index that is not refused."""
    count, texts = len(call.index), texts_of(call.index)
    above = reference.units_upstream(tuple(call.index))
    longest = max(map(len, texts), default=0)
    return {'no unit, no plan': count == 0 == len(call.plan), 'no unit, a plan': count == 0 < len(call.plan),
            'no plan': len(call.plan) == 0 < count, 'one unit': count == 1, 'the label 0 alone': texts == [''],
            'two units': count == 2, 'three to six units': 3 <= count <= 6, 'more than 100 units': count > 100,
            'more than 500 units': count > 500, 'as many records as units': count == len(call.plan) > 0,
            'labels alike in the first 18 digits': len({first for first, _ in call.index}) < count,
            'odd digits alone': count > 1 and all(digit in '13579' for digit in ''.join(texts)),
            'labels that fall as numbers': call.index != sorted(call.index),
            'no unit upstream of another': count > 1 and not any(above.values()),
            'of a sheet, more than 18 digits': call.above is not None and longest > HALF,
            **({LONGEST % longest: True} if longest in LENGTHS else {})}


def room_kinds(call, number):
    more = call.room - len(call.index)
    return {'as many work places as units after ' + NAMES[number]: more == 0 < call.room,
            'one work place more after ' + NAMES[number]: more == 1,
            'many work places more after ' + NAMES[number]: more > 1}


def odd_kinds(call, number):
    """Of odd numbers at the ends of the slices."""
    tails = [bool(call.index_odd), bool(call.plan_odd)]
    if not any(tails):
        return
    name = 'both' if all(tails) else 'the index' if tails[0] else 'the plan'
    if number in NAMES and call.index and call.plan:
        yield 'an odd number at the end of %s, %s' % (name, NAMES[number])
    if not any(records for records, tail in zip((call.index, call.plan), tails) if tail) and number not in OF_INDEX:
        yield 'an odd number alone for ' + name
    ends = [(odd, 0) for odd in call.index_odd], [(odd, 0) for odd in call.plan_odd]
    short = tails[0] and number in (0, 3)
    yield from holding({
        'an odd number that is the missing unit': number == 22 and ends[1] and ends[1][0] in call.index
        and ends[1][0] not in call.plan,
        'an odd number that would be a unit twice': number == 0 and ends[1] and ends[1][0] in call.plan,
        'an odd number that would not rise in the index': number == 0 and ends[0] and call.index
        and digits_of(ends[0][0]) <= digits_of(call.index[-1]),
        'an odd number that is the unknown label': number == 20 and ends[0] and ends[0][0] in call.plan
        and ends[0][0] not in call.index,
        'an odd number for which there is no work place': short and call.room == len(call.index),
        'an odd number and one work place too few': short and call.room == len(call.index) - 1})


# The index.

def begin(texts):
    """Pairs of places of labels of which the first begins the second."""
    return [(p, q) for p, one in enumerate(texts) for q, other in enumerate(texts)
            if one != other and other.startswith(one)]


def repaired(index):
    """The labels of a refused index without what is at fault."""
    labels = sorted({label for label in index if reference.is_label(label, MOST)}, key=digits_of)
    texts = texts_of(labels)
    begun = {p for p, _ in begin(texts)}
    return [label for place, label in enumerate(labels) if place not in begun]


def index_kinds(call, number):
    """Of a refused index."""
    texts, good = texts_of(call.index), repaired(call.index)
    beside = reference.check_plan(numbers_of(good), numbers_of(call.plan), len(good))[0]
    yield WITH % (number, NAMES[beside])
    falling = [at for at, (a, b) in enumerate(zip(texts, texts[1:])) if a >= b]
    begun = begin(texts)
    yield from holding({'11 before 16': number == 11 and falling, '11 before 12': number == 11 and begun,
                        '%d before 3' % number: number != 3 and call.room < len(call.index)})
    if number == 11:
        yield from no_label_kinds(call.index)
    elif number == 16:
        yield from falling_kinds(call.index, texts, falling, begun)
    elif number == 12:
        yield from begun_kinds(texts, begun)
    else:
        few = len(call.index) - call.room
        yield from holding({'one work place too few': few == 1, 'several work places too few': few > 1,
                            'no work place': call.room == 0})


def where(at, last):
    return 'first' if at == 0 else 'last' if at == last else 'between'


def no_label_kinds(index):
    bad = [at for at, label in enumerate(index) if not reference.is_label(label, MOST)]
    if len(bad) == 1:
        yield 'no label %s in the index' % ('alone' if len(index) == 1 else where(bad[0], len(index) - 1))
        yield from ('no label in the index: ' + kind for kind in no_labels.kinds(index[bad[0]], MOST))


def two_kinds(number, pairs, count):
    """Of the place of the only pair of neighbours at fault; there are so many labels."""
    if len(pairs) == 1 and count > 2:
        at = where(pairs[0], count - 2)
        yield '%d for %s' % (number, 'two between' if at == 'between' else 'the %s two' % at)


def falling_kinds(index, texts, falling, begun):
    yield from two_kinds(16, falling, len(index))
    close = any(abs(p - q) == 1 for p, q in begun)
    yield from holding({'16 before 12: neighbours': close, '16 before 12: far apart': begun and not close})
    if len(falling) == 1:
        a, b = texts[falling[0]:falling[0] + 2]
        first, second = index[falling[0]:falling[0] + 2]
        alike = a != b and a[:HALF] == b[:HALF] and len(a) >= HALF <= len(b)
        yield from holding({'16 for equal labels': a == b, '16 for a label after one that it begins': a.startswith(b),
                            '16 for labels alike in 18 digits': alike, '16 for labels that rise as numbers':
                            first < second, '16 for equal labels of more than 18 digits': a == b and len(a) > HALF})


def begun_kinds(texts, begun):
    neighbours = [p for p, q in begun if q == p + 1]
    yield from two_kinds(12, neighbours, len(texts))
    lengths = [len(texts[p]) for p, _ in begun]
    yield from holding({'12 for the label 0': texts[0] == '', '12 for 18 digits and more': lengths == [HALF],
                        '12 for more than 18 digits': lengths and min(lengths) > HALF,
                        '12 for several labels': len(neighbours) > 1})


# The plan.

def odd_from(text):
    """The place, from 1, from which on a label's digits are odd; one past the last if that is even."""
    return len(text.rstrip('13579')) + 1


def tail_kinds(call):
    """Of the units that have others upstream, and of which an upstream one has come or not."""
    above = reference.units_upstream(tuple(call.index))
    texts = [digits_of(label) for label in call.plan if above.get(label)]
    starts = [odd_from(text) for text in texts]
    found = {'1': 1 in starts, '2 to 17': any(1 < at < 18 for at in starts), '18': 18 in starts, '19': 19 in starts,
             '20 or later': any(at > 19 for at in starts)}
    return {**{'last odd digits from digit %s' % at: holds for at, holds in found.items()},
            'last odd digits on both sides of digit 18': any(1 < at <= HALF < len(text)
                                                             for at, text in zip(starts, texts))}


def place_kinds(call, number, place):
    """Of the place of a refused record, and of the next error without it."""
    count = len(call.plan)
    yield '%d at the %s place' % (number, 'first' if place == 1 else 'last' if place == count else 'middle')
    other = check_without(call, place)
    if other[0] in OF_PLAN:
        yield '%d, then %d' % (number, other[0])


def check_without(call, place):
    """The check of the plan without the record at one place."""
    plan = call.plan[:place - 1] + call.plan[place:]
    return reference.check_plan(numbers_of(call.index), numbers_of(plan), len(call.index))


def good_kinds(call, before):
    count, falling = len(call.index), call.index[::-1]
    above = reference.units_upstream(tuple(call.index))
    ends = [call.index.index(label) + len(own) + 1 for label, own in above.items() if own]
    again = before is not None and before.index == call.index and sorted(before.plan) == sorted(call.plan)
    return holding({'falling dictionary order': count > 1 and call.plan == falling,
                    'another good order': count > 1 and call.plan != falling,
                    'rising dictionary order, accepted': count > 1 and call.plan == call.index,
                    'another good order of the index before': again and before.plan != call.plan,
                    'units upstream up to the last of the index': count in ends,
                    'units upstream and others after them': any(end < count for end in ends)})


def unknown_or_used(call, place):
    record, earlier = call.plan[place - 1], call.plan[:place - 1]
    alone = check_without(call, place)[0] == 0
    if record in call.index:
        upstream = reference.units_upstream(tuple(call.index))[record]
        return ['used twice: ' + kind for kind in holding({
            'alone': alone, 'straight after': record == earlier[-1], 'later': record != earlier[-1],
            'after all units': place > len(call.index), 'with no unit upstream': not upstream,
            'with units upstream': upstream})]
    found = {'alone': alone, 'several': sum(other not in call.index for other in call.plan) > 1,
             'at a place past the number of units': place > len(call.index)}
    if reference.is_label(record, MOST):
        found.update(label_kinds(call.index, record, earlier))
    else:
        found.update(dict.fromkeys(no_labels.kinds(record, MOST), True))
    found["a unit's first number and another rest"] = any(record[0] == first for first, _ in call.index)
    found["a unit's rest beside another first"] = any(record[1] == rest != 0 for _, rest in call.index)
    return [UNKNOWN + kind for kind in holding(found)]


def label_kinds(index, label, earlier):
    """Of a label that is unknown to the index."""
    text, texts = digits_of(label), texts_of(index)
    begins, begun = any(own.startswith(text) for own in texts), any(text.startswith(own) for own in texts)
    upstream = [own for own in index if reference.outlet_flow(MOST, 1, label, 1, own) == 'Yes']
    late = any(own not in earlier for own in upstream)
    return {'begins a unit': begins and text, 'begun by a unit': begun and text, 'the label 0': text == '',
            'before all': texts and text < texts[0], 'after all': texts and text > texts[-1],
            'between': texts and texts[0] < text < texts[-1], 'an upstream unit has not come': late,
            'all upstream units have come': upstream and not late}


def early_kinds(call, place):
    label, earlier = call.plan[place - 1], call.plan[:place - 1]
    upstream = [own for own in call.index if own in reference.units_upstream(tuple(call.index))[label]]
    absent = [own for own in upstream if own not in earlier]
    swapped = call.plan[:place - 1] + call.plan[place - 1:place + 1][::-1] + call.plan[place + 1:]
    once = sorted(call.plan) == sorted(call.index)
    mended = once and reference.check_plan(numbers_of(call.index), numbers_of(swapped), len(call.index))[0] == 0
    return ['too early: ' + kind for kind in holding({
        'alone': once, 'two neighbours exchanged': mended, 'all upstream are missing': absent == upstream,
        'the next of the index alone is missing': absent == upstream[:1] != upstream,
        'the last one upstream alone is missing': absent == upstream[-1:] != upstream,
        'one between alone is missing': len(absent) == 1 and absent[0] in upstream[1:-1],
        'the upstream unit never comes': not set(absent) & set(call.plan),
        'the next of the index has come': upstream[0] not in absent,
        'downstream first': place == 1 and label == call.index[0]})]


def missing_kinds(call, place):
    count = len(call.index)
    absent = [at for at, label in enumerate(call.index, 1) if label not in call.plan]
    return ['missing: ' + kind for kind in holding({
        'the first alone': absent == [1] and count > 1, 'the last alone': absent == [count] and count > 1,
        'one between alone': len(absent) == 1 and 1 < absent[0] < count, 'several': 1 < len(absent) < count,
        'several, the first of the index has come': len(absent) > 1 < place, 'all': len(absent) == count > 1})]
