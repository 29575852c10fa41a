"""Makes the calls of tests/direct/cases.py that ask the flow question about many pairs: a depth, least, the labels of P
and of Q, as records, their basins, a number of places for the answers, and odd numbers at the ends of the label slices,
good and bad; tells of which kinds they are."""
from collections import Counter
from typing import NamedTuple

import depths
import flows
import lent_basins
import no_labels
import reference
from reference import digits_of, numbers_of, record_of

DEPTHS = sorted([*depths.EDGES, 2, 3, 4])
BAD_DEPTHS = depths.BAD
LENGTHS = [0, 1, 2, 3, 7, 8, 9, 100, 1000]  # numbers of pairs
GAUGES = 100000  # compared with one spill
MANY = 60  # places more than are needed
SHEETS = 100  # whose labels are compared
ODD, DIGITS = '13579', '123456789'

# Labels of each length that matters and records that are none; they are compared with each other.
SHORT = [(number, 0) for number in (0, 1, 2, 3, 9, 10, 11, 12, 13, 19, 20, 21, 22, 91, 92, 93, 99, 100, 101, 111, 112,
                                    131, 14, 105, 901, 999, 1111, 1313, 1428, 9999, 11111)]
EDGES = SHORT[:8] + [record_of(text) for text in flows.BORDER] + no_labels.EDGES

# What is counted of a pair, and of a call.
REFUSED_PAIRS = ['pairs refused by 11 for ' + name for name in ('p', 'q', 'both')]
BEGUN = ['pairs refused by 12 where p begins q', 'pairs refused by 12 where q begins p']
LONG_KINDS = ['pairs %s that part after 18 digits' % answer for answer in ('No', 'Yes', 'Undecided')]
LONG_KINDS += ['pairs Same of more than 18 digits', 'pairs refused by 12 after 18 digits']
FAULT = 'pairs refused by 11 for %s: %s'
FAULT_KINDS = [FAULT % (name, kind) for name in 'pq' for kind in no_labels.KINDS]
PAIR_KINDS = ['pairs ' + answer for answer in reference.ANSWERS] + REFUSED_PAIRS + BEGUN + LONG_KINDS + FAULT_KINDS
AT_DEPTH, AT_LEAST = 'depth %d', 'least %d'
ROOM_KINDS = ['as many places as pairs', 'one place more', 'many places more', 'as many places as the longer slice',
              'fewer places than the longer slice', 'one place too few', 'several places too few', 'no place']
LENGTH_KINDS = ['nothing lent', 'P alone empty', 'Q alone empty', 'as many of P as of Q', 'one more of P',
                'many more of P', 'one more of Q', 'many more of Q', 'records past the last pair that are no labels']
ODD_KINDS = ['an odd number at the end of %s' % name for name in ('P', 'Q', 'both')]
ODD_KINDS += ['an odd number alone in %s' % name for name in ('P', 'Q', 'both')]
ODD_KINDS += ['an odd number beside a record', 'an odd number and one place too few', 'refused by 2 with an odd number']
PLACE_KINDS = ['first pair refused', 'pair between refused', 'last pair refused', 'only the first pair refused',
               'only the last pair refused', 'all pairs refused', 'no pair refused']
REFUSED_KINDS = ['refused by 2', 'refused by 19', 'refused by 3', '2 before 19', '2 before 3', '19 before 3',
                 'refused by 2 with nothing lent', 'refused by 19 with nothing lent', '3 with least above 1']
LEAST_KINDS = ['another answer with least 1', 'refused pairs with least above 1', 'Same or No with least above 1']
BASIN_LENGTHS = ['%s: ' + kind for kind in ('as many as pairs', 'one more', 'many more', 'fewer than labels',
                                           'one too few alone', 'several too few alone', 'none, alone')]
BASIN_KINDS = [kind % name for name in ('basins of P', 'basins of Q') for kind in BASIN_LENGTHS]
BASIN_KINDS += ['both basin slices too short', 'no basins and no pairs', '2 before 3 of the basins',
                '19 before 3 of the basins', 'equal basins', 'unequal basins', 'some basins equal and some not',
                'another answer by the basins of the pair before', 'another answer by the basins of the first pair']
BASIN_KINDS += ['pairs No for %s in another basin' % answer for answer in ('Yes', 'No', 'Same', 'Undecided', '12')]
BASIN_KINDS += ['pairs refused by 11 in another basin']
KINDS = (['accepted'] + REFUSED_KINDS + LEAST_KINDS + [AT_DEPTH % depth for depth in DEPTHS + BAD_DEPTHS]
         + [AT_LEAST % least for least in flows.LEASTS] + ROOM_KINDS + LENGTH_KINDS + ODD_KINDS + PLACE_KINDS
         + ['one label as Q', 'more than 65535 pairs with one label as Q', 'one label as P',
            'another answer with P and Q exchanged'] + PAIR_KINDS + BASIN_KINDS)


class Call(NamedTuple):
    depth: int
    least: int
    p: list
    q: list
    room: int  # places for answers
    p_odd: list = []  # an odd number at the end of P's slice, or none
    q_odd: list = []
    p_basins: list = None
    q_basins: list = None

    def slices(self):
        return numbers_of(self.p) + self.p_odd, numbers_of(self.q) + self.q_odd

    def pairs(self):
        """As (p's basin, p, q's basin, q), of a call that is accepted."""
        return list(zip(self.p_basins, self.p, self.q_basins, self.q))


# What is counted.

def is_refused(answer):
    return answer >= 128


def pair_kind(depth, p, q, answer):
    """The kind of a refused pair."""
    if answer == 128 + 12:
        return BEGUN[digits_of(p).startswith(digits_of(q))]
    bad = [not reference.is_label(label, depth) for label in (p, q)]
    return REFUSED_PAIRS[2 if all(bad) else bad.index(True)]


def long_kinds(depth, p, q, answer):
    """What the second numbers of a pair, or the parts of 11, make of it."""
    if answer == 128 + 11:
        bad = [not reference.is_label(label, depth) for label in (p, q)]
        if not all(bad):
            at = bad.index(True)
            yield from (FAULT % ('pq'[at], kind) for kind in no_labels.kinds((p, q)[at], depth))
    elif p[0] == q[0]:
        if answer == 2 and p[1] != 0:
            yield 'pairs Same of more than 18 digits'
        elif answer == 128 + 12 and p[1] != q[1]:
            yield 'pairs refused by 12 after 18 digits'
        elif answer in (0, 1, 3):
            yield LONG_KINDS[(0, 1, 3).index(answer)]


def pair_counts(call, answers):
    counted = Counter(answers)
    found = Counter({'pairs ' + name: counted[number] for name, number in reference.ANSWERS.items()})
    for (p_basin, p, q_basin, q), answer in zip(call.pairs(), answers):
        if p_basin != q_basin:
            found[other_basin_kind(call, p, q, answer)] += 1
            continue
        if is_refused(answer):
            found[pair_kind(call.depth, p, q, answer)] += 1
        if is_refused(answer) or p[0] == q[0]:
            found.update(long_kinds(call.depth, p, q, answer))
    return found


def other_basin_kind(call, p, q, answer):
    """The kind of a pair of two basins: what its answer stands for."""
    if is_refused(answer):
        return 'pairs refused by 11 in another basin'
    other = reference.flow(call.depth, call.least, 1, p, 1, q)
    return 'pairs No for %s in another basin' % (other[1] if isinstance(other, tuple) else other)


def basin_length_kinds(call, number):
    """Of the lengths of the basin slices of a call at a good depth with a good least."""
    count = min(len(call.p), len(call.q))
    more = [len(call.p_basins) - count, len(call.q_basins) - count]
    found = {'both basin slices too short': max(more) < 0, 'no basins and no pairs': count == 0 == max(more)}
    for name, labels, own, other in (('P', call.p, *more), ('Q', call.q, *more[::-1])):
        kinds = [kind % ('basins of ' + name) for kind in BASIN_LENGTHS]
        alone = own < 0 <= other and call.room >= count
        holds = [number == 0 and own == 0, number == 0 and own == 1, number == 0 and own > 1,
                 number == 0 and count + own < len(labels), alone and own == -1, alone and own < -1,
                 alone and own == -count]
        found.update(zip(kinds, holds))
    return found


def basin_kinds(call, answers):
    """Of an accepted call with pairs."""
    pairs = call.pairs()
    equal = [p_basin == q_basin for p_basin, _, q_basin, _ in pairs]
    found = {'equal basins': all(equal), 'unequal basins': not any(equal),
             'some basins equal and some not': any(equal) and not all(equal)}
    if 1 < len(pairs) <= 1000 and not all(equal):
        first = [(pairs[0][0], p, pairs[0][2], q) for _, p, _, q in pairs]
        before = [(a[0], b[1], a[2], b[3]) for a, b in zip(pairs[-1:] + pairs, pairs)]
        for name, others in (('pair before', before), ('first pair', first)):
            given = [reference.answer_number(reference.flow(call.depth, call.least, *pair)) for pair in others]
            found['another answer by the basins of the ' + name] = given != answers
    return found


def place_kinds(answers):
    """Where the refused pairs stand; there is a pair."""
    refused = [is_refused(answer) for answer in answers]
    alone = sum(refused) == 1 < len(refused)
    return {'first pair refused': refused[0], 'pair between refused': any(refused[1:-1]),
            'last pair refused': refused[-1], 'only the first pair refused': alone and refused[0],
            'only the last pair refused': alone and refused[-1], 'all pairs refused': all(refused),
            'no pair refused': not any(refused)}


def label_kinds(call, answers):
    """Of an accepted call with pairs."""
    count = len(answers)
    one_p, one_q = (count > 1 and len(set(labels[:count])) == 1 for labels in (call.p, call.q))
    exchanged = any(reference.answer_number(reference.flow(call.depth, call.least, q_basin, q, p_basin, p)) != answer
                    for (p_basin, p, q_basin, q), answer in zip(call.pairs(), answers))
    return {'one label as Q': one_q, 'more than 65535 pairs with one label as Q': one_q and count > 65535,
            'one label as P': one_p, 'another answer with P and Q exchanged': exchanged}


def least_kinds(call, answers):
    """Of an accepted call with least above 1."""
    p, q = call.slices()
    without = reference.flow_pairs(call.depth, 1, p, call.p_basins, q, call.q_basins, call.room)[1]
    return {'another answer with least 1': without != answers,
            'refused pairs with least above 1': any(map(is_refused, answers)),
            'Same or No with least above 1': any(answer in (0, 2) for answer in answers)}


def length_kinds(call):
    """Of an accepted call."""
    p, q, count = len(call.p), len(call.q), min(len(call.p), len(call.q))
    unused = call.p[count:] + call.q[count:]
    return {'nothing lent': p == q == call.room == 0, 'P alone empty': p == 0 < q, 'Q alone empty': q == 0 < p,
            'as many of P as of Q': p == q > 0, 'one more of P': p == q + 1, 'many more of P': p > q + 1,
            'one more of Q': q == p + 1, 'many more of Q': q > p + 1,
            'records past the last pair that are no labels': any(record in no_labels.EDGES for record in unused)}


def odd_kinds(call, number):
    """Of a call with an odd number at the end of a slice."""
    name = 'both' if call.p_odd and call.q_odd else 'P' if call.p_odd else 'Q'
    odd = [records for records, tail in ((call.p, call.p_odd), (call.q, call.q_odd)) if tail]
    others = [records for records, tail in ((call.p, call.p_odd), (call.q, call.q_odd)) if not tail]
    count = min(len(call.p), len(call.q))
    return {'an odd number at the end of ' + name: number == 0 and count > 0,
            'an odd number alone in ' + name: number == 0 and not any(odd),
            'an odd number beside a record': number == 0 and any(len(records) > count for records in others),
            'an odd number and one place too few': number == 3 and call.room == count - 1,
            'refused by 2 with an odd number': number == 2}


def room_kinds(call, number):
    """Of a call at a good depth with a good least and enough basins."""
    count, longer = sorted([len(call.p), len(call.q)])
    more = call.room - count
    if number == 3:
        return {'one place too few': more == -1, 'several places too few': more < -1, 'no place': call.room == 0}
    return {'as many places as pairs': more == 0, 'one place more': more == 1, 'many places more': more > 1,
            'as many places as the longer slice': count < longer == call.room,
            'fewer places than the longer slice': call.room < longer}


def counts(call, number, answers):
    """How many there are of each kind, once a call has given its refusal number, or 0, and the answers."""
    count = min(len(call.p), len(call.q))
    enough = min(len(call.p_basins), len(call.q_basins)) >= count
    found = {'refused by %d' % number if number else 'accepted': True}
    if call.depth in DEPTHS + BAD_DEPTHS:
        found[AT_DEPTH % call.depth] = True
    if call.least in flows.LEASTS and number != 2:
        found[AT_LEAST % call.least] = True
    if number in (2, 19):
        found['%d before 3' % number] = call.room < count
        found['refused by %d with nothing lent' % number] = len(call.p) == len(call.q) == call.room == 0
        found['2 before 19'] = number == 2 and not reference.is_least(call.least)
        found['%d before 3 of the basins' % number] = call.room >= count and not enough
    else:
        found.update(room_kinds(call, number) if enough else {})
        found.update(basin_length_kinds(call, number))
        found['3 with least above 1'] = number == 3 and call.least > 1
    if call.p_odd or call.q_odd:
        found.update(odd_kinds(call, number))
    if number == 0:
        found.update(length_kinds(call))
    if number == 0 and call.least > 1:
        found.update(least_kinds(call, answers))
    if number == 0 and count > 0:
        found.update(**place_kinds(answers), **label_kinds(call, answers), **pair_counts(call, answers),
                     **basin_kinds(call, answers))
    return found


# Labels, as text.

def digits(rng, count):
    return ''.join(rng.choices(rng.choice([ODD, ODD, DIGITS]), k=count))


def any_label(rng, depth):
    return digits(rng, rng.choice([depth, rng.randint(1, depth), rng.randint(0, depth)]))


def near(rng, depth, text):
    """A label that begins as this one does: mostly some of its digits and then others; else the same label, one that
    begins it, or one that it begins."""
    kind = rng.random()
    if kind < 0.08:
        return text
    if kind < 0.14:
        return text[:rng.randint(0, len(text))]
    if kind < 0.2:
        return text + digits(rng, rng.randint(0, depth - len(text)))
    cut = reference.MAX_DIGITS if rng.random() < 0.25 else rng.randrange(max(1, len(text)))
    shared = text[:min(cut, depth - 1)]
    rest = depth - len(shared)
    return shared + digits(rng, rng.choice([rest, rng.randint(1, rest), rng.randint(1, max(1, rest - 1))]))


# Pairs, as (p, q).

def pair(rng, depth, bad):
    """Two labels of which one is like the other; by the chance `bad` one of them or both are none."""
    text = any_label(rng, depth)
    texts = [text, near(rng, depth, text)]
    if rng.random() < 0.5:
        texts.reverse()
    made = [record_of(text) for text in texts]
    if rng.random() < bad:
        for place in rng.choice([[0], [1], [0, 1]]):
            made[place] = no_labels.made(rng, depth, texts[place])
    return tuple(made)


def pair_with(rng, depth, wanted):
    """A pair whose answer is as wanted: `wanted` is a test of the answer and the pair."""
    while True:
        p, q = pair(rng, depth, 0.5)
        if wanted(reference.flow(depth, 1, 1, p, 1, q), p, q):
            return p, q


def good_pair(rng, depth):
    return pair_with(rng, depth, lambda answer, p, q: not isinstance(answer, tuple))


def refused_pair(rng, depth, kind):
    """A pair of one of the kinds of refused pairs."""
    return pair_with(rng, depth, lambda answer, p, q: isinstance(answer, tuple)
                     and pair_kind(depth, p, q, reference.answer_number(answer)) == kind)


def parted(made):
    """The labels of P and those of Q."""
    return [p for p, q in made], [q for p, q in made]


def some_pairs(rng, depth, count):
    """Pairs like `pair`, with one label as P or one as Q now and then; few, many or none of them are no labels."""
    bad = rng.choice([0, 0.02, 0.2, 0.2, 0.5])
    p, q = parted([pair(rng, depth, bad) for _ in range(count)])
    one = rng.randrange(10)
    if one < 2 and count > 0:
        text = any_label(rng, depth)
        labels = [no_labels.made(rng, depth, text) if rng.random() < bad else record_of(near(rng, depth, text))
                  for _ in range(count)]
        p, q = [(labels, [record_of(text)] * count), ([record_of(text)] * count, labels)][one]
    return p, q


def past(rng, count):
    """Records past the last pair, which are not looked at."""
    return [rng.choice([(0, 0), (1, 0), (91, 0), (rng.getrandbits(64), rng.getrandbits(64)), *no_labels.EDGES])
            for _ in range(count)]


def odd(rng):
    """For P and for Q an odd number at the end, or none."""
    return [[rng.choice([0, 1, 92, rng.getrandbits(64)])] if wanted else []
            for wanted in rng.choice([(0, 0), (0, 0), (0, 0), (1, 0), (0, 1), (1, 1)])]


# Calls.

def rooms(rng, count, longer):
    """Numbers of places: as many as pairs, more and fewer."""
    wanted = {count, count + 1, count + rng.randint(2, MANY), longer, count - 1, count // 2, 0, rng.randint(0, count)}
    return sorted(room for room in wanted if room >= 0)


def any_least(rng):
    """Mostly 1, and mostly good."""
    return rng.choice(3 * [1] + 2 * flows.GOOD_LEASTS + [rng.choice(flows.BAD_LEASTS)])


def small(rng):
    """Every number of up to three labels of P and of Q and up to four places, at every depth; at depth 3 with every
    least."""
    for depth in DEPTHS + BAD_DEPTHS:
        for p_count in range(4):
            for q_count in range(4):
                for room in range(5):
                    p, q = parted([pair(rng, depths.good(depth), 0.2) for _ in range(4)])
                    for least in flows.LEASTS if depth == 3 else [rng.choice([1, rng.choice(flows.LEASTS)])]:
                        yield Call(depth, least, p[:p_count], q[:q_count], room, *odd(rng))


def lengths(rng):
    """Each number of pairs, with numbers past the last pair and without, and with places enough or too few."""
    for count in LENGTHS:
        for p_more, q_more in [(0, 0), (1, 0), (0, 1), (rng.randint(2, MANY), 0), (0, rng.randint(2, 3 * MANY))]:
            for room in rooms(rng, count, count + p_more + q_more):
                depth = rng.choice(DEPTHS + [rng.choice(BAD_DEPTHS)])
                p, q = some_pairs(rng, depths.good(depth), count)
                yield Call(depth, any_least(rng), p + past(rng, p_more), q + past(rng, q_more), room, *odd(rng))


def refused_places(rng):
    """Pairs refused at some places among good ones: first, between, last, several, all."""
    for count in (1, 2, 3, 7, 8, 9, 100):
        every = set(range(count))
        for places in ({0}, {count // 2}, {count - 1}, {0, count - 1}, every - {0}, every - {count - 1}, every):
            for kind in REFUSED_PAIRS + BEGUN:
                depth = rng.choice(DEPTHS[1:])
                p, q = parted([refused_pair(rng, depth, kind) if place in places else good_pair(rng, depth)
                               for place in range(count)])
                yield Call(depth, rng.choice(flows.GOOD_LEASTS), p, q, count + rng.choice([0, 1, MANY]), *odd(rng))


def edges():
    """Every two of some records: short ones at small depths; at the others labels of each length and records that are
    none, at the largest with another least too; a few at bad depths."""
    for depth in DEPTHS:
        records = SHORT if depth < 5 else EDGES
        p, q = parted([(p, q) for p in records for q in records])
        for least in [1, 2] if depth in (3, reference.MAX_DEPTH) else [1]:
            yield Call(depth, least, p, q, len(p))
    for depth in BAD_DEPTHS:
        yield Call(depth, 1, EDGES, EDGES, len(EDGES))


def gauges(rng):
    """One spill and many gauges: the labels of P are like the one of Q."""
    for depth, count in [(6, GAUGES), (reference.MAX_DEPTH, GAUGES // 10)]:
        spill = digits(rng, depth - 1)
        labels = [no_labels.made(rng, depth, spill) if rng.random() < 0.05 else record_of(near(rng, depth, spill))
                  for _ in range(count)]
        yield Call(depth, 1, labels, [record_of(spill)] * count, count + 1)


def of_sheets(rng, indexes):
    """The labels of sheets with their basins: each with one of them, and each with any other."""
    for units in rng.sample(indexes, min(len(indexes), SHEETS)):
        longest = max(len(digits_of(label)) for _, label in units)
        depth = rng.choice([depths.good(longest), depths.good(longest + 1), reference.MAX_DEPTH])
        count = len(units)
        least = rng.choice(flows.GOOD_LEASTS)
        (p_basins, p), (q_basins, q) = zip(*units), zip(*rng.choices(units, k=count))
        one_basin, one = rng.choice(units)
        yield Call(depth, 1, list(p), [one] * count, count, [], [], list(p_basins), [one_basin] * count)
        yield Call(depth, least, list(p), list(q), count + rng.randint(0, 1), *odd(rng), list(p_basins), list(q_basins))


def by_chance(rng, count):
    """Calls of many lengths with so many pairs in all."""
    while count > 0:
        pairs = min(count, rng.choice(LENGTHS + [rng.randint(0, MANY)]))
        depth = rng.choice(DEPTHS + [rng.randint(1, reference.MAX_DEPTH)])
        p, q = some_pairs(rng, depth, pairs)
        p_more, q_more = rng.choice([(0, 0), (0, 0), (rng.randint(1, MANY), 0), (0, rng.randint(1, MANY))])
        room = pairs + rng.choice([0, 0, 1, p_more + q_more])
        yield Call(depth, any_least(rng), p + past(rng, p_more), q + past(rng, q_more), room, *odd(rng))
        count -= pairs


# Basins.

def basins_for(rng, count):
    """The basins of P and of Q for so many pairs: mostly the same at each place, else some or all of them others."""
    share = rng.choice([0, 0, 0, 0, 0.1, 0.5, 1])
    one = lent_basins.some_basin(rng)
    p = [one] * count if rng.random() < 0.5 else [lent_basins.some_basin(rng) for _ in range(count)]
    q = [lent_basins.other_than(rng, basin) if rng.random() < share else basin for basin in p]
    return p, q


def basin_length(rng, count, short):
    """A number of places for the basins of so many pairs; by the chance `short` too few."""
    if count > 0 and rng.random() < short:
        return rng.choice([0, count - 1, count - 1, rng.randrange(count)])
    return count + rng.choice([0, 0, 0, 1, rng.randint(0, MANY)])


def with_basins(rng, call, short=0.03):
    """The call with basins, if it has none."""
    if call.p_basins is not None:
        return call
    count = min(len(call.p), len(call.q))
    lent = [basin_length(rng, count, short) for _ in range(2)]
    p, q = basins_for(rng, max(lent))
    return call._replace(p_basins=p[:lent[0]], q_basins=q[:lent[1]])


def basin_lengths(rng):
    """Every number of basins that matters, for each number of pairs, and with places for the answers enough or too
    few; at bad depths and with a bad least too."""
    for count in (0, 1, 2, 3, 8, 100):
        lent = sorted({0, 1, max(0, count - 2), max(0, count - 1), count, count + 1, count + MANY})
        for p_lent in lent:
            for q_lent in lent:
                for room in {max(0, count - 1), count, count + 1}:
                    depth, least = rng.choice([(3, 1)] * 8 + [(36, 2), (0, 1), (3, 0)])
                    p, q = some_pairs(rng, depths.good(depth), count)
                    p_more, q_more = rng.choice([(0, 0), (0, 0), (1, 0), (0, 1), (9, 0)])
                    p_basins, q_basins = basins_for(rng, max(p_lent, q_lent))
                    yield Call(depth, least, p + past(rng, p_more), q + past(rng, q_more), room, *odd(rng),
                               p_basins[:p_lent], q_basins[:q_lent])


def of_two_basins(rng):
    """Pairs of each answer, in one basin and in two, side by side."""
    asked = [tuple(map(record_of, texts)) for texts in flows.ASKED]
    for p_basin in lent_basins.EDGES:
        for q_basin in lent_basins.EDGES:
            p, q = parted(asked + asked)
            count = len(asked)
            yield Call(3, rng.choice([1, 1, 2]), p, q, 2 * count, [], [], [p_basin] * 2 * count,
                       [q_basin] * count + [p_basin] * count)


def questions(rng, count, indexes):
    """A fixed number of calls, some about the labels of sheets, and random ones with `count` pairs in all."""
    yield from basin_lengths(rng)
    yield from of_two_basins(rng)
    for call in small(rng):
        yield with_basins(rng, call, 0.1)
    for call in edges():
        basins = [lent_basins.some_basin(rng)] * len(call.p)
        yield call._replace(p_basins=basins, q_basins=basins)
    for made in (lengths(rng), refused_places(rng), gauges(rng), of_sheets(rng, indexes), by_chance(rng, count)):
        for call in made:
            yield with_basins(rng, call)
