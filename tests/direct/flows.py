"""Makes the single questions about flow of tests/direct/cases.py: a depth, numbers for least and two labels, good and
bad, each with a basin; tells of which kinds they are. Labels are records, and p and q are (basin, label)."""
import depths
import lent_basins
import no_labels
import reference
import splits
from reference import digits_of, record_of

MOST = splits.MOST
GOOD_LEASTS = [1, 2, 3, MOST - 1, MOST]
BAD_LEASTS = [0, MOST + 1, 2 ** 31, 2 ** 32, 2 ** 32 + 1, 2 ** 32 + 2, 2 ** 63 + 1, 2 ** 64 - 1]
LEASTS = GOOD_LEASTS + BAD_LEASTS

# What is counted of a question.
REFUSED = 'refused by %d'
UNDECIDED = ['Undecided with least 1', 'Undecided with least above 1, a whole label',
             'Undecided with least above 1, as many digits as the depth']
FIRST = '19 before %s'
KINDS = ([*reference.ANSWERS] + [REFUSED % number for number in (2, 19, 11, 12)] + UNDECIDED
         + [answer + ' with least above 1' for answer in ('No', 'Same')]
         + ['%d with least above 1' % number for number in (11, 12)] + ['2 before 19']
         + [FIRST % what for what in (11, 12, *reference.ANSWERS)]
         + ['accepted with least %d' % least for least in GOOD_LEASTS]
         + ['19 for least %d' % least for least in BAD_LEASTS])
OUTLET_KINDS = ['No', 'Yes', 'Same'] + [REFUSED % number for number in (2, 11, 12)]

# What is counted of the two labels, for each of the two questions.
FAULT = '11 for %s: %s'
PAST = ' after 18 digits'
LABEL_KINDS = (depths.KINDS + [FAULT % (name, kind) for name in 'pq' for kind in no_labels.KINDS]
               + ['%s with labels that part' % answer + PAST for answer in ('No', 'Yes')]
               + ['12' + PAST, '12 between 18 and 19 digits', 'Same with more than 18 digits',
                  'No by an even digit' + PAST, 'other first numbers, equal second ones',
                  'equal records that are no labels'])

# What is counted of the two basins: what an answer No by them stands for, what comes before them, and which they are.
ANOTHER = ' in another basin'
STANDS_FOR = ['No for %s' % answer + ANOTHER for answer in ('Same', 'Yes', 'No', 12)]
LABEL_KINDS += STANDS_FOR + ['11 for %s' % name + ANOTHER for name in ('p', 'q', 'both')] + ['2' + ANOTHER]
LABEL_KINDS += ['Same in basin %d' % basin for basin in lent_basins.EDGES]
LABEL_KINDS += ['No with basins %s' % name for name in ('alike in 8 bits', 'alike in 16 bits', 'alike in 31 bits',
                                                       'in rising order', 'in falling order')]
KINDS += ['19' + ANOTHER, 'No for Undecided' + ANOTHER]


def name_of(answer):
    return REFUSED % answer[1] if isinstance(answer, tuple) else answer


def kinds(depth, least, p, q, answer):
    """The kinds that a flow question belongs to, with its answer."""
    yield name_of(answer)
    if p[0] != q[0]:
        yield from kinds_by_basins(depth, least, p, q, answer)
        return
    if answer == ('Refused', 2):
        if not reference.is_least(least):
            yield '2 before 19'
    elif answer == ('Refused', 19):
        if least in BAD_LEASTS:
            yield '19 for least %d' % least
        other = reference.flow(depth, 1, *p, *q)
        yield FIRST % (other[1] if isinstance(other, tuple) else other)
    else:
        if least in GOOD_LEASTS:
            yield 'accepted with least %d' % least
        yield from kinds_by_least(depth, least, p[1], answer)


def kinds_by_basins(depth, least, p, q, answer):
    """Of a question about labels of two basins."""
    if answer == ('Refused', 19):
        yield '19' + ANOTHER
    if answer == 'No' and reference.flow(depth, least, 1, p[1], 1, q[1]) == 'Undecided':
        yield 'No for Undecided' + ANOTHER


def kinds_by_least(depth, least, p, answer):
    """Of a question with a good least about labels of one basin; p is a label."""
    if answer == 'Undecided':
        whole = len(digits_of(p)) < depth
        yield UNDECIDED[0 if least == 1 else 1 if whole else 2]
    elif least > 1:
        yield '%s with least above 1' % (answer[1] if isinstance(answer, tuple) else answer)


def label_kinds(depth, p, q, answer):
    """What is counted of the labels of an outlet question; the flow question is asked about the same."""
    (p_basin, p), (q_basin, q) = p, q
    yield from depths.kinds(depth)
    if p_basin != q_basin:
        yield from other_basin_kinds(depth, p_basin, p, q_basin, q, answer)
        return
    if answer == 'Same' and p_basin in lent_basins.EDGES:
        yield 'Same in basin %d' % p_basin
    yield from one_basin_kinds(depth, p, q, answer)


def other_basin_kinds(depth, p_basin, p, q_basin, q, answer):
    if answer == ('Refused', 2):
        yield '2' + ANOTHER
    elif answer == ('Refused', 11):
        bad = [not reference.is_label(label, depth) for label in (p, q)]
        yield '11 for %s' % ('both' if all(bad) else 'pq'[bad.index(True)]) + ANOTHER
    else:
        other = reference.outlet_flow(depth, 1, p, 1, q)
        yield 'No for %s' % (other[1] if isinstance(other, tuple) else other) + ANOTHER
        if other == 'Same':  # nothing but the basins makes it No
            differing = p_basin ^ q_basin
            alike = {8: differing % 2 ** 8 == 0, 16: differing % 2 ** 16 == 0, 31: differing % 2 ** 31 == 0}
            yield from ('No with basins alike in %d bits' % bits for bits, holds in alike.items() if holds)
            yield 'No with basins in %s order' % ('rising' if p_basin < q_basin else 'falling')


def one_basin_kinds(depth, p, q, answer):
    """Of labels of one basin."""
    if answer == ('Refused', 11):
        bad = [not reference.is_label(label, depth) for label in (p, q)]
        if sum(bad) == 1:
            name, record = ('p', p) if bad[0] else ('q', q)
            yield from (FAULT % (name, kind) for kind in no_labels.kinds(record, depth))
        if p == q:
            yield 'equal records that are no labels'
        return
    texts = digits_of(p), digits_of(q)
    alike = p[0] == q[0] and min(map(len, texts)) >= reference.MAX_DIGITS  # in the first 18 digits
    if answer in ('No', 'Yes') and alike:
        yield '%s with labels that part' % answer + PAST
    if answer == ('Refused', 12) and alike:
        yield '12 between 18 and 19 digits' if sorted(map(len, texts)) == [18, 19] else '12' + PAST
    if answer == 'Same' and p[1] != 0:
        yield 'Same with more than 18 digits'
    if answer == 'No' and p[0] != q[0] and reference.outlet_flow(depth, 1, (p[0], 0), 1, (q[0], 0)) == 'Yes':
        yield 'No by an even digit' + PAST
    if answer in ('No', 'Yes') and p[0] != q[0] and p[1] == q[1] != 0:
        yield 'other first numbers, equal second ones'


# Depth, p and q of questions that are always asked.
ALWAYS = [(3, 91, 92), (3, 92, 91), (3, 21, 3), (3, 131, 14), (3, 9, 91), (3, 105, 9), (3, 0, 0), (3, 0, 5), (0, 1, 2),
          (19, 1, 2), (18, 10 ** 18 - 1, 1), (18, 111111111111111111, 2), (18, 1111111111111111111, 2),
          (2 ** 64 - 1, 1, 1), (1, 1, 3), (2, 1, 3), (2, 91, 92), (2, 93, 91), (2, 21, 22), (4, 2485, 2486), (3, 12, 3),
          (3, 121, 3), (3, 311, 199), (4, 1313, 1428), (18, 111111111111111112, 2),
          (18, 888888888888888887, 888888888888888889)]
# Numbers that are equal, or of which one begins the other, or that are no labels, at good and bad depths.
ALWAYS += [(depth, p, q) for depth in (0, 2, 37) for p, q in [(0, 0), (91, 91), (9, 91), (91, 0), (105, 105), (1, 105),
                                                              (0, 10), (1111, 1111), (111, 1111)]]
ALWAYS = [(depth, *(record_of(str(label) if label else '') for label in (p, q))) for depth, p, q in ALWAYS]

# Labels on both sides of the border between the two numbers of a record, and at its end.
BORDER = ['1' * count for count in (0, 1, 16, 17, 18, 19, 20, 34, 35, 36)]
BORDER += ['1' * count + digits for count in (16, 17, 18, 19) for digits in ('2', '3', '31', '32', '9' * 16)]
BORDER += ['1' * 35 + digit for digit in '239'] + ['2' * 18, '2' * 18 + '1', '2' * 18 + '2', '3' + '1' * 17 + '5',
                                                  '1' * 18 + '5', '9' * 36, '9' * 18, '9' * 19]


def near(rng, text):
    """Digits that begin as these do, and some that differ past the first 18."""
    cut = rng.choice([17, 18, 18, 19, 35, rng.randint(0, reference.MAX_DEPTH)])
    return (text[:cut] + no_labels.some_digits(rng, rng.choice([0, 1, 1, 18])))[:reference.MAX_DEPTH]


def made(rng, depth):
    """Two labels, mostly good, by chance."""
    digits = rng.choice(['123456789', '13579', '1234567890', '12'])
    most = rng.choice([2, 4, depths.good(depth), reference.MAX_DEPTH])
    p, q = (''.join(rng.choices(digits, k=rng.choice([most, rng.randint(1, most)]))) for _ in range(2))
    if rng.random() < 0.5:
        q = near(rng, p) if rng.random() < 0.6 else p[:rng.randint(1, most)] + q
    records = [record_of(text[:reference.MAX_DEPTH]) for text in (p, q)]
    if rng.random() < 0.1:
        at = rng.randrange(2)
        records[at] = no_labels.made(rng, depths.good(depth), '')
    return records


# Pairs of labels at depth 3 that are Same, refused by 12, Yes, No, Undecided, or refused by 11 for p, q or both.
ASKED = [('91', '91'), ('', ''), ('9', '91'), ('91', '9'), ('', '5'), ('1', '3'), ('3', '1'), ('2', '3'), ('111', '12'),
         ('105', '9'), ('9', '105'), ('105', '105'), ('1111', '2'), ('2', '1111')]


def in_basins(rng, p, q):
    """The labels with basins: mostly of one."""
    basin = lent_basins.some_basin(rng)
    return (basin, p), (basin if rng.random() < 0.7 else lent_basins.other_than(rng, basin), q)


def basin_questions(rng):
    """Every two of some basins, with labels of each answer, also at a bad depth and with a bad least."""
    for p_basin in lent_basins.EDGES:
        for q_basin in lent_basins.EDGES:
            for p, q in ASKED:
                p, q = (p_basin, record_of(p)), (q_basin, record_of(q))
                yield rng.choice([3, 3, 3, 3, 0, 37]), [1, rng.choice(LEASTS)], p, q


def label_questions(rng, count):
    """As (depth, leasts, p, q) without basins: some that are always asked, told every least, then with labels of each
    length and with records that are no labels at each depth; and so many random ones, told 1 and another."""
    for depth, p, q in ALWAYS:
        yield depth, LEASTS, p, q
    for depth in depths.EDGES + depths.BAD:
        for record in no_labels.EDGES + [record_of(text) for text in BORDER]:
            other = record_of(rng.choice(BORDER)[:depths.good(depth)])
            for p, q in [(record, other), (other, record), (record, record)]:
                yield depth, [rng.choice(GOOD_LEASTS)], p, q
    for p in BORDER:
        for q in BORDER:
            yield rng.choice([19, 35, 36, 36]), [1], record_of(p), record_of(q)
    for _ in range(count):
        depth = rng.choice([1, 2, 3, 4, 18, 36, 36, rng.choice(depths.EDGES), rng.randint(0, 40)])
        yield depth, [1, rng.choice(LEASTS + [rng.randint(2, MOST), rng.getrandbits(64)])], *made(rng, depth)


def questions(rng, count):
    """As (depth, leasts, p, q): each of those above in one basin, and some of them in two."""
    yield from basin_questions(rng)
    for depth, leasts, p, q in label_questions(rng, count):
        basin = lent_basins.some_basin(rng)
        yield depth, leasts, (basin, p), (basin, q)
        if rng.random() < 0.3:
            yield depth, leasts, *in_basins(rng, p, q)
