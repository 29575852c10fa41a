"""Makes records of two numbers that are no labels, by one part of refusal 11 or by several, for tests/direct/cases.py;
tells which parts these are."""
import reference
from reference import digits_of_number

LARGEST = 2 ** 64 - 1
HALF = reference.MAX_DIGITS  # digits of a full number
MOST = reference.MAX_DEPTH

# The parts of refusal 11.
ZERO_FIRST, ZERO_REST = 'a digit 0 in first', 'a digit 0 in rest'
MANY_FIRST, MANY_BOTH = 'too many digits in first', 'too many digits in both together'
SHORT_FIRST, NO_FIRST = 'rest beside a short first', 'rest beside no first'
LONG_FIRST, LONG_REST = 'first over 18 digits', 'rest over 18 digits'
PARTS = [ZERO_FIRST, ZERO_REST, MANY_FIRST, MANY_BOTH, SHORT_FIRST, NO_FIRST, LONG_FIRST, LONG_REST]

# A rest over 18 digits never comes alone: beside a full first there are too many digits.
ALONE = [part + ' alone' for part in PARTS if part != LONG_REST]
TOGETHER = ['%s and %s' % (LONG_REST, part) for part in (SHORT_FIRST, NO_FIRST, MANY_BOTH)]
LENGTHS = ['rest beside a first of 17 digits alone', 'first of 19 digits alone', 'first of 20 digits alone',
           'rest of 19 digits', 'rest of 20 digits', 'several parts of 11']
KINDS = ALONE + TOGETHER + LENGTHS
AT_MOST = [kind for kind in KINDS if kind not in (MANY_FIRST + ' alone', MANY_BOTH + ' alone')]  # of those at depth 36


def parts(record, depth):
    """The parts of refusal 11 that a record meets at a good depth."""
    first, rest = map(digits_of_number, record)
    met = {ZERO_FIRST: '0' in first, ZERO_REST: '0' in rest, MANY_FIRST: len(first) > depth,
           MANY_BOTH: len(first) <= depth < len(first + rest), SHORT_FIRST: rest and 0 < len(first) < HALF,
           NO_FIRST: rest and not first, LONG_FIRST: len(first) > HALF, LONG_REST: len(rest) > HALF}
    return [part for part, holds in met.items() if holds]


def kinds(record, depth):
    """The kinds that a record that is no label belongs to."""
    met = parts(record, depth)
    first, rest = (len(digits_of_number(number)) for number in record)
    if len(met) == 1:
        yield met[0] + ' alone'
        if met == [SHORT_FIRST] and first == 17:
            yield 'rest beside a first of 17 digits alone'
        if met == [LONG_FIRST]:
            yield 'first of %d digits alone' % first
    else:
        yield 'several parts of 11'
    if LONG_REST in met:
        yield 'rest of %d digits' % rest
        together = LONG_REST + ' and ' + ' and '.join(part for part in met if part != LONG_REST)
        if together in TOGETHER:
            yield together


def ones(count):
    """So many digits 1 as one number."""
    return int('1' * count)


# Records that meet each part, for every depth or for large ones.
EDGES = [(10, 0), (105, 0), (ones(17) * 10, 0), (10 ** 17, 0), (10 ** 18, 0), (10 ** 19, 0), (ones(19), 0),
         (ones(20), 0), (9999999999999999999, 0), (LARGEST, 0), (LARGEST, LARGEST), (ones(18), 10), (ones(18), 105),
         (ones(18), 10 ** 17), (ones(18), ones(17) * 10), (ones(18), 10 ** 18), (ones(18), 10 ** 19),
         (ones(18), ones(19)), (ones(18), ones(20)), (ones(18), LARGEST), (ones(17) * 10, 1), (10 ** 17, ones(18)),
         (ones(17), 1), (ones(17), ones(18)), (ones(17), ones(19)), (ones(17), 10), (1, 1), (1, ones(17)),
         (1, LARGEST), (0, 1), (0, 9), (0, 10), (0, ones(18)), (0, ones(19)), (0, ones(20)), (0, LARGEST),
         (ones(19), 1), (ones(19), ones(17)), (ones(20), ones(16)), (0, 10 ** 18)]


# By chance, from the digits of a label.

def some_digits(rng, count):
    return ''.join(rng.choices('123456789', k=count))


def with_zero(rng, digits):
    """The digits with a 0 in place of one that is not the first, or after them."""
    at = rng.randint(1, max(1, len(digits)))
    return ((digits or '7')[:at] + '0' + digits[at + 1:])[:2 * HALF]


def numbers(first, rest):
    """The record of these digits; a number that does not fit loses its last digit."""
    return tuple(int(text if int(text or '0') <= LARGEST else text[:-1]) if text else 0 for text in (first, rest))


def made(rng, depth, digits):
    """A record that is no label at the depth; mostly it has these digits of a label, or begins with them."""
    while True:
        record = changed(rng, depth, digits)
        if not reference.is_label(record, depth):
            return record


def changed(rng, depth, digits):
    """A record that is, with few exceptions, no label."""
    kind = rng.randrange(7)
    full = (digits + some_digits(rng, HALF))[:HALF]
    if kind == 0:
        return reference.record_of(with_zero(rng, digits))
    if kind == 1 and depth < MOST:
        many = digits + some_digits(rng, MOST)
        return reference.record_of(many[:rng.choice([depth + 1, rng.randint(depth + 1, MOST)])])
    if kind == 2:
        cut = rng.choice([0, 17, rng.randint(0, 17)])
        return numbers(full[:cut], some_digits(rng, rng.choice([1, 19 - cut, rng.randint(1, 20)])))
    if kind == 3:
        return numbers(full + some_digits(rng, rng.choice([1, 2])), some_digits(rng, rng.choice([0, 0, 1, 17])))
    if kind == 4:
        return numbers(full, some_digits(rng, rng.choice([19, 20])))
    if kind == 5:
        return numbers(full, with_zero(rng, some_digits(rng, rng.randint(1, 17))))
    return rng.choice(EDGES)
