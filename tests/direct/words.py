"""Makes the words of tests/direct/cases.py, each of eight directions with the lowest byte first, and sheets whose
directions are checked as words and a rest; tells of which kinds they are."""
import reference
import shapes

BYTES = 8  # of a word
CODES = [reference.OUTSIDE, *reference.STEPS]
BAD = [byte for byte in range(256) if byte not in CODES]
TWO_BITS = [byte for byte in BAD if bin(byte).count('1') == 2]
MOST_CELLS = 40
MOST_PAST = 9  # directions past the sheet

# What is counted of a word.
FIRST = 'first bad at %d'
KINDS = (['none bad'] + [FIRST % place for place in range(BYTES)]
         + ['first of two bits', 'first of more bits', 'two bits above 0', 'two bits above 128', 'one bad',
            'several bad', 'all bad'])

# What is counted of the directions of a sheet. The rest follows the last whole word.
SHEET_KINDS = ['bad in the first word', 'bad in a later word', 'bad in the rest', 'bad in fewer than eight cells',
               'several bad', 'bad in the sheet and past it', 'bad past the sheet alone',
               'bad past the sheet alone, accepted']


def kinds(word, answer):
    """The kinds that a word belongs to."""
    if answer == BYTES:
        yield 'none bad'
        return
    directions = word.to_bytes(BYTES, 'little')
    yield FIRST % answer
    if directions[answer] in TWO_BITS:
        yield 'first of two bits'
        if answer > 0 and directions[answer - 1] in (0, 128):
            yield 'two bits above %d' % directions[answer - 1]
    else:
        yield 'first of more bits'
    count = sum(byte not in CODES for byte in directions)
    yield 'one bad' if count == 1 else 'all bad' if count == BYTES else 'several bad'


def sheet_kinds(sheet, dirs, labelled):
    """The kinds that the directions of a sheet belong to, once labelling has given `labelled`."""
    number, place = labelled[:2]
    n = sheet[0] * sheet[1]
    past = any(byte not in CODES for byte in dirs[n:])
    if number == 4:
        rest = n - n % BYTES
        if place < rest:
            yield 'bad in the first word' if place < BYTES else 'bad in a later word'
        else:
            yield 'bad in the rest' if rest else 'bad in fewer than eight cells'
        if any(byte not in CODES for byte in dirs[place + 1:n]):
            yield 'several bad'
        if past:
            yield 'bad in the sheet and past it'
    elif past and number in (0, 5, 6):  # the directions were checked
        yield 'bad past the sheet alone'
        if number == 0:
            yield 'bad past the sheet alone, accepted'


def codes(rng, count):
    return rng.choices(CODES, k=count)


def bad_bytes(rng, count):
    return [rng.choice(rng.choice([TWO_BITS, BAD, [254, 255]])) for _ in range(count)]


# Words, as lists of bytes.

def fillings(rng):
    """Codes alone: each of them eight times, and some by chance."""
    return [[code] * BYTES for code in CODES] + [codes(rng, BYTES) for _ in range(6)]


def any_byte(rng):
    """Each byte at each place among codes."""
    for place in range(BYTES):
        for byte in range(256):
            for word in fillings(rng):
                word[place] = byte
                yield word


def neighbours(rng):
    """Every two bytes side by side among codes."""
    for low in range(256):
        for high in range(256):
            word, place = codes(rng, BYTES), rng.randrange(BYTES - 1)
            word[place:place + 2] = low, high
            yield word


def two_bits(rng):
    """Each byte of two bits at each place, above each code."""
    for place in range(BYTES):
        for byte in TWO_BITS:
            for below in CODES:
                for word in ([0] * BYTES, codes(rng, BYTES), codes(rng, BYTES)):
                    word[max(0, place - 1)] = below
                    word[place] = byte
                    yield word


def two_bad(rng):
    """Two bad bytes at every two places."""
    for first in range(BYTES):
        for second in range(first + 1, BYTES):
            for word in fillings(rng):
                word[first], word[second] = bad_bytes(rng, 2)
                yield word


def bad_from(rng):
    """Bad bytes from each place on, and a bad byte eight times."""
    for first in range(BYTES):
        for word in fillings(rng):
            word[first:] = bad_bytes(rng, BYTES - first)
            yield word
    for byte in BAD:
        yield [byte] * BYTES


def by_chance(rng, count):
    """Codes, codes with a few other bytes among them, or any bytes."""
    for _ in range(count):
        share = rng.choice([0, 0.1, 1])
        yield [rng.randrange(256) if rng.random() < share else rng.choice(CODES) for _ in range(BYTES)]


def questions(rng, count):
    """Lists of words: a fixed number of them, and in the last list `count` random ones."""
    for made in (any_byte(rng), neighbours(rng), two_bits(rng), two_bad(rng), bad_from(rng), by_chance(rng, count)):
        yield [int.from_bytes(word, 'little') for word in made]


# Sheets, as (rows, cols, directions).

def bad_sheets(rng, n, first):
    """Directions of n cells, and some past them, with the first bad one at `first`."""
    after = n - first - 1
    past = bad_bytes(rng, rng.randint(1, MOST_PAST))
    yield [0] * first + bad_bytes(rng, 1) + [0] * after
    yield [0] * first + bad_bytes(rng, 1) + [0] * after + past
    yield codes(rng, first) + bad_bytes(rng, 1) + codes(rng, after)
    yield codes(rng, first) + bad_bytes(rng, 1) + codes(rng, after) + past
    yield codes(rng, first) + bad_bytes(rng, 1) + [rng.choice(CODES + BAD) for _ in range(after)]
    yield codes(rng, first) + bad_bytes(rng, 1 + after) + past


def sheets(rng):
    """Every size of 1 to 40 cells, with the first bad direction at each cell, and with none but past the sheet; then
    the largest size, with bad directions at the end."""
    for n in range(1, MOST_CELLS + 1):
        for rows, cols in [(rows, n // rows) for rows in range(1, n + 1) if n % rows == 0]:
            for first in range(n):
                for dirs in bad_sheets(rng, n, first):
                    yield rows, cols, dirs
            for longer in range(MOST_PAST + 1):
                yield rows, cols, rng.choice(shapes.SHAPES)(rng, rows, cols) + bad_bytes(rng, longer)
    for count in (1, BYTES, BYTES + 1):
        yield 256, 256, codes(rng, 65536 - count) + bad_bytes(rng, count)
