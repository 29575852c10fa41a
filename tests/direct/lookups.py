"""Makes the lookups of tests/direct/cases.py: a basin, leading digits, a label slice, an odd number at its end or none,
and a basin slice, good and bad; tells of which kinds they are. Labels are records."""
from typing import NamedTuple

import lent_basins
import no_labels
import reference
from reference import digits_of, numbers_of, record_of

DIGITS = reference.MAX_DEPTH  # of the longest label
HALF = reference.MAX_DIGITS  # of its first number
NONE = record_of('')
SMALL = [record_of(text) for text in ('', '1', '2', '11', '12', '21', '111')]
SMALL += [(10, 0), (no_labels.ones(19), 0), (1, 1)]
LARGE = 400  # a slice with more labels is large
LEADING = [0, 1, 17, 18, 19, 35, 36]  # numbers of leading digits that are counted

# What is counted of a lookup: its answer, and what is at fault.
ALIKE = 'neighbours alike in the first 18 digits'
FAULTS = [who + kind for who in ('leading digits: ', 'an entry: ') for kind in no_labels.AT_MOST]
KINDS = (['all', 'a part', 'a part of a large slice', 'none: at the start', 'none: between', 'none: at the end',
          'nothing lent', 'no leading digits', 'a whole label', 'refused by 11', 'leading digits at fault',
          'entry at fault', '11 and 16 at fault', 'refused by 16', 'equal neighbours', 'a label after one it begins',
          'accepted with ' + ALIKE, '16 for ' + ALIKE, 'equal neighbours of more than 18 digits',
          '18 digits after 19 that they begin', 'part begins or ends between labels alike in 18 digits',
          'an odd number at the end', 'an odd number alone', 'an odd number that would rise',
          'an odd number that would not rise', 'an odd number that is no label']
         + ['%d leading digits' % count for count in LEADING]
         + ['a part with %d leading digits' % count for count in LEADING[1:]] + FAULTS)


# What is counted of the basins.
LENGTH_KINDS = ['as many basins as labels', 'one basin more', 'many basins more', 'one basin too few',
                'several basins too few', 'no basin', 'basins past the labels that would not rise',
                'an odd number and no basin for it', 'nothing lent but basins', 'refused by 3', '3 before 11: leading',
                '3 before 11: an entry', '3 before 16']
SEVERAL_KINDS = ['all of a basin', 'a part of a basin', 'a whole label of two basins', 'the first basin',
                 'the last basin', 'a basin between', 'the next basin has such labels too',
                 'the basin before has such labels too', 'none: at the start of a basin', 'none: within a basin',
                 'none: at the end of a basin', 'none in the basin, some in another',
                 'a basin that is lacking: before all', 'a basin that is lacking: between',
                 'a basin that is lacking: after all', 'labels that fall at a basin', 'equal labels at a basin',
                 'basins with 2^31 between', 'more than 10000 basins']
RISE_KINDS = ['16 for falling basins and %s labels' % labels for labels in ('rising', 'equal', 'falling')]
RISE_KINDS += ['16 for equal basins and %s labels' % labels for labels in ('equal', 'falling')]
RISE_KINDS += ['11 and falling basins']
BASIN_KINDS = ['found in basin %d' % basin for basin in lent_basins.EDGES]
BASIN_KINDS += ['lacking basin %d' % basin for basin in (0, lent_basins.LARGEST)]
KINDS += LENGTH_KINDS + SEVERAL_KINDS + RISE_KINDS + BASIN_KINDS


class Lookup(NamedTuple):
    basin: int
    leading: tuple
    labels: list
    basins: list
    odd: list  # a number at the end of the label slice, or none


def kinds(asked, answer):
    """The kinds that a lookup belongs to."""
    number, count = answer[0], len(asked.labels)
    yield from length_kinds(asked, number)
    if number == 3:
        return
    if set(asked.basins[:count]) <= {asked.basin}:
        yield from one_basin_kinds(asked.leading, asked.labels, asked.odd, answer)
    entries = list(zip(asked.basins, map(digits_of, asked.labels)))
    if number == 0:
        yield from several_kinds(asked, entries, answer)
    else:
        yield from rise_kinds(number, list(zip(entries, entries[1:])))


def length_kinds(asked, number):
    """Of the lengths of both slices."""
    count, lent = len(asked.labels), len(asked.basins)
    if number == 3:
        yield 'refused by 3'
        yield 'one basin too few' if lent == count - 1 else 'several basins too few'
        if lent == 0:
            yield 'no basin'
        other = reference.lookup(asked.basin, asked.leading, numbers_of(asked.labels), [1] * count)[0]
        if other == 11:
            is_leading = not reference.is_label(asked.leading, DIGITS)
            yield '3 before 11: ' + ('leading' if is_leading else 'an entry')
        elif other == 16:
            yield '3 before 16'
    elif number == 0:
        yield ('as many basins as labels', 'one basin more')[lent - count] if lent < count + 2 else 'many basins more'
        if any(a > b for a, b in zip(asked.basins[max(0, count - 1):], asked.basins[count:])):
            yield 'basins past the labels that would not rise'
        if asked.odd and lent == count:
            yield 'an odd number and no basin for it'
        if count == 0 < lent and not asked.odd:
            yield 'nothing lent but basins'


def several_kinds(asked, entries, answer):
    """Of an accepted lookup."""
    basin, (number, start, length) = asked.basin, answer
    own = [place for place, (of, digits) in enumerate(entries) if of == basin]
    such = [of for of, digits in entries if digits.startswith(digits_of(asked.leading))]
    distinct = sorted({of for of, digits in entries})
    if length and basin in lent_basins.EDGES:
        yield 'found in basin %d' % basin
    if not own and entries and basin in (0, lent_basins.LARGEST):
        yield 'lacking basin %d' % basin
    if len(distinct) + (not own) > 1:
        yield from places_of_basin(basin, distinct, own, such, entries, answer)
    pairs = [(a, b) for a, b in zip(entries, entries[1:]) if a[0] != b[0]]
    told = {'labels that fall at a basin': any(a[1] > b[1] for a, b in pairs),
            'equal labels at a basin': any(a[1] == b[1] for a, b in pairs),
            'basins with 2^31 between': any(a[0] < 2 ** 31 <= b[0] for a, b in pairs),
            'more than 10000 basins': len(distinct) > 10000 and 0 < length < len(entries),
            'a whole label of two basins': length and sum(entries[start][1] == text for _, text in entries) > 1}
    yield from (kind for kind, holds in told.items() if holds)


def places_of_basin(basin, distinct, own, such, entries, answer):
    """Of an accepted lookup in a slice with other basins than the one asked for; `own` are the places of its labels,
    and `such` the basins of all labels that begin so."""
    number, start, length = answer
    if not own:
        yield 'a basin that is lacking: ' + ('before all' if start == 0 else 'after all' if start == len(entries)
                                             else 'between')
    elif length:
        yield 'all of a basin' if length == len(own) else 'a part of a basin'
        yield ('the first basin' if basin == distinct[0] else 'the last basin' if basin == distinct[-1]
               else 'a basin between')
    else:
        yield 'none: ' + ('at the start of a basin' if start == own[0] else 'at the end of a basin'
                          if start == own[-1] + 1 else 'within a basin')
    if such and not length:
        yield 'none in the basin, some in another'
    if length and basin + 1 in such:
        yield 'the next basin has such labels too'
    if length and basin - 1 in such:
        yield 'the basin before has such labels too'


def rise_kinds(number, pairs):
    """Of a lookup refused by 11 or 16; `pairs` are the neighbours."""
    falling = [(a, b) for a, b in pairs if a >= b]
    if number == 11:
        if any(a[0] > b[0] for a, b in falling):
            yield '11 and falling basins'
    elif len(falling) == 1:
        (a, a_text), (b, b_text) = falling[0]
        yield '16 for %s basins and %s labels' % ('equal' if a == b else 'falling', 'equal' if a_text == b_text
                                                  else 'rising' if a_text < b_text else 'falling')


def one_basin_kinds(leading, labels, tail, answer):
    """Of a lookup in which all labels are of the basin asked for."""
    number = answer[0]
    texts = [digits_of(label) for label in labels]
    if number == 0:
        yield from kinds_of_accepted(leading, texts, answer)
        yield from kinds_of_odd(texts, tail)
    else:
        yield 'refused by %d' % number
    if number == 11:
        yield from kinds_of_no_label(leading, labels)
        if texts != sorted(set(texts)):
            yield '11 and 16 at fault'
    if number == 16:
        yield from kinds_by_16(list(zip(texts, texts[1:])))


def kinds_of_accepted(leading, texts, answer):
    number, start, length = answer
    count, digits = len(texts), len(digits_of(leading))
    if count == 0:
        yield 'nothing lent'
    elif length == 0:
        yield 'none: ' + ('at the start' if start == 0 else 'at the end' if start == count else 'between')
    else:
        yield 'all' if length == count else 'a part'
    if digits in LEADING:
        yield '%d leading digits' % digits
        if digits > 0 and 0 < length < count:
            yield 'a part with %d leading digits' % digits
    if leading == NONE:
        yield 'no leading digits'
    elif digits_of(leading) in texts[start:start + 1]:
        yield 'a whole label'
    if 0 < length < count and count > LARGE:
        yield 'a part of a large slice'
    if any(alike(a, b) for a, b in zip(texts, texts[1:])):
        yield 'accepted with ' + ALIKE
    for end in (start, start + length):
        if 0 < end < count and alike(texts[end - 1], texts[end]):
            yield 'part begins or ends between labels alike in 18 digits'


def kinds_of_odd(texts, tail):
    for number in tail:
        yield 'an odd number at the end' if texts else 'an odd number alone'
        text = digits_of((number, 0))
        if texts:
            yield 'an odd number that would rise' if text > texts[-1] else 'an odd number that would not rise'
        if not reference.is_label((number, 0), DIGITS):
            yield 'an odd number that is no label'


def kinds_of_no_label(leading, labels):
    bad = [label for label in labels if not reference.is_label(label, DIGITS)]
    if not reference.is_label(leading, DIGITS):
        yield 'leading digits at fault'
        if not bad:
            yield from ('leading digits: ' + kind for kind in no_labels.kinds(leading, DIGITS))
        return
    yield 'entry at fault'
    if len(bad) == 1:
        yield from ('an entry: ' + kind for kind in no_labels.kinds(bad[0], DIGITS))


def kinds_by_16(pairs):
    falling = [(a, b) for a, b in pairs if a >= b]
    if any(a == b for a, b in pairs):
        yield 'equal neighbours'
    if any(a == b and len(a) > HALF for a, b in pairs):
        yield 'equal neighbours of more than 18 digits'
    if any(a != b and a.startswith(b) for a, b in pairs):
        yield 'a label after one it begins'
    if any(len(a) == 19 and a[:18] == b for a, b in pairs):
        yield '18 digits after 19 that they begin'
    if all(alike(a, b) and a != b for a, b in falling):
        yield '16 for ' + ALIKE


def alike(a, b):
    return a[:HALF] == b[:HALF] and len(a) >= HALF <= len(b)


def small():
    """Every slice of up to two of a few records, with each of them as leading digits."""
    slices = [[]] + [[a] for a in SMALL] + [[a, b] for a in SMALL for b in SMALL]
    return [(leading, labels) for labels in slices for leading in SMALL]


# Labels on both sides of the border between the two numbers, in dictionary order, and leading digits for them.
BORDER = [record_of(text) for text in ['1', '1' * 17, '1' * 18, '1' * 19, '1' * 36, '1' * 35 + '2', '1' * 18 + '2',
                                       '1' * 18 + '9' * 18, '1' * 17 + '2', '1' * 17 + '21', '1' * 17 + '29', '2',
                                       '9' * 17, '9' * 18, '9' * 19, '9' * 35, '9' * 36]]
BORDER_LEADING = BORDER + [record_of(text) for text in ['', '1' * 16, '1' * 20, '1' * 34, '1' * 35, '1' * 35 + '3',
                                                        '1' * 18 + '3', '1' * 17 + '3', '1' * 17 + '22', '12', '3',
                                                        '99', '9' * 34]]


def edges():
    """Labels of up to 36 digits and records that are no labels, as leading digits and at each place of a slice."""
    for leading in BORDER_LEADING + no_labels.EDGES:
        yield leading, BORDER
        yield leading, BORDER[::-1]
    for first in BORDER:
        for second in BORDER:
            yield BORDER[2], [first, second]
    good, nine = BORDER[::3], record_of('9')
    for bad in no_labels.EDGES:
        for place in range(len(good) + 1):
            yield nine, good[:place] + [bad] + good[place:]
            yield nine, good[:place] + [bad] + good[:place:-1]
        yield bad, good[:1] + [bad] + good[1:]


def odd_ends(rng):
    """Slices that end with an odd number: a label or none, one that would rise or not, or any."""
    for labels in ([], BORDER[:1], BORDER[:2], BORDER, BORDER[::-1], BORDER[2:5]):
        for number in [0, 1, 2, 9, 10, no_labels.ones(18), 10 ** 18 - 1, no_labels.LARGEST, rng.getrandbits(64)]:
            for leading in (NONE, BORDER[0], BORDER[2], BORDER[3], record_of('5')):
                yield leading, labels, [number]


def in_large(labels):
    """Parts of a long slice, and faults at its end."""
    middle = digits_of(labels[len(labels) // 2])
    texts = ['', middle, middle[:1], middle[:2], middle[:18], middle[:19], (middle + '11')[:DIGITS]]
    for leading in [labels[0], labels[-1], (10, 0)] + [record_of(text) for text in texts]:
        yield leading, labels
    yield labels[0], labels[:-2] + labels[:-3:-1]
    yield labels[0], labels + labels[-1:]
    yield labels[0], labels[1::-1] + labels[2:] + [(10, 0)]


def label_text(rng, digits, longest):
    return ''.join(rng.choices(digits, k=rng.randint(1, longest)))


def made_slice(rng):
    """Any labels in dictionary order, as text; often several that begin alike."""
    digits, longest = rng.choice(['123456789', '13579', '12']), rng.choice([2, 4, 18, DIGITS, DIGITS])
    texts = {label_text(rng, digits, longest) for _ in range(rng.choice([0, 1, 2, 5, 12, 40]))}
    if rng.random() < 0.1:
        texts.add('')
    for text in rng.sample(sorted(texts), min(len(texts), rng.choice([0, 0, 2]))):
        texts.add(text[:rng.randint(1, DIGITS)])
    if rng.random() < 0.3:
        begun = no_labels.some_digits(rng, rng.choice([16, 17, 18, 18, 34]))
        texts |= {begun + label_text(rng, digits, 2) for _ in range(rng.randint(1, 8))}
    return sorted(texts)


def damaged(rng, labels):
    """The labels with something that is, or may be, at fault."""
    labels = list(labels)
    at = rng.randrange(len(labels))
    text = digits_of(labels[at])
    kind = rng.randrange(7)
    if kind == 0:
        labels[at:at + 2] = labels[at:at + 2][::-1]
    elif kind == 1:
        labels.insert(at, labels[at])
    elif kind == 2:
        rng.shuffle(labels)
    elif kind == 3:
        labels.insert(at + rng.randint(0, 1), record_of(text[:rng.randint(0, len(text))]))
    elif kind in (4, 5):
        labels[at] = no_labels.made(rng, DIGITS, text)
    else:
        labels[at] = rng.getrandbits(rng.choice([4, 16, 64])), rng.choice([0, rng.getrandbits(rng.choice([4, 64]))])
    return labels


def leading_digits(rng, labels):
    """None, those of an entry, its first, some more than it has, or any."""
    text = digits_of(rng.choice(labels)) if labels else ''
    kind = rng.randrange(14)
    if kind == 0:
        return NONE
    if kind < 3:
        return record_of(text)
    if kind < 6:
        return record_of(text[:rng.randint(1, 3)])
    if kind < 8:
        return record_of(text[:rng.choice([17, 18, 19, 35, rng.randint(1, DIGITS)])])
    if kind < 10:
        return record_of((text + label_text(rng, '123456789', 3))[:DIGITS])
    if kind < 13:
        return record_of(label_text(rng, '123456789', rng.choice([1, 2, DIGITS])))
    return no_labels.made(rng, DIGITS, text) if rng.random() < 0.5 else (rng.getrandbits(64), rng.getrandbits(64))


def by_chance(rng, indexes):
    """Leading digits and labels, as of one basin."""
    real = indexes and rng.random() < 0.3
    labels = [label for _, label in rng.choice(indexes)] if real else [record_of(text) for text in made_slice(rng)]
    leading = leading_digits(rng, labels)
    for _ in range(rng.choice([0, 0, 0, 1, 1, 2]) if labels else 0):
        labels = damaged(rng, labels)
    return leading, labels


# Several basins. Entries are (basin, label).

def some_basins(rng):
    """Basins in rising order: small ones, neighbours, or any."""
    count, first = rng.choice([1, 2, 3, 3, 5]), lent_basins.some_basin(rng)
    kind = rng.randrange(3)
    if kind == 0:
        return list(range(1, count + 1))
    if kind == 1:
        return sorted({(first + step) % 2 ** 32 for step in range(count)})
    return sorted({lent_basins.some_basin(rng) for _ in range(count)})


def made_entries(rng):
    """Labels of several basins in the order of an index; neighbours often have the same or such as begin alike."""
    labels, entries = [record_of(text) for text in made_slice(rng)], []
    for basin in some_basins(rng):
        if rng.random() < 0.5:
            labels = [record_of(text) for text in made_slice(rng)]
        entries += [(basin, label) for label in rng.choice([labels, labels[:rng.randint(0, 3)]])]
    return entries


def damaged_entries(rng, entries):
    """The entries with something that is, or may be, at fault."""
    entries = list(entries)
    at = rng.randrange(len(entries))
    basin, label = entries[at]
    kind = rng.randrange(8)
    if kind == 0:
        entries[at:at + 2] = entries[at:at + 2][::-1]
    elif kind == 1:
        entries.insert(at, entries[at])
    elif kind == 2:
        entries.sort(key=lambda entry: (digits_of(entry[1]), entry[0]))  # by label and then basin
    elif kind == 3:
        entries[at] = lent_basins.other_than(rng, basin), label
    elif kind == 4:
        entries.append(entries.pop(at))
    elif kind == 5:
        entries[at] = basin, no_labels.made(rng, DIGITS, digits_of(label))
    elif kind == 6:
        entries.append((lent_basins.other_than(rng, entries[-1][0]), entries[-1][1]))
    else:
        entries.reverse()
    return entries


def basin_for(rng, entries):
    """One of the entries, a neighbour of it, or any."""
    if not entries or rng.random() < 0.15:
        return lent_basins.some_basin(rng)
    basin = rng.choice(entries)[0]
    return rng.choice([basin] * 6 + [(basin + 1) % 2 ** 32, (basin - 1) % 2 ** 32])


def basin_slice(rng, basins, short):
    """The basins with more past them, which are not looked at; by the chance `short` with too few."""
    if basins and rng.random() < short:
        return basins[:rng.choice([0, len(basins) - 1, len(basins) - 1, rng.randrange(len(basins))])]
    more = rng.choice([0, 0, 0, 1, 1, 7, len(basins)])
    return basins + [rng.choice([0, 1, *basins[-1:], lent_basins.some_basin(rng)]) for _ in range(more)]


def odd_end(rng):
    return [rng.choice([0, 1, 9, rng.getrandbits(64)])] * rng.choice([0, 0, 0, 1])


def asked_of(rng, basin, leading, entries, short=0.06):
    basins, labels = [of for of, _ in entries], [label for _, label in entries]
    return Lookup(basin, leading, labels, basin_slice(rng, basins, short), odd_end(rng))


def in_several(rng, indexes):
    """A lookup in the labels of several basins, or of an index."""
    entries = rng.choice(indexes) if indexes and rng.random() < 0.3 else made_entries(rng)
    basin = basin_for(rng, entries)
    near = [label for of, label in entries if of in (basin - 1, basin, basin + 1)]
    leading = leading_digits(rng, rng.choice([near, [label for _, label in entries]]))
    for _ in range(rng.choice([0, 0, 0, 1, 1, 2]) if entries else 0):
        entries = damaged_entries(rng, entries)
    return asked_of(rng, basin, leading, entries)


def small_basins(rng):
    """Every slice of up to two of a few labels in a few basins, with each of them as leading digits of each basin; then
    every number of basins for up to three labels, good and bad."""
    few = [(basin, record_of(text)) for basin in (0, 1, 2, lent_basins.LARGEST) for text in ('', '1', '11', '2')]
    for entries in [[]] + [[a] for a in few] + [[a, b] for a in few for b in few]:
        for basin, leading in few:
            yield asked_of(rng, basin, leading, entries, 0)
    bad = (10, 0)
    for labels in ([], ['1'], ['1', '2'], ['2', '1'], ['1', '2', '3'], ['3', '2', '1']):
        for records in ([record_of(text) for text in labels], [bad, *map(record_of, labels)][:len(labels)]):
            for leading in (record_of('1'), NONE, bad):
                for lent in range(6):
                    for odd in ([], [7]):
                        yield Lookup(1, leading, records, [1] * lent, odd)


def edge_basins(rng):
    """Every three of some basins in rising order, each asked for."""
    edges = sorted(lent_basins.EDGES)
    for at, first in enumerate(edges):
        for second in edges[at + 1:]:
            entries = [(basin, record_of(text)) for basin in (first, second) for text in ('1', '12', '2')]
            for basin in edges:
                yield asked_of(rng, basin, record_of(rng.choice(['', '1', '12', '13', '2', '3'])), entries, 0)
            yield asked_of(rng, first, record_of('1'), entries[3:] + entries[:3], 0)


def in_large_index(rng, entries):
    """Labels of some basins of a large sheet, basins that it lacks, and faults at its end."""
    last = entries[-1][0]
    for basin in {0, 1, 2, last // 2, last - 1, last, last + 1, lent_basins.LARGEST}:
        own = [label for of, label in entries if of == basin] or [NONE]
        leading = rng.choice([NONE, rng.choice(own), record_of(digits_of(own[-1])[:1])])
        yield asked_of(rng, basin, leading, entries, 0)
    yield asked_of(rng, last, NONE, entries + entries[-1:], 0)
    yield asked_of(rng, last, NONE, entries[:-2] + entries[:-3:-1], 0)
    yield Lookup(last, NONE, [label for _, label in entries], [basin for basin, _ in entries][:-1], [])


def one_basin_questions(rng, count, indexes, large_indexes):
    """Triples (leading digits, labels, odd numbers at the end, none or one), as of one basin: a fixed part, some in the
    slices of large sheets, and `count` random ones."""
    for leading, labels in [*small(), *edges()]:
        yield leading, labels, []
    yield from odd_ends(rng)
    for entries in large_indexes:
        if entries[-1][0] == 1:
            for turn, (leading, slice_) in enumerate(in_large([label for _, label in entries])):
                yield leading, slice_, [rng.getrandbits(64)] * (turn % 2)
    for _ in range(count):
        yield *by_chance(rng, indexes), odd_end(rng)


def questions(rng, count, indexes, large_indexes):
    """Lookups: a fixed part, some in the slices of large sheets, and `count` random ones, half of them in slices of
    several basins. `indexes` are lists of (basin, label)."""
    alone = [entries for entries in indexes if entries[-1][0] == 1]
    for leading, labels, odd in one_basin_questions(rng, count - count // 2, alone, large_indexes):
        basin = lent_basins.some_basin(rng)
        yield Lookup(basin, leading, labels, basin_slice(rng, [basin] * len(labels), 0.02), odd)
    yield from small_basins(rng)
    yield from edge_basins(rng)
    for entries in large_indexes:
        if entries[-1][0] > 1:
            yield from in_large_index(rng, entries)
    for _ in range(count // 2):
        yield in_several(rng, indexes)
