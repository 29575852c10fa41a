#!/usr/bin/env python3
"""Writes cases for tests/direct/direct.c to standard output: calls with what tests/reference.py expects of
them, and both questions about the labels of a sheet with what the water does. What is expected of plans of a sheet's
basin is compared with the water too.

A case is a byte that names its call, then numbers of 8 bytes, lowest byte first, and slices. A label is two numbers,
and the length of a slice of labels counts numbers. A label that is asked about is three: its basin comes first.
'L', labelling: rows, cols, depth, least, split and the lengths of directions, weights, areas, labels, basins and work
places; these slices before the call; the answer (0, or refusal number + 256 x place); areas, labels, basins and work
places after it. Directions and weights must stay as they are.
'I', the index: the same with four slices more, the labels, outlets, counts and basins of units; accepted, the answer is
256 x the number of units.
'V', the levy: the basin and the total, then the same as for the index with one slice more, the dues of units.
'P', a lookup: the leading digits with their basin, the lengths of the label slice and the basin slice, these slices,
start and length before; the answer, start and length after, which count labels.
'F', the flow question: depth, least, p, q, the answer.
'O', the outlet question: depth, p, q, the answer.
'S', both questions about every two labels of a sheet: depth, least, the number of labels, the labels; the answers to
the outlet question, then those to the flow question, a byte each, a row of them for each label as p, with one for each
label as q.
'W', the word test: the number of words, the words; the answers, a byte each.
'M', the flow question about many pairs: depth, least and the lengths of P's labels and basins, of Q's labels and basins
and of the answers; these slices before the call; the answer (256 x the number of pairs, or refusal number); the
answers, a byte each, after it. Labels and basins must stay as they are.
'K', the check of a plan: the lengths of the index, the plan and the work places; these slices before the call; the
answer (0, or refusal number + 256 x place); the work places after it. Index and plan must stay as they are.

At the end a tally of the kinds of cases goes to standard error; if one of them did not occur, the status is 1. The same
--seed makes the same cases."""
import argparse
import os
import random
import sys
from array import array

sys.dont_write_bytecode = True
sys.path.insert(0, os.path.join(os.path.dirname(os.path.abspath(__file__)), '..'))
import depths
import flows
import lent_basins
import lent_labels
import lent_splits
import lent_weights
import levies
import long_labels
import lookups
import outlets
import pairs
import plan_kinds
import plans
import reference
import shapes
import splits
import weights
import words
from reference import numbers_of, places

PLACE = 256  # an answer is number + 256 x place
LABEL_WIDTHS = [4, 8, 4, 4]  # bytes of a place of areas, labels, basins, work places
OF_LABEL = len(LABEL_WIDTHS)
INDEX_WIDTHS = [8, 4, 4, 4]  # of labels, outlets, counts, basins of units
INDEX_NAMES = ['labels', 'outlets', 'counts', 'basins']
DUES_WIDTH = 8
SAMPLE_A = [0, 4, 16, 8, 16, 16, 16, 16, 64, 64, 32, 64]

# The kinds of cases of each call, and how many of each were made.
ACCEPTED, REFUSED = 'accepted', 'refused by %d'
LABEL_KINDS = [ACCEPTED] + [REFUSED % number for number in (1, 2, 19, 3, 17, 4, 5, 6)]
INDEX_KINDS = (LABEL_KINDS + ['short ' + name for name in [*INDEX_NAMES, 'slices']]
               + ['longer slices', 'short slices unseen'])
tally = {
    'pf_label': dict.fromkeys(LABEL_KINDS, 0),
    'pf_index': dict.fromkeys(INDEX_KINDS, 0),
    'pf_levy': dict.fromkeys(levies.KINDS, 0),
    'labels': dict.fromkeys(lent_labels.KINDS, 0),
    'labels of units': dict.fromkeys(lent_labels.UNIT_KINDS, 0),
    'basins': dict.fromkeys(lent_basins.KINDS, 0),
    'basins of units': dict.fromkeys(lent_basins.UNIT_KINDS, 0),
    'weights': dict.fromkeys(lent_weights.KINDS, 0),
    'least and split': dict.fromkeys(lent_splits.KINDS, 0),
    'pf_lookup': dict.fromkeys(lookups.KINDS, 0),
    'pf_flow': dict.fromkeys(flows.KINDS, 0),
    'pf_outlet_flow': dict.fromkeys(flows.OUTLET_KINDS, 0),
    'labels of both questions': dict.fromkeys(flows.LABEL_KINDS, 0),
    'outlets': dict.fromkeys(outlets.KINDS, 0),
    'pf_first_bad': dict.fromkeys(words.KINDS, 0),
    'directions': dict.fromkeys(words.SHEET_KINDS, 0),
    'pf_flow_pairs': dict.fromkeys(pairs.KINDS, 0),
    'pf_check_plan': dict.fromkeys(plan_kinds.KINDS, 0),
}


def array_of(width, values):
    """Numbers of so many bytes as C lays them out."""
    return array({2: 'H', 4: 'I', 8: 'Q'}[width], values)


def numbers(values):
    return array_of(8, values).tobytes()


def rubbish(rng, widths, lengths):
    return [array_of(width, rng.randbytes(width * length)) for width, length in zip(widths, lengths)]


def written(places, values):
    """The places after a call that writes these values to the first of them."""
    return array_of(places.itemsize, values) + places[len(values):]


# Sheets. A sheet is (rows, cols, depth, least, split); `lent` are its weights; `lengths` are those of areas, labels,
# basins and work places.

def labelled_places(sheet, labelled, areas, labels, basins, work):
    """The slices of labelling after a call in which it gave `labelled`."""
    number, place, new_areas, new_labels, new_basins = labelled
    if number == 0:
        areas, labels = written(areas, new_areas), written(labels, numbers_of(new_labels))
        basins = written(basins, new_basins)
    if number not in (1, 2, 19, 3):
        work = written(work, [0] * (reference.WORK * sheet[0] * sheet[1]))
    return [areas, labels, basins, work]


def unit_values(units):
    """What a call writes to the slices of an index."""
    labels, outlet_cells, counts, basins = zip(*units)
    return [numbers_of(labels), outlet_cells, counts, basins]


def write_case(out, call, sheet, dirs, lent, before, answer, after):
    out.write(call + numbers([*sheet, len(dirs), len(lent), *map(len, before)]) + dirs + array_of(2, lent).tobytes())
    out.writelines(places.tobytes() for places in before)
    out.write(numbers([answer]))
    out.writelines(places.tobytes() for places in after)


def label_case(out, rng, sheet, dirs, lent, lengths, labelled):
    number, place = labelled[:2]
    before = rubbish(rng, LABEL_WIDTHS, lengths)
    write_case(out, b'L', sheet, dirs, lent, before, number + PLACE * place, labelled_places(sheet, labelled, *before))
    tally['pf_label'][REFUSED % number if number else ACCEPTED] += 1
    for kind in lent_labels.kinds(sheet, dirs, lengths[1], labelled):
        tally['labels'][kind] += 1
    for kind in lent_basins.kinds(sheet, dirs, lengths, labelled):
        tally['basins'][kind] += 1


def index_case(out, rng, sheet, dirs, lent, lengths, index_lengths, labelled):
    rows, cols = sheet[:2]
    number, place, *_, units = reference.index_after(labelled, rows, cols, dirs, *index_lengths)
    before = rubbish(rng, LABEL_WIDTHS + INDEX_WIDTHS, [*lengths, *index_lengths])
    after = labelled_places(sheet, labelled, *before[:OF_LABEL]) + before[OF_LABEL:]
    if number == 0:
        after[OF_LABEL:] = [written(slice_, values) for slice_, values in zip(before[OF_LABEL:], unit_values(units))]
    answer = PLACE * len(units) if number == 0 else number + PLACE * place
    write_case(out, b'I', sheet, dirs, lent, before, answer, after)
    count_index(index_lengths, labelled, number)


def units_in(labelled):
    """The units of an accepted sheet as (basin, label), in the order of the index."""
    found = {(basin, reference.digits_of(label)) for label, basin in zip(*labelled[3:]) if basin != 0}
    return [(basin, reference.record_of(digits)) for basin, digits in sorted(found)]


def count_index(index_lengths, labelled, number):
    kinds = tally['pf_index']
    rooms = [places(index_lengths[0]), *index_lengths[1:]]
    count = len(units_in(labelled)) if labelled[0] == 0 else 0
    if labelled[0] == 0 and number == 3:
        short = [room < count for room in rooms]
        kinds['short ' + ('slices' if sum(short) > 1 else INDEX_NAMES[short.index(True)])] += 1
    else:
        kinds[REFUSED % number if number else ACCEPTED] += 1
        kinds['longer slices'] += number == 0 and min(rooms) > count
        kinds['short slices unseen'] += number != 0 and max(rooms) == 0
    if labelled[0] == 0:
        for kind in lent_labels.unit_kinds(index_lengths[0], count, number):
            tally['labels of units'][kind] += 1
        for kind in lent_basins.length_kinds(index_lengths[3], count, number, min(rooms[:3]) >= count):
            tally['basins of units'][kind] += 1


def sheet_cases(out, rng, sheet, dirs, lent, lengths=None, index_lengths=None):
    """A labelling case and an index case of one sheet; it may lack least and split, which are then 1 and 4. Without
    lengths the slices of labelling are exact; without index lengths those of the index are chosen. Basins of an
    accepted sheet are labelled alone too. Returns the units as (basin, label), none if labelling refused."""
    rows, cols = sheet[:2]
    sheet = sheet if len(sheet) == 5 else (*sheet, *splits.NEITHER)
    dirs, lengths = bytes(dirs), lengths or reference.lengths_for(rows * cols)
    labelled = reference.label(*sheet, dirs, lent, *lengths)
    for kind in lent_splits.kinds(sheet, dirs, lent, lengths, labelled):
        tally['least and split'][kind] += 1
    for kind in lent_weights.kinds(sheet, dirs, lent, labelled):
        tally['weights'][kind] += 1
    for kind in words.sheet_kinds(sheet, dirs, labelled):
        tally['directions'][kind] += 1
    label_case(out, rng, sheet, dirs, lent, lengths, labelled)
    units = []
    if labelled[0] == 0:
        units = units_in(labelled)
        if max(labelled[4]) > 1:
            tally['basins'][lent_basins.ALONE] += lent_basins.compare_alone(rng, sheet, dirs, lent, labelled)
    index_case(out, rng, sheet, dirs, lent, lengths, index_lengths or chosen_lengths(rng, len(units)), labelled)
    return units


def chosen_lengths(rng, count):
    """Lengths of the index's slices for so many units: enough, or one or more of them short; some rubbish if there are
    none."""
    if count == 0:
        return rng.choice([[0] * 4, [rng.randint(0, 9) for _ in range(4)]])
    wanted = rooms_for(count)
    lengths = [needed + rng.choice([0, 0, 0, 1, rng.randint(0, 60)]) for needed in wanted]
    for short in rng.sample(range(4), rng.choice([0, 0, 0, 0, 0, 0, 1, 1, 2, 4])):
        lengths[short] = rng.choice([0, wanted[short] - 1, wanted[short] - 1, rng.randrange(wanted[short])])
    return lengths


def rooms_for(count):
    """The lengths of the index's slices that so many units need."""
    return [reference.RECORD * count, count, count, count]


def length(rng, wanted):
    """Exact, longer, or too short."""
    return max(0, wanted + rng.choice([0, 0, 0, 0, 0, 0, 1, 7, rng.randint(0, 60), -1, -wanted]))


def random_sheets(out, rng, count):
    """Returns the units of each, as (basin, label)."""
    indexes = []
    for _ in range(count):
        side = rng.choice([3, 6, 12, 24, 40])
        rows, cols = rng.randint(1, side), rng.randint(1, side)
        dirs = rng.choice(shapes.SHAPES)(rng, rows, cols)
        if rng.random() < 0.1:
            dirs[rng.randrange(len(dirs))] = rng.randrange(256)
        n = rows * cols
        depth = depths.by_chance(rng)
        lent, lengths = lent_weights.chosen(rng, rows, cols, dirs), None
        if rng.random() < 0.4:
            lengths = [length(rng, wanted) for wanted in reference.lengths_for(n)]
            dirs = dirs[:length(rng, n)] + [rng.randrange(256) for _ in range(max(0, length(rng, n) - n))]
        units = sheet_cases(out, rng, (rows, cols, depth), dirs, lent, lengths)
        for _ in range(3 if units else 0):
            flow_cases(out, depth, [rng.choice(flows.LEASTS)], rng.choice(units), rng.choice(units))
        if units:
            indexes.append(units)
    return indexes


def long_label_sheets(out, rng, count):
    """Sheets with labels of each length that is counted, and so many random ones; with the labels' slice exact, or with
    an odd number at its end. Returns the units of each."""
    sheets = [*long_labels.of_digits(rng), *(long_labels.by_chance(rng) for _ in range(count))]
    indexes = []
    for *sheet, dirs, lent in sheets:
        lengths = reference.lengths_for(sheet[0] * sheet[1])
        lengths[1] += rng.choice([0, 0, 1, 2])
        indexes.append(sheet_cases(out, rng, tuple(sheet), dirs, lent, lengths))
    return indexes


def label_lengths(out, rng):
    """Every number of numbers that matters for the labels of a sheet, and for those of its units."""
    for rows, cols, dirs in [(1, 1, [1]), (3, 4, SAMPLE_A), (2, 40, shapes.comb(rng, 2, 40))]:
        sheet, lent, exact = (rows, cols, 36, 1, 1), [1] * rows, reference.lengths_for(rows * cols)
        for numbers_lent in lent_labels.edges(rows * cols):
            units = sheet_cases(out, rng, sheet, dirs, lent, [exact[0], numbers_lent, *exact[2:]])
        for numbers_lent in lent_labels.edges(len(units)):
            sheet_cases(out, rng, sheet, dirs, lent, exact, [numbers_lent, *rooms_for(len(units))[1:]])


def around(count):
    """Lengths: none, one, around so many, and more."""
    return sorted({0, 1, count - 1, count, count + 1, 2 * count, count + 60})


def basin_lengths(out, rng):
    """Every number of places that matters for the basins of a sheet, and for those of its units."""
    for rows, cols, dirs in [(1, 1, [1]), (1, 2, [16, 1]), (3, 4, SAMPLE_A), (6, 7, shapes.strips(rng, 6, 7))]:
        sheet, lent, exact = (rows, cols, 36, 1, 4), [1] * rows, reference.lengths_for(rows * cols)
        count = len(sheet_cases(out, rng, sheet, dirs, lent))
        for length in around(rows * cols):
            for others in (exact, [longer + 1 for longer in exact]):
                sheet_cases(out, rng, sheet, dirs, lent, [*others[:2], length, others[3]])
        for length in around(count):
            sheet_cases(out, rng, sheet, dirs, lent, exact, [*rooms_for(count)[:3], length])


def basin_sheets(out, rng):
    """Returns the units of the large ones."""
    indexes = []
    for rows, cols, dirs in lent_basins.sheets(rng):
        lent, large = weights.made(rng, rows, cols, dirs), rows * cols == 256 * 256
        for depth in [18] if large else [1, 2, 36]:
            rooms = rooms_for(rows * cols) if large else None
            units = sheet_cases(out, rng, (rows, cols, depth), dirs, lent, None, rooms)
            indexes += [units] if large and units else []
    return indexes


def size_boundaries(out, rng):
    for rows, cols, depth in [(0, 1, 1), (1, 0, 1), (257, 1, 1), (1, 257, 1), (256, 1, 1), (1, 256, 18), (1, 256, 36),
                              (2 ** 64 - 1, 1, 1), (1, 2 ** 64 - 1, 1), (2 ** 32, 2 ** 32, 1), (257, 1, 37), (0, 0, 0),
                              *[(1, 1, depth) for depth in depths.EDGES + depths.BAD]]:
        n = rows * cols if rows <= 256 and cols <= 256 else 300
        dirs = [16 if cols and cell < cols else 64 for cell in range(n)]
        for weight in (1, 0):
            sheet_cases(out, rng, (rows, cols, depth), dirs, [weight] * min(rows, 300), reference.lengths_for(n))
    for missing in range(6):
        lengths = [12, 3, 12, 24, 12, 96]
        lengths[missing] -= 1
        for weight in (500, 1001):
            for index_lengths in ([0] * 4, rooms_for(9), rooms_for(12)):
                dirs, lent = SAMPLE_A[:lengths[0]], [weight] * lengths[1]
                sheet_cases(out, rng, (3, 4, 2), dirs, lent, lengths[2:], index_lengths)


def weight_boundaries(out, rng):
    for rows in (1, 2, 3, 6):
        dirs = shapes.comb(rng, rows, 4)
        for lent in lent_weights.edges(rng, rows, 4, dirs):
            sheet_cases(out, rng, (rows, 4, rng.choice([18, 36])), dirs, lent)
        dirs[-4:] = [0] * 4  # the last row has no inside cell
        for lent in lent_weights.edges(rng, rows, 4, dirs):
            sheet_cases(out, rng, (rows, 4, rng.choice([18, 36])), dirs, lent)


def confluences(out, rng, count):
    """Sheets with weights that make two donors of a cell equal, where such weights are found."""
    for _ in range(count):
        rows, cols = rng.randint(3, 20), rng.randint(3, 20)
        dirs = rng.choice([shapes.grown, shapes.northwest])(rng, rows, cols)
        lent = weights.equal_areas(rng, rows, cols, dirs)
        sheet_cases(out, rng, (rows, cols, rng.choice([1, 2, 3, 18, 36])), dirs, lent)


def refused_sheets(out, rng):
    """Refused by labelling: the same whatever is lent for the index."""
    for index_lengths in ([0] * 4, [1] * 4, [5] * 4):
        for weight in (1, 1000, 0, 1001, 65535):
            for dirs in ([1], [0], [3], [255]):
                sheet_cases(out, rng, (1, 1, 1), dirs, [weight], None, index_lengths)
            for dirs in ([1, 16], [16, 1], [0, 0], [5, 0], [0, 5]):
                sheet_cases(out, rng, (1, 2, 1), dirs, [weight], None, index_lengths)
            for dirs in ([16, 1, 16, 0, 1], [1, 16, 0, 1, 1], [16, 0, 1, 1, 16]):
                sheet_cases(out, rng, (1, 5, 1), dirs, [weight], None, index_lengths)
            sheet_cases(out, rng, (257, 1, 1), [4] * 257, [weight] * 257, None, index_lengths)
            sheet_cases(out, rng, (1, 1, 37), [4], [weight], None, index_lengths)


def index_boundaries(out, rng):
    for depth, count in [(1, 7), (2, 9), (36, 9)]:  # sample A, whose rows weigh the same, and its number of units
        lent = [rng.choice([1, 7, 1000])] * 3
        for index_lengths in map(rooms_for, (count, count + 1, count - 1, 0)):
            sheet_cases(out, rng, (3, 4, depth), SAMPLE_A, lent, None, index_lengths)
        for place in range(4):
            needed = rooms_for(count)[place]
            for other in (0, 1, needed - 1, needed + 1, 5 * needed):
                index_lengths = rooms_for(count)
                index_lengths[place] = other
                sheet_cases(out, rng, (3, 4, depth), SAMPLE_A, lent, None, index_lengths)


def large_sheets(out, rng):
    """Returns the units of each."""
    kinds = [weights.all_largest, weights.any_weights, weights.equal_areas, weights.all_one]
    indexes = []
    for at, shape in enumerate([shapes.snake, shapes.comb, shapes.northwest, shapes.grown, shapes.by_chance]):
        for turn, depth in enumerate((1, 3, rng.choice([18, 36]))):
            dirs = shape(rng, 256, 256)
            lent = kinds[(at + turn) % len(kinds)](rng, 256, 256, dirs)
            units = sheet_cases(out, rng, (256, 256, depth), dirs, lent, None, rooms_for(256 * 256))
            indexes += [units] if len(units) > lookups.LARGE else []
    return indexes


def split_sheets(out, rng, count):
    """Sheets with least and split."""
    for sheet, dirs, lent, lengths in lent_splits.sheets(rng, count):
        sheet_cases(out, rng, sheet, dirs, lent, lengths)


# Levies.

def levy_case(out, rng, call):
    sheet, dirs, lent, lengths, labelled = call.sheet[:5]
    rows, cols = sheet[:2]
    *rooms, dues_room = call.lengths()
    number, place, *_, units, dues = reference.levy_after(labelled, rows, cols, dirs, lent, *rooms, call.basin,
                                                          call.total, dues_room)
    before = rubbish(rng, LABEL_WIDTHS + INDEX_WIDTHS + [DUES_WIDTH], [*lengths, *call.lengths()])
    after = before if number == 18 else labelled_places(sheet, labelled, *before[:OF_LABEL]) + before[OF_LABEL:]
    answer = number + PLACE * place
    if number == 0:
        answer, values = PLACE * len(units), [*unit_values(units), dues]
        after[OF_LABEL:] = [written(slice_, own) for slice_, own in zip(before[OF_LABEL:], values)]
    write_case(out, b'V' + numbers([call.basin, call.total]), sheet, dirs, lent, before, answer, after)
    for kind in levies.kinds(call, number, dues):
        tally['pf_levy'][kind] += 1


def levy_cases(out, rng, count):
    for call in levies.questions(rng, count):
        levy_case(out, rng, call)


# Questions about labels. A label that is asked about is (basin, label).

def asked_numbers(asked):
    basin, (first, rest) = asked
    return [basin, first, rest]


def flow_cases(out, depth, leasts, p, q):
    """The flow question, told each of these numbers as least, and the outlet question."""
    both = asked_numbers(p) + asked_numbers(q)
    for least in leasts:
        answer = reference.flow(depth, least, *p, *q)
        out.write(b'F' + numbers([depth, least, *both, reference.answer_number(answer)]))
        for kind in flows.kinds(depth, least, p, q, answer):
            tally['pf_flow'][kind] += 1
    answer = reference.outlet_flow(depth, *p, *q)
    out.write(b'O' + numbers([depth, *both, reference.answer_number(answer)]))
    tally['pf_outlet_flow'][flows.name_of(answer)] += 1
    for kind in flows.label_kinds(depth, p, q, answer):
        tally['labels of both questions'][kind] += 1


def flow_questions(out, rng, count):
    for question in flows.questions(rng, count):
        flow_cases(out, *question)


def outlet_questions(out, rng, count):
    """Both questions about every two labels of sheets, answered by the water, with a labelling case of each."""
    for asked in outlets.questions(rng, count):
        rows, cols, depth, least, split = asked.sheet
        lengths = reference.lengths_for(rows * cols)
        label_case(out, rng, asked.sheet, asked.dirs, asked.lent, lengths, asked.labelled)
        labels = [number for label in asked.labels for number in asked_numbers(label)]
        out.write(b'S' + numbers([depth, least, len(asked.labels), *labels]))
        out.write(bytes(asked.outlet_answers) + bytes(asked.flow_answers))
        for kind, number in asked.counts.items():
            tally['outlets'][kind] += number


def lookup_questions(out, rng, count, indexes, large_indexes):
    for asked in lookups.questions(rng, count, indexes, large_indexes):
        lent, basins = numbers_of(asked.labels) + asked.odd, array_of(4, asked.basins)
        answer = reference.lookup(asked.basin, asked.leading, lent, asked.basins)
        before = [rng.choice([0, 1, rng.getrandbits(64)]) for _ in range(2)]
        out.write(b'P' + numbers([asked.basin, *asked.leading, len(lent), len(basins), *lent]) + basins.tobytes())
        out.write(numbers([*before, *answer]))
        for kind in lookups.kinds(asked, answer):
            tally['pf_lookup'][kind] += 1


def pair_questions(out, rng, count, indexes):
    for call in pairs.questions(rng, count, indexes):
        p, q = call.slices()
        number, answers = reference.flow_pairs(call.depth, call.least, p, call.p_basins, q, call.q_basins, call.room)
        before = rng.randbytes(call.room)
        answer, after = number, before
        if number == 0:
            answer, after = PLACE * len(answers), bytes(answers) + before[len(answers):]
        out.write(b'M' + numbers([call.depth, call.least, len(p), len(call.p_basins), len(q), len(call.q_basins),
                                  call.room]))
        for labels, basins in ((p, call.p_basins), (q, call.q_basins)):
            out.write(numbers(labels) + array_of(4, basins).tobytes())
        out.write(before + numbers([answer]) + after)
        for kind, times in pairs.counts(call, number, answers).items():
            tally['pf_flow_pairs'][kind] += times


# Plans.

def work_before(rng, room):
    """Work places before a call: any numbers, small ones, or all 0."""
    if rng.random() < 0.7:
        return rubbish(rng, [4], [room])[0]
    largest = rng.choice([0, 1, room + 1])
    return array_of(4, [rng.randint(0, largest) for _ in range(room)])


def plan_case(out, rng, call, answer):
    (index, plan), (number, place) = call.slices(), answer
    before = after = work_before(rng, call.room)
    if number not in plan_kinds.OF_INDEX:
        after = written(before, [0] * len(call.index))
    out.write(b'K' + numbers([len(index), len(plan), call.room, *index, *plan]) + before.tobytes())
    out.write(numbers([number + PLACE * place]) + after.tobytes())


def plan_questions(out, rng, count, indexes):
    earlier = None
    for call in plans.questions(rng, count, indexes):
        answer = plans.expected(call)
        plan_case(out, rng, call, answer)
        for kind in plan_kinds.kinds(call, answer, earlier):
            tally['pf_check_plan'][kind] += 1
        earlier = call
    for call, answer in plans.huge(rng):
        plan_case(out, rng, call, answer)
        tally['pf_check_plan']['more than 65536 units'] += len(call.index) > 65536


# Directions a word at a time.

def word_questions(out, rng, count):
    for asked in words.questions(rng, count):
        answers = [reference.first_bad(word) for word in asked]
        out.write(b'W' + numbers([len(asked), *asked]) + bytes(answers))
        for word, answer in zip(asked, answers):
            for kind in words.kinds(word, answer):
                tally['pf_first_bad'][kind] += 1


def word_sheets(out, rng):
    for rows, cols, dirs in words.sheets(rng):
        sheet_cases(out, rng, (rows, cols, rng.choice([1, 2, 18, 36])), dirs, [1] * rows)


def main():
    parser = argparse.ArgumentParser(description=__doc__, formatter_class=argparse.RawDescriptionHelpFormatter)
    parser.add_argument('--sheets', type=int, default=3000,
                        help='random sheets, each for pf_label and for pf_index; as many with least and split; an '
                             'eighth as many with long labels; twice as many, at five depths each, for both questions '
                             'about every two labels')
    parser.add_argument('--lookups', type=int, default=20000, help='random lookups')
    parser.add_argument('--words', type=int, default=20000, help='random words')
    parser.add_argument('--pairs', type=int, default=200000, help='random pairs of labels, of calls with many pairs')
    parser.add_argument('--levies', type=int, default=2000,
                        help='random sheets that labelling accepts, each with six totals and more, for pf_levy')
    parser.add_argument('--plans', type=int, default=20000,
                        help='random plans; for every 400 of them also all orders of the units of two small indexes')
    parser.add_argument('--seed', type=int, default=1)
    options = parser.parse_args()
    rng = random.Random(options.seed)
    out = sys.stdout.buffer
    for part in (size_boundaries, label_lengths, basin_lengths, weight_boundaries, refused_sheets, index_boundaries):
        part(out, rng)
    large_indexes = large_sheets(out, rng) + basin_sheets(out, rng)
    indexes = random_sheets(out, rng, options.sheets) + long_label_sheets(out, rng, options.sheets // 8)
    confluences(out, rng, options.sheets // 4)
    split_sheets(out, rng, options.sheets)
    flow_questions(out, rng, options.sheets)
    lookup_questions(out, rng, options.lookups, indexes, large_indexes)
    outlet_questions(out, rng, 2 * options.sheets)
    word_questions(out, rng, options.words)
    word_sheets(out, rng)
    pair_questions(out, rng, options.pairs, indexes)
    levy_cases(out, rng, options.levies)
    plan_questions(out, rng, options.plans, indexes)
    out.flush()
    for call, kinds in tally.items():
        print('%s: %s' % (call, ', '.join('%s %d' % kind for kind in kinds.items())), file=sys.stderr)
    missing = [call + ' ' + kind for call, kinds in tally.items() for kind, count in kinds.items() if count == 0]
    if missing:
        print('no case of: ' + ', '.join(missing), file=sys.stderr)
    return 1 if missing else 0


if __name__ == '__main__':
    sys.exit(main())
