# Reference for the program `pfafstetter`: a file on standard input, its listing or its refusal on standard output. With
# --atlas for the program `atlas`: its atlas or its refusal.
# Written from documents 01 and 02 alone, by lists, sorting and text. Refusals are their numbers; 0 means accepted.

import argparse
import sys
from functools import lru_cache
from itertools import accumulate
from typing import NamedTuple

sys.dont_write_bytecode = True
import atlas_text

# Direction codes with their steps in rows and columns.
STEPS = {1: (0, 1), 2: (1, 1), 4: (1, 0), 8: (1, -1), 16: (0, -1), 32: (-1, -1), 64: (-1, 0), 128: (-1, 1)}
OUTSIDE = 0
MAX_SIDE = 256
MAX_DEPTH = 36
MAX_DIGITS = 18  # of each of the two numbers of a label
RECORD = 2  # numbers of a label in a slice
MAX_LEAST = 65_536_000  # the largest area
MAX_SPLIT = 4  # mouths taken from a unit
LEAST, SPLIT = 1, 4  # where a file names neither
MAX_WEIGHT = 1000
MAX_TOTAL = 100_000_000_000  # cents of a levy
LENT = 2048  # direction bytes that the programs lend
LENT_WEIGHTS = 256  # weights that the programs lend
WORK = 8  # work places for each cell
MAX_BLANKS = 8  # blanks in front of a value

SIZE_NAMES = [b'rows', b'cols', b'depth']
SPLIT_NAMES = [b'least', b'split']
WEIGHT_NAMES = [b'weight']
CELL_NAMES = [b'row', b'col', b'dir']

# The sheet.

def is_depth(value):
    return 1 <= value <= MAX_DEPTH

def is_least(value):
    return 1 <= value <= MAX_LEAST

def size_refusal(rows, cols, depth, least, split, dirs_len, weights_len):
    """The refusal of sizes by 1, 2, 19, 3, with the counts of lent direction bytes and weights."""
    if not (1 <= rows <= MAX_SIDE and 1 <= cols <= MAX_SIDE):
        return 1
    if not is_depth(depth):
        return 2
    if not (is_least(least) and 1 <= split <= MAX_SPLIT):
        return 19
    return 3 if dirs_len < rows * cols or weights_len < rows else 0

def is_weight(value):
    return 1 <= value <= MAX_WEIGHT

def is_code(value):
    return value == OUTSIDE or value in STEPS

def first_bad(word):
    """The word test: the place of the first of eight directions, the lowest byte first, that is no code; 8 for none."""
    for place, byte in enumerate(word.to_bytes(8, 'little')):
        if not is_code(byte):
            return place
    return 8

# From here on the directions of a sheet are a dictionary: the inside cells in reading order, each with its code. A cell
# that is not in it is outside.

def codes_of(dirs):
    return {cell: code for cell, code in enumerate(dirs) if code != OUTSIDE}

def step_end(rows, cols, codes, cell):
    """The inside cell on which the step of an inside cell ends; None for an outlet."""
    row_step, col_step = STEPS[codes[cell]]
    row, col = cell // cols + row_step, cell % cols + col_step
    if not (0 <= row < rows and 0 <= col < cols):
        return None
    end = row * cols + col
    return end if end in codes else None

def donors_and_outlets(rows, cols, codes):
    """The donors of every inside cell, and the outlets in reading order."""
    donors, outlets = {cell: [] for cell in codes}, []
    for cell in codes:
        end = step_end(rows, cols, codes, cell)
        (outlets if end is None else donors[end]).append(cell)
    return donors, outlets

def upstream(donors, cells):
    """The cells whose water passes one of `cells`, each after the cell its step ends on."""
    found = list(cells)
    for cell in found:  # the list grows while it is read
        found.extend(donors[cell])
    return found

# Labels. A label is its digits as text, or a record of two numbers: the first 18 digits, then the next ones. A slice of
# labels is a list of numbers, two neighbouring ones for each label; an odd one at the end is no place.

def number_of(digits):
    return int(digits) if digits else 0

def digits_of_number(number):
    return str(number) if number != 0 else ''

def record_of(digits):
    return number_of(digits[:MAX_DIGITS]), number_of(digits[MAX_DIGITS:])

def digits_of(record):
    """The digits of a label as text, whose order is dictionary order."""
    first, rest = record
    return digits_of_number(first) + digits_of_number(rest)

def text_of(record):
    """A label as it is listed."""
    return digits_of(record) or '0'

def is_label(record, depth):
    """A record for which this does not hold gives 11."""
    first, rest = map(digits_of_number, record)
    if rest and len(first) < MAX_DIGITS:
        return False
    return max(len(first), len(rest)) <= MAX_DIGITS and len(first + rest) <= depth and '0' not in first + rest

def places(length):
    """The labels for which a slice of so many numbers has room."""
    return length // RECORD

def records_of(numbers):
    """The labels of a slice."""
    return [(numbers[RECORD * place], numbers[RECORD * place + 1]) for place in range(places(len(numbers)))]

def numbers_of(records):
    """The slice that holds these labels."""
    return [number for record in records for number in record]

# Areas, rivers, units.

def areas_of(cols, weights, donors, drained):
    """The area of each inside cell; each row has a weight, and `drained` holds the inside cells in the order of
    `upstream`."""
    areas = {}
    for cell in reversed(drained):
        areas[cell] = weights[cell // cols] + sum(areas[donor] for donor in donors[cell])
    return areas

def river_list(donors, mouth):
    """Pairs (cell, is it the mouth of a tributary). Donors must stand from lightest to heaviest."""
    river = [(mouth, False)]
    stem = mouth
    while donors[stem]:
        *mouths, heaviest = donors[stem]
        river.extend((cell, True) for cell in mouths)
        river.append((heaviest, False))
        stem = heaviest
    return river

def runs_between(unit, taken):
    """The runs of a unit before, between and after its taken mouths, and these mouths in list order."""
    runs, mouths = [[]], []
    for cell, is_mouth in unit:
        if is_mouth and cell in taken:
            mouths.append(cell)
            runs.append([])
        else:
            runs[-1].append((cell, is_mouth))
    return runs, mouths

def unit_cells(donors, unit):
    """The stem cells of a unit and the whole tributaries of its mouths."""
    stem = [cell for cell, is_mouth in unit if not is_mouth]
    return stem + upstream(donors, [cell for cell, is_mouth in unit if is_mouth])

def labels_of(donors, areas, depth, least, split, outlet):
    """The label of each inside cell, as a record. Of the mouths of a unit whose area is at least `least` the heaviest
    are taken, `split` of them, or all if fewer."""
    def order(cell):  # heavier: the larger area, then the larger cell number
        return areas[cell], cell
    donors = {cell: sorted(cells, key=order) for cell, cells in donors.items()}
    labels = {}
    units = [(river_list(donors, outlet), '')]  # (unit, its digits)
    while units:
        unit, digits = units.pop()
        counted = [cell for cell, is_mouth in unit if is_mouth and areas[cell] >= least]
        if not counted or len(digits) == depth:
            record = record_of(digits)
            for cell in unit_cells(donors, unit):
                labels[cell] = record
            continue
        runs, mouths = runs_between(unit, set(sorted(counted, key=order)[-split:]))
        for place, run in enumerate(runs):
            units.append((run, digits + str(2 * place + 1)))
        for place, mouth in enumerate(mouths):
            units.append((river_list(donors, mouth), digits + str(2 * place + 2)))
    return labels

# Basins, numbered from 1 by their outlets in reading order.

def basins_of(donors, outlets):
    """The cells of each basin in reading order, those of the first basin first."""
    return [sorted(upstream(donors, [outlet])) for outlet in outlets]

def label_alone(rows, cols, depth, least, split, codes, weights):
    """The areas and labels of a sheet with one basin."""
    donors, (outlet,) = donors_and_outlets(rows, cols, codes)
    areas = areas_of(cols, weights, donors, upstream(donors, [outlet]))
    return areas, labels_of(donors, areas, depth, least, split, outlet)

def label_basins(rows, cols, depth, least, split, codes, weights, basins):
    """The areas, the labels and the basin numbers of all cells. Those of each basin are worked out on the sheet on
    which all others are set to 0."""
    n = rows * cols
    areas, labels, numbers = [0] * n, [record_of('')] * n, [0] * n
    for number, cells in enumerate(basins, 1):
        alone = {cell: codes[cell] for cell in cells}
        own_areas, own_labels = label_alone(rows, cols, depth, least, split, alone, weights)
        for cell in cells:
            areas[cell], labels[cell], numbers[cell] = own_areas[cell], own_labels[cell], number
    return areas, labels, numbers

def lengths_for(n):
    """The lengths of areas, labels, basins and work places that n cells need."""
    return [n, RECORD * n, n, WORK * n]

def label(rows, cols, depth, least, split, dirs, weights, areas_len, labels_len, basins_len, work_len):
    """Direct labelling: (number, place, areas, labels, basins), the labels as records. Refused, the last three are
    None."""
    number = size_refusal(rows, cols, depth, least, split, len(dirs), len(weights))
    n = rows * cols
    if number == 0 and (min(areas_len, places(labels_len), basins_len) < n or work_len < WORK * n):
        number = 3
    if number != 0:
        return number, 0, None, None, None
    if not all(is_weight(weight) for weight in weights[:rows]):
        return 17, 0, None, None, None
    for cell in range(n):
        if not is_code(dirs[cell]):
            return 4, cell, None, None, None
    codes = codes_of(dirs[:n])
    if not codes:
        return 5, 0, None, None, None
    donors, outlets = donors_and_outlets(rows, cols, codes)
    basins = basins_of(donors, outlets)
    if sum(map(len, basins)) < len(codes):
        return 6, min(set(codes).difference(*basins)), None, None, None
    return 0, 0, *label_basins(rows, cols, depth, least, split, codes, weights, basins)

# The index of units, and the lookup in it.

def units_of(rows, cols, dirs, labels, basins):
    """As (label, outlet cell, count of cells, basin), of an accepted sheet: by basin, then in dictionary order of the
    digits. The labels are records."""
    codes, cells_with = codes_of(dirs[:rows * cols]), {}
    for cell in codes:
        cells_with.setdefault((basins[cell], digits_of(labels[cell])), set()).add(cell)
    units = []
    for basin, digits in sorted(cells_with):
        cells = cells_with[basin, digits]
        # The one of these cells whose water goes to none of them.
        outlet, = [cell for cell in cells if step_end(rows, cols, codes, cell) not in cells]
        units.append((record_of(digits), outlet, len(cells), basin))
    return units

def index_after(labelled, rows, cols, dirs, units_len, outlets_len, counts_len, unit_basins_len):
    """What `index` gives once labelling has given `labelled`."""
    if labelled[0] != 0:
        return *labelled, None
    units = units_of(rows, cols, dirs, *labelled[3:])
    if min(places(units_len), outlets_len, counts_len, unit_basins_len) < len(units):
        return 3, 0, *labelled[2:], None
    return *labelled, units

def index(rows, cols, depth, least, split, dirs, weights, areas_len, labels_len, basins_len, work_len, units_len,
          outlets_len, counts_len, unit_basins_len):
    """Labels and indexes: (number, place, areas, labels, basins, units). Refused, units are None; by labelling, the
    others too."""
    labelled = label(rows, cols, depth, least, split, dirs, weights, areas_len, labels_len, basins_len, work_len)
    return index_after(labelled, rows, cols, dirs, units_len, outlets_len, counts_len, unit_basins_len)

def lookup(basin, leading, labels, basins):
    """Where the labels of a slice stand that are of the basin and begin with the leading digits, which are a record:
    (number, start, length), counted in labels. `basins` has the basin of each."""
    records = records_of(labels)
    if len(basins) < len(records):
        return 3, 0, 0
    if not all(is_label(record, MAX_DEPTH) for record in [leading, *records]):
        return 11, 0, 0
    sought, entries = (basin, digits_of(leading)), list(zip(basins, map(digits_of, records)))
    if entries != sorted(set(entries)):
        return 16, 0, 0
    found = [place for place, (of, digits) in enumerate(entries) if of == basin and digits.startswith(sought[1])]
    if found:
        return 0, found[0], len(found)
    return 0, sorted([*entries, sought]).index(sought), 0

# The levy.

def unit_weights(rows, cols, dirs, weights, labels, basins, basin):
    """The summed weight of the cells of each unit of one basin of an accepted sheet, in the order of `units_of`; none
    if the sheet lacks the basin."""
    sums = {}
    for cell in codes_of(dirs[:rows * cols]):
        if basins[cell] == basin:
            sums[labels[cell]] = sums.get(labels[cell], 0) + weights[cell // cols]
    return [sums[label] for label in sorted(sums, key=digits_of)]

def dues_of(total, summed):
    """What each unit owes of the total; `summed` are the weights of the units."""
    whole = sum(summed)
    owed = [total * first // whole if whole else 0 for first in [0, *accumulate(summed)]]  # by the first k units
    return [after - before for before, after in zip(owed, owed[1:])]

def levy_after(labelled, rows, cols, dirs, weights, units_len, outlets_len, counts_len, unit_basins_len, basin, total,
               dues_len):
    """What `levy` gives where labelling gives `labelled`."""
    if total > MAX_TOTAL:
        return 18, 0, *[None] * 5
    *indexed, units = index_after(labelled, rows, cols, dirs, units_len, outlets_len, counts_len, unit_basins_len)
    if units is None:
        return *indexed, None, None
    dues = dues_of(total, unit_weights(rows, cols, dirs, weights, *labelled[3:], basin))
    if dues_len < len(dues):
        return 3, 0, *labelled[2:], None, None
    return *indexed, units, dues

def levy(rows, cols, depth, least, split, dirs, weights, areas_len, labels_len, basins_len, work_len, units_len,
         outlets_len, counts_len, unit_basins_len, basin, total, dues_len):
    """Indexes and shares a total among the units of one basin: (number, place, areas, labels, basins, units, dues).
    Refused, units and dues are None; by 18 or by labelling, the others too."""
    labelled = label(rows, cols, depth, least, split, dirs, weights, areas_len, labels_len, basins_len, work_len)
    return levy_after(labelled, rows, cols, dirs, weights, units_len, outlets_len, counts_len, unit_basins_len, basin,
                      total, dues_len)

# The flow question and the outlet question. The labels p and q are records, each with the number of its basin.

ANSWERS = {'No': 0, 'Yes': 1, 'Same': 2, 'Undecided': 3}

def outlet_flow(depth, p_basin, p, q_basin, q):
    """Does water from label q pass the outlet of label p's unit: 'Same', 'Yes', 'No' or ('Refused', number)."""
    if not is_depth(depth):
        return 'Refused', 2
    if not (is_label(p, depth) and is_label(q, depth)):
        return 'Refused', 11
    if p_basin != q_basin:
        return 'No'
    p, q = digits_of(p), digits_of(q)
    if p == q:
        return 'Same'
    if p.startswith(q) or q.startswith(p):
        return 'Refused', 12
    part = next(place for place in range(len(p)) if p[place] != q[place])
    # The rule: where the labels part p has the smaller digit, and its digits from there on are odd.
    if p[part] > q[part] or any(digit in '2468' for digit in p[part:]):
        return 'No'
    return 'Yes'

def flow(depth, least, p_basin, p, q_basin, q):
    """Does water from label q pass label p: as `outlet_flow`, but 19 straight after 2, and 'Undecided' for 'Yes' where
    p has as many digits as the depth or least is above 1."""
    if not is_depth(depth):
        return 'Refused', 2
    if not is_least(least):
        return 'Refused', 19
    answer = outlet_flow(depth, p_basin, p, q_basin, q)
    return 'Undecided' if answer == 'Yes' and (len(digits_of(p)) == depth or least > 1) else answer

def answer_number(answer):
    """The number of an answer; that of a refusal is 128 + its own."""
    return 128 + answer[1] if isinstance(answer, tuple) else ANSWERS[answer]

def flow_pairs(depth, least, ps, p_basins, qs, q_basins, room):
    """The flow question about each label of the slice P and that of Q at the same place, with the basins at that place,
    and with room for so many answers: (number, answers). Refused, answers are None."""
    if not is_depth(depth):
        return 2, None
    if not is_least(least):
        return 19, None
    pairs = list(zip(records_of(ps), records_of(qs)))
    if min(len(p_basins), len(q_basins), room) < len(pairs):
        return 3, None
    return 0, [answer_number(flow(depth, least, p_basin, p, q_basin, q))
               for (p, q), p_basin, q_basin in zip(pairs, p_basins, q_basins)]

# The check of a survey plan, with labels of one basin as records.

def index_refusal(labels, room):
    """The refusal of a basin's index by 11, 16, 12, 3, with so many work places lent."""
    if not all(is_label(label, MAX_DEPTH) for label in labels):
        return 11
    texts = [digits_of(label) for label in labels]
    if texts != sorted(set(texts)):
        return 16
    if any(p != q and q.startswith(p) for p in texts for q in texts):
        return 12
    return 3 if room < len(labels) else 0

@lru_cache(maxsize=16)
def units_upstream(labels):
    """For each of these labels the others whose water passes its outlet."""
    return {p: {q for q in labels if outlet_flow(MAX_DEPTH, 1, p, 1, q) == 'Yes'} for p in labels}

def check_plan(index, plan, room):
    """The check of a plan with the basin's index, both slices of labels, and so many work places: (number, place).
    Accepted, both are 0."""
    labels, read = records_of(index), []
    number = index_refusal(labels, room)
    if number != 0:
        return number, 0
    upstream_of = units_upstream(tuple(labels))
    for label in records_of(plan):
        place = len(read) + 1
        if label not in labels or label in read:
            return 20, place
        if not upstream_of[label] <= set(read):
            return 21, place
        read.append(label)
    missing = [place for place, label in enumerate(labels, 1) if label not in read]
    return (22, missing[0]) if missing else (0, 0)

# The intake.

class Intake(NamedTuple):
    stage: str = 'size names'  # then 'sizes', 'weight or cell names', 'weights', 'cell names', 'cells', 'ended'
    rows: int = 0
    cols: int = 0
    depth: int = 0
    names: tuple = ()  # the names last accepted, in their order
    row: int = 0  # in the stage 'weights' the row whose weight comes next
    least: int = LEAST
    split: int = SPLIT

    def sizes(self):
        return self.rows, self.cols, self.depth, self.least, self.split

# The names lines that a stage takes, each with the stage after it.
NAMES_LINES = {
    'size names': [(SIZE_NAMES, 'sizes'), (SIZE_NAMES + SPLIT_NAMES, 'sizes')],
    'weight or cell names': [(WEIGHT_NAMES, 'weights'), (CELL_NAMES, 'cells')],
    'cell names': [(CELL_NAMES, 'cells')],
}

def is_value(name, text):
    """Is a field of the column of this name a value, with no more than the allowed blanks in front of it?"""
    digits = text.lstrip(b' ')
    if len(text) > len(digits) + MAX_BLANKS:
        return False
    most = 8 if name == b'least' else 5
    return digits == b'0' or (digits.isdigit() and len(digits) <= most and digits[0] != ord('0'))

def take_names(state, fields):
    for names, stage in NAMES_LINES[state.stage]:
        if sorted(fields) == sorted(names):
            return 0, state._replace(stage=stage, names=tuple(fields), row=0)
    return 8, state

def take_sizes(state, values, dirs, weights):
    rows, cols, depth = (values[name] for name in SIZE_NAMES)
    least, split = values.get(b'least', LEAST), values.get(b'split', SPLIT)
    number = size_refusal(rows, cols, depth, least, split, len(dirs), len(weights))
    if number != 0:
        return number, state
    dirs[:rows * cols] = bytes(rows * cols)
    weights[:rows] = [1] * rows
    return 0, state._replace(stage='weight or cell names', rows=rows, cols=cols, depth=depth, least=least, split=split)

def take_weight(state, values, weights):
    weight, = (values[name] for name in WEIGHT_NAMES)
    if not is_weight(weight):
        return 17, state
    weights[state.row] = weight
    if state.row + 1 < state.rows:
        return 0, state._replace(row=state.row + 1)
    return 0, state._replace(stage='cell names', row=0)

def take_cell(state, values, dirs):
    row, col, code = (values[name] for name in CELL_NAMES)
    if row >= state.rows or col >= state.cols:
        return 9, state
    if not is_code(code):
        return 4, state
    cell = row * state.cols + col
    if code != OUTSIDE and dirs[cell] != OUTSIDE:  # a line with the code 0 withdraws its cell
        return 10, state
    dirs[cell] = code
    return 0, state

def state_refusal(state, dirs, weights):
    """The refusal of any line because of the state: 13; 1, 2, 19, 3 for its sizes; 9 if it waits for a row outside
    them."""
    if state.stage == 'ended':
        return 13
    if state.stage in ('size names', 'sizes'):
        return 0
    number = size_refusal(*state.sizes(), len(dirs), len(weights))
    if number == 0 and state.stage == 'weights' and state.row >= state.rows:
        return 9
    return number

def take_line(state, line, dirs, weights):
    """Takes a line without its line feed: (number, next state). `dirs` is a bytearray, `weights` a list."""
    number = state_refusal(state, dirs, weights)
    if number != 0:
        return number, state
    if len(line) > 80 or b'\n' in line:
        return 8, state
    fields = line.split(b',')
    if state.stage in NAMES_LINES:
        return take_names(state, fields)
    if len(fields) != len(state.names) or not all(map(is_value, state.names, fields)):
        return 8, state
    values = dict(zip(state.names, map(int, fields)))
    if state.stage == 'sizes':
        return take_sizes(state, values, dirs, weights)
    if state.stage == 'weights':
        return take_weight(state, values, weights)
    return take_cell(state, values, dirs)

def take_end(state):
    if state.stage == 'ended':
        return 13, state
    return (0, state._replace(stage='ended')) if state.stage == 'cells' else (14, state)

def label_intake(state, dirs, weights, *lengths):
    """`label` with the sizes of an intake; `lengths` are those of the slices that come after the weights."""
    if state.stage != 'ended':
        return 15, 0, None, None, None
    return label(*state.sizes(), dirs, weights, *lengths)

def index_intake(state, dirs, weights, *lengths):
    labelled = label_intake(state, dirs, weights, *lengths[:4])
    return index_after(labelled, state.rows, state.cols, dirs, *lengths[4:])

def levy_intake(state, dirs, weights, *others):
    """`others` are the lengths of the slices that come after the weights, with the basin and the total before the
    last."""
    labelled = label_intake(state, dirs, weights, *others[:4])
    return levy_after(labelled, state.rows, state.cols, dirs, weights, *others[4:])

# The programs.

def lines_of(data):
    lines = data.split(b'\n')
    return lines if lines[-1] else lines[:-1]  # nothing follows the last line feed

def refusal(number, place):
    return b'refused,place\n%d,%d\n' % (number, place)

def listing(cols, dirs, areas, labels, basins):
    lines = ['%d,%d,%d,%d,%s\n' % (basins[cell], cell // cols, cell % cols, areas[cell], text_of(labels[cell]))
             for cell in range(len(areas)) if dirs[cell] != OUTSIDE]
    return ('basin,row,col,area,label\n' + ''.join(lines)).encode()

def read_file(data, lent=LENT):
    """Takes the lines of a file and its end: (number, place, state, direction bytes, weights)."""
    dirs, weights, state, lines = bytearray(lent), [0] * LENT_WEIGHTS, Intake(), lines_of(data)
    for line_number, line in enumerate(lines, 1):
        number, state = take_line(state, line, dirs, weights)
        if number != 0:
            return number, line_number, state, dirs, weights
    number, state = take_end(state)
    return number, len(lines) + 1, state, dirs, weights

def report(data, lent=LENT):
    """What `pfafstetter` prints for the bytes of a file. `atlas` prints the atlas_text.atlas_of it."""
    number, place, state, dirs, weights = read_file(data, lent)
    if number != 0:
        return refusal(number, place)
    number, place, *labelled = label_intake(state, dirs, weights, *lengths_for(lent))
    return refusal(number, place) if number != 0 else listing(state.cols, dirs, *labelled)

def main():
    parser = argparse.ArgumentParser(description='Prints the listing of the file on standard input, or its refusal.')
    parser.add_argument('--atlas', action='store_true', help='prints its atlas instead of its listing')
    options = parser.parse_args()
    printed = report(sys.stdin.buffer.read())
    sys.stdout.buffer.write(atlas_text.atlas_of(printed) if options.atlas else printed)

if __name__ == '__main__':
    main()
