#!/usr/bin/env python3
"""Compares the programs pfafstetter and atlas with tests/reference.py, byte for byte, on made sheets and damaged files.

First two small files for each of the 120 orders of the names rows, cols, depth, least and split, some whose labels have
17, 18, 19, 35 and 36 digits, some with many basins, and some around full pages of the atlas; then --files random ones.
Of a file that is listed with several basins one is tried alone too: the programs must list it as before, but as basin
1, where the cells of all others are left out. The input goes through a pipe in pieces cut at odd places, the same for
both programs. Seeded: the same --seed and --files make the same files. Prints each difference with the file that shows
it, and at the end 'N passed, M failed'; the status is 1 too if some kind of file that is counted did not occur."""
import argparse
import collections
import os
import random
import subprocess
import sys
import time

sys.dont_write_bytecode = True
sys.path.insert(0, os.path.dirname(os.path.abspath(__file__)))
import basins
import long_labels
import pages
import reference
import shapes
import size_lines
import splits
import weights
from atlas_text import atlas_of

CELL_NAMES = [b'row', b'col', b'dir']
WEIGHT = b'weight'


# Files.

# Fields that are put in place of others, good and bad.
ODD_FIELDS = [b'0', b'00', b'01', b'36', b'37', b'256', b'257', b'99999', b'100000', b'3', b'128', b'255', b'',
              b'-1', b'+1', b'1 ', b' 1', b' ', b'        99999', b'         1', b'        100000', b' 00', b' 01',
              b'\t1']
ODD_WEIGHTS = [b'0', b'1', b'1000', b'1001', b'65535', b'65536', b'65537', b'66536', b'99999', b'100000', b'00001',
               b'01', b'1,1', b'1,', b',1', b'', b'-1', b'1.5', b'1 ', b' 1', b'        1000', b'         1000',
               b'        1001', b'        0', b'1\t', WEIGHT]
ODD_WEIGHT_NAMES = [b' weight', b'weight ', b'Weight', b'WEIGHT', b'weights', b'weigh', b'weight,', b',weight',
                    b'weight,weight', b'weight,row', b'weight,weight,weight', b'row,col,weight', b'row,weight,dir',
                    b'row,col,dir,weight', b'rows,cols,depth']


def line(values):
    return b','.join(value if isinstance(value, bytes) else b'%d' % value for value in values)


def sides(rng):
    """Rows and columns."""
    rows, cols = rng.choice([(rng.randint(1, 6), rng.randint(1, 6)), (rng.randint(1, 12), rng.randint(1, 12)),
                             (rng.randint(1, 45), rng.randint(1, 45)), (1, rng.randint(1, 256)),
                             (rng.randint(1, 256), rng.randint(1, 8))])
    if rows * cols > reference.LENT and rng.random() < 0.8:
        rows, cols = 32, 64
    return rows, cols


def any_depth(rng):
    """In one of thirty out of bounds."""
    if rng.random() < 1 / 30:
        return rng.choice([0, 37, 37, 38, 99, 255, 256 + 36, 65536 + 3, 99999])
    return rng.choice([1, 2, 3, 4, 6, 18, 19, 36, rng.randint(1, reference.MAX_DEPTH)])


def cell_lines(cell_names, cells):
    return [line(cell_names)] + [line(cell[name] for name in cell_names) for cell in cells]


def long_label_lines(rng, sheet, cell_names=CELL_NAMES):
    """The lines of a sheet of tests/long_labels.py; least, split and weights may be left out where they are the ones
    that a file without them has."""
    rows, cols, depth, least, split, dirs, row_weights = sheet
    named = (least, split) != splits.NEITHER or rng.random() < 0.5
    names = rng.choice(size_lines.ORDERS) if named else rng.sample(size_lines.NAMES, 3)
    lines = size_lines.lines(names, size_lines.values_of(rows, cols, depth, least, split))
    if set(row_weights) != {1} or rng.random() < 0.5:
        lines += [WEIGHT] + [b'%d' % weight for weight in row_weights]
    cells = [dict(zip(CELL_NAMES, (*divmod(cell, cols), code))) for cell, code in enumerate(dirs) if code != 0]
    return lines + cell_lines(cell_names, cells)


def sheet_lines(rng):
    if rng.random() < 0.12:
        return long_label_lines(rng, long_labels.by_chance(rng), rng.sample(CELL_NAMES, 3))
    rows, cols = sides(rng)
    depth = any_depth(rng)
    dirs = rng.choice(shapes.SHAPES)(rng, rows, cols)
    row_weights = weights.made(rng, rows, cols, dirs) if rng.random() < 0.45 else None
    cell_names = rng.sample(CELL_NAMES, 3)
    cells = []
    for cell, code in enumerate(dirs):
        if code != 0 or rng.random() < 0.1:
            cells.append(dict(zip(CELL_NAMES, (cell // cols, cell % cols, code))))
    if rng.random() < 0.3:
        rng.shuffle(cells)
    if cells and rng.random() < 0.4:
        cells = with_withdrawals(rng, cells)
    before = size_lines.made(rng, rows, cols, depth,
                             lambda: splits.mouth_areas(rows, cols, dirs, row_weights or [1] * rows))
    after = cell_lines(cell_names, cells)
    return before + after if row_weights is None else with_weights(rng, before, row_weights, after)


def files_by_order(rng):
    """For each order of the five names a small file that is listed, and one with an odd value."""
    for names in size_lines.ORDERS:
        rows, cols, depth = rng.randint(2, 9), rng.randint(2, 9), rng.randint(1, 6)
        dirs = rng.choice([shapes.flat, shapes.northwest])(rng, rows, cols)
        row_weights = weights.made(rng, rows, cols, dirs)
        least = splits.good_least(rng, splits.mouth_areas(rows, cols, dirs, row_weights))
        values = size_lines.values_of(rows, cols, depth, least, splits.good_split(rng))
        rest = [WEIGHT] + [b'%d' % weight for weight in row_weights] + [line(CELL_NAMES)]
        rest += [line((cell // cols, cell % cols, code)) for cell, code in enumerate(dirs)]
        for sizes in (values, size_lines.with_odd_value(rng, values)):
            yield b'\n'.join(size_lines.lines(names, sizes) + rest) + b'\n'


def files_of_long_labels(rng):
    for sheet in long_labels.of_digits(rng):
        yield b'\n'.join(long_label_lines(rng, sheet)) + b'\n'


def plain_lines(sizes, row_weights, dirs):
    """The lines of a sheet with all five names and with weights."""
    cols = sizes[1]
    cells = [dict(zip(CELL_NAMES, (*divmod(cell, cols), code))) for cell, code in enumerate(dirs) if code != 0]
    lines = size_lines.lines(size_lines.NAMES + size_lines.SPLIT_NAMES, size_lines.values_of(*sizes))
    return lines + [WEIGHT] + [b'%d' % weight for weight in row_weights] + cell_lines(CELL_NAMES, cells)


def files_of_basins(rng):
    """The 1 by 2 sheet of two basins, the most basins that the program can list, and some of each shape."""
    sheets = [(1, 2, [16, 1]), (2, 1, [64, 4])]
    for shape in shapes.BORDER + [shapes.most_outlets, shapes.beside_a_circle]:
        for rows, cols in [(32, 64), (8, 256), (256, 8), (45, 45), (7, 9)]:
            sheets.append((rows, cols, shape(rng, rows, cols)))
    yield from files_of_sheets(rng, sheets)


def files_of_pages(rng):
    yield from files_of_sheets(rng, pages.sheets(rng))


def files_of_sheets(rng, sheets):
    """Files of sheets that are given as (rows, cols, directions)."""
    for rows, cols, dirs in sheets:
        row_weights = weights.made(rng, rows, cols, dirs)
        sizes = rows, cols, rng.choice([1, 3, 36]), rng.choice([1, 1, 2]), splits.good_split(rng)
        yield b'\n'.join(plain_lines(sizes, row_weights, dirs)) + b'\n'


def with_withdrawals(rng, cells):
    """Cells with lines among them that withdraw some, list them again, or do so too often."""
    cells = list(cells)
    for _ in range(rng.choice([1, 1, 2, 5])):
        at = rng.randrange(len(cells))
        cell = cells[at]
        none, other = {**cell, b'dir': 0}, {**cell, b'dir': rng.choice(shapes.CODES)}
        if rng.random() < 0.3:  # another code first
            cells[at:at] = [other, none]
            continue
        good = [[none, cell]] * 6 + [[none], [none, none], [none, none, cell], [none, cell, none], [none, other],
                                     [none, other, none, cell]]
        off_sheet = {**none, rng.choice([b'row', b'col']): rng.choice([256, 99999])}
        bad = [[off_sheet], [cell], [other], [none, cell, cell], [none, cell, other],
               [none, none, cell, none, other, cell]]
        for later in rng.choice(good if rng.random() < 0.9 else bad):
            at = rng.choice([at + 1, rng.randint(at + 1, len(cells))])
            cells.insert(at, later)
    return cells


def with_weights(rng, before, row_weights, after):
    """The lines of a sheet with its weights; some of these damaged, some in a wrong place, some the end of the file."""
    lines = [WEIGHT] + [b'%d' % weight for weight in row_weights]
    if rng.random() < 0.25:
        lines = damaged_weights(rng, lines)
    kind = rng.random()
    if kind < 0.03:
        others = before + after
        at = rng.choice([0, 1, 3, len(others), rng.randint(0, len(others))])
        return others[:at] + lines + others[at:]
    if kind < 0.06:
        return before + lines[:rng.choice([0, 1, len(lines), rng.randint(0, len(lines))])]
    return before + lines + after


def damaged_weights(rng, lines):
    """The names line `weight` and the lines of weights, with one thing wrong, or that may be wrong."""
    lines = list(lines)
    row = rng.choice([1, len(lines) - 1, rng.randrange(1, len(lines))])  # the line of some row
    kind = rng.randrange(10)
    if kind < 3:
        lines[row] = b'%d' % rng.choice([0, 1001, rng.randint(1001, 99999), 65536 + rng.randint(1, 1000)])
    elif kind < 5:
        lines[row] = rng.choice(ODD_WEIGHTS)
    elif kind == 5:
        lines[0] = rng.choice(ODD_WEIGHT_NAMES)
    elif kind == 6:
        del lines[rng.choice([0, row])]
    elif kind == 7:
        lines.insert(row + 1, rng.choice(lines[1:]))
    elif kind == 8:
        lines.insert(rng.choice([0, row, row + 1, len(lines)]), WEIGHT)
    else:
        lines.append(lines.pop(0))
    return lines


def padded(rng, lines):
    """The lines of a sheet with up to eight blanks in front of some of its values, or of all."""
    share, most = rng.choice([0.02, 0.3, 1]), rng.choice([1, 8, 8])

    def value(text):
        return b' ' * (rng.choice([rng.randint(0, most), most]) if rng.random() < share else 0) + text

    return [text if text[:1].isalpha() else b','.join(map(value, text.split(b','))) for text in lines]


def with_blanks(rng, text):
    """A line of any kind with blanks before, after or within one of its fields, or in its place; or with a tab."""
    fields = text.split(b',')
    at = rng.randrange(len(fields))
    field = fields[at].lstrip(b' ')
    blanks = rng.choice([b' ' * rng.choice([1, 7, 8, 8, 9, 9, 9, 10, 80])] * 7 + [b'\t', b' \t', b'\t '])
    cut = rng.randint(0, len(field))
    fields[at] = rng.choice([blanks + field, blanks + field, field + blanks, field[:cut] + blanks + field[cut:],
                             blanks])
    return b','.join(fields)


def early_place(rng, lines):
    """The place of a names line, of the sizes, of a weight, or of the first cell line."""
    weight_lines = sum(b',' not in text for text in lines)
    return rng.randrange(min(4 + weight_lines, len(lines)))


def damaged(rng, lines):
    """Lines with one thing wrong, or that may be wrong."""
    lines = list(lines)
    at = rng.randrange(len(lines)) if rng.random() < 0.6 else early_place(rng, lines)
    kind = rng.randrange(9)
    if kind == 0:
        lines[at] = lines[rng.randrange(len(lines))]
    elif kind == 1:
        lines.insert(at, rng.choice([b'', b',', b'1', b'0,0,0', b'0,0,1', b'row,col,dir', b'rows,cols,depth', WEIGHT,
                                     b'least,split', b'rows,cols,depth,least,split', b'1' * 80, b'1' * 81, b' ']))
    elif kind == 2:
        del lines[at]
    elif kind == 3:
        text = bytearray(lines[at])
        for _ in range(rng.randint(1, 3)):
            place = rng.randrange(len(text) + 1)
            byte = rng.choice([32, 13, 44, 45, 46, 48, 49, 57, 0, 9, 47, 58, 255, rng.randrange(256)])
            text[place:place + rng.randint(0, 1)] = bytes([byte])
        lines[at] = bytes(text)
    elif kind == 4:
        fields = lines[at].split(b',')
        fields[rng.randrange(len(fields))] = rng.choice(ODD_FIELDS)
        lines[at] = b','.join(fields)
    elif kind == 5:
        lines = lines[:at]
    elif kind == 6:
        lines.append(rng.choice(lines))
    elif kind == 7:
        fields = lines[at].split(b',')
        rng.shuffle(fields)
        lines[at] = b','.join(fields[:rng.randint(1, 3)] + [b'7'] * rng.randint(0, 1))
    else:
        lines[at] = lines[at].upper() if rng.random() < 0.5 else lines[at] + b'\r'
    return lines


def a_file(rng):
    if rng.random() < 0.02:
        return bytes(rng.randrange(256) for _ in range(rng.randint(0, 300)))
    lines = sheet_lines(rng)
    if rng.random() < 0.4:
        lines = padded(rng, lines)
    if rng.random() < 0.15:
        at = rng.choice([0, 1, early_place(rng, lines), early_place(rng, lines), rng.randrange(len(lines))])
        lines[at] = with_blanks(rng, lines[at])
    if rng.random() < 0.4:
        lines = damaged(rng, lines)
    data = b'\n'.join(lines)
    ends = rng.random()
    return data + (b'\n' if ends < 0.7 else b'' if ends < 0.97 else b'\n\n')


# Running.

def pieces(rng, data):
    """The input cut at odd places; few cuts, so that a run of many files stays short."""
    cuts = sorted({rng.randrange(len(data) + 1) for _ in range(rng.choice([0, 1, 2, 5, 17]))})
    return [data[a:b] for a, b in zip([0] + cuts, cuts + [len(data)]) if a < b]


def run(program, given, waits):
    """What a program prints for the pieces of its input, on standard output and on standard error."""
    process = subprocess.Popen([program], stdin=subprocess.PIPE, stdout=subprocess.PIPE, stderr=subprocess.PIPE)
    try:
        for piece in given:
            os.write(process.stdin.fileno(), piece)
            if waits:
                time.sleep(0.0005)
    except BrokenPipeError:
        pass
    return process.communicate()


def differences(programs, rng, data, printed):
    """Runs both programs on a file, for which the first is to print `printed`. Tells of each in turn what it printed
    and what it should have; None if it printed that."""
    waits = rng.random() < 0.1
    given = pieces(rng, data)
    for program, expected in zip(programs, (printed, atlas_of(printed))):
        out, err = run(program, given, waits)
        same = out == expected and err == b''
        yield None if same else (program, data[:2000], expected[:500], out[:500], err[:200])


BASIN_KINDS = [kind for kind in basins.KINDS if kind not in ('more than 10000 basins', '58311 basins')]  # 2,048 cells
LISTING_KINDS = ['listings', *BASIN_KINDS, 'one basin alone', 'with blanks', 'with weights', 'equal areas by weights',
                 'another heaviest donor by weights', 'with a withdrawn cell', 'with one listed again',
                 'with least and split', 'other labels by least', 'other labels by split', 'by least with weights',
                 *pages.KINDS]
REFUSED_AGAIN = '10 for a withdrawn cell'
LONGEST = 'longest label of %d digits'
PAGES = 'atlas of %d pages'


def longest_label(answer):
    """The number of digits of the longest label in a listing; that of the label 0 is taken as 1."""
    return max(len(text.rsplit(b',', 1)[1]) for text in answer.split(b'\n')[1:-1])


def withdrawals(data):
    """Whether a file withdraws a cell, whether it lists one again, and whether its last cell line names such a cell."""
    state, dirs, row_weights = reference.Intake(), bytearray(reference.LENT), [0] * reference.LENT_WEIGHTS
    codes, withdrawn, again, last = {}, set(), False, None
    for text in reference.lines_of(data):
        values = dict(zip(state.names, text.split(b',')))
        taking_cells = state.stage == 'cells'
        number, state = reference.take_line(state, text, dirs, row_weights)
        if taking_cells and number in (0, 10):
            last = int(values[b'row']), int(values[b'col'])
            code = int(values[b'dir'])
            if number == 0 and code == 0 and codes.get(last, 0) != 0:
                withdrawn.add(last)
            again = again or number == 0 and code != 0 and last in withdrawn
            codes[last] = code
        if number != 0:
            break
    return len(withdrawn) > 0, again, last in withdrawn


def alone(rng, data, answer):
    """A file with one of the basins of a listed file, and its listing: the lines of that basin, with the number 1."""
    heading, *lines = answer.split(b'\n')[:-1]
    number, place, state, dirs, row_weights = reference.read_file(data)
    chosen = rng.choice(lines).split(b',')[0]
    own = [line.split(b',') for line in lines if line.split(b',')[0] == chosen]
    listed = [b','.join([b'1', *fields[1:]]) for fields in own]
    cells = {int(row) * state.cols + int(col) for _, row, col, *_ in own}
    kept = [code if cell in cells else reference.OUTSIDE for cell, code in enumerate(dirs[:state.rows * state.cols])]
    made = plain_lines(state.sizes(), row_weights[:state.rows], kept)
    return b'\n'.join(made) + b'\n', b'\n'.join([heading, *listed]) + b'\n'


def kinds_of(data, answer):
    """What is counted of a file: its answer; of a listing also its pages, its basins, the longest label, blanks,
    withdrawals, weights, least and split, and what these change; of 6 also how the circle lies beside basins; of 10
    also whether it was for a cell that had been withdrawn."""
    if answer.startswith(b'refused'):
        number, place = answer.split(b'\n')[1].decode().split(',')
        if number == '6':
            state, dirs = reference.read_file(data)[2:4]
            return [number, *basins.circle_kinds(state.rows, state.cols, dirs[:state.rows * state.cols], int(place))]
        return [number] + [REFUSED_AGAIN] * (number == '10' and withdrawals(data)[2])
    atlas = atlas_of(answer)
    kinds = ['listings', LONGEST % longest_label(answer), PAGES % pages.count(atlas)[0], *pages.kinds(atlas)]
    some, again, _ = withdrawals(data)
    kinds += ['with a withdrawn cell'] * some + ['with one listed again'] * again
    if b' ' in data:
        kinds.append('with blanks')
    weighted, named = b'\n' + WEIGHT + b'\n' in data, b'least' in data
    number, place, state, dirs, row_weights = reference.read_file(data)
    labelled = reference.label_intake(state, dirs, row_weights, *reference.lengths_for(reference.LENT))
    areas, labels = labelled[2:4]
    kinds += basins.kinds(state.rows, state.cols, dirs, labelled)
    if weighted:
        equal, other_heaviest = weights.effects(state.rows, state.cols, dirs, areas)
        kinds.append('with weights')
        kinds += ['equal areas by weights'] * equal + ['another heaviest donor by weights'] * other_heaviest
    if named:
        by_least, by_split = splits.changes(state.sizes(), dirs, row_weights, labels)
        kinds += ['with least and split'] + ['other labels by least'] * by_least + ['other labels by split'] * by_split
        kinds += ['by least with weights'] * (by_least and weighted)
    return kinds


def files(count, seed):
    """All files, each with a source of chance for the rest: those by order, those of long labels, those of many basins,
    those around full pages, and so many random ones."""
    rng = random.Random(seed)
    for made in (files_by_order, files_of_long_labels, files_of_basins, files_of_pages):
        for data in made(rng):
            yield rng, data
    for number in range(count):
        rng = random.Random(seed * 1000003 + number)
        yield rng, a_file(rng)


def tell(counts, orders):
    """Prints what was counted; tells whether every kind occurred that must."""
    refusals = sorted(int(kind) for kind in counts if kind.isdigit())
    print('refusals: ' + ', '.join('%d: %d' % (number, counts[str(number)]) for number in refusals))
    print(', '.join('%s: %d' % (kind, counts[kind]) for kind in [REFUSED_AGAIN] + basins.CIRCLE_KINDS + LISTING_KINDS))
    print('orders of the five names in listed files: %d' % len(orders))
    long = {length: counts[LONGEST % length] for length in long_labels.LENGTHS}
    print('listed files by the digits of their longest label: ' + ', '.join('%d: %d' % item for item in long.items()))
    by_pages = [(number, counts[PAGES % number]) for number in range(1, reference.LENT) if counts[PAGES % number]]
    print('atlases by their pages: ' + ', '.join('%d: %d' % item for item in by_pages))
    complete = len(orders) == len(size_lines.ORDERS) and min(long.values()) > 0
    return complete and all(counts[kind] > 0 for kind in basins.CIRCLE_KINDS + LISTING_KINDS)


def options():
    parser = argparse.ArgumentParser(description=__doc__, formatter_class=argparse.RawDescriptionHelpFormatter)
    parser.add_argument('--files', type=int, default=20000)
    parser.add_argument('--seed', type=int, default=1)
    built = os.path.join(os.path.dirname(os.path.abspath(__file__)), '..', 'target', 'bin')
    parser.add_argument('--program', default=os.path.join(built, 'pfafstetter'))
    parser.add_argument('--atlas', default=os.path.join(built, 'atlas'))
    return parser.parse_args()


def main():
    told = options()
    passed = failed = 0
    counts, orders = collections.Counter(), set()
    for number, (rng, data) in enumerate(files(told.files, told.seed)):
        printed = reference.report(data)
        kinds = kinds_of(data, printed)
        counts.update(kinds)
        if 'with least and split' in kinds:
            orders.add(data.split(b'\n')[0])
        tried = [(data, printed)]
        if 'listings' in kinds and 'one basin' not in kinds:
            tried.append(alone(rng, data, printed))
            counts['one basin alone'] += 1
        for given, expected in tried:
            for difference in differences((told.program, told.atlas), rng, given, expected):
                if difference is None:
                    passed += 1
                    continue
                failed += 1
                if failed <= 5:
                    print('file %d differs:\n program %s\n input %r\n expected %r\n printed %r\n error %r'
                          % (number, *difference))
    complete = tell(counts, orders)
    print('%d passed, %d failed' % (passed, failed))
    return 0 if failed == 0 and passed > 0 and complete else 1


if __name__ == '__main__':
    sys.exit(main())
