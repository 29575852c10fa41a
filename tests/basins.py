"""Tells how the basins of sheets lie, for tests/fuzz.py and tests/direct/, and compares each with the sheet on which
all others are set to 0."""
import reference


def alone(dirs, basins, number):
    """The directions of a sheet with all basins but this one set to 0."""
    return bytes(code if basin == number else reference.OUTSIDE for code, basin in zip(dirs, basins))


def check_alone(sheet, dirs, lent, labelled, number):
    """Has a basin of an accepted sheet the areas and labels that it has alone, as the one basin of that sheet?"""
    areas, labels, basins = labelled[2:]
    n = len(areas)
    of_basin = [basin == number for basin in basins]
    expected = (0, 0, [area if own else 0 for area, own in zip(areas, of_basin)],
                [label if own else (0, 0) for label, own in zip(labels, of_basin)], [int(own) for own in of_basin])
    if reference.label(*sheet, alone(dirs, basins, number), lent, *reference.lengths_for(n)) != expected:
        raise AssertionError('basin %d has other areas or labels alone: %s' % (number, [sheet, list(dirs), lent]))


# Other ways to number basins; `cells` has those of each basin in reading order, the first basin first.

def by_first_cell(cells, outlets, areas):
    return [own[0] for own in cells]


def by_last_cell(cells, outlets, areas):
    return [own[-1] for own in cells]


def by_area(cells, outlets, areas):
    return [-areas[outlet] for outlet in outlets]


def by_falling_outlet(cells, outlets, areas):
    return [-outlet for outlet in outlets]


OTHERS = {'by first cells': by_first_cell, 'by last cells': by_last_cell, 'by area': by_area,
          'by falling outlets': by_falling_outlet}

# What is counted of an accepted sheet with several basins.
COUNTS = {'two basins': (2, 2), 'dozens of basins': (24, 99), 'hundreds of basins': (100, 999),
          'more than 10000 basins': (10001, 65536), '58311 basins': (58311, 58311)}
SEVERAL = ['a basin of one cell beside a larger one', 'basins of one cell alone', 'an outlet at an inner outside cell',
           'an outlet at the border', 'equal labels in two basins', 'labels of one basin among those of another',
           'outside cells']
KINDS = ['one basin', *COUNTS, *SEVERAL, *('other numbers ' + name for name in OTHERS)]


def kinds(rows, cols, dirs, labelled):
    """The kinds that an accepted sheet belongs to."""
    areas, labels, numbers = labelled[2:]
    count = max(numbers)
    if count == 1:
        return ['one basin']
    codes = reference.codes_of(dirs[:rows * cols])
    outlets = reference.donors_and_outlets(rows, cols, codes)[1]
    cells = [[] for _ in range(count)]
    for cell in codes:
        cells[numbers[cell] - 1].append(cell)
    found = {name: least <= count <= most for name, (least, most) in COUNTS.items()}
    found.update(zip(SEVERAL, several_kinds(rows, cols, codes, outlets, cells, labels)))
    for name, key in OTHERS.items():
        keys = key(cells, outlets, areas)
        found['other numbers ' + name] = any(a > b for a, b in zip(keys, keys[1:]))
    return [kind for kind, holds in found.items() if holds]


def several_kinds(rows, cols, codes, outlets, cells, labels):
    """In the order of SEVERAL."""
    sizes = [len(own) for own in cells]
    inner = [step_on_sheet(rows, cols, codes, outlet) for outlet in outlets]
    texts = [{reference.digits_of(labels[cell]) for cell in own} for own in cells]
    return (min(sizes) == 1 < max(sizes), max(sizes) == 1, any(inner), not all(inner),
            len(set().union(*texts)) < sum(map(len, texts)),
            any(max(a) > min(b) for a, b in zip(texts, texts[1:])), len(codes) < rows * cols)


def step_on_sheet(rows, cols, codes, cell):
    """Does the step of an inside cell stay on the sheet?"""
    row_step, col_step = reference.STEPS[codes[cell]]
    return 0 <= cell // cols + row_step < rows and 0 <= cell % cols + col_step < cols


# What is counted of a sheet that is refused by 6.
CIRCLE_KINDS = ['6 beside a basin', '6 beside several basins', '6 after cells of a basin', '6 upstream of a circle']


def circle_kinds(rows, cols, dirs, place):
    """The kinds that such a sheet belongs to; place is the cell that 6 tells."""
    codes = reference.codes_of(dirs)
    donors, outlets = reference.donors_and_outlets(rows, cols, codes)
    if outlets:
        yield '6 beside a basin' if len(outlets) == 1 else '6 beside several basins'
        if min(reference.upstream(donors, outlets)) < place:
            yield '6 after cells of a basin'
    cell = place
    for _ in codes:
        cell = reference.step_end(rows, cols, codes, cell)
        if cell == place:
            return
    yield '6 upstream of a circle'
