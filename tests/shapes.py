"""Makes sheets, as lists of direction bytes, for tests/fuzz.py and tests/direct/: with one basin, with several, with
circles."""
import reference

CODES = list(reference.STEPS)
EAST, SOUTH, WEST, NORTH = 1, 4, 16, 64


def neighbours(rows, cols, cell):
    """Pairs (neighbour, code of its step onto the cell)."""
    row, col = divmod(cell, cols)
    for code, (row_step, col_step) in reference.STEPS.items():
        r, c = row - row_step, col - col_step
        if 0 <= r < rows and 0 <= c < cols:
            yield r * cols + c, code


def outward(rng, rows, cols, cell, dirs):
    """A code whose step from the cell leaves the sheet or ends on an outside cell."""
    inward = {code for other, code in neighbours(rows, cols, cell)}
    row, col = divmod(cell, cols)
    leaving = []
    for code, (row_step, col_step) in reference.STEPS.items():
        r, c = row + row_step, col + col_step
        if not (0 <= r < rows and 0 <= c < cols) or dirs[r * cols + c] == 0:
            leaving.append(code)
    return rng.choice(leaving) if leaving else rng.choice(sorted(inward))


def grown(rng, rows, cols):
    """A basin grown from its outlet: by the newest cell, by any cell, or by filling a cell's neighbours first."""
    n = rows * cols
    dirs = [0] * n
    outlet = rng.randrange(n)
    if rng.random() < 0.7:
        outlet = rng.choice([c for c in range(n) if c < cols or c % cols == 0])
    dirs[outlet] = outward(rng, rows, cols, outlet, dirs)
    end = None
    row, col = divmod(outlet, cols)
    row_step, col_step = reference.STEPS[dirs[outlet]]
    if 0 <= row + row_step < rows and 0 <= col + col_step < cols:
        end = (row + row_step) * cols + col + col_step  # stays outside
    style = rng.choice(['newest', 'any', 'oldest'])
    wanted = rng.randint(1, n)
    border = [outlet]
    count = 1
    while border and count < wanted:
        at = {'newest': -1, 'any': rng.randrange(len(border)), 'oldest': 0}[style]
        cell = border[at]
        free = [(other, code) for other, code in neighbours(rows, cols, cell) if dirs[other] == 0 and other != end]
        if not free:
            border.pop(at)
            continue
        other, code = rng.choice(free)
        dirs[other] = code
        border.append(other)
        count += 1
    return dirs


def comb(rng, rows, cols):
    """A river along row 0 with a tributary from each column: many equal areas."""
    return [16 if cell < cols else 64 for cell in range(rows * cols)]


def snake(rng, rows, cols):
    dirs = []
    for row in range(rows):
        for col in range(cols):
            first = col == 0 if row % 2 == 0 else col == cols - 1
            dirs.append(64 if first else 16 if row % 2 == 0 else 1)
    return dirs


def ditches(rng, rows, cols):
    """A river to and fro along every second row, with a ditch of one cell from the row below into each of its cells."""
    dirs = []
    for row in range(rows):
        for col in range(cols):
            east = row // 2 % 2 == 1  # where the river flows east
            first = col == (cols - 1 if east else 0)
            dirs.append(64 if row % 2 == 1 or first else 1 if east else 16)
    return dirs


def northwest(rng, rows, cols):
    """Each cell flows west, northwest or north, by chance."""
    return [16 if cell < cols else 64 if cell % cols == 0 else rng.choice([16, 32, 64]) for cell in range(rows * cols)]


def flat(rng, rows, cols):
    """A canal to the west along one row. From both sides water flows to it, along side canals in some columns; in the
    others mostly along ditches to the west."""
    canal, turns = rng.randrange(rows), rng.choice([0, 0.05, 0.3])
    sides = {0, *rng.sample(range(cols), rng.randint(0, cols // 3))}
    dirs = []
    for cell in range(rows * cols):
        row, col = divmod(cell, cols)
        ahead = 4 if row < canal else 64
        dirs.append(ahead if row != canal and (col in sides or rng.random() < turns) else 16)
    return dirs


def by_chance(rng, rows, cols):
    """Any codes: circles and many outlets."""
    share = rng.random()
    return [rng.choice(CODES) if rng.random() < share else 0 for _ in range(rows * cols)]


def spoiled(rng, rows, cols):
    """A basin with one or two bytes changed: a circle, a second outlet, a cell taken out."""
    dirs = grown(rng, rows, cols)
    for _ in range(rng.randint(1, 2)):
        dirs[rng.randrange(rows * cols)] = rng.choice(CODES + [0])
    return dirs


# Sheets with several basins.

def code_to(cols, cell, end):
    """The code whose step leads from a cell to a neighbour."""
    step = end // cols - cell // cols, end % cols - cell % cols
    return next(code for code, steps in reference.STEPS.items() if steps == step)


def several(rng, rows, cols):
    """Basins grown side by side from outlets, few or many, on the border and beside cells that stay outside."""
    n = rows * cols
    kept = set(rng.sample(range(n), rng.choice([0, 0, n // 30, n // 8])))  # these stay outside
    beside = {cell for cell in range(n) if cell // cols in (0, rows - 1) or cell % cols in (0, cols - 1)}
    beside = sorted(beside.union(*({other for other, _ in neighbours(rows, cols, cell)} for cell in kept)) - kept)
    dirs, most = [0] * n, min(len(beside), rng.choice([2, 3, 5, 40, n]))
    border = rng.sample(beside, rng.randint(min(1, most), most))
    for outlet in border:
        dirs[outlet] = rng.choice(leaving_codes(rows, cols, outlet, kept))
    newest, wanted = rng.random() < 0.3, rng.choice([n, n, rng.randint(1, n)])
    while border and wanted > 0:
        at = -1 if newest else rng.randrange(len(border))
        free = [(other, code) for other, code in neighbours(rows, cols, border[at])
                if dirs[other] == 0 and other not in kept]
        if not free:
            border[at] = border[-1]
            border.pop()
            continue
        other, code = rng.choice(free)
        dirs[other] = code
        border.append(other)
        wanted -= 1
    return dirs


def leaving_codes(rows, cols, cell, outside):
    """The codes whose step from the cell leaves the sheet or ends on one of these cells."""
    ends = {code_to(cols, cell, other): other for other, _ in neighbours(rows, cols, cell)}
    return [code for code in CODES if code not in ends or ends[code] in outside]


def tiles(rng, rows, cols):
    """A sheet of rectangles, each with a basin of its own and an outside row and column after it, or mostly so."""
    high, wide, gap = rng.randint(1, 8), rng.randint(1, 8), rng.choice([0, 1, 1, 1])
    dirs = [0] * (rows * cols)
    for top in range(0, rows, high + gap):
        for left in range(0, cols, wide + gap):
            height, width = min(high, rows - top), min(wide, cols - left)
            tile = rng.choice([grown, comb, northwest, flat])(rng, height, width)
            for cell, code in enumerate(tile):
                dirs[(top + cell // width) * cols + left + cell % width] = code
    return dirs


def strips(rng, rows, cols):
    """Strips of one to four rows, each with a river to the west or the east along one of them."""
    dirs, row = [], 0
    while row < rows:
        high, ahead = min(rng.randint(1, 4), rows - row), rng.choice([WEST, EAST])
        river = rng.randrange(high)
        for at in range(high):
            dirs += [ahead if at == river else SOUTH if at < river else NORTH] * cols
        row += high
    return dirs


def most_outlets(rng, rows, cols):
    """As many outlets as a sheet can hold: an inner outlet needs an outside neighbour, and one outside cell is that of
    up to eight. Each cell is a basin of its own."""
    dirs = [0] * (rows * cols)
    for cell in range(rows * cols):
        row, col = divmod(cell, cols)
        outside = min(3 * ((row - 1) // 3) + 2, rows - 2) * cols + min(3 * ((col - 1) // 3) + 2, cols - 2)
        if row in (0, rows - 1):
            dirs[cell] = NORTH if row == 0 else SOUTH
        elif col in (0, cols - 1):
            dirs[cell] = WEST if col == 0 else EAST
        elif cell != outside:
            dirs[cell] = code_to(cols, cell, outside)
    return dirs


def many_outlets(rng, rows, cols):
    """The same, but some cells flow into a neighbour that stays an outlet."""
    dirs, share = most_outlets(rng, rows, cols), rng.choice([0, 0.02, 0.3, 0.9])
    flowing, stays = set(), set()
    for cell in range(rows * cols):
        ends = [other for other, _ in neighbours(rows, cols, cell) if dirs[other] != 0 and other not in flowing]
        if dirs[cell] != 0 and cell not in stays and ends and rng.random() < share:
            end = rng.choice(ends)
            dirs[cell] = code_to(cols, cell, end)
            flowing.add(cell)
            stays.add(end)
    return dirs


BORDER = [several, several, several, tiles, strips, many_outlets]


def beside_a_circle(rng, rows, cols):
    """A sheet with several basins, but a cell flows back into the one that it gets water from, where there is one."""
    dirs = rng.choice(BORDER)(rng, rows, cols)
    pairs = [(cell, end) for end in range(rows * cols) if dirs[end] != 0
             for cell, code in neighbours(rows, cols, end) if dirs[cell] == code]
    if pairs:
        cell, end = rng.choice(pairs)
        dirs[end] = code_to(cols, end, cell)
    return dirs


ONE_BASIN = [grown, grown, grown, comb, snake, ditches, northwest, flat]
SHAPES = ONE_BASIN + [by_chance, spoiled, spoiled] + BORDER + [beside_a_circle]
