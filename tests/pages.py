"""Makes sheets by the number of their inside cells, for tests/fuzz.py, and tells how many pages an atlas has."""
import shapes
from atlas_text import CELL_LINES

# numbers of inside cells, most of them beside that of full pages
CELLS = [1, 2, 58, 59, 60, 117, 118, 119, 176, 177, 178, 590, 591, 2006, 2007, 2048]
SIDES = [(1, 3), (2, 40), (9, 9), (10, 18), (1, 256), (25, 26), (45, 45), (32, 64), (8, 256), (256, 8)]
FULL = [shapes.comb, shapes.ditches, shapes.northwest, shapes.flat, shapes.strips]  # no outside cells, no circles

# What is counted of an atlas.
KINDS = ['one page', 'one full page', 'several pages', 'several full pages', 'a last page of one cell']


def sheets(rng):
    """Sheets as (rows, cols, directions), some with each number of inside cells; the others are set to 0 by chance."""
    for cells in CELLS:
        for shape in FULL:
            rows, cols = rng.choice([sides for sides in SIDES if sides[0] * sides[1] >= cells])
            dirs = shape(rng, rows, cols)
            for cell in rng.sample(range(rows * cols), rows * cols - cells):
                dirs[cell] = 0
            yield rows, cols, dirs


def count(atlas):
    """The number of its pages, and of the cell lines of the last."""
    lines = atlas.count(b'\n')
    pages = -(-lines // (1 + CELL_LINES))
    return pages, lines - (pages - 1) * (1 + CELL_LINES) - 1


def kinds(atlas):
    """The kinds that an atlas belongs to."""
    pages, last = count(atlas)
    found = (pages == 1, pages == 1 and last == CELL_LINES, pages > 1, pages > 1 and last == CELL_LINES,
             pages > 1 and last == 1)
    return [kind for kind, holds in zip(KINDS, found) if holds]
