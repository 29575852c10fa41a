"""The atlas: the listing of a file set as pages of type."""

CELL_LINES = 59  # of a full page, after its names line
COLUMNS = 72
NAMES = ['basin', 'row', 'col', 'area', 'label']


def set_line(basin, row, col, area, label):
    """The texts of a line in their fields, with its line feed."""
    fields = [basin.rjust(5), row.rjust(4), col.rjust(4), area.rjust(9), label.ljust(36)]
    line = ' '.join(fields)
    if len(line) > 5 + 1 + 4 + 1 + 4 + 1 + 9 + 1 + 36:
        raise ValueError('a text does not fit its field: %r' % line)
    return line.ljust(COLUMNS) + '\n'


def atlas_of(printed):
    """What the program `atlas` prints where `pfafstetter` prints `printed`, both as bytes: the atlas of a listing, and
    a refusal as it is."""
    heading, *lines = printed.decode().splitlines()
    if heading == 'refused,place':
        return printed
    pages = ''
    for place, line in enumerate(lines):
        if place % CELL_LINES == 0:
            pages += set_line(*NAMES)
        pages += set_line(*line.split(','))
    return pages.encode()
