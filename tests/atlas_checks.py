"""Checks of the atlas for tests/cases.py: the stored pages against the reference program, the rules of a page on the
atlas of every stored case, and lines and pages that were worked out by hand. The rules are those of the request, and
nothing of them is taken from atlas_text.py."""
from atlas_text import atlas_of, set_line

COLUMNS = 72
PAGE_LINES = 60
NAMES = 'basin,row,col,area,label'

# The fields of a line: first column, counted from 0, column after the last, and whether the text stands to the right.
FIELDS = [(0, 5, True), (6, 10, True), (11, 15, True), (16, 25, True), (26, 62, False)]
IN_FIELDS = {column for first, end, _ in FIELDS for column in range(first, end)}

# (texts of a line; the line)
LINES = [
    (['basin', 'row', 'col', 'area', 'label'],
     'basin  row  col      area label                                         '),
    (['1', '0', '0', '1', '0'],
     '    1    0    0         1 0                                             '),
    (['1', '1', '2', '4', '91'],
     '    1    1    2         4 91                                            '),
    (['1838', '31', '63', '2048000', '111111111111111112'],
     ' 1838   31   63   2048000 111111111111111112                            '),
    (['58311', '255', '255', '65536000', '123456789123456789123456789123456789'],
     '58311  255  255  65536000 123456789123456789123456789123456789          '),
]

# (cells; lines of their atlas, the last page's among them)
LENGTHS = [(1, 2, 2), (58, 59, 59), (59, 60, 60), (60, 62, 2), (117, 119, 59), (118, 120, 60), (119, 122, 2),
           (177, 180, 60), (178, 182, 2), (2048, 2083, 43)]


def read_back(line):
    """The texts of a line with commas between; None if some column has what it should not have."""
    texts = []
    for first, end, right in FIELDS:
        field = line[first:end]
        text = field.strip(' ')
        if text == '' or ' ' in text or field[-1 if right else 0] == ' ':
            return None
        texts.append(text)
    between = ''.join(byte for column, byte in enumerate(line) if column not in IN_FIELDS)
    return ','.join(texts) if between.strip(' ') == '' else None


def faults(atlas, listing):
    """What is wrong with an atlas of this listing; both are bytes."""
    *lines, after = atlas.decode().split('\n')
    found = ['no line feed at the end'] * (after != '')
    found += ['line %d has %d columns' % (number, len(line)) for number, line in enumerate(lines, 1)
              if len(line) != COLUMNS]
    texts = [read_back(line) for line in lines]
    found += ['line %d is not set in its fields' % number for number, text in enumerate(texts, 1) if text is None]
    names = [number for number, text in enumerate(texts, 1) if text == NAMES]
    if names != list(range(1, len(lines) + 1, PAGE_LINES)):
        found.append('the names stand in the lines %s' % names)
    if len(lines) in names:
        found.append('the last line is no cell')
    if [NAMES] + [text for text in texts if text != NAMES] != listing.decode().split('\n')[:-1]:
        found.append('the cells are not those of the listing')
    return found


def of_case(given, printed):
    """Of a stored case: its file, and what the reference program prints for it."""
    atlas, stored, listing = atlas_of(printed), given.with_suffix('.atlas'), given.with_suffix('.out').read_bytes()
    if stored.exists():
        yield given.stem + ', its atlas', atlas, stored.read_bytes()
        atlas = stored.read_bytes()
    if printed.startswith(b'refused,place\n'):
        yield given.stem + ', the refusal in its atlas', atlas, listing
    else:
        yield given.stem + ', the pages of its atlas', faults(atlas, listing), []


def made(cells):
    """A listing of so many cells, and the lines of its atlas."""
    listing = ''.join('%s\n' % line for line in [NAMES] + ['1,%d,%d,7,31' % divmod(cell, 64) for cell in range(cells)])
    return listing.encode(), atlas_of(listing.encode()).decode().splitlines()


# Ways to spoil the lines of an atlas of two full pages.
SPOILED = {
    'nothing': lambda lines: [],
    'a page short of its last cell': lambda lines: lines[:-1],
    'a cell line left out': lambda lines: lines[:5] + lines[6:],
    'a cell line twice': lambda lines: lines[:5] + lines[4:],
    'two cell lines exchanged': lambda lines: lines[:5] + [lines[6], lines[5]] + lines[7:],
    'no names on the second page': lambda lines: lines[:60] + lines[61:],
    'no names on the first page': lambda lines: lines[1:],
    'names twice': lambda lines: lines[:1] + lines,
    'names one line later': lambda lines: lines[:60] + [lines[61], lines[60]] + lines[62:],
    'names after the last page': lambda lines: lines + lines[:1],
    'a blank line between the pages': lambda lines: lines[:60] + [' ' * 72] + lines[60:],
    'an empty line at the end': lambda lines: lines + [''],
    '71 columns': lambda lines: [line[:-1] for line in lines],
    '73 columns in the last line': lambda lines: lines[:-1] + [lines[-1] + ' '],
    'no blanks at the end': lambda lines: [line.rstrip() for line in lines],
    'a text past the fields': lambda lines: [line[:-1] + '1' for line in lines],
    'labels to the right': lambda lines: [line[:26] + line[26:62].strip().rjust(36) + line[62:] for line in lines],
    'basins to the left': lambda lines: [line[:5].strip().ljust(5) + line[5:] for line in lines],
    'columns before rows': lambda lines: [line[:6] + line[11:15] + ' ' + line[6:10] + line[15:] for line in lines],
    'an area one column to the right': lambda lines: [line[:16] + ' ' + line[16:-1] for line in lines],
}


def checks():
    found = [('atlas: a line', set_line(*texts), line + '\n') for texts, line in LINES]
    found += [('atlas: a line read back', read_back(line), ','.join(texts)) for texts, line in LINES]
    for cells, count, last in LENGTHS:
        listing, lines = made(cells)
        whole = ''.join(line + '\n' for line in lines).encode()
        found.append(('atlas: %d cells' % cells, (len(lines), (len(lines) - 1) % PAGE_LINES + 1), (count, last)))
        found.append(('atlas: pages of %d cells' % cells, faults(whole, listing), []))
    listing, lines = made(118)
    for name, spoil in SPOILED.items():
        text = ''.join(line + '\n' for line in spoil(lines)).encode()
        found.append(('atlas: the fault is found: ' + name, faults(text, listing) != [], True))
    without = '\n'.join(lines).encode()
    found.append(('atlas: no line feed at the end', 'no line feed at the end' in faults(without, listing), True))
    return found
