"""Ways to label a sheet with least and split that are not the one asked for. The sheets of tests/direct/lent_splits.py
must tell each of them from the right one."""
from typing import NamedTuple

import reference


class Basin(NamedTuple):
    donors: dict  # of each inside cell, from lightest to heaviest
    areas: dict
    counts: dict  # of the cells whose water passes
    outlet: int


class Rule(NamedTuple):
    """How a unit is split. `count` is the number of digits that it has."""
    counted: callable  # of basin, mouth, least and count: is the mouth counted?
    taken: callable  # the taken ones of the counted mouths, which stand in list order; with basin, split and count
    finished: callable = lambda mouths, counted, split: not counted


def basin_of(rows, cols, dirs, lent):
    """Of an accepted sheet with one basin."""
    donors, (outlet,) = reference.donors_and_outlets(rows, cols, reference.codes_of(dirs[:rows * cols]))
    drained = reference.upstream(donors, [outlet])
    areas, counts = (reference.areas_of(cols, weights, donors, drained) for weights in (lent, [1] * rows))
    return basin_by(donors, areas, counts, outlet)


def basin_by(donors, areas, counts, outlet):
    by_weight = {cell: sorted(own, key=lambda donor: (areas[donor], donor)) for cell, own in donors.items()}
    return Basin(by_weight, areas, counts, outlet)


def without_small(basin, least):
    """The basin with areas to which no tributary below `least` adds."""
    areas = {}
    for cell in reversed(reference.upstream(basin.donors, [basin.outlet])):
        donors = basin.donors[cell]
        small = sum(areas[donor] for donor in donors[:-1] if basin.areas[donor] < least)
        own = basin.areas[cell] - sum(basin.areas[donor] for donor in donors)
        areas[cell] = own + sum(areas[donor] for donor in donors) - small
    return basin_by(basin.donors, areas, basin.counts, basin.outlet)


# Rules.

def by_area(basin, mouth, least, count):
    return basin.areas[mouth] >= least


def heaviest(basin, counted, split, count):
    return sorted(counted, key=lambda cell: (basin.areas[cell], cell))[-split:]


def lightest(basin, counted, split, count):
    return sorted(counted, key=lambda cell: (basin.areas[cell], cell))[:split]


RULES = {
    'a mouth of exactly least not counted': Rule(lambda basin, mouth, least, count: basin.areas[mouth] > least,
                                                 heaviest),
    'a mouth of one less counted': Rule(lambda basin, mouth, least, count: basin.areas[mouth] + 1 >= least, heaviest),
    'every mouth counted': Rule(lambda basin, mouth, least, count: True, heaviest),
    'least against counts of cells': Rule(lambda basin, mouth, least, count: basin.counts[mouth] >= least, heaviest),
    'least in the first split alone': Rule(
        lambda basin, mouth, least, count: count > 0 or by_area(basin, mouth, least, 0), heaviest),
    'four taken whatever split is': Rule(by_area, lambda basin, counted, split, count: heaviest(basin, counted, 4, 0)),
    'split in the first split alone': Rule(
        by_area, lambda basin, counted, split, count: heaviest(basin, counted, split if count == 0 else 4, 0)),
    'one more taken': Rule(by_area, lambda basin, counted, split, count: heaviest(basin, counted, split + 1, 0)),
    'the lightest taken': Rule(by_area, lightest),
    'the first in list order taken': Rule(by_area, lambda basin, counted, split, count: counted[:split]),
    'the last in list order taken': Rule(by_area, lambda basin, counted, split, count: counted[-split:]),
    'fewer counted than split: finished': Rule(by_area, heaviest, lambda mouths, counted, split: len(counted) < split),
    'a mouth that is not counted: finished': Rule(by_area, heaviest,
                                                  lambda mouths, counted, split: not counted or counted != mouths),
}


# Labelling. The parts of a unit are pairs (digit, run).

def parts_of(basin, runs, mouths):
    rivers = [reference.river_list(basin.donors, mouth) for mouth in mouths]
    return ([(2 * place + 1, run) for place, run in enumerate(runs)]
            + [(2 * place + 2, river) for place, river in enumerate(rivers)])


def small_to_the_next_run(basin, least, runs, mouths):
    """Mouths that are not counted and stand straight before a taken one: in the run after it."""
    runs = [list(run) for run in runs]
    for run, after in zip(runs, runs[1:]):
        while run and run[-1][1] and basin.areas[run[-1][0]] < least:
            after.insert(0, run.pop())
    return parts_of(basin, runs, mouths)


def digits_first(basin, least, runs, mouths):
    """Digits given to the heaviest mouths of all; those that are not counted then go to the run before them."""
    runs = [list(run) for run in runs]
    for run, mouth in zip(runs, mouths):
        if basin.areas[mouth] < least:
            run.append((mouth, True))
    return [(digit, part) for digit, part in parts_of(basin, runs, mouths)
            if digit % 2 == 1 or basin.areas[part[0][0]] >= least]


def finish(basin, labels, unit, digits):
    for cell in reference.unit_cells(basin.donors, unit):
        labels[cell] = digits


def small_with_the_next_digit(basin, labels, unit, digits):
    finish(basin, labels, unit, digits)
    for cell in reference.upstream(basin.donors, [cell for cell, is_mouth in unit if is_mouth]):
        labels[cell] = digits[:-1] + str(int(digits[-1:] or '0') + 1)


def mouth_alone(basin, labels, unit, digits):
    """What flows to a mouth that is not taken keeps the label of no digits."""
    for cell, is_mouth in unit:
        labels[cell] = digits


def labels_by(basin, depth, least, split, rule, parts=None, finished=finish, taken_of_all=False):
    """The digits of each inside cell."""
    labels = dict.fromkeys(basin.donors, '')
    units = [(reference.river_list(basin.donors, basin.outlet), '')]
    while units:
        unit, digits = units.pop()
        count = len(digits)
        mouths = [cell for cell, is_mouth in unit if is_mouth]
        counted = [mouth for mouth in mouths if rule.counted(basin, mouth, least, count)]
        if count == depth or rule.finished(mouths, counted, split):
            finished(basin, labels, unit, digits)
            continue
        taken = rule.taken(basin, mouths if taken_of_all else counted, split, count)
        runs, mouths = reference.runs_between(unit, set(taken))
        made = parts(basin, least, runs, mouths) if parts else parts_of(basin, runs, mouths)
        units += [(part, digits + str(digit)) for digit, part in made]
    return labels


RIGHT = Rule(by_area, heaviest)
OTHERS = ['a mouth not counted in the run after the next', 'digits before counting',
          'a mouth not counted with the next digit', 'a mouth not counted without its subtree',
          'areas without small tributaries', 'least and split exchanged']
NAMES = [*RULES, *OTHERS]


def labellings(basin, depth, least, split):
    """The labels by each of the names."""
    found = {name: labels_by(basin, depth, least, split, rule) for name, rule in RULES.items()}
    others = [labels_by(basin, depth, least, split, RIGHT, small_to_the_next_run),
              labels_by(basin, depth, least, split, RIGHT, digits_first, taken_of_all=True),
              labels_by(basin, depth, least, split, RIGHT, finished=small_with_the_next_digit),
              labels_by(basin, depth, least, split, RIGHT, finished=mouth_alone),
              labels_by(without_small(basin, least), depth, least, split, RIGHT),
              labels_by(basin, depth, split, least, RIGHT)]
    return {**found, **dict(zip(OTHERS, others))}


def names_unlike(sheet, dirs, lent, labels):
    """The names of those that give an accepted sheet other labels than these."""
    rows, cols, depth, least, split = sheet
    basin = basin_of(rows, cols, dirs, lent)
    labels = {cell: reference.digits_of(labels[cell]) for cell in basin.donors}
    assert labels_by(basin, depth, least, split, RIGHT) == labels, 'other labels by the right rule'
    return [name for name, other in labellings(basin, depth, least, split).items() if other != labels]
