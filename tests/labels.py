"""Labels as the tables of tests/cases.py and its parts write them: a label's digits joined as one decimal number, 0 for
none, or its record of two numbers, good or bad, as it is."""
from reference import digits_of_number, numbers_of, record_of


def record(label):
    return label if isinstance(label, tuple) else record_of(digits_of_number(label))


def records(labels):
    return [record(label) for label in labels]


def slice_of(labels):
    """The slice that holds these labels; a number in a list of its own stands as it is, such as an odd one at the
    end."""
    return [number for label in labels
            for number in (label if isinstance(label, list) else numbers_of([record(label)]))]


def of_units(units):
    """Units as (label, outlet, count, basin), or without the basin where it is 1, with the labels as records."""
    return [(record(label), outlet, count, *(basin or [1])) for label, outlet, count, *basin in units]
