"""The depths of the cases of tests/direct/cases.py: good ones, among them those at which a label begins to fill its
second number or ends, and bad ones, some of which are good once they are cut to fewer bits."""
import reference

EDGES = [1, 17, 18, 19, 35, 36]
BAD = [0, 37, 38, 255, 256 + 3, 256 + 36, 65536 + 19, 2 ** 32 + 3, 2 ** 32 + 36, 2 ** 63 + 36, 2 ** 64 - 1]

# What is counted of a call.
AT = 'depth %d'
KINDS = [AT % depth for depth in EDGES + BAD]


def kinds(depth):
    """The kinds that a call at this depth belongs to; it must be one in which the depth is judged."""
    if depth in EDGES + BAD:
        yield AT % depth


def good(depth):
    """The good depth that is nearest."""
    return min(max(depth, 1), reference.MAX_DEPTH)


def by_chance(rng):
    """A good one, often a small one."""
    return rng.choice([1, 2, 3, 18, 36, rng.choice(EDGES), rng.randint(1, reference.MAX_DEPTH)])
