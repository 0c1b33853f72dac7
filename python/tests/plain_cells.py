"""Cells in plain Python, by their base cell and digits, for comparisons: it calls nothing of the package."""

import random

PENTAGONS = {4, 14, 24, 38, 49, 58, 63, 72, 83, 97, 107, 117}
FINEST = 4


def number_of(cell):
    """The index of a cell, which is a base cell and its digits."""
    base, digits = cell
    number = 1 << 59 | len(digits) << 52 | base << 45
    for place in range(15):
        number |= (digits[place] if place < len(digits) else 7) << 3 * (14 - place)
    return number


def children(cell):
    base, digits = cell
    is_pentagon = base in PENTAGONS and not any(digits)
    return [(base, (*digits, digit)) for digit in range(7) if not (is_pentagon and digit == 1)]


def descendants(cell):
    """Those of resolution FINEST."""
    if len(cell[1]) == FINEST:
        return {cell}
    return set().union(*map(descendants, children(cell)))


def covered(cells):
    return set().union(*map(descendants, cells))


def compacted(finest):
    """The least list of cells that covers cells of resolution FINEST."""
    kept = set(finest)
    for res in range(FINEST - 1, -1, -1):
        for parent in {(base, digits[:res]) for base, digits in kept if len(digits) == res + 1}:
            if kept.issuperset(children(parent)):
                kept = kept.difference(children(parent)) | {parent}
    return sorted(map(number_of, kept))


def overlap(first, second):
    """Whether one of two cells is the other or an ancestor of it."""
    return first[0] == second[0] and all(a == b for a, b in zip(first[1], second[1]))


def zone_of(zones, cell):
    """The one of the cells that is a cell or an ancestor of it, or None."""
    base, digits = cell
    return next((zone for zone in zones if zone[0] == base and digits[: len(zone[1])] == zone[1]), None)


def random_cells(chance, count):
    """Cells in a hexagon and in a pentagon, which may repeat and overlap, mostly side by side."""
    found = []
    while len(found) < count:
        base, digits = chance.choice([0, 4]), ()
        for _ in range(chance.choice([1, 2, 2, 3, 3, 4])):
            base, digits = chance.choice(children((base, digits)))
        found += children((base, digits[:-1])) if chance.random() < 0.3 else [(base, digits)]
    chance.shuffle(found)
    return found


def without_overlap(chance, count):
    """Some of such cells, of which no two overlap."""
    kept = []
    for cell in random_cells(chance, count):
        if zone_of(kept, cell) is None and not any(zone_of([cell], other) for other in kept):
            kept.append(cell)
    return kept


def seeded(seed):
    return random.Random(seed)
