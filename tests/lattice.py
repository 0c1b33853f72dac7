"""Steps, disks, rings and edges over a table of base cells, by the bits of H3's indexes and by Eisenstein integers:
what checks compare the program's walks with.

A number (a, b) is a + b w with w * w = -1 - w. The place of a cell in its base cell is its digits read in the bases
2 - w (odd resolutions) and 3 + w (even ones); a step adds a unit to it, and what is left over leads to another base
cell."""

PENTAGONS = {4, 14, 24, 38, 49, 58, 63, 72, 83, 97, 107, 117}
FAILED, INVALID = "error 1: E_FAILED", "error 5: E_CELL_INVALID"
NO_EDGE, PENTAGON = "error 6: E_DIR_EDGE_INVALID", "error 9: E_PENTAGON"
# the units by their digits: K, J, JK, I, IK, IJ
UNITS = {1: (-1, -1), 2: (0, 1), 3: (-1, 0), 4: (1, 0), 5: (0, -1), 6: (1, 1)}
DIGITS = {(0, 0): 0, **{unit: digit for digit, unit in UNITS.items()}}
PLACES = {digit: place for place, digit in DIGITS.items()}
# the sides of a ring, each by its direction
SIDES = [2, 3, 1, 5, 4, 6]


class Refused(Exception):
    """A step that starts or ends in a pentagon base cell."""


def times(x, y):
    (a, b), (c, d) = x, y
    return a * c - b * d, a * d + b * c - b * d


def turned(x, count):
    for _ in range(count % 6):
        x = times(x, (1, 1))
    return x


def base_of(res):
    return (2, -1) if res % 2 else (3, 1)


def divided(x, base):
    """The quotient and the digit that is left."""
    a, b = base
    for digit, (c, d) in PLACES.items():
        e, f = times((x[0] - c, x[1] - d), (a - b, -b))
        if e % 7 == 0 and f % 7 == 0:
            return (e // 7, f // 7), digit
    raise AssertionError


def resolution(index):
    return index >> 52 & 15


def digits(index):
    return [index >> 3 * (15 - res) & 7 for res in range(1, resolution(index) + 1)]


def number(base, its_digits):
    made = 8 << 56 | len(its_digits) << 52 | base << 45
    for res in range(1, 16):
        made |= (its_digits[res - 1] if res <= len(its_digits) else 7) << 3 * (15 - res)
    return made


def is_cell(index):
    base, res = index >> 45 & 127, resolution(index)
    if index >> 56 != 8 or base > 121:
        return False
    own, rest = digits(index), index & (1 << 3 * (15 - res)) - 1
    first = next((it for it in own if it), 0)
    return 7 not in own and rest == (1 << 3 * (15 - res)) - 1 and not (base in PENTAGONS and first == 1)


def is_pentagon(cell):
    return cell >> 45 & 127 in PENTAGONS and not any(digits(cell))


def links_of(rows):
    """The links of a table in format 1: for a base cell and a direction the neighbor, and how often digits turn."""
    numbers = [list(map(int, row.split(b","))) for row in rows[1:]]
    return {(base, direction): (to, turns) for base, direction, to, turns in numbers}


def step(links, cell, direction, turns):
    """The cell that a step leads to, and how often directions are turned there."""
    base = cell >> 45 & 127
    if base in PENTAGONS:
        raise Refused
    own = digits(cell)
    rest = (0, 0)
    for res, digit in enumerate(own, 1):
        rest = tuple(map(sum, zip(times(rest, base_of(res)), PLACES[digit])))
    rest = tuple(map(sum, zip(rest, turned(UNITS[direction], turns))))
    left = []
    for res in range(len(own), 0, -1):
        rest, digit = divided(rest, base_of(res))
        left.insert(0, digit)
    if rest == (0, 0):
        return number(base, left), turns
    to, more = links[base, DIGITS[rest]]
    if to in PENTAGONS:
        raise Refused
    return number(to, [DIGITS[turned(PLACES[digit], more)] for digit in left]), (turns + more) % 6


def disk(links, cell, k):
    """The cells of a disk, each with its ring, up to a step that is refused."""
    if is_pentagon(cell) or k and cell >> 45 & 127 in PENTAGONS:
        raise Refused
    yield cell, 0
    at = cell, 0
    for ring_number in range(1, k + 1):
        at = step(links, at[0], 4, at[1])
        for side in SIDES:
            for _ in range(ring_number):
                at = step(links, at[0], side, at[1])
                yield at[0], ring_number


def ring(links, cell, k):
    """The cells of a ring, up to a step that is refused; the last one has to lead to the first."""
    at = cell, 0
    for _ in range(k):
        at = step(links, at[0], 4, at[1])
    first = at[0]
    yield first
    for side in SIDES:
        for place in range(k):
            at = step(links, at[0], side, at[1])
            if (side, place) != (SIDES[-1], k - 1):
                yield at[0]
    if at[0] != first:
        raise Refused


# ---- what the commands answer to an index, None where there is none: lines, or an error


def of_cell(index, lines):
    if index is None:
        return FAILED
    if not is_cell(index):
        return INVALID
    try:
        return lines(index)
    except Refused:
        return PENTAGON


def disk_lines(links, k, index):
    return of_cell(index, lambda cell: [b"%x" % it for it, _ in disk(links, cell, k)])


def distance_lines(links, k, index):
    return of_cell(index, lambda cell: [b"%x %d" % it for it in disk(links, cell, k)])


def ring_lines(links, k, index):
    return of_cell(index, lambda cell: [b"%x" % it for it in ring(links, cell, k)])


def destination_lines(links, index):
    if index is None:
        return FAILED
    origin, direction = index & (1 << 56) - 1 | 8 << 56, index >> 56 & 7
    if index >> 59 != 2 or direction in (0, 7) or not is_cell(origin) or direction == 1 and is_pentagon(origin):
        return NO_EDGE
    try:
        return [b"%x" % step(links, origin, direction, 0)[0]]
    except Refused:
        return PENTAGON
