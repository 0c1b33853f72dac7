"""A table of base cells that h3 takes, for the checks that walk over one."""

PENTAGONS = {4, 14, 24, 38, 49, 58, 63, 72, 83, 97, 107, 117}
# how far away the base cell in each direction is: the links fit together
STEPS = [110, 11, 121, 1, 111, 12]


def rows():
    """The lines of a table: the base cell in a direction is the one whose number is greater by a
    step, modulo 122."""
    links = ((base, place, step) for base in range(122) if base not in PENTAGONS for place, step in enumerate(STEPS, 1))
    return [
        b"base,dir,to,rot\n",
        *(b"%d,%d,%d,0\n" % (base, place, (base + step) % 122) for base, place, step in links),
    ]
