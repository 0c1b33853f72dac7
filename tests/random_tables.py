"""Random tables for the checks over the model of tests/tables.py: cells in each other, texts in several spellings,
damaged rows, empty ones, and line ends of all kinds."""
from tables import BLANKS, MARK, Columns, children, resolution, with_ancestors

BASES = [0x8001FFFFFFFFFFF | number << 45 for number in range(122)]
# texts of names, of which some differ in case, blanks or quotes alone
PLAIN = [*b"north North south 0 - none count 'north'".split(), b"", b"a b", b"\xc3\xa9t\xc3\xa9", b"\xff\x00"]
CUT = [b"south, old", b"two\nlines", b"two\r\nlines", b"\n", b"a\tb", b"a;b|c", b","]
BLANK = [b" ", b" north", b"north ", b"\tnorth", b"north\r", b"a\rb"]
QUOTED = [b'say ""no""', b'""', b'""north""', b'a"",""b']
LITERAL = [b'"north"', b'5" pipe', b'"', b'"south', b'""north""', b"a\rb"]
# names of columns
TITLES = [b"zone", b"name", b"the zone", b"", b"error", b"a, b", b"two\nlines", b'the ""zone""']
CELL_TITLES = [b"cell", b"h3", b"the cell", b"cell, h3"]
# names of columns of numbers
SUM_TITLES = [b"amount", b"fare", b"the sum", b"count", b"zone", b"", b"a, b"]
# texts of numbers, and texts of none
NUMBERS = [
    *b"0 1 2 -1 +7 1.50 -0.5 0.1 0.2 -0.3 007 -0 +0.00 12.75 -3.25 1000000 999999999999999999".split(),
    *b"-999999999999999999 0.000000000000000001 -0.000000000000000001 123456789012345678.987654321098765432".split(),
    *b"999999999999999999.999999999999999999 -999999999999999999.999999999999999999".split(),
]
NO_NUMBERS = [
    *b"1. .5 . - + -. --1 +-1 1- 1e3 0x1 1.2.3 1..2 1_000 1,5 inf NaN 1000000000000000000".split(),
    b"0.0000000000000000000",
    b"0000000000000000001",
    b" 1",
    b"1 ",
    b"1 000",
    b"\xc2\xb2",
    b"\xef\xbc\x91",
    b"1\x00",
    b'""1""',
    b"1\n",
]
NOISE = [b"", b"1", b"1.50", b"x", b"a, b", b'""', b"two\nlines", b"\xc3\xa9"]
# what readers of CSV take in different ways, and fields without a cell
ODD = [b'5" pipe', b' "a, b"', b'a, "', b'"', b'"a', b"a\rb", b'"a"b"c"', b'"a" ', b'"a"b', b'\t "a\nb"', b'""a']
FAULTY = b"xyz 81087ffffffffff 8001fffffffffff0 0 8,5283473fffffff 85283473fffffff0f - \xff".split()


def can_stand(form, text):
    """Whether some field of the form has this text."""
    return form.quotes or form.separator not in text and b"\n" not in text


def spelled(chance, form, text):
    """A field with this text, mostly: with quotes around it where it needs them, or blanks."""
    if not form.quotes:
        is_bare = chance.random() < 0.9
        return text if is_bare else chance.choice([b" ", b"\r", b"  "]) + text + chance.choice([b" ", b""])
    is_cut = form.separator in text or b"\n" in text
    needs_quotes = is_cut or b'"' in text or b"\r" in text or text != text.strip(BLANKS)
    found = b'"' + text + b'"' if needs_quotes or chance.random() < 0.25 else text
    if chance.random() < 0.15 and not is_cut:
        found = b" " + found
    return found + b" " if chance.random() < 0.1 else found


def text_of_cell(chance, cell):
    text = b"%x" % cell
    return chance.choice([text.upper(), b"0x" + text, b"0X" + text, b"0" + text]) if chance.random() < 0.15 else text


def missing(chance, form):
    return chance.choice([b"", b" ", b'""', b'" "'] if form.quotes else [b"", b" ", b" \r"])


def random_blocks(chance):
    """Cells of several resolutions of which no two overlap: a cell, of which some descendants stand for others."""
    cell = chance.choice(BASES)
    for _ in range(chance.choice([0, 1, 4, 9, 12])):
        cell = chance.choice(children(cell))
    blocks = [cell]
    for _ in range(chance.choice([1, 1, 2, 4])):
        above = blocks.pop(chance.randrange(len(blocks)))
        blocks += children(above) if resolution(above) < 15 else [above]
    return blocks


def below(chance, cell, most):
    """A cell, or a descendant of it."""
    for _ in range(chance.randint(0, min(most, 15 - resolution(cell)))):
        cell = chance.choice(children(cell))
    return cell


def random_list(chance, blocks):
    """Cells in the blocks, and some above them and elsewhere."""
    found = [below(chance, chance.choice(blocks), 3) for _ in range(chance.choice([0, 1, 4, 12, 30]))]
    found += [chance.choice(with_ancestors(it)) for it in found[:3]]
    found += [0x85283473FFFFFFF] * chance.choice([0, 0, 1])
    chance.shuffle(found)
    return found


def damaged(chance, form, rows, is_often=False):
    """Rows of which one has a field more or less, an odd one or none of a cell: rarely several."""
    for _ in range(chance.choice([0, 1, 4, 9] if is_often else [0] * 12 + [1, 1, 3])):
        row = chance.choice(rows) if rows else []
        kind = chance.choice(["more", "less", "faulty", "faulty", *["odd"] * (0 if is_often else 2)])
        if kind == "more":
            row.append(b"more")
        elif kind == "less" and len(row) > 1:
            row.pop()
        elif kind == "odd" and row:
            row[chance.randrange(len(row))] = chance.choice(ODD)
        elif row:
            row[chance.randrange(len(row))] = spelled(chance, form, chance.choice(FAULTY))
    return rows


def written(chance, form, rows):
    """A table of rows of fields, with empty rows among them."""
    lines = [form.separator.join(row) for row in rows]
    for _ in range(chance.choice([0, 0, 0, 1, 3])):
        lines.insert(chance.randint(0, len(lines)), b"")
    ends = chance.choice([[b"\n"], [b"\n"], [b"\r\n"], [b"\r\n"], [b"\n", b"\r\n", b"\r\r\n"]])
    table = b"".join(line + chance.choice(ends) for line in lines)
    if chance.random() < 0.3:
        table = table.rstrip(chance.choice([b"\n", b"\r\n"]))
    return (MARK if chance.random() < 0.15 else b"") + table


def header_of(chance, form, titles):
    """A header with these names of columns; rarely one is another's, or not there."""
    fields = [spelled(chance, form, it) for it in titles]
    if chance.random() < 0.04:
        fields[chance.randrange(len(fields))] = chance.choice([*fields, b"other"])
    return fields


def random_columns(chance, form, count, titles, mixes=False):
    """Which columns are read, in a table of so many; their places, and the names of all in a header. `titles` are those
    of the columns that are read. If it `mixes`, the first may be read by its place and the second by its name."""
    places = chance.sample(range(count), len(titles))
    names = [b"id", b"amount", b"note", b"x", b"y"][:count]
    for place, title in zip(places, titles):
        names[place] = title
    if chance.random() < 0.6:
        return Columns(list(titles), has_header=True), places, names
    if mixes and chance.random() < 0.3:
        return Columns([*places[:1], *titles[1:]], has_header=True), places, names
    return Columns(list(places)), places, names


def random_rows(chance, form, count, places, values):
    """Rows in which the columns that are read have these texts; the others have anything."""
    rows = []
    noise = [it for it in NOISE if can_stand(form, it)]
    for texts in values:
        row = [spelled(chance, form, chance.choice(noise)) for _ in range(count)]
        for place, text in zip(places, texts):
            row[place] = missing(chance, form) if text is None else spelled(chance, form, text)
        rows.append(row)
    return rows


def random_number(chance, form, is_damaged):
    """The text of a number, or None if the field is to be blank; rarely of none."""
    if chance.random() < 0.1:
        return None
    texts = NO_NUMBERS if is_damaged and chance.random() < 0.1 else NUMBERS
    return chance.choice([it for it in texts if can_stand(form, it)])


def random_lines(chance, blocks):
    """A bare list."""
    lines = [text_of_cell(chance, cell) for cell in random_list(chance, blocks)]
    for _ in range(chance.choice([0, 0, 0, 1, 3])):
        lines.insert(chance.randint(0, len(lines)), chance.choice([b"", b" \t", b"\r"]))
    if chance.random() < 0.08:
        lines.insert(chance.randint(0, len(lines)), chance.choice([*FAULTY, b" " * 65, MARK]))
    end = chance.choice([b"\n", b"\n", b"\r\n"])
    return end.join(lines) + end * chance.choice([0, 1, 1])
