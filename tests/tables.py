"""Tables of cells as docs/ROWS.md says: a plain model, which checks of tests/command share.
It shares nothing with the program: it cuts at quotes that it has counted, and knows cells by the digits of their
numbers."""
import re
from dataclasses import dataclass
from fractions import Fraction

from plain_table import PENTAGONS

BLANKS = b" \t\r"
MARK = b"\xef\xbb\xbf"
LONGEST = 1048575
FAILED, INVALID = "error 1: E_FAILED", "error 5: E_CELL_INVALID"


class Stop(Exception):
    """What ends a run: its line and its status."""


# ---- cells, by the digits of their numbers


def resolution(cell):
    return cell >> 52 & 15


def is_cell(number):
    """Whether the upper byte is 8, and then come a resolution, a base cell, and 15 digits, which are 7 beyond the
    resolution; a pentagon has nothing in direction 1."""
    res, base = resolution(number), number >> 45 & 127
    digits = f"{number & (1 << 45) - 1:015o}"
    is_deleted = base in PENTAGONS and digits[:res].lstrip("0").startswith("1")
    is_spelled = "7" not in digits[:res] and not digits[res:].strip("7")
    return number >> 56 == 8 and base < 122 and is_spelled and not is_deleted


def ancestor(cell, res):
    return cell & ~(15 << 52) | res << 52 | (1 << 3 * (15 - res)) - 1


def with_ancestors(cell):
    return [ancestor(cell, res) for res in range(resolution(cell) + 1)]


def children(cell):
    res = resolution(cell) + 1
    first = (cell & ~(15 << 52) | res << 52) & ~(7 << 45 - 3 * res)
    return [it for it in (first | digit << 45 - 3 * res for digit in range(7)) if is_cell(it)]


def cell_of(text, reason):
    """The cell that a text spells."""
    spelled = re.fullmatch(rb"(?:0[xX])?([0-9a-fA-F]{1,16})", text)
    if not spelled:
        raise Stop(FAILED + reason, 1)
    number = int(spelled[1], 16)
    if not is_cell(number):
        raise Stop(INVALID, 1)
    return number


# ---- tables, as docs/ROWS.md says


@dataclass
class Form:
    """How the tables of a command are cut."""

    separator: bytes
    quotes: bool


@dataclass
class Columns:
    """The columns of a table that are read: the cell's, and perhaps a second one. Each is a name in its header, or a
    place. The second one has texts, or numbers."""

    read: list
    has_header: bool = False
    is_ragged: bool = False
    has_numbers: bool = False

    def first(self):
        """The same without the second column."""
        return Columns(self.read[:1], self.has_header, self.is_ragged)


@dataclass
class Row:
    """A row of a table: its number, what it is written as, its ending, its fields, the places of those that are read,
    and its cell or its error. A row with a cell may have a number."""

    number: int
    body: bytes
    ending: bytes
    fields: list
    places: list = None
    is_header: bool = False
    cell: int = None
    amount: Fraction = None
    error: str = None

    def second(self):
        """The second field that is read, without the blanks at both ends."""
        return self.fields[self.places[1]].strip(BLANKS)


def pieces(text, mark, quotes):
    """The text cut at each mark that is not between quotes."""
    if not quotes:
        return text.split(mark)
    found = [b""]
    for at, part in enumerate(text.split(b'"')):
        # (every second part is between quotes, to whose first one or to the last one it is joined)
        first, *more = [part] if at % 2 else part.split(mark)
        found[-1] += b'"' * (at > 0) + first
        found += more
    return found


def text_of(form, found):
    text = found.strip(BLANKS)
    is_quoted = form.quotes and len(text) > 1 and text.startswith(b'"') and text.endswith(b'"')
    return text[1:-1] if is_quoted else text


def is_stray(form, found):
    """Whether a quote in a field opens after a byte that is no blank, and no quote right before it; or the field begins
    with blanks and a quote, and has more than a row's field may have without quotes."""
    parts = found.split(b'"')
    for at in range(1, len(parts), 2):
        before = b'"'.join(parts[:at])
        if before.strip(BLANKS) and not before.endswith(b'"'):
            return True
    is_late = len(parts) > 1 and parts[0] and not parts[0].strip(BLANKS)
    return bool(is_late and (form.separator in found or b"\n" in found))


def malformed(form, row, fields):
    """Why a row cannot be cut, if it cannot: of several reasons the last one."""
    reasons = []
    if form.quotes:
        outside = b"".join(row.split(b'"')[::2])
        reasons += ["a quote inside a field"] * any(is_stray(form, it) for it in fields)
        reasons += ["a quote that is not closed"] * (row.count(b'"') % 2)
        reasons += ["a carriage return inside a row"] * (b"\r" in outside)
    reasons += [f"longer than {LONGEST} bytes"] * (len(row) > LONGEST)
    return reasons[-1] if reasons else None


def rows_of(form, text):
    """The number, the row and the ending of each row of a table. A last row that has no line end has that of the row
    before it."""
    *rows, last = pieces(text, b"\n", form.quotes)
    number, ending = 1, b"\n"
    for row in rows:
        body = row.rstrip(b"\r")
        ending = row[len(body) :] + b"\n"
        yield number, body, ending
        number += 1 + row.count(b"\n")
    if last:
        body = last.rstrip(b"\r")
        yield number, body, last[len(body) :] + b"\n" if last != body else ending


def number_of(text):
    """The number that a text means: 0 if it is blank."""
    if not text.strip(BLANKS):
        return Fraction(0)
    if not re.fullmatch(rb"[-+]?[0-9]{1,18}(\.[0-9]{1,18})?", text):
        raise Stop("sum: not a number", 1)
    return Fraction(text.decode())


def sum_text(number):
    """A sum with as many digits behind the point as it needs, and no more."""
    units = number * 10**18
    assert units.denominator == 1
    whole, fraction = divmod(abs(units.numerator), 10**18)
    behind = f"{fraction:018d}".rstrip("0")
    return b"%s%d%s" % (b"-" * (number < 0), whole, f".{behind}".encode() if behind else b"")


def any_cell(cell):
    """Takes each cell, as most commands do."""


def cell_in(form, columns, fields, places, width, judge=any_cell):
    """The cell in the fields of a row, and its number; None if the cell is missing: the row then says nothing, whatever
    else it lacks. `judge` stops at a cell that a command does not take."""
    if width not in (None, len(fields)):
        raise Stop(f"{FAILED}: {len(fields)} fields, the header has {width}", 1)
    if places[0] >= len(fields):
        raise Stop(f"{FAILED}: no such field", 1)
    text = text_of(form, fields[places[0]]).strip(BLANKS)
    if not text:
        return None, None
    has_second = max(places) < len(fields)
    if not has_second and not columns.has_numbers:
        raise Stop(f"{FAILED}: no such field", 1)
    cell = cell_of(text, ": not an index")
    judge(cell)
    if not columns.has_numbers:
        return cell, None
    # (a number that is not there is none)
    return cell, number_of(text_of(form, fields[places[1]]) if has_second else b".")


def place_of(form, fields, name):
    places = [at for at, it in enumerate(fields) if text_of(form, it) == name]
    if len(places) != 1:
        raise Stop("column: not unique" if places else "column: not found", 3)
    return places[0]


def walk(form, columns, text, judge=any_cell):
    """The rows of a table. A byte order mark is written with the first one, and not read."""
    has_names, width = any(isinstance(it, bytes) for it in columns.read), None
    places = None if has_names else columns.read
    for number, body, ending in rows_of(form, text):
        read = body.removeprefix(MARK) if number == 1 else body
        fields = pieces(read, form.separator, form.quotes) if read else []
        reason = malformed(form, read, fields)
        if reason:
            raise Stop(f"line {number}: {FAILED}: {reason}", 1)
        row = Row(number, body, ending, fields)
        if fields and columns.has_header and width is None:
            row.is_header, width = True, len(fields)
            places = [place_of(form, fields, it) if isinstance(it, bytes) else it for it in columns.read]
        elif fields:
            try:
                wanted = None if columns.is_ragged else width
                row.cell, row.amount = cell_in(form, columns, fields, places, wanted, judge)
            except Stop as stop:
                row.error = stop.args[0]
        row.places = places
        yield row
    if has_names and width is None:
        raise Stop("column: not found", 3)


def lines_of(text, judge=any_cell):
    """The cell of each line of a bare list."""
    for number, line in enumerate(text.split(b"\n"), 1):
        if len(line) > 64:
            raise Stop(f"line {number}: {FAILED}", 1)
        if line.strip(BLANKS):
            try:
                cell = cell_of(line.strip(BLANKS), "")
                judge(cell)
            except Stop as stop:
                raise Stop(f"line {number}: {stop.args[0]}", 1) from None
            yield cell
