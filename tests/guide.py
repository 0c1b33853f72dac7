"""docs/GUIDE.md: its blocks, and what they have to print, worked out from docs/guide/ by integers alone."""
import csv
import os
import re
import shutil
import subprocess
from collections import Counter

from expect import expect

ROOT = os.path.dirname(os.path.dirname(os.path.realpath(__file__)))
FOLDER = os.path.join(ROOT, "docs", "guide")


def read(name):
    with open(os.path.join(FOLDER, name), encoding="utf-8", newline="") as file:
        return [(name, int(cell, 16)) for name, cell in list(csv.reader(file))[1:]]


def resolution(cell):
    return cell >> 52 & 15


def parent(cell, res):
    """The digits below a resolution are 7."""
    return cell & ~(15 << 52) | res << 52 | (1 << 45 - 3 * res) - 1


POINTS, ZONES = read("points.csv"), read("zones.csv")
NAMES = {cell: name for name, cell in ZONES}
CENTER = [cell for name, cell in ZONES if name == "center"]
FIRST = POINTS[0][1]


def zone_of(cell):
    """The zone that is the cell or an ancestor of it, or 0."""
    return next((it for it in (parent(cell, res) for res in range(resolution(cell) + 1)) if it in NAMES), 0)


def compacted(cells):
    """Seven children of one hexagon are that hexagon, until there are none."""
    found = set(cells)
    for res in range(15, 0, -1):
        parents = Counter(parent(it, res - 1) for it in found if resolution(it) == res)
        whole = {it for it, count in parents.items() if count == 7}
        found = {it for it in found if resolution(it) != res or parent(it, res - 1) not in whole} | whole
    return sorted(found)


def ascending(counts):
    return sorted(counts.items())


PARENTS = ascending(Counter(parent(cell, 6) for _, cell in POINTS))
RESOLUTIONS = ascending(Counter(resolution(cell) for _, cell in ZONES))
COUNTED = Counter(zone_of(cell) for _, cell in POINTS)
NAMED = ascending(Counter(NAMES[zone_of(cell)] for _, cell in POINTS if zone_of(cell)))
JOINED = [(point, NAMES.get(zone_of(cell))) for point, cell in POINTS]
OUTSIDE = [point for point, name in JOINED if not name]
SIZE = sum(7 ** (9 - resolution(cell)) for _, cell in ZONES)


def lines(rows, gap=" "):
    """Rows as lines, with cells in hexadecimal."""
    return "".join(gap.join(f"{it:x}" if is_cell(it) else f"{it}" for it in row) + "\n" for row in rows)


def is_cell(it):
    return isinstance(it, int) and it >> 59 == 1


def counted(rows):
    """As `uniq -c` prints them."""
    return "".join(f"{count:7} {it:{'x' if is_cell(it) else ''}}\n" for it, count in rows)


def in_sql(array):
    """The answers in SQL, by how the first query of each begins; `array` is how a list of one cell is written."""
    [center] = compacted(CENTER)
    return {
        "SELECT h3_get_resolution": lines(RESOLUTIONS, "|"),
        "SELECT h3_cell_to_parent": lines(PARENTS, "|"),
        "SELECT h3_compact_cells": array.format(f"{center:x}") + f"\n{len(compacted(NAMES))}|{SIZE}\n",
        "SELECT points.point": lines([(point, name or "") for point, name in JOINED[:5]], "|"),
        "SELECT zones.zone": lines(NAMED, "|"),
    }


def section(title):
    """The text of a section of the guide."""
    with open(os.path.join(ROOT, "docs", "GUIDE.md"), encoding="utf-8") as page:
        return re.search(rf"^## {re.escape(title)}\n(.*?)(?=^## |\Z)", page.read(), re.M | re.S)[1]


def sessions(title, kind, sign):
    """What a section types in blocks of a session, where it follows a sign, and what it shows as the answer of each."""
    blocks = re.findall(rf"^```{kind}\n(.*?)^```$", section(title), re.M | re.S)
    typed = [it for block in blocks for it in re.split(rf"^{re.escape(sign)}", block, flags=re.M)[1:]]
    return [tuple(it.split("\n", 1)) for it in typed]


def statements(title):
    """The blocks of SQL of a section, and the block of text after each, or nothing."""
    return re.findall(r"^```sql\n(.*?)^```$(?:\n\n```text\n(.*?)^```$)?", section(title), re.M | re.S)


def of_statements(blocks, command, separate, folder):
    """What a program prints for blocks of SQL; `separate` has it print what stands between two answers."""
    mark = "== the next =="
    text = "".join(f"{typed}{separate} '{mark}'\n" for typed in blocks)
    ran = subprocess.run(
        command, input=text, cwd=folder, stdout=subprocess.PIPE, stderr=subprocess.STDOUT, text=True, check=False
    )
    return list(zip(blocks, ran.stdout.split(f"{mark}\n")))


def in_bash(typed, folder, path):
    """What commands print and say, each with its answer, one after another in one shell."""
    mark = "== the next =="
    script = "".join(f"{it}\necho '{mark}'\n" for it in typed)
    ran = subprocess.run(
        ["bash"],
        input=f"exec 2>&1\n{script}",
        cwd=folder,
        env={"PATH": f"{path}:/bin:/usr/bin", "LANG": "C.UTF-8"},
        stdout=subprocess.PIPE,
        text=True,
        check=False,
    )
    return list(zip(typed, ran.stdout.split(f"{mark}\n")))


def copied(place):
    """A folder with what the guide names."""
    shutil.copytree(FOLDER, os.path.join(place, "docs", "guide"))
    return place


def compare(name, shown, found, known):
    """That the answers which are shown are those that are found, and of some, by how what is typed begins, also those
    that are worked out here."""
    expect(f"{name}: how many answers", len(found), len(shown))
    for (typed, answer), (_, given) in zip(shown, found):
        expect(f"{name}: {typed}", answer, given)
    for begins, wanted in known.items():
        expect(f"{name}, worked out: {begins}", [it for typed, it in shown if typed.startswith(begins)], [wanted])
