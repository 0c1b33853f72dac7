#!/usr/bin/python3
"""Measures what README leads with beside other ways to the same: each row of a table gets the name of the zone that its
cell lies in. The table has N rows, a million if none is given, of three fields; 16,807 cells of one resolution have
1,000 names. Prints the least processor time of three runs of each way, that of all its processes, and how often that is
the time of h3 alone. Each way has to give the same names in the same order.

bench/tables.py [N]    SQLite, Miller and pandas are left out where they are not installed"""
import importlib.util
import os
import random
import resource
import shutil
import subprocess
import sys
import tempfile

ROOT = os.path.dirname(os.path.dirname(os.path.realpath(__file__)))
COMMAND = os.path.join(ROOT, "crates", "h3_cli", "out", "h3_cli")
BASE = 20
NAMED = "--zones areas.csv --zone-column cell --zone-name zone --csv"
# name, what has to be there, the command of a shell, which writes a table whose last field, or the first if it says so,
# is the name; `$h3` is the command
WAYS = [
    ("h3 cellsToZones", None, f'"$h3" cellsToZones {NAMED} --column cell < trips.csv'),
    (
        "cut, h3 and paste",
        None,
        f'cut -d, -f2 trips.csv | tail -n +2 | "$h3" cellsToZones {NAMED} | (echo zone && cat) | paste -d, trips.csv -',
    ),
    (
        "h3 cellsToParents, and Miller's join",
        "mlr",
        '"$h3" cellsToParents -r 5 --csv --column cell --as area < trips.csv |'
        " mlr --csv join -j area -l cell -r area -f areas.csv then cut -o -f id,cell,amount,zone",
    ),
    ("pandas, parents by h3whole, and merge", "pandas", "/usr/bin/python3 merge.py"),
    ("pandas, and Zones.names_of of h3whole", "pandas", "/usr/bin/python3 names.py"),
    (
        "SQLite, import, parents by its extension, and join",
        "sqlite3",
        "sqlite3 -csv -header :memory: \".load '$sql'\" '.import trips.csv trips' '.import areas.csv areas'"
        " 'CREATE INDEX by_cell ON areas (cell)'"
        " 'SELECT trips.*, zone FROM trips LEFT JOIN areas ON areas.cell = h3_cell_to_parent(trips.cell, 5)'",
    ),
]
MERGE = """import pandas
from h3whole import columns
areas = pandas.read_csv("areas.csv")
trips = pandas.read_csv("trips.csv")
trips["area"] = columns.cells_to_parents(trips["cell"], 5)
joined = trips.merge(areas.rename(columns={"cell": "area"}), on="area", how="left")
joined.drop(columns="area").to_csv("/dev/stdout", index=False)
"""
NAMES = """import pandas
import h3whole
areas = pandas.read_csv("areas.csv")
trips = pandas.read_csv("trips.csv")
zones = h3whole.Zones(areas["cell"], names=areas["zone"])
trips["zone"] = zones.names_of(trips["cell"])
trips.to_csv("/dev/stdout", index=False)
"""


def index_of(digits):
    """The text of the descendant of a base cell with these digits."""
    index = 1 << 59 | len(digits) << 52 | BASE << 45
    for place in range(15):
        index |= (digits[place] if place < len(digits) else 7) << (42 - 3 * place)
    return f"{index:x}"


def write_tables(folder, count):
    """A table of areas, and one of so many rows whose cells lie in them."""
    chance = random.Random(1)
    cells = [()]
    for _ in range(5):
        cells = [(*digits, digit) for digits in cells for digit in range(7)]
    with open(os.path.join(folder, "areas.csv"), "w", encoding="ascii") as out:
        out.write("zone,cell\n")
        out.writelines(f"zone {place % 1000},{index_of(digits)}\n" for place, digits in enumerate(cells))
    with open(os.path.join(folder, "trips.csv"), "w", encoding="ascii") as out:
        out.write("id,cell,amount\n")
        for place in range(count):
            digits = (*chance.choice(cells), *chance.choices(range(7), k=4))
            out.write(f"{place},{index_of(digits)},{chance.randrange(10000)}\n")
    for name, text in (("merge.py", MERGE), ("names.py", NAMES)):
        with open(os.path.join(folder, name), "w", encoding="ascii") as out:
            out.write(text)


def names_in(path):
    """The last fields of a table, without quotes."""
    with open(path, encoding="ascii") as given:
        return [line.rstrip("\r\n").rpartition(",")[2].strip('"') for line in given]


def seconds(words, folder, environment, path):
    """The processor time of a command and of all that it ends before itself."""
    before = resource.getrusage(resource.RUSAGE_CHILDREN)
    with open(path, "wb") as out:
        subprocess.run(["bash", "-o", "pipefail", "-c", words], cwd=folder, env=environment, stdout=out, check=True)
    after = resource.getrusage(resource.RUSAGE_CHILDREN)
    return after.ru_utime - before.ru_utime + after.ru_stime - before.ru_stime


def is_there(needed):
    return needed is None or shutil.which(needed) or importlib.util.find_spec(needed)


def main():
    count = int(sys.argv[1]) if len(sys.argv) > 1 else 1_000_000
    subprocess.run(["make", "-s", "-C", os.path.join(ROOT, "sql", "sqlite")], check=True)
    python = os.path.join(ROOT, "python")
    sql = os.path.join(ROOT, "sql", "sqlite", "h3whole")
    environment = {**os.environ, "h3": COMMAND, "sql": sql, "PYTHONPATH": python, "LC_ALL": "C"}
    with tempfile.TemporaryDirectory() as folder:
        write_tables(folder, count)
        least, wanted = None, None
        for name, needed, words in WAYS:
            if not is_there(needed):
                continue
            path = os.path.join(folder, "out")
            best = min(seconds(words, folder, environment, path) for _ in range(3))
            names = names_in(path)
            least, wanted = least or best, wanted or names
            if names != wanted:
                sys.exit(f"{name}: other names than h3's")
            print(f"{name}: {best:.2f} s, {best / least:.1f}", flush=True)


main()
