"""Calls while another thread writes to their column: any result will do, or an error of H3, but nothing else is raised,
and the process does not end."""

import random
import subprocess
import sys
import threading
import time
import unittest
from array import array
from unittest import mock

import h3whole.columns as columns
import h3whole.int as integers
import h3whole.regions as regions
from h3whole import H3BaseException

from test_tables import TABLE

CELL = 0x85283473FFFFFFF
SECONDS = 0.2
CHILDREN = integers.cell_to_children(CELL, 6)
REGION, FEW = integers.Region(CHILDREN[:3]), integers.Zones(CHILDREN[:3])
NAMED = integers.Zones(CHILDREN[:3], names=list("aba"))
AREAS = integers.Areas([CELL, *CHILDREN[:3]], list("abca"))
MANY = integers.Zones(integers.cell_to_children(CELL, 10)[::2])

CALLS = [
    columns.are_valid_cells,
    columns.are_valid_directed_edges,
    columns.are_pentagons,
    columns.are_res_class_III,
    columns.get_resolutions,
    columns.get_base_cell_numbers,
    columns.get_directed_edge_origins,
    columns.compact_cells,
    columns.int_to_str,
    columns.to_arrow,
    integers.Region,
    integers.Zones,
    integers.compact_cells,
    lambda cells: integers.uncompact_cells(cells, 11),
    lambda cells: columns.cells_to_parents(cells, 4),
    lambda cells: columns.cells_to_center_children(cells, 11),
    lambda cells: columns.cells_to_last_children(cells, 11),
    lambda cells: columns.cells_to_children_sizes(cells, 11),
    lambda cells: columns.cells_to_child_positions(cells, 4),
    lambda cells: columns.cells_to_children(cells, 11),
    lambda cells: columns.cells_to_children(cells, 11, missing=True),
    lambda cells: columns.uncompact_cells(cells, 11),
    lambda cells: columns.grid_disks_unsafe(TABLE, cells, 1),
    lambda cells: columns.grid_disks_unsafe(TABLE, cells, 1, missing=True),
    lambda cells: REGION.covers(cells),
    lambda cells: FEW.of(cells),
    lambda cells: FEW.count(cells),
    lambda cells: FEW.count(cells, missing=True),
    lambda cells: MANY.of(cells),
    lambda cells: MANY.count(cells),
    lambda cells: MANY.count(cells, missing=True),
    lambda cells: NAMED.names_of(cells),
    lambda cells: NAMED.count(cells),
    lambda cells: AREAS.names_of(cells),
    lambda cells: AREAS.places_of(cells),
    lambda cells: AREAS.count(cells),
    lambda cells: columns.count_parents(cells, 4),
]


def write(cells, given, is_over):
    """Puts another number in the place of one cell after another, and then the cell back."""
    chance = random.Random(1)
    others = [0, 5, 2**64 - 1, CELL, integers.get_pentagons(9)[0]]
    while not is_over.is_set():
        place = chance.randrange(len(given))
        cells[place] = chance.choice(others)
        cells[place] = given[place]


def call_all():
    """Each of the calls, over and over, beside a thread that writes."""
    given = array("Q", integers.cell_to_children(CELL, 10))
    random.Random(2).shuffle(given)
    cells, is_over = given[:], threading.Event()
    writer = threading.Thread(target=write, args=(cells, given, is_over))
    writer.start()
    try:
        for call in CALLS:
            end = time.monotonic() + SECONDS
            while time.monotonic() < end:
                try:
                    call(cells)
                except H3BaseException as error:
                    assert "at place" in str(error) or "among" in str(error) or "items" in str(error), error
    finally:
        is_over.set()
        writer.join()


class Changing(unittest.TestCase):
    def test_calls(self):
        """In a process of their own, whose end is seen."""
        ran = subprocess.run([sys.executable, __file__, "calls"], capture_output=True, text=True, check=False)
        self.assertEqual((ran.returncode, ran.stdout, ran.stderr), (0, "ended\n", ""))

    def test_none_refused(self):
        """What the library refused is no longer there to be named."""
        cells = array("Q", [CELL, CELL])
        for module, name, call in (
            (regions, "_unite_cells", integers.Region),
            (regions, "_zones", integers.Zones),
            (columns, "_compact_cells", columns.compact_cells),
            (columns, "_uncompact_cells", lambda cells: columns.uncompact_cells(cells, 5)),
        ):
            for number in (5, 12, 14):
                with mock.patch.object(module, name, return_value=number):
                    with self.assertRaisesRegex(H3BaseException, f"^error {number}: .*: among 2 cells") as caught:
                        call(cells)
                    self.assertEqual(caught.exception.number, number)

    def test_first_reading(self):
        """What is not a valid cell is left out of the column as it was when it was judged."""
        given, judge = array("Q", [CELL, 5, CELL]), columns.are_valid_cells

        def judge_and_change(numbers):
            found = judge(numbers)
            given[0] = 5
            return found

        with mock.patch.object(columns, "are_valid_cells", judge_and_change):
            counts = integers.Zones([CELL]).count(given, missing=True)
        self.assertEqual((counts[CELL], counts.others, counts.refused), (2, 0, 1))


if __name__ == "__main__":
    if sys.argv[1:] == ["calls"]:
        call_all()
        print("ended")
    else:
        unittest.main()
