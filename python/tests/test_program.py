"""The functions over columns against the command h3 over lists. `H3` is the path of the command; where it is not set,
that of the launcher."""

import os
import random
import subprocess
import unittest
from array import array

import h3whole
import h3whole.columns as columns
import h3whole.int as integers

PROGRAM = os.environ.get("H3") or os.path.join(os.path.dirname(os.path.realpath(__file__)), "..", "..", "h3")
COUNT = 100_000


def answers(words, indexes):
    """The lines of a command over a list of indexes."""
    text = "".join(f"{index:x}\n" for index in indexes)
    ran = subprocess.run([PROGRAM, *words], input=text, capture_output=True, text=True, check=True)
    return ran.stdout.split()


def cells_below(res, count, seed):
    """Different cells of a resolution, in no order."""
    chance = random.Random(seed)
    bases = integers.get_res0_cells()
    found = set()
    while len(found) < count:
        base = chance.choice(bases)
        position = chance.randrange(integers.cell_to_children_size(base, res))
        found.add(integers.child_pos_to_cell(base, res, position))
    found = list(found)
    chance.shuffle(found)
    return array("Q", found)


class Program(unittest.TestCase):
    def test_one_index_each(self):
        cells = cells_below(9, COUNT, 1)
        for words, found in (
            (["getResolutions"], columns.get_resolutions(cells)),
            (["getBaseCellNumbers"], columns.get_base_cell_numbers(cells)),
            (["cellsToChildrenSizes", "-r", "15"], columns.cells_to_children_sizes(cells, 15)),
            (["cellsToChildPositions", "-r", "2"], columns.cells_to_child_positions(cells, 2)),
        ):
            self.assertEqual(answers(words, cells), [str(number) for number in found], words)
        for words, found in (
            (["cellsToParents", "-r", "4"], columns.cells_to_parents(cells, 4)),
            (["cellsToCenterChildren", "-r", "12"], columns.cells_to_center_children(cells, 12)),
            (["cellsToLastChildren", "-r", "12"], columns.cells_to_last_children(cells, 12)),
        ):
            self.assertEqual(answers(words, cells), [h3whole.int_to_str(index) for index in found], words)
        for words, found in (
            (["areValidCells"], columns.are_valid_cells(cells)),
            (["arePentagons"], columns.are_pentagons(cells)),
            (["areResClassIII"], columns.are_res_class_III(cells)),
        ):
            self.assertEqual(answers(words, cells), ["true" if is_so else "false" for is_so in found], words)

    def test_sets(self):
        cells = cells_below(4, COUNT, 2)
        compacted = columns.compact_cells(cells)
        self.assertLess(len(compacted), COUNT)
        self.assertEqual(answers(["compactCells"], cells), [h3whole.int_to_str(cell) for cell in compacted])
        whole = columns.uncompact_cells(compacted, 4)
        self.assertEqual(answers(["uncompactCells", "-r", "4"], compacted), [h3whole.int_to_str(c) for c in whole])
        self.assertEqual(sorted(whole), sorted(cells))


if __name__ == "__main__":
    unittest.main()
