"""Areas that may overlap, and counts by ancestors: worked rows, random areas against plain Python, each kind of column,
and what is refused."""

import copy
import math
import pickle
import unittest
from array import array
from collections import Counter
from decimal import Decimal
from fractions import Fraction
from unittest import mock

import h3whole
import h3whole._areas as areas_module
import h3whole.columns as columns
import h3whole.int as integers
import plain_cells as plain
from h3whole import H3CellInvalidError, H3MemoryAllocError, H3ResDomainError, H3ResMismatchError

try:
    import numpy
except ImportError:
    numpy = None
try:
    import pandas
except ImportError:
    pandas = None

PARENT = "8428347ffffffff"
NORTH, SOUTH = "85283473fffffff", "85283477fffffff"
# no child of PARENT, and its parent
OTHER, OTHER_PARENT = "8528340ffffffff", "8428341ffffffff"
POINTS = [NORTH, SOUTH, OTHER]
NAMES = ["north", "south, old", "all"]


def message(function, *given, **named):
    try:
        function(*given, **named)
    except Exception as error:
        return f"{type(error).__name__}: {error}"
    return "none"


class Rows(unittest.TestCase):
    areas = h3whole.Areas([NORTH, SOUTH, NORTH, PARENT], ["north", "south, old", "north", "all"])

    def test_names(self):
        wanted = [["all", "north"], ["all", "south, old"], []]
        self.assertEqual(self.areas.names, NAMES)
        self.assertEqual(self.areas.names_of(POINTS), wanted)
        self.assertEqual(self.areas.names_of(iter(POINTS)), wanted)
        self.assertEqual(self.areas.names_of([PARENT]), [["all"]])
        self.assertEqual(self.areas.names_of([]), [])
        self.assertEqual(self.areas.names_of([None, NORTH, 5], missing=True), [[], wanted[0], []])
        self.assertEqual(h3whole.Areas([], []).names_of(POINTS), [[], [], []])
        numbers = array("Q", [int(cell, 16) for cell in POINTS])
        self.assertEqual(self.areas.names_of(numbers), wanted)
        self.assertEqual(integers.Areas(numbers[:2], names=[2, 1]).names_of(numbers.tolist()), [[2], [1], []])
        self.assertEqual(self.areas.names_of(h3whole.Zones([SOUTH])), [["all", "south, old"]])

    def test_order(self):
        """By the coarsest cell of each area, and not by the finest; then by the first places of the names."""
        areas = h3whole.Areas([NORTH, PARENT, NORTH, NORTH, PARENT], ["c", "b", "a", "b", "d"])
        self.assertEqual(areas.names_of([NORTH]), [["b", "d", "c", "a"]])
        self.assertEqual(areas.names_of([SOUTH]), [["b", "d"]])

    def test_places(self):
        places, starts = self.areas.places_of(POINTS)
        self.assertEqual((places, starts), (array("I", [2, 0, 2, 1]), array("q", [0, 2, 4, 4])))
        self.assertEqual(self.areas.places_of([]), (array("I"), array("q", [0])))

    def test_counts(self):
        found = self.areas.count(POINTS)
        self.assertEqual(found.column(), (NAMES, [1, 1, 2]))
        self.assertEqual((found.others, found.refused), (1, 0))
        self.assertEqual(found + self.areas.count([NORTH]), self.areas.count([*POINTS, NORTH]))
        found = self.areas.count([*POINTS, "xyz", None], missing=True)
        self.assertEqual((list(found.values()), found.others, found.refused), ([1, 1, 2], 1, 2))
        self.assertEqual(dict(self.areas.count([])), dict.fromkeys(NAMES, 0))

    def test_weights(self):
        found = self.areas.count(POINTS, weights=[Decimal("1.50"), 2, Decimal("-0.5")])
        self.assertEqual(found.column(), (NAMES, [Decimal("1.5"), 2, Decimal("3.5")]))
        self.assertEqual((found.others, found.refused), (Decimal("-0.5"), 0))
        found = self.areas.count([NORTH, "5", OTHER], weights=iter([Fraction(1, 3), 2**65, 7]), missing=True)
        self.assertEqual((found["all"], found["south, old"], found.others), (Fraction(1, 3), 0, 7))
        self.assertEqual(found.refused, 2**65)

    def test_kept(self):
        for areas in (pickle.loads(pickle.dumps(self.areas)), copy.copy(self.areas), copy.deepcopy(self.areas)):
            self.assertEqual((areas.names, areas.names_of(POINTS)), (NAMES, self.areas.names_of(POINTS)))
        self.areas.names.clear()
        self.assertEqual(self.areas.names, NAMES)
        self.assertEqual(repr(self.areas), "Areas of 3 names: 'north', 'south, old', 'all'")

    def test_given_stays(self):
        given = array("Q", [int(NORTH, 16)])
        areas = integers.Areas(given, ["north"])
        given[0] = int(OTHER, 16)
        self.assertEqual(areas.names_of([int(NORTH, 16)]), [["north"]])


class Refused(unittest.TestCase):
    areas = Rows.areas

    def test_areas(self):
        for cells, names, text in (
            ([NORTH], ["a", "b"], "ValueError: there are 2 names for 1 cells"),
            ([NORTH, SOUTH], ["a", None], "ValueError: there is no name at place 1"),
            ([NORTH], [math.nan], "ValueError: there is no name at place 0"),
            ([NORTH], "a", "TypeError: names are wanted, and not one text: 'a'"),
            ([NORTH], {"a"}, "TypeError: names are wanted in the order of the cells, and not a set"),
            ([NORTH, "5"], ["a", "a"], "H3CellInvalidError: error 5: E_CELL_INVALID: 5 at place 1"),
            ([NORTH], [[]], "TypeError: unhashable type: 'list'"),
        ):
            self.assertEqual(message(h3whole.Areas, cells, names), text)

    def test_cells(self):
        for function in (self.areas.names_of, self.areas.places_of, self.areas.count):
            text = message(function, [NORTH, "5", "6"])
            self.assertEqual(text, "H3CellInvalidError: error 5: E_CELL_INVALID: 5 at place 1")
        self.assertEqual(
            message(self.areas.count, [NORTH], weights=[0.5]),
            "TypeError: a weight is an integer, a Decimal or a Fraction, and not 0.5 at place 0: a float is not exact"
            " (0.1 + 0.2 is not 0.3): pass integers of the smallest unit, as cents, or Decimal(str(x))",
        )
        self.assertEqual(
            message(self.areas.count, [NORTH], weights=[1, 2]), "ValueError: there are 2 weights for 1 cells"
        )

    def test_memory(self):
        with mock.patch.object(areas_module, "_cells_to_areas", lambda *_: 13):
            self.assertRaises(H3MemoryAllocError, self.areas.names_of, [NORTH])
            self.assertRaises(H3MemoryAllocError, h3whole.Areas, [NORTH], ["north"])


class Parents(unittest.TestCase):
    def test_rows(self):
        found = columns.count_parents([NORTH, SOUTH, OTHER, NORTH], 4)
        self.assertEqual(found.column(), ([OTHER_PARENT, PARENT], [1, 3]))
        self.assertEqual((found.others, found.refused), (0, 0))
        found = columns.count_parents(POINTS, 4, [Decimal("1.50"), 2, Decimal("-0.5")])
        self.assertEqual(found.column(), ([OTHER_PARENT, PARENT], [Decimal("-0.5"), Decimal("3.5")]))
        three = [Decimal("0.1"), Decimal("0.2"), Decimal("-0.3")]
        self.assertEqual(columns.count_parents([NORTH] * 3, 4, weights=three)[PARENT], 0)

    def test_forms(self):
        wanted = {int(OTHER_PARENT, 16): 1, int(PARENT, 16): 2}
        numbers = [int(cell, 16) for cell in POINTS]
        for given in (numbers, array("Q", numbers), array("q", numbers), memoryview(array("Q", numbers))):
            found = columns.count_parents(given, 4)
            self.assertEqual((found, list(found)), (wanted, sorted(wanted)))
        self.assertEqual(columns.count_parents(columns.to_arrow(array("Q", numbers)), 4), wanted)
        self.assertEqual(columns.count_parents(columns.to_arrow(POINTS), 4), {OTHER_PARENT: 1, PARENT: 2})
        self.assertEqual(columns.count_parents([], 4), {})
        self.assertEqual(
            message(columns.count_parents, [NORTH, int(NORTH, 16)], 4),
            "TypeError: a list is of texts or of integers, and not of both",
        )

    def test_refused(self):
        self.assertRaises(H3ResDomainError, columns.count_parents, ["xyz"], 16)
        self.assertRaises(H3ResMismatchError, columns.count_parents, [NORTH, PARENT], 5)
        self.assertRaises(H3CellInvalidError, columns.count_parents, [NORTH, "5"], 4)
        self.assertIn("0.1 + 0.2", message(columns.count_parents, [NORTH], 4, [0.5]))
        self.assertEqual(
            message(columns.count_parents, [NORTH], 4, [1, 2]), "ValueError: there are 2 weights for 1 cells"
        )
        found = columns.count_parents([NORTH, PARENT, None, "5"], 5, [1, 20, 300, 4000], missing=True)
        self.assertEqual((dict(found), found.others, found.refused), ({NORTH: 1}, 0, 4320))
        found = columns.count_parents([int(NORTH, 16), None], 5, missing=True)
        self.assertEqual((dict(found), found.refused), ({int(NORTH, 16): 1}, 1))


class Random(unittest.TestCase):
    def test_areas(self):
        """Areas of cells that repeat and overlap, against each area's coarsest cell above a cell, in plain Python."""
        chance, lengths = plain.seeded(11), Counter()
        for _ in range(200):
            cells = plain.random_cells(chance, chance.randrange(1, 25))
            names = [chance.choice("fdbace") for _ in cells]
            known = list(dict.fromkeys(names))
            areas = integers.Areas(list(map(plain.number_of, cells)), names)
            asked = plain.random_cells(chance, 60)[:60]
            wanted = []
            for cell in asked:
                coarsest = {}
                for zone, name in zip(cells, names):
                    if plain.overlap(zone, cell) and len(zone[1]) <= len(cell[1]):
                        coarsest[name] = min(coarsest.get(name, 16), len(zone[1]))
                wanted.append(sorted(coarsest, key=lambda name: (coarsest[name], known.index(name))))
                lengths[len(wanted[-1])] += 1
            given = array("Q", map(plain.number_of, asked))
            self.assertEqual(areas.names_of(given), wanted)
            weights = [chance.randrange(-(2**62), 2**62) for _ in asked]
            for found, of_each in ((areas.count(given), [1] * 60), (areas.count(given, weights=weights), weights)):
                sums, others = Counter(), 0
                for own, weight in zip(wanted, of_each):
                    others += 0 if own else weight
                    for name in own:
                        sums[name] += weight
                self.assertEqual(found.column(), (known, [sums[name] for name in known]))
                self.assertEqual(found.others, others)
        self.assertGreater(min(lengths[count] for count in range(4)), 10)

    def test_parents(self):
        chance = plain.seeded(12)
        for res in range(3):
            cells = [cell for cell in plain.random_cells(chance, 200) if len(cell[1]) >= res]
            weights, sums = [chance.randrange(-(2**62), 2**62) for _ in cells], Counter()
            for (base, digits), weight in zip(cells, weights):
                sums[plain.number_of((base, digits[:res]))] += weight
            found = columns.count_parents(array("Q", map(plain.number_of, cells)), res, weights)
            self.assertEqual(found.column(), (sorted(sums), [sums[parent] for parent in sorted(sums)]))


@unittest.skipUnless(numpy and pandas, "there is no numpy or no pandas")
class Columns(unittest.TestCase):
    areas = Rows.areas
    wanted = [["all", "north"], ["all", "south, old"], []]

    def test_series(self):
        points = pandas.Series(POINTS, index=[7, 5, 3], name="cell")
        found = self.areas.names_of(points)
        self.assertEqual((list(found), list(found.index), found.name), (self.wanted, [7, 5, 3], "cell"))
        self.assertEqual(list(found.explode().dropna()), ["all", "north", "all", "south, old"])
        self.assertEqual(self.areas.names_of(pandas.Index(POINTS)), self.wanted)
        frame = pandas.DataFrame({"cell": [NORTH, PARENT], "name": ["north", "all"]}, index=[3, 2])
        self.assertEqual(h3whole.Areas(frame["cell"], frame["name"]).names_of([NORTH]), [["all", "north"]])

    def test_numpy(self):
        numbers = numpy.array([int(cell, 16) for cell in [*POINTS, NORTH]], dtype="uint64")
        self.assertEqual(self.areas.names_of(numbers).tolist(), [*self.wanted, self.wanted[0]])
        found = self.areas.names_of(numbers.reshape(2, 2))
        self.assertEqual((found.shape, found[1, 1]), ((2, 2), self.wanted[0]))
        self.assertEqual(self.areas.names_of(numbers[:2])[0], self.wanted[0])

    def test_weights(self):
        weights = numpy.array([2**62, 2**62, -1], dtype="int64")
        found = self.areas.count(POINTS, weights=weights)
        self.assertEqual((found.column(), found.others), ((NAMES, [2**62, 2**62, 2**63]), -1))
        self.assertEqual(columns.count_parents(POINTS, 4, weights), {OTHER_PARENT: -1, PARENT: 2**63})
        floats = numpy.ones(3)
        self.assertIn("0.1 + 0.2", message(self.areas.count, POINTS, weights=floats))

    def test_parents(self):
        numbers = numpy.array([int(cell, 16) for cell in POINTS], dtype="uint64")
        wanted = {int(OTHER_PARENT, 16): 1, int(PARENT, 16): 2}
        for given in (numbers, pandas.Series(numbers), pandas.Index(numbers), numbers.astype("int64")):
            self.assertEqual(columns.count_parents(given, 4), wanted)
        for given in (numpy.array(POINTS), pandas.Series(POINTS), pandas.Index(POINTS)):
            self.assertEqual(columns.count_parents(given, 4), {OTHER_PARENT: 1, PARENT: 2})


if __name__ == "__main__":
    unittest.main()
