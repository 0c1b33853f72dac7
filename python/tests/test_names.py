"""Zones with names, and sums of weights: worked rows, random areas against plain Python, each kind of column, and what
is refused."""

import copy
import math
import pickle
import unittest
from array import array
from collections import Counter
from decimal import Decimal, localcontext
from fractions import Fraction
from unittest import mock

import h3whole
import h3whole.int as integers
import h3whole.parts
import h3whole.regions as regions
import plain_cells as plain
from h3whole import H3DuplicateInputError, H3MemoryAllocError

try:
    import numpy
except ImportError:
    numpy = None
try:
    import pandas
except ImportError:
    pandas = None

PARENT = "8428347ffffffff"
NORTH, SOUTH = "85283473fffffff", "85283477fffffff"
WITHIN = "862834707ffffff"
OTHER = "8009fffffffffff"
POINTS = [WITHIN, SOUTH, OTHER, NORTH]


def message(function, *given, **named):
    try:
        function(*given, **named)
    except Exception as error:
        return f"{type(error).__name__}: {error}"
    return "none"


class Rows(unittest.TestCase):
    zones = h3whole.Zones([NORTH, SOUTH, WITHIN, NORTH], names=["north", "south, old", "north", "north"])

    def test_names(self):
        self.assertEqual(self.zones.names, ["north", "south, old"])
        self.assertEqual(list(self.zones), [NORTH, SOUTH])
        self.assertEqual(self.zones.names_of(POINTS), ["north", "south, old", None, "north"])
        self.assertEqual(self.zones.names_of(iter(POINTS), none="-"), ["north", "south, old", "-", "north"])
        self.assertEqual(self.zones.of(POINTS), [NORTH, SOUTH, None, NORTH])
        self.assertEqual(self.zones.names_of([5, None], none="-", missing=True), ["-", "-"])
        self.assertEqual(self.zones.names_of([]), [])
        self.assertEqual(h3whole.Zones([], names=[]).names_of(POINTS), [None] * 4)
        self.assertIsNone(h3whole.Zones([NORTH]).names)

    def test_counts(self):
        found = self.zones.count([*POINTS, SOUTH])
        self.assertEqual((dict(found), found.others, found.refused), ({"north": 2, "south, old": 2}, 1, 0))
        self.assertEqual(found.column(), (["north", "south, old"], [2, 2]))
        self.assertEqual(found, self.zones.count(POINTS) + self.zones.count([SOUTH]))
        found = self.zones.count([*POINTS, "xyz"], missing=True)
        self.assertEqual((found["north"], found.others, found.refused), (2, 1, 1))
        self.assertNotEqual(found, self.zones.count(POINTS))
        self.assertEqual(self.zones.count([NORTH]), {"north": 1, "south, old": 0})
        self.assertEqual(repr(found), "Totals of 2: {'north': 2, 'south, old': 1}, 1 others, 1 refused")

    def test_weights(self):
        weights = [Decimal("1.50"), 2, Decimal("-0.5"), 0]
        found = self.zones.count(POINTS, weights=weights)
        self.assertEqual(dict(found), {"north": Decimal("1.5"), "south, old": 2})
        self.assertEqual((found.others, found.refused), (Decimal("-0.5"), 0))
        three = [Decimal("0.1"), Decimal("0.2"), Decimal("-0.3")]
        self.assertEqual(self.zones.count([NORTH] * 3, weights=three)["north"], 0)
        thirds = self.zones.count([NORTH, NORTH, SOUTH], weights=[Fraction(1, 3), Decimal("0.5"), 1])
        self.assertEqual(dict(thirds), {"north": Fraction(5, 6), "south, old": 1})
        # more digits than a decimal's context keeps, and more than 64 bits
        with localcontext() as context:
            context.prec = 3
            long = self.zones.count([NORTH, NORTH], weights=[Decimal(10) ** 40, Decimal("1e-40")])["north"]
            both = self.zones.count([NORTH], weights=[Decimal(10) ** 40])
            both += self.zones.count([NORTH], weights=[Decimal("1e-40")])
        self.assertEqual(str(long), "1" + "0" * 40 + "." + "0" * 39 + "1")
        self.assertEqual(both["north"], long)
        self.assertEqual(self.zones.count([NORTH] * 2, weights=[2**64, 2**64])["north"], 2**65)
        self.assertEqual(self.zones.count(iter([NORTH]), weights=iter([7]))["north"], 7)
        found = self.zones.count([NORTH, 5, None], weights=[1, 20, 300], missing=True)
        self.assertEqual((found["north"], found.others, found.refused), (1, 0, 320))
        self.assertEqual(dict(self.zones.count([], weights=[])), {"north": 0, "south, old": 0})

    def test_weights_of_zones(self):
        zones = h3whole.Zones([SOUTH, NORTH])
        found = zones.count(POINTS, weights=[1, 20, 300, 4000])
        self.assertEqual(found.column(), ([NORTH, SOUTH], [4001, 20]))
        self.assertEqual(found.others, 300)
        found = integers.Zones([int(SOUTH, 16)]).count(array("Q", [int(SOUTH, 16)]), weights=array("q", [-7]))
        self.assertEqual(dict(found), {int(SOUTH, 16): -7})
        self.assertIsInstance(zones.count(POINTS), h3whole.Counts)

    def test_kept(self):
        for zones in (pickle.loads(pickle.dumps(self.zones)), copy.copy(self.zones), copy.deepcopy(self.zones)):
            self.assertEqual(zones, self.zones)
            self.assertEqual((zones.names, zones.names_of(POINTS)), (self.zones.names, self.zones.names_of(POINTS)))
        self.assertNotEqual(self.zones, h3whole.Zones([NORTH, SOUTH]))
        self.assertNotEqual(h3whole.Zones([NORTH, SOUTH]), self.zones)
        self.assertNotEqual(self.zones, h3whole.Zones([NORTH, SOUTH], names=["north", "south"]))
        self.assertEqual(self.zones, h3whole.Zones([NORTH, SOUTH], names=["north", "south, old"]))
        self.assertEqual(hash(self.zones), hash(h3whole.Zones([NORTH, SOUTH], names=["north", "south, old"])))
        names = self.zones.names
        names.clear()
        self.assertEqual(self.zones.names, ["north", "south, old"])

    def test_parts(self):
        points = [array("Q", [int(cell, 16) for cell in POINTS]) for _ in range(3)]
        self.assertEqual(h3whole.parts.count_cells(self.zones, points), self.zones.count(POINTS * 3))
        zones = h3whole.Zones(self.zones)
        self.assertEqual(h3whole.parts.count_cells(zones, points), zones.count(POINTS * 3))


class Refused(unittest.TestCase):
    zones = Rows.zones

    def test_overlaps(self):
        given = [NORTH, SOUTH, PARENT], ["north", "south", "all"]
        self.assertEqual(
            message(h3whole.Zones, given[0], names=given[1]),
            "H3DuplicateInputError: error 10: E_DUPLICATE_INPUT: among 3 cells: 8428347ffffffff of 'all' at place 2"
            " overlaps 85283473fffffff of 'north' at place 0",
        )
        self.assertEqual(message(h3whole.Zones, [OTHER, NORTH, NORTH, SOUTH], names=[1, 2, 2, 1]), "none")
        self.assertEqual(
            message(integers.Zones, [int(NORTH, 16)] * 2, names=[1, 2]),
            "H3DuplicateInputError: error 10: E_DUPLICATE_INPUT: among 2 cells: 85283473fffffff of 2 at place 1"
            " overlaps 85283473fffffff of 1 at place 0",
        )

    def test_names(self):
        self.assertEqual(message(h3whole.Zones, [NORTH], names=["a", "b"]), "ValueError: there are 2 names for 1 cells")
        for name in (None, math.nan):
            self.assertEqual(
                message(h3whole.Zones, [NORTH, SOUTH], names=["a", name]), "ValueError: there is no name at place 1"
            )
        self.assertEqual(
            message(h3whole.Zones, [NORTH], names="a"), "TypeError: names are wanted, and not one text: 'a'"
        )
        for names, kind in (({NORTH: "north"}, "dict"), ({"north"}, "set")):
            self.assertEqual(
                message(h3whole.Zones, [NORTH], names=names),
                f"TypeError: names are wanted in the order of the cells, and not a {kind}",
            )
        self.assertEqual(message(h3whole.Zones, [NORTH], names=[[]]), "TypeError: unhashable type: 'list'")
        self.assertEqual(
            message(h3whole.Zones, ["5", NORTH], names="ab".__iter__()),
            "H3CellInvalidError: error 5: E_CELL_INVALID: 5 at place 0",
        )
        self.assertEqual(
            message(h3whole.Zones([NORTH]).names_of, [NORTH]),
            "ValueError: these zones have no names: Zones(cells, names=names) has them",
        )
        self.assertEqual(
            message(self.zones.names_of, [NORTH, "5"]), "H3CellInvalidError: error 5: E_CELL_INVALID: 5 at place 1"
        )

    def test_weights(self):
        wanted = "a weight is an integer, a Decimal or a Fraction, and not "
        why = (
            ": a float is not exact (0.1 + 0.2 is not 0.3): pass integers of the smallest unit, as cents, or"
            " Decimal(str(x))"
        )
        for weights, text in (
            ([1, 0.5], f"TypeError: {wanted}0.5 at place 1{why}"),
            ([math.nan, 1], f"TypeError: {wanted}nan at place 0{why}"),
            (array("d", [1, 2]), f"TypeError: {wanted}a column of floats{why}"),
            (memoryview(array("f", [1, 2])), f"TypeError: {wanted}a column of floats{why}"),
            (["1", 2], f"TypeError: {wanted}'1' at place 0"),
            ([None, 2], f"TypeError: {wanted}None at place 0"),
            ("12", "TypeError: weights are wanted, and not one text: '12'"),
            ({1: 2, 3: 4}, "TypeError: weights are wanted in the order of the cells, and not a dict"),
            ({1, 2}, "TypeError: weights are wanted in the order of the cells, and not a set"),
            ([Decimal("NaN"), 2], f"ValueError: {wanted}NaN at place 0"),
            ([1, Decimal("Infinity")], f"ValueError: {wanted}Infinity at place 1"),
            ([1], "ValueError: there are 1 weights for 2 cells"),
            (iter([1, 2, 3]), "ValueError: there are 3 weights for 2 cells"),
        ):
            self.assertEqual(message(self.zones.count, [NORTH, SOUTH], weights=weights), text)
        self.assertEqual(
            message(self.zones.count, [NORTH, "5"], weights=[1, 2]),
            "H3CellInvalidError: error 5: E_CELL_INVALID: 5 at place 1",
        )
        with self.assertRaises(ValueError):
            self.zones.count([]) + h3whole.Zones([NORTH], names=["north"]).count([])

    def test_memory(self):
        with mock.patch.object(regions, "_areas", lambda *_: 13):
            with self.assertRaises(H3MemoryAllocError):
                h3whole.Zones([NORTH], names=["north"])


class Random(unittest.TestCase):
    def test_areas(self):
        """Areas of cells that repeat and overlap, against the first that covers a cell, in plain Python."""
        chance, outcomes = plain.seeded(7), Counter()
        for turn in range(200):
            cells = plain.random_cells(chance, chance.randrange(1, 25))
            roots = [min((c for c in cells if plain.zone_of([c], cell)), key=lambda c: len(c[1])) for cell in cells]
            names = [f"area {len(root[1])}, {root[1][:1]}" for root in roots]
            if turn % 2:
                names[chance.randrange(len(names))] = "another"
            numbers = [plain.number_of(cell) for cell in cells]
            apart = all(
                names[i] == names[j] or not plain.zone_of([one], other)
                for i, one in enumerate(cells)
                for j, other in enumerate(cells)
            )
            outcomes[apart] += 1
            if not apart:
                self.assertRaises(H3DuplicateInputError, integers.Zones, numbers, names=names)
                continue
            zones = integers.Zones(numbers, names=names)
            asked = plain.random_cells(chance, 60)[:60]
            wanted = []
            for cell in asked:
                over = plain.zone_of(cells, cell)
                wanted.append(names[cells.index(over)] if over else "none")
            given = array("Q", map(plain.number_of, asked))
            self.assertEqual(zones.names_of(given, none="none"), wanted)
            self.assertEqual(zones.names, list(dict.fromkeys(names)))
            weights = [chance.randrange(-(2**62), 2**62) for _ in asked]
            for found, of_each in ((zones.count(given), [1] * 60), (zones.count(given, weights=weights), weights)):
                sums = Counter()
                for name, weight in zip(wanted, of_each):
                    sums[name] += weight
                self.assertEqual(found.others, sums["none"])
                self.assertEqual(dict(found), {name: sums[name] for name in zones.names})
        self.assertGreater(min(outcomes[True], outcomes[False]), 10)


@unittest.skipUnless(numpy and pandas, "there is no numpy or no pandas")
class Columns(unittest.TestCase):
    zones = Rows.zones

    def test_series(self):
        points = pandas.Series(POINTS, index=[7, 5, 3, 1], name="cell")
        found = self.zones.names_of(points)
        self.assertEqual(list(found), ["north", "south, old", None, "north"])
        self.assertEqual((list(found.index), found.name, found.dtype), ([7, 5, 3, 1], "cell", object))
        numbers = points.map(h3whole.str_to_int).astype("uint64")
        self.assertTrue(self.zones.names_of(numbers).equals(found))
        found = self.zones.names_of(pandas.Index(POINTS), none="-")
        self.assertEqual(list(found), ["north", "south, old", "-", "north"])
        self.assertEqual(type(self.zones.names_of(pandas.Index(POINTS))), pandas.Index)
        index = pandas.Index([int(WITHIN, 16), int(OTHER, 16)], dtype=object)
        self.assertEqual(integers.Zones([int(NORTH, 16)]).of(index).tolist(), [int(NORTH, 16), None])
        numbers = h3whole.Zones([NORTH, SOUTH], names=[2**53 + 1, 2])
        found = numbers.names_of(pandas.Index([NORTH, OTHER]))
        self.assertEqual((found.dtype, found.tolist()), (object, [2**53 + 1, None]))
        frame = pandas.DataFrame({"cell": [NORTH, SOUTH], "name": ["north", "south, old"]}, index=[3, 2])
        self.assertEqual(h3whole.Zones(frame["cell"], names=frame["name"]), self.zones)

    def test_numpy(self):
        for points in (numpy.array(POINTS), numpy.array(POINTS, dtype=object)):
            found = self.zones.names_of(points, none="-")
            self.assertEqual((found.dtype, list(found)), (object, ["north", "south, old", "-", "north"]))
        numbers = numpy.array([int(cell, 16) for cell in POINTS], dtype="uint64").reshape(2, 2)
        self.assertEqual(self.zones.names_of(numbers).tolist(), [["north", "south, old"], [None, "north"]])
        pairs = h3whole.Zones([NORTH, SOUTH], names=[(1, 2), (3, 4)])
        self.assertEqual(pairs.names_of(numpy.array([SOUTH, NORTH])).tolist(), [(3, 4), (1, 2)])
        self.assertEqual(list(self.zones.names_of(numpy.array([], dtype="uint64"))), [])

    def test_arrow(self):
        column = h3whole.columns.to_arrow([*POINTS])
        self.assertEqual(self.zones.names_of(column), ["north", "south, old", None, "north"])
        self.assertEqual(self.zones.count(column), self.zones.count(POINTS))

    def test_weights(self):
        points = pandas.Series(POINTS * 3)
        for dtype in ("int8", "int64", "uint8", "uint64"):
            weights = numpy.arange(12).astype(dtype)
            for given in (weights, pandas.Series(weights), list(weights), pandas.array(weights), memoryview(weights)):
                found = self.zones.count(points, weights=given)
                self.assertEqual((found["north"], found["south, old"], found.others), (33, 15, 18))
                self.assertEqual(type(found["north"]), int)
        objects = pandas.Series([Decimal(1), 2, Fraction(1, 2), numpy.int64(4)])
        self.assertEqual(self.zones.count(POINTS, weights=objects)["north"], 5)
        for floats in (numpy.ones(4), pandas.Series([1.5] * 4), [numpy.float32(1)] * 4, pandas.array([1.0] * 4)):
            self.assertIn("0.1 + 0.2", message(self.zones.count, POINTS, weights=floats))
        self.assertIn("at place 1", message(self.zones.count, POINTS, weights=pandas.array([1, None, 3, 4])))

    def test_hidden(self):
        masked = numpy.ma.array([1, 2], mask=[False, True])
        for given in (masked, masked.astype(object)):
            for what, refused in (
                ("weights", message(self.zones.count, [NORTH, SOUTH], weights=given)),
                ("names", message(h3whole.Zones, [NORTH, SOUTH], names=given)),
            ):
                self.assertEqual(refused, f"TypeError: {what} are wanted, and not an array with a mask")
        names = pandas.Series(["north", None], dtype="string")
        self.assertEqual(message(h3whole.Zones, [NORTH, SOUTH], names=names), "ValueError: there is no name at place 1")

    def test_large_weights(self):
        """Sums beyond 64 bits, of more cells than one step adds up."""
        count = 2**21 + 5
        points = numpy.full(count, int(NORTH, 16), dtype="uint64")
        for dtype, weight in (("int64", -(2**63)), ("uint64", 2**64 - 1), ("int64", 2**63 - 1)):
            found = self.zones.count(points, weights=numpy.full(count, weight, dtype=dtype))
            self.assertEqual(found["north"], count * weight)


if __name__ == "__main__":
    unittest.main()
