"""Regions and zones: worked rows, random lists against sets of descendants in plain Python, each kind of column, what
is refused, want of memory, threads, parts, and speed."""

import concurrent.futures
import copy
import gc
import os
import pickle
import re
import threading
import unittest
import weakref
from array import array
from collections import Counter
from unittest import mock

import h3whole
import h3whole.int as integers
import h3whole.parts
import h3whole.regions as regions
import plain_cells as plain
from h3whole import H3CellInvalidError, H3DuplicateInputError, H3FailedError, H3MemoryAllocError

try:
    import numpy
except ImportError:
    numpy = None
try:
    import pandas
except ImportError:
    pandas = None
try:
    import dask.bag
except ImportError:
    dask = None
try:
    import dask.dataframe as dataframe
except ImportError:
    dataframe = None

SCALING = os.path.join(os.path.dirname(os.path.abspath(__file__)), "..", "..", "docs", "SCALING.md")
CELL = "8428347ffffffff"
CHILDREN = [
    "85283463fffffff",
    "85283467fffffff",
    "8528346bfffffff",
    "8528346ffffffff",
    "85283473fffffff",
    "85283477fffffff",
    "8528347bfffffff",
]
OTHER = "8009fffffffffff"
WITHIN = "862834707ffffff"


class Text(str):
    """A text of another type."""


def outcome(function, *given):
    """What a call returns, or its error."""
    try:
        return function(*given)
    except Exception as error:
        return type(error), str(error)


def message(function, *given, **named):
    try:
        function(*given, **named)
    except Exception as error:
        return f"{type(error).__name__}: {error}"
    return "none"


class Rows(unittest.TestCase):
    def test_unions(self):
        region = h3whole.Region([*CHILDREN[:3], CELL, *CHILDREN[:2]])
        self.assertEqual(list(region), [CELL])
        self.assertEqual(region, h3whole.Region(CHILDREN * 2))
        self.assertEqual(list(h3whole.Region(CHILDREN[:3]) | h3whole.Region(CHILDREN[2:])), [CELL])
        self.assertEqual(list(h3whole.Region([])), [])
        self.assertEqual((len(region), bool(region), bool(h3whole.Region())), (1, True, False))

    def test_differences(self):
        region = h3whole.Region([CELL])
        six = CHILDREN[:4] + CHILDREN[5:]
        self.assertEqual(list(region - h3whole.Region([CHILDREN[4]])), six)
        self.assertEqual(
            list(region - h3whole.Region([WITHIN])),
            six
            + [
                "86283470fffffff",
                "862834717ffffff",
                "86283471fffffff",
                "862834727ffffff",
                "86283472fffffff",
                "862834737ffffff",
            ],
        )
        self.assertEqual(region - region, h3whole.Region())
        self.assertEqual(
            list(h3whole.Region([OTHER]) - h3whole.Region(["820807fffffffff"])),
            [
                "8108bffffffffff",
                "8108fffffffffff",
                "81093ffffffffff",
                "81097ffffffffff",
                "8109bffffffffff",
                "820817fffffffff",
                "82081ffffffffff",
                "820827fffffffff",
                "82082ffffffffff",
                "820837fffffffff",
            ],
        )
        # more cells than both have
        finest = h3whole.Region([h3whole.cell_to_center_child(CELL, 15)])
        self.assertEqual(len(region - finest), 66)
        self.assertEqual((region - finest) | finest, region)

    def test_intersections(self):
        found = h3whole.Region([CELL]) & h3whole.Region(["85283473fffffff", "862834757ffffff", "8528340ffffffff"])
        self.assertEqual(list(found), ["85283473fffffff", "862834757ffffff"])
        self.assertEqual(list(h3whole.Region(CHILDREN) & h3whole.Region([CELL])), [CELL])

    def test_zones(self):
        zones = h3whole.Zones([CHILDREN[4], OTHER])
        self.assertEqual(list(zones), [OTHER, CHILDREN[4]])
        self.assertEqual(zones.of([CHILDREN[4], WITHIN, CELL, OTHER]), [CHILDREN[4], CHILDREN[4], None, OTHER])
        found = zones.count([CHILDREN[4], WITHIN, CELL, CHILDREN[4]])
        self.assertEqual((list(found.items()), found.others, found.refused), ([(OTHER, 0), (CHILDREN[4], 3)], 1, 0))
        self.assertEqual(found.column(), ([OTHER, CHILDREN[4]], [0, 3]))
        self.assertEqual((zones.zone_of(WITHIN), zones.zone_of(CELL)), (CHILDREN[4], None))
        self.assertEqual((CHILDREN[4] in zones, WITHIN in zones, len(zones)), (True, False, 2))
        with self.assertRaises(H3DuplicateInputError):
            h3whole.Zones([CELL, CHILDREN[4]])
        region = h3whole.Region([CELL, CHILDREN[4]])
        self.assertEqual(region.covers([CHILDREN[5], "8528340ffffffff"]), [True, False])
        self.assertEqual(list(h3whole.Zones(region)), [CELL])
        self.assertEqual((list(h3whole.Zones()), h3whole.Zones().count([CELL]).others), ([], 1))

    def test_of_sets(self):
        """What a set of Python has by name, of regions and of cells of any kind."""
        region, one = h3whole.Region([CELL]), h3whole.Region([CHILDREN[4]])
        six = h3whole.Region(CHILDREN[:4] + CHILDREN[5:])
        self.assertEqual((region ^ one, one ^ region, region ^ region), (six, six, h3whole.Region()))
        self.assertEqual(region.symmetric_difference(CHILDREN[4:5]), six)
        self.assertEqual((one.union(six, [OTHER]), one.union()), (h3whole.Region([CELL, OTHER]), one))
        self.assertEqual(region.intersection(CHILDREN, [CHILDREN[4]]), one)
        self.assertEqual(region.difference([CHILDREN[4]], array("Q", [int(OTHER, 16)])), six)
        self.assertEqual((one.issubset(region), region.issubset([CHILDREN[4]])), (True, False))
        self.assertEqual((region.issuperset(CHILDREN), one.issuperset(region)), (True, False))
        self.assertEqual((one.isdisjoint(six), one.isdisjoint([WITHIN])), (True, False))
        self.assertEqual(region.column(), array("Q", [int(CELL, 16)]))
        region.column()[0] = 0
        self.assertEqual(list(region), [CELL])
        self.assertRaises(TypeError, lambda: region ^ [CELL])
        self.assertRaises(TypeError, region.union, CELL)


class Random(unittest.TestCase):
    def test_regions(self):
        chance = plain.seeded(1)
        merged = 0
        for _ in range(150):
            first, second = (plain.random_cells(chance, chance.randrange(30)) for _ in "ab")
            of_first, of_second = plain.covered(first), plain.covered(second)
            a, b = (integers.Region(map(plain.number_of, cells)) for cells in (first, second))
            merged += len(a) < len(set(first))
            for found, wanted in (
                (a, of_first),
                (a | b, of_first | of_second),
                (a & b, of_first & of_second),
                (a - b, of_first - of_second),
                (a ^ b, of_first ^ of_second),
            ):
                self.assertEqual(list(found), plain.compacted(wanted))
            self.assertEqual(
                (a <= b, a < b, a >= b, a > b, a == b),
                (
                    of_first <= of_second,
                    of_first < of_second,
                    of_first >= of_second,
                    of_first > of_second,
                    of_first == of_second,
                ),
            )
            self.assertTrue(a & b <= a <= a | b and a - b <= a)
            asked = plain.random_cells(chance, 40)
            wanted = [plain.covered([cell]) <= of_first for cell in asked]
            self.assertEqual(a.covers(map(plain.number_of, asked)), wanted)
            self.assertEqual([plain.number_of(cell) in a for cell in asked], wanted)
        self.assertGreater(merged, 50)

    def test_zones(self):
        chance = plain.seeded(2)
        for _ in range(150):
            cells, asked = plain.without_overlap(chance, chance.randrange(30)), plain.random_cells(chance, 60)
            zones = integers.Zones(map(plain.number_of, cells))
            found = [plain.zone_of(cells, cell) for cell in asked]
            wanted = [zone and plain.number_of(zone) for zone in found]
            numbers = [plain.number_of(cell) for cell in asked]
            self.assertEqual(zones.of(numbers), wanted)
            self.assertEqual(list(zones.of(array("Q", numbers))), [zone or 0 for zone in wanted])
            counted = Counter(wanted)
            counts = zones.count(numbers)
            self.assertEqual(dict(counts), {zone: counted[zone] for zone in sorted(map(plain.number_of, cells))})
            self.assertEqual(counts.others, counted[None])
            for count in (1, 2, 7):
                parts = [array("Q", numbers[start::count]) for start in range(count)]
                self.assertEqual(sum(map(zones.count, parts[1:]), zones.count(parts[0])), counts)
                self.assertEqual(h3whole.parts.count_cells(zones, parts), counts)
            overlapping = [
                *map(plain.number_of, cells),
                *map(plain.number_of, chance.sample(cells, min(1, len(cells)))),
            ]
            if cells:
                self.assertRaises(H3DuplicateInputError, integers.Zones, overlapping)


class Kinds(unittest.TestCase):
    """Texts in, texts out; integers in, integers out; and columns of the kind that was given."""

    def setUp(self):
        self.zones, self.region = h3whole.Zones([CHILDREN[4], OTHER]), h3whole.Region([CHILDREN[4], OTHER])
        self.texts = [CHILDREN[4], CELL, WITHIN]
        self.numbers = [int(text, 16) for text in self.texts]
        self.found = [self.numbers[0], 0, self.numbers[0]]
        self.truth = [True, False, True]

    def test_lists(self):
        self.assertEqual(integers.Zones(self.zones).of(self.numbers), [self.numbers[0], None, self.numbers[0]])
        self.assertEqual(self.zones.of(iter(self.texts)), [CHILDREN[4], None, CHILDREN[4]])
        self.assertEqual(self.region.covers(tuple(self.texts)), self.truth)
        self.assertEqual(list(integers.Region(self.region)), [int(OTHER, 16), int(CHILDREN[4], 16)])
        self.assertEqual(integers.Region(self.region), self.region)
        self.assertEqual(hash(integers.Region(self.region)), hash(self.region))
        self.assertEqual(len({self.region, h3whole.Region(reversed(list(self.region)))}), 1)
        self.assertNotEqual(self.region, self.zones)
        self.assertNotEqual(self.region, list(self.region))
        self.assertEqual(self.zones.of(self.region), [OTHER, CHILDREN[4]])

    def test_odd_lists(self):
        """A list is read at once, and an iterator one by one: both have the same answers, and the same errors."""
        zones, region = h3whole.Zones(CHILDREN), h3whole.Region(CHILDREN[:3])
        odd = [WITHIN, OTHER, "", "xyz", f" {WITHIN}\t", WITHIN.upper(), f"0x{WITHIN}", "0", "5", f"{WITHIN}\0", "\0"]
        odd += [
            "\u00e9",
            "\udc80",
            "8\uff15",
            "1" * 17,
            WITHIN[:-1],
            WITHIN.encode(),
            None,
            5,
            1.5,
            [WITHIN],
            Text(WITHIN),
        ]
        calls = [zones.of, zones.count, region.covers]
        for call in [*calls, *(lambda cells, call=call: call(cells, missing=True) for call in calls)]:
            for item in odd:
                for listed in ([item], [WITHIN, item, OTHER], [item, item, None, CELL], [CELL] * 3 + [item]):
                    wanted = outcome(call, iter(listed))
                    self.assertEqual(outcome(call, listed), wanted, listed)
                    self.assertEqual(outcome(call, tuple(listed)), wanted, listed)
        for item in odd:
            for make in (h3whole.Zones, h3whole.Region):
                wanted = outcome(make, iter([OTHER, item, CELL]))
                self.assertEqual(outcome(make, [OTHER, item, CELL]), wanted, item)
        self.assertEqual(zones.of([]), [])

    def test_own_forms(self):
        """A subclass with a form of its own, and an iterable that is a list."""

        class Own(h3whole.Zones):
            @staticmethod
            def _index_of(cell):
                return int(cell[1:-1], 16)

            @staticmethod
            def _form_of(index):
                return f"<{index:x}>"

        class Backwards(list):
            def __iter__(self):
                return reversed(self[:])

        zones = Own([f"<{cell}>" for cell in CHILDREN])
        self.assertEqual(zones.of([f"<{WITHIN}>", f"<{OTHER}>"]), [f"<{CHILDREN[4]}>", None])
        self.assertEqual(zones.of(Backwards([f"<{WITHIN}>", f"<{OTHER}>"])), [None, f"<{CHILDREN[4]}>"])
        self.assertEqual(h3whole.Zones(CHILDREN).of(Backwards([WITHIN, OTHER])), [None, CHILDREN[4]])

    def test_arrays(self):
        for typecode in "QqLl":
            column = array(typecode, self.numbers)
            self.assertEqual(self.zones.of(column), array(typecode, self.found))
            self.assertEqual(self.region.covers(column), array("b", [1, 0, 1]))
            self.assertEqual(self.zones.of(memoryview(column)).tolist(), self.found)
            self.assertEqual(len(h3whole.Region(column)), 1)
            self.assertEqual(self.zones.count(column).others, 1)
        self.assertEqual(self.zones.of(array("Q")), array("Q"))
        self.assertRaises(TypeError, self.zones.of, array("d", [1.0]))
        self.assertRaises(TypeError, h3whole.Zones, array("d", [1.0]))

    @unittest.skipIf(numpy is None, "numpy is not installed")
    def test_numpy(self):
        for dtype in ("int64", "uint64"):
            column = numpy.array([self.numbers], dtype=dtype)
            found = self.zones.of(column)
            self.assertEqual((found.dtype, found.shape, found.tolist()), (column.dtype, (1, 3), [self.found]))
            self.assertEqual(self.region.covers(column).tolist(), [self.truth])
            self.assertEqual(h3whole.Region(column[0]), h3whole.Region(self.texts))
        for dtype in ("U15", object, "S15"):
            column = numpy.array(self.texts, dtype=dtype)
            self.assertEqual(self.zones.of(column).tolist(), [CHILDREN[4], None, CHILDREN[4]])
            self.assertEqual(self.region.covers(column).tolist(), self.truth)
            self.assertEqual(self.zones.count(column)[CHILDREN[4]], 2)
            self.assertEqual(h3whole.Region(column), h3whole.Region(self.texts))

    @unittest.skipIf(pandas is None, "pandas is not installed")
    def test_pandas(self):
        for dtype in ("int64", "uint64", "Int64", "UInt64"):
            series = pandas.Series(self.numbers, dtype=dtype, index=list("abc"), name="cell")
            found = self.zones.of(series)
            self.assertEqual((str(found.dtype), list(found.index), found.name), (dtype, list("abc"), "cell"))
            self.assertEqual(found.tolist(), self.found)
            self.assertEqual(self.region.covers(series).tolist(), self.truth)
            self.assertEqual(self.zones.count(series).others, 1)
        for dtype in (object, "string"):
            series = pandas.Series(self.texts, dtype=dtype, index=list("abc"), name="cell")
            found = self.zones.of(series)
            self.assertEqual((list(found.index), found.name), (list("abc"), "cell"))
            self.assertEqual(found.tolist(), [CHILDREN[4], None, CHILDREN[4]])
            self.assertEqual(self.region.covers(series).tolist(), self.truth)
        with_missing = pandas.Series([*self.numbers, pandas.NA], dtype="Int64")
        self.assertEqual(self.zones.of(with_missing, missing=True).tolist(), [*self.found, 0])

    def test_pickles(self):
        for given in (self.zones, self.region, integers.Zones(self.zones), integers.Region()):
            found = pickle.loads(pickle.dumps(given))
            self.assertEqual((found, type(found), list(found)), (given, type(given), list(given)))
        self.assertEqual(pickle.loads(pickle.dumps(self.zones)).of(self.texts), [CHILDREN[4], None, CHILDREN[4]])

    def test_reprs(self):
        self.assertEqual(repr(h3whole.Region([CELL])), f"Region(['{CELL}'])")
        self.assertEqual(repr(integers.Zones([int(CELL, 16)])), f"Zones([{int(CELL, 16)}])")
        self.assertIn(", ...]) of 6 cells", repr(h3whole.Region(CHILDREN[:6])))
        self.assertEqual(repr(self.zones.count(self.texts)), "Counts of 2 zones: 2 cells, 1 others, 0 refused")

    def test_counts_are_equal(self):
        counts = self.zones.count([WITHIN, CHILDREN[4], OTHER])
        items = {OTHER: 1, CHILDREN[4]: 2}
        self.assertEqual(counts, self.zones.count([CHILDREN[4], OTHER, WITHIN]))
        self.assertEqual(counts, self.zones.count([]) + counts)
        self.assertEqual((counts, items), (items, counts))
        for others in (
            self.zones.count([WITHIN, CHILDREN[4], OTHER, CELL]),
            self.zones.count([WITHIN, CHILDREN[4], OTHER, None], missing=True),
            self.zones.count([CELL, CELL, WITHIN, CHILDREN[4], OTHER]),
        ):
            self.assertEqual(dict(others), items)
            for other in (counts, items, Counter(items)):
                self.assertEqual((others == other, other == others, others != other), (False, False, True))
        for other in (
            self.zones.count([WITHIN, OTHER, OTHER]),
            h3whole.Zones([CHILDREN[4]]).count([WITHIN, CHILDREN[4]]),
            integers.Zones(self.zones).count([int(cell, 16) for cell in (WITHIN, CHILDREN[4], OTHER)]),
            {**items, CELL: 0},
            {},
            list(items),
            None,
        ):
            self.assertEqual((counts == other, other == counts, counts != other), (False, False, True))
        self.assertEqual(h3whole.Zones().count([]), {})
        self.assertRaises(TypeError, hash, counts)

    def test_never_change(self):
        for given in (self.zones, self.region):
            before = list(given)
            for name in ("new", "cells"):
                self.assertRaises(AttributeError, setattr, given, name, 1)
            self.assertEqual(list(given), before)


@unittest.skipIf(numpy is None, "numpy is not installed")
class Objects(unittest.TestCase):
    """Columns of objects: each item is what it is, an integer as in a list, or a text as in a column of texts,
    whatever the others are, and whether the zones are texts or integers."""

    CELLS = [CHILDREN[4], CELL, WITHIN, OTHER]
    NUMBERS = [int(cell, 16) for cell in CELLS]
    ZONES = [CHILDREN[4], None, CHILDREN[4], OTHER]
    OF_NUMBERS = [NUMBERS[0], None, NUMBERS[0], NUMBERS[3]]
    NO_CELLS = [None, float("nan"), 1.5, 0, 5, True, -1, 2**64, "", "5", "xyz", b"\xff", "\u00e9"]

    def setUp(self):
        region = h3whole.Region([CHILDREN[4], OTHER])
        self.regions = [region, integers.Region(region)]
        self.zones = [h3whole.Zones(region), integers.Zones(region)]

    @staticmethod
    def columns_of(items):
        column = numpy.empty(len(items), dtype=object)
        column[:] = items
        yield column
        if pandas is not None:
            series = pandas.Series(items, dtype=object)
            yield series
            # (where an item is a float, pandas makes floats of all categories)
            if series.astype("category").cat.categories.dtype.kind != "f":
                yield series.astype("category")

    def check(self, items, found, refused):
        """The zones that are found for items, of which so many are no cells."""
        others = found.count(None) - refused
        for column in self.columns_of(items):
            for zones, region in zip(self.zones, self.regions):
                got = zones.of(column, missing=True)
                self.assertEqual((type(got), got.dtype, got.tolist()), (type(column), object, found))
                self.assertEqual(list(map(type, got)), list(map(type, found)))
                covered = region.covers(column, missing=True)
                self.assertEqual((covered.dtype, covered.tolist()), (bool, [zone is not None for zone in found]))
                counts = zones.count(column, missing=True)
                self.assertEqual(sum(counts.values()), len(items) - found.count(None))
                self.assertEqual((counts.others, counts.refused), (others, refused))
                if not refused:
                    self.assertEqual(zones.of(column).tolist(), found)

    def test_integers(self):
        self.assertEqual(self.zones[1].of(self.NUMBERS), self.OF_NUMBERS)
        self.check(self.NUMBERS, self.OF_NUMBERS, 0)
        self.check(list(map(numpy.uint64, self.NUMBERS)), self.OF_NUMBERS, 0)
        for item in self.NO_CELLS:
            self.assertEqual(self.zones[1].of([*self.NUMBERS, item], missing=True), [*self.OF_NUMBERS, None])
            self.check([*self.NUMBERS, item], [*self.OF_NUMBERS, None], 1)
            self.check([item, *self.NUMBERS, item], [None, *self.OF_NUMBERS, None], 2)
            self.check([item], [None], 1)

    def test_texts_and_integers(self):
        self.check(self.CELLS + self.NUMBERS, self.ZONES + self.OF_NUMBERS, 0)
        chance = plain.seeded(4)
        rows = [*zip(self.CELLS, self.ZONES), *zip(self.NUMBERS, self.OF_NUMBERS)]
        for _ in range(20):
            chosen = [chance.choice(rows) for _ in range(20)]
            self.check(*map(list, zip(*chosen)), 0)
            chosen += [(item, None) for item in self.NO_CELLS]
            chance.shuffle(chosen)
            self.check(*map(list, zip(*chosen)), len(self.NO_CELLS))

    def test_shapes(self):
        column = numpy.array([self.NUMBERS[:2], self.CELLS[2:]], dtype=object)
        self.assertEqual(self.zones[0].of(column).tolist(), [self.OF_NUMBERS[:2], self.ZONES[2:]])
        self.assertEqual(self.regions[1].covers(column).tolist(), [[True, False], [True, True]])
        if pandas is not None:
            series = pandas.Series([self.NUMBERS[0], None], dtype=object, index=list("ab"), name="cell")
            for found in (self.zones[1].of(series, missing=True), self.regions[1].covers(series, missing=True)):
                self.assertEqual((list(found.index), found.name), (list("ab"), "cell"))

    def test_made_of(self):
        for items in (self.NUMBERS, self.NUMBERS[:2] + self.CELLS[2:]):
            for column in self.columns_of(items):
                for kind in (h3whole, integers):
                    self.assertEqual(kind.Region(column), h3whole.Region(self.CELLS))
                    self.assertEqual(kind.Zones(column[1:2]), h3whole.Zones([CELL]))
                    self.assertRaises(H3DuplicateInputError, kind.Zones, column)

    def test_refused(self):
        for item, wanted in [
            (5, "H3CellInvalidError: error 5: E_CELL_INVALID: 5 at place 1"),
            (True, "H3CellInvalidError: error 5: E_CELL_INVALID: 1 at place 1"),
            (-1, "H3CellInvalidError: error 5: E_CELL_INVALID: -1 at place 1"),
            (2**64, "H3CellInvalidError: error 5: E_CELL_INVALID: 18446744073709551616 at place 1"),
            (None, "H3FailedError: error 1: E_FAILED: None at place 1"),
            (1.5, "H3FailedError: error 1: E_FAILED: 1.5 at place 1"),
            ("xyz", "H3FailedError: error 1: E_FAILED: 'xyz' at place 1"),
        ]:
            column = numpy.array([self.NUMBERS[0], item], dtype=object)
            for kind, zones, region in zip((h3whole, integers), self.zones, self.regions):
                for call in (kind.Region, kind.Zones, zones.of, zones.count, region.covers):
                    self.assertEqual(message(call, column), wanted)


@unittest.skipIf(pandas is None, "pandas is not installed")
class Merged(unittest.TestCase):
    """The merge of docs/library/python.md, with points in no zone and zones without a cell: None does not meet None,
    nor 0 0."""

    def check(self, cells, zones, kind, without):
        places = pandas.DataFrame({"cell": cells})
        known = pandas.DataFrame({"zone": zones, "rate": ["day", "free", "night"]})
        zones = known[known["zone"].notna() & (known["zone"] != 0)]
        places["zone"] = kind(zones["zone"]).of(places["cell"])
        self.assertEqual(places["zone"].tolist()[2], without)
        merged = places.merge(zones, on="zone", how="left", validate="m:1")
        self.assertEqual(merged["rate"].fillna("none").tolist(), ["day", "night", "none"])
        # what the page warns of
        self.assertIn("free", places.merge(known, on="zone", how="left")["rate"].tolist())

    def test_texts(self):
        self.check([CHILDREN[4], OTHER, "8007fffffffffff"], [CELL, None, OTHER], h3whole.Zones, None)

    def test_integers(self):
        cells = [int(cell, 16) for cell in (CHILDREN[4], OTHER)] + [0x8007FFFFFFFFFFF]
        self.check(cells, [int(CELL, 16), 0, int(OTHER, 16)], integers.Zones, 0)


class Refused(unittest.TestCase):
    def test_cells(self):
        for make in (h3whole.Region, h3whole.Zones):
            self.assertEqual(message(make, [CELL, "5"]), "H3CellInvalidError: error 5: E_CELL_INVALID: 5 at place 1")
            self.assertEqual(message(make, [CELL, "xyz"]), "H3FailedError: error 1: E_FAILED: 'xyz' at place 1")
            for error in (H3CellInvalidError, H3FailedError):
                self.assertIn(error.__name__, make.__doc__)
            self.assertIn("h3whole.int", message(make, [5]))
            self.assertRaises(TypeError, make, CELL)
            self.assertRaises(TypeError, make, None)
        self.assertEqual(
            message(h3whole.Zones, [CELL, CELL]),
            "H3DuplicateInputError: error 10: E_DUPLICATE_INPUT: among 2 cells:"
            f" {CELL} at place 1 overlaps {CELL} at place 0",
        )
        self.assertIn("h3whole itself", message(integers.Region, [CELL]))
        self.assertRaises(H3CellInvalidError, integers.Region, [2**64])

    def test_asked(self):
        zones, region = h3whole.Zones([CELL]), h3whole.Region([CELL])
        for function in (zones.of, zones.count, region.covers):
            self.assertEqual(
                message(function, array("Q", [int(CELL, 16), 5])),
                "H3CellInvalidError: error 5: E_CELL_INVALID: 5 at place 1",
            )
            self.assertEqual(
                message(function, [CELL, "5"]), "H3CellInvalidError: error 5: E_CELL_INVALID: 5 at place 1"
            )
            self.assertRaises(H3FailedError, function, ["xyz"])
            self.assertRaises(TypeError, function, CELL)
        for test in (zones.__contains__, region.__contains__, zones.zone_of):
            for error, given in ((H3CellInvalidError, "5"), (H3FailedError, "xyz")):
                self.assertRaises(error, test, given)
                self.assertIn(error.__name__, test.__doc__)
            self.assertRaises(TypeError, test, 5)
        self.assertRaises(TypeError, lambda: region | [CELL])
        self.assertRaises(TypeError, lambda: region & zones)
        self.assertRaises(TypeError, lambda: region - CELL)
        self.assertRaises(TypeError, lambda: region <= [CELL])
        self.assertRaises(KeyError, zones.count([]).__getitem__, OTHER)
        self.assertRaises(KeyError, zones.count([]).__getitem__, "xyz")
        self.assertRaises(ValueError, lambda: zones.count([]) + h3whole.Zones([OTHER]).count([]))

    def test_missing(self):
        zones, region = h3whole.Zones([CELL]), h3whole.Region([CELL])
        given = [CHILDREN[0], "5", None, "xyz", OTHER]
        self.assertEqual(zones.of(given, missing=True), [CELL, None, None, None, None])
        self.assertEqual(region.covers(given, missing=True), [True, False, False, False, False])
        column = array("Q", [int(CHILDREN[0], 16), 5, 0, int(OTHER, 16)])
        self.assertEqual(zones.of(column, missing=True), array("Q", [int(CELL, 16), 0, 0, 0]))
        self.assertEqual(region.covers(column, missing=True), array("b", [1, 0, 0, 0]))
        counts = zones.count(column, missing=True)
        self.assertEqual((dict(counts), counts.others, counts.refused), ({CELL: 1}, 1, 2))
        with mock.patch.dict("sys.modules", {"numpy": None}):
            counts = zones.count(column, missing=True)
        self.assertEqual((dict(counts), counts.others, counts.refused), ({CELL: 1}, 1, 2))
        self.assertEqual((counts + counts).refused, 4)
        self.assertEqual(zones.count(given, missing=True).refused, 3)

    def test_memory(self):
        """Want of memory in the library."""
        region, cells = h3whole.Region([CELL]), [OTHER]
        for name, call in {
            "_unite_cells": lambda: h3whole.Region(cells),
            "_intersect_cells": lambda: region & region,
            "_subtract_cells": lambda: region - region,
            "_zones": lambda: h3whole.Zones(cells),
        }.items():
            with mock.patch.object(regions, name, return_value=13):
                self.assertRaises(H3MemoryAllocError, call)
            call()
        with mock.patch.object(regions, "_zones", return_value=13):
            self.assertRaises(H3MemoryAllocError, region.covers, cells)
        self.assertEqual(region.covers(cells), [False])


class Threads(unittest.TestCase):
    def test_first_use(self):
        """Threads that ask a region for the first time all at once. Each prepares the order in which cells are looked
        up, and puts it in the place of that of the one before, which has got to its call of the library."""
        count, own = 8, threading.local()
        began, prepared, called = (threading.Barrier(count, timeout=60) for _ in range(3))
        turns = [threading.Event() for _ in range(count + 1)]
        turns[0].set()
        freed, read_freed = set(), []
        prepare, are_covered = regions._prepared, regions._are_covered_cells

        def prepare_together(cells):
            own.place = began.wait()
            order = prepare(cells)
            weakref.finalize(order, freed.add, order.buffer_info()[0])
            # (none is freed before all are there, so each has an address of its own)
            prepared.wait()
            self.assertTrue(turns[own.place].wait(60))
            return order

        def call_together(function):
            def call(address, *more):
                turns[own.place + 1].set()
                called.wait()
                gc.collect()
                if address in freed:
                    read_freed.append(own.place)
                    return 0
                return function(address, *more)

            return call

        region, asked = h3whole.Region([CHILDREN[4], OTHER]), [CHILDREN[4], CELL, WITHIN, OTHER]
        calls = tuple(map(call_together, are_covered))
        with mock.patch.multiple(regions, _prepared=prepare_together, _are_covered_cells=calls):
            with concurrent.futures.ThreadPoolExecutor(count) as threads:
                found = list(threads.map(region.covers, [asked] * count))
        self.assertEqual(read_freed, [])
        self.assertEqual(found, [[True, False, True, True]] * count)
        self.assertEqual(len(freed), count - 1)
        self.assertEqual(region.covers(asked), found[0])


class Tables(unittest.TestCase):
    """The table by which cells are looked up is written once, when enough were asked about, and kept."""

    def setUp(self):
        cells = integers.cell_to_children(int(CELL, 16), 7)
        # (every second one, so that no siblings are complete)
        self.zones, self.region = integers.Zones(cells[::2]), integers.Region(cells[::2])
        self.column = array("Q", integers.cell_to_children(integers.cell_to_parent(int(CELL, 16), 3), 8)[::5])
        write = mock.patch.object(regions, "_zones_table", wraps=regions._zones_table)
        self.written = write.start()
        self.addCleanup(write.stop)

    def parts(self, length):
        return [self.column[start : start + length] for start in range(0, len(self.column), length)]

    def test_parts(self):
        whole, counts = self.zones.of(self.column), self.zones.count(self.column)
        covered = self.region.covers(self.column)
        self.assertEqual(self.written.call_count, 0)
        for length in (1, 10, 100, 2000):
            zones, region = integers.Zones(self.zones), integers.Region(self.region)
            before = self.written.call_count
            self.assertEqual(sum(map(zones.of, self.parts(length)), array("Q")), whole)
            self.assertEqual(sum(map(zones.count, self.parts(length)), zones.count([])), counts)
            self.assertEqual(sum(map(region.covers, self.parts(length)), array("b")), covered)
            # (a part as long as the zones are many has a table of its own)
            self.assertEqual(self.written.call_count, before + (2 if length < len(zones) else 0))

    def test_too_few(self):
        count = len(self.zones) // 4
        wanted = self.zones.of(self.column)[: count + 1]
        zones = integers.Zones(self.zones)
        self.written.reset_mock()
        self.assertEqual(zones.of(self.column[: count - 1]), wanted[: count - 1])
        self.written.assert_not_called()
        self.assertEqual(zones.of(self.column[count - 1 : count + 1]), wanted[count - 1 :])
        self.written.assert_called_once()

    def test_pickled_and_copied_without(self):
        for given in (self.zones, self.region):
            ask = given.of if given is self.zones else given.covers
            bare, wanted = pickle.dumps(given), ask(self.column)
            self.assertIsNone(given._table)
            self.assertEqual(ask(self.column[:50]), wanted[:50])
            self.assertIsNotNone(given._table)
            self.assertEqual(pickle.dumps(given), bare)
            for other in (pickle.loads(bare), copy.copy(given), copy.deepcopy(given), type(given)(given)):
                self.assertEqual((other, other._table, other._asked), (given, None, 0))
                self.assertEqual((other.of if given is self.zones else other.covers)(self.column), wanted)

    def test_no_memory(self):
        wanted = self.zones.of(self.column)
        zones = integers.Zones(self.zones)
        with mock.patch.object(regions, "_room_of_table", return_value=None):
            self.assertEqual((zones.of(self.column), zones._table), (wanted, None))
            self.assertEqual((zones.of(self.column[:50]), zones._table), (wanted[:50], None))
        self.assertEqual(zones.of(self.column), wanted)

    def test_threads(self):
        parts = self.parts(100) + self.parts(1000)
        wanted = list(map(integers.Zones(self.zones).of, parts))
        with concurrent.futures.ThreadPoolExecutor(8) as threads:
            for _ in range(5):
                zones = integers.Zones(self.zones)
                self.assertEqual(list(threads.map(zones.of, parts)), wanted)


class Parts(unittest.TestCase):
    def setUp(self):
        chance = plain.seeded(3)
        self.zones = integers.Zones(map(plain.number_of, plain.without_overlap(chance, 20)))
        self.numbers = [plain.number_of(cell) for cell in plain.random_cells(chance, 500)]
        self.parts = [array("Q", self.numbers[start::4]) for start in range(4)]

    def test_processes(self):
        with concurrent.futures.ProcessPoolExecutor(2) as processes:
            found = h3whole.parts.count_cells(self.zones, self.parts, processes.map)
        self.assertEqual((found, found.others), (self.zones.count(self.numbers), self.zones.count(self.numbers).others))

    @unittest.skipIf(dask is None, "there is no dask; .ci/packages --install")
    def test_a_bag(self):
        bag = dask.bag.from_sequence(self.numbers, npartitions=5)
        with dask.config.set(scheduler="sync"):
            self.assertEqual(h3whole.parts.count_cells(self.zones, bag), self.zones.count(self.numbers))

    @unittest.skipIf(dataframe is None, "there is no dask, or no pandas; .ci/packages --install")
    def test_frames(self):
        """What docs/SCALING.md says of a frame, in this process and in others."""
        with open(SCALING, encoding="utf-8") as document:
            calls = re.findall(r"frame\.cell\.map_partitions\((?:[^()]|\([^()]*\))*\)", document.read())
        self.assertEqual(len(calls), 2)
        region = integers.Region(self.zones)
        for cells in (self.numbers, list(map(h3whole.int_to_str, self.numbers))):
            series = pandas.Series(cells, name="cell", dtype="uint64" if cells is self.numbers else object)
            names = {"frame": dataframe.from_pandas(series.to_frame(), npartitions=3)}
            names.update(zones=self.zones, region=region)
            for scheduler in ("sync", "processes"):
                found = [eval(call, names) for call in calls]
                computed = dask.compute(*found, scheduler=scheduler)
                for lazy, got, wanted in zip(found, computed, (self.zones.of(series), region.covers(series))):
                    self.assertEqual((lazy.name, lazy.dtype), (wanted.name, wanted.dtype))
                    pandas.testing.assert_series_equal(got, wanted)

    def test_what_is_lost(self):
        def without_first(call, parts):
            return list(map(call, parts))[1:]

        def twice(call, parts):
            return 2 * list(map(call, parts))

        def shorter_sent(call, parts):
            return map(call, [(number, column[1:]) for number, column in parts])

        def fewer_counts(call, parts):
            return [part._replace(counts=part.counts[1:]) for part in map(call, parts)]

        def other_counts(call, parts):
            return [part._replace(others=part.others + 1) for part in map(call, parts)]

        for run in (without_first, twice, shorter_sent, fewer_counts, other_counts):
            with self.assertRaises(h3whole.parts.PartsError, msg=run.__name__):
                h3whole.parts.count_cells(self.zones, self.parts, run)
        with self.assertRaisesRegex(H3CellInvalidError, "part 1: .* 5 at place 0"):
            h3whole.parts.count_cells(self.zones, [self.parts[0], array("Q", [5])])


class Many(unittest.TestCase):
    @unittest.skipIf(numpy is None, "numpy is not installed")
    def test_five_million(self):
        """5,000,000 cells in no order in 1,441,201 zones, each of which is its own zone: found, counted and covered
        alike."""
        cells = numpy.array(integers.cell_to_children(0x8029FFFFFFFFFFF, 8), dtype="uint64")
        zones = integers.Zones(numpy.ascontiguousarray(cells[::4]))
        points = numpy.random.default_rng(1).choice(cells, 5_000_000)
        wanted = numpy.isin(points, cells[::4])
        found = zones.of(points)
        self.assertTrue((found == numpy.where(wanted, points, 0)).all())
        self.assertTrue((numpy.asarray(integers.Region(zones).covers(points)) == wanted).all())
        self.assertEqual((len(zones), zones.count(points).others), (1441201, int((~wanted).sum())))


if __name__ == "__main__":
    unittest.main()
