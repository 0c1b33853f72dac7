"""What programs hand to the functions, and what they get back: integers of numpy, types and shapes of columns, masks,
missing values, texts, errors with their values, names, docstrings and types."""

import ctypes
import inspect
import io
import pickle
import subprocess
import sys
import timeit
import unittest
from array import array
from unittest import mock

import h3whole
import h3whole.columns as columns
import h3whole.int as integers
import h3whole.parts
import plain_cells as plain
from h3whole import H3ResDomainError
from test_tables import DISK, HEXAGON, table_file

try:
    import numpy
except ImportError:
    numpy = None
try:
    import pandas
except ImportError:
    pandas = None

CELL = 0x85283473FFFFFFF
PARENT = 0x8428347FFFFFFFF
CHILDREN = integers.cell_to_children(CELL, 8)


class Whole:
    """An integer of another kind, as those of numpy."""

    def __init__(self, number):
        self.number = number

    def __index__(self):
        return self.number


def message(function, *given, **named):
    """The text of the exception of a call, and its type."""
    try:
        function(*given, **named)
    except Exception as error:
        return f"{type(error).__name__}: {error}"
    return "none"


class Integers(unittest.TestCase):
    def kinds(self):
        yield Whole
        if numpy is not None:
            yield from (numpy.uint64, numpy.int64)

    def test_indexes(self):
        for kind in self.kinds():
            self.assertIs(integers.is_valid_cell(kind(CELL)), True)
            self.assertIs(integers.is_valid_cell(kind(5)), False)
            self.assertIs(integers.is_valid_directed_edge(kind(0x115283473FFFFFFF)), True)
            self.assertEqual(integers.get_resolution(kind(CELL)), 5)
            self.assertEqual(integers.cell_to_parent(kind(CELL), kind(4)), PARENT)
            self.assertIs(type(integers.cell_to_parent(kind(CELL), kind(4))), int)
            self.assertEqual(integers.int_to_str(kind(CELL)), HEXAGON)
            self.assertEqual(integers.get_directed_edge_origin(kind(0x115283473FFFFFFF)), CELL)
            self.assertEqual(integers.compact_cells(map(kind, CHILDREN)), [CELL])

    def test_resolutions_and_positions(self):
        for kind in self.kinds():
            self.assertEqual(h3whole.cell_to_parent(HEXAGON, kind(4)), "8428347ffffffff")
            self.assertEqual(h3whole.get_num_cells(kind(0)), 122)
            self.assertEqual(len(h3whole.get_pentagons(kind(3))), 12)
            self.assertEqual(h3whole.child_pos_to_cell("8029fffffffffff", kind(5), kind(2279)), HEXAGON)
            self.assertEqual(columns.cells_to_parents(array("Q", [CELL]), kind(4)), array("Q", [PARENT]))
            self.assertEqual(columns.uncompact_cells(array("Q", [CELL]), kind(8)), array("Q", CHILDREN))

    def test_no_integers(self):
        for wrong in (4.0, "4"):
            self.assertRaises(TypeError, integers.cell_to_parent, CELL, wrong)
            self.assertRaises(TypeError, integers.get_resolution, wrong)
            self.assertRaises(TypeError, columns.cells_to_parents, array("Q", [CELL]), wrong)


class OwnType(unittest.TestCase):
    """The results have the type and the shape of what was given."""

    OVER_INDEXES = [
        lambda column: columns.cells_to_parents(column, 4),
        lambda column: columns.cells_to_center_children(column, 9),
        lambda column: columns.cells_to_last_children(column, 9),
        columns.compact_cells,
        lambda column: columns.uncompact_cells(column, 8),
    ]

    def test_arrays(self):
        for typecode in "QqLl":
            column = array(typecode, CHILDREN)
            for function in self.OVER_INDEXES:
                self.assertEqual(function(column).typecode, typecode)
            viewed = columns.cells_to_parents(memoryview(column), 4)
            self.assertEqual((viewed.format, viewed[0]), (typecode, PARENT))
        self.assertEqual(columns.get_directed_edge_origins(array("q", [0x115283473FFFFFFF])), array("q", [CELL]))

    @unittest.skipIf(numpy is None, "numpy is not installed")
    def test_numpy(self):
        for dtype in ("int64", "uint64", "longlong", "ulonglong"):
            column = numpy.array(CHILDREN, dtype=dtype)
            for function in self.OVER_INDEXES:
                self.assertEqual(function(column).dtype, column.dtype)
        region = numpy.array(CHILDREN, dtype="int64")
        got = columns.cells_to_center_children(region, 8)
        self.assertEqual(int((got == region[:1]).sum()), 1)
        edges = numpy.array(integers.origin_to_directed_edges(CELL), dtype="int64")
        self.assertEqual(columns.get_directed_edge_origins(edges).dtype, numpy.dtype("int64"))

    @unittest.skipIf(pandas is None, "pandas is not installed")
    def test_pandas(self):
        for dtype in ("int64", "uint64", "Int64", "UInt64"):
            series = pandas.Series(CHILDREN, dtype=dtype, name="cell")
            joined = pandas.concat([series, columns.cells_to_center_children(series, 8)])
            self.assertEqual((str(joined.dtype), joined.nunique()), (dtype, 343))
            for function in self.OVER_INDEXES:
                self.assertEqual((str(function(series).dtype), function(series).name), (dtype, "cell"))

    @unittest.skipIf(pandas is None, "pandas is not installed")
    def test_categories(self):
        """What is found need be none of the column's categories, so it has their type."""
        for dtype in ("int64", "uint64"):
            plain = pandas.Series(CHILDREN, dtype=dtype, name="cell")
            series = plain.astype("category")
            for function in (*self.OVER_INDEXES, columns.get_resolutions, columns.are_valid_cells, columns.int_to_str):
                pandas.testing.assert_series_equal(function(series), function(plain))
            with_missing = pandas.Series([CELL, None], dtype=object).astype("category")
            self.assertRaises(TypeError, columns.cells_to_parents, with_missing, 4, missing=True)

    @unittest.skipIf(numpy is None, "numpy is not installed")
    def test_shapes(self):
        column = numpy.array(CHILDREN[:6], dtype="int64").reshape(2, 3)
        for function in (columns.get_resolutions, columns.are_valid_cells, lambda it: columns.cells_to_parents(it, 4)):
            self.assertEqual(function(column).shape, (2, 3))
        self.assertEqual(columns.cells_to_parents(memoryview(column), 4).shape, (2, 3))
        self.assertEqual(columns.int_to_str(column).shape, (2, 3))
        self.assertEqual(columns.str_to_int(columns.int_to_str(column)).tolist(), column.tolist())

    @unittest.skipIf(numpy is None, "numpy is not installed")
    def test_masks(self):
        masked = numpy.ma.masked_array(numpy.array(CHILDREN, dtype="int64"), mask=[place % 2 for place in range(343)])
        for function in (*self.OVER_INDEXES, columns.get_resolutions, columns.are_valid_cells, columns.int_to_str):
            with self.assertRaisesRegex(TypeError, "mask"):
                function(masked)


class Missing(unittest.TestCase):
    OVER_RESOLUTIONS = [
        columns.cells_to_parents,
        columns.cells_to_center_children,
        columns.cells_to_last_children,
        columns.cells_to_children_sizes,
        columns.cells_to_child_positions,
    ]

    def test_resolutions_are_judged_first(self):
        for given in ([], [CELL], [5, CELL]):
            for res in (16, -1, 2**31, -(2**40)):
                for function in self.OVER_RESOLUTIONS:
                    for missing in (False, True):
                        self.assertEqual(
                            message(function, array("Q", given), res, missing=missing),
                            f"H3ResDomainError: error 4: E_RES_DOMAIN: resolution {res}",
                        )
                self.assertRaises(H3ResDomainError, columns.uncompact_cells, array("Q", given), res)

    @unittest.skipIf(pandas is None, "pandas is not installed")
    def test_missing_values(self):
        for dtype in ("Int64", "UInt64"):
            series = pandas.Series([CELL, pandas.NA, 0x8009FFFFFFFFFFF], dtype=dtype, index=list("abc"))
            self.assertIn("E_CELL_INVALID: 0 at place 1", message(columns.cells_to_parents, series, 0))
            found = columns.cells_to_parents(series, 0, missing=True)
            self.assertEqual((str(found.dtype), found.tolist()), (dtype, [0x8029FFFFFFFFFFF, 0, 0x8009FFFFFFFFFFF]))
            self.assertEqual(list(found.index), list("abc"))
            self.assertEqual(columns.get_resolutions(series, missing=True).tolist(), [5, -1, 0])
            self.assertEqual(columns.are_valid_cells(series).tolist(), [True, False, True])


class Texts(unittest.TestCase):
    TEXTS = [HEXAGON, " 0X8009FFFFFFFFFFF", "5"]
    NUMBERS = [CELL, 0x8009FFFFFFFFFFF, 5]

    def test_lists(self):
        self.assertEqual(columns.str_to_int(self.TEXTS), array("Q", self.NUMBERS))
        self.assertEqual(columns.str_to_int([text.encode() for text in self.TEXTS]), array("Q", self.NUMBERS))
        self.assertEqual(columns.int_to_str(array("Q", self.NUMBERS)), [HEXAGON, "8009fffffffffff", "5"])
        self.assertEqual(columns.int_to_str(memoryview(array("q", [-1]))), ["f" * 16])
        self.assertEqual((columns.str_to_int([]), columns.int_to_str(array("Q"))), (array("Q"), []))
        wrong = [HEXAGON, "xyz", None, "é", 5]
        self.assertEqual(message(columns.str_to_int, wrong), "H3FailedError: error 1: E_FAILED: 'xyz' at place 1")
        self.assertEqual(columns.str_to_int(wrong, missing=True), array("Q", [CELL, 0, 0, 0, 0]))
        self.assertRaises(TypeError, columns.str_to_int, HEXAGON)

    @unittest.skipIf(numpy is None, "numpy is not installed")
    def test_numpy(self):
        for dtype in ("S20", "U20", object):
            found = columns.str_to_int(numpy.array(self.TEXTS, dtype=dtype))
            self.assertEqual((found.dtype, found.tolist()), (numpy.dtype("uint64"), self.NUMBERS))
        texts = columns.int_to_str(numpy.array(self.NUMBERS, dtype="int64"))
        self.assertEqual((texts.dtype.kind, texts.tolist()), ("U", [HEXAGON, "8009fffffffffff", "5"]))
        self.assertEqual(columns.str_to_int(numpy.array([], dtype="U9")).tolist(), [])
        self.assertRaises(TypeError, columns.str_to_int, numpy.array([1.5]))

    @unittest.skipIf(pandas is None, "pandas is not installed")
    def test_pandas(self):
        for dtype in (object, "string"):
            series = pandas.Series(self.TEXTS, index=[7, 8, 9], name="cell", dtype=dtype)
            found = columns.str_to_int(series)
            self.assertEqual((found.tolist(), list(found.index), found.name), (self.NUMBERS, [7, 8, 9], "cell"))
        texts = columns.int_to_str(found)
        self.assertEqual(
            (texts.tolist(), list(texts.index), texts.name), ([HEXAGON, "8009fffffffffff", "5"], [7, 8, 9], "cell")
        )
        series[8] = None
        self.assertEqual(columns.str_to_int(series, missing=True).tolist(), [CELL, 0, 5])


class Errors(unittest.TestCase):
    """They name their values, with H3's number and name."""

    def test_of_one_index(self):
        for call, wanted in [
            (("str_to_int", "xyz"), "error 1: E_FAILED: 'xyz'"),
            (("get_resolution", "81087ffffffffff"), "error 5: E_CELL_INVALID: 81087ffffffffff"),
            (("is_pentagon", "0"), "error 5: E_CELL_INVALID: 0"),
            (("cell_to_parent", "81087ffffffffff", 16), "error 5: E_CELL_INVALID: 81087ffffffffff"),
            (("cell_to_parent", HEXAGON, 16), "error 4: E_RES_DOMAIN: 85283473fffffff at resolution 16"),
            (("cell_to_parent", HEXAGON, 6), "error 12: E_RES_MISMATCH: 85283473fffffff at resolution 6"),
            (("cell_to_children", HEXAGON, 4), "error 4: E_RES_DOMAIN: 85283473fffffff at resolution 4"),
            (("get_num_cells", 2**70), f"error 4: E_RES_DOMAIN: resolution {2**70}"),
            (("get_pentagons", 16), "error 4: E_RES_DOMAIN: resolution 16"),
            (
                ("child_pos_to_cell", "8009fffffffffff", 2, 41),
                "error 2: E_DOMAIN: position 41 in 8009fffffffffff at resolution 2",
            ),
            (("get_directed_edge_origin", HEXAGON), "error 6: E_DIR_EDGE_INVALID: 85283473fffffff"),
            (("origin_to_directed_edges", "5"), "error 5: E_CELL_INVALID: 5"),
            (("compact_cells", [HEXAGON, "5"]), "error 5: E_CELL_INVALID: 5 at place 1"),
            (
                ("compact_cells", [HEXAGON, HEXAGON]),
                f"error 10: E_DUPLICATE_INPUT: among 2 cells: {HEXAGON} at place 1 overlaps {HEXAGON} at place 0",
            ),
            (("compact_cells", [HEXAGON, "xyz"]), "error 1: E_FAILED: 'xyz' at place 1"),
            (("uncompact_cells", [HEXAGON, HEXAGON, "é"], 9), "error 1: E_FAILED: 'é' at place 2"),
            (
                ("uncompact_cells", ["8009fffffffffff", HEXAGON], 4),
                "error 12: E_RES_MISMATCH: 85283473fffffff at place 1, at resolution 4",
            ),
            (("uncompact_cells", [HEXAGON, "5"], 9), "error 5: E_CELL_INVALID: 5 at place 1"),
        ]:
            self.assertEqual(message(getattr(h3whole, call[0]), *call[1:]).split(": ", 1)[1], wanted)

    def test_of_columns(self):
        for call, wanted in [
            ((columns.get_resolutions, [CELL, 5]), "error 5: E_CELL_INVALID: 5 at place 1"),
            (
                (columns.cells_to_parents, [CELL], 6),
                "error 12: E_RES_MISMATCH: 85283473fffffff at place 0, at resolution 6",
            ),
            ((columns.compact_cells, [CELL, 5]), "error 5: E_CELL_INVALID: 5 at place 1"),
            (
                (columns.compact_cells, [CELL, CELL]),
                f"error 10: E_DUPLICATE_INPUT: among 2 cells: {HEXAGON} at place 1 overlaps {HEXAGON} at place 0",
            ),
            (
                (columns.uncompact_cells, [0x8009FFFFFFFFFFF, CELL], 4),
                "error 12: E_RES_MISMATCH: 85283473fffffff at place 1, at resolution 4",
            ),
        ]:
            self.assertEqual(message(call[0], array("Q", call[1]), *call[2:]).split(": ", 1)[1], wanted)

    def test_hints(self):
        self.assertIn("h3whole itself", message(integers.get_resolution, HEXAGON))
        self.assertIn("h3whole.int", message(h3whole.get_resolution, CELL))
        if numpy is not None:
            given = numpy.array(CHILDREN, dtype="uint64")
            self.assertIn("numpy.ascontiguousarray(column)", message(columns.get_resolutions, given[::2]))
            self.assertIn("astype('uint64')", message(columns.get_resolutions, given.astype("int32")))
            given = numpy.array([HEXAGON, CELL, None], dtype=object)
            self.assertIn("str_to_int(column, missing=True)", message(columns.int_to_str, given))
            self.assertEqual(columns.str_to_int(given, missing=True).tolist(), [CELL, CELL, 0])
            self.assertIn("str_to_int", message(columns.int_to_str, numpy.array([HEXAGON])))
            given = numpy.array(CHILDREN, dtype="uint64")
            self.assertEqual(columns.get_resolutions(numpy.ascontiguousarray(given[::2])).tolist(), [8] * 172)


class Refused(unittest.TestCase):
    def test_values(self):
        """A text that parses as no index is a wrong value, as a cell that is none."""
        for call in (h3whole.get_resolution, h3whole.str_to_int, h3whole.compact_cells):
            given = ["xyz"] if call is h3whole.compact_cells else "xyz"
            with self.assertRaises(ValueError) as caught:
                call(given)
            self.assertIsInstance(caught.exception, (h3whole.H3FailedError, h3whole.H3GridNavigationError))

    def test_one_text(self):
        """A text in the place of a list."""
        for module in (h3whole, integers):
            for call in (
                module.compact_cells,
                lambda cells, module=module: module.uncompact_cells(cells, 9),
                module.Region,
                module.Zones,
            ):
                for text in (HEXAGON, HEXAGON.encode(), ""):
                    self.assertEqual(message(call, text), f"TypeError: cells are wanted, and not one text: {text!r}")

    def test_no_resolution(self):
        for function in Missing.OVER_RESOLUTIONS + [columns.uncompact_cells]:
            self.assertEqual(
                message(function, array("Q", [CELL]), None), "TypeError: res: a whole number is wanted, and not None"
            )
            self.assertRegex(message(function, array("Q", [CELL])), "missing 1 required positional argument: 'res'")

    def test_memory(self):
        """Want of memory says for how many items."""
        for call in (integers.cell_to_children, lambda cell, res: integers.uncompact_cells([cell], res)):
            self.assertEqual(
                message(call, 0x8001FFFFFFFFFFF, 15),
                f"H3MemoryAllocError: error 13: E_MEMORY_ALLOC: {7**15} items",
            )
        self.assertEqual(
            message(columns.uncompact_cells, array("Q", [0x8001FFFFFFFFFFF]), 15),
            f"H3MemoryAllocError: error 13: E_MEMORY_ALLOC: {7**15} items",
        )
        if numpy is not None:
            self.assertEqual(
                message(columns.uncompact_cells, numpy.array([0x8001FFFFFFFFFFF], dtype="uint64"), 15),
                f"H3MemoryAllocError: error 13: E_MEMORY_ALLOC: {7**15} items",
            )


class Overlaps(unittest.TestCase):
    """Of cells that overlap, the first that overlaps an earlier one is named, and the first that it overlaps."""

    def check(self, cells):
        """Against each pair, in the order of their places."""
        pairs = ((later, earlier) for later in range(len(cells)) for earlier in range(later))
        found = next(((b, a) for b, a in pairs if plain.overlap(cells[a], cells[b])), None)
        numbers = list(map(plain.number_of, cells))
        wanted = "none"
        if found:
            later, earlier = (f"{numbers[place]:x} at place {place}" for place in found)
            wanted = f"error 10: E_DUPLICATE_INPUT: among {len(cells)} cells: {later} overlaps {earlier}"
        for call, given in (
            (integers.compact_cells, numbers),
            (h3whole.compact_cells, list(map(integers.int_to_str, numbers))),
            (columns.compact_cells, array("Q", numbers)),
            (columns.compact_cells, memoryview(array("q", numbers))),
            (integers.Zones, numbers),
            (h3whole.Zones, array("Q", numbers)),
        ):
            self.assertEqual(message(call, given).split(": ", 1)[-1], wanted)
        return found

    def test_worked(self):
        zero, one, two = (4, ()), (4, (2,)), (4, (2, 3))
        other, pentagon = (4, (3, 3)), (4, (0,))
        for cells, found in (
            ([zero, other], (1, 0)),
            ([two, other, zero], (2, 0)),
            ([other, two, zero, one], (2, 0)),
            ([pentagon, two, other, one], (3, 1)),
            ([two, other, one, one], (2, 0)),
            ([other, pentagon, pentagon], (2, 1)),
            ([other, pentagon, two], None),
        ):
            self.assertEqual(self.check(cells), found)

    def test_memory(self):
        with mock.patch.object(h3whole._overlap, "_find_overlap", return_value=13):
            self.assertEqual(
                message(integers.Zones, [CELL, CELL]),
                "H3DuplicateInputError: error 10: E_DUPLICATE_INPUT: among 2 cells",
            )

    def test_random(self):
        chance = plain.seeded(5)
        found = [self.check(plain.random_cells(chance, chance.randrange(25))) for _ in range(300)]
        self.assertGreater(sum(pair is not None for pair in found), 100)
        self.assertGreater(found.count(None), 10)


class Rounded(unittest.TestCase):
    """No hint leads from what is no integer to cells: a float has lost digits already."""

    ADVICE = "read the column as text; a float has lost digits already"

    OVER_COLUMNS = [columns.get_resolutions, columns.int_to_str, columns.compact_cells]

    def check(self, *refused, functions=(*OVER_COLUMNS, h3whole.Region, integers.Zones)):
        for column in refused:
            for function in functions:
                said = message(function, column)
                self.assertTrue(said.startswith("TypeError: "), said)
                self.assertIn(self.ADVICE, said)
                self.assertNotIn("astype", said)
                self.assertNotIn("cast(", said)

    def test_arrays(self):
        self.check(array("d", [CELL]), array("f", [1.0]), memoryview(array("d", [CELL])))

    @unittest.skipIf(numpy is None, "numpy is not installed")
    def test_numpy(self):
        numbers = numpy.array([CELL, PARENT])
        dates = numpy.array(["2024-02-29"], dtype="datetime64[ns]")
        self.check(numbers.astype("float64"), numbers.astype("float32"), numbers > 0, dates, dates - dates)

    @unittest.skipIf(pandas is None, "pandas is not installed")
    def test_pandas(self):
        """A column of integers with a gap, as pandas reads it, and others that are no integers."""
        fine = integers.cell_to_center_child(CELL, 15) + 1
        lines = f"cell,name\n{fine},a\n,b\n"
        read = pandas.read_csv(io.StringIO(lines))["cell"]
        self.assertEqual(str(read.dtype), "float64")
        self.assertNotEqual(int(read[0]), fine)
        dates = pandas.to_datetime(pandas.Series(["2024-02-29"]))
        self.check(read, read.astype("Float64"), read > 0, dates)
        # (a region takes categories as objects, and names the one that is no index)
        self.check(read.astype("category"), dates.astype("category"), functions=self.OVER_COLUMNS)
        self.assertEqual(
            message(h3whole.Region, read.astype("category")),
            f"H3FailedError: error 1: E_FAILED: {read[0]!r} at place 0",
        )
        # (as UInt64 or Int64 with a gap, pandas 1.5 reads floats too, and says nothing)
        texts = pandas.read_csv(io.StringIO(lines), dtype={"cell": "string"})["cell"]
        self.assertEqual(texts[0], str(fine))
        texts = pandas.read_csv(io.StringIO(f"cell,name\n{fine:x},a\n,b\n"), dtype={"cell": "string"})["cell"]
        self.assertEqual(columns.str_to_int(texts, missing=True).tolist(), [fine, 0])


class Tables(unittest.TestCase):
    def test_order_of_h3_py(self):
        program = (
            "import h3whole, h3whole.int, sys\n"
            "try: h3whole.grid_disk_unsafe('85283473fffffff', 1)\n"
            "except TypeError as error: assert 'use_table' in str(error), error\n"
            "h3whole.use_table(h3whole.Table(sys.stdin.buffer.read()))\n"
            "assert h3whole.grid_disk_unsafe('85283473fffffff', 1) == sys.argv[1:], 1\n"
            "assert h3whole.int.grid_disk_unsafe(0x85283473fffffff, k=0) == [0x85283473fffffff]\n"
            "assert h3whole.grid_ring_unsafe(origin='85283473fffffff', k=0) == ['85283473fffffff']\n"
            "assert h3whole.are_neighbor_cells(*sys.argv[1:3])\n"
            "edge = h3whole.cells_to_directed_edge(*sys.argv[1:3])\n"
            "assert h3whole.get_directed_edge_destination(edge) == sys.argv[2]\n"
            "try: h3whole.grid_disk_unsafe('no table', '85283473fffffff', 1)\n"
            "except TypeError as error: assert 'a table is wanted' in str(error), error\n"
        )
        ran = subprocess.run(
            [sys.executable, "-c", program, *DISK], input=table_file(), capture_output=True, check=False
        )
        self.assertEqual((ran.returncode, ran.stderr), (0, b""))

    def test_values_of_errors(self):
        table = h3whole.Table(table_file())
        for call, wanted in {
            ("grid_disk_unsafe", "8009fffffffffff", 1): "error 9: E_PENTAGON: 1 steps from 8009fffffffffff",
            ("grid_ring_unsafe", HEXAGON, -1): "error 2: E_DOMAIN: -1 steps from 85283473fffffff",
            ("grid_disk_distances_unsafe", "5", 1): "error 5: E_CELL_INVALID: 5",
            ("are_neighbor_cells", HEXAGON, "5"): "error 5: E_CELL_INVALID: 5",
            (
                "cells_to_directed_edge",
                HEXAGON,
                HEXAGON,
            ): "error 11: E_NOT_NEIGHBORS: 85283473fffffff and 85283473fffffff",
            ("get_directed_edge_destination", HEXAGON): "error 6: E_DIR_EDGE_INVALID: 85283473fffffff",
        }.items():
            self.assertEqual(message(getattr(h3whole, call[0]), table, *call[1:]).split(": ", 1)[1], wanted)


class Speed(unittest.TestCase):
    def test_a_text(self):
        """`cell_to_parent` of a text takes little more than its three calls of the library: the best of many times."""
        given = HEXAGON.encode()

        def bare():
            index, room = ctypes.c_uint64(), (ctypes.c_char * 17)()
            at = ctypes.byref(index)
            integers._string_to_h3(given, 15, at)
            integers._cell_to_parent(index, 4, at)
            integers._h3_to_string(index, room, 17)
            return room.value.decode()

        self.assertEqual((bare(), h3whole.cell_to_parent(HEXAGON, 4)), ("8428347ffffffff",) * 2)
        best = {bare: float("inf"), lambda: h3whole.cell_to_parent(HEXAGON, 4): float("inf")}
        for _ in range(1500):
            for call in best:
                best[call] = min(best[call], timeit.timeit(call, number=100))
        plain, whole = best.values()
        self.assertLess(whole / plain, 1.4, f"{whole * 1e4:.2f} us, and the calls {plain * 1e4:.2f}")


class Names(unittest.TestCase):
    def test_star(self):
        names = {}
        exec("from h3whole import *", names)
        self.assertIs(names.get("int", int), int)
        self.assertFalse(
            [name for name in names if name in ("array", "ctypes", "annotations", "Any", "functools", "typing")]
        )
        for module in (h3whole, integers, columns, h3whole.parts, h3whole.errors, h3whole.table):
            names = {}
            exec(f"from {module.__name__} import *", names)
            public = {name for name in names if not name.startswith("__")}
            self.assertEqual(public, set(module.__all__), module.__name__)
            for name in public:
                found = getattr(module, name)
                self.assertTrue(found.__module__.startswith("h3whole"), name)
                self.assertTrue(found.__doc__ or issubclass(found, Exception), name)
        self.assertIn("H3CellInvalidError", h3whole.__all__)

    def test_own_names(self):
        for module in (h3whole, integers, columns):
            for name in module.__all__:
                function = getattr(module, name)
                if inspect.isfunction(function) and name != "use_table":
                    self.assertEqual(function.__name__, name)
                    if module is not h3whole or name not in ("int_to_str", "str_to_int"):
                        self.assertEqual(function.__module__, module.__name__)
                    self.assertIs(pickle.loads(pickle.dumps(function)), function)

    def test_annotations(self):
        """The module `h3whole.int` is no type, which Python 3.9 and 3.10 refuse at import."""
        for module in (h3whole, integers, columns, h3whole.regions):
            functions = [one for one in vars(module).values() if inspect.isfunction(one) or inspect.isclass(one)]
            functions += [one for kind in functions for one in vars(kind).values() if inspect.isfunction(one)]
            self.assertGreater(len(functions), 20)
            for function in functions:
                self.assertNotIn("<module", repr(getattr(function, "__annotations__", {})), function)

    def test_docstrings(self):
        self.assertIn("text", h3whole.cell_to_parent.__doc__)
        self.assertNotIn("text", integers.cell_to_parent.__doc__)
        self.assertIn("text", h3whole.is_valid_cell.__doc__)
        self.assertIn("number", integers.is_valid_cell.__doc__)


if __name__ == "__main__":
    unittest.main()
