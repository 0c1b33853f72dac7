"""The functions over columns: of each kind, against those over one index."""

import random
import unittest
from array import array

import h3whole.columns as columns
import h3whole.errors as errors
import h3whole.int as integers

try:
    import numpy
except ImportError:
    numpy = None
try:
    import pandas
except ImportError:
    pandas = None

INVALID = [0, 0x81087FFFFFFFFFF, 2**64 - 1, 0x115283473FFFFFFF]


def cells(count, seed=1):
    """Cells of all resolutions, by their positions."""
    chance = random.Random(seed)
    bases = integers.get_res0_cells()
    found = []
    for _ in range(count):
        base, res = chance.choice(bases), chance.randrange(16)
        position = chance.randrange(integers.cell_to_children_size(base, res))
        found.append(integers.child_pos_to_cell(base, res, position))
    return found


def one_by_one(function, items, *more):
    """What a function over one index returns for each, and the first error with its place."""
    found, first = [], None
    for place, item in enumerate(items):
        try:
            found.append(function(item, *more))
        except errors.H3BaseException as error:
            found.append(None)
            first = first or (error.number, place)
    return found, first


FUNCTIONS = [
    (columns.get_resolutions, integers.get_resolution, (), -1),
    (columns.get_base_cell_numbers, integers.get_base_cell_number, (), -1),
    (columns.cells_to_parents, integers.cell_to_parent, (4,), 0),
    (columns.cells_to_center_children, integers.cell_to_center_child, (9,), 0),
    (columns.cells_to_last_children, integers.cell_to_last_child, (9,), 0),
    (columns.cells_to_children_sizes, integers.cell_to_children_size, (15,), -1),
    (columns.cells_to_child_positions, integers.cell_to_child_pos, (3,), -1),
]


def outcome(function, column, missing):
    """What a call returns, or its error."""
    try:
        found = function(column, missing=missing) if function is columns.str_to_int else function(column, missing)
        return found.tolist(), str(found.dtype), found.shape, found.flags.writeable
    except Exception as error:
        return type(error), str(error)


class OneByOne(unittest.TestCase):
    def test_results(self):
        given = cells(2000) + INVALID
        random.Random(2).shuffle(given)
        for over_column, over_one, more, missing in FUNCTIONS:
            wanted, first = one_by_one(over_one, given, *more)
            found = over_column(array("Q", given), *more, missing=True)
            self.assertEqual(list(found), [missing if one is None else one for one in wanted])
            with self.assertRaises(errors.H3BaseException) as caught:
                over_column(array("Q", given), *more)
            self.assertEqual(caught.exception.number, first[0])
            self.assertIn(f"at place {first[1]}", str(caught.exception))

    def test_tests(self):
        given = cells(500) + INVALID
        self.assertEqual(list(columns.are_valid_cells(array("Q", given))), [1] * 500 + [0] * 4)
        self.assertEqual(list(columns.are_valid_directed_edges(array("Q", given))), [0] * 503 + [1])
        given = cells(500) + integers.get_pentagons(3)
        self.assertEqual(list(columns.are_pentagons(array("Q", given))), [integers.is_pentagon(c) for c in given])
        self.assertEqual(
            list(columns.are_res_class_III(array("Q", given))), [integers.is_res_class_III(c) for c in given]
        )

    def test_edges(self):
        edges = integers.origin_to_directed_edges(0x85283473FFFFFFF)
        self.assertEqual(list(columns.get_directed_edge_origins(array("Q", edges))), [0x85283473FFFFFFF] * 6)

    def test_sets(self):
        children = array("Q", integers.cell_to_children(0x85283473FFFFFFF, 9))
        compacted = columns.compact_cells(children)
        self.assertEqual(compacted, array("Q", [0x85283473FFFFFFF]))
        self.assertEqual(columns.uncompact_cells(compacted, 9), children)
        self.assertRaises(errors.H3DuplicateInputError, columns.compact_cells, array("Q", [children[0]] * 2))
        self.assertRaises(errors.H3CellInvalidError, columns.uncompact_cells, array("Q", INVALID), 9)
        self.assertRaises(errors.H3ResMismatchError, columns.uncompact_cells, children, 8)

    def test_children(self):
        """The children of each cell are between two starts; those of what is refused are none."""
        given = [cell for cell in cells(300) if integers.get_resolution(cell) > 3] + INVALID
        random.Random(3).shuffle(given)
        wanted, first = one_by_one(integers.cell_to_children, given, 6)
        children, starts = columns.cells_to_children(array("Q", given), 6, missing=True)
        self.assertEqual((children.typecode, starts.typecode, len(starts)), ("Q", "q", len(given) + 1))
        self.assertEqual((starts[0], starts[-1]), (0, len(children)))
        for place, own in enumerate(wanted):
            self.assertEqual(children[starts[place] : starts[place + 1]].tolist(), own or [])
        with self.assertRaises(errors.H3BaseException) as caught:
            columns.cells_to_children(array("Q", given), 6)
        self.assertEqual(caught.exception.number, first[0])
        self.assertIn(f"at place {first[1]}", str(caught.exception))

    def test_children_of_many(self):
        """Of cells that have no memory for their children, or more than a place of 64 bits counts."""
        for count in (1, 2 * 10**6):
            with self.assertRaises(errors.H3MemoryAllocError):
                columns.cells_to_children(array("Q", [0x8029FFFFFFFFFFF]) * count, 15)
        base = array("Q", [0x8029FFFFFFFFFFF]) * (2 * 10**6)
        with self.assertRaisesRegex(errors.H3MemoryAllocError, f"8029fffffffffff at place {(2**63 - 1) // 7**15}"):
            columns.cells_to_children(base, 15, missing=True)

    def test_resolutions(self):
        given = array("Q", cells(10))
        for res in (16, -1, 2**31, -(2**31) - 1):
            self.assertRaises(errors.H3ResDomainError, columns.cells_to_parents, given, res)
            self.assertRaises(errors.H3ResDomainError, columns.cells_to_children, array("Q"), res)
            self.assertRaises(errors.H3ResDomainError, columns.cells_to_children, ["xyz"], res, missing=True)


class Kinds(unittest.TestCase):
    def test_arrays(self):
        for typecode in "QqLl":
            column = array(typecode, cells(5))
            self.assertIsInstance(columns.cells_to_parents(column, 0), array)
        self.assertEqual(columns.cells_to_parents(array("Q"), 15), array("Q"))
        self.assertEqual(columns.compact_cells(array("Q")), array("Q"))
        for column in (array("I", [1]), array("d", [1.0]), b"12345678", "text", None, 5, {1}):
            self.assertRaises(TypeError, columns.get_resolutions, column)

    def test_memoryviews(self):
        given = array("Q", cells(6))
        for column in (memoryview(given), memoryview(given).toreadonly(), memoryview(given.tobytes()).cast("Q")):
            found = columns.cells_to_parents(column, 0)
            self.assertIsInstance(found, memoryview)
            self.assertEqual(list(found), [integers.cell_to_parent(cell, 0) for cell in given])
        self.assertRaises(TypeError, columns.get_resolutions, memoryview(given)[::2])

    @unittest.skipIf(numpy is None, "numpy is not installed")
    def test_numpy(self):
        given = numpy.array(cells(100), dtype="uint64")
        found = columns.cells_to_parents(given, 0)
        self.assertEqual((type(found), found.dtype), (numpy.ndarray, numpy.dtype("uint64")))
        self.assertEqual(found.tolist(), [integers.cell_to_parent(int(cell), 0) for cell in given])
        self.assertEqual(columns.are_valid_cells(given).dtype, numpy.dtype(bool))
        self.assertTrue(columns.are_valid_cells(given.astype("int64")).all())
        given.flags.writeable = False
        self.assertEqual(columns.cells_to_parents(given, 0).tolist(), found.tolist())
        self.assertEqual(columns.cells_to_parents(given[:0], 0).tolist(), [])
        self.assertRaises(TypeError, columns.get_resolutions, given.astype("float64"))
        self.assertRaises(TypeError, columns.get_resolutions, given.astype(">u8"))
        self.assertRaises(TypeError, columns.get_resolutions, given[::2])

    @unittest.skipIf(numpy is None, "numpy is not installed")
    def test_objects(self):
        """A column of objects has texts, integers and None: what is found of each has the form of its cell."""
        given = cells(20)
        items = [cell if place % 3 else f"{cell:x}" for place, cell in enumerate(given)]
        refused = [None, float("nan"), 1.5, "xyz", -1, 2**64]
        for column, listed in self.of_objects([*items, *refused, 5]):
            numbers = array("Q", given + [0] * len(refused) + [5])
            for function, _, more, missing in FUNCTIONS:
                wanted = list(function(numbers, *more, missing=True))
                if not missing:
                    rows = zip(wanted, [*items, *refused, 5])
                    wanted = [(f"{cell:x}" if isinstance(item, str) else cell) if cell else None for cell, item in rows]
                found = listed(function(column, *more, missing=True))
                self.assertEqual(found, wanted, (type(column), function))
                self.assertRaisesRegex(errors.H3FailedError, "None at place 20", function, column, *more)
            self.assertEqual(listed(columns.are_valid_cells(column, missing=True)), [True] * 20 + [False] * 7)
            self.assertEqual(listed(columns.str_to_int(column, missing=True)), list(numbers))
            self.assertRaisesRegex(errors.H3FailedError, "None at place 20", columns.str_to_int, column)
        children = integers.cell_to_children(0x85283473FFFFFFF, 6)
        for column, listed in self.of_objects([children[0], f"{children[1]:x}", None]):
            found, starts = columns.cells_to_children(column, 7, missing=True)
            wanted = [integers.cell_to_children(child, 7) for child in children[:2]]
            self.assertEqual(listed(found), wanted[0] + [f"{child:x}" for child in wanted[1]])
            self.assertEqual((type(found), list(starts)), (type(column), [0, 7, 14, 14]))
        for column, listed in self.of_objects(children):
            self.assertEqual(listed(columns.compact_cells(column)), [0x85283473FFFFFFF])
            self.assertEqual(listed(columns.uncompact_cells(columns.compact_cells(column), 6)), children)
            self.assertRaisesRegex(TypeError, "str_to_int.column, missing=True.", columns.int_to_str, column)
        for column, _ in self.of_objects([children[0], f"{children[1]:x}"]):
            self.assertRaisesRegex(TypeError, "not of both", columns.compact_cells, column)

    def of_objects(self, items):
        """Columns of these objects, and what makes a list of each."""
        column = numpy.empty(len(items), dtype=object)
        column[:] = items
        yield column, numpy.ndarray.tolist
        if pandas is not None:
            yield pandas.Series(items, dtype=object), pandas.Series.tolist
            yield pandas.Index(items, dtype=object), pandas.Index.tolist

    def forms(self, texts):
        """Columns of these texts, and what makes a list of each."""
        yield texts, list
        yield tuple(texts), list
        if numpy is not None:
            yield numpy.array(texts, dtype=object), numpy.ndarray.tolist
            yield numpy.array([text.encode() for text in texts]), numpy.ndarray.tolist
            yield numpy.array(texts), numpy.ndarray.tolist
        if pandas is not None:
            for dtype in (object, "string", "category"):
                yield pandas.Series(texts, dtype=dtype), pandas.Series.tolist
            yield pandas.Index(texts), pandas.Index.tolist

    def test_texts(self):
        """Of a column of texts, of any kind, each function finds what it finds of the integers; indexes are texts."""
        given = cells(50)
        for column, listed in self.forms([f"{cell:x}" for cell in given]):
            for function, _, more, missing in FUNCTIONS:
                wanted = list(function(array("Q", given), *more, missing=True))
                if not missing:
                    wanted = [f"{index:x}" if index else None for index in wanted]
                found = function(column, *more, missing=True)
                self.assertEqual(listed(found), wanted, (type(column), function))
                self.assertIsInstance(found, list if isinstance(column, tuple) else type(column))
            self.assertEqual(listed(columns.are_valid_cells(column)), [True] * 50)
            self.assertIs(listed(columns.are_valid_cells(column))[0], True)
            self.assertRaises(errors.H3ResDomainError, columns.cells_to_parents, column, 16)
        children = integers.cell_to_children(0x85283473FFFFFFF, 6)
        for column, listed in self.forms([f"{cell:x}" for cell in children]):
            self.assertEqual(listed(columns.compact_cells(column)), ["85283473fffffff"])
            self.assertEqual(
                listed(columns.uncompact_cells(columns.compact_cells(column), 6)), [f"{c:x}" for c in children]
            )
            self.assertRaises(errors.H3ResDomainError, columns.uncompact_cells, column, 16)

    @unittest.skipIf(numpy is None, "there is no numpy")
    def test_fixed(self):
        """Texts and bytes of numpy, of any width and order of bytes, are read as objects are that have them."""
        given = [f"{cell:x}" for cell in cells(6)]
        odd = ["", "xyz", f" {given[0]}", given[0].upper(), f"0x{given[0]}", "5", "x\0y", "\u00e9", "\udc80", "1" * 17]
        for item in [*given[:1], *odd]:
            texts = numpy.array([*given[:3], item, *given[3:], *odd[:2]])
            for dtype in ("<U15", ">U15", "<U40", ">U40", "S15", "S40"):
                try:
                    column = texts.astype(dtype)
                except UnicodeEncodeError:
                    continue
                shaped = column[:8].reshape(2, 4)
                for kind in (column, column[:6], column[::-2], shaped, shaped.T, column[:1].reshape(()), column[:0]):
                    for missing in (True, False):
                        found, wanted = (outcome(columns.str_to_int, of, missing) for of in (kind, kind.astype(object)))
                        self.assertEqual(found, wanted, (kind, missing))
        # (of what is beyond Unicode, numpy makes a text that is none, or an error)
        beyond = numpy.array(given[:2])
        beyond.view("u4")[3] = 2**32 - 1
        for missing in (True, False):
            wanted = outcome(
                lambda column, missing: columns.str_to_int(column.astype(object), missing=missing), beyond, missing
            )
            self.assertEqual(outcome(columns.str_to_int, beyond, missing), wanted)
        masked = numpy.ma.masked_array(numpy.array(given), mask=[0, 1, 0, 0, 0, 0])
        self.assertEqual(columns.str_to_int(masked, missing=True).tolist()[:2], [int(given[0], 16), 0])

    def test_children(self):
        """Children are of the kind of the column, and texts of texts."""
        given = integers.cell_to_children(0x85283473FFFFFFF, 6)[:2]
        wanted = [child for cell in given for child in integers.cell_to_children(cell, 7)]
        for column, listed in self.forms([f"{cell:x}" for cell in given]):
            children, starts = columns.cells_to_children(column, 7)
            self.assertEqual(listed(children), [f"{child:x}" for child in wanted])
            self.assertIsInstance(children, list if isinstance(column, tuple) else type(column))
            self.assertEqual(list(starts), [0, 7, 14])
        children, starts = columns.cells_to_children(memoryview(array("q", given)), 7)
        self.assertEqual((children.format, starts.format), ("q", "q"))
        self.assertEqual((children.tolist(), starts.tolist()), (wanted, [0, 7, 14]))
        self.assertEqual(columns.cells_to_children([], 7), ([], [0]))
        self.assertEqual(columns.cells_to_children(array("Q"), 7), (array("Q"), array("q", [0])))
        mixed = [given[0], None, f"{given[1]:x}", "xyz", 5]
        found = columns.cells_to_children(mixed, 7, missing=True)
        self.assertEqual(found, (wanted[:7] + [f"{child:x}" for child in wanted[7:]], [0, 7, 7, 14, 14, 14]))

    @unittest.skipIf(numpy is None, "numpy is not installed")
    def test_children_of_numpy(self):
        given = numpy.array(integers.cell_to_children(0x85283473FFFFFFF, 6), dtype="uint64")
        children, starts = columns.cells_to_children(given, 8)
        self.assertEqual((children.dtype, starts.dtype), (given.dtype, numpy.dtype("int64")))
        self.assertEqual(starts.tolist(), list(range(0, 7 * 49 + 1, 49)))
        parents = columns.cells_to_parents(children, 6)
        self.assertTrue((parents == numpy.repeat(given, starts[1:] - starts[:-1])).all())
        children, starts = columns.cells_to_children(given[:6].reshape(2, 3), 7)
        self.assertEqual((children.shape, starts.shape), ((42,), (7,)))

    @unittest.skipIf(pandas is None, "pandas is not installed")
    def test_explode(self):
        """A Series of lists, exploded, is the Series of children."""
        given = [0x85283473FFFFFFF, 0x8009FFFFFFFFFFF, 0x85283473FFFFFFF]
        own = [integers.cell_to_children(cell, 5) for cell in given]
        for dtype in ("uint64", "int64", "UInt64"):
            column = pandas.Series(given, index=["x", "y", "x"], name="cell", dtype=dtype)
            lists = pandas.Series(own, index=column.index, name="cell")
            children, starts = columns.cells_to_children(column, 5)
            pandas.testing.assert_series_equal(children, lists.explode().astype(dtype))
            self.assertEqual(starts.tolist(), [0, 1, 14007, 14008])
        frame = pandas.DataFrame({"cell": given, "own": own})
        children, starts = columns.cells_to_children(frame["cell"], 5)
        found = frame.loc[frame.index.repeat(starts[1:] - starts[:-1])].assign(child=children)
        wanted = frame.explode("own")
        self.assertEqual(found["child"].tolist(), wanted["own"].tolist())
        self.assertEqual(found["cell"].tolist(), wanted["cell"].tolist())
        column = pandas.Series([given[0], None], dtype="UInt64")
        children, starts = columns.cells_to_children(column, 6, missing=True)
        self.assertEqual((children.index.tolist(), starts.tolist()), ([0] * 7, [0, 7, 7]))
        self.assertRaises(errors.H3CellInvalidError, columns.cells_to_children, column, 6)

    def test_lists(self):
        cell, text = 0x85283473FFFFFFF, "85283473fffffff"
        self.assertEqual(columns.cells_to_parents([cell, text], 4), [0x8428347FFFFFFFF, "8428347ffffffff"])
        self.assertEqual(columns.get_resolutions([cell, 5, None, "xyz"], missing=True), [5, -1, -1, -1])
        self.assertEqual(
            columns.cells_to_parents([cell, 5, None, "5"], 4, missing=True), [0x8428347FFFFFFFF, 0, None, None]
        )
        self.assertEqual(columns.compact_cells(integers.cell_to_children(cell, 6)), [cell])
        self.assertEqual((columns.compact_cells([]), columns.are_valid_cells([])), ([], []))
        self.assertEqual(columns.int_to_str([cell, 5]), [text, "5"])
        self.assertRaises(TypeError, columns.compact_cells, [cell, text])
        self.assertRaisesRegex(errors.H3FailedError, "'xyz' at place 1", columns.get_resolutions, [text, "xyz"])
        self.assertRaisesRegex(errors.H3CellInvalidError, "5 at place 1", columns.get_resolutions, [text, "5"])

    @unittest.skipIf(pandas is None, "pandas is not installed")
    def test_index(self):
        """An Index of pandas gives an Index."""
        given = cells(20)
        index = pandas.Index(numpy.array(given, dtype="uint64"), name="cell")
        found = columns.cells_to_parents(index, 0)
        self.assertEqual((type(found), found.name, found.dtype), (type(index), "cell", index.dtype))
        self.assertEqual(found.tolist(), [integers.cell_to_parent(cell, 0) for cell in given])
        self.assertEqual(columns.int_to_str(index).tolist(), [f"{cell:x}" for cell in given])
        self.assertEqual(columns.compact_cells(index[:1]).tolist(), given[:1])
        self.assertTrue(columns.are_valid_cells(index).all())
        # (of integers beside None pandas would make floats)
        index = pandas.Index([0x862834707FFFFFF, None], dtype=object)
        found, series = (columns.cells_to_parents(of, 5, missing=True) for of in (index, pandas.Series(index)))
        self.assertEqual((found.dtype, found.tolist()), (object, series.tolist()))
        self.assertEqual(found[0], 0x85283473FFFFFFF)

    def test_truths(self):
        """A truth is 1 or 0 in a byte, of what is refused 0."""
        pentagon = integers.get_pentagons(3)[0]
        given = array("Q", [pentagon, 0x85283473FFFFFFF, 5, pentagon])
        found = columns.are_pentagons(given, missing=True)
        self.assertEqual((found.typecode, found.tolist()), ("b", [1, 0, 0, 1]))

    @unittest.skipIf(pandas is None, "pandas is not installed")
    def test_pandas(self):
        frame = pandas.DataFrame({"cell": numpy.array(cells(100), dtype="uint64")}, index=range(100, 200))
        frame["parent"] = columns.cells_to_parents(frame["cell"], 0)
        self.assertEqual(list(frame["parent"].index), list(range(100, 200)))
        counted = frame.groupby("parent").size()
        self.assertEqual(counted.sum(), 100)
        for parent in counted.index:
            self.assertEqual(integers.get_resolution(int(parent)), 0)


if __name__ == "__main__":
    unittest.main()
