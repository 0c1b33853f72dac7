"""Columns by Arrow's C data interface, in and out, against a plain producer and consumer."""

import ctypes
import gc
import random
import threading
import unittest
from array import array

import h3whole
import h3whole._fast
import h3whole.columns as columns
import h3whole.errors as errors
import h3whole.int as integers
import h3whole.parts as parts
import plain_arrow
from plain_arrow import ArrayProducer, StreamProducer, consume_array, consume_stream

HAS_EXTENSION = h3whole._fast.native is not None
CELL, TEXT = 0x85283473FFFFFFF, "85283473fffffff"
PARENT = 0x8428347FFFFFFFF
CELLS = integers.cell_to_children(CELL, 7)
INVALID = 0x81087FFFFFFFFFF


def with_nulls(items, seed=1):
    """Items, of which some are nulls."""
    chance = random.Random(seed)
    return [None if chance.random() < 0.3 else item for item in items]


def kinds(items):
    """Producers of these items: arrays, streams and tables, with an offset and without."""
    third = len(items) // 3
    for kind in "Ll":
        for offset in (0, 1, 8, 13):
            for null_count in (None, -1):
                how = {"offset": offset, "null_count": null_count}
                yield ArrayProducer(kind, items, **how)
                yield ArrayProducer(kind, items, as_struct=True, **how)
                yield StreamProducer(kind, items, **how)
                yield StreamProducer(kind, items[:third], [], items[third : third + 1], items[third + 1 :], **how)


class In(unittest.TestCase):
    def test_integers(self):
        for items in (CELLS, with_nulls(CELLS), [None] + CELLS[:20], [None] * 9, []):
            for producer in kinds(items):
                found = columns.cells_to_parents(producer, 5)
                self.assertEqual((type(found), found.format), (columns.ArrowColumn, producer.kind))
                self.assertEqual(found.tolist(), [None if cell is None else CELL for cell in items])
                self.assertEqual(found.null_count, items.count(None))

    def test_children(self):
        """A null has no children, and is no error; what is refused is one, with its place."""
        items = with_nulls(CELLS)
        wanted = [[] if cell is None else integers.cell_to_children(cell, 8) for cell in items]
        for producer in kinds(items):
            children, starts = columns.cells_to_children(producer, 8)
            self.assertEqual((children.format, starts.format), (producer.kind, "l"))
            self.assertEqual(children.tolist(), sum(wanted, []))
            self.assertEqual(starts.tolist(), [sum(map(len, wanted[:place])) for place in range(len(items) + 1)])
        given = [None, TEXT.encode(), f"{INVALID:x}".encode()]
        with self.assertRaisesRegex(errors.H3CellInvalidError, "at place 2"):
            columns.cells_to_children(ArrayProducer("u", given), 5)
        children, starts = columns.cells_to_children(ArrayProducer("u", given), 5, missing=True)
        self.assertEqual((children.tolist(), starts.tolist()), ([TEXT], [0, 0, 1, 1]))
        self.assertRaises(errors.H3ResDomainError, columns.cells_to_children, ArrayProducer("u", [b"xyz"]), 16)

    def test_empty(self):
        for kind in ("L", "u", "vu"):
            for producer in (StreamProducer(kind), StreamProducer(kind, []), ArrayProducer(kind, [])):
                self.assertEqual(list(columns.cells_to_parents(producer, 5)), [])

    def test_results(self):
        items = with_nulls(integers.get_pentagons(3) + CELLS)

        def wanted(function, *more):
            return [None if cell is None else function(cell, *more) for cell in items]

        def found(function, *more):
            answer = function(ArrayProducer("L", items), *more)
            return answer.format, list(answer)

        self.assertEqual(found(columns.get_resolutions), ("i", wanted(integers.get_resolution)))
        self.assertEqual(found(columns.are_pentagons), ("b", wanted(integers.is_pentagon)))
        self.assertEqual(found(columns.cells_to_children_sizes, 9), ("l", wanted(integers.cell_to_children_size, 9)))
        self.assertEqual(found(columns.int_to_str), ("U", wanted(integers.int_to_str)))
        self.assertEqual(found(columns.cells_to_center_children, 15)[1], wanted(integers.cell_to_center_child, 15))

    def test_texts(self):
        items = with_nulls([f"{cell:x}".encode() for cell in CELLS] + [b"8" + b"0" * 14 + b"1"], 2)
        texts = [item and item.decode() for item in items]
        for kind in ("u", "U", "vu"):
            for offset in (0, 5):
                for producer in (ArrayProducer, StreamProducer):
                    given = producer(kind, items[:-1], offset=offset)
                    found = columns.cells_to_parents(given, 5)
                    self.assertEqual((found.format, list(found)), ("U", [text and TEXT for text in texts[:-1]]))
                    found = columns.str_to_int(producer(kind, items, offset=offset))
                    self.assertEqual((found.format, list(found)), ("L", [text and int(text, 16) for text in texts]))
            self.assertEqual(list(columns.get_resolutions(ArrayProducer(kind, [None, b"801dfffffffffff"]))), [None, 0])
            with self.assertRaisesRegex(errors.H3FailedError, "'xyz' at place 2"):
                columns.get_resolutions(ArrayProducer(kind, [None, b"801dfffffffffff", b"xyz"]))
            found = columns.cells_to_parents(
                ArrayProducer(kind, [b"xyz", None, b"5", items[0] or TEXT.encode()]), 4, missing=True
            )
            self.assertEqual(list(found), [None, None, None, "8428347ffffffff"])
        self.assertRaises(TypeError, columns.int_to_str, ArrayProducer("u", [b"5"]))
        self.assertRaises(TypeError, columns.str_to_int, ArrayProducer("L", [5]))

    def test_dictionaries(self):
        """Places in a dictionary of texts or of integers, with nulls in both."""
        for kind in ("u", "U", "vu", "L", "l"):
            given = TEXT.encode() if kind not in "Ll" else CELL
            for offset in (0, 3):
                for producer in (ArrayProducer, StreamProducer):
                    column = producer(kind, [1, None, 0, 1, 2], offset=offset, dictionary=[None, given, given])
                    found = columns.cells_to_parents(column, 5)
                    self.assertEqual(list(found), [found[0], None, None, found[0], found[0]])
                    self.assertEqual(found[0], CELL if kind in "Ll" else TEXT)
        self.assertEqual(list(h3whole.Region(ArrayProducer("u", [0], dictionary=[TEXT.encode()]))), [TEXT])
        self.assertEqual(list(columns.get_resolutions(ArrayProducer("u", [], dictionary=[]))), [])
        with self.assertRaisesRegex(TypeError, "not of Arrow's float32"):
            columns.get_resolutions(ArrayProducer("f", [], dictionary=[]))

    def test_refused(self):
        """The first index that is refused is named with its place, also behind nulls, and no null is."""
        for items, place in (([INVALID], 0), ([None, None, INVALID], 2), ([CELL, None, INVALID, None], 2)):
            for producer in (ArrayProducer("L", items), StreamProducer("L", items[:1], items[1:], offset=3)):
                with self.assertRaisesRegex(errors.H3CellInvalidError, f"81087ffffffffff at place {place}$"):
                    columns.get_resolutions(producer)
        items = [None, INVALID, CELL]
        self.assertEqual(
            list(columns.cells_to_parents(ArrayProducer("L", items), 4, missing=True)), [None, None, PARENT]
        )
        self.assertEqual(list(columns.get_resolutions(ArrayProducer("L", items), missing=True)), [None, -1, 5])
        self.assertEqual(list(columns.are_valid_cells(ArrayProducer("L", items))), [None, False, True])
        for items in ([None], [CELL], []):
            self.assertRaises(errors.H3ResDomainError, columns.cells_to_parents, ArrayProducer("L", items), 16)

    def test_types(self):
        refused = {
            "i": "int32", "I": "uint32", "f": "float32: read the column as text", "g": "float64: read", "b": "bool",
            "n": "null", "tdD": "tdD", "+l": r"\+l",
        }  # fmt: skip
        for kind, name in refused.items():
            for producer in (ArrayProducer(kind, []), StreamProducer(kind, [])):
                with self.assertRaisesRegex(TypeError, f"not of Arrow's {name}"):
                    columns.get_resolutions(producer)
                self.assertEqual(producer.live, 0)
        for column in (columns.get_resolutions, columns.are_valid_cells):
            self.assertRaises(TypeError, columns.cells_to_parents, column(ArrayProducer("L", [CELL])), 0)

    def test_sets(self):
        self.assertEqual(list(columns.compact_cells(ArrayProducer("l", CELLS))), [CELL])
        self.assertEqual(list(columns.uncompact_cells(StreamProducer("L", [CELL]), 7)), CELLS)
        self.assertEqual(list(columns.compact_cells(ArrayProducer("u", [TEXT.encode()]))), [TEXT])
        for function in (
            columns.compact_cells,
            lambda given: columns.uncompact_cells(given, 9),
            h3whole.Region,
            h3whole.Zones,
        ):
            with self.assertRaisesRegex(errors.H3CellInvalidError, "0 at place 1$"):
                function(ArrayProducer("L", [CELL, None]))
        with self.assertRaisesRegex(errors.H3DuplicateInputError, "8428347ffffffff at place 2 overlaps"):
            columns.compact_cells(StreamProducer("L", [CELL, 0x8009FFFFFFFFFFF], [PARENT], offset=1))
        self.assertRaises(errors.H3ResDomainError, columns.uncompact_cells, ArrayProducer("L", [CELL]), 16)

    def test_regions(self):
        region = h3whole.int.Region(StreamProducer("L", CELLS[:1], CELLS[1:]))
        self.assertEqual(list(region), [CELL])
        self.assertEqual(h3whole.Region(ArrayProducer("u", [TEXT.encode()])).column(), region.column())
        found = region.covers(ArrayProducer("L", [CELLS[3], None, PARENT], offset=2))
        self.assertEqual((found.format, list(found)), ("b", [True, None, False]))
        zones = h3whole.Zones(ArrayProducer("L", [CELL, 0x8009FFFFFFFFFFF]))
        items = [None, CELLS[3], PARENT, None, CELL]
        self.assertEqual(list(zones.of(ArrayProducer("L", items))), [None, CELL, None, None, CELL])
        self.assertEqual(list(zones.of(ArrayProducer("u", [TEXT.encode(), None]))), [TEXT, None])
        counts = zones.count(StreamProducer("L", items[:2], items[2:]), missing=True)
        self.assertEqual((counts[TEXT], counts.others, counts.refused), (2, 1, 2))
        counts = zones.count(ArrayProducer("u", [TEXT.encode(), b"xyz", None]), missing=True)
        self.assertEqual((counts[TEXT], counts.others, counts.refused), (1, 0, 2))
        self.assertRaisesRegex(errors.H3CellInvalidError, "0 at place 0$", zones.count, ArrayProducer("L", items))
        self.assertEqual(parts.compact_cells([columns.to_arrow(array("Q", CELLS))]), array("Q", [CELL]))
        self.assertTrue(region.issubset(ArrayProducer("L", [PARENT])) and region.isdisjoint(ArrayProducer("L", [])))


class Lifetime(unittest.TestCase):
    def test_released(self):
        """What is taken over is released once, when the column that has its memory is gone."""
        for producer in (ArrayProducer("L", CELLS), StreamProducer("L", CELLS[:9], [], CELLS[9:])):
            columns.get_resolutions(producer)
            gc.collect()
            self.assertEqual(producer.live, 0)
            count = len(producer.chunks)
            self.assertEqual(sorted(producer.released), ["array"] * count + ["schema"] + ["stream"] * (count > 1))
        producer = ArrayProducer("L", CELLS)
        column = columns.to_arrow(producer)
        self.assertEqual((producer.released, list(column)), (["schema"], CELLS))
        del column
        gc.collect()
        self.assertEqual(producer.released, ["schema", "array"])

    def test_errors(self):
        """So it is where something is refused."""
        for fails, rest in (("schema", 0), (0, 1), (1, 2)):
            producer = StreamProducer("L", CELLS, CELLS, fails=fails)
            with self.assertRaisesRegex(OSError, "the disk is gone"):
                columns.get_resolutions(producer)
            gc.collect()
            self.assertEqual((producer.live, len(producer.released)), (0, rest + 1))
        for items in ([INVALID], [None, INVALID]):
            producer = ArrayProducer("L", items)
            self.assertRaises(errors.H3CellInvalidError, columns.get_resolutions, producer)
            gc.collect()
            self.assertEqual(producer.live, 0)

    def test_capsules(self):
        producer = ArrayProducer("L", CELLS)
        columns.get_resolutions(producer)

        class Again:
            def __arrow_c_array__(self, requested_schema=None):
                return producer.last

        with self.assertRaisesRegex(ValueError, "the arrow_schema is released"):
            columns.get_resolutions(Again())
        again = ArrayProducer("L", CELLS)
        again.__arrow_c_array__()
        producer.last = again.last[0], producer.last[1]
        with self.assertRaisesRegex(ValueError, "the arrow_array is released"):
            columns.get_resolutions(Again())
        for names in ((b"arrow_array", b"arrow_array"), (b"arrow_schema", b"array")):
            wrong = ArrayProducer("L", CELLS)
            wrong.names = names
            self.assertRaises(ValueError, columns.get_resolutions, wrong)
        wrong = StreamProducer("L", CELLS)
        wrong.name = b"arrow_stream"
        self.assertRaises(ValueError, columns.get_resolutions, wrong)

    def test_no_copy(self):
        producer = ArrayProducer("L", CELLS, offset=2)
        column = columns.to_arrow(producer)
        with columns._Memory(column.filled(0)) as memory:
            own = plain_arrow.Array.from_address(plain_arrow.pointer_of(producer.last[1], b"arrow_array"))
            data = (ctypes.c_void_p * 2).from_address(own.buffers)[1]
            self.assertEqual(memory.address, data + 16)


class Out(unittest.TestCase if HAS_EXTENSION else object):
    def test_values(self):
        items = with_nulls(CELLS)
        given = columns.to_arrow(ArrayProducer("L", items))
        for consume in (consume_array, consume_stream):
            self.assertEqual(consume(given), ("L", items))
            self.assertEqual(consume(columns.to_arrow(array("q", CELLS))), ("l", CELLS))
            self.assertEqual(consume(columns.to_arrow(memoryview(array("Q", CELLS)).toreadonly())), ("L", CELLS))
            self.assertEqual(consume(columns.to_arrow([TEXT, TEXT])), ("U", [TEXT, TEXT]))
            for column in (array("Q"), []):
                self.assertEqual(consume(columns.to_arrow(column))[1], [])
            for function in (columns.int_to_str, columns.get_resolutions, columns.are_valid_cells):
                found = function(given)
                self.assertEqual(consume(found), (found.format, list(found)))
            self.assertEqual(consume(columns.cells_to_children_sizes(given, 9))[1], [item and 49 for item in items])
        self.assertEqual(list(columns.cells_to_parents(columns.to_arrow(array("Q", CELLS)), 5)), [CELL] * 49)

    def test_sets(self):
        for kind in (h3whole, h3whole.int):
            for cells in (kind.Region(array("Q", CELLS)), kind.Zones(array("Q", [PARENT, 0x8009FFFFFFFFFFF]))):
                for consume in (consume_array, consume_stream):
                    self.assertEqual(consume(cells), ("L", sorted(columns.to_arrow(cells))))
                found = columns.get_resolutions(cells)
                self.assertEqual(list(found), [integers.get_resolution(cell) for cell in columns.to_arrow(cells)])
                self.assertEqual(kind.Region(columns.to_arrow(cells)), kind.Region(cells))

    def test_lifetime(self):
        """The memory stays until the consumer lets it go, and not longer."""
        items = array("Q", CELLS)
        given = columns.to_arrow(items).__arrow_c_array__()
        own = plain_arrow.taken(plain_arrow.Array, given[1], b"arrow_array")
        gc.collect()
        self.assertRaises(BufferError, items.append, 0)
        address = (ctypes.c_void_p * 2).from_address(own.buffers)[1]
        self.assertEqual(address, items.buffer_info()[0])
        thread = threading.Thread(target=plain_arrow.let_go, args=[own])
        thread.start()
        thread.join()
        items.append(0)
        del given
        column = columns.to_arrow(items)
        kept = [column.__arrow_c_array__(), column.__arrow_c_stream__(), column.__arrow_c_schema__()]
        del column
        gc.collect()
        self.assertRaises(BufferError, items.append, 0)
        kept.clear()
        items.append(0)

    def test_producer(self):
        """What a producer gave is released when its consumer has let it go."""
        producer = ArrayProducer("L", CELLS)
        given = columns.to_arrow(producer).__arrow_c_stream__()
        gc.collect()
        self.assertEqual(producer.released, ["schema"])
        del given
        gc.collect()
        self.assertEqual(producer.released, ["schema", "array"])

    def test_names(self):
        column = columns.to_arrow(array("Q", CELLS))
        schema, own = column.__arrow_c_array__()
        for capsule, name in (
            (schema, b"arrow_schema"),
            (own, b"arrow_array"),
            (column.__arrow_c_schema__(), b"arrow_schema"),
            (column.__arrow_c_stream__(), b"arrow_array_stream"),
        ):
            self.assertTrue(plain_arrow.is_capsule(capsule, name))

    def test_requested(self):
        """The same bits with a sign or without are as the consumer asks for; else the column's own type."""
        column = columns.to_arrow(array("Q", CELLS))
        for consume in (consume_array, consume_stream):
            for asked, format in (("l", "l"), ("L", "L"), ("U", "L"), ("i", "L")):
                request = ArrayProducer(asked, [])
                schema, _ = request.__arrow_c_array__()
                self.assertEqual(consume(column, schema), (format, CELLS))
            self.assertEqual(consume(h3whole.Region(CELLS and [TEXT]), None), ("L", [CELL]))
            self.assertRaises(ValueError, consume, column, column.__arrow_c_array__()[1])

    def test_exceptions(self):
        """A capsule that ends while an exception is on its way leaves that as it is."""
        column = columns.to_arrow(array("Q", CELLS))
        for _ in range(3):
            for capsules in (column.__arrow_c_array__, column.__arrow_c_stream__, column.__arrow_c_schema__):
                self.assertRaises(TypeError, lambda: divmod(1, (capsules(),)))
                with self.assertRaises(NameError):
                    (capsules(), [capsules(), undefined])  # noqa: F821


class WithoutExtension(object if HAS_EXTENSION else unittest.TestCase):
    def test_out(self):
        column = columns.to_arrow(array("Q", CELLS))
        self.assertEqual(list(column), CELLS)
        for capsules in (column.__arrow_c_array__, column.__arrow_c_stream__, column.__arrow_c_schema__):
            self.assertRaisesRegex(NotImplementedError, "by its extension in C", capsules)


if __name__ == "__main__":
    unittest.main()
