"""The extension in C against the functions in Python, in whose place it puts its own; want of memory; texts of columns.
Without the extension there is nothing to try."""

import inspect
import pickle
import unittest
from array import array

import h3whole
import h3whole.columns as columns
import h3whole.int as integers
from h3whole import _fast

try:
    import _testcapi
except ImportError:
    _testcapi = None

CELL = "85283473fffffff"
EDGE = "115283473fffffff"
NAMES = [
    "is_valid_cell",
    "get_resolution",
    "get_base_cell_number",
    "is_pentagon",
    "is_res_class_III",
    "is_valid_directed_edge",
    "cell_to_parent",
    "cell_to_center_child",
    "cell_to_last_child",
    "cell_to_children_size",
    "cell_to_child_pos",
    "get_directed_edge_origin",
]


class Text(str):
    """A text of another type."""


class Number(int):
    """An integer of another type."""


TEXTS = [CELL, EDGE, "8009fffffffffff", "81083ffffffffff", "0X85283473FFFFFFF", f" {CELL}\t", "f" * 16, "0", "", "xyz"]
TEXTS += [f"{CELL}\n", f"{CELL}\0", "\u00e9", "\udc80", "8\uff15", "8f2834700000001", Text(CELL), "1" * 17]
OTHERS = [None, 5, -1, 2**64, 1.5, True, CELL.encode(), [CELL], Number(5)]
RESOLUTIONS = [None, *range(-1, 17), 2**31, 2**70, -(2**70), True, Number(4), 4.0, "4"]


def outcome(function, *given, **named):
    try:
        found = function(*given, **named)
    except Exception as error:
        return type(error), str(error)
    return type(found), found


@unittest.skipIf(_fast.native is None, "there is no extension: python3 python/backend.py")
class Native(unittest.TestCase):
    def functions(self):
        for module, kind in ((h3whole, "texts"), (integers, "integers")):
            for name in NAMES:
                yield getattr(module, name), kind
        yield integers.str_to_int, "texts"
        yield integers.int_to_str, "integers"

    def test_same(self):
        """A call that names its arguments is one in Python; one that does not is one in C."""
        count = 0
        for function, kind in self.functions():
            self.assertEqual(type(function).__name__, "builtin_function_or_method")
            names = list(inspect.signature(function).parameters)
            numbers = [int(text, 16) for text in TEXTS if text and text.strip("0123456789abcdef") == ""]
            for given in (TEXTS if kind == "texts" else numbers) + OTHERS:
                for more in [(), *((res,) for res in RESOLUTIONS)] if len(names) > 1 else [()]:
                    plain = outcome(function, given, *more)
                    self.assertEqual(
                        plain, outcome(function, **dict(zip(names, (given, *more)))), (function, given, more)
                    )
                    count += plain[0] not in (TypeError, h3whole.H3FailedError)
        self.assertGreater(count, 1000)

    def test_arguments(self):
        for function, _ in self.functions():
            for given in ((), (CELL, 4, 5)):
                self.assertRaises(TypeError, function, *given)
            self.assertRaises(TypeError, function, CELL, wrong=4)

    def test_names(self):
        for function, kind in self.functions():
            self.assertIs(pickle.loads(pickle.dumps(function)), function)
            module = h3whole.int if kind == "integers" or function.__name__ == "str_to_int" else h3whole
            self.assertEqual(function.__module__, module.__name__)
            self.assertTrue(function.__doc__)
        self.assertEqual(str(inspect.signature(h3whole.cell_to_parent)), "(cell, res=None)")
        self.assertIs(h3whole.str_to_int, integers.str_to_int)

    def test_columns(self):
        native = _fast.native
        items = [CELL, CELL.encode(), "xyz", "5", None]
        room = array("Q", bytes(8)) * len(items)
        address = room.buffer_info()[0]
        self.assertEqual([native.read_texts(items, place, 5, address, True) for place in (0, 2, 3, 5)], [2, 2, 4, 5])
        self.assertEqual(native.read_texts(items, 0, 5, address, False), 1)
        # a list that is longer than the room, and one that is shorter
        self.assertEqual(native.read_texts(items, 0, 1, address, True), 1)
        self.assertEqual(native.read_texts([CELL], 0, 5, address, True), 1)
        self.assertEqual(native.read_texts([CELL], 3, 5, address, True), 3)
        self.assertEqual(room.tolist(), [int(CELL, 16), int(CELL, 16), 0, 5, 0])
        self.assertEqual(native.write_texts(address, 5, False), [CELL, CELL, "0", "5", "0"])
        self.assertEqual(native.write_texts(address, 5, True), [CELL, CELL, None, "5", None])
        for text in TEXTS:
            wanted = outcome(integers.str_to_int, text)
            found = outcome(columns.str_to_int, [text])
            if wanted[0] is int:
                self.assertEqual(found[1], array("Q", [wanted[1]]))
            else:
                self.assertEqual(found, (wanted[0], f"{wanted[1]} at place 0"))

    def test_fixed(self):
        """Characters of four bytes and of one, with zeros at their end: the place of what is refused, or is no text."""
        native, room = _fast.native, array("Q", bytes(32))
        texts = [CELL, "5", "x\0y", "8009fffffffffff"]
        wide = array("I", [ord(character) for text in texts for character in text.ljust(15, "\0")])
        narrow = array("B", list(wide))
        for items, is_wide in ((wide, True), (narrow, False)):

            def read(missing):
                return native.read_fixed(items.buffer_info()[0], 4, 15, is_wide, room.buffer_info()[0], missing)

            self.assertEqual((read(False), room[:2].tolist()), (2, [int(CELL, 16), 5]))
            self.assertEqual((read(True), room.tolist()), (4, [int(CELL, 16), 5, 0, 0x8009FFFFFFFFFFF]))
        for character, place in ((0x80, 4), (0xD800, 4), (0x10FFFF, 4), (0x110000, 1), (2**32 - 1, 1)):
            wide[16] = character
            self.assertEqual(
                (read(False), native.read_fixed(wide.buffer_info()[0], 4, 15, True, room.buffer_info()[0], True)),
                (2, place),
            )
            self.assertEqual(room[1], 0 if place == 4 else 5)
        self.assertEqual(native.read_fixed(wide.buffer_info()[0], 2, 0, True, room.buffer_info()[0], True), 2)
        self.assertEqual(room[:2].tolist(), [0, 0])

    @unittest.skipIf(_testcapi is None, "there is no _testcapi")
    def test_memory(self):
        """Each allocation is refused, by itself and with all after it: MemoryError, or what is right."""
        listed, address, text = ([CELL, "5"], array("Q", [1, 2]), array("B", CELL.encode()))
        calls = [lambda function=function: function(CELL) for function, kind in self.functions() if kind == "texts"]
        calls += [lambda function=function: function(0x85283473FFFFFFF) for function, kind in self.functions()]
        calls += [lambda: h3whole.cell_to_parent(CELL, 4), lambda: integers.int_to_str(5)]
        # (what is passed on, and needs no ctypes)
        calls += [lambda: integers.is_valid_cell(CELL), lambda: integers.is_valid_cell(cell=CELL)]
        calls += [
            lambda: _fast.native.write_texts(address.buffer_info()[0], 2, True),
            lambda: columns.str_to_int(listed),
        ]
        calls += [lambda: _fast.native.read_fixed(text.buffer_info()[0], 1, 15, False, address.buffer_info()[0], True)]
        refused = 0
        for call in calls:
            right = outcome(call)
            if issubclass(right[0], Exception):
                # (it is passed on, and ctypes and Python have errors of their own where they have no memory)
                continue
            for stop in (0, 1):
                for start in range(1, 40):
                    _testcapi.set_nomemory(start, start + stop if stop else 0)
                    try:
                        found = call()
                    except Exception as error:
                        found = error
                    finally:
                        _testcapi.remove_mem_hooks()
                    # (the latter is of Python 3.11, of a frame that gets no memory; of a function in C it is "returned
                    # NULL without setting an exception")
                    if isinstance(found, MemoryError) or str(found) == "error return without exception set":
                        refused += 1
                    else:
                        self.assertEqual((type(found), found), right)
        self.assertGreater(refused, 20)


if __name__ == "__main__":
    unittest.main()
