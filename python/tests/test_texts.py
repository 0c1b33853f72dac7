"""The functions over texts and over integers, at worked values of H3's documentation and of this project's own."""

import unittest

import h3whole
import h3whole.int as integers

CELL = "85283473fffffff"
CHILDREN = [
    "862834707ffffff",
    "86283470fffffff",
    "862834717ffffff",
    "86283471fffffff",
    "862834727ffffff",
    "86283472fffffff",
    "862834737ffffff",
]
# of a pentagon
FIVE_AND_CENTER = [
    "81083ffffffffff",
    "8108bffffffffff",
    "8108fffffffffff",
    "81093ffffffffff",
    "81097ffffffffff",
    "8109bffffffffff",
]


class Inspection(unittest.TestCase):
    def test_valid_cells(self):
        for text in (CELL, "0X85283473FFFFFFF", "  85283473fffffff\t"):
            self.assertIs(h3whole.is_valid_cell(text), True, text)
        # a deleted subsequence, base cell 122, digit 7, the reserved bit, an edge, nothing, no index
        for text in (
            "81087ffffffffff",
            "80f5fffffffffff",
            "8109fffffffffff",
            "885283473fffffff",
            "115283473fffffff",
            "0",
            "",
            "xyz",
            "00085283473fffffff",
            "８5283473fffffff",
        ):
            self.assertIs(h3whole.is_valid_cell(text), False, text)
        self.assertIs(integers.is_valid_cell(0x85283473FFFFFFF), True)
        for number in (-1, 0, 2**64, 2**64 + 0x85283473FFFFFFF, None, "85283473fffffff"):
            self.assertIs(integers.is_valid_cell(number), False, number)

    def test_fields(self):
        self.assertEqual(h3whole.get_resolution(CELL), 5)
        self.assertEqual(h3whole.get_base_cell_number(CELL), 20)
        self.assertIs(h3whole.is_res_class_III(CELL), True)
        self.assertIs(h3whole.is_pentagon("81083ffffffffff"), True)
        self.assertIs(h3whole.is_pentagon("8108bffffffffff"), False)
        for function in (h3whole.get_resolution, h3whole.get_base_cell_number, h3whole.is_pentagon):
            self.assertRaises(h3whole.H3CellInvalidError, function, "81087ffffffffff")
            self.assertRaises(h3whole.H3FailedError, function, "xyz")

    def test_texts(self):
        self.assertEqual(h3whole.str_to_int(CELL), 0x85283473FFFFFFF)
        self.assertEqual(h3whole.str_to_int("ffffffffffffffff"), 2**64 - 1)
        self.assertEqual(h3whole.int_to_str(0x85283473FFFFFFF), CELL)
        self.assertEqual(h3whole.int_to_str(0), "0")
        self.assertEqual(h3whole.int_to_str(2**64 - 1), "f" * 16)
        for text in ("", "0x", "1" * 17, "g", "1 1", "1\0", "é"):
            self.assertRaises(h3whole.H3FailedError, h3whole.str_to_int, text)


class Hierarchy(unittest.TestCase):
    def test_parents(self):
        self.assertEqual(h3whole.cell_to_parent(CELL, 4), "8428347ffffffff")
        self.assertEqual(h3whole.cell_to_parent(CELL), "8428347ffffffff")
        self.assertEqual(h3whole.cell_to_parent(CELL, 5), CELL)
        self.assertRaises(h3whole.H3ResMismatchError, h3whole.cell_to_parent, CELL, 6)
        for res in (16, -1, 2**31, -(2**31) - 1, 2**100):
            self.assertRaises(h3whole.H3ResDomainError, h3whole.cell_to_parent, CELL, res)
        self.assertRaises(TypeError, h3whole.cell_to_parent, CELL, 4.0)

    def test_children(self):
        self.assertEqual(h3whole.cell_to_children(CELL, 6), CHILDREN)
        self.assertEqual(h3whole.cell_to_children(CELL), CHILDREN)
        self.assertEqual(h3whole.cell_to_children(CELL, res=5), [CELL])
        self.assertEqual(h3whole.cell_to_children("8009fffffffffff", 1), FIVE_AND_CENTER)
        self.assertRaises(h3whole.H3ResDomainError, h3whole.cell_to_children, CELL, 4)
        self.assertEqual(h3whole.cell_to_children_size("8029fffffffffff", 15), 4747561509943)
        self.assertEqual(h3whole.cell_to_children_size("8009fffffffffff", 15), 3956301258286)
        self.assertEqual(h3whole.cell_to_center_child(CELL, 15), "8f2834700000000")
        self.assertEqual(h3whole.cell_to_last_child(CELL, 7), "872834736ffffff")
        self.assertEqual(h3whole.cell_to_last_child(CELL), "862834737ffffff")
        self.assertEqual(h3whole.cell_to_last_child(CELL, 5), CELL)
        self.assertEqual(h3whole.cell_to_last_child("8009fffffffffff", 1), "8109bffffffffff")
        with self.assertRaisesRegex(h3whole.H3ResDomainError, "E_RES_DOMAIN: 85283473fffffff at resolution 4"):
            h3whole.cell_to_last_child(CELL, 4)

    def test_positions(self):
        self.assertEqual(h3whole.cell_to_child_pos(CELL, 0), 2279)
        self.assertEqual(h3whole.cell_to_child_pos(CELL, 5), 0)
        self.assertEqual(h3whole.cell_to_child_pos("8209b7fffffffff", 0), 40)
        self.assertEqual(h3whole.child_pos_to_cell("8029fffffffffff", 5, 2279), CELL)
        for position in (41, -1, 2**63, -(2**63) - 1):
            self.assertRaises(h3whole.H3DomainError, h3whole.child_pos_to_cell, "8009fffffffffff", 2, position)

    def test_resolutions(self):
        self.assertEqual(h3whole.get_num_cells(0), 122)
        self.assertEqual(h3whole.get_num_cells(15), 569707381193162)
        self.assertRaises(h3whole.H3ResDomainError, h3whole.get_num_cells, 16)
        cells = h3whole.get_res0_cells()
        self.assertEqual((len(cells), cells[0], cells[-1]), (122, "8001fffffffffff", "80f3fffffffffff"))
        self.assertEqual(
            h3whole.get_pentagons(0),
            "8009fffffffffff 801dfffffffffff 8031fffffffffff 804dfffffffffff 8063fffffffffff 8075fffffffffff "
            "807ffffffffffff 8091fffffffffff 80a7fffffffffff 80c3fffffffffff 80d7fffffffffff 80ebfffffffffff".split(),
        )


class Sets(unittest.TestCase):
    def test_compaction(self):
        self.assertEqual(h3whole.compact_cells(reversed(CHILDREN)), [CELL])
        self.assertEqual(h3whole.compact_cells(FIVE_AND_CENTER), ["8009fffffffffff"])
        self.assertEqual(h3whole.compact_cells(FIVE_AND_CENTER[:5]), FIVE_AND_CENTER[:5])
        self.assertEqual(h3whole.compact_cells([]), [])
        mixed = CHILDREN + [
            "85283463fffffff",
            "85283467fffffff",
            "8528346bfffffff",
            "8528346ffffffff",
            "85283477fffffff",
            "8528347bfffffff",
        ]
        self.assertEqual(h3whole.compact_cells(mixed), ["8428347ffffffff"])
        self.assertRaises(h3whole.H3DuplicateInputError, h3whole.compact_cells, [CELL, CELL])
        self.assertRaises(h3whole.H3DuplicateInputError, h3whole.compact_cells, [CELL, "8428347ffffffff"])
        self.assertRaises(h3whole.H3CellInvalidError, h3whole.compact_cells, ["81087ffffffffff"])

    def test_uncompaction(self):
        self.assertEqual(h3whole.uncompact_cells([CELL], 6), CHILDREN)
        self.assertEqual(
            h3whole.uncompact_cells(["8009fffffffffff", "81283ffffffffff"], 1), FIVE_AND_CENTER + ["81283ffffffffff"]
        )
        self.assertEqual(h3whole.uncompact_cells([CELL, CELL], 5), [CELL, CELL])
        self.assertEqual(h3whole.uncompact_cells([], 5), [])
        self.assertRaises(h3whole.H3ResMismatchError, h3whole.uncompact_cells, [CELL], 4)
        self.assertRaises(h3whole.H3ResDomainError, h3whole.uncompact_cells, [], 16)
        self.assertRaises(h3whole.H3CellInvalidError, h3whole.uncompact_cells, ["0"], 4)


class Edges(unittest.TestCase):
    def test_edges(self):
        edges = [f"1{direction}5283473fffffff" for direction in range(1, 7)]
        self.assertEqual(h3whole.origin_to_directed_edges(CELL), edges)
        self.assertEqual(
            h3whole.origin_to_directed_edges("8009fffffffffff"),
            [f"1{direction}009fffffffffff" for direction in range(2, 7)],
        )
        self.assertIs(h3whole.is_valid_directed_edge("115283473fffffff"), True)
        self.assertIs(h3whole.is_valid_directed_edge("11009fffffffffff"), False)
        self.assertIs(h3whole.is_valid_directed_edge("xyz"), False)
        self.assertEqual(h3whole.get_directed_edge_origin("115283473fffffff"), CELL)
        self.assertRaises(h3whole.H3DirEdgeInvalidError, h3whole.get_directed_edge_origin, CELL)
        self.assertRaises(h3whole.H3DirEdgeInvalidError, integers.get_directed_edge_origin, -1)


class Errors(unittest.TestCase):
    def test_numbers_and_names(self):
        with self.assertRaises(h3whole.H3CellInvalidError) as caught:
            h3whole.get_resolution("0")
        self.assertEqual((caught.exception.number, caught.exception.name), (5, "E_CELL_INVALID"))
        self.assertIsInstance(caught.exception, ValueError)
        self.assertTrue(str(caught.exception).startswith("error 5: E_CELL_INVALID"))


if __name__ == "__main__":
    unittest.main()
