"""Base cell tables, and the functions over them: worked examples, refused files, wrong input, and the command h3."""

import os
import pickle
import subprocess
import tempfile
import unittest
from array import array

import h3whole
import h3whole.columns as columns
import h3whole.int as integers

try:
    import numpy
except ImportError:
    numpy = None
try:
    import pandas
except ImportError:
    pandas = None

PROGRAM = os.environ.get("H3") or os.path.join(os.path.dirname(os.path.realpath(__file__)), "..", "..", "h3")
PENTAGONS = {4, 14, 24, 38, 49, 58, 63, 72, 83, 97, 107, 117}
HEXAGON = "85283473fffffff"
DISK = [
    "85283473fffffff",
    "85283447fffffff",
    "8528347bfffffff",
    "85283463fffffff",
    "85283477fffffff",
    "8528340ffffffff",
    "8528340bfffffff",
]


def table_file(last=12):
    """The file of a table whose links are known: a fixed step for each direction along the ring of the base cells, the
    last of which is this one."""
    lines = ["base,dir,to,rot"]
    for base in sorted(set(range(122)) - PENTAGONS):
        for digit, step in enumerate((110, 11, 121, 1, 111, last), 1):
            lines.append(f"{base},{digit},{(base + step) % 122},0")
    return ("\n".join(lines) + "\n").encode()


TABLE = h3whole.Table(table_file())


class Walks(unittest.TestCase):
    def test_worked(self):
        self.assertEqual(h3whole.grid_disk_unsafe(TABLE, HEXAGON, 1), DISK)
        self.assertEqual(h3whole.grid_disk_unsafe(TABLE, HEXAGON, 0), DISK[:1])
        self.assertEqual(h3whole.grid_disk_distances_unsafe(TABLE, HEXAGON, 1), [DISK[:1], DISK[1:]])
        self.assertEqual(h3whole.grid_ring_unsafe(TABLE, HEXAGON, 1), DISK[-1:] + DISK[1:-1])
        self.assertEqual(h3whole.grid_ring_unsafe(TABLE, HEXAGON, 0), DISK[:1])

    def test_pentagons(self):
        for origin in ("800bfffffffffff", "8009fffffffffff"):
            for walk in (h3whole.grid_disk_unsafe, h3whole.grid_disk_distances_unsafe, h3whole.grid_ring_unsafe):
                with self.assertRaises(h3whole.H3PentagonError):
                    walk(TABLE, origin, 1)

    def test_columns(self):
        """The disk of each cell is between two starts; that of one that is refused, also on its way, has no cell."""
        own = integers.grid_disk_unsafe(TABLE, int(HEXAGON, 16), 1)
        given = [own[0], 5, own[3], 0x800BFFFFFFFFFFF, 0x8009FFFFFFFFFFF, own[6], 0x8009FFFFFFFFFFF]
        for k in (0, 1, 3):
            wanted = []
            for cell in given:
                try:
                    wanted.append(integers.grid_disk_unsafe(TABLE, cell, k))
                except h3whole.H3BaseException:
                    wanted.append([])
            disks, starts = columns.grid_disks_unsafe(TABLE, array("Q", given), k, missing=True)
            self.assertEqual((len(starts), starts[0], starts[-1]), (8, 0, len(disks)))
            for place, disk in enumerate(wanted):
                self.assertEqual(disks[starts[place] : starts[place + 1]].tolist(), disk)
            disks, starts = columns.grid_disks_unsafe(TABLE, memoryview(array("q", own)), k)
            self.assertEqual(disks.tolist(), [c for cell in own for c in integers.grid_disk_unsafe(TABLE, cell, k)])
            self.assertEqual(starts.tolist(), list(range(0, 7 * (3 * k * (k + 1) + 1) + 1, 3 * k * (k + 1) + 1)))
        with self.assertRaisesRegex(h3whole.H3CellInvalidError, "5 at place 1, k = 1"):
            columns.grid_disks_unsafe(TABLE, given, 1)
        with self.assertRaisesRegex(h3whole.H3PentagonError, "800bfffffffffff at place 2, k = 1"):
            columns.grid_disks_unsafe(TABLE, given[:1] + given[2:], 1)
        for k in (-1, 2**31):
            self.assertRaises(h3whole.H3DomainError, columns.grid_disks_unsafe, TABLE, [], k, missing=True)
        self.assertRaises(h3whole.H3MemoryAllocError, columns.grid_disks_unsafe, TABLE, array("Q", own), 2**31 - 1)
        self.assertRaises(TypeError, columns.grid_disks_unsafe, own, 1, 1)
        self.assertEqual(columns.grid_disks_unsafe(TABLE, [], 1), ([], [0]))
        found = columns.grid_disks_unsafe(TABLE, [HEXAGON, own[0], None], 1, missing=True)
        self.assertEqual(found, (DISK + own, [0, 7, 14, 14]))

    @unittest.skipIf(pandas is None, "pandas is not installed")
    def test_columns_of_pandas(self):
        column = pandas.Series([HEXAGON, "5", HEXAGON], index=["x", "y", "z"])
        disks, starts = columns.grid_disks_unsafe(TABLE, column, 1, missing=True)
        self.assertEqual((disks.tolist(), starts.tolist()), (DISK * 2, [0, 7, 7, 14]))
        self.assertEqual(disks.index.tolist(), ["x"] * 7 + ["z"] * 7)
        numbers = numpy.array([int(HEXAGON, 16)] * 2, dtype="uint64")
        disks, starts = columns.grid_disks_unsafe(TABLE, numbers, 1)
        self.assertEqual((disks.dtype, starts.dtype), (numbers.dtype, numpy.dtype("int64")))
        self.assertEqual((disks[7:] == disks[:7]).all(), True)

    def test_wrong(self):
        for walk in (integers.grid_disk_unsafe, integers.grid_disk_distances_unsafe, integers.grid_ring_unsafe):
            for k in (-1, -(2**31), 2**31):
                with self.assertRaises(h3whole.H3DomainError):
                    walk(TABLE, int(HEXAGON, 16), k)
            for cell in (0, 5, 2**64, -1):
                with self.assertRaises(h3whole.H3CellInvalidError):
                    walk(TABLE, cell, 1)
            with self.assertRaises(TypeError):
                walk(None, int(HEXAGON, 16), 1)
            with self.assertRaises(h3whole.H3CellInvalidError):
                walk(TABLE, 0, 2**31 - 1)
            with self.assertRaises(h3whole.H3CellInvalidError):
                walk(TABLE, 0, 2**31)
            with self.assertRaises(h3whole.H3PentagonError):
                walk(TABLE, 0x8009FFFFFFFFFFF, 2**31 - 1)
        for walk in (h3whole.grid_disk_unsafe, h3whole.grid_disk_distances_unsafe):
            with self.assertRaises(h3whole.H3MemoryAllocError):
                walk(TABLE, HEXAGON, 2**31 - 1)

    def test_an_error_is_copied(self):
        with self.assertRaises(h3whole.TableError) as caught:
            h3whole.Table(b"no table")
        copied = pickle.loads(pickle.dumps(caught.exception))
        self.assertEqual((str(copied), copied.code, copied.at, copied.direction), ("table: form 1", 3, 1, 0))

    def test_the_command(self):
        with tempfile.NamedTemporaryFile(suffix=".csv") as file:
            file.write(table_file())
            file.flush()
            table = h3whole.Table.read(file.name)
            for position in range(0, 49, 7):
                origin = h3whole.child_pos_to_cell("803dfffffffffff", 2, position)
                for k in (1, 5, 12):
                    words = [PROGRAM, "gridDiskUnsafe", "-c", origin, "-k", str(k), "--table", file.name]
                    ran = subprocess.run(words, capture_output=True, text=True, check=False)
                    try:
                        found = h3whole.grid_disk_unsafe(table, origin, k)
                    except h3whole.H3PentagonError as error:
                        self.assertEqual(ran.stderr, f"{error}\n")
                    else:
                        self.assertEqual((ran.stdout.split(), ran.stderr), (found, ""))


class Edges(unittest.TestCase):
    def test_worked(self):
        edge = "115283473fffffff"
        self.assertEqual(h3whole.cells_to_directed_edge(TABLE, HEXAGON, "85283477fffffff"), edge)
        self.assertEqual(h3whole.get_directed_edge_destination(TABLE, edge), "85283477fffffff")
        self.assertIs(h3whole.are_neighbor_cells(TABLE, "8528340ffffffff", HEXAGON), True)
        self.assertIs(h3whole.are_neighbor_cells(TABLE, "8528340ffffffff", "8528347bfffffff"), False)
        self.assertIs(h3whole.are_neighbor_cells(TABLE, "8528340ffffffff", "8528340ffffffff"), False)

    def test_errors(self):
        with self.assertRaises(h3whole.H3NotNeighborsError):
            h3whole.cells_to_directed_edge(TABLE, HEXAGON, HEXAGON)
        with self.assertRaises(h3whole.H3ResMismatchError):
            h3whole.cells_to_directed_edge(TABLE, HEXAGON, "8428347ffffffff")
        with self.assertRaises(h3whole.H3PentagonError):
            h3whole.get_directed_edge_destination(TABLE, "11021fffffffffff")
        with self.assertRaises(h3whole.H3PentagonError):
            h3whole.are_neighbor_cells(TABLE, "8009fffffffffff", "8011fffffffffff")
        for edge in (0, 2**64, int(HEXAGON, 16)):
            with self.assertRaises(h3whole.H3DirEdgeInvalidError):
                integers.get_directed_edge_destination(TABLE, edge)


class Files(unittest.TestCase):
    def test_refused(self):
        for file, text in (
            (b"", "table: form 1"),
            (b"base,dir,to,rot\n", "table: missing"),
            (b"base,dir,to,rot\n4,1,0,0\n", "table: range 2"),
            (table_file() + b"0,1,110,0\n", "table: repeated 662"),
            (table_file(13), "table: reversal 0 1"),
        ):
            with self.assertRaises(h3whole.TableError) as caught:
                h3whole.Table(file)
            self.assertEqual(str(caught.exception), text)
        with self.assertRaises(TypeError):
            h3whole.Table("base")


if __name__ == "__main__":
    unittest.main()
