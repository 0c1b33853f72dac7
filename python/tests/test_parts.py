"""Compaction in parts: in this process, in others, and in a cluster of dask.distributed one of whose workers is
killed."""

import concurrent.futures
import os
import random
import signal
import tempfile
import unittest
from array import array

import h3whole.columns as columns
import h3whole.int as integers
from h3whole import H3CellInvalidError, H3DuplicateInputError
from h3whole.parts import PartsError, compact_cells, compact_part, count_cells

try:
    import numpy
except ImportError:
    numpy = None

try:
    import dask.bag
    import dask.distributed
except ImportError:
    dask = None

BASE = 0x8001FFFFFFFFFFF


def listed(seed):
    """All descendants of a base cell at resolution 6 but a hundred, in no order."""
    cells = integers.cell_to_children(BASE, 6)
    random.Random(seed).shuffle(cells)
    return cells[100:]


def cut(cells, count):
    return [array("Q", cells[start::count]) for start in range(count)]


def kill_worker_once(marks, number, cells):
    """The cells; the first time that this is called for the fourth part, the process is killed amid its work."""
    mark = os.path.join(marks, str(number))
    is_first = not os.path.exists(mark)
    with open(mark, "a", encoding="ascii") as calls:
        calls.write("called\n")
    if number == 3 and is_first:
        os.kill(os.getpid(), signal.SIGKILL)
    return cells


class Parts(unittest.TestCase):
    def test_mappers(self):
        """A mapper that takes lists gets a list for a list."""
        cells = listed(2)
        wanted = columns.compact_cells(array("Q", cells))

        def of_lists(call, parts):
            return [call(parts[place]) for place in range(len(parts))]

        for run in (map, of_lists):
            for parts in (cut(cells, 4), tuple(cut(cells, 4))):
                self.assertEqual(compact_cells(parts, run), wanted)
        self.assertEqual(compact_cells(iter(cut(cells, 4))), wanted)

    def test_part_by_part(self):
        """Parts that are no list are made one after another, as they are asked for."""
        made = []

        def parts():
            for part in cut(listed(1), 3):
                made.append(len(made))
                yield part

        def one_by_one(call, numbered):
            for number, part in enumerate(numbered):
                self.assertEqual(made, list(range(number + 1)))
                yield call(part)

        self.assertEqual(len(compact_cells(parts(), one_by_one)), len(columns.compact_cells(array("Q", listed(1)))))

    def test_is_that_of_the_whole(self):
        for seed in range(3):
            cells = listed(seed)
            wanted = columns.compact_cells(array("Q", cells))
            self.assertLess(len(wanted), len(cells))
            for count in (1, 2, 7, 100):
                self.assertEqual(compact_cells(cut(cells, count)), wanted)

    def test_all_but_one(self):
        # nothing is left of the descendants of a base cell but itself; without one, 6 cells for each resolution
        cells = integers.cell_to_children(BASE, 6)
        self.assertEqual(compact_cells(cut(cells, 5)), array("Q", [BASE]))
        self.assertEqual(len(compact_cells(cut(cells[:-1], 5))), 36)

    def test_no_cells(self):
        self.assertEqual(compact_cells([]), array("Q"))
        self.assertEqual(compact_cells([array("Q"), array("Q")]), array("Q"))

    def test_refusals(self):
        cells = listed(1)
        with self.assertRaises(H3DuplicateInputError):
            compact_cells([*cut(cells, 4), array("Q", cells[:1])])
        with self.assertRaisesRegex(H3DuplicateInputError, "part 1"):
            compact_cells([array("Q", cells), array("Q", [BASE, BASE])])
        with self.assertRaisesRegex(H3CellInvalidError, "part 0"):
            compact_cells([array("Q", [5])])

    def test_processes(self):
        cells = listed(2)
        with concurrent.futures.ProcessPoolExecutor(3) as processes:
            self.assertEqual(compact_cells(cut(cells, 9), processes.map), columns.compact_cells(array("Q", cells)))

    def test_what_is_lost(self):
        def without_first(call, parts):
            return list(map(call, parts))[1:]

        def twice(call, parts):
            return 2 * list(map(call, parts))

        def shorter_sent(call, parts):
            return map(call, [(number, column[1:]) for number, column in parts])

        def shorter_returned(call, parts):
            return [part._replace(cells=part.cells[1:]) for part in map(call, parts)]

        def shorter_in_all(call, parts):
            return [part._replace(cells=part.cells[1:], count=part.count - 1) for part in map(call, parts)]

        def of_another_list(call, parts):
            return [part._replace(number=part.number + 9) for part in map(call, parts)]

        for run in (without_first, twice, shorter_sent, shorter_returned, shorter_in_all, of_another_list):
            with self.assertRaises(PartsError, msg=run.__name__):
                compact_cells(cut(listed(1), 4), run)

    def test_a_part(self):
        part = compact_part((4, array("Q", integers.cell_to_children(BASE, 2))))
        self.assertEqual((part.number, part.given, part.count, part.cells), (4, 49, 1, array("Q", [BASE])))
        self.assertEqual(part.covered, 7**15)

    @unittest.skipUnless(numpy, "there is no numpy; .ci/packages --install")
    def test_columns_of_two_dimensions(self):
        rows = numpy.array(integers.cell_to_children(BASE, 2), dtype="uint64").reshape(7, 7)
        self.assertEqual(compact_cells([rows]), array("Q", [BASE]))
        self.assertEqual(compact_part((0, rows)).given, 49)
        counts = count_cells(integers.Zones([BASE]), [rows, rows])
        self.assertEqual((dict(counts), counts.others), ({BASE: 98}, 0))


@unittest.skipUnless(dask, "there is no dask.distributed; .ci/packages --install")
class Cluster(unittest.TestCase):
    @classmethod
    def setUpClass(cls):
        dask.config.set({"distributed.comm.timeouts.connect": "30s"})
        cls.cluster = dask.distributed.LocalCluster(
            n_workers=3, threads_per_worker=1, processes=True, dashboard_address=None, host="127.0.0.1", silence_logs=50
        )
        cls.client = dask.distributed.Client(cls.cluster)

    @classmethod
    def tearDownClass(cls):
        cls.client.close()
        cls.cluster.close()

    def test_arrays(self):
        cells = listed(3)

        def gathered(call, parts):
            return self.client.gather(self.client.map(call, parts))

        for run in (gathered, self.client.get_executor().map):
            for parts in (cut(cells, 8), tuple(cut(cells, 8))):
                self.assertEqual(compact_cells(parts, run), columns.compact_cells(array("Q", cells)))

    def test_counts(self):
        cells = listed(6)
        zones = integers.Zones(integers.cell_to_children(BASE, 3)[::2])
        found = count_cells(zones, cut(cells, 8), self.client.get_executor().map)
        self.assertEqual(found, zones.count(array("Q", cells)))

    def test_a_bag(self):
        cells = listed(4)
        bag = dask.bag.from_sequence(cells, npartitions=8)
        self.assertEqual(compact_cells(bag), columns.compact_cells(array("Q", cells)))
        with self.assertRaises(H3DuplicateInputError):
            compact_cells(dask.bag.from_sequence(cells + cells[:1], npartitions=8))

    def test_a_bag_whose_lists_a_function_changes(self):
        cells = listed(4)
        bag = dask.bag.from_sequence(cells[1:], npartitions=8)
        bag = bag.map_partitions(lambda part: part + [cells[0]] * (cells[1] in part))
        self.assertEqual(compact_cells(bag), columns.compact_cells(array("Q", cells)))
        empty = dask.bag.from_delayed([dask.delayed(list)(part) for part in (cells, [])])
        self.assertEqual(compact_cells(empty), columns.compact_cells(array("Q", cells)))

    def test_a_worker_that_is_killed(self):
        cells = listed(5)
        before = set(self.client.run(os.getpid).values())
        self.assertEqual(len(before), 3)
        with tempfile.TemporaryDirectory() as marks:
            parts = [
                dask.delayed(kill_worker_once)(marks, number, list(part)) for number, part in enumerate(cut(cells, 8))
            ]
            found = compact_cells(dask.bag.from_delayed(parts))
            with open(os.path.join(marks, "3"), encoding="ascii") as calls:
                self.assertGreaterEqual(len(calls.readlines()), 2)
        self.assertEqual(found, columns.compact_cells(array("Q", cells)))
        self.assertNotEqual(set(self.client.run(os.getpid).values()) & before, before)


if __name__ == "__main__":
    unittest.main()
