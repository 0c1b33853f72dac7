"""The sessions of docs/GUIDE.md in Python, over its data; what they show is also worked out by integers alone."""

import ast
import contextlib
import doctest
import io
import os
import sys
import unittest

ROOT = os.path.dirname(os.path.dirname(os.path.dirname(os.path.realpath(__file__))))
sys.path.insert(0, os.path.join(ROOT, "tests"))
import guide  # noqa: E402


def texts(rows):
    return [tuple(f"{it:x}" if guide.is_cell(it) else it for it in row) for row in rows]


class Guide(unittest.TestCase):
    def setUp(self):
        self.addCleanup(os.chdir, os.getcwd())
        os.chdir(guide.FOLDER)

    def test_sessions(self):
        shown = "".join(f">>> {typed}\n{answer}" for typed, answer in guide.sessions("In Python", "pycon", ">>> "))
        session = doctest.DocTestParser().get_doctest(shown, {}, "docs/GUIDE.md", None, 0)
        said = io.StringIO()
        with contextlib.redirect_stdout(said):
            ran = doctest.DocTestRunner(verbose=False).run(session)
        self.assertEqual((ran.failed, said.getvalue()), (0, ""))
        self.assertGreater(ran.attempted, 20)

    def test_answers(self):
        """What is worked out, by how what is typed begins."""
        shown = guide.sessions("In Python", "pycon", ">>> ")
        joined = [(point, name) for point, name in guide.JOINED[:5]]
        for begins, wanted in {
            "h3whole.is_valid_cell": (True, guide.resolution(guide.FIRST)),
            "sorted(Counter(columns.get_resolutions": guide.RESOLUTIONS,
            "h3whole.cell_to_parent": f"{guide.parent(guide.FIRST, 7):x}",
            "sorted(Counter(columns.cells_to_parents": texts(guide.PARENTS),
            "h3whole.compact_cells": [f"{it:x}" for it in guide.compacted(guide.CENTER)],
            "len(h3whole.compact_cells": (len(guide.compacted(guide.NAMES)), guide.SIZE),
            "list(zip(ids, names))": joined,
            "counts[": (guide.COUNTED[guide.parent(guide.FIRST, 6)], len(guide.OUTSIDE), len(guide.POINTS)),
            "sorted(named.items())": guide.NAMED,
        }.items():
            found = [ast.literal_eval(answer) for typed, answer in shown if typed.startswith(begins)]
            self.assertEqual(found, [wanted], begins)


if __name__ == "__main__":
    unittest.main()
