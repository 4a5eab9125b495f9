"""What an import says where something is missing."""

import os
import subprocess
import sys
import tempfile
import unittest
from pathlib import Path

from leafmesh._library import SONAME

PACKAGE = Path(__file__).resolve().parents[1]


def imported(library, before="", folder=None):
    """The end of an import in a process of its own, in this folder: its last line of words, none where it went well."""
    environment = {**os.environ, "LEAFMESH_LIBRARY": str(library), "PYTHONPATH": str(PACKAGE)}
    run = subprocess.run([sys.executable, "-c", before + "import leafmesh"], env=environment, capture_output=True,
                         text=True, cwd=folder)
    return run.stderr.strip().split("\n")[-1]


class Import(unittest.TestCase):
    def setUp(self):
        self.library = os.environ["LEAFMESH_LIBRARY"]

    def test_a_folder_and_a_file_are_taken(self):
        self.assertEqual(imported(self.library), "")
        self.assertEqual(imported(os.path.join(self.library, SONAME)), "")

    def test_both_are_seen_from_the_callers_folder(self):
        above, name = os.path.split(os.path.abspath(self.library))
        self.assertEqual(imported(name, folder=above), "")
        self.assertEqual(imported(SONAME, folder=self.library), "")

    def test_a_missing_library_is_told_by_name(self):
        with tempfile.TemporaryDirectory() as empty:
            said = imported(empty)
            self.assertTrue(said.startswith(f"ImportError: leafmesh: {os.path.join(empty, SONAME)}: "), said)
            self.assertIn("install.sh", said)
            self.assertIn(str(Path(empty) / "no.so"), imported(Path(empty) / "no.so"))

    def test_without_a_folder_the_loader_looks(self):
        said = imported("")
        self.assertTrue(said == "" or f"leafmesh: {SONAME}: " in said, said)

    def test_another_library_is_none(self):
        self.assertIn("has no leafmesh_contact: it isn't leafmesh", imported("libc.so.6"))

    def test_without_numpy_it_says_so(self):
        said = imported(self.library, "import sys; sys.modules['numpy'] = None; ")
        self.assertEqual(said, "ImportError: leafmesh hands out its rows as numpy arrays: it needs numpy")


if __name__ == "__main__":
    unittest.main()
