"""The example of README.md runs."""

import os
import unittest
from pathlib import Path

PACKAGE = Path(__file__).resolve().parents[1]


class Readme(unittest.TestCase):
    def test_its_example_runs(self):
        lines = (PACKAGE / "README.md").read_text().split("\n")
        example = "\n".join(line[4:] for line in lines if line.startswith("    "))
        before = os.getcwd()
        os.chdir(PACKAGE.parents[1])
        try:
            names = {}
            exec(example, names)
        finally:
            os.chdir(before)
        self.assertGreater(len(names["net"].edges), 0)


if __name__ == "__main__":
    unittest.main()
