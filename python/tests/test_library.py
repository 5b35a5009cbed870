"""A library that is missing, or is none, is said in words."""

import os
import subprocess
import sys
import tempfile
import unittest
from pathlib import Path

PYTHON = Path(__file__).resolve().parents[1]


def run_over(folder):
    """Reads a sheet with the library of a folder, in a process of its own, since one process loads it once."""
    variables = dict(os.environ, BACKBONE_LIBRARY=folder, PYTHONPATH=str(PYTHON))
    command = [sys.executable, "-B", "-c", "import backbone; print(backbone.read([0x10008008]).work_words)"]
    return subprocess.run(command, env=variables, stdout=subprocess.PIPE, stderr=subprocess.PIPE, universal_newlines=True)


class Library(unittest.TestCase):
    def assert_not_loaded(self, ran):
        self.assertNotEqual(ran.returncode, 0)
        self.assertEqual(ran.stdout, "")
        self.assertIn("ImportError: the proved library can't be loaded", ran.stderr)
        self.assertIn("./install PREFIX makes it", ran.stderr)

    def test_missing(self):
        with tempfile.TemporaryDirectory() as folder:
            self.assert_not_loaded(run_over(folder))

    def test_no_library(self):
        with tempfile.TemporaryDirectory() as folder:
            (Path(folder) / "libbackbone.so.0").write_text("no library", encoding="utf-8")
            self.assert_not_loaded(run_over(folder))

    def test_there(self):
        ran = run_over(os.environ.get("BACKBONE_LIBRARY", ""))
        self.assertEqual((ran.returncode, ran.stdout), (0, "4\n"), ran.stderr)


if __name__ == "__main__":
    unittest.main()
