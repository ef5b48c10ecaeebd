"""Tests the layout of the sources: `rt fmt` changes nothing in a copy, and lengths are kept."""
import shutil
import tempfile
import unittest
from pathlib import Path

from build import ROOT, needs, run

FOLDERS = ["src", "specs", "proofs"]
MOST_COLUMNS, MOST_LINES = 100, 400


@needs("rt")
class TestLayout(unittest.TestCase):
    def test_layout(self):
        for crate in (it.parent for it in ROOT.glob("crates/*/src")):
            with self.subTest(crate.name), tempfile.TemporaryDirectory() as copy:
                for folder in filter(Path.exists, (crate / it for it in FOLDERS)):
                    shutil.copytree(folder, Path(copy) / folder.name)
                status, output, errors = run("rt", "fmt", cwd=copy)
                self.assertEqual((status, errors), (0, b""))
                self.assertNotIn(b"rt: formatted", output)


class TestLengths(unittest.TestCase):
    def test_lengths(self):
        files = [it for folder in FOLDERS for it in ROOT.glob(f"crates/*/{folder}/**/*.*t")]
        self.assertGreater(len(files), 0)
        for file in files:
            lines = file.read_text().splitlines()
            with self.subTest(file.relative_to(ROOT)):
                self.assertLessEqual(len(lines), MOST_LINES)
                self.assertLessEqual(max(map(len, lines), default=0), MOST_COLUMNS)

