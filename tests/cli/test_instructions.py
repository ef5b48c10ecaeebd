"""Measures the instructions and the memory of sessions where worse code would still be proved."""
import tempfile
import unittest
from pathlib import Path

from build import DATA, ROOT, builds_of, instructions, needs, run

PROGRAM = ROOT / "crates/sixel_tests/out/sixel_tests"
# Kilobytes of address space for the sessions of the row of 16,000 columns.
ROW_MEMORY = 9_000


class TestInstructions(unittest.TestCase):
    """Each test writes a vector of one band in one color, which the sessions of a decoder draw."""

    def setUp(self):
        self.folder = Path(self.enterContext(tempfile.TemporaryDirectory()))
        for file in DATA.glob("*.tsv"):
            (self.folder / file.name).touch()

    def vectors(self, payload, columns):
        """The arguments that try a payload of this many columns."""
        image = f"{columns}x6 1:1 transparent {6 * columns}*ff0000ff"
        vector = "\t".join(("payload p1=9 p2=1", f"#1;2;100;0;0{payload}", image))
        (self.folder / "images.tsv").write_text(vector + "\n")
        return "vectors", self.folder

    @needs("valgrind")
    def test_growing_row(self):
        """A session does not copy a row each time that a column is added to it."""
        counts = []
        for columns in (8000, 16000):
            counts.append(instructions(PROGRAM, *self.vectors(f"<{columns}*~>", columns)))
        self.assertLess(counts[1], 2.2 * counts[0])

    @needs("valgrind")
    def test_wide_runs(self):
        """A session does not draw each column of a wide run over columns that are there."""
        counts = []
        for runs in (50, 100):
            counts.append(instructions(PROGRAM, *self.vectors(f"<{runs}*!65535~$>", 65535)))
        self.assertLess(counts[1], 1.2 * counts[0])

    def test_row_memory(self):
        """The rows of a session have little capacity beside their pixels."""
        arguments = self.vectors("<16000*~>", 16000)
        for program in builds_of("sixel_tests"):
            with self.subTest(program.name):
                self.assertEqual(run(program, *arguments, memory=ROW_MEMORY)[0], 0)
