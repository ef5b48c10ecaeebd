"""Tests that a session borrows its decoder: the compiler rejects a second use of the decoder.

No proof can say this, because such code never reaches the prover. It is compiled without proofs.
"""
import re
import shutil
import tempfile
import unittest
from pathlib import Path

from build import ROOT, needs, run

PROGRAM = Path(__file__).with_name("sessions.txt").read_text()


@needs("rt", "git")
class TestBorrow(unittest.TestCase):
    def compiled(self, program):
        """The status and output of `rt try` for a program over icy_sixel."""
        with tempfile.TemporaryDirectory() as folder:
            room = Path(folder)
            left_out = shutil.ignore_patterns("out", "must-fail", "data")
            shutil.copytree(ROOT / "crates", room / "crates", ignore=left_out)
            shutil.copy(ROOT / "HANDLES", room)
            listed = (ROOT / "crates.txt").read_text()
            (room / "crates.txt").write_text(f"{listed}\nsessions: icy_sixel\n")
            (room / "crates/sessions/src").mkdir(parents=True)
            (room / "crates/sessions/src/main.rt").write_text(program)
            run("git", "init", "-q", room)
            ended = run("rt", "try", cwd=room / "crates/sessions", timeout=600)
            return ended[0], (ended[1] + ended[2]).decode()

    def test_second_use_is_rejected(self):
        status, told = self.compiled(PROGRAM)
        self.assertEqual(status, 1, told)
        for number, line in enumerate(PROGRAM.splitlines(), 1):
            with self.subTest(line=line):
                error = rf"main\.rt:{number}:.*error\[borrow-e0499\].*`\*?decoder`"
                self.assertEqual(bool(re.search(error, told)), line.endswith("// rejected"))

    def test_one_session_compiles(self):
        status, told = self.compiled(re.sub(".*// rejected\n", "", PROGRAM))
        self.assertEqual(status, 0, told)
