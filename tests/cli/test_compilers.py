"""Tests that both compilers build the same: the test vectors print what they should."""
import unittest

from build import DATA, ROOT, run

CRATE = ROOT / "crates/sixel_tests"


class TestCompilers(unittest.TestCase):
    def test_vectors(self):
        expected = (CRATE / "stdout").read_bytes()
        for name in ("sixel_tests", "sixel_tests.by-rattle"):
            with self.subTest(name):
                ended = run(CRATE / "out" / name, "vectors", DATA, timeout=120)
                self.assertEqual(ended, (0, expected, b""))
