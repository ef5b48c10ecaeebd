"""Tests that no function may end the process, block, start threads or programs, or open sockets.

`make verdict` proves it. This test reads the sources, in each run of `./check`.
"""
import re
import unittest

from build import ROOT

TRAITS = "(?:Abort|Wait|Threads|Net|Processes)"
# A bound is after `impl`, `dyn`, a colon or a plus. A path leads to one where it is imported.
HANDLES = re.compile(
    rf"(?:\b(?:impl|dyn)\s+|(?<!:):\s*|\+\s*){TRAITS}\b|\bstd(?:::\w+)*::(?:\{{[^}}]*\b)?{TRAITS}\b"
    r"|\bforever\s*\("
)
BOUNDS = [
    "fn f<R: Wait>(rt: &R)", "fn f<R: Sync + Threads>(rt: &R)", "rt: &impl Net", "rt: &dyn Abort",
    "where\n    R:\n        Processes", "use std::rt::Wait as W;", "use std::{net::{Ipv4, Net}};",
    "for _ in rt.forever()",
]


class TestHandles(unittest.TestCase):
    def test_no_handle_is_allowed(self):
        self.assertEqual((ROOT / "HANDLES").read_text(), "Handles allowed: none.\n")

    def test_no_source_has_a_handle(self):
        sources = sorted(ROOT.glob("crates/*/src/**/*.rt"))
        self.assertGreater(len(sources), 100)
        for source in sources:
            with self.subTest(source.relative_to(ROOT)):
                self.assertIsNone(HANDLES.search(source.read_text()))

    def test_each_bound_is_found(self):
        for bound in BOUNDS:
            with self.subTest(bound):
                self.assertIsNotNone(HANDLES.search(bound))
        self.assertIsNone(HANDLES.search("ending: End::Abort, // waits"))
