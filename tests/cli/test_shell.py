"""Tests the shell scripts and the Makefile: shellcheck accepts them, and errors say what to do."""
import os
import shutil
import tempfile
import unittest
from pathlib import Path

from build import ROOT, needs, run

FILES = [*ROOT.glob("*"), *ROOT.glob(".ci/*"), *ROOT.glob("scripts/*")]
SHELLS = (b"#!/bin/sh\n", b"#!/usr/bin/env bash\n")
SYSTEM = "/usr/bin:/bin"
# Commands that fail, for a disk without space.
FAKES = {"rt": "exit 1", "df": "echo; echo disk 9 9 0"}
# Commands of `check`: each reads the clock of STEP seconds a look, or writes how it was called.
TOOLS = {
    "date": 'echo "$STEP" >>clock && awk "{sum += \\$1} END {print sum}" clock',
    "make": 'echo "make $*"',
    "rt": 'echo "rt $*"; exit "$RT"',
    "python3": 'echo "python3 $*"',
}
# Seconds a look, status of `rt`, status of `check`, and what it writes after the build.
CHECKS = [
    (0, 0, 0, """trying 2 mutants of beta, after 0 minutes
rt must-fail beta
trying 1 mutants of alpha, after 0 minutes
rt must-fail alpha
running the test suite, after 0 minutes
python3 tests --skipped 0
"""),
    (3001, 0, 0, """trying 2 mutants of beta, after 50 minutes
rt must-fail beta
skipped: 1 mutants of alpha, after 150 minutes
running the test suite, after 200 minutes
python3 tests --skipped 1
"""),
    (0, 124, 0, """trying 2 mutants of beta, after 0 minutes
rt must-fail beta
skipped: 2 mutants of beta, after 0 minutes
trying 1 mutants of alpha, after 0 minutes
rt must-fail alpha
skipped: 1 mutants of alpha, after 0 minutes
running the test suite, after 0 minutes
python3 tests --skipped 3
"""),
    (0, 1, 1, """trying 2 mutants of beta, after 0 minutes
rt must-fail beta
0 passed, 1 failed
"""),
]


def write_tools(room, tools):
    """Writes shell scripts of these texts."""
    for name, text in tools.items():
        (Path(room) / name).write_text(f"#!/bin/sh\n{text}\n")
        (Path(room) / name).chmod(0o755)


class TestShell(unittest.TestCase):
    @needs("shellcheck")
    def test_shellcheck(self):
        scripts = [it for it in FILES if it.is_file() and it.read_bytes().startswith(SHELLS)]
        self.assertIn(ROOT / "check", scripts)
        status, output, _ = run("shellcheck", *scripts)
        self.assertEqual(status, 0, output.decode())

    def test_build_errors(self):
        """A missing tool and a full disk are reported in one line, before the line of make."""
        with tempfile.TemporaryDirectory() as room:
            write_tools(room, FAKES)
            for path, target, told in (
                (SYSTEM, "crates/sixel/out/sixel", b"rt is missing: put "),
                (f"{room}:{SYSTEM}", "crates/sixel/out/sixel", b"less than 1 GB of disk is free: "),
                (SYSTEM, "out/icysixel_memory.o", b"no-compiler is missing: install "),
            ):
                with self.subTest(told=told):
                    words = ["make", "-s", "-B", "-C", ROOT, target, "CC=no-compiler"]
                    status, output, errors = run(*words, env=os.environ | {"PATH": path})
                    self.assertEqual((status, errors.count(b"\n")), (2, 2))
                    self.assertRegex(output, rb"\A(proving sixel_base, crate 1 of 7, after 0 min.*\n)?\Z")
                    self.assertTrue(errors.startswith(told), errors)

    def test_check(self):
        """`check` skips the mutants for which no time is left, and fails if one is not rejected."""
        for step, rejected, status, output in CHECKS:
            with tempfile.TemporaryDirectory() as room, self.subTest(output=output):
                for mutant in "alpha/must-fail/a", "beta/must-fail/b", "beta/must-fail/c":
                    file = Path(room, "crates", f"{mutant}.edit")
                    file.parent.mkdir(parents=True, exist_ok=True)
                    file.touch()
                Path(room, "crates.txt").write_text("beta:\nalpha staticlib: beta\n")
                shutil.copy(ROOT / "check", room)
                write_tools(room, TOOLS)
                env = {"PATH": f"{room}:{SYSTEM}", "STEP": str(step), "RT": str(rejected)}
                ended = run(f"{room}/check", env=env)
                self.assertEqual(ended, (status, f"make -s built unit\n{output}".encode(), b""))
