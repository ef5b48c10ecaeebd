"""Tests the program that cargo builds of plain Rust, and which program the script `sixel` runs."""
import os
import shutil
import tempfile
import unittest
from pathlib import Path

from build import ROOT, builds_of, needs, run
from cli import test_programs

PLAIN = ROOT / "out/rust/target/release/sixel"
UNPROVED = b"sixel: built without proof; make proves it\n"
# A program that writes its own path and its arguments, and a make that builds nothing:
# it writes its last argument. Whether the proved program is up to date is its status for -q.
PROGRAM = '#!/bin/sh\necho "$0" "$@"\n'
MAKE = "#!/bin/sh\n[ $1 != -q ] || exit $STATUS\nfor last; do :; done\necho make $last\n"


def build():
    """Builds plain Rust, if a source has changed."""
    status, _, errors = run("make", "-s", "-C", ROOT, "program-rust", "lib-rust", timeout=900)
    assert status == 0, errors.decode()


@needs("cargo")
class TestPlainProgram(test_programs.TestPrograms):
    """Arguments, output, errors and statuses are those of the proved program."""

    test_session_memory = None  # of another program

    @classmethod
    def setUpClass(cls):
        build()

    def builds(self):
        return [PLAIN] if self.name == "sixel" else []

    def fails(self, words, stdin, error):
        """Rust's runtime opens /dev/null in the place of a closed stream."""
        if "&-" not in words:
            super().fails(words, stdin, error)

    @needs("rt")
    def test_outputs(self):
        """`rt try`, plain Rust and the proved program write the same."""
        found = [run(it, "payload", stdin=b"#1~") for it in (PLAIN, *builds_of("sixel"))]
        found.append(run("rt", "try", "--", "payload", stdin=b"#1~", timeout=900,
                         cwd=ROOT / "crates/sixel"))
        self.assertGreater(len(found), 2)
        image = b"image 1 6 9 0\n" + 6 * b"\x33\x33\xcc\xff" + b"\n"
        self.assertEqual([it[:2] for it in found], [(0, image)] * len(found))


class TestScript(unittest.TestCase):
    """The script runs in a folder of its own, with a make and a cargo that build nothing."""

    def written(self, tools, is_proved):
        """What the script writes to standard output and to standard error."""
        with tempfile.TemporaryDirectory() as room:
            room = Path(room)
            files = {"tools/make": MAKE, "crates/sixel/out/sixel": PROGRAM}
            files |= {"out/rust/target/release/sixel": PROGRAM}
            files |= {f"tools/{it}": "" for it in tools}
            for name, text in files.items():
                (room / name).parent.mkdir(parents=True, exist_ok=True)
                (room / name).write_text(text)
                (room / name).chmod(0o755)
            for tool in "sh", "dirname", "readlink", "echo":
                (room / "tools" / tool).symlink_to(shutil.which(tool))
            shutil.copy(ROOT / "sixel", room)
            paths = {"PATH": str(room / "tools"), "STATUS": "0" if is_proved else "1"}
            status, output, errors = run(room / "sixel", "payload", env=os.environ | paths)
            self.assertEqual(status, 0, errors)
            return output.replace(f"{room.resolve()}/".encode(), b""), errors

    def test_script(self):
        """The proved program is run if it is up to date. Else plain Rust is built, if it can be."""
        proved = b"crates/sixel/out/sixel payload\n"
        plain = b"out/rust/target/release/sixel payload\n"
        made = b"make crates/sixel/out/sixel\n"
        self.assertEqual(self.written(["cargo"], True), (proved, b""))
        self.assertEqual(self.written(["cargo"], False), (plain, UNPROVED + b"make program-rust\n"))
        self.assertEqual(self.written([], False), (proved, made))
