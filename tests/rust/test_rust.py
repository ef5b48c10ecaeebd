"""Tests the Cargo crate with no network: its tests and features, package, users and memory."""
import os
import re
import shutil
import sys
import tempfile
import unittest
from pathlib import Path

from build import DATA, ROOT, needs, run

HERE = Path(__file__).parent
MEMCHECK = ["valgrind", "-q", "--leak-check=full", "--show-leak-kinds=definite,indirect"]
MEMCHECK += ["--errors-for-leak-kinds=definite,indirect", "--error-exitcode=9"]
# Stands for Rust's core and alloc where those of a target are not installed.
CORE = """#![feature(no_core, rustc_attrs)]
#![no_core]
#[macro_export]
#[rustc_builtin_macro]
macro_rules! compile_error { ($text:expr) => {} }
pub mod prelude { pub mod rust_2024 { pub use compile_error; } }
"""
REJECTED = b"error: the proofs are for a `usize` of 64 bits: this target is not supported\n"
STRING = b"text\x1bP9;1q#1;2;100;0;0@\x1b\\text"
IMAGE = b"image 1 6 9 1\n\xff\0\0\xff" + bytes(20) + b"\n"


def version(text):
    """The first version in a text, as numbers."""
    return [int(it) for it in re.search(r"(\d+)\.(\d+)", text).groups()]


@needs("cargo")
class TestRust(unittest.TestCase):
    """The tests share a folder, which has the project as plain Rust in `plain`."""

    @classmethod
    def setUpClass(cls):
        wanted = (ROOT / "rust/icy_sixel/Cargo.toml").read_text().split("rust-version")[1]
        if version(run("cargo", "--version")[1].decode()) < version(wanted):
            raise unittest.SkipTest("cargo is older than the crate demands")
        cls.folder = Path(cls.enterClassContext(tempfile.TemporaryDirectory()))
        status, _, errors = run(sys.executable, ROOT / "scripts/plain_rust", cls.folder / "plain")
        assert status == 0, errors.decode()
        # Link-time optimization of each test would take minutes, debug information half of a build.
        cls.variables = {"CARGO_PROFILE_RELEASE_LTO": "off", "CARGO_NET_OFFLINE": "true"}
        cls.variables |= {"CARGO_PROFILE_DEV_DEBUG": "0", "CARGO_INCREMENTAL": "0"}
        cls.variables |= {"CARGO_TARGET_DIR": str(cls.folder / "target")}
        cls.variables |= {"SIXEL_VECTORS": str(DATA)}

    def cargo(self, *words, crate="plain/icy_sixel", status=0, **variables):
        """Runs cargo in the folder of a package, and returns all that it writes."""
        env = os.environ | self.variables | variables
        options = {"env": env, "cwd": self.folder / crate, "timeout": 900}
        found, written, errors = run("cargo", *words, **options)
        text = (written + errors).decode(errors="replace")
        self.assertEqual(found, status, f"cargo {' '.join(words)}\n{text[-4000:]}")
        return text

    def test_crate(self):
        """The crate's tests pass. Those of its interface do so optimized, too."""
        for words, count in ([], 80), (["--release", "--test", "*"], 60):
            with self.subTest(words=words):
                text = self.cargo("test", *words)
                self.assertGreater(text.count("... ok"), count)
                self.assertNotIn("... ignored", text)
                self.assertNotIn("warning", text)

    def test_unsafe(self):
        """Only the support code has `unsafe`."""
        sources = self.folder / "plain/icy_sixel/src"
        found = [it for it in sources.rglob("*.rs") if re.search(r"\bunsafe\b", it.read_text())]
        support = sources / "rattle/rattle_std"
        self.assertTrue(found)
        self.assertEqual([it for it in found if support not in it.parents], [])

    def test_style(self):
        """clippy, rustfmt and rustdoc report nothing."""
        for tool, *words in ["clippy", "--all-targets", "--", "-D", "warnings"], ["fmt", "--check"]:
            with self.subTest(tool=tool):
                if run("cargo", tool, "--version")[0] != 0:
                    self.skipTest(f"not installed: {tool}")
                self.cargo(tool, *words)
        self.cargo("doc", "--no-deps", RUSTDOCFLAGS="-D warnings")

    @needs("valgrind")
    def test_valgrind(self):
        """Sessions and receivers leak nothing, however they end."""
        text = self.cargo("test", "--no-run")
        for name, *filters in ["receiver"], ["sessions", "a_session_ends", "a_session_is_leaked"]:
            with self.subTest(test=name):
                program = re.search(rf"tests/{name}\.rs \((.*)\)", text)[1]
                words = [*MEMCHECK, program, *filters, "--test-threads=1"]
                self.assertEqual(run(*words, timeout=900)[0], 0)

    def test_package(self):
        """The package stands alone, and a program has it in the place of the crate of its name."""
        self.cargo("package", "--allow-dirty")
        package, = (self.folder / "target/package").glob("*.crate")
        self.assertEqual(run("tar", "-xf", package, "-C", self.folder)[0], 0)
        unpacked = (self.folder / package.stem).rename(self.folder / "icy_sixel")
        self.assertEqual(len([*unpacked.glob("LICENSE-*")]), 2)
        user = self.folder / "user"
        (user / "src").mkdir(parents=True)
        shutil.copy(HERE / "user.toml", user / "Cargo.toml")
        shutil.copy(unpacked / "examples/decode.rs", user / "src/main.rs")
        self.cargo("build", "--release", crate="user")
        for words in [], ["1"]:
            with self.subTest(words=words):
                program = self.folder / "target/release/user"
                self.assertEqual(run(program, *words, stdin=STRING)[:2], (0, IMAGE))

    def test_no_std(self):
        """The crate links no `std`."""
        user = self.folder / "no_std"
        user.mkdir()
        shutil.copy(HERE / "no_std.toml", user / "Cargo.toml")
        shutil.copy(HERE / "no_std.rs", user)
        self.cargo("build", crate="no_std")

    def test_small_target(self):
        """A target with addresses of 32 bits is rejected, with the reason."""
        room = self.folder / "small"
        room.mkdir()
        variables = {"env": os.environ | {"RUSTC_BOOTSTRAP": "1"}, "cwd": room}
        options = ["--edition=2024", "--crate-type=lib", "--emit=metadata", "-Awarnings"]
        options += ["--target=i686-unknown-linux-gnu", "-L."]
        for name in "core", "alloc":
            (room / f"{name}.rs").write_text(CORE)
            self.assertEqual(run("rustc", *options, f"{name}.rs", **variables)[0], 0)
            options.append(f"--extern={name}=lib{name}.rmeta")
        source = self.folder / "plain/icy_sixel/src/lib.rs"
        status, _, errors = run("rustc", *options, source, **variables)
        self.assertEqual((status, errors.count(REJECTED)), (1, 1))
