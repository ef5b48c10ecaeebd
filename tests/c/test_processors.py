"""Tests the library for other processors: under qemu the C tests write the same as on this machine.

Plain Rust is built for them by Debian's cargo, with core and alloc from the source of Rust.
"""
import os
import re
import tempfile
import unittest
from pathlib import Path

from build import ARCHIVES, HEADERS, MEMORY, ROOT, needs, run
from vectors import packed_vectors

PLAIN = ROOT / "out/rust"
CARGO = "/usr/bin/cargo"
VENDORED = Path("/usr/lib/rustlib/src/rust/library/vendor")
# These read or write numbers in the order of this processor.
LITTLE_ENDIAN = "vectors", "random"
PROGRAMS = "calls", "allocations", "peak", "digests"
WINDOWS = "x86_64-w64-mingw32"


def cross_build(target, compiler, *words):
    """Builds the library for a target by cargo, and returns the folder with what is built."""
    folder = ROOT / "out/processors"
    linker = f"CARGO_TARGET_{target.upper().replace('-', '_')}_LINKER"
    changed = {"RUSTC": "/usr/bin/rustc", "RUSTC_BOOTSTRAP": "1", linker: compiler}
    changed |= {"CARGO_INCREMENTAL": "0"}
    source = 'source.crates-io.replace-with="rust"', f'source.rust.directory="{VENDORED}"'
    words += *(f"--config={it}" for it in source), f"--target={target}", f"--target-dir={folder}"
    words += "-Zbuild-std=core,alloc", "--config=profile.dev.debug=0"
    words += ("--config=profile.release.package.'*'.opt-level=0",)
    words = CARGO, "rustc", "--quiet", "--offline", "--package=icysixel", *words
    status, _, errors = run(*words, cwd=PLAIN, env=os.environ | changed, timeout=900)
    assert status == 0, errors.decode()
    return folder / target


class TestProcessors(unittest.TestCase):
    @classmethod
    def setUpClass(cls):
        cls.room = Path(cls.enterClassContext(tempfile.TemporaryDirectory()))
        (cls.room / "all").write_bytes(b"".join(packed_vectors()))

    def writes(self, name, libraries, processor=None):
        """What a C test writes with these libraries, on this processor or another."""
        compiler = f"{processor}-linux-gnu-gcc" if processor else "gcc"
        arguments = {"vectors": [self.room / "all"], "random": ["600", "1"]}
        runner = [f"qemu-{processor}"] if processor else []
        program = self.room / f"{name}.{compiler}"
        words = "-std=c11", "-O1", "-pthread", f"-I{HEADERS}", ROOT / f"tests/c/{name}.c"
        words = compiler, *words, *libraries, "-o", program
        self.assertEqual(run(*words), (0, b"", b""))
        env = os.environ | {"QEMU_LD_PREFIX": f"/usr/{processor}-linux-gnu"}
        words = *runner, program, *arguments.get(name, [self.room])
        status, written, errors = run(*words, env=env, timeout=600)
        self.assertEqual(status, 0, (written + errors)[-2000:].decode(errors="replace"))
        return written

    @needs("aarch64-linux-gnu-gcc", "qemu-aarch64", "rt")
    def test_proved(self):
        """The library that the kit compiles for aarch64."""
        self.assertEqual(run("make", "-s", "-C", ROOT, "lib-aarch64", timeout=600)[0], 0)
        archive = ROOT / "out/aarch64/libicysixel.a"
        for name in LITTLE_ENDIAN + PROGRAMS:
            with self.subTest(program=name):
                here = self.writes(name, [MEMORY, ARCHIVES[0]])
                self.assertEqual(self.writes(name, [archive], "aarch64"), here)


@needs(CARGO)
@unittest.skipUnless(VENDORED.is_dir(), "not installed: rust-web-src")
class TestPlainRust(TestProcessors):
    """Plain Rust, on a little-endian processor, on a big-endian one, and for Windows."""

    test_proved = None

    @classmethod
    def setUpClass(cls):
        super().setUpClass()
        status, _, errors = run("make", "-s", "-C", ROOT, "lib-rust", timeout=900)
        assert status == 0, errors.decode()

    def is_the_same(self, processor, programs):
        compiler = f"{processor}-linux-gnu-gcc"
        words = "--release", "--features=hooks", "--crate-type=staticlib"
        built = cross_build(f"{processor}-unknown-linux-gnu", compiler, *words)
        for name in programs:
            with self.subTest(program=name):
                here = self.writes(name, [PLAIN / "out/libicysixel.a"])
                there = [MEMORY, built / "release/libicysixel.a"]
                self.assertEqual(self.writes(name, there, processor), here)

    @needs("aarch64-linux-gnu-gcc", "qemu-aarch64")
    def test_aarch64(self):
        self.is_the_same("aarch64", LITTLE_ENDIAN + PROGRAMS)

    @needs("s390x-linux-gnu-gcc", "qemu-s390x")
    def test_s390x(self):
        self.is_the_same("s390x", PROGRAMS)

    @needs(f"{WINDOWS}-gcc", f"{WINDOWS}-objdump")
    def test_windows(self):
        """A DLL exports the calls of the header, and a program in C links it."""
        header = (HEADERS / "icysixel.h").read_text()
        declared = sorted(re.findall(r"^\w+ (icysixel_\w+)\(", header, re.M))
        words = f"{WINDOWS}-gcc", "--profile=dev", "--crate-type=cdylib"
        library = cross_build("x86_64-pc-windows-gnu", *words) / "debug/icysixel.dll"
        names = run(f"{WINDOWS}-objdump", "-p", library)[1].decode()
        exported = re.findall(r"^\s+\[ *\d+\] (\w+)$", names, re.M)
        self.assertEqual(sorted(exported), declared)
        program = self.room / "decode.exe"
        words = ROOT / "examples/decode.c", f"-I{HEADERS}", library, "-o", program
        self.assertEqual(run(f"{WINDOWS}-gcc", *words), (0, b"", b""))
        needed = run(f"{WINDOWS}-objdump", "-p", program)[1]
        self.assertIn(b"DLL Name: icysixel.dll", needed)
