"""Tests the library for C that cargo builds, and the support code of plain Rust.

The tests of tests/c run with three builds of the library: with Rust's checks of indices, overflows
and assertions; with those of indices; and with no check of an index that the proof covers, under
sanitizers of the code in C. They write what they write with the archive that the kit builds.
"""
import platform
import random
import re
import subprocess
import tempfile
import unittest
from pathlib import Path

from build import ARCHIVES, HEADERS, MEMORY, ROOT, instructions, needs, run
from rust.test_program import build
from rust.test_translator import CRATE
from vectors import packed_vectors

TREE = ROOT / "out/rust"
C11 = ["gcc", "-std=c11", "-pedantic", "-Wall", "-Wextra", "-Werror", f"-I{HEADERS}"]
SANITIZERS = ["-fsanitize=address,undefined", "-fno-sanitize-recover=all"]
# How cargo builds an archive, in a folder of out/rust/target, and how a test is linked with it.
# The last one is that of the Makefile.
BUILDS = {
    "checked": (["--profile=checked"], []),
    "default": (["--release", "--no-default-features"], []),
    "unchecked": ([], SANITIZERS),
}
NEEDED = {*"abort bcmp memcpy memmove memset rattle_alloc rattle_dealloc rattle_realloc".split()}
INSTALLED = ["bin/sixel", "include/icysixel.h", "lib/libicysixel.a", "lib/libicysixel.so.0",
             "lib/pkgconfig/icysixel.pc", "lib/cmake/icysixel/icysixelConfig.cmake",
             "share/man/man1/sixel.1", "share/man/man3/icysixel.3"]
X86_64 = platform.machine() == "x86_64"


@needs("cargo", "gcc")
class TestLibrary(unittest.TestCase):
    """The tests share a folder, and the builds below out/rust/target."""

    @classmethod
    def setUpClass(cls):
        build()
        cls.folder = Path(cls.enterClassContext(tempfile.TemporaryDirectory()))
        (cls.folder / "all").write_bytes(b"".join(packed_vectors()))

    def succeeds(self, *command, **options):
        """Runs a command, whose status has to be 0, and returns what it writes."""
        command = [str(word) for word in command]
        status, written, errors = run(*command, **{"timeout": 900, **options})
        text = (written + errors)[-4000:].decode(errors="replace")
        self.assertEqual(status, 0, f"{' '.join(command)}\n{text}")
        return written

    def archive(self, name):
        """The archive of a build, which allocates by the memory hooks."""
        words, target = BUILDS[name][0], TREE / "target" / name
        if not words:
            return TREE / "out/libicysixel.a"
        command = ["cargo", "rustc", "--quiet", "--offline", "--package", "icysixel"]
        options = ["--features", "hooks", "--crate-type", "staticlib", "--target-dir", target]
        self.succeeds(*command, *options, *words, cwd=TREE)
        archive, = target.glob("*/libicysixel.a")
        return archive

    def written(self, program, archive, *flags):
        """What a test program writes that is linked with an archive."""
        path = self.folder / program
        sources = [ROOT / f"tests/c/{program}.c", MEMORY, archive]
        self.succeeds(*C11, *flags, "-g", "-O1", "-pthread", *sources, "-o", path)
        arguments = {"vectors": [self.folder / "all"], "random": [300, 1], "digests": []}
        return self.succeeds(path, *arguments.get(program, [self.folder]))

    @needs("valgrind")
    def test_index_checks(self):
        """Index checks cost decoding less than 60 %, also on a processor without SSE4.1."""
        noise, counts = random.Random(1), []
        lines = ("".join(chr(63 + noise.randrange(1, 64)) for _ in range(640)) for _ in range(8))
        band = "".join(f"#{color}{line}$" for color, line in enumerate(lines)) + "-"
        for name in "default", "unchecked":
            path = self.folder / f"feed.{name}"
            self.succeeds(*C11, "-O1", ROOT / "tests/c/feed.c", MEMORY, self.archive(name), "-o", path)
            counts.append(instructions(path, "4096", stdin=b"\x1bPq%b\x1b\\" % (20 * band.encode())))
        self.assertLess(counts[0], 1.6 * counts[1])

    def test_programs(self):
        """Each test program passes with each build, and writes what it has to."""
        expected = {it: self.written(it, ARCHIVES[0]) for it in ("random", "digests")}
        self.assertGreater(expected["digests"].count(b"\n"), 3000)
        for name, (_, flags) in BUILDS.items():
            archive = self.archive(name)
            for program in "calls", "vectors", "allocations", "peak", *expected:
                with self.subTest(build=name, program=program):
                    written = self.written(program, archive, *flags)
                    self.assertEqual(written, expected.get(program, written))

    @needs("nm", "readelf")
    def test_symbols(self):
        """The archive defines and the shared library exports the calls of the header alone."""
        header = (HEADERS / "icysixel.h").read_text()
        declared = sorted(re.findall(r"^\w+ (icysixel_\w+)\(", header, re.M))
        self.assertGreater(len(declared), 40)
        archive = self.succeeds("nm", "--extern-only", TREE / "out/libicysixel.a").decode()
        names = re.findall(r" (\w) (\w+)$", archive[: archive.index("icysixel_memory.o:")], re.M)
        self.assertEqual(sorted(name for kind, name in names if kind != "U"), declared)
        self.assertLessEqual({name for kind, name in names if kind == "U"}, NEEDED)
        shared = TREE / "out/shared/libicysixel.so"
        told = self.succeeds("readelf", "--wide", "--dynamic", "--dyn-syms", shared).decode()
        self.assertEqual(sorted(re.findall(r" (\w+)@@ICYSIXEL_0$", told, re.M)), declared)
        self.assertIn("soname: [libicysixel.so.0]", told)

    def test_install(self):
        """The Makefile of plain Rust installs the program, the library and what describes them."""
        words = ["install", f"DESTDIR={self.folder}", "PREFIX=/usr", "CPU=x86-64-v2"]
        self.succeeds("make", "-s", "-C", TREE, *words[: 3 + X86_64])
        for name in INSTALLED:
            self.assertTrue((self.folder / "usr" / name).exists(), name)
        found = self.succeeds(self.folder / "usr/bin/sixel", "payload", stdin=b"#1~")
        self.assertTrue(found.startswith(b"image 1 6 9 0\n"))


@needs("rustc")
class TestSupport(unittest.TestCase):
    def test_support(self):
        """The tests inside the support code pass, on x86-64 without and with SSE4.1."""
        for processor in ("x86-64", "x86-64-v2") if X86_64 else ("native",):
            with self.subTest(processor=processor), tempfile.TemporaryDirectory() as room:
                Path(room, "lib.rs").write_text(CRATE.split("#[path = \"form")[0])
                command = "rustc --test --edition 2024 -A warnings lib.rs -o support"
                status, _, errors = run(*command.split(), "-C", f"target-cpu={processor}", cwd=room)
                self.assertEqual(status, 0, errors.decode())
                told = subprocess.run([f"{room}/support"], capture_output=True, check=False).stdout
                self.assertRegex(told, rb"test result: ok\. [6-9] passed; 0 failed; 0 ignored")
