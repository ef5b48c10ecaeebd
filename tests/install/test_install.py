"""Tests what `make install` copies: programs, man pages, and the library for several languages."""
import re
import tempfile
import unittest
from pathlib import Path

from build import HEADERS, ROOT, needs, run
from install.users import UsersTest, variables
from library import SHARED

HEADER, README = (HEADERS / "icysixel.h").read_text(), (ROOT / "README.md").read_text()
CALLS = re.findall(r"^\w+ (icysixel_\w+)\(", HEADER, re.M)


def make(*words):
    return run("make", "-s", "-C", ROOT, *words, timeout=600)


def files_in(folder):
    return [it for it in Path(folder).rglob("*") if not it.is_dir()]


class TestInstall(UsersTest):
    """The tests share a folder, in which all is installed."""

    @classmethod
    def setUpClass(cls):
        cls.folder = Path(cls.enterClassContext(tempfile.TemporaryDirectory()))
        status, _, errors = make("install", f"PREFIX={cls.folder}")
        assert status == 0, errors.decode()

    def test_uninstall(self):
        """DESTDIR stands before the prefix, and `make uninstall` removes each file."""
        with tempfile.TemporaryDirectory(prefix="with space ") as room:
            words = [f"DESTDIR={room}", "PREFIX=/usr"]
            self.assertEqual(make("install", *words), (0, b"", b""))
            described = Path(room) / "usr/lib/pkgconfig/icysixel.pc"
            self.assertIn("prefix=/usr\n", described.read_text())
            self.assertEqual(len(files_in(room)), len(files_in(self.folder)))
            self.assertEqual(make("uninstall", *words), (0, b"", b""))
            self.assertEqual(files_in(room), [])

    @needs("pkg-config")
    def test_users(self):
        """The library can be used from C, C++, CMake, Python, Go and Lua."""
        self.works(self.folder / "share/doc/icysixel/examples", variables(self.folder))

    @needs("readelf")
    def test_shared_library(self):
        """It exports the calls of the header alone, needs libc alone, and is hardened."""
        others = (ROOT / f"out/{it}/shared/libicysixel.so" for it in ("aarch64", "x86-64-v3"))
        for library in self.folder / "lib/libicysixel.so.0", *others:
            with self.subTest(library=library):
                if not library.exists():
                    self.skipTest("not built: make dist")
                words = "--wide", "--dynamic", "--dyn-syms", "--segments", "--sections"
                told = run("readelf", *words, library)[1].decode()
                names = re.findall(r" (\w+)@@ICYSIXEL_0$", told, re.M)
                self.assertEqual(sorted(names), sorted(CALLS))
                self.assertEqual(re.findall(r"\(NEEDED\).*\[(.*)\]", told), ["libc.so.6"])
                self.assertIn("soname: [libicysixel.so.0]", told)
                self.assertNotRegex(told, "TEXTREL|RPATH|RUNPATH")
                # All relocations are done before the library is used, and are read-only then.
                self.assertRegex(told, r"\(FLAGS\) +.*BIND_NOW")
                self.assertIn(" GNU_RELRO ", told)
                segments = re.findall(r"^ +(LOAD|GNU_STACK) .* ([R ][W ][E ]) 0x", told, re.M)
                self.assertIn(("GNU_STACK", "RW "), segments)
                self.assertNotIn("RWE", [flags for _, flags in segments])
                # What can be written is the start-up code's, and the byte of a failed allocation.
                sizes = re.findall(r" \.(?:data|bss) +\w+ +\w+ +\w+ (\w+)", told)
                self.assertLessEqual(sum(int(it, 16) for it in sizes), 64)
        calls, size = map(int, re.search(r"(\d+) calls in (\d+) KB", README).groups())
        self.assertEqual(calls, len(CALLS))
        self.assertAlmostEqual(SHARED.stat().st_size / 1000, size, delta=10)

    @needs("gcc", "nm")
    def test_memory_hooks(self):
        """Another shared library that contains the archive does not export the memory hooks."""
        library = Path(self.enterContext(tempfile.TemporaryDirectory())) / "other.so"
        whole = f"-Wl,--whole-archive,{self.folder}/lib/libicysixel.a,--no-whole-archive"
        self.assertEqual(run("gcc", "-shared", whole, "-o", library), (0, b"", b""))
        names = run("nm", "-D", library)[1]
        self.assertIn(b" icysixel_new", names)
        self.assertNotIn(b"rattle_", names)


class TestManual(unittest.TestCase):
    PAGES = [*sorted((ROOT / "man").iterdir()), ROOT / "out/icysixel.3"]

    @needs("mandoc")
    def test_format(self):
        """mandoc warns of nothing in the pages."""
        self.assertEqual(run("mandoc", "-Tlint", "-Wwarning", *self.PAGES), (0, b"", b""))

    @needs("groff")
    def test_groff(self):
        """groff warns of nothing in icysixel(3), whose synopsis and text have each call."""
        status, text, warnings = run("groff", "-man", "-Tascii", "-ww", self.PAGES[-1])
        self.assertEqual((status, warnings), (0, b""))
        for name in CALLS:
            with self.subTest(call=name):
                self.assertGreaterEqual(text.decode().count(f" {name}("), 2)
