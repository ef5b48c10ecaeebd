"""Tests the C library: its header, its archives, each call from C, its memory and its examples.

Each program of this folder runs with the archive that LLVM builds, under sanitizers and plain, and
with the archive that Rattle's own compiler builds. FUZZ_COUNT and FUZZ_SEED choose other cases.
"""
import ctypes
import itertools
import os
import re
import tempfile
import unittest
from pathlib import Path

from build import ARCHIVES, HEADERS, MEMORY, ROOT, instructions, needs, run
from vectors import bytes_of, packed_vectors, vectors

HERE = ROOT / "tests/c"
EXAMPLES = ROOT / "examples"

C11 = ["gcc", "-std=c11", "-pedantic", "-Wall", "-Wextra", "-Werror", f"-I{HEADERS}"]
SANITIZERS = ["-fsanitize=address,undefined", "-fno-sanitize-recover=all"]
BUILDS = {"sanitizers": [*SANITIZERS, ARCHIVES[0]], "LLVM": ARCHIVES[:1], "Rattle": ARCHIVES[1:]}
MEMCHECK = ["valgrind", "-q", "--leak-check=full", "--show-leak-kinds=all", "--error-exitcode=9"]
HELGRIND = ["valgrind", "-q", "--tool=helgrind", "--error-exitcode=9"]

NEEDED = {*"memcpy memmove memset rattle_alloc rattle_dealloc rattle_realloc".split()}
# Payloads that are fed in chunks of a length, and the most instructions, a tenth more than they took:
# sixels over what is drawn, in one byte and in two; short runs, in single bytes; runs over a whole
# row; bands, each twice as wide as the one before; and narrow bands below a wide one, each of which
# is released.
SIXELS = b"!200~$" + 200 * (20 * b"?@A~]^Zo" + b"$")
FEEDS = [
    (1, SIXELS, 3_520_000),
    (2, SIXELS, 4_100_000),
    (1, 500 * b"#1!9~$", 710_000),
    (4096, 500 * b"!65535~$", 6_810_000),
    (4096, 500 * b"~-" + b"".join(b"!%d~-" % (2**it) for it in range(1, 12)), 27_300_000),
    ("2 release", b"!65535~-" + 160 * b"~-", 5_500_000),
]

# What the code of a page uses of its host.
HOSTS = {"xterm.md": """
typedef struct { short r, g, b; } ColorRegister;
typedef unsigned short RegisterNum;
enum { MAX_COLOR_REGISTERS = 1024, COLOR_HOLE = 1028 };
typedef struct {
    RegisterNum *pixels;
    ColorRegister *private_color_registers, *color_registers;
    int max_width, max_height, actual_width, actual_height, private_colors;
} Graphic;
void update_color_register(Graphic *, unsigned, int, int, int);
RegisterNum find_color_register(const ColorRegister *, int, int, int);
"""}


def page_code(page):
    """The code of a page for a host, after what it uses of that."""
    blocks = re.findall(r"^```c\n(.*?)^```", page.read_text(), re.M | re.S)
    return HOSTS.get(page.name, "") + "".join(blocks)


class TestC(unittest.TestCase):
    """The tests share a folder, in which each program is compiled once for each build."""

    @classmethod
    def setUpClass(cls):
        cls.folder = Path(cls.enterClassContext(tempfile.TemporaryDirectory()))
        (cls.folder / "all").write_bytes(b"".join(packed_vectors()))

    def succeeds(self, *command, **options):
        """Runs a command, whose status has to be 0, and returns what it writes."""
        command = [str(word) for word in command]
        status, written, errors = run(*command, **{"timeout": 900, **options})
        text = (written + errors)[-4000:].decode(errors="replace")
        self.assertEqual(status, 0, f"{' '.join(command)}\n{text}")
        return written

    def program(self, name, build="LLVM", folder=HERE):
        """The path of a compiled program."""
        program = self.folder / f"{name}.{build}"
        if not program.exists():
            sources = [folder / f"{name}.c", MEMORY, *BUILDS[build]]
            self.succeeds(*C11, "-g", "-O1", "-pthread", *sources, "-o", program)
        return program

    def arguments(self, name, is_brief=False):
        """The arguments of a test program."""
        count = os.environ.get("FUZZ_COUNT", 60 if is_brief else 600)
        random = [count, os.environ.get("FUZZ_SEED", 1)]
        words = {"vectors": [self.folder / "all", *["brief"] * is_brief], "random": random}
        return words.get(name, [self.folder])

    def test_archives(self):
        """They define the calls of the header and no variable, and need six."""
        header = (HEADERS / "icysixel.h").read_text()
        declared = sorted(re.findall(r"^\w+ (icysixel_\w+)\(", header, re.M))
        called = re.findall(r"\b(icysixel_\w+)\(", (HERE / "calls.c").read_text())
        self.assertLessEqual(set(declared), set(called))
        for archive in ARCHIVES:
            with self.subTest(archive=archive.name):
                names = re.findall(r" (\w) (\w+)$", self.succeeds("nm", archive).decode(), re.M)
                self.assertEqual(sorted(name for kind, name in names if kind in "TWV"), declared)
                self.assertLessEqual({name for kind, name in names if kind == "U"}, NEEDED)
                self.assertEqual([name for kind, name in names if kind in "dDbBC"], [])

    def test_programs(self):
        """Each test program passes with each build."""
        for build in BUILDS:
            for name in "calls", "vectors", "allocations", "peak":
                with self.subTest(program=name, build=build):
                    self.succeeds(self.program(name, build), *self.arguments(name))

    @needs("valgrind")
    def test_valgrind(self):
        """Nothing is read or written outside of its block, nothing leaks, no threads conflict."""
        programs = "calls", "vectors", "allocations", "random"
        runs = [*((MEMCHECK, it) for it in programs), (HELGRIND, "random")]
        for build, (tool, name) in itertools.product(("LLVM", "Rattle"), runs):
            with self.subTest(program=name, build=build, tool=tool[2]):
                self.succeeds(*tool, self.program(name, build), *self.arguments(name, True))

    def test_random(self):
        """The builds of both compilers give the same results for random inputs, in threads too."""
        arguments = self.arguments("random")
        llvm, *others = [self.succeeds(self.program("random", it), *arguments) for it in BUILDS]
        self.assertEqual(llvm.count(b"\n"), int(arguments[0]))
        self.assertEqual(others, [llvm, llvm])

    @needs("valgrind")
    def test_instructions(self):
        """Feeds do not go a longer way than they must, which no proof shows."""
        for length, payload, most in FEEDS:
            with self.subTest(length=length, payload=payload[:20]):
                text = b"\x1bPq" + payload + b"\x1b\\"
                words = str(length).split()
                self.assertLess(instructions(self.program("feed"), *words, stdin=text), most)

    def test_examples(self):
        """Each example decodes images of its input, or reports why it rejects them."""
        for place, (command, text, status, output, error) in vectors(HERE / "examples.tsv"):
            with self.subTest(place=place):
                name, *words = command.split()
                program = self.program(name, "sanitizers", EXAMPLES)
                ended = int(status), bytes_of(output), bytes_of(error)
                self.assertEqual(run(program, *words, stdin=bytes_of(text)), ended)

    def test_host_pages(self):
        """The code of each page for a host compiles."""
        code = self.folder / "page.c"
        for page in (EXAMPLES / "hosts").glob("*.md"):
            with self.subTest(page=page.name):
                code.write_text(page_code(page))
                self.succeeds(*C11, "-Wno-unused-function", "-Wno-pedantic", "-fsyntax-only", code)

    def preload(self):
        """The path of libsixel's decoder and encoder by this library."""
        library = self.folder / "preload.so"
        flags = self.succeeds("pkg-config", "--cflags", "--libs", "libsixel").decode().split()
        sources = [*EXAMPLES.glob("preload*.c"), MEMORY, ARCHIVES[0]]
        linked = ["-shared", "-fPIC", "-Wl,-Bsymbolic", "-o", library]
        self.succeeds(*C11, *sources, *flags, *linked)
        return library

    @needs("sixel2png", "pkg-config")
    def test_preload_encoder_example(self):
        """libsixel's calls for encoding write a sequence that decodes to the same pixels."""
        library, text = ctypes.CDLL(self.preload()), bytearray()
        output, dither = ctypes.c_void_p(), ctypes.c_void_p()
        function = ctypes.CFUNCTYPE(*[ctypes.c_int, ctypes.c_void_p] * 2)
        write = function(lambda at, length, _: text.extend(ctypes.string_at(at, length)) or 0)
        library.sixel_output_new(ctypes.byref(output), write, None, None)
        library.sixel_dither_new(ctypes.byref(dither), 16, None)
        self.assertEqual(library.sixel_encode(b"\xff\0\0" * 12, 2, 6, 3, dither, output), 0)
        library.sixel_dither_unref(dither)
        library.sixel_output_unref(output)
        decode = self.program("decode", "LLVM", EXAMPLES)
        self.assertEqual(self.succeeds(decode, stdin=bytes(text)), b"\xff\0\0\xff" * 12)

    @needs("img2sixel", "pkg-config")
    def test_preload_img2sixel(self):
        """img2sixel writes an image by preload_encoder.c; libsixel that for a multiplexer."""
        image = b"P6\n2 2\n255\n" + 4 * b"\xff\0\0"
        env = os.environ | {"LD_PRELOAD": self.preload()}
        for options in "", "-p 16", "-e", "-8", "-t hls", "-I", "-d none", "-w 3", "-c 1x2+0+0":
            with self.subTest(options=options):
                written = self.succeeds("img2sixel", *options.split(), stdin=image, env=env)
                self.assertRegex(written, rb"\A\x1bP9;0;0q[^\x1b]*\x1b\\\Z")
        written = self.succeeds("img2sixel", "-P", stdin=image, env=env)
        self.assertEqual(written, self.succeeds("img2sixel", "-P", stdin=image))

    @needs("mpv", "pkg-config")
    def test_preload_mpv(self):
        """mpv shows a frame with preload_encoder.c."""
        frame = ["--vo=sixel", "--frames=1", "av://lavfi:testsrc=size=64x48"]
        written = self.succeeds("mpv", *frame, env=os.environ | {"LD_PRELOAD": self.preload()})
        self.assertRegex(written, rb"\x1bP9;0;0q.*\x1b\\")

    @needs("sixel2png", "pkg-config")
    def test_preload_example(self):
        """sixel2png shows the same with preload.c as without, in a form without differences."""
        library = self.preload()

        def shows_same(text):
            # Pixels that libsixel does not set are made black.
            variables = {"LD_PRELOAD": str(library)}, {"MALLOC_PERTURB_": "255"}
            runs = [{"stdin": text, "env": os.environ | it} for it in variables]
            ours, theirs = [self.succeeds("sixel2png", **it) for it in runs]
            self.assertEqual((ours[:4], theirs[:4]), (b"\x89PNG", b"\x89PNG"))
            return ours == theirs

        self.succeeds(self.program("peak"), self.folder)
        made = [(self.folder / f"{name}.six").read_bytes() for name in ("photograph", "chart")]
        shown = [map(bytes_of, columns) for _, columns in vectors(HERE / "preload.tsv")]
        for text, adapted in [*shown, *zip(made, made)]:
            with self.subTest(text=text[:40]):
                self.assertEqual(shows_same(text), text == adapted)
                self.assertTrue(adapted == b"none" or shows_same(adapted))
