"""Tests programs for a terminal's stream: the recorder, and what mutated samples do to each.

SAMPLES names a folder of SIXEL files, which are recorded too. FUZZ_SEED chooses other mutants.
"""
import ctypes
import itertools
import os
import random
import re
import subprocess
import sys
import tempfile
import unittest
from pathlib import Path

from build import ARCHIVES, MEMORY, ROOT, run
from c import test_c, test_view
from library import SHARED, call
from vectors import TERMINATOR, bytes_of, vectors

SAMPLES = os.environ.get("SAMPLES")
# Programs that read mutated samples, and their arguments.
FILTERS = [("filter", "-w 800 -h 480"), ("recorder", "80x24 10x20"), ("terminal", "")]
MUTANTS = 200
TOKENS = [b"!", b'"', b"#", b"$", b"-", b";", b"9", b"99999", b"q", b"~", b"\x1b"]
# An image and its end. Its introducer follows no byte of a character, and no ESC that tmux doubles.
IMAGE = re.compile(rb"((?<!\x1b)\x1bP[\d;]*q[^\x1b\x9c]*(?:\x1b\\|\x9c)"
                   rb"|(?<![\x80-\xff])\x90[\d;]*q[^\x1b\x9c]*(?:\x1b\\|\x9c))")
# Bytes around an image: characters, a title, other DCS sequences, and an image that tmux passes on.
BEFORE = b"a\r\n\xd0\x90q \x1b]0;title\x07\x1b[1m\x1bP$q\"p\x1b\\"
AFTER = b"\x1bPtmux;\x1b\x1bPq~\x1b\x1b\\\x1b\\\x1b[0m\x1bP1+q544e\x1b\\\x1b"
# Sizes of a screen in cells and of a cell in pixels.
SCREENS = [((80, 24), (10, 20)), ((2, 1), (3, 7)), ((1, 1), (1, 1))]
# The levels that a channel of a register can have.
LEVELS = {(255 * percent + 50) // 100 for percent in range(101)}


class Shape(ctypes.Structure):
    """icysixel_shape."""

    _fields_ = [(it, ctypes.c_size_t) for it in (
        "width", "height", "drawn_height", "raster_width", "raster_height", "first_row", "bytes")]
    _fields_ += [("ignored", ctypes.c_uint64)]
    _fields_ += [(it, ctypes.c_uint16) for it in ("pixel_width", "pixel_height")]
    _fields_ += [(it, ctypes.c_uint8) for it in ("p1", "p2", "is_complete", "is_empty")]


class Decoder:
    """A decoder whose images are those of terminals. They share its registers."""

    def __init__(self):
        self.handle, self.library = (ctypes.c_void_p * 2)(), ctypes.CDLL(str(SHARED))
        call("icysixel_new", self.handle)
        self.library.icysixel_set_height(self.handle, 2)
        self.library.icysixel_set_lenient(self.handle, 1)

    def __del__(self):
        self.library.icysixel_free(self.handle)

    def shows(self, sequence, columns=10**6, rows=10**6):
        """The P2, the pixel shape and the rows of an image, cropped."""
        shape = Shape()
        call("icysixel_decode", self.handle, sequence, len(sequence), ctypes.byref(shape))
        pixels = (ctypes.c_uint8 * shape.bytes)()
        layout = (ctypes.c_size_t * 3)()
        call("icysixel_copy_pixels", self.handle, 0, shape.height, layout, pixels, shape.bytes)
        stride, width = 4 * shape.width, 4 * min(columns, shape.width)
        starts = range(0, stride * min(rows, shape.height), stride or 1)
        return shape.p2, shape.pixel_height, [bytes(pixels[it:it + width]) for it in starts]


def is_exact(rows):
    """Whether a palette can have the colors of these rows exactly."""
    colors = set().union(*(memoryview(it).cast("I") for it in rows))
    levels = {it for color in colors for it in color.to_bytes(4, sys.byteorder)[:3]}
    return len(colors) <= 256 and levels <= LEVELS


def payloads():
    """The DCS sequences of the test vectors."""
    for _, (settings, text, _) in vectors("images.tsv"):
        words = dict(it.partition("=")[::2] for it in settings.split())
        parameters = ";".join(words.get(it, "") for it in ("p1", "p2"))
        data = bytes_of(text)
        if "payload" in words and not TERMINATOR.search(data):
            yield b"\x1bP%bq%b\x1b\\" % (parameters.encode(), data)


def samples():
    """The files of SAMPLES."""
    return [it.read_bytes() for it in sorted(Path(SAMPLES).glob("*.six"))] if SAMPLES else []


def mutant(chance, text):
    """A text with up to eight mutations, of which half are in its header."""
    text = bytearray(text)
    for _ in range(chance.randint(1, 8)):
        at = chance.randrange(chance.choice([8, len(text) + 1]))
        count = chance.randint(1, 99)
        match chance.randrange(4):
            case 0:
                text[at:at + 1] = bytes([chance.randrange(256)])
            case 1:
                text[at:at + count] = b""
            case 2:
                text[at:at] = chance.choice(TOKENS) * chance.choice([1, count])
            case _:
                text[at:at] = text[at:at + count]
    return bytes(text)


class TestStreams(unittest.TestCase):
    @classmethod
    def setUpClass(cls):
        cls.folder = Path(cls.enterClassContext(tempfile.TemporaryDirectory()))
        cls.shim = cls.folder / "shim.so"
        sources = [ROOT / "tests/cli/fail_call.c", "-o", cls.shim]
        subprocess.run(["gcc", "-shared", "-fPIC", *sources], check=True)

    def compiled(self, source, *options):
        """The path of a compiled program."""
        program = self.folder / source.stem
        sources = [source, MEMORY, ARCHIVES[0], *options, "-o", program]
        subprocess.run([*test_c.C11, "-g", "-O1", *sources], check=True)
        return program

    def test_recorder(self):
        """A recording shows the images of the stream, cropped, or its status says that not."""
        recorder = self.compiled(ROOT / "examples/recorder.c")
        streams = [BEFORE + it + AFTER for it in payloads()]
        self.assertGreater(len(streams), 100)
        streams += [b"".join(streams[:9]), *(BEFORE + it + AFTER for it in samples())]
        for number, stream in enumerate(streams):
            screen, cell = SCREENS[number % len(SCREENS)]
            with self.subTest(stream=stream[:200], screen=screen, cell=cell):
                env = {"LD_PRELOAD": self.shim, "MOVED": str(1 + number % 5)}
                words = ["%dx%d" % it for it in (screen, cell)]
                status, recording, errors = run(recorder, *words, stdin=stream, env=env)
                self.assertEqual(errors, b"")
                clip = [count * size for count, size in zip(screen, cell)]
                before, after = Decoder(), Decoder()
                shown = [before.shows(it, *clip) for it in IMAGE.findall(stream)]
                found = [after.shows(it) for it in IMAGE.findall(recording)]
                shown = [it for it in shown if it[2]]
                self.assertEqual(status, int(found != shown))
                if len(shown) == 1 and is_exact(shown[0][2]):
                    self.assertEqual(found, shown)
                texts = (b"".join(IMAGE.split(it)[::2]) for it in (stream, recording))
                self.assertEqual(*texts)

    def test_recorder_failures(self):
        """A read or a write that fails is an error, and so is memory that is missing."""
        recorder = f"{self.compiled(ROOT / 'examples/recorder.c')} 80x24 10x20"
        failures = ("</", "Is a directory"), (">/dev/full", "No space left on device")
        for redirection, reason in failures:
            ended = run("sh", "-c", f"{recorder} {redirection}", stdin=BEFORE)
            self.assertEqual(ended, (1, b"", f"recorder: {reason}\n".encode()))
        failed, found = self.folder / "failed", set()
        for number in itertools.count(1):
            env = {"LD_PRELOAD": self.shim, "FAILED": failed, "FAIL_ALLOC": str(number)}
            status, _, errors = run(*recorder.split(), stdin=b"\x1bP9;1q~\x1b\\", env=env)
            found.add((status, errors))
            if not failed.exists():
                break
            failed.unlink()
        # Standard output needs no buffer.
        self.assertEqual(found, {(1, b"out of memory\n"), (0, b"")})

    def mutants(self):
        """Mutated samples."""
        chance = random.Random(int(os.environ.get("FUZZ_SEED", 1)))
        texts = [it for it in payloads() if len(it) < 4096] + samples()
        return [mutant(chance, chance.choice(texts)) for _ in range(MUTANTS)]

    def survives(self, program, *arguments, stdin=b"", allowed=(0, 1)):
        """Runs a program with sanitizers, which report an error by a status of their own."""
        env = os.environ | {"UBSAN_OPTIONS": "exitcode=99", "ASAN_OPTIONS": "exitcode=99"}
        status, _, errors = run(program, *arguments, stdin=stdin, env=env)
        self.assertIn(status, allowed, errors[-2000:].decode(errors="replace"))

    def test_mutants(self):
        """No mutated sample makes a program read or write outside of its memory, or leak."""
        stdin = b"text".join(self.mutants())
        for name, arguments in FILTERS:
            with self.subTest(program=name):
                program = self.compiled(ROOT / f"examples/{name}.c", *test_c.SANITIZERS)
                self.survives(program, *arguments.split(), stdin=stdin)

    def files(self):
        """Files with the mutated samples."""
        files = [self.folder / f"{number}.six" for number in range(MUTANTS)]
        for file, text in zip(files, self.mutants()):
            file.write_bytes(text)
        return files

    def test_mutants_in_hosts(self):
        """The same for the code of each page for a host."""
        for source in "foot", "tmux", "xterm":
            with self.subTest(page=source):
                code = test_c.page_code(ROOT / f"examples/hosts/{source}.md")
                (self.folder / "page.c").write_text(code)
                options = *test_c.SANITIZERS, f"-I{self.folder}"
                program = self.compiled(ROOT / f"tests/c/{source}.c", *options)
                self.survives(program, *self.files(), allowed=[0])

    def test_mutants_in_viewer(self):
        """The same for the viewer."""
        viewer = test_view.build(self.folder, *test_c.SANITIZERS)
        self.survives(viewer, "-w", "80", "-h", "80", *self.files())
