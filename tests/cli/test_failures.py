"""Runs programs once for each of their allocations, reads and writes, which fails then."""
import itertools
import subprocess
import tempfile
import unittest
from pathlib import Path

from build import ARCHIVES, HEADERS, MEMORY, ROOT, builds_of, needs, run
from vectors import bytes_of, vectors

PAYLOAD = b"#1~$!300~"
DCS = b"\x1bPq" + PAYLOAD + b"\x1b\\"
IMAGE = b"image 300 6 9 0\n" + 1800 * b"\x33\x33\xcc\xff" + b"\n"
PAM = b"P7\nWIDTH 300\nHEIGHT 6\nDEPTH 4\nMAXVAL 255\nTUPLTYPE RGB_ALPHA\nENDHDR\n" + IMAGE[16:-1]
PIXELS = bytes.fromhex("000000ff 0a0000ff ffffffff")
TEXT = b'\x1bP9;1;0q"1;1;3;1#0;2;0;0;0#1;2;100;100;100#0@@?$#1??@$-\x1b\\'
PPM, DRAWN = b"P6 1 1 255\n\xff\0\0", b'\x1bP9;1;0q"1;1;1;1#0;2;100;0;0#0@\x1b\\'
# Arguments of sixel, its input, its output, and what it writes before allocations that fail.
SIXEL = [
    ("payload", PAYLOAD, IMAGE, [b""]),
    ("decode", b"text" + DCS + b"text", IMAGE, [b""]),
    ("pam", DCS, PAM, [b""]),
    ("frames 7", 2 * DCS, 2 * IMAGE, [b"", IMAGE]),
    ("encode 3 1 2", PIXELS, TEXT, [b""]),
    ("draw", PPM, DRAWN, [b""]),
]
# The example filter.c, text around an image, and what the filter writes of each beginning of it.
FILTER = ROOT / "examples/filter.c"
STREAM, FILTERED = b"a\x1bPq#0~~\x1b\\b", b'a\x1bP9;0;0q"1;1;2;6#0;2;0;0;0#0~~\x1b\\b'
BEGINNINGS = [b"", FILTERED[:1], FILTERED[:-1], FILTERED]
RUNS = [f"{it}: out of memory" for it in (
    "run in a payload session", "tagged run in a payload session", "tagged run in a DCS session")]
# The lines of `sixel_tests allocations` that differ, in the order of the allocations of one pass.
CALLS = Path(__file__).with_name("allocations.txt").read_text().splitlines()


def distinct(items):
    """The items, without those that equal the one before."""
    return [it for it, _ in itertools.groupby(items)]


@needs("cc")
class Failures(unittest.TestCase):
    @classmethod
    def setUpClass(cls):
        folder = Path(cls.enterClassContext(tempfile.TemporaryDirectory()))
        cls.shim, cls.failed = folder / "shim.so", folder / "failed"
        options = ["-shared", "-fPIC", "-Wall", "-Wextra", "-Werror", "-o", cls.shim]
        subprocess.run(["cc", *options, Path(__file__).with_name("fail_call.c")], check=True)

    def failures(self, kind, *command, stdin=b"", moved=0):
        """How a program ends, for each of its calls of a kind in turn, which fails.

        A read or a write moves at most `moved` bytes, if this is not 0. If none fails, the program
        succeeds.
        """
        environment = {"LD_PRELOAD": self.shim, "FAILED": self.failed, "MOVED": str(moved)}
        for number in itertools.count(1):
            environment[f"FAIL_{kind}"] = str(number)
            ended = run(*command, stdin=stdin, env=environment)
            if not self.failed.exists():
                self.assertEqual((ended[0], ended[2]), (0, b""))
                return
            self.failed.unlink()
            yield ended

    def test_reads(self):
        """A read that fails is not tried again, and nothing is written before the input ends."""
        for sixel, (arguments, stdin, *_) in itertools.product(builds_of("sixel"), SIXEL):
            with self.subTest(sixel.name, arguments=arguments):
                command = [sixel, *arguments.split()]
                ended = list(self.failures("READ", *command, stdin=stdin, moved=3))
                # The last read is that of the end.
                reads = -(-len(stdin) // 3) + 1
                self.assertEqual(ended, reads * [(1, b"", b"input fault\n")])

    def test_writes(self):
        """A write that fails is not tried again, and a short one is continued."""
        for sixel, (arguments, stdin, output, _) in itertools.product(builds_of("sixel"), SIXEL):
            with self.subTest(sixel.name, arguments=arguments):
                command = [sixel, *arguments.split()]
                ended = self.failures("WRITE", *command, stdin=stdin, moved=97)
                statuses, outputs, errors = zip(*ended)
                self.assertEqual((set(statuses), set(errors)), ({1}, {b"output fault\n"}))
                lengths = [len(it) for it in outputs]
                self.assertTrue(all(output.startswith(it) for it in outputs))
                self.assertTrue(all(0 < b - a <= 97 for a, b in itertools.pairwise(lengths)))
                self.assertTrue(lengths[0] == 0 < len(output) - lengths[-1] <= 97)

    def test_filter(self):
        """The example filter.c reads chunks of any length, and writes each before it reads on."""
        program = self.shim.with_name("filter")
        sources = [FILTER, MEMORY, ARCHIVES[0], f"-I{HEADERS}"]
        subprocess.run(["cc", "-std=c11", *sources, "-o", program], check=True)
        for place, (command, text, *ended) in vectors(ROOT / "tests/c/examples.tsv"):
            name, *words = command.split()
            for moved in range(1, 4) if name == "filter" else ():
                with self.subTest(place=place, moved=moved):
                    environment = {"LD_PRELOAD": self.shim, "MOVED": str(moved)}
                    found = run(program, *words, stdin=bytes_of(text), env=environment)
                    self.assertEqual(found, (int(ended[0]), *map(bytes_of, ended[1:])))
        failures = self.failures("READ", program, stdin=STREAM, moved=1)
        statuses, outputs, errors = zip(*failures)
        self.assertEqual((set(statuses), set(errors)), ({1}, {b"input fault\n"}))
        self.assertEqual(distinct(outputs), BEGINNINGS)
        failures = self.failures("ALLOC", program, stdin=STREAM)
        self.assertEqual({it[::2] for it in failures} - {(0, b"")}, {(1, b"out of memory\n")})
        ended = run("sh", "-c", f"{program} >/dev/full", stdin=STREAM)
        self.assertEqual(ended, (1, b"", b"output fault\n"))

    def test_allocations(self):
        for sixel, row in itertools.product(builds_of("sixel"), SIXEL):
            arguments, stdin, output, beginnings = row
            with self.subTest(sixel.name, arguments=arguments):
                command = [sixel, *arguments.split()]
                self.assertEqual(run(*command, stdin=stdin), (0, output, b""))
                statuses, outputs, errors = zip(*self.failures("ALLOC", *command, stdin=stdin))
                self.assertEqual(set(statuses), {1})
                self.assertEqual(distinct(outputs), beginnings)
                # The first allocations are for the arguments.
                self.assertEqual(distinct(errors), [b"input fault\n", b"out of memory\n"])

    def test_calls(self):
        for program in builds_of("sixel_tests"):
            with self.subTest(program.name):
                usual = run(program, "allocations")[1].decode().splitlines()
                self.assertEqual({it.split(": ")[1] for it in usual}, {"ok", "None"})
                # The first allocations are for the arguments and the image of the calls.
                ended = self.failures("ALLOC", program, "allocations")
                differences = []
                for status, output, _ in itertools.dropwhile(lambda it: it[0] == 1, ended):
                    lines = output.decode().splitlines()
                    self.assertEqual((status, len(lines)), (0, len(usual)))
                    changed = [line for line, other in zip(lines, usual) if line != other]
                    self.assertLessEqual(len(changed), 1, changed)
                    differences.append(changed[0] if changed else None)
                self.assertEqual(distinct(differences), 2 * CALLS)
                # Each of the six rows has tags, in both passes.
                untagged, *tagged = map(differences.count, RUNS)
                self.assertEqual(tagged, 2 * [untagged + 2 * 6])
