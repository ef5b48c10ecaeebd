"""Tests the program `sixel`: arguments, output, errors, statuses and memory.

The expected bytes are computed by hand from docs/FORMAT.md.
"""
import hashlib
import itertools
import math
import os
import random
import re
import shlex
import tempfile
import unittest
from pathlib import Path

from build import ROOT, ProgramTest, builds_of, run
from vectors import bytes_of, image_of, vectors

HERE = ROOT / "tests/cli"
RESULT = re.compile(r"(.*?)(?:(usage )?error: (.*))?")
# The values that stand for N and X in the arguments of runs.tsv.
NO_NUMBERS = ["", "+1", "-1", "1.0", "1e3", "0x1", " 1", "1 ", "x", str(2**64), 23 * "9"]
VALUES = {"N": ["1", "2", "13", "65536"], "X": NO_NUMBERS}

MILLION = b"image 1000000 6 9 0\n" + 6_000_000 * b"\0\0\0\xff" + b"\n"
TOO_FEW = b"buffer size mismatch: expected 268304400 bytes, got 4\n"
# Arguments, standard input, and how `sixel` ends in 200 MB of memory.
MEMORY = [
    ("payload", 15 * b"!65535~" + b"!16975~", (0, MILLION, b"")),
    ("payload", 1_000_000 * b"~", (0, MILLION, b"")),
    ("payload", b'"1;1;8192;8192', (1, b"", b"out of memory\n")),
    ("encode 8190 8190 16", bytes(4), (1, b"", TOO_FEW)),
]

# Kilobytes of address space: 2800 of the program, 3891 of the image of a low sixel, 8192 beside it.
CALLS_MEMORY = 14_800

# The size of a picture, arguments of `draw` that state its defaults, and arguments that do not.
DEFAULTS = [
    (24, 32, "-c 48 -d diffusion -s 7", ["-c 47", "-c 49", "-d none", "-s 8", "-t 0"]),
    (15, 17, "-c 16", ["-c 15", "-c 17"]),
    (80, 60, "-c 256", ["-c 255"]),
]

# Arguments of `draw`, three grays, and how they are drawn in black and white. 90 and 7/16 of what
# it passes on is 129 with 8 eighths, and 124 with 7. The squared distances of 150 are 67500 from
# black and 33075 from white. The mean of the least ones is 11475 and 11537 in the last two lines,
# of which three times is 34425 and 34611.
GRAYS = [
    ("-t 0", [90, 90, 90], [0, 255, 0]),
    ("-t 0 -s 8", [90, 90, 90], [0, 255, 0]),
    ("-s 7 -t 0", [90, 90, 90], [0, 0, 255]),
    ("-s 1 -t 0", [90, 90, 90], [0, 0, 0]),
    ("-d none -t 34425", [90, 150, 90], [0, 255, 0]),
    ("-t 34426 -d none", [90, 150, 90], [0, 0, 0]),
    ("-d none", [15, 150, 15], [0, 255, 0]),
    ("-d none", [16, 150, 16], [0, 0, 0]),
]

# Arguments of `draw`, colored pixels, and how they are drawn in black and white. The gray of green
# is 149. The squared distances of red are 65025 from black and 130050 from white, and that of its
# gray 76 is 17328 from black. Three times the mean is 83601 in colors and 22278 in grays. A red
# between two white pixels becomes white above 65025, the difference of its distances.
GREEN, RED, WHITE = (0, 255, 0), (255, 0, 0), (255, 255, 255)
STRIPES = [*3 * [WHITE, RED], WHITE]
HUES = [
    ("-d none -t 0", [GREEN], [0]),
    ("-d none", [GREEN], [255]),
    ("-d ordered -t 0 -s 1", [GREEN], [255]),
    ("-d diffusion -t 0", [GREEN], [255]),
    ("-d none", STRIPES, [255, 0, 255, 0, 255, 0, 255]),
    ("-d none -t 65025", STRIPES, [255, 0, 255, 0, 255, 0, 255]),
    ("-d none -t 65026", STRIPES, 7 * [255]),
    ("-d none -t 83601", STRIPES, 7 * [255]),
]

# Tints whose refined palette of two has the grays 130 and 199. Their own grays are 139, 118, 211 and
# 184, at the squared distances 243, 432, 432 and 675. The root of the mean is 21, so the pattern
# moves a gray by at most 10, and none gets the other entry. By the colors the mean is 2650. A quarter
# of it is 662, so the gray 184 would not stay. The amplitude would be 51, and the pattern would move
# the gray of pixel 11 by 20, so that 130 is nearer.
TINTS = [(103, 155, 155), (155, 103, 103), (165, 231, 231), (231, 165, 165)]

# Strengths, a row of grays, and how it is drawn in black and the gray 204 by ordered dithering. The
# mean squared errors are 20009 and 20004, so the automatic amplitude is 255. It moves the last
# pixel up by 110, unless its squared distance to black is at most 12.
NEAR = [
    ("", [100, 100, 3], [0, 0, 204]),
    ("", [100, 100, 2], [0, 0, 0]),
    ("-s 255", [100, 100, 2], [0, 0, 204]),
]

# The most colors of a palette, and by how many 32nds its entries are spread for diffusion.
SPREADS = [(65, 0), (64, 1), (17, 1), (16, 2), (3, 2), (2, 16)]
# The pixels of a gradient, and as many of one color.
GRADIENT = [(5 * x, 7 * y, 3 * (x + y)) for y in range(36) for x in range(48)]
FLAT = [(0, 0, 255)] * len(GRADIENT)

# A folder of files of other programs, with expected.tsv, whose first line has the titles.
SAMPLES = os.environ.get("SAMPLES")
# The command that decodes a vector of these settings.
COMMANDS = {"payload": "payload", "dcs": "decode"}


def outcome(result):
    """How a program ends for a column: images or bytes, and then an error."""
    output, usage, error = RESULT.fullmatch(result).groups(default="")
    none, *images = output.split("image ")
    texts = [bytes_of(output)] if none else [written(it) for it in images if it]
    error = error and f"{error}\n"
    return 2 if usage else int(error != ""), b"".join(texts), error.encode()


def written(text):
    """What the program writes of the image that a column spells."""
    return b"image %d %d %d %d\n%s\n" % image_of(text)


def registers(text):
    """The percentages of the registers that SIXEL output defines."""
    found = re.findall(rb"#\d+;2;(\d+);(\d+);(\d+)", text)
    return {tuple(int(it) for it in percentages) for percentages in found}


def spread(entry, mean, amount):
    """The percentages of an entry that is moved away from a mean color by 32nds."""
    channels = [(255 * percentage + 50) // 100 for percentage in entry]
    moved = [abs(channel - it) * amount // 32 for channel, it in zip(channels, mean)]
    signed = [-by if channel < it else by for by, channel, it in zip(moved, channels, mean)]
    limited = [min(max(channel + by, 0), 255) for by, channel in zip(signed, channels)]
    return tuple((100 * channel + 127) // 255 for channel in limited)


class TestPrograms(ProgramTest):
    name = "sixel"

    def test_runs(self):
        for place, (command, text, result) in vectors(HERE / "runs.tsv"):
            self.name, *words = shlex.split(command)
            for arguments in itertools.product(*(VALUES.get(it, [it]) for it in words)):
                with self.subTest(place=place):
                    self.ends(arguments, bytes_of(text), outcome(result))

    def test_failing_descriptors_and_arguments(self):
        for _, (self.name, words, error) in vectors(HERE / "failing.tsv"):
            self.fails(words, b"#1~", error)

    def test_palette_file(self):
        """Its pixels are the entries, of which the nearest one is drawn. The last file counts."""
        with tempfile.NamedTemporaryFile() as file:
            for place, (palette, result) in vectors(HERE / "palettes.tsv"):
                with self.subTest(place=place):
                    Path(file.name).write_bytes(bytes_of(palette))
                    arguments = ["draw", "-p", "/missing", "-d", "none", "-p", file.name]
                    self.ends(arguments, b"P5 3 1 255\n\x10\xf0\x90", outcome(result))

    def drawn(self, program, words, picture):
        """The output of `draw` for a picture that it accepts."""
        status, output, errors = run(program, "draw", *words.split(), stdin=picture)
        self.assertEqual((status, errors), (0, b""))
        return output

    def test_defaults(self):
        """Arguments that state the defaults change nothing, others do."""
        for program in self.builds():
            for width, height, same, others in DEFAULTS:
                with self.subTest(program=program.name, same=same):
                    noise = random.Random(1).randbytes(3 * width * height)
                    picture = b"P6 %d %d 255\n%s" % (width, height, noise)
                    text = self.drawn(program, "", picture)
                    self.assertEqual(text, self.drawn(program, same, picture))
                    for words in others:
                        self.assertNotEqual(text, self.drawn(program, words, picture), words)

    def test_black_and_white(self):
        """Strengths, tolerances and their defaults in a given palette."""
        # No gray is so near to an entry that it stays.
        noise = bytes(3 + it % 250 for it in random.Random(1).randbytes(20000))
        error = sum(3 * min(it, 255 - it) ** 2 for it in noise) // len(noise)
        levels, picture = math.isqrt(4 * error), b"P5 200 100 255\n" + noise
        with tempfile.NamedTemporaryFile() as file:
            Path(file.name).write_bytes(b"P5 2 1 255\n\0\xff")
            for program in self.builds():
                for words, grays, drawn in GRAYS:
                    with self.subTest(program=program.name, words=words):
                        words += f" -p {file.name}"
                        text = self.drawn(program, words, b"P5 3 1 255\n" + bytes(grays))
                        pixels = run(program, "pam", stdin=text)[1].split(b"ENDHDR\n")[1]
                        self.assertEqual(list(pixels[:12:4]), drawn)
                ordered = [
                    self.drawn(program, f"-p {file.name} -d ordered {it}", picture)
                    for it in ("", f"-t {2 * error} -s {levels}", f"-t {2 * error} -s {levels + 1}")
                ]
                self.assertEqual(ordered[0], ordered[1])
                self.assertNotEqual(ordered[0], ordered[2])

    def test_near_colors(self):
        """The automatic pattern moves no color that is near to an entry."""
        with tempfile.NamedTemporaryFile() as file:
            Path(file.name).write_bytes(b"P5 2 1 255\n\0\xcc")
            for program, (words, grays, drawn) in itertools.product(self.builds(), NEAR):
                with self.subTest(program=program.name, words=words, grays=grays):
                    words += f" -d ordered -t 0 -p {file.name}"
                    text = self.drawn(program, words, b"P5 3 1 255\n" + bytes(grays))
                    pixels = run(program, "pam", stdin=text)[1].split(b"ENDHDR\n")[1]
                    self.assertEqual(list(pixels[:12:4]), drawn)

    def test_hues(self):
        """In grays the brightness is drawn. Only undithered pixels with `-t` keep their colors."""
        with tempfile.NamedTemporaryFile() as file:
            Path(file.name).write_bytes(b"P5 2 1 255\n\0\xff")
            for program, (words, colors, drawn) in itertools.product(self.builds(), HUES):
                with self.subTest(program=program.name, words=words):
                    picture = b"P6 %d 1 255\n%s" % (len(colors), b"".join(map(bytes, colors)))
                    text = self.drawn(program, f"-p {file.name} {words}", picture)
                    pixels = run(program, "pam", stdin=text)[1].split(b"ENDHDR\n")[1]
                    self.assertEqual(list(pixels[: 4 * len(colors) : 4]), drawn)

    def test_refined_grays(self):
        """In a refined palette of grays, the pattern's amplitude is by their brightness."""
        picture = b"P6 32 1 255\n" + 8 * b"".join(map(bytes, TINTS))
        for program in self.builds():
            with self.subTest(program=program.name):
                text = self.drawn(program, "-c 2 -d ordered -t 0", picture)
                pixels = run(program, "pam", stdin=text)[1].split(b"ENDHDR\n")[1]
                self.assertEqual(list(pixels[: 4 * 32 : 4]), 8 * [130, 130, 199, 199])

    def test_spread(self):
        """Few entries are spread for diffusion, as the model says, but not those of flat art."""
        mean = [sum(it) // len(GRADIENT) for it in zip(*GRADIENT)]
        picture = b"P6 48 36 255\n%s" % b"".join(map(bytes, GRADIENT))
        flat = b"P6 48 72 255\n%s" % b"".join(map(bytes, GRADIENT + FLAT))
        for program, (count, amount) in itertools.product(self.builds(), SPREADS):
            with self.subTest(program=program.name, count=count):
                entries = registers(self.drawn(program, f"-c {count} -d none", picture))
                text = self.drawn(program, f"-c {count}", picture)
                self.assertEqual(registers(text), {spread(it, mean, amount) for it in entries})
        for program in self.builds():
            entries = registers(self.drawn(program, "-c 16 -d none", flat))
            self.assertEqual(registers(self.drawn(program, "-c 16", flat)), entries)

    def test_files(self):
        """Each file is drawn, also after one that fails. Names follow the options."""
        with tempfile.NamedTemporaryFile() as file:
            Path(file.name).write_bytes(b"P6 1 1 255\n\xff\0\0")
            sequence = b'\x1bP9;1;0q"1;1;1;1#0;2;100;0;0#0@\x1b\\'
            missing = b"/missing: No such file or directory (os error 2)\n"
            self.ends(["draw", file.name], b"P5 1 1 255\n\0", (0, sequence, b""))
            words = ["draw", "-c", "2", file.name, "/missing", file.name]
            self.ends(words, b"", (1, 2 * sequence, missing))
            dashed = b"-d: No such file or directory (os error 2)\n"
            self.ends([*words[:4], "-d"], b"", (1, sequence, dashed))

    def test_files_with_options(self):
        """The options and the palette file are those of each file that is named."""
        folder = Path(self.enterContext(tempfile.TemporaryDirectory()))
        palette, picture, grays = (folder / it for it in ("palette", "picture", "grays"))
        palette.write_bytes(b"P6 2 1 255\n\0\xff\0\0\0\xff")
        picture.write_bytes(b"P6 1 1 255\n\x10\xf0\x10")
        grays.write_bytes(b"P5 2 1 255\n\0\xff")
        green = b'\x1bP9;1;0q"1;1;1;1#0;2;0;100;0#0@\x1b\\'
        words = ["draw", "-p", palette, "-d", "none", picture, picture]
        self.ends(words, b"", (0, 2 * green, b""))
        mean = b'\x1bP9;1;0q"1;1;2;1#0;2;50;50;50#0@@\x1b\\'
        self.ends(["draw", "-c", "1", grays], b"", (0, mean, b""))

    def test_largest_image(self):
        """67 million pixels of background are decoded, and encoded again, without an error."""
        program = self.builds()[0]
        pixels = '"$0" payload | tail -c +21 | head -c 268304400'
        bands = 1365 * b"#0!8190~$-"
        text = b'\x1bP9;1;0q"1;1;8190;8190#0;2;0;0;0%s\x1b\\' % bands
        script = f'{pixels} | "$0" encode 8190 8190 2'
        ended = run("sh", "-c", script, program, stdin=b'"1;1;8190;8190', timeout=600)
        self.assertEqual(ended, (0, text, b""))

    def test_memory(self):
        for arguments, stdin, expected in MEMORY:
            self.ends(arguments.split(), stdin, expected, memory=200_000)

    def test_session_memory(self):
        """A session has no rows for bands without a set pixel above its only one."""
        for program in builds_of("sixel_tests"):
            with self.subTest(program.name):
                ended = run(program, "allocations", memory=CALLS_MEMORY)
                self.assertEqual((ended[0], ended[2]), (0, b""))
                self.assertEqual(ended[1].count(b"\na low sixel: ok\n"), 2)

    @unittest.skipUnless(SAMPLES, "SAMPLES does not name a folder of samples")
    def test_samples(self):
        """Each file, with the arguments, status and SHA-256 of standard output."""
        rows = (Path(SAMPLES) / "expected.tsv").read_text().splitlines()[1:]
        self.assertTrue(rows)
        for file, arguments, status, digest in (it.split("\t") for it in rows):
            for program in self.builds():
                with self.subTest(program=program.name, file=file):
                    stdin = (Path(SAMPLES) / file).read_bytes()
                    ended = run(program, *arguments.split(), stdin=stdin)
                    found = (str(ended[0]), hashlib.sha256(ended[1]).hexdigest())
                    self.assertEqual(found, (status, digest))

    def test_vectors(self):
        """After a complete DCS sequence, other bytes would be one more: they are left out.

        The program encodes square pixels and a transparent background.
        """
        rows = []
        for place, (settings, text, result) in vectors("images.tsv"):
            if settings in COMMANDS:
                rows.append((place, COMMANDS[settings], bytes_of(text), f"image {result}"))
        for place, (text, fed, result) in vectors("strings.tsv"):
            consumed, status = fed.split(" ", 1)
            data = bytes_of(text)[: int(consumed) if status == "complete" else None]
            for length in (1, 5) if data else ():
                rows.append((place, f"frames {length}", data, f"image {result}"))
        for place, (colors, column, result) in vectors("texts.tsv"):
            width, height, p1, p2, pixels = image_of(column)
            if (p1, p2) == (9, 1):
                rows.append((place, f"encode {width} {height} {colors}", pixels, result))
        for place, arguments, stdin, result in rows:
            with self.subTest(place=place):
                self.ends(arguments.split(), stdin, outcome(result))
