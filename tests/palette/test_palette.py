"""Tests palette indices, refined palettes and compact output of the C library against models.

The models are written from the documents. Images are random and small. FUZZ_COUNT and FUZZ_SEED
choose others.
"""
import ctypes
import itertools
import math
import os
import random
import re
import tempfile
import unittest
from pathlib import Path

from build import builds_of, needs, run
from library import AUTO, CLEAR, COMPACT, DIFFUSION, INDEXED, OFF, ORDERED, PLAIN, REFINED, RGB
from library import SHARED, Encoding, call, encoded
from palette.refined import distance, grid_color, nearest, refined_entries

COUNT, SEED = int(os.environ.get("FUZZ_COUNT", "300")), int(os.environ.get("FUZZ_SEED", "1"))
# Where the error of a pixel goes: sixteenths, columns ahead, rows down. The last takes the rest.
SHARES = [(7, 1, 0), (3, -1, 1), (5, 0, 1), (None, 1, 1)]
# What `sixel draw` calls the kinds of dithering.
KINDS = {OFF: "none", DIFFUSION: "diffusion", ORDERED: "ordered"}
LIBSIXEL = "sixel2png -i {file} -o - | convert png:- -depth 8 rgb:-"
# ImageMagick 6 applies the palette of a SIXEL file only as it writes a format with a palette.
IMAGEMAGICK = "convert six:{file} miff:- | convert miff:- -depth 8 rgb:-"

# The summed errors of the refined palettes of the pictures below, by the number of colors. They are
# those of `refined_entries`.
ERRORS = {
    "sky": {256: 133688, 64: 536790, 16: 2088805},
    "rings": {256: 231756, 64: 1582072, 16: 6932044},
    "grain": {256: 600446, 64: 1580108, 16: 3955220},
}
SMALLEST = "convert ppm:{file} png24:- | img2sixel -E size -d none -p {few}"


class Refined(ctypes.Structure):
    _fields_ = [("colors", ctypes.c_size_t), ("error", ctypes.c_uint64)]


def nearest_of(colors, pixels):
    return [nearest(colors, it) if it[3] >= 128 else 0 for it in pixels]


def mean_error(colors, pixels):
    """The mean squared error of a palette, and whether it has one."""
    errors = [distance(colors[nearest(colors, it)], it) for it in pixels if it[3] >= 128]
    return sum(errors) // max(len(errors), 1), sum(errors) > 0


def automatic_tolerance(kind, colors, pixels):
    mean, has_error = mean_error(colors, pixels)
    return max(12, mean) * {OFF: 3, ORDERED: 2, DIFFUSION: 1}[kind] if has_error else 0


def automatic_pattern(colors, pixels, is_refined=False):
    """The amplitude for a palette, and the squared distance below which a color stays."""
    mean, _ = mean_error(colors, pixels)
    amplitude = math.isqrt(mean if is_refined else 4 * mean)
    return {
        "amplitude": min(amplitude, 255),
        "limit": 1 + (mean // 4 if is_refined else min(mean // 4, 12)),
    }


def chosen(colors, color, tolerance, neighbors):
    """The index for a color that keeps a neighbor's entry, the first of equally near ones."""
    best = nearest(colors, color)
    kept = min(neighbors, key=lambda it: distance(colors[it], color), default=best)
    is_kept = distance(colors[kept], color) < distance(colors[best], color) + tolerance
    return kept if is_kept else best


def are_gray(colors):
    return all(len(set(it)) == 1 for it in colors)


def source(colors, pixels):
    """The pixels that are mapped: in a palette of grays their brightness."""
    if not are_gray(colors):
        return pixels
    levels = ((77 * r + 150 * g + 29 * b) // 256 for r, g, b, _ in pixels)
    return [(level, level, level, it[3]) for level, it in zip(levels, pixels)]


def moved(width, place, color, amplitude, shift):
    """A color moved by the pattern of Kolas, by up to half the amplitude."""
    row, column = divmod(place, width)
    for channel in range(3):
        threshold = (column + 237 * row + shift * channel) * 119 % 256
        offset = round((2 * threshold - 255) * amplitude / 512)
        yield min(max(color[channel] + offset, 0), 255)


def cheapest(width, pixels, colors, tolerance=0):
    """Undithered indices: of each pixel's nearest entry and its neighbors' the cheapest one."""
    near, height = nearest_of(colors, pixels), len(pixels) // width
    indices = [None] * len(pixels)
    columns = itertools.product(range(0, height, 6), range(width), range(6))
    for (column, row), top in (((x, top + line), top) for top, x, line in columns):
        if row >= height:
            continue
        def entry(list_of, across, down):
            place = down * width + across
            inside = 0 <= across < width and top <= down < min(top + 6, height)
            return list_of[place] if inside and pixels[place][3] >= 128 else None

        def cost(index):
            beside = [(indices, column - 1), (near, column + 1)]
            lacking = sum(
                all(entry(list_of, across, it) != index for it in range(top, top + 6))
                for list_of, across in beside
            )
            free = entry(indices, column, row - 1) == index
            squares = distance(colors[index], pixels[row * width + column])
            return 2 * squares + tolerance * (0 if free else lacking)

        around = [entry(near, column, row), entry(indices, column - 1, row)]
        around += [entry(indices, column, row - 1), entry(near, column + 1, row)]
        is_shown = around[0] is not None
        entries = (it for it in around if it is not None)
        indices[row * width + column] = min(entries, key=cost) if is_shown else 0
    return indices


def ordered(width, pixels, colors, amplitude, limit=0, tolerance=0):
    """The undithered indices of colors that are moved by the pattern, of grays alike."""
    shift = 0 if are_gray(colors) else 112
    target = []
    for place, pixel in enumerate(pixels):
        stays = limit and distance(colors[nearest(colors, pixel)], pixel) < limit
        color = pixel[:3] if stays else moved(width, place, pixel, amplitude, shift)
        target.append((*color, pixel[3]))
    return cheapest(width, target, colors, tolerance)


def mapped(width, pixels, colors, strength=0, tolerance=0):
    """Indices with error diffusion, and entries of neighbors that are kept.

    Each visit adds shares of its error to pixels still to come.
    """
    height = len(pixels) // width
    received = [[0, 0, 0] for _ in pixels]
    indices = [0] * len(pixels)
    for row, step in itertools.product(range(height), range(width)):
        ahead = -1 if row % 2 else 1
        column = width - 1 - step if row % 2 else step
        place = row * width + column
        *color, alpha = pixels[place]
        if alpha < 128:
            continue
        wanted = [min(max(16 * c + e, 0), 4080) for c, e in zip(color, received[place])]
        around = [place - ahead] * (step > 0) + [place - width] * (row % 6 > 0)
        neighbors = [indices[it] for it in around if pixels[it][3] >= 128]
        target = [(it + 8) // 16 for it in wanted]
        indices[place] = chosen(colors, target, tolerance, neighbors)
        for channel, entry in enumerate(colors[indices[place]]):
            error = rest = (wanted[channel] - 16 * entry) * strength // 8
            for part, right, down in SHARES:
                share = rest if part is None else part * error // 16
                rest -= share
                at, below = column + right * ahead, row + down
                if 0 <= at < width and below < height:
                    received[below * width + at][channel] += share
    return indices


def image(rng):
    """A random image: its width, and pixels of few or many colors, some of them transparent."""
    width, height = rng.randint(1, 12), rng.randint(1, 9)
    step, clear = rng.choice([(1, 0), (1, 0.3), (51, 0.1), (85, 0)])
    pixels = []
    for _ in range(width * height):
        color = (rng.randrange(0, 256, step) for _ in range(3))
        pixels.append((*color, 127 if rng.random() < clear else 128))
    return width, pixels


def pictures():
    """Pictures of 96 x 64 pixels by name: a gradient, rings of color, and a grainy gradient."""
    rng = random.Random(7)
    places = list(itertools.product(range(64), range(96)))
    sky = [(2 * row, 40 + 2 * column, 255 - row - column, 255) for row, column in places]
    far = [(row - 30) ** 2 + (column - 50) ** 2 for row, column in places]
    rings = [(it * 7 % 256, it // 9 % 256, 255 - it // 13 % 256, 255) for it in far]
    grain = [(*(max(min(it + rng.randint(-24, 24), 255), 0) for it in color), 255)
             for *color, _ in sky]
    return {"sky": sky, "rings": rings, "grain": grain}


def shown(colors, pixels, indices):
    """The colors that a terminal shows for the indices of pixels, None for a transparent one."""
    pairs = zip(indices, pixels)
    return [grid_color(colors[at]) if it[3] >= 128 else None for at, it in pairs]


def drawn(text):
    """The colors of the first row that an output draws, None for a pixel that is not drawn."""
    width, body = re.fullmatch(rb'\x1bP9;1;0q"1;1;(\d+);1(.*)\x1b\\', text).groups()
    row, colors, register, column = int(width) * [None], {}, None, 0
    for token in re.findall(rb"#[\d;]+|!\d+[?-~]|[?-~$-]", body):
        if token[:1] == b"#":
            register, *definition = map(int, token[1:].split(b";"))
            if definition:
                colors[register] = tuple((it * 255 + 50) // 100 for it in definition[1:])
        elif token in b"$-":
            column = 0
        else:
            count = int(token[1:-1] or 1)
            if token[-1] - ord("?") == 1:
                row[column : column + count] = count * [colors[register]]
            column += count
    return row


@unittest.skipUnless(SHARED.exists(), f"not built: {SHARED}")
class PaletteTest(unittest.TestCase):
    """The calls on random images."""

    def test_indices(self):
        """Undithered, ordered and diffused indices are those of the models."""
        rng = random.Random(SEED)
        for turn in range(COUNT):
            width, pixels = image(rng)
            count = rng.choice([*range(1, 10), 15, 16])
            colors = [tuple(rng.randbytes(3)) for _ in range(count)]
            colors += rng.sample(colors, rng.randint(0, 1))
            if rng.random() < 0.2:
                colors = [(it, it, it) for it, *_ in colors]
            shades = source(colors, pixels)
            amount = rng.choice([1, 3, 7, 8, 64, 255])
            exact, kept = {"tolerance": 0}, {"tolerance": rng.choice([1, 12, 200, 5000])}
            cases = [(OFF, amount, it, it) for it in (exact, kept)]
            cases += [(ORDERED, amount, it, it | {"amplitude": amount}) for it in (exact, kept)]
            strength = {"strength": min(amount, 8)}
            cases += [(DIFFUSION, amount, it, it | strength) for it in (exact, kept)]
            automatic = [
                (OFF, amount, {}),
                (ORDERED, 0, automatic_pattern(colors, shades)),
                (DIFFUSION, 0, {"strength": 7}),
            ]
            for kind, number, options in automatic:
                options["tolerance"] = automatic_tolerance(kind, colors, shades)
                cases.append((kind, number, {"tolerance": AUTO}, options))
            for kind, number, passed, options in cases:
                with self.subTest(turn=turn, kind=kind, amount=number, **passed):
                    found = ctypes.create_string_buffer(len(pixels))
                    call(
                        "icysixel_palette_indices", pixels, 4 * len(pixels), width, colors,
                        len(colors), bytes([kind, number]), *passed.values(), found, len(pixels),
                    )
                    model = {OFF: cheapest, ORDERED: ordered, DIFFUSION: mapped}[kind]
                    is_given = kind == OFF and passed["tolerance"] != AUTO
                    wanted = pixels if is_given else shades
                    self.assertEqual(list(found.raw), model(width, wanted, colors, **options))
            self.assertEqual(mapped(width, pixels, colors), nearest_of(colors, pixels))

    def test_refined(self):
        """A refined palette is the model's, and its error is true."""
        rng = random.Random(SEED)
        for turn in range(COUNT):
            _, pixels = image(rng)
            most, count = rng.choice([1, 2, 5, 16, 256]), len(pixels)
            colors, found = (ctypes.create_string_buffer(it) for it in (768, count))
            properties = Refined()
            with self.subTest(turn=turn, most=most):
                call(
                    "icysixel_refine_palette", pixels, 4 * count, most, colors, 256, found, count,
                    ctypes.byref(properties),
                )
                parts = [tuple(colors.raw[it : it + 3]) for it in range(0, 768, 3)]
                entries = parts[: properties.colors]
                self.assertEqual(entries, refined_entries(pixels, most))
                indices = nearest_of(entries, pixels)
                self.assertEqual(list(found.raw), indices)
                opaque = [(at, it) for at, it in zip(indices, pixels) if it[3] >= 128]
                error = sum(distance(entries[at], it) for at, it in opaque)
                self.assertEqual(properties.error, error)

    def test_program(self):
        """The library writes what the program draws, with each option."""
        options = itertools.product((2, 16, 64, 256), KINDS, (0, 5), (0, 30, AUTO))
        cases = itertools.product(builds_of("sixel"), pictures().items(), options)
        for program, (name, pixels), (most, kind, amount, tolerance) in cases:
            words = ["draw", "-c", str(most), "-d", KINDS[kind]]
            words += ["-s", str(amount)] if amount and kind != OFF else []
            words += ["-t", str(tolerance)] if tolerance != AUTO else []
            data = bytes(itertools.chain(*(it[:3] for it in pixels)))
            encoding = Encoding(width=96, height=64, tolerance=tolerance, max_colors=most)
            encoding.format, encoding.kind, encoding.amount = RGB, kind, amount
            encoding.form = COMPACT
            with self.subTest(name, program=program.name, words=words):
                drawn = run(program, *words, stdin=b"P6 96 64 255\n" + data)[1]
                self.assertEqual(encoded(data, encoding), drawn)

    def test_automatic_pattern(self):
        """In a refined palette, the pattern's amplitude and its limit are the model's."""
        for name, pixels in pictures().items():
            data = bytes(itertools.chain(*pixels))
            parts, found = (ctypes.create_string_buffer(it) for it in (48, len(pixels)))
            call(
                "icysixel_refine_palette", pixels, len(data), 16, parts, 16, found, len(pixels),
                ctypes.byref(Refined()),
            )
            colors = [tuple(parts.raw[it : it + 3]) for it in range(0, 48, 3)]
            pattern = automatic_pattern(colors, pixels, is_refined=True)
            options = {"width": 96, "height": 64, "form": COMPACT}
            indices = bytes(ordered(96, pixels, colors, **pattern))
            encoding = Encoding(kind=ORDERED, max_colors=16, **options)
            listed = Encoding(format=INDEXED, **options).given(colors, REFINED)
            with self.subTest(name):
                self.assertEqual(encoded(data, encoding), encoded(indices, listed))

    def test_error(self):
        """The summed error of a refined palette is at most 1 % above the model's."""
        for (name, pixels), most in itertools.product(pictures().items(), (256, 64, 16)):
            colors, found = (ctypes.create_string_buffer(it) for it in (768, len(pixels)))
            properties = Refined()
            with self.subTest(name, most=most):
                call(
                    "icysixel_refine_palette", pixels, 4 * len(pixels), most, colors, 256, found,
                    len(pixels), ctypes.byref(properties),
                )
                self.assertLessEqual(100 * properties.error, 101 * ERRORS[name][most])

    def test_limits(self):
        """Palettes of 256 colors and of one, and an image without an opaque pixel."""
        every, middle = [(it, it, it) for it in range(256)], [(128, 128, 128)]
        grays, clear = ([(*it, alpha) for it in every] for alpha in (255, 127))
        # The mean of all grays is 127.5, which is 50 percent.
        cases = [
            ("256 colors", grays, every, [grid_color(it) for it in every]),
            ("one color", grays, middle, middle),
            ("no opaque pixel", clear, every, []),
        ]
        for title, pixels, colors, refined in cases:
            with self.subTest(title):
                self.check_given(pixels, colors)
                self.check_refined(pixels, len(colors), refined)

    def check_given(self, pixels, colors):
        """Checks the indices and the output of a row of pixels in a palette."""
        data, count = bytes(itertools.chain(*pixels)), len(pixels)
        models = [
            (OFF, 0, nearest_of(colors, pixels)),
            (ORDERED, 16, ordered(count, pixels, colors, 16)),
            (DIFFUSION, 6, mapped(count, pixels, colors, strength=6)),
        ]
        for (kind, amount, indices), form in itertools.product(models, (PLAIN, COMPACT)):
            found, dithering = ctypes.create_string_buffer(count), bytes([kind, amount])
            source = data, len(data), count, colors, len(colors)
            call("icysixel_palette_indices", *source, dithering, 0, found, count)
            self.assertEqual(list(found.raw), indices)
            options = {"width": count, "height": 1, "form": form}
            encoding = Encoding(kind=kind, amount=amount, **options).given(colors)
            text = encoded(data, encoding)
            self.assertEqual(drawn(text), shown(colors, pixels, indices))
            # As palette indices, with one that no opaque pixel has for transparent pixels.
            used = {index for index, it in zip(indices, pixels) if it[3] >= 128}
            clear = min({*range(257)} - used)
            listed = bytes(index if it[3] >= 128 else clear for index, it in zip(indices, pixels))
            options |= {"format": INDEXED if clear == 256 else CLEAR, "transparent": clear % 256}
            self.assertEqual(encoded(listed, Encoding(**options).given(colors, REFINED)), text)

    def check_refined(self, pixels, most, colors):
        """Checks the refined palette of a row of pixels, and the output in it."""
        data, count = bytes(itertools.chain(*pixels)), len(pixels)
        parts, found = (ctypes.create_string_buffer(it) for it in (768, count))
        source, buffers, properties = (data, len(data), most), (parts, 256, found, count), Refined()
        call("icysixel_refine_palette", *source, *buffers, ctypes.byref(properties))
        entries = [tuple(parts.raw[it : it + 3]) for it in range(0, 3 * properties.colors, 3)]
        self.assertEqual(sorted(entries), sorted(colors))
        indices = nearest_of(entries, pixels) if entries else count * [0]
        self.assertEqual(list(found.raw), indices)
        picture = shown(entries, pixels, indices)
        pairs = [it for it in zip(picture, pixels) if it[0]]
        self.assertEqual(properties.error, sum(distance(*it) for it in pairs))
        for form in (PLAIN, COMPACT):
            encoding = Encoding(width=count, height=1, max_colors=most, form=form)
            self.assertEqual(drawn(encoded(data, encoding)), picture)

    @needs("sixel2png", "img2sixel", "convert")
    def test_compact(self):
        """Other programs decode the compact output, and libsixel's is no shorter."""
        rng = random.Random(SEED)
        for turn, few in itertools.product(range(10), (6, 40)):
            width, height = rng.randint(40, 80), rng.randint(20, 60)
            colors = [grid_color(rng.randbytes(3)) for _ in range(few)]
            pixels = [(*rng.choice(colors), 255) for _ in range(width * height)]
            # Most pixels equal the one before them or the one above, so that there are runs.
            for place in range(width, len(pixels)):
                pixels[place] = pixels[place - rng.choice([0, 1, 1, width, width])]
            data, sizes = bytes(itertools.chain(*pixels)), {"width": width, "height": height}
            forms = (Encoding(form=it, **sizes).given(colors) for it in (COMPACT, PLAIN))
            text, plain = (encoded(data, it) for it in forms)
            expected = bytes(itertools.chain(*(it[:3] for it in pixels)))
            with self.subTest(turn=turn, few=few), tempfile.TemporaryDirectory() as folder:
                self.assertLessEqual(len(text), len(plain))
                file = Path(folder) / "image"
                file.write_bytes(text)
                for command in (LIBSIXEL, IMAGEMAGICK):
                    self.assertEqual(run("sh", "-c", command.format(file=file))[1], expected)
                file.write_bytes(b"P6 %d %d 255\n%s" % (width, height, expected))
                other = run("sh", "-c", SMALLEST.format(file=file, few=few))[1]
                # From the palette on, because libsixel writes no parameters.
                ours, theirs = (len(it) - it.index(b"#") for it in (text, other))
                self.assertLessEqual(ours, theirs)
