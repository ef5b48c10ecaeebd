"""Calls of the C library."""
import ctypes
import itertools

from build import ROOT

SHARED = ROOT / "out/shared/libicysixel.so"
PLAIN, COMPACT = range(2)
OFF, DIFFUSION, ORDERED = range(3)


RGBA, BGRA, RGB, BGR, INDEXED, CLEAR = range(6)
REFINED, FARTHEST, GIVEN = range(3)
AUTO = 2**32 - 1  # a tolerance


class Encoding(ctypes.Structure):
    """icysixel_encoding. Its dithering is `kind` and `amount`. Its colors are one after another."""

    _fields_ = [(it, ctypes.c_size_t) for it in ("width", "height", "stride")]
    _fields_ += [("tolerance", ctypes.c_uint32)]
    _fields_ += [(it, ctypes.c_uint16) for it in ("max_colors", "color_count")]
    _fields_ += [(it, ctypes.c_uint8) for it in ("format", "pixel_height", "background")]
    _fields_ += [(it, ctypes.c_uint8) for it in ("palette", "kind", "amount", "form")]
    _fields_ += [("transparent", ctypes.c_uint8), ("colors", ctypes.c_uint8 * 768)]

    def given(self, colors, palette=GIVEN):
        """The encoding with these colors."""
        self.palette, self.color_count = palette, len(colors)
        self.colors[: 3 * len(colors)] = [*itertools.chain(*colors)]
        return self


def call(name, *arguments):
    """Calls a function that returns a code. Numbers are passed as 64 bits, lists as bytes."""
    passed = []
    for it in arguments:
        it = bytes(itertools.chain(*it)) if isinstance(it, list) else it
        passed.append(ctypes.c_size_t(it) if isinstance(it, int) else it)
    code = ctypes.CDLL(str(SHARED))[name](*passed)
    if code != 0:
        raise ValueError(f"{name} returns {code}")


def encoded(pixels, encoding):
    """The SIXEL output of pixels, given as bytes."""
    text = (ctypes.c_size_t * 3)()
    call("icysixel_encode", pixels, len(pixels), ctypes.byref(encoding), text)
    encoded = ctypes.string_at(text[0], text[1])
    ctypes.CDLL(str(SHARED)).icysixel_free_bytes(text)
    return encoded
