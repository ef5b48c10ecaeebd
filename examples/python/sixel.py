"""Converts SIXEL to PPM and back by the shared library: sixel.py decode|encode <INPUT >OUTPUT"""
import ctypes as c
import re
import sys


class Handle(c.Structure):
    _fields_ = [("held", c.c_uint8), ("state", c.c_void_p)]


class Shape(c.Structure):
    _fields_ = [(name, c.c_size_t) for name in ("width", "height", "drawn_height")]
    _fields_ += [(name, c.c_size_t) for name in ("raster_width", "raster_height", "first_row")]
    _fields_ += [("bytes", c.c_size_t), ("ignored", c.c_uint64)]
    _fields_ += [(name, c.c_uint16) for name in ("pixel_width", "pixel_height")]
    _fields_ += [(name, c.c_uint8) for name in ("p1", "p2", "is_complete", "is_empty")]


class Bytes(c.Structure):
    _fields_ = [("data", c.c_void_p), ("length", c.c_size_t), ("capacity", c.c_size_t)]


class Layout(c.Structure):
    _fields_ = [("stride", c.c_size_t), ("columns", c.c_size_t), ("order", c.c_uint8)]


class Encoding(c.Structure):
    _fields_ = [(name, c.c_size_t) for name in ("width", "height", "stride")]
    _fields_ += [("tolerance", c.c_uint32)]
    _fields_ += [(name, c.c_uint16) for name in ("max_colors", "color_count")]
    _fields_ += [(name, c.c_uint8) for name in ("format", "pixel_height", "background", "palette")]
    _fields_ += [(name, c.c_uint8) for name in ("dither", "amount", "form", "transparent")]
    _fields_ += [("colors", c.c_uint8 * 768)]


RGB = 2


library = c.CDLL("libicysixel.so.0")
handle = c.byref(Handle())


def call(name, *arguments):
    """Calls a function whose result is a code, which is 0 if all is well."""
    code = library[name](*arguments)
    if code:
        text = c.create_string_buffer(80)
        library.icysixel_strerror(code, text, c.c_size_t(80))
        sys.exit(text.value.decode())


def decode(data):
    """The PPM file of a DCS sequence. Transparent pixels become black."""
    shape = Shape()
    call("icysixel_decode", handle, data, c.c_size_t(len(data)), c.byref(shape))
    rgba = c.create_string_buffer(shape.bytes)
    rows, layout = (c.c_size_t(0), c.c_size_t(shape.height)), c.byref(Layout())
    call("icysixel_copy_pixels", handle, *rows, layout, rgba, c.c_size_t(shape.bytes))
    pixels = b"".join(rgba.raw[at : at + 3] for at in range(0, shape.bytes, 4))
    return b"P6\n%d %d\n255\n" % (shape.width, shape.height) + pixels


def encode(ppm):
    """The DCS sequence of a PPM file without comments, whose channels have one byte."""
    width, height, data = re.fullmatch(rb"P6\s+(\d+)\s+(\d+)\s+255\s(.*)", ppm, re.S).groups()
    encoding = Encoding(width=int(width), height=int(height), format=RGB)
    text = Bytes()
    call("icysixel_encode", data, c.c_size_t(len(data)), c.byref(encoding), c.byref(text))
    encoded = c.string_at(text.data, text.length)
    library.icysixel_free_bytes(c.byref(text))
    return encoded


call("icysixel_new", handle)
convert = {"decode": decode, "encode": encode}[sys.argv[1]]
sys.stdout.buffer.write(convert(sys.stdin.buffer.read()))
library.icysixel_free(handle)
