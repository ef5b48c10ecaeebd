"""The test vectors of crates/sixel_tests/data, whose README.md defines their format."""
import itertools
import re
import struct

from build import DATA

# Pixel aspect ratios, and P1 of the program's first line for each.
RATIOS = {"1:1": 9, "2:1": 0, "3:1": 3, "5:1": 2}
MODES = {"opaque": 0, "transparent": 1}

STATUSES = ["more", "complete", "cancelled", "interrupted", "rejected"]
# The end of a payload: CAN, SUB, ESC or a C1 control.
TERMINATOR = re.compile(rb"[\x18\x1a\x1b\x80-\x9f]")
# The struct of c/vectors.c, and its members after the shape, with what they are by default.
STRUCT = "32s6Q8Q2H4B3i4?6QIB3x"
MEMBERS = dict.fromkeys(("p1", "p2", "colors"), -1)
MEMBERS |= {"payload": False, "crop": False, "at_once": True, "sessions": False}
MEMBERS |= dict.fromkeys(("limit", "columns", "rows", "ends_after", "fails_at"), 2**64 - 1)
MEMBERS |= {"consumed": 0, "status": 0, "byte": 0}


def vectors(file):
    """The vectors of a file, of which there is at least one: the place and columns of each."""
    lines = enumerate((DATA / file).read_text(encoding="ascii").splitlines(), 1)
    found = [(f"{file}:{at}", it.split("\t")) for at, it in lines if it and it[0] != "#"]
    if not found:
        raise ValueError(f"{file} has no vector")
    return found


def bytes_of(text):
    """The bytes that a column spells."""
    text = re.sub(r"<(\d+)\*([^<>]+)>", lambda it: int(it[1]) * it[2], text.replace("<>", ""))
    return re.sub("<(..)>", lambda it: chr(int(it[1], 16)), text).encode("latin-1")


def image_of(text):
    """The width, height, P1, P2 and pixels that a column spells."""
    size, ratio, mode, *runs = text.split(" ", 3)
    width, height = map(int, size.split("x"))
    pairs = [it.split("*") for it in "".join(runs).split()]
    pixels = b"".join(int(count) * bytes.fromhex(color) for count, color in pairs)
    return width, height, RATIOS[ratio], MODES[mode], pixels


def packed(place, data, result, **members):
    """A vector as c/vectors.c reads it: the struct, and the bytes of its blocks."""
    image, _, error = result.partition("error: ")
    width, height, p1, p2, pixels = image_of(image) if image else (0, 0, 0, 0, b"")
    blocks = [data, pixels, error.removeprefix("invalid SIXEL data: ").encode()]
    lengths = itertools.chain(*((0, len(it)) for it in blocks))
    members = MEMBERS | members
    # In a transparent image the pixels that are set are the opaque ones. Crop can remove some.
    is_drawn = p2 == 1 and not members["crop"]
    drawn = -(-len(pixels[3::4].rstrip(b"\0")) // max(width, 1)) if is_drawn else 2**64 - 1
    heights = height, drawn, 2**64 - 1, 0, 0  # the size in raster attributes is not known
    ratio = 1, {9: 1, 0: 2, 3: 3, 2: 5}[p1]
    shape = width, *heights, len(pixels), 0, *ratio, p1, p2, 0, 0
    values = place.encode(), *lengths, *shape, *members.values()
    return struct.pack(STRUCT, *values) + b"".join(blocks)


def packed_vectors():
    """The vectors that c/vectors.c reads."""
    for place, (settings, text, result) in vectors("images.tsv"):
        words = re.sub(r"clip=(\d+)x", r"columns=\1 rows=", settings).split()
        members = {it: int(value or 1) for it, _, value in (it.partition("=") for it in words)}
        members["sessions"] = not members.pop("dcs", False)
        members.pop("p3", None)  # C has no P3, because it has no effect.
        data = bytes_of(text)
        end = TERMINATOR.search(data)
        members["consumed"] = end.start() if end else len(data)
        if end:
            members |= {"ends_after": end.end(), "status": 1, "byte": data[end.start()]}
        yield packed(place, data, result, **members)
    for place, (text, ended, result) in vectors("strings.tsv"):
        data, (count, status, *byte) = bytes_of(text), ended.split()
        consumed, status = int(count), STATUSES.index(status)
        members = {"sessions": True, "consumed": consumed, "at_once": 0 < status < 4}
        members["fails_at"] = consumed if status == 4 else len(data)
        if members["at_once"]:
            members |= {"ends_after": consumed + (status == 3), "status": status}
            members |= {"byte": int(it, 16) for it in byte}
        yield packed(place, data, result, **members)
    for place, (colors, image, result) in vectors("texts.tsv"):
        text, *error = result.partition("error: ")
        yield packed(place, bytes_of(text), image + "".join(error), colors=int(colors))
