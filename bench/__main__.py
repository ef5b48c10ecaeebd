"""Times the program `sixel`, the library for C, the Rust crate and libsixel: python3 bench [FILE..]

A FILE of a DCS sequence is decoded. One of raw RGBA pixels, named FILE:WIDTHxHEIGHT, is encoded:
plain and undithered, then in each of KINDS by the library for C and by libsixel. By default, two
images are made here and encoded, and two photographs of Debian's package mate-backgrounds. What
that writes is decoded, with an image of ten megapixels. The columns are numbers per pixel, but for
two. A tool that is not installed has dashes.

  first rows          percent of the bytes that are read before the first six rows are final
  memory              resident at the peak of a process, by GNU time, less its input and what a
                      process on a single pixel takes; in sizes of the image
  .. count            instructions of a turn in process, by valgrind: of two turns less those of one
  C, Rust, libsixel   nanoseconds in process, the least of RUNS times 12 turns
  C, bytes            the library for C, fed in chunks of one byte

Without a FILE, hyperfine then times the program on a megabyte of each hostile stream.
"""
import itertools
import json
import math
import os
import random
import re
import shlex
import subprocess
import sys
import tempfile
from pathlib import Path
from shutil import which

ROOT = Path(__file__).resolve().parent.parent
SIXEL, LIBRARY = ROOT / "crates/sixel/out/sixel", ROOT / "out"
RUNS = int(os.environ.get("RUNS", "5"))
# Photographs, and the sizes that ImageMagick scales them to.
FOLDER = "/usr/share/backgrounds/mate/nature"
PHOTOGRAPHS = {"Dune": "640x400", "LadyBird": "1280x800"}
# Streams of a megabyte of these bytes: runs over what is drawn, wide and narrow, and large images.
WIDE = "!65535~"
HOSTILE = [f"{WIDE}$", f"{WIDE}$@$", f"#1{WIDE}$#2{WIDE}$", f"{7 * WIDE}$", "@", "-"]
HOSTILE += ["#1;1;120;50;100"]
CC = f"cd {ROOT}/bench && {os.environ.get('CC', 'cc')} -std=c11 -O2"
PLAIN = f"python3 {ROOT}/scripts/plain_rust {{room}} && cd {{room}}/icy_sixel"
# How each timer is built in the folder {room}, and run on a file.
BUILDS = {
    "C": f"{CC} -I{LIBRARY} speed.c -L{LIBRARY} -licysixel -o {{room}}/c",
    "Rust": f"{PLAIN} && cargo build --offline --release --example speed",
    "libsixel": f"{CC} libsixel.c $(pkg-config --cflags --libs libsixel) -o {{room}}/peer",
}
TIMERS = {
    "C": "{room}/c {file} {turns} {colors}",
    "C, bytes": "{room}/c {file} {turns} {colors} 1",
    "Rust": "{room}/target/release/examples/speed -t 0.2 -k {colors} {file}",
    "libsixel": "{room}/peer {file} {turns} {colors}",
}
COUNTED = ("C", "C, bytes", "libsixel")
# Kinds of output: in a refined palette, in one with error diffusion, and in the compact form.
KINDS = ("refined", "diffused", "compact")


def run(command, stdin=None):
    """Runs a command of the shell; its standard output, or None if it fails, and its error."""
    ended = subprocess.run(command, shell=True, input=stdin, capture_output=True, check=False)
    return None if ended.returncode else ended.stdout, ended.stderr


def instructions(command):
    """The instructions of a process, not a number if it fails."""
    valgrind = "valgrind --error-exitcode=9 --tool=callgrind --callgrind-out-file=/dev/null"
    output, found = run(f"{valgrind} {command}")
    return int(re.search(rb"Collected : (\d+)", found)[1]) if output else math.nan


def resident(arguments, stdin):
    """The bytes that are resident at the peak of a process."""
    if not which("time"):
        return math.nan
    return 1024 * int(run(f"{which('time')} -f %M {SIXEL} {arguments}", stdin)[1])


def in_process(timers, command, pixels, **words):
    """Instructions and the least nanoseconds of each timer, per pixel.

    The timers take turns, because a machine may slow down.
    """
    counts, least = dict.fromkeys(COUNTED, math.nan), dict.fromkeys(TIMERS, math.inf)
    for name in counts.keys() & timers.keys():
        one, two = (instructions(timers[name].format(turns=it, **words)) for it in (1, 2))
        counts[name] = (two - one) / pixels
    for name in RUNS * list(timers):
        output = run(timers[name].format(turns=12, **words))[0]
        found = re.search(rb"^ *%s +(\S+)" % command.encode(), output or b"", re.M)
        least[name] = min(least[name], float(found[1]) if found else math.inf)
    return *counts.values(), *least.values()


def report(room, file):
    """Prints the lines of a file."""
    raw = re.fullmatch(r"(.*):(\d+)x(\d+)", file)
    path = Path(raw[1] if raw else file)
    data = path.read_bytes()
    size = raw.groups()[1:] if raw else run(f"{SIXEL} decode", data)[0].split(maxsplit=3)[1:3]
    width, height = map(int, size)
    for colors in (256, 16) if raw else (256,):
        command, single = ("encode", bytes(4)) if raw else ("decode", b"\x1bPq@\x1b\\")
        arguments = f"encode {{}} {{}} {colors}" if raw else command
        whole, one = (arguments.format(*it) for it in ((width, height), (1, 1)))
        columns = [
            math.nan if raw else 100 * (data.find(b"-") + 1) / len(data),
            (resident(whole, data) - resident(one, single) - len(data)) / (4 * width * height),
        ]
        title = f"{path.name[:16]:16} {width:>5}x{height:<5} {colors:3}"
        words = {"room": room, "file": shlex.quote(file), "colors": colors}
        figures = in_process(TIMERS, command, width * height, **words)
        print_line(f"{command:8} {title}", [*columns, *figures])
        for kind in KINDS if raw else ():
            timers = {it: f"{TIMERS[it]} {kind}" for it in ("C", "libsixel")}
            figures = in_process(timers, command, width * height, **words)
            print_line(f"{kind:8} {title}", [math.nan, math.nan, *figures])


def print_line(title, columns):
    texts = (f"{it:15.2f}" if math.isfinite(it) else f"{'-':>15}" for it in columns)
    print(title, *texts, sep="", flush=True)


def milliseconds(room, stream):
    """The least milliseconds of a process that decodes the stream, by hyperfine."""
    if not which("hyperfine"):
        return math.nan
    (room / "stream").write_bytes(stream)
    run(f"hyperfine --warmup 1 --runs {max(RUNS, 2)} --ignore-failure"
        f" --export-json {room}/times '{SIXEL} payload <{room}/stream'")
    return 1000 * json.loads((room / "times").read_text())["results"][0]["min"]


def made(room):
    """Smooth colors, flat ones and photographs; the SIXEL output of these and of a tall image."""
    noise = random.Random(1)
    smooth, flat = [], []
    for y, x in itertools.product(range(480), range(640)):
        smooth += [x * 2 // 5, y // 2, (x + y) // 5 + noise.randrange(16), 255]
        flat += [x // 80 % 4 * 60, y // 40 % 3 * 90, (x + y) // 200 % 2 * 200, 255 * (x >= 20)]
    for name, pixels, times in (("smooth", smooth, 1), ("flat", flat, 1), ("tall", smooth, 33)):
        (room / name).write_bytes(times * bytes(pixels))
    for name, size in PHOTOGRAPHS.items():
        run(f"convert {FOLDER}/{name}.jpg -resize '{size}!' -depth 8 rgba:{room}/{name}")
    sizes = {"smooth": "640x480", "flat": "640x480", **PHOTOGRAPHS, "tall": f"640x{480 * 33}"}
    found = {name: size for name, size in sizes.items() if (room / name).exists()}
    if len(found) < len(sizes):
        print("Photographs need Debian's packages mate-backgrounds and imagemagick.")
    for name, size in found.items():
        run(f"{SIXEL} encode {size.replace('x', ' ')} 256 <{room}/{name} >{room}/{name}.six")
    raw = [f"{room}/{name}:{size}" for name, size in found.items() if name != "tall"]
    return raw + [f"{room}/{name}.six" for name in found]


def main(files):
    with tempfile.TemporaryDirectory() as folder:
        room = Path(folder)
        for how in BUILDS.values():
            run(how.format(room=room))
        titles = ("first rows", "memory", *(f"{it} count" for it in COUNTED), *TIMERS)
        print(f"{'':41}", *(f"{it:>15}" for it in titles), sep="")
        for file in files or made(room):
            report(room, file)
        for text in () if files else HOSTILE:
            least = milliseconds(room, text.encode() * (1_000_000 // len(text)))
            print(f"a megabyte of {text[:31]:31} {least:8.1f} ms", flush=True)


if __name__ == "__main__":
    main(sys.argv[1:])
