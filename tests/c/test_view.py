"""Tests the viewer, which needs gdk-pixbuf: files, options, and what a terminal gets from it."""
import fcntl
import os
import pty
import re
import resource
import select
import signal
import struct
import subprocess
import tempfile
import termios
import time
import unittest
from pathlib import Path

from build import ARCHIVES, HEADERS, MEMORY, ROOT, run

SOURCE = ROOT / "viewer/sixel-view.c"
GDK = ["pkg-config", "--cflags", "--libs", "gdk-pixbuf-2.0"]
RED_PPM, TWO_PPM = b"P6 1 1 255\n\xff\0\0", b"P6 2 2 255\n" + 4 * b"\xff\0\0"
XPM = b'/* XPM */\nstatic char *x[] = {"2 1 2 1", "a c None", "b c #ff0000", "ab"};\n'
RED = b'\x1bP9;1;0q"1;1;1;1#0;2;100;0;0#0@\x1b\\'
GREEN = RED.replace(b"100;0;0", b"0;100;0")
TRANSPARENT = b'\x1bP9;1;0q"1;1;2;1#0;2;100;0;0#0?@\x1b\\'
TURNED = b'\x1bP9;1;0q"1;1;8;16#0;2;50;50;50#0!8~-!8~-!8N\x1b\\'
STORED = b'\x1bP9;1;0q"1;1;16;8#0;2;50;50;50#0!16~-!16B\x1b\\'
QUESTION = b"\x1b[14t\x1b[c"
SIXEL, NO_SIXEL = b"\x1b[?62;4;22c", b"\x1b[?64;22;14c"
SHOW, HIDE = b"\x1b[?25h", b"\x1b[?25l"


def gif():
    """A red and a green frame of one pixel, shown once, for 0.2 seconds each."""
    screen = b"GIF89a\1\0\1\0\x80\0\0\xff\0\0\0\xff\0"
    frame = b"!\xf9\4\0\x14\0\0\0,\0\0\0\0\1\0\1\0\0\2\2"
    return screen + b"".join(frame + it + b"\1\0" for it in (b"\x44", b"\x4c")) + b";"


def long_gif():
    """500 frames of 126x126 pixels that are not compressed: 8 MB."""
    screen = b"GIF89a" + struct.pack("<2H3B", 126, 126, 0xF6, 0, 0) + bytes(3 * 128)
    # A code of 8 bits for each pixel, and one that clears the table before it needs 9.
    data = 126 * (b"\x80" + 126 * b"\1") + b"\x81"
    blocks = [data[it:it + 255] for it in range(0, len(data), 255)]
    frame = b"," + struct.pack("<4HB", 0, 0, 126, 126, 0) + b"\7"
    frame += b"".join(bytes([len(it)]) + it for it in blocks) + b"\0"
    return screen + 500 * (b"!\xf9\4\0\2\0\0\0" + frame) + b";"


def jpeg():
    """A gray image of 16x8 pixels whose EXIF data say that its left edge is the upper one."""
    exif = b"Exif\0\0MM\0*\0\0\0\x08\0\1\x01\x12\0\3\0\0\0\1\0\6\0\0\0\0\0\0"
    parts = [(0xE1, exif), (0xDB, b"\0" + 64 * b"\1"), (0xC0, b"\x08\0\x08\0\x10\1\1\x11\0")]
    # Each Huffman table has the code 0 alone, for a difference of 0 and for the end of a block.
    parts += [(0xC4, it + b"\1" + bytes(16)) for it in (b"\0", b"\x10")]
    parts += [(0xDA, b"\1\1\0\0\x3f\0")]
    text = b"".join(struct.pack(">BBH", 255, it, len(data) + 2) + data for it, data in parts)
    return b"\xff\xd8" + text + b"\x0f\xff\xd9"


UNKNOWN = b"-: Unrecognized image file format\n"
MISSING = '/missing: Failed to open file \u201c/missing\u201d: No such file or directory\n'.encode()
UNREPORTED = b"sixel-view: the terminal does not report SIXEL\n"
HELP = b"usage: sixel-view [OPTION ..] [FILE ..], where - or no file is standard input\n"
# A SIXEL file with pixels twice as high as wide, and with a fault.
HIGH = b"\x1bP0;1q#1;2;100;0;0!65536@\x1b\\"
HIGH_RED = b'\x1bP9;1;0q"1;1;1;2#0;2;100;0;0#0B\x1b\\'
# Arguments, standard input, status, standard output and error.
RUNS = [
    ("", RED_PPM, 0, RED + b"\n", b""),
    ("-", RED_PPM, 0, RED + b"\n", b""),
    ("-c 1 -d none", RED_PPM, 0, RED + b"\n", b""),
    ("-d ordered -w 1", TWO_PPM, 0, RED + b"\n", b""),
    ("-h 1", TWO_PPM, 0, RED + b"\n", b""),
    ("-w 3", XPM, 0, TRANSPARENT + b"\n", b""),
    ("- /missing", RED_PPM, 1, RED + b"\n", MISSING),
    ("/missing -", RED_PPM, 1, RED + b"\n", MISSING),
    ("", b"", 1, b"", UNKNOWN),
    ("", b"text", 1, b"", UNKNOWN),
    ("", RED, 0, RED + b"\n", b""),
    ("", b"\x90" + RED[2:], 0, RED + b"\n", b""),
    ("", HIGH, 0, HIGH_RED + b"\n", b""),
    ("", b"\x1bPq\x1b\\", 1, b"", b"-: no SIXEL image\n"),
    ("", b"\x1b[m", 1, b"", b"-: no SIXEL image\n"),
    ("", jpeg(), 0, TURNED + b"\n", b""),
    ("-o off", jpeg(), 0, STORED + b"\n", b""),
    ("", gif(), 0, RED + b"\n", b""),
]
WRONG = ["-c 0", "-c 257", "-c -1", "-w 0", "-h 0", "-h x", "-d off", "-o on", "-x"]


def placed(*images, lines=1):
    """Images of this many lines of cells as a terminal gets them, and the cursor below them."""
    above = b"\n" * lines + b"\x1b[%dA\x1b7" % lines
    return above + b"\x1b8".join(images) + b"\x1b8\x1b[%dB\r" % lines


def build(folder, *options):
    """Compiles the viewer, and returns its path."""
    try:
        found = subprocess.run(GDK, check=True, capture_output=True, text=True)
    except (OSError, subprocess.CalledProcessError):
        raise unittest.SkipTest("not installed: libgdk-pixbuf-2.0-dev, pkg-config") from None
    sources = [SOURCE, MEMORY, ARCHIVES[0], f"-I{HEADERS}", *found.stdout.split()]
    warnings = ["-std=c11", "-Wall", "-Wextra", "-Wpedantic", "-Werror"]
    command = ["gcc", *warnings, *options, *sources, "-o", folder / "sixel-view"]
    subprocess.run(command, check=True)
    return folder / "sixel-view"


def begin_session():
    """The terminal controls the viewer, whose signals are not ignored, as they are under nohup."""
    for number in signal.SIGHUP, signal.SIGINT, signal.SIGQUIT:
        signal.signal(number, signal.SIG_DFL)
    fcntl.ioctl(1, termios.TIOCSCTTY, 0)


class Terminal:
    """A terminal in which the viewer runs: what it wrote, its status, and what is restored."""

    def __init__(self, command, stdin=b"", size=(24, 80, 800, 480), answers=(SIXEL,), react=None,
                 env=None):
        """`react` is called with the terminal and what was written since, as long as it runs."""
        self.control, output = pty.openpty()
        attributes = termios.tcgetattr(output)
        attributes[1] &= ~termios.OPOST
        termios.tcsetattr(output, termios.TCSANOW, attributes)
        fcntl.ioctl(output, termios.TIOCSWINSZ, struct.pack("4H", *size))
        self.text, self.answers = b"", list(answers)
        env = {name: it for name, it in os.environ.items() if name != "TMUX"} | (env or {})
        with tempfile.TemporaryFile() as file:
            file.write(stdin)
            file.seek(0)
            options = {"stdin": file, "stdout": output, "stderr": subprocess.PIPE, "env": env}
            options["preexec_fn"] = begin_session
            self.program = subprocess.Popen(command, start_new_session=True, **options)
        while self.program.poll() is None or self.is_ready():
            if self.is_ready(0.02):
                self.read()
            if react:
                react(self)
        self.status, self.errors = self.program.returncode, self.program.stderr.read()
        self.program.stderr.close()
        self.is_restored = termios.tcgetattr(output) == attributes
        os.close(output)
        os.close(self.control)

    def is_ready(self, seconds=0.0):
        return bool(select.select([self.control], [], [], seconds)[0])

    def read(self):
        self.text += os.read(self.control, 65536)
        if self.text.endswith(QUESTION):
            for answer in self.answers:
                os.write(self.control, answer)
                time.sleep(0.005)


def once(marker, action):
    """A reaction to the first time that this is written."""
    def react(terminal):
        if marker in terminal.text and not hasattr(terminal, "has_reacted"):
            terminal.has_reacted = True
            action(terminal)
    return react


class TestView(unittest.TestCase):
    @classmethod
    def setUpClass(cls):
        cls.view = build(Path(cls.enterClassContext(tempfile.TemporaryDirectory())))

    def shown(self, arguments="", stdin=b"", **options):
        """A terminal in which the viewer has succeeded, without the question."""
        terminal = Terminal([self.view, *arguments.split()], stdin, **options)
        self.assertEqual((terminal.status, terminal.errors, terminal.is_restored), (0, b"", True))
        self.assertTrue(terminal.text.startswith(QUESTION))
        return terminal.text.removeprefix(QUESTION)

    def test_runs(self):
        """Files, options and errors, without a terminal."""
        for arguments, stdin, *expected in RUNS:
            with self.subTest(arguments=arguments, stdin=stdin[:20]):
                options = {"stdin": stdin, "env": os.environ | {"LC_ALL": "C"}}
                self.assertEqual(run(self.view, *arguments.split(), **options), tuple(expected))

    def test_install(self):
        """make install-viewer copies the viewer and its page, and uninstall-viewer removes them."""
        with tempfile.TemporaryDirectory(prefix="with space ") as room:
            make = ["make", "-s", "-C", ROOT, f"DESTDIR={room}", "PREFIX=/usr"]
            self.assertEqual(run(*make, "install-viewer", timeout=600)[0], 0)
            installed = Path(room) / "usr/bin/sixel-view"
            self.assertEqual(run(installed, "--help")[0], 0)
            self.assertTrue((Path(room) / "usr/share/man/man1/sixel-view.1").exists())
            self.assertEqual(run(*make, "uninstall-viewer")[0], 0)
            self.assertEqual([it for it in Path(room).rglob("*") if it.is_file()], [])

    def test_usage(self):
        """--help lists each option. So do wrong arguments, and none where a person would type."""
        status, text, errors = run(self.view, "--help")
        self.assertEqual((status, errors), (0, b""))
        self.assertTrue(text.startswith(HELP))
        options = sorted(re.findall(rb"option == '(\w)'", SOURCE.read_bytes()))
        self.assertEqual(re.findall(rb"^  -(\w)", text, re.M), options)
        page = (ROOT / "man/sixel-view.1").read_bytes()
        self.assertEqual(re.findall(rb"^\.It Fl (\w)\b", page, re.M), options)
        for arguments in WRONG:
            with self.subTest(arguments=arguments):
                status, output, errors = run(self.view, *arguments.split())
                self.assertEqual((status, output), (2, b""))
                self.assertTrue(errors.endswith(text))
        control, terminal = pty.openpty()
        ended = subprocess.run([self.view], stdin=terminal, capture_output=True, check=False)
        self.assertEqual((ended.returncode, ended.stderr), (2, text))
        os.close(control)
        os.close(terminal)

    def test_write_errors(self):
        """A write that fails is an error, also of the help."""
        for arguments in "-", "--help":
            ended = run("sh", "-c", f"{self.view} {arguments} >/dev/full", stdin=RED_PPM)
            self.assertEqual(ended, (1, b"", b"sixel-view: No space left on device\n"))

    def test_fits(self):
        """An image has at most the width of the terminal, and its height without a line."""
        wide, high = b"P5 1600 2 255\n" + bytes(3200), b"P5 2 1600 255\n" + bytes(3200)
        for stdin, size, found, lines in (
            (wide, (24, 80, 800, 480), b"800;1", 1),
            (high, (24, 80, 800, 480), b"1;460", 23),
            (high, (10, 80, 1600, 400), b"1;360", 9),
            (wide, (0, 0, 0, 0), b"800;1", 1),
            (high, (0, 0, 0, 0), b"1;460", 23),
            (high, (1, 1, 1, 1), b"1;1", 1),
        ):
            with self.subTest(found=found, size=size):
                text = self.shown(stdin=stdin, size=size)
                above = b"\n" * lines + b"\x1b[%dA\x1b7" % lines
                self.assertTrue(text.startswith(above + b'\x1bP9;1;0q"1;1;%b#' % found))
                self.assertTrue(text.endswith(b"\x1b\\\x1b8\x1b[%dB\r" % lines))
        self.assertEqual(self.shown("-w 1", TWO_PPM), placed(RED))
        self.assertEqual(self.shown("- /dev/stdin", RED_PPM), 2 * placed(RED))

    def test_files(self):
        """A SIXEL file, and a photograph that is turned or shown as it is stored."""
        images = ("", HIGH, HIGH_RED), ("", jpeg(), TURNED), ("-o off", jpeg(), STORED)
        for arguments, stdin, image in images:
            with self.subTest(arguments=arguments, stdin=stdin[:20]):
                self.assertEqual(self.shown(arguments, stdin), placed(image))

    def test_question(self):
        """SIXEL and the size are asked for at once. Answers can come in parts, and after typing."""
        size = {"size": (24, 80, 0, 0)}
        answer = b"\x1b[4;480;1t" + SIXEL
        bytewise, typed = [bytes([it]) for it in answer], b"ct\xff\0\x1b[A"
        for answers in [answer], bytewise, [typed, answer], [b"\x1b[4;480;1t\x1b[?62;4c"]:
            self.assertEqual(self.shown(stdin=TWO_PPM, answers=answers, **size), placed(RED))
        for answers in [NO_SIXEL], [b"\x1b[?4;6c"], [b"\x1b[?62;14;44c"], []:
            with self.subTest(answers=answers):
                terminal = Terminal([self.view], RED_PPM, answers=answers)
                self.assertEqual((terminal.status, terminal.text), (1, QUESTION))
                self.assertEqual(terminal.errors, UNREPORTED)
                self.assertTrue(terminal.is_restored)

    def test_frames(self):
        """Frames are drawn one over the other, each for its time, while no cursor is shown."""
        start = time.monotonic()
        text = self.shown(stdin=gif())
        self.assertGreater(time.monotonic() - start, 0.4)
        self.assertEqual(text, HIDE + placed(RED, GREEN) + SHOW)

    def test_palette(self):
        """All frames of an animation have one palette: with one color, the mean of all."""
        mean = RED.replace(b"100;0;0", b"50;50;0")
        self.assertEqual(self.shown("-c 1", gif()), HIDE + placed(mean, mean) + SHOW)

    def test_long_animation(self):
        """A long file is loaded in linear time: 0.1 seconds, where 17 would be quadratic."""
        def limit():
            resource.setrlimit(resource.RLIMIT_CPU, (3, 3))

        status, text, errors = run(self.view, stdin=long_gif(), preexec_fn=limit)
        self.assertEqual((status, errors), (0, b""))
        self.assertTrue(text.startswith(b'\x1bP9;1;0q"1;1;126;126#0;2;0;0;0#0!126~'))

    def test_tmux(self):
        """tmux passes the output on, unless it reports SIXEL itself."""
        tmux = {"TMUX": "/tmp/tmux-0/default,1,0"}
        passed_on = b"\x1b[K\x1bPtmux;" + RED.replace(b"\x1b", b"\x1b\x1b") + b"\x1b\\"
        self.assertEqual(self.shown(stdin=RED_PPM, answers=[NO_SIXEL], env=tmux), placed(passed_on))
        self.assertEqual(self.shown(stdin=RED_PPM, env=tmux), placed(RED))

    def interrupted(self, arguments, stdin, marker, action, **options):
        """A terminal in which a signal ends the viewer, once this was written."""
        react = once(marker, action)
        return Terminal([self.view, *arguments.split()], stdin, react=react, **options)

    def test_loop(self):
        """An animation is repeated until Ctrl-C, after which the terminal is as before."""
        def type_interrupt(terminal):
            time.sleep(0.05)  # the image is written, and shown for 0.2 seconds
            os.write(terminal.control, b"\x03")

        rounds = HIDE + b"\n\x1b[1A\x1b7" + RED + 3 * (b"\x1b8" + GREEN + b"\x1b8" + RED)
        ended = self.interrupted("-l", gif(), QUESTION + rounds, type_interrupt)
        self.assertEqual((ended.status, ended.is_restored), (-signal.SIGINT, True))
        self.assertEqual(ended.text, QUESTION + rounds + b"^C\x1b8\x1b[1B\r" + SHOW)

    def test_signals(self):
        """The terminal is restored on each signal that ends the viewer."""
        for number in signal.SIGTERM, signal.SIGHUP, signal.SIGQUIT, signal.SIGINT, signal.SIGABRT:
            def kill(terminal, number=number):
                terminal.program.send_signal(number)

            with self.subTest(signal=number.name, place="animation"):
                ended = self.interrupted("-l", gif(), GREEN, kill)
                self.assertEqual((ended.status, ended.is_restored), (-number, True))
                self.assertTrue(ended.text.endswith(b"\x1b8\x1b[1B\r" + SHOW))
            with self.subTest(signal=number.name, place="question"):
                ended = self.interrupted("", RED_PPM, QUESTION, kill, answers=[])
                self.assertEqual((ended.status, ended.text), (-number, QUESTION))
                self.assertTrue(ended.is_restored)

    def test_interrupted_image(self):
        """CAN ends an image of which the terminal has a part, before the cursor goes below it."""
        noise = bytes(it * it % 251 for it in range(3 * 400 * 400))

        def kill(terminal):
            time.sleep(0.2)  # the viewer writes until the terminal has no capacity for more
            terminal.program.terminate()

        ended = self.interrupted("", b"P6 400 400 255\n" + noise, b'"1;1;400;400', kill)
        self.assertEqual((ended.status, ended.is_restored), (-signal.SIGTERM, True))
        self.assertRegex(ended.text, rb"\A[^\x18]*q[^\x1b]*\x18\x1b8\x1b\[20B\r\Z")

    def test_suspension(self):
        """Ctrl-Z does not stop the viewer, whose DCS sequence would not go on."""
        def type_suspend(terminal):
            os.write(terminal.control, b"\x1a")

        ended = self.interrupted("", gif(), RED, type_suspend)
        self.assertEqual(ended.status, 0)
        self.assertTrue(ended.text.endswith(GREEN + b"\x1b8\x1b[1B\r" + SHOW))
