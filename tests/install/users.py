"""Programs in several languages that use an installed library."""
import os
import shutil
import tempfile
import unittest
from pathlib import Path

from build import ROOT, run

HERE = ROOT / "tests/install"
RED = b"\x1bP9;1q#1;2;100;0;0@\x1b\\"
PIXELS, PPM = b"\xff\0\0\xff" + bytes(20), b"P6\n1 6\n255\n\xff\0\0" + bytes(15)
FLAGS = "$(pkg-config --cflags --libs icysixel)"
WARNINGS = "-pedantic -Wall -Wextra -Werror"
CMAKE = "cmake -S ../install -B ../built -DWANTED=$(pkg-config --modversion icysixel) >&2"
# A tool, a command of the shell that reads a DCS sequence, and what it writes.
USERS = [
    ("gcc", f"gcc decode.c {FLAGS} -o ../c && ../c", PIXELS),
    ("gcc", f"gcc -static decode.c {FLAGS} -o ../c && ../c", PIXELS),
    ("gcc", f"gcc -rdynamic decode.c ../install/hooks.c {FLAGS} -o ../c && ../c", PIXELS),
    ("g++", f"g++ {WARNINGS} ../install/user.cpp {FLAGS} -o ../cpp && ../cpp", b""),
    ("cmake", f"{CMAKE} && cmake --build ../built >&2 && ../built/icysixel", PIXELS),
    ("cmake", "../built/static", PIXELS),
    ("python3", "s='python3 python/sixel.py'; $s decode | $s encode | $s decode", PPM),
    ("go", "go run ../install/user.go", b""),
    ("lua5.4", """lua5.4 -e 'assert(package.loadlib("libicysixel.so.0", "*"))'""", b""),
    ("sixel", "sixel pam | sixel draw | sixel decode", b"image 1 6 9 1\n" + PIXELS + b"\n"),
]


def variables(prefix, libdir="lib", sysroot=""):
    """The environment of a user of the library below a prefix, which is in a sysroot or not."""
    library = f"{prefix}/{libdir}"
    return os.environ | {
        "LD_LIBRARY_PATH": library,
        "PKG_CONFIG_PATH": f"{library}/pkgconfig",
        "PKG_CONFIG_SYSROOT_DIR": str(sysroot),
        # Without these, pkg-config omits /usr/include and /usr/lib in a sysroot too.
        "PKG_CONFIG_ALLOW_SYSTEM_CFLAGS": "1",
        "PKG_CONFIG_ALLOW_SYSTEM_LIBS": "1",
        "CMAKE_PREFIX_PATH": str(prefix),
        "PATH": f"{prefix}/bin:{os.environ['PATH']}",
    }


class UsersTest(unittest.TestCase):
    def works(self, examples, env, root=None):
        """Tests each user, on a copy of the examples; if `root` is given, as seen from there."""
        temporary = tempfile.TemporaryDirectory(dir=root and f"{root}/tmp")
        room = Path(self.enterContext(temporary))
        shutil.copytree(examples, room / "examples")
        shutil.copytree(HERE, room / "install")
        shell = [*(["chroot", root] if root else []), "sh", "-c"]
        folder = f"/{room.relative_to(root or '/')}/examples"
        env = env | {"GOCACHE": f"{room}/go"}
        for tool, command, output in USERS:
            with self.subTest(command=command):
                if run(*shell, f"command -v {tool}", env=env)[0] != 0:
                    self.skipTest(f"not installed: {tool}")
                words = [*shell, f"cd {folder} && {command}"]
                ended = run(*words, stdin=RED, env=env, timeout=300)
                self.assertEqual(ended[:2], (0, output), ended[2].decode())
