"""Tests the files of a release: `make dist` makes them, and they are used as on another machine.

DEBIAN_ROOT names a folder of debootstrap in which the packages are installed, as root.
"""
import os
import re
import shutil
import tempfile
import unittest
from pathlib import Path

from build import HEADERS, ROOT, needs, run
from install.test_abi import ABI, HEADER
from install.users import HERE, PIXELS, RED, UsersTest, variables
from vectors import packed_vectors

DIST = ROOT / "out/dist"
LOADER = "/lib64/ld-linux-x86-64.so.2"
CROSS = "aarch64-linux-gnu"
# What builds the source neither has nor needs.
ABSENT = "python3", "git", "rt"
# A program for aarch64, as `gcc decode.c` in USERS.
DECODE = f"{CROSS}-gcc decode.c $(pkg-config --cflags --libs icysixel) -o $room/decode"


def contents(package):
    """The mode, the path and the link of each file of a Debian package."""
    listed = run("dpkg-deb", "-c", package)[1].decode().splitlines()
    return {(words[0], *words[5:]) for words in map(str.split, listed)}


def make_dist(**changes):
    """Makes the files, and returns the text of SHA256SUMS."""
    env = os.environ | changes
    status, _, errors = run("make", "-s", "-C", ROOT, "dist", env=env, timeout=900)
    assert status == 0, errors.decode()
    return (DIST / "SHA256SUMS").read_text()


@needs(f"{CROSS}-gcc", "cargo", "dh", "dpkg-buildpackage", "pkg-config", "rt")
class TestDist(UsersTest):
    """The tests share a folder with what all files contain."""

    @classmethod
    def setUpClass(cls):
        if run("pkg-config", "--exists", "gdk-pixbuf-2.0")[0] != 0:
            raise unittest.SkipTest("not installed: libgdk-pixbuf-2.0-dev")
        cls.room = Path(cls.enterClassContext(tempfile.TemporaryDirectory()))
        cls.sums = make_dist()
        for file in *DIST.glob("*.tar.gz"), *DIST.glob("*.crate"):
            assert run("tar", "-xf", file, "-C", cls.room)[0] == 0
        for file in DIST.glob("*.deb"):
            folder = cls.room / file.stem.rpartition("_")[2]
            assert run("dpkg-deb", "-x", file, folder)[0] == 0

    def folder(self, name):
        """The folder of a tarball."""
        found, = self.room.glob(name)
        return found

    def test_bytes(self):
        """Another run makes the same bytes, and no file has the path of this folder."""
        umask = os.umask(0o077)
        self.addCleanup(os.umask, umask)
        self.assertEqual(make_dist(TZ="Asia/Tokyo", LC_ALL="C"), self.sums)
        self.assertEqual(run("sha256sum", "-c", "SHA256SUMS", cwd=DIST)[0], 0)
        for file in self.room.rglob("*"):
            if file.is_file():
                self.assertNotIn(str(ROOT).encode(), file.read_bytes(), file)

    def test_names(self):
        """README names files of the release."""
        names = re.findall(r"[\w.*-]+\.(?:deb|tar\.gz|crate|dsc)", (ROOT / "README.md").read_text())
        self.assertTrue(names)
        for name in names:
            with self.subTest(name=name):
                self.assertTrue(any(DIST.glob(name)))

    @needs("lintian")
    def test_packages(self):
        """lintian finds no error in the Debian packages and their source."""
        packages = *DIST.glob("*.deb"), *DIST.glob("*.dsc")
        self.assertEqual(len(packages), 7)
        root = ["--allow-root"] if os.getuid() == 0 else []
        ended = run("lintian", *root, "--fail-on", "error", *packages, timeout=300)
        self.assertEqual(ended[0], 0, ended[1].decode())

    def test_tarball(self):
        """The tarball for this processor can be used where it was unpacked."""
        folder = self.folder("icysixel-*-x86_64-linux")
        self.works(folder / "share/doc/icysixel/examples", variables(folder))

    def test_newer_processors(self):
        """The loader takes the library for x86-64-v3 by itself. It writes what the other writes."""
        if b"x86-64-v3 (supported" not in run(LOADER, "--help")[1]:
            self.skipTest("not supported: x86-64-v3")
        library = self.folder("icysixel-*-x86_64-linux") / "lib"
        (self.room / "all").write_bytes(b"".join(packed_vectors()))
        for name, *words in ("vectors", self.room / "all"), ("random", "600", "1"):
            program = self.room / name
            sources = [ROOT / f"tests/c/{name}.c", f"-I{HEADERS}", f"-L{library}", "-licysixel"]
            ended = run("gcc", "-std=c11", "-O1", "-pthread", *sources, "-o", program)
            self.assertEqual(ended[0], 0, ended[2].decode())
            written = {}
            for level in "x86-64-v3", "x86-64-v2":
                load = LOADER, "--library-path", library, "--glibc-hwcaps-mask", level
                listed = run(*load, "--list", program)[1]
                self.assertEqual(b"glibc-hwcaps/x86-64-v3/" in listed, level == "x86-64-v3")
                status, written[level], errors = run(*load, program, *words, timeout=300)
                self.assertEqual(status, 0, errors.decode())
            self.assertEqual(*written.values())

    def test_unpacked_packages(self):
        """The Debian packages for this processor can be used below a folder."""
        root = self.room / "amd64"
        libdir = "lib/x86_64-linux-gnu"
        env = variables(root / "usr", libdir, root)
        self.works(root / "usr/share/doc/libicysixel-dev/examples", env)

    @unittest.skipUnless("DEBIAN_ROOT" in os.environ, "not set: DEBIAN_ROOT")
    def test_installed_packages(self):
        """The same after `dpkg --install` in a Debian system."""
        root = os.environ["DEBIAN_ROOT"]
        for file in DIST.glob("*_amd64.deb"):
            shutil.copy(file, f"{root}/tmp")
        install = f"chroot {root} sh -c 'dpkg --install /tmp/*_amd64.deb'"
        ended = run("sh", "-c", install)
        self.assertEqual(ended[0], 0, ended[2].decode())
        examples = f"{root}/usr/share/doc/libicysixel-dev/examples"
        self.works(examples, {"PATH": "/usr/sbin:/usr/bin:/sbin:/bin"}, root)

    def test_source(self):
        """Without a network, the source builds packages with the same files."""
        room = self.room / "source"
        stub = room / "absent"
        stub.mkdir(parents=True)
        for name in ABSENT:
            (stub / name).symlink_to("/bin/false")
        source, = DIST.glob("*.dsc")
        folder = room / "icysixel"
        self.assertEqual(run("dpkg-source", "-x", source, folder)[0], 0)
        # Debian's cargo, if it is installed.
        env = os.environ | {"PATH": f"{stub}:/usr/bin:{os.environ['PATH']}"}
        offline = ["unshare", "-rn"] if run("unshare", "-rn", "true")[0] == 0 else []
        checked = [] if run("dpkg-checkbuilddeps", cwd=folder)[0] == 0 else ["-d"]
        words = *offline, "dpkg-buildpackage", "-b", "-us", "-uc", *checked
        status, told, errors = run(*words, cwd=folder, env=env, timeout=900)
        self.assertEqual(status, 0, (told + errors)[-4000:].decode())
        built = sorted(room.glob("*.deb"))
        self.assertEqual(len(built), 4)
        for package in built:
            with self.subTest(package=package.name):
                found = contents(DIST / package.name) - contents(package)
                self.assertEqual([it for it in found if "glibc-hwcaps" not in it[1]], [])
                self.assertEqual(contents(package) - contents(DIST / package.name), set())
        library = folder / "out/shared/libicysixel.so"
        interface = run(ROOT / "scripts/abi", HEADER, library)[1].decode()
        self.assertEqual(interface.splitlines(), ABI.read_text().splitlines())
        prefix = room / "usr"
        words = "make", "-s", "install", f"PREFIX={prefix}"
        self.assertEqual(run(*words, cwd=folder, env=env), (0, b"", b""))
        self.works(prefix / "share/doc/icysixel/examples", variables(prefix))

    @needs("qemu-aarch64")
    def test_aarch64(self):
        """A program links the library of the tarball and of the packages for aarch64."""
        folder = self.folder("icysixel-*-aarch64-linux")
        arm64 = self.room / "arm64"
        packages = variables(arm64 / "usr", f"lib/{CROSS}", arm64)
        env = {"room": str(self.room), "QEMU_LD_PREFIX": f"/usr/{CROSS}"}
        for documents, found in (
            (folder / "share/doc/icysixel", variables(folder)),
            (arm64 / "usr/share/doc/libicysixel-dev", packages),
        ):
            with self.subTest(documents=documents):
                emulate = f"qemu-aarch64 -E LD_LIBRARY_PATH={found.pop('LD_LIBRARY_PATH')}"
                command = f"{DECODE} && {emulate} $room/decode"
                options = {"env": found | env, "cwd": documents / "examples"}
                ended = run("sh", "-c", command, stdin=RED, **options)
                self.assertEqual(ended[:2], (0, PIXELS), ended[2].decode())

    def test_cargo(self):
        """A program depends on the Cargo crate by its path, without a network."""
        crate = self.folder("icy_sixel-*")
        user = self.room / "user"
        (user / "src").mkdir(parents=True)
        shutil.copy(crate / "examples/decode.rs", user / "src/main.rs")
        manifest = (HERE.parent / "rust/user.toml").read_text()
        (user / "Cargo.toml").write_text(manifest.replace("../icy_sixel", f"../{crate.name}"))
        ended = run("cargo", "run", "-q", "--offline", stdin=RED, cwd=user, timeout=300)
        self.assertEqual(ended[:2], (0, b"image 1 6 9 1\n" + PIXELS + b"\n"), ended[2].decode())
