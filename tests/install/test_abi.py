"""Tests the binary interface of the shared library, and that the version is the same everywhere."""
import re
import shutil
import tempfile
import unittest
from pathlib import Path

from build import HEADERS, ROOT, needs, run
from library import SHARED

HEADER = HEADERS / "icysixel.h"
ABI = ROOT / "abi/icysixel.txt"
VERSION = re.search(r'_VERSION "(.*)"', HEADER.read_text())[1]
# The places of the version beside the header. The program and the library write it themselves.
PLACES = {
    "rust/icy_sixel/Cargo.toml": f'version = "{VERSION}"\n',
    "out/icysixel.pc": f"Version: {VERSION}\n",
    "CHANGELOG.md": f"# Changelog\n\n## {VERSION}, ",
    "README.md": f"Status: {VERSION}",
    "tests/cli/runs.tsv": f"sixel --version\t<>\tsixel {VERSION}<0a>\n",
}


@needs("cc", "nm", "readelf")
class TestAbi(unittest.TestCase):
    def test_interface(self):
        """It is that of the file. `make abi` renews the file, if the change is meant."""
        status, found, errors = run(ROOT / "scripts/abi", HEADER, SHARED)
        self.assertEqual((status, errors), (0, b""))
        self.assertEqual(found.decode().splitlines(), ABI.read_text().splitlines())

    def test_release(self):
        """Once a version is released, a changed line needs another soname. A new line does not."""
        first, *lines = ABI.read_text().splitlines()
        series = first.split()[-1]
        changed = [first, *lines, "icysixel_size: 12 bytes"]
        other = [first.replace(".so.", ".so.9"), *changed[1:]]
        room = Path(self.enterContext(tempfile.TemporaryDirectory()))
        (room / "scripts").mkdir()
        shutil.copy(ROOT / "scripts/abi", room / "scripts")
        for date, kept, status in (
            ("unreleased", changed, 0),
            ("2026-11-30", changed, 1),
            ("2026-11-30", other, 0),
            ("2026-11-30", [first, *lines[1:]], 0),
        ):
            with self.subTest(date=date, kept=kept[-1], first=kept[0]):
                (room / "CHANGELOG.md").write_text(f"# Changelog\n\n## {series}.0, {date}\n")
                (room / "abi.txt").write_text("\n".join(kept) + "\n")
                ended = run(room / "scripts/abi", HEADER, SHARED, room / "abi.txt")
                self.assertEqual(ended[0], status, ended[2].decode())
                same = (room / "abi.txt").read_text() == ABI.read_text()
                self.assertEqual(same, status == 0)


class TestVersion(unittest.TestCase):
    def test_version(self):
        """The header has the version, and all other places agree with it."""
        numbers = re.findall(r"_VERSION_[A-Z]+ (\d+)\n", HEADER.read_text())
        self.assertEqual(".".join(numbers), VERSION)
        for file, text in PLACES.items():
            with self.subTest(file=file):
                self.assertIn(text, (ROOT / file).read_text())
