"""Writes the project as plain Rust, without contracts: python3 scripts/plain_rust FOLDER

The folder gets all that `rust/` contains, each crate as a module of one of its packages, and what
its Makefile installs and reads. Then `make` or `cargo build --offline` builds it there.
"""
import itertools
import shutil
import sys
from pathlib import Path

sys.dont_write_bytecode = True

from translation import HOMES, ROOT, plain  # noqa: E402

# What the Makefile of plain Rust installs and reads.
COPIED = ("LICENSE-*", "examples/*.*", "examples/python/*", "man/*", "scripts/*.mk", "viewer/*",
          "scripts/manual", "crates/icysixel/*.*", "crates/icysixel/[im]*/*.[ch]")


def copy(folder):
    """Copies all that is not translated."""
    for name in ["crates", *(it.name for it in (ROOT / "rust").iterdir() if it.is_dir())]:
        shutil.rmtree(folder / name, ignore_errors=True)
    ignored = shutil.ignore_patterns("target")
    shutil.copytree(ROOT / "rust", folder, ignore=ignored, dirs_exist_ok=True)
    for name in itertools.chain(*map(ROOT.glob, COPIED)):
        target = folder / name.relative_to(ROOT)
        target.parent.mkdir(parents=True, exist_ok=True)
        shutil.copy(name, target)
        if name.name.startswith("LICENSE"):
            shutil.copy(name, folder / "icy_sixel")


def main(folder):
    copy(folder)
    for crate, (_, home) in HOMES.items():
        sources = ROOT / "crates" / crate / "src"
        for name in sorted(set(sources.rglob("*.rt")) - set(sources.rglob("tests.rt"))):
            place = name.relative_to(sources).with_suffix(".rs")
            if place.name in ("lib.rs", "main.rs"):
                place = place.with_name("mod.rs")
            try:
                text = plain(name.read_text(), crate)
            except SyntaxError as error:
                sys.exit(f"{name.relative_to(ROOT)}: {error}")
            (folder / home / place).parent.mkdir(parents=True, exist_ok=True)
            (folder / home / place).write_text(text)


if __name__ == "__main__":
    main(Path(sys.argv[1]))
