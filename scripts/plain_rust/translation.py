"""The translation of a source: all rules, and the names that every file has."""
import re
from pathlib import Path

from interface import call, layout, layouts
from rules import attribute, clauses, drop, entry, error_import, ghost, index, path, tests
from source import Source

ROOT = Path(__file__).resolve().parent.parent.parent
RULES = ghost, layout, tests, attribute, clauses, drop, index, error_import, path, entry, call
MODULES = Path("icy_sixel/src/rattle")
# The module of each crate, and the folder of its files.
HOMES = {it: (f"crate::rattle::{it}", MODULES / it) for it in re.findall(
    r"^pub mod (\w+);", (ROOT / "rust" / MODULES / "mod.rs").read_text(), re.M)}
HOMES |= {it: (f"crate::{it}", Path(it, "src", it)) for it in ("icysixel", "sixel")}
LAYOUTS = layouts((ROOT / "crates/icysixel/include/icysixel.h").read_text())
PRELUDE = "crate::rattle::rattle_std::prelude::{*, format, vec}"
PROGRAM_PRELUDE = "crate::host::prelude::{*, eprintln, format, vec}"


def plain(text, crate):
    """The plain Rust of a source of a crate."""
    # Examples in doc comments are Rattle, which rustdoc would run.
    source = Source(text.replace("/// ```rust\n", "/// ```text\n"))
    source.homes = {name: home for name, (home, _) in HOMES.items()} | {"crate": HOMES[crate][0]}
    source.layouts = LAYOUTS
    at = 0
    while at < len(source.tokens):
        ends = (rule(source, at) for rule in RULES)
        at = next((it for it in ends if it is not None), at + 1)
    prelude = PROGRAM_PRELUDE if crate == "sixel" else PRELUDE
    header = re.match(r"((//!|#!\[).*\n)*", source.edited())
    return f"{header[0]}\nuse {prelude};\n{header.string[header.end():]}"
