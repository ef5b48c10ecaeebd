"""Tests the translator to plain Rust: each rule, forms without a rule, and the layout of structs.

A rule has an example in rules/CRATE: NAME.rattle, a source of that crate, becomes NAME.rs. The first
line of a source in rules/rejected is the error of the translator, or else of rustc. `rt` would take
files named .rt for sources.
"""
import re
import sys
import tempfile
import unittest
from pathlib import Path

from build import HEADERS, ROOT, needs, run

sys.path.append(str(ROOT / "scripts/plain_rust"))
from translation import LAYOUTS, RULES, plain  # noqa: E402

HERE = ROOT / "tests/rust/rules"
SUPPORT = ROOT / "rust/icy_sixel/src/rattle/rattle_std/mod.rs"
CRATE = f"""mod rattle {{
    #[path = "{SUPPORT}"]
    pub mod rattle_std;
}}
#[path = "form.rs"]
mod form;
"""


class TestTranslator(unittest.TestCase):
    maxDiff = None

    def test_rules(self):
        """Each rule makes of its example what is beside it."""
        examples = [it for it in sorted(HERE.glob("*/*.rattle")) if it.parent.name != "rejected"]
        self.assertEqual({it.stem for it in examples}, {it.__name__ for it in RULES})
        for example in examples:
            with self.subTest(rule=example.stem):
                expected = example.with_suffix(".rs").read_text()
                self.assertEqual(plain(example.read_text(), example.parent.name), expected)

    @needs("rustc")
    def test_rejected(self):
        """A form that no rule names is an error of the translator or of rustc."""
        for form in sorted((HERE / "rejected").glob("*.rattle")):
            with self.subTest(form=form.stem), tempfile.TemporaryDirectory() as room:
                text = form.read_text()
                error = text.splitlines()[0].removeprefix("// ")
                if not error.startswith("rustc: "):
                    with self.assertRaisesRegex(SyntaxError, re.escape(error)):
                        plain(text, "icysixel")
                    continue
                Path(room, "lib.rs").write_text(CRATE)
                Path(room, "form.rs").write_text(plain(text, "sixel_base"))
                command = "rustc --edition 2024 --crate-type lib --emit metadata lib.rs"
                status, _, errors = run(*command.split(), cwd=room)
                self.assertEqual(status, 1)
                self.assertIn(error.removeprefix("rustc: "), errors.decode())

    @needs("gcc")
    def test_layouts(self):
        """The sizes and offsets that the structs of the header have are those of a C compiler."""
        header = (HEADERS / "icysixel.h").read_text()
        facts = []
        structs = re.compile(r"^typedef struct \{\n(.*?)^\} (\w+);", re.M | re.S)
        for members, name in structs.findall(header):
            size, align, offsets = LAYOUTS[name]
            facts += [f"sizeof({name}) == {size}", f"_Alignof({name}) == {align}"]
            names = re.findall(r"^    \w+ \*?(\w+)(?:\[\d+\])?;", members, re.M)
            self.assertEqual(len(names), len(offsets))
            facts += [f"offsetof({name}, {it}) == {at}" for it, at in zip(names, offsets)]
        self.assertGreater(len(facts), 70)
        code = "#include <icysixel.h>\n#include <stddef.h>\n"
        code += "".join(f'_Static_assert({it}, "");\n' for it in facts)
        command = ["gcc", "-std=c11", f"-I{HEADERS}", "-fsyntax-only", "-x", "c", "-"]
        status, _, errors = run(*command, stdin=code.encode())
        self.assertEqual(status, 0, errors.decode())
