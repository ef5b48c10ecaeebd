"""Tests that the engine of `sixel` keeps its form: other work gets functions and types of its own."""
import re
import unittest

from build import ROOT

SERVE = (
    "pub fn serve<R: Read, O: Write>(alloc: Global, word: Word, input: &mut R, output: &mut O)"
    " -> Result<(), Fault>"
)
READ_WORD = (
    "pub fn read_word(word: &str, a: Option<&str>, b: Option<&str>, c: Option<&str>)"
    " -> Option<Word>"
)
WORD = ["Payload", "Decode", "Frames(usize)", "Encode(usize, usize, u16)"]
FAULT = ["Sixel(SixelError)", "Input", "Output"]


def source(path):
    """The code of a file, without comments and attributes."""
    return re.sub(r"^ *(//|#).*\n", "", (ROOT / "crates" / path).read_text(), flags=re.M)


class TestForms(unittest.TestCase):
    def has_function(self, path, signature):
        """Tests that a file has a function of this signature, whatever its lines are."""
        text = re.sub(r"\s+", " ", source(path)).replace("( ", "(").replace(", )", ")")
        self.assertIn(f"{signature} ", text)

    def has_variants(self, path, name, variants):
        """Tests that an enum of a file has these variants and no other."""
        (body,) = re.findall(rf"^pub enum {name} {{\n(.*?)^}}", source(path), re.M | re.S)
        self.assertEqual([it.strip(" ,") for it in body.splitlines()], variants)

    def test_functions(self):
        self.has_function("sixel/src/engine.rt", SERVE)
        self.has_function("sixel/src/words.rt", READ_WORD)

    def test_errors(self):
        """thiserror derives the texts of errors, and is the only crate of the kit beside std."""
        text = (ROOT / "crates/sixel_base/src/error.rt").read_text()
        self.assertIn("use thiserror::Error;", text)
        self.assertRegex(text, r"#\[derive\(.*\bError\)\]\npub enum SixelError ")
        lines = (ROOT / "crates.txt").read_text().splitlines()
        rows = [it.split(":") for it in lines if not it.startswith("#")]
        crates = {name.split()[0] for name, _ in rows}
        used = {it for _, names in rows for it in names.split()}
        self.assertEqual(used - crates, {"thiserror", "std_alloc", "std_heap"})

    def test_types(self):
        self.has_variants("sixel/src/words.rt", "Word", WORD)
        self.has_variants("sixel/src/fault.rt", "Fault", FAULT)
