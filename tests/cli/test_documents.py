"""Tests the documents: examples contain their code, and their commands write what they show."""
import os
import re
import subprocess
import tempfile
import unittest
from pathlib import Path
from shutil import which

from build import ROOT, needs, run

# The sources that tests run, by the language of a block.
EXAMPLES = {
    "rust": [*ROOT.glob("crates/sixel_examples/src/**/*.rt"), ROOT / "rust/icy_sixel/README.md"],
    "c": [*ROOT.glob("examples/*.c")],
    "antt": [ROOT / "crates/icy_sixel/specs/Headline.antt"],
}
DOCUMENTS = [*ROOT.glob("*.md"), *sorted(ROOT.glob("docs/*.md"))]
# A file of definitions that a document names, and those that it names of the file.
CITED = re.compile(r"`(\w+)::([A-Z]\w*)`(?:\s\(((?:`\w+`,?\s?)+)\))?")
DEFINITIONS = re.compile(
    r"^pub use .*\{(.*)\}|^\w* ?pub (?:record |data )?(\w+)|^  (?:pub )?(\w+) :", re.M
)
CODE = re.compile(
    r"\b(?:fn|struct|enum|trait|mod) (\w+)|\bensures\*? (\w+) \{|^    (\w+)[,:({]", re.M
)
# Words in code spans that are no definition of this repository.
WORDS = {*"P Send Sync frames icy_sixel img2sixel malloc q rt sixel2png t unchecked".split()}
LINK = re.compile(r"\]\(([^)#:]+)(?:#[^)]*)?\)|^\[[^]]+\]: ([^#:\n]+)$", re.M)
# The commands of README that run, prove and test this repository.
TRY = [
    "printf '#1~' | ./sixel payload",
    "make",
    "./check",
    "(cd crates/sixel && printf '#1~' | rt try -- payload)",
]
SECTION = re.compile(r"^## Try it\n.*?^```sh\n(.*?)^```\n(.*?)^## ", re.M | re.S)
WRITTEN = re.compile(r"^The first and last print `(.*)`, 24 bytes of RGBA and a newline\.", re.M)
# Register 1 of VT340: 20, 20 and 80 percent.
BLUE = bytes([51, 51, 204, 255])
# The lines of README on other image formats.
LINES = re.compile(r"`((?:convert|sixel pam) [^`]*)`")
SESSION = re.compile(r"^```sh\n(.*?)^```\n(?:\n?^```text\n(.*?)^```\n)?", re.M | re.S)


def blocks():
    """Each block of code in the documents and in doc comments, with its language and its file."""
    comments = re.compile(r"^ */// ?(.*)$", re.M)
    pages = [(it, it.read_text()) for it in DOCUMENTS]
    for source in sorted(ROOT.glob("crates/*/src/**/*.rt")):
        pages.append((source, "\n".join(comments.findall(source.read_text()))))
    for page, text in pages:
        for language, block in re.findall(r"^```(rust|c|antt)\n(.*?)^```", text, re.M | re.S):
            yield page.relative_to(ROOT), language, block


def lines_of(text):
    """The lines of a text without their indentation, each after a line end."""
    return "".join(f"\n{it.strip()}" for it in text.splitlines() if it.strip()) + "\n"


def names_in(pattern, files):
    """The names that a pattern finds in files."""
    found = (it for file in files for groups in pattern.findall(file.read_text()) for it in groups)
    return {name for it in found for name in re.findall(r"\w+", it)}


def folder_of_imagemagick():
    """The folder of ImageMagick's `convert`, because other programs have that name too."""
    for folder in os.get_exec_path():
        convert = which("convert", path=folder)
        if convert and b"ImageMagick" in run(convert, "-version")[1]:
            return folder
    raise unittest.SkipTest("not installed: ImageMagick")


class TestDocuments(unittest.TestCase):
    def test_code_is_tested(self):
        found = list(blocks())
        self.assertEqual({language for _, language, _ in found}, {*EXAMPLES})
        for page, language, block in found:
            with self.subTest(page=str(page), block=block):
                texts = (lines_of(it.read_text()) for it in EXAMPLES[language])
                self.assertTrue(any(lines_of(block) in it for it in texts), "not in an example")

    def test_theorem(self):
        """VERIFICATION has the counts that `scripts/theorem` prints."""
        status, output, errors = run(ROOT / "scripts/theorem")
        self.assertEqual((status, errors), (0, b""))
        page = (ROOT / "docs/VERIFICATION.md").read_text()
        self.assertIn(f"```text\n{output.decode()}```\n", page)

    def test_links(self):
        """Each link to a file leads to one."""
        for page in [*DOCUMENTS, *ROOT.glob("examples/**/*.md"), *ROOT.glob("rust/*/*.md")]:
            for link in LINK.finditer(page.read_text()):
                with self.subTest(page=str(page), link=link[0]):
                    self.assertTrue((page.parent / (link[1] or link[2])).exists())

    @needs("cargo")
    def test_try_it(self):
        """README says how to run, prove and test this repository, and what the program writes.

        rust.test_program compares the outputs of the first and the last command.
        """
        commands, text = SECTION.search((ROOT / "README.md").read_text()).groups()
        self.assertEqual(re.findall(r"^(.+?)(?: +# .*)?$", commands, re.M), TRY)
        output = WRITTEN.search(text)[1].encode() + b"\n" + 6 * BLUE + b"\n"
        ended = run("sh", "-c", TRY[0], cwd=ROOT, timeout=600)
        self.assertEqual(ended[:2], (0, output), ended[2].decode())

    def test_definitions(self):
        """Each definition that a document names exists, in the file that the document names."""
        specs = [*ROOT.glob("crates/*/specs/**/*.antt")]
        names = names_in(DEFINITIONS, specs) | {it.stem for it in specs} | WORDS
        names |= names_in(CODE, ROOT.glob("crates/*/src/**/*.rt"))
        for page in ("FORMAT", "VERIFICATION", "SESSION"):
            text = (ROOT / f"docs/{page}.md").read_text()
            text = re.sub(r"^```.*?^```", "", text, flags=re.M | re.S)
            with self.subTest(page):
                self.assertEqual({*re.findall(r"`([A-Za-z_]\w*)`", text)} - names, set())
            for crate, file, cited in CITED.findall(text):
                path = ROOT / f"crates/{crate}/specs/{file}.antt"
                with self.subTest(page=page, file=f"{crate}::{file}"):
                    self.assertTrue(path.is_file())
                    defined = names_in(DEFINITIONS, [path])
                    self.assertLessEqual({*re.findall(r"\w+", cited)}, defined)

    def test_readme_lines(self):
        """The lines of README on PNG files keep an image in black and white."""
        lines = LINES.findall((ROOT / "README.md").read_text())
        draw, back = (it.replace("\\|", "|") for it in lines)
        folders = [folder_of_imagemagick(), ROOT / "crates/sixel/out", os.environ["PATH"]]
        paths = {**os.environ, "PATH": ":".join(map(str, folders))}
        made = "convert -size 9x4 pattern:hexagons -sample 40x30! cat.png"
        same = "compare -metric AE before.png cat.png null:"
        script = f"{made}; cp cat.png before.png; {draw} > cat.six; {back}; {same}"
        with tempfile.TemporaryDirectory() as room:
            ended = run("sh", "-eu", "-c", script, cwd=room, env=paths)
        self.assertEqual(ended, (0, b"", b"0"))

    @needs("bash", "img2sixel", "sixel2png")
    def test_session(self):
        """Each block of commands in docs/SESSION.md writes the text after it, or nothing."""
        paths = {**os.environ, "PATH": f"{folder_of_imagemagick()}:{os.environ['PATH']}"}
        commands = SESSION.findall((ROOT / "docs/SESSION.md").read_text())
        self.assertTrue(commands)
        with tempfile.TemporaryDirectory() as room:
            (Path(room) / "sixel").symlink_to(ROOT / "sixel")
            for script, output in commands:
                options = {"cwd": room, "env": paths, "stderr": subprocess.STDOUT}
                ended = run("bash", "-eu", "-c", script, **options)
                self.assertEqual(ended, (0, output.encode(), None), script)
