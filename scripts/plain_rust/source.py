"""A Rattle source as tokens, and edits of its text."""
import re

TOKEN = re.compile(r"""
    (?P<space>\s+|//[^\n]*|/\*.*?\*/)
  | (?P<text>[bc]?r(?P<hashes>\#*)".*?"(?P=hashes)|[bc]?"(?:\\.|[^"\\])*"
      |b?'(?:\\[^']+|\\'|[^'\\])')
  | (?P<number>\d\w*(?:\.\d\w*)?)
  | (?P<word>'?[^\W\d]\w*)
  | (?P<sign>::|->|=>|\.\.=?|.)
""", re.X | re.S)
CLOSING = {"(": ")", "[": "]", "{": "}"}
# A doc comment or an attribute on a line of its own.
OUTER = re.compile(r" *(///|#\[).*\n")


class Source:
    """A source. A token has a place, which is its number, and a word, which is its text."""

    def __init__(self, text):
        self.text = text
        self.tokens = [it for it in TOKEN.finditer(text) if it.lastgroup != "space"]
        self.edits = []

    def kind(self, at):
        return self.tokens[at].lastgroup

    def word(self, at):
        return self.tokens[at][0] if 0 <= at < len(self.tokens) else ""

    def words(self, first, end):
        return [self.word(it) for it in range(first, end)]

    def has(self, at, words):
        """Whether these words, separated by spaces, are at a place."""
        return self.words(at, at + words.count(" ") + 1) == words.split(" ")

    def touches(self, at):
        """Whether no space is before a token."""
        return at > 0 and self.tokens[at - 1].end() == self.tokens[at].start()

    def error(self, at, text):
        line = self.text.count("\n", 0, self.tokens[min(at, len(self.tokens) - 1)].start()) + 1
        return SyntaxError(f"line {line}: {text}")

    def close(self, opened):
        """The place of the bracket that closes the one at a place."""
        expected = []
        for at in range(opened, len(self.tokens)):
            word = self.word(at)
            if word in CLOSING:
                expected.append(CLOSING[word])
            elif word in CLOSING.values():
                if expected.pop() != word:
                    break
                if not expected:
                    return at
        raise self.error(opened, "unbalanced brackets")

    def find(self, first, *ends):
        """The place of the first of these words from a place on, outside of brackets."""
        at = first
        while self.word(at) not in ends:
            if self.word(at) in ("", *CLOSING.values()):
                raise self.error(first, f"no {' or '.join(ends)}")
            at = self.close(at) + 1 if self.word(at) in CLOSING else at + 1
        return at

    def insert(self, at, text):
        """Inserts a text before a token."""
        start = self.tokens[at].start()
        self.edits.append((start, start, text))

    def append(self, at, text):
        """Inserts a text after a token."""
        end = self.tokens[at].end()
        self.edits.append((end, end, text))

    def replace(self, first, last, text):
        """Replaces tokens."""
        self.edits.append((self.tokens[first].start(), self.tokens[last].end(), text))

    def cut_between(self, first, last, text):
        """Replaces all between two tokens."""
        self.edits.append((self.tokens[first].end(), self.tokens[last].start(), text))

    def cut_lines(self, first, last):
        """Deletes the lines of tokens, on which nothing else is."""
        start = self.text.rfind("\n", 0, self.tokens[first].start()) + 1
        end = self.text.find("\n", self.tokens[last].end()) + 1 or len(self.text)
        before = self.text[start:self.tokens[first].start()]
        after = self.text[self.tokens[last].end():end].strip()
        if before.strip() not in ("", "pub") or after and not after.startswith("//"):
            raise self.error(first, "not on a line of its own")
        self.edits.append((start, end, ""))

    def cut_item(self, first, last):
        """Deletes the lines of an item, with its doc comments and its attributes."""
        self.cut_lines(first, last)
        start, end, _ = self.edits.pop()
        lines = self.text[:start].splitlines(keepends=True)
        while lines and OUTER.fullmatch(lines[-1]):
            start -= len(lines.pop())
        self.edits.append((start, end, ""))

    def edited(self):
        """The text with all edits."""
        pieces, done = [], 0
        for start, end, text in sorted(self.edits, key=lambda it: it[:2]):
            if start < done:
                raise SyntaxError(f"two edits of {self.text[start:end]}")
            pieces += [self.text[done:start], text]
            done = end
        text = "".join(pieces) + self.text[done:]
        text = re.sub(r"\n{3,}", "\n\n", text)
        return re.sub(r"(\{\n)\n+|\n+(\n *\})", r"\1\2", text).strip("\n") + "\n"
