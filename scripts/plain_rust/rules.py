"""The rules that make plain Rust of Rattle.

A rule has the name of the form that it erases or replaces. It makes its edits and returns the place
after the form. It returns None for another form, which the next rule is asked for. A text that no
rule names stays as it is, so that rustc rejects it if it is not Rust.
"""
import re

CLAUSES = "requires", "ensures"
# Requirements on the lengths of slices, and their checks. LLVM then leaves out those of the indices
# within, but not after a check with a sum, because a sum may wrap.
BOUNDS = {
    r"(\w+) ≤ (\w+\.len\(\))": r"\1 <= \2",
    r"([\w* ]+) \+ (\w+) ≤ (\w+\.len\(\))": r"\3 >= \2 && \1 <= \3 - \2",
    r"(\w+\.len\(\)) ≡ (\w+\.len\(\))": r"\1 == \2",
}
SUPPORT = "crate::rattle::rattle_std"
# The modules of `std` that only a program has.
HOST = "env", "fs", "io", "process", "test"


def ghost(source, at):
    """Imports, members and fields that only proofs read."""
    if source.word(at) != "ghost":
        return None
    end = source.find(at, ";", ",", "}")
    last = end - (source.word(end) == "}")
    source.cut_item(at, last)
    return last + 1


def clauses(source, at):
    """The clauses between the signature of a function and its body, which checks the bounds."""
    if source.word(at) not in CLAUSES:
        return None
    end = body(source, at)
    source.cut_between(at - 1, end, " " if source.word(end) == "{" else "")
    if source.word(end) == "{":
        source.append(end, "".join(checks(" ".join(source.words(at, end)))))
    return end


def checks(text):
    """The checks of the bounds among clauses."""
    text = re.sub(r"length (\w+) \. (?:now|old)", r"\1.len()", text)
    for clause in re.findall(r"requires (?:\w+ )?\{ (.*?) \}", text):
        for form, check in BOUNDS.items():
            found = re.fullmatch(form, clause)
            if found:
                yield f"\n    required({found.expand(check)});"


def body(source, at):
    """The place of the body of a function, or of the end of its declaration."""
    end = source.find(at, "{", ";", *CLAUSES)
    while source.word(end) in CLAUSES:
        end = source.close(source.find(end, "{")) + 1
    return end


def attribute(source, at):
    """Attributes of proofs, and names in `derive` of what Rust does itself."""
    if source.word(at) != "#":
        return None
    opened = source.find(at, "[")
    closed = source.close(opened)
    if source.word(opened + 1) in ("tactic", "cycle", "error") \
            or source.has(opened + 1, "unsafe ( no_mangle )"):
        source.cut_lines(at, closed)
    elif source.word(opened + 1) == "derive":
        names = [it for it in source.words(opened + 3, closed - 1) if it != ","]
        kept = [it for it in names if it not in ("Drop", "Error")]
        if not kept:
            source.cut_lines(at, closed)
        elif kept != names:
            source.replace(opened + 3, closed - 2, ", ".join(kept))
        if "Error" in names:
            display(source, closed + 1)
    return closed + 1


def display(source, at):
    """The texts of an error's variants, which their attributes state."""
    enum = source.find(at, "enum")
    opened = source.find(enum, "{")
    closed = source.close(opened)
    name = source.word(enum + 1) + ("<'_>" if source.word(enum + 2) == "<" else "")
    arms = [arm(source, it) for it in range(opened, closed) if source.has(it, "# [ error")]
    source.append(closed, f"""

impl core::fmt::Display for {name} {{
    fn fmt(&self, f: &mut core::fmt::Formatter<'_>) -> core::fmt::Result {{
        match self {{
{''.join(arms)}        }}
    }}
}}

impl core::error::Error for {name} {{}}""")


def arm(source, at):
    """The arm of a variant with an attribute for its text."""
    closed = source.close(at + 1)
    text = "".join(source.words(at + 4, closed - 1)).replace(",", ", ") \
        if source.word(at + 5) == "," else source.word(at + 4)
    after = closed + 2
    fields = ""
    if source.word(after) == "(":
        fields, text = "(it)", text.replace("{0}", "{it}").replace(".0", "it")
    elif source.word(after) == "{":
        names = [source.word(it - 1) for it in range(after, source.close(after))
                 if source.word(it) == ":"]
        fields = f" {{ {', '.join(names)} }}"
    return f"            Self::{source.word(closed + 1)}{fields} => write!(f, {text}),\n"


def error_import(source, at):
    """The import of the derive for errors."""
    if not source.has(at, "use thiserror :: Error ;"):
        return None
    source.cut_lines(at, at + 4)
    return at + 5


def drop(source, at):
    """A drop that takes a value apart, as Rust does by itself."""
    if not source.has(at, "Drop for"):
        return None
    first = at
    while source.word(first) != "impl":
        first -= 1
    opened = source.find(at, "{")
    start = body(source, source.find(opened + 1, "fn"))
    words = " ".join(source.words(start, source.close(start) + 1))
    if not re.fullmatch(r"\{ let \w+ \{ (\w+ : _ (, )?)*\} = self ; \}", words):
        raise source.error(at, "a drop that does something")
    source.cut_item(first, source.close(opened))
    return source.close(opened) + 1


def index(source, at):
    """An index that is no literal. The support code decides whether it is checked."""
    if source.word(at) == "[" and source.touches(at) \
            and (source.kind(at - 1) in ("word", "number")
                 or source.word(at - 1) in (")", "]", "?")):
        closed = source.close(at)
        if closed != at + 2 or source.kind(at + 1) != "number":
            source.append(at, "Proved(")
            source.insert(closed, ")")


def path(source, at):
    """A path from a crate, which is a module, or from `std`, for which the support code has it."""
    word = source.word(at)
    if source.word(at + 1) != "::" or source.word(at - 1) == "::":
        return None
    if word == "std":
        module = source.word(at + 2 + (source.word(at + 2) == "{"))
        source.replace(at, at, "crate::host" if module in HOST else SUPPORT)
    elif word in source.homes:
        source.replace(at, at, source.homes[word])
    return at + 2


def entry(source, at):
    """The function of a program that its `main` calls."""
    if source.has(at, "fn main ("):
        source.insert(at, "pub ")
    return None


def tests(source, at):
    """The tests inside a crate, which only the kit runs."""
    if not source.has(at, "# [ cfg ( test ) ] mod tests ;"):
        return None
    source.cut_lines(at, at + 9)
    return at + 10
