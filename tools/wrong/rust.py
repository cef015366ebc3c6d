"""A crate's code as Rust: the code of the crates is Rust's but for the contracts, so rustc compiles it once they are cut away."""

import re

CLAUSE = re.compile(r"^[ \t]*(?:requires|ensures)\*?(?: \w+)? \{", re.M)
GHOST_MEMBER = re.compile(r"^[ \t]*(?:pub )?ghost \w+(?: =|:) \{", re.M)
GHOST_USE = re.compile(r"^ghost use [^;]*;", re.M)
# What is spelled otherwise in Rust: the kit's function of two numbers is a method of the number there; the prover's attributes are nothing.
SPELLED = [
    (re.compile(r"\bstd::num::wrapping_(\w+)_(u\d+)\("), r"\2::wrapping_\1("),
    (re.compile(r"#!?\[tactic\([^\n]*\]"), ""),
    (re.compile(r"#\[unsafe\(no_mangle\)\]"), "#[no_mangle]"),
]


def blank(text, start, end):
    """The text with a part taken out, and its lines left empty, so that a line keeps its number."""
    return text[:start] + "\n" * text.count("\n", start, end) + text[end:]


def closing(text, start):
    """The place behind the brace that closes the one at a place."""
    depth = 0
    for place in range(start, len(text)):
        depth += {"{": 1, "}": -1}.get(text[place], 0)
        if depth == 0:
            return place + 1
    raise ValueError("a clause is not closed")


def as_rust(text):
    """The code of a source file, without its contracts."""
    for found in reversed(list(GHOST_USE.finditer(text))):
        text = blank(text, *found.span())
    # A member ends in a semicolon in an impl, and in a comma in a struct.
    for part, behind in ((CLAUSE, 0), (GHOST_MEMBER, 1)):
        found = part.search(text)
        while found:
            text = blank(text, found.start(), closing(text, found.end() - 1) + behind)
            found = part.search(text)
    for kit, rust in SPELLED:
        text = kit.sub(rust, text)
    return text
