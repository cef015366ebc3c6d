"""Reads files of edits, and says of each wrong answer by what it is shown to be wrong.

A file of edits has wrong answers, each with a line of its own, `# name: what it is`, and the texts that it replaces: `file:`, `old:` and
`new:`. In crates/CRATE/must-fail a file may be one wrong answer, under the file's name; `file:` is there a path of the crate. In the
files of tools/wrong the name is CRATE/NAME, and the path is one of the project.
"""

import functools
import glob
import os
import re
from typing import NamedTuple

# Edits of code that mean what an edit of a definition means, under its name; and edits that change no answer.
AS_CODE = "tools/wrong/as_code.edit"
HARMLESS = "tools/wrong/harmless.edit"
REGISTER = "docs/clerk/REGISTER.md"


class Answer(NamedTuple):
    """A wrong answer: crate/name, the place of an example that shows it or None, and what it replaces: (file, old text, new text)."""

    name: str
    shown: str
    pairs: list

    @property
    def in_code(self):
        return any("/src/" in path for path, _, _ in self.pairs)


@functools.lru_cache(maxsize=None)
def read(path):
    with open(path, encoding="utf-8") as file:
        return file.read()


def together(edit):
    """Whether a must-fail file tries several wrong answers, each under its name."""
    return os.path.basename(edit).startswith("wrong_answers_")


def answers(edit):
    """The wrong answers of a file; every path is one of the project."""
    tried = re.match(r"(crates/(\w+)/)must-fail/(\w+)\.edit$", edit)
    root, crate = (tried[1], tried[2] + "/") if tried else ("", "")
    found = [(crate + tried[3], [], [])] if tried and not together(edit) else []
    path = old = None
    for line in read(edit).splitlines():
        named = re.match(r"# ([\w/]+): ", line)
        if line.startswith("# shown: ") and found:
            found[-1][1].append(line[9:])
        elif named and (not tried or together(edit)):
            found.append((crate + named[1], [], []))
        elif line.startswith("file: "):
            path = root + line[6:]
        elif line.startswith("old: "):
            old = line[5:]
        elif line.startswith("new:") and found:
            found[-1][2].append((path, old, line[5:]))
    return [Answer(name, shown[0] if shown else None, pairs) for name, shown, pairs in found]


def must_fail():
    """The must-fail files of the project."""
    return sorted(glob.glob("crates/*/must-fail/*.edit"))


def misplaced(edit):
    """What is at fault where a text that is replaced does not stand once; each wrong answer is tried alone."""
    for answer in answers(edit) if os.path.isfile(edit) else []:
        texts = {}
        for path, old, new in answer.pairs:
            text = texts.get(path) or (read(path) if os.path.isfile(path) else "")
            if text.count(old) != 1:
                yield f"{edit}: the old text of {answer.name} stands {text.count(old)} times in {path}"
            texts[path] = text.replace(old, new)


def example_fault(place):
    """Why an example does not stand for a wrong answer, or None: it must be there, and a row of the register must name it."""
    path, _, name = place.partition("#")
    if not os.path.isfile(path) or not re.search(rf"(?m)^ *(?:pub )?{re.escape(name)} :", read(path)):
        return f"{place} is not there"
    rows = "".join(map(read, [REGISTER, *glob.glob("docs/clerk/*.md")]))
    if f"`{place}`" not in rows and not re.search(rf"\[{re.escape(name)}\]\([^)]*{re.escape(path)}#L\d+\)", rows):
        return f"no row of the register names {place}"
    return None


def by_kind():
    """The wrong answers in code, those that are said as code in tools/wrong, those with an example, and what is at fault."""
    tried = [answer for edit in must_fail() for answer in answers(edit)]
    code = [answer for answer in tried if answer.in_code]
    said = {answer.name: answer for answer in answers(AS_CODE)}
    beside, shown, faults = [], [], []
    for answer in tried:
        if answer.in_code:
            continue
        if answer.name in said:
            beside.append(said.pop(answer.name))
        elif answer.shown is None:
            faults.append(f"{answer.name}: it changes a definition, and neither {AS_CODE} nor an example says why that is wrong")
        elif example_fault(answer.shown):
            faults.append(f"{answer.name}: {example_fault(answer.shown)}")
        else:
            shown.append(answer)
    faults += [f"{name}: {AS_CODE} has it, and no must-fail edit of a definition" for name in said]
    return code, beside, shown, faults
