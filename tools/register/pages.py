"""The pages of the register: a page for each section of the papers, with a table of four columns.

Sentence | In plain words | Kind | Where. The last cell has its places as links, `[name](file#Lnn)`: a definition, a theorem, a function or a
wrong answer by its name and line; or a whole file. The lines are written by `tools/check-register --write`.
"""

import glob
import os
import posixpath
import re
from dataclasses import dataclass

import sources

FOLDER = "docs/clerk"
KINDS = ["proved over all calls", "proved of each call", "run and compared", "read only"]
PROVED = KINDS[:2]
HEAD = ["Sentence", "In plain words", "Kind", "Where"]
LINK = re.compile(r"\[((?:[^\[\]]|\[[^\[\]]*\])+)\]\(([^()#\s]*)(?:#L(\d+))?\)")
NAMED = (".antt", ".rt", ".edit")


@dataclass
class Link:
    name: str
    path: str
    line: int  # 0 for a whole file

    def named(self):
        return self.path.endswith(NAMED) and self.line > 0


@dataclass
class Row:
    page: str
    line: int
    title: str
    cells: list

    def links(self):
        return links(self.page, self.cells[3])

    def proofs(self):
        """The statements and the theorems that are said to prove them: pairs of links."""
        text, found = self.cells[3], []
        for match in re.finditer(rf"({LINK.pattern}) proved as ({LINK.pattern})", text):
            found.append((links(self.page, match[1])[0], links(self.page, match[5])[0]))
        return found

    def at(self):
        return f"{self.page}:{self.line}"


def links(page, text):
    """The links in a text of a page."""
    folder = posixpath.dirname(page)
    return [Link(name, posixpath.normpath(posixpath.join(folder, path)), int(line or 0)) for name, path, line in LINK.findall(text)]


def paths():
    """The pages that have rows, in order."""
    return sorted(path for path in glob.glob(f"{FOLDER}/[0-9]*.md"))


def rows(page, text):
    """The rows of a page, and its faults. Each has the title that it stands under."""
    found, faults, title = [], [], ""
    for number, line in enumerate(text.splitlines(), 1):
        heading = re.match(r"##? (.*)", line)
        if heading:
            title = heading[1]
        if not line.startswith("|"):
            continue
        cells = [cell.strip() for cell in line.strip().strip("|").split(" | ")]
        if cells == HEAD or re.fullmatch(r"[-| :]*", line):
            continue
        if len(cells) != 4 or not all(cells):
            faults.append(f"{page}:{number}: a row has four cells, and none is empty")
            continue
        found.append(Row(page, number, title, cells))
    return found, faults


def place(page, path, name=""):
    """A link from a page to a name of a file, with its line, or to the file."""
    target = posixpath.relpath(path, posixpath.dirname(page))
    line = sources.defined(path).get(name) if name else None
    return f"[{name}]({target}#L{line})" if line else f"[{name or posixpath.basename(path)}]({target})"


def with_lines(page, text):
    """The page with each link's line as the sources have it now."""

    def mended(match):
        link = links(page, match[0])[0]
        if not os.path.isfile(link.path) or not link.path.endswith(NAMED):
            return match[0]
        line = sources.defined(link.path).get(link.name)
        return f"[{match[1]}]({match[2]}#L{line})" if line else match[0]

    return LINK.sub(mended, text)
