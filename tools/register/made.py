"""What is made and not written by hand: the page of public functions, and the lists of the front page."""

import functools
import glob
import os
import re
import textwrap

import pages
import paper
import sources

FUNCTIONS = "docs/clerk/functions.md"
FRONT = "docs/clerk/REGISTER.md"
EXCEPTIONS = "docs/clerk/EXCEPTIONS.md"
BEGIN, END = "<!-- made by tools/check-register --write -->", "<!-- end -->"


# ---- public functions


@functools.lru_cache(maxsize=None)
def one_result():
    """For each function, as crate and name, the theorems that say that its contract permits one result: those about its contract's `Post` or `clauses`."""
    found = {}
    for path in sorted(glob.glob("crates/*/proofs/*.antt")):
        used = re.findall(r"^use Rattle\.(\w+)\.(?:proofs|specs\.contracts)\.([\w.]+?)(?:\.Reads)? as ([\w-]+)", sources.read(path), re.M)
        for crate, module, alias in used:
            for name in sources.defined(path):
                if re.search(rf"(?<![\w-]){re.escape(alias)}\.(?:Post|clauses)\b", sources.type_of(path, name)):
                    found.setdefault((crate, module.replace(".", "::")), []).append((path, name))
    return found


def theorems(function):
    return one_result().get((function[0].split("/")[1], function[1]), [])


@functools.lru_cache(maxsize=None)
def guards(function):
    """The wrong answers that touch a function, the nearest ones: they change it or a definition that its contract mentions, else a function
    that it calls in its crate, else a definition to which its contract leads, else a function that it calls in another crate."""
    crate, leads = function[0].split("/src/")[0], sources.led_to(function[0], sources.functions()[function])
    ranked = {}
    for answer, changes in sources.wrong_answers().items():
        for change in changes:
            far = sources.below(function).get(change)
            if change == function or change in sources.contract(function)[0]:
                rank = (0, 0)
            elif far and change[0].startswith(crate + "/"):
                rank = (1, far)
            elif change in leads:
                rank = (2, 0)
            elif far:
                rank = (3, far)
            else:
                continue
            ranked[answer] = min(rank, ranked.get(answer, rank))
    return [answer for answer in sorted(ranked) if ranked[answer] == min(ranked.values())]


def functions_page():
    lines = [
        "# Public functions",
        "",
        "Every public function of the libraries, made of the sources by `tools/check-register --write`. Its",
        "contract stands in its source, above its body; it speaks of the definitions that are named here.",
        "None has a `requires`. What is written of its proof is named: the answers to the prover's goals, and",
        "what a loop keeps; where nothing is, the toolchain finds the proof by itself. That a contract",
        "permits one result alone is a theorem of its own; where none is named, the",
        "[exceptions](EXCEPTIONS.md) say why. A wrong answer changes the function itself, or what its",
        "contract speaks of, or else the nearest function that it calls.",
    ]
    crate = None
    for function in sorted(sources.public()):
        path, name = function
        if path.split("/")[1] != crate:
            crate = path.split("/")[1]
            lines += ["", f"## {crate}", "", "| Function | Its contract speaks of | Proved | One result | Wrong answers |", "|---|---|---|---|---|"]
        said = [pages.place(FUNCTIONS, *one) for one in sorted(sources.contract(function)[0]) if one[1] in sources.defined(one[0])]
        proof = sources.touches.proof_files(f"crates/{crate}", name)
        proved = ", ".join(pages.place(FUNCTIONS, path) for path in proof) or "by the toolchain"
        one = ", ".join(pages.place(FUNCTIONS, *theorem) for theorem in theorems(function)) or "an exception"
        wrong = ", ".join(pages.place(FUNCTIONS, *answer) for answer in guards(function)) or "none"
        lines.append(f"| {pages.place(FUNCTIONS, path, sources.functions()[function])} | {', '.join(said) or 'its arguments alone'} | {proved} | {one} | {wrong} |")
    return "\n".join(lines) + "\n"


# ---- the front page


def sections(register):
    """A row for each page: how many of its rows are of each kind."""
    lines = [f"| Page | {' | '.join(pages.KINDS)} |", "|---|" + "---:|" * len(pages.KINDS)]
    for page in register.pages:
        kinds = [row.cells[2] for row in register.rows if row.page == page]
        name = " ".join(["Document 0" + page.split("/")[-1][1] if page.split("/")[-1][:2] in ("01", "02") else "", heading(register.texts[page])]).strip(" .")
        lines.append(f"| [{name}]({os.path.basename(page)}) | " + " | ".join(str(kinds.count(kind) or "") for kind in pages.KINDS) + " |")
    return lines


def heading(text):
    title = re.findall(r"^##? (.*)", text, re.M)
    return (title[1] if title[0].startswith("Document") else title[0]).rstrip(".")


def not_proved(register):
    lines = ["| Sentence | In plain words | Kind |", "|---|---|---|"]
    for row in register.rows:
        if row.cells[2] not in pages.PROVED:
            sentence = "" if row.cells[0].startswith(paper.BESIDES) else row.cells[0]
            lines.append(f"| [{os.path.basename(row.page)[:5]}]({os.path.basename(row.page)}#L{row.line}): {sentence} | {row.cells[1]} | {row.cells[2]} |")
    return lines


def exceptions():
    """What docs/clerk/EXCEPTIONS.md lists: the first cell of each row of its tables, and where it has three, what is left open."""
    lines, text = [], sources.read(EXCEPTIONS).splitlines()
    for number, (line, after) in enumerate(zip(text, text[1:] + [""]), 1):
        if line.startswith("| ") and not after.startswith("|-"):
            cells = [cell.strip() for cell in line.strip("| ").split(" | ")]
            item = f"- [{cells[0]}](EXCEPTIONS.md#L{number})" + (f": {cells[1]}" if len(cells) > 2 else "")
            lines += textwrap.wrap(item, 100, subsequent_indent="  ", break_long_words=False, break_on_hyphens=False)
    return lines


def front_page(register, text):
    """The front page with its lists made anew: each stands between two marks, in this order."""
    made = [sections(register), not_proved(register), exceptions()]
    parts = text.split(BEGIN)
    if len(parts) != len(made) + 1 or not all(END in part for part in parts[1:]):
        return None
    return parts[0] + "".join(BEGIN + "\n" + "\n".join(lines) + "\n" + part[part.index(END) :] for lines, part in zip(made, parts[1:]))


def pages_now(register):
    """The two pages as they are made of the register and the sources: path and text, None where the front page has not its marks."""
    front = sources.read(FRONT) if os.path.isfile(FRONT) else ""
    return {FUNCTIONS: functions_page(), FRONT: front_page(register, front)}
