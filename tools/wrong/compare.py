"""Compares what was built with the second implementation, and with the examples that were written from the papers; tells the first difference in a line."""

import itertools
import re
import signal
import time

from wrong.build import BASE, ORACLE, PROGRAMS, WRITTEN, Stuck, build_program, call, touched, write
from wrong.edits import read

# How long each comparison of the library as it is took, in how many rounds: an edit has some times as long.
TOOK = {}


def seconds_for(name, rounds):
    seconds, gone_through = TOOK.get(name, (0, 0))
    return 5 * seconds * max(1, rounds / gone_through) + 30 if gone_through else 3600


def cut_short(text, most):
    return text if len(text) <= most else text[: most - 2] + ".."


def value_at(text, start):
    """The value that begins at a place of a printed answer."""
    return cut_short(re.match(r"[^,})\]]*", text[start:])[0].strip(), 40) or "its end"


def place_of(text, start):
    """What a value of a printed answer is: the name of its field, or its place in a list."""
    named = re.search(r"(\w+): (?:\w+ )?[^:{}()\]]*$", text[:start])
    if named:
        return f"{named[1]} "
    return f"place {text.count(',', text.rfind('[', 0, start), start)}: " if "[" in text[:start] else ""


def in_a_line(said):
    """What a comparison said of its first difference, in a line: the call and what it was given, the right answer and the wrong one."""
    lines = [line for line in said.strip().splitlines() if line.strip()]
    told = {head.strip(): rest for head, colon, rest in (re.sub(r"^  given ", "  given: ", line).partition(": ") for line in lines[1:]) if colon}
    papers, other = told.get("by the papers"), told.get("by the archive", told.get("by the program"))
    if papers is None or other is None:
        return cut_short(lines[0] if lines else "nothing was said", 160)
    if "given" not in told:
        return f"{cut_short(lines[0].rstrip(':'), 100)}: {cut_short(papers, 40)} by the papers, {cut_short(other, 40)} here"
    at = next((i for i, (a, b) in enumerate(zip(papers, other)) if a != b), min(len(papers), len(other)))
    start = max(papers.rfind(mark, 0, at) for mark in " [{(") + 1
    # A record is long: what else was given says more.
    given = re.sub(r"\b[A-Z]\w* \{[^{}]{90,}\}", "a record", told["given"])
    call_made = lines[0].replace(" differs", "") + (given if given.startswith("(") else f"({given})")
    return f"{cut_short(call_made, 120)}: {place_of(papers, start)}{value_at(papers, start)} by the papers, {value_at(other, start)} here"


def run_compare(name, words, rounds, folder, libraries, limited=False):
    """The first difference that one comparison finds, or None."""
    began = time.time()
    try:
        status, said = call([ORACLE, *words, str(rounds)], seconds_for(name, rounds), folder, libraries, limited=limited)
    except Stuck as stuck:
        return f"{name}: {stuck}"
    if folder == BASE:
        TOOK[name] = time.time() - began, rounds
    write(f"{folder}/{name}.said", said)
    if status < 0:
        return f"{name}: the program was ended by {signal.Signals(-status).name}"
    # Where all answers agree it may still say that something never came, which is no wrong answer.
    return f"{name}: {in_a_line(said)}" if status and not said.startswith("never ") else None


def compare_archive(folder, rounds):
    """The first call of the library in a folder whose answer is another one than the papers', or None."""
    return run_compare("archive", ["compare-archive"], rounds, folder, folder, limited=True)


def compare_program(crate, words, folder, rounds):
    """The first line of a program, run by these words, that is another one than the papers', or None."""
    return run_compare(crate, [f"compare-{crate}", words], min(rounds, 1700), folder, BASE)


def compare_written(texts, folder, built=None):
    """The first example of the papers that comes out as another line with the edit, or None; `built` has the words of what is built already."""
    for crate in built or touched(WRITTEN, texts):
        words = built[crate] if built else build_program(crate, texts, folder)
        try:
            lines = call(words.split(), 60, folder, output=True)[1].splitlines()
        except Stuck as stuck:
            return f"{crate}: {stuck}"
        asked = read(f"crates/{crate}/stdout").splitlines()
        for number, (papers, here) in enumerate(itertools.zip_longest(asked, lines, fillvalue="nothing"), 1):
            if papers != here:
                return f"{crate}, line {number}: '{cut_short(papers, 60)}' by the papers, '{cut_short(here, 60)}' here"
    return None


def compare_base(rounds):
    """Compares the library as it is: it must not differ."""
    words = {crate: read(f"{BASE}/{crate}.words") for crate in PROGRAMS + WRITTEN}
    programs = (compare_program(crate, words[crate], BASE, rounds) for crate in PROGRAMS)
    written = (compare_written({}, BASE, {crate: words[crate]}) for crate in WRITTEN)
    return next(filter(None, itertools.chain([compare_archive(BASE, rounds)], programs, written)), None)
