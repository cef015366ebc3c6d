"""The sentences of the papers, docs/clerk/sentences.md, and the words of them that a row takes.

A section begins with `## title` or `### title`. A sentence is an item `- words`; below it `  - no row: why`, or of some of its words
`  - no row for "words": why`. An item goes on in the lines below it that are indented further. A row takes a sentence or words of it: in its first cell `…` stands where words are left out, and `[ ]` holds
words that are ours. A cell `(besides)` takes no words: that row says what is shown besides.
"""

import re
from dataclasses import dataclass, field

SENTENCES = "docs/clerk/sentences.md"
BESIDES = "(besides)"


@dataclass
class Section:
    title: str
    line: int
    sentences: list = field(default_factory=list)  # (line, start, end) in text
    text: str = ""
    reasons: list = field(default_factory=list)  # (line, start, end, why)


def whole_lines(text):
    """The lines of the file, each item on one line, with the number that it begins at."""
    found = []
    for number, line in enumerate(text.splitlines(), 1):
        if found and re.match(r"  +(?!- )\S", line) and re.match(r" *- ", found[-1][1]):
            found[-1] = (found[-1][0], f"{found[-1][1]} {line.strip()}")
        else:
            found.append((number, line))
    return found


def load(text):
    """The sections of the file, and its faults."""
    sections, faults = [], []
    for number, line in whole_lines(text):
        title = re.match(r"###? (.*)", line)
        reason = re.match(r'  - no row(?: for "(.*)")?: (.+)', line)
        if title:
            sections.append(Section(title[1], number))
        elif line.startswith("- ") and sections:
            section = sections[-1]
            start = len(section.text)
            section.text += line[2:].strip() + " "
            section.sentences.append((number, start, len(section.text) - 1))
        elif reason and sections and sections[-1].sentences:
            section, (_, start, end) = sections[-1], sections[-1].sentences[-1]
            at = section.text.find(reason[1], start) if reason[1] else start
            if at < 0:
                faults.append(f'{SENTENCES}:{number}: "{reason[1]}" is not in the sentence above')
            else:
                section.reasons.append((number, at, at + len(reason[1]) if reason[1] else end, reason[2]))
        elif line.startswith("  "):
            faults.append(f"{SENTENCES}:{number}: neither a sentence nor a reason")
    return [section for section in sections if section.sentences], faults


def pieces(cell):
    """The words of a paper that a cell takes, piece by piece."""
    if cell.startswith(BESIDES):
        return []
    ours = re.sub(r"\[(?!u64\])[^\[\]]*\]", "…", cell)
    return [piece for piece in (part.strip(" .,;:") for part in ours.split("…")) if piece]


def taken(section, cell):
    """The parts of a section's text that a cell takes, in order, as (start, end); None where some of its words are not there."""
    spans, at = [], 0
    for piece in pieces(cell):
        found = re.compile(rf"(?<!\w){re.escape(piece)}(?!\w)").search(section.text, at)
        if not found:
            return None
        spans.append(found.span())
        at = found.end()
    return spans


def left_out(section, spans):
    """The words of a section that neither a row nor a reason takes: (line of the sentence, words), one for each run of them."""
    spans = sorted(spans + [(start, end) for _, start, end, _ in section.reasons])
    found = []
    for number, start, end in section.sentences:
        run = []
        for word in re.finditer(r"\w+", section.text[start:end]):
            place = start + word.start()
            if any(a <= place < b for a, b in spans):
                if run:
                    found.append((number, section.text[run[0] : run[-1]]))
                run = []
            else:
                run = [run[0] if run else place, start + word.end()]
        if run:
            found.append((number, section.text[run[0] : run[-1]]))
    return found


def beside(sentences, papers):
    """Where the file of sentences and the papers part: None where their words are the same, or what each has there. What is quoted besides is left out."""
    own = "\n".join(line for _, line in whole_lines(sentences))
    own = own[own.index("## Document ") :].split("\n## Quoted besides\n")[0]
    own = re.sub(r"(?m)^  - no row.*$|^- |^#+ (?:Document \d+: )?", "", own).split()
    text = re.sub(r"(?m)^\|\s*-.*$|^```$", "", "\n".join(papers))
    text = re.sub(r"(?m)^\| (\S+) \| (.*) \|$", r"\1: \2", text)
    theirs = re.sub(r"(?m)^- |^#+ |\*\*", "", text).split()
    at = next((i for i, (a, b) in enumerate(zip(own, theirs)) if a != b), min(len(own), len(theirs)))
    if own == theirs:
        return None
    return " ".join(own[max(at - 4, 0) : at + 4]), " ".join(theirs[max(at - 4, 0) : at + 4])


def words_of(text):
    """The words of a quotation as they are compared: in small letters, with a | where `..` or `[our words]` stand."""
    return re.sub(r"\s+", " ", re.sub(r"\[[^]]*\]|\.\.", "|", text)).lower()


def quotations(text):
    """What the comments of a file of definitions quote, piece by piece: (line of the comment, words); words None where a quotation is not closed."""
    found, comment, begun = [], [], 0

    def end():
        marks = " ".join(comment).split('"')
        if len(marks) % 2 == 0:
            found.append((begun, None))
        for quoted in marks[1:-1:2] if len(marks) % 2 else []:
            for piece in re.split(r"\||[.;:](?: |$)", words_of(quoted)):
                piece = piece.strip(" .,;:()")
                if piece:
                    found.append((begun, piece))
        comment.clear()

    for number, line in enumerate(text.splitlines() + [""], 1):
        if line.lstrip().startswith("--"):
            begun = begun if comment else number
            comment.append(line.lstrip()[2:].strip())
        elif comment:
            end()
    return found
