"""What is asked of the register. Each check takes the register and gives its faults, a line each."""

import glob
import os
import re
from collections import defaultdict

import made
import paper
import pages
import sources

SHORT = 240  # letters of what is said in plain words

# The definitions that speak of lists: of calls, of parts, of reads, of reports. What is proved over all calls leads to one of them.
LISTS = {
    ("crates/promises/specs/Sequence.antt", "Calls"),
    ("crates/promises/specs/Passed.antt", "passed"),
    ("crates/losses/specs/Sequence.antt", "Calls"),
    ("crates/tracked/specs/Told.antt", "Call"),
    ("crates/uncut/specs/Cutting.antt", "Fed"),
    ("crates/pieces/specs/Handing.antt", "Handed"),
    ("crates/pieces/specs/Later.antt", "later"),
    ("crates/pieces/specs/Sessions.antt", "Session"),
    ("crates/log_laws/specs/Lines.antt", "lines_of"),
    ("crates/play/specs/Reads.antt", "answered"),
    ("crates/page/specs/Pieces.antt", "turns"),
    ("crates/totals/specs/Sums.antt", "added_all"),
}


class Register:
    """The sentences and the pages, as texts; what is read of the sources is read from the tree."""

    def __init__(self, texts=None):
        names = [paper.SENTENCES] + pages.paths()
        self.texts = texts or {name: sources.read(name) for name in names}
        self.sections, self.faults = paper.load(self.texts[paper.SENTENCES])
        self.pages = sorted(name for name in self.texts if name != paper.SENTENCES)
        self.rows = []
        for page in self.pages:
            found, faults = pages.rows(page, self.texts[page])
            self.rows += found
            self.faults += faults


def theorems(row):
    """What is proved for a row: the theorems that it names, and under "Proved:" the functions, whose contracts the toolchain proves."""
    proved = next((part for part in row.cells[3].split("<br>") if part.startswith("Proved:")), "")
    functions = {(path, short) for (path, _), short in sources.functions().items()}
    return [link for link in row.links() if "/proofs/" in link.path] + [link for link in pages.links(row.page, proved) if (link.path, link.name) in functions]


def led_by(links):
    """The definitions to which these theorems and contracts lead."""
    return set().union(*[sources.led_to(link.path, link.name) for link in links if link.named()])


def cells(register):
    """Each kind is one of the four, what is proved names a theorem, over lists of calls where it says so, and plain words are short."""
    for row in register.rows:
        _, plain, kind, _ = row.cells
        if kind not in pages.KINDS:
            yield f'{row.at()}: "{kind}" is none of the four kinds'
        if kind in pages.PROVED and not theorems(row) and not any(link.path.endswith("functions.md") for link in row.links()):
            yield f"{row.at()}: proved, and no theorem is named"
        if kind == "proved over all calls" and not led_by(theorems(row)) & LISTS:
            yield f"{row.at()}: proved over all calls, and no theorem speaks of a list of calls"
        if kind == "run and compared" and "Run:" not in row.cells[3]:
            yield f"{row.at()}: run and compared, and nothing is named that runs"
        if len(plain) > SHORT:
            yield f"{row.at()}: in plain words it has {len(plain)} letters, of {SHORT}"


def places(register):
    """Every place that a row names is there, at that line."""
    for row in register.rows:
        if not row.links():
            yield f"{row.at()}: this row names no place"
        for link in row.links():
            if not os.path.isfile(link.path):
                yield f"{row.at()}: {link.path} does not exist"
            elif link.line and not link.path.endswith(pages.NAMED):
                yield f"{row.at()}: {link.path} has no names, and so no line"
            elif link.line and link.name not in sources.defined(link.path):
                yield f"{row.at()}: {link.path} does not define {link.name}"
            elif link.line and sources.defined(link.path)[link.name] != link.line:
                yield f"{row.at()}: {link.name} stands at line {sources.defined(link.path)[link.name]} of {link.path}, not {link.line}"
            elif not link.line and link.path.endswith(pages.NAMED) and not link.name.endswith(os.path.basename(link.path)):
                yield f"{row.at()}: {link.name} of {link.path} has no line" + ("" if link.name in sources.defined(link.path) else ", and is not there")


def proofs(register):
    """For "X proved as Y" the declared type of Y is X."""
    for row in register.rows:
        for statement, theorem in row.proofs():
            if not sources.states((theorem.path, theorem.name), (statement.path, statement.name)):
                stated = sources.type_of(theorem.path, theorem.name)
                yield f"{row.at()}: {theorem.name} does not state {statement.name}: it states {stated[:80] or 'nothing'}"


def words(register):
    """Each row takes its words from the section that it stands under, in the section's order; each word of a section is taken, or has its reason."""
    section_of = {section.title: section for section in register.sections}
    spans, before = defaultdict(list), {}
    for row in register.rows:
        section = section_of.get(row.title)
        if not section:
            yield f'{row.at()}: no section of the sentences is called "{row.title}"'
            continue
        if row.cells[0].startswith(paper.BESIDES):
            before[row.title] = len(section.text)
            continue
        found = paper.taken(section, row.cells[0])
        if not found:
            yield f"{row.at()}: these words do not stand in {paper.SENTENCES} under {row.title}: {row.cells[0]}"
            continue
        if found[0][0] < before.get(row.title, 0):
            yield f"{row.at()}: out of the order of the sentences"
        before[row.title] = found[0][0]
        spans[row.title] += found
    for section in register.sections:
        for line, left in paper.left_out(section, spans[section.title]):
            yield f'{paper.SENTENCES}:{line}: no row takes "{left}", and no reason is given'
        for line, start, end, _ in section.reasons:
            if any(a < end and start < b for a, b in spans[section.title]):
                yield f"{paper.SENTENCES}:{line}: it has a row, and a reason why it has none"


def quotations(register):
    """What a comment of specs/ quotes stands in a sentence, and in a row that names its file, unless the sentence has a reason to have none."""
    texts = {section.title: section.text.lower() for section in register.sections}
    titles = {section.title.lower().split(". ")[-1].rstrip(".") for section in register.sections}
    kept = " | ".join(section.text[start:end].lower() for section in register.sections for _, start, end, _ in section.reasons)
    rows = [(paper.words_of(row.cells[0].replace("…", "..")), {link.path for link in row.links()}) for row in register.rows]
    for path in sorted(glob.glob("crates/*/specs/**/*.antt", recursive=True)):
        for line, piece in paper.quotations(sources.read(path)):
            if piece is None:
                yield f"{path}:{line}: a quotation is not closed"
            elif piece in titles or piece in kept:
                continue
            elif not any(piece in text for text in texts.values()):
                yield f'{path}:{line}: "{piece}" stands in no sentence'
            elif not any(piece in said and path in named for said, named in rows):
                yield f'{path}:{line}: "{piece}" stands in no row that names this file'


def statements(register):
    """A statement that stands by itself under "Proved:" is one that a theorem of the row leads to."""
    for row in register.rows:
        proved = next((part for part in row.cells[3].split("<br>") if part.startswith("Proved:")), "")
        links = pages.links(row.page, proved)
        led = led_by([link for link in theorems(row) if link in links])
        for link in links:
            if "/specs/" in link.path and link.named() and (link.path, sources.enclosing(link.path, link.name)) not in led:
                yield f"{row.at()}: no theorem of this row leads to {link.name}"


def touched(row):
    """What a row is about: the functions that it names, or whose proof it names, with all that they call; the definitions that it names or that the
    contracts of its functions mention, with what these mention; and all definitions to which its places lead."""
    functions, named, led = set(), set(), set()
    for link in row.links():
        if link.path.endswith(".rt"):
            functions |= {one for one, short in sources.functions().items() if one[0] == link.path and short == link.name}
        elif "/proofs/" in link.path:
            functions |= {sources.proved_function(link.path)} - {None}
        if link.path.endswith(".antt"):
            for name in [link.name] if link.named() else sources.defined(link.path):
                led |= sources.led_to(link.path, name)
                named |= {(link.path, sources.enclosing(link.path, name))}
    for function in functions:
        led |= sources.led_to(function[0], sources.functions()[function])
        named |= sources.contract(function)[0]
    named = named.union(*[sources.touches.says(*one) for one in named])
    return set().union(*[sources.below(function) for function in functions]), named, led


def guards(register):
    """Each wrong answer of a row touches it: it changes a function of the row or one that such a function calls, or one whose contract speaks of
    what the row names, or a definition to which the row leads."""
    for row in register.rows:
        answers = [link for link in row.links() if link.path.endswith(".edit")]
        below, named, led = touched(row) if answers else (set(), set(), set())
        for link in answers:
            changes = sources.wrong_answers().get((link.path, link.name), set())
            if not any(change in below | led or (change in sources.functions() and sources.contract(change)[0] & named) for change in changes):
                names = ", ".join(sorted(name for _, name in changes)) or "nothing"
                yield f"{row.at()}: {link.name} changes {names}, and touches nothing of this row"


def functions(register):
    """Every public function has a wrong answer that touches it, and a theorem that its result is the only one, or it stands among the exceptions."""
    excepted = sources.read(made.EXCEPTIONS)
    for function in sources.public():
        short = sources.functions()[function]
        if not made.guards(function):
            yield f"{function[0]}: {short} is public, and no wrong answer touches it"
        if not made.theorems(function) and not re.search(rf"^\| `{re.escape(short)}` of crate `{function[0].split('/')[1]}`", excepted, re.M):
            yield f"{function[0]}: {short} is public, no theorem says that its result is the only one, and it is no exception"


def answers(register):
    """Every wrong answer that an edit tries stands in a row, of a page or of a function."""
    named = {(link.path, link.name) for row in register.rows for link in row.links()}
    named |= {answer for function in sources.public() for answer in made.guards(function)}
    for path, name in sorted(set(sources.wrong_answers()) - named):
        yield f"{path}: {name} stands in no row"


def front(register):
    """What is made is as it would be made now."""
    for path, text in made.pages_now(register).items():
        if not os.path.isfile(path):
            yield f"{path}: it is not there; tools/check-register --write makes it"
        elif text is None:
            yield f"{path}: its lists stand between the marks {made.BEGIN} and {made.END}"
        elif (register.texts.get(path) or sources.read(path)) != text:
            yield f"{path}: it is not as tools/check-register --write makes it"


ALL = [cells, places, proofs, statements, words, quotations, guards, functions, answers, front]


def faults(register):
    return register.faults + [fault for check in ALL for fault in check(register)]
