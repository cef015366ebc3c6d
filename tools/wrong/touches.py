"""What a wrong answer touches, worked out from the sources.

A function is proved from its own code, its contract and the contracts of those that it calls. A wrong answer touches a function whose code it
changes, a function that leads to a definition that it changes, by its contract, its proof or a contract that it calls, and a law that leads
there; what it does not touch it can make neither fail nor pass. A definition leads to what it mentions; a law that a proof uses leads on by its
statement. Definitions are followed where a file brings them in from another crate, under another name or with their whole file.
"""

import functools
import glob
import os
import re

from wrong.edits import answers as named_answers
from wrong.edits import read


def answers(edit):
    """The wrong answers of an edit: a name, and what it replaces as file, old text, new text."""
    return [(answer.name.split("/")[1], answer.pairs) for answer in named_answers(edit)]


def kind_of(line):
    """The type that an impl is of, a trait's too."""
    return re.sub(r"[<{].*", "", line.split(" for ")[-1].removeprefix("impl ")).strip()


def proved_kind(line, module):
    """What the prover calls an impl: a type, or for `impl From<u64> for Mark` in given.rt given::MarkFromU64."""
    trait = re.match(r"impl (\w+)(?:<(\w+)>)? for (\w+)", line)
    if not trait:
        return kind_of(line)
    of = trait[2] or ""
    return ("" if module in ("lib", "main") else f"{module}::") + trait[3] + trait[1] + of[:1].upper() + of[1:]


def functions(path, text):
    """Where each function of a source file begins, and its name as the prover has it: Type::name, or module::name."""
    module = os.path.basename(path)[:-3]
    kind, at, found = "", 0, []
    for line in text.splitlines(keepends=True):
        if line.startswith("impl "):
            kind = proved_kind(line, module)
        elif line.startswith("}"):
            kind = ""
            found.append((at + 1, None))
        name = re.match(r'\s*(?:pub(?:\(crate\))? )?(?:extern "C" )?fn (\w+)', line)
        if name:
            before = kind or ("" if module in ("lib", "main") else module)
            found.append((at, f"{before}::{name[1]}" if before else name[1]))
        at += len(line)
    return found


def function_at(path, text, place):
    """The function that stands at a place, or None."""
    return next((function for at, function in reversed(functions(path, text)) if at <= place), None)


def reader_of(path, text, place):
    """The one function of the crate that reads the constant at a place, or None: where others do, an edit of it changes them too."""
    readers = set()
    for constant in re.finditer(r"^(?:pub(?:\(crate\))? )?const (\w+)[\s\S]*?;$", text, re.M):
        if not constant.start() <= place < constant.end():
            continue
        for source in sorted(glob.glob(f"{path.split('/src/')[0]}/src/*.rt")):
            whole = read(source)
            for mention in re.finditer(rf"^(?!use |\s*//)(?!.*const {constant[1]}\b).*\b{constant[1]}\b", whole, re.M):
                readers.add(function_at(source, whole, mention.start()))
    return readers.pop() if len(readers) == 1 else None


NAME = r"(?:◌|[^\W\d])[\w'◌-]*"
HEAD = rf"^(?:(?:abbrev|unfoldable|pub|record|data) )*({NAME})(?= :| \()"
LAW = rf"^ *(?:(?:abbrev|unfoldable|pub) )*({NAME})(?= :)"
USE = r"^(?:ghost )?use Rattle\.(\w+)\.(specs|proofs)\.([\w.]+?)"
# What a function asks the prover to use or to unfold: crate::proofs::M::lemma, or a crate's name in place of `crate`.
ASKED = r"\b(\w+)::(specs|proofs)::((?:\w+::)+)([\w'-]+)"
CLAUSE = r"\s*(?:requires|ensures)\*?(?: \w+)? \{$"


def file_of(crate, kind, module):
    return f"crates/{crate}/{kind}/{module.replace('.', '/')}.antt"


@functools.lru_cache(maxsize=None)
def parts(path):
    """The parts of a file of definitions or laws: the name of each, and its text. What stands in a module stands in the module's part."""
    text = re.sub(r"(?m)^ *--.*$", "", read(path))
    heads = list(re.finditer(rf"{HEAD}|^(?:pub )?module _", text, re.M))
    return [(head[1], text[head.start() : after]) for head, after in zip(heads, [h.start() for h in heads[1:]] + [len(text)])]


@functools.lru_cache(maxsize=None)
def known(path):
    """The names that stand for something in a file, each with the file that has it and its name there: brought in by `use`, from another crate or under another name too, or its own."""
    found = {}
    for crate, kind, module, names in re.findall(rf"{USE}\.\{{([^}}]*)\}}", read(path), re.M):
        for name, other in re.findall(rf"({NAME})(?: as ({NAME}))?", names):
            # the kit's libraries, and the modules that the check makes of the code, have no file here
            if os.path.isfile(file_of(crate, kind, module)):
                found[other or name] = (file_of(crate, kind, module), name)
    if path.endswith(".antt"):
        own = LAW if "/proofs/" in path else HEAD
        found.update((name, (path, name)) for name in re.findall(own, read(path), re.M))
    return found


@functools.lru_cache(maxsize=None)
def modules(path):
    """The files that a file brings in whole, by the name that each has there: `use .. as name`."""
    brought = {name: file_of(crate, kind, module) for crate, kind, module, name in re.findall(rf"{USE} as ({NAME});?$", read(path), re.M)}
    return {name: file for name, file in brought.items() if os.path.isfile(file)}


def mentioned(text, path):
    """What a text of a file mentions: file and name of each, but no part of a record."""
    names, files = known(path), modules(path)
    found = {names[name] for name in re.findall(rf"(?<![.\w'-]){NAME}", text) if name in names}
    return found | {(files[module], name) for module, name in re.findall(rf"(?<![.\w'-])({NAME})\.({NAME})", text) if module in files}


@functools.lru_cache(maxsize=None)
def says(path, name):
    """What a definition mentions; of a law, what its statement does, with the head of its module: a proof goes by no more of the laws that it uses."""
    found = set()
    for own, part in parts(path) if os.path.isfile(path) else []:
        if "/specs/" in path:
            found |= mentioned(part, path) if own == name else set()
            continue
        laws = list(re.finditer(LAW, part, re.M))
        for law in (law for law in laws if law[1] == name):
            proof = re.compile(rf"^ *(?:unfolding |{re.escape(name)} )", re.M).search(part, law.end())
            whole = re.match(r" *(?:pub )?(?:abbrev|unfoldable)", law[0]) or not proof
            head = part[: laws[0].start()] if own is None else ""
            found |= mentioned(head + part[law.start() : len(part) if whole else proof.start()], path)
    return found


def reached(start):
    """The definitions and laws that these lead to, one by the other."""
    seen, left = set(), set(start)
    while left:
        one = left.pop()
        if one not in seen:
            seen.add(one)
            left |= says(*one)
    return seen


def of_trait(text, start):
    """The head of the trait's impl that the function there stands in, or ""; its text from the head on."""
    before = text[:start]
    head = before.rfind("\nimpl ") + 1
    own = before[head:]
    inside = re.match(r"impl .* for ", own) and not re.search(r"^}", own, re.M)
    return own if inside else ""


def trait_says(text, start):
    """What stands for the contract of a trait's function: the ghost members of its impl."""
    return "\n".join(re.findall(r"^ +ghost \w+ = \{.*", of_trait(text, start), re.M))


def contract_and_calls(path, text, function):
    """What a function's contract mentions, and what its code calls: a name, with its type or module where the code says it."""
    start, end = next((at, after) for (at, name), (after, _) in zip(functions(path, text), functions(path, text)[1:]) if name == function)
    lines = text[start:end].splitlines()
    body = next(i for i, line in enumerate(lines) if line.strip() == "{}" or (line.endswith("{") and not re.match(CLAUSE, line)))
    head = "\n".join([trait_says(text, start), *lines[:body]])
    return mentioned(head, path), set(re.findall(r"((?:\w+::)?\w+)\(", "\n".join(lines[body:])))


def proof_files(crate, function):
    """What is written of a function's proof; there may be none."""
    return sorted(glob.glob(f"{crate}/proofs/{function.replace('::', '/')}/*.antt"))


def asked_above(path, text, function):
    """What the attributes above a function ask the prover to use or to unfold."""
    start = next(at for at, name in functions(path, text) if name == function)
    above = re.search(r"(?:^#\[[^\n]*\n(?:[ \t)\]][^\n]*\n)*|^\s*//[^\n]*\n)*\Z", text[:start], re.M)[0]
    own = path.split("/")[1]
    return {(file_of(own if crate == "crate" else crate, kind, module[:-2].replace("::", ".")), name) for crate, kind, module, name in re.findall(ASKED, above)}


def proof_of(source, function):
    """What a function's own proof mentions: its files, and what the attributes above the function name."""
    found = asked_above(source, read(source), function)
    for path in proof_files(source.split("/src/")[0], function):
        found |= mentioned(re.sub(r"(?m)^(?:use .*| *--.*)$", "", read(path)), path)
    return found


def defined_at(path, text, place):
    """The definition that stands at a place of a file of definitions: its file and name."""
    return path, [head[1] for head in re.finditer(HEAD, text, re.M) if head.start() <= place][-1]


def changed(edit, faults=None):
    """What each wrong answer of the edit changes, by its name: the function, or a definition as its file and name. Faults are kept in the list that is given."""
    texts, found, faults = {}, {}, [] if faults is None else faults
    for name, pairs in answers(edit):
        if not pairs:
            faults.append(f"{edit}: {name} replaces nothing")
        for path, old, new in pairs:
            text = texts.get(path) or (read(path) if os.path.isfile(path) else "")
            if not re.match(r"crates/\w+/(src/\w+\.rt|specs/.*\.antt)$", path):
                faults.append(f"{edit}: {name} changes {path}, which is neither code nor a definition")
                continue
            if text.count(old) != 1:
                faults.append(f"{edit}: the old text of {name} stands {text.count(old)} times in {path}")
                continue
            place = text.index(old)
            if path.endswith(".rt"):
                found.setdefault(name, set()).add(function_at(path, text, place) or reader_of(path, text, place))
            else:
                found.setdefault(name, set()).add(defined_at(path, text, place))
            texts[path] = text.replace(old, new)
    return found


def causes(edit, found):
    """For each function of the crate, the wrong answers that touch it: those that change it, or a definition to which its contract, its proof or a contract that it calls leads."""
    crate, told = edit.split("/must-fail/")[0], {}
    for source in sorted(glob.glob(f"{crate}/src/*.rt")):
        for function in {name for at, name in functions(source, read(source)) if name}:
            told[function] = (*contract_and_calls(source, read(source), function), proof_of(source, function))
    touched = {}
    for function, (own, calls, proof) in told.items():
        called = set().union(*[contract for name, (contract, _, _) in told.items() if calls & {name, name.split("::")[-1]}])
        leads = reached(own | called | proof) | {function}
        touched[function] = {name for name, changes in found.items() if changes & leads}
    return touched


def causes_of_law(path, part, found):
    """The wrong answers that touch a part of a file of laws: those that change a definition to which it leads."""
    leads = reached(mentioned(part, path))
    return {name for name, changes in found.items() if changes & leads}


def laws_touched(crate, found):
    """For each part of the crate's files of laws, the wrong answers that touch it; none is looked for where no definition is changed."""
    if not any(isinstance(change, tuple) for changes in found.values() for change in changes):
        return []
    return [causes_of_law(path, part, found) for path in sorted(glob.glob(f"{crate}/proofs/*.antt")) for _, part in parts(path)]
