"""What the sources hold: where each name is defined, what a theorem states, which functions are public and what they call.

What a wrong answer changes, and which definitions lead to which, is what tools/wrong/touches.py knows.
"""

import functools
import glob
import os
import re
import sys

sys.dont_write_bytecode = True
ROOT = os.path.dirname(os.path.dirname(os.path.dirname(os.path.abspath(__file__))))
os.chdir(ROOT)
sys.path.insert(0, os.path.join(ROOT, "tools"))
from wrong import touches  # noqa: E402
from wrong.edits import read, together  # noqa: E402

MARKS = r"(?:(?:pub|abbrev|unfoldable|axiom) )*"


@functools.lru_cache(maxsize=None)
def defined(path):
    """The names that a file defines, each with its line. A name that stands for several things is the one that stands furthest left."""
    found = {}

    def keep(name, line, depth):
        if name not in found or depth < found[name][1]:
            found[name] = (line, depth)

    kind = ""
    for number, line in enumerate(read(path).splitlines(), 1):
        depth = len(line) - len(line.lstrip(" "))
        if path.endswith(".antt"):
            name = re.match(rf" *{MARKS}(?:(?:record|data) (\S+)|(\S+) :(?: |$))", line)
            if name and not line.lstrip().startswith("--"):
                keep(name[1] or name[2], number, depth)
        elif path.endswith(".edit"):
            name = re.match(r"# (\w+): ", line)
            if not together(path):
                keep(os.path.basename(path)[:-5], number, 0)
            elif name and name[1] != "shown":
                keep(name[1], number, 0)
        elif path.endswith(".rt"):
            if line.startswith("impl "):
                kind = touches.kind_of(line)
            elif line.startswith("}"):
                kind = ""
            name = re.match(r'\s*(?:pub(?:\(crate\))? )?(?:extern "C" )?(?:fn|const|struct|enum) (\w+)', line)
            if name:
                keep(f"{kind}::{name[1]}" if kind else name[1], number, depth)
    return {name: line for name, (line, _) in found.items()}


@functools.lru_cache(maxsize=None)
def type_of(path, name):
    """What a theorem states: the text between its name and its proof, on one line, or "" where the file has no such theorem."""
    lines = read(path).splitlines()
    if name not in defined(path):
        return ""
    text = lines[defined(path)[name] - 1]
    depth = len(text) - len(text.lstrip(" "))
    text = text[text.index(":") + 1 :] if ":" in text else ""
    for line in lines[defined(path)[name] :]:
        if not line.strip() or len(line) - len(line.lstrip(" ")) <= depth:
            break
        text += " " + line.strip()
    return text.strip()


def states(theorem, statement):
    """Whether a theorem's declared type is a statement, or an application of it: `name : statement` or `name : statement a (b c)`. Both are file and
    name: of two statements with one name it is the one that the theorem's file brings in."""
    path, name = theorem
    text = type_of(path, name)
    while re.search(r"\([^()]*\)", text):
        text = re.sub(r"\([^()]*\)", "_", text)
    head = re.fullmatch(r"(?:([\w-]+)\.)?([\w'-]+)(?: [\w.'-]+)*", text)
    if not head:
        return False
    return statement == ((touches.modules(path).get(head[1]), head[2]) if head[1] else touches.known(path).get(head[2]))


# ---- functions, each as (file, name), the name as the prover has it: Type::name, module::name, or name in lib and main


def written(path, name):
    """A function's name as its file has it, from the one that the prover has."""
    parts = name.split("::")
    parts = parts[1:] if len(parts) > 1 and parts[0] == os.path.basename(path)[:-3] else parts
    short = "::".join(parts)
    if short in defined(path):
        return short
    # of a trait's impl the prover's name begins with the type's
    return next((one for one in defined(path) if "::" in one and one.split("::")[1] == parts[-1] and short.startswith(one.split("::")[0])), short)


@functools.lru_cache(maxsize=None)
def functions():
    """All functions of the crates: (file, name) with the name as it is written in the file."""
    found = {}
    for path in sorted(glob.glob("crates/*/src/*.rt")):
        for _, name in touches.functions(path, read(path)):
            if name:
                found[path, name] = written(path, name)
    return found


@functools.lru_cache(maxsize=None)
def public():
    """The public functions of the libraries: (file, name). A trait's function of a public type is one too, without the word."""
    found = []
    for path, name in functions():
        short = functions()[path, name]
        line = read(path).splitlines()[defined(path)[short] - 1]
        said = line.lstrip().startswith("pub ") and "pub(crate)" not in line
        if os.path.isfile(f"{path.split('/src/')[0]}/src/lib.rt") and (said or is_of_trait(path, name)):
            found.append((path, name))
    return found


def is_of_trait(path, name):
    """Whether a function stands in a trait's impl of a public type."""
    text = read(path)
    start = next(at for at, one in touches.functions(path, text) if one == name)
    head = touches.of_trait(text, start).split("\n")[0]
    kind = touches.kind_of(head) if head else ""
    types = [read(source) for source in glob.glob(f"{path.split('/src/')[0]}/src/*.rt")]
    return any(re.search(rf"^pub (?:struct|enum) {kind}\b", one, re.M) for one in types) if kind else False


@functools.lru_cache(maxsize=None)
def contract(function):
    """The definitions that a function's contract mentions, as file and name, and the calls in its body."""
    path, name = function
    return touches.contract_and_calls(path, read(path), name)


@functools.lru_cache(maxsize=None)
def crates_under():
    """For each crate, itself and the crates that it stands on."""
    under = {}
    for line in read("crates.txt").splitlines():
        named = re.match(r"(\w+)(?: [^:#]*)?:([^#]*)", line)
        if named:
            under[named[1]] = [named[1]] + named[2].split()
    return under


@functools.lru_cache(maxsize=None)
def callees(function):
    """The functions that a function's body calls, in its crate and in those that the crate stands on."""
    path, _ = function
    crate = path.split("/")[1]
    brought = {name: above for above, names in re.findall(r"^use ((?:\w+::)*)([^;]*);", read(path), re.M) for name in re.findall(r"\w+", names)}
    found = set()
    for call in contract(function)[1]:
        above, _, name = call.rpartition("::")
        for other, full in functions():
            of, module = other.split("/")[1], os.path.basename(other)[:-3]
            if of not in crates_under().get(crate, []) or full.split("::")[-1] != name:
                continue
            method = full.split("::")[0][:1].isupper()
            if above:
                right = full.split("::")[0] == above or (module == above and not method) or of == above
            elif method:
                right = True
            else:
                right = other == path or (name in brought and (of == crate or brought[name].startswith(of)))
            if right:
                found.add((other, full))
    return found


@functools.lru_cache(maxsize=None)
def below(function):
    """The functions that a function leads to by its calls, itself included, each with the number of calls in between."""
    far, left = {function: 0}, [function]
    for one in left:
        for other in sorted(callees(one)):
            if other not in far:
                far[other] = far[one] + 1
                left.append(other)
    return far


@functools.lru_cache(maxsize=None)
def proved_function(path):
    """The function of whose proof a file is a part, crates/C/proofs/M/F/Answers.antt or another, or None."""
    named = re.match(r"(crates/\w+)/proofs/(\S+)/(?:Answers|Invariants|Proof)\.antt$", path)
    name = named and named[2].replace("/", "::")
    return next((one for one in functions() if named and one[0].startswith(named[1] + "/src/") and one[1] == name), None)


# ---- wrong answers


@functools.lru_cache(maxsize=None)
def wrong_answers():
    """The wrong answers that must-fail edits try, each as (file, name), with what it changes: functions and definitions."""
    found = {}
    for edit in sorted(glob.glob("crates/*/must-fail/*.edit")):
        crate = edit.split("/must-fail/")[0]
        changes = touches.changed(edit)
        for name, _ in touches.answers(edit):
            own = {what for what in changes.get(name, set()) if isinstance(what, tuple)}
            own |= {(path, what) for path, what in functions() if path.startswith(f"{crate}/src/") and what in changes.get(name, set())}
            found[edit, name] = own
    return found


# ---- what leads where: definitions as (file, name)


@functools.lru_cache(maxsize=None)
def enclosing(path, name):
    """The definition of a file in which a name stands: itself, or the record or module that has it as a part."""
    line = defined(path).get(name, 0)
    start = sum(len(text) + 1 for text in read(path).splitlines()[: line - 1])
    heads = [head for head in re.finditer(touches.HEAD, read(path), re.M) if head.start() <= start + 1]
    return heads[-1][1] if heads else name


@functools.lru_cache(maxsize=None)
def led_to(path, name):
    """The definitions to which a theorem's statement leads, or a function's contract, or a definition, itself included."""
    function = proved_function(path)
    if path.endswith(".rt"):
        function = next((one for one, short in functions().items() if one[0] == path and short == name), None)
    if function:
        return frozenset(touches.reached(contract(function)[0]))
    start = {(path, enclosing(path, name))} if "/specs/" in path else touches.says(path, name)
    return frozenset(touches.reached(start))
