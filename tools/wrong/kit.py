"""The kit: what crates.txt lists, and the words that `rt` gives to the toolchain's own commands, taken from the kit's part of `rt` that makes them."""

import functools
import importlib.util
import os
import re
import shutil
import sys

from wrong.edits import read


def rt():
    return shutil.which("rt") or sys.exit("rt is not on the path: install the Rattle kit that README.md names")


@functools.lru_cache(maxsize=None)
def folder():
    """The toolchain's folder."""
    return os.path.dirname(os.path.dirname(os.path.realpath(rt())))


@functools.lru_cache(maxsize=None)
def rtlib():
    """What `rt` itself goes by, as a module."""
    spec = importlib.util.spec_from_file_location("rtlib", f"{folder()}/bin/rtlib.py")
    made = importlib.util.module_from_spec(spec)
    sys.modules["rtlib"] = made
    spec.loader.exec_module(made)
    return made


@functools.lru_cache(maxsize=None)
def crate(name):
    """A crate as `rt` has it: its words, what it stands on, its stamp."""
    top = os.getcwd()
    return rtlib().Crate(f"{top}/crates/{name}", top, {})


@functools.lru_cache(maxsize=None)
def listed():
    """The crates of crates.txt, and what each is listed to stand on."""
    return {name: rest.split() for name, rest in re.findall(r"^(\w+)(?: [^:#\n]*)?:([^#\n]*)", read("crates.txt"), re.M)}


@functools.lru_cache(maxsize=None)
def exports():
    """The crates whose archives are joined in the library: those that crates.txt marks."""
    return re.findall(r"^(\w+) staticlib:", read("crates.txt"), re.M)


@functools.lru_cache(maxsize=None)
def below(name):
    """The crates of the project that a crate stands on, each behind those that it stands on itself."""
    found = []
    for one in listed()[name]:
        if one in listed():
            found += [other for other in [*below(one), one] if other not in found]
    return found


def root(name):
    """The root file of a crate, in its folder."""
    return "src/main.rt" if os.path.isfile(f"crates/{name}/src/main.rt") else "src/lib.rt"
