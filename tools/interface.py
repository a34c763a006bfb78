#!/usr/bin/env python3
"""The interface for C, read from the Rattle source of its two crates, and all that follows from it and from the refusals:

    tools/interface.py            says which of the files that follow are stale
    tools/interface.py --write    writes them

What stands in tools/made says how each is made. What cannot be read, or has no form that is known, is an error that names its
line."""

import glob
import os
import re
import sys
from dataclasses import dataclass

sys.dont_write_bytecode = True

from source import Unreadable, closing, parts, read, rt_code

# The structs and the functions, and what exports these.
CRATE, LINKED = "crates/c_api/src", "crates/c_api_c/src"
PREFIX = "vrk_"
EXPORT = "#[unsafe(no_mangle)]"
# A number: its bytes. A struct is passed as its numbers, a slice as a pointer and how many elements it has.
WIDTHS = {f"{sign}{bits}": bits // 8 for sign in "ui" for bits in (8, 16, 32, 64)} | {"f64": 8}


@dataclass(frozen=True)
class Slice:
    """The kind of a parameter that is lent: `of` is its element, and a slice that is not `written` is only read."""

    of: str
    written: bool


@dataclass(frozen=True)
class Parameter:
    name: str
    kind: object  # a number, the name of a struct, or a Slice


@dataclass(frozen=True)
class Function:
    name: str  # without the prefix
    result: str  # a number or the name of a struct
    parameters: tuple

    @property
    def numbers(self):
        """The parameters that are no slices."""
        return [one for one in self.parameters if not isinstance(one.kind, Slice)]

    @property
    def slices(self):
        return [one for one in self.parameters if isinstance(one.kind, Slice)]


class Interface:
    """structs: a name and its (field, kind)s. functions: a name and its Function, in the order of the source."""

    def __init__(self, structs, functions):
        self.structs = structs
        self.functions = functions

    def numbers(self, kind, name=""):
        """The numbers that a number or a struct is made of: (name, kind)s, those of a struct in a struct with a point."""
        if kind in WIDTHS:
            return [(name, kind)]
        inner = f"{name}." if name else ""
        return [one for field, of in self.structs[kind] for one in self.numbers(of, inner + field)]


def _line(code, at):
    return code.count("\n", 0, at) + 1


def _pairs(path, code, begin, end):
    """(name, kind, where) of each 'name: kind' between commas."""
    found, at = [], begin
    for part in parts(code[begin:end]):
        at = code.index(part, at)
        where = f"{path}:{_line(code, at)}"
        match = re.fullmatch(r"(?:pub\s+)?(\w+)\s*:\s*(\S.*)", part, re.S)
        if not match:
            raise Unreadable(f"{where}: '{part}' cannot be read")
        found.append((match[1], " ".join(match[2].split()), where))
        at += len(part)
    return found


def _structs(path, code):
    found = {}
    for head in re.finditer(r"#\[repr\(C\)\]\s*(?:#\[[^\]]*\]\s*)*pub struct (\w+)\s*\{", code):
        found[head[1]] = _pairs(path, code, head.end(), closing(code, head.end() - 1))
    return found


def _kind(text, structs, where, whose):
    """What a parameter's type stands for."""
    lent = re.fullmatch(r"&(mut )?\[(\w+)\]", text)
    if lent and lent[2] in WIDTHS:
        return Slice(lent[2], bool(lent[1]))
    if text not in WIDTHS and text not in structs:
        raise Unreadable(f"{where}: {whose} is of the unknown shape '{text}'")
    return text


def _functions(path, code, structs):
    for mark in re.finditer(r"#\[[^\]]*\bno_mangle\b[^\]]*\]", code):
        where = f"{path}:{_line(code, mark.start())}"
        head = re.compile(rf"\s*pub extern\s+fn {PREFIX}(\w+)\(").match(code, mark.end())
        if not head or mark[0] != EXPORT:
            raise Unreadable(f"{where}: a function that is exported and cannot be read")
        name, end = head[1], closing(code, head.end() - 1)
        given = []
        for parameter, text, place in _pairs(path, code, head.end(), end):
            given.append(Parameter(parameter, _kind(text, structs, place, f"{PREFIX}{name}'s '{parameter}'")))
        result = re.compile(r"\s*->\s*(\w+)\s*(?=ensures\b|requires\b|\{)").match(code, end + 1)
        if not result or result[1] not in WIDTHS and result[1] not in structs:
            raise Unreadable(f"{where}: {PREFIX}{name}'s result is of an unknown shape")
        yield where, Function(name, result[1], tuple(given))


def _codes(root, folder):
    """The files of a folder, without comments and texts."""
    paths = sorted(glob.glob(os.path.join(root, folder, "*.rt")))
    return {os.path.relpath(path, root): rt_code(read(path)) for path in paths}


def rattle(root):
    """What is exported."""
    own = _codes(root, CRATE)
    found = {name: fields for path, code in own.items() for name, fields in _structs(path, code).items()}
    for name, fields in found.items():
        for field, kind, where in fields:
            if kind not in WIDTHS and kind not in found:
                raise Unreadable(f"{where}: {name}'s '{field}' is of the unknown shape '{kind}'")
    structs = {name: [(field, kind) for field, kind, _ in fields] for name, fields in found.items()}
    functions = {}
    for path, code in _codes(root, LINKED).items():
        for where, one in _functions(path, code, structs):
            if one.name in functions:
                raise Unreadable(f"{where}: {PREFIX}{one.name} is exported twice")
            functions[one.name] = one
    if not functions:
        raise Unreadable(f"{LINKED}: no function is exported")
    for path, code in own.items():
        for head in re.finditer(rf"\bpub (?:extern\s+)?fn {PREFIX}(\w+)", code):
            if head[1] not in functions:
                raise Unreadable(f"{path}:{_line(code, head.start())}: {PREFIX}{head[1]} is not exported")
    return Interface(structs, functions)


def made(root):
    """What follows from the interface, the refusals and the version: a path and its text."""
    from made import benched, bindings, manual, server, shapes, slips
    from refusals import by_function, refusals

    interface, listed = rattle(root), refusals(root)
    table = by_function(root, interface, listed)
    version = read(os.path.join(root, "VERSION")).strip()
    files = bindings.made(interface, table, version) | server.made(interface) | benched.made(interface)
    return files | shapes.made(interface, table, listed) | slips.made(root, table, listed) | manual.made(root)


def stale(root):
    """The files that are not as they are made."""
    found = []
    for path, text in made(root).items():
        full = os.path.join(root, path)
        if not os.path.isfile(full) or read(full) != text:
            found.append(path)
    return found


def write(root, paths):
    files = made(root)
    for path in paths:
        full = os.path.join(root, path)
        os.makedirs(os.path.dirname(full), exist_ok=True)
        with open(full, "w", encoding="utf-8") as file:
            file.write(files[path])


def main(words):
    root = os.path.normpath(os.path.join(os.path.dirname(os.path.abspath(__file__)), ".."))
    if words not in ([], ["--write"]):
        sys.exit(__doc__)
    try:
        old = stale(root)
        write(root, old if words else [])
    except (OSError, Unreadable) as wrong:
        sys.exit(f"interface.py: {wrong}")
    for path in old:
        print(f"{path} is {'written' if words else 'stale: tools/interface.py --write'}")
    return 1 if old and not words else 0


if __name__ == "__main__":
    # The module by its name, so that its types are those that tools/made knows.
    import interface

    sys.exit(interface.main(sys.argv[1:]))
