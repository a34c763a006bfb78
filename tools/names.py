"""What a word of an .antt file stands for, and which definitions a text cites. A definition is (name, file)."""

import os
import re
from dataclasses import dataclass

from source import NAME, antt_code, read

_USE = re.compile(r"^use (\S+?)(?:\.\{([^}]*)\}| as (\w+)) *$", re.M)
# std is the kit's.
_OURS = re.compile(r"Rattle\.(?!std\.)(\w+)\.(specs|proofs)\.(.+)")
_WORD = re.compile(rf"(?<![^\s(){{}};,@]){NAME}(?:\.{NAME})*")
_TYPE = re.compile(rf"^( *)((?:(?:abbrev|unfoldable|pub) )*)({NAME})(?: \{{[^}}]*\}})? :((?: .*)?(?:\n\1 +.*)*)$", re.M)
_RECORD = re.compile(rf"^( *)((?:pub )?)record ({NAME})(?= )(.*(?:\n(?:\1 +\S.*| *(?=\n)))*)", re.M)
_DATA = re.compile(rf"^( *)((?:pub )?)data ({NAME})(?= )", re.M)
_EQUATION = re.compile(rf"^( *)({NAME})((?: [^\n=]*)?) =((?: .*)?(?:\n\1 +.*)*)$", re.M)
# What a text binds or labels stands for nothing outside of it: (a b : A), λ a b., a = x, and a field a : A.
_BOUND = [
    re.compile(rf"[({{]\s*((?:{NAME}\s+)+):(?=\s)"),
    re.compile(rf"λ\s+({NAME}(?:\s+{NAME})*)\s*\."),
    re.compile(rf"({NAME})\s+=(?=\s)"),
    re.compile(rf"^ *(?:pub )?(?:let )?({NAME})\s+:(?=\s)", re.M),
]
_HEADER = re.compile(r".*?\bwhere *$", re.S | re.M)


def _binds(text):
    return {word for form in _BOUND for found in form.findall(text) for word in found.split()}


@dataclass
class Stated:
    """The type of a definition, or the fields of a record; nothing of a data, whose cases are not read."""

    at: int
    indent: str
    marks: str  # such as 'pub '
    text: str


@dataclass
class _File:
    code: str
    names: dict  # a word -> the definition that a `use` brings
    others: dict  # a module's other name -> its file
    stated: dict  # a name -> the Stated of it, of which there may be several
    equations: dict  # a name -> (indent, left side, right side) of each


def _around(code, at, indent):
    """The headers of the modules around a place, as one text; None where it stands inside of anything else."""
    headers, lines = [], code[:at].splitlines(keepends=True)
    while lines and indent:
        line = lines.pop()
        depth = len(line) - len(line.lstrip())
        if line.strip() and depth < indent:
            if not line.lstrip().startswith("module "):
                return None
            indent = depth
            headers.append(_HEADER.match(code, sum(map(len, lines)))[0])
    return " ".join(headers)


def _parsed(code):
    file = _File(code, {}, {}, {}, {})
    for module, items, alias in _USE.findall(code):
        ours = _OURS.fullmatch(module)
        path = f"crates/{ours[1]}/{ours[2]}/{ours[3].replace('.', '/')}.antt" if ours else module
        if alias:
            file.others[alias] = path
        for item in filter(None, items.split(",")):
            name, _, other = (part.strip() for part in item.partition(" as "))
            file.names[other or name] = (name, path)
    for found in [*_RECORD.finditer(code), *_TYPE.finditer(code)]:
        file.stated.setdefault(found[3], []).append(Stated(found.start(), found[1], found[2], found[4]))
    for found in _DATA.finditer(code):
        file.stated.setdefault(found[3], []).append(Stated(found.start(), found[1], found[2], ""))
    for indent, name, left, right in _EQUATION.findall(code):
        file.equations.setdefault(name, []).append((indent, left, right))
    return file


class Names:
    """The .antt files of a repository. What the prover makes (specs.declared), and what is the kit's, is read as empty."""

    def __init__(self, root):
        self.root, self._read = root, {}

    def _file(self, path):
        if path not in self._read:
            full = os.path.join(self.root, path)
            self._read[path] = _parsed(antt_code(read(full)) if os.path.isfile(full) else "")
        return self._read[path]

    def code(self, path):
        """A file without its comments."""
        return self._file(path).code

    def known(self, path, word):
        """The definition that a word of a file stands for: one that a `use` brings, or one of the file itself. Fields may stand
        tight behind it."""
        file = self._file(path)
        head, *rest = word.split(".")
        return (rest[0], file.others[head]) if rest and head in file.others else file.names.get(head, (head, path))

    def stated(self, known):
        """A definition's type or fields, and the headers of the modules around it; None of what is no definition, as a
        field, a constructor, a local one, a word of the language."""
        file = self._file(known[1])
        for one in file.stated.get(known[0], []):
            around = _around(file.code, one.at, len(one.indent))
            if around is not None:
                return one, around
        return None

    def theorem(self, name):
        """The file of a public theorem CRATE.Module.name, and its statement; None where nothing proves it."""
        crate, module, word = name.split(".")
        paths = [f"crates/{crate}/{kind}/{module}.antt" for kind in ("specs", "proofs")]
        there = [path for path in paths if self.code(path)]
        stated = self.stated((word, there[0])) if len(there) == 1 else None
        if not stated or stated[0].marks != "pub ":
            return None
        # The parameters of its modules are part of a statement; its proof is not.
        return there[0], f"{stated[1]} {stated[0].text}"

    def bodies(self, known):
        """What a definition says: the right sides of its equations, or the fields of a record."""
        stated = self.stated(known)
        if not stated:
            return []
        one, around = stated
        head, _, fields = one.text.partition(" where\n")
        equations = self._file(known[1]).equations.get(known[0], [])
        found = [(re.findall(NAME, left), right) for indent, left, right in equations if indent == one.indent]
        found += [(_binds(head), fields)] if fields else []
        # Arguments and parameters are bound in what they stand before, as in λ.
        return [f"λ {' '.join(['_', *_binds(around), *left])}.\n{right}" for left, right in found]

    def cited(self, path, text, more, seen=None):
        """The definitions that a text of a file cites, and those that the texts more(definition) cite in turn."""
        seen = set() if seen is None else seen
        bound = _binds(text)
        for word in _WORD.findall(text):
            known = self.known(path, word)
            if word.split(".")[0] not in bound and known not in seen:
                seen.add(known)
                for body in more(known):
                    self.cited(known[1], body, more, seen)
        return seen
