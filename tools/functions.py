"""Reads the functions of a crate: each with its parameters, its contract and whether it is public."""

import os
import re
from dataclasses import dataclass

from source import Unreadable, closing, parts, read, rt_code, seek


@dataclass
class Param:
    name: str
    type: str
    kind: str  # value, ref, mut, or holds: a reference stands inside of its type


@dataclass
class Function:
    crate: str
    file: str
    line: int
    modules: tuple
    owner: str  # the type of its impl, or ''
    trait: str  # the trait of its impl, with its arguments, or ''
    name: str
    public: bool
    params: list
    result: str  # '' where it returns nothing
    requires: list
    ensures: list
    body: str
    imports: dict  # of its file: a name -> (module, its name there)

    @property
    def title(self):
        owner = f"<{self.owner} as {self.trait}>" if self.trait else self.owner
        return "::".join([self.crate, *self.modules, *filter(None, [owner]), self.name])

    @property
    def inner(self):
        return "inner" in self.modules


def _param(text):
    if found := re.fullmatch(r"(&\s*(?:'\w+\s*)?(mut\b)?|mut\b)?\s*self", text):
        kind = "value" if not (found[1] or "").startswith("&") else "mut" if found[2] else "ref"
        return Param("self", "Self", kind)
    found = re.fullmatch(r"(?:mut\s+)?(\w+)\s*:\s*(.+)", text, re.S)
    if not found:
        raise Unreadable(f"the parameter '{text}' is no name with a type")
    lent = re.match(r"&\s*(?:'\w+\s*)?(mut\b)?", found[2])
    rest = found[2][lent.end() :] if lent else found[2]
    kind = "value" if not lent else "mut" if lent[1] else "ref"
    # Whether a type that names a lifetime is seen through a model is known when all types are read.
    bare = re.sub(r"(?<=\w)<'\w+>", "", rest)
    return Param(found[1], rest, "holds" if "&" in bare or "'" in bare else kind)


def _behind(text, at):
    """The place behind the type parameters that stand at `at`, or `at` where there are none."""
    depth = 0
    for found in re.compile(r"->|[<>]").finditer(text, at) if text[at] == "<" else ():
        depth += {"<": 1, ">": -1}.get(found[0], 0)
        if depth == 0:
            return found.end()
    return at


def _bring(tree, imports):
    """Adds what a `ghost use` brings by name."""
    found = re.fullmatch(r"\s*([^{]*?)\.\{(.*)\}\s*", tree, re.S)
    for item in parts(found[2]) if found else []:
        path, _, other = item.partition(" as ")
        module, _, name = f"{found[1]}.{path.strip()}".rpartition(".")
        origin = (module, name.strip("«»"))
        known = (other.strip() or name).strip("«»")
        if imports.setdefault(known, origin) != origin:
            raise Unreadable(f"{known} is brought from two modules")


def _of_trait(function, trait, inside):
    """A method of a trait: public in a conversion, whose contract stands in the ghost member of its name."""
    function.trait = trait
    function.public = function.public or bool(_CONVERSION.match(trait))
    found = re.search(rf"\bghost\s+{function.name}_gives\s*=\s*\{{", inside)
    if not function.public or not found:
        return
    text = inside[found.end() : closing(inside, found.end() - 1)].strip()
    param = function.params[0].name
    if over := _MEMBER.fullmatch(text):
        named = {over[1]: param, over[2]: "result"}
        text = re.sub(r"[^\s(){}.;,]+", lambda word: named.get(word[0], word[0]), over[3])
    else:
        text = f"{text} {param} result"
    function.ensures.append(text)


# What is said of a whole file or module, as #![tactic(auto)].
_SAID = re.compile(r"\s*#!\[[^\]]*\]")
_ITEM = re.compile(
    r"\s*(?P<marks>(?:#\[[^\]]*\]\s*)*)(?P<vis>pub\b\s*(?:\([^)]*\))?)?\s*"
    r"(?P<kind>ghost\s+use|ghost(?=\s+\w+\s*=)|(?:const\s+)?(?:extern\s+)?fn|mod|impl|extern|struct|enum|const|static|type|use)\b\s*"
)
# The name of a module, or the type of an impl, of a trait or not.
_NAMED = re.compile(r"(?:<[^{}]*?>\s*)?(?:(?P<trait>[^{};]*?)\s*\bfor\s+)?(?:\w+::)*(?P<name>\w+)")
# The traits of a conversion, whose contract is a ghost member: from_gives of `from`, over its argument and its result.
_CONVERSION = re.compile(r"(?:Try)?From<")
_MEMBER = re.compile(r"\s*λ\s+(\S+)\s+(\S+?)\.\s(.*)", re.S)
# A starred clause speaks of memory: its text begins with the star.
_CLAUSE = re.compile(r"\s*(requires|ensures|ghost)\b(\*?)[^{};*]*(?=\{)")
_BODY, _END, _OPEN = re.compile(r"[{;]"), re.compile(";"), re.compile(r"\(")
_SIGNED = re.compile(r"[{;]|\b(?:requires|ensures|ghost)\b")


class Crate:
    """All functions of a crate, private ones too, and its structs that hold references."""

    def __init__(self, root, name):
        self.root, self.name = root, name
        self.functions, self.holders = [], set()
        self.models, self.invariants = set(), set()  # the types with a model, and those of them that know a fact of their values
        self._hidden, self._passed_on = [], set()
        source = f"crates/{name}/src/"
        program = os.path.isfile(os.path.join(root, source + "main.rt"))
        self._file(source + ("main.rt" if program else "lib.rt"), (), True)
        # A `pub use` makes what it names public, whatever module that stands in.
        for function in self._hidden:
            names = {"*", "self", function.name, *function.modules}
            function.public = bool(names & self._passed_on)
        # A clause sees the model of such a struct, and no reference.
        self.holders -= self.models

    def _file(self, path, modules, seen):
        full = os.path.join(self.root, path)
        if not os.path.isfile(full):
            raise Unreadable(f"{path}: there is no such file")
        try:
            self._items(rt_code(read(full)), path, 1, modules, "", seen, {})
        except Unreadable as wrong:
            raise wrong if str(wrong).startswith("crates/") else Unreadable(f"{path}: {wrong}") from None

    def _items(self, text, path, first, modules, owner, seen, imports):
        """Reads items; `seen` where every module around them is public."""
        at = 0
        while text[at:].strip():
            if said := _SAID.match(text, at):
                at = said.end()
                continue
            line = first + text.count("\n", 0, len(text) - len(text[at:].lstrip()))
            item = _ITEM.match(text, at)
            if not item:
                raise Unreadable(f"line {line}: an item that the reader does not know")
            kind, end = item["kind"], item.end()
            public = (item["vis"] or "").strip() == "pub"
            if kind.endswith("fn"):
                at, function = self._function(text, end, (path, line, modules, owner), imports)
                # A method goes where its type goes, and an exported symbol everywhere.
                function.public = "no_mangle" in item["marks"] or public and (seen or bool(owner))
                self.functions.append(function)
                if public and not function.public:
                    self._hidden.append(function)
            elif kind in ("mod", "impl"):
                head = _NAMED.match(text, end)
                name, trait = head["name"], (head["trait"] or "").strip()
                at = seek(text, end, _BODY)
                within = (modules, name, seen) if kind == "impl" else ((*modules, name), "", seen and public)
                if text[at] == ";":
                    self._file("/".join(["crates", self.name, "src", *within[0]]) + ".rt", within[0], within[2])
                    at += 1
                else:
                    inside = text[at + 1 : closing(text, at)]
                    known = len(self.functions)
                    self._items(inside, path, first + text.count("\n", 0, at), *within, imports)
                    at += len(inside) + 2
                    if trait == "Model":
                        self.models.add(name)
                        self.invariants |= {name} if "ghost invariant" in inside else set()
                    for function in self.functions[known:] if trait else []:
                        _of_trait(function, trait, inside)
            elif kind in ("struct", "enum", "extern"):
                at = seek(text, end, _BODY)
                self.holders |= set(re.findall(r"^(\w+)\s*<", text[end:at]))
                at = (closing(text, at) if text[at] == "{" else at) + 1
            else:
                at = seek(text, end, _END) + 1
                if kind.endswith("use") and kind.startswith("ghost"):
                    _bring(text[end : at - 1], imports)
                elif kind == "use" and public:
                    self._passed_on |= set(re.findall(r"(\w+|\*)\s*(?:as\s+\w+\s*)?(?=[,};])", text[end:at]))

    def _function(self, text, at, place, imports):
        """The function whose name stands at `at`, with the place behind it."""
        path, line, modules, owner = place
        name = re.compile(r"\w+").match(text, at)[0]
        try:
            at = seek(text, _behind(text, at + len(name)), _OPEN)
            shut = closing(text, at)
            inside = re.sub(r"<[^<>]*>", lambda lifetimes: lifetimes[0].replace(",", " "), text[at + 1 : shut])
            params = [_param(part) for part in parts(inside)]
            at = seek(text, shut + 1, _SIGNED)
            result = re.sub(r"^\s*->\s*", "", text[shut + 1 : at]).strip()
            clauses = {"requires": [], "ensures": [], "ghost": []}
            while clause := _CLAUSE.match(text, at):
                at = closing(text, clause.end())
                clauses[clause[1]].append(clause[2] + text[clause.end() + 1 : at])
                at += 1
            at = seek(text, at, _BODY)
            end = closing(text, at) if text[at] == "{" else at
        except Unreadable as wrong:
            raise Unreadable(f"line {line}: {name}: {wrong}") from None
        return end + 1, Function(
            crate=self.name,
            file=path,
            line=line,
            modules=modules,
            owner=owner,
            trait="",
            name=name,
            public=False,
            params=params,
            result="" if result == "()" else result,
            requires=clauses["requires"],
            ensures=clauses["ensures"],
            body=text[at : end + 1],
            imports=imports,
        )
