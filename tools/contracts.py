#!/usr/bin/env python3
"""Holds every public function to a contract of one form, and lists what each contract cites.

The form is VIEW result ≡ MEANING arguments, with every lent slice at exit stated in the same way. A meaning is
a definition of specs/, and a view is one to one by a theorem that views.txt names, so that any two results
that a contract allows are equal. A function of a static library, which C links, has the name and the contract of
another crate's function, with which it is listed.

    contracts.py            prints the list, and fails where docs/CONTRACTS.md is another
    contracts.py --write    writes docs/CONTRACTS.md
"""

import argparse
import os
import re
import sys
from dataclasses import dataclass

sys.dont_write_bytecode = True

from clauses import ENTRY, RESULT, Refused, facts, lent, named, plain, words
from functions import Crate
from source import NAME, Unreadable, antt_code, crates, definitions, linked, read
from tally import Tally

PAGE = "docs/CONTRACTS.md"
VIEWS = "tools/views.txt"
EQUAL = "Rattle.std.specs.Prelude"
_SPECS = re.compile(r"Rattle\.(\w+)\.specs\.(.+)")
# What std has, and what a declared type is, which stands in specs.declared, where the prover makes it.
_MADE = re.compile(r"Rattle\.(?:std\.|\w+\.specs\.declared\.).*")

HEAD = """# Contracts

Every public function, with the definitions that its contract cites. Made by `tools/contracts.py --write`, and
held to the code by `./test`.

A contract says VIEW result ≡ MEANING arguments. A view is one to one, by the theorem that `tools/views.txt`
names, so a contract allows one result for each input. A slice "at exit" is what the lent memory holds as the
function returns. Where the result is an argument or a field of one, that stands as the meaning, in no file; what
is "known" besides is a fact of the arguments. What a static library exports to C has the contract of the function
of its name, and stands in that one's row.
"""
INNER = """
## Inner functions

Shared between our own crates: they may require what their callers have judged, and nobody else calls them. What each
requires stands here as in its source, and behind it each argument whose type knows a fact: an `Accepted` is a list that
is accepted.
"""


@dataclass
class Cited:
    """What one fact of a contract cites; a definition is (name, file)."""

    view: str  # in words
    viewed: list  # the definition of the view, where there is one
    meaning: tuple
    others: list  # the definitions that stand in the arguments


@dataclass
class Report:
    rows: list  # of (function, its Cited)
    failures: list
    invariants: frozenset = frozenset()  # the types that know a fact of their values


class Repository:
    def __init__(self, root):
        self.root, self.failures = root, []
        self.crates, self.linked = crates(root), linked(root)
        sources = [Crate(root, name) for name in self.crates]
        self.functions = [function for source in sources for function in source.functions if function.public]
        self.holders = {name for source in sources for name in source.holders}
        self.models = {name for source in sources for name in source.models}
        self.invariants = {name for source in sources for name in source.invariants}
        self._defined, self._views, self._places = {}, {}, {}
        for number, line in enumerate(read(os.path.join(root, VIEWS)).splitlines(), 1):
            entry = line.split("#")[0].split()
            if entry and (wrong := self._take(entry)):
                self.failures.append(f"{VIEWS}:{number}: {wrong}")

    def _take(self, entry):
        """Takes in a line of views.txt, and says what is wrong with it."""
        if len(entry) not in (3, 4) or entry[3:] not in ([], ["relation"]):
            return "a line is VIEW THEOREM FILE, or REL THEOREM FILE relation"
        name, theorem, file = entry[:3]
        if name in self._views:
            return f"{name} is listed twice"
        wrong = ""
        if theorem not in self._definitions(file):
            wrong = f"the theorem {theorem} of {name} is not defined in {file}"
        elif name.split(":")[-1] not in re.findall(NAME, antt_code(read(os.path.join(self.root, file)))):
            wrong = f"{file} says nothing of {name}"
        self._views[name] = (len(entry) == 4, wrong)
        return wrong

    def _definitions(self, file):
        if file not in self._defined:
            self._defined[file] = definitions(self.root, file)
        return self._defined[file]

    def definition(self, function, name):
        """The definition of specs/ that a name of a contract stands for."""
        if name in [param.name for param in function.params]:
            raise Refused(f"{name} is a parameter, and no definition of specs/")
        if name not in function.imports:
            raise Refused(f"{name} is not brought from a specs module")
        module, known = function.imports[name]
        found = _SPECS.fullmatch(module)
        if not found or found[1] not in self.crates:
            raise Refused(f"{name} comes from {module}, which is no specs module of this repository")
        file = f"crates/{found[1]}/specs/{found[2].replace('.', '/')}.antt"
        if known not in self._definitions(file):
            raise Refused(f"{known} is not defined in {file}")
        return known, file

    def listed(self, function, name, kind):
        """The definition of a view or a relation that views.txt has."""
        known, file = self.definition(function, name)
        # Of several definitions of one name each has its own line, FILE:NAME.
        key = f"{file}:{known}" if f"{file}:{known}" in self._views else known
        relation, wrong = self._views.get(key, (None, ""))
        if relation != (kind == "relation"):
            raise Refused(f"{known} is no {kind} that {VIEWS} names")
        # One line stands for one definition.
        other = self._places.setdefault(key, file)
        if wrong or other != file:
            raise Refused(wrong or f"{known} is defined in {other} too, and {VIEWS} cannot tell the two apart")
        return known, file


def _argument(function, term):
    """An argument, or a field of it, that the result is said to be: no definition, and in no file."""
    if named(term) not in [param.name for param in function.params]:
        raise Refused(f"{term} is no argument, and no definition of specs/")
    return term, ""


def _cited(repository, function, fact):
    """Looks the names of a fact up."""
    viewed, others = [], []
    if fact.relation:
        meaning = repository.listed(function, fact.head, "relation")
    elif function.imports.get("◌≡◌", ("",))[0] != EQUAL:
        raise Refused(f"≡ is not brought from {EQUAL}")
    else:
        viewed = [repository.listed(function, fact.view, "view")] if fact.view else []
        meaning = repository.definition(function, fact.head) if fact.head else _argument(function, fact.arguments[0])
    for word in map(named, words(fact.arguments)):
        module = function.imports.get(word, ("",))[0]
        if module.startswith("Rattle.") and not _MADE.fullmatch(module):
            others.append(repository.definition(function, word))
    slices = ", ".join(f"`{name}` at exit" for name in fact.exits)
    stated = f"`{viewed[0][0]}`" if viewed else "the result" if fact.result else ""
    stated = "a relation" if fact.relation else stated or ("" if slices else "known")
    return Cited(" with ".join(filter(None, [stated, slices])), viewed, meaning, others)


def judge(repository, function):
    """What the contract of a function cites; Refused where it has another form."""
    if function.requires and not function.inner:
        raise Refused("it has a requires, and stands in no module inner")
    if function.requires and function.owner:
        raise Refused("it has a requires, and is a method: its caller names no module inner")
    if not all(map(plain, function.requires)):
        raise Refused("a requires is no plain fact")
    if not function.ensures:
        raise Refused("it has no ensures")
    if RESULT in [param.name for param in function.params]:
        raise Refused(f"the name of the result, {RESULT}, hides the parameter")
    operators = {part for name in function.imports if "◌" in name for part in name.split("◌") if part}
    cited, stated, exits, said = [], not function.result, set(), set()
    entries = {kind: set() for kind in ENTRY}
    for clause in function.ensures:
        for fact in facts(clause, operators):
            cited.append(_cited(repository, function, fact))
            # What is known of arguments alone says nothing of what they lead to.
            if not (fact.result or fact.exits):
                continue
            stated = stated or fact.result
            exits |= set(fact.exits)
            said |= set(map(named, words(fact.arguments)))
            for kind, moment in ENTRY.items():
                entries[kind] |= lent(fact.arguments, moment)
    if not stated:
        raise Refused("no clause states the result")
    for param in function.params:
        bound = set(re.findall(r"(\w+)<'", param.type))
        if param.kind == "holds" or bound - repository.models or repository.holders.intersection(re.findall(r"\w+", param.type)):
            raise Refused(f"a reference stands inside of the type of {param.name}, and no form is accepted for that")
        if param.kind == "mut" and param.name not in exits:
            raise Refused(f"no clause states {param.name}.new, the lent {param.name} at exit")
        if param.kind != "value" and param.name not in entries[param.kind]:
            raise Refused(f"no right side names the parameter {param.name}, as {param.name}.{ENTRY[param.kind]}")
        if param.name not in said:
            raise Refused(f"no right side names the parameter {param.name}")
    if wrong := exits - {param.name for param in function.params if param.kind == "mut"}:
        raise Refused(f"{wrong.pop()} at exit is stated, and is no &mut parameter")
    return cited


def check(root):
    """Judges every public function of a repository."""
    try:
        repository = Repository(root)
    except (Unreadable, OSError) as wrong:
        return Report([], [str(wrong)])
    judged, failures = [], repository.failures
    for function in repository.functions:
        try:
            judged.append((function, judge(repository, function)))
        except Refused as reason:
            failures.append(f"{function.file}:{function.line}: {function.title}: {reason}")
    rows = [row for row in judged if row[0].crate not in repository.linked]
    for row in judged:
        if row not in rows and not any(_same(row, other) for other in rows if other[0].name == row[0].name):
            function = row[0]
            failures.append(f"{function.file}:{function.line}: {function.title}: it has not the contract of a function of its name")
    return Report(rows, failures, frozenset(repository.invariants))


def _same(row, other):
    """Do two functions, each with its Cited, take and promise the same, in the same words?"""

    def says(function, cited):
        types = [re.sub(r"\s+|\w+::", "", text) for text in (*(param.type for param in function.params), function.result)]
        clauses = [[" ".join(clause.split()) for clause in clauses] for clauses in (function.requires, function.ensures)]
        return [(param.name, param.kind) for param in function.params], types, clauses, cited

    return says(*row) == says(*other)


def required(function, invariants):
    """What a function requires, as its source has it, and its arguments whose types know a fact, for a cell of a table: there a
    stroke would end the cell."""
    found = [" ".join(clause.split()) for clause in function.requires]
    typed = [(param.name, invariants.intersection(re.findall(r"\w+", param.type))) for param in function.params]
    found += [f"{name}: {', '.join(sorted(types))}" for name, types in typed if types]
    return f"`{'; '.join(found)}`".replace("|", "\\|") if found else "nothing"


def page(report):
    def cell(items):
        return ", ".join(dict.fromkeys(f"`{item}`" for item in items if item))

    def table(inner):
        heads = ["Function", *(["Requires"] if inner else []), "View", "Meaning", "File of the meaning"]
        lines = ["", f"| {' | '.join(heads)} |", "|---" * len(heads) + "|"]
        for function, cited in report.rows:
            if function.inner == inner:
                names = [name for one in cited for name in (one.meaning, *one.others)]
                cells = [f"`{function.title}`", *([required(function, report.invariants)] if inner else [])]
                cells += ["; ".join(one.view for one in cited)]
                cells += [cell(name for name, _ in names), cell(file for _, file in names)]
                lines.append(f"| {' | '.join(cells)} |")
        return "\n".join(lines) + "\n" if len(lines) > 3 else ""

    return HEAD + table(False) + (INNER + table(True) if table(True) else "")


def tell(report, root, tally):
    """Counts a test for each public function and one for the page, and says what fails."""
    for function, _ in report.rows:
        tally.expect(function.title, True)
    for failure in report.failures:
        tally.expect(failure, False)
    path = os.path.join(root, PAGE)
    held = os.path.isfile(path) and read(path) == page(report)
    why = "a contract is refused" if report.failures else "renew it by tools/contracts.py --write"
    tally.expect(f"{PAGE} is stale", held and not report.failures, why)


def main():
    usage = argparse.ArgumentParser(description="Judges every public contract, and lists what it cites.")
    usage.add_argument("--write", action="store_true", help=f"write {PAGE}")
    root = os.path.join(os.path.dirname(os.path.abspath(__file__)), "..")
    usage.add_argument("--root", default=root, help="the repository (default: the one of this script)")
    given = usage.parse_args()
    tally, report = Tally(), check(given.root)
    print(page(report))
    # A page with refused functions left out would look whole.
    if given.write and not report.failures:
        os.makedirs(os.path.join(given.root, "docs"), exist_ok=True)
        with open(os.path.join(given.root, PAGE), "w", encoding="utf-8") as file:
            file.write(page(report))
    tell(report, given.root, tally)
    return tally.close()


if __name__ == "__main__":
    sys.exit(main())
