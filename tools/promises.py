#!/usr/bin/env python3
"""Holds docs/PROMISES.md to the contracts, and each theorem of a row to the row's function: its statement names what the
contract cites, or the chain of tests behind that. The table of refusals by function is held to what is computed of the rows.

    promises.py --write    writes crates/promises/specs/All.antt, which imports every theorem that the page names
"""

import os
import re
import sys

sys.dont_write_bytecode = True

import contracts
from names import Names
from refusals import TABLE, lines
from source import antt_code, crates, read

PAGE = "docs/PROMISES.md"
IMPORTS = "crates/promises/specs/All.antt"
NUMBERS, NEVER = "crates/promises/specs/Refusals.antt", "crates/promises/specs/Never.antt"
JUDGED = ("Judged", "crates/scales/specs/Meaning.antt")
THEOREM = re.compile(r"`([a-z_]+\.[A-Z][A-Za-z]*\.[a-z][a-z0-9_]*)`")
# A conversion is named by its types: low::<To as From<Result<u64, Of>>>::from.
ROW = re.compile(r"^\| `([a-z_]+::[^`]+)` \|(.*)\|$", re.M)
_SPECS = re.compile(r"crates/\w+/specs/.+")
_LAWS = re.compile(r"crates/(?:\w+_laws|promises|marked)/(?:specs|proofs)/.+")


def imports(root, page):
    """The text of All.antt: a line for each file, in the order of crates.txt; a name of two files gets that of its file."""
    named = sorted(set(THEOREM.findall(page)))
    alone = [name.rpartition(".")[2] for name in named]
    text = ["-- Made by tools/promises.py --write: every theorem that docs/PROMISES.md names. One that is not proved is refused here."]
    order = {crate: place for place, crate in enumerate(crates(root))}
    modules = sorted({name.rpartition(".")[0] for name in named}, key=lambda one: (order.get(one.split(".")[0], 0), one))
    for module in modules:
        crate, file = module.split(".")
        folder = "specs" if os.path.isfile(os.path.join(root, f"crates/{crate}/specs/{file}.antt")) else "proofs"
        items = []
        for name in (one.rpartition(".")[2] for one in named if one.rpartition(".")[0] == module):
            other = re.sub(r"(?<=[a-z])(?=[A-Z])", "_", f"{crate}_{file}_{name}").lower()
            items.append(name if alone.count(name) == 1 else f"{name} as {other}")
        text.append(f"use Rattle.{crate}.{folder}.{file}.{{{', '.join(items)}}}")
    return "\n".join(text) + "\n"


def _own(sets):
    """Of each function's definitions those that tell of it. What two functions share, each beside others of its own, is a
    step of both (and_then, time_out), and tells of neither."""

    def tells(mine, one):
        return all(mine <= other or other <= mine for other in sets.values() if one in other)

    return {name: {one for one in mine if tells(mine, one)} for name, mine in sets.items()}


class Subjects:
    """What a theorem must name to be about a public function: a definition that its contract cites, or its chain."""

    def __init__(self, root):
        self.names, self._said = Names(root), {}
        report = contracts.check(root)
        self.failures = report.failures
        public = [(function.title, facts) for function, facts in report.rows if not function.inner]
        cited = {name: {one for fact in facts for one in (fact.meaning, *fact.others)} for name, facts in public}
        self._meanings = {fact.meaning for _, facts in public for fact in facts}
        chains = {name: self._chains(found) for name, found in cited.items()}
        self.judging = {name for name, found in chains.items() if found}
        chains = _own(chains)
        self.of = {name: found | chains[name] for name, found in _own(cited).items()}

    def _meant(self, known):
        return self.names.bodies(known) if _SPECS.fullmatch(known[1]) else []

    def _told(self, known):
        # A function for C may cite the chain of a library's function, and its theorem that function's meaning.
        return self.names.bodies(known) if known in self._meanings or _LAWS.fullmatch(known[1]) else []

    def _is_chain(self, known):
        stated = self.names.stated(known)
        result = stated[0].text.rpartition("→")[2].split() if stated else []
        return bool(result) and self.names.known(known[1], result[0]) == JUDGED

    def _chains(self, cited):
        """The chains of tests among some meanings and what they name, at any depth."""
        below = set(cited)
        for known in cited:
            for body in self._meant(known):
                self.names.cited(known[1], body, self._meant, below)
        return {known for known in below if self._is_chain(known)}

    def said(self, theorem):
        """The definitions that a statement cites, also by way of the laws' definitions and records; None of no theorem."""
        if theorem not in self._said:
            found = self.names.theorem(theorem)
            self._said[theorem] = self.names.cited(*found, self._told) if found else None
        return self._said[theorem]


def _rows(page, subjects, tally):
    rows = ROW.findall(page)
    for name in subjects.of:
        tally.expect(f"{name} has one row", [row for row, _ in rows].count(name) == 1)
    for name, cells in rows:
        own = subjects.of.get(name, set())
        tally.expect(f"{name} is a public function", name in subjects.of)
        filled = [cell.strip() for cell in cells.split(" | ")]
        tally.expect(f"{name}: three cells are filled", len(filled) == 3 and all(filled), str(filled))
        if name in subjects.judging:
            tally.expect(f"{name}: demand 1 is a theorem", THEOREM.search(filled[0]), "its meaning has a chain of tests")
        for theorem in dict.fromkeys(THEOREM.findall(cells)):
            about = own & (subjects.said(theorem) or set())
            due = ", ".join(sorted({known for known, _ in own}))
            tally.expect(f"{name}: {theorem} is about it", about, f"the statement names none of {due}")


def _numbers(root, tally):
    """Each line of the table of refusals is what is computed of that function's rows, but for a number that never comes."""
    code = [antt_code(read(path)) if os.path.isfile(path) else "" for path in (os.path.join(root, NUMBERS), os.path.join(root, NEVER))]
    form = r"^pub ([a-z_]+) :(.*(?:\n +.*)*) ≡ (\d+(?: ∷ \d+)*) ∷ \[\]$"
    # A lemma that would have a definition's name ends in _lem.
    rows = [(name.removesuffix("_lem"), stated, numbers.split(" ∷ ")) for name, stated, numbers in re.findall(form, code[0], re.M)]
    computed = {name: (stated, numbers) for name, stated, numbers in rows}
    never = re.findall(r"^ *pub ([a-z_]+)_never_(\d+) :", code[1], re.M)
    table = dict(re.fullmatch(r"(\w+)\s+\S+\s+(.*)", line).groups() for _, line in lines(root, TABLE))
    judged = {name: numbers.split() for name, numbers in table.items() if numbers != "-"}
    tally.expect(f"{NUMBERS} has the functions of {TABLE}", [row[0] for row in rows] == list(judged), f"{list(computed)}")
    for name, numbers in judged.items():
        stated, found = computed.get(name, ("", []))
        comes = [number for number in found if (name, number) not in never]
        tally.expect(f"{TABLE}: {name}", comes == numbers, f"its rows have {found}")
        tally.expect(f"{NUMBERS}: {name} is of its rows", re.search(rf"\bOne\w*\.{name}(?:_lem)? ", stated), stated.strip())


def judge(root, tally):
    page, subjects = read(os.path.join(root, PAGE)), Subjects(root)
    tally.expect("the contracts", not subjects.failures, "some are refused, and what they cite is not known")
    tally.expect("there are public functions", bool(subjects.of))
    _rows(page, subjects, tally)
    for theorem in sorted(set(THEOREM.findall(page))):
        tally.expect(f"{theorem} is proved", subjects.said(theorem) is not None)
    stored = os.path.join(root, IMPORTS)
    held = os.path.isfile(stored) and read(stored) == imports(root, page)
    tally.expect(f"{IMPORTS} is stale", held, "renew it by tools/promises.py --write")
    _numbers(root, tally)


def write(root):
    path = os.path.join(root, IMPORTS)
    os.makedirs(os.path.dirname(path), exist_ok=True)
    with open(path, "w", encoding="utf-8") as file:
        file.write(imports(root, read(os.path.join(root, PAGE))))


if __name__ == "__main__":
    if sys.argv[1:] != ["--write"]:
        sys.exit("usage: promises.py --write")
    write(os.path.normpath(os.path.join(os.path.dirname(os.path.abspath(__file__)), "..")))
