#!/usr/bin/env python3
"""Checks the tables | Function | Wrong program | Theorem | File | of docs/WRONG.md: every public function has two
wrong programs, each with a theorem ShutOut of a laws crate whose right side is the meaning of that function; and
each wrong desk and trap of document 01 has one. The rows of its table | Promise | .. | have each a theorem Outgrown
of the laws, of promises or of marked, whose new statement and the promise name the same thing."""

import os
import re
import sys
from dataclasses import dataclass

sys.dont_write_bytecode = True

import contracts
import promises
from names import Names
from source import NAME, PAIRS, Unreadable, closing, crates, read
from tally import Tally

PAGE = "docs/WRONG.md"
HEADER = ["Function", "Wrong program", "Theorem", "File"]
WEAKER = ["Promise", *HEADER[1:]]
EVIDENCE = "crates/evidence/specs/ShutOut.antt"
LEAST = 2
KNOWN = "known"  # the view of a fact that does not state what is handed back
TOLD = [
    "refuses all",
    "day 0 for everything",
    "writes nothing",
    "first leap step only",
    "made-up length",
    "byte 66 read as a CCSDS width code",
    "19 leap seconds counted between 1972 and 1980",
    "a negative elapsed time rounded towards zero",
    "a step on E+1 dropped as expired",
    "the ignored window",
]


@dataclass
class Form:
    """What the theorems of a table begin with, and where they stand."""

    words: list  # the first is that of EVIDENCE; another is the laws' own, and cites the relation that it is about
    arguments: int
    files: re.Pattern
    where: str  # in words


_LAWS = re.compile(r"crates/(\w+_laws)/(specs|proofs)/(\w+)\.antt")
_ALL_LAWS = re.compile(r"crates/(\w+_laws|promises|marked)/(specs|proofs)/(\w+)\.antt")
SHUT_OUT = Form(["ShutOut", "ShutTake", "ShutWrite"], 4, _LAWS, "a laws crate")
OUTGROWN = Form(["Outgrown"], 2, _ALL_LAWS, "a laws crate, of promises or of marked")
# A theorem may be one for each value of a variable: (s : Scale) → ShutOut ..
_BEGUN = re.compile(r"\s*(?:\([^()]*:[^()]*\)\s*→\s*)*([^\s(){}]+)(?=\s)")
_BOUND = re.compile(r"\(([^():]*):")
_ARGUMENT = re.compile(r"[([{]|[^\s([{]+")
_FIELDS = re.compile(rf"(?:\.{NAME})*")
# Everything cites these, so that they tell of no promise.
_COMMON = re.compile(r"crates/(?:axis|scales|handed)/.+")


def tables(text, header):
    """The rows of each table with a header, as (line, function or promise, wrong program, theorem, file)."""
    found, within = [], False
    for number, line in enumerate(text.splitlines(), 1):
        cells = [cell.strip() for cell in line.strip().strip("|").split("|")] if line.startswith("|") else None
        if cells == header:
            within = True
            found.append([])
        elif not cells:
            within = False
        elif within and not all(re.fullmatch(r"-+", cell) for cell in cells):
            # A row of another width names nothing.
            cells = cells if len(cells) == len(header) else [""] * len(header)
            found[-1].append((number, *(cell.strip("`") for cell in cells)))
    return found


def _arguments(text):
    """What stands behind a form, to the end: each is in brackets, or one word; fields may stand tight behind it."""
    found, at = [], 0
    while part := _ARGUMENT.search(text, at):
        at = closing(text, part.start()) + 1 if part[0] in PAIRS else part.end()
        at = _FIELDS.match(text, at).end()
        found.append(text[part.start() : at])
    return found


class Laws:
    """The files of the laws, and what a theorem of theirs says; public has of each function what its contract cites."""

    def __init__(self, root, public):
        self.root, self.public, self.crates, self.names = root, public, crates(root), Names(root)

    def _bodies(self, known):
        return self.names.bodies(known) if _ALL_LAWS.fullmatch(known[1]) else []

    def _type(self, path, name, form):
        """The type of a theorem that stands where its form may; or Unreadable."""
        file = form.files.fullmatch(path)
        root = f"crates/{file[1]}/{file[2]}/Lib.antt" if file else ""
        if not file or file[1] not in self.crates or not os.path.isfile(os.path.join(self.root, path)):
            raise Unreadable(f"'{path}' is no file of {form.where}")
        if f"pub mod {file[3]}" not in read(os.path.join(self.root, root)).splitlines():
            raise Unreadable(f"{root} does not declare {path}")
        code = self.names.code(path)
        stated = re.search(rf"^( *)pub {re.escape(name)} :(.*(?:\n\1 +.*)*)", code, re.M) if name else None
        if not stated:
            raise Unreadable(f"{path} has no pub {name}")
        if stated[1]:
            # A field is proved where a theorem says that its record stands.
            holder = re.findall(r"^pub record (\S+)", code[: stated.start()], re.M)
            if not holder or not re.search(rf"^pub \S+ : {re.escape(holder[-1])}$", code, re.M):
                raise Unreadable(f"{name} is a field of a record that no theorem of {path} proves")
        return stated[2]

    def _said(self, path, name, form):
        """The word that the type of a theorem begins with, and its arguments; or Unreadable."""
        text = self._type(path, name, form)
        begun, first = _BEGUN.match(text), form.words[0]
        word = begun[1] if begun else ""
        if word not in form.words or word == first and self.names.known(path, word) != (word, EVIDENCE):
            raise Unreadable(f"the type of {name} does not begin with {first}")
        found = _arguments(text[begun.end() :])
        # What follows them would make it another statement.
        if len(found) != form.arguments:
            raise Unreadable(f"the type of {name} is not {word} with {form.arguments} arguments")
        # What stands in front of the word binds names in them, as in λ.
        bound = " ".join(_BOUND.findall(text[: begun.start(1)]))
        return word, [f"λ _ {bound}.\n{argument}" for argument in found]

    def shut_out(self, function, path, name):
        """What is wrong with a theorem ShutOut for a function, or ''; or Unreadable."""
        word, (right, answer, *_) = self._said(path, name, SHUT_OUT)
        cited = self.names.cited(path, right if word == "ShutOut" else word, self._bodies)
        made = any(file.startswith(f"crates/{function.split('::')[0]}/specs/") for _, file in cited)

        def states(fact):
            term, file = fact.meaning
            if file:
                return cited.issuperset([fact.meaning, *fact.others])
            # A field of an argument stands behind the right side; an argument itself is the answer too.
            field = ".".join(["", *(part for part in term.split(".")[1:] if part != "now")])
            return made and (right.endswith(field) if field else right == answer)

        # What a contract tells besides is not handed back.
        about = any(states(fact) for fact in self.public[function] if fact.view != KNOWN)
        return "" if about else f"the right side of {name} is not the meaning of {function}"

    def _about(self, path, text, more):
        """What a text is about: the definitions of this repository that it cites, but for those that everything cites."""
        cited = self.names.cited(path, text, more)
        return {known for known in cited if self.names.stated(known) and not _COMMON.fullmatch(known[1])}

    def outgrown(self, promise, path, name):
        """What is wrong with a theorem Outgrown for a promise, or ''; or Unreadable."""
        _, (_, new) = self._said(path, name, OUTGROWN)
        promised = self.names.theorem(promise)
        if not promised:
            raise Unreadable(f"nothing proves {promise}")
        # The promise's own words, and those of the wrong program's file: further down all statements of demand 1 meet.
        about = self._about(*promised, lambda known: [])
        about &= self._about(path, new, lambda known: self.names.bodies(known) if known[1] == path else [])
        return "" if about else f"the new statement of {name} is not about {promise}"


def _wrong(row, known, lacks, judged):
    """What is wrong with a row, or ''."""
    _, name, told, theorem, file = row
    if name not in known:
        return f"{lacks} '{name}'"
    if not told:
        return "it does not say what is wrong"
    try:
        return judged(name, file, theorem)
    except Unreadable as wrong:
        return str(wrong)


def _tell_weaker(root, page, laws, tally):
    """Counts a test for each row of a promise, and says what fails."""
    found, path = tables(page, WEAKER), os.path.join(root, promises.PAGE)
    header = f"| {' | '.join(WEAKER)} |"
    tally.expect(PAGE, len(found) == 1 and found[0], f"it has not one table, with rows, of the header {header}")
    named = set(promises.THEOREM.findall(read(path))) if os.path.isfile(path) else set()
    for row in sum(found, []):
        wrong = _wrong(row, named, f"{promises.PAGE} has no promise", laws.outgrown)
        tally.expect(f"{PAGE}:{row[0]}", not wrong, wrong)


def tell(root, tally):
    """Counts a test for each row, each public function and each desk or trap, and says what fails."""
    path = os.path.join(root, PAGE)
    page = read(path) if os.path.isfile(path) else ""
    found = tables(page, HEADER)
    if len(found) != 2:
        tally.expect(PAGE, False, f"it has not two tables with the header | {' | '.join(HEADER)} |")
        return
    report = contracts.check(root)
    tally.expect("the contracts", not report.failures, "some are refused, and what they cite is not known")
    public = {function.title: facts for function, facts in report.rows if not function.inner}
    laws, good = Laws(root, public), []
    for row in found[0] + found[1]:
        wrong = _wrong(row, public, "there is no public function", laws.shut_out)
        tally.expect(f"{PAGE}:{row[0]}", not wrong, wrong)
        good += [] if wrong else [row]
    for function in public:
        shown = {(row[3], row[4]) for row in good if row in found[0] and row[1] == function}
        tally.expect(function, len(shown) >= LEAST, f"{len(shown)} of {LEAST} wrong programs are shut out")
    order = list(dict.fromkeys(row[1] for row in found[0] if row[1] in public))
    tally.expect("the order", order == [name for name in public if name in order], "it is not that of the contracts")
    for told in TOLD:
        tally.expect(told, any(row in found[1] and row[2] == told for row in good), "no theorem shuts it out")
    _tell_weaker(root, page, laws, tally)


def main():
    if len(sys.argv) > 2:
        sys.exit("usage: wrong.py [ROOT]")
    root = sys.argv[1] if len(sys.argv) == 2 else os.path.join(os.path.dirname(os.path.abspath(__file__)), "..")
    tally = Tally()
    tell(root, tally)
    return tally.close()


if __name__ == "__main__":
    sys.exit(main())
