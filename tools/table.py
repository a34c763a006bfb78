#!/usr/bin/env python3
"""Checks the tables | Rule | File | Definition | of docs/RULES.md: each row leads to a definition, and each meaning
and view that a public contract cites has its row, so that a reader finds every meaning from there."""

import os
import re
import sys

sys.dont_write_bytecode = True

import contracts
from source import Unreadable, definitions, read
from tally import Tally

PAGE = "docs/RULES.md"
HEADER = ["Rule", "File", "Definition"]


def _cells(line):
    found = re.fullmatch(r"\s*\|(.*)\|\s*", line)
    return [cell.strip() for cell in found[1].split("|")] if found else None


def rows(text):
    """The rows below each such header, as (line, file, definitions)."""
    lines = [_cells(line) for line in text.splitlines()]
    found, within = [], False
    for number, cells in enumerate(lines):
        if cells == HEADER:
            within = True
        elif not cells:
            within = False
        elif within and not all(re.fullmatch(r":?-+:?", cell) for cell in cells):
            # A row of another width leads nowhere: it is shown as one without a file.
            file, names = cells[1:] if len(cells) == 3 else ("", "")
            link = re.fullmatch(r"\[.*\]\((.*)\)", file)
            listed = [part.strip() for part in names.split(",")]
            named = all(re.fullmatch(r"`[^`]+`", part) for part in listed)
            file = (link[1] if link else file).strip("`")
            found.append((number + 1, file, [part.strip("`") for part in listed] if named else []))
    return found


def _wrong(root, file, names):
    """What is wrong with a row, or ''."""
    if not file or not os.path.isfile(os.path.join(root, file)):
        return f"there is no file '{file}'"
    if not names:
        return "its definitions are not names in backquotes with commas between"
    try:
        missing = [name for name in names if name not in definitions(root, file)]
    except Unreadable as wrong:
        return f"{file}: {wrong}"
    return f"{file} does not define {', '.join(missing)}" if missing else ""


def cited(report):
    """The meanings and views of the public contracts outside inner, in order."""
    found = {}
    for function, facts in report.rows:
        if not function.inner:
            for fact in facts:
                # An argument that the answer is said to be stands in no file.
                for definition in filter(lambda one: one[1], (*fact.viewed, fact.meaning)):
                    found.setdefault(definition, function.title)
    return found


def tell(root, tally):
    """Counts a test for each row and one for each meaning and view, and says what fails."""
    path = os.path.join(root, PAGE)
    found = rows(read(path)) if os.path.isfile(path) else []
    if not found:
        tally.expect(PAGE, False, f"it has no table with the header | {' | '.join(HEADER)} | and rows below")
    for line, file, names in found:
        wrong = _wrong(root, file, names)
        tally.expect(f"{PAGE}:{line}", not wrong, wrong)
    there = {(name, os.path.normpath(file)) for _, file, names in found for name in names}
    report = contracts.check(root)
    if report.failures:
        tally.expect("the contracts", False, "some are refused, and what they cite is not known")
    for (name, file), title in cited(report).items():
        tally.expect(f"{name} of {file}", (name, file) in there, f"no row of {PAGE} names it, and {title} cites it")


def main():
    if len(sys.argv) > 2:
        sys.exit("usage: table.py [ROOT]")
    root = sys.argv[1] if len(sys.argv) == 2 else os.path.join(os.path.dirname(os.path.abspath(__file__)), "..")
    tally = Tally()
    tell(root, tally)
    return tally.close()


if __name__ == "__main__":
    sys.exit(main())
