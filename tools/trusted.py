#!/usr/bin/env python3
"""Holds the section "What is trusted" of docs/PROMISES.md to what the checker prints: trusted.py LOG [ROOT]

LOG is what `rt ci` said and, behind it, tools/assumed. Of a program the page names the C functions whose contracts are assumed,
and counts them; no other crate, not one that names a crate of the kit, and not the library that C links, may reach any. The words behind a verdict's sum, on what the
checker itself takes on trust, stand on the page as printed. Of a crate that an earlier run proved, `rt ci` says only that it is
kept; rt lets no verdict of other words pass."""

import os
import re
import sys
from dataclasses import dataclass, field

sys.dont_write_bytecode = True

from source import crates, read
from tally import Tally

PAGE = "docs/PROMISES.md"
OTHERS = "every other crate"
_ROW = re.compile(rf"^\| (?:`(\w+)`|{OTHERS}) \| (\d+) \| (.*) \|$", re.M)
_VERDICT = re.compile(r"logic=proved functions=\d+(?: axioms=(\d+))?(?: target=\S+)?(?: cpu=\S+)? sum=\w+ (native=.+)")
# rt, unlike rt ci, takes what it kept of its own earlier work; what is assumed is the same.
_OWN = " incremental=trusted"
_HEAD = re.compile(r"== (what )?(\w+)( assumes|: its tests)?")
_PROVED = re.compile(r"rt: (\w+) proved")
_KEPT = re.compile(r"rt: (\w+) is kept: an earlier run on this machine proved the same files over the same libraries")
_COUNT = re.compile(r"axioms \w+: (\d+|none) reached of the \d+ declared")
_REACHED = re.compile(r" +(\S+) +reached")


@dataclass
class Verdict:
    number: int  # of the C functions that are assumed
    words: str  # what else it trusts


@dataclass
class Listed:
    """What tools/assumed lists of a crate that is linked, or names one of the kit."""

    names: list = field(default_factory=list)  # the C functions that are assumed
    counts: list = field(default_factory=list)  # how many, library by library
    verdict: object = None


def _verdict(line):
    said = _VERDICT.fullmatch(line.strip())
    return said and Verdict(int(said[1] or 0), said[2])


def printed(log):
    """What is said of each crate: the Verdict, or None of one that is kept; and of each that is linked what is Listed."""
    said, listed, verdict, one = {}, {}, None, None
    for line in log.splitlines():
        if head := _HEAD.fullmatch(line):
            verdict, one = None, None
            if head[1]:
                one = listed[head[2]] = Listed()
        elif line.startswith("logic="):
            verdict = _verdict(line)
            # rt tells those of the libraries below first.
            if one:
                one.verdict = _verdict(line.strip().removesuffix(_OWN))
        elif one and (count := _COUNT.match(line)):
            one.counts.append(0 if count[1] == "none" else int(count[1]))
        elif one and (name := _REACHED.fullmatch(line)):
            one.names.append(name[1])
        elif proved := _PROVED.fullmatch(line):
            if verdict:
                said[proved[1]] = verdict
            verdict = None
        elif kept := _KEPT.fullmatch(line):
            said[kept[1]] = None
    return said, listed


def _wrong(name, told, said, listed, linked, page):
    """What is wrong with the row of a crate, or ''. Of one that is not linked, and names none of the kit, nothing is listed."""
    if name not in said:
        return "the checker's log has no verdict that can be read"
    if len(told) != 1:
        return f"{PAGE} has {len(told)} rows for it"
    number, names = told[0]
    if number != len(names):
        return f"{PAGE} counts {number}, and names {len(names)}"
    verdicts = [said[name]] if said[name] else []
    if listed:
        if not listed.verdict or linked and not listed.counts:
            return "what it assumes is not listed"
        verdicts.append(listed.verdict)
        if sum(listed.counts) != len(listed.names):
            return f"{sum(listed.counts)} functions are counted, and {len(listed.names)} are named"
        if sorted(names) != sorted(listed.names):
            return f"{PAGE} names {', '.join(names) or 'none'}, the checker {', '.join(listed.names) or 'none'}"
    for verdict in verdicts:
        if number != verdict.number:
            return f"{PAGE} counts {number}, the checker {verdict.number}"
        if f"`{verdict.words}`" not in page:
            return f"{PAGE} does not have the words '{verdict.words}'"
    return ""


def _lines(root):
    """The crates: whether each is a static library, and the crates of the kit that its line names."""
    ours = crates(root)
    for line in read(os.path.join(root, "crates.txt")).splitlines():
        head, _, needs = line.split("#")[0].partition(":")
        if head.strip():
            name, *kind = head.split()
            yield name, "staticlib" in kind, set(needs.split()) - set(ours)


def tell(root, log, tally):
    """Counts a test for each crate and each row that names one, and says what fails."""
    path, (said, listed) = os.path.join(root, PAGE), printed(log)
    page = read(path) if os.path.isfile(path) else ""
    rows = [(name, (int(number), re.findall(r"`([^`]+)`", cell))) for name, number, cell in _ROW.findall(page)]
    programs = []
    for name, is_static, kit in _lines(root):
        is_program = os.path.isfile(os.path.join(root, "crates", name, "src", "main.rt"))
        programs += [name] if is_program else []
        told = [row for known, row in rows if known == (name if is_program else "")]
        linked = is_program or is_static
        wrong = _wrong(name, told, said, listed.get(name, Listed()) if linked or kit else None, linked, page)
        tally.expect(f"what {name} assumes", not wrong, wrong)
    for name in filter(None, (name for name, _ in rows)):
        tally.expect(f"{PAGE}: the row of {name}", name in programs, "it is no program")
    # Where all crates are kept, no word of a verdict is seen but of those that are linked.
    seen = [verdict for verdict in [*said.values(), *(one.verdict for one in listed.values())] if verdict]
    tally.expect("a verdict is read", seen, "the checker's log has none")


def main():
    if len(sys.argv) not in (2, 3):
        sys.exit("usage: trusted.py LOG [ROOT]")
    root = sys.argv[2] if len(sys.argv) == 3 else os.path.join(os.path.dirname(os.path.abspath(__file__)), "..")
    tally = Tally()
    tell(root, read(sys.argv[1]), tally)
    return tally.close()


if __name__ == "__main__":
    sys.exit(main())
