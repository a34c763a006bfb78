"""The Rattle source has the refusals of refusals.txt: their names, numbers, order and words. So has docs/RULES.md; and the
header says at its head what those numbers mean that it lists without words."""

import os
import re

from interface import rattle
from refusals import Refusal, by_function, refusals
from source import read

CODE, MEANING, CONDITIONS = "crates/scales/src/lib.rt", "crates/scales/specs/Meaning.antt", "crates/promises/specs/Conditions.antt"
RULES, HEADER = "docs/RULES.md", "include/vrikshonem.h"


def _below(heading, page):
    """What stands below a heading of a page."""
    section = re.search(rf"^## {heading}\n(.*?)(?=^## |\Z)", page, re.M | re.S)
    return section[1] if section else ""


def ruled(rules, listed, given):
    """The rows of the rules, and those that are due: a row comes with the first function that gives its number."""
    rows = re.findall(r"^\| (\d+) \| ([^|]+) \| [^|]+ \|$", _below("Refusals", rules), re.M)
    due = given | {int(number) for number, _ in rows}
    return rows, [(str(one.number), one.words) for one in sorted(listed, key=lambda one: one.place) if one.number in due]


def bare(header, judged):
    """The numbers that the header's head puts into words, and those that some function lists without words of its own."""
    text = re.sub(r"\n \*[ \t]+", " ", header)
    head = re.search(r"without words means:(.*)\.$", text, re.M)
    lists = [items.split(";") for items in re.findall(r"\bRefused\s+(\d.*?)\.(?:\s|$)", text)]
    alone = {item.strip() for items in lists for item in items if item.strip().isdigit()}
    said = re.findall(r"(?:^|;) (\d+) ", head[1] if head else "")
    return said, [str(one.number) for one in judged if str(one.number) in alone]


def found(texts, listed, given):
    """What the files say: a title, what stands there and what is due. The list is in the order of the numbers; some function
    gives those that are given."""
    code, meaning, conditions, rules, header = texts
    judged = sorted(listed, key=lambda one: one.place)
    cases = re.search(r"pub enum Refusal \{(.*?)\}", code, re.S)
    yield "the cases of Refusal", re.findall(r"\w+", cases[1]) if cases else [], [one.name for one in listed]
    numbers = [(one.name, str(one.number)) for one in listed]
    yield "Refusal's number", re.findall(r"\bRefusal::(\w+) => (\d+),", code), numbers
    yield "number_of", re.findall(r"^number_of R\.(\w+) = (\d+)$", meaning, re.M), numbers
    order = re.search(r"^order = (.*) ∷ \[\]$", meaning, re.M)
    yield "the order", order[1].split(" ∷ ") if order else [], [str(one.number) for one in judged]
    said = [(str(one.number), one.words) for one in judged]
    # The paper's words may say more than the list's.
    heads = re.findall(r"^-- ---- \"(\d+) ([^\":\n]+)", conditions, re.M)
    yield "the conditions of the slip", [(number, words.split(", where")[0]) for number, words in heads], said
    yield f"the table of {RULES}", *ruled(rules, listed, given)
    yield f"what {HEADER} lists without words", *bare(header, judged)


# Changes of the source, each of which must be reported: the file's place in the texts, a pattern and what stands there instead.
FAULTS = {
    "a case less": (0, r"    NotInForce,\n", ""),
    "another number": (0, r"(Refusal::NotInForce => )8", r"\g<1>9"),
    "another number of the meaning": (1, r"(number_of R.NotInForce = )8", r"\g<1>9"),
    "another order": (1, r"order = 1 ∷ 2", "order = 2 ∷ 1"),
    "other words": (2, r"correlation not in force", "correlation out of force"),
    "another number of the conditions": (2, r"(-- ---- \")8 ", r"\g<1>9 "),
    "no condition": (2, r"-- ---- \"9 leap list expired\".*\n", ""),
    "a row less of the rules": (3, r"\n\| 8 \| correlation .*", ""),
    "a row too many of the rules": (3, r"(\n\| 8 \| correlation .*)", r"\1\n| 62 | no refusal | never |"),
    "other words of the rules": (3, r"\| leap list expired \|", "| leap list ended |"),
    "a number less at the header's head": (4, r" 6 correlation not accepted;", ""),
    "a number too many at the header's head": (4, r"( 6 correlation not accepted;)", r"\1 8 correlation not in force;"),
    "another number at the header's head": (4, r"6 correlation not accepted;", "8 correlation not accepted;"),
    "a number of a function without words": (4, r"(Refused  1; 2) another first byte", r"\1"),
    "another order of the rules": (3, r"(\n\| 8 \| correlation .*)(\n\| 17 \| .*)", r"\2\1"),
}


def check(tally, root):
    listed = sorted(refusals(root), key=lambda one: one.number)
    given = {number for one in by_function(root, rattle(root), listed).values() for number in one.numbers}
    texts = [read(os.path.join(root, path)) for path in (CODE, MEANING, CONDITIONS, RULES, HEADER)]
    for title, have, due in found(texts, listed, given):
        tally.expect(f"refusals: {title} is that of refusals.txt", have == due, str(have))
    for what, (at, pattern, new) in FAULTS.items():
        changed, count = re.subn(pattern, new, texts[at])
        others = [*texts[:at], changed, *texts[at + 1 :]]
        reported = any(have != due for _, have, due in found(others, listed, given))
        tally.expect(f"refusals: {what} is reported", count == 1 and reported, f"{count} places")
    new = Refusal(62, 35, "NotGiven", "a refusal that no function gives yet")
    have, due = ruled(texts[3], [*listed, new], given)
    tally.expect("refusals: a number that no function gives needs no row of the rules", have == due, str(due))
    have, due = ruled(texts[3], [*listed, new], given | {62})
    tally.expect("refusals: once a function gives it, its row is asked for", have != due, str(due))
