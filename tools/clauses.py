"""Takes the antt text of an `ensures` apart: VIEW result ≡ MEANING arguments, a relation, or a product of these."""

import re
from dataclasses import dataclass

_NAME = r"(?:«[^»]*»|[^\s(){}.;,@\"«»]+)"
# A field stands tight behind its value: r.day, or (g x).day.
_TOKEN = re.compile(rf"[(){{}}]|\.{_NAME}|{_NAME}(?:\.{_NAME})*|\S")
# Each binds a name, which could hide a parameter's.
_BINDERS = {"λ", "let", "do", "elim", "unfold", "∀", ":", "→"}
# What stands behind a lent parameter: its value as the call begins, by a & and by a &mut, and as the function returns.
ENTRY = {"ref": "now", "mut": "old"}
EXIT = "new"
RESULT = "result"
FORMS = "result, VIEW result, p.new or VIEW result p.new"


class Refused(Exception):
    """A contract of another form; the text says why."""


@dataclass
class Fact:
    relation: bool
    head: str  # the definition at the head of the right side, or the relation; '' where the right side is an argument itself
    arguments: list
    view: str  # '' where the result or a slice is stated as it is
    result: bool  # the result is stated
    exits: list  # the parameters whose slice at exit is stated


def _tree(text):
    """The tokens; a list for each (..) and a tuple for each {..}. Whoever read the clause matched its brackets."""
    levels = [[]]
    for found in _TOKEN.finditer(text):
        token = found[0]
        if token.startswith(".") and text[found.start() - 1 : found.start()] == ")":
            # The field of a call, (g x).day, is one argument.
            levels[-1][-1] = [levels[-1][-1], token]
        elif token in "({":
            levels.append([])
        elif token in ")}":
            inside = levels.pop()
            levels[-1].append(inside if token == ")" else tuple(inside))
        else:
            levels[-1].append(re.sub("[«»]", "", token))
    return levels[0]


def named(word):
    """What a word names: a field of it, or a constructor, stands behind a point."""
    return word if word.startswith(".") else word.split(".")[0]


def words(term):
    """Every word of a term, fields tight behind it, without the labels of `record { label = .. }`."""
    found = []
    for place, part in enumerate(term):
        if not isinstance(part, str):
            found += words(part)
        elif term[place + 1 : place + 2] not in (["="], ("=",)):
            found.append(part)
    return found


def lent(term, moment):
    """The parameters p for which p.now, p.old or p.new stands in a term."""
    fields = [word.split(".") for word in words(term)]
    return {field[0] for field in fields if len(field) > 1 and field[0] and field[1] == moment}


def _split(term, mark):
    found = [[]]
    for part in term:
        if part == mark:
            found.append([])
        else:
            found[-1].append(part)
    return found


def _unwrapped(term):
    while len(term) == 1 and isinstance(term[0], list):
        term = term[0]
    return term


def _factors(term):
    term = _unwrapped(term)
    factors = _split(term, "×")
    if len(factors) == 1:
        return [term]
    if any(len(factor) != 1 or not isinstance(factor[0], list) for factor in factors):
        raise Refused("each factor of a product stands in parentheses")
    return [part for factor in factors for part in _factors(factor)]


def _applied(term, operators, what):
    """A definition's name and its arguments: names, numbers, fields of them and terms in brackets."""
    for part in term:
        if isinstance(part, str) and (part in operators or not (part[0].isalnum() or part[0] == "_" or part == "[]")):
            raise Refused(f"{what} is no definition applied to arguments: '{part}' stands in it")
    if not term or not isinstance(term[0], str):
        raise Refused(f"{what} is no definition applied to arguments")
    if bound := _BINDERS.intersection(words(term)):
        raise Refused(f"{what} binds a name, by '{bound.pop()}'")
    return term[0], term[1:]


def _slice(part):
    """The parameter whose slice at exit a part is, or ''."""
    name, _, moment = part.rpartition(".") if isinstance(part, str) else ("", "", "")
    return name if moment == EXIT and "." not in name else ""


def _stated(left):
    """The view of the left side, whether it states the result, and the slices at exit that it states."""
    if left in ([RESULT], [f"{RESULT}.{ENTRY['ref']}"]):
        return "", True, []
    if len(left) == 1 and _slice(left[0]):
        return "", False, [_slice(left[0])]
    if len(left) >= 2 and isinstance(left[0], str) and left[1] == RESULT and all(map(_slice, left[2:])):
        return left[0], True, [_slice(part) for part in left[2:]]
    raise Refused(f"the left side is none of {FORMS}")


def _entry(term):
    """Is a term the value behind a reference as the call begins, or a field, and no more?"""
    return len(term) == 1 and isinstance(term[0], str) and "." in term[0]


def _told(term):
    """Does a fact speak of the arguments alone? So a type tells what it knows of its values."""
    return RESULT not in map(named, words(term)) and not lent(term, EXIT)


def _fact(term, operators):
    sides = _split(term, "≡")
    if len(sides) == 1:
        head, arguments = _applied(term, operators, "a clause without ≡")
        return Fact(True, head, arguments, "", RESULT in map(named, words(arguments)), sorted(lent(arguments, EXIT)))
    if len(sides) != 2:
        raise Refused("an equation has more than one ≡")
    if _told(term):
        head, arguments = _applied(_unwrapped(sides[0]), operators, "the left side")
        return Fact(False, head, arguments, "", False, [])
    view, states, exits = _stated(_unwrapped(sides[0]))
    if _entry(right := _unwrapped(sides[1])):
        return Fact(False, "", right, view, states, exits)
    head, arguments = _applied(_unwrapped(sides[1]), operators, "the right side")
    for word in words(arguments):
        if named(word) == RESULT or {EXIT, "exit"}.intersection(word.split(".")[1:]):
            raise Refused("the right side speaks of the result: it is to speak of the arguments alone")
    return Fact(False, head, arguments, view, states, exits)


def plain(text):
    """Is a clause a plain fact? One with a star, or with ⌜ ⌝, is said of memory."""
    return not text.startswith("*") and not re.search("[⌜⌝∗]", text)


def facts(text, operators):
    """The facts that a clause states."""
    if "--" in text or "{-" in text:
        raise Refused("a comment stands in the clause")
    if not plain(text):
        raise Refused("a clause is no plain fact")
    return [_fact(factor, operators) for factor in _factors(_tree(text))]
