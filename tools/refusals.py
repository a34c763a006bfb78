"""The refusals (refusals.txt), and what each function refuses and writes (refusals_by_function.txt)."""

import os
import re
from dataclasses import dataclass

from interface import Slice
from source import Unreadable, read

LIST, TABLE = "refusals.txt", "refusals_by_function.txt"
MOST = 63


@dataclass(frozen=True)
class Refusal:
    number: int
    place: int
    name: str
    words: str

    @property
    def constant(self):
        """NotInForce as NOT_IN_FORCE."""
        return re.sub(r"(?<!^)([A-Z])", r"_\1", self.name).upper()


@dataclass(frozen=True)
class Image:
    """What a writer writes: `length` bytes, or where it is not `fixed` at most so many; a parameter `told` says how many."""

    length: int
    fixed: bool = True
    told: str = ""


@dataclass(frozen=True)
class Refuses:
    image: object  # an Image, or None
    numbers: tuple  # in the order of judging


def lines(root, file):
    """The lines with their numbers, comments taken off."""
    for number, line in enumerate(read(os.path.join(root, file)).splitlines(), 1):
        line = re.sub(r"(^|\s)#.*", "", line).strip()
        if line:
            yield f"{file}:{number}", line


def refusals(root):
    """The refusals, in the order of their places."""
    found = []
    for where, line in lines(root, LIST):
        match = re.fullmatch(r"(\d+)\s+(\d+)\s+(\w+)(?:\s+(.*))?", line)
        if not match or not re.fullmatch(r"(?:[A-Z][a-z0-9]+)+", match[3]):
            raise Unreadable(f"{where}: a number, a place, a name such as NotInForce and words are due, not '{line}'")
        one = Refusal(int(match[1]), int(match[2]), match[3], match[4] or "")
        if not one.words:
            raise Unreadable(f"{where}: refusal {one.number} has no words")
        if not re.fullmatch(r"[ -~]*", one.words) or '"' in one.words or "\\" in one.words:
            raise Unreadable(f"{where}: the words of refusal {one.number} cannot stand between quotes")
        if not 1 <= one.number <= MOST:
            raise Unreadable(f"{where}: a number is from 1 to {MOST}, not {one.number}")
        for other in found:
            for what in ("number", "place", "name", "words"):
                if getattr(one, what) == getattr(other, what):
                    raise Unreadable(f"{where}: the {what} '{getattr(one, what)}' is refusal {other.number}'s already")
        found.append(one)
    if not found:
        raise Unreadable(f"{LIST}: no refusal")
    return sorted(found, key=lambda one: one.place)


def _image(where, text, function):
    """What the table says of a writer's image."""
    match = re.fullmatch(r"(?:(\w*)<=)?(\d+)", text)
    written = [one for one in function.slices if one.kind.written]
    if text == "-":
        if [one for one in written if one.kind == Slice("u8", True)]:
            raise Unreadable(f"{where}: {function.name} is lent bytes, and the length of its image is missing")
        return None
    if not match or not written:
        raise Unreadable(f"{where}: {function.name} has no image of '{text}' bytes")
    if match[1] and match[1] not in [one.name for one in function.numbers]:
        raise Unreadable(f"{where}: {function.name} has no parameter '{match[1]}'")
    return Image(int(match[2]), match[1] is None, match[1] or "")


def by_function(root, interface, listed):
    """Each function's Refuses, in the order of the table."""
    places, found = {one.number: one.place for one in listed}, {}
    for where, line in lines(root, TABLE):
        match = re.fullmatch(r"(\w+)\s+(\S+)\s+(-|\d+(?:\s+\d+)*)", line)
        if not match:
            raise Unreadable(f"{where}: a function, its image and its refusals are due, not '{line}'")
        name = match[1]
        if name not in interface.functions or name in found:
            raise Unreadable(f"{where}: " + (f"{name} has a line already" if name in found else f"there is no function {name}"))
        numbers = [int(one) for one in re.findall(r"\d+", match[3])]
        for one in numbers:
            if one not in places:
                raise Unreadable(f"{where}: {name} refuses {one}, which {LIST} does not have")
        if [places[one] for one in numbers] != sorted({places[one] for one in numbers}):
            raise Unreadable(f"{where}: the refusals of {name} do not stand in the order of judging")
        found[name] = Refuses(_image(where, match[2], interface.functions[name]), tuple(numbers))
    for name in interface.functions:
        if name not in found:
            raise Unreadable(f"{TABLE}: {name} has no line")
    return found
