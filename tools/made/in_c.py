"""How the interface looks in C."""

import re

from interface import PREFIX, WIDTHS, Slice

TYPES = {f"{sign}{8 * width}": f"{'u' if sign == 'u' else ''}int{8 * width}_t" for sign in "ui" for width in (1, 2, 4, 8)}
TYPES["f64"] = "double"


def snake(name):
    """VrkGoceCorrelation as vrk_goce_correlation."""
    return re.sub(r"(?<!^)([A-Z])", r"_\1", name).lower()


def bare(struct):
    """VrkGoceCorrelation as goce_correlation."""
    return snake(struct)[len(PREFIX) :]


def type_of(kind):
    """A number's or a struct's type."""
    return TYPES.get(kind) or snake(kind)


def pointer(kind):
    return f"{type_of(kind.of)} *" if kind.written else f"const {type_of(kind.of)} *"


def taken(function):
    """The parameters as they are declared."""
    found = []
    for one in function.parameters:
        if isinstance(one.kind, Slice):
            found += [f"{pointer(one.kind)}{one.name}", f"size_t {one.name}_count"]
        else:
            found.append(f"{type_of(one.kind)} {one.name}")
    return ", ".join(found) or "void"


def from_word(kind, word):
    """A number out of a word of 64 bits."""
    if kind == "f64":
        return f"double_of({word})"
    return word if kind == "u64" else f"({TYPES[kind]}){word}"


def to_word(kind, number):
    """A word of 64 bits out of a number."""
    if kind == "f64":
        return f"bits_of({number})"
    return f"(uint64_t){number}" if kind.startswith("i") else number


def numbered(interface):
    """The functions' numbers, and how many words an answer has."""
    lines, line = [], "   "
    for name in interface.functions:
        if len(line) + len(name) > 125:
            lines, line = [*lines, line], "   "
        line += f" {name.upper()},"
    most = max(len(interface.numbers(one.result)) for one in interface.functions.values())
    return ["enum {", *lines, line, "};", "", f"enum {{ ANSWER = {most} }};"]


def used(interface, kinds):
    """The structs that these kinds are or have, the inner ones first, each once."""
    found = []
    for kind in kinds:
        if kind not in WIDTHS and kind not in found:
            inner = used(interface, [of for _, of in interface.structs[kind]])
            found += [one for one in inner if one not in found] + [kind]
    return found
