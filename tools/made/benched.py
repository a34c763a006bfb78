"""The functions and the answers' forms for the benchmark."""

from declarations import layout
from interface import WIDTHS
from made import SAID
from made.in_c import type_of

PATH = "bench/functions.h"


def _halves(interface, kind, at=0):
    """A bit for each half of a word that an answer's numbers stand in, the rest being padding."""
    if kind in WIDTHS:
        return sum(1 << half for half in range(at // 4, (at + WIDTHS[kind] + 3) // 4))
    offsets = dict(layout(interface.structs[kind], interface.structs)[1])
    found = 0
    for field, of in interface.structs[kind]:
        found |= _halves(interface, of, at + offsets[field])
    return found


def made(interface):
    lines = [f"/* {SAID} The functions, and of each type of answer the halves of words that count. */"]
    lines += ["#ifndef FUNCTIONS_H", "#define FUNCTIONS_H", "", "#define EACH_FUNCTION(F) \\"]
    names = list(interface.functions)
    lines += [f"    F({name}) \\" for name in names[:-1]] + [f"    F({names[-1]})", "", "enum {"]
    for kind in dict.fromkeys(one.result for one in interface.functions.values()):
        lines.append(f"    halves_{type_of(kind)} = 0x{_halves(interface, kind):02X},")
    return {PATH: "\n".join([*lines, "};", "", "#endif"]) + "\n"}
