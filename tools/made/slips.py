"""The refusals as C, Rust, Python and a reader have them."""

import os
from itertools import zip_longest

from made import SAID
from refusals import LIST, TABLE
from source import Unreadable, read

HEADER, RUST = "include/vrikshonem_refusals.h", "rust/src/refusals.rs"
PYTHON, DOCS, README = "python/vrikshonem/_refusals.py", "docs/REFUSALS.md", "README.md"
# Of a page that is written by hand only what stands between these two lines is made.
BEGIN, END = f"<!-- {SAID} From {LIST}, to the next such line. -->", "<!-- Here ends what is made. -->"
UNKNOWN = "a refusal that this version does not know"


def header(listed):
    lines = [
        f"/* {SAID} The refusals of vrikshonem.h, from {LIST}.",
        " *",
        " * The first that applies in this order is given, and never another. */",
        "#ifndef VRIKSHONEM_REFUSALS_H",
        "#define VRIKSHONEM_REFUSALS_H",
        "",
        "#include <stdint.h>",
        "",
        "enum {",
        "    VRK_ANSWERED = 0,",
    ]
    for one in listed:
        comma = "," if one != listed[-1] else ""
        lines.append(f"    VRK_{one.constant} = {one.number}{comma} /* {one.words} */")
    lines += ["};", "", "/* What is wrong, in words. */"]
    lines += ["static inline const char *vrk_words(uint32_t refusal) {", "    switch (refusal) {"]
    lines.append('    case VRK_ANSWERED: return "answered";')
    lines += [f'    case VRK_{one.constant}: return "{one.words}";' for one in listed]
    return "\n".join([*lines, f'    default: return "{UNKNOWN}";', "    }", "}", "", "#endif"]) + "\n"


def rust(listed):
    lines = [f"// {SAID} The refusals, from {LIST}.", "", "use crate::error::Error;", ""]
    lines += ["/// Each refusal by its name, for a `match`; the first that applies in this order is given.", "impl Error {"]
    for one in listed:
        lines.append(f"    /// {one.number}: {one.words}.")
        lines.append(f"    pub const {one.constant}: Error = Error {{ number: {one.number} }};")
    lines += ["", "    /// What is wrong, in words.", "    pub fn words(self) -> &'static str {", "        match self {"]
    lines += [f'            Error::{one.constant} => "{one.words}",' for one in listed]
    return "\n".join([*lines, f'            _ => "{UNKNOWN}",', "        }", "    }", "}"]) + "\n"


def python(listed):
    lines = [
        f"# {SAID} The refusals, from {LIST}.",
        '"""A refusal is raised as the exception of its name. The first that applies in this order is given."""',
        "",
        "from __future__ import annotations",
        "",
        "from typing import Dict, Optional, Type",
        "",
        "",
        "class Refused(Exception):",
        '    """A refusal: the first that applies, in a fixed order. Memory that was lent keeps all its bytes.',
        "",
        "    number  its number",
        "    words   what is wrong, in words",
        '    """',
        "",
        '    __module__ = "vrikshonem"',
        "    number: int = 0",
        f'    words: str = "{UNKNOWN}"',
        "",
        "    def __new__(cls, number: Optional[int] = None) -> Refused:",
        "        # A number that is known is the exception of its name.",
        "        known = REFUSALS.get(number or 0, cls) if cls is Refused else cls",
        "        return super().__new__(known)",
        "",
        "    def __init__(self, number: Optional[int] = None) -> None:",
        "        if number is not None and not type(self).number:",
        "            self.number = number",
        "        super().__init__(self.number)",
        "",
        "    def __str__(self) -> str:",
        '        return f"refused {self.number}: {self.words}"',
    ]
    for one in listed:
        lines += ["", "", f"class {one.name}(Refused):", f'    """{one.number}: {one.words}."""', ""]
        lines += ['    __module__ = "vrikshonem"', f"    number = {one.number}", f'    words = "{one.words}"']
    names = [one.name for one in listed]
    lines += ["", "", "REFUSALS: Dict[int, Type[Refused]] = {", *(f"    {one.number}: {one.name}," for one in listed), "}", ""]
    return "\n".join([*lines, "__all__ = [", '    "Refused",', *(f'    "{name}",' for name in names), "]"]) + "\n"


def docs(table, listed):
    lines = [f"<!-- {SAID} From {LIST} and {TABLE}. -->", "# The refusals", ""]
    lines += ["The first that applies in this order is given, and never another. 0 is an answer.", ""]
    lines += ["| No. | Given when | C | Rust | Python |", "|---|---|---|---|---|"]
    for one in listed:
        names = f"`VRK_{one.constant}` | `Error::{one.constant}` | `{one.name}`"
        lines.append(f"| {one.number} | {one.words} | {names} |")
    lines += ["", "What each function can refuse, in the order of judging, and how many bytes its image has:", ""]
    lines += ["| Function | Image | Refusals |", "|---|---|---|"]
    for name, refuses in table.items():
        image, numbers = refuses.image, refuses.numbers
        told = "" if not image else f"{image.length} bytes"
        if image and not image.fixed:
            told = f"`{image.told}`, to {told}" if image.told else f"to {told}"
        lines.append(f"| `vrk_{name}` | {told} | {' '.join(map(str, numbers)) or 'none: it answers 0 or 1'} |")
    return "\n".join(lines) + "\n"


def readme(page, listed):
    """The page with its list of the refusals: two columns, of which the left one comes first."""
    before, begin, rest = page.partition(f"{BEGIN}\n")
    _, end, after = rest.partition(f"{END}\n")
    if not end:
        raise Unreadable(f"{README}: the list of the refusals is due between '{BEGIN}' and '{END}'")
    items = [f"{one.number:>2}  {one.words}" for one in listed]
    half = (len(items) + 1) // 2
    width = max(map(len, items[:half]))
    columns = zip_longest(items[:half], items[half:], fillvalue="")
    lines = [f"    {left:<{width}}   {right}".rstrip() for left, right in columns]
    return "\n".join([before + begin, *lines, "", end + after])


def made(root, table, listed):
    page = readme(read(os.path.join(root, README)), listed)
    return {HEADER: header(listed), RUST: rust(listed), PYTHON: python(listed), DOCS: docs(table, listed), README: page}
