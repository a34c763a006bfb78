"""What desk --help and the manual page docs/desk.1 say: one text, set in two ways."""

import os
import textwrap

from made import SAID
from refusals import refusals
from source import read

PAGE = "docs/desk.1"
USAGE, ALONE = "desk [--words] < LINES", "desk --help | --version"
TITLE = "dates lines of text, or refuses each with a number"
# What a line can be refused for.
REFUSED = (1, 3, 7, 9, 10, 11)
WIDTH = 79


def version(root):
    return read(os.path.join(root, "VERSION")).strip()


def sections(root):
    """Titles, and under each paragraphs, pairs of a term and its words, and lists of lines to be shown as they are."""
    given = [one for one in refusals(root) if one.number in REFUSED]
    return {
        "DESCRIPTION": [
            "desk reads lines of text from standard input and prints one line for each, in their order, on standard output: its "
            "time in TAI with prefix and microseconds, or its refusal, 'refused' and a number.",
            "A line is a time in one of four forms, which are told apart by their length:",
            [
                "31-DEC-2016 23:59:60",
                "31-DEC-2016 23:59:60.000000",
                "UTC=31-DEC-2016 23:59:60",
                "UTC=31-DEC-2016 23:59:60.000000",
            ],
            "The prefix is TAI=, UTC= or GPS=; without one a time is UTC. A newline ends a line, and the last line needs none. A "
            "carriage return is a part of its line: tr -d '\\r' takes it off.",
            "The first run proves and builds the program, tells on standard error how far it is, and takes some minutes.",
        ],
        "OPTIONS": [
            ("--words", f"prints a refusal's words behind its number: refused {given[0].number}: {given[0].words}"),
            ("--help", "prints this text"),
            ("--version", "prints the version"),
        ],
        "REFUSALS": [
            "Of those that apply the first is given:",
            *((str(one.number), one.words) for one in given),
            "The leap list is the one published for up to 31 December 2024: UTC of a later day is refused 9.",
        ],
        "EXIT STATUS": [
            ("0", "each line that was read has its answer or its refusal"),
            ("1", "a read or a write failed, or the program could not be built; standard error says why"),
            ("2", "desk was called with other words than these"),
            "A signal ends it as it ends other programs: SIGPIPE where nobody reads on.",
        ],
        "EXAMPLES": [
            "A leap second, and a text that is too short:",
            ["printf 'UTC=31-DEC-2016 23:59:60.000000\\n31-DEC-2016 23:59:6\\n' | desk --words"],
            "Each line of a file beside its answer, with a tab between:",
            ["desk <LINES | paste LINES -"],
        ],
    }


def helping(root):
    """The text of desk --help."""
    lines = [f"usage: {USAGE}", f"       {ALONE}"]
    for title, blocks in sections(root).items():
        lines += ["", title]
        for block in blocks:
            if isinstance(block, str):
                lines += textwrap.wrap(block, WIDTH, initial_indent="  ", subsequent_indent="  ")
            elif isinstance(block, tuple):
                lines += textwrap.wrap(block[1], WIDTH, initial_indent=f"    {block[0]:<11}", subsequent_indent=" " * 15)
            else:
                lines += [f"    {line}" for line in block]
    return "\n".join(lines) + "\n"


def roff(text):
    """A line that the formatter takes as it stands."""
    text = text.replace("\\", "\\e").replace("-", "\\-").replace("'", "\\(aq")
    return "\\&" + text if text.startswith(".") else text


def page(root):
    lines = [f'.\\" {SAID}', f'.TH DESK 1 "" "vrikshonem {version(root)}" "Vrikshonem, the dating desk"']
    lines += [".SH NAME", f"desk \\- {roff(TITLE)}", ".SH SYNOPSIS", f".B {roff(USAGE)}", ".br", f".B {roff(ALONE)}"]
    for title, blocks in sections(root).items():
        lines.append(f".SH {title}")
        for block in blocks:
            if isinstance(block, str):
                lines += [".PP", roff(block)]
            elif isinstance(block, tuple):
                lines += [".TP", f".B {roff(block[0])}", roff(block[1])]
            else:
                lines += [".PP", ".nf", ".RS 4", *map(roff, block), ".RE", ".fi"]
    return "\n".join(lines) + "\n"


def made(root):
    return {PAGE: page(root)}
