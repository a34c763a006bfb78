#!/usr/bin/env python3
"""Measures every function of the library beside its twin, the same work in plain C, and, where they are installed, ERFA and
Howard Hinnant's date library; then desk, the program of text lines. It builds what it needs. A function without a twin is
measured alone, and one without a row is not; both are told by name.

    bench/run.py [REPEATS]     15 unless said otherwise, at each of four places of the code; the best time counts"""

import os
import re
import shutil
import subprocess
import sys

sys.dont_write_bytecode = True
import desk
from programs import EMULATED, LEVEL, PLACE, ROOM, ROOT, ask, call, can_count, compile_c, instructions, loader, wanted

sys.path.append(os.path.join(ROOT, "tools"))
from interface import rattle
from refusals import refusals

ARCHIVE = os.path.join(ROOT, "target/dist/lib/libvrikshonem.a")
COUNTED = 256  # calls whose instructions are counted
REPEATS = 15
GAPS = [0, 1072, 2144, 3216]  # each moves all code by a quarter of a page, and a little
SAME = ["desk", "plain"]
LESS = {
    "listed": "plain C, does less: the list was accepted before the call, 5 is never given",
    "erfa": "ERFA, does less: own list, doubles, no refusal",
    "date": "Howard Hinnant's date, does less: no list, no refusal, no second 60",
}


def other(name, compiler, source, links):
    """The shared library of another library's contender, or why there is none."""
    if EMULATED:
        return None, "not installed for x86-64"
    if shutil.which(compiler) is None:
        return None, f"not compiled: {compiler} is not in PATH"
    out = os.path.join(ROOM, name + ".so")
    words = [compiler, LEVEL, "-shared", "-fPIC", "-I", "include", "-o", out, source, *links]
    done = subprocess.run(words, cwd=ROOT, stderr=subprocess.PIPE, text=True)
    if done.returncode == 0:
        return out, None
    missing = "No such file" in done.stderr or "cannot find" in done.stderr
    return None, "not installed" if missing else "not compiled: " + done.stderr.strip().splitlines()[0]


def linked(gap, flags, objects, shared):
    """The words that run the program with this gap."""
    name, flags = f"calls-{gap}", f"-DGAP={gap} {flags}"
    program = os.path.join(ROOM, name)
    if not shared:
        compile_c(program, "bench/calls.c", *objects, ARCHIVE, flags=flags)
        return [*loader(), program]
    # These bring the machine's own C library with them, so that one is linked and run for all.
    compile_c("-c", program, "bench/calls.c", flags=flags)
    linker = "g++" if shutil.which("g++") else "gcc"
    call(linker, "-o", program, program + ".o", *objects, ARCHIVE, *shared, "-Wl,-rpath," + ROOM)
    return [program]


def build():
    """For each gap the words that run the program, and the contenders that are not there."""
    ask("bash", "rt", "gcc", "rustc")
    os.makedirs(ROOM, exist_ok=True)
    call("tools/build")
    plain = os.path.join(ROOM, "plain")
    compile_c("-c", plain, "bench/plain.c")
    absent, flags, shared = {}, [], []
    for name, macro, compiler, source, links in (
        ("erfa", "HAS_ERFA", "gcc", "bench/erfa.c", ["-lerfa", "-lm"]),
        ("date", "HAS_DATE", "g++", "bench/date.cpp", []),
    ):
        path, why = other(name, compiler, source, links)
        if path:
            flags.append("-D" + macro)
            shared.append(path)
        else:
            absent[name] = why
    return [linked(gap, " ".join(flags), [plain + ".o"], shared) for gap in GAPS], absent


def measure(words, repeats, rows, listed):
    """Puts into the rows, in their order, steps and refusals, and nanoseconds where they are the best so far."""
    done = subprocess.run([*words, "time", str(repeats)], cwd=ROOT, stdout=subprocess.PIPE, text=True)
    if done.returncode != 0:
        last = (done.stdout.strip().splitlines() or ["nothing"])[-1]
        sys.exit(f"bench/run.py: the program ended with status {done.returncode}, and said last: {last}")
    for line in done.stdout.splitlines():
        kind, row, *rest = line.split("|")
        if kind == "compared":
            name, steps, inputs, refused, numbers = rest
            seen = [one.number for one in listed if int(numbers) >> one.number & 1]
            told = {"name": name, "inputs": int(inputs), "refused": int(refused), "numbers": seen, "ns": {}}
            rows.setdefault((row, steps), told)
        else:
            steps, who, nanos = rest
            best = rows[row, steps]["ns"]
            best[who] = min(float(nanos), best.get(who, float(nanos)))


def count_instructions(words, rows):
    """Instructions a call, with the loop around it and without all else."""
    for (row, steps), told in rows.items():
        counted = [*words, "count", row, steps]
        idle = "plain" if "plain" in told["ns"] else "desk"
        start = instructions([*counted, idle, str(COUNTED), "0"])
        wholes = {who: instructions([*counted, who, str(COUNTED), str(COUNTED)]) for who in told["ns"]}
        told["instructions"] = {who: (whole - start) / COUNTED for who, whole in wholes.items()}


def told_ratio(figures, who="desk"):
    return f"{figures[who] / figures['plain']:.2f}" if {who, "plain"} <= figures.keys() else ""


def cells(told, digits=(1, 0)):
    """Nanoseconds and instructions of both, and their ratios."""
    for figures, places in zip((told["ns"], told.get("instructions", {})), digits):
        yield from (f"{figures[who]:.{places}f}" if who in figures else "" for who in SAME)
        yield told_ratio(figures)


def told_refusals(told):
    """How many inputs of the row are refused, and the numbers that were given."""
    return f"{told['refused']}: " + " ".join(map(str, told["numbers"])) if told["numbers"] else str(told["refused"])


def table(head, lines):
    print("| " + " | ".join(head) + " |")
    print("|---" * len(head) + "|")
    for line in lines:
        print("| " + " | ".join(line) + " |")
    print()


MEASURES = ["ns", "plain C ns", "ratio", "instructions", "plain C instructions", "ratio"]


def show_all(rows):
    """Every function, and its commonest uses apart."""
    table(
        ["call", *MEASURES, "refused, with"],
        ([told["name"], *cells(told), told_refusals(told)] for (_, steps), told in rows.items() if steps == "0"),
    )


def divided(told, size):
    """The figures of a row, each by so many."""
    return {kind: {who: one / size for who, one in told.get(kind, {}).items()} for kind in ("ns", "instructions")}


def show_each(rows):
    """An entry or a packet, where the row's name says how many a call has."""
    sizes = ((told, re.fullmatch(r"\w+, (\d+).*", told["name"])) for told in rows.values())
    lines = ([told["name"], *cells(divided(told, int(size[1])), (2, 1))] for told, size in sizes if size)
    table(["call", *MEASURES], lines)


def show_missing(rows, functions):
    """The functions that are compared with nothing, and those that are not measured."""
    contenders = {told["name"]: told["ns"] for told in rows.values()}
    alone = [name for name in functions if name in contenders and "plain" not in contenders[name]]
    missing = [name for name in functions if name not in contenders]
    if alone:
        print(f"Without a twin in plain C, and so compared with nothing: {', '.join(alone)}.\n")
    if missing:
        print(f"Without a row, and so not measured: {', '.join(missing)}.\n")


def show_less(rows, absent):
    """The contenders that do less than the library."""
    lines = []
    for told in (told for (_, steps), told in rows.items() if steps == "0"):
        nanos, counts = told["ns"], told.get("instructions", {})
        for who in (who for who in LESS if who in nanos):
            count = f"{counts[who]:.0f}" if counts else ""
            figures = [f"{nanos[who]:.1f}", told_ratio(nanos, who), count, told_ratio(counts, who)]
            lines.append([told["name"], LESS[who], *figures])
    lines += [["", LESS[who], why, "", "", ""] for who, why in absent.items()]
    table(["call", "contender", "ns", "of plain C's", "instructions", "of plain C's"], lines)


def show_growth(rows):
    """Acceptance apart, and changes with it and less it."""
    growing = [(steps, told) for (_, steps), told in rows.items() if steps != "0"]
    accepted = {steps: told["ns"] for steps, told in growing if told["name"] == "list_accepted"}
    lines = []
    for steps, told in growing:
        nanos, left = told["ns"], ["", "", ""]
        if "listed" in nanos:
            both = nanos.keys() & accepted[steps].keys()
            left = [f"{nanos[who] - accepted[steps][who]:.1f}" if who in both else "" for who in SAME]
            left.append(f"{nanos['listed']:.1f}")
        lines.append([told["name"], steps, *cells(told), *left])
    table(["call", "steps", *MEASURES, "ns less acceptance", "plain C ns less acceptance", "plain C ns, accepted before"], lines)


def main():
    (repeats,) = wanted([REPEATS], __doc__)
    functions, listed = rattle(ROOT).functions, refusals(ROOT)
    programs, absent = build()
    rows = {}
    for words in programs:
        measure(words, repeats, rows, listed)
    if can_count():
        count_instructions(programs[0], rows)
    inputs = max(told["inputs"] for told in rows.values())
    print(f"Each function, {PLACE}.")
    print(f"{inputs} inputs a row; all answers of all contenders compared, and equal; best of {len(GAPS)} x {repeats}, in turn.")
    print("A call's loop is in every figure; the row 'nothing' is the loop with a function that does nothing.\n")
    show_all(rows)
    show_missing(rows, functions)
    print("An entry or a packet, where the name says how many a call has:\n")
    show_each(rows)
    print("Contenders that do less, over the same inputs; they are held to the answers, not to the refusals:\n")
    show_less(rows, absent)
    print("Growth with the number of steps, every list accepted and every time answered:\n")
    show_growth(rows)
    print("The program of text lines:\n", flush=True)
    desk.show(desk.LINES, desk.REPEATS)


if __name__ == "__main__":
    main()
