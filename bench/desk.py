#!/usr/bin/env python3
"""Measures desk against desk.c, the same work in plain C: the same lines through both, in turn, and the best time of each.
bench/run.py does so too, at its end.

    bench/desk.py [LINES [REPEATS]]     1,000,000 lines and 10 repeats unless said otherwise"""

import os
import subprocess
import sys
import time

sys.dont_write_bytecode = True
from programs import PLACE, ROOM, ROOT, ask, call, can_count, compile_c, instructions, loader, wanted

PROGRAMS = {"desk": os.path.join(ROOT, "target/proved/desk"), "C": os.path.join(ROOM, "desk")}
LINES, REPEATS = 1_000_000, 10
SEED = "1"
COUNTED = 1000  # lines whose instructions are counted


def build():
    os.makedirs(ROOM, exist_ok=True)
    ask("bash", "rt", "gcc", "rustc")
    call("tools/prove", "bench", "desk")
    call("rustc", "--edition", "2021", "-O", "-o", os.path.join(ROOM, "lines"), "tests/desk/main.rs")
    compile_c(PROGRAMS["C"], "bench/desk.c")


def made(lines):
    """The lines as a file."""
    path = os.path.join(ROOM, f"mix-{lines}.in")
    with open(path, "wb") as file:
        call(os.path.join(ROOM, "lines"), "mix", SEED, str(lines), stdout=file)
    return path


def output(program, path):
    with open(path, "rb") as file:
        return call(*loader(), program, stdin=file, stdout=subprocess.PIPE).stdout


def seconds(program, path):
    with open(path, "rb") as file:
        began = time.perf_counter()
        call(*loader(), program, stdin=file, stdout=subprocess.DEVNULL)
        return time.perf_counter() - began


def best(path, repeats):
    """Of each program the best time, all measured in turn."""
    found = {name: [] for name in PROGRAMS}
    for _ in range(repeats):
        for name, program in PROGRAMS.items():
            found[name].append(seconds(program, path))
    return {name: min(all_times) for name, all_times in found.items()}


def counted():
    """Instructions a line, the start taken off."""
    path, programs = made(COUNTED), {name: [*loader(), program] for name, program in PROGRAMS.items()}
    return {name: (instructions(words, path) - instructions(words)) / COUNTED for name, words in programs.items()}


def show(lines, repeats):
    build()
    path = made(lines)
    answers = {name: output(program, path) for name, program in PROGRAMS.items()}
    if answers["desk"] != answers["C"]:
        sys.exit("bench/desk.py: the outputs of desk and of C differ")
    refused = answers["C"].count(b"refused ")
    print(f"{lines} lines, {os.path.getsize(path)} bytes in, {len(answers['C'])} bytes out, {refused} refused; outputs equal")
    print(f"{PLACE}; best of {repeats}, in turn")
    starts, wholes = best(os.devnull, repeats), best(path, repeats)
    for name in PROGRAMS:
        print(f"{name:5}{wholes[name]:.3f} s, {starts[name]:.3f} s of it to start")
    work = {name: wholes[name] - starts[name] for name in PROGRAMS}
    print(f"desk / C: {wholes['desk'] / wholes['C']:.2f}; without the start {work['desk'] / work['C']:.2f}")
    if can_count():
        counts = counted()
        each = ", ".join(f"{name} {count:.0f}" for name, count in counts.items())
        print(f"instructions a line: {each}; desk / C: {counts['desk'] / counts['C']:.2f}")


if __name__ == "__main__":
    show(*wanted([LINES, REPEATS], __doc__))
