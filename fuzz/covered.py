#!/usr/bin/env python3
"""How much of the proved code a run met, by the emulator's own list of code that it met: fuzz/covered.py MET PROGRAM ARCHIVE
It says nothing where no emulator ran."""

import re
import subprocess
import sys


def functions(file):
    """The functions of a program or an archive, with their places and sizes."""
    said = subprocess.run(["readelf", "-sW", file], stdout=subprocess.PIPE, check=True, text=True).stdout
    found = re.findall(r"^\s*\d+: ([0-9a-f]+)\s+(\d+) FUNC\s+\S+\s+\S+\s+\d+ (.+)$", said, re.M)
    return {name.strip(): (int(at, 16), int(size)) for at, size, name in found}


def pieces(file):
    """The pieces of code, each with its place."""
    at, code = None, bytearray()
    with open(file, encoding="ascii") as lines:
        for line in lines:
            if line.startswith("0x"):
                at, code = int(line.split(":")[0], 16), bytearray()
            elif line.startswith("OBJD-T: "):
                code += bytes.fromhex(line[8:].strip())
            elif not line.strip() and at is not None:
                yield at, bytes(code)
                at = None


def main(met, program, archive):
    places, proved = functions(program), functions(archive)
    start = places["main"][0]
    listed = list(pieces(met))
    with open(program, "rb") as file:
        image = file.read()
    said = subprocess.run(["readelf", "-SW", program], stdout=subprocess.PIPE, check=True, text=True).stdout
    text = re.search(r" \.text\s+PROGBITS\s+([0-9a-f]+) ([0-9a-f]+)", said)
    shift = int(text[1], 16) - int(text[2], 16)
    # The program is loaded anywhere: where code of main's beginning was met, at main's place within a page.
    bases = {at - start for at, code in listed if (at - start) % 4096 == 0 and image[start - shift :].startswith(code)}
    if len(bases) != 1:
        sys.exit(f"covered: main was met at {len(bases)} places")
    base = bases.pop()
    seen = {place - base for at, code in listed for place in range(at, at + len(code))}
    whole = there = 0
    for name, (at, size) in sorted((name, places[name]) for name in proved if name in places):
        have = sum(place in seen for place in range(at, at + size))
        whole, there = whole + size, there + have
        if have < size:
            gaps = [place for place in range(at, at + size) if place not in seen and (place == at or place - 1 in seen)]
            print(f"{name}: {have} of {size} bytes; not met from {', '.join(hex(gap) for gap in gaps)}")
    print(f"met: {there} of {whole} bytes of the proved code")


main(*sys.argv[1:])
