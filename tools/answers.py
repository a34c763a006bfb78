#!/usr/bin/env python3
"""The answers of before are kept: tests/answers.txt has, of each function, a digest of fixed calls, among them every refusal that
it gives, and a digest of their answers.

    tools/answers.py            says which functions answer otherwise than stored
    tools/answers.py --write    stores the digests. A request says in its note which lines it changes."""

import os
import subprocess
import sys

sys.dont_write_bytecode = True
ROOT = os.path.normpath(os.path.join(os.path.dirname(os.path.abspath(__file__)), ".."))
STORED = os.path.join(ROOT, "tests/answers.txt")
SERVE = "target/compare/serve"
SAID = """# Made by tools/answers.py --write; not by hand. Of each function a digest of 4,000 fixed calls, among them every refusal that it
# gives, and a digest of their answers, lent bytes included. A line that changes is told in the note of the request that changes it.
"""


def digests(serve=SERVE):
    """A line for each function of the library that the server calls."""
    subprocess.run([os.path.join(ROOT, "tests/compare/build")], check=True)
    words = ["target/compare/compare", "answers", "tools/x86-64", serve]
    return subprocess.run(words, cwd=ROOT, stdout=subprocess.PIPE, check=True, text=True).stdout


def lines(text):
    """Each function's line by its name."""
    return {line.split()[0]: line for line in text.splitlines() if line and not line.startswith("#")}


def changed(stored, now):
    """The functions whose lines are not the same in both."""
    old, new = lines(stored), lines(now)
    return [name for name in {**old, **new} if old.get(name) != new.get(name)]


def main(words):
    if words == ["--write"]:
        with open(STORED, "w", encoding="utf-8") as file:
            file.write(SAID + digests())
        return 0
    if words:
        sys.exit(__doc__)
    with open(STORED, encoding="utf-8") as file:
        names = changed(file.read(), digests())
    print("\n".join(f"{name} answers otherwise than stored" for name in names) or "every answer is as stored")
    return 1 if names else 0


if __name__ == "__main__":
    sys.exit(main(sys.argv[1:]))
