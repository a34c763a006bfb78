#!/usr/bin/env python3
"""Puts a fault into a file, where OLD stands there once: tools/seeded.py FILE OLD NEW"""

import sys


def seed(path, old, new):
    with open(path, encoding="utf-8") as file:
        text = file.read()
    if text.count(old) != 1:
        raise ValueError(f"{path}: '{old}' stands there {text.count(old)} times")
    with open(path, "w", encoding="utf-8") as file:
        file.write(text.replace(old, new))


if __name__ == "__main__":
    try:
        seed(*sys.argv[1:])
    except (OSError, TypeError, ValueError) as wrong:
        sys.exit(str(wrong))
