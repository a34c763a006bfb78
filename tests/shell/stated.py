"""What is stated more than once is the same each time: least versions, and what README.md shows a user."""

import ast
import os
import re
import subprocess

from room import COPY, ROOT, expect, run, tally
from source import read


def python_files():
    """The paths of all Python files; a step has no ending."""
    words = ["git", "-C", ROOT, "ls-files", "-co", "--exclude-standard", "-z"]
    listed = subprocess.run(words, stdout=subprocess.PIPE, check=True)
    for path in sorted(set(listed.stdout.decode().split("\0"))):
        full = os.path.join(ROOT, path)
        if os.path.isfile(full) and (path.endswith(".py") or open(full, "rb").readline().startswith(b"#!/usr/bin/env python3")):
            yield path


def least():
    text = re.sub(r"#.*", "", read(os.path.join(ROOT, "tools/least.txt")))
    versions = dict(line.split() for line in text.splitlines() if line)
    for path, like in [
        ("rust/Cargo.toml", r'rust-version = "(.*)"'),
        ("README.md", r"rustc (\d[\d.]*\d)"),
        ("CONTRIBUTING.md", r"rustc (\d[\d.]*\d)"),
    ]:
        found = set(re.findall(like, read(os.path.join(ROOT, path))))
        tally.expect(f"{path} has the least version of Rust", found == {versions["rustc"]}, str(found))
    for path, like in [
        ("python/pyproject.toml", r'requires-python = ">=(.*)"'),
        ("README.md", r"Python (\d[\d.]*\d)"),
        ("tools/run_desk.py", r"at least (\d[\d.]*\d) is needed"),
    ]:
        found = set(re.findall(like, read(os.path.join(ROOT, path))))
        tally.expect(f"{path} has the least version of Python", found == {versions["python3"]}, str(found))
    for tool in ("gcc", "bash"):
        found = set(re.findall(rf"{tool} (\d[\d.]*)\b", read(os.path.join(ROOT, "README.md"))))
        tally.expect(f"README.md has the least version of {tool}", found == {versions[tool]}, str(found))
    oldest = tuple(map(int, versions["python3"].split(".")))
    for path in python_files():
        try:
            ast.parse(read(os.path.join(ROOT, path)), feature_version=oldest)
            wrong = ""
        except SyntaxError as error:
            wrong = str(error)
        tally.expect(f"{path} is of Python {versions['python3']}", not wrong, wrong)


def shown():
    """README.md's first commands, as they are typed."""
    blocks = re.findall(r"(?:^    .*\n)+", read(os.path.join(ROOT, "README.md")), re.M)
    typed = {command: "\n".join(line[4:] for line in blocks[at + 1].splitlines()) + "\n"
             for at, block in enumerate(blocks) for command in [block.strip()] if "./desk" in command and "\n" not in command}
    tally.expect("README.md shows desk, its words, and lines beside their answers", len(typed) == 3, str(list(typed)))
    for command, out in typed.items():
        done = run("sh", "-c", command, cwd=COPY)
        expect(f"README.md: {command}", done, (done.status, done.out.decode(), done.err) == (0, out, ""))


def check():
    least()
    shown()
