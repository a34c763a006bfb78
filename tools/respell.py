#!/usr/bin/env python3
"""Respells the repository's own names once, after port.py: definitions, lemmas and fields in snake case.

usage: tools/respell.py [--check]    at the top of the repository

A name that a file of specs/ or proofs/ declares loses its dashes and its humps: `placeOfDay` and `less-fits` become `place_of_day`
and `less_fits`. Types, modules, names of Rust and names of the library stay. The same is done in the clauses of src/, in the edits
of must-fail/ and between the backquotes of the pages. What falls together in one file is told, and then nothing is written; APART gives such a name another.
"""

import collections
import glob
import os
import re
import subprocess
import sys

ROOT = os.path.dirname(os.path.dirname(os.path.realpath(__file__)))
# A word of antt: whatever stands between spaces, brackets, commas, semicolons and dots.
WORD = re.compile(r"[^\s`(){}\[\],;.⟦⟧«»\"]+")
HEAD = re.compile(
    r"^(?P<indent>\s*)(?P<marks>(?:(?:pub|abbrev|unfoldable|record|data)\s+)*)(?P<names>[^\s:(){}=,.]+(?:\s+[^\s:(){}=,.]+)*)"
    r"(?P<arguments>(?:\s*(?:\([^()]*(?:\([^()]*\)[^()]*)*\)|\{[^{}]*\}))*)\s*:(?:\s|$)"
)
NO_NAMES = {"use", "module", "let", "λ", "where", "in", "elim", "open", "--", "unfolding", "mod"}
# Names that would fall together with others in their files; filled with each lemma that would have its definition's name.
APART = {}
# Fields that stand beside a definition of their name.
ALSO_FIELDS = {"refusal-marked", "first-only", "ten-more", "any-sixty", "list-last", "gps-as-tai", "words-kept"}


def snake(name):
    """The name in snake case; a type, and a name without letters, stays."""
    if name[:1].isupper() or not re.search(r"[A-Za-z]", name):
        return name
    text = re.sub(r"(?<=[A-Za-z0-9])-(?=[A-Za-z0-9])", "_", name)
    text = re.sub(r"(?<=[a-z0-9])([A-Z])", lambda m: "_" + m.group(1).lower(), text)
    return text


def files(pattern):
    return sorted(glob.glob(os.path.join(ROOT, "crates", "*", pattern), recursive=True))


def read(path):
    with open(path, encoding="utf-8") as file:
        return file.read()


def code_of(line):
    """The line without its comment."""
    at = re.search(r"(^|\s)--(\s|$)", line)
    return line if at is None else line[: at.start() + len(at.group(1))]


def declared(text):
    """The names that a file declares, fields among them."""
    found = set()
    for line in text.splitlines():
        head = HEAD.match(code_of(line))
        if head is None:
            continue
        names = head.group("names").split()
        if names[0] in NO_NAMES:
            continue
        found.update(names[-1:] if head.group("marks") else names)
    return found


def fields(text):
    """The fields of the records that a file declares."""
    found, inside = set(), None
    for line in text.splitlines():
        if not line.strip():
            continue
        indent = len(line) - len(line.lstrip())
        if inside is not None and indent <= inside:
            inside = None
        head = HEAD.match(code_of(line))
        if head is not None and inside is not None:
            found.update(head.group("names").split())
        if re.match(r"\s*(pub\s+)?record\s", line):
            inside = indent
    return found


def imports(text):
    """(module, name) of each name that a `use` of braces brings."""
    for module, names in re.findall(r"\buse\s+([^\s{};]+)\.\{([^}]*)\}", text):
        for name in names.split(","):
            words = name.split()
            if words:
                yield module, words[0], words[-1]


def of_ours(module, crates):
    parts = module.split(".")
    return parts[0] == "Rattle" and parts[1] in crates


def main(argv):
    crates = set(os.listdir(os.path.join(ROOT, "crates")))
    antt = files("specs/**/*.antt") + files("proofs/**/*.antt")
    sources = files("src/**/*.rt")
    texts = {path: read(path) for path in antt + sources}
    ours = set()
    for path in antt:
        ours |= {name for name in declared(texts[path]) if snake(name) != name}
    # A lemma that would have its definition's name ends in _lem.
    every = set().union(*(declared(texts[path]) for path in antt))
    named = set().union(*(fields(texts[path]) for path in antt))
    humped = {snake(name) for name in every if "-" not in name and snake(name) != name}
    spelled = humped | {name for name in every if "-" not in name}
    for name in every - named:
        if ("-" in name and snake(name) in spelled) or ("-" not in name and snake(name) == name and name in humped):
            APART[name] = snake(name) + "_lem"
    for name in named & every:
        if "-" in name and snake(name) in humped and name in ALSO_FIELDS:
            APART[name] = snake(name) + "_lem"
    ours |= set(APART)
    turned, told = {}, []
    for path, text in texts.items():
        turned[path] = turn(path, text, ours, crates, told)
    for path in files("must-fail/*.edit"):
        texts[path] = read(path)
        turned[path] = turn_edit(texts[path], ours)
    for path in pages():
        texts[path] = read(path)
        turned[path] = turn_page(texts[path], ours)
    for line in told:
        print(line)
    changed = [path for path in turned if turned[path] != texts[path]]
    print(f"respell: {len(ours)} names, {len(changed)} files, {len(told)} that fall together")
    if told and "--force" not in argv:
        return 1
    if "--check" not in argv:
        for path in changed:
            with open(path, "w", encoding="utf-8") as file:
                file.write(turned[path])
        for crate in sorted(crates):
            subprocess.run(["rt", "fmt"], cwd=os.path.join(ROOT, "crates", crate), capture_output=True, check=False)
    return 0


def name_of(word):
    return APART.get(word, snake(word))


def turn(path, text, ours, crates, told):
    foreign, own_modules = set(), set()
    for module, name, as_name in imports(text):
        if not of_ours(module, crates):
            foreign.add(as_name)
    for module, name in re.findall(r"\buse\s+([^\s{};]+)\s+as\s+([^\s;]+)", text):
        if of_ours(module, crates) and not module.endswith(".Tie"):
            own_modules.add(name)
    is_source = path.endswith(".rt")
    made = collections.defaultdict(set)
    out = []
    for line in text.splitlines(keepends=True):
        body = code_of(line) if not is_source else line
        if is_source and "//" in line:
            body = line[: line.index("//")]
        rest = line[len(body) :]
        out.append(turn_line(body, ours, foreign, own_modules, made, is_source) + turn_comment(rest, ours))
    for new, olds in made.items():
        if len(olds) > 1:
            told.append(f"{os.path.relpath(path, ROOT)}: {', '.join(sorted(olds))} would be {new}")
    return "".join(out)


def turn_comment(text, ours):
    return re.sub(r"`([^`\s]+)`", lambda m: "`" + turn_quoted(m.group(1), ours) + "`", text)


def turn_quoted(text, ours):
    return ".".join(name_of(part) if part in ours else part for part in text.split("."))


def turn_line(line, ours, foreign, own_modules, made, is_source):
    out, at = [], 0
    in_clause = not is_source or bool(re.match(r"\s*(ghost|requires|ensures|let\b)", line)) or "ghost use" in line or "{" in line or "≡" in line
    for word in WORD.finditer(line):
        text = word.group()
        dotted = word.start() > 0 and line[word.start() - 1] == "."
        out.append(line[at : word.start()])
        at = word.end()
        new = text
        if text in ours:
            base = line[: word.start() - 1] if dotted else ""
            before = re.search(r"[^\s(){}\[\],;.]+$", base)
            last = before.group() if before else ""
            if dotted:
                # A field of ours, or a name of a module of ours; what Rattle makes is respelled by the converter.
                new = name_of(text) if last[:1].isupper() or text in ALSO_FIELDS else snake(text)
            elif is_source and "-" in text and not in_clause:
                new = text
            elif text not in foreign:
                new = name_of(text)
        path = "::" in line[: word.start()][-2:] or (dotted and not line[: word.start()].rstrip(".").endswith("}"))
        if not path and not (is_source and not re.match(r"\s*:(?!:)", line[at:]) and text == new):
            made[new].add(text)
        out.append(new)
    out.append(line[at:])
    return "".join(out)


def pages():
    found = [os.path.join(ROOT, name) for name in ("README.md", "CONTRIBUTING.md", "CHANGELOG.md")]
    return found + sorted(glob.glob(os.path.join(ROOT, "docs", "**", "*.md"), recursive=True))


def turn_page(text, ours):
    """A page with the names between its backquotes respelled."""
    return re.sub(r"`[^`\n]+`", lambda m: WORD.sub(lambda w: name_of(w.group()) if w.group() in ours else w.group(), m.group()), text)


def turn_edit(text, ours):
    out = []
    for line in text.splitlines(keepends=True):
        if line.startswith(("old:", "new:")):
            line = WORD.sub(lambda m: name_of(m.group()) if m.group() in ours and "-" not in m.group() else m.group(), line)
        out.append(line)
    return "".join(out)


if __name__ == "__main__":
    sys.exit(main(sys.argv[1:]))
