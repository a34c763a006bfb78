"""Reads .rt and .antt files as far as the checks of this folder need it.

What cannot be read is refused (Unreadable): what is passed over is never judged.
"""

import os
import re

PAIRS = {"(": ")", "[": "]", "{": "}"}
# A name of antt: any run of characters but these, or anything in « ».
NAME = r"(?:«[^»]+»|[^\s(){}.;,@\"«»]+)"


class Unreadable(Exception):
    pass


def read(path):
    with open(path, encoding="utf-8") as file:
        return file.read()


def _blanked(text, noise, opens, closes):
    """The text with spaces for comments and literals, each line where it was."""
    marks = re.compile(re.escape(opens) + "|" + re.escape(closes))
    out, at = [], 0
    while found := noise.search(text, at):
        end = found.end()
        depth = 1 if found.group() == opens else 0
        while depth:
            mark = marks.search(text, end)
            if not mark:
                raise Unreadable("a comment does not end")
            depth += 1 if mark.group() == opens else -1
            end = mark.end()
        out += [text[at : found.start()], re.sub(r"[^\n]", " ", text[found.start() : end])]
        at = end
    return "".join(out) + text[at:]


_TEXT = r"\"(?:\\.|[^\"\\])*\""
_RT_NOISE = re.compile(r"//[^\n]*|/\*|" + _TEXT + r"|'(?:\\[^']+|[^'\\\n])'", re.S)
_ANTT_NOISE = re.compile(r"(?<![^\s(){}.;,@\"«»])--[^\n]*|\{-|" + _TEXT, re.S)


def rt_code(text):
    return _blanked(text, _RT_NOISE, "/*", "*/")


def antt_code(text):
    return _blanked(text, _ANTT_NOISE, "{-", "-}")


# ---- brackets


def closing(text, at):
    """The place of the bracket that closes the one at `at`."""
    due = []
    for place in range(at, len(text)):
        if text[place] in PAIRS:
            due.append(PAIRS[text[place]])
        elif text[place] in ")]}":
            if due.pop() != text[place]:
                break
            if not due:
                return place
    line = text.count("\n", 0, at) + 1
    raise Unreadable(f"a bracket is not closed, {line} lines down")


def seek(text, at, stop):
    """The first place from `at` on, outside brackets, where the pattern matches."""
    while at < len(text):
        if stop.match(text, at):
            return at
        at = closing(text, at) + 1 if text[at] in PAIRS else at + 1
    raise Unreadable(f"the text ends where '{stop.pattern}' is due")


def parts(text):
    """What stands between the commas that are in no bracket."""
    found, at, comma = [], 0, re.compile(",")
    text += ","
    while at < len(text):
        end = seek(text, at, comma)
        found.append(text[at:end].strip())
        at = end + 1
    return [part for part in found if part]


# ---- the crates, and what a file defines


def crates(root):
    """The names in crates.txt."""
    return list(_listed(root))


def linked(root):
    """Those that C links, and no other crate: NAME staticlib: DEP .."""
    return [name for name, words in _listed(root).items() if "staticlib" in words]


def _listed(root):
    """Each name in crates.txt, and the words behind it."""
    path = os.path.join(root, "crates.txt")
    if not os.path.isfile(path):
        raise Unreadable("there is no crates.txt")
    heads = [line.split("#")[0].split(":")[0].split() for line in read(path).splitlines() if line.split("#")[0].strip()]
    return {" ".join(head[:1]): head[1:] for head in heads}


_ANTT_DEF = re.compile(
    r"(?:(?:unfoldable|abbrev)\s+)*pub\s+"
    rf"(?:(?:record|data)\s+({NAME})|({NAME})(?:\s+\{{[^}}]*\}})?\s+:(?=\s|$))"
)
_RT_DEF = re.compile(r"\bpub\s+(?:(?:const\s+)?(?:extern\s+)?fn|struct|enum|const)\s+(\w+)")


def _antt_definitions(text):
    """Names in a section count; fields and constructors do not."""
    names, within = set(), None
    for line in antt_code(text).splitlines():
        code = line.lstrip()
        indent = len(line) - len(code)
        if not code or within is not None and indent > within:
            continue
        within = indent if re.match(r"(?:pub\s+)?(?:record|data)\b", code) else None
        if found := _ANTT_DEF.match(code):
            names.add((found[1] or found[2]).strip("«»"))
    return names


def _rt_definitions(text):
    """Names in an impl count, also as TYPE::NAME."""
    code = rt_code(text)
    names = set(_RT_DEF.findall(code))
    for found in re.finditer(r"\bimpl\b[^{;]*?(\w+)\s*(?:<[^{};<>]*>\s*)?\{", code):
        body = code[found.end() : closing(code, found.end() - 1)]
        names |= {f"{found[1]}::{name}" for name in _RT_DEF.findall(body)}
    return names


def definitions(root, path):
    """The public names that a file of the repository defines; none where there is no such file."""
    full = os.path.join(root, path)
    if not os.path.isfile(full):
        return set()
    if path.endswith(".antt"):
        return _antt_definitions(read(full))
    return _rt_definitions(read(full)) if path.endswith(".rt") else set()
