"""What is written more than once is the same each time: refusals and images of each function, version, leap list."""

import importlib
import inspect
import os
import pkgutil
import re

import vrikshonem
from interface import rattle
from refusals import by_function, refusals
from room import HEADER, ROOT, tally
from source import closing, read, rt_code


def listed(text):
    """The numbers of a text 'Refused  3 why; 7; 12 why.'"""
    items = re.split(r"\.(?:\s|$)", re.split(r"\bRefused:?\s", text)[-1])[0].split(";")
    return [int(re.match(r"\s*(\d*)", item)[1] or 0) for item in items]


def in_header():
    """Each function, and the comment before it."""
    text = re.sub(r"\n \*\s+", " ", read(HEADER))
    return {name: comment for comment, name in re.findall(r"/\*((?:(?!\*/).)*)\*/\n\w+ vrk_(\w+)\(", text, re.S)}


def in_rust():
    """What is said of the public function that calls each."""
    found = {}
    for file in sorted(os.listdir("rust/src")):
        text = read(os.path.join("rust/src", file))
        code = rt_code(text) if file not in ("sys.rs", "refusals.rs") else ""
        for comment in re.finditer(r"((?: *///.*\n)+)(?: *#.*\n)* *pub fn \w+", text if code else ""):
            body = code.index("{", comment.end())
            for name in re.findall(r"\bsys::(\w+)\(", code[body : closing(code, body)]):
                found[name] = comment[1].replace("///", "")
    return found


def in_python():
    """The same, of the functions and methods whose words name refusals."""
    found = {}
    for name in (one.name for one in pkgutil.iter_modules(vrikshonem.__path__)):
        module = importlib.import_module(f"vrikshonem.{name}")
        owners = [module, *(one for one in vars(module).values() if inspect.isclass(one) and one.__module__ == module.__name__)]
        for one in (inspect.unwrap(getattr(one, "__func__", one)) for owner in owners for one in vars(owner).values()):
            if inspect.isfunction(one) and "Refused:" in (one.__doc__ or ""):
                for called in re.findall(r"\bvrk_(\w+)", inspect.getsource(one)):
                    found[called] = one.__doc__
    return found


def told():
    """What is said of each function lists its refusals in their order, and a writer's image, by the one table."""
    table = by_function(ROOT, rattle(ROOT), refusals(ROOT))
    header, rust, python = in_header(), in_rust(), in_python()
    for name, refuses in table.items():
        said = header.get(name, "")
        # It refuses nothing.
        if not refuses.numbers:
            tally.expect(f"the header tells no refusal of {name}", said and "Refused" not in said, said)
            continue
        tally.expect(f"the header lists the refusals of {name}", listed(said) == [*refuses.numbers], said)
        if refuses.image:
            most = str(refuses.image.length) if refuses.image.fixed else f"at most {refuses.image.length}"
            length = "that many" if refuses.image.told else most
            tally.expect(f"the header has the image of {name}", re.search(rf"\bWritten\s+{length} bytes", said), said)
        for language, words in ("Rust", rust.get(name, "")), ("Python", python.get(name, "")):
            # 3 may be of a code that only C can hand in, or of a number that only Python can; in Python a decimal day is read
            # and not written.
            apart = (3, 4) if (language, name) == ("Python", "decimal_write") else (3,)
            same = [one for one in listed(words) if one not in apart] == [one for one in refuses.numbers if one not in apart]
            tally.expect(f"the words for {language} list the refusals of {name}", same, words)


def version():
    stored = read("VERSION").strip()
    for path, pattern in [
        ("rust/Cargo.toml", r'^version = "(.*)"'),
        ("python/pyproject.toml", r'^version = "(.*)"'),
        ("python/vrikshonem/__init__.py", r'^__version__ = "(.*)"'),
        ("target/dist/lib/pkgconfig/vrikshonem.pc", r"^Version: (.*)"),
    ]:
        tally.expect(f"{path} has the version", re.findall(pattern, read(path), re.M) == [stored])
    short = stored.rsplit(".", 1)[0]
    tally.expect("the header has the version", f", version {short}." in read(HEADER))
    named = set(re.findall(r"(?:libvrikshonem\.so\.|of version )(\d+(?:\.\d+)*)", read("docs/USE.md")))
    tally.expect("docs/USE.md has the version", named == {short}, str(named))
    latest = re.search(r"^## (\S+)", read("CHANGELOG.md"), re.M)
    tally.expect("CHANGELOG.md begins with the version", latest and latest[1] == stored)


# Where each copy of the published list has its last day.
LAST = {
    "rust/src/leap.rs": r"offsets: &OFFSETS, last: (\d+)",
    "python/vrikshonem/_times.py": r"range\(10, 38\),\s+(\d+),",
    "examples/date_packets.c": r"#define LIST .*, (\d+)\n",
}


def leap_list():
    meant = read("crates/leap/specs/Meaning.antt")
    meaning = re.search(r"\npublished_days =(.*?)\[\]", meant, re.S)[1]
    last = re.search(r"\npublished_last = pos (\d+)\n", meant)[1]
    signs = re.findall(r"(negsuc|pos) (\d+)", meaning)
    days = [-int(number) - 1 if sign == "negsuc" else int(number) for sign, number in signs]
    tally.expect("the published list has 28 days", len(days) == 28, str(days))
    for path, at in LAST.items():
        ends = re.findall(at, read(path))
        tally.expect(f"the last day of {path} is the published one", ends == [last], str(ends))
        table = re.search(r"[\[({]\s*(-10227,\s+-10045,.*?6210)\b", read(path), re.S)
        found = [int(number) for number in re.findall(r"-?\d+", table[1])] if table else []
        tally.expect(f"the list of {path} is the published one", found == days, str(found))


def check():
    told()
    version()
    leap_list()
