"""The packages' own tests, the examples, and the blocks of docs/USE.md as a reader would type them."""

import os
import platform
import re
import shutil
import signal
import subprocess
import sys

from refusals import refusals
from room import PYTHON, ROOM, ROOT, WARNINGS, good, run, skipped, tally, written
from source import read

PACKETS, LINES = "examples/packets.bin", "examples/packets.txt"
CARGO = shutil.which("cargo")
CRATE = ["--offline", "--locked", "--manifest-path", "rust/Cargo.toml"]
FIRST = next(one for one in refusals(ROOT) if one.number == 1)
# It goes on after Ctrl-C, as Python's own prompt does.
INTERRUPTED = """import time
import vrikshonem as vrk

first = vrk.cuc_read(bytes(6))
try:
    print("ready", flush=True)
    time.sleep(60)
except KeyboardInterrupt:
    print(vrk.cuc_read(bytes(6)) == first)
"""
SHOWN = f"UTC=31-DEC-2016 23:59:60.000015\nnumber 1, in words: refused 1: {FIRST.words}\n"


def packages():
    tally.expect("cargo is in PATH", CARGO, "the Rust crate and its example are not tested")
    rust = ["cargo", "test", *CRATE], r"^test (.+) \.\.\. (\w+)$"
    python = [sys.executable, "-m", "unittest", "discover", "-v", "-s", "python/tests"], r"^(\w+ \([\w.]+\)).* \.\.\. (\w+)$"
    for language, (words, line) in [("Rust", rust)] * bool(CARGO) + [("Python", python)]:
        status, said = run(*words, **PYTHON)
        tested = re.findall(line, said, re.M)
        for name, outcome in tested:
            tally.expect(f"{language}: {name}", outcome == "ok")
        tally.expect(f"{language}'s tests", status == 0 and tested, said[-3000:])
    names = re.findall(r"^    (\w+)\(", run(sys.executable, "-m", "pydoc", "vrikshonem", **PYTHON)[1], re.M)
    tally.expect("pydoc shows the functions", {"cuc_read", "text_write", "change"} <= set(names), str(names))


def packets():
    """Cases: a name, the words of a call, its status, what it prints and what it tells on standard error. The lines are those
    of the independent program."""
    made = written("packets.bin", "")
    good("packets.py", sys.executable, "examples/packets.py", made)
    with open(made, "rb") as file, open(PACKETS, "rb") as stored:
        data = stored.read()
        tally.expect("packets.bin is what packets.py makes", file.read() == data)
    independent = f"{ROOM}/dated"
    words = ["--edition", "2021", "-D", "warnings", "-o", independent, "tests/bindings/dated.rs"]
    good("the independent program compiles", "rustc", *words)
    expected = read(LINES)
    tally.expect("the independent program prints packets.txt", run(independent, PACKETS) == (0, expected))
    other = written("other.bin", data[:4] + bytes([data[4] ^ 1]) + data[5:])
    another = run(independent, other)[1]
    tally.expect("another packet has another date", another and another != expected)
    all_but_one = "".join(expected.splitlines(True)[:-1])
    return [
        ("prints packets.txt", [PACKETS], 0, expected, ""),
        ("dates another packet", [other], 0, another, ""),
        ("dates a file without packets", [written("none.bin", "")], 0, "", ""),
        ("says that a packet is cut off", [written("cut.bin", data[:-1])], 1, all_but_one, "the last packet is cut off"),
        ("says that a file is not there", ["examples/none.bin"], 2, "", "No such file or directory"),
        ("says that a folder is no file", ["examples"], 2, "", "Is a directory"),
        ("says how it is used", [], 2, "", "usage: date_packets"),
        ("takes one file", [PACKETS, PACKETS], 2, "", "usage: date_packets"),
    ]


def dates(what, cases, *program, **more):
    for case, words, status, lines, told in cases:
        done = subprocess.run([*program, *words], capture_output=True, text=True, stdin=subprocess.DEVNULL, **more)
        right = (done.returncode, done.stdout) == (status, lines) and told in done.stderr
        tally.expect(f"{what} {case}", right, done.stdout + done.stderr)


def examples():
    cases = packets()
    # The kit's compiler has no C headers of its own.
    flags = {"env": {**os.environ, "X86_CPPFLAGS": "-I tests/bindings/include -std=c99"}}
    archive = ["target/dist/lib/libvrikshonem.a"]
    shared = ["target/dist/lib/libvrikshonem.so", "-rpath", os.path.join(ROOT, "target/dist/lib")]
    for what, libraries in [("archive", archive), ("shared library", shared)]:
        words = [f"{ROOM}/x86-64", "examples/date_packets.c", *libraries]
        if good(f"the kit compiles the example with the {what}", "tools/x86-64-cc", *words, **flags):
            dates(f"C with the x86-64 {what}", cases, "tools/x86-64", f"{ROOM}/x86-64")
    words = ["-std=c99", *WARNINGS, "-I", "target/host/include", "-o", f"{ROOM}/host", "examples/date_packets.c"]
    if good("gcc compiles the example", "gcc", *words, "target/host/lib/libvrikshonem.a", "-pthread"):
        dates("C on this machine", cases, f"{ROOM}/host")
    if CARGO and good("cargo builds the example", "cargo", "build", *CRATE, "--example", "date_packets"):
        dates("Rust on this machine", cases, f"{ROOM}/rust/debug/examples/date_packets")
    dates("Python on this machine", cases, sys.executable, "examples/date_packets.py", **PYTHON)
    if platform.machine() != "x86_64":
        why = f"this machine is {platform.machine()}; they ran through target/emulated"
        skipped("Rust and Python with the x86-64 library itself", why)


def interrupted():
    """Ctrl-C is sent to all that the terminal runs; what the library started must outlive it, and end with the program."""
    words = [sys.executable, written("interrupted.py", INTERRUPTED)]
    # Whoever runs this in the background may have the signal ignored.
    heed = {"start_new_session": True, "preexec_fn": lambda: signal.signal(signal.SIGINT, signal.SIG_DFL)}
    child = subprocess.Popen(words, stdout=subprocess.PIPE, stderr=subprocess.PIPE, **heed, **PYTHON)
    ready = child.stdout.readline()
    os.killpg(child.pid, signal.SIGINT)
    try:
        # It has the same standard error, so that this waits for its end too.
        out, err = child.communicate(timeout=20)
    except subprocess.TimeoutExpired:
        os.killpg(child.pid, signal.SIGKILL)
        out, err = b"", b"it does not end"
    tally.expect("Ctrl-C in a Python program leaves the library alive", (ready, out, err) == (b"ready\n", b"True\n", b""), str(err))


def below(heading):
    """What stands below a heading of docs/USE.md."""
    return re.search(rf"^## {heading}\n(.*?)(?=^## |\Z)", read("docs/USE.md"), re.M | re.S)[1]


def block(language, page):
    return re.findall(rf"^```{language}\n(.*?)^```", page, re.M | re.S)


def in_c(typed):
    words = ["-std=c99", *WARNINGS, "-I", "target/host/include", "-o", f"{ROOM}/own_c", written("own.c", typed)]
    status, said = run("gcc", *words, "target/host/lib/libvrikshonem.a", "-pthread")
    return (status, said) if status else run(f"{ROOM}/own_c")


def in_rust(typed):
    manifest = '[package]\nname = "own"\nversion = "0.1.0"\nedition = "2021"\n[workspace]\n[dependencies]\n'
    written("own/Cargo.toml", manifest + f'vrikshonem = {{ path = "{ROOT}/rust" }}\n')
    written("own/src/main.rs", typed)
    return run("cargo", "run", "--quiet", "--offline", "--manifest-path", f"{ROOM}/own/Cargo.toml")


def in_python(typed):
    return run(sys.executable, written("own.py", typed), **PYTHON)


RUN = {"c": in_c, "rust": in_rust, "python": in_python}


def own(heading, shown, *languages):
    """The program below a heading of docs/USE.md, one in each of the languages, prints what is shown."""
    for language in languages:
        programs = block(language, below(heading))
        tally.expect(f"docs/USE.md: '{heading}' has a program, {language}", len(programs) == 1, str(len(programs)))
        for typed in programs if CARGO or language != "rust" else []:
            status, said = RUN[language](typed)
            tally.expect(f"docs/USE.md: the program of '{heading}', {language}", (status, said) == (0, shown), said)


def in_every_language(heading):
    """The programs below a heading, and what is said there that each prints."""
    lines = re.search(r"Each prints\n\n((?:    .*\n)+)", below(heading))[1]
    own(heading, "".join(f"{line[4:]}\n" for line in lines.splitlines()), *RUN)


def season_page():
    """The bytes that docs/SEASON.md shows are the file that the programs of docs/USE.md write."""
    shown = bytes.fromhex("".join(re.findall(r"^\| \d+ \| `([0-9A-F ]+)` \|", read("docs/SEASON.md"), re.M)))
    typed = block("python", below("The season's file"))[0].partition("cover =")[0] + "print(file.hex())\n"
    status, said = run(sys.executable, written("page.py", typed), **PYTHON)
    tally.expect("docs/SEASON.md shows the file's bytes", (status, said) == (0, f"{len(shown)} bytes\n{shown.hex()}\n"), said)


def use():
    """docs/USE.md, as a reader would type it."""
    expected, installed = read(LINES), f"{ROOM}/prefix"
    good("docs/USE.md: the folder is copied", "sh", "-euc", f"rm -rf {installed} && cp -R target/host/. {installed}/")
    commands = block("sh", read("docs/USE.md"))
    tally.expect("docs/USE.md has blocks for C, Rust and Python", len(commands) == 4, str(len(commands)))
    for typed in commands:
        title = typed.strip().splitlines()[-1]
        if "pkg-config" in typed and not shutil.which("pkg-config"):
            skipped(title, "there is no pkg-config")
            continue
        for each in dict.fromkeys([typed, typed.replace("target/host", installed)]):
            status, said = run("sh", "-euc", each)
            tally.expect(f"docs/USE.md: {each}", (status, said) == (0, expected), said)
    own("Rust", SHOWN, "rust")
    own("Python", SHOWN, "python")
    in_every_language("SIRAL's runs")
    in_every_language("Where a time came from")
    in_every_language("The season's file")
    lines = [line[4:] for line in re.search(r"packets.txt`:\n\n(.*?)\n\n", read("docs/USE.md"), re.S)[1].split("\n")]
    tally.expect("docs/USE.md shows lines of packets.txt", lines and set(lines) <= set(expected.split("\n")), str(lines))


def check():
    packages()
    examples()
    interrupted()
    use()
    season_page()
