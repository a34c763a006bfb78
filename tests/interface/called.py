"""The small interface, called: straight, through the server behind the library for another machine, in Python and as C and Rust
compile it; with slices of any length, and with a library that reads or writes beside them."""

import ctypes
import importlib.util
import os
import shutil
import signal
import struct
import subprocess

import interface
from declarations import c_checks, differences, expected, header, rust_checks
from small import FILES

ROOM = "target/interface"
C = ["gcc", "-std=c11", "-O1", "-Wall", "-Wextra", "-Werror", "-I", f"{ROOM}/include"]
RUST = ["rustc", "--edition", "2021"]
# What the tree has by hand, beside which the small interface's own files are made.
BY_HAND = [
    "tests/compare/serve.c", "tests/compare/calls/shape.rs", "tools/emulated.c",
    "tests/interface/library.c", "tests/interface/shapes.rs", "tests/interface/words.c",
]
SHAPES = """5 functions, answers of 4 words
Some(0..1) Some(4) [0, 7, 1, 40]
(9, false, Some("scale")) (6, false, None)
[("first", 4), ("inner.a", 1), ("inner.b", 8), ("last", 8), ("times", 4), ("narrow", 2)] Some(2) Some(3)
"""
UNKNOWN = "a refusal that this version does not know"
WORDS = f"0 answered\n1 it's too short\n7 the first that is judged\n40 the last of all\n2 {UNKNOWN}\n"


def _run(*words):
    """What a program prints, or a word about how it failed."""
    done = subprocess.run(words, stdout=subprocess.PIPE, stderr=subprocess.STDOUT, text=True)
    return done.stdout if done.returncode == 0 else f"status {done.returncode}: {done.stdout[-2000:]}"


def _write(path, text):
    full = os.path.join(ROOM, path)
    os.makedirs(os.path.dirname(full), exist_ok=True)
    with open(full, "w", encoding="utf-8") as file:
        file.write(text)


def _laid_out():
    shutil.rmtree(ROOM, ignore_errors=True)
    for path, text in FILES.items():
        _write(path, text)
    interface.write(ROOM, interface.stale(ROOM))
    for path in BY_HAND:
        os.makedirs(os.path.dirname(os.path.join(ROOM, path)), exist_ok=True)
        shutil.copy(path, os.path.join(ROOM, path))


def _compiled(tally):
    truth, room = interface.rattle(ROOM), os.path.join(os.getcwd(), ROOM)
    _write("checks.c", c_checks(truth))
    _write("checks.rs", rust_checks(truth, f"{room}/rust/src/sys.rs"))
    library, shared = f"{ROOM}/tests/interface/library.c", ["-shared", "-fPIC"]
    reached = ["-pthread", "-D_GNU_SOURCE", '-DRUN="/usr/bin/env"', f'-DSERVE="{room}/serve"']
    programs = {
        "the server": [*C, "-o", f"{ROOM}/serve", f"{ROOM}/tests/compare/serve.c", library],
        "the library": [*C, *shared, "-o", f"{ROOM}/host.so", library],
        "the library behind the server": [*C, *shared, *reached, "-o", f"{ROOM}/emulated.so", f"{ROOM}/tools/emulated.c"],
        "the refusals": [*C, "-o", f"{ROOM}/words", f"{ROOM}/tests/interface/words.c"],
        "C's sizes, offsets and functions": [*C, "-fsyntax-only", f"{ROOM}/checks.c"],
        "Rust's": [*RUST, "--crate-type", "lib", "--emit=metadata", "-o", f"{ROOM}/checks.rmeta", f"{ROOM}/checks.rs"],
        "the shapes": [*RUST, "-o", f"{ROOM}/shapes", f"{ROOM}/tests/interface/shapes.rs"],
    }
    for what, words in programs.items():
        said = _run(*words)
        tally.expect(f"interface: {what}: compiled", not said, said)
    for what, due in [("shapes", SHAPES), ("words", WORDS)]:
        said = _run(f"{ROOM}/{what}")
        tally.expect(f"interface: the {what} are the small interface's", said == due, said)
    alone = FILES["include/vrikshonem.h"].replace('#include "vrikshonem_refusals.h"', "")
    differ = differences(expected(truth), header(alone))
    tally.expect("interface: the small header declares it", not differ, str(differ))


def _module(name):
    spec = importlib.util.spec_from_file_location(name, f"{ROOM}/python/vrikshonem/{name}.py")
    module = importlib.util.module_from_spec(spec)
    spec.loader.exec_module(module)
    return module


def _loaded(name, module):
    library = ctypes.CDLL(os.path.join(os.getcwd(), ROOM, name))
    for function, (result, given) in module.FUNCTIONS.items():
        getattr(library, function).restype, getattr(library, function).argtypes = result, list(given)
    return library


def _slices(library, lengths):
    """The sums of slices of these lengths, and what is left of those that are lent. The empty slice is a null pointer."""
    kinds = ctypes.c_uint8, ctypes.c_int64, ctypes.c_int64, ctypes.c_uint64, ctypes.c_uint8
    held = [(kind * length)(*(7 * k + length & 0x7F for k in range(length))) for kind, length in zip(kinds, lengths)]
    label, words, dates, offsets, out = ((one if len(one) else None, len(one)) for one in held)
    sums = library.vrk_sum(*label, 5, *words, *dates, *offsets, *out)
    return sums.refusal, sums.label, sums.words, sums.offsets, list(held[2]), list(held[4])


def _called(tally):
    module = _module("_sys")
    tally.expect("interface: the library's name has the first two numbers", module.LIBRARY == "libvrikshonem.so.3.14")
    tally.expect("interface: an image's most bytes", module.IMAGES == {"vrk_sum": 9, "vrk_touch": 6})
    host, emulated = _loaded("host.so", module), _loaded("emulated.so", module)
    for lengths in [(0, 0, 0, 0, 0), (1, 2, 3, 4, 5), (9, 128, 129, 130, 300), (70_000, 3, 100_000, 65_536, 200_001)]:
        tally.expect(f"interface: slices of {lengths}", _slices(host, lengths) == _slices(emulated, lengths))
    written = _slices(emulated, (0, 2, 3, 0, 1))[4:]
    tally.expect("interface: a lent slice is written", written == ([-2, -9, 17], [254]), str(written))
    for library in host, emulated:
        turned = library.vrk_turn(module.VrkOuter(1, module.VrkInner(255, 1.5), -(2**63) + 1), -2, 65535)
        got = turned.first, turned.inner.a, turned.inner.b, turned.last
        tally.expect("interface: a struct in a struct", got == (65536, 0, -3.0, 2**63 - 1), str(got))
        tally.expect("interface: a double and a negative number", (library.vrk_half(-0.5), library.vrk_nothing()) == (-0.25, -1))


def _served(sent, *words):
    """How the server ends that is sent these words of 64 bits."""
    sent = struct.pack(f"<{len(sent)}Q", *sent)
    return subprocess.run([f"{ROOM}/serve", *words], input=sent, stdout=subprocess.PIPE, stderr=subprocess.DEVNULL).returncode


def _guarded(tally):
    touch = list(interface.rattle(ROOM).functions).index("touch")
    # It is given one word and lent one.
    for what, how, words, status in [
        ("a call that touches nothing", 0, [], 0),
        ("a word is read behind a slice", 1, [], -signal.SIGSEGV),
        ("a word is written behind a lent slice", 2, [], -signal.SIGSEGV),
        ("a word is written before a lent slice", 3, [], 3),
        ("a word is written before a given slice", 4, [], 3),
        ("a call does not end", 5, ["1"], -signal.SIGVTALRM),
    ]:
        ended = _served([touch, how, 1, 1, 0, 0], *words)
        tally.expect(f"interface: {what}", ended == status, str(ended))
    for what, sent, status in [
        ("a request that is cut off", [touch, 0, 1], 1),
        ("an unknown function", [99], 2),
        ("a slice beyond all memory", [touch, 0, 2**60, 0], 5),
    ]:
        ended = _served(sent)
        tally.expect(f"interface: the server ends at {what}", ended == status, str(ended))


def _refused(tally):
    module = _module("_refusals")
    names = [kind.__name__ for kind in module.REFUSALS.values()]
    tally.expect("interface: in Python they stand in the order of judging", names == ["AtFirst", "TooShort", "AtLast"], str(names))
    said = [str(module.Refused(number)) for number in (40, 2)]
    tally.expect("interface: their words in Python", said == ["refused 40: the last of all", f"refused 2: {UNKNOWN}"], str(said))
    kinds = [(type(one), one.number) for one in (module.Refused(7), module.AtFirst(), module.AtFirst(40), module.Refused(2))]
    tally.expect("interface: an exception for each", kinds == [(module.AtFirst, 7)] * 3 + [(module.Refused, 2)], str(kinds))


def check(tally, root):
    os.chdir(root)
    _laid_out()
    _compiled(tally)
    _called(tally)
    _guarded(tally)
    _refused(tally)
