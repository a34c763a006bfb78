"""The header's and both packages' declarations are the Rattle source's, as text and compiled; and a wrong one is reported."""

import ctypes
import importlib
import os
import re
import shutil

from declarations import c_checks, differences, expected, header, layout, rust_checks
from interface import PREFIX, rattle
from room import HEADER, ROOM, ROOT, SYS, WARNINGS, changed, good, run, skipped, tally, written
from source import read

C_CHECKS = ["gcc", "-std=c11", *WARNINGS, "-fsyntax-only"]
RUST_CHECKS = ["rustc", "--edition", "2021", "--crate-type", "lib", "--emit=metadata", "-o", f"{ROOM}/checks.rmeta"]
MODULE = importlib.import_module("vrikshonem._sys")
STANDARDS = [("gcc", "c", "c99"), ("gcc", "c", "c11"), ("g++", "cc", "c++98"), ("g++", "cc", "c++17")]

# A check that reports nothing shows nothing unless it reports these; the last word says whether the compiler does too.
FAULTS = [
    ("a function left out", "vrk_count vrk_goce_read(const uint8_t *bytes, size_t count);", "", True),
    ("a function too many", "vrk_written vrk_sbt_write(", "int vrk_more(void);\nvrk_written vrk_sbt_write(", False),
    ("fields in another order", "uint64_t obt0;\n    uint64_t utc0;", "uint64_t utc0;\n    uint64_t obt0;", True),
    ("a field of another width", "    uint64_t length;", "    uint32_t length;", True),
    ("a parameter of another type", "vrk_decimal_read(double day, uint32_t", "vrk_decimal_read(double day, uint64_t", True),
    ("parameters in another order", "uint32_t seconds, uint32_t fraction,", "uint32_t fraction, uint32_t seconds,", False),
    ("lent bytes as given ones", "goce_write(uint64_t value, uint8_t *", "goce_write(uint64_t value, const uint8_t *", True),
]
RUST_FAULTS = [
    ("a function left out", "    pub fn vrk_goce_read(bytes: *const u8, bytes_count: usize) -> VrkCount;\n", ""),
    ("fields in another order", "    pub obt0: u64,\n    pub utc0: u64,\n", "    pub utc0: u64,\n    pub obt0: u64,\n"),
    ("a field of another width", "    pub length: u64,", "    pub length: u32,"),
    ("another result", "-> VrkDecimal;", "-> VrkCount;"),
]


def library(truth):
    """The library that was built has these functions and needs no other library."""
    inner = {"VrkIn": [("x", "u8"), ("y", "u64"), ("z", "u16")]}
    laid = layout([("a", "u8"), ("b", "VrkIn"), ("c", "u32")], inner)
    tally.expect("a struct in a struct is laid out as in C", laid == (40, [("a", 0), ("b", 8), ("c", 32)]), str(laid))
    tally.expect("the Rattle source exports functions and structs", truth.functions and truth.structs)
    for what, *words in [("shared library", "-D", "--defined-only", "libvrikshonem.so"), ("archive", "libvrikshonem.a")]:
        names = run("nm", *words[:-1], f"target/dist/lib/{words[-1]}")[1]
        differ = set(re.findall(r" T (\w+)", names)) ^ {PREFIX + name for name in truth.functions}
        tally.expect(f"the {what} has these functions", not differ, str(differ))
    needed = run("readelf", "-d", "target/dist/lib/libvrikshonem.so")[1]
    tally.expect("the shared library needs no other", "NEEDED" not in needed, needed)
    name = "libvrikshonem.so." + ".".join(read("VERSION").split(".")[:2])
    tally.expect("the shared library's name carries the version", f"[{name}]" in needed and MODULE.LIBRARY == name, needed)


def compared(truth):
    """The header as text; Python's sizes and offsets."""
    found = differences(expected(truth), header(read(HEADER)))
    tally.expect("the header's declarations are the Rattle source's", not found, "\n".join(found))
    for name, fields in truth.structs.items():
        kind = getattr(MODULE, name)
        laid = ctypes.sizeof(kind), [(field, getattr(kind, field).offset) for field, _ in fields]
        tally.expect(f"Python lays {name} out as C does", laid == layout(fields, truth.structs), str(laid))


def compiled(truth):
    """The header in each language that can include it; sizes, offsets and functions as the compiler sees them."""
    for compiler, suffix, standard in STANDARDS:
        if shutil.which(compiler):
            alone = written(f"alone.{suffix}", "#include <vrikshonem.h>\nint nothing;\n")
            words = [f"-std={standard}", *WARNINGS, "-I", "include", "-fsyntax-only", alone]
            good(f"the header compiles as {standard}", compiler, *words)
        else:
            skipped(f"the header as {standard}", f"there is no {compiler}")
    checks = written("checks.c", c_checks(truth))
    good("sizes, offsets and functions of the header, compiled", *C_CHECKS, "-I", "include", checks)
    checks_rs = written("checks.rs", rust_checks(truth, os.path.join(ROOT, SYS)))
    good("sizes, offsets and functions of the Rust declarations, compiled", *RUST_CHECKS, checks_rs)
    return checks


def faults(truth, checks):
    for what, old, new, compiles in FAULTS:
        wrong = changed(read(HEADER), old, new)
        tally.expect(f"a header with {what} is reported", differences(expected(truth), header(wrong)))
        if compiles:
            written("wrong/vrikshonem.h", wrong)
            status, _ = run(*C_CHECKS, "-I", f"{ROOM}/wrong", "-I", "include", checks)
            tally.expect(f"a header with {what} does not compile", status != 0)
    for what, old, new in RUST_FAULTS:
        path = written("wrong/sys.rs", changed(read(SYS), old, new))
        wrong_rs = written("wrong/checks.rs", rust_checks(truth, os.path.join(ROOT, path)))
        tally.expect(f"Rust declarations with {what} do not compile", run(*RUST_CHECKS, wrong_rs)[0] != 0)


def check():
    truth = rattle(ROOT)
    library(truth)
    compared(truth)
    faults(truth, compiled(truth))
