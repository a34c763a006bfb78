"""The interface as the Rust crate and the Python module declare it."""

from interface import WIDTHS, Slice
from made import SAID

SYS, PYTHON = "rust/src/sys.rs", "python/vrikshonem/_sys.py"


# ---- Rust


def _pointer(kind):
    return f"*{'mut' if kind.written else 'const'} {kind.of}"


def _declared(function):
    """The parameters as C takes them."""
    found = []
    for one in function.parameters:
        if isinstance(one.kind, Slice):
            found += [f"{one.name}: {_pointer(one.kind)}", f"{one.name}_count: usize"]
        else:
            found.append(f"{one.name}: {one.kind}")
    return ", ".join(found)


def _safe(function):
    """A safe function over slices: a slice becomes its pointer and its length."""
    taken, given = [], []
    for one in function.parameters:
        if isinstance(one.kind, Slice):
            taken.append(f"{one.name}: &{'mut ' if one.kind.written else ''}[{one.kind.of}]")
            given += [f"{one.name}.as_{'mut_' if one.kind.written else ''}ptr()", f"{one.name}.len()"]
        else:
            taken.append(f"{one.name}: {one.kind}")
            given.append(one.name)
    return [
        f"pub(crate) fn {function.name}({', '.join(taken)}) -> {function.result} {{",
        f"    unsafe {{ vrk_{function.name}({', '.join(given)}) }}",
        "}",
        "",
    ]


def sys(interface, table):
    lines = [
        f"// {SAID}",
        "//! The interface for C, and the only unsafe code of this crate.",
        "//!",
        "//! Each call below is safe for every argument: the library judges every value, keeps no pointer, reads only the slices",
        "//! that it is given and writes only into those that it is lent, and a `&mut` slice overlaps no other.",
        "#![allow(unsafe_code)]",
        "",
    ]
    for name, fields in interface.structs.items():
        lines += ["#[repr(C)]", "#[derive(Clone, Copy)]", f"pub struct {name} {{"]
        lines += [*(f"    pub {field}: {kind}," for field, kind in fields), "}", ""]
    lines.append('extern "C" {')
    for one in interface.functions.values():
        lines.append(f"    pub fn vrk_{one.name}({_declared(one)}) -> {one.result};")
    lines += ["}", "", "/// The bytes of each writer's image, or the most that it has.", "#[allow(dead_code)]"]
    lines.append("pub(crate) mod image {")
    for name, refuses in table.items():
        if refuses.image:
            lines.append(f"    pub const {name.upper()}: usize = {refuses.image.length};")
    lines += ["}", ""]
    for one in interface.functions.values():
        lines += _safe(one)
    return "\n".join(lines[:-1]) + "\n"


# ---- Python


def _ctypes(kind):
    if kind == "f64":
        return "ctypes.c_double"
    return f"ctypes.c_{'u' if kind[0] == 'u' else ''}int{8 * WIDTHS[kind]}" if kind in WIDTHS else kind


def _arguments(function):
    found = []
    for one in function.parameters:
        if isinstance(one.kind, Slice):
            # ctypes has no const: a slice that is only read goes by the same pointer.
            found += [f"ctypes.POINTER({_ctypes(one.kind.of)})", "ctypes.c_size_t"]
        else:
            found.append(_ctypes(one.kind))
    return f"({', '.join(found)}{',' if len(found) == 1 else ''})"


def python(interface, table, version):
    lines = [
        f"# {SAID}",
        '"""The interface for C."""',
        "",
        "from __future__ import annotations",
        "",
        "import ctypes",
        "from typing import Any, Dict, Tuple",
        "",
        "# The library's file carries the first two numbers of its version.",
        f'LIBRARY = "libvrikshonem.so.{".".join(version.split(".")[:2])}"',
    ]
    for name, fields in interface.structs.items():
        lines += ["", "", f"class {name}(ctypes.Structure):", "    _fields_ = ["]
        lines += [*(f'        ("{field}", {_ctypes(kind)}),' for field, kind in fields), "    ]"]
    lines += ["", "", "# Each function's result and arguments; a slice is a pointer and a number of elements."]
    lines.append("FUNCTIONS: Dict[str, Tuple[Any, Tuple[Any, ...]]] = {")
    for one in interface.functions.values():
        lines.append(f'    "vrk_{one.name}": ({_ctypes(one.result)}, {_arguments(one)}),')
    lines += ["}", "", "# The bytes of each writer's image, or the most that it has.", "IMAGES: Dict[str, int] = {"]
    lines += [f'    "vrk_{name}": {refuses.image.length},' for name, refuses in table.items() if refuses.image]
    return "\n".join([*lines, "}"]) + "\n"


def made(interface, table, version):
    return {SYS: sys(interface, table), PYTHON: python(interface, table, version)}
