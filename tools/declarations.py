"""The interface as a header declares it, held to the Rattle source; and programs that compile only where sizes, offsets and
functions are the source's."""

import re
import subprocess

from interface import PREFIX, WIDTHS, Slice
from made.in_c import TYPES, pointer, snake, type_of
from source import Unreadable, closing


def _words(text):
    return " ".join(text.split())


def expected(interface):
    """Structs and functions as a header declares them; a slice's number of elements may have any name. Beside it a parameter
    `count` is called value."""
    structs = {snake(name): [(field, type_of(kind)) for field, kind in fields] for name, fields in interface.structs.items()}
    functions = {}
    for one in interface.functions.values():
        given = []
        for parameter in one.parameters:
            if isinstance(parameter.kind, Slice):
                given += [(parameter.name, pointer(parameter.kind)), (None, "size_t")]
            else:
                given.append(("value" if parameter.name == "count" else parameter.name, type_of(parameter.kind)))
        functions[PREFIX + one.name] = type_of(one.result), given
    return structs, functions


def _declared(text):
    """A name and its type."""
    match = re.fullmatch(r"((?:const )?\w+ (?:\* ?)?)(\w+)", _words(text.replace("*", " * ")))
    if not match:
        raise Unreadable(f"the header: '{_words(text)}'")
    return match[2], match[1].strip()


def _without_own(plain):
    """Without the functions that have a body, which are the header's own."""
    while own := re.search(r"static inline [^;{]*\{", plain):
        plain = plain[: own.start()] + plain[closing(plain, own.end() - 1) + 1 :]
    return plain


def _passed(structs, functions):
    """The structs that a function takes or gives, and those inside of them; others are the header's own."""
    found = [kind for result, given in functions.values() for kind in (result, *(of for _, of in given)) if kind in structs]
    for name in found:
        found += [kind for _, kind in structs[name] if kind in structs and kind not in found]
    return {name: fields for name, fields in structs.items() if name in found}


def header(text):
    """What a header declares, comments, macros, and structs and functions of its own away."""
    words = ["gcc", "-E", "-P", "-x", "c", "-I", "include", "-"]
    plain = _without_own(subprocess.run(words, input=text, capture_output=True, text=True, check=True).stdout)
    structs, functions = {}, {}
    for body, name in re.findall(r"typedef struct\s*\{([^}]*)\}\s*(vrk_\w+)\s*;", plain):
        structs[name] = [_declared(field) for field in filter(None, map(_words, body.split(";")))]
    for result, name, given in re.findall(r"([\w ]+?[\s*])(vrk_\w+)\s*\(([^)]*)\)\s*;", plain):
        functions[name] = _words(result), [_declared(one) for one in given.split(",") if _words(one) != "void"]
    return _passed(structs, functions), functions


def differences(truth, other):
    """Where the other differs from what is expected, a line each. A parameter without a name has any."""
    found = []
    for what, ours, theirs in zip(("struct", "function"), truth, other):
        found += [f"{what} {name} is not declared" for name in ours if name not in theirs]
        found += [f"{what} {name} does not exist" for name in theirs if name not in ours]
    for name in truth[0].keys() & other[0].keys():
        if truth[0][name] != other[0][name]:
            found.append(f"struct {name} is {truth[0][name]}, not {other[0][name]}")
    for name in truth[1].keys() & other[1].keys():
        (result, given), (their_result, theirs) = truth[1][name], other[1][name]
        named = [(None, kind) if ours is None else (own, kind) for (ours, _), (own, kind) in zip(given, theirs)]
        if result != their_result or len(given) != len(theirs) or given != named:
            found.append(f"function {name} is {given} -> {result}, not {theirs} -> {their_result}")
    return sorted(found)


def layout(fields, structs):
    """The size of a struct and its fields' offsets, by the rules of C."""
    size, _, offsets = _laid(fields, structs)
    return size, offsets


def _laid(fields, structs):
    at, widest, offsets = 0, 1, []
    for name, kind in fields:
        if kind in structs:
            size, align, _ = _laid(structs[kind], structs)
        else:
            size = align = WIDTHS[kind]
        at += -at % align
        offsets.append((name, at))
        at, widest = at + size, max(widest, align)
    return at + -at % widest, widest, offsets


def c_checks(interface):
    """A C program that compiles only where the header's sizes, offsets and functions are the Rattle source's."""
    lines = ["#include <vrikshonem.h>"]
    for name, fields in interface.structs.items():
        size, offsets = layout(fields, interface.structs)
        lines.append(f'_Static_assert(sizeof({snake(name)}) == {size}, "{name}");')
        for field, at in offsets:
            lines.append(f'_Static_assert(offsetof({snake(name)}, {field}) == {at}, "{name}.{field}");')
    for name, (result, given) in expected(interface)[1].items():
        lines.append(f"{result} (*const is_{name})({', '.join(kind for _, kind in given) or 'void'}) = {name};")
    return "\n".join(lines) + "\n"


def _in_rust(kind):
    """A type of C."""
    pointed = re.fullmatch(r"(const )?(\w+) \*", kind)
    if pointed:
        return f"*{'const' if pointed[1] else 'mut'} {_in_rust(pointed[2])}"
    numbers = {theirs: ours for ours, theirs in TYPES.items()} | {"size_t": "usize"}
    return numbers.get(kind) or "sys::" + "".join(part.capitalize() for part in kind.split("_"))


def rust_checks(interface, sys):
    """The same for the Rust crate's sys.rs."""
    lines = [f'#[path = "{sys}"] #[allow(dead_code)] mod sys;', "use std::mem::{offset_of, size_of};"]
    for name, fields in interface.structs.items():
        size, offsets = layout(fields, interface.structs)
        lines.append(f"const _: () = assert!(size_of::<sys::{name}>() == {size});")
        lines += [f"const _: () = assert!(offset_of!(sys::{name}, {field}) == {at});" for field, at in offsets]
    for name, (result, given) in expected(interface)[1].items():
        kinds = ", ".join(_in_rust(kind) for _, kind in given)
        lines.append(f'const _: unsafe extern "C" fn({kinds}) -> {_in_rust(result)} = sys::{name};')
    return "\n".join(lines) + "\n"
