"""The functions for the comparison and the fuzzer: their names, what each takes and gives, what it writes and refuses."""

from interface import WIDTHS, Slice
from made import SAID

PATH = "tests/compare/calls/interface.rs"


def camel(name):
    return "".join(part.capitalize() for part in name.split("_"))


def _takes(interface, parameter):
    if isinstance(parameter.kind, Slice):
        return f'{"lent" if parameter.kind.written else "given"}("{parameter.name}", {WIDTHS[parameter.kind.of]})'
    # each number's name and its bytes
    fields = interface.numbers(parameter.kind, "" if parameter.kind in interface.structs else parameter.name)
    told = ", ".join(f'("{name}", {WIDTHS[kind]})' for name, kind in fields)
    return f'numbers("{parameter.name}", &[{told}])'


def _image(image):
    if not image:
        return "None"
    told = f'Some("{image.told}")' if image.told else "None"
    return f"Some(Image {{ length: {image.length}, fixed: {str(image.fixed).lower()}, told: {told} }})"


def _shape(interface, function, refuses):
    takes = ", ".join(_takes(interface, one) for one in function.parameters)
    gives = ", ".join(f'"{name or "result"}"' for name, _ in interface.numbers(function.result))
    numbers = ", ".join(map(str, refuses.numbers))
    return [
        "    Shape {",
        f'        name: "{function.name}",',
        f"        takes: &[{takes}],",
        f"        gives: &[{gives}],",
        f"        image: {_image(refuses.image)},",
        f"        refuses: &[{numbers}],",
        "    },",
    ]


def made(interface, table, listed):
    functions = interface.functions
    answer = max(len(interface.numbers(one.result)) for one in functions.values())
    lines = [f"// {SAID} The functions of the interface.", "", "use super::shape::{given, lent, numbers, Image, Shape};", ""]
    lines += ["#[derive(Clone, Copy, PartialEq, Eq, PartialOrd, Ord, Debug)]", "pub enum Function {"]
    lines += [*(f"    {camel(name)}," for name in functions), "}", ""]
    lines += ["pub const FUNCTIONS: &[Function] = &[", *(f"    Function::{camel(name)}," for name in functions), "];", ""]
    lines += ["/// The words of every answer.", f"pub const ANSWER: usize = {answer};", ""]
    lines += ["/// The refusals that are asked for by name.", "#[allow(dead_code)]", "pub mod refusal {"]
    lines += [*(f"    pub const {one.constant}: u64 = {one.number};" for one in listed), "}", ""]
    lines += ["/// By the functions' numbers.", "pub const SHAPES: &[Shape] = &["]
    for name, function in functions.items():
        lines += _shape(interface, function, table[name])
    return {PATH: "\n".join([*lines, "];"]) + "\n"}
