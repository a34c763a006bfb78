"""The functions as tests/compare/serve.c calls them, and as tools/emulated.c hands them on."""

from interface import WIDTHS, Slice
from made import SAID
from made.in_c import bare, from_word, numbered, snake, taken, to_word, type_of, used

SERVED, EMULATED = "tests/compare/served.h", "tools/emulated_calls.h"


def _struct_at(interface, struct):
    """A function that makes a struct of its words."""
    inside, at = [], 0
    for _, kind in interface.structs[struct]:
        inside.append(from_word(kind, f"a[{at}]") if kind in WIDTHS else f"{bare(kind)}_at(a + {at})")
        at += len(interface.numbers(kind))
    return [
        f"static {snake(struct)} {bare(struct)}_at(const uint64_t *a) {{",
        f"    {snake(struct)} made = {{{', '.join(inside)}}};",
        "    return made;",
        "}",
        "",
    ]


def _answer_is(interface, struct):
    """A function that keeps a struct's words as the answer."""
    numbers = interface.numbers(struct)
    kept = [f"answer[{at}] = {to_word(kind, f'r.{name}')}" for at, (name, kind) in enumerate(numbers)]
    return [f"static void {bare(struct)}_is({snake(struct)} r) {{", f"    {', '.join(kept)};", "}", ""]


def _case(interface, function):
    """One line, so that a fault can be seeded into it."""
    given, word, slice_ = [], 0, 0
    for one in function.parameters:
        if isinstance(one.kind, Slice):
            given.append(f"{'LENT' if one.kind.written else 'GIVEN'}({type_of(one.kind.of)}, {slice_})")
            slice_ += 1
        elif one.kind in WIDTHS:
            given.append(from_word(one.kind, f"w[{word}]"))
            word += 1
        else:
            given.append(f"{bare(one.kind)}_at(w + {word})" if word else f"{bare(one.kind)}_at(w)")
            word += len(interface.numbers(one.kind))
    call = f"vrk_{function.name}({', '.join(given)})"
    kept = f"answer[0] = {to_word(function.result, call)}" if function.result in WIDTHS else f"{bare(function.result)}_is({call})"
    return f"    case {function.name.upper()}: {kept}; return 1;"


def _shape(interface, function):
    words = sum(len(interface.numbers(one.kind)) for one in function.numbers)
    slices = ", ".join(f"{{{WIDTHS[one.kind.of]}, {int(one.kind.written)}}}" for one in function.slices)
    return f"    [{function.name.upper()}] = {{{words}, {len(function.slices)}, {{{slices or '{0, 0}'}}}}},"


def served(interface):
    functions = interface.functions.values()
    words = max(sum(len(interface.numbers(one.kind)) for one in function.numbers) for function in functions)
    slices = max(len(function.slices) for function in functions)
    lines = [f"/* {SAID} The functions' numbers and shapes, and how each is called. */", *numbered(interface)]
    lines += [f"enum {{ WORDS = {max(words, 1)}, SLICES = {max(slices, 1)} }};", ""]
    lines += ["/* How many words and slices a function takes; the bytes of a slice's element, and whether it is written. */"]
    lines += ["static const struct shape {", "    uint32_t words, slices;"]
    lines += ["    struct { uint32_t width, written; } slice[SLICES];", "} shapes[] = {"]
    lines += [*(_shape(interface, one) for one in functions), "};", ""]
    lines += ["static uint64_t w[WORDS], answer[ANSWER];", "static struct { void *at; size_t count; } slices[SLICES];", ""]
    lines += ["#define GIVEN(type, k) (const type *)slices[k].at, slices[k].count"]
    lines += ["#define LENT(type, k) (type *)slices[k].at, slices[k].count", ""]
    for struct in used(interface, [one.kind for function in functions for one in function.numbers]):
        lines += _struct_at(interface, struct)
    for struct in dict.fromkeys(one.result for one in functions if one.result not in WIDTHS):
        lines += _answer_is(interface, struct)
    lines += ["static int call(uint64_t function) {", "    switch (function) {"]
    return "\n".join([*lines, *(_case(interface, one) for one in functions), "    }", "    return 0;", "}"]) + "\n"


def _handed_on(interface, function):
    """The function for a machine that has no proved code of its own; no parameter begins with `the_`."""
    result = interface.numbers(function.result)
    lines = [f"{type_of(function.result)} vrk_{function.name}({taken(function)}) {{", "    uint64_t the_answer[ANSWER];"]
    words = []
    for one in function.numbers:
        words += [to_word(kind, name) for name, kind in interface.numbers(one.kind, one.name)]
    if words:
        lines.append(f"    const uint64_t the_words[] = {{{', '.join(words)}}};")
    slices = []
    for one in function.slices:
        slices.append(f"{{{one.name}, {one.name}_count, {WIDTHS[one.kind.of]}, {int(one.kind.written)}}}")
    if slices:
        lines.append(f"    const struct slice the_slices[] = {{{', '.join(slices)}}};")
    given = f"{'the_words' if words else '0'}, {len(words)}, {'the_slices' if slices else '0'}, {len(slices)}"
    lines.append(f"    ask({function.name.upper()}, {given}, the_answer);")
    if function.result in WIDTHS:
        return [*lines, f"    return {from_word(function.result, 'the_answer[0]')};", "}", ""]
    inside = ", ".join(f".{name} = {from_word(kind, f'the_answer[{at}]')}" for at, (name, kind) in enumerate(result))
    return [*lines, f"    {snake(function.result)} the_result = {{{inside}}};", "    return the_result;", "}", ""]


def emulated(interface):
    lines = [f"/* {SAID} Each function, as it hands its call on. */", *numbered(interface), ""]
    lines += ["static void ask(uint64_t function, const uint64_t *words, size_t word_count, const struct slice *slices,"]
    lines += ["                size_t slice_count, uint64_t *answer);", ""]
    for one in interface.functions.values():
        lines += _handed_on(interface, one)
    return "\n".join(lines[:-1]) + "\n"


def made(interface):
    return {SERVED: served(interface), EMULATED: emulated(interface)}
