"""A small interface of its own, on which what tools/interface.py makes is tried: slices of bytes and of numbers in any position,
given and lent, numbers of every kind, a struct in a struct; a struct and a function that are the header's own; refusals whose
numbers have gaps and whose order is not theirs."""

from made.slips import BEGIN, END

STRUCTS = """#[repr(C)]
pub struct VrkInner {
    pub a: u8,
    pub b: f64,
}

#[repr(C)]
pub struct VrkOuter {
    pub first: u32,
    pub inner: VrkInner,
    pub last: i64,
}

#[repr(C)]
pub struct VrkSums {
    pub refusal: u32,
    pub label: u64,
    pub words: i64,
    pub offsets: u64,
}

"""

FUNCTIONS = """// "#[unsafe(no_mangle)]" in a text and one in a comment: #[unsafe(no_mangle)]
use c_api::{VrkOuter, VrkSums};

#[unsafe(no_mangle)]
pub extern "C" fn vrk_sum(
    label: &[u8],
    scale: u32,
    words: &[i64],
    dates: &mut [i64],
    offsets: &[u64],
    out: &mut [u8],
) -> VrkSums
    ensures { IsSum result label.now }
{
    given(label)
}

#[unsafe(no_mangle)]
pub extern "C" fn vrk_turn(given: VrkOuter, times: i32, narrow: u16) -> VrkOuter {
    given
}

#[unsafe(no_mangle)]
pub extern "C" fn vrk_half(x: f64) -> f64 {
    x
}

#[unsafe(no_mangle)]
pub extern "C" fn vrk_nothing() -> i64 {
    0
}

#[unsafe(no_mangle)]
pub extern "C" fn vrk_touch(how: u32, words: &[i64], out: &mut [i64]) -> u32 {
    how
}
"""

HEADER = """#include <stddef.h>
#include <stdint.h>
#include "vrikshonem_refusals.h"
typedef struct { uint8_t a; double b; } vrk_inner;
typedef struct { uint32_t first; vrk_inner inner; int64_t last; } vrk_outer;
typedef struct { uint32_t refusal; uint64_t label; int64_t words; uint64_t offsets; } vrk_sums;
vrk_sums vrk_sum(const uint8_t *label, size_t a, uint32_t scale, const int64_t *words, size_t b, int64_t *dates, size_t c,
                 const uint64_t *offsets, size_t d, uint8_t *out, size_t e);
vrk_outer vrk_turn(vrk_outer given, int32_t times, uint16_t narrow);
double vrk_half(double x);
int64_t vrk_nothing(void);
uint32_t vrk_touch(uint32_t how, const int64_t *words, size_t a, int64_t *out, size_t b);
typedef struct { vrk_inner inner; int64_t more; } vrk_own;
static inline vrk_own vrk_own_of(int64_t more) { vrk_own own = {{1, vrk_half(1)}, more}; return own; }
"""

REFUSALS = """# in another order than their numbers
1   20   TooShort   it's too short
7   10   AtFirst    the first that is judged   # a comment
40  30   AtLast     the last of all
"""

TABLE = """sum      scale<=9  7 1 40   # a comment
turn     -         -
half     -         -
nothing  -         -
touch    <=6       40
"""

README = f"""# A page

By hand.

{BEGIN}
what was made before
{END}

By hand too.
"""

MADE = f"""# A page

By hand.

{BEGIN}

     7  the first that is judged   40  the last of all
     1  it's too short

{END}

By hand too.
"""

FILES = {
    "crates/c_api/src/lib.rt": STRUCTS + FUNCTIONS.partition("\n\n")[2].replace("#[unsafe(no_mangle)]\n", ""),
    "crates/c_api_c/src/lib.rt": FUNCTIONS,
    "include/vrikshonem.h": HEADER,
    "refusals.txt": REFUSALS,
    "refusals_by_function.txt": TABLE,
    "README.md": README,
    "VERSION": "3.14.15\n",
}

OWN, RT = "crates/c_api/src/lib.rt", "crates/c_api_c/src/lib.rt"
LIST, BY = "refusals.txt", "refusals_by_function.txt"

EXPORT, HALF = "#[unsafe(no_mangle)]", 'pub extern "C" fn vrk_half'

# What is wrong: the file, a place in it, what stands there instead, and the error.
WRONG = {
    "a slice of structs": (RT, "label: &[u8]", "label: &[VrkInner]", f"{RT}:6: vrk_sum's 'label' is of the unknown shape '&[Vrk"),
    "a pointer": (RT, "scale: u32", "scale: *const u32", f"{RT}:7: vrk_sum's 'scale' is of the unknown shape '*const u32'"),
    "a struct that is not C's": (RT, "given: VrkOuter, t", "given: Outer, t", f"{RT}:19: vrk_turn's 'given' is of the unknown"),
    "a field of an unknown shape": (OWN, "pub b: f64", "pub b: bool", f"{OWN}:4: VrkInner's 'b' is of the unknown shape 'bool'"),
    "an unknown result": (RT, "-> i64 {", "-> Option {", f"{RT}:28: vrk_nothing's result is of an unknown shape"),
    "no result": (RT, "vrk_nothing() -> i64 {", "vrk_nothing() {", f"{RT}:28: vrk_nothing's result is of an unknown shape"),
    "another prefix": (RT, "fn vrk_half", "fn half", f"{RT}:23: a function that is exported and cannot be read"),
    "a function twice": (RT, "fn vrk_half", "fn vrk_turn", f"{RT}:23: vrk_turn is exported twice"),
    "a mark of another form": (RT, f"{EXPORT}\n{HALF}", f"#[no_mangle]\n{HALF}", f"{RT}:23: a function that is exported and"),
    "a function that is not exported": (RT, f"{EXPORT}\n{HALF}", HALF, f"{OWN}:39: vrk_half is not exported"),
    "a parameter without a type": (RT, "x: f64)", "x)", f"{RT}:24: 'x' cannot be read"),
    "no words": (LIST, "   it's too short", "", f"{LIST}:2: refusal 1 has no words"),
    "one place twice": (LIST, "40  30", "40  20", f"{LIST}:4: the place '20' is refusal 1's already"),
    "one number twice": (LIST, "40  30", "7   30", f"{LIST}:4: the number '7' is refusal 7's already"),
    "one name twice": (LIST, "AtLast", "AtFirst", f"{LIST}:4: the name 'AtFirst' is refusal 7's already"),
    "a number too high": (LIST, "40  30", "64  30", f"{LIST}:4: a number is from 1 to 63, not 64"),
    "a number 0": (LIST, "1   20", "0   20", f"{LIST}:2: a number is from 1 to 63, not 0"),
    "a name in small letters": (LIST, "AtLast", "at_last", f"{LIST}:4: a number, a place, a name such as"),
    "words with a quote": (LIST, "the last", 'the "last"', f"{LIST}:4: the words of refusal 40 cannot stand between quotes"),
    "an unknown function": (BY, "half ", "whole ", f"{BY}:3: there is no function whole"),
    "a line twice": (BY, "half ", "turn ", f"{BY}:3: turn has a line already"),
    "a function without a line": (BY, "half     -         -\n", "", f"{BY}: half has no line"),
    "an unknown number": (BY, "7 1 40", "7 1 41", f"{BY}:1: sum refuses 41, which {LIST} does not have"),
    "another order": (BY, "7 1 40", "1 7 40", f"{BY}:1: the refusals of sum do not stand in the order of judging"),
    "a number twice": (BY, "7 1 40", "7 7 40", f"{BY}:1: the refusals of sum do not stand in the order of judging"),
    "an image that nothing tells": (BY, "scale<=9", "size<=9", f"{BY}:1: sum has no parameter 'size'"),
    "an image that is missing": (BY, "scale<=9", "-       ", f"{BY}:1: sum is lent bytes, and the length of its image is missing"),
    "an image without bytes to write": (BY, "half     - ", "half     8 ", f"{BY}:3: half has no image of '8' bytes"),
    "a page without the first mark": ("README.md", BEGIN, "", "README.md: the list of the refusals is due between"),
    "a page without the last mark": ("README.md", END, "", "README.md: the list of the refusals is due between"),
    "no refusals": (BY, "touch    <=6       40", "touch    <=6", f"{BY}:5: a function, its image and its refusals are due"),
}
