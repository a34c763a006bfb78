# Part of tests/steps/10-gate: the gate on two crates, with this machine's rt.
# shellcheck shell=bash disable=SC2154

real=$room/real
mkdir -p "$real"/crates/{low/src,low/must-fail,desk/src} "$real/tests/steps" "$real/docs"
cp -R test .ci .gitignore KIT tools "$real"
cp "$here/20-proofs" "$here/30-format" "$real/tests/steps"
printf 'low:   # a library\ndesk: low   # a program\n' >"$real/crates.txt"
cat >"$real/crates/low/src/lib.rt" <<'END'
// Numbers of the gate's own test.
#![tactic(auto)]

ghost use Rattle.std.specs.Prelude.{◌≡◌, ◌+◌};

pub fn next(n: u32) -> u64
    ensures { result ≡ n + 1 }
{
    n as u64 + 1
}
END
printf 'file: src/lib.rt\nold: n as u64 + 1\nnew: n as u64 + 2\n' >"$real/crates/low/must-fail/next.edit"
cat >"$real/crates/desk/src/main.rt" <<'END'
// Prints a number of the gate's own test.
#![tactic(auto)]

use std::io;

fn main(rt: HostRuntime) -> io::Result<()> {
    let number = low::next(41);
    println!(rt; "{number}")?;
    Ok(())
}
END
echo 42 >"$real/crates/desk/stdout"
# shellcheck disable=SC2016
{
    echo '| `desk` | 3 | `libc::write`, `os::c::__xpg_strerror_r`, `os::c::rattle_errno` |'
    echo '| every other crate | 0 | none |'
    echo
    echo '`native=nat,char,string logic-built=trusted libraries-built=trusted statements=trusted`'
} >"$real/docs/PROMISES.md"
cat >"$real/tests/steps/85-desk" <<'END'
#!/bin/sh
cd -- "$(dirname -- "$0")/../.." || exit 1
tools/prove desk desk || exit 1
[ "$(tools/x86-64 target/proved/desk)" = 42 ] && echo '1 passed, 0 failed'
END
chmod +x "$real/tests/steps/85-desk"
git init -q "$real"
run "$real/.ci/run"
expect 'two crates: the gate passes' passes '13 passed, 0 failed'
expect 'two crates: rt ci proves both, refuses the edit and runs the program twice' test "$(grep -cE \
    '\| rt: (low|desk) (proved$|is kept: )|\| rt: must-fail low/next.edit: refused|\| rt: desk ran[ ,]' "$room/out")" -eq 5
expect 'two crates: what rt ci proved is not proved once more' silent_on 'of 2, '
expect 'two crates: what is built goes with the copy' silent_on '| desk: '
expect 'two crates: git sees no change' test -z "$(git -C "$real" ls-files -o --exclude-standard | grep -E 'out/|target/')"
printf 'file: src/lib.rt\nold: n as u8 + 1\nnew: n as u8 + 2\n' >"$real/crates/low/must-fail/none.edit"
run "$real/.ci/run" 2>&1
expect 'two crates: a bad edit' fails '12 passed, 1 failed'
expect 'two crates: the bad edit is told' eval 'says "must-fail low/none.edit: BAD EDIT" && says "counts a bad edit"'
rm "$real/crates/low/must-fail/none.edit"
sed 's/    n as/  n as/' "$real/crates/low/src/lib.rt" >"$real/lib" && mv "$real/lib" "$real/crates/low/src/lib.rt"
run "$real/test" 20 30
expect 'two crates: a layout that is wrong' fails '1 passed, 3 failed'
expect 'two crates: the file is told' says 'src/lib.rt is not in the layout'
