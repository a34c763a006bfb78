# Part of tests/steps/10-gate: the steps that rest on rt, in a repository of their own and with an rt of their own.
# shellcheck shell=bash disable=SC2154

repo=$room/repo
mkdir -p "$repo/tests/steps" "$repo/crates/low/src" "$repo/tools" "$repo/docs"
cp "$here/20-proofs" "$here/30-format" "$repo/tests/steps"
cp tools/{trusted.py,source.py,tally.py,common.bash,least.txt,prove,over,assumed} "$repo/tools"
echo kit >"$repo/KIT"
printf 'low: # the lowest\n' >"$repo/crates.txt"
# shellcheck disable=SC2016
printf '| every other crate | 0 | none |\n\n`native=nat`\n' >"$repo/docs/PROMISES.md"
echo >"$repo/crates/low/src/lib.rt"
step() { # STEP TEXT OF RT CI OR RT FMT, TEXT OF RT'S OTHER COMMANDS
    fake rt "case \"\$*\" in version) echo kit ;; doc) echo '$repo/kit/START-HERE.md' ;; ci | fmt) $2 ;; *) ${3:-exit 1} ;; esac"
    run env PATH="$room/fake:$PATH" "$repo/tests/steps/$1"
}
verdict='echo "logic=proved functions=1 sum=0 native=nat"; echo "rt: low proved"'
ok='echo "rt: ok; handles allowed: none; must-fail edits: 5 refused; all was done"'
all='echo "7 passed, 0 failed"'
kept='kept: an earlier run on this machine proved the same files over the same libraries'
step 20-proofs "[ \"\$PWD\" = '$repo' ] || exit 1; $verdict; $ok; $all"
expect 'proofs: the count of rt ci, three of what it says, and those of what is trusted' passes '12 passed, 0 failed'
expect 'proofs: what rt ci says' says 'rt: low proved'
step 20-proofs "echo 'rt: low is $kept'; $ok; $all"
expect 'proofs: all is kept, and no verdict is seen' fails '11 passed, 1 failed'
step 20-proofs "$verdict; $all"
expect "proofs: no line 'rt: ok'" fails '11 passed, 1 failed'
step 20-proofs "$verdict; ${ok/refused/refused, 1 of them only by a limit, 2 bad}; $all"
expect 'proofs: a bad edit' fails '11 passed, 1 failed'
expect 'proofs: a bad edit is told' says 'counts a bad edit'
step 20-proofs "$verdict; ${ok/refused/refused, 1 of them only by a limit, 0 bad}; $all"
expect 'proofs: no bad edit' passes '12 passed, 0 failed'
step 20-proofs "${verdict/functions=1/functions=1 axioms=1}; $ok; $all"
expect 'proofs: a trusted function that the page lacks' fails '11 passed, 1 failed'
step 20-proofs 'echo "7 passed, 2 failed"; exit 1'
expect 'proofs: failures of rt ci' fails '8 passed, 2 failed'
step 20-proofs 'echo "7 passed, 0 failed"; exit 1'
expect 'proofs: the status of rt ci' fails '8 passed, 1 failed'
step 20-proofs 'echo "rt: bad crates.txt"; exit 2'
expect 'proofs: rt ci without a sum' fails '1 passed, 1 failed'
step 20-proofs "echo '7 passed, 0 failed (low and the crates below alone: not the gate)'"
expect 'proofs: a sum that is not the gate' fails '1 passed, 1 failed'
step 20-proofs "echo >>crates/low/src/lib.rt; $verdict; $ok; $all"
expect 'proofs: a source that changes while it is proved' fails '11 passed, 1 failed'
step 20-proofs "mkdir -p crates/low/out; echo >>crates/low/out/work; $verdict; $ok; $all"
expect 'proofs: what rt keeps may change' passes '12 passed, 0 failed'
mkdir "$repo/crates/lost"
step 20-proofs "$verdict; $ok; $all"
expect 'proofs: a folder that crates.txt lacks' fails '11 passed, 1 failed'
expect 'proofs: its name' says 'not named in crates.txt: crates/lost'
rmdir "$repo/crates/lost"

# Programs and the library for C are listed, and built.
mkdir -p "$repo/crates/desk/src" "$repo/crates/c_api/src" "$repo/crates/c_api_c/src"
echo >"$repo/crates/desk/src/main.rt"
echo >"$repo/crates/c_api/src/lib.rt"
echo >"$repo/crates/c_api_c/src/lib.rt"
printf 'low: # the lowest\ndesk: low\nc_api: low\nc_api_c staticlib: c_api # for C\n' >"$repo/crates.txt"
# shellcheck disable=SC2016
printf '| `desk` | 1 | `libc::read` |\n| every other crate | 0 | none |\n\n`native=nat`\n' >"$repo/docs/PROMISES.md"
kept="for crate in low desk c_api c_api_c; do echo \"rt: \$crate is $kept\"; done"
# shellcheck disable=SC2016
lists='case "$1 ${PWD##*/}" in
    "check desk") echo "axioms libc: 1 reached of the 50 declared"; echo "  libc::read   reached"; n=" axioms=1" ;;
    "check c_api_c") echo "axioms libc: none reached of the 50 declared"; n="" ;;
    "run desk" | "lib c_api_c") mkdir -p out; echo made >out/desk; echo made >out/libc_api_c.a; exit ;;
    *) exit 1 ;;
    esac; echo "logic=proved functions=1$n sum=0 native=nat incremental=trusted"'
mkdir -p "$repo/crates/low/out/rlib"
rm -rf "$repo/target"
step 20-proofs "$kept; $ok; $all" "$lists"
expect 'proofs: what is linked is listed and built' passes '18 passed, 0 failed'
expect 'proofs: what is built' test "$(cat "$repo"/target/proved/{desk,libc_api.a})" = $'made\nmade'
expect 'proofs: what lay there is not what rt ci left' test ! -e "$repo/target/proved/ci"
rm -rf "$repo/target"
step 20-proofs "$kept; $ok; $all" "${lists/1 reached/2 reached}"
expect 'proofs: a list whose count is another' fails '17 passed, 1 failed'
rm -rf "$repo/target"
step 20-proofs "$kept; $ok; $all" "${lists/\"run desk\" |/}"
expect 'proofs: a program that is not built' fails '17 passed, 1 failed'
expect 'proofs: its name is told' says 'desk is not built'
# Where no library was there before, those that lie there now are the ones that rt ci proved, and rt is not asked to prove them.
rm -r "$repo/crates/low/out" "$repo/target"
mkdir -p "$repo/kit/bin"
cat >"$repo/kit/bin/rattle" <<'END'
#!/bin/sh
case "$1 ${PWD##*/}" in
'check desk') echo 'axioms libc: 1 reached of the 50 declared'; echo '  libc::read   reached'; n=' axioms=1' ;;
*' c_api_c') echo 'axioms libc: none reached of the 50 declared'; n='' ;;
*) exit 1 ;;
esac
echo "logic=proved functions=1$n sum=0 native=nat"
[ "$1" = check ] || { for word; do out=$word; done; echo over >"$out"; }
END
chmod +x "$repo/kit/bin/rattle"
left='mkdir -p crates/low/out/rlib/low.rlib; echo sums >crates/low/out/rlib/low.rlib/format'
step 20-proofs "$left; $kept; $ok; $all"
expect 'proofs: what rt ci left is listed and built' passes '18 passed, 0 failed'
expect 'proofs: what rt ci left is noted' grep -q crates/low/out/rlib/low.rlib/format "$repo/target/proved/ci"
expect 'proofs: the archive is built over it' test "$(cat "$repo"/target/proved/{desk,libc_api.a})" = $'made\nover'
rm "$repo/docs/PROMISES.md"
step 20-proofs "$kept; $ok; $all" "$lists"
expect 'proofs: no page of what is trusted' fails '13 passed, 4 failed'

rm -r "$repo"/crates/{desk,c_api,c_api_c}
step 30-format '[ -e src/lib.rt ]'
expect 'format: right' passes '1 passed, 0 failed'
step 30-format 'echo >>src/lib.rt'
expect 'format: wrong' fails '0 passed, 1 failed'
expect 'format: the file is told' says crates/low/src/lib.rt
step 30-format 'rm src/lib.rt'
expect 'format: a file that goes' fails '0 passed, 1 failed'
step 30-format 'echo >src/more.rt'
expect 'format: a file that comes' fails '0 passed, 1 failed'
step 30-format 'exit 1'
expect 'format: rt fmt fails' fails '0 passed, 1 failed'
rm "$repo/crates/low/src/lib.rt"
step 30-format 'exit 0'
expect 'format: no file' fails '0 passed, 1 failed'
