# What the commands share, to be sourced in the repository's folder. `me` is the command's name, which begins each line that it
# tells; all is told on standard error.
# shellcheck disable=SC2154 shell=bash

tell() {
    printf '%s: %s\n' "$me" "$*" >&2
}

stop() {
    tell "$@"
    exit 1
}

# The version that a tool tells first; what it tells in parentheses is its builder's.
version_of() { # TOOL
    "$1" --version 2>/dev/null </dev/null | sed 's/([^)]*)//g' | grep -m 1 -oE '[0-9]+(\.[0-9]+)+' | head -n 1
}

# Every tool is in PATH, and none is older than tools/least.txt says.
needed() { # TOOL..
    local tool least have missing='' old=''
    for tool; do
        command -v "$tool" >/dev/null || { missing="$missing $tool" && continue; }
        least=$(sed -n "s/^$tool  *//p" tools/least.txt)
        have=${least:+$(version_of "$tool")}
        [ -z "$have" ] || [ "$(printf '%s\n' "$least" "$have" | sort -V | head -n 1)" = "$least" ] ||
            old="$old, $tool $have (at least $least is needed)"
    done
    [ -z "$missing" ] || stop "not in PATH, and needed:$missing"
    [ -z "$old" ] || stop "too old:${old#,}"
}

# A kit that KIT does not list may prove the same, so this is told and not refused. It is asked once, for rt takes its time.
own_kit=''
kit() {
    local listed='' one
    own_kit=$(rt version 2>/dev/null || true)
    while IFS= read -r one || [ -n "$one" ]; do
        case $one in '' | '#'*) ;; "$own_kit") return ;; *) listed="$listed, '$one'" ;; esac
    done <KIT
    tell "warning: rt is '$own_kit', and the file KIT names${listed#,}"
}

# The names in crates.txt.
crates() {
    sed 's/#.*//; s/:.*//' crates.txt | awk 'NF { print $1 }'
}

# The crate and those of the repository below it, lowest first.
with_below() { # CRATE
    awk -v wanted="$1" '
        function visit(crate, n, k, below) {
            if (!(crate in knows) || seen[crate]++) return
            n = split(knows[crate], below, " ")
            for (k = 1; k <= n; k++) visit(below[k])
            print crate
        }
        { sub(/#.*/, "") }
        split($0, part, ":") == 2 { split(part[1], head, " "); knows[head[1]] = part[2] }
        END { visit(wanted) }' crates.txt
}

# A sum of all that is proved of these crates and of what that rests on: the kit, crates.txt, and all their files but what rt makes.
sources() { # CRATE..
    { if [ -n "$own_kit" ]; then echo "$own_kit"; else rt version; fi && cat crates.txt && cd crates &&
        find "$@" -regex '[^/]*/out' -prune -o -type f -print0 | LC_ALL=C sort -z | xargs -0 sha256sum; } | sha256sum
}

# What `rt ci` proved and left below crates/: the sum of the sources, and each library, by the file that holds its sums, and each
# program. Where no library was there before, tests/steps/20-proofs writes it into target/proved/ci, and while that stays so these
# need not be proved once more.
left() {
    local each
    # shellcheck disable=SC2046
    sources $(crates)
    for each in $(crates); do
        sha256sum "crates/$each/out/$each" "crates/$each/out/rlib/$each.rlib/format" 2>/dev/null || true
    done
}

is_left() {
    [ -s target/proved/ci ] && [ "$(left)" = "$(<target/proved/ci)" ]
}

# Waits until no other command holds the folder, and holds it until this one, and all that it started, has ended; what it
# starts need not wait. The folder itself is locked, so that no clean-up of target/ takes the lock away, and
# target/FOLDER.held tells who has it.
hold() { # FOLDER
    local lock pid='' who='' note=target/$1.held
    case ${VRIKSHONEM_HELD:-} in *":$PWD/$1:"*) return ;; esac
    exec {lock}<"$1" || stop "cannot open $PWD/$1"
    if ! flock -n "$lock"; then
        { read -r pid who <"$note"; } 2>/dev/null || true
        # What an ended command left tells nothing.
        kill -0 "$pid" 2>/dev/null || { who='another command' && pid=''; }
        tell "waiting for $who${pid:+ (process $pid)}, which is at work here"
        flock "$lock" || stop "cannot lock $PWD/$1"
    fi
    export VRIKSHONEM_HELD="${VRIKSHONEM_HELD:-}:$PWD/$1:"
    { mkdir -p target && echo "$$ $me" >"$note"; } 2>/dev/null || true
}

# Runs a command in a group of its own, and a signal ends all of it: a shell by itself heeds one only when the command has
# ended, and rt leaves its provers behind.
attended() { # COMMAND..
    local group signal status=0
    set -m
    "$@" &
    set +m
    group=$!
    for signal in HUP INT TERM; do
        # shellcheck disable=SC2064
        trap "kill -TERM -- -$group 2>/dev/null; wait $group || true; trap - $signal; kill -$signal \$\$" "$signal"
    done
    wait "$group" || status=$?
    trap - HUP INT TERM
    return "$status"
}
