"""The first run talks, a later one does not; what keeps it from its end is told in a line."""

import os
import re
import shutil
import signal
import stat
import sys

from piped import IN, OUT
from room import KITS, ended, expect, sample, tally, until

NOBODY = 65534
WHY = "fn scales::f: not proved; a word of why"
# It runs what it is given as Python 1.0 would say that it does; ./desk asks the Python that runs it.
PYTHON = f"""#!/bin/sh
exec '{sys.executable}' -c '
import sys
sys.version_info, sys.argv = (1, 0), sys.argv[1:]
exec(compile(open(sys.argv[0]).read(), sys.argv[0], "exec"))' "$@"
"""


def change(path, text):
    with open(path, "a", encoding="utf-8") as file:
        file.write(text)


def talks():
    for name, what in ("desk", "the program"), ("build", "the library"):
        with sample() as one:
            command = one.desk if name == "desk" else one.build
            done = one.run(command, data=IN)
            crate, count = ("desk", 3) if name == "desk" else ("c_api_c", 4)
            due = [
                rf"{name}: proving and building {what}, {count} crates; from nothing this takes some minutes",
                rf"{name}: 2 of {count}, scales: proved \(\d+ s\)",
                rf"{name}: {count} of {count}, {crate}: proved \(\d+ s\)",
                rf"{name}: {what} is built \(\d+ s\)",
            ]
            lines = done.err.splitlines()
            good = len(lines) >= len(due) and all(re.fullmatch(like, line) for like, line in zip(due, lines))
            expect(f"the first run of {name} tells what it does, crate by crate", done, done.status == 0 and good)
            out = OUT if name == "desk" else b""
            expect(f"the first run of {name} prints what a later one does", done, done.out == out)
            calls = one.calls()
            verb = "run" if name == "desk" else "lib"
            due = [f"{at} {verb} {crate}" for at in ("begin", "end")]
            tally.expect(f"the first run of {name} calls rt {verb} once", calls == due, str(calls))
            done = one.run(command, data=IN)
            expect(f"the next run of {name} tells nothing", done, (done.status, done.out, done.err) == (0, out, ""))
            tally.expect(f"the next run of {name} proves nothing", one.calls() == calls, str(one.calls()))


def again():
    """What changed is proved again, and nothing else is."""
    with sample() as one:
        one.run(one.desk)
        calls = len(one.calls())
        for what, path, proved in [
            ("a source of a crate below", "crates/axis/src/lib.rt", True),
            ("a new file of a crate below", "crates/scales/src/more.rt", True),
            ("what rt keeps of a crate below", "crates/scales/out/kept", False),
            ("crates.txt", "crates.txt", True),
            ("the program itself", "target/proved/desk", True),
            ("a crate that it does not know", "crates/other/src/lib.rt", False),
            ("a page", "README.md", False),
        ]:
            os.makedirs(os.path.dirname(one.path(path)), exist_ok=True)
            change(one.path(path), "\n# changed\n")
            done = one.run(one.desk, data=IN)
            more, calls = len(one.calls()) > calls, len(one.calls())
            expect(f"after a change of {what} it is {'' if proved else 'not '}proved", done, done.status == 0 and more == proved)
            expect(f"after a change of {what} it prints the same", done, done.out == OUT)
        done = one.run(one.desk, data=IN, environment={"AS_KIT": "another kit"})
        kit = f"desk: warning: rt is 'another kit', and the file KIT names '{KITS[0]}', '{KITS[1]}'\n"
        good = (done.status, done.out) == (0, OUT) and done.err.startswith(kit)
        expect("another kit is told, and what it proves is run", done, good)
        tally.expect("another kit proves anew", len(one.calls()) > calls)
        done = one.run(one.desk, data=IN, environment={"AS_KIT": KITS[0]})
        expect("each kit that KIT lists will do", done, done.status == 0 and "warning" not in done.err)
        for name, words in ("tools/build", [one.build]), ("fuzz/run", [one.path("fuzz/run"), "replay", "none"]):
            done = one.run(*words, environment={"AS_KIT": "another kit"})
            expect(f"another kit is told by {name}", done, kit.split(":", 1)[1] in done.err)


# It keeps a note of its words, and gives the library.
RATTLE = """#!/bin/sh
echo "$PWD: $*" >>"$SAMPLE/rattled"
[ -z "${BROKEN:-}" ] || { echo 'x.rt:1:1: error' && exit 1; }
echo 'logic=proved functions=1 sum=0a native=nat'
for word; do out=$word; done
cp "$PROVED/libc_api.a" "$out"
"""


def after_ci():
    """What `rt ci` proved is not proved once more, as long as it is what lies there."""
    with sample() as one:
        kit = one.path("kit")
        os.makedirs(os.path.join(kit, "bin"))
        os.symlink(os.path.join(os.path.dirname(one.environment["DOC"]), "toolchain"), os.path.join(kit, "toolchain"))
        with open(os.path.join(kit, "bin/rattle"), "w", encoding="utf-8") as file:
            file.write(RATTLE)
        os.chmod(os.path.join(kit, "bin/rattle"), 0o755)
        one.environment["DOC"] = os.path.join(kit, "START-HERE.md")
        libraries = {crate: f"crates/{crate}/out/rlib/{crate}.rlib" for crate in ("axis", "scales", "c_api")}
        for library in libraries.values():
            os.makedirs(one.path(library))
            change(one.path(library, "format"), "its sums\n")
        os.makedirs(one.path("crates/desk/out"))
        shutil.copy(one.path("made/desk"), one.path("crates/desk/out/desk"))
        os.makedirs(one.path("target/proved"))
        note = ["bash", "-c", ". tools/common.bash && left >target/proved/ci"]
        expect("what rt ci left is noted", done := one.run(*note), done.status == 0)
        done = one.run(one.desk, data=IN)
        expect("what rt ci left is run", done, (done.status, done.out) == (0, OUT) and not one.calls())
        done = one.run(one.build)
        expect("the library is built over what rt ci left", done, done.status == 0 and not one.calls())
        with open(one.path("rattled"), encoding="utf-8") as file:
            where, words = file.read().split(": ")
        due = [
            f"build --crate-name c_api_c src/lib.rt --crate-type staticlib --extern std={kit}/rlibs/std.rlib ",
            f" --extern c_api={one.path(libraries['c_api'])} ",
            *(f" -L dependency={os.path.dirname(one.path(library))} " for library in libraries.values()),
        ]
        good = where == one.path("crates/c_api_c") and words.startswith(due[0]) and all(word in words for word in due)
        tally.expect("the library is built over those libraries", good, words)
        calls = 0
        both = one.desk, one.build
        for what, path, commands in [
            ("a library", libraries["axis"] + "/format", both),
            ("a source", "crates/other/src/lib.rt", both),
            ("a program", "crates/desk/out/desk", [one.desk]),
        ]:
            one.run(*note)
            for kept in ("desk", "libc_api.a"):
                os.remove(one.path("target/proved", kept))
            change(one.path(path), "\n# changed\n")
            for command in commands:
                done = one.run(command, data=IN)
                expect(f"after a change of {what} rt proves", done, done.status == 0 and len(one.calls()) == calls + 2)
                calls = len(one.calls())
        one.run(*note)
        done = one.run(one.build, environment={"BROKEN": "1"})
        lines = done.err.splitlines()
        good = done.status == 1 and WHY in lines
        expect("what is not proved over them is proved by rt, and told", done, good)


def lacking():
    """What is missing or too old is told in a line, before anything is done."""
    with sample() as one:
        done = one.run(one.build, environment=one.bare())
        expect("build: a missing kit is one line", done, done.one_line(1, "build: not in PATH, and needed: rt\n"))
        # tools/build asks for gcc where the processor is another than x86-64.
        one.stand_in("uname", "#!/bin/sh\necho aarch64\n")
        for name, words, status, tool, text in [
            ("desk", [one.desk], 1, "python3", PYTHON),
            ("build", [one.build], 1, "gcc", "#!/bin/sh\necho 'gcc (of 99.9) 1.0'\n"),
            ("fuzz", [one.path("fuzz/run"), "1", "1"], 2, "rustc", "#!/bin/sh\necho 'rustc 1.0 (of 99.9)'\n"),
        ]:
            one.stand_in(tool, text)
            done = one.run(*words, data=IN)
            os.remove(one.path("bin", tool))
            expect(f"{name}: an old {tool} is one line", done, done.one_line(status, f"{name}: too old: {tool} 1.0 (at least "))
        tally.expect("none of these proves or builds", not one.calls() and not os.path.exists(one.path("target")))


def refused():
    """What is not proved is not run."""
    with sample() as one:
        for name, command in ("desk", one.desk), ("build", one.build):
            done = one.run(command, data=IN, environment={"BROKEN": "1"})
            lines = done.err.splitlines()
            due = {WHY, "rt: the library scales did not build, so nothing above it was checked"}
            good = (done.status, done.out) == (1, b"") and len(lines) <= 8 and due <= set(lines)
            expect(f"{name}: what is not proved is told in a few lines", done, good)
            log = re.fullmatch(r".*; (\S+) has all that was said", lines[-1])
            expect(f"{name}: the last names a file with all that was said", done, log and os.path.getsize(log[1]) > 300)
        done = one.run(one.desk, data=IN)
        expect("once it is proved it is run", done, (done.status, done.out) == (0, OUT))
        change(one.path("crates/axis/src/lib.rt"), "\n# changed\n")
        touch = {"MEANWHILE": 'echo >>"$SAMPLE/crates/axis/src/lib.rt"'}
        done = one.run(one.desk, data=IN, environment=touch)
        good = (done.status, done.out) == (1, b"") and "changed meanwhile" in done.err
        expect("what changed while it was proved is not run", done, good)
        done = one.run(one.desk, data=IN)
        expect("and then is proved", done, (done.status, done.out) == (0, OUT))


def everyones(path):
    """The folders of PATH that are not in root's own home."""
    return ":".join(folder for folder in path.split(":") if not folder.startswith(os.path.expanduser("~")))


def read_only(one, *words, **more):
    """In a folder that cannot be written; root can write in any, so that it becomes another."""
    if os.getuid() != 0:
        return one.run(*words, **more)
    drop = ["setpriv", f"--reuid={NOBODY}", f"--regid={NOBODY}", "--clear-groups"]
    return one.run(*drop, *words, environment={"PATH": everyones(one.environment["PATH"]), "HOME": "/"}, **more)


def unwritable():
    with sample() as one:
        if os.getuid() == 0 and not shutil.which("python3", path=everyones(one.environment["PATH"])):
            print("skipped, and not counted: a read-only folder: only root has Python here")
            return
        mode = stat.S_IMODE(os.stat(one.root).st_mode)
        os.chmod(one.root, 0o555)
        for name, command in ("desk", one.desk), ("build", one.build):
            done = read_only(one, command, data=IN)
            good = done.one_line(1, f"{name}: cannot write into ")
            expect(f"{name}: a read-only folder in which nothing is built is one line", done, good)
        os.chmod(one.root, mode)
        for command in (one.desk, one.build):
            one.run(command)
        for folder in ("target", "target/proved", ""):
            os.chmod(one.path(folder), 0o555)
        for name, command, out in ("desk", one.desk, OUT), ("build", one.build, b""):
            done = read_only(one, command, data=IN)
            good = (done.status, done.out, done.err) == (0, out, "")
            expect(f"{name}: a read-only folder in which all is built does", done, good)
        for folder in ("", "target", "target/proved"):
            os.chmod(one.path(folder), mode)
        os.rename(one.path("target"), one.path("old"))
        change(one.path("target"), "a file in its place\n")
        done = one.run(one.desk, data=IN)
        expect("a file in the place of target/ is one line", done, done.one_line(1, "desk: cannot write into "))


def stopped():
    """A signal ends the provers too, and the next run begins anew."""
    for name, number in ("desk", signal.SIGTERM), ("build", signal.SIGTERM), ("desk", signal.SIGINT):
        with sample() as one:
            child = one.begin(one.desk if name == "desk" else one.build, environment={"SLOW": "50"})
            tally.expect(f"{name}: its prover begins", until(lambda: os.path.exists(one.path("sleeper"))))
            with open(one.path("sleeper"), encoding="utf-8") as file:
                until(lambda: os.path.getsize(one.path("sleeper")))
                prover = file.read().strip()
            (os.killpg if number == signal.SIGINT else os.kill)(child.pid, number)
            # Before its output ends, which the prover holds too.
            tally.expect(f"{name}: {number.name} ends the prover", until(lambda: not os.path.exists(f"/proc/{prover}"), 10))
            done = ended(child)
            expect(f"{name}: {number.name} ends it while it proves", done, done.status == -number and "Traceback" not in done.err)
            done = one.run(one.desk, data=IN)
            expect(f"{name}: the next run proves it", done, (done.status, done.out) == (0, OUT) and "waiting" not in done.err)


def check():
    talks()
    again()
    after_ci()
    lacking()
    refused()
    unwritable()
    stopped()
