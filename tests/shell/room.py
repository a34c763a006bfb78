"""What the checks of the shell share: the count, how a command is run, and repositories with an rt of their own."""

import contextlib
import os
import shutil
import signal
import subprocess
import tempfile
import threading
import time

from tally import Tally

ROOT = os.path.normpath(os.path.join(os.path.dirname(os.path.abspath(__file__)), "..", ".."))
# A copy with all that ./desk needs, once `copied` has made it: its KIT names this machine's kit, whichever that is.
_folder = tempfile.TemporaryDirectory()
COPY = _folder.name
DESK = os.path.join(COPY, "desk")
MOST = 60  # seconds that a command may take
KITS = "kit 1", "kit 2"  # those of a sample's KIT; its rt is of the last
tally = Tally()

# In a crate's folder it tells a crate below and that one, keeps a note of when it began and ended, waits for SLOW seconds or while
# there is a file `busy`, and gives what the real one made.
RT = """#!/usr/bin/env bash
case $1 in
version) echo "${AS_KIT:-kit 2}" ;;
doc) echo "$DOC" ;;
run | lib)
    crate=${PWD##*/}
    echo "begin $* $crate" >>"$SAMPLE/calls"
    [ -z "${SLOW:-}" ] || { sleep "$SLOW" & echo $! >"$SAMPLE/sleeper" && wait; }
    while [ -e "$SAMPLE/busy" ]; do sleep 0.02; done
    eval "${MEANWHILE:-}"
    echo 'rt: chose --jobs 2 for scales'
    echo "a prover's word"
    if [ -n "${BROKEN:-}" ]; then
        for n in $(seq 300); do echo "a prover's word"; done
        echo 'fn scales::f: not proved; a word of why'
        echo 'rt: the library scales did not build, so nothing above it was checked' >&2
        echo "end $* $crate" >>"$SAMPLE/calls"
        exit 1
    fi
    echo 'logic=proved functions=1 sum=0a native=nat'
    echo "rt: chose --jobs 2 for $crate" >&2
    echo 'logic=proved functions=1 sum=0a native=nat' >&2
    mkdir -p out
    case $crate in
    desk) cp "$PROVED/desk" out/desk ;;
    c_api_c) cp "$PROVED/libc_api.a" out/libc_api_c.a ;;
    esac
    echo "end $* $crate" >>"$SAMPLE/calls"
    ;;
*) exit 2 ;;
esac
"""


class Done:
    """A command that has ended: its status, negative where a signal ended it, and what it printed and told."""

    def __init__(self, status, out, err):
        self.status, self.out = status, out
        self.err = (err or b"").decode("utf-8", "replace")

    def __str__(self):
        return f"status {self.status}, {self.out[:200]!r}, {self.err[-600:]!r}"

    def one_line(self, status, begin):
        """Ended so, with nothing printed and one line told."""
        return (self.status, self.out, self.err.count("\n")) == (status, b"", 1) and self.err.startswith(begin)


def heeding():
    """As in a terminal: whoever runs this in the background may have these ignored."""
    for number in (signal.SIGHUP, signal.SIGINT, signal.SIGQUIT):
        signal.signal(number, signal.SIG_DFL)


def begin(*words, **more):
    """Starts a command in a group of its own, as a terminal does. What of it does not end is ended."""
    pipes = {"stdin": subprocess.PIPE, "stdout": subprocess.PIPE, "stderr": subprocess.PIPE, **more}
    child = subprocess.Popen(words, start_new_session=True, preexec_fn=heeding, **pipes)
    child.watch = threading.Timer(MOST, os.killpg, [child.pid, signal.SIGKILL])
    child.watch.daemon = True
    child.watch.start()
    return child


def ended(child, data=None):
    """A command that was started, at its end; these bytes are the rest of its input."""
    out, err = child.communicate(data if child.stdin else None)
    child.watch.cancel()
    return Done(child.returncode, out or b"", err)


def run(*words, data=b"", **more):
    """Runs a command to its end, with these bytes as its input unless it is given another."""
    return ended(begin(*words, **more), data)


def until(condition, seconds=MOST / 2):
    """Whether it comes to hold soon."""
    end = time.monotonic() + seconds
    while not condition():
        if time.monotonic() > end:
            return False
        time.sleep(0.02)
    return True


def expect(what, done, good):
    tally.expect(what, good, str(done))


class Sample:
    """A repository with two crates and an rt of its own: its folder, and the environment in which its commands are run."""

    def __init__(self, root, environment):
        self.root, self.environment = root, environment
        self.desk, self.build = os.path.join(root, "desk"), os.path.join(root, "tools/build")

    def run(self, *words, data=b"", environment=(), **more):
        return run(*words, data=data, env={**self.environment, **dict(environment)}, cwd=self.root, **more)

    def begin(self, *words, environment=(), **more):
        return begin(*words, env={**self.environment, **dict(environment)}, cwd=self.root, **more)

    def path(self, *names):
        return os.path.join(self.root, *names)

    def stand_in(self, tool, text):
        """A tool of its own, first in PATH."""
        os.makedirs(self.path("bin"), exist_ok=True)
        with open(self.path("bin", tool), "w", encoding="utf-8") as file:
            file.write(text)
        os.chmod(self.path("bin", tool), 0o755)

    def bare(self):
        """What of the environment is another where there is no kit."""
        folders = self.environment["PATH"].split(":")
        return {"PATH": ":".join(folder for folder in folders if not os.path.exists(os.path.join(folder, "rt")))}

    def busy(self, is_busy):
        """Keeps rt from its end."""
        if is_busy:
            open(self.path("busy"), "w").close()
        else:
            os.remove(self.path("busy"))

    def calls(self):
        """What rt was called for, each with 'begin' or 'end' in front."""
        with contextlib.suppress(OSError), open(self.path("calls"), encoding="utf-8") as file:
            return file.read().splitlines()
        return []


def lay_out(root, names, kits):
    """These files and folders of this repository, and a KIT that lists these."""
    for name in names:
        place = os.path.join(root, name)
        os.makedirs(os.path.dirname(place), exist_ok=True)
        (shutil.copytree if os.path.isdir(os.path.join(ROOT, name)) else shutil.copy)(os.path.join(ROOT, name), place)
    with open(os.path.join(root, "KIT"), "w", encoding="utf-8") as file:
        file.write("# The kits\n" + "".join(f"{kit}\n" for kit in kits))


def asked(*words):
    """What this machine's rt says."""
    return subprocess.run(["rt", *words], stdout=subprocess.PIPE, text=True, check=True).stdout.strip()


def copied():
    """Makes the copy, of what is built here."""
    names = "desk", "VERSION", "refusals.txt", "crates.txt", "crates", "tools", "examples", "target/proved"
    lay_out(COPY, names, [asked("version")])


@contextlib.contextmanager
def sample():
    """What a command needs of this repository, and crates of one file each. Others can read it."""
    with tempfile.TemporaryDirectory() as root:
        os.chmod(root, 0o755)
        lay_out(root, ("desk", "VERSION", "refusals.txt", "tools", "include", "tests/compare", "fuzz"), KITS)
        with open(os.path.join(root, "crates.txt"), "w", encoding="utf-8") as file:
            file.write("axis:  # below\nscales: axis\nother:\ndesk: axis scales hex\nc_api: axis scales\n")
            file.write("c_api_c staticlib: c_api  # for C\n")
        for crate in ("axis", "scales", "other", "desk", "c_api", "c_api_c"):
            os.makedirs(os.path.join(root, "crates", crate, "src"))
            with open(os.path.join(root, "crates", crate, "src/lib.rt"), "w", encoding="utf-8") as file:
                file.write(crate)
        shutil.copytree(os.path.join(ROOT, "target/proved"), os.path.join(root, "made"))
        own = {"PATH": os.path.join(root, "bin") + ":" + os.environ["PATH"]}
        one = Sample(root, {**os.environ, **own, "SAMPLE": root, "DOC": asked("doc"), "PROVED": os.path.join(root, "made")})
        one.stand_in("rt", RT)
        yield one
