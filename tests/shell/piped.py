"""./desk in a pipe: what it prints, tells and ends with."""

import os
import re
import shutil
import signal
import subprocess
import tempfile
import time

from made.manual import REFUSED
from refusals import refusals
from room import DESK, ROOT, begin, copied, ended, expect, run, sample, tally
from source import read

LEAP = b"UTC=31-DEC-2016 23:59:60.000000\n"
IN, OUT = LEAP + b"31-DEC-2016 23:59:6", b"TAI=01-JAN-2017 00:00:36.000000\nrefused 1\n"
WORDS = {str(one.number).encode(): one.words.encode() for one in refusals(ROOT)}
MODES = {"./desk": [DESK], "./desk --words": [DESK, "--words"]}


def stored(name):
    with open(os.path.join(ROOT, "tests/desk", name), "rb") as file:
        return file.read()


def with_words(answers):
    """The same lines, each refusal with its words."""
    lines = [line + b": " + WORDS[line[8:]] if line.startswith(b"refused ") else line for line in answers.split(b"\n")]
    return b"\n".join(lines)


def answers():
    many = stored("lines.in"), stored("lines.out")
    often = many[0] * 20, many[1] * 20
    for what, data, out in ("the example", IN, OUT), ("no line", b"", b""), ("the stored lines, often", *often):
        for mode, words in MODES.items():
            done = run(*words, data=data)
            due = with_words(out) if len(words) > 1 else out
            expect(f"{mode}: {what}", done, (done.status, done.out, done.err) == (0, due, ""))
    found = {int(line[8:]) for line in many[1].split(b"\n") if line.startswith(b"refused ")}
    tally.expect("the stored lines bring each refusal that desk gives", found == {*REFUSED}, str(found))
    times = []
    for _ in range(5):
        began = time.monotonic()
        run(DESK, data=IN)
        times.append(time.monotonic() - began)
    tally.expect("a run of a built desk starts in well under a second", min(times) < 0.7, str(times))


def failures():
    """What cannot be read or written is told in one line, with status 1."""
    folder = os.open(ROOT, os.O_RDONLY)
    for mode, words in MODES.items():
        with open("/dev/full", "wb") as full:
            done = run(*words, data=stored("lines.in"), stdout=full)
            expect(f"{mode}: a full disk", done, done.one_line(1, "desk: write: No space left on device"))
        done = run("sh", "-c", 'exec "$@" >&-', "sh", *words, data=IN)
        expect(f"{mode}: standard output is closed", done, done.one_line(1, "desk: write: "))
        done = run("sh", "-c", 'exec "$@" <&-', "sh", *words)
        expect(f"{mode}: standard input is closed", done, done.one_line(1, "desk: read: "))
        done = run(*words, stdin=folder)
        expect(f"{mode}: a directory as input", done, done.one_line(1, "desk: read: Is a directory"))
        done = run("sh", "-c", 'exec "$@" 2>&- </', "sh", *words)
        expect(f"{mode}: standard error is closed too", done, (done.status, done.err) == (1, ""))
    os.close(folder)
    with open("/dev/full", "wb") as full:
        done = run(DESK, "--help", stdout=full)
        expect("--help: a full disk", done, done.one_line(1, "desk: write: No space left on device"))


def signals():
    """A signal ends both it and the program: whoever waits for the end of its output sees it."""
    for mode, words in MODES.items():
        done = run("bash", "-c", '"$@" | head -n 1; exit "${PIPESTATUS[0]}"', "bash", *words, data=stored("lines.in") * 100)
        expect(f"{mode}: nobody reads on", done, (done.status, done.err) == (128 + signal.SIGPIPE, ""))
        for number in (signal.SIGINT, signal.SIGTERM, signal.SIGHUP):
            child = begin(*words)
            child.stdin.write(LEAP)
            child.stdin.flush()
            first = child.stdout.readline()
            tally.expect(f"{mode}: a line is answered before the next is there", first == OUT.split(b"\n")[0] + b"\n", str(first))
            if number == signal.SIGINT:
                os.killpg(child.pid, number)  # as Ctrl-C does
            else:
                child.send_signal(number)
            began = time.monotonic()
            out = child.stdout.read()
            child.wait()
            child.watch.cancel()
            good = (child.returncode, out, child.stderr.read()) == (-number, b"", b"") and time.monotonic() - began < 5
            tally.expect(f"{mode}: it is ended by {number.name} alone, and its program too", good, f"status {child.returncode}")
            child.stdin.close()
    child = begin("nohup", DESK, stderr=subprocess.DEVNULL)
    child.stdin.write(LEAP)
    child.stdin.flush()
    child.stdout.readline()
    child.send_signal(signal.SIGHUP)
    child.stdin.write(b"x\n")
    done = ended(child)
    expect("nohup keeps it from being ended", done, (done.status, done.out) == (0, b"refused 1\n"))


def places():
    """From elsewhere, and through links."""
    with tempfile.TemporaryDirectory() as elsewhere:
        done = run(os.path.relpath(DESK, elsewhere), data=IN, cwd=elsewhere)
        expect("from another folder", done, (done.status, done.out, done.err) == (0, OUT, ""))
        os.symlink(DESK, os.path.join(elsewhere, "first"))
        os.symlink("first", os.path.join(elsewhere, "dates"))
        path = {**os.environ, "PATH": elsewhere + ":" + os.environ["PATH"]}
        for mode, words in ("a link", ["./dates"]), ("a link in PATH", ["sh", "-c", "cd / && dates"]):
            done = run(*words, data=IN, cwd=elsewhere, env=path)
            expect(mode, done, (done.status, done.out, done.err) == (0, OUT, ""))


def words():
    """They are looked at before anything is proved, and need no kit."""
    with sample() as one:
        bare = one.bare()
        done = one.run(one.desk, "--version", environment=bare)
        version = f"desk (vrikshonem) {read(os.path.join(ROOT, 'VERSION'))}"
        expect("--version", done, (done.status, done.out.decode(), done.err) == (0, version, ""))
        done = one.run(one.desk, "--help", environment=bare)
        text = " ".join(done.out.decode().split())
        told = [" ".join(one.words.split()) for one in refusals(ROOT) if one.number in REFUSED]
        expect("--help", done, (done.status, done.err) == (0, "") and text.startswith("usage: desk [--words] < LINES"))
        expect("--help has the refusals in words", done, all(words in text for words in told))
        expect("--help has the exit statuses", done, re.search(r"EXIT STATUS 0 .* 1 .* 2 .* signal", text))
        for unknown in (["-h"], ["lines.in"], [""], ["--words", "--words"], ["--help", "x"], ["--Words"]):
            done = one.run(one.desk, *unknown, data=IN, environment=bare)
            expect(f"the unknown words {unknown}", done, done.one_line(2, "usage: desk [--words] < LINES"))
        tally.expect("none of these proves or builds", not os.path.exists(one.path("target")))
        done = one.run(one.desk, data=IN, environment=bare)
        expect("a missing kit is one line", done, done.one_line(1, "desk: not in PATH, and needed: rt"))
        os.makedirs(one.path("few"))
        for tool in ("sh", "readlink"):
            os.symlink(shutil.which(tool), one.path("few", tool))
        done = one.run(one.desk, data=IN, environment={"PATH": one.path("few")})
        expect("a missing Python is one line", done, done.one_line(1, "desk: not in PATH, and needed: python3"))


def check():
    done = run(os.path.join(ROOT, "tools/prove"), "desk", "desk")
    expect("desk is built", done, done.status == 0)
    done = run(os.path.join(ROOT, "tools/build"))
    expect("the library is built", done, done.status == 0)
    copied()
    answers()
    failures()
    signals()
    places()
    words()
