"""Two commands at once wait for each other, and say for whom."""

import fcntl
import os
import re
import shutil
import signal
import subprocess

from piped import IN, OUT
from room import ended, expect, sample, tally, until


def overlaps(calls):
    """Whether rt began before another had ended."""
    return any(one.split()[0] != ("begin", "end")[at % 2] for at, one in enumerate(calls)) or len(calls) % 2


def started(one, *words):
    child = one.begin(*words)
    child.stdin.write(IN)
    child.stdin.close()
    child.stdin = None
    return child


def at_once():
    """Three at once: while one proves, the others wait."""
    with sample() as one:
        one.busy(True)
        first = started(one, one.build)
        tally.expect("the first is at work", until(one.calls))
        others = {"./desk": started(one, one.desk), "tools/build": started(one, one.build)}
        for name, child in others.items():
            line = child.stderr.readline().decode()
            like = rf"(desk|build): waiting for build \(process {first.pid}\), which is at work here\n"
            tally.expect(f"three at once: {name} says for whom it waits", re.fullmatch(like, line), line)
        one.busy(False)
        for name, child in {"the first tools/build": first, **others}.items():
            done = ended(child)
            expect(f"three at once: {name} does its work", done, (done.status, done.out) == (0, OUT if "desk" in name else b""))
        tally.expect("three at once: no two provers run at once", not overlaps(one.calls()), str(one.calls()))


def cleaned():
    """A clean-up takes no lock away."""
    with sample() as one:
        one.busy(True)
        first = started(one, one.desk)
        until(one.calls)
        shutil.rmtree(one.path("target"))
        second = started(one, one.build)
        line = second.stderr.readline().decode()
        told = "build: waiting for another command, which is at work here\n"
        tally.expect("after a clean-up the second waits all the same", line == told, line)
        one.busy(False)
        ended(first)
        done = ended(second)
        expect("after a clean-up the second does its work", done, done.status == 0)
        tally.expect("after a clean-up no two provers run at once", not overlaps(one.calls()), str(one.calls()))
        done = one.run(one.desk, data=IN)
        expect("after a clean-up all is built again", done, (done.status, done.out) == (0, OUT))


def builds():
    """Two builds at once, each from nothing."""
    with sample() as one:
        children = [started(one, one.build) for _ in range(2)]
        for done in map(ended, children):
            expect("two builds at once", done, done.status == 0)
        first = tree(one)
        tally.expect("two builds at once lay out the library", any(path.endswith("libvrikshonem.a") for path in first))
        shutil.rmtree(one.path("target/dist"))
        expect("what was taken away is laid out again", one.run(one.build), tree(one) == first)
        os.remove(one.path("target/dist/include/vrikshonem.h"))
        done = one.run(one.build)
        expect("a file that was taken away is laid out again", done, tree(one) == first)
        done = one.run(one.build, "--all")
        expect("tools/build: an unknown word", done, done.one_line(2, "usage: tools/build"))


def tree(one):
    """What is laid out: paths and sizes."""
    found = {}
    for folder, _, files in os.walk(one.path("target/dist")):
        for name in files:
            found[os.path.relpath(os.path.join(folder, name), one.root)] = os.path.getsize(os.path.join(folder, name))
    return found


def fuzzed():
    """The fuzzer works alone in its folder, and whoever builds need not wait for it."""
    with sample() as one:
        folder = os.open(one.path("fuzz"), os.O_RDONLY)
        fcntl.flock(folder, fcntl.LOCK_EX)
        child = one.begin(one.path("fuzz/run"), "1", "1", stdin=subprocess.DEVNULL)
        line = child.stderr.readline().decode()
        tally.expect("fuzz/run waits for another", line == "fuzz: waiting for another command, which is at work here\n", line)
        done = one.run(one.desk, data=IN)
        expect("nobody waits for the fuzzer", done, (done.status, done.out) == (0, OUT) and "waiting" not in done.err)
        os.killpg(child.pid, signal.SIGTERM)
        ended(child)
        os.close(folder)


def check():
    at_once()
    cleaned()
    builds()
    fuzzed()
