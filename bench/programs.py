"""What both measurements need: plain C compiled as the library is, programs for x86-64 run, and their instructions counted."""

import functools
import os
import platform
import re
import shutil
import subprocess
import sys

ROOT = os.path.normpath(os.path.join(os.path.dirname(os.path.abspath(__file__)), ".."))
ROOM = os.path.join(ROOT, "target/bench")
EMULATED = platform.machine() != "x86_64"
PLACE = f"on {platform.machine()}" + (", all under the same emulator for x86-64" if EMULATED else "")
LEVEL = "-O3"  # at which the kit compiles what is proved


def call(*words, **more):
    return subprocess.run(words, check=True, cwd=ROOT, **more)


@functools.cache
def loader():
    """The words before a program that is linked with the kit's C library; no shell is among them, since all is counted."""
    return call("tools/x86-64", stdout=subprocess.PIPE, text=True).stdout.splitlines()


def ask(*tools):
    """They are in PATH, and none is too old; else it ends with a line."""
    asked = ["bash", "-c", 'me=bench; . tools/common.bash; needed "$@"', "bench", *tools]
    if subprocess.run(asked, cwd=ROOT).returncode != 0:
        sys.exit(1)


def compile_c(*words, flags=""):
    call("tools/x86-64-cc", *words, env=dict(os.environ, X86_CPPFLAGS=f"{LEVEL} {flags}"))


# Other libraries' names are found at the start, which is taken off, and not in the first calls.
NAMED = dict(os.environ, LD_BIND_NOW="1")


def _emulated(words, path):
    """The emulator tells each instruction in a line of its own when it takes them one by one."""
    settings = dict(NAMED, QEMU_ONE_INSN_PER_TB="1", QEMU_LOG="exec,nochain")
    begin, count, rest = b"\nTrace ", 0, b""
    with open(path, "rb") as file:
        pipes = {"stdin": file, "stdout": subprocess.DEVNULL, "stderr": subprocess.PIPE}
        with subprocess.Popen(words, env=settings, **pipes) as child:
            while part := child.stderr.read(1 << 20):
                part = rest + part
                count += part.count(begin)
                rest = part[1 - len(begin) :]
    if child.returncode != 0:
        sys.exit(f"{' '.join(words)}: status {child.returncode}")
    return count


def _told_by_valgrind(words, path):
    """One process is followed, the one that the words begin."""
    tool = ["valgrind", "--tool=callgrind", "--callgrind-out-file=/dev/null"]
    with open(path, "rb") as file:
        pipes = {"stdin": file, "stdout": subprocess.DEVNULL, "stderr": subprocess.PIPE}
        said = call(*tool, *words, env=NAMED, **pipes).stderr.decode()
    (count,) = re.findall(r"Collected : (\d+)", said)
    return int(count)


def can_count():
    return EMULATED or shutil.which("valgrind") is not None


def instructions(words, path=os.devnull):
    """How many a program takes with a file as its input."""
    return (_emulated if EMULATED else _told_by_valgrind)(words, path)


def wanted(defaults, usage):
    """The whole numbers above 0 that were typed, and the defaults of the others."""
    typed = sys.argv[1:]
    if len(typed) > len(defaults) or not all(word.isdecimal() and int(word) > 0 for word in typed):
        sys.exit(usage)
    return [int(word) for word in typed] + defaults[len(typed) :]
