"""What the checks of the bindings share: the folder that they work in, the count, and how a program is run."""

import os
import subprocess

from tally import Tally

ROOT = os.path.normpath(os.path.join(os.path.dirname(os.path.abspath(__file__)), "..", ".."))
ROOM = "target/bindings"
HEADER, SYS = "include/vrikshonem.h", "rust/src/sys.rs"
WARNINGS = ["-Wall", "-Wextra", "-Wpedantic", "-Werror"]
os.chdir(ROOT)
os.makedirs(ROOM, exist_ok=True)
os.environ.update(PYTHONDONTWRITEBYTECODE="1", CARGO_TARGET_DIR=os.path.join(ROOT, ROOM, "rust"))
os.environ.pop("VRIKSHONEM_LIB", None)
PYTHON = {"env": {**os.environ, "PYTHONPATH": "python"}}
tally = Tally()


def run(*words, **more):
    """The exit status, and all that was printed."""
    done = subprocess.run(words, stdout=subprocess.PIPE, stderr=subprocess.STDOUT, stdin=subprocess.DEVNULL, **more)
    return done.returncode, done.stdout.decode("utf-8", "replace")


def good(what, *words, **more):
    status, said = run(*words, **more)
    tally.expect(what, status == 0, said[-2000:])
    return status == 0


def skipped(what, why):
    print(f"skipped, and not counted: {what}: {why}")


def written(name, text):
    path = os.path.join(ROOM, name)
    os.makedirs(os.path.dirname(path), exist_ok=True)
    with open(path, "wb") as file:
        file.write(text if isinstance(text, bytes) else text.encode())
    return path


def changed(text, old, new):
    if text.count(old) != 1:
        tally.expect(f"the fault's place '{old}' stands there once", False, str(text.count(old)))
    return text.replace(old, new)
