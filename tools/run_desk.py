"""What ./desk does: proves and builds the program where that is not done yet, then runs it. The program tells what failed and
ends with status 0; this gives it one, and leaves its input and output alone. Its input comes as number 3."""

import errno
import os
import re
import resource
import select
import signal
import subprocess
import sys

sys.dont_write_bytecode = True
if sys.version_info < (3, 9):
    sys.exit("desk: too old: python3 %d.%d (at least 3.9 is needed)" % sys.version_info[:2])
ROOT = os.path.normpath(os.path.join(os.path.dirname(os.path.abspath(__file__)), ".."))
PROVE = [os.path.join(ROOT, "tools/prove"), "desk", "desk"]
LOADER, PROGRAM = [os.path.join(ROOT, "tools/x86-64")], os.path.join(ROOT, "target/proved/desk")
# What the program says where nobody reads on: SIGPIPE, which would end it, is ignored in it from its start.
UNREAD = f"desk: write: {os.strerror(errno.EPIPE)}\n".encode()
running = []
starting, missed = False, []  # whether a program is being started, and the signals that came meanwhile


def tell(text):
    try:
        os.write(2, text)
    except OSError:
        pass  # nobody is there to be told


def put(data):
    """All of it onto standard output. Whoever reads no more ends this by SIGPIPE, as is usual in a pipe."""
    signal.signal(signal.SIGPIPE, signal.SIG_DFL)
    while data:
        data = data[os.write(1, data) :]


def failed(wrong):
    """A write failed; the exit status."""
    tell(f"desk: write: {wrong.strerror}\n".encode())
    return 1


def end(number):
    """Ends by the signal that ended the program."""
    resource.setrlimit(resource.RLIMIT_CORE, (0, 0))
    signal.signal(number, signal.SIG_DFL)
    os.kill(os.getpid(), number)


def pass_on(number, _):
    for child in running:
        child.send_signal(number)
    if starting:
        missed.append(number)
    elif not running:
        end(number)


def take_input():
    try:
        os.dup2(3, 0)
        os.close(3)
    except OSError:
        os.close(0)  # the caller closed it, and reading it fails


def start(words, **pipes):
    """A program that is sent the signals that this one is sent, and those that come before it is known."""
    global starting
    starting = True
    child = subprocess.Popen(words, **pipes)
    running.append(child)
    starting = False
    while missed:
        child.send_signal(missed.pop())
    return child


def ready(pipe):
    """The pipe, when there is something to read. No wait is long, since a signal that comes just before one is heeded after it."""
    while not select.select([pipe], [], [], 0.1)[0]:
        pass
    return pipe


def explain(lines):
    """Prints the lines, each refusal with its words behind its number."""
    from refusals import refusals

    words = {str(one.number).encode(): one.words.encode() for one in refusals(ROOT)}
    rest = b""
    for part in iter(lambda: os.read(ready(lines).fileno(), 1 << 16), b""):
        whole, newline, rest = (rest + part).rpartition(b"\n")
        put(re.sub(rb"(?m)^refused (\d+)$", lambda refused: refused[0] + b": " + words[refused[1]], whole + newline))
    put(rest)


def answer(loader, with_words):
    """The exit status. The program writes to standard error only where a read or a write failed."""
    child = start([*loader, PROGRAM], stdout=subprocess.PIPE if with_words else None, stderr=subprocess.PIPE)
    try:
        if with_words:
            explain(child.stdout)
    except OSError as wrong:
        child.kill()
        return failed(wrong)
    said = ready(child.stderr).read()
    status = child.wait()
    if said == UNREAD:
        end(signal.SIGPIPE)  # as is usual in a pipe
    tell(said)
    if status < 0:
        end(-status)
    return 1 if status or said else 0


def inform(words):
    """What needs no program; the exit status."""
    from made import manual

    try:
        if words == ["--help"]:
            put(manual.helping(ROOT).encode())
        elif words == ["--version"]:
            put(f"desk (vrikshonem) {manual.version(ROOT)}\n".encode())
        else:
            tell(f"usage: {manual.USAGE}  (desk --help tells more)\n".encode())
            return 2
    except OSError as wrong:
        return failed(wrong)
    return 0


def main(words):
    if words not in ([], ["--words"]):
        return inform(words)
    take_input()
    for number in (signal.SIGHUP, signal.SIGINT, signal.SIGTERM):
        # What the caller wants ignored (nohup) stays so.
        if signal.getsignal(number) != signal.SIG_IGN:
            signal.signal(number, pass_on)
    # rt takes its time to tell where the loader is: meanwhile the program is proved.
    loader = start(LOADER, stdin=subprocess.DEVNULL, stdout=subprocess.PIPE, stderr=subprocess.PIPE)
    status = start(PROVE, stdin=subprocess.DEVNULL, stdout=subprocess.DEVNULL).wait()
    before, said = loader.communicate()
    running.clear()
    if status < 0:
        end(-status)
    if status or loader.returncode:
        tell(b"" if status else said)
        return 1
    return answer(before.decode().splitlines(), "--words" in words)


sys.exit(main(sys.argv[1:]))
