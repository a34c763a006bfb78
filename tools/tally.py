"""Counts tests and closes with the line that ./test reads; lays sample repositories out."""

import contextlib
import os
import sys
import tempfile


class Tally:
    def __init__(self):
        self.passed = 0
        self.failed = 0
        # Reasons hold symbols, and the locale may have no way to print them.
        sys.stdout.reconfigure(encoding="utf-8", line_buffering=True)

    def expect(self, what, good, why=""):
        if good:
            self.passed += 1
        else:
            self.failed += 1
            print(f"FAILED: {what}" + (f": {why}" if why else ""))

    def close(self):
        """Prints the sum, and gives the exit status."""
        print(f"{self.passed} passed, {self.failed} failed")
        return 0 if self.passed and not self.failed else 1


@contextlib.contextmanager
def sample(files):
    """A folder with the files of a dict: a path and its text, or None for a file that is left out."""
    with tempfile.TemporaryDirectory() as root:
        for path, text in files.items():
            if text is not None:
                full = os.path.join(root, path)
                os.makedirs(os.path.dirname(full), exist_ok=True)
                with open(full, "w", encoding="utf-8") as file:
                    file.write(text)
        yield root
