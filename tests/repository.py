"""Where things lie in the repository, for the checks beside this file."""
import pathlib
import sys

sys.dont_write_bytecode = True

ROOT = pathlib.Path(__file__).resolve().parent.parent


def dependencies():
    """What crates.txt says: each crate's name, which the word staticlib may follow, and the names it depends on."""
    listed = {}
    for line in (ROOT / "crates.txt").read_text().splitlines():
        name, colon, needed = line.split("#")[0].partition(":")
        if colon:
            listed[name.split()[0]] = needed.split()
    return listed


def crates():
    return list(dependencies())


def is_library(crate):
    return (ROOT / "crates" / crate / "src" / "lib.rt").is_file()


class Report:
    """Prints each failure as a line 'failed: WHAT', which ./test counts."""

    def __init__(self):
        self.failures = 0

    def fail(self, what):
        self.failures += 1
        print(f"failed: {what}")

    def end(self, summary):
        print(summary)
        sys.exit(1 if self.failures else 0)
