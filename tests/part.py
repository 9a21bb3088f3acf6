"""What the parts of tests/run share: the program that is tried, runs of it, and a count of the rows that passed and failed.

The program is the one that the variable FAUSTVEC names, and without it the one that the repository carries. A part prints a line for each
row that fails and, as its last line, `N passed, M failed`."""
import os
import subprocess
import sys

TOP = os.path.realpath(os.path.join(os.path.dirname(os.path.abspath(__file__)), ".."))
CARRIED = os.path.join(TOP, "dist/x86_64-linux/faustvec")
PROGRAM = os.path.abspath(os.environ.get("FAUSTVEC") or CARRIED)
SECONDS = 60


def need_program(path=PROGRAM):
    """Ends with a line that says what to build, where there is no program."""
    if not (os.path.isfile(path) and os.access(path, os.X_OK)):
        sys.exit(f"there is no program {path}: build first: bin/build")


def run(words, folder):
    """What the program says with these words in a folder, and its status. What it says on standard error counts too, as it says nothing there."""
    try:
        done = subprocess.run([PROGRAM, *words], cwd=folder, stdin=subprocess.DEVNULL, stdout=subprocess.PIPE, stderr=subprocess.STDOUT, timeout=SECONDS)
    except subprocess.TimeoutExpired:
        return "(still running)", None
    return done.stdout.decode("latin-1").rstrip("\n"), done.returncode


def read(path):
    """The bytes of a file, or nothing where there is none."""
    if not os.path.isfile(path):
        return None
    with open(path, "rb") as file:
        return file.read()


def write(path, data):
    with open(path, "wb") as file:
        file.write(data)


def text_of(path):
    """A page of this repository."""
    with open(os.path.join(TOP, path), encoding="utf-8") as file:
        return file.read()


class Part:
    """How many rows passed and failed. What fails is told at once."""

    def __init__(self):
        self.passed = self.failed = 0

    def tell(self, problem):
        """Counts a row, which failed where there is a problem."""
        if problem:
            # A word may be no text.
            print(problem.encode(errors="backslashreplace").decode(), flush=True)
            self.failed += 1
        else:
            self.passed += 1

    def holds(self, whether, problem):
        self.tell(None if whether else problem)

    def ends(self, words, folder, status, line):
        """Counts a run with these words in a folder, which ends with this status and line. Answers whether it does."""
        said, got = run(words, folder)
        is_so = (said, got) == (line, status)
        self.holds(is_so, f"faustvec {' '.join(words)}: status {got} and '{said}', where status {status} and '{line}' are expected")
        return is_so

    def end(self):
        """The part's last line, and its status."""
        print(f"{self.passed} passed, {self.failed} failed")
        return 1 if self.failed else 0
