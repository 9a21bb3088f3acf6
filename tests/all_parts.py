"""Runs the parts of tests/run, as many side by side as there are processors, and adds up what passed and failed.

A part is an executable tests/check-NAME; and 2,000 cases of tests/fuzz.py are four parts. What a part tells is printed when it has ended,
under its name, and so is what it is that did not end with a line `N passed, M failed`.

    all_parts.py [--add PASSED FAILED] [PART..]      these parts alone; what passed and failed before is added to the sum"""
import argparse
import concurrent.futures
import glob
import os
import re
import signal
import subprocess
import sys
import time

sys.dont_write_bytecode = True
from carried import others
from part import CARRIED, PROGRAM, TOP, need_program

CASES, CASES_EACH = 2000, 500
SECONDS = 600
running = set()
COUNTS = re.compile(r"(\d+) passed, (\d+) failed")


def parts():
    """Each part's name and its words, those that take longest first."""
    found = {f"fuzz-{first}": ["tests/fuzz.py", f"--first={first}", f"--count={CASES_EACH}", "--jobs=1"] for first in range(0, CASES, CASES_EACH)}
    for path in sorted(glob.glob(os.path.join(TOP, "tests/check-*"))):
        found[os.path.basename(path)] = [os.path.relpath(path, TOP)]
    return found


def said_by(child):
    """What a part says until its end, or until its time is over, and then that."""
    running.add(child)
    try:
        return child.communicate(timeout=SECONDS)[0].decode(errors="backslashreplace")
    except subprocess.TimeoutExpired:
        os.killpg(child.pid, signal.SIGKILL)
        return child.communicate()[0].decode(errors="backslashreplace") + f"it did not end within {SECONDS} s"
    finally:
        running.discard(child)


def ended(words):
    """What a part said, without its last line, and what it counted; where it did not come to that line, one that failed."""
    try:
        # a session of its own, so that it can be ended with all that it started
        child = subprocess.Popen(words, cwd=TOP, stdin=subprocess.DEVNULL, stdout=subprocess.PIPE, stderr=subprocess.STDOUT, start_new_session=True)
    except OSError as error:
        return f"{words[0]} cannot be started: {error.strerror}", 0, 1
    said = said_by(child).rstrip("\n")
    told, _, last = said.rpartition("\n")
    counts = COUNTS.fullmatch(last)
    if counts and (child.returncode != 0) == (int(counts[2]) > 0):
        return told, int(counts[1]), int(counts[2])
    return f"{said}\n{words[0]} ended with status {child.returncode}, and not as a part does", 0, 1


class Shown:
    """Says how far the run is: on a terminal in one line that is written over, else in a line for each part."""

    def __init__(self, names):
        self.waiting, self.count, self.is_terminal = list(names), len(names), sys.stdout.isatty()
        self.passed = self.failed = 0

    def at(self):
        if self.is_terminal and self.waiting:
            line = f"{self.count - len(self.waiting)} of {self.count} parts: {self.passed} passed, {self.failed} failed; at {', '.join(self.waiting)}"
            print(f"\r\033[K{line[:100]}", end="", flush=True)

    def has_ended(self, name, seconds, told, passed, failed):
        self.waiting.remove(name)
        self.passed += passed
        self.failed += failed
        if self.is_terminal:
            print("\r\033[K", end="")
        if told or not self.is_terminal:
            print(f"{name}: {passed} passed, {failed} failed, in {seconds:.0f} s")
        if told:
            print(told)
        self.at()


def timed(words):
    began = time.time()
    return (*ended(words), time.time() - began)


def run_all(chosen, shown):
    workers = len(os.sched_getaffinity(0))
    with concurrent.futures.ThreadPoolExecutor(workers) as pool:
        shown.at()
        names = {pool.submit(timed, words): name for name, words in chosen.items()}
        try:
            for done in concurrent.futures.as_completed(names):
                told, passed, failed, seconds = done.result()
                shown.has_ended(names[done], seconds, told, passed, failed)
        except KeyboardInterrupt:
            for waiting in names:
                waiting.cancel()
            for child in list(running):
                os.killpg(child.pid, signal.SIGKILL)
            raise


def say_which():
    """Says which program is tried, where it is not the carried one of the sources that stand here."""
    need_program()
    if PROGRAM != CARRIED:
        print(f"The program is {PROGRAM}.")
        return
    changed = others(os.path.dirname(CARRIED))
    if changed:
        more = f" and {len(changed) - 1} more" if len(changed) > 1 else ""
        print(f"The carried program is not of the sources that stand here ({changed[0]}{more}), and is tried all the same.")


def main():
    parser = argparse.ArgumentParser(prog="tests/run", description=__doc__, formatter_class=argparse.RawDescriptionHelpFormatter)
    parser.add_argument("parts", nargs="*", metavar="PART")
    parser.add_argument("--add", nargs=2, type=int, default=(0, 0), metavar=("PASSED", "FAILED"))
    options = parser.parse_args()
    found = parts()
    unknown = [name for name in options.parts if name not in found]
    if unknown:
        parser.error(f"there is no part {unknown[0]}: there are {', '.join(found)}")
    try:
        say_which()
    except SystemExit as missing:
        print(f"{missing}\n{options.add[0]} passed, {options.add[1] + 1} failed")
        return 1
    shown = Shown(options.parts or found)
    run_all({name: found[name] for name in options.parts or found}, shown)
    passed, failed = shown.passed + options.add[0], shown.failed + options.add[1]
    print(f"{passed} passed, {failed} failed", flush=True)
    return 1 if failed else 0


if __name__ == "__main__":
    signal.signal(signal.SIGTERM, signal.default_int_handler)
    try:
        sys.exit(main())
    except KeyboardInterrupt:
        print("\ninterrupted")
        sys.exit(130)
