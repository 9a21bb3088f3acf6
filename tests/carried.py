"""Whether a program is that of the sources that stand here, by their checksums: those of `b2sum --length=256`, as bin/sources.sh has them."""
import hashlib
import os
import re

from part import TOP, read, text_of


def crates_of(name):
    """The crates of this repository that a crate stands on, and this one."""
    below = {line.split(":")[0]: line.split(":")[1].split() for line in text_of("crates.txt").split("\n") if re.match(r"\w+:", line)}
    found, waiting = set(), [name]
    while waiting:
        crate = waiting.pop()
        if crate in below and crate not in found:
            found.add(crate)
            waiting += below[crate]
    return found


def sums():
    """The checksum of each source of the program, by its path from the top."""
    paths = [os.path.join(folder, name) for crate in crates_of("faustvec") for folder, _, names in os.walk(os.path.join(TOP, "crates", crate, "src"))
             for name in names if name.endswith(".rt")]
    return {os.path.relpath(path, TOP): hashlib.blake2b(read(path), digest_size=32).hexdigest() for path in paths}


def others(folder):
    """The sources that stand here and are not those that the program in this folder was built from, or stood here then alone."""
    said = (read(os.path.join(folder, "sources.b2")) or b"").decode()
    built = {path: checksum for checksum, path in (line.split("  ", 1) for line in said.splitlines())}
    here = sums()
    return sorted(path for path in {*built, *here} if built.get(path) != here.get(path))
