#!/usr/bin/env python3
"""Compares what `make dist` makes in two checkouts: the bytes have to be the same. So have those of the program that a third one builds over the
libraries that the first has made an archive of, which proves one crate.

usage: anew.py [CHECKOUT CHECKOUT]

Without checkouts, two clones of this one are made in folders of their own, and the program is proved and built in each from nothing. That takes
as long as two first starts.
"""

import re
import subprocess
import sys
import tempfile
from pathlib import Path

sys.path.append(str(Path(__file__).resolve().parents[1]))
from folders import PROGRAM, TOP

import skipped


def made_in(checkout):
    """What `make dist` makes in a checkout, by name."""
    subprocess.run(["make", "-s", "dist"], cwd=checkout, check=True)
    return {it.name: it.read_bytes() for it in (checkout / "dist").iterdir()}


def clone(name, folder):
    to = Path(folder) / name
    subprocess.run(["git", "clone", "--quiet", str(TOP), str(to)], check=True)
    return to


def built_over(archive, checkout):
    """The program that a checkout builds over the libraries of an archive, and how many crates that proved."""
    unpacked = subprocess.run(["zstd", "-dc", "--long=30", archive], capture_output=True, check=True).stdout
    subprocess.run(["tar", "x"], input=unpacked, cwd=checkout, check=True)
    said = subprocess.run(["make", "-s"], cwd=checkout, capture_output=True, text=True, check=True).stderr
    return (checkout / PROGRAM.relative_to(TOP)).read_bytes(), len(re.findall(r" proved, ", said))


def play(checkouts, third):
    """How many files are the same, and how many aren't."""
    first, second = (made_in(it) for it in checkouts)
    archive = next(it for it in (checkouts[0] / "dist").iterdir() if it.name.endswith("-proved.tar.zst"))
    wanted = (checkouts[0] / PROGRAM.relative_to(TOP)).read_bytes(), 1
    differ = sorted(name for name in {*first, *second} if first.get(name) != second.get(name))
    if built_over(archive, third) != wanted:
        differ.append("what is built over the libraries")
    for name in differ:
        print(f"anew: {name} differs")
    return len(first) + 1 - len(differ), len(differ)


def main():
    with tempfile.TemporaryDirectory() as folder:
        checkouts = [Path(it).resolve() for it in sys.argv[1:3]] or [clone(name, folder) for name in ("first", "second")]
        passed, failed = play(checkouts, clone("third", folder))
    print(skipped.counts(passed, failed))
    return failed > 0 or passed == 0


if __name__ == "__main__":
    sys.exit(main())
