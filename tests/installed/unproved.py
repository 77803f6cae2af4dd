#!/usr/bin/env python3
"""Runs `make try` and `./tigertopo` in a copy of the repository in which nothing is proved. They have to print on standard output what README
shows, and to say once that the program isn't proved yet; so have a file that is made, a pipe, a long output, and a status; and the program
that is built there without its proof has to do all that the rows tell.

usage: unproved.py
"""

import re
import shutil
import subprocess
import sys
import tempfile
from pathlib import Path

sys.path.append(str(Path(__file__).resolve().parents[1]))
from folders import EXAMPLES, TOP

import rows

COPIED = ["crates", "proving", "examples", "tigertopo", "Makefile", "crates.txt", "HANDLES"]
SAID = "tigertopo: this program was tried and isn't proved yet: `make` proves it\n"
# Chains of the long output, each a line of some 60 bytes.
MANY = 50_000


def copy(to):
    """Copies what `make try` needs, without what was built."""
    for name in COPIED:
        if (TOP / name).is_dir():
            shutil.copytree(TOP / name, to / name, ignore=shutil.ignore_patterns("out", "__pycache__"))
        else:
            shutil.copy(TOP / name, to / name)


def run(words, top, **more):
    return subprocess.run(words, cwd=top, capture_output=True, text=True, **more)


def shown():
    """What README shows of `make try`."""
    return re.search(r"^\$ make try\n(.*?)^```", (TOP / "README.md").read_text(), re.M | re.S)[1]


def long_records():
    """Records of many chains side by side, of some megabytes."""
    line = "10000{0:>10}{1}+000000001{0:+09d}+000000002{0:+09d}\n"
    return "".join(line.format(tlid, " " * 175) for tlid in range(1, MANY + 1))


def answers(top):
    """What is asked, each with what is wrong with the answer."""
    tried = run(["make", "-s", "try"], top)
    yield "make try", (tried.stdout, tried.returncode) != (shown(), 0) or not tried.stderr.endswith(SAID) or tried.stderr.count(SAID) != 1
    moved = run(["./tigertopo", "audit", "examples/faults/G4"], top)
    yield "a fault", (moved.returncode, moved.stderr) != (1, SAID) or not moved.stdout.startswith("map fault G4 ")
    made = run(["./tigertopo", "build", "--out", "made", "examples/county"], top)
    checked = run(["./tigertopo", "check", "--cert", "made", "/dev/stdin"], top, input=(EXAMPLES / "county").read_text())
    yield "a file that is made, and a pipe", (made.returncode, checked.returncode, checked.stderr) != (0, 0, SAID)
    many = run(["./tigertopo", "show", "/dev/stdin"], top, input=long_records())
    yield "a long output", many.stdout.count("\n") != MANY + 1 or len(many.stdout) < 1 << 20


def play_all():
    """How many of these are as they have to be, and how many aren't."""
    passed = failed = 0
    with tempfile.TemporaryDirectory() as folder:
        copy(Path(folder))
        for asked, is_wrong in answers(Path(folder)):
            passed, failed = passed + (not is_wrong), failed + bool(is_wrong)
            if is_wrong:
                print(f"unproved: {asked}")
        well, ill = rows.play_all(Path(folder, "crates", "tigertopo", "out", "tried", "tigertopo"))
    return passed + well, failed + ill


if __name__ == "__main__":
    passed, failed = play_all()
    print(f"{passed} passed, {failed} failed")
    sys.exit(failed > 0)
