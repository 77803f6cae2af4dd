"""Where the repository is, its examples and the built programs; and the folders whose modules the tests use are put on Python's
path here. So a script of one of them begins its imports of modules of ours with

    sys.path.append(str(Path(__file__).resolve().parents[1]))
    from folders import ..
"""

import os
import sys
from pathlib import Path

TOP = Path(__file__).resolve().parent.parent
EXAMPLES = TOP / "examples"
FOLDERS = [
    "tests/rows",  # rows that run the program, and how records are written for them
    "tests/judge",  # second opinions, and maps that are drawn for them
    "tests/injected",  # allocations, reads and writes that fail, and files that others make or hold
    "tests/formats",  # what is written for other programs: certificates, GeoJSON and pictures
    "tests/installed",  # the manual page and the completions, what is shown meanwhile, and many counties
    "tests/size",  # answers at full size
    "tests/pages",  # what pages and comments name
    # Of the two modules `run` the tests' is that of the examples.
    "examples",
    "install",
    "bench",
]
sys.path += [str(TOP / name) for name in FOLDERS]

# What is run by a test runs as from a shell, whatever `make` the test itself is run by.
for handed_down in ("MAKEFLAGS", "MFLAGS", "MAKELEVEL"):
    os.environ.pop(handed_down, None)


def built(name):
    """Where the program of a crate is, once it is built."""
    return TOP / "crates" / name / "out" / name


PROGRAM, BENCH = map(built, ("tigertopo", "bench"))
