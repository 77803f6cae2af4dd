#!/usr/bin/env python3
"""Runs the commands of the pages below as from the top of the repository, and compares what they print, each stream by
itself: lines of refusals and stops, and of a file that isn't replaced, belong to standard error, all others to standard output, and of `audit --all`, which
prints refusals as its answer, those of stops alone. Each page is played in a folder
of its own, where the files that its commands make stay, with a `./tigertopo` and a `make try` that are the repository's and its `examples`. A picture
that is made there and stands in docs/pictures has to be that picture."""

import re
import subprocess
import sys
import tempfile
from pathlib import Path

sys.path.append(str(Path(__file__).resolve().parents[1] / "tests"))
from folders import TOP

UNREAD = re.compile(r" holds no type 1 record$")
PAGES = ["README.md", "docs/commands.md", "examples/README.md", "docs/faults.md", "docs/many-counties.md"]


def steps(text):
    """The commands of the page's blocks, each with what it is to print."""
    for block in re.findall(r"^```\n(\$ .*?)^```$", text, re.M | re.S):
        for step in re.split(r"^\$ ", block, flags=re.M)[1:]:
            command, _, printed = step.partition("\n")
            yield command, printed


def streams_of(command, printed):
    """The lines that belong to standard output, and those that belong to standard error."""
    is_error = re.compile(r"(stopped|error:|OUT) " if " --all " in command else r"(refused line|stopped|error:|OUT) ").match
    streams, before = ["", ""], 0
    for line in printed.splitlines(keepends=True):
        # What begins with two blanks belongs to the line before it, but for what is said of files without chains.
        before = int(bool(is_error(line))) if not line.startswith("  ") else 1 if UNREAD.search(line) else before
        streams[before] += line
    return tuple(streams)


def play(page, folder):
    """How many commands of the page print what it says, and how many don't."""
    (folder / "examples").symlink_to(TOP / "examples")
    program = folder / "tigertopo"
    program.write_text(f"#!/bin/sh\nexec '{TOP}/tigertopo' \"$@\"\n")
    program.chmod(0o755)
    (folder / "Makefile").write_text(f"try:\n\t@$(MAKE) --no-print-directory -C '{TOP}' try\n")
    status = count = failed = 0
    for command, wanted in steps((TOP / page).read_text()):
        # The shell keeps no status from one command to the next.
        command = command.replace("$?", str(status))
        done = subprocess.run(command, shell=True, cwd=folder, capture_output=True, text=True)
        status = done.returncode
        count += 1
        if (done.stdout, done.stderr) != streams_of(command, wanted):
            failed += 1
            print(f"{page}: $ {command}\n-- wanted\n{wanted}-- printed\n{done.stdout}{done.stderr}", end="")
    for picture in sorted((TOP / "docs" / "pictures").iterdir()):
        made = folder / picture.name
        if made.exists():
            count += 1
            failed += made.read_bytes() != picture.read_bytes()
    return count - failed, failed


def play_all():
    """How many commands of all pages print what the page says, and how many don't. A page with none is one that doesn't."""
    passed = failed = 0
    for page in PAGES:
        with tempfile.TemporaryDirectory() as folder:
            well, ill = play(page, Path(folder))
        passed, failed = passed + well, failed + ill + (well + ill == 0)
    return passed, failed


if __name__ == "__main__":
    passed, failed = play_all()
    print(f"{passed} passed, {failed} failed")
    sys.exit(failed > 0 or passed == 0)
