#!/usr/bin/env python3
"""Runs the commands of docs/many-counties.md: on six counties in place of 203, and compares the table that comes of them; and on the nation
of examples/nation, whose answer has to be that of `make`.

usage: counties.py [PROGRAM]

A way whose command isn't there is skipped: `parallel`, or `sbatch`, for which a cluster has to answer `sinfo`.
"""

import os
import re
import shutil
import subprocess
import sys
import tempfile
import time
from pathlib import Path

sys.path.append(str(Path(__file__).resolve().parents[1]))
from folders import PROGRAM, TOP

import skipped

PAGE = TOP / "docs" / "many-counties.md"
# The page tells first of counties, and then of states.
STATES = "## A state, and a nation\n"
# What is changed in a county: it tells a chain of its state's border by another TLID; one of its chains ends elsewhere.
AT_ODDS = "        13", "        23"
BAD = "+000000030+00000050+000000010", "+000000030+00000055+000000010"
# Nothing of it is left.
EMPTIED = "emptied"


def blocks_of(text):
    """The page's blocks: of commands, and of what is printed."""
    blocks = re.findall(r"^```(\w*)\n(.*?)^```$", text, re.M | re.S)
    return [body for kind, body in blocks if kind == "sh"], [body for kind, body in blocks if not kind]


def run(command, folder):
    """Runs a command where `tigertopo` is the program that is linked in the folder."""
    path = f"{folder}{os.pathsep}{os.environ['PATH']}"
    environment = {**os.environ, "PATH": path, "PYTHONDONTWRITEBYTECODE": "1"}
    return subprocess.run(["sh", "-c", command], cwd=folder, env=environment, capture_output=True, text=True)


def can_go(way):
    """Whether the tools that a way needs can be used here. Else it is skipped."""
    if "sbatch" not in way:
        return "parallel" not in way or skipped.has("many counties by parallel", "parallel")
    if not skipped.has("many counties by sbatch", "sbatch", "sinfo"):
        return False
    answers = subprocess.run(["sinfo"], capture_output=True, timeout=60).returncode == 0
    if not answers:
        skipped.skip("many counties by sbatch", "cluster that answers sinfo")
    return answers


def play_nation(program):
    """How many ways give the answer on the nation of the examples that its Makefile gives, and how many don't."""
    text = PAGE.read_text().partition(STATES)[2]
    ways = [block for block in blocks_of(text)[0] if "border" in block]
    passed = failed = 0
    for way in filter(can_go, ways):
        with tempfile.TemporaryDirectory() as folder:
            made, ours = (Path(folder) / name for name in ("made", "ours"))
            for nation in (made, ours):
                shutil.copytree(TOP / "examples" / "nation", nation, ignore=shutil.ignore_patterns("*.border", "told"))
                (nation / "tigertopo").symlink_to(program)
            by_make = run("make -s PROGRAM=tigertopo > /dev/null && cat told", made)
            done = run(way, ours)
        is_well = done.returncode == 0 and not done.stderr and by_make.stdout.startswith("sound ") and done.stdout.endswith(by_make.stdout)
        passed, failed = passed + is_well, failed + (not is_well)
        if not is_well:
            print(f"$ {way}-- wanted\n{by_make.stdout}{by_make.stderr}-- printed\n{done.stdout}{done.stderr}", end="")
    return passed, failed


def play_mended(program):
    """Makes the nation of the examples with two states at odds, twice; mended; with a bad county, twice, which then is emptied, twice; and mended again. How often `told`
    stands there, and the status is 0, where all fits and nowhere else, and how often not. What doesn't fit is named each time."""
    passed = failed = 0
    with tempfile.TemporaryDirectory() as folder:
        nation = Path(folder) / "nation"
        shutil.copytree(TOP / "examples" / "nation", nation, ignore=shutil.ignore_patterns("*.border", "told"))
        (nation / "tigertopo").symlink_to(program)
        county = nation / "west" / "north.RT"
        text = county.read_text()
        for spoilt in (None, AT_ODDS, AT_ODDS, None, BAD, BAD, EMPTIED, EMPTIED, None):
            wanted = "" if spoilt == EMPTIED else text.replace(*spoilt) if spoilt else text
            if county.read_text() != wanted:
                # `make` goes by the files' times.
                time.sleep(0.02)
                county.write_text(wanted)
            done = run("make -s PROGRAM=tigertopo", nation)
            told = nation / "told"
            is_fit = done.returncode == 0 and told.exists() and told.read_text().startswith("sound ")
            is_named = ("map fault M14 " if spoilt == EMPTIED else "map fault ") in done.stdout
            is_unfit = done.returncode != 0 and not told.exists() and is_named
            is_well = is_unfit if spoilt else is_fit
            passed, failed = passed + is_well, failed + (not is_well)
            if not is_well:
                print(f"a nation with {spoilt}: {done}")
    return passed, failed


def play_all(program=PROGRAM):
    """How many ways give what the page prints, and how many don't."""
    counts = [play_counties(program), play_nation(program), play_mended(program)]
    return sum(well for well, _ in counts), sum(ill for _, ill in counts)


def play_counties(program):
    """How many ways give the table that the page prints, and how many don't."""
    # The page's 203 counties become six, of which the same two aren't sound.
    text = PAGE.read_text().partition(STATES)[0].replace("seq 101 303", "seq 101 106").replace("    201 0\n", "      4 0\n")
    commands, (wanted, counted, _) = blocks_of(text)
    make, spoil, script, *ways, table, count = commands
    passed = failed = 0
    for way in filter(can_go, ways):
        with tempfile.TemporaryDirectory() as folder:
            (Path(folder) / "tigertopo").symlink_to(program)
            (Path(folder) / "bench").symlink_to(TOP / "bench")
            (Path(folder) / "audit_county").write_text(script)
            (Path(folder) / "audit_county").chmod(0o755)
            done = [run(command, folder) for command in (make, spoil, way, table, count)]
        if [it.stdout for it in done[-2:]] == [wanted, counted] and not any(it.stderr for it in done):
            passed += 1
            continue
        failed += 1
        print(f"$ {way}-- wanted\n{wanted}{counted}-- printed\n{''.join(it.stdout + it.stderr for it in done)}", end="")
    return passed, failed


if __name__ == "__main__":
    passed, failed = play_all(*map(Path, sys.argv[1:2]))
    print(skipped.counts(passed, failed))
    sys.exit(failed > 0 or passed == 0)
