#!/usr/bin/env python3
"""Counts how often the built program reads each file that it is given: once for what is asked, and once more where it says something behind
a refusal.

usage: readings.py [PROGRAM]

It needs strace, and is skipped where that isn't there.
"""

import re
import subprocess
import sys
import tempfile
from pathlib import Path

sys.path.append(str(Path(__file__).resolve().parents[1]))
from folders import EXAMPLES, PROGRAM

import skipped
from small_maps import MADE

TOWN, LONG, SOUND = EXAMPLES / "faults" / "town", EXAMPLES / "faults" / "L2", EXAMPLES / "county"
SQUARE = [EXAMPLES / f"square.{it}" for it in ("RT1", "RT2", "RTI", "RTP")]
# Files of which one has a refused line, with others before it and behind it; and files that have faults together.
REFUSED = [*SQUARE[:2], LONG, *SQUARE[2:]]
FAULTY = [TOWN, *SQUARE]
FORMS = (["--where"], ["--json"], ["--geojson", MADE])
RUNS = [
    *(["audit", *words, *files] for files in ([TOWN], FAULTY, [LONG], REFUSED, [SOUND])
      for words in ([], ["--all"], ["--where"], ["--all", "--where"], ["--json"], ["--all", "--json"], ["--geojson", MADE],
                    ["--all", "--where", "--geojson", MADE], ["--all", "--json", "--geojson", MADE])),
    *([command, *words, *REFUSED] for command, *words in (["show"], ["landmarks"], ["build", "--out", MADE], ["export", "--geojson", MADE],
                                                          ["draw", "--out", MADE, "--faults"], ["border", "--name", "B", "--out", MADE])),
    *([*words, SOUND] for words in (["export", "--geojson", MADE], ["draw", "--out", MADE], ["border", "--name", "B", "--out", MADE])),
    ["draw", "--out", MADE, "--faults", *FAULTY],
    ["check", "--cert", EXAMPLES / "county.CERT", SOUND],
    ["check", "--cert", LONG, *SQUARE],
    *(["audit", "--all", "--skip-refused", *words, *files] for files in ([SOUND], [LONG], REFUSED, [*REFUSED, TOWN])
      for words in ([], *FORMS, ["--where", "--geojson", MADE], ["--json", "--geojson", MADE])),
]
OPENED = re.compile(r'openat\([^,]*, "(.*)", .*\) = (\d+)')
READ = re.compile(r"(?:read|pread64)\((\d+), .*\) = (\d+)")


def can_play():
    """Whether strace is there. Else all of this is skipped."""
    return skipped.has("how often files are read", "strace")


def readings(calls, names):
    """How often each of these names was opened and then read, by the calls of a run."""
    told, open_now = dict.fromkeys(names, 0), {}
    for call in calls:
        if opened := OPENED.search(call):
            open_now[opened[2]] = opened[1]
        elif (read := READ.search(call)) and (name := open_now.pop(read[1], None)) in told:
            told[name] += 1
    return told


def play_all(program=PROGRAM):
    """How many runs read each file no more often than they may, and how many didn't."""
    passed = failed = 0
    with tempfile.TemporaryDirectory() as folder:
        calls = Path(folder, "calls")
        for words in RUNS:
            Path(folder, MADE).unlink(missing_ok=True)
            asked = ["strace", "-f", "-e", "trace=openat,read,pread64", "-o", calls, program, *words]
            done = subprocess.run(asked, cwd=folder, stdin=subprocess.DEVNULL, capture_output=True)
            names = [str(it) for it in words if isinstance(it, Path)]
            told = readings(calls.read_text(errors="replace").splitlines(), names)
            # What is said behind a refusal begins with blanks. That some file was read shows that the calls are told.
            is_well = 1 <= max(told.values()) <= (2 if b"\n  " in done.stderr else 1)
            passed, failed = passed + is_well, failed + (not is_well)
            if not is_well:
                print(f"{' '.join(map(str, words))}: read so often: {told}")
    return passed, failed


def main():
    passed, failed = play_all(*sys.argv[1:2]) if can_play() else (0, 0)
    print(skipped.counts(passed, failed))
    return failed > 0 or not (passed or skipped.PARTS)


if __name__ == "__main__":
    sys.exit(main())
