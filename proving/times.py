#!/usr/bin/env python3
"""Runs a command that proves crates, and prints what each crate's proof, tests and edits took of the processors.

usage: times.py [--write FILE] COMMAND..

The prover's processes are looked at each half second, so what one did in its last half second is left out. The gate
prints the table of its own run. With --write the seconds of the proofs go to FILE, as proving/seconds.txt has them.
"""

import os
import subprocess
import sys
import threading
import time
from collections import defaultdict
from pathlib import Path

KINDS = ("proof", "tests", "edits")
INTERVAL = 0.5
TICKS = os.sysconf("SC_CLK_TCK")


def look_at(process):
    """What a process of the prover is at and the seconds it has taken, with those of its ended children; None of any
    other process, and of a copy that a process of the prover made of itself."""
    try:
        words = (process / "cmdline").read_bytes().decode(errors="replace").split("\0")
        if os.path.basename(words[0]) != "rattle" or "--crate-name" not in words:
            return None
        fields = (process / "stat").read_text().rpartition(")")[2].split()
        if (process.parent / fields[1] / "cmdline").read_bytes() == (process / "cmdline").read_bytes():
            return None
        place = os.readlink(process / "cwd")
    except (OSError, IndexError):
        return None
    kind = "edits" if "/rt-edit-" in place else "tests" if "--test" in words else "proof"
    seconds = sum(map(int, fields[11:15])) / TICKS
    return (words[words.index("--crate-name") + 1], kind), fields[19], seconds


class Watch:
    """Looks at the prover's processes while the commands of its block run."""

    def __init__(self):
        self.seen = {}
        self.is_over = threading.Event()
        self.looking = threading.Thread(target=self.look)

    def __enter__(self):
        self.looking.start()
        return self

    def __exit__(self, *_):
        self.is_over.set()
        self.looking.join()

    def look(self):
        while not self.is_over.wait(INTERVAL):
            for process in Path("/proc").glob("[0-9]*"):
                found = look_at(process)
                if found:
                    task, begun, seconds = found
                    self.seen[process.name, begun] = task, seconds

    def seconds(self):
        """The seconds of each crate and kind."""
        found = defaultdict(float)
        for task, seconds in self.seen.values():
            found[task] += seconds
        return found


def table(seconds):
    """The table in processor minutes, the dearest crate first, with a last row of sums."""
    crates = defaultdict(lambda: [0.0] * len(KINDS))
    for (name, kind), spent in seconds.items():
        crates[name][KINDS.index(kind)] += spent / 60
    rows = sorted(crates.items(), key=lambda row: -sum(row[1]))
    rows.append(("all", [sum(column) for column in zip(*crates.values())] or [0.0] * len(KINDS)))
    lines = [f"| crate | {' | '.join(KINDS)} | all |", "|---|" + "---|" * (len(KINDS) + 1)]
    for name, spent in rows:
        shown = [f"{it:.1f}" if it else "" for it in spent]
        lines.append(f"| `{name}` | {' | '.join(shown)} | {sum(spent):.1f} |")
    return "\n".join(lines)


def main():
    words = sys.argv[1:]
    to = None
    if words[:1] == ["--write"]:
        to, words = words[1], words[2:]
    if not words:
        print(__doc__, file=sys.stderr)
        return 64
    begun = time.monotonic()
    with Watch() as watch:
        status = subprocess.run(words).returncode
    print(f"in processor minutes, {(time.monotonic() - begun) / 60:.1f} minutes in all:\n{table(watch.seconds())}")
    if to:
        seconds = watch.seconds()
        head = "# What each crate's proof takes of the processors, in seconds, and that of its tests, as proving/times.py wrote it.\n"
        rows = [(name, spent, seconds.get((name, "tests"))) for (name, kind), spent in sorted(seconds.items()) if kind == "proof"]
        lines = [f"{name} {proof:.0f}" + (f" {tests:.0f}" if tests else "") for name, proof, tests in rows]
        Path(to).write_text(head + "".join(f"{line}\n" for line in lines))
    return status


if __name__ == "__main__":
    sys.exit(main())
