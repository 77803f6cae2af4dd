#!/usr/bin/env python3
"""The merge gate: `rt ci`, and beside its last edits what only the built programs can show. The last line counts all of it."""

import os
import re
import resource
import shutil
import subprocess
import sys
import tempfile
import time
from pathlib import Path

sys.path.append(str(Path(__file__).resolve().parents[1] / "tests"))
from folders import TOP

import times
from prove import TAKEN, Progress, proofs_of, ready

# What `rt ci` says of a crate once it is proved and built, or was by an earlier run.
PROVED = re.compile(r"rt: (\w+) (proved|is kept: .*)\n")
# The line that counts, the last one.
COUNTS = re.compile(r"(\d+) passed, (\d+) failed(?:, (\d+) skipped)?\n")


def crates():
    """The names of all crates."""
    lines = (TOP / "crates.txt").read_text().splitlines()
    return {line.split(":")[0].split()[0] for line in lines if line and not line.startswith("#")}


def counts_of(command, line):
    """How many passed, how many failed and how many were skipped, by the last line of a command that has ended. One that ended ill,
    or has counted nothing, has failed."""
    counts = COUNTS.fullmatch(line)
    passed, failed, missing = (int(it or 0) for it in counts.groups()) if counts else (0, 1, 0)
    return passed, failed or int(command.wait() != 0), missing


def prove(processors, then):
    """Runs `rt ci` as proving/ci.py plans it, prints what it says, calls `then` as soon as all crates are proved and built, and gives
    its counts."""
    left, line = crates(), ""
    progress = Progress(left, processors)
    words = {"cwd": TOP, "stdout": subprocess.PIPE}
    with subprocess.Popen([sys.executable, "-u", "proving/ci.py"], text=True, errors="replace", **words) as proofs:
        for line in proofs.stdout:
            if not COUNTS.fullmatch(line):
                print(line, end="", flush=True)
            proved = PROVED.fullmatch(line)
            if proved and proved[1] in left:
                left.remove(proved[1])
                if proved[2] == "proved":
                    progress.begins(proved[1])
                    progress.ends(proved[1])
                else:
                    progress.passes_over(proved[1])
                if not left:
                    then()
    return counts_of(proofs, line)


class Play:
    """What is played over the built programs, beside the proofs that are left and behind them in rank."""

    def __init__(self, said):
        self.said = said
        self.command = None

    def begin(self):
        # A program that `rt ci` took from an earlier run is as new as its sources, whatever their times say.
        for program in TOP.glob("crates/*/out/*"):
            if program.name == program.parent.parent.name:
                os.utime(program)
        self.command = subprocess.Popen(["nice", sys.executable, "proving/played.py"], cwd=TOP, stdout=self.said)

    def end(self):
        """Waits for it, prints what it said, and gives its counts. Where a crate isn't proved nothing is played."""
        if not self.command:
            return 0, 0, 0
        self.command.wait()
        self.said.seek(0)
        lines = self.said.readlines()
        print("".join(lines[:-1]), end="")
        return counts_of(self.command, lines[-1] if lines else "")


def main():
    begun = time.monotonic()
    rt = ready()
    proofs = proofs_of(rt, crates())
    if TAKEN.exists():
        # What an archive gave isn't trusted from here on.
        for proof in proofs.values():
            shutil.rmtree(proof.folder, ignore_errors=True)
        TAKEN.unlink()
    with tempfile.TemporaryFile("w+", errors="replace") as said:
        play = Play(said)
        with times.Watch() as watch:
            proved = prove(rt.processors(), play.begin)
        print(f"proofs, edits and tests: {time.monotonic() - begun:.0f} s")
        print(f"the proofs, in processor minutes:\n{times.table(watch.seconds())}", flush=True)
        played = play.end()
    used = resource.getrusage(resource.RUSAGE_CHILDREN)
    print(f"{(time.monotonic() - begun) / 60:.0f} minutes, {(used.ru_utime + used.ru_stime) / 60:.0f} processor minutes")
    passed, failed, missing = (sum(column) for column in zip(proved, played))
    if not failed:
        # All is proved here now: `make` has nothing left to prove. One that is begun meanwhile waits.
        rt.rtlib.lock([it.crate for it in proofs.values()])
        for proof in proofs.values():
            proof.adopt()
    print(f"{passed} passed, {failed} failed" + (f", {missing} skipped" if missing else ""))
    return failed > 0


if __name__ == "__main__":
    sys.exit(main())
