#!/usr/bin/env python3
"""Measures how a nation of nation.py is decided by its borders: each county's, each state's, and the last step.

usage: borders.py FOLDER [--jobs N] [--program PROGRAM]

Makes each county's border, N at a time, then each state's of its counties' borders, and then audits the states' borders together.
Prints a row for each step: how many processes it is, how many chains they have together, the seconds by the wall clock until the
last has ended, the processor seconds of all, and the most memory that one takes. Before that stands a row for one county alone, by
`audit --faces`. The borders stand beside the counties' files.
"""

import argparse
import os
import subprocess
import sys
import time
from concurrent.futures import ThreadPoolExecutor
from pathlib import Path

PROGRAM = Path(__file__).resolve().parents[1] / "crates/tigertopo/out/tigertopo"


def measured(words):
    """What a command printed, its processor seconds and its peak memory in megabytes. A command that fails ends all."""
    with subprocess.Popen([str(it) for it in words], stdout=subprocess.PIPE, stderr=subprocess.STDOUT) as process:
        said = process.stdout.read().decode()
        _, status, used = os.wait4(process.pid, 0)
        process.returncode = os.waitstatus_to_exitcode(status)
    if process.returncode:
        sys.exit(f"borders.py: {' '.join(map(str, words))}\n{said}")
    return said, used.ru_utime + used.ru_stime, used.ru_maxrss / 1000


def chains_in(said):
    return int(said.split("chains=")[1].split()[0])


def row(step, commands, jobs):
    """Runs the commands, so many at a time, and prints the row of the step."""
    begun = time.monotonic()
    with ThreadPoolExecutor(jobs) as pool:
        found = list(pool.map(measured, commands))
    seconds = time.monotonic() - begun
    chains, used, most = sum(chains_in(said) for said, _, _ in found), sum(it for _, it, _ in found), max(it for _, _, it in found)
    print(f"| {step} | {len(commands)} | {chains} | {seconds:.2f} | {used:.2f} | {most:.0f} |", flush=True)


def main():
    parser = argparse.ArgumentParser()
    parser.add_argument("folder", type=Path)
    parser.add_argument("--jobs", type=int, default=os.cpu_count())
    parser.add_argument("--program", type=Path, default=PROGRAM)
    words = parser.parse_args()
    program, folder = words.program, words.folder
    counties = sorted(folder.glob("*/*.RT"))
    states = sorted({it.parent for it in counties})
    print("| step | processes | chains | seconds | processor seconds | most MB |\n|---|---|---|---|---|---|")
    row("one county", [[program, "audit", "--faces", counties[0]]], 1)
    row("counties' borders", [[program, "border", "--name", it.stem, "--out", it.with_suffix(".border"), it] for it in counties], words.jobs)
    of_states = [[program, "border", "--join", "--name", it.name, "--out", f"{it}.border", *sorted(it.glob("*.border"))] for it in states]
    row("states' borders", of_states, words.jobs)
    row("the nation", [[program, "audit", "--join", "--faces", *(f"{it}.border" for it in states)]], 1)


if __name__ == "__main__":
    main()
