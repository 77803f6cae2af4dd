#!/usr/bin/env python3
"""Counts the instructions of `tigertopo show`, `landmarks`, `locate` and `audit` over whole counties, by valgrind's callgrind:
a figure that other work on the machine doesn't change. Where valgrind isn't there it says so and counts nothing.

usage: instructions.py [--counties N,N,..] [--beside PROGRAM]

With --beside the same words are given to that program, which has to print the same, and the ratio is told. `make bench
BESIDE=PROGRAM` names it. Files are made in bench/out, once, as `run.py` makes them.
"""

import argparse
import re
import shutil
import subprocess
import sys

from run import PROGRAM, numbers, print_table, records_of

COMMANDS = [["show"], ["landmarks"], ["locate", "@-78762000,39652000"], ["audit"]]
# What a program beside isn't asked.
ALONE = [["audit", "--faces"]]


def counted(words):
    """The instructions of a run, and what it printed."""
    done = subprocess.run(["valgrind", "--tool=callgrind", "--callgrind-out-file=/dev/null", *words], capture_output=True)
    found = re.search(rb"Collected : (\d+)", done.stderr)
    if done.returncode != 0 or not found:
        sys.exit(f"{words[0]} ended with status {done.returncode}")
    return int(found[1]), done.stdout


def rows(chains, beside):
    records = records_of(chains, "county")
    for command in COMMANDS + ALONE:
        count, printed = counted([PROGRAM, *command, records])
        name = " ".join(it for it in command if it[0] != "@")
        row = [f"{chains:,}", f"`{name}`", f"{count / 1e6:.1f}", f"{count / chains:.0f}"]
        if beside and command in ALONE:
            row += ["-", "-"]
        elif beside:
            other, also = counted([beside, *command, records])
            if also != printed:
                sys.exit(f"{beside} prints something else for {command[0]}")
            row += [f"{other / 1e6:.1f}", f"{count / other:.2f}"]
        yield row


def main():
    parser = argparse.ArgumentParser()
    parser.add_argument("--counties", default="100000")
    parser.add_argument("--beside")
    words = parser.parse_args()
    if not shutil.which("valgrind"):
        print("valgrind isn't there: no instructions are counted")
        return
    head = ["Chains", "Command", "million instructions", "a chain"]
    if words.beside:
        head += ["beside, million", "ratio"]
    print_table(head, (row for chains in numbers(words.counties) for row in rows(chains, words.beside)))


if __name__ == "__main__":
    main()
