#!/usr/bin/env python3
"""Measures `tigertopo audit`, `build` and `check` beside another program that takes the same words: of whole counties by
rising TLID and in random order, of grids of squares, and of maps whose segments are long and stand side by side. Without
another program it measures nothing.

usage: beside.py [--beside PROGRAM] [--counties N,N,..] [--grids N,N,..] [--long N,N,..] [--runs N]

Both programs have to print the same. Each runs once for its peak of memory and then RUNS times for its seconds, in turn with
the other; the table has medians. Files are made in bench/out, once, as `run.py` makes them.
"""

import argparse
import statistics
import subprocess
import sys

from run import LONG, NAMES, PROGRAM, files_of, numbers, peak_of, print_table, seconds_of


def printed(words):
    return subprocess.run(words, stdout=subprocess.PIPE).stdout


def row(beside, chains, kind, name, command, runs):
    files = files_of(chains, kind)
    own, other = ([program, command[0], *(f"{files[0].parent / it}-{k}" if it == "CERT" else it for it in command[1:]), *files]
                  for k, program in enumerate((PROGRAM, beside)))
    if printed(own) != printed(other):
        sys.exit(f"{beside} prints something else for {command[0]} of {chains} {kind}")
    peaks = peak_of(own), peak_of(other)
    found = [(seconds_of(own) * 1e3, seconds_of(other) * 1e3) for _ in range(runs)]
    times = [statistics.median(column) for column in zip(*found)]
    # A program that ends at once isn't seen at work.
    memory = (f"{peaks[0]:.1f}", f"{peaks[1]:.1f}", f"{peaks[0] / peaks[1]:.2f}") if min(peaks) >= 0.1 else ("-", "-", "-")
    return f"{chains:,} {name}", f"`{command[0]}`", f"{times[0]:.1f}", f"{times[1]:.1f}", f"{times[0] / times[1]:.2f}", *memory


def rows(words):
    maps = [(chains, kind, NAMES[kind]) for kind, sizes in (("county", words.counties), ("shuffled", words.counties),
                                                            ("grid", words.grids)) for chains in numbers(sizes)]
    maps += [(chains, f"{kind}-", LONG[kind]) for kind in LONG for chains in numbers(words.long)]
    for chains, kind, name in maps:
        yield row(words.beside, chains, kind, name, ["audit"], words.runs)
        if kind == "county":
            yield row(words.beside, chains, kind, name, ["build", "--out", "CERT"], words.runs)
            yield row(words.beside, chains, kind, name, ["check", "--cert", "CERT"], words.runs)


def main():
    parser = argparse.ArgumentParser()
    parser.add_argument("--beside")
    parser.add_argument("--counties", default="10000,100000,1000000")
    parser.add_argument("--grids", default="100000")
    parser.add_argument("--long", default="100000")
    parser.add_argument("--runs", type=int, default=5)
    words = parser.parse_args()
    if words.beside:
        print_table(("Chains", "Command", "ms", "beside, ms", "ratio", "peak MB", "beside, MB", "ratio"), rows(words))


if __name__ == "__main__":
    main()
