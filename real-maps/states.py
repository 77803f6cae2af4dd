#!/usr/bin/env python3
"""Cuts the map of the counties of the United States of Debian's package r-cran-maps into its states, and joins their borders.

usage: states.py

Fetches the package as run.py does. Each line of the map becomes a chain, as records_of.py makes it; a state's file has the lines
that name one of its counties, and what a line names of another state is blank there, as it is where a state's records are all
that one has. Of each state `border` is asked, and of those that aren't sound `audit --all --faces`; then `audit --join --faces`
of all borders, and of all states' files. Prints what docs/real-maps.md has of it.
"""

import subprocess
import sys
import time
from collections import Counter, defaultdict

import records_of
from run import OUT, PROGRAM, counted, mapdata

NAME = "county"


def states_of(folder):
    """By each region's number the state that it is in, and its number, in the order of the states' first regions."""
    states, numbers = {}, {}
    for line in (folder / f"{NAME}.N").read_text().splitlines():
        name, region = line.rsplit("\t", 1)
        state = name.split(",")[0].strip()
        numbers.setdefault(state, len(numbers) + 1)
        states[int(region)] = state
    return states, numbers


def lines_of_state(chains, points, states, state):
    """The lines of a state's records."""
    def own(region):
        return region if states.get(region) == state else 0

    lines, regions = [], set()
    for tlid, (pairs, left, right) in enumerate(chains, records_of.FIRST_TLID):
        if own(left) or own(right):
            lines.append(records_of.chain_line(tlid, pairs[0], pairs[-1]))
            lines += records_of.shape_lines(tlid, pairs[1:-1])
            lines.append(records_of.sides_line(tlid, records_of.key(own(left)), records_of.key(own(right)), ("", ""), False))
            regions |= {own(left), own(right)} - {0}
    return lines + [records_of.point_line(records_of.key(region), points[region]) for region in sorted(regions)]


def points_of(chains):
    """A point of each region by a scan line."""
    boundary = defaultdict(list)
    for pairs, left, right in chains:
        if left != right:
            for region in (left, right):
                boundary[region] += zip(pairs, pairs[1:])
    return {region: records_of.point_of(segments) or (0, 0) for region, segments in boundary.items()}


def asked(*words):
    begun = time.monotonic()
    done = subprocess.run([PROGRAM, *map(str, words)], capture_output=True, text=True)
    return done.returncode, (done.stdout + done.stderr).splitlines(), time.monotonic() - begun


def main():
    folder, made = mapdata(), OUT / "states"
    made.mkdir(parents=True, exist_ok=True)
    chains = list(records_of.lines_of(folder / f"{NAME}.L"))
    states, numbers = states_of(folder)
    points = points_of(chains)
    files, borders, unsound, seconds = [], [], Counter(), 0
    for state, number in numbers.items():
        file, border = made / f"{number:02d}.RT", made / f"{number:02d}.border"
        with open(file, "w", newline="") as out:
            out.writelines(lines_of_state(chains, points, states, state))
        files.append(file)
        border.unlink(missing_ok=True)
        status, said, took = asked("border", "--name", f"S{number:02d}", "--out", border, file)
        seconds += took
        if status == 0:
            borders.append(border)
            continue
        told = counted(asked("audit", "--all", "--faces", file)[1])
        unsound[told] += 1
        print(f"| {state} | {told} |")
    print(f"{len(borders)} of {len(numbers)} states have a border, {seconds:.2f} s")
    for what, given in (("borders", borders), ("states", files)):
        status, said, took = asked("audit", "--all", "--join", "--faces", *given)
        print(f"joined {what}: status {status}, {counted(said)}, {took:.2f} s")


if __name__ == "__main__":
    sys.exit(main())
