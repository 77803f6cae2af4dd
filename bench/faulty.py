#!/usr/bin/env python3
"""Measures `tigertopo audit --all` of counties with faults that were planted, beside `audit` of the sound ones, and what it
takes to tell their records (`--where`) and to make a file of them (`--geojson`).

usage: faulty.py [--counties N,N,..] [--faults N] [--pairs N] [--runs N]

So many faults of one kind are planted in each county, far apart: chains whose sides are exchanged, polygons' points that
lie in a neighbour, streets that cross others, or polygons that no record has. Behind them stands a map of --pairs
segments of which each two cross, listed whole and with `--most 20`. Each program runs RUNS times, in turn with the other,
with its output thrown away; the table has medians. Files are made in bench/out, once.
"""

import argparse
import random
import statistics
import subprocess

from county import County
from make_records import chain_line, pair, write_files
from run import BENCH, PROGRAM, files_of, numbers, peak_of, print_table, seconds_of

# The columns of a type I line that the keys on both sides take, and those of a type P line that the point takes.
LEFT, RIGHT, POINT = slice(40, 55), slice(55, 70), slice(25, 44)
KINDS = {"sides": "sides exchanged", "points": "points in a neighbour", "meets": "streets that cross", "records": "polygons lost"}


def replaced(line, place, text):
    return line[:place.start] + text + line[place.stop:]


def exchanged(line):
    """A type I line with its sides exchanged."""
    return replaced(replaced(line, LEFT, line[RIGHT]), RIGHT, line[LEFT])


def every(lines, count, wanted):
    """The places of so many lines that are wanted, far apart."""
    places = [place for place, line in enumerate(lines) if wanted(line)]
    return places[:: max(1, len(places) // count)][:count]


def plant(lines, kind, count):
    """Plants so many faults of a kind in the lines of each type's file."""
    if kind == "sides":
        for place in every(lines["RTI"], count, lambda line: line[LEFT] != line[RIGHT]):
            lines["RTI"][place] = exchanged(lines["RTI"][place])
    elif kind == "points":
        for place in every(lines["RTP"], count, lambda line: True):
            beside = lines["RTP"][place - 1 if place else 1]
            lines["RTP"][place] = replaced(lines["RTP"][place], POINT, beside[POINT])
    elif kind == "meets":
        # A dead end that goes on through the next street: it ends in the block behind.
        for place in every(lines["RT2"], count, lambda line: True):
            line = lines["RT2"][place]
            lines["RT2"][place] = line[:18] + pair((int(line[18:28]) + 300, int(line[28:37]) + 2_000)) + line[37:]
    else:
        lost = set(every(lines["RTP"], count, lambda line: True))
        lines["RTP"] = [line for place, line in enumerate(lines["RTP"]) if place not in lost]


def faulty_files(chains, kind, count):
    """The files of a county with so many faults of a kind."""
    folder = BENCH / "out" / f"{chains}-faulty-{kind}"
    if not folder.exists():
        lines = {}
        for file in files_of(chains, "county"):
            with open(file, newline="") as text:
                lines[file.suffix[1:]] = text.readlines()
        plant(lines, kind, count)
        folder.mkdir(parents=True)
        write_files(folder, lines)
    return sorted(folder.iterdir())


def crossing_files(count):
    """The files of so many chains of one segment, of which each two cross: from west to east they come in one order in the
    south, and in the other in the north."""
    folder = BENCH / "out" / f"{count}-crossing"
    if not folder.exists():
        rng = random.Random(count)
        grid = County(1, rng)
        lines = {name: [] for name in ("RT1", "RTI")}
        for k in range(count):
            tlid = grid.next_tlid()
            start, end = (-79_000_000 + 1_000 * k, 39_000_000 + 7 * k), (-79_000_000 + 1_000 * (count - k), 40_000_000 - 7 * k)
            lines["RT1"].append(chain_line(rng, tlid, start, end))
            lines["RTI"].append(f"I1206{tlid:>10}".ljust(127) + "\r\n")
        folder.mkdir(parents=True)
        write_files(folder, lines)
    return sorted(folder.iterdir())


def last_line(words):
    """What the last line of the list tells."""
    done = subprocess.run(words, stdout=subprocess.PIPE, text=True)
    return done.stdout.rstrip("\n").rsplit("\n", 1)[-1]


def medians(commands, runs):
    """The milliseconds that each command takes, by its words and its status."""
    found = [[seconds_of(words, status) * 1e3 for words, status in commands] for _ in range(runs)]
    return [statistics.median(column) for column in zip(*found)]


def county_rows(chains, faults, runs):
    sound = [PROGRAM, "audit", *files_of(chains, "county")]
    for kind, name in KINDS.items():
        files = faulty_files(chains, kind, faults)
        listed = [PROGRAM, "audit", "--all", *files]
        times = medians(((sound, 0), (listed, 1)), runs)
        yield (f"{chains:,}", name, last_line(listed), f"{times[0]:.1f}", f"{times[1]:.1f}",
               f"{times[1] / times[0]:.2f}", f"{peak_of(sound):.1f}", f"{peak_of(listed):.1f}")


def placed_rows(chains, faults, runs):
    made = str(BENCH / "out" / "faults.geojson")
    for kind, name in KINDS.items():
        files = faulty_files(chains, kind, faults)
        commands = [[PROGRAM, "audit", "--all", *more, *files] for more in ([], ["--where"], ["--where", "--geojson", made])]
        times = medians([(words, 1) for words in commands], runs)
        yield (f"{chains:,}", name, *(f"{time:.1f}" for time in times), *(f"{peak_of(words):.1f}" for words in commands))


def pair_rows(count, runs):
    files = crossing_files(count)
    for most in ([], ["--most", "20"], ["--where"]):
        listed = [PROGRAM, "audit", "--all", *most, *files]
        yield f"{count:,}", f"`{' '.join(['--all', *most])}`", last_line(listed), f"{medians(((listed, 1),), runs)[0]:.1f}", f"{peak_of(listed):.1f}"


def main():
    parser = argparse.ArgumentParser()
    parser.add_argument("--counties", default="100000")
    parser.add_argument("--faults", type=int, default=1000)
    parser.add_argument("--pairs", type=int, default=2000)
    parser.add_argument("--runs", type=int, default=5)
    words = parser.parse_args()
    print_table(
        ("Chains", "Planted", "Listed", "`audit` of the sound county, ms", "`audit --all`, ms", "times", "peak MB", "`--all`, peak MB"),
        (row for chains in numbers(words.counties) for row in county_rows(chains, words.faults, words.runs)))
    print_table(
        ("Chains", "Planted", "`--all`, ms", "`--where`, ms", "and `--geojson`, ms", "peak MB", "`--where`, peak MB", "and `--geojson`, peak MB"),
        (row for chains in numbers(words.counties) for row in placed_rows(chains, words.faults, words.runs)))
    print_table(("Segments that all cross", "Command", "Listed", "ms", "peak MB"), pair_rows(words.pairs, words.runs))


if __name__ == "__main__":
    main()
