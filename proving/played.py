#!/usr/bin/env python3
"""Plays what only the built programs can show, the parts of the gate behind `rt ci`. The last line counts all of it."""

import multiprocessing
import os
import sys
import time
from concurrent.futures import ProcessPoolExecutor
from pathlib import Path

sys.path.append(str(Path(__file__).resolve().parents[1] / "tests"))
import folders  # noqa: F401, the modules below are found by it

import certificates
import cited
import counties
import devices
import faced
import full_size
import geojson
import installed
import joined
import judged
import made_files
import memory
import mended
import objects
import packaged
import parts as maps_in_parts
import pictures
import progress
import promises
import readings
import rows
import run as examples
import skipped
import unproved
import ways


def parts():
    """What the built program is asked for, the longest first, each with what plays it and gives how many cases passed and how many
    failed."""
    found = [
        ("answers at full size", full_size.play_all),
        ("decisions at full size", full_size.play_decisions),
        ("lists at full size", full_size.play_lists),
        ("refused allocations", memory.play_all),
        ("maps judged", judged.play_all),
        ("maps in parts", maps_in_parts.play_all),
        ("faces of maps", faced.play_all),
        ("counties that are joined", joined.play_all),
        ("certificates", certificates.play_all),
        ("rows", rows.play_all),
        ("failed reads and writes", devices.play_all),
        ("examples", examples.play_all),
        ("many counties", counties.play_all),
        ("files made over others", made_files.play_all),
        ("pictures", pictures.play_all),
        ("manual page, completions and programs of the libraries", installed.play_all),
        ("what is taken away", packaged.play_all),
        ("the program without its proof", unproved.play_all),
        ("progress", progress.play_all),
        ("a county mended", mended.play_all),
        ("objects of JSON", objects.play_all),
        ("what pages name", cited.play_all),
        ("promises", promises.play_all),
    ]
    if geojson.can_play():
        found.append(("files of GeoJSON", geojson.play_all))
    if readings.can_play():
        found.append(("how often files are read", readings.play_all))
    if ways.can_play():
        found.insert(0, ("sweeps of each command", ways.play_all))
    return found


def timed(part):
    """Plays a part, says how long it took, and gives its two numbers. A part with no case is one that fails."""
    name, play = part
    begun = time.monotonic()
    well, ill = play()
    sys.stdout.write(f"{name}: {well} of {well + ill}, {time.monotonic() - begun:.0f} s\n")
    sys.stdout.flush()
    return well, ill + (well + ill == 0)


def apart(part):
    """The same in a process of its own, with what was skipped there."""
    before = len(skipped.PARTS)
    return *timed(part), skipped.PARTS[before:]


def main():
    """Plays the parts side by side. Each has a process, since most of what they take is Python's own, of which one process does
    one thing at a time."""
    passed = failed = 0
    with ProcessPoolExecutor(len(os.sched_getaffinity(0)), multiprocessing.get_context("fork")) as pool:
        for well, ill, missing in pool.map(apart, parts()):
            passed, failed = passed + well, failed + ill
            skipped.PARTS += missing
    if skipped.PARTS:
        print(f"skipped {len(skipped.PARTS)} parts: {', '.join(skipped.PARTS)}")
    print(skipped.counts(passed, failed))
    return failed > 0


if __name__ == "__main__":
    sys.exit(main())
