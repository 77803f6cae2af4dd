#!/usr/bin/env python3
"""Measures what each command takes of maps of long segments side by side, as no county has them but a stranger's file may: every
family of `long.py`, sound, with one chain more that crosses a segment, and where there are polygons with the sides of one chain
exchanged, one point misplaced or a lone street with a wrong name, each of these also with such a crossing.

usage: hostile.py [--beside PROGRAM] [--sizes N,N,..] [--kinds KIND,KIND,..] [--runs N] [--most SECONDS] [--sweep]

`check` has the certificate that `build` made. Beside stands `audit` of the other program, where one is named, and how often
its time the slowest command took. A row of the greatest size says how the slowest command grew from the least size on: by
the power of the number of chains. Each time is the median of RUNS runs, of one run where that took over a second. A command that takes longer than
SECONDS is ended, and so is the same command of larger maps of its row. Files are made in bench/out; with --sweep those of
each map are taken away behind its row, since a million chains are half a gigabyte.
"""

import argparse
import math
import shutil
import statistics
import subprocess
import threading
import time

from run import BENCH, LONG, OF_SIDES, PROGRAM, SEEN, SIDED, SOUND, numbers, print_table, records_of

COMMANDS = {
    "`audit`": ["audit"],
    "`--all`": ["audit", "--all"],
    "`--faces`": ["audit", "--faces"],
    "`draw --faults`": ["draw", "--faults", "--out", "SVG"],
    "`build`": ["build", "--out", "CERT"],
    "`check`": ["check", "--cert", "CERT"],
}


def variants(kind):
    """How maps of a family are changed, each with what is written behind its name."""
    seen = ["", *(OF_SIDES if kind in SIDED else ())]
    return [(f"{kind}-{'-'.join(filter(None, (it, crossed)))}", SEEN[it] + SEEN[crossed])
            for it in seen for crossed in ("", "crossed")]


def is_sound(kind):
    return kind.split("-", 1)[1] in SOUND


def once(words, most):
    """The seconds of a run, or nothing where it takes longer than allowed."""
    begun = time.perf_counter()
    with subprocess.Popen(words, stdout=subprocess.DEVNULL, stderr=subprocess.DEVNULL) as ran:
        ended = threading.Timer(most, ran.kill)
        ended.start()
        ran.wait()
        ended.cancel()
    taken = time.perf_counter() - begun
    return taken if taken < most else None


def seconds(words, runs, most):
    """The median of the seconds that a command takes, whatever it answers."""
    first = once(words, most)
    if first is None or first > 1:
        return first
    return statistics.median([first, *(once(words, most) for _ in range(runs - 1))])


def given(words, folder):
    """The words of a command with the names of the files that it makes or reads."""
    names = {"CERT": folder / "built", "SVG": folder / "drawn.svg"}
    return [names.get(it, it) for it in words]


def read_through(file):
    """Reads a file, so that what reads it next doesn't wait for the disk."""
    with open(file, "rb") as opened:
        while opened.read(1 << 24):
            pass


def row(kind, name, sizes, words):
    """The rows of one map in each size."""
    slowest, over = {}, set()
    for chains in sizes:
        records = records_of(chains, kind)
        read_through(records)
        found = {}
        for title, command in COMMANDS.items():
            if title in over or command[0] in ("build", "check") and not is_sound(kind):
                continue
            found[title] = seconds([PROGRAM, *given(command, records.parent), records], words.runs, words.most)
            if found[title] is None:
                over.add(title)
        beside = seconds([words.beside, "audit", records], words.runs, words.most) if words.beside else None
        if words.sweep:
            shutil.rmtree(records.parent)
        known = [it for it in found.values() if it is not None]
        slowest[chains] = max(known) if len(known) == len(found) else None
        times = [f"{found[it] * 1e3:.1f}" if found.get(it) else "over" if it in over else "-" for it in COMMANDS]
        ratio = [f"{beside * 1e3:.1f}" if beside else "-",
                 f"{slowest[chains] / beside:.1f}" if beside and slowest[chains] else "-"]
        yield (f"{chains:,} {LONG[kind.split('-')[0]]}{name}", *times, *ratio, grown(slowest, chains, sizes))


def grown(slowest, chains, sizes):
    """The power of the number of chains by which the slowest command grew, where this is the greatest size."""
    if chains != sizes[-1] or len(sizes) < 2 or not slowest[sizes[0]] or not slowest[chains]:
        return ""
    return f"{math.log(slowest[chains] / slowest[sizes[0]]) / math.log(chains / sizes[0]):.2f}"


def main():
    parser = argparse.ArgumentParser()
    parser.add_argument("--beside")
    parser.add_argument("--sizes", default="10000,100000,1000000")
    parser.add_argument("--kinds", default=",".join(LONG))
    parser.add_argument("--runs", type=int, default=5)
    parser.add_argument("--most", type=float, default=60)
    parser.add_argument("--sweep", action="store_true")
    words = parser.parse_args()
    (BENCH / "out").mkdir(exist_ok=True)
    print_table(("Chains", *COMMANDS, "beside, `audit`", "slowest by beside", "power"),
                (found for kind in words.kinds.split(",") for variant, name in variants(kind)
                 for found in row(variant, name, numbers(words.sizes), words)))


if __name__ == "__main__":
    main()
