#!/usr/bin/env python3
"""Measures `tigertopo show`, `landmarks` and `locate`, and a program that only counts records, beside `wc -l` of the same files;
`check` by a plain maker's certificate beside `show` in a second table; `audit`, `build`, `check` of what was built and `locate`
beside `show` in a third; `audit` of maps of long segments in a fourth; `bench tree`, which makes the segments of a county and
searches them, in a fifth; and `bench cert`, which writes and reads certificates, beside `wc -l` of the same file, in a sixth.

usage: run.py [--sizes N,N,..] [--counties N,N,..] [--keys N] [--decided N,N,..] [--long N,N,..] [--segments N,N,..]
              [--certificates N,N,..] [--kinds KIND,KIND,..] [--runs N]

The files of --sizes hold types 1 and 2; those of --counties are whole counties of all six types, by rising TLID and, in a
second row of files, in random order. Those of --keys have as many polygons as chains, with ordinary keys and, in a second
row, with keys that were chosen against a hash function. Those of --decided are such counties in both orders, and grids of
squares; those of --long maps whose segments are long and stand side by side, each also in a mirror, turned by a quarter, both,
with one crossing and, where there are polygons, with the sides of one chain exchanged. A list may be empty, which leaves its table out; --kinds leaves out files of other kinds than those.

Each program runs once for its peak of memory and then RUNS times for its seconds, in turn with the others, with its
output thrown away. The tables have medians. Files are made in bench/out, once. `make bench` builds the programs first.
"""

import argparse
import re
import statistics
import subprocess
import sys
import time
from pathlib import Path

BENCH = Path(__file__).resolve().parent
CRATES = BENCH.parent / "crates"
PROGRAM = CRATES / "tigertopo" / "out" / "tigertopo"
# The program that measures parts of the work.
PARTS = CRATES / "bench" / "out" / "bench"
NAMES = {
    "streets": "streets alone",
    "county": "a county",
    "shuffled": "a county, random order",
    "grid": "a grid of squares",
    "nested": "islands of one polygon",
    "keys": "ordinary keys",
    "hostile": "keys against a fixed seed",
    "sip": "keys against SipHash without keys",
}
LONG = {
    "comb": "slanted lines side by side",
    "lines": "nearly level lines side by side",
    "bends": "lines with eight bends side by side",
    "star": "spokes and their rim",
    "squares": "squares in squares",
    "spiral": "a spiral",
}
SEEN = {"": "", "mirrored": " in a mirror", "turned": ", turned", "mirrored-turned": " in a mirror, turned",
        "crossed": ", one crossing more", "exchanged": ", the sides of one chain exchanged",
        "misplaced": ", one point misplaced", "street": ", a lone street with a wrong name"}
# Those that are sound.
SOUND = ("", "mirrored", "turned", "mirrored-turned", "street")
# Those that have polygons, and how only such are seen.
SIDED = ("star", "squares")
OF_SIDES = ("exchanged", "misplaced", "street")
MAKERS = {"streets": ["make_records.py"], "county": ["county.py"], "shuffled": ["county.py", "--shuffled"],
          "grid": ["grid.py"], "nested": ["nested.py"], "keys": ["keys.py"], "hostile": ["keys.py", "--hostile", "fixed"],
          "sip": ["keys.py", "--hostile", "zero"]}
MAKERS |= {f"{kind}-{seen}": ["long.py", f"--{kind}", *(f"--{it}" for it in seen.split("-") if it)]
           for kind in LONG for seen in (*SEEN, *(f"{it}-crossed" for it in OF_SIDES))}


def files_of(chains, kind):
    folder = BENCH / "out" / f"{chains}-{kind}"
    if not (folder / "done").exists():
        maker, *choices = MAKERS[kind]
        subprocess.run([sys.executable, BENCH / maker, folder, str(chains), *choices], check=True)
        (folder / "done").touch()
    return sorted(folder.glob("*.RT*"))


def records_of(chains, kind):
    """The records of such files in one."""
    records = BENCH / "out" / f"{chains}-{kind}" / "records"
    if not records.exists():
        records.write_bytes(b"".join(file.read_bytes() for file in files_of(chains, kind)))
    return records


def certificate_of(chains):
    """A certificate of a whole county."""
    files = files_of(chains, "county")
    certificate = BENCH / "out" / f"{chains}-county" / "certificate"
    if not certificate.exists():
        subprocess.run([sys.executable, BENCH / "certificate.py", certificate, *files], check=True)
    return certificate


def seconds_of(words, status=0):
    begun = time.perf_counter()
    done = subprocess.run(words, stdout=subprocess.DEVNULL)
    seconds = time.perf_counter() - begun
    if done.returncode != status:
        sys.exit(f"{words[0]} ended with status {done.returncode}")
    return seconds


def peak_of(words):
    """The peak of memory in megabytes, as the system shows it while the program runs. The figure that it gives at a
    child's end counts this script's own memory too."""
    peak = 0
    child = subprocess.Popen(words, stdout=subprocess.DEVNULL)
    while child.poll() is None:
        for line in Path(f"/proc/{child.pid}/status").read_text().splitlines():
            if line.startswith("VmHWM:"):
                peak = max(peak, int(line.split()[1]))
    return peak / 1024


def rows(chains, kind, runs):
    files = files_of(chains, kind)
    counted = subprocess.run(["wc", "-l", *files], stdout=subprocess.PIPE, text=True, check=True).stdout
    lines = int(counted.split("\n")[-2].split()[0])
    size = sum(file.stat().st_size for file in files)
    programs = {"wc -l": ["wc", "-l", *files], "bench records": [PARTS, "records", *files],
                "show": [PROGRAM, "show", *files]}
    if kind != "streets":
        programs["landmarks"] = [PROGRAM, "landmarks", *files]
        programs["locate"] = [PROGRAM, "locate", "@-78762000,39652000", *files]
    programs = {name: words for name, words in programs.items() if name == "wc -l" or words[0].exists()}
    peaks = {name: peak_of(words) for name, words in programs.items()}
    taken = {name: [] for name in programs}
    for _ in range(runs):
        for name, words in programs.items():
            taken[name].append(seconds_of(words))
    base = statistics.median(taken["wc -l"])
    for name, found in taken.items():
        seconds = statistics.median(found)
        yield (f"{chains:,} {NAMES[kind]}", f"{lines:,}", f"{size / 1e6:.1f}", name, f"{seconds * 1e3:.1f}",
               f"{seconds / base:.1f}", f"{lines / seconds / 1e6:.2f}", f"{peaks[name]:.1f}" if peaks[name] >= 0.1 else "-")


def check_rows(chains, runs):
    files, certificate = files_of(chains, "county"), certificate_of(chains)
    show, check = [PROGRAM, "show", *files], [PROGRAM, "check", "--cert", certificate, *files]
    peak = peak_of(check)
    found = [(seconds_of(show) * 1e3, seconds_of(check) * 1e3) for _ in range(runs)]
    shown, checked = (statistics.median(column) for column in zip(*found))
    yield (f"{chains:,}", f"{shown:.1f}", f"{checked:.1f}", f"{checked / shown:.1f}", f"{peak:.1f}", f"{peak * 2 ** 20 / chains:.0f}")


def decided_rows(chains, kind, runs):
    """What each command takes of one map, `check` by the certificate that `build` made."""
    files = files_of(chains, kind)
    built = files[0].parent / "built"
    programs = {
        "show": [PROGRAM, "show", *files],
        "audit": [PROGRAM, "audit", *files],
        "audit --faces": [PROGRAM, "audit", "--faces", *files],
        "build": [PROGRAM, "build", "--out", built, *files],
        "check": [PROGRAM, "check", "--cert", built, *files],
        "locate": [PROGRAM, "locate", "@-76699000,39201000", *files],
    }
    peaks = {name: peak_of(words) for name, words in programs.items()}
    found = {name: [] for name in programs}
    for _ in range(runs):
        for name, words in programs.items():
            found[name].append(seconds_of(words) * 1e3)
    shown = statistics.median(found["show"])
    for name, each in found.items():
        taken, peak = statistics.median(each), peaks[name]
        # A program that ends at once isn't seen at work.
        memory = (f"{peak:.1f}", f"{peak * 2 ** 20 / chains:.0f}") if peak >= 0.1 else ("-", "-")
        yield (f"{chains:,} {NAMES[kind]}", name, f"{taken:.1f}", f"{taken / shown:.1f}", f"{taken * 1e3 / chains:.2f}", *memory)


def seen_of(kind):
    """How maps of long segments are seen, of one kind."""
    return [seen for seen in SEEN if kind in SIDED or seen not in OF_SIDES]


def long_rows(chains, kind, runs):
    """What `audit` takes of one map of long segments, however it is seen."""
    for seen in seen_of(kind):
        words = [PROGRAM, "audit", *files_of(chains, f"{kind}-{seen}")]
        answer = subprocess.run(words, stdout=subprocess.PIPE, text=True).stdout
        peak = peak_of(words)
        found = statistics.median(seconds_of(words, 0 if seen in SOUND else 1) for _ in range(runs))
        yield (f"{chains:,} {LONG[kind]}{SEEN[seen]}", "a meet" if answer.startswith("map fault G1") else answer.split()[0],
               f"{found * 1e3:.1f}", f"{found * 1e6 / chains:.2f}", f"{peak:.1f}" if peak >= 0.1 else "-")


def searched(segments):
    """What one run of `bench tree` prints: the microseconds of each step, in order, and the pairs that were tested."""
    done = subprocess.run([PARTS, "tree", str(segments)], capture_output=True, text=True, check=True)
    taken = [(line.split(": ")[0], int(line.split()[-2])) for line in done.stderr.splitlines()]
    tests = re.fullmatch(r"segments=\d+ flat_tests=(\d+) boxes_tests=\1\n", done.stdout)
    if not tests or len(taken) != 6:
        sys.exit(f"{PARTS} tree tells something else: {done.stdout}{done.stderr}")
    return taken, int(tests[1])


def tree_rows(segments, runs):
    found = [searched(segments) for _ in range(runs)]
    steps = [statistics.median(taken[k][1] for taken, _ in found) for k in range(6)]
    made, packed, _, check, flat, boxes = steps
    for name, search, checked in (("flat", flat, f"{check * 1e3 / segments:.1f}"), ("boxes", boxes, "-")):
        yield (f"{segments:,}", name, f"{made / 1e3:.1f}", f"{packed / 1e3:.1f}", f"{search / 1e3:.1f}", f"{search / made:.1f}",
               f"{found[0][1] / segments:.2f}", checked)


def told(words):
    """The microseconds that `bench cert` tells of its work."""
    done = subprocess.run(words, capture_output=True, text=True, check=True)
    return int(done.stderr.split()[-2])


def certificate_rows(chains, runs):
    file = BENCH / "out" / f"{chains}-certificate"
    file.parent.mkdir(exist_ok=True)
    make, read, parts = ([PARTS, "cert", *words, file] for words in (["make", f"{chains}"], ["read"], ["parts"]))
    count = ["wc", "-l", file]
    peaks = {"written": peak_of(make), "read": peak_of(read), "read by parts": peak_of(parts), "wc -l": peak_of(count)}
    lines, size = int(subprocess.check_output(count).split()[0]), file.stat().st_size
    # The file stays as it is while it is read and counted.
    taken = {"written": [told(make) / 1e6 for _ in range(runs)], "wc -l": [], "read": [], "read by parts": []}
    subprocess.run(["sync"], check=True)
    for _ in range(runs):
        taken["wc -l"].append(seconds_of(count))
        taken["read"].append(told(read) / 1e6)
        taken["read by parts"].append(told(parts) / 1e6)
    base = statistics.median(taken["wc -l"])
    for name, found in taken.items():
        seconds = statistics.median(found)
        yield (f"{chains:,}", f"{lines:,}", f"{size / 1e6:.1f}", name, f"{seconds * 1e3:.1f}", f"{seconds / base:.1f}",
               f"{seconds / lines * 1e9:.1f}", f"{peaks[name]:.1f}" if peaks[name] >= 0.1 else "-")


def print_table(head, found):
    """Prints a table, if it has any rows, each as it is found."""
    headed = False
    for row in found:
        if not headed:
            print("| " + " | ".join(head) + " |")
            print("|" + "---|" * len(head))
            headed = True
        print("| " + " | ".join(row) + " |", flush=True)
    if headed:
        print()


def numbers(words):
    return [int(it) for it in words.split(",") if it]


def main():
    parser = argparse.ArgumentParser()
    parser.add_argument("--sizes", default="1000,10000,100000")
    parser.add_argument("--counties", default="10000,100000,1000000")
    parser.add_argument("--keys", default="100000")
    parser.add_argument("--decided", default="1000,10000,100000,1000000")
    parser.add_argument("--long", default="10000,100000,1000000")
    parser.add_argument("--segments", default="27500,275000,2750000")
    parser.add_argument("--certificates", default="10000,100000,1000000")
    parser.add_argument("--kinds", default=",".join((*NAMES, *LONG)))
    parser.add_argument("--runs", type=int, default=5)
    words = parser.parse_args()
    kinds = words.kinds.split(",")
    parts = [("streets", words.sizes), ("county", words.counties), ("shuffled", words.counties)]
    parts += [("keys", words.keys), ("hostile", words.keys), ("sip", words.keys)]
    parts = [(kind, sizes) for kind, sizes in parts if kind in kinds]
    decided = [(chains, kind) for kind in ("county", "shuffled", "grid", "nested") for chains in numbers(words.decided)]
    decided = [(chains, kind) for chains, kind in decided if kind in kinds]
    print_table(
        ("Chains", "Lines", "MB", "Program", "ms", "times `wc -l`", "million lines a second", "peak MB"),
        (row for kind, sizes in parts for chains in numbers(sizes) for row in rows(chains, kind, words.runs)))
    print_table(
        ("Chains", "`show`, ms", "`check`, ms", "times `show`", "peak MB", "bytes a chain"),
        (row for chains in numbers(words.counties) for row in check_rows(chains, words.runs)))
    print_table(
        ("Chains", "Command", "ms", "times `show`", "us a chain", "peak MB", "bytes a chain"),
        (row for chains, kind in decided for row in decided_rows(chains, kind, words.runs)))
    print_table(
        ("Chains", "Answer", "`audit`, ms", "us a chain", "peak MB"),
        (row for kind in LONG if kind in kinds for chains in numbers(words.long) for row in long_rows(chains, kind, words.runs)))
    print_table(
        ("Segments", "Tree", "rectangles made and sorted, ms", "tree packed, ms", "search, ms", "times", "tests a segment",
         "check, ns an item"),
        (row for segments in numbers(words.segments) for row in tree_rows(segments, words.runs)))
    print_table(
        ("Chains", "Lines", "MB", "Certificate", "ms", "times `wc -l`", "ns a line", "peak MB"),
        (row for chains in numbers(words.certificates) for row in certificate_rows(chains, words.runs)))


if __name__ == "__main__":
    main()
