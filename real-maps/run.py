#!/usr/bin/env python3
"""Audits the maps of Debian's package r-cran-maps, and asks GEOS of the same lines.

usage: run.py [--pictures FOLDER]

Fetches the package, makes records of its maps (`records_of.py`) under real-maps/out, runs `audit --all` over each and prints a row of
docs/real-maps.md for it: how many chains, segments and polygons it has, how many faults of each code, how many pairs of chains meet by
tigertopo and by GEOS, and how long the command took. GEOS, by Debian's python3-shapely, says of two chains whether the inside of one
meets the other, and of one whether it is simple; it computes in floating point, as programs for maps do. Where it isn't there, its
column is empty. With --pictures, `draw --faults` makes the pictures of docs/real-maps.md in that folder.
"""

import argparse
import subprocess
import sys
import time
import warnings
from collections import Counter
from pathlib import Path

import records_of

HERE = Path(__file__).resolve().parent
PROGRAM = HERE.parent / "crates/tigertopo/out/tigertopo"
OUT = HERE / "out"
PACKAGE = "r-cran-maps"
MAPS = ["usa", "state", "county", "lakes", "france", "italy", "nz", "world"]
# each picture's name, the middle of what it shows and how wide that is, in millionths of a degree
PICTURED = "county"
PICTURES = [
    ("crossing", (-105681000, 39927000), 30000),
    ("spike", (-89403000, 36502000), 20000),
    ("side", (-113331054, 33700000), 1500000),
]


def mapdata():
    """The folder of the package's maps, fetched where it isn't there yet."""
    found = list(OUT.glob("package/**/mapdata"))
    if not found:
        OUT.mkdir(exist_ok=True)
        subprocess.run(["apt-get", "download", "-q", PACKAGE], cwd=OUT, check=True, stdout=subprocess.DEVNULL)
        subprocess.run(["dpkg-deb", "-x", next(OUT.glob("*.deb")), OUT / "package"], check=True)
        found = list(OUT.glob("package/**/mapdata"))
    return found[0]


def met_by_geos(chains):
    """The pairs of chains that GEOS says meet elsewhere than at ends of both; a chain that isn't simple is a pair with itself."""
    warnings.simplefilter("ignore")
    try:
        from shapely.geometry import LineString
        from shapely.strtree import STRtree
    except ImportError:
        return None
    lines = [LineString(points) for points, _, _ in chains]
    places = {id(line): place for place, line in enumerate(lines)}
    tree = STRtree(lines)
    pairs = {(place, place) for place, line in enumerate(lines) if not line.is_simple}
    for place, line in enumerate(lines):
        for other in tree.query(line):
            second = int(places.get(id(other), other))  # from version 2 on, places are found
            if place < second and {line.relate(other)[k] for k in (0, 1, 3)} != {"F"}:
                pairs.add((place, second))
    return pairs


def audited(files):
    """What `audit --all` prints of these files, and how many seconds it took."""
    begun = time.monotonic()
    done = subprocess.run([PROGRAM, "audit", "--all", *files], capture_output=True, text=True)
    return (done.stdout + done.stderr).splitlines(), time.monotonic() - begun


def met_by_tigertopo(lines):
    """The pairs of chains in G1 lines, by their places in the file."""
    words = [line.split() for line in lines if " G1 " in line]
    return {tuple(int(tlid) - records_of.FIRST_TLID for tlid in (word[5], word[9])) for word in words}


def counted(lines):
    codes = Counter(line.split()[2] for line in lines if line.startswith("map fault"))
    refused = sum(line.startswith("refused line") for line in lines)
    told = [f"{code} {codes[code]}" for code in sorted(codes)] + ([f"refused {refused}"] if refused else [])
    return ", ".join(told) or lines[-1]


def row_of(name):
    folder = OUT / name
    chains = list(records_of.lines_of(mapdata() / f"{name}.L"))
    folder.mkdir(parents=True, exist_ok=True)
    records_of.write_files(folder, records_of.files_of(chains))
    lines, seconds = audited(sorted(folder.glob("TGR*")))
    ours, theirs = met_by_tigertopo(lines), met_by_geos(chains)
    segments = sum(len(points) - 1 for points, _, _ in chains)
    polygons = len({region for _, left, right in chains for region in (left, right)} - {0})
    asked = not any(line.startswith("refused") for line in lines)
    beside = "" if theirs is None else f"{len(theirs)}"
    if asked and theirs is not None and ours != theirs:
        beside += f" ({len(ours - theirs)} fewer, {len(theirs - ours)} more)"
    met = len(ours) if asked else ""
    return f"| {name} | {len(chains)} | {segments} | {polygons} | {counted(lines)} | {met} | {beside} | {seconds:.2f} s |"


def draw(folder):
    files = sorted((OUT / PICTURED).glob("TGR*"))
    for name, (x, y), width in PICTURES:
        out = Path(folder, f"{name}.svg")
        subprocess.run([PROGRAM, "draw", "--out", out, "--at", f"@{x},{y}", "--width", str(width), "--faults", *files], check=True)


def main():
    parser = argparse.ArgumentParser(description=__doc__.splitlines()[0])
    parser.add_argument("--pictures")
    words = parser.parse_args()
    print("| map | lines | segments | regions | faults | pairs of lines that meet | by GEOS | time |")
    print("|---|---|---|---|---|---|---|---|")
    for name in MAPS:
        print(row_of(name), flush=True)
    if words.pictures:
        draw(words.pictures)


if __name__ == "__main__":
    sys.exit(main())
