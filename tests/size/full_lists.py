"""Lists of faults at full size: more than a million lines that are refused, and more than a million faults of a kind, through each
switch of `audit`, and in a picture. full_size.py plays them.

What is wanted is reckoned here, by the rules of docs/faults.md; where a page leaves open which of several pairs is told, the number of
lines is asked for alone.
"""

from pathlib import Path

from grids import CHAIN, KEY, POINT, SIDES
from layout import line_of

# More than a million of each.
MANY = 1_048_577
# So many lines each way meet in more than a million places.
ACROSS = 1_025
# Zero-cell ids of 5 at both ends.
CELLS = line_of("sides 7777777777 - - TZIDS=5 TZIDE=5")


def refused_lines():
    """Lines of which each lacks its TLID."""
    return b"1\n" * MANY, [f"refused line {k} L2 Missing TLID" for k in range(1, MANY + 1)], "refused"


def sides_alone():
    """Sides of no chain, each with a polygon that isn't there."""
    text = b"".join(SIDES % (k, KEY % 1, b"") for k in range(1, MANY + 1))
    missing = [f"map fault M6 SidesWithoutChain tlid {k}" for k in range(1, MANY + 1)]
    return text, missing + [f"map fault M9 SideWithoutPolygon tlid {k} polygon A0001/1" for k in range(1, MANY + 1)], "faults"


def crossing_streets():
    """Streets from west to east, and others from south to north, each of which meets each of those."""
    far = 10 * (ACROSS + 1)
    at = [10 * k for k in range(1, ACROSS + 1)]
    lines = [CHAIN % (k + 1, 0, y, far, y) for k, y in enumerate(at)]
    lines += [CHAIN % (ACROSS + k + 1, x, 0, x, far) for k, x in enumerate(at)]
    lines += [SIDES % (k, b"", b"") for k in range(1, 2 * ACROSS + 1)]
    d = far * far
    told = (
        f"map fault G1 Meet tlid {j + 1} segment {j} tlid {ACROSS + k + 1} segment {ACROSS + k} at {x * d} {y * d} {d}"
        for j, y in enumerate(at)
        for k, x in enumerate(at)
    )
    return b"".join(lines), list(told), "faults"


def streets_of_two_sides():
    """Streets that touch no other, each with a polygon on its left alone: its sides differ at both ends."""
    count = MANY // 2 + 1
    lines, told = [POINT % (KEY % 1, -5, -5)], []
    for k in range(count):
        x, y = 3 * (k % 1_000), 2 * (k // 1_000)
        lines += [CHAIN % (k + 1, x, y, x + 2, y), SIDES % (k + 1, KEY % 1, b"")]
        told += [f"map fault G2 Side at {x + way} {y} darts {dart} {dart}" for way, dart in ((0, 2 * k), (2, 2 * k + 1))]
    return b"".join(lines), told, "faults"


def points_outside():
    """As many polygons as there may be, that no chain bounds."""
    count = MANY - 1
    text = b"".join(POINT % (KEY % k, k, k) for k in range(1, count + 1))
    return text, [f"map fault G4 PointOutside polygon A0001/{k}" for k in range(1, count + 1)], "faults"


def points_on_a_chain():
    """So many on one chain. The ray of each to the east runs along it and crosses nothing, so no polygon holds its point."""
    count = MANY - 1
    street = CHAIN % (7, 0, 0, count + 1, 0) + SIDES % (7, b"", b"")
    text = street + b"".join(POINT % (KEY % k, k, 0) for k in range(1, count + 1))
    of_polygon = lambda key: [f"map fault G3 PointOnChain polygon {key} tlid 7", f"map fault G4 PointOutside polygon {key}"]
    return text, [line for k in range(1, count + 1) for line in of_polygon(f"A0001/{k}")], "faults"


def cells_at_odds():
    """Streets that touch no other, with one id at all their ends."""
    count = MANY // 2 + 1
    lines = []
    for k in range(count):
        x, y = 3 * (k % 1_000), 2 * (k // 1_000)
        lines += [CHAIN % (k + 1, x, y, x + 2, y), CELLS.replace(b"7777777777", b"%10d" % (k + 1))]
    return b"".join(lines), 2 * count - 1, "faults"


def play_list(plays, name, made, switches=()):
    """Plays `audit --all` of a file through each of its switches. `made` is its text, the lines wanted or their number, and the word
    of the last line."""
    text, wanted, word = made
    plays.file(name, text)
    status = 3 if word == "refused" else 1
    count = wanted if isinstance(wanted, int) else len(wanted)
    left = "touched polygons=1 not looked at\n" if name == "streets of two sides" else ""
    audited = lambda title, words, lines, tail: plays.ends(f"{name}, {title}", ["--all", *switches, *words, name], status, lines, tail)
    audited("all", [], wanted, f"{left}{word}={count}\n")
    audited("none printed", ["--most", "0"], [], f"{left}{word}={count} printed=0\n")
    some = 2 if isinstance(wanted, int) else wanted[:2]
    audited("two", ["--most", "2"], some, f"{left}{word}={count} printed=2\n")
    file = Path(plays.folder, "features")
    plays.ends(f"{name}, two and where", ["--all", *switches, "--most", "2", "--where", name], status, None, f"{word}={count} printed=2\n")
    plays.ends(f"{name}, as a file", ["--all", *switches, "--most", "0", "--geojson", file.name, name], status, [], f"{left}{word}={count} printed=0\n")
    features = file.read_bytes().count(b'"code":') if file.exists() else 0
    plays.count(features == count, f"{name}: the file has {features} features")
    file.unlink(missing_ok=True)


def play_all(plays):
    play_list(plays, "refused lines", refused_lines())
    play_list(plays, "sides alone", sides_alone())
    play_list(plays, "crossing streets", crossing_streets())
    play_list(plays, "streets of two sides", streets_of_two_sides())
    play_list(plays, "points outside", points_outside())
    play_list(plays, "points on a chain", points_on_a_chain())
    play_list(plays, "cells at odds", cells_at_odds(), ["--zero-cells"])
