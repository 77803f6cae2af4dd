#!/usr/bin/env python3
"""Draws pictures by the built program, and reads them as a browser does.

usage: pictures.py [PROGRAM]

Each picture is parsed as XML. What it shows, and where, is compared with places that are reckoned here by fractions, from
docs/commands.md alone, or were by hand. Where Chromium is there, pictures are shown by it at three widths: what it shows may not be
blank, and is as wide as the window.
"""

import json
import math
import re
import shutil
import struct
import subprocess
import sys
import tempfile
import zlib
from fractions import Fraction
from pathlib import Path
from xml.etree import ElementTree

sys.path.append(str(Path(__file__).resolve().parents[1]))
from folders import EXAMPLES, PROGRAM

import skipped
from layout import line_of

COUNTY = EXAMPLES / "county"
TOWN = EXAMPLES / "faults" / "town"
BEGINNING = b'<svg xmlns="http://www.w3.org/2000/svg" class="tigertopo"'
SVG = "{http://www.w3.org/2000/svg}"
BROWSERS = ("chromium", "chromium-browser", "google-chrome")
HEADLESS = ("--headless", "--no-sandbox", "--disable-gpu")


class Wrong(Exception):
    """What isn't as it should be."""


def want(title, found, wanted):
    if found != wanted:
        raise Wrong(f"{title}: {found!r} in place of {wanted!r}")


def run(program, *words):
    done = subprocess.run([program, *map(str, words)], capture_output=True, check=False)
    return done.returncode, done.stdout, done.stderr


class Picture:
    """A picture that was made, taken apart."""

    def __init__(self, made):
        text = made.read_bytes()
        want("how a picture begins", text[: len(BEGINNING)], BEGINNING)
        root = ElementTree.fromstring(text)
        want("its width", (root.get("width"), root.get("height"), root.get("style")), (None, None, "width:100%;height:auto"))
        self.box = tuple(map(int, root.get("viewBox").split()))
        self.paths = {path.get("class"): path.get("d") for path in root.iter(SVG + "path")}
        groups = [it for it in root.iter(SVG + "g") if it.get("class") == "polygons"]
        self.is_filled = len(groups) == 1 and list(root).index(groups[0]) < [it.get("class") for it in root].index("chains")
        self.fills = [(it.get("style"), rings_of(it.get("d"))) for group in groups for it in group]
        self.circles = [(int(it.get("cx")), int(it.get("cy"))) for it in root.iter(SVG + "circle")]
        self.titles = [it.text.split("\n")[0] for it in root.iter(SVG + "title")]
        self.closer = [it.text.split("\n")[1:] for it in root.iter(SVG + "title")]
        texts = [(it.get("class"), int(it.get("x")), int(it.get("y")), it.text) for it in root.iter(SVG + "text")]
        self.codes = [it[1:] for it in texts if it[0] == "code"]
        self.key = [it[3] for it in texts if it[0] != "code"]

    def count(self, path, command):
        return self.paths[path].count(command)

    def dots(self, path):
        """The places of the dots of a path."""
        return [(int(x), int(y)) for x, y in re.findall(r"M(-?\d+) (-?\d+)h0", self.paths[path])]


def rings_of(steps):
    """The rings of a path, each as its corners; a ring that doesn't end where it began is wrong."""
    rings = [[tuple(map(int, it)) for it in re.findall(r"[ML](-?\d+) (-?\d+)", ring)] for ring in re.findall(r"M[^Mz]*z", steps)]
    want("where rings end", [ring[-1] for ring in rings], [ring[0] for ring in rings])
    want("what a path has beside rings", re.sub(r"M-?\d+ -?\d+(L-?\d+ -?\d+)*z", "", steps), "")
    return rings


def is_in(rings, x, y):
    """Whether a place lies in an odd number of rings: each step that crosses the way from it to the east is counted."""
    crossed = 0
    for ring in rings:
        for (x1, y1), (x2, y2) in zip(ring, ring[1:]):
            crossed += (y1 > y) != (y2 > y) and x < x1 + Fraction((y - y1) * (x2 - x1), y2 - y1)
    return crossed % 2 == 1


def draw(program, folder, answer, *words):
    made = folder / "map.svg"
    want(f"draw {words}", run(program, "draw", "--out", made, *words), (0, answer, b""))
    return Picture(made)


def whole(program, folder):
    """A county that is fitted: its longer side is 980 pixels, and north is up. Fifty pixels above say what is drawn. It is 60 millionths
    of a degree wide, of which nine are a metre."""
    picture = draw(program, folder, b"drawn chains=5\n", COUNTY)
    want("what it shows", picture.box, (-100, -600, 9800 + 200, 6533 + 700))
    want("what its marks mean", picture.key, ["chain", "node", "polygon's point", "1 m"])
    want("its scale", picture.paths["scale"], "M0 -240v80m0 -40h1470m0 -40v80")
    want("its strokes", picture.count("chains", "l"), 12)
    want("the ends of chains", len(picture.dots("nodes")), 10)
    want("nodes", sorted(set(picture.dots("nodes"))), [(1633, 4900), (4900, 0), (4900, 6533), (8166, 3266)])
    want("polygons' points", picture.dots("points"), [(2450, 3266), (5716, 1633), (7350, 3266)])
    want("circles", picture.circles, [])


def part(program, folder):
    """A place: what lies outside isn't drawn, and what meets the border is."""
    picture = draw(program, folder, b"drawn chains=1\n", "--at", "@55,30", "--width", "10", COUNTY)
    want("what it shows", picture.box, (-100, -600, 9800 + 200, 9800 + 700))
    want("its strokes", picture.count("chains", "l"), 4)
    want("nodes", set(picture.dots("nodes")), {(9800, 4900)})
    want("polygons' points", picture.dots("points"), [(4900, 4900)])
    picture = draw(program, folder, b"drawn chains=0\n", "--at", "@-40,-40", "--width", "10", COUNTY)
    want("its strokes", picture.count("chains", "l"), 0)


def faulty(program, folder):
    """Each fault is a circle whose title is what `audit --all` prints of it."""
    _, listed, _ = run(program, "audit", "--all", TOWN)
    told = [line.removeprefix("map fault ") for line in listed.decode().splitlines() if line.startswith("map fault ")]
    status, out, err = run(program, "draw", "--faults", "--out", folder / "map.svg", TOWN)
    want("the faults of a town", (status, out.split(b" ")[-1], err), (0, b"faults=%d\n" % len(told), b""))
    picture = Picture(folder / "map.svg")
    want("titles", picture.titles, told)
    want("circles", len(picture.circles), len(told))
    # Less than forty pixels from the eastern border a code stands to the west of its circle.
    beside = [(x - 80 if x + 400 > picture.box[2] - 200 else x + 80, y + 45, line[:2]) for (x, y), line in zip(picture.circles, told)]
    want("codes", picture.codes, beside)
    want("what its marks mean", picture.key[:4], ["chain", "node", "polygon's point", "fault"])
    meets = [tuple(map(int, line.split()[-3:])) for line in told if line.startswith("G1 ")]
    want("meets", len(meets) > 2 and any(d > 1 for _, _, d in meets), True)
    places = places_of(program, TOWN)
    want("where segments meet", places[: len(meets)], [(Fraction(x, d), Fraction(y, d)) for x, y, d in meets])
    frame = frame_of(program, TOWN, places)
    want("where they are", picture.circles, [frame.spot(*it) for it in places])
    closer = [[f"--at @{math.floor(x)},{math.floor(y)} --width {frame.closer}"] for x, y in places]
    want("what to type", picture.closer, closer)
    for (words,) in picture.closer:
        _, at, _, width = words.split()
        status, out, _ = run(program, "draw", "--faults", "--out", folder / "map.svg", "--at", at, "--width", width, TOWN)
        want(f"a picture {words}", (status, out.endswith(b"faults=0\n")), (0, False))
    draw(program, folder, b"drawn chains=5 faults=0\n", "--faults", COUNTY)


def chains_of(program, records):
    """The points of each chain, by `show`."""
    _, out, _ = run(program, "show", records)
    return [[tuple(map(int, it.split(","))) for it in line.split()[2:]] for line in out.decode().splitlines() if line.startswith("tlid")]


def places_of(program, records):
    """Where each fault lies, by `audit --json`, as fractions."""
    _, out, _ = run(program, "audit", "--all", "--json", records)
    told = map(json.loads, out.decode().splitlines())
    return [tuple(map(Fraction, it["place"]["exact"])) for it in told if it["is"] == "fault"]


def frame_of(program, records, places):
    """What a picture of a whole map shows: the rectangle about the points of all chains and about the whole millionths to the south-west
    of the places of faults that are shown."""
    points = [point for points in chains_of(program, records) for point in points]
    xs, ys = zip(*points, *((math.floor(x), math.floor(y)) for x, y in places))
    return Shown(min(xs), min(ys), max(xs), max(ys))


class Shown:
    """Which part of the plane a picture shows, with places in tenths of a pixel as docs/commands.md says."""

    def __init__(self, west, south, east, north):
        self.west, self.south, self.east, self.north = west, south, east, north
        degrees = Fraction(south + north, 2 * 10**6)
        self.cosine = math.floor(10**4 * (180**2 - 4 * degrees**2) / (180**2 + degrees**2) + Fraction(1, 2)) * Fraction(1, 10**4)
        self.side = max((east - west) * self.cosine, north - south, 1)
        self.closer = max(max(east - west, north - south) // 10, 2)

    def spot(self, x, y):
        scale = 9800 / Fraction(self.side)
        return math.floor((x - self.west) * self.cosine * scale), math.floor((self.north - y) * scale)

    @property
    def box(self):
        """The `viewBox`: ten pixels about what is shown, which is 580 pixels wide at least, and fifty more above."""
        east, south = self.spot(self.east, self.south)
        return -100, -600, max(east, 5800) + 200, south + 700


def made(folder, *lines):
    """A file of records with these lines."""
    records = folder / "records"
    records.write_bytes(b"".join(map(line_of, lines)))
    return records


def crossing(program, folder):
    """Two chains that cross at (6/7, 4/7): 3 millionths are 9800 tenths of a pixel, so that is 2800 to the east, and 14000 / 3 to the
    south of the northern border. Behind `--at` stands the whole millionth to its south-west."""
    records = made(folder, "chain 1 0,0 3,2", "chain 2 0,1 2,0", "sides 1 - -", "sides 2 - -")
    picture = draw(program, folder, b"drawn chains=2 faults=1\n", "--faults", records)
    want("circles", picture.circles, [(2800, 4666)])
    want("codes", picture.codes, [(2880, 4711, "G1")])
    want("what to type", picture.closer, [["--at @0,0 --width 2"]])
    # One millionth is 9800 tenths now, from -1/2 to 1/2, so 6/7 lies 9/14 of a pixel's width beyond the picture.
    draw(program, folder, b"drawn chains=1 faults=0\n", "--faults", "--at", "@0,0", "--width", "1", records)
    draw(program, folder, b"drawn chains=2 faults=1\n", "--faults", "--at", "@0,0", "--width", "2", records)
    picture = draw(program, folder, b"drawn chains=2 faults=1\n", "--faults", "--at", "@1,1", "--width", "1", records)
    want("circles", picture.circles, [(math.floor(Fraction(6 * 9800, 7) - 4900), math.floor(Fraction(3, 2) * 9800 - Fraction(4 * 9800, 7)))])


def at_the_border(program, folder):
    """At the eastern border of what is shown, a code stands to the west of its circle."""
    records = made(folder, "chain 1 0,0 100,0", "chain 2 100,-5 100,5", "chain 3 0,2 2,-2", "sides 1 - -", "sides 2 - -", "sides 3 - -")
    picture = draw(program, folder, b"drawn chains=3 faults=2\n", "--faults", records)
    want("codes", sorted(picture.codes), [(98 + 80, 490 + 45, "G1"), (9800 - 80, 490 + 45, "G1")])


def centred(program, folder):
    """The point that is asked for is in the middle, whether the width is odd or even."""
    records = made(folder, "chain 1 50,50 60,60", "sides 1 - -")
    for width in (1, 2, 21, 22, 1001):
        picture = draw(program, folder, b"drawn chains=1\n", "--at", "@50,50", "--width", width, records)
        want(f"the point in the middle of {width}", picture.dots("nodes")[0], (4900, 4900))


def seen(program, folder):
    """A chain is counted and drawn where it has a point in the picture: not where it passes by a corner outside, though the rectangle
    about it meets the picture. With its margin the picture's corner is at 44.898, 35.102."""
    place = ("--at", "@50,30", "--width", "10")
    for ends, count in (("43,34 46,37", 0), ("44,34 46,36", 1), ("40,30 60,30", 1), ("44,20 44,40", 0), ("40,20 60,40", 1), ("54,37 57,34", 0), ("54,36 56,34", 1)):
        records = made(folder, f"chain 1 {ends}", "sides 1 - -")
        picture = draw(program, folder, b"drawn chains=%d\n" % count, *place, records)
        want(f"strokes of {ends}", picture.count("chains", "l"), count)


def thirds(program, folder):
    """Nothing that is a third of a pixel wide or high is left out: of 29,400 millionths, 10 are a third of a pixel."""
    wide = ["chain 1 0,0 29400,0", "sides 1 - -"]
    for points, count in (("500,500 509,509", 1), ("500,500 510,500", 2), ("500,500 500,510", 2), ("500,500 509,490", 2)):
        records = made(folder, *wide, f"chain 2 {points}", "sides 2 - -")
        draw(program, folder, b"drawn chains=%d\n" % count, records)
    # A chain that closes, and one that goes to both sides of its start.
    for middle, count in (("510,500", 2), ("509,500", 1), ("506,500 494,500", 2), ("505,500 496,500", 1)):
        records = made(folder, *wide, "chain 2 500,500 500,500", f"shape 2 1 {middle}", "sides 2 - -")
        draw(program, folder, b"drawn chains=%d\n" % count, records)


def shortened(program, folder):
    """A degree of longitude is as much shorter as the cosine of the middle latitude says, but for 17 ten-thousandths."""
    for latitude in (0, 18, 25, 39, -39, 45, 49, 60, 71, 80):
        south = latitude * 10**6 - 500
        records = made(folder, f"chain 1 0,{south} 0,{south}", f"shape 1 1 1000,{south} 1000,{south + 1000} 0,{south + 1000}", "sides 1 - -")
        picture = draw(program, folder, b"drawn chains=1\n", records)
        x, y, *steps = map(int, re.findall(r"-?\d+", picture.paths["chains"]))
        want("a square", (x, y, steps[1], steps[3], steps[5], steps[7]), (0, 9800, 0, -9800, 0, 9800))
        want(f"its width at {latitude}", abs(steps[0] / 9800 - math.cos(math.radians(latitude))) < 0.0018, True)
        frame = Shown(0, south, 1000, south + 1000)
        want(f"its width at {latitude}", steps[0], frame.spot(1000, south)[0])
        want("what it shows", (picture.box, frame.box), ((-100, -600, max(steps[0], 5800) + 200, 9800 + 700), picture.box))


def scales(program, folder):
    """The line of the scale is of a round length, a quarter of the longer side at most. A metre is nine millionths of a degree."""
    for wide, length, tenths in ((1, "2 cm", 1764), (9, "20 cm", 1960), (900, "20 m", 1960), (100000, "2 km", 1764), (900000, "20 km", 1960), (179000000, "2000 km", 985)):
        records = made(folder, f"chain 1 0,0 {wide},0", "sides 1 - -")
        picture = draw(program, folder, b"drawn chains=1\n", records)
        want(f"the scale of {wide}", (picture.key[-1], picture.paths["scale"]), (length, f"M0 -240v80m0 -40h{tenths}m0 -40v80"))


def crowded(program, folder):
    """Nodes and polygons' points are marked where there are no more than 20,000 strokes."""
    for count in (20000, 20001):
        lines = [f"chain {k + 1} {10 * k},0 {10 * k},1000" for k in range(count)]
        picture = draw(program, folder, b"drawn chains=%d\n" % count, made(folder, *lines, *(f"sides {k + 1} - -" for k in range(count))))
        want("strokes", picture.count("chains", "l"), count)
        want("what its marks mean", picture.key[:-1], ["chain", "node", "polygon's point"] if count == 20000 else ["chain"])


def many(program, folder):
    """Twenty squares in a row, each with its polygon's point just west of it: the places are found by the keys."""
    lines = []
    for k in range(20):
        west, east, own = 20 * k + 10, 20 * k + 20, f"A0001/{k + 1}"
        lines += [f"chain {k + 1} {west},10 {west},10", f"shape {k + 1} 1 {east},10 {east},20 {west},20",
                  f"sides {k + 1} {own} -", f"point {own} {west - 1},15"]
    records = folder / "squares"
    records.write_bytes(b"".join(map(line_of, lines)))
    picture = draw(program, folder, b"drawn chains=20 faults=20\n", "--faults", records)
    # The squares and the points reach from 9 to 400, and 391 are 9800 tenths of a pixel.
    want("circles", picture.circles, [(20 * k * 9800 // 391, 5 * 9800 // 391) for k in range(20)])
    want("titles", picture.titles, [f"G4 PointOutside polygon A0001/{k + 1}" for k in range(20)])


def outside(program, folder):
    """Where faults are shown, the whole picture reaches to those that lie outside of all chains. About a place it shows that place, and
    without faults the chains."""
    square = ["shape 1 1 100,0 100,100 0,100", "sides 1 A0001/1 -"]
    records = made(folder, "chain 1 0,0 0,0", *square, "point A0001/1 300,50")
    # 300 millionths are 980 pixels, and at the eastern border a code stands to the west of its circle.
    picture = draw(program, folder, b"drawn chains=1 faults=1\n", "--faults", records)
    want("what it shows", picture.box, (-100, -600, 9800 + 200, 3266 + 700))
    want("nodes", set(picture.dots("nodes")), {(0, 3266)})
    want("circles", picture.circles, [(9800, 1633)])
    want("codes", picture.codes, [(9800 - 80, 1633 + 45, "G4")])
    want("what to type", picture.closer, [["--at @300,50 --width 30"]])
    for words, answer in (([], b"drawn chains=1\n"), (["--faults", "--at", "@50,50", "--width", "100"], b"drawn chains=1 faults=0\n")):
        picture = draw(program, folder, answer, *words, records)
        want("what it shows", picture.box, (-100, -600, 9800 + 200, 9800 + 700))
        want("polygons' points and circles", (picture.dots("points"), picture.circles), ([], []))
    # In each direction, as near as one millionth and as far as the middle latitude changes.
    for point in ((101, 50), (-1, 50), (50, 101), (50, -1), (-200, 50), (50, 300), (50, -200), (-150, 250), (70, 60_000_000), (-120_000_000, -45_000_000)):
        records = made(folder, "chain 1 0,0 0,0", *square, f"point A0001/1 {point[0]},{point[1]}")
        picture = draw(program, folder, b"drawn chains=%d faults=1\n" % (max(map(abs, point)) < 10**6), "--faults", records)
        frame = frame_of(program, records, [point])
        want(f"what it shows up to {point}", picture.box, frame.box)
        want(f"the circle of {point}", picture.circles, [frame.spot(*point)])
    # Two on both sides of all, and one that lies among the chains beside one that is no fault.
    other = ["chain 2 200,0 200,0", "shape 2 1 300,0 300,100 200,100", "sides 2 A0001/2 -"]
    for points, shown in ((["-30,20", "400,70"], [(-30, 20), (400, 70)]), (["50,50", "150,60"], [(150, 60)])):
        records = made(folder, "chain 1 0,0 0,0", *square, *other, *(f"point A0001/{k + 1} {it}" for k, it in enumerate(points)))
        picture = draw(program, folder, b"drawn chains=2 faults=%d\n" % len(shown), "--faults", records)
        frame = frame_of(program, records, shown)
        want(f"circles of {points}", (picture.box, picture.circles), (frame.box, [frame.spot(*it) for it in shown]))


def touched(program, folder):
    """Of how many polygons points aren't looked at is said behind the line, in the words of `audit --all`."""
    _, listed, _ = run(program, "audit", "--all", EXAMPLES / "faults" / "G2")
    words = [line for line in listed.splitlines() if line.startswith(b"touched")]
    want("what is touched", words, [b"touched polygons=1 not looked at"])
    draw(program, folder, b"drawn chains=%d faults=2 %s\n" % (len(chains_of(program, EXAMPLES / "faults" / "G2")), words[0]), "--faults", EXAMPLES / "faults" / "G2")
    draw(program, folder, b"drawn chains=%d\n" % len(chains_of(program, EXAMPLES / "faults" / "G2")), EXAMPLES / "faults" / "G2")


def filled(program, folder):
    """Of a sound map each polygon is filled below the chains: its point lies in its own fill, and in no other. What lies in a hole isn't."""
    picture = draw(program, folder, b"drawn chains=5\n", COUNTY)
    want("fills", (picture.is_filled, len(picture.fills), [len(rings) for _, rings in picture.fills]), (True, 3, [1, 2, 1]))
    check_fills(picture)
    # A street off by itself is a ring without an area, and a dead end is gone along both ways.
    want("the corners of a ring", len(picture.fills[0][1][0]), 7)
    # Nothing is filled of a map that isn't sound, whichever its fault, and of one whose faces alone disagree all is.
    for faulty in sorted(it for it in (EXAMPLES / "faults").iterdir() if re.fullmatch("G[1-6]", it.name)):
        for words in ([], ["--faults"]):
            status, _, err = run(program, "draw", *words, *(["--zero-cells"] if faulty.name == "G6" else []), "--out", folder / "map.svg", faulty)
            picture = Picture(folder / "map.svg")
            want(f"fills of {faulty.name}", (status, err, picture.is_filled, picture.fills), (0, b"", False, []))
    for words in ([], ["--faults"], ["--faults", "--faces"]):
        run(program, "draw", *words, "--out", folder / "map.svg", EXAMPLES / "faults" / "G7")
        picture = Picture(folder / "map.svg")
        want("fills of faces that disagree", (picture.is_filled, len(picture.fills) > 0), (True, True))


def check_fills(picture):
    """Whether each polygon's point is in its own fill alone, and what has a step in common has different colours."""
    points = picture.dots("points")
    inside = [[k for k, (_, rings) in enumerate(picture.fills) if is_in(rings, Fraction(x), Fraction(2 * y + 1, 2))] for x, y in points]
    want("in which fills polygons' points lie", inside, [[k] for k in range(len(points))])
    sides = {}
    for k, (_, rings) in enumerate(picture.fills):
        for ring in rings:
            for step in zip(ring, ring[1:]):
                sides.setdefault(step, set()).add(k)
    beside = {(k, other) for (a, b), own in sides.items() for k in own for other in sides.get((b, a), ()) if k != other}
    want("neighbours of one colour", [(k, other) for k, other in beside if picture.fills[k][0] == picture.fills[other][0]], [])
    return beside


def grid(folder, across, order):
    """A grid of squares, whose polygons have these numbers, row by row, and their points stand in this order."""
    lines, number = [], 0
    for x in range(across + 1):
        for y in range(across + 1):
            for dx, dy in ((1, 0), (0, 1)):
                if x + dx > across or y + dy > across:
                    continue
                left, right = ((x, y), (x, y - 1)) if dx else ((x - 1, y), (x, y))
                number += 1
                lines.append(f"chain {number} {10 * x},{10 * y} {10 * (x + dx)},{10 * (y + dy)}")
                lines.append(f"sides {number} " + " ".join(f"A0001/{i * across + j + 1}" if 0 <= i < across and 0 <= j < across else "-" for i, j in (left, right)))
    lines += [f"point A0001/{k + 1} {10 * (k // across) + 5},{10 * (k % across) + 5}" for k in order]
    return made(folder, *lines)


def coloured(program, folder):
    """Each polygon has the first colour that no neighbour before it has, in the order of the type P records, and colours turn on by 137
    degrees. Places by which four squares touch make no neighbours."""
    across = 5
    for order in (range(25), [*range(0, 25, 2), *range(1, 25, 2)], sorted(range(25), key=lambda k: k * 7 % 25)):
        order = list(order)
        picture = draw(program, folder, b"drawn chains=60\n", grid(folder, across, order))
        beside, colours = check_fills(picture), []
        steps = [(k, other) for k in range(25) for other in range(25) if abs(order[k] // across - order[other] // across) + abs(order[k] % across - order[other] % across) == 1]
        want("neighbours", sorted(beside), sorted(steps))
        for k in range(25):
            taken = {colours[other] for other in range(k) if (k, other) in beside}
            colours.append(next(colour for colour in range(25) if colour not in taken))
        want("colours", [style for style, _ in picture.fills], [f"fill:hsl({137 * colour % 360},70%,88%)" for colour in colours])
    # Of a place that lies in one square that one is filled, and what touches the picture's border.
    records = grid(folder, across, list(range(25)))
    for at, width, count in (("@25,25", "2", 1), ("@20,25", "2", 2), ("@20,20", "2", 4), ("@-40,-40", "10", 0)):
        run(program, "draw", "--out", folder / "map.svg", "--at", at, "--width", width, records)
        want(f"squares about {at}", len(Picture(folder / "map.svg").fills), count)


def thin(program, folder):
    """A polygon that is four pixels wide or high is filled, and one that is smaller isn't: of 29,400 millionths, 120 are four pixels."""
    for wide, count in ((120, 2), (119, 1)):
        lines = ["chain 1 0,0 0,0", "shape 1 1 29400,0 29400,29400 0,29400", "sides 1 A0001/1 -", "point A0001/1 20000,20000"]
        lines += ["chain 2 500,500 500,500", f"shape 2 1 {500 + wide},500 {500 + wide},{500 + wide} 500,{500 + wide}", "sides 2 A0001/2 A0001/1", "point A0001/2 504,504"]
        run(program, "draw", "--out", folder / "map.svg", made(folder, *lines))
        want(f"fills of {wide}", len(Picture(folder / "map.svg").fills), count)


def escaped(program, folder):
    """A key with bytes that would begin markup stands in a title as it is printed."""
    keyed = folder / "keyed"
    text = COUNTY.read_bytes().replace(b"A0001", b"<&;>1")
    keyed.write_bytes(text.replace(b"+000000045+00000040", b"+000000025+00000040"))
    picture = draw(program, folder, b"drawn chains=5 faults=2\n", "--faults", keyed)
    want("titles", picture.titles, ["G4 PointOutside polygon <&;>1/2", "G5 PointInOther polygon <&;>1/2 other <&;>1/1"])


def refused(program, folder):
    """Where there is no map nothing is made, and no stranger's file is written over."""
    made, faults = folder / "none.svg", EXAMPLES / "faults"
    for words in ([], ["--faults"]):
        status, out, err = run(program, "draw", *words, "--out", made, faults / "M1")
        want("a fault of the records", (status, out[:13], err, made.exists()), (1, b"map fault M1 ", b"", False))
        status, out, err = run(program, "draw", *words, "--out", made, faults / "L2")
        want("a refused line", (status, out, err[:13], made.exists()), (3, b"", b"refused line ", False))
    status, out, err = run(program, "draw", "--out", made, folder / "nothing")
    want("a file that isn't there", (status, out, err[:15], made.exists()), (4, b"", b"stopped Device\n", False))
    made.write_bytes(b"a letter\n")
    answer = run(program, "draw", "--out", made, COUNTY)
    want("a stranger's file", (answer, made.read_bytes()), ((64, b"", b"OUT stands and is no picture of tigertopo\n"), b"a letter\n"))
    records = folder / "records"
    records.write_bytes(COUNTY.read_bytes())
    answer = run(program, "draw", "--out", records, records)
    want("a file that is read", (answer, records.read_bytes()), ((64, b"", b"OUT is one of the files that are read\n"), COUNTY.read_bytes()))


def pixels(image):
    """The bytes of a PNG's rows, as they stand behind its filters."""
    data, place, rows = image.read_bytes(), 8, b""
    while place < len(data):
        (length,) = struct.unpack(">I", data[place : place + 4])
        if data[place + 4 : place + 8] == b"IDAT":
            rows += data[place + 8 : place + 8 + length]
        place += length + 12
    return zlib.decompress(rows)


def shown(browser, program, folder):
    """What a browser shows isn't blank."""
    sizes = []
    page, made = folder / "page.html", folder / "map.svg"
    for width in (400, 1000, 2000):
        run(program, "draw", "--faults", "--out", made, TOWN)
        page.write_text(f"""<!doctype html><body style="margin:0">{made.read_text()}<script>
            const wide = document.querySelector("svg").getBoundingClientRect().width, root = document.documentElement;
            document.body.textContent = `${{wide}} ${{root.clientWidth}} ${{root.scrollWidth}}`</script>""")
        done = subprocess.run([browser, *HEADLESS, f"--window-size={width},800", "--dump-dom", page.as_uri()], capture_output=True, check=True, timeout=120)
        wide, window, scrolled = map(float, re.search(rb">([\d.]+) (\d+) (\d+)", done.stdout).groups())
        want(f"as wide as a window of {width}", (abs(wide - window) < 1, scrolled), (True, window))
    for words in (["--at", "@-40,-40", "--width", "10", COUNTY], [COUNTY], ["--faults", TOWN]):
        made, image = folder / "map.svg", folder / "shown.png"
        run(program, "draw", "--out", made, *words)
        subprocess.run(
            [browser, *HEADLESS, "--window-size=1000,1000", f"--screenshot={image}", made.as_uri()],
            capture_output=True,
            check=True,
            timeout=120,
        )
        sizes.append(sum(1 for byte in pixels(image) if byte))
    want("a blank picture beside others", sizes[0] < sizes[1] and sizes[0] < sizes[2], True)


def can_show(command, folder):
    """Whether a browser makes an image here: one that is there may still lack what it runs on."""
    image = Path(folder, "blank.png")
    try:
        done = subprocess.run([command, *HEADLESS, f"--screenshot={image}", "about:blank"], capture_output=True, check=False, timeout=60)
    except subprocess.TimeoutExpired:
        return False
    return done.returncode == 0 and image.exists()


def browser():
    """The command of a browser, where there is one that makes images."""
    with tempfile.TemporaryDirectory() as folder:
        return next((command for command in filter(None, map(shutil.which, BROWSERS)) if can_show(command, folder)), None)


def play_all(program=PROGRAM):
    """How many pictures are as they have to be, and how many aren't."""
    parts = [whole, part, crossing, at_the_border, centred, seen, thirds, shortened, scales, crowded, faulty, many, outside, touched, filled, coloured, thin, escaped, refused]
    shows = browser()
    if shows:
        parts.append(lambda program, folder: shown(shows, program, folder))
    else:
        skipped.skip("pictures in a browser", " or ".join(BROWSERS))
    failed = 0
    for each in parts:
        with tempfile.TemporaryDirectory() as folder:
            try:
                each(program, Path(folder))
            except (Wrong, subprocess.SubprocessError) as wrong:
                failed += 1
                print(wrong)
    return len(parts) - failed, failed


if __name__ == "__main__":
    passed, failed = play_all(*(Path(word).resolve() for word in sys.argv[1:2]))
    print(skipped.counts(passed, failed))
    sys.exit(failed > 0)
