#!/usr/bin/env python3
"""Makes the record files of maps whose segments are long and stand side by side, as no county's do: a stranger's file may.

usage: long.py FOLDER CHAINS --comb|--lines|--bends|--star|--squares|--spiral [--mirrored] [--turned] [--crossed] [--exchanged]
               [--misplaced] [--street]

--comb: slanted lines side by side. --lines: lines of three segments, nearly level. --bends: upright lines, each with eight
bends at heights of its own, so that a sweep goes to and fro in its list. --star: spokes about one node, and its rim, with a
polygon between each two spokes. --squares: squares in squares, a polygon between each two. --spiral: one line
round and round, cut into chains of 9,991 segments; CHAINS is the number of its segments. In all of them the rectangles of
most segments meet, or a point lies within most rings. The map is sound, also as it is seen in a mirror, and turned by a
quarter; with --crossed one chain more crosses the first segment, so that it isn't. With --exchanged, of a star or of squares,
the sides of one chain in the middle are told the wrong way round, so that sides which face each other differ there; with
--misplaced the point of one polygon in the middle lies in its neighbour; with --street a lone street far off names the first
polygon on both its sides, at the height of the points, so that the map is sound and only its faces disagree.
"""

import math
import random

from county import point_line, sides_line
from make_records import chain_line, shape_lines, words_given, write_files

FAR = 85_000_000
FAMILIES = ("comb", "lines", "bends", "star", "squares", "spiral")
CHANGES = ("mirrored", "turned", "crossed", "exchanged", "misplaced", "street")


def comb(rng, count):
    """Both ends move east from line to line, so none meets another."""
    lower, upper = -FAR, -FAR + 100_000_000
    for _ in range(count):
        yield [(lower, -FAR), (upper, FAR)], None, None
        lower, upper = lower + rng.randrange(1, 5), upper + rng.randrange(1, 5)


def lines(rng, count):
    step = max(8, min(100, 2 * FAR // count))
    heights = [12 * step * corner - FAR for corner in range(4)]
    for _ in range(count):
        yield list(zip((-FAR, -30_000_000, 25_000_000, FAR), heights)), None, None
        heights = [height + rng.randrange(1, step + 1) for height in heights]


def bends(rng, count):
    step = max(4, min(1_000, 2 * FAR // count))
    for line in range(count):
        heights = sorted(rng.sample(range(1 - FAR, FAR), 8))
        yield [(line * step - FAR + rng.randrange(step // 2), height) for height in (-FAR, *heights, FAR)], None, None


def star(rng, count):
    spokes = max(3, count // 2)
    turns = [(spoke + rng.uniform(-0.3, 0.3)) / spokes * math.tau for spoke in range(spokes)]
    rim = [(round(FAR * math.cos(turn)), round(FAR * math.sin(turn))) for turn in turns]
    for spoke, point in enumerate(rim):
        after = (spoke + 1) % spokes
        yield [(0, 0), point], spoke, (spoke - 1) % spokes
        yield [point, rim[after]], spoke, None


def star_points(rim):
    """In each wedge a point, near the rim."""
    return [tuple(round(0.45 * (a + b)) for a, b in zip(one, other)) for one, other in zip(rim, rim[1:] + rim[:1])]


def squares(rng, count):
    side = max(4, min(5_000, FAR // (count + 2)))
    for ring in range(count):
        far = side * (ring + 1)
        corners = [(-far, -far), (far, -far), (far, far), (-far, far), (-far, -far)]
        yield corners, ring, ring + 1 if ring + 1 < count else None


def square_points(count):
    side = max(4, min(5_000, FAR // (count + 2)))
    return [(side // 2 - side * (ring + 1), 0) for ring in range(count)]


def spiral(rng, count):
    gap = min(20_000, FAR / (count // 48 + 2))
    points = []
    for step in range(count + 1):
        far, turn = gap * (3 + step / 48), step % 48 / 48 * math.tau
        points.append((round(far * math.cos(turn)), round(far * math.sin(turn))))
    for first in range(0, count, 9_991):
        yield points[first:first + 9_992], None, None


def crossing(points):
    """A short chain across the middle of the first segment."""
    (a, b), (c, d) = points[:2]
    x, y, east, north = (a + c) // 2, (b + d) // 2, 2 if c > a else -2, 2 if d > b else -2
    return [(x - north, y + east), (x + north, y - east)], None, None


def street():
    """A lone street east of all, that names the first polygon."""
    return [(FAR + 1_000_000, -10), (FAR + 1_000_000, 10)], 0, 0


def exchanged(chain):
    points, left, right = chain
    return points, right, left


def moved(chain, words):
    points, left, right = chain
    if words.mirrored:
        points, left, right = [(-x, y) for x, y in points], right, left
    if words.turned:
        points = [(-y, x) for x, y in points]
    return points, left, right


def key(number):
    return None if number is None else (f"A{number // 1000:04d}", number % 1000 + 1)


def main():
    words = words_given(*(f"--{it}" for it in (*FAMILIES, *CHANGES)))
    rng = random.Random(words.chains)
    family = next(it for it in FAMILIES if getattr(words, it))
    chains = list(globals()[family](rng, words.chains))
    inside = []
    if family == "star":
        inside = star_points([points[1] for points, _, right in chains if right is not None])
    if family == "squares":
        inside = square_points(words.chains)
    if words.crossed:
        chains.append(crossing(chains[0][0]))
    if words.street:
        chains.append(street())
    if words.misplaced:
        inside[len(inside) // 2] = tuple(part + 1 for part in inside[len(inside) // 2 + 1])
    if words.exchanged:
        chains[len(chains) // 2] = exchanged(chains[len(chains) // 2])
    nodes, files = {}, {name: [] for name in ("RT1", "RT2", "RTI", "RTP")}
    for tlid, (points, left, right) in enumerate((moved(chain, words) for chain in chains), 60_000_001):
        cells = [nodes.setdefault(point, len(nodes) + 1) for point in (points[0], points[-1])]
        files["RT1"].append(chain_line(rng, tlid, points[0], points[-1]))
        files["RT2"] += shape_lines(tlid, points[1:-1])
        files["RTI"].append(sides_line(tlid, key(left), key(right), cells, False))
    for number, point in enumerate(inside):
        files["RTP"].append(point_line(key(number), moved(([point], None, None), words)[0][0]))
    write_files(words.folder, files)


if __name__ == "__main__":
    main()
