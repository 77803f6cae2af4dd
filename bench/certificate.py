#!/usr/bin/env python3
"""Makes a certificate of version 2 for record files, by the definitions alone and with no part of the program: a tree of
rectangles over the segments, the darts about each node by their headings, and the walks that follow.

usage: certificate.py OUT FILES..

Type I lines aren't read: a certificate has no sides. So the files may be those of released counties too. Whether the map is
sound is for the checker to find; chains that have one heading at a node come in some order.
"""

import functools
import sys


def number(text):
    return int(text.replace(" ", "") or 0)


def point(text):
    """The point of a coordinate pair of 19 columns, or None where it isn't used."""
    return None if not text.strip(" +0") else (number(text[:10]), number(text[10:19]))


def chains_of(lines):
    """The chains' points by rising TLID, with a run of equal neighbours kept once; and the number of polygons."""
    ends, shapes, polygons = {}, {}, 0
    for line in (it.rstrip("\r\n") for it in lines):
        kind = line[:1]
        if kind == "1":
            ends[number(line[5:15])] = point(line[190:209]) or (0, 0), point(line[209:228]) or (0, 0)
        elif kind == "2":
            pairs = [point(line[at:at + 19]) for at in range(18, 208, 19)]
            shapes.setdefault(number(line[5:15]), {})[number(line[15:18])] = [it for it in pairs if it]
        elif kind == "P":
            polygons += 1
    chains = []
    for tlid in sorted(ends):
        start, end = ends[tlid]
        points = [start]
        for sequence in sorted(shapes.get(tlid, {})):
            points += shapes[tlid][sequence]
        points.append(end)
        chains.append([it for at, it in enumerate(points) if at == 0 or it != points[at - 1]])
    return chains, polygons


def spread(value):
    """The bits of a number of 16 bits, with a place free between each two."""
    for shift, mask in ((8, 0x00FF00FF), (4, 0x0F0F0F0F), (2, 0x33333333), (1, 0x55555555)):
        value = (value | value << shift) & mask
    return value


def by_curve(rects):
    """The numbers of the rectangles along a curve that fills their hull."""
    west, south = min(it[0] for it in rects), min(it[1] for it in rects)
    side = max(max(it[2] for it in rects) - west, max(it[3] for it in rects) - south, 1)

    def place(at):
        xmin, ymin, xmax, ymax = rects[at]
        x, y = ((xmin + xmax) // 2 - west) * 65_535 // side, ((ymin + ymax) // 2 - south) * 65_535 // side
        return spread(x) | spread(y) << 1

    return sorted(range(len(rects)), key=place)


def hull(rects):
    return min(it[0] for it in rects), min(it[1] for it in rects), max(it[2] for it in rects), max(it[3] for it in rects)


def rect_of(one, other):
    return min(one[0], other[0]), min(one[1], other[1]), max(one[0], other[0]), max(one[1], other[1])


def tree_of(rects, items, lines):
    """Appends the lines of the tree over the items, and gives its rectangle and how many nodes it has."""
    if len(items) <= 8:
        rect = hull([rects[it] for it in items])
        lines.append("L %d %d %d %d %d" % (*rect, len(items)))
        lines += [f"S {it}" for it in items]
        return rect, 1
    parts = min(8, -(-len(items) // 8))
    place = len(lines)
    lines.append("")
    below, nodes = [], 1
    for part in range(parts):
        rect, count = tree_of(rects, items[len(items) * part // parts:len(items) * (part + 1) // parts], lines)
        below.append(rect)
        nodes += count
    rect = hull(below)
    lines[place] = "B %d %d %d %d %d" % (*rect, parts)
    return rect, nodes


def turn_order(one, other):
    """Which of two headings comes first, counter-clockwise from east."""
    halves = [0 if y > 0 or (y == 0 and x > 0) else 1 for x, y in (one, other)]
    return halves[0] - halves[1] or one[1] * other[0] - one[0] * other[1]


def rounds_of(chains):
    """The darts that start at each node, in their order."""
    nodes, headings = {}, []
    for points in chains:
        for here, there in ((points[0], points[1]), (points[-1], points[-2])):
            nodes.setdefault(here, []).append(len(headings))
            headings.append((there[0] - here[0], there[1] - here[1]))
    in_turn = functools.cmp_to_key(turn_order)
    return [sorted(darts, key=lambda it: in_turn(headings[it])) for darts in nodes.values()]


def walks_of(rounds, darts):
    """The rings of darts: behind dart d comes the one whose next dart about its node is the reverse of d."""
    before = [0] * darts
    for darts_here in rounds:
        for at, dart in enumerate(darts_here):
            before[dart] = darts_here[at - 1]
    seen, walks = [False] * darts, []
    for first in range(darts):
        walk, dart = [], first
        while not seen[dart]:
            seen[dart] = True
            walk.append(dart)
            dart = before[dart ^ 1]
        if walk:
            walks.append(walk)
    return walks


def certificate(chains, polygons):
    """The lines of a certificate for these chains."""
    rects = [rect_of(*ends) for points in chains for ends in zip(points, points[1:])]
    rounds = rounds_of(chains)
    walks = walks_of(rounds, 2 * len(chains))
    tree, nodes = [], 0
    if rects:
        _, nodes = tree_of(rects, by_curve(rects), tree)
    yield "TIGERCERT 2"
    yield f"C {len(chains)} {len(rects)} {len(rounds)} {polygons}"
    yield f"T {nodes}"
    yield from tree
    for letter, many, lists in (("R", "N", rounds), ("K", "W", walks)):
        yield f"{many} {len(lists)}"
        for darts in lists:
            yield f"{letter} {len(darts)}"
            yield from (f"D {dart}" for dart in darts)
    yield "END"


def lines_of(names):
    for name in names:
        with open(name, encoding="latin-1", newline="\n") as file:
            yield from file


def main():
    if len(sys.argv) < 3:
        sys.exit(__doc__)
    with open(sys.argv[1], "w", newline="") as out:
        out.writelines(line + "\n" for line in certificate(*chains_of(lines_of(sys.argv[2:]))))


if __name__ == "__main__":
    main()
