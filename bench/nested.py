#!/usr/bin/env python3
"""Makes the record files of a polygon around many, whose map is sound.

usage: nested.py FOLDER CHAINS

One square holds all others, each of which is a chain of four segments, an island of the one polygon around them. So all
points lie in the box of that polygon, and its boundary has a ring about each island.
"""

import random

from county import County, point_line, sides_line
from make_records import chain_line, shape_lines, words_given, write_files


def files_of(across):
    """The lines of each type's file."""
    rng = random.Random(across)
    grid = County(across, rng)
    files = {name: [] for name in ("RT1", "RT2", "RTI", "RTP")}
    around = grid.key(across * across)

    def ring(points, left, right):
        tlid = grid.next_tlid()
        files["RT1"].append(chain_line(rng, tlid, points[0], points[0]))
        files["RT2"].extend(shape_lines(tlid, points[1:]))
        files["RTI"].append(sides_line(tlid, left, right, (tlid, tlid), False))

    ring([grid.node(*at) for at in ((0, 0), (across, 0), (across, across), (0, across))], around, None)
    files["RTP"].append(point_line(around, grid.inside(0, 0, 50, 50)))
    for j in range(across):
        for i in range(across):
            island = grid.polygon(i, j)
            ring([grid.inside(i, j, *at) for at in ((1020, 300), (900, 420), (780, 300), (900, 180))], island, around)
            files["RTP"].append(point_line(island, grid.inside(i, j, 900, 300)))
    return files


def main():
    words = words_given()
    write_files(words.folder, files_of(max(1, round(words.chains ** 0.5))))


if __name__ == "__main__":
    main()
