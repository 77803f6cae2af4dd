#!/usr/bin/env python3
"""Makes the record files of a grid of squares, whose map is sound.

usage: grid.py FOLDER CHAINS

Each side of a square is a chain of one segment and each square a polygon, so that k by k squares have 2k(k+1) chains; k
is taken for about CHAINS of them. Many segments are level or upright and many rectangles share a border, and a ray to the
east meets as many chains as there are squares in its row: where a search for what lies on a ray does most.
"""

import random

from county import County, point_line, sides_line
from make_records import chain_line, words_given, write_files


def files_of(across):
    """The lines of each type's file."""
    rng = random.Random(across)
    grid = County(across, rng)
    files = {name: [] for name in ("RT1", "RTI", "RTP")}
    for j in range(across + 1):
        for i in range(across + 1):
            for ends in ((i + 1, j), (i, j + 1)):
                if max(ends) > across:
                    continue
                tlid, up = grid.next_tlid(), ends[0] == i
                sides = (grid.polygon(i - 1, j), grid.polygon(i, j)) if up else (grid.polygon(i, j), grid.polygon(i, j - 1))
                files["RT1"].append(chain_line(rng, tlid, grid.node(i, j), grid.node(*ends)))
                files["RTI"].append(sides_line(tlid, *sides, (grid.node_id(i, j), grid.node_id(*ends)), False))
            if i < across and j < across:
                files["RTP"].append(point_line(grid.polygon(i, j), grid.inside(i, j, 600, 600)))
    return files


def main():
    words = words_given()
    write_files(words.folder, files_of(max(1, round((words.chains / 2) ** 0.5 - 0.5))))


if __name__ == "__main__":
    main()
