#!/usr/bin/env python3
"""Makes the record files of a whole made-up county whose map is sound, laid out as the Census Bureau's are.

usage: county.py FOLDER CHAINS [--shuffled] [--released]

The county is a square of blocks. Each side of a block is a street, a chain with up to four shape points a little aside;
every block is a polygon. In six of ten blocks a dead-end street runs in from a corner, and in one of twenty a ring that
starts and ends at one point goes round an island, a polygon of its own. Every fiftieth block has an area landmark that
two polygons are linked to, and some have a landmark with a point. About 2.6 chains come on a block, 2.7 segments and 0.4
polygons on a chain. All six types are there, with zero-cell ids, at their full width; lines end in CR LF and come by
rising TLID, or with --shuffled in random order. With --released type I has FILE in columns 6-10 and TLID in 11-20. Each
run with the same words makes the same bytes.
"""

import random

from make_records import VERSION, chain_line, padded, pair, shape_lines, words_given, write_files

SIDE = 1_200
WEST, SOUTH = -76_700_000, 39_200_000
FILE = "24001"


class County:
    def __init__(self, blocks, rng):
        self.blocks, self.rng, self.tlid = blocks, rng, 60_000_000
        self.islands = {}

    def node(self, i, j):
        return WEST + i * SIDE, SOUTH + j * SIDE

    def node_id(self, i, j):
        return 1 + i + j * (self.blocks + 1)

    def inside(self, i, j, x, y):
        return WEST + i * SIDE + x, SOUTH + j * SIDE + y

    def polygon(self, i, j):
        """The key of a block's polygon, or of the outside."""
        if not (0 <= i < self.blocks and 0 <= j < self.blocks):
            return None
        return self.key(i + j * self.blocks)

    def key(self, number):
        return f"A{number // 1000:04d}", number % 1000 + 1

    def street(self, i, j, across):
        """The side of a block that starts at a node: eastward or, with `across`, northward."""
        start, end = self.node(i, j), self.node(i + (not across), j + across)
        count = self.rng.choice((0, 1, 1, 2, 2, 3, 4))
        points = []
        for step in range(1, count + 1):
            along, aside = SIDE * step // (count + 1), self.rng.choice((-1, 1)) * self.rng.randrange(1, 100)
            points.append((start[0] + (aside if across else along), start[1] + (along if across else aside)))
        left, right = (self.polygon(i - 1, j), self.polygon(i, j)) if across else (self.polygon(i, j), self.polygon(i, j - 1))
        cells = self.node_id(i, j), self.node_id(i + (not across), j + across)
        return start, points, end, left, right, cells

    def dead_end(self, i, j):
        far = self.rng.randrange(200, 350)
        points = [self.inside(i, j, 150, 160)] * self.rng.randrange(2)
        here = self.polygon(i, j)
        cells = self.node_id(i, j), 20_000_000 + self.tlid
        return self.node(i, j), points, self.inside(i, j, far, far + self.rng.randrange(20)), here, here, cells

    def island(self, i, j):
        ring = [self.inside(i, j, *at) for at in ((1020, 300), (900, 420), (780, 300), (900, 180), (1020, 300))]
        number = self.blocks * self.blocks + len(self.islands)
        self.islands[self.key(number)] = self.inside(i, j, 900, 300)
        cell = 20_000_000 + self.tlid
        return ring[0], ring[1:-1], ring[-1], self.key(number), self.polygon(i, j), (cell, cell)

    def chains(self):
        for j in range(self.blocks + 1):
            for i in range(self.blocks + 1):
                if i < self.blocks:
                    yield self.next_tlid(), self.street(i, j, False)
                if j < self.blocks:
                    yield self.next_tlid(), self.street(i, j, True)
                if i < self.blocks and j < self.blocks:
                    if self.rng.random() < 0.6:
                        yield self.next_tlid(), self.dead_end(i, j)
                    if self.rng.random() < 0.05:
                        yield self.next_tlid(), self.island(i, j)

    def next_tlid(self):
        self.tlid += self.rng.randrange(1, 4)
        return self.tlid


def key_text(key):
    return f"{key[0]}{key[1]:>10}" if key else " " * 15


def sides_line(tlid, left, right, cells, released):
    head = f"I{VERSION}{FILE}{tlid:>10}" if released else f"I{VERSION}{tlid:>10}".ljust(20)
    return padded(f"{head}{cells[0]:>10}{cells[1]:>10}{key_text(left)}{key_text(right)}", 127)


def point_line(key, point):
    return padded(f"P{VERSION}{FILE}{key_text(key)}{pair(point)}", 45)


def landmark_line(land, point):
    line = f"7{VERSION}{FILE}{land:>10}".ljust(54)
    return padded(line + (pair(point) if point else ""), 74)


def link_line(key, land):
    return padded(f"8{VERSION}{FILE}{key_text(key)}{land:>10}", 36)


def files_of(chains, released):
    """The lines of each type's file."""
    rng = random.Random(chains)
    county = County(max(1, round((chains / 2.65) ** 0.5)), rng)
    files = {name: [] for name in ("RT1", "RT2", "RTI", "RTP", "RT7", "RT8")}
    for tlid, (start, points, end, left, right, cells) in county.chains():
        files["RT1"].append(chain_line(rng, tlid, start, end))
        files["RT2"] += shape_lines(tlid, points)
        files["RTI"].append(sides_line(tlid, left, right, cells, released))
    for j in range(county.blocks):
        for i in range(county.blocks):
            number = i + j * county.blocks
            at = county.inside(i, j, 600 + rng.randrange(-20, 20), 600 + rng.randrange(-20, 20))
            files["RTP"].append(point_line(county.key(number), at))
            if number % 50 == 0:
                files["RT7"].append(landmark_line(1 + number, None))
                files["RT8"].append(link_line(county.key(number), 1 + number))
                if i + 1 < county.blocks:
                    files["RT8"].append(link_line(county.key(number + 1), 1 + number))
            elif number % 37 == 0:
                files["RT7"].append(landmark_line(1 + number, at))
    files["RTP"] += [point_line(key, at) for key, at in county.islands.items()]
    return files


def main():
    words = words_given("--shuffled", "--released")
    files = files_of(words.chains, words.released)
    if words.shuffled:
        for lines in files.values():
            random.Random(words.chains).shuffle(lines)
    write_files(words.folder, files)


if __name__ == "__main__":
    main()
