#!/usr/bin/env python3
"""Makes the record files of a made-up nation whose map is sound: states of counties, whose common borders both neighbours tell.

usage: nation.py FOLDER STATES COUNTIES CHAINS

STATES by STATES states of COUNTIES by COUNTIES counties, each of about CHAINS chains: FOLDER/s0102/c0304.RT is the county in
column 3, row 4 of the nation, which is in the state of column 1, row 2. A county is a square of blocks, as county.py makes
them: each side of a block is a street, with shape points; in six of ten blocks a dead-end street runs in from a corner, also
from corners on the border; in one of twenty a ring goes round an island, a polygon of its own. So four counties meet in
corners. Beside that, in many of them a city in the middle is a county of its own (v0304); some have a block more, as a second
piece, within their western neighbour; off the southern coast lie islands, each a piece of the county to the north; and piers,
streets that name no polygon, run out into the sea. A street on a border is told by both counties with one TLID, each with
its own polygon on its side. LANDs are a county's own, so the same numbers come in all counties. Each run with the same words
makes the same bytes.
"""

import argparse
from pathlib import Path

from county import key_text, landmark_line, link_line, point_line, sides_line
from make_records import VERSION, padded, pair, shape_lines

SIDE = 1_200
WEST, SOUTH = -79_000_000, 37_000_000
FIRST_TLID = 100_000_000
# Rows of blocks below the coast, in the last of which islands lie.
SEA = 4
EAST, NORTH, INTO, RING = range(4)


def mixed(number):
    """Some 64 bits that a number gives, always the same."""
    number = (number + 0x9E3779B97F4A7C15) & (2**64 - 1)
    number = ((number ^ (number >> 30)) * 0xBF58476D1CE4E5B9) & (2**64 - 1)
    number = ((number ^ (number >> 27)) * 0x94D049BB133111EB) & (2**64 - 1)
    return number ^ (number >> 31)


class Nation:
    def __init__(self, states, counties, chains):
        self.in_state = counties
        self.across = states * counties
        self.blocks = max(6, round((chains / 2.65) ** 0.5))
        self.width = self.across * self.blocks

    def home(self, i, j):
        """The county that a block is of, or None in the sea."""
        column, row = i // self.blocks, j // self.blocks
        at_i, at_j, middle = i % self.blocks, j % self.blocks, self.blocks // 2
        if not 0 <= i < self.width or j >= self.width:
            return None
        if j < 0:
            return ("c", column, 0) if j == -SEA + 1 and at_i == 2 and column % 3 == 0 else None
        if (column + 2 * row) % 5 == 1 and middle - 1 <= at_i <= middle and middle - 1 <= at_j <= middle:
            return "v", column, row
        if (column + row) % 4 == 2 and at_i == 1 and at_j == self.blocks - 2 and column + 1 < self.across:
            return "c", column + 1, row
        return "c", column, row

    def blocks_of(self, column, row):
        """The blocks of the square of a county, with those that are of others, and the sea before it."""
        for j in range(-SEA + 1 if row == 0 else row * self.blocks, (row + 1) * self.blocks):
            for i in range(column * self.blocks, (column + 1) * self.blocks):
                yield i, j

    def number(self, i, j, kind):
        return FIRST_TLID + ((j + SEA) * (self.width + 1) + i) * 4 + kind

    def key(self, i, j, kind=EAST):
        """The key of a block's polygon, or of the island's in it; of a block in the sea there is none."""
        home = self.home(i, j)
        if home is None:
            return None
        # A county's blocks lie in two columns of squares at most.
        twice = 2 * self.blocks
        number = (i % twice + (j + SEA) % (2 * twice) * twice) * 2 + (kind == RING)
        return f"{home[0].upper()}{home[1] % 100:02d}{home[2] % 100:02d}", number + 1

    def node(self, i, j):
        return WEST + i * SIDE, SOUTH + j * SIDE

    def inside(self, i, j, x, y):
        return WEST + i * SIDE + x, SOUTH + j * SIDE + y

    def street(self, i, j, kind):
        """The side of a block that starts at a node, eastward or northward: its points and its two blocks."""
        chance = mixed(self.number(i, j, kind))
        across = kind == NORTH
        start, end = self.node(i, j), self.node(i + (not across), j + across)
        count = (0, 1, 1, 2, 2, 3, 4, 12)[chance % 8]
        points = [start]
        for step in range(1, count + 1):
            along = SIDE * step // (count + 1)
            # Near a node it stays nearer its own line than the other streets from there.
            most = min(99, along // 3, (SIDE - along) // 3)
            aside = mixed(chance + step) % (2 * most + 1) - most
            points.append((start[0] + (aside if across else along), start[1] + (along if across else aside)))
        return [*points, end], ((i - 1, j), (i, j)) if across else ((i, j), (i, j - 1))

    def extras(self, i, j):
        """The dead end and the ring in a block: kind, points, and what lies on the left and on the right."""
        chance, here = mixed(self.number(i, j, INTO)), self.key(i, j)
        if chance % 10 < 6:
            far = 200 + chance // 16 % 150
            yield INTO, [self.node(i, j), self.inside(i, j, far, far + chance // 4096 % 20)], here, here
        if chance // 65536 % 20 == 0:
            ring = [self.inside(i, j, *at) for at in ((1020, 300), (900, 420), (780, 300), (900, 180), (1020, 300))]
            yield RING, ring, self.key(i, j, RING), here


class CountyFile:
    """What one county tells."""

    def __init__(self, nation, home):
        self.nation, self.home = nation, home
        self.told, self.kinds = set(), {kind: [] for kind in "12IP78"}
        self.lands = 0

    def own(self, key, block):
        return key if self.nation.home(*block) == self.home else None

    def add_chain(self, tlid, points, left, right):
        if tlid in self.told:
            return
        self.told.add(tlid)
        ends = pair(points[0]) + pair(points[-1])
        self.kinds["1"].append(padded(f"1{VERSION}{tlid:>10}".ljust(190) + ends, 228))
        self.kinds["2"] += shape_lines(tlid, points[1:-1])
        self.kinds["I"].append(sides_line(tlid, left, right, ("", ""), False))

    def add_block(self, i, j):
        nation = self.nation
        for at in ((i, j, EAST), (i, j, NORTH), (i, j + 1, EAST), (i + 1, j, NORTH)):
            points, (left, right) = nation.street(*at)
            self.add_chain(nation.number(*at), points, self.own(nation.key(*left), left), self.own(nation.key(*right), right))
        for kind, points, left, right in nation.extras(i, j):
            self.add_chain(nation.number(i, j, kind), points, left, right)
            if kind == RING:
                self.kinds["P"].append(point_line(left, nation.inside(i, j, 900, 300)))
        chance = mixed(nation.number(i, j, RING))
        at = nation.inside(i, j, 580 + chance % 40, 580 + chance // 64 % 40)
        self.kinds["P"].append(point_line(nation.key(i, j), at))
        if chance // 4096 % 50 == 0:
            self.lands += 1
            self.kinds["7"].append(landmark_line(self.lands, None))
            self.kinds["8"].append(link_line(nation.key(i, j), self.lands))
        if j == 0 and chance % 7 == 3:
            self.add_chain(nation.number(i, -1, INTO), [nation.node(i, 0), nation.inside(i, 0, 20, -900)], None, None)

    def write(self, folder):
        kind, column, row = self.home
        state = folder / f"s{column // self.nation.in_state:02d}{row // self.nation.in_state:02d}"
        state.mkdir(exist_ok=True)
        with open(state / f"{kind}{column:02d}{row:02d}.RT", "w", newline="") as file:
            for lines in self.kinds.values():
                file.writelines(lines)


def counties_of(nation):
    """The files of all counties. A county has its square, and perhaps a block within its western neighbour's."""
    for row in range(nation.across):
        for column in range(nation.across):
            blocks = [*nation.blocks_of(column, row)]
            if column > 0:
                blocks += nation.blocks_of(column - 1, row)
            for kind in "cv":
                home = kind, column, row
                file = CountyFile(nation, home)
                for i, j in blocks:
                    if nation.home(i, j) == home:
                        file.add_block(i, j)
                if file.told:
                    yield file


def main():
    parser = argparse.ArgumentParser()
    parser.add_argument("folder", type=Path)
    for word in ("states", "counties", "chains"):
        parser.add_argument(word, type=int)
    words = parser.parse_args()
    words.folder.mkdir(parents=True, exist_ok=True)
    for file in counties_of(Nation(words.states, words.counties, words.chains)):
        file.write(words.folder)


if __name__ == "__main__":
    main()
