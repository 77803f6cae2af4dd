#!/usr/bin/env python3
"""A second opinion on faces of small maps: whether the sides agree that face one another.

usage: faces.py [--released] FILES..

Written from the definitions in `tl_check_faces/specs` alone, as judge.py is from those of sound maps. The plane is cut at the
longitude of each vertex. Between two neighbouring longitudes the segments stand in one order from south to north, and between
two neighbours is a gap. Two gaps on both sides of a longitude are of one face where a way leads across it that meets no chain.
Faces agree where all sides toward the gaps of each face name one polygon, and all those toward the face without end the outside.
"""

import sys
from fractions import Fraction
from pathlib import Path

import judge


def height_at(segment, x):
    """The latitude of a segment that isn't upright, at a longitude."""
    (x1, y1), (x2, y2) = segment.start, segment.end
    return Fraction(y1) + Fraction(y2 - y1) * Fraction(x - x1) / (x2 - x1)


class Gap:
    """What lies between two neighbouring longitudes and two neighbouring segments; None is the end of the plane."""

    def __init__(self, west, east, below, above):
        self.west, self.east, self.below, self.above = west, east, below, above
        self.face = self

    def root(self):
        while self.face is not self.face.face:
            self.face = self.face.face
        return self.face

    def join(self, other):
        self.root().face = other.root()

    def reach(self, x):
        """The open range of latitudes that the gap has at a longitude where it begins or ends."""
        low = -float("inf") if self.below is None else height_at(self.below, x)
        high = float("inf") if self.above is None else height_at(self.above, x)
        return low, high

    def middle(self):
        """A point within the gap."""
        if self.west is None or self.east is None:
            x = self.east - 1 if self.west is None else self.west + 1
        else:
            x = Fraction(self.west + self.east, 2)
        low = None if self.below is None else height_at(self.below, x)
        high = None if self.above is None else height_at(self.above, x)
        if low is None:
            low = Fraction(0) if high is None else high - 2
        if high is None:
            high = low + 2
        return judge.Point(x, (low + high) / 2)


class Faces:
    """The faces of a planar map: what is named toward each, and a gap of each."""

    def __init__(self, the_map):
        self.map = the_map
        self.places = sorted({point.x for chain in the_map.chains for point in chain.points})
        self.slabs = [self.slab(west, east) for west, east in zip([None, *self.places], [*self.places, None])]
        self.named = []
        for x, west, east in zip(self.places, self.slabs, self.slabs[1:]):
            self.cross(x, west, east)
        self.tell_sides()

    def slab(self, west, east):
        """The gaps between two neighbouring longitudes from south to north."""
        if west is None or east is None:
            return [Gap(west, east, None, None)]
        x = Fraction(west + east, 2)
        active = [it for it in self.map.segments if it.rectangle[0] <= west and east <= it.rectangle[2]]
        active.sort(key=lambda it: height_at(it, x))
        return [Gap(west, east, below, above) for below, above in zip([None, *active], [*active, None])]

    def cross(self, x, west, east):
        """Joins the gaps on both sides of a longitude, and keeps what upright segments name there."""
        upright = [it for it in self.map.segments if it.start.x == it.end.x == x]
        walls = sorted(sorted((it.start.y, it.end.y)) for it in upright)
        for gap in west:
            for other in east:
                low, high = max(gap.reach(x)[0], other.reach(x)[0]), min(gap.reach(x)[1], other.reach(x)[1])
                if is_open(low, high, walls):
                    gap.join(other)
        for it in upright:
            south, north = sorted((it.start.y, it.end.y))
            left, right = self.sides(it)
            for gaps, side in ((west, left), (east, right)) if it.start.y < it.end.y else ((west, right), (east, left)):
                for gap in gaps:
                    low, high = gap.reach(x)
                    if max(low, south) < min(high, north):
                        self.named.append((gap, side))

    def sides(self, segment):
        chain = self.map.chains[segment.chain]
        return chain.left, chain.right

    def tell_sides(self):
        """Keeps what segments name toward the gaps north and south of them."""
        for gaps in self.slabs:
            for gap in gaps:
                for segment, is_north in ((gap.below, True), (gap.above, False)):
                    if segment is not None:
                        left, right = self.sides(segment)
                        is_left = is_north == (segment.start.x < segment.end.x)
                        self.named.append((gap, left if is_left else right))

    @property
    def outer(self):
        return self.slabs[0][0].root()

    def names(self):
        """What is named toward each face, the outside by None."""
        found = {gap.root(): set() for gaps in self.slabs for gap in gaps}
        for gap, side in self.named:
            found[gap.root()].add(side)
        return found

    def agree(self):
        names = self.names()
        return all(len(it) <= 1 for it in names.values()) and names[self.outer] <= {None}


def is_open(low, high, walls):
    """Whether some place between two latitudes is in none of the closed ranges."""
    for south, north in walls:
        if low < south and low < high:
            return True
        low = max(low, north)
    return low < high


def polygons_at(the_map, point):
    """The polygons whose count at a point that is on no chain isn't 0, with their counts."""
    crossed = judge.crossed_sides(the_map, point)
    keys = {side for pair in crossed for side in pair if side is not None}
    return {key: judge.count(crossed, {key}) for key in keys if judge.count(crossed, {key})}


def have_one_polygon(faces):
    """Whether each face's gaps lie in the polygon that is named toward it, and in no other, or in none where that is the outside."""
    names = faces.names()
    for gaps in faces.slabs:
        for gap in gaps:
            wanted = {key: 1 for key in names[gap.root()] if key is not None}
            if polygons_at(faces.map, gap.middle()) != wanted:
                return False
    return True


def main():
    words = sys.argv[1:]
    texts = [Path(it).read_bytes() for it in words if it != "--released"]
    county = judge.County(texts, released="--released" in words)
    if county.faults or county.meets:
        sys.exit("faces.py: faces are told of maps whose chains are planar")
    agree = Faces(county.map).agree()
    print("faces agree" if agree else "faces disagree")
    return 0 if agree else 1


if __name__ == "__main__":
    sys.exit(main())
