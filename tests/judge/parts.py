#!/usr/bin/env python3
"""A second opinion on maps that are joined from parts: whether the parts and the border between them tell all.

usage: parts.py [--cases N]

Written from the definitions in `tigertopo_border/specs/Whole` alone. Drawn maps are cut into parts, some of them spoilt before, at random and at
the seams. A part has the chains that name one of its polygons, each with its own sides, and of those that name none those that are
told by it. The border has the chains whose sides aren't both of one part, on which each part is one polygon. Then the map has to be
sound with faces that agree exactly where each part is, and the border is. And joining gives back what was cut: the parts' chains by
their TLIDs the map's, and those of the parts' own borders the border's, whose own border is the map's.
"""

import random
import sys
from collections import Counter
from dataclasses import dataclass, replace
from functools import cached_property
from pathlib import Path

sys.path.append(str(Path(__file__).resolve().parents[1]))
import folders  # noqa: F401

import draw
import faces
import judge

CASES = 600
# What may be done to a map before it is cut, beside what is done at its seams.
SPOILING = [
    draw.exchange_sides,
    draw.change_a_side,
    draw.turn_points_alone,
    draw.move_a_point,
    draw.move_a_point_by_one,
    draw.add_a_street,
    draw.meet_a_street,
    draw.lay_a_street_over_another,
    draw.touch_itself,
    draw.cut_a_street,
    draw.leave_out_a_street,
    draw.move_a_polygon_point,
    draw.exchange_polygon_points,
]


def is_sound(the_map):
    """Whether the map is sound and its faces agree."""
    if judge.meets(the_map) or judge.side_faults(the_map):
        return False
    if not judge.are_closed(the_map, judge.rings_of(the_map)) or judge.point_faults(the_map):
        return False
    return faces.Faces(the_map).agree()


@dataclass
class Cut:
    """A map, the part of each of its polygons, and by TLID that of each chain that names none."""

    whole: judge.Map
    homes: dict
    tellers: dict

    @property
    def names(self):
        """The parts by their numbers: a part without polygons and chains tells nothing."""
        return sorted({*self.homes.values(), *self.tellers.values()})

    def part_of(self, side):
        return None if side is None else self.homes[side]

    def part(self, number):
        """What this part tells: its polygons, and the chains that name one of them, or none and are its own."""

        def own(side):
            return side if self.part_of(side) == number else None

        told = []
        for chain in self.whole.chains:
            sides = {chain.left, chain.right}
            teller = self.tellers[chain.tlid] if sides == {None} else None
            if teller == number or number in {self.part_of(side) for side in sides if side is not None}:
                told.append(replace(chain, left=own(chain.left), right=own(chain.right)))
        polygons = [it for it in self.whole.polygons if self.homes[it.key] == number]
        return judge.Map(told, polygons, [])

    @cached_property
    def parts(self):
        return {number: self.part(number) for number in self.names}

    @cached_property
    def border(self):
        """The chains whose sides aren't both of one part, and of each part that has a polygon the point of its first."""
        told = []
        for chain in self.whole.chains:
            left, right = self.part_of(chain.left), self.part_of(chain.right)
            if left is None or left != right:
                told.append(replace(chain, left=name_of(left), right=name_of(right)))
        firsts = [(number, part.polygons[0].point) for number, part in self.parts.items() if part.polygons]
        return judge.Map(told, [judge.Polygon(name_of(number), point) for number, point in firsts], [])


def name_of(number):
    """The part as one polygon."""
    return None if number is None else judge.Key(f"P{number:04d}".encode(), 1)


def border_of(part, number):
    """A part's own border: its chains with at most one side named, under the part's name, and the point of its first polygon."""
    name = name_of(number)
    told = [
        replace(chain, left=chain.left and name, right=chain.right and name)
        for chain in part.chains
        if chain.left is None or chain.right is None
    ]
    return judge.Map(told, [judge.Polygon(name, it.point) for it in part.polygons[:1]], [])


def joined(maps):
    """One map of several: of a TLID that two of them tell, each its own side, one chain with both; None where they tell one otherwise."""
    chains, polygons = {}, []
    for it in maps:
        for chain in it.chains:
            other = chains.get(chain.tlid)
            if other is None:
                chains[chain.tlid] = chain
            elif other.points != chain.points or not are_two_halves(other, chain):
                return None
            else:
                chains[chain.tlid] = replace(chain, left=chain.left or other.left, right=chain.right or other.right)
        polygons += it.polygons
    return judge.Map([chains[tlid] for tlid in sorted(chains)], polygons, [])


def are_two_halves(one, other):
    """Whether each side is named by exactly one of the two, and each of them names one side."""
    return (one.left is None) != (other.left is None) and (one.right is None) != (other.right is None) and (one.left is None) != (one.right is None)


def are_one(one, other):
    return one.chains == other.chains and set(one.polygons) == set(other.polygons)


# ---------------------------------------------------------------------------------------------------------------------
# Maps, and faults at their seams.


def tell_apart(chance, town):
    """A street between two polygons is drawn by each for itself: alike, or one of them with a point that is moved a little, or with
    its ends exchanged; or one of the two is missing."""
    between = [it for it in town.streets if it.left is not None and it.right is not None and it.left != it.right]
    if not between:
        return
    it = chance.choice(between)
    other = replace(it, tlid=chance.randint(1, 10**9), points=list(it.points), left=None)
    it.right = None
    kind = chance.randrange(4)
    if kind == 1:
        at = chance.randrange(len(other.points))
        x, y = other.points[at]
        other.points[at] = (x + chance.randint(-2, 2), y + chance.randint(-2, 2))
    if kind == 2:
        other.points.reverse()
    if kind != 3:
        town.streets.append(other)


def name_across(chance, town):
    """A side of a street is named after a polygon that lies on the other side of another street."""
    it = chance.choice(town.streets)
    named = [side for other in town.streets for side in (other.left, other.right) if side is not None]
    if named:
        it.right = chance.choice(named)


def move_over(chance, town):
    """All streets and points of one polygon are moved by a little, so that it overlaps its neighbours, and leaves gaps."""
    if not town.polygons:
        return
    key, _ = chance.choice(town.polygons)
    by = chance.randint(-60, 60), chance.randint(-60, 60)
    for it in town.streets:
        if key in (it.left, it.right) and None in (it.left, it.right):
            it.points = [(x + by[0], y + by[1]) for x, y in it.points]


SEAMS = [tell_apart, tell_apart, tell_apart, name_across, move_over]


def map_of(town):
    """The map of a town, or None where one of its streets is no chain of a map, or two have one TLID."""
    streets = sorted(town.streets, key=lambda it: it.tlid)
    tlids = [it.tlid for it in streets]
    alike = any(one == other for it in streets for one, other in zip(it.points, it.points[1:]))
    if alike or len(set(tlids)) < len(tlids):
        return None
    keys = {key: judge.Key(b"A0001", number + 1) for number, (key, _) in enumerate(town.polygons)}
    chains = [
        judge.MapChain(it.tlid, tuple(judge.Point(*point) for point in it.points), keys.get(it.left), keys.get(it.right), (None, None))
        for it in streets
    ]
    return judge.Map(chains, [judge.Polygon(keys[key], judge.Point(*point)) for key, point in town.polygons], [])


def cut_of(chance):
    """A drawn map, and how it is cut into two to four parts, some of which may be in pieces; or None."""
    town = draw.town_of(chance)
    for _ in range(chance.choice((0, 0, 1, 1, 2))):
        chance.choice(SPOILING if chance.random() < 0.5 else SEAMS)(chance, town)
    whole = map_of(town)
    if whole is None:
        return None
    parts = range(chance.randint(2, 4))
    homes = {it.key: chance.choice(parts) for it in whole.polygons}
    tellers = {it.tlid: chance.choice(parts) for it in whole.chains if it.left is None and it.right is None}
    return Cut(whole, homes, tellers)


# ---------------------------------------------------------------------------------------------------------------------
# What is played.


def complaint_of(cut, seen):
    """What is wrong with a map that is cut, or None. Counts of what sort it is."""
    if not are_one(joined(cut.parts.values()), cut.whole):
        return "the parts don't join to the map"
    if not are_one(joined(border_of(part, number) for number, part in cut.parts.items()), cut.border):
        return "the borders of the parts don't join to the border"
    if border_of(cut.border, 0).chains != border_of(cut.whole, 0).chains:
        return "the border of the border is not the map's"
    parts, border, whole = all(map(is_sound, cut.parts.values())), is_sound(cut.border), is_sound(cut.whole)
    seen[f"parts {'sound' if parts else 'unsound'}, border {'sound' if border else 'unsound'}"] += 1
    if whole != (parts and border):
        return f"the map is {'sound' if whole else 'unsound'}: its parts are {'sound' if parts else 'not'}, the border is {'sound' if border else 'not'}"
    return None


def play(cases, seen):
    well = ill = 0
    for number in range(cases):
        cut = cut_of(random.Random(f"parts {number}"))
        if cut is None:
            continue
        complaint = complaint_of(cut, seen)
        if complaint:
            print(f"parts: drawn {number}: {complaint}")
        well, ill = well + (not complaint), ill + bool(complaint)
    return well, ill


def play_all(cases=CASES):
    """How many maps are told by their parts and borders, and how many aren't. Each sort of map has to be among them."""
    seen = Counter()
    well, ill = play(cases, seen)
    return well, ill + (len(seen) < 4)


def main():
    cases = int(sys.argv[2]) if sys.argv[1:2] == ["--cases"] else CASES
    seen = Counter()
    well, ill = play(cases, seen)
    for sort, many in sorted(seen.items()):
        print(f"{sort}: {many}")
    print(f"parts: {well} of {well + ill}")
    return ill > 0


if __name__ == "__main__":
    sys.exit(main())
