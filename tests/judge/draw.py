#!/usr/bin/env python3
"""Draws small counties at random, puts faults into them, and proposes certificates of them and changes those.

usage: draw.py SEED     prints the county of that seed, and what was done to it

A town is a lattice of blocks, some of which are one polygon, with streets left out, joined to longer chains and bent,
with dead ends, islands and rings in rings, turned and stretched as a whole. It is drawn so that its map is sound. Then
any of the changes below may be made to it: to the town, to its lines, or to a certificate of it. What is true of the
case behind that is not known here: judge.py tells it.
"""

import random
import sys
from dataclasses import dataclass, field, replace
from functools import cmp_to_key
from pathlib import Path

sys.path.append(str(Path(__file__).resolve().parents[1]))
import folders  # noqa: F401

from layout import COLUMNS

# How wide and how high a block is before the town is turned and stretched.
BLOCK = 400
LIMITS = 180_000_000, 90_000_000


@dataclass
class Street:
    """A chain: its TLID, its points, the keys of its sides, where None is the outside, and its zero-cell ids."""

    tlid: int
    points: list
    left: str | None
    right: str | None
    cells: tuple = ("", "")


@dataclass
class Town:
    streets: list = field(default_factory=list)
    polygons: list = field(default_factory=list)
    lands: list = field(default_factory=list)
    links: list = field(default_factory=list)


# ---------------------------------------------------------------------------------------------------------------------
# Towns whose maps are sound.


class Drawing:
    """A town as it is drawn, where streets have no TLID yet."""

    def __init__(self, chance):
        self.chance, self.town, self.keys = chance, Town(), 0

    def some(self, *numbers):
        """One of a few numbers, so that points are often level with others."""
        return self.chance.choice(numbers)

    def new_key(self):
        """A key that no polygon has yet, with a blank in some."""
        self.keys += 1
        return self.chance.choice(("A0001", "A0001", "B  02", " C_03")) + f"/{self.keys}"

    def new_polygon(self, point):
        key = self.new_key()
        self.town.polygons.append((key, point))
        return key

    def street(self, points, left, right):
        """A street between the two sides, drawn from either end."""
        if self.chance.random() < 0.5:
            points, left, right = points[::-1], right, left
        self.town.streets.append(Street(0, list(points), left, right))

    def draw(self):
        columns, rows = self.chance.choice([(1, 1), (1, 2), (2, 2), (2, 2), (3, 2), (3, 3), (4, 2)])
        owners = self.owners(columns, rows)
        for row in range(rows + 1):
            for column in range(columns + 1):
                here = owners.get((column, row))
                if column < columns:
                    self.edge((column, row), (column + 1, row), here, owners.get((column, row - 1)))
                if row < rows:
                    self.edge((column, row), (column, row + 1), owners.get((column - 1, row)), here)
        for block, owner in owners.items():
            if self.chance.random() < 0.5:
                self.furnish(block, owner)
        self.join()
        return self.town

    def owners(self, columns, rows):
        """The polygon of each block, some of which have one together, or none."""
        blocks = [(column, row) for column in range(columns) for row in range(rows)]
        kinds = self.chance.randint(1, len(blocks))
        drawn = {block: self.chance.randint(0, kinds) for block in blocks}
        keys = {0: None}
        for (column, row), kind in drawn.items():
            if kind not in keys:
                x, y = BLOCK * column, BLOCK * row
                keys[kind] = self.new_polygon((x + self.some(80, 100, 120, 140), y + self.some(200, 240, 300, 340)))
        return {block: keys[kind] for block, kind in drawn.items()}

    def edge(self, start, end, left, right):
        """The street on one edge of a block, bent or straight; between two parts of one polygon it may be left out."""
        if left == right and self.chance.random() < 0.7:
            return
        (x, y), (to_x, to_y) = ((BLOCK * column, BLOCK * row) for column, row in (start, end))
        points = [(x, y), (to_x, to_y)]
        if self.chance.random() < 0.3:
            points.insert(1, ((x + to_x) // 2 + self.some(-20, 0, 20), (y + to_y) // 2 + self.some(-20, 0, 20)))
        self.street(points, left, right)

    def furnish(self, block, owner):
        """A dead end from a corner of the block, and an island or a street on its own in its east."""
        x, y = BLOCK * block[0], BLOCK * block[1]
        if self.chance.random() < 0.4:
            end = (x + self.some(80, 100, 120, 140), y + self.some(60, 90, 120))
            self.street([(x, y), end], owner, owner)
            if self.chance.random() < 0.3:
                self.street([end, (end[0] + 20, end[1] + 30)], owner, owner)
        if self.chance.random() < 0.5:
            self.island((x + 180, y + 60, x + 370, y + self.some(300, 340)), owner, 2)
        elif self.chance.random() < 0.3:
            self.street([(x + 200, y + 90), (x + 300, y + 120), (x + 340, y + 300)], owner, owner)

    def island(self, box, around, depth):
        """A ring in the box, of one to four streets, with a polygon in it, or the outside, or what is around it; and a
        ring in that ring."""
        west, south, east, north = box
        ring = [(west, south), (east, south), (east, north), (west, north)]
        if self.chance.random() < 0.3:
            ring.pop(2)
        wide, high = east - west, north - south
        inside = self.chance.choice((None, around, "new", "new", "new"))
        if inside == "new":
            inside = self.new_polygon((west + max(1, wide // 8), south + high // 3))
        cuts = sorted(self.chance.sample(range(len(ring)), self.chance.randint(1, len(ring))))
        for start, end in zip(cuts, cuts[1:] + [cuts[0] + len(ring)]):
            self.street([ring[at % len(ring)] for at in range(start, end + 1)], inside, around)
        if depth and self.chance.random() < 0.4:
            low = south + self.some(high // 8, high // 3)
            self.island((west + wide // 4, low, west + wide * 2 // 5, south + high // 2), inside, depth - 1)

    def join(self):
        """Makes one street of two whose common node no other street has, here and there."""
        streets = self.town.streets
        for node in {point for it in streets for point in (it.points[0], it.points[-1])}:
            here = [it for it in streets for point in (it.points[0], it.points[-1]) if point == node]
            if len(here) == 2 and here[0] is not here[1] and self.chance.random() < 0.5:
                one, other = here
                one = one if one.points[-1] == node else turned(one)
                other = other if other.points[0] == node else turned(other)
                streets[:] = [it for it in streets if it is not here[0] and it is not here[1]]
                streets.append(replace(one, points=one.points + other.points[1:]))


def turned(street):
    """The street from its other end."""
    cells = street.cells[::-1]
    return replace(street, points=street.points[::-1], left=street.right, right=street.left, cells=cells)


def moved(chance, town):
    """The town turned, sheared, mirrored, stretched and moved as a whole, by whole numbers; where it is mirrored, sides
    are exchanged."""
    straight = [((1, 0), (0, 1)), ((-1, 0), (0, -1)), ((0, 1), (-1, 0)), ((0, 1), (1, 0))]
    across, up = chance.choice([*straight, *straight, ((1, 1), (-1, 1)), ((2, 1), (1, 1)), ((3, -1), (1, 2))])
    scale = chance.choice((1, 1, 1, 7, 1000, 9000))

    def turn(point):
        return tuple(scale * (point[0] * one + point[1] * other) for one, other in zip(across, up))

    points = [turn(point) for it in town.streets for point in it.points] or [(0, 0)]
    rooms = [(-limit - min(column), limit - max(column)) for limit, column in zip(LIMITS, zip(*points))]
    near = [(max(low, -3000), min(high, 3000)) for low, high in rooms]
    places = [(chance.randint(*room), chance.choice(room), chance.randint(*close)) for room, close in zip(rooms, near)]
    by = [chance.choice(it) for it in places]

    def move(point):
        x, y = turn(point)
        return x + by[0], y + by[1]

    mirrored = across[0] * up[1] < across[1] * up[0]
    streets = [replace(it, points=[move(point) for point in it.points]) for it in town.streets]
    if mirrored:
        streets = [replace(it, left=it.right, right=it.left) for it in streets]
    return replace(town, streets=streets, polygons=[(key, move(point)) for key, point in town.polygons])


def named(chance, town):
    """The town with TLIDs, zero-cell ids that agree, and landmarks."""
    greatest = chance.choice((99, 10**9, 10**10 - 1))
    for street, tlid in zip(town.streets, chance.sample(range(1, greatest), len(town.streets))):
        street.tlid = tlid
    nodes = sorted({point for it in town.streets for point in (it.points[0], it.points[-1])})
    ids = dict(zip(nodes, chance.sample(range(1, 9999), len(nodes))))
    for it in town.streets:
        known = [str(ids[point]) for point in (it.points[0], it.points[-1])]
        it.cells = tuple(cell if chance.random() < 0.9 else chance.choice(("", "0")) for cell in known)
    for land in chance.sample(range(1, 500), chance.choice((0, 0, 1, 2, 3))):
        town.lands.append((land, chance.choice((None, (chance.randint(-99, 99), chance.randint(-99, 99))))))
        linked = [chance.choice(town.polygons)[0] for _ in range(chance.randint(0, 4)) if town.polygons]
        town.links += [(key, land) for key in linked]
    return town


def town_of(chance):
    """A town whose map is sound."""
    while True:
        town = moved(chance, Drawing(chance).draw())
        # A shape point at (0,0) can't be written.
        if town.streets and not any((0, 0) in it.points[1:-1] for it in town.streets):
            return named(chance, town)


# ---------------------------------------------------------------------------------------------------------------------
# Lines.


def line_of(kind, values, width):
    """A record's line, with its values right-aligned in their columns."""
    line = bytearray(kind[:1].replace("r", "I").encode() + b"0000" + b" " * (width - 5))
    for name, value in values.items():
        first, last = COLUMNS[kind][name]
        line[first - 1 : last] = str(value).rjust(last - first + 1).encode()
    return bytes(line)


def pair_of(names, point):
    return {names[0]: f"{point[0]:+010d}", names[1]: f"{point[1]:+09d}"}


def key_of(names, key):
    return dict(zip(names, key.split("/"))) if key else {}


def street_lines(chance, it, released):
    """The lines of types 1, 2 and I of a street. Behind its last shape point pairs are blank, or 0, or a record has
    none."""
    ends = {**pair_of(("FRLONG", "FRLAT"), it.points[0]), **pair_of(("TOLONG", "TOLAT"), it.points[-1])}
    lines = [line_of("1", {"TLID": it.tlid, **ends}, 228)]
    inner = it.points[1:-1]
    for number in range(-(-len(inner) // 10) + (chance.random() < 0.05)):
        values = {"TLID": it.tlid, "RTSQ": number + 1}
        for place in range(10):
            if 10 * number + place < len(inner):
                values |= pair_of((f"LONG{place + 1}", f"LAT{place + 1}"), inner[10 * number + place])
            elif chance.random() < 0.5:
                values |= pair_of((f"LONG{place + 1}", f"LAT{place + 1}"), (0, 0))
        lines.append(line_of("2", values, 208))
    sides = {"TLID": it.tlid, **key_of(("CENIDL", "POLYIDL"), it.left), **key_of(("CENIDR", "POLYIDR"), it.right)}
    line = bytearray(line_of("released" if released else "I", {**sides, **({"FILE": 24001} if released else {})}, 127))
    line[20:40] = "".join(cell.rjust(10) for cell in it.cells).encode()
    return [*lines, bytes(line)]


def lines_of(chance, town, released):
    """All lines of a town, with their line feeds, in some order."""
    lines = [line for it in town.streets for line in street_lines(chance, it, released)]
    for key, point in town.polygons:
        lines.append(line_of("P", {**key_of(("CENID", "POLYID"), key), **pair_of(("POLYLONG", "POLYLAT"), point)}, 45))
    for land, point in town.lands:
        lines.append(line_of("7", {"LAND": land, **(pair_of(("LALONG", "LALAT"), point) if point else {})}, 74))
    lines += [line_of("8", {**key_of(("CENID", "POLYID"), key), "LAND": land}, 36) for key, land in town.links]
    if chance.random() < 0.5:
        chance.shuffle(lines)
    feed = chance.choice((b"\n", b"\n", b"\r\n"))
    return [line + feed for line in lines]


# ---------------------------------------------------------------------------------------------------------------------
# Changes of a town. Each takes what chance gives, changes the town and gives nothing.


def some_point(chance, town):
    """A point of the map: of a street, between two of its points, of a polygon, or anywhere near."""
    street = chance.choice(town.streets)
    one, other = chance.choice(street.points), chance.choice(street.points)
    middle = (one[0] + other[0]) // 2, (one[1] + other[1]) // 2
    place = chance.randrange(len(street.points) - 1)
    (x, y), (to_x, to_y) = street.points[place : place + 2]
    between = (x + to_x) // 2, (y + to_y) // 2
    level = chance.choice(chance.choice(town.streets).points)
    near = (one[0] + chance.randint(-40, 40), one[1] + chance.randint(-40, 40))
    beside = [(point[0] - 1, level[1]) for point in (one, other)] + [(one[0], level[1])]
    points = [one, middle, between, between, near, *beside] + [point for _, point in town.polygons[:1]]
    x, y = chance.choice(points)
    return max(-LIMITS[0], min(LIMITS[0], x)), max(-LIMITS[1], min(LIMITS[1], y))


def some_key(chance, town):
    return chance.choice([None, *(key for key, _ in town.polygons)])


def exchange_sides(chance, town):
    it = chance.choice(town.streets)
    it.left, it.right = it.right, it.left


def change_a_side(chance, town):
    it = chance.choice(town.streets)
    it.left = some_key(chance, town)


def turn_points_alone(chance, town):
    chance.choice(town.streets).points.reverse()


def move_a_point(chance, town):
    points = chance.choice(town.streets).points
    points[chance.randrange(len(points))] = some_point(chance, town)


def move_a_point_by_one(chance, town):
    points = chance.choice(town.streets).points
    at = chance.randrange(len(points))
    x, y = points[at]
    points[at] = (max(-LIMITS[0], min(LIMITS[0], x + chance.randint(-1, 1))), y + (1 if y < 0 else -1))


def add_a_street(chance, town):
    """Between two points: across others, on one of them, along one, or where it may be."""
    points = [some_point(chance, town) for _ in range(chance.randint(2, 3))]
    key = some_key(chance, town)
    town.streets.append(Street(chance.randint(1, 10**9), points, key, key))


def lay_a_street_over_another(chance, town):
    it = chance.choice(town.streets)
    first = chance.randrange(len(it.points) - 1)
    points = it.points[first : first + chance.randint(2, 3)]
    if chance.random() < 0.5:
        points = [points[0], tuple((one + other) // 2 for one, other in zip(*points[:2]))]
    town.streets.append(replace(it, tlid=chance.randint(1, 10**9), points=points))


def meet_a_street(chance, town):
    """A short street within the land on the left of another touches it, crosses it or lies along it, or touches itself:
    nothing else is wrong with the map."""
    it = chance.choice(town.streets)
    place = chance.randrange(len(it.points) - 1)
    (x, y), (to_x, to_y) = it.points[place : place + 2]
    along, left = ((to_x - x) // 10, (to_y - y) // 10), (-(to_y - y) // 10, (to_x - x) // 10)

    def at(forth, aside):
        """So many tenths along the segment from its middle, and so many to the left."""
        middle = (x + to_x) // 2, (y + to_y) // 2
        return tuple(start + forth * one + aside * other for start, one, other in zip(middle, along, left))

    points = chance.choice(
        (
            [at(0, 0), at(0, 1)],
            [at(0, 1), at(0, 0), at(1, 1)],
            [at(0, -1), at(0, 1)],
            [at(-1, 0), at(1, 0)],
            [(x, y), at(0, 0)],
            [(x, y), at(0, 1)],
            [(to_x, to_y), at(0, 1)],
            [at(-2, 1), at(2, 1), at(1, 2), at(0, 1)],
            [at(-2, 1), at(2, 1), at(1, 2), at(0, 0)],
            [at(-2, 1), at(2, 1), at(1, 1)],
            [at(-2, 1), at(2, 1), at(0, 2), at(-2, 1)],
        )
    )
    limited = [tuple(max(-limit, min(limit, value)) for limit, value in zip(LIMITS, point)) for point in points]
    town.streets.append(Street(chance.randint(1, 10**9), limited, it.left, it.left))


def touch_itself(chance, town):
    """A street comes back to a point of its own."""
    points = chance.choice(town.streets).points
    points.insert(chance.randrange(1, len(points) + 1), chance.choice(points))
    points.append(chance.choice(points))


def cut_a_street(chance, town):
    """Ends at a shape point, and goes on as another street."""
    it = chance.choice(town.streets)
    at = chance.randrange(len(it.points))
    if 0 < at < len(it.points) - 1:
        town.streets.append(replace(it, tlid=chance.randint(1, 10**9), points=it.points[at:], cells=("", it.cells[1])))
        it.points, it.cells = it.points[: at + 1], (it.cells[0], "")


def leave_out_a_street(chance, town):
    if len(town.streets) > 1:
        town.streets.remove(chance.choice(town.streets))


def move_a_polygon_point(chance, town):
    if town.polygons:
        at = chance.randrange(len(town.polygons))
        town.polygons[at] = (town.polygons[at][0], some_point(chance, town))


def exchange_polygon_points(chance, town):
    if len(town.polygons) > 1:
        (one, point), (other, second) = chance.sample(town.polygons, 2)
        moved_to = {one: second, other: point}
        town.polygons = [(key, moved_to.get(key, at)) for key, at in town.polygons]


def add_a_polygon(chance, town):
    """A polygon on no side of any street."""
    town.polygons.append(("Z0009/9", some_point(chance, town)))


def change_a_cell(chance, town):
    it = chance.choice(town.streets)
    cells = [cell for other in town.streets for cell in other.cells] + ["77777", "0", ""]
    it.cells = (chance.choice(cells), it.cells[1])


def make_one_point_of_a_street(chance, town):
    it = chance.choice(town.streets)
    it.points = [it.points[0]] * len(it.points)


GEOMETRY = [exchange_sides, change_a_side, turn_points_alone, move_a_point, move_a_point_by_one, add_a_street]
GEOMETRY += [meet_a_street, meet_a_street, lay_a_street_over_another, touch_itself, cut_a_street, leave_out_a_street]
GEOMETRY += [meet_a_street, move_a_polygon_point]
GEOMETRY += [exchange_polygon_points, add_a_polygon, change_a_cell, make_one_point_of_a_street, move_a_polygon_point]


# ---------------------------------------------------------------------------------------------------------------------
# Changes of lines. Each takes what chance gives and a list of lines, and changes the list.


def some_place(chance, lines, letters=None):
    """The place of a line of one of these letters, or of any: each letter that begins a line is as likely as
    another."""
    letter = chance.choice(sorted({line[:1] for line in lines if letters is None or line[:1] in letters}))
    return chance.choice([at for at, line in enumerate(lines) if line[:1] == letter])


def leave_out_a_line(chance, lines):
    lines.pop(some_place(chance, lines))


def give_a_line_twice(chance, lines):
    lines.insert(chance.randrange(len(lines) + 1), lines[some_place(chance, lines)])


def change_a_key(chance, lines):
    """The number that a line is known by, or that it knows another by, is one more or less, or that of a line of its
    type."""
    at = some_place(chance, lines)
    fields = {"TLID", "RTSQ", "POLYID", "POLYIDL", "POLYIDR", "LAND", "CENID", "CENIDL"}
    named = [it for name, it in FIELDS.get(lines[at][:1].decode("latin-1"), []) if name in fields]
    if named:
        first, last = chance.choice(named)
        word = lines[at][first - 1 : last]
        other = lines[some_place(chance, lines, [lines[at][:1]])][first - 1 : last]
        near = str(int(word) + chance.choice((-1, 1))).encode() if word.strip().isdigit() else b"A0002"
        value = chance.choice((near, near, other)).rjust(last - first + 1)
        lines[at] = lines[at][: first - 1] + value + lines[at][last:]


FIELDS = {kind: list(COLUMNS[kind].items()) for kind in "12IP78"}
VALUES = ["", "", "0", "00", "-0", "+0", "+", "-", "1", "2", "7", "+1", "-5", "1 2", "+ 1", "x", "1.0", "999"]
VALUES += ["180000000", "-180000000", "180000001", "-180000001", "90000000", "90000001", "-90000001"]
VALUES += ["4294967296", "9999999999", "\t", "A0001", "é"]


def change_a_field(chance, lines):
    """A field that is read, or a neighbour of it, holds something else, to its left, to its right or in its middle."""
    at = some_place(chance, lines)
    fields = FIELDS.get(lines[at][:1].decode("latin-1"))
    if fields:
        _, (first, last) = chance.choice(fields)
        width = last - first + 1
        value = chance.choice(VALUES).encode("latin-1")[:width]
        right = value.rjust(width)
        laid = chance.choice((right, right, value.ljust(width), value.center(width), value.rjust(width, b"0")))
        lines[at] = lines[at][: first - 1].ljust(first - 1) + laid + lines[at][last:]


def exchange_fields(chance, lines):
    """A line has the same field as another line of its type."""
    at = some_place(chance, lines)
    fields = FIELDS.get(lines[at][:1].decode("latin-1"))
    if fields:
        _, (first, last) = chance.choice(fields)
        other = chance.choice([it for it in lines if it[:1] == lines[at][:1]])
        lines[at] = lines[at][: first - 1] + other[first - 1 : last] + lines[at][last:]


def blank_a_pair(chance, lines):
    """A shape pair in the middle is unused."""
    shapes = [at for at, line in enumerate(lines) if line[:1] == b"2"]
    if shapes:
        at, first = chance.choice(shapes), 19 * chance.randint(1, 3)
        unused = chance.choice((b" " * 19, b"+000000000+00000000"))
        lines[at] = lines[at][: first - 1] + unused + lines[at][first + 18 :]


def cut_a_line(chance, lines):
    at = some_place(chance, lines)
    lines[at] = lines[at][: chance.randrange(len(lines[at]))] + chance.choice((b"\n", b"\r\n", b"\r\r\n"))


def shift_a_line(chance, lines):
    """A byte is lost, or one too many."""
    at = some_place(chance, lines)
    place = chance.randrange(len(lines[at]))
    more = chance.random() < 0.5
    lines[at] = lines[at][:place] + (b" " if more else b"") + lines[at][place + (not more) :]


def change_a_byte(chance, lines):
    at = some_place(chance, lines)
    place = chance.randrange(len(lines[at]))
    byte = chance.choice((chance.randrange(256), ord(chance.choice("0123456789 +-12IP78"))))
    lines[at] = lines[at][:place] + bytes([byte]) + lines[at][place + 1 :]


def add_a_line(chance, lines):
    """One of no type that is read, an empty one, a long one, or one of bytes."""
    added = [b"\n", b"\r\n", b"5000 \n", bytes(chance.randrange(256) for _ in range(30)) + b"\n"]
    added.append(b"x" * chance.choice((1023, 1024, 1025)) + chance.choice((b"\n", b"\r\n")))
    lines.insert(chance.randrange(len(lines) + 1), chance.choice(added))


def lose_the_last_line_feed(chance, lines):
    lines[-1] = lines[-1].rstrip(b"\n")


# Those that stand several times are drawn as much more often.
LINES = [leave_out_a_line, give_a_line_twice, give_a_line_twice, change_a_field, change_a_field, change_a_field]
LINES += [exchange_fields, exchange_fields, change_a_key, change_a_key, change_a_key, blank_a_pair, blank_a_pair]
LINES += [cut_a_line, shift_a_line, change_a_byte, add_a_line, lose_the_last_line_feed]


# ---------------------------------------------------------------------------------------------------------------------
# Cases.


@dataclass
class Case:
    """Lines, the switches that they are read with, what was done, points to be located, and the town of which a
    certificate may be proposed."""

    lines: list
    switches: list
    done: list
    points: list
    town: Town
    is_town: bool


def case_of(chance):
    town, done = town_of(chance), []
    kind = chance.choices(("town", "geometry", "lines"), (35, 40, 25))[0]
    if kind == "geometry":
        for change in chance.sample(GEOMETRY, chance.choice((1, 1, 1, 2))):
            change(chance, town)
            done.append(change.__name__)
    points = [some_point(chance, town) for _ in range(3)]
    released = chance.random() < 0.15
    lines = lines_of(chance, town, released)
    if kind == "lines":
        for change in chance.sample(LINES, chance.choice((1, 1, 2))):
            if lines:
                change(chance, lines)
                done.append(change.__name__)
    read_so = released != (chance.random() < 0.02)
    switches = ["--released"] * read_so + ["--zero-cells"] * (chance.random() < 0.4 or "change_a_cell" in done)
    return Case(lines, switches, done, points, town, kind == "town" and read_so == released)


# ---------------------------------------------------------------------------------------------------------------------
# Certificates as anybody might make them, and changes of their texts.


def proposal(chance, town):
    """The text of a certificate of the town, of either version, with a tree of any shape."""
    streets = []
    for it in sorted(town.streets, key=lambda it: it.tlid):
        streets.append([point for at, point in enumerate(it.points) if at == 0 or point != it.points[at - 1]])
    segments = [pair for points in streets for pair in zip(points, points[1:])]
    rounds = rounds_of(streets)
    version = chance.choice((1, 2, 2))
    numbers = chance.sample(range(len(segments)), len(segments))
    if chance.random() < 0.7:
        numbers.sort(key=lambda it: segments[it])
    tree = tree_lines(chance, version, segments, numbers) if numbers else []
    counts = len(streets), len(segments), len(rounds), len(town.polygons)
    nodes = sum(line[0] in "BL" for line in tree)
    lines = [f"TIGERCERT {version}", "C {} {} {} {}".format(*counts), f"T {nodes}", *tree]
    for letters, lists in (("NR", chance.sample(rounds, len(rounds))), ("WK", walks_of(rounds))):
        lines.append(f"{letters[0]} {len(lists)}")
        for darts in lists:
            lines += [f"{letters[1]} {len(darts)}", *(f"D {dart}" for dart in darts)]
    return "\n".join([*lines, "END", ""]).encode()


def tree_lines(chance, version, segments, numbers):
    """A tree of these segments, split anywhere, whose rectangles hold them and at times more."""
    points = [point for it in numbers for point in segments[it]]
    more = chance.choice((0, 0, 5))
    west, south, east, north = (*map(min, zip(*points)), *map(max, zip(*points)))
    rectangle = f"{west - more} {south} {east} {north + more}"
    if len(numbers) <= 8 and (chance.random() < 0.5 or len(numbers) == 1):
        return [f"L {rectangle} {len(numbers)}", *(f"S {it}" for it in numbers)]
    many = 2 if version == 1 else chance.randint(2, min(8, len(numbers)))
    cuts = [0, *sorted(chance.sample(range(1, len(numbers)), many - 1)), len(numbers)]
    lines = [f"B {rectangle}" + f" {many}" * (version == 2)]
    for first, last in zip(cuts, cuts[1:]):
        lines += tree_lines(chance, version, segments, numbers[first:last])
    return lines


def rounds_of(streets):
    """For each node the darts that start there, counter-clockwise from east."""
    headings, starting = {}, {}
    for number, points in enumerate(streets):
        for dart, run in ((2 * number, points), (2 * number + 1, points[::-1])):
            starting.setdefault(run[0], []).append(dart)
            # A chain of one point heads nowhere, and has no certificate that is valid.
            (x, y), (to_x, to_y) = run[0], run[min(1, len(run) - 1)]
            headings[dart] = to_x - x, to_y - y

    def half(dart):
        x, y = headings[dart]
        return y < 0 or (y == 0 and x < 0)

    def order(one, other):
        (x, y), (other_x, other_y) = headings[one], headings[other]
        return half(one) - half(other) or y * other_x - x * other_y

    return [sorted(darts, key=cmp_to_key(order)) for darts in starting.values()]


def walks_of(rounds):
    """The rings: behind each dart comes the one before its reverse in the round where that starts."""
    behind = {dart ^ 1: darts[at - 1] for darts in rounds for at, dart in enumerate(darts)}
    walks, left = [], sorted(behind)
    while left:
        walk = [left[0]]
        while behind[walk[-1]] != walk[0]:
            walk.append(behind[walk[-1]])
        left = [it for it in left if it not in walk]
        walks.append(walk)
    return walks


def listed(lines, letter):
    """The places of the lists of darts behind a line of this letter: of the line, and behind the last dart."""
    return [(at, at + 1 + int(line.split()[1])) for at, line in enumerate(lines) if line.startswith(letter + " ")]


def change_a_number(chance, lines):
    at = some_place(chance, lines)
    words = lines[at].split(" ")
    place = chance.randrange(len(words))
    if words[place].lstrip("-").isdigit():
        value = int(words[place]) + chance.choice((-1, 1, 1, 10, -10, 4294967295))
        words[place] = str(chance.choice((value, value, 0, -1)))
        lines[at] = " ".join(words)


def change_a_dart(chance, lines):
    places = [at for at, line in enumerate(lines) if line[:1] in "DS"]
    if places:
        at = chance.choice(places)
        letter = lines[chance.choice(places)][:1]
        lines[at] = chance.choice((letter + lines[at][1:], f"{lines[at][0]} {chance.randint(0, 90)}"))


def exchange_two_lines(chance, lines):
    places = [at for at, line in enumerate(lines) if line[:1] in "DS"]
    if len(places) > 1:
        one, other = chance.sample(places, 2)
        lines[one], lines[other] = lines[other], lines[one]


def exchange_neighbours(chance, lines):
    at = chance.randrange(len(lines) - 1)
    lines[at], lines[at + 1] = lines[at + 1], lines[at]


def turn_a_list(chance, lines):
    """A list of darts begins elsewhere, as a walk may and a round may not, or runs backwards."""
    lists = listed(lines, chance.choice("RRK"))
    if lists:
        first, last = chance.choice(lists)
        darts = lines[first + 1 : last]
        at = chance.randrange(len(darts))
        lines[first + 1 : last] = darts[::-1] if chance.random() < 0.3 else darts[at:] + darts[:at]


def join_or_part_lists(chance, lines):
    """Two lists of darts become one, or one becomes two."""
    head, letter = chance.choice(("NR", "WK"))
    lists = listed(lines, letter)
    top = next((at for at, line in enumerate(lines) if line.startswith(head + " ")), None)
    if not lists or top is None:
        return
    place = chance.randrange(len(lists))
    first, last = lists[place]
    many = last - first - 1
    if chance.random() < 0.5 and place + 1 < len(lists):
        after, end = lists[place + 1]
        lines[first:end] = [f"{letter} {end - first - 2}", *lines[first + 1 : last], *lines[after + 1 : end]]
        lines[top] = f"{head} {len(lists) - 1}"
    elif many > 1:
        at = chance.randrange(1, many)
        lines.insert(first + 1 + at, f"{letter} {many - at}")
        lines[first] = f"{letter} {at}"
        lines[top] = f"{head} {len(lists) + 1}"


def change_a_rectangle(chance, lines):
    """A rectangle begins or ends elsewhere, a little or far."""
    places = [at for at, line in enumerate(lines) if line[:1] in "BL"]
    if places:
        at = chance.choice(places)
        words = lines[at].split(" ")
        place = chance.randint(1, 4)
        words[place] = str(int(words[place]) + chance.choice((-1, 1, -1, 1, -1000, 1000, -(10**8), 10**8)))
        lines[at] = " ".join(words)


def leave_out_a_certificate_line(chance, lines):
    lines.pop(chance.randrange(len(lines)))


def give_a_certificate_line_twice(chance, lines):
    at = chance.randrange(len(lines))
    lines.insert(at, lines[at])


def change_the_version(chance, lines):
    lines[0] = chance.choice(("TIGERCERT 1", "TIGERCERT 2", "TIGERCERT 3"))


def spell_otherwise(chance, lines):
    at = chance.randrange(len(lines))
    line = lines[at]
    lines[at] = chance.choice((line + " ", line + "\r", line.replace(" ", " 0", 1), line.lower(), " " + line))


def deepen(chance, lines):
    """A tree of more than 64 levels, whose leaves have one segment or several."""
    top = [at for at, line in enumerate(lines) if line[:2] in ("T ", "N ")]
    if len(top) == 2:
        levels = chance.randint(62, 66)
        node, tail = ["B -180000000 -90000000 180000000 90000000 2", "L -180000000 -90000000 180000000 90000000 1"], []
        for level in range(levels):
            tail += [node[0], node[1], f"S {level}"]
        lines[top[0] : top[1]] = [f"T {2 * levels + 1}", *tail, node[1], f"S {levels}"]
        lines[0] = "TIGERCERT 2"


CERTIFICATES = [change_a_number, change_a_number, change_a_dart, exchange_two_lines, exchange_neighbours]
CERTIFICATES += [turn_a_list, turn_a_list, join_or_part_lists, join_or_part_lists]
CERTIFICATES += [change_a_rectangle, change_a_rectangle, leave_out_a_certificate_line]
CERTIFICATES += [give_a_certificate_line_twice, change_the_version, spell_otherwise, deepen]


def changed(chance, text):
    """A certificate's text, changed, and by what. One in ten is cut."""
    if chance.random() < 0.1:
        return text[: chance.randrange(len(text))], "cut"
    change = chance.choice(CERTIFICATES)
    lines = text.decode("latin-1").split("\n")[:-1]
    change(chance, lines)
    return "\n".join([*lines, ""]).encode("latin-1"), change.__name__


if __name__ == "__main__":
    drawn = case_of(random.Random(" ".join(sys.argv[1:])))
    sys.stdout.buffer.write(b"".join(drawn.lines))
    print(f"{' '.join(drawn.switches)} {drawn.done}", file=sys.stderr)
