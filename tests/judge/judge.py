#!/usr/bin/env python3
"""A second opinion on a small county: every fault that is true of it, or that its map is sound.

usage: judge.py audit [--all [--most N]] [--where] [--geojson OUT] [--zero-cells] [--released] [--join] FILES..
       judge.py check --cert CERT [--tests N] [--zero-cells] [--released] [--join] FILES..
       judge.py locate [--released] [--join] @X,Y FILES..
       judge.py show [--released] [--join] FILES..
       judge.py landmarks [--released] FILES..

Written from docs/records.md, docs/sound.md, docs/faults.md and docs/certificate.md alone. It states each definition
as it stands there, in whole numbers and fractions, with no regard to speed: it goes over all pairs of segments and
all darts, and knows nothing of how the program searches. Where the program names one fault, the judge has the set of
all that are true; so judged.py can ask of each answer whether it is one that may be given. What `audit --all`
lists is that set in its order, but for zero-cell ids at odds, of which it lists as few pairs as tell them all.
"""

import re
import sys
from dataclasses import dataclass, field, replace
from fractions import Fraction
from functools import cached_property
from itertools import combinations
from pathlib import Path
from typing import NamedTuple

sys.path.append(str(Path(__file__).resolve().parents[1]))
import folders  # noqa: F401

import certificates
import placed

# ---------------------------------------------------------------------------------------------------------------------
# Lines and fields: docs/records.md.

MOST_LINES = 67_108_864
MOST_LINE_BYTES = 1_024
GREATEST_LONGITUDE = 180_000_000
GREATEST_LATITUDE = 90_000_000


class Point(NamedTuple):
    """A longitude and a latitude in millionths of a degree; of a shared point, fractions."""

    x: int | Fraction
    y: int | Fraction


class Key(NamedTuple):
    """What names a polygon: the five bytes of its CENID, and its POLYID."""

    cenid: bytes
    polyid: int

    def __str__(self):
        return self.cenid.decode("latin-1").replace(" ", "_") + f"/{self.polyid}"


@dataclass(frozen=True)
class Chain:
    """A type 1 record."""

    tlid: int
    start: Point
    end: Point


@dataclass(frozen=True)
class Shape:
    """A type 2 record: its pairs, where None is an unused one."""

    tlid: int
    rtsq: int
    pairs: tuple


@dataclass(frozen=True)
class Sides:
    """A type I record: what lies on each side, where None is the outside; and the zero-cell ids, where None is no
    id."""

    tlid: int
    start_cell: int | None
    end_cell: int | None
    left: Key | None
    right: Key | None


@dataclass(frozen=True)
class Polygon:
    """A type P record."""

    key: Key
    point: Point


@dataclass(frozen=True)
class Landmark:
    """A type 7 record; of an area landmark there is no point."""

    land: int
    point: Point | None


@dataclass(frozen=True)
class Link:
    """A type 8 record."""

    key: Key
    land: int


class Refused(Exception):
    """The line is refused, for this cause."""


class Line:
    """The content of a line, of which fields are taken by their columns."""

    def __init__(self, content):
        self.content = content

    def field(self, first, last):
        """The bytes in these columns, from 1, with blanks past the line's end."""
        return self.content[first - 1 : last].ljust(last - first + 1, b" ")

    def number(self, name, first, last):
        """Digits with blanks round them; None where the field is blank."""
        return whole_number(name, self.field(first, last).strip(b" "))

    def given_number(self, name, first, last):
        return given(name, self.number(name, first, last))

    def coordinate(self, name, first, last, limit):
        """A number that may have a sign directly before its digits, at most so far from 0."""
        word = self.field(first, last).strip(b" ")
        signed = word[:1] in (b"+", b"-")
        # A sign alone has no digit, and isn't blank.
        if signed and len(word) == 1:
            raise Refused(f"L3 BadField {name}")
        value = given(name, whole_number(name, word[signed:]))
        if value > limit:
            raise Refused(f"L4 OutOfRange {name}")
        return -value if word[:1] == b"-" else value

    def point(self, names, column):
        """A longitude in ten columns from this one, and behind it a latitude in nine."""
        return Point(
            self.coordinate(names[0], column, column + 9, GREATEST_LONGITUDE),
            self.coordinate(names[1], column + 10, column + 18, GREATEST_LATITUDE),
        )

    def point_or_none(self, names, column):
        """None where both fields are blank."""
        return None if self.field(column, column + 18).strip(b" ") == b"" else self.point(names, column)

    def pair(self, number):
        """A shape pair, which is unused, None, where it is blank and where both fields read as 0."""
        point = self.point_or_none((f"LONG{number}", f"LAT{number}"), 19 * number)
        return None if point == Point(0, 0) else point

    def key(self, names, column):
        """A CENID in five columns from this one, and behind it a POLYID in ten."""
        cenid = self.field(column, column + 4)
        if any(byte < 0x20 or byte > 0x7E for byte in cenid):
            raise Refused(f"L3 BadField {names[0]}")
        return Key(cenid, self.given_number(names[1], column + 5, column + 14))

    def side(self, letter, column):
        """With a blank POLYID it is the outside, whatever the CENID holds."""
        is_outside = self.field(column + 5, column + 14).strip(b" ") == b""
        return None if is_outside else self.key((f"CENID{letter}", f"POLYID{letter}"), column)

    def zero_cell(self, name, first, last):
        """Blanks are no id, and neither is 0."""
        return self.number(name, first, last) or None


def whole_number(name, word):
    if word and not all(byte in b"0123456789" for byte in word):
        raise Refused(f"L3 BadField {name}")
    return int(word) if word else None


def given(name, value):
    if value is None:
        raise Refused(f"L2 Missing {name}")
    return value


def record_of(line, zero_cells, released):
    """What a line means: a record, or None where it is passed over. The first field that fails is why it is refused."""
    kind = line.content[:1]
    if kind == b"1":
        tlid = line.given_number("TLID", 6, 15)
        return Chain(tlid, line.point(("FRLONG", "FRLAT"), 191), line.point(("TOLONG", "TOLAT"), 210))
    if kind == b"2":
        tlid, rtsq = line.given_number("TLID", 6, 15), line.given_number("RTSQ", 16, 18)
        return Shape(tlid, rtsq, tuple(line.pair(number) for number in range(1, 11)))
    if kind == b"I":
        tlid = line.given_number("TLID", *((11, 20) if released else (6, 15)))
        start = line.zero_cell("TZIDS", 21, 30) if zero_cells else None
        end = line.zero_cell("TZIDE", 31, 40) if zero_cells else None
        return Sides(tlid, start, end, line.side("L", 41), line.side("R", 56))
    if kind == b"P":
        return Polygon(line.key(("CENID", "POLYID"), 11), line.point(("POLYLONG", "POLYLAT"), 26))
    if kind == b"7":
        return Landmark(line.given_number("LAND", 11, 20), line.point_or_none(("LALONG", "LALAT"), 55))
    if kind == b"8":
        return Link(line.key(("CENID", "POLYID"), 11), line.given_number("LAND", 26, 35))
    return None


def raw_lines(texts):
    """The lines of texts that are read as one: a text that isn't empty and leaves its last line open gets a line
    feed."""
    joined = b"".join(text + (b"\n" if text and not text.endswith(b"\n") else b"") for text in texts)
    return joined.split(b"\n")[:-1]


@dataclass
class Records:
    """What is read: the records in their order, how many lines were passed over, and the lines that are refused."""

    all: list = field(default_factory=list)
    skipped: int = 0
    refusals: list = field(default_factory=list)

    @property
    def refusal(self):
        """The first line that is refused, or None."""
        return next(iter(self.refusals), None)

    @cached_property
    def by_kind(self):
        kinds = {}
        for it in self.all:
            kinds.setdefault(type(it), []).append(it)
        return kinds

    def of(self, kind):
        return self.by_kind.get(kind, [])


def is_half(sides):
    """Names one side, and nothing on the other."""
    return (sides.left is None) != (sides.right is None)


def agree(one, other):
    """Two zero-cell ids, of which one may be missing."""
    return one is None or other is None or one == other


def are_two_halves(sides):
    """Two type I records of which one names the left alone, and the other the right alone, and whose zero-cell ids don't differ."""
    if len(sides) != 2 or not all(map(is_half, sides)):
        return False
    one, other = sides
    return (one.left is None) != (other.left is None) and agree(one.start_cell, other.start_cell) and agree(one.end_cell, other.end_cell)


def is_told_twice(chains, shapes, sides):
    """Two counties tell the chain of these records: its ends are told twice, alike; the pairs of each RTSQ are, or there are none; and each
    county names its own polygon, on its side."""
    are_ends = len(chains) == 2 and chains[0] == chains[1]
    return are_ends and all(shapes.count(it) == 2 for it in shapes) and len({it.rtsq for it in shapes}) * 2 == len(shapes) and are_two_halves(sides)


def whole_of(sides):
    """One type I record with what two halves name."""
    one, other = sides
    cells = (one.start_cell or other.start_cell, one.end_cell or other.end_cell)
    return Sides(one.tlid, *cells, one.left or other.left, one.right or other.right)


def joined(all_records):
    """The records where of each chain that two counties tell each record stands once, and its sides are those of both."""
    of_tlid = {}
    for it in all_records:
        if isinstance(it, (Chain, Shape, Sides)):
            of_tlid.setdefault(it.tlid, {Chain: [], Shape: [], Sides: []})[type(it)].append(it)
    twice = {tlid: kinds for tlid, kinds in of_tlid.items() if is_told_twice(kinds[Chain], kinds[Shape], kinds[Sides])}
    left, done = [], set()
    for it in all_records:
        kinds = twice.get(getattr(it, "tlid", None))
        told = whole_of(kinds[Sides]) if kinds and isinstance(it, Sides) else it
        if kinds and told in done:
            continue
        left.append(told)
        done |= {told} if kinds else set()
    return left


def read(texts, zero_cells=False, released=False, join=False):
    """What the lines of the texts mean. Each line is read by itself, whatever stands before it. Where counties are joined, no
    landmarks are read."""
    records = Records()
    for number, raw in enumerate(raw_lines(texts), 1):
        try:
            if number > MOST_LINES:
                raise Refused("L5 TooManyLines")
            if len(raw) > MOST_LINE_BYTES:
                raise Refused("L1 LineTooLong")
            content = raw.removesuffix(b"\r")
            record = None if join and content[:1] in (b"7", b"8") else record_of(Line(content), zero_cells, released)
        except Refused as cause:
            records.refusals.append(f"refused line {number} {cause}")
            continue
        if record is None:
            records.skipped += 1
        else:
            records.all.append(record)
    if join:
        records.all = joined(records.all)
    return records


# ---------------------------------------------------------------------------------------------------------------------
# The chains that records draw, and each M fault that is true: docs/faults.md.

MOST_CHAINS = MOST_POLYGONS = MOST_LANDMARKS = 1_048_576
MOST_SEGMENTS = 16_777_216
# What there can be too much of.
LIMITED = ("chains", "segments", "polygons", "landmarks")


@dataclass(frozen=True)
class RecordFault:
    """An M fault by its code and its name, with those of these that it tells: a TLID, the key of a polygon, a LAND, and
    of what there is too much."""

    code: int
    name: str
    tlid: int | None = None
    key: Key | None = None
    land: int | None = None
    limited: str | None = None

    def __str__(self):
        numbers = (("tlid", self.tlid), ("polygon", self.key), ("land", self.land))
        words = [f"{word} {number}" for word, number in numbers if number is not None]
        return " ".join([f"map fault M{self.code} {self.name}", *words, *([self.limited] if self.limited else [])])

    @property
    def place(self):
        """What faults are ordered by: the code, then TLID, CENID, POLYID and LAND, where what isn't told is 0."""
        key = self.key or Key(bytes(5), 0)
        tlid = LIMITED.index(self.limited) if self.limited else self.tlid or 0
        return self.code, tlid, key.cenid, key.polyid, self.land or 0


def too_many(limited):
    return RecordFault(13, "TooMany", limited=limited)


def shapes_of(records, tlid):
    return [it for it in records.of(Shape) if it.tlid == tlid]


def is_numbered(shapes):
    """Their RTSQ are 1 to their number, each once."""
    return sorted(it.rtsq for it in shapes) == list(range(1, len(shapes) + 1))


def pairs_of(shapes):
    """All pairs by rising RTSQ."""
    return [pair for it in sorted(shapes, key=lambda it: it.rtsq) for pair in it.pairs]


def has_gap(pairs):
    """A used pair comes behind an unused one."""
    return any(pair is None and any(it is not None for it in pairs[place:]) for place, pair in enumerate(pairs))


def points_of(chain, shapes):
    """The start, the used pairs and the end, where of neighbours that are one point one is kept."""
    points = []
    for point in [chain.start, *(it for it in pairs_of(shapes) if it is not None), chain.end]:
        if points[-1:] != [point]:
            points.append(point)
    return points


def chain_faults(records):
    """Each fault that types 1 and 2 have."""
    chains, faults = records.of(Chain), []
    tlids = [it.tlid for it in chains]
    for tlid in sorted({*tlids, *(it.tlid for it in records.of(Shape))}):
        shapes = shapes_of(records, tlid)
        if tlids.count(tlid) >= 2:
            faults.append(RecordFault(1, "DuplicateChain", tlid))
        if tlid not in tlids:
            faults.append(RecordFault(2, "ShapeWithoutChain", tlid))
        if not is_numbered(shapes):
            faults.append(RecordFault(3, "ShapeSequence", tlid))
        elif has_gap(pairs_of(shapes)):
            faults.append(RecordFault(4, "ShapeGap", tlid))
    if not faults and sum(len(points_of(it, shapes_of(records, it.tlid))) - 1 for it in chains) > MOST_SEGMENTS:
        faults.append(too_many("segments"))
    if len(chains) > MOST_CHAINS:
        faults.append(too_many("chains"))
    for chain in chains:
        shapes = shapes_of(records, chain.tlid)
        is_sure = tlids.count(chain.tlid) == 1 and is_numbered(shapes) and not has_gap(pairs_of(shapes))
        if is_sure and len(points_of(chain, shapes)) == 1:
            faults.append(RecordFault(12, "DegenerateChain", chain.tlid))
    return faults


# The types of which a complete county has records, and of which of them that is that a fault of each code misses.
COMPLETE = (("1", Chain), ("I", Sides), ("P", Polygon))
MISSED = {2: "1", 5: "I", 6: "1", 9: "P", 11: "P"}


def join_faults(records):
    """Each fault of types I, P, 7 and 8 beside the others."""
    chains = {it.tlid for it in records.of(Chain)}
    sides = [it.tlid for it in records.of(Sides)]
    keys = [it.key for it in records.of(Polygon)]
    lands = {it.land for it in records.of(Landmark)}
    faults = [RecordFault(5, "ChainWithoutSides", tlid) for tlid in chains - set(sides)]
    faults += [RecordFault(6, "SidesWithoutChain", tlid) for tlid in set(sides) - chains]
    faults += [RecordFault(7, "DuplicateSides", tlid) for tlid in set(sides) if sides.count(tlid) >= 2]
    faults += [RecordFault(8, "DuplicatePolygon", key=key) for key in set(keys) if keys.count(key) >= 2]
    for it in records.of(Sides):
        unknown = {it.left, it.right} - {None, *keys}
        faults += [RecordFault(9, "SideWithoutPolygon", it.tlid, key) for key in unknown]
    for it in records.of(Link):
        faults += [RecordFault(10, "LinkWithoutLandmark", land=it.land)] if it.land not in lands else []
        faults += [RecordFault(11, "LinkWithoutPolygon", key=it.key, land=it.land)] if it.key not in keys else []
    faults += [too_many("polygons")] if len(keys) > MOST_POLYGONS else []
    faults += [too_many("landmarks")] if len(lands) > MOST_LANDMARKS else []
    return faults


# ---------------------------------------------------------------------------------------------------------------------
# The map, its segments, darts and nodes.


@dataclass(frozen=True)
class MapChain:
    """A chain of the map: a side is the key of a polygon, or None for the outside."""

    tlid: int
    points: tuple
    left: Key | None
    right: Key | None
    cells: tuple

    @property
    def ends(self):
        return self.points[0], self.points[-1]


@dataclass(frozen=True)
class Segment:
    """A segment by its numbers: that of its chain, and that of the point of the chain where it starts."""

    chain: int
    place: int
    start: Point
    end: Point

    @cached_property
    def rectangle(self):
        """The least and the greatest longitude and latitude of its ends: west, south, east and north."""
        (one_x, one_y), (other_x, other_y) = self.start, self.end
        return min(one_x, other_x), min(one_y, other_y), max(one_x, other_x), max(one_y, other_y)


@dataclass(frozen=True)
class MapLandmark:
    """A landmark with the polygons that are linked to it, each where it is linked first."""

    land: int
    point: Point | None
    polygons: tuple


@dataclass
class Map:
    """Chains by rising TLID, polygons in the order of their records, landmarks in that of their first records."""

    chains: list
    polygons: list
    landmarks: list

    @cached_property
    def segments(self):
        """All segments in chain order, along each chain."""
        return [
            Segment(number, place, *chain.points[place : place + 2])
            for number, chain in enumerate(self.chains)
            for place in range(len(chain.points) - 1)
        ]

    @cached_property
    def darts(self):
        """All darts: two for each chain."""
        return range(2 * len(self.chains))

    def directed(self, dart):
        """The points of a dart's chain in the order in which the dart runs."""
        points = self.chains[dart // 2].points
        return points if dart % 2 == 0 else points[::-1]

    def start(self, dart):
        return self.directed(dart)[0]

    @cached_property
    def headings(self):
        """Of each dart the step from its first point to its second."""
        return [step(*self.directed(dart)[:2]) for dart in self.darts]

    def left(self, dart):
        chain = self.chains[dart // 2]
        return chain.left if dart % 2 == 0 else chain.right

    def right(self, dart):
        return self.left(reverse(dart))

    def cell(self, dart):
        """The zero-cell id where the dart starts, or None."""
        return self.chains[dart // 2].cells[dart % 2]

    @cached_property
    def starting(self):
        """The darts that start at each node."""
        darts = {}
        for dart in self.darts:
            darts.setdefault(self.start(dart), []).append(dart)
        return darts

    def is_next(self, first, second):
        """Both start at one node, and no dart there heads strictly within the turn from the first to the second."""
        return self.start(first) == self.start(second) and not any(
            is_within(self.headings[first], self.headings[second], self.headings[other])
            for other in self.starting[self.start(first)]
        )

    @cached_property
    def next_pairs(self):
        """All pairs of darts of which the second is next after the first."""
        pairs = {(one, other) for darts in self.starting.values() for one in darts for other in darts}
        return {pair for pair in pairs if self.is_next(*pair)}

    def follows(self, dart, other):
        """The other starts where the dart ends, and the dart's reverse is next after it."""
        return (other, reverse(dart)) in self.next_pairs


def reverse(dart):
    """The other dart of its chain."""
    return dart + 1 if dart % 2 == 0 else dart - 1


def map_of(records):
    """The map of records that have no fault."""
    keys, landmarks = [it.key for it in records.of(Polygon)], {}
    for it in records.of(Landmark):
        landmarks.setdefault(it.land, it)
    sides = {it.tlid: it for it in records.of(Sides)}
    chains = []
    for it in sorted(records.of(Chain), key=lambda it: it.tlid):
        told, points = sides[it.tlid], points_of(it, shapes_of(records, it.tlid))
        chains.append(MapChain(it.tlid, tuple(points), told.left, told.right, (told.start_cell, told.end_cell)))
    linked = []
    for it in landmarks.values():
        named = dict.fromkeys(link.key for link in records.of(Link) if link.land == it.land)
        linked.append(MapLandmark(it.land, it.point, tuple(named)))
    assert len(set(keys)) == len(keys)
    return Map(chains, records.of(Polygon), linked)


# ---------------------------------------------------------------------------------------------------------------------
# Planar: no point on two chains but an end of both, and no chain that meets itself but at its ends.


def cross(one, other):
    """Above 0 where the other step goes to the left of the one."""
    return one.x * other.y - one.y * other.x


def step(start, end):
    return Point(end.x - start.x, end.y - start.y)


def is_on(segment, point):
    """The point, of fractions, lies on the segment, ends included."""
    west, south, east, north = segment.rectangle
    is_straight = cross(step(segment.start, segment.end), step(segment.start, point)) == 0
    return is_straight and west <= point.x <= east and south <= point.y <= north


def shared_points(one, other):
    """The points on both segments: none, one, or of a segment that is on both its two ends."""
    along, beside = step(one.start, one.end), step(other.start, other.end)
    apart, turn = step(one.start, other.start), cross(along, beside)
    if turn == 0:
        ends = {it for it in (one.start, one.end) if is_on(other, it)}
        return ends | {it for it in (other.start, other.end) if is_on(one, it)}
    # Not parallel: their lines share one point, which lies these parts of the way along the two.
    first, second = Fraction(cross(apart, beside), turn), Fraction(cross(apart, along), turn)
    if not (0 <= first <= 1 and 0 <= second <= 1):
        return set()
    return {Point(one.start.x + first * along.x, one.start.y + first * along.y)}


def may_share(the_map, one, other, point):
    """The two segments, of which the first has the lower number, may share the point."""
    points, others = the_map.chains[one.chain].points, the_map.chains[other.chain].points
    if one.chain != other.chain:
        return point in (points[0], points[-1]) and point in (others[0], others[-1])
    is_between = other.place == one.place + 1 and point == points[other.place]
    is_closing = one.place == 0 and other.place == len(points) - 2 and points[0] == points[-1] == point
    return is_between or is_closing


def meeting_point(the_map, one, other):
    """A point that the two segments share and may not, or None. Of a whole segment that is on both, some point always
    is such a one, since only ends and vertices may be shared: its middle, or an end of it."""
    shared = shared_points(one, other)
    if len(shared) == 2:
        start, end = shared
        shared = [Point(Fraction(start.x + end.x, 2), Fraction(start.y + end.y, 2)), start, end]
        assert any(not may_share(the_map, one, other, it) for it in shared)
    return next((it for it in shared if not may_share(the_map, one, other, it)), None)


def meets(the_map):
    """For each two segments that meet where they may not, one of the lines that are true of them."""
    told = []
    for (one_number, one), (number, other) in combinations(enumerate(the_map.segments), 2):
        point = meeting_point(the_map, one, other) if have_meeting_rectangles(one, other) else None
        if point is not None:
            scale = Fraction(point.x).denominator * Fraction(point.y).denominator
            tlids = [the_map.chains[it.chain].tlid for it in (one, other)]
            told.append(
                f"map fault G1 Meet tlid {tlids[0]} segment {one_number} tlid {tlids[1]} segment {number}"
                f" at {point.x * scale} {point.y * scale} {scale}"
            )
    return told


MEET = re.compile(r"map fault G1 Meet tlid (\d+) segment (\d+) tlid (\d+) segment (\d+) at (-?\d+) (-?\d+) ([1-9]\d*)")


def is_true_meet(the_map, line):
    """Whether the line tells two segments, the lower number first, and a point of both that they may not share."""
    told = MEET.fullmatch(line)
    if not told:
        return False
    tlid, number, other_tlid, other_number, x, y, scale = map(int, told.groups())
    if not number < other_number < len(the_map.segments):
        return False
    one, other = the_map.segments[number], the_map.segments[other_number]
    point = Point(Fraction(x, scale), Fraction(y, scale))
    are_named = (the_map.chains[one.chain].tlid, the_map.chains[other.chain].tlid) == (tlid, other_tlid)
    return are_named and is_on(one, point) and is_on(other, point) and not may_share(the_map, one, other, point)


def have_meeting_rectangles(one, other):
    """Two segments whose rectangles have no common point share none either."""
    west, south, east, north = one.rectangle
    other_west, other_south, other_east, other_north = other.rectangle
    return west <= other_east and other_west <= east and south <= other_north and other_south <= north


def pairs_to_test(the_map):
    """How many pairs of segments have rectangles that meet."""
    return sum(have_meeting_rectangles(*pair) for pair in combinations(the_map.segments, 2))


# ---------------------------------------------------------------------------------------------------------------------
# Sides that agree, and closed boundaries.


def is_one_direction(one, other):
    return cross(one, other) == 0 and one.x * other.x + one.y * other.y > 0


def is_within(one, other, between):
    """Between lies strictly within the turn counter-clockwise from one direction to the other. From a direction to
    itself that is the full turn."""
    turn = cross(one, other)
    if turn > 0:
        return cross(one, between) > 0 and cross(between, other) > 0
    if turn < 0:
        return cross(one, between) > 0 or cross(between, other) > 0
    if is_one_direction(one, other):
        return not is_one_direction(one, between)
    return cross(one, between) > 0


def side_faults(the_map):
    """Each two darts of which the second is next after the first and has another side on its right than the first on
    its left."""
    return [
        "map fault G2 Side at {} {} darts {} {}".format(*the_map.start(first), first, second)
        for first, second in sorted(the_map.next_pairs)
        if the_map.left(first) != the_map.right(second)
    ]


def rings_of(the_map):
    """The rings of a planar map: from each dart one goes to that which follows it, until one is back. On a planar map
    one dart alone follows each, since no two head the same way from one node; so these are all rings there are."""
    following = {reverse(second): first for first, second in the_map.next_pairs}
    assert len(following) == len(the_map.next_pairs) == len(the_map.darts)
    rings, left = [], set(the_map.darts)
    while left:
        ring = [min(left)]
        while following[ring[-1]] != ring[0]:
            ring.append(following[ring[-1]])
        left -= set(ring)
        rings.append(ring)
    return rings


def are_closed(the_map, rings):
    """Each side has a boundary: rings in which each dart with that side on its left stands once, and no other dart. A
    ring with two sides on its left would be in no boundary, though each of its darts has to be."""
    return all(len({the_map.left(dart) for dart in ring}) == 1 for ring in rings)


# ---------------------------------------------------------------------------------------------------------------------
# What lies about a point.


def is_crossed(segment, point):
    """The way from the point to the east crosses it: one of its ends is north of the way, the other isn't, and a point
    of it lies on the way, strictly east of where the way begins."""
    start, end = segment.start, segment.end
    if (start.y > point.y) == (end.y > point.y):
        return False
    return start.x + Fraction((point.y - start.y) * (end.x - start.x), end.y - start.y) > point.x


def crossed_sides(the_map, point):
    """Of each segment that is crossed its near side, on which one comes to it, and its far side."""
    sides = []
    for it in the_map.segments:
        if is_crossed(it, point):
            chain = the_map.chains[it.chain]
            sides.append((chain.left, chain.right) if it.start.y < it.end.y else (chain.right, chain.left))
    return sides


def count(crossed, sides):
    """How often the way leaves one of these sides less how often it comes into one."""
    return sum((near in sides) - (far in sides) for near, far in crossed)


def chains_through(the_map, point):
    """The TLIDs of the chains that the point is on, rising."""
    numbers = sorted({it.chain for it in the_map.segments if is_on(it, point)})
    return [the_map.chains[number].tlid for number in numbers]


def touched_polygons(the_map):
    """The polygons that sides at odds name: what is on the left of a dart, or on the right of the next one."""
    pairs = [(the_map.left(first), the_map.right(second)) for first, second in the_map.next_pairs]
    return {side for pair in pairs if pair[0] != pair[1] for side in pair if side is not None}


def point_faults(the_map, left_out=()):
    """Each fault of where the points of polygons lie, but that one lies outside of a polygon that is left out, or in one."""
    faults = []
    for polygon in the_map.polygons:
        crossed = crossed_sides(the_map, polygon.point)
        on = chains_through(the_map, polygon.point)
        faults += [f"map fault G3 PointOnChain polygon {polygon.key} tlid {tlid}" for tlid in on]
        if polygon.key not in left_out and count(crossed, [polygon.key]) != 1:
            faults.append(f"map fault G4 PointOutside polygon {polygon.key}")
        for other in the_map.polygons:
            if other.key != polygon.key and other.key not in left_out and count(crossed, [other.key]) != 0:
                faults.append(f"map fault G5 PointInOther polygon {polygon.key} other {other.key}")
    return faults


def cell_faults(the_map):
    """Each two darts with ids that are equal though the darts start at two points, or differ though they start at
    one."""
    faults = []
    for one, other in combinations([dart for dart in the_map.darts if the_map.cell(dart) is not None], 2):
        ids = the_map.cell(one), the_map.cell(other)
        if (ids[0] == ids[1]) != (the_map.start(one) == the_map.start(other)):
            faults.append(cell_fault(the_map, one, other))
    return faults


def listed_cell_faults(the_map):
    """Those of them that tell all ids at odds by as few pairs as will do, by the first dart and then by the second: of
    each id the first dart that has it with the first at each other point where one starts, and of each point the first
    dart there that has an id with the first there of each other id."""
    with_ids = [dart for dart in the_map.darts if the_map.cell(dart) is not None]

    def first(darts, sort):
        """The first dart of each sort."""
        return {sort(dart): dart for dart in reversed(darts)}

    def both(dart):
        return the_map.cell(dart), the_map.start(dart)

    of_id, at_start = first(with_ids, the_map.cell), first(with_ids, the_map.start)
    pairs = []
    for (cell, start), dart in first(with_ids, both).items():
        pairs += [(of_id[cell], dart)] if the_map.start(of_id[cell]) != start else []
        pairs += [(at_start[start], dart)] if the_map.cell(at_start[start]) != cell else []
    return [cell_fault(the_map, *pair) for pair in sorted(pairs)]


def cell_fault(the_map, one, other):
    return f"map fault G6 Cell darts {one} {other} ids {the_map.cell(one)} {the_map.cell(other)}"


def place_of(the_map, point):
    """The line that `locate` prints of the point."""
    on = chains_through(the_map, point)
    if on:
        return f"on tlid {on[0]}"
    crossed = crossed_sides(the_map, point)
    polygons = [str(it.key) for it in the_map.polygons if count(crossed, [it.key]) != 0]
    lands = [str(it.land) for it in the_map.landmarks if count(crossed, it.polygons) != 0]
    return f"in polygons {listed(polygons)} landmarks {listed(lands)}"


def listed(words):
    return " ".join(words) or "none"


# ---------------------------------------------------------------------------------------------------------------------
# Certificates: docs/certificate.md, and the K faults of docs/faults.md.

GREATEST_DEPTH = 64


@dataclass
class Node:
    """A node of a tree: its rectangle, and its children or the numbers of its segments."""

    rectangle: tuple
    children: list
    items: list

    @property
    def below(self):
        """All segments in it and below it."""
        return self.items + [item for it in self.children for item in it.below]

    @property
    def depth(self):
        return 1 + max((it.depth for it in self.children), default=0)

    @property
    def nodes(self):
        """It and those below it, in preorder."""
        return [self] + [node for it in self.children for node in it.nodes]


@dataclass
class Certificate:
    counts: tuple
    tree: Node | None
    rounds: list
    walks: list


def certificate_of(text):
    """The certificate of a text that is one's: which texts are is told by the plain reader of tests/formats/certificates.py."""
    lines = [line.split(b" ") for line in text.split(b"\n")]
    version, *counts = (int(lines[0][1]), *map(int, lines[1][1:]))
    rest = iter(lines[2:])

    def number():
        return int(next(rest)[1])

    def numbers():
        return [number() for _ in range(number())]

    def node():
        word, *values = next(rest)
        west, south, east, north, *more = map(int, values)
        inner = word == b"B"
        many = more[0] if more else 2
        children = [node() for _ in range(many)] if inner else []
        return Node((west, south, east, north), children, [] if inner else [number() for _ in range(many)])

    tree = node() if number() else None
    return Certificate(tuple(counts), tree, [numbers() for _ in range(number())], [numbers() for _ in range(number())])


def once_faults(listed_numbers, names, many):
    """Each number that there isn't, that stands twice, and that is missing, of so many that each have to stand once."""
    faults = [f"{names[0]} {it}" for it in set(listed_numbers) if it >= many]
    faults += [f"{names[1]} {it}" for it in set(listed_numbers) if listed_numbers.count(it) >= 2]
    return faults + [f"{names[2]} {it}" for it in range(many) if it not in listed_numbers]


def tree_faults(the_map, tree):
    """What is wrong with a tree of the map's segments."""
    nodes, segments = tree.nodes if tree else [], the_map.segments
    faults = once_faults(tree.below if tree else [], ("UnknownIndex", "IndexTwice", "IndexMissing"), len(segments))
    for number, node in enumerate(nodes):
        west, south, east, north = node.rectangle
        within = [segments[it].rectangle for it in node.below if it < len(segments)]
        if not all(west <= it[0] and south <= it[1] and it[2] <= east and it[3] <= north for it in within):
            faults.append(f"RectTooSmall {number}")
    return faults + (["TooDeep"] if tree and tree.depth > GREATEST_DEPTH else [])


EAST = Point(1, 0)
DARTS = ("UnknownDart", "DartTwice", "DartMissing")


def heads_before(one, other):
    """The one direction comes before the other in the turn counter-clockwise from east."""
    return not is_one_direction(EAST, other) and (is_one_direction(EAST, one) or is_within(EAST, other, one))


def round_faults(the_map, rounds):
    """What is wrong with rounds: for each node one, with the darts that start there counter-clockwise from east."""
    faults, many = once_faults(sum(rounds, []), DARTS, len(the_map.darts)), len(the_map.darts)
    starts = [the_map.start(darts[0]) if darts[0] < many else None for darts in rounds]
    for number, darts in enumerate(rounds):
        known = [dart for dart in darts if dart < many]
        if starts[number] is not None and any(the_map.start(dart) != starts[number] for dart in known):
            faults.append(f"StartsElsewhere {number}")
        if starts[number] is not None and starts[number] in starts[:number]:
            faults.append(f"NodeRepeated {number}")
        beside = [pair for pair in zip(darts, darts[1:]) if max(pair) < many]
        if not all(heads_before(the_map.headings[one], the_map.headings[other]) for one, other in beside):
            faults.append(f"OrderNotRising {number}")
    return faults


def walk_faults(the_map, walks):
    """What is wrong with walks: rings in which each dart stands once."""
    faults, many = once_faults(sum(walks, []), DARTS, len(the_map.darts)), len(the_map.darts)

    def is_wrong(dart, other):
        return max(dart, other) < many and not the_map.follows(dart, other)

    for number, darts in enumerate(walks):
        faults += [f"WrongStep {number}"] if any(is_wrong(*pair) for pair in zip(darts, darts[1:])) else []
        faults += [f"NotClosed {number}"] if is_wrong(darts[-1], darts[0]) else []
    return faults


def certificate_faults(the_map, text):
    """Each fault of the certificate that is true beside the map. It is valid where there is none."""
    try:
        certificates.read(text)
    except certificates.Refused as refused:
        return ["certificate fault K1 Text line {}".format(*refused.args)]
    it = certificate_of(text)
    faults = ["K2 Counts"] if it.counts != counts_of(the_map) else []
    faults += [f"K3 Tree {fault}" for fault in tree_faults(the_map, it.tree)]
    faults += [f"K4 Round {fault}" for fault in round_faults(the_map, it.rounds)]
    faults += [f"K5 Walk {fault}" for fault in walk_faults(the_map, it.walks)]
    return [f"certificate fault {fault}" for fault in faults]


# ---------------------------------------------------------------------------------------------------------------------
# What may be answered.

# The status of an answer by its first word; and the statuses that are said on the standard output.
STATUSES = {"map": 1, "certificate": 2, "refused": 3, "stopped": 4}
ON_OUTPUT = (0, 1, 2)


def counts_of(the_map):
    """The numbers of chains, segments, nodes and polygons."""
    return len(the_map.chains), len(the_map.segments), len(the_map.starting), len(the_map.polygons)


def sound_report(the_map):
    """The numbers of a map that has no fault, or None where its boundaries aren't closed, so that it isn't sound."""
    rings = rings_of(the_map)
    if not are_closed(the_map, rings):
        return None
    numbers = "chains={} segments={} nodes={} polygons={}".format(*counts_of(the_map))
    return f"{numbers} landmarks={len(the_map.landmarks)} rings={len(rings)}"


@dataclass
class Opinion:
    """The answers of which each may be given, and no other; and the map, where there is one, in which segments may
    meet."""

    answers: list
    the_map: Map | None = None

    @property
    def status(self):
        """That of the first answer."""
        return status_of(self.answers[0]) if self.answers else 1

    @property
    def outputs(self):
        """The status and the two outputs of each answer."""
        texts = [(status_of(it), it.encode("latin-1") + b"\n") for it in self.answers]
        return [(status, text, b"") if status in ON_OUTPUT else (status, b"", text) for status, text in texts]

    def allows(self, status, out, err):
        """Whether the program's status and its two outputs may be so."""
        text = (out if status in ON_OUTPUT else err).decode("latin-1")
        if (err if status in ON_OUTPUT else out) or not text.endswith("\n"):
            return False
        answer = text[:-1]
        if status != status_of(answer):
            return False
        return answer in self.answers or self.the_map is not None and is_true_meet(self.the_map, answer)


class Printed:
    """What is printed as lines, with its status."""

    @property
    def answers(self):
        return ["\n".join(self.lines)]

    @property
    def outputs(self):
        """All of it is written to the standard output, refused lines too."""
        return [(self.status, it.encode("latin-1") + b"\n", b"") for it in self.answers]

    def allows(self, status, out, err):
        """Whether the program's status and its two outputs may be so."""
        told = out.decode("latin-1").split("\n")
        wanted = [*self.lines, ""]
        are_well = len(told) == len(wanted) and all(map(self.is_as_good, told, wanted))
        return status == self.status and not err and are_well


@dataclass
class Listing(Printed):
    """What `audit --all` prints of a county that has faults, or lines that are refused: all of them in their order, or
    with `most` so many at most; how many polygons sides at odds name; and how many faults there are, unless nothing is
    counted. The line of two segments that meet where they may not may name any point that is true of them."""

    faults: list
    counted: str | None
    most: int | None = None
    touched: int = 0
    the_map: Map | None = None

    @property
    def status(self):
        return status_of(self.faults[0])

    @property
    def lines(self):
        printed = self.faults[: self.most]
        if self.counted is None:
            return printed
        count = f"{self.counted}={len(self.faults)}" + (f" printed={len(printed)}" if self.most is not None else "")
        return [*printed, *([f"touched polygons={self.touched} not looked at"] if self.touched else []), count]

    def is_as_good(self, line, wanted):
        """It is the line that is wanted, or names another point of the same two segments that is as true."""
        if line == wanted or self.the_map is None:
            return line == wanted
        return line.split(" at ")[0] == wanted.split(" at ")[0] and is_true_meet(self.the_map, line)


@dataclass
class Skipping(Printed):
    """What `audit --all --skip-refused` prints of a county that has lines that are refused: these, then the faults of what is left."""

    refused: Listing
    left: Listing

    @property
    def status(self):
        return 3

    @property
    def lines(self):
        return [*self.refused.lines, *self.left.lines, f"refused lines={len(self.refused.faults)} skipped"]

    def is_as_good(self, line, wanted):
        """As of a listing."""
        return self.left.is_as_good(line, wanted)


@dataclass
class Placed:
    """What is printed where the records are asked for that faults speak of: what is printed without them, and behind each
    fault's line theirs."""

    plain: Opinion | Listing
    faults: placed.Faults

    @property
    def status(self):
        return self.plain.status

    def with_records(self, answer):
        return "\n".join(self.faults.placed(answer.split("\n")))

    @property
    def answers(self):
        return [self.with_records(it) for it in self.plain.answers]

    @property
    def outputs(self):
        return [(status, self.with_records(out.decode("latin-1")).encode("latin-1"), err) for status, out, err in self.plain.outputs]

    def allows(self, status, out, err):
        """Whether the program's status and its two outputs may be so: without the lines of records it is what may be printed
        without them, and they are those of the faults."""
        told = out.decode("latin-1")
        alone = "\n".join(line for line in told.split("\n") if not line.startswith("  "))
        return self.plain.allows(status, alone.encode("latin-1"), err) and told == self.with_records(alone)


def status_of(answer):
    return STATUSES.get(answer.split(" ")[0], 0)


class County:
    """The texts of a county's files, and what is asked of them."""

    def __init__(self, texts, zero_cells=False, released=False, join=False, complete=False):
        self.texts, self.released, self.join, self.zero_cells, self.complete = texts, released, join, zero_cells, complete
        self.records = read(texts, zero_cells, released, join)

    @cached_property
    def left(self):
        """The county of what is left where each refused line is emptied."""
        refused = {int(it.split(" ")[2]) for it in self.records.refusals}
        lines = enumerate(raw_lines(self.texts), 1)
        return County([b"".join((b"" if number in refused else it) + b"\n" for number, it in lines)], self.zero_cells, self.released, self.join, self.complete)

    @cached_property
    def lacking(self):
        """The types of which records are asked for and there is none."""
        return [name for name, kind in COMPLETE if not self.records.of(kind)] if self.complete else []

    @property
    def lack(self):
        """The line of that, where there are none of some."""
        return [" ".join(["map fault M14 NoRecords types", *self.lacking])] if self.lacking else []

    @cached_property
    def record_faults(self):
        """Each fault of the records once, by code and then by numbers; where there are none of some type, that in place of the faults
        that miss one of it."""
        faults = {*chain_faults(self.records), *join_faults(self.records)}
        return [str(it) for it in sorted(faults, key=lambda it: it.place) if MISSED.get(it.code) not in self.lacking] + self.lack

    @property
    def faults(self):
        """The first refused line, or that there are no records of some type, or each fault of the records."""
        return [self.records.refusal] if self.records.refusal else self.lack or self.record_faults

    @cached_property
    def map(self):
        return map_of(self.records)

    @cached_property
    def meets(self):
        return meets(self.map)

    @cached_property
    def side_faults(self):
        return side_faults(self.map)

    @cached_property
    def point_faults(self):
        return point_faults(self.map)

    @cached_property
    def map_faults(self):
        """Each fault of the map; of two segments that meet one line, though more points may be true."""
        return self.meets + self.side_faults + self.point_faults + cell_faults(self.map)

    @cached_property
    def report(self):
        """The numbers of a sound map, or None."""
        return None if self.faults or self.map_faults else sound_report(self.map)

    def audit(self, word="sound"):
        if self.faults:
            return Opinion(self.faults)
        return Opinion([f"{word} {self.report}"] if self.report else self.map_faults, self.map)

    def audit_all(self, most=None):
        """All lines that are refused; or all faults of the records; or all of the map, but what is wrong with points by the sides that
        name a polygon which sides at odds name."""
        if self.records.refusals:
            return Listing(self.records.refusals, "refused", most)
        if self.record_faults:
            return Listing(self.record_faults, "faults", most)
        touched = touched_polygons(self.map)
        faults = self.meets + self.side_faults + listed_cell_faults(self.map) + point_faults(self.map, touched)
        return Listing(faults, "faults", most, len(touched), self.map) if faults else self.audit()

    def audit_skipping(self, most=None):
        """The same, but behind lines that are refused the faults of what is left."""
        if not self.records.refusals:
            return self.audit_all(most)
        listing = self.left.audit_all(most)
        left = listing if isinstance(listing, Listing) else Listing([], "faults", most)
        return Skipping(self.audit_all(most), left)

    def audit_first(self):
        """The first line of that list and no count, where more than a fault's line is asked for; a refused line as ever."""
        listing = self.audit_all()
        if self.records.refusals or isinstance(listing, Opinion):
            return self.audit()
        return replace(listing, faults=listing.faults[:1], counted=None, touched=0)

    def drawn_faults(self, names, texts):
        """The faults with the lines of their records in files of these names and texts, and with the map, where there is one; or the
        refused lines with where they stand."""
        return placed.Faults(names, texts, self.released, None if self.faults else self.map, bool(self.records.refusals))

    def left_faults(self, names, texts):
        """The same of what is left without refused lines, and these with where they stand."""
        if not self.records.refusals:
            return self.drawn_faults(names, texts)
        told = placed.Faults(names, texts, self.released, None if self.left.faults else self.left.map, True)
        told.lines = placed.lines_left(names, texts, self.left.texts[0], self.released)
        return told

    def build(self):
        """As `audit`, but for the word; the certificate that is made is looked at by `certificate_faults`."""
        return self.audit("built")

    def check(self, text, tests=None):
        """Sound, where the map is, the certificate is valid and there are no more pairs to be tested than may be; a
        true fault of the map or of the certificate; or that there are more."""
        if self.faults:
            return Opinion(self.faults)
        faults = self.map_faults + certificate_faults(self.map, text)
        if tests is not None and pairs_to_test(self.map) > tests:
            faults.append("stopped Budget")
        return Opinion(faults or ([f"sound {self.report}"] if self.report else []), self.map)

    def locate(self, point):
        return Opinion(self.faults or [place_of(self.map, point)])

    def landmarks(self):
        if self.faults:
            return Opinion(self.faults)
        lines = []
        for it in self.map.landmarks:
            place = f"point {it.point.x},{it.point.y}" if it.point else "area"
            lines.append(f"land {it.land} {place} polygons {listed(map(str, it.polygons))}")
        return Opinion(["\n".join([*lines, f"landmarks={len(lines)}"])])

    def show(self):
        """By types 1 and 2 alone."""
        if self.records.refusal or chain_faults(self.records):
            return Opinion([self.records.refusal] if self.records.refusal else [*map(str, chain_faults(self.records))])
        drawn = [(it.tlid, points_of(it, shapes_of(self.records, it.tlid))) for it in self.records.of(Chain)]
        lines = [" ".join([f"tlid {tlid}", *(f"{it.x},{it.y}" for it in points)]) for tlid, points in sorted(drawn)]
        segments = sum(len(points) - 1 for _, points in drawn)
        lines.append(f"chains={len(drawn)} segments={segments} skipped={self.records.skipped}")
        return Opinion(["\n".join(lines)])


# ---------------------------------------------------------------------------------------------------------------------
# The command.


def point_of(word):
    """The point that a word spells, in whole millionths of a degree or in degrees, or None."""
    found = re.fullmatch(r"@(-?\d+),(-?\d+)|@(-?\d+\.\d{1,6}),(-?\d+\.\d{1,6})", word, re.ASCII)
    if not found:
        return None
    x, y, east, north = found.groups()
    return Point(int(x), int(y)) if x else Point(*(int(Fraction(it) * 10**6) for it in (east, north)))


def asked(words, text_of):
    """The opinion on a command line, where `text_of` gives the bytes of a file; None where it isn't one of the commands
    that the judge knows."""
    command, values, names, switches = words[0] if words else "", {}, [], set()
    rest = [it for word in words[1:] for it in (word.split("=", 1) if word.startswith("--") else [word])]
    while rest:
        word = rest.pop(0)
        if word in ("--cert", "--tests", "--out", "--most", "--geojson") and rest:
            values[word] = rest.pop(0)
        elif word in ("--zero-cells", "--released", "--all", "--where", "--join", "--skip-refused", "--complete"):
            switches.add(word)
        elif word != "--":
            names.append(word)
    point = point_of(names.pop(0)) if command == "locate" and names else None
    if not names or command not in ("audit", "build", "check", "locate", "landmarks", "show"):
        return None
    if (command == "check" and "--cert" not in values) or (command == "locate" and not point):
        return None
    is_all, most = "--all" in switches, values.get("--most")
    is_more = is_all or "--where" in switches or "--geojson" in values
    skips = "--skip-refused" in switches
    if skips and not is_all:
        return None
    if (is_more and command != "audit") or (most is not None and not (is_all and most.isdigit())):
        return None
    texts = [text_of(name) for name in names]
    county = County(texts, "--zero-cells" in switches, "--released" in switches, "--join" in switches, "--complete" in switches)
    if command == "check":
        return county.check(text_of(values["--cert"]), int(values["--tests"]) if "--tests" in values else None)
    if is_more:
        audit = county.audit_skipping if skips else county.audit_all
        told = audit(None if most is None else int(most)) if is_all else county.audit_first()
        faults = county.left_faults if skips else county.drawn_faults
        return Placed(told, faults(names, texts)) if "--where" in switches else told
    return county.locate(point) if point else getattr(county, command)()


if __name__ == "__main__":
    try:
        opinion = asked(sys.argv[1:], lambda name: Path(name).read_bytes())
    except OSError as error:
        sys.exit(f"judge: {error}")
    if opinion is None:
        sys.exit(__doc__)
    for answer in opinion.answers:
        print(answer)
    sys.exit(opinion.status)
