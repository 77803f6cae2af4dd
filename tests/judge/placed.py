"""Where the records stand that a fault speaks of, and where it lies: what `audit --where` prints behind a fault's line, and
what `audit --geojson` makes of all of them.

Written from docs/faults.md ("Where a fault lies") and the columns of docs/records.md alone. A fault is taken as its own line
tells it; whether that is true, and which lines come in which order, judge.py says. The lines of files are gone through
once more here, each file by itself; none of them is refused.
"""

import json
from collections import Counter
from dataclasses import dataclass
from fractions import Fraction
from functools import cached_property

from layout import COLUMNS

TOUCHED_CLOSING = '],"touched":%d}'
OPENING = '{"type":"FeatureCollection","name":"tigertopo","features":['
# Of each fault that names chains the types of the records of these that it speaks of.
OF_CHAIN = {
    **{"M1": "1", "M2": "2", "M3": "2", "M4": "2", "M5": "1", "M6": "I", "M7": "I", "M9": "I", "M12": "12"},
    **{"G2": "I", "G3": "12", "G6": "I", "G7": "I"},
}
# The faults that speak of the type P records of the polygons that they name.
OF_POLYGON = ("M8", "G3", "G4", "G5")


@dataclass(frozen=True)
class Line:
    """A record's line: its file and its number there, its type, and what it is of: a TLID, the bytes of a CENID with a
    POLYID, a LAND; of a type P record its point; and of types 1 and 2 the points of the chain that it holds, by what each is called,
    with the RTSQ."""

    file: str
    number: int
    kind: str
    tlid: int | None = None
    polygon: tuple | None = None
    land: int | None = None
    point: tuple | None = None
    rtsq: int = 0
    held: tuple = ()

    @property
    def key(self):
        """The polygon as it is printed."""
        return self.polygon and f"{self.polygon[0].decode('latin-1').replace(' ', '_')}/{self.polygon[1]}"

    @property
    def told(self):
        """The line's place, its type and what it is of."""
        numbers = (("tlid", self.tlid), ("polygon", self.key), ("land", self.land))
        of = " ".join(f"{word} {number}" for word, number in numbers if number is not None)
        return f"  {shown_name(self.file).decode(errors='surrogateescape')} line {self.number}, type {self.kind}, {of}"


def line_of(file, number, raw, released):
    """A line of a file, or None where it holds no record."""
    kind = raw[:1].decode("latin-1")
    columns = COLUMNS["released" if kind == "I" and released else kind] if kind in ("1", "2", "I", "P", "7", "8") else None
    if columns is None:
        return None

    def field(name):
        first, last = columns[name]
        return raw[first - 1 : last].ljust(last - first + 1)

    tlid = int(field("TLID")) if kind in ("1", "2", "I") else None
    polygon = (field("CENID"), int(field("POLYID"))) if kind in ("P", "8") else None
    land = int(field("LAND")) if kind in ("7", "8") else None
    point = (int(field("POLYLONG")), int(field("POLYLAT"))) if kind == "P" else None
    rtsq = int(field("RTSQ")) if kind == "2" else 0
    held = ()
    if kind == "1":
        held = tuple((end, (int(field(f"{side}LONG")), int(field(f"{side}LAT")))) for end, side in (("start", "FR"), ("end", "TO")))
    if kind == "2":
        pairs = [(k, (field(f"LONG{k}").strip(), field(f"LAT{k}").strip())) for k in range(1, 11)]
        held = tuple((k, (int(x), int(y))) for k, (x, y) in pairs if x and y and (int(x), int(y)) != (0, 0))
    return Line(file, number, kind, tlid, polygon, land, point, rtsq, held)


def shown(data):
    """Bytes as they are shown: printable ASCII as it is, but for the backquote and the backslash."""
    return b"".join(bytes([it]) if 32 <= it <= 126 and it not in b"`\\" else b"\\x%02x" % it for it in data)


def shown_name(name):
    """A file's name as it is shown: the bytes of control characters and of the backslash are escaped, and stand on one line."""
    hidden = {*range(0x20), *range(0x7F, 0xA0), ord("\\")}
    told = ((it.encode(errors="surrogateescape"), ord(it) in hidden) for it in name)
    return b"".join(b"".join(b"\\x%02x" % byte for byte in data) if is_hidden else data for data, is_hidden in told)


def columns_of(line, field, released):
    """The columns of the field of a line of this type."""
    kind = line[:1].decode("latin-1")
    return COLUMNS["released" if kind == "I" and released else kind][field]


def found_line(names, texts, number):
    """The name and the text of the file in which line so and so of these texts, read as one, stands, its number there, and the line
    without its end; or None where they have no such line."""
    for name, text in zip(names, texts):
        lines = text.split(b"\n")
        lines = lines[:-1] if not lines[-1] else lines
        if number <= len(lines):
            return name, text, number, lines[number - 1].removesuffix(b"\r")
        number -= len(lines)
    return None


def place_of_line(name, number, line, field, released):
    """The file of a refused line, its number there, and the columns of the field that it is refused for with what it holds there."""
    said = b"  " + shown_name(name) + b" line %d" % number
    if field:
        first, last = columns_of(line, field, released)
        said += b", columns %d to %d: `" % (first, last) + shown(line[first - 1:last]) + b"`"
    return said + b"\n"


def lines_of(names, texts, released=False):
    """The lines of all records, in the order of the files."""
    found = []
    for name, text in zip(names, texts):
        raw = text.split(b"\n")
        raw = raw[:-1] if not raw[-1] else raw
        found += [line_of(name, number, it.removesuffix(b"\r"), released) for number, it in enumerate(raw, 1)]
    return [it for it in found if it is not None]


def lines_left(names, texts, left, released=False):
    """The same of what is left of the files as one text, whose lines these bytes are, without lines that are refused."""
    raw, found = left.split(b"\n"), []
    for name, text in zip(names, texts):
        count = text.count(b"\n") + (not text.endswith(b"\n") and text != b"")
        mine, raw = raw[:count], raw[count:]
        found += [line_of(name, number, it.removesuffix(b"\r"), released) for number, it in enumerate(mine, 1)]
    return [it for it in found if it is not None]


@dataclass(frozen=True)
class Spoken:
    """A record's line as a fault speaks of it: with the ends that it holds of a segment, and the segment's number within its chain."""

    line: Line
    segment: int | None = None
    ends: tuple = ()

    @property
    def told(self):
        """What is printed of it before the place."""
        if self.segment is None:
            return self.line.told
        pairs = [it for it in self.ends if it not in ("start", "end")]
        ends = " and ".join(map(str, self.ends))
        ends = f"pair{'s' * (len(pairs) > 1)} {ends}" if pairs else ends
        return f"{self.line.told}, {ends}, segment {self.segment} of its chain"

    @property
    def made(self):
        """What stands of it in a file of faults."""
        more = {} if self.segment is None else {"segment": self.segment, "ends": list(self.ends)}
        return {"file": self.line.file, "line": self.line.number, "type": self.line.kind, **more}


def tellings_of(lines):
    """The lines of a chain, apart by the county that tells them: of those of one type and RTSQ the first is one county's, and the
    second the other's."""
    told, seen = {}, Counter()
    for it in lines:
        told.setdefault(seen[it.kind, it.rtsq], []).append(it)
        seen[it.kind, it.rtsq] += 1
    return list(told.values())


def in_telling(lines, segment):
    """Of a chain's lines as one county tells it those that hold the ends of this segment, each with the ends that it holds."""
    ends = [(it, *held) for it in lines if it.kind == "1" for held in it.held]
    shapes = sorted((it for it in lines if it.kind == "2"), key=lambda it: it.rtsq)
    points = [ends[0], *[(it, *held) for it in shapes for held in it.held], ends[1]]
    joined = [it for it in zip(points, points[1:]) if it[0][2] != it[1][2]][segment]
    found = list({(it[0].file, it[0].number): it[0] for it in joined}.values())
    return [Spoken(line, segment, tuple(end for at, end, _ in joined if at is line)) for line in found]


def of_segment(lines, tlid, segment):
    """The lines that hold the ends of the chain's segment with this number, counted from 0, with these ends, by each county that tells
    the chain: in the order of the files."""
    tellings = tellings_of(it for it in lines if it.kind in "12" and it.tlid == tlid)
    places = {id(line): place for place, line in enumerate(lines)}
    return sorted((it for told in tellings for it in in_telling(told, segment)), key=lambda it: places[id(it.line)])


def degrees(value, places):
    """A coordinate in millionths of a degree in degrees with so many places, rounded to the nearest, half away from zero."""
    units = (2 * abs(Fraction(value)) * 10 ** (places - 6) + 1) // 2
    whole, part = divmod(units, 10**places)
    return "-" * (value < 0 < units) + f"{whole}.{part:0{places}d}"


class Fault:
    """A fault as its line tells it: its code and its name, the TLIDs, polygons and LANDs that it names, each once, and where
    it lies: a longitude and a latitude in millionths of a degree over a number, or None."""

    def __init__(self, told, lines, the_map):
        self.told = told.removeprefix("map fault ")
        self.code, self.name, *words = self.told.split(" ")
        self.tlids, self.keys, self.lands, self.at = [], [], [], None
        self.lines, self.the_map, self.segments, darts = lines, the_map, [], []
        while words:
            word = words.pop(0)
            if word == "tlid":
                self.tlids.append(int(words.pop(0)))
            elif word in ("polygon", "other"):
                self.keys.append(words.pop(0))
            elif word == "segment":
                self.segments.append((self.tlids[-1], int(words.pop(0))))
            elif word == "land":
                self.lands.append(int(words.pop(0)))
            elif word == "darts":
                darts = [int(words.pop(0)), int(words.pop(0))]
            elif word == "at":
                at = (int(words.pop(0)), int(words.pop(0)), int(words.pop(0)) if self.code in ("G1", "G7") else 1)
                self.at = self.at or at
        self.tlids += [the_map.chains[dart // 2].tlid for dart in darts]
        self.tlids = list(dict.fromkeys(self.tlids))
        if self.code == "G6":
            self.at = (*the_map.start(darts[0]), 1)
        if self.code in ("G3", "G4", "G5"):
            self.at = (*next(it.line.point for it in self.records), 1)

    @cached_property
    def records(self):
        """The lines of the records that it speaks of."""
        if self.code == "G1":
            chains = self.the_map.chains
            before = {it.tlid: sum(len(earlier.points) - 1 for earlier in chains[:place]) for place, it in enumerate(chains)}
            return [it for tlid, number in self.segments for it in of_segment(self.lines, tlid, number - before[tlid])]
        keys = self.keys if self.code in OF_POLYGON else []
        found = [it for key in keys for it in self.lines if it.kind == "P" and it.key == key]
        kinds = OF_CHAIN.get(self.code, "")
        found += [it for tlid in self.tlids for it in self.lines if it.kind in kinds and it.tlid == tlid]
        links = [it for it in self.lines if it.kind == "8" and it.land in self.lands]
        if self.code == "M10":
            found += links
        if self.code == "M11":
            found += [it for it in links if it.key in self.keys]
        return list(map(Spoken, found))

    def place(self, places):
        """Its longitude and its latitude in degrees with so many places."""
        x, y, scale = self.at
        return [degrees(Fraction(it, scale), places) for it in (x, y)]

    @property
    def is_whole(self):
        """Whether it lies at whole millionths of a degree."""
        x, y, scale = self.at
        return x % scale == y % scale == 0

    @property
    def record_lines(self):
        """The lines that stand behind its own."""
        at = ", at " + ",".join(self.place(6 if self.is_whole else 10)) if self.at else ""
        return [it.told + at for it in self.records]

    @property
    def feature(self):
        """What is made of it, where numbers with places are fractions."""
        point = {"type": "Point", "coordinates": list(map(Fraction, self.place(12)))} if self.at else None
        told = {
            "code": self.code,
            "name": self.name,
            "fault": self.told,
            "at": " ".join(map(str, self.at)) if self.at else None,
            "tlids": self.tlids,
            "polygons": self.keys,
            "landmarks": self.lands,
            "records": [it.made for it in self.records],
        }
        return {"type": "Feature", "geometry": point, "properties": told}


class Faults:
    """The faults of a county that its lines tell, with the lines of its files, and its map where there is one; of lines that are
    refused no records are read."""

    def __init__(self, names, texts, released, the_map, are_refused=False):
        self.names, self.texts, self.released = names, texts, released
        self.lines, self.the_map = [] if are_refused else lines_of(names, texts, released), the_map

    @property
    def are_clear(self):
        """No two polygons are printed alike, as a blank and an underscore are: else a fault's line doesn't tell which is
        meant."""
        return len({it.polygon for it in self.lines}) == len({it.key for it in self.lines})

    def placed(self, told):
        """Lines that are printed, and behind each fault's those of the records that it speaks of, behind that of a refused line where
        it stands."""
        for line in told:
            yield line
            if line.startswith("map fault "):
                yield from Fault(line, self.lines, self.the_map).record_lines
            elif line.startswith("refused line "):
                yield self.place_of_refusal(*line.split(" ")[2:])

    def corners(self, told):
        """The whole millionths of a degree to the south-west of each fault that these lines tell."""
        places = [Fault(it, self.lines, self.the_map).at for it in told]
        return [(x // scale, y // scale) for x, y, scale in places]

    def place_of_refusal(self, number, code, cause, field=None):
        """Where a refused line stands, as its own line tells it."""
        name, _, number, line = found_line(self.names, self.texts, int(number))
        return place_of_line(name, number, line, field, self.released).decode("latin-1").removesuffix("\n")

    def refused_features(self, told):
        """The features of the refused lines that these lines tell, each with where it stands."""
        return [self.refused_feature(*it.split(" ")[2:]) for it in told]

    def refused_feature(self, number, code, cause, field=None):
        name, _, own, line = found_line(self.names, self.texts, int(number))
        record = {"file": name, "line": own}
        if field:
            first, last = columns_of(line, field, self.released)
            record |= {"columns": [first, last], "bytes": line[first - 1:last].decode("latin-1")}
        words = " ".join([code, cause, *([field] if field else [])])
        told = {"code": code, "name": cause, "refused": words, "line": int(number), "records": [record]}
        return {"type": "Feature", "geometry": None, "properties": told}

    def features(self, told):
        """The features of the faults that these lines tell, and behind them the chains that they name, by rising TLID."""
        faults = [Fault(it, self.lines, self.the_map) for it in told]
        named = {tlid for it in faults for tlid in it.tlids}
        chains = [it for it in (self.the_map.chains if self.the_map else []) if it.tlid in named]
        return [it.feature for it in faults] + list(map(chain_feature, chains))


def chain_feature(chain):
    """The line of a chain."""
    points = [[Fraction(x, 10**6), Fraction(y, 10**6)] for x, y in chain.points]
    sides = {name: None if side is None else str(side) for name, side in (("left", chain.left), ("right", chain.right))}
    line = {"type": "LineString", "coordinates": points}
    return {"type": "Feature", "geometry": line, "properties": {"tlid": chain.tlid, **sides}}


def features_in(text, touched):
    """The features of a collection, each of which stands on a line of its own; at its end it is said how many polygons sides at
    odds name. A ValueError says that it isn't laid out so."""
    first, *lines = text.split("\n")
    if first != OPENING or lines[-2:] != [TOUCHED_CLOSING % touched if touched else "]}", ""]:
        raise ValueError(f"it begins with {first[:80]} and ends with {lines[-2:]}")
    each = lines[:-2]
    whole = json.loads(text, parse_float=Fraction)
    if set(whole) != {"type", "name", "features"} | ({"touched"} if touched else set()):
        raise ValueError(f"it has {list(whole)}")
    alone = [json.loads(it.removesuffix(","), parse_float=Fraction) for it in each]
    if alone != whole["features"] or any(not it.endswith("},") for it in each[:-1]):
        raise ValueError("a feature doesn't stand on a line of its own")
    return alone


def wrong_collection(made, wanted, touched=0):
    """What is wrong with the bytes of a collection that has to have these features, and to say how many polygons sides at odds name,
    or None."""
    try:
        found = features_in(made.decode(), touched)
    except ValueError as error:
        return f"no such collection: {error}"
    for place, (one, other) in enumerate(zip(found, wanted)):
        if one != other:
            return f"feature {place} is {one}\n  and not {other}"
    return None if len(found) == len(wanted) else f"{len(found)} features, and not {len(wanted)}"
