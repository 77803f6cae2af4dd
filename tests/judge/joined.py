#!/usr/bin/env python3
"""Plays maps that are cut into parts over the built program: the answer in parts has to be the answer of the whole, and both
that of the definitions.

usage: joined.py [--cases N] [--program PROGRAM]

The maps are those of parts.py: drawn, some of them spoilt at random and at the seams, and cut into two to four parts. The
records of each part are a file, as a county's are. Asked are `border` of each part, whose file has to hold the part's border by
judge.py's reading; `audit --join --faces` of these borders; the border of the borders; and `audit`, `audit --all`, `show` and
`locate` with `--join` of all parts. Then a line of one part is spoilt at a seam: another point, other ends, another side, the
same once more, none at all; or a part is given twice. And two counties are drawn whose common border is crossed, with so many pairs
that several records hold them, in files that are laid out in any way: placed.py says the records behind each fault. No expected
value comes from the program.
"""

import argparse
import json
import random
import sys
import tempfile
from collections import Counter
from pathlib import Path

sys.path.append(str(Path(__file__).resolve().parents[1]))
from folders import PROGRAM

import draw
import faces
import judge
import judged
import parts
import placed

CASES = 300


# ---------------------------------------------------------------------------------------------------------------------
# The records of a part.


def sides_of(names, key):
    return {names[0]: key.cenid.decode(), names[1]: key.polyid} if key else {}


def chain_lines(chain):
    """The lines of types 1, 2 and I of a chain."""
    ends = {**draw.pair_of(("FRLONG", "FRLAT"), chain.points[0]), **draw.pair_of(("TOLONG", "TOLAT"), chain.points[-1])}
    lines = [draw.line_of("1", {"TLID": chain.tlid, **ends}, 228)]
    inner = chain.points[1:-1]
    for number in range(-(-len(inner) // 10)):
        values = {"TLID": chain.tlid, "RTSQ": number + 1}
        for place, point in enumerate(inner[10 * number : 10 * number + 10], 1):
            values |= draw.pair_of((f"LONG{place}", f"LAT{place}"), point)
        lines.append(draw.line_of("2", values, 208))
    values = {"TLID": chain.tlid, **sides_of(("CENIDL", "POLYIDL"), chain.left), **sides_of(("CENIDR", "POLYIDR"), chain.right)}
    return [*lines, draw.line_of("I", values, 127)]


def polygon_line(it):
    values = {**sides_of(("CENID", "POLYID"), it.key), **draw.pair_of(("POLYLONG", "POLYLAT"), it.point)}
    return draw.line_of("P", values, 45)


def lines_of(part, chance):
    """All lines of a part, at times in any order. A county has landmarks of its own numbers."""
    lines = [line for chain in part.chains for line in chain_lines(chain)] + [polygon_line(it) for it in part.polygons]
    lines.append(draw.line_of("7", {"LAND": 1}, 74))
    if chance.random() < 0.3:
        chance.shuffle(lines)
    return lines


def has_zero_point(part):
    """Whether a chain runs through (0, 0), which no shape pair can tell."""
    return any((0, 0) in chain.points[1:-1] for chain in part.chains)


def in_order(part, lines):
    """The part with its polygons in the order of their lines."""
    return judge.Map(part.chains, sorted(part.polygons, key=lambda it: lines.index(polygon_line(it))), [])


def is_tellable(part):
    """Whether records can tell the part: no point is beyond the limits of a degree's, and no shape pair is (0, 0)."""
    greatest_x, greatest_y = draw.LIMITS
    points = [point for chain in part.chains for point in chain.points] + [it.point for it in part.polygons]
    return all(abs(x) <= greatest_x and abs(y) <= greatest_y for x, y in points) and not has_zero_point(part)


# ---------------------------------------------------------------------------------------------------------------------
# Lines that are spoilt at a seam.


def seam_lines(texts):
    """The places of lines of types 1, 2 and I whose TLIDs stand in two files."""
    of_tlid = {}
    for number, lines in enumerate(texts):
        for line in lines:
            if line[:1] in (b"1", b"2", b"I"):
                of_tlid.setdefault(line[5:15], set()).add(number)
    return [
        (number, place)
        for number, lines in enumerate(texts)
        for place, line in enumerate(lines)
        if line[:1] in (b"1", b"2", b"I") and len(of_tlid[line[5:15]]) > 1
    ]


def exchange_ends(line):
    return line[:190] + line[209:228] + line[190:209]


def exchange_sides(line):
    return line[:40] + line[55:70] + line[40:55] + line[70:]


def name_both(line):
    """The side that is named is named on both sides."""
    left, right = line[40:55], line[55:70]
    named = left if left.strip() else right
    return line[:40] + named + named + line[70:]


def move_a_pair(line):
    """The last digit of the first pair's latitude is another one."""
    at = 36
    return line[:at] + (b"1" if line[at : at + 1] != b"1" else b"2") + line[at + 1 :]


def spoil(chance, texts):
    """Spoils one line at a seam, or a whole file, and tells how; None where there is no seam."""
    places = seam_lines(texts)
    if not places:
        return None
    number, place = chance.choice(places)
    line = texts[number][place]
    kind = line[:1]
    ways = {b"1": [exchange_ends], b"2": [move_a_pair], b"I": [exchange_sides, name_both]}[kind]
    way = chance.choice([*ways, "twice", "missing", "a file twice"])
    if way == "twice":
        texts[number].append(line)
    elif way == "missing":
        del texts[number][place]
    elif way == "a file twice":
        texts.append(list(texts[number]))
    else:
        texts[number][place] = way(line)
        way = way.__name__
    return way


# ---------------------------------------------------------------------------------------------------------------------
# Counties whose common border is crossed.

# How many pairs the border has, and where it ends.
PAIRS = (0, 1, 5, 9, 10, 11, 12, 25, 30)
SOUTH, NORTH = judge.Point(1000, 1000), judge.Point(1000, 2000)


def between(chance, many):
    """So many points of a border, mostly by rising latitudes; at times it touches itself, and at times a point is told twice."""
    heights = [chance.randrange(1010, 1990) for _ in range(many)]
    points = [judge.Point(chance.randrange(900, 1100), y) for y in (sorted(heights) if chance.random() < 0.8 else heights)]
    if many > 1 and chance.random() < 0.3:
        place = chance.randrange(1, many)
        points[place] = points[place - 1]
    return points


def crossing(chance, tlid, side):
    """A street from the west to the east, or the other way, which has the one polygon on both sides."""
    points = [judge.Point(x, chance.randrange(1000, 2000)) for x in (700, *sorted(chance.sample(range(750, 1250), chance.choice((0, 0, 3, 14)))), 1300)]
    return judge.MapChain(tlid, tuple(points if chance.random() < 0.5 else points[::-1]), side, side, (None, None))


def crossed_counties(chance):
    """The chains and the polygon of each of two counties: a border that both tell, and streets over it, of which at times both tell one."""
    west, east = judge.Key(b"A0001", 1), judge.Key(b"B0002", 1)
    border = (SOUTH, *between(chance, chance.choice(PAIRS)), NORTH)
    streets = [crossing(chance, tlid, west) for tlid in (7, 8)[: chance.choice((1, 1, 2))]]
    is_shared = chance.random() < 0.2
    chains = {}
    for key, x, first in ((west, 500, 1), (east, 1500, 3)):
        outer = (SOUTH, judge.Point(x, 1000), judge.Point(x, 2000), NORTH)
        sides = (None, key) if key == west else (key, None)
        chains[key] = [
            judge.MapChain(first, outer, *sides, (None, None)),
            judge.MapChain(2, border, *sides[::-1], (None, None)),
            *(judge.replace(it, left=it.left if key == west else None, right=key if key == east else None) for it in streets if is_shared),
            *(it for it in streets if not is_shared and key == west),
        ]
    return chains, [judge.Polygon(west, judge.Point(600, 1500)), judge.Polygon(east, judge.Point(1400, 1500))]


def crossed_texts(chance):
    """The lines of files of two such counties, in any order of these: a file a county, six files a county, or all in one."""
    chains, polygons = crossed_counties(chance)
    each = [[*(line for it in chains[point.key] for line in chain_lines(it)), polygon_line(point)] for point in polygons]
    for lines in each:
        if chance.random() < 0.5:
            chance.shuffle(lines)
    way = chance.choice(("a file a county", "six files a county", "one file"))
    if way == "one file":
        together = each[0] + each[1]
        chance.shuffle(together)
        return way, [together]
    files = each if way == "a file a county" else [[it for it in lines if it[:1] == kind] for lines in each for kind in (b"1", b"2", b"I", b"P")]
    if chance.random() < 0.7:
        chance.shuffle(files)
    return way, files


# ---------------------------------------------------------------------------------------------------------------------
# What is played.


class Player:
    def __init__(self, table, seen):
        self.table, self.seen = table, seen

    def lay(self, texts):
        """Lays the files of the parts, and gives their names and bytes."""
        names = [f"part{number}" for number in range(len(texts))]
        held = [b"".join(line + b"\n" for line in lines) for lines in texts]
        for name, text in zip(names, held):
            self.table.lay(name, text)
        return names, held

    def is_allowed(self, opinion, *words):
        """What is wrong with what is answered, or None."""
        answer = self.table.ask(*words)
        return None if opinion.allows(*answer) else f"{' '.join(words)}: {answer}, and not {opinion.status} {opinion.answers[:5]}"

    def border_complaint(self, words, name, made, the_map):
        """What is wrong with the border of the files, whose map it is, or None."""
        (self.table.folder / made).unlink(missing_ok=True)
        answer = self.table.ask("border", "--name", name, "--out", made, *words)
        if not parts.is_sound(the_map):
            self.seen["no border"] += 1
            is_well = answer[0] == 1 and answer[1].startswith(b"map fault G") and not (self.table.folder / made).exists()
            return None if is_well else f"border of a map that isn't sound: {answer}"
        if (answer[0], answer[2]) != (0, b""):
            return f"border of a sound map: {answer}"
        self.seen["a border"] += 1
        return self.text_complaint(answer[1], (self.table.folder / made).read_bytes(), parts.border_of(the_map, 0), name)

    def text_complaint(self, said, text, wanted, name):
        """What is wrong with what is said of a border's text and with the text, or None."""
        county = judge.County([text])
        if county.faults:
            return f"the border has {county.faults}"
        key = judge.Key(name.encode().ljust(5), 1)

        def named(side):
            return side and key

        chains = [(it.tlid, it.points, named(it.left), named(it.right)) for it in wanted.chains]
        if [(it.tlid, it.points, it.left, it.right) for it in county.map.chains] != chains:
            return "the border's chains are others"
        if [(it.key, it.point) for it in county.map.polygons] != [(key, it.point) for it in wanted.polygons]:
            return "the border's polygon is another"
        counted = f"bordered chains={len(chains)} segments={sum(len(it[1]) - 1 for it in chains)}\n".encode()
        return None if said == counted else f"border: {said}, and not {counted}"

    def parts_complaint(self, cut, texts, names):
        """What is wrong with what is answered of the parts and their borders, or None."""
        whole, border = parts.is_sound(cut.whole), parts.is_sound(cut.border)
        each = [parts.is_sound(it) for it in cut.parts.values()]
        made = []
        for (number, part), lines, name in zip(cut.parts.items(), texts, names):
            made.append(f"border{number}")
            complaint = self.border_complaint([name], f"P{number}", made[-1], in_order(part, lines))
            if complaint:
                return complaint
        answer = self.table.ask("audit", "--join", "--faces", *names)
        if (answer[0] == 0) != whole:
            return f"audit --join --faces: {answer}, where the map is {'sound' if whole else 'unsound'}"
        if not all(each):
            return None
        answer = self.table.ask("audit", "--join", "--faces", *made)
        if (answer[0] == 0) != border or (answer[0] == 0) != whole:
            return f"audit --join --faces of borders: {answer}, where the border is {'sound' if border else 'unsound'}"
        self.seen["told by borders"] += whole
        borders = [parts.border_of(in_order(part, lines), number) for (number, part), lines in zip(cut.parts.items(), texts)]
        return self.border_complaint(["--join", *made], "STATE", "state", parts.joined(borders))

    def joined_complaint(self, chance, names, held):
        """What is wrong with what other commands answer of the files together, or None."""
        county = judge.County(held, join=True)
        self.seen["sound" if county.report else "records" if county.faults else "unsound"] += 1
        listed = self.is_allowed(county.audit_all(), "audit", "--all", "--join", *names)
        one = self.is_allowed(county.audit(), "audit", "--join", *names)
        shown = self.is_allowed(county.show(), "show", "--join", *names) if not county.faults else None
        found = None
        if not county.faults:
            point = chance.choice([it.point for it in county.map.polygons] or [judge.Point(0, 0)])
            found = self.is_allowed(county.locate(point), "locate", "--join", f"@{point.x},{point.y}", *names)
        plain = self.is_allowed(judge.County(held).audit(), "audit", *names)
        return listed or one or shown or found or plain

    def crossed_complaint(self, number):
        """What is wrong with the records that are told of counties whose common border is crossed, or None."""
        chance = random.Random(f"crossed {number}")
        way, texts = crossed_texts(chance)
        names, held = self.lay(texts)
        county = judge.County(held, join=True)

        def wrong(opinion, *words):
            complaint = self.is_allowed(opinion, *words)
            return [f"{complaint}\n  the program: {self.table.printed.decode()}"] if complaint else []

        complaints = wrong(county.audit_all(), "audit", "--all", "--join", *names)
        listed = [it for it in self.table.printed.decode().split("\n") if it.startswith("map fault ")]
        faults = county.drawn_faults(names, held)
        complaints += judged.placed_complaints(self.table, chance, county, faults, listed, wrong, ["--join", *names])
        told = [placed.Fault(it, faults.lines, faults.the_map) for it in listed]
        self.seen[f"crossed, {way}"] += 1
        self.seen["crossed segments"] += sum(it.code == "G1" for it in told)
        return complaints[0] if complaints else self.objects_complaint(told, names)

    def objects_complaint(self, faults, names):
        """What is wrong with the records of these faults as objects, or None."""
        answer = self.table.ask("audit", "--all", "--json", "--join", *names)
        *objects, _ = map(json.loads, answer[1].splitlines())
        made = [(it["fault"], it["records"]) for it in objects]
        wanted = [(it.told, [record.made for record in it.records]) for it in faults]
        return None if made == wanted else f"audit --all --json: {made}, and not {wanted}"

    def complaint_of(self, number):
        """What is wrong with a drawn map that is cut, or None; none where it can't be cut."""
        chance = random.Random(f"joined {number}")
        cut = parts.cut_of(chance)
        if cut is None or not all(map(is_tellable, cut.parts.values())):
            return None
        texts = [lines_of(part, chance) for part in cut.parts.values()]
        names, held = self.lay(texts)
        complaint = self.parts_complaint(cut, texts, names) or self.joined_complaint(chance, names, held)
        way = spoil(chance, texts)
        if complaint or way is None:
            return complaint
        self.seen[way] += 1
        complaint = self.joined_complaint(chance, *self.lay(texts))
        return complaint and f"{way}: {complaint}"


def play(cases, program, seen):
    well = ill = 0
    with tempfile.TemporaryDirectory() as folder:
        player = Player(judged.Table(program, Path(folder)), seen)
        for number in range(cases):
            for sort, play_one in (("drawn", player.complaint_of), ("crossed", player.crossed_complaint)):
                complaint = play_one(number)
                if complaint:
                    print(f"joined: {sort} {number}: {complaint}")
                well, ill = well + (not complaint), ill + bool(complaint)
    return well, ill


def play_all(program=PROGRAM, cases=CASES):
    """How many maps are told in parts as they have to be, and how many aren't. Each sort of answer has to be among them."""
    seen = Counter()
    well, ill = play(cases, program, seen)
    return well, ill + (len(seen) < 16)


def main():
    parser = argparse.ArgumentParser()
    parser.add_argument("--cases", type=int, default=CASES)
    parser.add_argument("--program", type=Path, default=PROGRAM)
    words = parser.parse_args()
    seen = Counter()
    well, ill = play(words.cases, words.program, seen)
    for sort, many in sorted(seen.items()):
        print(f"{sort}: {many}")
    print(f"joined: {well} of {well + ill}")
    return ill > 0


if __name__ == "__main__":
    sys.exit(main())
