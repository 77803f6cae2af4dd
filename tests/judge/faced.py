#!/usr/bin/env python3
"""Plays worked maps, whose answers were found by hand, and drawn ones over faces.py, which says whether their faces agree,
and over the program with `--faces`.

usage: faced.py [--cases N]

Where faces agree, each place that is on no chain has to lie in the one polygon that is named there, or in none where that is the
outside: so it is proved (`tl_check_faces`), and so it is reckoned here by the counts of a second opinion. `audit --faces` has to answer
what `audit` does, unless the map is sound and its faces disagree: then a fault that is true by its definition, which is looked at
here line by line. `check --faces` by a certificate that `build` made has to agree, and `build --faces` makes that certificate where
faces agree, and none where they don't. `audit --all --faces` has to answer what `audit --all` does, and where no segments meet and sides
agree, behind it each two segments that differ along a line of one height, which are reckoned here height by height; no two of these lines
are equal, places are in lowest terms, and the faults that `audit`, `build` and `check` name are among them.
"""

import math
import random
import re
import re
import sys
import tempfile
from fractions import Fraction
from pathlib import Path

sys.path.append(str(Path(__file__).resolve().parents[1]))
from folders import PROGRAM

import draw
import faces
import judge
import judged
import layout
import placed

CASES = 400

# Two towns apart, each a square, with the outside between them.
TOWNS = [
    "chain 1 0,0 0,0", "shape 1 1 100,0 100,100 0,100", "sides 1 A0001/1 -", "point A0001/1 5,5",
    "chain 2 200,0 200,0", "shape 2 1 300,0 300,100 200,100", "sides 2 A0001/2 -", "point A0001/2 205,5",
]


def street(tlid, start, end, side):
    """A chain off by itself with one side all along it."""
    return [f"chain {tlid} {start} {end}", f"sides {tlid} {side} {side}"]


def island(tlid, corner, within, about):
    """A square of ten by ten with the polygon within it, and what is named about it."""
    x, y = corner
    ring = f"{x + 10},{y} {x + 10},{y + 10} {x},{y + 10}"
    return [f"chain {tlid} {x},{y} {x},{y}", f"shape {tlid} 1 {ring}", f"sides {tlid} {within} {about}", f"point {within} {x + 2},{y + 2}"]


def town_of_two_names(outside):
    """The two towns with another name for what is outside of them."""
    return [line.replace("/1 -", f"/1 {outside}").replace("/2 -", f"/2 {outside}") for line in TOWNS] + ["point A0001/9 150,50"]


# What a map is, its records, and whether its faces agree.
WORKED = [
    ("two towns", TOWNS, True),
    ("a slanted street in its town", TOWNS + street(3, "20,20", "60,70", "A0001/1"), True),
    ("a slanted street that names the other town", TOWNS + street(3, "20,20", "60,70", "A0001/2"), False),
    ("a street to the east in its town", TOWNS + street(3, "20,50", "60,50", "A0001/1"), True),
    ("a street to the east that names the other town", TOWNS + street(3, "20,50", "60,50", "A0001/2"), False),
    ("a street to the west in its town", TOWNS + street(3, "60,50", "20,50", "A0001/1"), True),
    ("a street to the west that names the other town", TOWNS + street(3, "60,50", "20,50", "A0001/2"), False),
    ("a street to the north in its town", TOWNS + street(3, "50,20", "50,70", "A0001/1"), True),
    ("a street to the north that names the other town", TOWNS + street(3, "50,20", "50,70", "A0001/2"), False),
    ("a street in a town that names the outside", TOWNS + street(3, "20,20", "60,70", "-"), False),
    ("a street between the towns that names the outside", TOWNS + street(3, "140,20", "160,70", "-"), True),
    ("a street between the towns that names one of them", TOWNS + street(3, "140,20", "160,70", "A0001/1"), False),
    ("a street east of all that names a town", TOWNS + street(3, "400,20", "410,90", "A0001/2"), False),
    ("a street west of all that names a town", TOWNS + street(3, "-90,20", "-80,90", "A0001/1"), False),
    ("a street far in the north that names a town", TOWNS + street(3, "20,400", "60,410", "A0001/1"), False),
    ("a long street that names the other town, in lines of more than 256 bytes", [
        "chain 9876543210 -179999999,-89999993 -179999999,-89999993", "shape 9876543210 1 -10000019,-79999981 -99999971,89999989",
        "chain 9876543211 10000000,10000000 10000000,10000000", "shape 9876543211 1 20000000,10000000 15000000,20000000",
        "chain 9876543212 -119999989,-59999987 -89999981,49999979", "sides 9876543210 A0001/9876543210 -", "sides 9876543211 A0001/9876543211 -",
        "sides 9876543212 A0001/9876543211 A0001/9876543211", "point A0001/9876543210 -100000000,-70000000", "point A0001/9876543211 15000000,15000000",
    ], False),
    ("two islands that face one another", TOWNS + island(3, (20, 20), "A0001/3", "A0001/1") + island(4, (60, 20), "A0001/4", "A0001/1"), True),
    ("two islands that name the other town", TOWNS + island(3, (20, 20), "A0001/3", "A0001/2") + island(4, (60, 20), "A0001/4", "A0001/2"), False),
    ("two islands of which one names the other town", TOWNS + island(3, (20, 20), "A0001/3", "A0001/1") + island(4, (60, 20), "A0001/4", "A0001/2"), False),
    ("a street in an island", TOWNS + island(3, (20, 20), "A0001/3", "A0001/1") + street(4, "24,24", "26,27", "A0001/3"), True),
    ("a street in an island that names what is about it", TOWNS + island(3, (20, 20), "A0001/3", "A0001/1") + street(4, "24,24", "26,27", "A0001/1"), False),
    ("a piece of the first town in the second", TOWNS + island(3, (220, 20), "A0001/3", "A0001/2"), True),
    ("a piece in the second town that names the first about it", TOWNS + island(3, (220, 20), "A0001/3", "A0001/1"), False),
    ("towns about which the outside has a polygon's name", town_of_two_names("A0001/9"), False),
    ("two triangles that touch in a node", [
        "chain 1 0,0 0,0", "shape 1 1 10,-5 10,5", "sides 1 A0001/1 -", "point A0001/1 5,0",
        "chain 2 0,0 0,0", "shape 2 1 -10,5 -10,-5", "sides 2 A0001/2 -", "point A0001/2 -5,0",
    ], True),
    ("two that touch in a node, of which one names a polygon outside", [
        "chain 1 0,0 0,0", "shape 1 1 10,-5 10,5", "sides 1 A0001/1 -", "point A0001/1 5,0",
        "chain 2 0,0 0,0", "shape 2 1 -10,5 -10,-5", "sides 2 A0001/2 A0001/1", "point A0001/2 -5,0",
    ], False),
    ("a triangle in a town, at a corner of it", TOWNS + ["chain 3 0,0 0,0", "shape 3 1 30,10 10,30", "sides 3 A0001/3 A0001/1", "point A0001/3 12,12"], True),
]  # fmt: skip


def county_of(lines):
    return judge.County([b"".join(layout.line_of(line) for line in lines)])


def complaint_of(county):
    """What the map's faces belie, or None."""
    found = faces.Faces(county.map)
    if found.agree() == bool(odd_gaps(county.map)):
        return "faces agree and differ along a line of one height, or disagree and don't"
    return None if not found.agree() or faces.have_one_polygon(found) else "faces agree, and a place has not the one polygon that is named there"


# Lines of one height run in this direction and in the opposite one.
LEVEL = (2**32, 1)
FACE = r"tlid (\d+) (?:polygon (\S+)|outside) at (-?\d+) (-?\d+) (\d+)"
FAULT = re.compile(rf"map fault G7 FaceDisagree {FACE} (?:{FACE}|outside (west|east))\n")
WAYS = {"east": LEVEL, "west": (-LEVEL[0], -LEVEL[1])}


def cross(a, b):
    return a[0] * b[1] - a[1] * b[0]


def way(a, b):
    return b[0] - a[0], b[1] - a[1]


def ends_of(segment):
    return (segment.start.x, segment.start.y), (segment.end.x, segment.end.y)


def is_within(segment, p):
    """Whether the point is strictly within the segment."""
    a, b = ends_of(segment)
    along = way(a, p)[0] * way(a, b)[0] + way(a, p)[1] * way(a, b)[1]
    return cross(way(a, b), way(a, p)) == 0 and 0 < along < way(a, b)[0] ** 2 + way(a, b)[1] ** 2


def is_met(segment, p, d, most):
    """Whether the segment has a point of the line that leads from p in the direction d, p left out: up to p + d, that left out, or
    with no end."""
    a, b = ends_of(segment)
    turn = cross(d, way(a, b))
    if turn:
        t, u = Fraction(cross(way(p, a), way(a, b)), turn), Fraction(cross(way(p, a), d), turn)
        return 0 < t and (most is None or t < most) and 0 <= u <= 1
    if cross(way(p, a), d):
        return False
    places = [Fraction(way(p, it)[0] * d[0] + way(p, it)[1] * d[1], d[0] ** 2 + d[1] ** 2) for it in (a, b)]
    return 0 < max(places) and (most is None or min(places) < most)


def sides_toward(the_map, tlid, p, d):
    """What the segments of the chain that the point is strictly within name in the direction."""
    found = []
    for it in the_map.segments:
        chain = the_map.chains[it.chain]
        if chain.tlid == tlid and is_within(it, p):
            turn = cross(way(*ends_of(it)), d)
            found += [chain.left] * (turn > 0) + [chain.right] * (turn < 0)
    return found


def shown(side):
    return None if side is None else str(side)


def is_true_fault(the_map, line):
    """Whether the line is that of faces that disagree on the map."""
    told = FAULT.fullmatch(line)
    if not told:
        return False
    parts = told.groups()
    tlid, key, p = int(parts[0]), parts[1], (Fraction(int(parts[2]), int(parts[4])), Fraction(int(parts[3]), int(parts[4])))
    if parts[5] is None:
        d = WAYS[parts[10]]
        return key is not None and key in map(shown, sides_toward(the_map, tlid, p, d)) and not any(is_met(it, p, d, None) for it in the_map.segments)
    other, opposite, q = int(parts[5]), parts[6], (Fraction(int(parts[7]), int(parts[9])), Fraction(int(parts[8]), int(parts[9])))
    d, back = way(p, q), way(q, p)
    return (
        key != opposite
        and key in map(shown, sides_toward(the_map, tlid, p, d))
        and opposite in map(shown, sides_toward(the_map, other, q, back))
        and not any(is_met(it, p, d, 1) for it in the_map.segments)
    )


def height(p):
    """The height of a point: lines of one height run along LEVEL."""
    return cross(LEVEL, p)


def point_at(segment, rise):
    """The segment's point of a height."""
    a, b = ends_of(segment)
    part = Fraction(rise - height(a), height(b) - height(a))
    return a[0] + part * way(a, b)[0], a[1] + part * way(a, b)[1]


def side_toward(the_map, segment, d):
    """What the segment names in the direction, or the outside where there is none."""
    if segment is None:
        return None
    chain = the_map.chains[segment.chain]
    return shown(chain.left if cross(way(*ends_of(segment)), d) > 0 else chain.right)


def odd_gaps(the_map):
    """Each two neighbours along a line of one height that name different sides there, or one and the outside, by their numbers from
    west to east, where the outside has the number -1; with the lowest height that has them and no vertex."""
    segments = the_map.segments
    heights = sorted({height(end) for it in segments for end in ends_of(it)})
    found = {}
    for low, high in zip(heights, heights[1:]):
        rise = low + Fraction(1, 2)
        active = [number for number, it in enumerate(segments) if min(map(height, ends_of(it))) <= low and high <= max(map(height, ends_of(it)))]
        active.sort(key=lambda number: point_at(segments[number], rise)[0])
        row = [-1, *active, -1]
        for west, east in zip(row, row[1:]):
            one, other = (None if it < 0 else segments[it] for it in (west, east))
            if side_toward(the_map, one, LEVEL) != side_toward(the_map, other, (-LEVEL[0], -LEVEL[1])):
                found.setdefault((west, east), rise)
    return found


def faces_of(the_map, gap, rise):
    """What a line tells of such a gap: of each segment the TLID, what it names, and its place; and the way to the outside, if it is
    there."""
    told = []
    for number, way_on in zip(gap, ("east", "west")):
        if number >= 0:
            it = the_map.segments[number]
            told.append((the_map.chains[it.chain].tlid, side_toward(the_map, it, WAYS[way_on]), point_at(it, rise)))
    return told, "west" if gap[0] < 0 else "east" if gap[1] < 0 else None


def is_lowest(x, y, d):
    """Whether a place is written in lowest terms."""
    return int(d) > 0 and math.gcd(int(x), int(y), int(d)) == 1


def faces_told(line):
    """What a line tells of faces that disagree, or None."""
    told = FAULT.fullmatch(line)
    if not told:
        return None
    parts = told.groups()
    faces_in = [parts[:5], parts[5:10]] if parts[5] else [parts[:5]]
    if not all(is_lowest(x, y, d) for _, _, x, y, d in faces_in):
        return None
    return [(int(tlid), key, (Fraction(int(x), int(d)), Fraction(int(y), int(d)))) for tlid, key, x, y, d in faces_in], parts[10]


def is_whole_list(the_map, gaps, others, text):
    """Whether the text tells the other faults, and behind them all faces of the map that disagree at these gaps, each two segments once,
    and how many that is."""
    *lines, last = text.splitlines(keepends=True)
    wanted = [faces_of(the_map, gap, rise) for gap, rise in gaps]
    before, behind = lines[: len(others)], lines[len(others) :]
    told = [faces_told(line) for line in behind] == wanted and len(set(behind)) == len(behind)
    return told and before == others and last == f"faults={len(lines)}\n"


def list_complaint(table, words, county, named):
    """What `audit --all --faces` answers otherwise than it has to, or None; these faults were named. Faces are looked at where no segments
    meet and sides agree."""
    plain = table.ask("audit", "--all", *words)
    answer = table.ask("audit", "--all", "--faces", *words)
    are_looked_at = not (county.faults or county.meets or county.side_faults)
    gaps = sorted(odd_gaps(county.map).items()) if are_looked_at else []
    if not gaps:
        return None if answer == plain else f"audit --all --faces: {answer}, and not {plain}"
    others = plain[1].decode().splitlines(keepends=True)[:-1] if plain[0] else []
    text = answer[1].decode()
    if any(line not in text.splitlines(keepends=True) for line in named):
        return f"audit --all --faces: {answer}, and not {named}"
    if answer[0] != 1 or answer[2] or not is_whole_list(county.map, gaps, others, text):
        return f"audit --all --faces: {answer}, and not {others} and all faces that disagree"
    return shown_complaint(table, words, county, text.splitlines())


def shown_complaint(table, words, county, told):
    """What is wrong with the records behind the faults of a list, the file that is made of them, and the picture, or None."""
    switches, names = [it for it in words if it.startswith("-")], [it for it in words if not it.startswith("-")]
    texts = [(table.folder / name).read_bytes() for name in names]
    faults = placed.Faults(names, texts, "--released" in switches, county.map)
    if not faults.are_clear:
        return None
    wanted = "".join(line + "\n" for line in faults.placed(told)).encode()
    made = table.folder / "faults.geojson"
    made.unlink(missing_ok=True)
    answer = table.ask("audit", "--all", "--where", "--geojson", "faults.geojson", "--faces", *words)
    if answer != (1, wanted, b""):
        return f"audit --all --where --geojson --faces: {answer}, and not {wanted}"
    complaint = placed.wrong_collection(made.read_bytes(), faults.features(told[:-1]))
    if complaint:
        return f"audit --all --geojson --faces: {complaint}"
    (table.folder / "picture.svg").unlink(missing_ok=True)
    answer = table.ask("draw", "--faults", "--faces", "--out", "picture.svg", *words)
    drawn = re.fullmatch(rb"drawn chains=(\d+) faults=(\d+)\n", answer[1])
    least, most = chains_seen(county.map, faults.corners(told[:-1]))
    is_well = drawn and least <= int(drawn[1]) <= most and int(drawn[2]) == len(told) - 1
    return None if is_well and (answer[0], answer[2]) == (0, b"") else f"draw --faults --faces: {answer}, and not {least} to {most} chains"


def chains_seen(the_map, corners):
    """How many chains of the map are seen at least, and at most, in the picture that reaches to these corners of its faults: a chain that
    is much smaller than a third of a pixel along both axes isn't, and one that is much larger is. Near a pole a degree of longitude takes
    no room."""
    xs, ys = zip(*(it for chain in the_map.chains for it in chain.points), *corners)
    south, north = min(ys), max(ys)
    middle = ((south + north) / 2_000_000) ** 2
    cosine = max((32_400 - 4 * middle) / (32_400 + middle), 0.0001)
    pixel = max(cosine * (max(xs) - min(xs)), north - south) / 980

    def size(chain):
        xs, ys = [it.x for it in chain.points], [it.y for it in chain.points]
        return max(cosine * (max(xs) - min(xs)), max(ys) - min(ys)) / pixel

    sizes = [size(it) for it in the_map.chains]
    return sum(it > 0.5 for it in sizes), sum(it > 0.2 for it in sizes)


def answers_complaint(table, text, switches, county):
    """What the program answers otherwise than it has to, or None. Of a map whose faces disagree each answer is a true fault."""
    table.lay("records", text)
    for name in ("plain", "faced"):
        (table.folder / name).unlink(missing_ok=True)
    words = [*switches, "records"]
    plain = table.ask("audit", *words)
    agree = plain[0] != 0 or faces.Faces(county.map).agree()

    def is_well(answer, wanted):
        if agree:
            return answer == wanted
        return answer[0] == 1 and not answer[2] and is_true_fault(county.map, answer[1].decode())

    asked = [("audit", table.ask("audit", "--faces", *words), plain)]
    built = table.ask("build", "--out", "plain", *words)
    asked.append(("build", table.ask("build", "--faces", "--out", "faced", *words), built))
    if plain[0] == 0:
        checked = table.ask("check", "--cert", "plain", *words)
        asked.append(("check", table.ask("check", "--faces", "--cert", "plain", *words), checked))
    for command, answer, wanted in asked:
        if not is_well(answer, wanted):
            return f"{command} --faces: {answer}, where faces {'agree' if agree else 'disagree'}"
    made = [table.folder / name for name in ("plain", "faced")]
    if made[1].exists() != (plain[0] == 0 and agree):
        return "build --faces: a certificate was made and faces disagree, or none was and they agree"
    if made[1].exists() and made[0].read_bytes() != made[1].read_bytes():
        return "build --faces: the certificate isn't that of build"
    named = [] if agree else [answer[1].decode() for _, answer, _ in asked]
    return list_complaint(table, words, county, named)


def play_worked(table):
    well = ill = 0
    for title, lines, agree in WORKED:
        county = county_of(lines)
        found = faces.Faces(county.map)
        complaint = complaint_of(county) or county.faults or county.meets or (found.agree() != agree and "faces were said by hand to do otherwise")
        complaint = complaint or answers_complaint(table, b"".join(map(layout.line_of, lines)), [], county)
        if complaint:
            print(f"faced: {title}: {complaint}")
        well, ill = well + (not complaint), ill + bool(complaint)
    return well, ill


def play_drawn(table, cases):
    """Maps that are drawn: of those whose chains are planar the faces, and of all what the program answers."""
    well = ill = 0
    for number in range(cases):
        case = draw.case_of(random.Random(f"faces {number}"))
        text = b"".join(case.lines)
        county = judge.County([text], "--zero-cells" in case.switches, "--released" in case.switches)
        complaint = None if county.faults or county.meets else complaint_of(county)
        complaint = complaint or answers_complaint(table, text, case.switches, county)
        if complaint:
            print(f"faced: drawn {number}: {complaint}")
        well, ill = well + (not complaint), ill + bool(complaint)
    return well, ill


def play_all(cases=CASES):
    """How many maps are as they have to be, and how many aren't."""
    with tempfile.TemporaryDirectory() as folder:
        table = judged.Table(PROGRAM, Path(folder))
        counts = [play_worked(table), play_drawn(table, cases)]
    return sum(well for well, _ in counts), sum(ill for _, ill in counts)


def main():
    cases = int(sys.argv[2]) if sys.argv[1:2] == ["--cases"] else CASES
    well, ill = play_all(cases)
    print(f"faced: {well} of {well + ill}")
    return ill > 0


if __name__ == "__main__":
    sys.exit(main())
