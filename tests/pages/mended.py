#!/usr/bin/env python3
"""Mends a broken county as docs/faults.md says: in each round `audit --all` is asked once, and what its lines name is put right.
Each round has to tell faults of its own step alone, each of a record that is broken, and of each record that is broken at this
step one; the last has to say that the map is sound.

usage: mended.py [PROGRAM]
"""

import re
import subprocess
import sys
import tempfile
from pathlib import Path

sys.path.append(str(Path(__file__).resolve().parents[1]))
from folders import PROGRAM
from layout import line_of

SQUARES, SIDE = 8, 100
OPTIONS = ["--all", "--skip-refused", "--where", "--faces", "--zero-cells"]
# What each round tells.
ROUNDS = [
    ("lines and records", {"L1", "L2", "L3", "L4"} | {f"M{k}" for k in range(1, 13)}),
    ("the map", {"G1", "G2", "G3", "G4", "G5", "G6"}),
    ("what hung on meets and sides", {"touched G4", "G7"}),
]
# The step at which a code is told; that of a polygon that sides at odds name when they don't any more.
STEP = {code: step for step, (_, codes) in enumerate(ROUNDS) for code in codes}


def code_of(broken):
    return broken.split()[-1]


class Line:
    """A line of a file of the county: what it is about, how it is right (None where it should not be there), and how it stands
    (None where it is missing)."""

    def __init__(self, about, right, stands):
        self.about, self.right, self.stands = about, right, stands
        self.broken = None

    def mend(self):
        self.stands, self.broken = self.right, None


def square(column, row):
    inside = 0 <= column < SQUARES and 0 <= row < SQUARES
    return f"A0001/{row * SQUARES + column + 1}" if inside else "-"


def node(column, row):
    return row * (SQUARES + 1) + column + 1


class County:
    """A sound county of squares, with a landmark in each square of the first row, and an island and a street by itself in the last
    one. Level chains have twelve points between their ends, upright chains have none."""

    def __init__(self):
        self.files = {"county.RT1": [], "county.RT2": [], "county.RTI": [], "county.RTP": [], "county.RT7": [], "county.RT8": []}
        self.level, self.upright = {}, {}
        tlid = 0
        for row in range(SQUARES + 1):
            for column in range(SQUARES + 1):
                x, y, here = SIDE * column, SIDE * row, square(column, row)
                if column < SQUARES:
                    tlid += 1
                    self.level[column, row] = tlid
                    between = [f"{x + 4 + 7 * k},{y}" for k in range(12)]
                    self.chain(tlid, f"{x},{y}", f"{x + SIDE},{y}", between, here, square(column, row - 1), node(column, row), node(column + 1, row))
                if row < SQUARES:
                    tlid += 1
                    self.upright[column, row] = tlid
                    self.chain(tlid, f"{x},{y}", f"{x},{y + SIDE}", [], square(column - 1, row), here, node(column, row), node(column, row + 1))
                if here != "-":
                    self.add("RTP", f"polygon {here}", f"point {here} {x + 50},{y + 50}")
        for column in range(SQUARES):
            self.add("RT7", f"land {column + 1}", f"land {column + 1}")
            self.add("RT8", f"land {column + 1}", f"link {square(column, 0)} {column + 1}")
        at = SIDE * (SQUARES - 1)
        corners = [f"{at + x},{at + y}" for x, y in [(90, 80), (90, 90), (80, 90)]]
        last = square(SQUARES - 1, SQUARES - 1)
        self.chain(tlid + 1, f"{at + 80},{at + 80}", f"{at + 80},{at + 80}", corners, "A0002/1", last, 999, 999)
        self.add("RTP", "polygon A0002/1", f"point A0002/1 {at + 85},{at + 85}")
        self.street = tlid + 2
        self.chain(self.street, f"{at + 20},{at + 20}", f"{at + 30},{at + 70}", [], last, last, 997, 996)

    def add(self, file, about, words):
        self.files[f"county.{file}"].append(Line(about, line_of(words), line_of(words)))

    def chain(self, tlid, start, end, between, left, right, first, last):
        self.add("RT1", f"tlid {tlid}", f"chain {tlid} {start} {end}")
        for k in range(0, len(between), 10):
            self.add("RT2", f"tlid {tlid}", f"shape {tlid} {k // 10 + 1} {' '.join(between[k : k + 10])}")
        self.add("RTI", f"tlid {tlid}", f"sides {tlid} {left} {right} TZIDS={first} TZIDE={last}")

    def lines(self):
        return [it for lines in self.files.values() for it in lines]

    def find(self, file, about, number=0):
        return [it for it in self.files[f"county.{file}"] if it.about == about][number]

    def write(self, folder):
        for name, lines in self.files.items():
            Path(folder, name).write_bytes(b"".join(it.stands for it in lines if it.stands is not None))

    def standing(self, name, number):
        """The line that stands at this number of a file."""
        return [it for it in self.files[name] if it.stands is not None][number - 1]

    # How a county is broken: a line that is wrong, missing, there twice, or of nothing that there is.

    def wrong(self, code, line, words):
        line.stands, line.broken = words if isinstance(words, bytes) else line_of(words), code

    def missing(self, code, line):
        line.stands, line.broken = None, code

    def another(self, code, file, about, words):
        line = Line(about, None, line_of(words))
        line.broken = code
        self.files[f"county.{file}"].append(line)

    def twice(self, code, file, line):
        self.another(code, file, line.about, "fill 0 _")
        self.files[f"county.{file}"][-1].stands = line.right

    def level_at(self, column, row):
        return f"tlid {self.level[column, row]}"

    def upright_at(self, column, row):
        return f"tlid {self.upright[column, row]}"


def break_lines(county):
    for column, (code, change) in enumerate(
        [
            ("L1", lambda it: it[:-1] + b" " * 900 + b"\n"),
            ("L2", lambda it: it[:100] + b"\n"),
            ("L3", lambda it: it[:195] + b"x" + it[196:]),
            ("L4", lambda it: it[:190] + b"+181000000" + it[200:]),
        ]
    ):
        for row in (0, 2):
            line = county.find("RT1", county.upright_at(column + 1, row))
            county.wrong(code, line, change(line.right))


def break_records(county):
    for row in (1, 3):
        level = [county.level_at(column, row) for column in range(SQUARES)]
        upright = [county.upright_at(column, row) for column in range(SQUARES)]
        county.twice("M1", "RT1", county.find("RT1", level[0]))
        county.another("M2", "RT2", f"tlid {9000 + row}", f"shape {9000 + row} 1 5,5")
        second = county.find("RT2", level[1], 1)
        county.wrong("M3", second, second.right.replace(b"  2+", b"  3+", 1))
        first = county.find("RT2", level[2])
        county.wrong("M4", first, first.right[:18] + b"+000000000+00000000" + first.right[37:])
        county.missing("M5", county.find("RTI", upright[0]))
        county.missing("M6", county.find("RT1", upright[1]))
        county.twice("M7", "RTI", county.find("RTI", level[3]))
        county.twice("M8", "RTP", county.find("RTP", f"polygon {square(4, row)}"))
        county.wrong("M9", county.find("RTI", upright[2]), f"sides {upright[2][5:]} A0009/1 {square(2, row)}")
        county.wrong("M10", county.find("RT8", f"land {row}"), f"link {square(row - 1, 0)} {90 + row}")
        county.wrong("M11", county.find("RT8", f"land {row + 1}"), f"link A0009/{row} {row + 1}")
        chain = county.find("RT1", upright[4])
        county.wrong("M12", chain, f"chain {upright[4][5:]} {4 * SIDE},{row * SIDE} {4 * SIDE},{row * SIDE}")


def break_map(county):
    for column in (0, 3):
        # A point of a level chain lies north of the next one.
        about = county.level_at(column, 5)
        first = county.find("RT2", about)
        county.wrong("G1", first, first.right[:37] + b"%+010d%+09d" % (SIDE * column + 11, SIDE * 6 + 20) + first.right[56:])
        sides = county.find("RTI", county.upright_at(column + 1, 6))
        county.wrong("G2", sides, sides.right[:40] + sides.right[55:70] + sides.right[40:55] + sides.right[70:])
        sides = county.find("RTI", county.upright_at(column + 2, 4))
        county.wrong("G6", sides, sides.right[:20] + b"       998" + sides.right[30:])
    at = SIDE * 7
    for code, column, x, y in [("G3", 5, SIDE * 5 + 50, at), ("G4", 6, SIDE * 3 + 20, SIDE * 2 + 20), ("G4", 7, -50, -50), ("G5", 4, SIDE + 10, at + 20)]:
        key = square(column, 7)
        county.wrong(code, county.find("RTP", f"polygon {key}"), f"point {key} {x},{y}")
    # Sides at odds name this polygon.
    key = square(3, 6)
    county.wrong("touched G4", county.find("RTP", f"polygon {key}"), f"point {key} -50,-60")
    elsewhere = square(6, 7)
    sides = county.find("RTI", f"tlid {county.street}")
    county.wrong("G7", sides, f"sides {county.street} {elsewhere} {elsewhere} TZIDS=997 TZIDE=996")


def told_in(printed):
    """The faults that are printed: of each its code, what it names, and the files and numbers of its lines."""
    faults = []
    for line in printed.splitlines():
        place = re.match(r"  (\S+) line (\d+)(?:,|$)", line)
        fault = re.match(r"(?:refused line \d+|record fault|map fault) ([LMG]\d+) ", line)
        if place:
            faults[-1][2].append((place[1], int(place[2])))
            faults[-1][1].update(names_in(line))
        elif fault:
            faults.append((fault[1], names_in(line), []))
    return faults


def names_in(line):
    return {f"{'polygon' if kind == 'other' else kind} {name}" for kind, name in re.findall(r"(tlid|polygon|other|land) (\w+(?:/\w+)?)", line)}


def lines_named(county, names, places):
    return {it for it in county.lines() if it.about in names} | {county.standing(*it) for it in places}


def ask(program, folder, county):
    county.write(folder)
    done = subprocess.run([program, "audit", *OPTIONS, *county.files], cwd=folder, capture_output=True, text=True)
    return done.stdout + done.stderr


def wrong_round(county, step, faults):
    """What is wrong with what a round tells."""
    name, codes = ROUNDS[step]
    broken = {it for it in county.lines() if it.broken and STEP[it.broken] == step}
    found = set()
    for code, names, places in faults:
        named = lines_named(county, names, places) & broken
        if code not in map(code_of, codes):
            return f"{name}: {code} is told"
        if not named:
            return f"{name}: {code} of {sorted(names)} names no line that is broken"
        found |= named
    if found != broken:
        return f"{name}: nothing is told of {[it.about for it in broken - found]}"
    lacking = {code_of(it.broken) for it in broken} - {code for code, _, _ in faults}
    return f"{name}: no {sorted(lacking)} is told" if lacking else None


def play_all(program=PROGRAM):
    county = County()
    failed, count = 0, 0
    with tempfile.TemporaryDirectory() as folder:
        printed = ask(program, folder, county)
        if not printed.startswith("sound "):
            print(f"mended.py: the county is not sound as it is drawn: {printed[:200]}")
            return 0, 1
        for what in (break_lines, break_records, break_map):
            what(county)
        for step in range(len(ROUNDS)):
            faults = told_in(ask(program, folder, county))
            wrong = wrong_round(county, step, faults)
            if wrong:
                print(f"mended.py: {wrong}")
            failed, count = failed + bool(wrong), count + len(faults)
            # (the numbers of lines are those of before)
            named = set().union(*(lines_named(county, names, places) for _, names, places in faults))
            for line in named:
                line.mend()
        printed = ask(program, folder, county)
        if not printed.startswith("sound "):
            print(f"mended.py: it is not sound behind the last round: {printed[:200]}")
            failed += 1
    return len(ROUNDS) + 1 - failed, failed


if __name__ == "__main__":
    passed, failed = play_all(*sys.argv[1:2])
    print(f"{passed} passed, {failed} failed")
    sys.exit(failed > 0 or passed == 0)
