#!/usr/bin/env python3
"""Asks the built program for each answer once at full size: as many chains as the limit allows, and each fault and
refusal behind them; for the lines of 200 files; and for trees at the limit of depth.

usage: full_size.py [--measure] [PROGRAM]

With `--measure` it says of each answer how long the program took and in how much memory at most, by GNU time. All
of it took 314 seconds so, on four cores that others used too; the longest answer took 18 seconds, and none more than 298 MB.

What is wanted is known to whoever makes the files: the chains' lines are made beside their records.
"""

import hashlib
import random
import subprocess
import sys
import tempfile
from pathlib import Path

sys.path.append(str(Path(__file__).resolve().parents[1]))
from folders import PROGRAM

import full_lists
import hints
import placed
from certificate import tree_of
from grids import KEY, POINT, SIDE, grid, report_of
from layout import line_of
from rows import ROWS, play, rows_of

CHAIN_LIMIT = 1_048_576
POLYGON_LIMIT = 1_048_576
LANDMARK_LIMIT = 1_048_576
SEGMENT_LIMIT = 16_777_216
LINE_LIMIT = 67_108_864
# How many bytes a picture may have.
PICTURE_LIMIT = 24 * 1_048_576
# Rows of tests/rows/check.rows: a tree of depth 64, and one of depth 65.
TREES = ["a tree as deep as may be", "a tree that is too deep"]


def chain(tlid, start, end):
    """A type 1 line and the line that `show` prints for it."""
    (x, y), (to_x, to_y) = start, end
    line = f"10000{tlid:>10}{'':175}{x:+010d}{y:+09d}{to_x:+010d}{to_y:+09d}\r\n"
    return line, f"tlid {tlid} {x},{y} {to_x},{to_y}\n"


def county(count, seed):
    """The records of so many chains in random order, and the lines that `show` prints for them."""
    chance = random.Random(seed)
    tlids = sorted(chance.sample(range(1, 9_000_000_000), count))
    at = lambda: (chance.randint(-180_000_000, 179_999_999), chance.randint(-90_000_000, 90_000_000))
    both = []
    for tlid in tlids:
        x, y = at()
        both.append(chain(tlid, (x, y), (x + 1, y)))
    shown = "".join(it[1] for it in both)
    chance.shuffle(both)
    return "".join(it[0] for it in both), shown, tlids


def long_chains(count, segments):
    """The records of so many chains of so many segments each, along parallels, with nothing on either side."""
    tlid, latitude = 7_777_777_777, 55_555_555
    points = [f"{x},{latitude}" for x in range(segments + 1)]
    between = points[1:-1]
    records = [f"chain {tlid} {points[0]} {points[-1]}", f"sides {tlid} - -"]
    for k in range(0, len(between), 10):
        records.append(f"shape {tlid} {k // 10 + 1} " + " ".join(between[k : k + 10]))
    one = b"".join(map(line_of, records))
    numbered = lambda k: one.replace(b"%10d" % tlid, b"%10d" % k).replace(b"%+09d" % latitude, b"%+09d" % k)
    return b"".join(map(numbered, range(1, count + 1)))


class Plays:
    def __init__(self, program, folder, measures):
        self.program, self.folder, self.measures, self.passed, self.failed = program, folder, measures, 0, 0

    def file(self, name, text):
        Path(self.folder, name).write_bytes(text if isinstance(text, bytes) else text.encode())
        return name

    def play(self, title, names, status, out="", err="", command="show"):
        time = Path(self.folder, "time")
        measured = ["/usr/bin/time", "--format=%e %M", "--quiet", f"--output={time}"] if self.measures else []
        done = subprocess.run([*measured, self.program, command, *names], cwd=self.folder, capture_output=True)
        if self.measures:
            seconds, kilobytes = time.read_text().split()
            print(f"{title}: {float(seconds):.1f} s, {int(kilobytes) // 1024} MB", flush=True)
        digest = lambda text: (len(text), hashlib.sha256(text).hexdigest())
        wanted = (status, digest(out.encode()), err.encode())
        told = hints.without(done.stderr, [command, *names], self.folder)
        well = (done.returncode, digest(done.stdout), told) == wanted
        self.count(well, f"{title}: status {done.returncode}, {done.stdout[-200:]} {done.stderr[-200:]}")

    def ends(self, title, words, status, lines, tail, command="audit"):
        """What `audit` prints, line by line: these lines, or so many where their number is given, or any where there is `None`; and then the
        tail."""
        done = subprocess.run([self.program, command, *words], cwd=self.folder, capture_output=True)
        told = done.stdout.decode()
        body = told.removesuffix(tail)
        if isinstance(lines, int):
            well = body.count("\n") == lines
        else:
            well = lines is None or body == "".join(f"{it}\n" for it in lines)
        well = well and told.endswith(tail) and done.returncode == status and not hints.without(done.stderr, [command, *words], self.folder)
        self.count(well, f"{title}: status {done.returncode}, {told[:200]} .. {told[-200:]} {done.stderr[-200:]}")

    def count(self, well, wrong):
        self.passed, self.failed = self.passed + well, self.failed + (not well)
        if not well:
            print(wrong)

    def decide(self, title, name, status, numbers, fault=""):
        """What `audit` and `build` answer to the records: the numbers of a sound map, which `check` answers to what is built,
        or a fault, and no file is made. Its faces agree, where it has no other fault."""
        made = Path(self.folder, "made")
        answer = lambda word: fault or f"{word} {numbers}\n"
        self.play(f"{title}, by audit", [name], status, answer("sound"), command="audit")
        self.play(f"{title}, with faces", ["--faces", name], status, answer("sound"), command="audit")
        self.play(f"{title}, by build", ["--out", made.name, name], status, answer("built"), command="build")
        if fault:
            self.count(not made.exists(), f"{title}: a file was made")
        else:
            self.play(f"{title}, as built", ["--cert", made.name, name], status, answer("sound"), command="check")
            self.play(f"{title}, as built, with faces", ["--cert", made.name, "--faces", name], status, answer("sound"), command="check")
            made.unlink(missing_ok=True)


def play_all(program=PROGRAM, measures=False):
    with tempfile.TemporaryDirectory() as folder:
        plays = Plays(program, folder, measures)
        many = [chain(k, (k, -k), (k + 1, -k)) for k in range(1, 201)]
        names = [plays.file(f"file {k}", line.rstrip()) for k, (line, _) in enumerate(many)]
        counts = lambda chains: f"chains={chains} segments={chains} skipped=0\n"
        plays.play("200 files", names, 0, "".join(it[1] for it in many) + counts(200))

        empty = plays.file("empty", b"\n" * LINE_LIMIT)
        plays.play("the most lines", [empty], 0, f"chains=0 segments=0 skipped={LINE_LIMIT}\n")
        one = plays.file("one", b"\n")
        plays.play("one line more", [empty, one], 3, err=f"refused line {LINE_LIMIT + 1} L5 TooManyLines\n")

        text, shown, tlids = county(CHAIN_LIMIT - 1, 1)
        county_file = plays.file("county", text)
        lines = CHAIN_LIMIT - 1
        last = chain(9_999_999_999, (1, 1), (2, 2))
        end = plays.file("end", last[0])
        plays.play("the most chains", [county_file, end], 0, shown + last[1] + counts(CHAIN_LIMIT))
        new, old = 9_999_999_998, tlids[len(tlids) // 2]
        behind = {
            f"M1 DuplicateChain tlid {old}": [f"chain {old} 1,1 2,2"],
            f"M2 ShapeWithoutChain tlid {new}": [f"shape {new} 1 1,1"],
            f"M3 ShapeSequence tlid {old}": [f"shape {old} 2 1,1"],
            f"M4 ShapeGap tlid {old}": [f"shape {old} 1 1,1 - 2,2"],
            f"M12 DegenerateChain tlid {new}": [f"chain {new} 1,1 1,1"],
            "M13 TooMany chains": [f"chain {new} 1,1 2,2", f"chain {new + 1} 1,1 2,2"],
        }
        for fault, records in behind.items():
            more = plays.file("more", b"".join(map(line_of, records)))
            plays.play(fault, [county_file, more], 1, f"map fault {fault}\n")
        late = plays.file("late", line_of("chain 1 1,1 2,90000001"))
        refusal = f"refused line {lines + 1} L4 OutOfRange TOLAT\n"
        plays.play("a late refusal", [county_file, late], 3, "", refusal)
        play_maps(plays, county_file, tlids)
    return plays.passed, plays.failed


def play_decisions(program=PROGRAM, measures=False):
    """What is decided and where points lie, by itself: it takes as long as the rest, and the gate plays it beside that."""
    with tempfile.TemporaryDirectory() as folder:
        plays = Plays(program, folder, measures)
        play_checks(plays)
        play_path(plays)
        play_squares(plays)
        play_faces(plays)
        play_places(plays)
        play_trees(plays)
    return plays.passed, plays.failed


def play_lists(program=PROGRAM, measures=False):
    """The lists of all faults by themselves, which the gate plays beside the rest too."""
    with tempfile.TemporaryDirectory() as folder:
        plays = Plays(program, folder, measures)
        full_lists.play_all(plays)
    return plays.passed, plays.failed


def single_streets(count):
    """So many streets of one segment that touch no other, each of two millionths, and the rectangles of their segments."""
    rects = [(3 * (k % 1_000), 2 * (k // 1_000), 3 * (k % 1_000) + 2, 2 * (k // 1_000)) for k in range(count)]
    numbered = lambda k, rect: chain(k + 1, rect[:2], rect[2:])[0].encode() + line_of("sides 7 - -").replace(b"%10d" % 7, b"%10d" % (k + 1))
    return [numbered(k, rect) for k, rect in enumerate(rects)], rects


def certificate_of_streets(rects, walks):
    """The lines of a certificate of such streets, up to the tree, and those behind it, with so many walks."""
    tree, count = [], len(rects)
    _, nodes = tree_of(rects, range(count), tree)
    head = ["TIGERCERT 2", f"C {count} {count} {2 * count} 0", f"T {nodes}", *tree]
    tail = [f"N {2 * count}"] + [f"R 1\nD {d}" for d in range(2 * count)]
    tail += [f"W {walks}"] + [f"K 2\nD {2 * c}\nD {2 * c + 1}" for c in range(walks)] + ["END"]
    return [("\n".join(lines) + "\n").encode() for lines in (head, tail)]


def play_checks(plays):
    """Answers of `check`, `audit` and `build` with as many chains as the limit allows."""
    lines, rects = single_streets(CHAIN_LIMIT)
    checked = lambda title, names, status, out="", err="": plays.play(title, ["--cert", *names], status, out, err, command="check")
    streets = plays.file("streets", b"".join(lines))
    head, tail = certificate_of_streets(rects, CHAIN_LIMIT)
    numbers = f"chains={CHAIN_LIMIT} segments={CHAIN_LIMIT} nodes={2 * CHAIN_LIMIT} polygons=0 landmarks=0 rings={CHAIN_LIMIT}"
    checked("the most chains, sound", [plays.file("cert", head + tail), streets], 0, f"sound {numbers}\n")
    plays.decide("the most chains", streets, 0, numbers)
    # Without its last line, the line that begins there is the one that no certificate has.
    cut = (head + tail).removesuffix(b"END\n")
    fault = f"certificate fault K1 Text line {cut.count(bytes([10])) + 1}\n"
    checked("a certificate without its end", [plays.file("cut", cut), streets], 2, fault)

    # The last street starts in the middle of the one before it.
    x, y = rects[-2][0] + 1, rects[-2][1]
    rects[-1] = (x, y, x, y + 1)
    last = chain(CHAIN_LIMIT, (x, y), (x, y + 1))[0].encode() + lines[-1].split(b"\n", 1)[1]
    touched = plays.file("touched", b"".join(lines[:-1]) + last)
    head, _ = certificate_of_streets(rects, 0)
    meet = f"tlid {CHAIN_LIMIT - 1} segment {CHAIN_LIMIT - 2} tlid {CHAIN_LIMIT} segment {CHAIN_LIMIT - 1} at {x} {y} 1"
    checked("two streets that meet", [plays.file("tree", head), touched], 1, f"map fault G1 Meet {meet}\n")
    plays.decide("two streets that meet", touched, 1, "", f"map fault G1 Meet {meet}\n")
    # Each street has two lines.
    at = ",".join(placed.degrees(it, 6) for it in (x, y))
    lines = [f"  {touched} line {2 * k - 1}, type 1, tlid {k}, start and end, segment 0 of its chain, at {at}\n" for k in (CHAIN_LIMIT - 1, CHAIN_LIMIT)]
    told = f"map fault G1 Meet {meet}\n{''.join(lines)}"
    plays.play("two streets that meet, and where", ["--where", touched], 1, told, command="audit")
    plays.play("two streets that meet, and where, by a list", ["--all", "--where", touched], 1, f"{told}faults=1\n", command="audit")


def path_of(count):
    """The records of so many chains along a parallel, each from the end of the one before, and a certificate of their map,
    whose one ring runs east and back."""
    records = "".join(chain(k + 1, (k, 0), (k + 1, 0))[0] for k in range(count))
    side = line_of("sides 7777777777 - -").decode()
    records += "".join(side.replace("7777777777", f"{k + 1:10}") for k in range(count))
    tree = []
    _, nodes = tree_of([(k, 0, k + 1, 0) for k in range(count)], range(count), tree)
    between = [f"R 2\nD {2 * k}\nD {2 * k - 1}" for k in range(1, count)]
    ring = [*range(0, 2 * count, 2), *range(2 * count - 1, 0, -2)]
    lines = ["TIGERCERT 2", f"C {count} {count} {count + 1} 0", f"T {nodes}", *tree, f"N {count + 1}", "R 1\nD 0", *between]
    lines += [f"R 1\nD {2 * count - 1}", "W 1", f"K {2 * count}", *(f"D {dart}" for dart in ring), "END"]
    return records, ("\n".join(lines) + "\n").encode()


def play_path(plays):
    """Answers with as many chains as the limit allows, of which each two neighbours meet, and no others."""
    records, certificate = path_of(CHAIN_LIMIT)
    path, cert = plays.file("path", records), plays.file("cert", certificate)
    checked = lambda title, words, status, out="", err="": plays.play(title, words, status, out, err, command="check")
    pairs, node, darts = CHAIN_LIMIT - 1, CHAIN_LIMIT // 2, b"D %d\nD %d\n"
    numbers = f"chains={CHAIN_LIMIT} segments={CHAIN_LIMIT} nodes={CHAIN_LIMIT + 1} polygons=0 landmarks=0 rings=1"
    checked("as many tests as pairs", ["--cert", cert, "--tests", str(pairs), path], 0, f"sound {numbers}\n")
    plays.decide("a path of the most chains", path, 0, numbers)
    checked("one test less", ["--cert", cert, "--tests", str(pairs - 1), path], 4, err="stopped Budget\n")
    falling = certificate.replace(darts % (2 * node, 2 * node - 1), darts % (2 * node - 1, 2 * node), 1)
    fault = f"certificate fault K4 Round OrderNotRising {node}\n"
    checked("a round that falls", ["--cert", plays.file("falling", falling), path], 2, fault)


def play_squares(plays):
    """Answers to as many squares as fit the limit of chains: each of the most polygons that share their chains has its point."""
    across = next(k for k in range(1, CHAIN_LIMIT) if 2 * (k + 1) * (k + 2) > CHAIN_LIMIT)
    text = grid(across)
    squares, made = plays.file("squares", text), Path(plays.folder, "made")
    plays.decide("the most squares", squares, 0, report_of(across))
    exported = f"exported chains={2 * across * (across + 1)} polygons={across**2} rings={across**2}\n"
    plays.play("the most squares, exported", ["--geojson", made.name, squares], 0, exported, command="export")
    made.unlink(missing_ok=True)
    # Each side of a square is longer than a third of a pixel, so all are drawn.
    plays.play("the most squares, drawn", ["--out", made.name, squares], 0, f"drawn chains={2 * across * (across + 1)}\n", command="draw")
    plays.count(made.exists() and made.stat().st_size < PICTURE_LIMIT, "a picture of the most squares is too large")
    made.unlink(missing_ok=True)
    # The last square's point lies west of all squares.
    last, y = KEY % across**2, SIDE * across - SIDE // 2
    strayed = text.replace(POINT % (last, y, y), POINT % (last, -1, y))
    fault = f"map fault G4 PointOutside polygon A0001/{across**2}\n"
    plays.play("a point west of the most squares", [plays.file("strayed", strayed)], 1, fault, command="audit")
    number = text[: text.index(POINT % (last, y, y))].count(b"\n") + 1
    where = f"  strayed line {number}, type P, polygon A0001/{across**2}, at {placed.degrees(-1, 6)},{placed.degrees(y, 6)}\n"
    plays.play("a point west of the most squares, and where", ["--where", "strayed"], 1, fault + where, command="audit")
    plays.play("a point west of the most squares, as a file", ["--all", "--geojson", made.name, "strayed"], 1, f"{fault}faults=1\n", command="audit")
    lines = placed.lines_of(["strayed"], [strayed])
    wanted = [placed.Fault(fault.rstrip(), lines, None).feature]
    wrong = placed.wrong_collection(made.read_bytes() if made.exists() else b"", wanted)
    plays.count(not wrong, f"a point west of the most squares, as a file: {wrong}")
    made.unlink(missing_ok=True)


def play_faces(plays):
    """Answers to a town, and north of it as many streets as the limit of chains leaves room for, each of which names the town on both
    sides. No line of one height meets two of these: each faces the outside to the west and to the east, from the place midway above
    the height of its eastern end."""
    streets, rects = single_streets(CHAIN_LIMIT - 1)
    named = line_of("sides 7 A0001/1 A0001/1").replace(b"%10d" % 7, b"%10s")
    of_street = lambda k, rect: chain(k + 2, rect[:2], rect[2:])[0].encode() + named % (b"%d" % (k + 2))
    town = ["chain 1 0,-100 0,-100", "shape 1 1 10,-100 10,-90 0,-90", "sides 1 A0001/1 -", "point A0001/1 5,-95"]
    misnamed = plays.file("misnamed", b"".join(map(line_of, town)) + b"".join(of_street(k, it) for k, it in enumerate(rects)))
    audited = lambda title, words, status, out: plays.play(title, [*words, misnamed], status, out, command="audit")
    count = len(streets)
    numbers = f"chains={CHAIN_LIMIT} segments={count + 4} nodes={2 * count + 1} polygons=1 landmarks=0 rings={count + 2}"
    audited("streets that name a town", [], 0, f"sound {numbers}\n")
    x, y = rects[0][:2]
    first = f"map fault G7 FaceDisagree tlid 2 polygon A0001/1 at {2 * x + 3} {2 * y} 2 outside west\n"
    audited("streets that name a town, with faces", ["--all", "--most", "1", "--faces"], 1, f"{first}faults={2 * count} printed=1\n")
    audited("the same, not printed", ["--all", "--most", "0", "--faces"], 1, f"faults={2 * count} printed=0\n")


def play_places(plays):
    """Answers of `locate` with as many chains, polygons and landmarks as the limits allow: chains that are one line, each
    with a polygon of its own on its west, and a landmark for each polygon."""
    key, number = "A0001/7777777777", 7_777_777_777
    lines = [f"sides {number} {key} -", f"point {key} 1,1", f"land {number}", f"link {key} {number}"]
    lines = b"".join(map(line_of, lines))
    numbered = lambda k: chain(k, (20, 10), (20, 30))[0].encode() + lines.replace(b"7777777777", b"%10d" % k)
    fence = plays.file("fence", b"".join(map(numbered, range(1, CHAIN_LIMIT + 1))))
    located = lambda title, point, out: plays.play(title, [point, fence], 0, out, command="locate")
    polygons = " ".join(f"A0001/{k}" for k in range(1, CHAIN_LIMIT + 1))
    landmarks = " ".join(map(str, range(1, CHAIN_LIMIT + 1)))
    located("a point in the most polygons and landmarks", "@15,20", f"in polygons {polygons} landmarks {landmarks}\n")
    located("a point on the most chains", "@20,20", "on tlid 1\n")
    located("a point in none of the most polygons", "@25,20", "in polygons none landmarks none\n")


def play_trees(plays):
    """Answers to certificates whose trees are as deep as may be, and deeper by one."""
    rows = [row for row in rows_of(ROWS / "check.rows") if row.title in TREES]
    plays.count(len(rows) == len(TREES), "there are no such rows")
    for row in rows:
        for words in row.runs:
            wrong = play(plays.program, row, words)
            plays.count(not wrong, wrong)


def play_maps(plays, county_file, tlids):
    """Each answer of `landmarks` behind a whole county, and each limit of it."""
    more = lambda *records: plays.file("more", b"".join(map(line_of, records)))
    listed = lambda title, names, status, out: plays.play(title, names, status, out, command="landmarks")

    side = line_of("sides 7777777777 A0001/1 -")
    sides = plays.file("sides", b"".join(side.replace(b"7777777777", b"%10d" % tlid) for tlid in tlids))
    polygon = plays.file("polygon", line_of("point A0001/1 1,1"))
    new, old = 9_999_999_998, tlids[len(tlids) // 2]
    whole = [county_file, sides, polygon]
    listed("a county's landmarks", [*whole, more("land 7", "link A0001/1 7")], 0, "land 7 area polygons A0001/1\nlandmarks=1\n")
    behind = {
        f"M5 ChainWithoutSides tlid {new}": [f"chain {new} 1,1 2,2"],
        f"M6 SidesWithoutChain tlid {new}": [f"sides {new} - -"],
        f"M7 DuplicateSides tlid {old}": [f"sides {old} A0001/1 -"],
        "M8 DuplicatePolygon polygon A0001/1": ["point A0001/1 2,2"],
        f"M9 SideWithoutPolygon tlid {new} polygon A0001/2": [f"chain {new} 1,1 2,2", f"sides {new} A0001/2 -"],
        "M10 LinkWithoutLandmark land 8": ["link A0001/1 8"],
        "M11 LinkWithoutPolygon polygon A0001/2 land 7": ["land 7", "link A0001/2 7"],
    }
    for fault, records in behind.items():
        listed(fault, [*whole, more(*records)], 1, f"map fault {fault}\n")

    point = line_of("point A0001/7777777777 1,1")
    polygons = plays.file("polygons", b"".join(point.replace(b"7777777777", b"%10d" % k) for k in range(POLYGON_LIMIT)))
    listed("the most polygons", [polygons], 0, "landmarks=0\n")
    listed("one polygon more", [polygons, more(f"point A0001/{POLYGON_LIMIT} 1,1")], 1, "map fault M13 TooMany polygons\n")

    land = line_of("land 7777777777 1,1")
    landmarks = plays.file("landmarks", b"".join(land.replace(b"7777777777", b"%10d" % k) for k in range(LANDMARK_LIMIT)))
    lines = "".join(f"land {k} point 1,1 polygons none\n" for k in range(LANDMARK_LIMIT))
    listed("the most landmarks", [landmarks], 0, f"{lines}landmarks={LANDMARK_LIMIT}\n")
    listed("one landmark more", [landmarks, more(f"land {LANDMARK_LIMIT}")], 1, "map fault M13 TooMany landmarks\n")
    listed("a landmark's second record", [landmarks, more("land 7")], 0, f"{lines}landmarks={LANDMARK_LIMIT}\n")

    chains, each = 16_384, SEGMENT_LIMIT // 16_384
    segments = plays.file("segments", long_chains(chains, each))
    listed("the most segments", [segments], 0, "landmarks=0\n")
    listed("one segment more", [segments, more(f"chain {new} 1,1 2,2", f"sides {new} - -")], 1, "map fault M13 TooMany segments\n")


if __name__ == "__main__":
    words = sys.argv[1:]
    measures = words[:1] == ["--measure"]
    parts = [play(*words[measures : measures + 1], measures=measures) for play in (play_all, play_decisions, play_lists)]
    passed, failed = (sum(column) for column in zip(*parts))
    print(f"{passed} passed, {failed} failed")
    sys.exit(failed > 0 or passed == 0)
