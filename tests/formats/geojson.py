#!/usr/bin/env python3
"""Exports the counties below and their faults as GeoJSON, and reads the files with GDAL's `ogrinfo` and `ogr2ogr`, as those do
who use them.

usage: geojson.py [PROGRAM]

Needs Debian's `gdal-bin`. Of each export the printed line is compared, and what GDAL finds in the file: how many features of each
kind of geometry, and of each polygon the area. Of the file itself: that each ring ends where it began; that outer rings run
counter-clockwise, and holes clockwise, as RFC 7946 wants; that holes lie in their outer rings; that the areas of rings, reckoned from
their positions, add up to the area that is written beside them; and of what is drawn here, each polygon's rings. Of faults, how many there are, where each lies, and in which lines their records stand.
"""

import csv
import io
import json
import math
import subprocess
import sys
import tempfile
from collections import Counter
from fractions import Fraction
from pathlib import Path

sys.path.append(str(Path(__file__).resolve().parents[1]))
from folders import EXAMPLES, PROGRAM

import layout
import skipped

# The files of a county, the line that is wanted, and how many features of each kind of geometry. Of a map that isn't sound there
# are no polygons.
EXPORTS = [
    (["county"], "exported chains=5 polygons=3 rings=4\n", {"LineString": 5, "Point": 3, "Polygon": 3}),
    (["island"], "exported chains=2 polygons=2 rings=3\n", {"LineString": 2, "Point": 3, "Polygon": 2}),
    (["square.RT1", "square.RT2", "square.RTI", "square.RTP"], "exported chains=1 polygons=1 rings=1\n", {"LineString": 1, "Point": 1, "Polygon": 1}),
    (["faults/town"], "exported chains=13 polygons=5\nnot sound\n", {"LineString": 13, "Point": 5}),
]

# Squares in one another, each a chain from its south-western corner counter-clockwise: the corner, the width, and what lies within and
# around. Polygon 1 is two towns, in the second of which polygon 2 lies about a piece of polygon 1, which has polygon 3 in it.
SQUARES = [(0, 0, 30, "A0001/1", "-"), (100, 0, 100, "A0001/1", "-"), (120, 20, 60, "A0001/2", "A0001/1"),
           (130, 30, 40, "A0001/1", "A0001/2"), (140, 40, 20, "A0001/3", "A0001/1")]
# A street off by itself in polygon 1, which bounds nothing; the points; and landmarks: 7 and 9 have one.
STREET = ["chain 6 110,5 115,8", "sides 6 A0001/1 A0001/1"]
POINTS = ["point A0001/1 10,10", "point A0001/2 125,25", "point A0001/3 150,50"]
LANDMARKS = ["land 7 12,13", "land 8", "land 9 -5,-6", "link A0001/1 7", "link A0001/3 7", "link A0001/2 8"]
DRAWN_LINE = "exported chains=6 polygons=3 rings=8\n"
DRAWN_KINDS = {"LineString": 6, "Point": 5, "Polygon": 2, "MultiPolygon": 1}
# Of each polygon the outer rings by the numbers of their squares, each with its holes.
DRAWN_SHAPES = {"A0001/1": [[0], [1, 2], [3, 4]], "A0001/2": [[2, 3]], "A0001/3": [[4]]}
DRAWN_LANDMARKS = [
    {"geometry": {"type": "Point", "coordinates": (12, 13)}, "properties": {"land": 7, "polygons": ["A0001/1", "A0001/3"]}},
    {"geometry": {"type": "Point", "coordinates": (-5, -6)}, "properties": {"land": 9, "polygons": []}},
]

# The ellipsoid of NAD83: its radius at the equator, in metres, and the square of its eccentricity.
EQUATOR, ECCENTRICITY = 6378137.0, 0.00669438002290
# Where squares stand that are a tenth of a degree wide.
AFAR = [(100, 30), (-78_762_000, 39_652_000), (-156_000_000, -18_900_000), (-150_000_000, 64_800_000), (10, -71_000_000)]
# The layers, in the order of the whole file, and what features of each alone have.
LAYERS = {"chains": "tlid", "points": "landmarks", "polygons": "area", "landmarks": "land"}
# Faults: the switches, the file, the status, how many features of each kind of geometry, and where the points are, in millionths of
# a degree, by the records of the file.
FAULTS = [
    (["--all"], "faults/town", 1, {"Point": 12, "LineString": 9},
     [(20, 50), (40, 50), (60, 50), (70, 50), (80, 50), (30, 60), (120, 10), (205, 20), (220, 20), (220, 20), (16, 16), (16, 16)]),
    (["--all", "--most", "1"], "faults/G5", 1, {"Point": 2}, [(16, 16), (16, 16)]),
    ([], "faults/G2", 1, {"Point": 1, "LineString": 2}, [(10, 10)]),
    (["--all", "--where", "--zero-cells"], "faults/G6", 1, {"Point": 1, "LineString": 1}, [(10, 10)]),
    (["--all"], "faults/M3", 1, {None: 2}, []),
    (["--all"], "county", 0, {}, []),
]


def can_play():
    """Whether GDAL's commands are there. Else all of this is skipped."""
    return skipped.has("files of GeoJSON", "ogrinfo", "ogr2ogr")


def run(*words):
    return subprocess.run([str(word) for word in words], capture_output=True, text=True, timeout=60)


def doubled(ring):
    """Twice the area of a ring of whole points."""
    return sum(x * next_y - y * next_x for (x, y), (next_x, next_y) in zip(ring, ring[1:]))


def parts_of(feature):
    """The outer rings of a polygon, each with its holes, in millionths of a degree."""
    geometry = feature["geometry"]
    parts = [geometry["coordinates"]] if geometry["type"] == "Polygon" else geometry["coordinates"]
    return [[[in_millionths(it) for it in ring] for ring in part] for part in parts]


def in_millionths(position):
    return tuple(round(Fraction(str(it)) * 1_000_000) for it in position)


def holds(ring, point):
    """Whether a ring is around a point."""
    x, y = point
    is_in = False
    for (ax, ay), (bx, by) in zip(ring, ring[1:]):
        if (ay > y) != (by > y) and x < ax + Fraction((bx - ax) * (y - ay), by - ay):
            is_in = not is_in
    return is_in


def wrong_shape(feature):
    """What is wrong with a polygon."""
    parts = parts_of(feature)
    rings = [ring for part in parts for ring in part]
    if any(ring[0] != ring[-1] for ring in rings):
        return "a ring is open"
    if any(doubled(outer) <= 0 or any(doubled(hole) >= 0 for hole in holes) for outer, *holes in parts):
        return "a ring is wound the wrong way"
    if any(not holds(outer, point) for outer, *holes in parts for hole in holes for point in hole):
        return "a hole lies elsewhere"
    if sum(map(doubled, rings)) != 2 * Fraction(feature["properties"]["area"]):
        return "the rings have another area"
    if (len(parts) == 1) != (feature["geometry"]["type"] == "Polygon"):
        return "it has another geometry"
    return None


def wrong_names(feature):
    """What is wrong with what a feature says of its polygon."""
    named = feature["properties"]
    return None if named["polygon"] == f"{named['cenid']}/{named['polyid']}" else f"names: {named}"


def wrong_areas(path, shapes):
    """What is wrong with the areas that GDAL reckons, in square degrees."""
    asked = f'SELECT polygon, OGR_GEOM_AREA AS reckoned FROM "{layer_of(path)}" WHERE area IS NOT NULL'
    told = run("ogr2ogr", "-f", "CSV", "/vsistdout/", path, "-sql", asked)
    rows = {it["polygon"]: float(it["reckoned"]) * 1e12 for it in csv.DictReader(io.StringIO(told.stdout))}
    wanted = {it["properties"]["polygon"]: float(it["properties"]["area"]) for it in shapes}
    if told.returncode or rows.keys() != wanted.keys() or any(abs(rows[it] - wanted[it]) > 1e-6 * abs(wanted[it]) for it in wanted):
        return f"areas: {rows}, {wanted} {told.stderr}"
    return None


def wrong_metres(features):
    """What is wrong with the areas in square metres: beside the radii of the ellipsoid at the latitude of each polygon's point."""
    latitudes = {it["properties"]["polygon"]: float(it["geometry"]["coordinates"][1]) for it in features if "landmarks" in it["properties"]}
    for it in features:
        if "area" in it["properties"]:
            named = it["properties"]
            sine = math.sin(math.radians(latitudes[named["polygon"]]))
            flat = 1 - ECCENTRICITY * sine**2
            degree = math.radians(1) ** 2 * EQUATOR**2 * (1 - ECCENTRICITY) / flat**2 * math.sqrt(1 - sine**2)
            wanted = float(Fraction(named["area"])) * 1e-12 * degree
            if abs(named["square_metres_rounded"] - wanted) > 0.5 + 2e-5 * abs(wanted):
                return f"{named['polygon']}: {named['square_metres_rounded']} square metres, and not {wanted}"
    return None


def layer_of(path):
    return json.loads(Path(path).read_text())["name"]


def wrong_shapes(path):
    """What is wrong with the polygons of a file, by what it says and by GDAL."""
    features = json.loads(Path(path).read_text(), parse_float=Fraction)["features"]
    shapes = [it for it in features if it["geometry"]["type"] in ("Polygon", "MultiPolygon")]
    told = [wrong_shape(it) for it in shapes] + [wrong_names(it) for it in features if "polygon" in it["properties"]]
    return next((it for it in told if it), None) or (wrong_areas(path, shapes) or wrong_metres(features) if shapes else None)


def wrong_file(path, kinds):
    """What is wrong with a file of which GDAL is to find so many features of each kind."""
    return read_by_gdal(path, kinds)[1]


def read_by_gdal(path, kinds, precision=6):
    """The features that GDAL finds, and what is wrong where it is to find so many of each kind."""
    told = run("ogrinfo", "-ro", "-al", "-so", path)
    if told.returncode or told.stderr or f"Feature Count: {sum(kinds.values())}\n" not in told.stdout:
        return [], f"ogrinfo: {told.stdout}{told.stderr}"
    read = run("ogr2ogr", "-f", "GeoJSONSeq", "-lco", f"COORDINATE_PRECISION={precision}", "/vsistdout/", path)
    if read.returncode or read.stderr:
        return [], f"ogr2ogr: {read.stderr}"
    features = [json.loads(line) for line in read.stdout.splitlines()]
    found = Counter(feature["geometry"] and feature["geometry"]["type"] for feature in features)
    if found != kinds:
        return features, f"features: {dict(found)}"
    return features, None


def wrong_faults(program, folder, switches, file, status, kinds, points):
    """What is wrong with the file of these faults, as GDAL reads it."""
    made, read = Path(folder) / "faults.geojson", EXAMPLES / file
    done = run(program, "audit", *switches, "--geojson", made, read)
    if (done.returncode, done.stderr) != (status, ""):
        return f"status {done.returncode}: {done.stdout}{done.stderr}"
    features, wrong = read_by_gdal(made, kinds, 12)
    if wrong:
        return wrong
    faults = [it for it in features if it["properties"].get("code")]
    lie = [it["geometry"]["coordinates"] for it in faults if it["geometry"]]
    if list(map(in_millionths, lie)) != points:
        return f"points: {lie}"
    # A record of each fault stands in a line of the file that has its type.
    lines = read.read_text().splitlines()
    records = [it for fault in faults for it in fault["properties"]["records"]]
    if any(it["file"] != str(read) or lines[it["line"] - 1][:1] != it["type"] for it in records) or bool(records) != bool(faults):
        return f"records: {records}"
    return None


def wrong_export(program, folder, files, line, kinds):
    """What is wrong with the export of these files."""
    made = Path(folder) / "made.geojson"
    done = run(program, "export", "--geojson", made, *files)
    if (done.returncode, done.stdout, done.stderr) != ("not sound" in line, line, ""):
        return f"status {done.returncode}: {done.stdout}{done.stderr}"
    return wrong_file(made, kinds) or wrong_shapes(made)


def square(x, y, width):
    """The points of a square, from its south-western corner counter-clockwise."""
    return [(x, y), (x + width, y), (x + width, y + width), (x, y + width), (x, y)]


def drawn_lines():
    """The lines of the squares, the street, the points and the landmarks."""
    for number, (x, y, width, within, around) in enumerate(SQUARES, 1):
        first, *between, last = [f"{it[0]},{it[1]}" for it in square(x, y, width)]
        yield from [f"chain {number} {first} {last}", f"shape {number} 1 {' '.join(between)}", f"sides {number} {within} {around}"]
    yield from STREET + POINTS + LANDMARKS


def as_ring(points, is_hole):
    """A ring from its least point on, so that it is told from others wherever it begins."""
    points = [*points[-2::-1]] if is_hole else points[:-1]
    least = points.index(min(points))
    return points[least:] + points[:least]


def wrong_drawn(program, folder):
    """What is wrong with the export of what is drawn."""
    records, made = Path(folder) / "records", Path(folder) / "made.geojson"
    records.write_bytes(b"".join(map(layout.line_of, drawn_lines())))
    wrong = wrong_export(program, folder, [records], DRAWN_LINE, DRAWN_KINDS)
    if wrong:
        return wrong
    features = json.loads(made.read_text(), parse_float=Fraction)["features"]
    files = {it["properties"].pop("file", None) for it in features}
    if files != {str(records)}:
        return f"files: {files}"
    found = {it["properties"]["polygon"]: [[as_ring(ring, False) for ring in part] for part in parts_of(it)] for it in features if "area" in it["properties"]}
    wanted = {name: [[as_ring(square(*SQUARES[n][:3]), place > 0) for place, n in enumerate(part)] for part in parts] for name, parts in DRAWN_SHAPES.items()}
    if found != wanted:
        return f"shapes: {found}"
    landmarks = [{"geometry": {"type": "Point", "coordinates": in_millionths(it["geometry"]["coordinates"])}, "properties": it["properties"]}
                 for it in features if "land" in it["properties"]]
    return None if landmarks == DRAWN_LANDMARKS else f"landmarks: {landmarks}"


def wrong_afar(program, folder):
    """What is wrong with the export of squares a tenth of a degree wide, at several latitudes."""
    records, lines = Path(folder) / "records", []
    for number, (x, y) in enumerate(AFAR, 1):
        first, *between, last = [f"{it[0]},{it[1]}" for it in square(x, y, 100_000)]
        lines += [f"chain {number} {first} {last}", f"shape {number} 1 {' '.join(between)}", f"sides {number} A0001/{number} -"]
        lines += [f"point A0001/{number} {x + 50_000},{y + 50_000}"]
    records.write_bytes(b"".join(map(layout.line_of, lines)))
    count = len(AFAR)
    line = f"exported chains={count} polygons={count} rings={count}\n"
    return wrong_export(program, folder, [records], line, {"LineString": count, "Point": count, "Polygon": count})


def wrong_layers(program, folder):
    """What is wrong with the layers of what is drawn, each by itself and on its way through a pipe: together they are the whole."""
    records = Path(folder) / "records"
    records.write_bytes(b"".join(map(layout.line_of, drawn_lines())))
    made = Path(folder) / "made.geojson"
    wrong, found = wrong_export(program, folder, [records], DRAWN_LINE, DRAWN_KINDS), []
    for layer in () if wrong else LAYERS:
        done = run(program, "export", "--geojson", "/dev/stdout", "--layer", layer, records)
        if (done.returncode, done.stderr) != (0, DRAWN_LINE):
            return f"{layer}: status {done.returncode}: {done.stderr}"
        features = json.loads(done.stdout)["features"]
        if any(LAYERS[layer] not in it["properties"] for it in features):
            return f"{layer}: {features}"
        found += features
    return wrong or (None if found == json.loads(made.read_text())["features"] else f"layers: {found}")


def wrong_refusal(program, folder):
    """What is wrong where a stranger's file stands under the name."""
    made = Path(folder) / "made.geojson"
    made.write_text('{"type":"FeatureCollection","features":[]}\n')
    done = run(program, "export", "--geojson", made, EXAMPLES / "county")
    if (done.returncode, done.stdout, done.stderr) != (64, "", "OUT stands and is no GeoJSON of tigertopo\n"):
        return f"status {done.returncode}: {done.stdout}{done.stderr}"
    return None if "tigertopo" not in made.read_text() else "it was written over"


def play_all(program=PROGRAM):
    """How many exports are read as they are wanted, and how many aren't."""
    wrong = []
    for files, line, kinds in EXPORTS:
        with tempfile.TemporaryDirectory() as folder:
            wrong.append((" ".join(files), wrong_export(program, folder, [EXAMPLES / it for it in files], line, kinds)))
    with tempfile.TemporaryDirectory() as folder:
        wrong.append(("squares in one another", wrong_drawn(program, folder)))
    with tempfile.TemporaryDirectory() as folder:
        wrong.append(("layers", wrong_layers(program, folder)))
    with tempfile.TemporaryDirectory() as folder:
        wrong.append(("squares at several latitudes", wrong_afar(program, folder)))
    for switches, file, *wanted in FAULTS:
        with tempfile.TemporaryDirectory() as folder:
            wrong.append((f"{' '.join(switches)} {file}", wrong_faults(program, folder, switches, file, *wanted)))
    with tempfile.TemporaryDirectory() as folder:
        wrong.append(("a stranger's file", wrong_refusal(program, folder)))
    for title, what in wrong:
        if what:
            print(f"{title}: {what}")
    failed = sum(what is not None for _, what in wrong)
    return len(wrong) - failed, failed


if __name__ == "__main__":
    passed, failed = play_all(*map(Path, sys.argv[1:2])) if can_play() else (0, 0)
    print(skipped.counts(passed, failed))
    sys.exit(failed > 0 or not (passed or skipped.PARTS))
