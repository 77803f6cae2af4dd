#!/usr/bin/env python3
"""Makes record files of a map of Debian's package r-cran-maps: polylines with a region on their left and on their right.

usage: records_of.py MAPDATA NAME FOLDER

MAPDATA is the package's folder `mapdata`, NAME one of its maps, as `county`. A file NAME.L has two i32 (a kind, and the number of
lines n), n heads of 28 bytes (u32 offset of the pairs, u16 how many there are, u16 the region on the left, u16 the one on the
right, two bytes, four f32 of the rectangle about it), and then the pairs: longitude and latitude as f32, in radians. Region 0 is
the outside. Each line becomes a chain with TLIDs in the file's order, each coordinate the nearest millionth of a degree; pairs that
repeat the one before are left out, and so is a line of which one pair is left. A region becomes a polygon with the key A0001/N and
a point by a scan line (`point_of`). A region of no line has no polygon.
"""

import math
import struct
import sys
from collections import defaultdict
from pathlib import Path

sys.path.append(str(Path(__file__).resolve().parents[1] / "bench"))
from county import point_line, sides_line
from make_records import padded, pair, shape_lines, write_files

HEAD = struct.Struct("<IHHH2xffff")
FIRST_TLID = 1


def lines_of(file):
    """The lines of such a file: their points in whole millionths of a degree, and the regions on their left and right."""
    data = file.read_bytes()
    _, count = struct.unpack_from("<ii", data)
    for place in range(count):
        offset, pairs, left, right, *_ = HEAD.unpack_from(data, 8 + HEAD.size * place)
        numbers = struct.unpack_from(f"<{2 * pairs}f", data, offset)
        points = [tuple(round(math.degrees(part) * 1e6) for part in numbers[k:k + 2]) for k in range(0, 2 * pairs, 2)]
        points = [point for k, point in enumerate(points) if k == 0 or point != points[k - 1]]
        if len(points) > 1:
            yield points, left, right


def crossings(segments, height):
    """Where a level line between whole latitudes, at twice its height, crosses segments: longitudes from west to east."""
    found = []
    for (a, b), (c, d) in segments:
        if (2 * b < height) != (2 * d < height):
            found.append(a + (height - 2 * b) * (c - a) / (2 * (d - b)))
    return sorted(found)


def point_of(segments):
    """A whole point of a region inside its boundary: midway in the widest stretch that a level line has inside, of seven such lines."""
    heights = sorted({point[1] for segment in segments for point in segment})
    best = None
    for step in range(1, 8):
        latitude = heights[0] + (heights[-1] - heights[0]) * step // 8
        for first, last in zip(*[iter(crossings(segments, 2 * latitude + 1))] * 2):
            if best is None or last - first > best[0]:
                best = last - first, (round((first + last) / 2), latitude)
    return best[1] if best else None


def key(region):
    return ("A0001", region) if region else None


def chain_line(tlid, start, end):
    return padded(f"10000{tlid:>10}".ljust(190) + pair(start) + pair(end), 228)


def files_of(chains):
    """The lines of each type's file."""
    boundary = defaultdict(list)
    cells, files = {}, {name: [] for name in ("RT1", "RT2", "RTI", "RTP")}
    for tlid, (points, left, right) in enumerate(chains, FIRST_TLID):
        ends = [cells.setdefault(point, len(cells) + 1) for point in (points[0], points[-1])]
        files["RT1"].append(chain_line(tlid, points[0], points[-1]))
        files["RT2"] += shape_lines(tlid, points[1:-1])
        files["RTI"].append(sides_line(tlid, key(left), key(right), ends, False))
        if left != right:
            for region in (left, right):
                boundary[region] += zip(points, points[1:])
    for region in sorted({it for _, left, right in chains for it in (left, right) if it}):
        files["RTP"].append(point_line(key(region), point_of(boundary[region]) or (0, 0)))
    return files


def main():
    if len(sys.argv) != 4:
        sys.exit(__doc__)
    folder = Path(sys.argv[3])
    folder.mkdir(parents=True, exist_ok=True)
    write_files(folder, files_of(list(lines_of(Path(sys.argv[1], f"{sys.argv[2]}.L")))))


if __name__ == "__main__":
    main()
