#!/usr/bin/env python3
"""Makes the files of types 1 and 2 of made-up streets, laid out as the Census Bureau's are.

usage: make_records.py FOLDER CHAINS

Lines have their full width and end in CR LF, and the columns that tigertopo doesn't read hold names, addresses and
codes. Chains come by rising TLID. Every tenth chain has 25 shape points in three type 2 records, three more of ten have
one to four in one record, and pairs that aren't used are written as zeros. Each run with the same words makes the same
bytes.
"""

import argparse
import random
from pathlib import Path

VERSION = "1206"
NAMES = ["Main", "Oak Ridge", "Old Mill", "State Highway 27", "Susquehanna River", "Pennsylvania", "Church", "Quarry"]
KINDS = ["St", "Ave", "Rd", "Blvd", ""]
CODES = ["A41", "A31", "A21", "H11", "B11", "F10"]
UNUSED = "+000000000+00000000"


def pair(point):
    return "%+010d%+09d" % point


def padded(line, width):
    assert len(line) <= width, line
    return line.ljust(width) + "\r\n"


def chain_line(rng, tlid, start, end):
    first = rng.randrange(1, 9000)
    line = f"1{VERSION}{tlid:>10}1B{'N' if tlid % 5 == 0 else '':<2}{rng.choice(NAMES):<30}{rng.choice(KINDS):<4}"
    line += f"{'':<2}{rng.choice(CODES):<3}{first:>11}{first + 98:>11}{first + 1:>11}{first + 99:>11}0000"
    line += "2120121201" + f"{'':<14}" + "2424001001904169041600000000001632416324" + "000100000200" + "10021003"
    line = line.ljust(190)
    assert len(line) == 190, len(line)
    return padded(line + pair(start) + pair(end), 228)


def shape_lines(tlid, points):
    for number, first in enumerate(range(0, len(points), 10), 1):
        pairs = [pair(point) for point in points[first:first + 10]]
        pairs += [UNUSED] * (10 - len(pairs))
        yield padded(f"2{VERSION}{tlid:>10}{number:>3}" + "".join(pairs), 208)


def shape_count(rng, index):
    if index % 10 == 0:
        return 25
    if index % 10 in (3, 5, 8):
        return rng.randrange(1, 5)
    return 0


def between(rng, start, end, count):
    """Points on the way from start to end, each a little aside."""
    points = []
    for step in range(1, count + 1):
        x = start[0] + (end[0] - start[0]) * step // (count + 1)
        y = start[1] + (end[1] - start[1]) * step // (count + 1)
        points.append((x + rng.randrange(-9, 10), y + rng.randrange(-9, 10)))
    return points


def chains(rng, count):
    """TLIDs, ends and shape points, along the rows of a grid some 1,000 millionths wide."""
    width = max(1, int(count ** 0.5))
    tlid = 76_000_000
    for index in range(count):
        row, column = divmod(index, width)
        start = (-79_400_000 + 1_000 * column, 39_200_000 + 1_000 * row)
        end = (start[0] + 1_000, start[1]) if index % 2 == 0 else (start[0], start[1] + 1_000)
        tlid += rng.randrange(1, 4)
        yield tlid, start, end, between(rng, start, end, shape_count(rng, index))


def words_given(*switches):
    """The command line FOLDER CHAINS with these switches; the folder is made."""
    parser = argparse.ArgumentParser()
    parser.add_argument("folder", type=Path)
    parser.add_argument("chains", type=int)
    for switch in switches:
        parser.add_argument(switch, action="store_true")
    words = parser.parse_args()
    words.folder.mkdir(parents=True, exist_ok=True)
    return words


def write_files(folder, files):
    """Writes the lines of each type's file."""
    for name, lines in files.items():
        with open(folder / f"TGR24001.{name}", "w", newline="") as file:
            file.writelines(lines)


def main():
    words = words_given()
    rng = random.Random(words.chains)
    base = words.folder / "TGR24001"
    with open(f"{base}.RT1", "w", newline="") as first, open(f"{base}.RT2", "w", newline="") as second:
        for tlid, start, end, points in chains(rng, words.chains):
            first.write(chain_line(rng, tlid, start, end))
            second.writelines(shape_lines(tlid, points))


if __name__ == "__main__":
    main()
