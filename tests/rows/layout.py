"""Record lines laid out by hand, from the columns of docs/records.md.

A line is written as words: what it is, its values, and changes of single fields behind them.

    chain TLID X,Y X,Y                  type 1: a chain's start and end
    shape TLID RTSQ X,Y X,Y ..          type 2: up to ten points; `-` leaves a pair blank
    sides TLID LEFT RIGHT               type I: keys as A0001/1; `-` leaves a side blank
    released TLID LEFT RIGHT            type I by the released files' columns, with a FILE
    point KEY X,Y                       type P
    land LAND [X,Y]                     type 7
    link KEY LAND                       type 8
    raw TEXT..                          the rest as it stands
    fill N BYTE                         the byte N times

A change is FIELD=VALUE, right-aligned in the field's columns (`_` stands for a blank, `\\xNN` for a byte), `cut=N`,
which leaves out the columns behind N, `other=` with a byte for all columns of the full width that aren't read, or `end=`
with `crlf`, `cr`, `crcr` or `none` for what ends the line.
"""

import re

COLUMNS = {
    "1": {"TLID": (6, 15), "FRLONG": (191, 200), "FRLAT": (201, 209), "TOLONG": (210, 219), "TOLAT": (220, 228)},
    "2": {
        "TLID": (6, 15),
        "RTSQ": (16, 18),
        **{f"LONG{k}": (19 * k, 19 * k + 9) for k in range(1, 11)},
        **{f"LAT{k}": (19 * k + 10, 19 * k + 18) for k in range(1, 11)},
    },
    "I": {"TLID": (6, 15), "TZIDS": (21, 30), "TZIDE": (31, 40), "CENIDL": (41, 45), "POLYIDL": (46, 55), "CENIDR": (56, 60), "POLYIDR": (61, 70)},
    "released": {
        "FILE": (6, 10),
        "TLID": (11, 20),
        "TZIDS": (21, 30),
        "TZIDE": (31, 40),
        "CENIDL": (41, 45),
        "POLYIDL": (46, 55),
        "CENIDR": (56, 60),
        "POLYIDR": (61, 70),
    },
    "P": {"CENID": (11, 15), "POLYID": (16, 25), "POLYLONG": (26, 35), "POLYLAT": (36, 44)},
    "7": {"LAND": (11, 20), "LALONG": (55, 64), "LALAT": (65, 73)},
    "8": {"CENID": (11, 15), "POLYID": (16, 25), "LAND": (26, 35)},
}
# How wide a record of each type is.
WIDTHS = {"1": 228, "2": 208, "I": 127, "released": 127, "P": 45, "7": 74, "8": 36}
ENDS = {"lf": b"\n", "crlf": b"\r\n", "cr": b"\r", "crcr": b"\r\r\n", "none": b""}


def point(text, east, north):
    x, y = map(int, text.split(","))
    return {east: f"{x:+010d}", north: f"{y:+09d}"}


def key(text, cenid, polyid):
    if text == "-":
        return {}
    first, second = text.split("/")
    return {cenid: first, polyid: second}


def values_of(kind, words):
    """The record type, its fields' values and what is left of the words."""
    if kind == "chain":
        tlid, start, end, *rest = words
        return "1", {"TLID": tlid, **point(start, "FRLONG", "FRLAT"), **point(end, "TOLONG", "TOLAT")}, rest
    if kind == "shape":
        tlid, rtsq, *rest = words
        values = {"TLID": tlid, "RTSQ": rtsq}
        k = 0
        while rest and "=" not in rest[0]:
            k, pair = k + 1, rest.pop(0)
            if pair != "-":
                values.update(point(pair, f"LONG{k}", f"LAT{k}"))
        return "2", values, rest
    if kind == "sides":
        tlid, left, right, *rest = words
        return "I", {"TLID": tlid, **key(left, "CENIDL", "POLYIDL"), **key(right, "CENIDR", "POLYIDR")}, rest
    if kind == "released":
        tlid, left, right, *rest = words
        sides = {**key(left, "CENIDL", "POLYIDL"), **key(right, "CENIDR", "POLYIDR")}
        return "released", {"FILE": "24001", "TLID": tlid, **sides}, rest
    if kind == "point":
        name, at, *rest = words
        return "P", {**key(name, "CENID", "POLYID"), **point(at, "POLYLONG", "POLYLAT")}, rest
    if kind == "land":
        land, *rest = words
        at = point(rest.pop(0), "LALONG", "LALAT") if rest and "=" not in rest[0] else {}
        return "7", {"LAND": land, **at}, rest
    if kind == "link":
        name, land, *rest = words
        return "8", {**key(name, "CENID", "POLYID"), "LAND": land}, rest
    raise ValueError(f"no such line: {kind}")


def bytes_of(text):
    """The text's bytes, with a byte for each `\\xNN`."""
    return re.sub(rb"\\x([0-9A-F]{2})", lambda it: bytes([int(it[1], 16)]), text.encode())


def line_of(text):
    """The bytes of the line that the words stand for, with its end."""
    kind, _, rest = text.strip().partition(" ")
    if kind == "raw":
        return bytes_of(rest) + b"\n"
    if kind == "fill":
        count, byte, *changes = rest.split()
        record, values, line = "", {}, bytearray(byte.encode() * int(count))
    else:
        record, values, changes = values_of(kind, rest.split())
        line = bytearray((record if len(record) == 1 else "I").encode() + b"0000")
    end, cut, other = b"\n", None, None
    for change in changes:
        name, _, value = change.partition("=")
        if name == "end":
            end = ENDS[value]
        elif name == "cut":
            cut = int(value)
        elif name == "other":
            other = bytes_of(value)
        else:
            values[name] = value
    for name, value in values.items():
        first, last = COLUMNS[record][name]
        line.extend(b" " * (last - len(line)))
        field = bytes_of(value.replace("_", " ")).rjust(last - first + 1)
        assert len(field) == last - first + 1, text
        line[first - 1 : last] = field
    if other:
        line.extend(b" " * (WIDTHS[record] - len(line)))
        read = {column for first, last in COLUMNS[record].values() for column in range(first, last + 1)}
        for column in range(2, len(line) + 1):
            if column not in read:
                line[column - 1 : column] = other
    return bytes(line[:cut]) + end
