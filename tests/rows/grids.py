"""Maps of squares in rows and columns, and what is counted of them."""

from layout import line_of

SIDE = 10
# The lines of such a map, with a place for each number and each key. layout.py would take a minute for a million.
CHAIN = b"10000%10d" + b" " * 175 + b"%+010d%+09d%+010d%+09d\n"
SIDES = b"I0000%10d" + b" " * 25 + b"%15b%15b\n"
KEY = b"A0001%10d"
POINT = b"P0000     %15b%+010d%+09d\n"

assert CHAIN % (1, 2, -3, -4, 5) == line_of("chain 1 2,-3 -4,5")
assert SIDES % (1, KEY % 2, KEY % 3) == line_of("sides 1 A0001/2 A0001/3")
assert POINT % (KEY % 1, 2, -3) == line_of("point A0001/1 2,-3")


def grid(count):
    """The records of a map of so many by so many squares: each edge is a chain, each square a polygon with its point in the
    middle, and around them is the outside."""

    def square(column, row):
        inside = 0 <= column < count and 0 <= row < count
        return KEY % (row * count + column + 1) if inside else b""

    lines, tlid = [], 0
    for row in range(count + 1):
        for column in range(count + 1):
            x, y, here = SIDE * column, SIDE * row, square(column, row)
            if column < count:
                tlid += 1
                lines += [CHAIN % (tlid, x, y, x + SIDE, y), SIDES % (tlid, here, square(column, row - 1))]
            if row < count:
                tlid += 1
                lines += [CHAIN % (tlid, x, y, x, y + SIDE), SIDES % (tlid, square(column - 1, row), here)]
            if here:
                lines.append(POINT % (here, x + SIDE // 2, y + SIDE // 2))
    return b"".join(lines)


def report_of(count):
    """The numbers of such a map. Each square has one ring, and the outside has one."""
    chains = 2 * count * (count + 1)
    return f"chains={chains} segments={chains} nodes={(count + 1) ** 2} polygons={count**2} landmarks=0 rings={count**2 + 1}"
