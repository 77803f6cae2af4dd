#!/usr/bin/env python3
"""Converts certificates by the built program and compares its answers with those of a plain reader, which reads too what
the program builds.

usage: certificates.py [PROGRAM]

The plain reader below knows the grammar of docs/certificate.md and nothing of the program. Converted are the texts of the
tables, each beginning of two certificates, and each text that differs in one byte from the first, or from the second, whose
numbers are of all lengths, where the byte is one of some twenty; and, with little memory, texts that announce as much as they
can. Built are certificates of maps of squares, to a file, to a named pipe and to the standard output, and each has to have a
round for each node and a walk for each ring.
"""

import os
import resource
import subprocess
import sys
import tempfile
from concurrent.futures import ThreadPoolExecutor
from pathlib import Path

sys.path.append(str(Path(__file__).resolve().parents[1]))
from folders import PROGRAM

from grids import grid, report_of

SQUARE = (
    b"TIGERCERT 1\nC 1 4 1 1\nT 1\nL 10 10 30 30 4\nS 0\nS 1\nS 2\nS 3\nN 1\nR 2\nD 0\nD 1\n"
    b"W 2\nK 1\nD 0\nK 1\nD 1\nEND\n"
)
THREE = (
    b"TIGERCERT 2\nC 1 4 1 1\nT 4\nB 10 10 30 30 3\nL 10 10 30 10 1\nS 0\nL 30 10 30 30 1\nS 1\n"
    b"L 10 10 30 30 2\nS 2\nS 3\nN 1\nR 2\nD 0\nD 1\nW 2\nK 1\nD 0\nK 1\nD 1\nEND\n"
)
EMPTY = b"TIGERCERT 1\nC 0 0 0 0\nT 0\nN 0\nW 0\nEND\n"
HEAD = b"TIGERCERT 1\nC 0 0 0 0\n"


def spelt(letter, numbers):
    """Lines of a letter and a number."""
    return "".join(f"{letter} {number}\n" for number in numbers)


# Numbers of each length, rising and falling.
RISING = [0, 7, 42, 318, 9999, 10000, 123456, 1234567, 12345678, 123456789, 4294967295]
FALLING = [4000000000, 100000000, 99999999, 9999999, 999999, 1000000, 98765, 98764, 5, 6, 0, 1000000]
LONG = "".join(
    (
        "TIGERCERT 2\nC 1000000 4000000 600000 400000\nT 5\nB -76700000 39200000 -76698800 39201200 2\n",
        "L -180000000 -90000000 180000000 90000000 8\n",
        spelt("S", RISING[:8]),
        "B -2147483648 0 2147483647 123456789 2\nL -1 -22222222 1000000000 99999999 4\n",
        spelt("S", RISING[7:]),
        "L 10000000 -100000000 12345678 -10 8\n",
        spelt("S", FALLING[:8]),
        f"N 2\nR {len(RISING)}\n{spelt('D', RISING)}R {len(FALLING)}\n{spelt('D', FALLING)}",
        "W 1\nK 2\nD 2000000\nD 1999999\nEND\n",
    )
).encode()

# The bytes that stand in it, and their neighbours among all bytes.
OTHERS = b"0159/: -,.\n\x0b\x00SDBLK\xb0\xff"

# Texts that announce as much as they can, and end. To read them takes no memory to speak of.
MOST = b"4294967295\n"
ANNOUNCED = [
    (HEAD + b"T " + MOST, 4),
    (HEAD + b"T 0\nN " + MOST, 5),
    (HEAD + b"T 0\nN 1\nR " + MOST, 6),
    (HEAD + b"T 0\nN 1\nR " + MOST + b"D 1\nD 12345678\n", 8),
    (HEAD + b"T 0\nN 0\nW " + MOST, 6),
    (HEAD + b"T 0\nN 0\nW 1\nK " + MOST, 7),
]
# How much memory there is for them.
ROOM = 1 << 26

# Texts with the line that is refused, or none.
TABLE = [
    (b"", 1),
    (EMPTY, None),
    (SQUARE, None),
    (THREE, None),
    (LONG, None),
    (HEAD + b"T 4294967296\n", 3),
    (HEAD + b"T 1\nB 0 0 0 0\n", 4),
    (HEAD + b"T 3\nB 0 0 0 0\nB 0 0 0 0\n", 5),
    (HEAD + b"T 3\nB 0 0 0 0 2\n", 4),
    (HEAD + b"T 2\n", 3),
    (HEAD.replace(b" 1\n", b" 2\n") + b"T 2\n", 3),
    (SQUARE[:-4], 18),
    (SQUARE + b"x", 19),
    (SQUARE + b"\n", 19),
    (SQUARE[:-1], 18),
    (SQUARE.replace(b"S 3", b"S 03"), 8),
    (SQUARE.replace(b"T 1", b"T 2"), 3),
    (SQUARE.replace(b"S 3", b"S +3"), 8),
    (SQUARE.replace(b"S 3", b"S  3"), 8),
    (SQUARE.replace(b"S 3", b"S 3 "), 8),
    (SQUARE.replace(b"S 3\n", b"S 3\r\n"), 8),
    (SQUARE.replace(b"S 3", b"S -0"), 8),
    (SQUARE.replace(b"L 10", b"L -0"), 4),
    (SQUARE.replace(b"L 10", b"L -2147483648"), None),
    (SQUARE.replace(b"L 10", b"L -2147483649"), 4),
    (SQUARE.replace(b"L 10", b"L 2147483648"), 4),
    (SQUARE.replace(b"30 30 4", b"30 30 0"), 4),
    (SQUARE.replace(b"30 30 4", b"30 30 9"), 4),
    (SQUARE.replace(b"R 2", b"R 0"), 10),
    (SQUARE.replace(b"TIGERCERT 1", b"TIGERCERT 3"), 1),
    (THREE.replace(b"30 30 3\n", b"30 30 2\n", 1), 4),
    (THREE.replace(b"30 30 3\n", b"30 30 4\n", 1), 4),
    (THREE.replace(b"TIGERCERT 2", b"TIGERCERT 1"), 3),
]


def number(word, low, high):
    """The number that a word spells, or none: no leading zero, no plus and no -0."""
    digits = word[1:] if word[:1] == b"-" else word
    if not digits or any(byte not in b"0123456789" for byte in digits):
        return None
    value = int(word)
    return value if str(value).encode() == word and low <= value <= high else None


def can_have(version, trees, nodes):
    """Whether so many trees can have so many nodes in all."""
    more = nodes - trees
    return more == 0 or trees > 0 and (more >= 2 if version == 2 else more > 0 and more % 2 == 0)


class Refused(Exception):
    """The text is that of no certificate: the line that none has."""


class Lines:
    """The lines of a text, taken one after the other."""

    def __init__(self, text):
        self.text, self.taken = text, 0

    def take(self, letter, *ranges):
        """The numbers of the next line, which has this letter and as many numbers in these ranges."""
        line, feed, rest = self.text.partition(b"\n")
        words = line.split(b" ")
        values = [number(word, *span) for word, span in zip(words[1:], ranges)]
        if not feed or words[0] != letter or len(words) != 1 + len(ranges) or None in values:
            raise Refused(self.taken + 1)
        self.text, self.taken = rest, self.taken + 1
        return values

    def refuse_last(self):
        raise Refused(self.taken)


COUNT = (0, 2**32 - 1)
PLACE = (-(2**31), 2**31 - 1)


def read(text):
    """How many nodes, rounds and walks the certificate has; or the line that is refused is raised."""
    lines = Lines(text)
    (version,) = lines.take(b"TIGERCERT", (1, 2))
    lines.take(b"C", COUNT, COUNT, COUNT, COUNT)
    (nodes,) = lines.take(b"T", COUNT)
    trees, left = min(nodes, 1), nodes
    if not can_have(version, trees, left):
        lines.refuse_last()
    while left:
        if lines.text[:1] == b"B":
            extra = [(2, 8)] if version == 2 else []
            children = (lines.take(b"B", *[PLACE] * 4, *extra) + [2])[4]
            trees, left = trees - 1 + children, left - 1
        else:
            children, items = 0, lines.take(b"L", *[PLACE] * 4, (1, 8))[4]
            trees, left = trees - 1, left - 1
        if not can_have(version, trees, left):
            lines.refuse_last()
        if not children:
            for _ in range(items):
                lines.take(b"S", COUNT)
    lists = []
    for letter, each in ((b"N", b"R"), (b"W", b"K")):
        lists += lines.take(letter, COUNT)
        for _ in range(lists[-1]):
            (darts,) = lines.take(each, (1, 2**32 - 1))
            for _ in range(darts):
                lines.take(b"D", COUNT)
    lines.take(b"END")
    if lines.text:
        raise Refused(lines.taken + 1)
    return [nodes, *lists]


def wanted(text):
    """The status, the output, and the certificate that is made."""
    try:
        nodes, rounds, walks = read(text)
    except Refused as refused:
        return 2, b"certificate fault K1 Text line %d\n" % refused.args, None
    made = text.replace(b"TIGERCERT 1\n", b"TIGERCERT 2\n", 1)
    if text.startswith(b"TIGERCERT 1\n"):
        # In version 2 an inner node tells its children.
        made = b"".join(
            line[:-1] + b" 2\n" if line[:2] == b"B " else line for line in made.splitlines(keepends=True)
        )
    return 0, b"converted nodes=%d rounds=%d walks=%d\n" % (nodes, rounds, walks), made


def leave_little():
    """Leaves the program that is to run little memory."""
    resource.setrlimit(resource.RLIMIT_AS, (ROOM, ROOM))


def answer(program, folder, text, prepare=None):
    old, new = Path(folder) / "old", Path(folder) / "new"
    old.write_bytes(text)
    new.unlink(missing_ok=True)
    ran = subprocess.run([program, "convert", old, new], capture_output=True, check=False, preexec_fn=prepare)
    made = new.read_bytes() if new.exists() else None
    return (ran.returncode, ran.stdout, made) if not ran.stderr else (ran.returncode, ran.stderr, made)


def play(program, texts, prepare=None):
    """How many of the texts are answered well, and how many ill."""
    ill = 0
    with tempfile.TemporaryDirectory(dir="/dev/shm" if Path("/dev/shm").is_dir() else None) as folder:
        for text in texts:
            if answer(program, folder, text, prepare) != wanted(text):
                ill += 1
                sys.stdout.write(f"certificates: another answer for {text!r}\n")
    return len(texts) - ill, ill


def changed(text, others=range(256)):
    """Each text that differs from this one in one byte, which is one of these."""
    for index, byte in enumerate(text):
        for other in others:
            if other != byte:
                yield text[:index] + bytes([other]) + text[index + 1 :]


def build(program, folder, name, out):
    """What is printed where a certificate is built to this name."""
    return subprocess.run([program, "build", "--out", out, name], cwd=folder, capture_output=True, check=False).stdout


def to_file(program, folder, name):
    """What is built to a file, and what is printed."""
    printed = build(program, folder, name, "made")
    return Path(folder, "made").read_bytes(), printed


def to_pipe(program, folder, name):
    """What is built to a named pipe, and what is printed."""
    os.mkfifo(Path(folder, "pipe"))
    with open(Path(folder, "piped"), "wb") as piped, subprocess.Popen(["cat", "pipe"], cwd=folder, stdout=piped) as reader:
        printed = build(program, folder, name, "pipe")
        try:
            reader.wait(timeout=60)
        except subprocess.TimeoutExpired:
            reader.kill()
    Path(folder, "pipe").unlink()
    return Path(folder, "piped").read_bytes(), printed


def to_output(program, folder, name):
    """What is built to the standard output, and what is printed behind it."""
    made, end, printed = build(program, folder, name, "/dev/stdout").partition(b"END\n")
    return made + end, printed


def is_built(made, printed, count):
    """The text is that of a certificate of so many by so many squares, and their numbers are printed."""
    try:
        _, rounds, walks = read(made)
    except Refused:
        return False
    numbers = report_of(count)
    head = "TIGERCERT 2\nC {} {} {} {}\n".format(*(it.split("=")[1] for it in numbers.split()[:4]))
    well = made.startswith(head.encode()) and printed == f"built {numbers}\n".encode()
    return well and (rounds, walks) == ((count + 1) ** 2, count**2 + 1)


def play_built(program):
    """How many certificates are built well, and how many ill."""
    well = ill = 0
    with tempfile.TemporaryDirectory() as folder:
        for count in (1, 2, 3, 8, 64):
            Path(folder, "squares").write_bytes(grid(count))
            for to in (to_file, to_pipe, to_output):
                right = is_built(*to(program, folder, "squares"), count)
                well, ill = well + right, ill + (not right)
                if not right:
                    sys.stdout.write(f"certificates: another one of {count} by {count} squares, {to.__name__}\n")
    return well, ill


def play_all(program=PROGRAM):
    for text, line in TABLE + ANNOUNCED:
        status, out, _ = wanted(text)
        told = None if status == 0 else int(out.split()[-1])
        if told != line:
            sys.exit(f"certificates: the plain reader says {told} of {text!r}, and the table {line}")
    texts = [text for text, _ in TABLE]
    texts += [whole[:size] for whole in (SQUARE, LONG) for size in range(len(whole))]
    texts += [*changed(SQUARE), *changed(LONG, OTHERS)]
    shares = [texts[part::4] for part in range(4)]
    with ThreadPoolExecutor(len(os.sched_getaffinity(0))) as pool:
        counts = list(pool.map(lambda share: play(program, share), shares))
    counts.append(play(program, [text for text, _ in ANNOUNCED], leave_little))
    counts.append(play_built(program))
    return sum(well for well, _ in counts), sum(ill for _, ill in counts)


if __name__ == "__main__":
    passed, failed = play_all(*sys.argv[1:2])
    print(f"certificates: {passed} of {passed + failed}")
    sys.exit(failed > 0)
