#!/usr/bin/env python3
"""Plays the rows of the files *.rows over the built program, and those of bench.rows over `bench`: files, words, and the
answer that is wanted.

usage: rows.py [PROGRAM]

A row begins with a line `== TITLE`. Then come its files:

    like TITLE      the files of an earlier row
    file NAME       its lines follow indented; layout.py says how a line is written; behind `for A..B:` a line is
                    written for each number from A to B, which stands for `{}`; in NAME `\\xNN` is a byte
    text NAME       its lines follow indented as they stand, several of them with ` / ` between two, or so for each number
    swap NAME A -> B    the file with the lines B in place of the lines A, which stand in it once, each written as in `text`
    cut NAME N      the file's first N bytes alone, or with N below 0 all but so many

    grid NAME K     a map of K by K squares, as grids.py makes it

and then `run WORD ..`, words as a shell splits them, where `\\xNN` is a byte, run in a folder that holds the files alone;
`status N`; and `out` and `err`, whose texts follow indented, and are empty where they are left out; `or` begins another
output that is as good. What is said behind a refused line and behind `stopped Device` no row has: tests/judge/hints.py
tells it, and it has to be there. Several `run` lines in one row share its files and its answer. Each stream is compared byte for byte. A run has to leave the files as they are and to make no other, but for those of a line `makes NAME ..`, and of a line
`holds NAME`, behind which the lines that the file has to hold follow indented. A line
`then WORD ..` has words that are run behind each run, in the same folder; what follows it is their answer.

A line `decided WORD ..` has what stands behind `audit`, whose answer is the row's. The same is asked of `build`, which says
`built` where `audit` says `sound` and makes a certificate then; `check` is run behind it, with as many tests as there are
pairs of segments, and has to answer what `audit` does. Where the map isn't sound, no file is made.

A row with a line `grids K ..` is played for a map of so many squares, or of A to B as `A..B`, and wants the answer of `audit`
to it that grids.py counts.

A row with a line `refuses` has a line for each of many small files: the one line of the file, `->`, and why `show` refuses
it. A row with a line `beginnings NAME` has a line for each of many beginnings of that file: how many bytes, or from how
many to how many, as `1..14`; `->`; and the line that is wanted, or several with ` or ` between two, or its front before ` ..`,
or `not` and what its front is not.
"""

import copy
import re
import shlex
import subprocess
import sys
import tempfile
from pathlib import Path

sys.path.append(str(Path(__file__).resolve().parents[1]))
from folders import BENCH, PROGRAM

import hints
from grids import grid, report_of
from layout import bytes_of, line_of

ROWS = Path(__file__).resolve().parent
# The line by which `bench` tells what a step took.
STEP = re.compile(rb"^[a-z ]+: \d+ us\n", re.MULTILINE)


# The status of an answer by its first word, and whether it is written to the standard output.
KINDS = {b"sound": (0, True), b"map": (1, True), b"certificate": (2, True), b"refused": (3, False), b"stopped": (4, False)}


class Row:
    def __init__(self, title):
        self.title, self.files, self.runs, self.status = title, {}, [], 0
        self.texts = {"out": b"", "err": b""}
        self.others = []
        self.refuses = []
        self.beginnings = []
        self.decided = []
        self.grids = []
        self.makes = set()
        self.holds = {}
        self.then = None

    @property
    def outputs(self):
        """What the standard output may hold."""
        return [self.texts["out"], *self.others]

    @property
    def wanted(self):
        """The answers of which one is wanted: a status and what each stream holds."""
        return [(self.status, out, self.texts["err"]) for out in self.outputs]

    def is_met(self, found):
        return found in self.wanted


class Beginning(Row):
    """A row of a beginning of a file, of whose answer a front is wanted, or is not wanted."""

    def __init__(self, row, name, count, wanted):
        super().__init__(f"{row.title}: {count} bytes of {name}")
        self.files = {**row.files, name: row.files[name][:count]}
        self.runs, self.line = row.runs, wanted

    @property
    def wanted(self):
        return self.line

    def is_met(self, found):
        status, out, err = found
        kind = KINDS.get((out or err).split(b" ")[0])
        if kind is None or (out != b"") == (err != b"") or kind != (status, out != b""):
            return False
        text = (out or err).decode()
        if self.line.startswith("not "):
            return not text.startswith(self.line[4:])
        if self.line.endswith(" .."):
            return text.startswith(self.line[:-3])
        return text in [line + "\n" for line in self.line.split(" or ")]


def each_of(line):
    """The line for each of its numbers, if it has such, or the line."""
    repeated = re.fullmatch(r"for (\d+)\.\.(\d+): (.*)", line)
    if not repeated:
        return [line]
    first, last, rest = int(repeated[1]), int(repeated[2]), repeated[3]
    return [rest.replace("{}", str(number)) for number in range(first, last + 1)]


def records_of(line):
    """The bytes of the records that are written as one line."""
    return b"".join(map(line_of, each_of(line)))


def text_of(line):
    """The bytes of the lines that are written as one."""
    return b"".join(it.replace(" / ", "\n").encode() + b"\n" for it in each_of(line))


def refused(title, line, cause):
    row = Row(f"{title}: {line}")
    row.files, row.runs, row.status = {"one": line_of(line)}, [["show", "one"]], 3
    row.texts["err"] = f"refused line 1 {cause}\n".encode()
    return row


def swapped(text, old, new):
    """The text with other lines in place of some."""
    old, new = text_of(old.strip()), text_of(new.strip()) if new.strip() else b""
    assert (b"\n" + text).count(b"\n" + old) == 1, old
    return (b"\n" + text).replace(b"\n" + old, b"\n" + new)[1:]


def beginnings(row, name, counts, wanted):
    first, _, last = counts.partition("..")
    return [Beginning(row, name, count, wanted) for count in range(int(first), int(last or first) + 1)]


def plain(line):
    return line.encode() + b"\n"


def audits(row, words):
    """The row of `audit` with these words."""
    row = copy.copy(row)
    row.title, row.runs, row.decided = f"{row.title}, by audit", [["audit", *words]], []
    return row


def builds(row, words):
    """The row of `build` with these words, and of `check` behind it where the map is sound."""
    built = copy.copy(row)
    built.title, built.runs, built.decided = f"{row.title}, by build", [["build", "--out", "made", *words]], []
    sound = re.fullmatch(rb"sound (.* segments=(\d+) .*\n)", row.texts["out"])
    if sound:
        segments = int(sound[2])
        built.texts = {**row.texts, "out": b"built " + sound[1]}
        built.makes = {"made"}
        built.then = copy.copy(row)
        built.then.runs = [["check", "--cert", "made", "--tests", str(segments * (segments - 1) // 2), *words]]
    return built


def decided(row, words):
    """The rows of a map that `audit` and `build` decide, the latter also where a file of that name stands."""
    over = builds(row, words)
    over.title, over.files = f"{over.title} over a file", {**row.files, "made": b"TIGERCERT 2\nan old one\n"}
    return [audits(row, words), builds(row, words), over]


def gridded(title, counts):
    """The rows of a map of squares."""
    first, _, last = counts.partition("..")
    rows = []
    for count in range(int(first), int(last or first) + 1):
        row = Row(f"{title}, {count} by {count}")
        row.files, row.texts["out"] = {"grid": grid(count)}, f"sound {report_of(count)}\n".encode()
        rows += decided(row, ["grid"])
    return rows


def words_of(line):
    """The words of a line, as a shell splits them."""
    return shlex.split(line.replace("\\x", "\\\\x"))


def end_texts(row):
    """An empty line before the next row belongs to no text."""
    while row:
        for texts in (row.texts, row.holds):
            for name, text in texts.items():
                texts[name] = text.rstrip(b"\n") + b"\n" if text else b""
        row.others = [text.rstrip(b"\n") + b"\n" for text in row.others]
        row = row.then


def rows_of(path):
    rows, into, answer = [], None, None
    for number, line in enumerate(path.read_text().splitlines(), 1):
        if line.startswith("== "):
            rows.append(Row(line[3:]))
            into, answer = None, rows[-1]
        elif line.startswith("    ") and isinstance(into, list):
            into.append(line.strip().split(" -> "))
        elif line.startswith("    ") and isinstance(into, tuple):
            into[0][into[1]] += into[2](line[4:])
        elif line == "" and isinstance(into, tuple) and into[2] is plain and into[0][into[1]]:
            into[0][into[1]] += b"\n"
        elif line == "" or line.startswith("#"):
            into = None if line.startswith("#") else into
        else:
            word, _, rest = line.partition(" ")
            row, into = rows[-1], None
            if word == "file":
                name = bytes_of(words_of(rest)[0]).decode()
                row.files[name] = b""
                into = (row.files, name, records_of)
            elif word == "text":
                row.files[rest] = b""
                into = (row.files, rest, text_of)
            elif word == "like":
                row.files.update(next(it for it in rows if it.title == rest).files)
            elif word == "grid":
                name, count = rest.split()
                row.files[name] = grid(int(count))
            elif word == "cut":
                name, count = rest.split()
                row.files[name] = row.files[name][: int(count)]
            elif word == "swap":
                name, _, change = rest.partition(" ")
                row.files[name] = swapped(row.files[name], *change.split("->"))
            elif word == "refuses":
                into = row.refuses
            elif word == "beginnings":
                row.beginnings.append((rest, []))
                into = row.beginnings[-1][1]
            elif word == "run":
                row.runs.append(words_of(rest))
            elif word == "decided":
                row.decided.append(words_of(rest))
            elif word == "grids":
                row.grids = rest.split()
            elif word == "makes":
                answer.makes = set(rest.split())
            elif word == "holds":
                answer.makes = answer.makes | {rest}
                answer.holds[rest] = b""
                into = (answer.holds, rest, plain)
            elif word == "then":
                answer.then = Row(row.title)
                answer = answer.then
                answer.runs = [words_of(rest)]
            elif word == "status":
                answer.status = int(rest)
            elif word in answer.texts:
                into = (answer.texts, word, plain)
            elif word == "or":
                answer.others.append(b"")
                into = (answer.others, -1, plain)
            else:
                sys.exit(f"{path.name}:{number}: no such line")
    for row in rows[:]:
        end_texts(row)
        rows += [refused(row.title, *it) for it in row.refuses]
        rows += [it for words in row.decided for it in decided(row, words)]
        rows += [it for counts in row.grids for it in gridded(row.title, counts)]
        for name, lines in row.beginnings:
            for line in lines:
                rows += beginnings(row, name, *line)
        # Of a row with beginnings each is played, and not the row.
        if row.beginnings:
            rows.remove(row)
    return rows


def play(program, row, words):
    """What is wrong with the program's answer to these words, or nothing."""
    with tempfile.TemporaryDirectory() as folder:
        for name, text in row.files.items():
            Path(folder, name).write_bytes(text)
        wrong = play_in(folder, program, row, words)
        while row.then and not wrong:
            row = row.then
            wrong = play_in(folder, program, row, row.runs[0])
    return wrong


def play_in(folder, program, row, words):
    """What is wrong with the answer in this folder, or with the files that are left in it."""
    before = files_of(folder, row.makes)
    done = subprocess.run([program, *map(bytes_of, words)], cwd=folder, stdin=subprocess.DEVNULL, capture_output=True)
    told = STEP.sub(b"", done.stderr) if program == BENCH else hints.without(done.stderr, map(bytes_of, words), folder, is_due=True)
    found = (done.returncode, done.stdout, told)
    if not row.is_met(found):
        return f"{row.title}: {shlex.join(words)}\n  wanted {row.wanted}\n  found  {found}"
    if files_of(folder, row.makes) != before or not all(Path(folder, name).is_file() for name in row.makes):
        return f"{row.title}: {shlex.join(words)}\n  another file was made or changed, or none"
    for name, wanted in row.holds.items():
        held = Path(folder, name).read_bytes()
        if held != wanted:
            return f"{row.title}: {shlex.join(words)}\n  {name} has to hold {wanted}\n  and holds {held}"
    return None


def files_of(folder, but):
    """The folder's files, but for these."""
    return {path.name: path.read_bytes() for path in Path(folder).iterdir() if path.name not in but}


def play_all(program=PROGRAM):
    """How many rows pass, and how many fail."""
    passed = failed = 0
    for path in sorted(ROWS.glob("*.rows")):
        if path.stem == "bench" and program != PROGRAM:
            continue
        played = BENCH if path.stem == "bench" else program
        for row in rows_of(path):
            for words in row.runs:
                wrong = play(played, row, words)
                passed, failed = passed + (not wrong), failed + bool(wrong)
                if wrong:
                    print(f"{path.name}: {wrong}")
    return passed, failed


if __name__ == "__main__":
    passed, failed = play_all(*sys.argv[1:2])
    print(f"{passed} passed, {failed} failed")
    sys.exit(failed > 0 or passed == 0)
