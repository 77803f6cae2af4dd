#!/usr/bin/env python3
"""Refuses each allocation of the built program in its turn, and looks for an answer that changes in its place.

usage: memory.py [PROGRAM]

With each allocation refused, the program has to answer `stopped Memory` with status 4 and print nothing else, or, where
it can do without that allocation, what it answers otherwise. A certificate that it is to make over a file is made whole
then, and beside `stopped Memory` it is whole or the file is as it was. Of words that are no use of a command it may say
that alone, and not why. It needs a C compiler, cc, and glibc, whose malloc it stands before.
"""

import os
import subprocess
import sys
import tempfile
from pathlib import Path

sys.path.append(str(Path(__file__).resolve().parents[1]))
from folders import EXAMPLES, PROGRAM

import hints
from rows import ROWS, rows_of
from small_maps import MADE, write_all

# What stands under the name of what is made before each run.
STANDS = b"TIGERCERT 2\na file that stands\n"
# And of what isn't a certificate: of GeoJSON, and of a picture.
COLLECTION_STANDS = b'{"type":"FeatureCollection","name":"tigertopo"\n'
PICTURE_STANDS = b'<svg xmlns="http://www.w3.org/2000/svg" class="tigertopo"\n'
BORDER_STANDS = b"1EDGE an old one\n"
# What is said of words that are no use of a command, where memory was refused for a text that says why.
NO_USE = (64, b"", b"error: the words are no use of a command\n")
# What is asked beside what is asked of the small maps.
RUNS = [
    ["show", EXAMPLES / "square.RT1", EXAMPLES / "square.RT2"],
    ["show", EXAMPLES / "river.RT2", EXAMPLES / "river.RT1"],
    ["show", EXAMPLES / "gap.RT1", EXAMPLES / "gap.RT2"],
    ["show", EXAMPLES / "north.RT1"],
    ["landmarks", EXAMPLES / "faults" / "M9"],
    ["landmarks", EXAMPLES / "faults" / "M10"],
    ["locate", "@16,16", EXAMPLES / "faults" / "M9"],
    ["locate", "@180000001,0", "a"],
    ["audit", EXAMPLES / "county"],
    ["audit", EXAMPLES / "north.RT1"],
    ["audit", EXAMPLES / "faults" / "M9"],
    ["audit", EXAMPLES / "faults" / "G1"],
    ["audit", EXAMPLES / "faults" / "G2"],
    ["audit", "--zero-cells", EXAMPLES / "faults" / "G6"],
    ["audit", "--faces", EXAMPLES / "county"],
    ["audit", "--faces", EXAMPLES / "faults" / "G2"],
    ["audit", "--faces", EXAMPLES / "faults" / "G7"],
    ["audit", "--all", EXAMPLES / "county"],
    ["audit", "--all", EXAMPLES / "north.RT1"],
    ["audit", "--all", EXAMPLES / "faults" / "M9"],
    ["audit", "--all", EXAMPLES / "faults" / "town"],
    ["audit", "--all", "--zero-cells", EXAMPLES / "faults" / "G6"],
    ["audit", "--all", EXAMPLES / "faults" / "G2"],
    ["audit", "--all", "--faces", EXAMPLES / "county"],
    ["audit", "--all", "--faces", EXAMPLES / "faults" / "G7"],
    ["audit", "--all", "--faces", EXAMPLES / "faults" / "M9"],
    ["audit", "--most", "5", "a"],
    ["audit", "--where", EXAMPLES / "faults" / "M9"],
    ["audit", "--where", "--zero-cells", EXAMPLES / "faults" / "G6"],
    ["audit", "--where", EXAMPLES / "north.RT1"],
    ["audit", "--all", "--where", EXAMPLES / "faults" / "M12"],
    ["audit", "--all", "--most", "3", "--where", EXAMPLES / "faults" / "town"],
    ["audit", "--all", "--where", EXAMPLES / "faults" / "town"],
    ["audit", "--json", EXAMPLES / "county"],
    ["audit", "--json", EXAMPLES / "faults" / "G2"],
    ["audit", "--json", EXAMPLES / "faults" / "L2"],
    ["audit", "--all", "--json", "--geojson", MADE, EXAMPLES / "faults" / "M10"],
    ["audit", "--geojson", MADE, EXAMPLES / "county"],
    ["audit", "--geojson", MADE, EXAMPLES / "faults" / "G2"],
    ["audit", "--all", "--geojson", MADE, EXAMPLES / "faults" / "town"],
    ["audit", "--all", "--where", "--geojson", MADE, EXAMPLES / "faults" / "M10"],
    ["audit", "--all", "--geojson", MADE, EXAMPLES / "faults" / "L2"],
    ["audit", "--geojson", "a", "--most", "5", "a"],
    ["build", "--out", MADE, EXAMPLES / "county"],
    ["build", "--out", MADE, EXAMPLES / "north.RT1"],
    ["build", "--out", MADE, EXAMPLES / "faults" / "G1"],
    ["build", "--out", MADE],
    ["build", "--faces", "--out", MADE, EXAMPLES / "county"],
    ["build", "--faces", "--out", MADE, EXAMPLES / "faults" / "G7"],
    ["export", "--geojson", MADE, EXAMPLES / "county"],
    ["export", "--geojson", MADE, EXAMPLES / "faults" / "G1"],
    ["draw", "--out", MADE, EXAMPLES / "county"],
    ["draw", "--out", MADE, "--faults", EXAMPLES / "faults" / "town"],
    ["draw", "--out", MADE, "--at", "@40,30", "--width", "20", EXAMPLES / "county"],
    ["export", "--geojson", MADE, EXAMPLES / "faults" / "L2"],
    ["border", "--name", "B", "--out", MADE, EXAMPLES / "county"],
    ["border", "--name", "B", "--out", MADE, EXAMPLES / "faults" / "G7"],
    ["border", "--name", "240011", "--out", MADE, EXAMPLES / "county"],
    ["draw", "--out", MADE, "--faults", EXAMPLES / "faults" / "M9"],
    ["convert", EXAMPLES / "square.CERT", MADE],
    ["check", "--cert", EXAMPLES / "county.CERT", EXAMPLES / "county"],
    ["check", "--cert", EXAMPLES / "county.CERT", "--tests", "1", EXAMPLES / "county"],
    ["check", "--faces", "--cert", EXAMPLES / "county.CERT", EXAMPLES / "county"],
    ["check", "--cert", EXAMPLES / "square.CERT", EXAMPLES / "county"],
    ["check", "--cert", EXAMPLES / "faults" / "G1.CERT", EXAMPLES / "faults" / "G1"],
    ["check", "--zero-cells", "--cert", EXAMPLES / "square.CERT", EXAMPLES / "faults" / "G6"],
    ["check", "--cert", "a", "--tests", "05", "b"],
    ["--version"],
    ["show", "--help"],
    ["show"],
    ["shown", "a"],
]
# What is asked of the files of rows, where records stand in no order or have numbers of more than 32 bits.
OF_ROWS = [
    ("show.rows", "chains come by rising TLID, to the limits of coordinates and with their signs", ["show", "two"]),
    ("audit.rows", "ids and a POLYID of more than 32 bits", ["audit", "--zero-cells", "B"]),
    (
        "landmarks.rows",
        "landmarks by their first records, with that record's point; links in their order, whatever the order of lines",
        ["landmarks", "links", "square"],
    ),
]
REFUSE = r"""
#include <stdlib.h>
#include <unistd.h>

void *__libc_malloc(size_t);
void *__libc_calloc(size_t, size_t);
void *__libc_realloc(void *, size_t);
void *__libc_memalign(size_t, size_t);

static long left;
static int told;

__attribute__((constructor)) static void begin(void) {
    const char *which = getenv("REFUSED_ALLOCATION"), *to = getenv("TOLD_TO");
    left = which ? atol(which) : 0;
    told = to ? atoi(to) : -1;
}

/* Says that the allocation was reached. */
static int refused(void) {
    if (left == 0 || --left > 0) return 0;
    (void)!write(told, "r", 1);
    return 1;
}

void *malloc(size_t n) { return refused() ? 0 : __libc_malloc(n); }
void *calloc(size_t k, size_t n) { return refused() ? 0 : __libc_calloc(k, n); }
void *realloc(void *p, size_t n) { return refused() ? 0 : __libc_realloc(p, n); }
void *aligned_alloc(size_t a, size_t n) { return refused() ? 0 : __libc_memalign(a, n); }
void *memalign(size_t a, size_t n) { return refused() ? 0 : __libc_memalign(a, n); }
int posix_memalign(void **p, size_t a, size_t n) { return refused() ? 12 : (*p = __libc_memalign(a, n)) ? 0 : 12; }
"""


def library_of(folder, source):
    """A library that stands before the C library's calls, built from its source."""
    library = f"{folder}/before.so"
    subprocess.run(["cc", "-shared", "-fPIC", "-O1", "-o", library, "-x", "c", "-"], input=source, text=True, check=True)
    return library


def answer_of(words, library, which, asked="REFUSED_ALLOCATION", folder=None):
    """The answer with that allocation refused, or the call that is asked for failed, and whether the program came to it."""
    reached, told = os.pipe()
    environment = {**os.environ, "LD_PRELOAD": library, asked: str(which), "TOLD_TO": str(told)}
    done = subprocess.run(words, env=environment, capture_output=True, pass_fds=[told], cwd=folder)
    os.close(told)
    was_reached = os.read(reached, 1) == b"r"
    os.close(reached)
    return (done.returncode, done.stdout, hints.without(done.stderr, words[1:], folder or ".")), was_reached


def standing(words):
    """What stands under the name of what these words make, before."""
    if "--geojson" in words:
        return COLLECTION_STANDS
    return {"draw": PICTURE_STANDS, "border": BORDER_STANDS}.get("".join(words[:1]), STANDS)


def answer_over_a_file(words, library, which, asked, folder):
    """The same where a file stands under the name of what is made, and what it holds afterwards."""
    made = Path(folder, MADE)
    made.write_bytes(standing(words[1:]))
    answer, was_reached = answer_of(words, library, which, asked, folder)
    return answer, made.read_bytes(), was_reached


def is_well(answer, left, usual, whole, stood):
    """Memory was refused, and what is made is whole or the file is as it was; or the program could do without."""
    if usual[0] == 64 and (answer, left) == (NO_USE, stood):
        return True
    return (answer, left) == (usual, whole) or answer == (4, b"", b"stopped Memory\n") and left in (stood, whole)


def write_rows(folder):
    """Writes the files of the rows into the folder, and gives the words of all runs over them."""
    for rows, title, _ in OF_ROWS:
        files = next(row.files for row in rows_of(ROWS / rows) if row.title == title)
        for name, text in files.items():
            Path(folder, name).write_bytes(text)
    return [words for _, _, words in OF_ROWS]


def play_all(program=PROGRAM):
    """How many refused allocations were answered well, and how many weren't."""
    with tempfile.TemporaryDirectory() as folder:
        library = library_of(folder, REFUSE)
        ask = lambda words, which: answer_over_a_file([program, *words], library, which, "REFUSED_ALLOCATION", folder)
        count = failed = 0
        for words in RUNS + write_all(folder) + write_rows(folder):
            usual, whole, _ = ask(words, 0)
            for which in range(1, 10_000):
                answer, left, was_reached = ask(words, which)
                if not was_reached:
                    break
                count += 1
                if not is_well(answer, left, usual, whole, standing(words)):
                    failed += 1
                    print(f"{' '.join(map(str, words))}: with allocation {which} refused: {answer}, and the file {left[:40]}")
    return count - failed, failed


if __name__ == "__main__":
    passed, failed = play_all(*sys.argv[1:2])
    print(f"{passed} passed, {failed} failed")
    sys.exit(failed > 0 or passed == 0)
