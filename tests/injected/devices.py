#!/usr/bin/env python3
"""Fails each read and each write of the built program in its turn, and the keys that it asks of the system for its hasher,
and looks for an answer that isn't what it has to be.

usage: devices.py [PROGRAM]

With a read that fails, interrupted or not, and where there are no keys, the program has to answer `stopped Device` with status 4 and print nothing else,
and to leave a file as it is over which it is to make a certificate. With a write that fails, interrupted or not, or takes
no byte, it has to say the same, behind a beginning of what it prints otherwise, and that file is as it was or holds the
whole certificate; with one that takes a single byte it has to answer as ever. It needs a C compiler, cc, and
glibc, whose calls it stands before.

Behind these, over the small maps alone: each file that can't be opened or read, each certificate that can't be made or
written, and outputs that are full or that nobody reads. More files than a process may open. And records that come through a pipe, which can't be read a second
time for what is said behind a refused line.
"""

import os
import re
import resource
import subprocess
import sys
import tempfile
from pathlib import Path

sys.path.append(str(Path(__file__).resolve().parents[1]))
from folders import EXAMPLES, PROGRAM

import hints
import judge
import placed
from memory import answer_over_a_file, library_of, standing
from small_maps import MADE, write_all

# How many files may be open at a time.
OPEN = 16
# What is asked beside what is asked of the small maps.
RUNS = [
    ["show", EXAMPLES / "square.RT1", EXAMPLES / "square.RT2"],
    ["show", EXAMPLES / "gap.RT1", EXAMPLES / "gap.RT2"],
    ["audit", EXAMPLES / "county"],
    ["audit", EXAMPLES / "faults" / "G1"],
    ["audit", EXAMPLES / "faults" / "G2"],
    ["audit", "--faces", EXAMPLES / "county"],
    ["audit", "--faces", EXAMPLES / "faults" / "G7"],
    ["audit", "--all", EXAMPLES / "county"],
    ["audit", "--all", EXAMPLES / "faults" / "L2"],
    ["audit", "--all", EXAMPLES / "faults" / "M9"],
    ["audit", "--all", "--most", "3", EXAMPLES / "faults" / "town"],
    ["audit", "--all", "--faces", EXAMPLES / "county"],
    ["audit", "--all", "--faces", EXAMPLES / "faults" / "G7"],
    ["audit", "--all", "--where", EXAMPLES / "faults" / "town"],
    ["audit", "--all", "--where", EXAMPLES / "faults" / "L2"],
    ["audit", "--json", EXAMPLES / "county"],
    ["audit", "--all", "--json", EXAMPLES / "faults" / "town"],
    ["audit", "--all", "--json", EXAMPLES / "faults" / "L2"],
    ["audit", "--geojson", MADE, EXAMPLES / "county"],
    ["audit", "--geojson", MADE, EXAMPLES / "faults" / "M9"],
    ["audit", "--all", "--where", "--geojson", MADE, EXAMPLES / "faults" / "town"],
    ["build", "--out", MADE, EXAMPLES / "county"],
    ["build", "--out", MADE, EXAMPLES / "faults" / "G1"],
    ["build", "--faces", "--out", MADE, EXAMPLES / "county"],
    ["build", "--faces", "--out", MADE, EXAMPLES / "faults" / "G7"],
    ["export", "--geojson", MADE, EXAMPLES / "county"],
    ["draw", "--out", MADE, "--faults", EXAMPLES / "faults" / "town"],
    ["border", "--name", "B", "--out", MADE, EXAMPLES / "county"],
    ["border", "--name", "B", "--out", MADE, EXAMPLES / "faults" / "G7"],
    ["convert", EXAMPLES / "square.CERT", MADE],
    ["check", "--cert", EXAMPLES / "county.CERT", EXAMPLES / "county"],
    ["check", "--faces", "--cert", EXAMPLES / "county.CERT", EXAMPLES / "county"],
    ["check", "--cert", EXAMPLES / "faults" / "G1.CERT", EXAMPLES / "faults" / "G1"],
    ["check", "--cert", EXAMPLES / "faults" / "G2.CERT", EXAMPLES / "faults" / "G2"],
    ["check", "--cert", EXAMPLES / "faults" / "K5.CERT", EXAMPLES / "square.RT1", EXAMPLES / "square.RT2", EXAMPLES / "square.RTI",
     EXAMPLES / "square.RTP"],
]
FAIL = r"""
#include <errno.h>
#include <stdlib.h>
#include <sys/syscall.h>
#include <unistd.h>

static long failed_read, interrupted_read, failed_keys, failed_write, interrupted_write, empty_write, short_write, told;

static long number(const char *name) {
    const char *which = getenv(name);
    return which ? atol(which) : 0;
}

__attribute__((constructor)) static void begin(void) {
    failed_read = number("FAILED_READ");
    interrupted_read = number("INTERRUPTED_READ");
    failed_keys = number("FAILED_KEYS");
    failed_write = number("FAILED_WRITE");
    interrupted_write = number("INTERRUPTED_WRITE");
    empty_write = number("EMPTY_WRITE");
    short_write = number("SHORT_WRITE");
    told = number("TOLD_TO");
}

/* Says that the call was reached. */
static int is_it(long *left) {
    if (*left == 0 || --*left > 0) return 0;
    (void)!syscall(SYS_write, told, "r", 1);
    return 1;
}

ssize_t read(int file, void *bytes, size_t count) {
    if (is_it(&failed_read)) return errno = EIO, -1;
    if (is_it(&interrupted_read)) return errno = EINTR, -1;
    return syscall(SYS_read, file, bytes, count);
}

int getentropy(void *bytes, size_t count) {
    if (is_it(&failed_keys)) return errno = EIO, -1;
    return syscall(SYS_getrandom, bytes, count, 0) == (long)count ? 0 : -1;
}

ssize_t write(int file, const void *bytes, size_t count) {
    if (is_it(&failed_write)) return errno = EIO, -1;
    if (is_it(&interrupted_write)) return errno = EINTR, -1;
    if (is_it(&empty_write)) return 0;
    if (is_it(&short_write)) return syscall(SYS_write, file, bytes, count > 1 ? 1 : count);
    return syscall(SYS_write, file, bytes, count);
}
"""


def is_stopped(answer, left, usual, whole, stood):
    """A device failed: that is said, behind a beginning of what is printed otherwise. What stood stands, or it is whole."""
    status, printed, told = answer
    stopped = status == 4 and told == b"stopped Device\n" and usual[1].startswith(printed)
    return stopped and left in (stood, whole)


def is_stopped_at_once(answer, left, usual, whole, stood):
    return answer == (4, b"", b"stopped Device\n") and left == stood


def is_usual(answer, left, usual, whole, stood):
    return (answer, left) == (usual, whole)


KINDS = {"FAILED_READ": is_stopped_at_once, "INTERRUPTED_READ": is_stopped_at_once, "FAILED_KEYS": is_stopped_at_once,
         "FAILED_WRITE": is_stopped, "INTERRUPTED_WRITE": is_stopped, "EMPTY_WRITE": is_stopped, "SHORT_WRITE": is_usual}


# A file that isn't there, a folder, and a file that can be opened and of which no byte can be read.
UNREADABLE = ["none", ".", "/proc/self/mem"]
# One that can't be made, a folder, and a device that takes no byte.
UNWRITABLE = ["none/made", ".", "/dev/full"]
DEVICE = (4, b"", b"stopped Device\n")


class Count:
    def __init__(self):
        self.passed = self.failed = 0

    def count(self, is_well, wrong):
        self.passed, self.failed = self.passed + is_well, self.failed + (not is_well)
        if not is_well:
            print(wrong)


def play_calls(count, ask, runs):
    """Fails each read and each write in its turn, and the keys of the hasher."""
    for words in runs:
        usual, whole, _ = ask(words, 0, "FAILED_READ")
        # These are of how the file begins that stands there, and are tried again: the first, and where another takes its name the last.
        of_what_stands = [1] if MADE in words else []
        for kind, is_well in KINDS.items():
            for which in range(1, 1_000):
                answer, left, was_reached = ask(words, which, kind)
                if not was_reached:
                    if kind == "FAILED_READ" and whole != standing(words):
                        of_what_stands.append(which - 1)
                    break
                wrong = f"{' '.join(map(str, words))}: with {kind} {which}: {answer}, and the file {left[:40]}"
                is_again = kind == "INTERRUPTED_READ" and which in of_what_stands
                count.count((is_usual if is_again else is_well)(answer, left, usual, whole, standing(words)), wrong)


def answer_to(program, folder, words, **streams):
    """The answer, where a file stands under the name of what is made, and what it holds afterwards."""
    made = Path(folder, MADE)
    made.write_bytes(standing(words))
    streams = {"stdout": subprocess.PIPE, "stderr": subprocess.PIPE, **streams}
    done = subprocess.run([program, *words], cwd=folder, stdin=subprocess.DEVNULL, **streams)
    told = hints.without(done.stderr or b"", words, folder)
    return (done.returncode, done.stdout or b"", told), made.read_bytes()


def play_names(count, program, folder, runs):
    """Puts names of files that can't be read or written in place of each file's."""
    for words in runs:
        usual, _ = answer_to(program, folder, words)
        for place, word in enumerate(words):
            is_made = word == MADE
            if not is_made and not Path(folder, word).is_file():
                continue
            # Of a map with a fault no certificate is made; but of its faults a file is, and of its chains.
            wanted = usual if is_made and usual[0] and words[0] not in ("audit", "export") else DEVICE
            for name in UNWRITABLE if is_made else UNREADABLE:
                asked = [*words[:place], name, *words[place + 1 :]]
                answer, left = answer_to(program, folder, asked)
                # Records may be for a pipe, so beside a device nothing is printed but them.
                due = (wanted[0], b"", wanted[1]) if words[0] == "border" and name == "/dev/full" and wanted is usual else wanted
                count.count((answer, left) == (due, standing(words)), f"{' '.join(asked)}: {answer}, and the file {left[:40]}")


def play_streams(count, program, folder, runs):
    """Runs with outputs that are full, or that nobody reads."""
    reader, closed = os.pipe()
    os.close(reader)
    with open("/dev/full", "wb") as full:
        for words in runs:
            usual, whole = answer_to(program, folder, words)
            for name, stream in [("a full output", full), ("a closed pipe", closed)]:
                answer, left = answer_to(program, folder, words, stdout=stream)
                is_well = answer == DEVICE and left in (standing(words), whole) if usual[1] else answer == usual
                count.count(is_well, f"{' '.join(words)}: with {name}: {answer}, and the file {left[:40]}")
            if words[0] != "convert":
                asked = [*words[:-1], "none"]
                answer, left = answer_to(program, folder, asked, stderr=full)
                count.count((answer, left) == ((4, b"", b""), standing(words)), f"{' '.join(asked)}: with a full error output: {answer}")
    os.close(closed)


def play_many(count, program, folder):
    """Gives more files than may be open at a time. It is said which one couldn't be opened, and what to type."""
    names = [f"{number}" for number in range(2 * OPEN)]
    for name in names:
        Path(folder, name).write_bytes((EXAMPLES / "square.RT1").read_bytes())
    limit = {"preexec_fn": lambda: resource.setrlimit(resource.RLIMIT_NOFILE, (OPEN, OPEN))}
    for words in (["audit"], ["audit", "--join"], ["build", "--out", MADE]):
        done = subprocess.run([program, *words, *names], cwd=folder, capture_output=True, **limit)
        told = re.fullmatch(rb"stopped Device\n  (\d+): Too many open files, which `ulimit -n 4096` may mend\n", done.stderr)
        is_well = (done.returncode, done.stdout) == (4, b"") and told and int(told[1]) < OPEN
        count.count(is_well, f"{' '.join(words)} with {len(names)} files: {done}")


def play_pipes(count, program, folder):
    """Gives records through a pipe, by itself and behind a file. They are told as those of a file are, but that nothing is said behind a
    refused line where it is a stop."""
    made = Path(folder, MADE)
    Path(folder, "skipped").write_text("a line that holds no record\n")
    for name in ("town", "G2", "M8", "L2"):
        file = EXAMPLES / "faults" / name
        text = file.read_bytes()
        listed = answer_to(program, folder, ["audit", "--all", file])[0]
        ask = {"cwd": folder, "input": text, "capture_output": True}
        for words in (["--all", "--where"], ["--where"], ["--json"], ["--all", "--json"], ["--all", "--where", "skipped"],
                      ["--all", "--skip-refused"], ["--all", "--where", "--skip-refused"]):
            done = subprocess.run([program, "audit", *words, file], **ask)
            told = done.stderr if done.stdout else done.stderr[:done.stderr.find(b"\n") + 1]
            wanted = (done.returncode, *(it.replace(bytes(file), b"/dev/stdin") for it in (done.stdout, told)))
            done = subprocess.run([program, "audit", *words, "/dev/stdin"], **ask)
            answer = (done.returncode, done.stdout, done.stderr)
            count.count(answer == wanted, f"{name} through a pipe: {' '.join(words)}: {answer}, and not {wanted}")
        made.unlink(missing_ok=True)
        done = subprocess.run([program, "audit", "--all", "--geojson", MADE, "/dev/stdin"], **ask)
        answer = (done.returncode, done.stdout, done.stderr)
        county = judge.County([text])
        told = [it for it in listed[1].decode().split("\n") if it.startswith("map fault ")]
        faults = county.drawn_faults(["/dev/stdin"], [text])
        refused = county.records.refusals
        wanted = faults.refused_features(refused) if refused else faults.features(told)
        touched = re.search(rb"\ntouched polygons=(\d+) ", listed[1])
        wrong = placed.wrong_collection(made.read_bytes() if made.exists() else b"", wanted, int(touched[1]) if touched else 0)
        count.count(answer == listed and not wrong, f"{name} through a pipe: {answer}: {wrong}")


def play_pipes_behind(count, program, folder):
    """Gives records through a pipe behind a file with a refused line, and through one that is given twice, which has no line the second time:
    they are told as those of two files are."""
    refused, behind = EXAMPLES / "faults" / "L2", EXAMPLES / "square.RT1"
    ask = {"cwd": folder, "input": behind.read_bytes(), "capture_output": True}
    listing = ["audit", "--all", "--where"]
    for words, pipes in (["audit"], 1), (["show"], 1), (listing, 2), (["audit", "--all", "--json"], 2), ([*listing, "--skip-refused"], 2):
        wanted = subprocess.run([program, *words, refused, behind], **ask)
        done = subprocess.run([program, *words, refused, *["/dev/stdin"] * pipes], **ask)
        answers = [(it.returncode, it.stdout.replace(bytes(behind), b"/dev/stdin"), it.stderr) for it in (done, wanted)]
        count.count(answers[0] == answers[1], f"{' '.join(words)} with {pipes} pipes behind a refused line: {answers[0]}, and not {answers[1]}")


def play_all(program=PROGRAM):
    """How many failed calls were answered well, and how many weren't."""
    count = Count()
    with tempfile.TemporaryDirectory() as folder:
        library = library_of(folder, FAIL)
        small = write_all(folder)
        play_calls(count, lambda words, which, kind: answer_over_a_file([program, *words], library, which, kind, folder), RUNS + small)
        play_names(count, program, folder, small)
        play_streams(count, program, folder, small)
        play_many(count, program, folder)
        play_pipes(count, program, folder)
        play_pipes_behind(count, program, folder)
    return count.passed, count.failed


if __name__ == "__main__":
    passed, failed = play_all(*sys.argv[1:2])
    print(f"{passed} passed, {failed} failed")
    sys.exit(failed > 0 or passed == 0)
