#!/usr/bin/env python3
"""Plays small counties that draw.py draws over the built program, and has judge.py judge each answer.

usage: judged.py [--seed SEED] [--cases N] [--only NUMBER] [--program PROGRAM]

First the judge is judged: it has to agree with each row of tests/rows/*.rows of which it can speak. Then each case is
asked for by `audit`, and by `audit --all`, whose whole output has to be the judge's list; with `--where`, whose lines of
records placed.py says, and with `--geojson`, whose file's features it says. It is asked for by others
too: `build`, whose certificate has to be valid by the judge, `check` by that certificate, by one that draw.py
proposes and by both changed, with a budget of tests at times, `locate`, `show` and `landmarks`. No expected value
comes from the program. A town that is drawn to be sound has to be so by the judge too.

The seed is printed, and with it each case can be drawn again. Of the first case that fails the lines are printed that
are left when each line is taken away that isn't needed for it to fail, with the program's answer and the judge's.
"""

import argparse
import multiprocessing
import os
import random
import re
import subprocess
import sys
import tempfile
import time
import traceback
from pathlib import Path

sys.path.append(str(Path(__file__).resolve().parents[1]))
from folders import PROGRAM, TOP

import draw
import hints
import judge
import placed
import rows

# In each gate; `make judge` plays more.
CASES = 3_000
# How many cases a process plays before it says how they went.
SHARE = 50
ROWS = ("all", "audit", "check", "complete", "fields", "join", "landmarks", "locate", "show")
# The rows' files above this many bytes are left to the program alone: the judge goes over all pairs of segments.
MOST_BYTES = 60_000


def judge_rows():
    """How many rows the judge agrees with, and with how many it doesn't."""
    well = ill = 0
    for name in ROWS:
        for row in rows.rows_of(rows.ROWS / f"{name}.rows"):
            for words in row.runs:
                agrees = row_agrees(row, words)
                well, ill = well + (agrees is True), ill + (agrees is False)
                if agrees is False:
                    print(f"{name}.rows: the judge says otherwise of {row.title}: {words}")
    return well, ill


def row_agrees(row, words):
    """Whether the judge agrees with the row's answer; None where it can't speak of it: help, words that are no command,
    a file that isn't there, and a want of memory or a device that fails."""
    if sum(map(len, row.files.values())) > MOST_BYTES or not set(words).isdisjoint(("--help", "-h")):
        return None
    is_front = isinstance(row.wanted, str)
    unheard = (b"stopped Device", b"stopped Memory")
    if not is_front and any(status == 64 or err.startswith(unheard) for status, _, err in row.wanted):
        return None
    try:
        opinion = judge.asked([rows.bytes_of(it).decode(errors="surrogateescape") for it in words], row.files.__getitem__)
    except KeyError:
        return None
    if opinion is None:
        return None
    if is_front:
        return any(row.is_met(output) for output in opinion.outputs)
    return all(opinion.allows(*answer) for answer in row.wanted)


class Table:
    """A folder where a case is laid out and the program is asked of it."""

    def __init__(self, program, folder):
        self.program, self.folder, self.printed = str(program), Path(folder), b""

    def lay(self, name, text):
        (self.folder / name).write_bytes(text)

    def ask(self, *words):
        how = {"cwd": self.folder, "stdin": subprocess.DEVNULL, "capture_output": True, "close_fds": False}
        done = subprocess.run([self.program, *words], check=False, **how)
        self.printed = done.stdout
        return done.returncode, done.stdout, hints.without(done.stderr, words, self.folder)


def complaints(table, case, chance):
    """What is wrong with the program's answers to the case, one after the other: each with its words."""
    chance = random.Random(chance)
    lines, switches = case.lines, case.switches
    is_complete = chance.random() < 0.15
    if is_complete:
        switches = [*switches, "--complete"]
        # At times all records of some types are left out.
        left_out = b"".join(chance.sample((b"1", b"2", b"I", b"P"), chance.choice((0, 1, 1, 2))))
        lines = [it for it in lines if it[:1] not in left_out or not it[:1]]
    text = b"".join(lines)
    at = chance.randrange(len(text) + 1)
    # Two files are read as one text with a line feed between them.
    texts = [text[:at], text[at:]] if chance.random() < 0.1 else [text]
    names = [f"records{number}" for number in range(len(texts))]
    for name, part in zip(names, texts):
        table.lay(name, part)
    county = judge.County(texts, "--zero-cells" in switches, "--released" in switches, complete=is_complete)
    # The other commands read no zero-cell ids, and ask for no records.
    others = judge.County(texts, released="--released" in switches) if "--zero-cells" in switches or is_complete else county
    reading = [it for it in switches if it == "--released"]

    def wrong(opinion, *words):
        found = table.ask(*words)
        if opinion.allows(*found):
            return []
        return [f"{' '.join(words)}\n  the program: {found}\n  the judge: {opinion.status} {opinion.answers[:9]}"]

    yield from wrong(county.audit(), "audit", *switches, *names)
    yield from wrong(county.audit_all(), "audit", "--all", *switches, *names)
    listed = [it for it in table.printed.decode("latin-1").split("\n") if it.startswith("map fault ")]
    if county.records.refusals or chance.random() < 0.02:
        yield from wrong(county.audit_skipping(), "audit", "--all", "--skip-refused", *switches, *names)
    if chance.random() < 0.1:
        most = chance.choice((1, 2, 2, 5))
        yield from wrong(county.audit_all(most), "audit", "--all", "--most", str(most), *switches, *names)
    parts = parts_of(chance, texts)
    names_of_parts = [f"part{number}" for number in range(len(parts))]
    for name, part in zip(names_of_parts, parts):
        table.lay(name, part)
    faults = county.drawn_faults(names_of_parts, parts)
    if faults.are_clear:
        yield from placed_complaints(table, chance, county, faults, listed, wrong, [*switches, *names_of_parts])
    if case.is_town and not is_complete and not county.report and len(texts) == 1:
        yield f"a town that was drawn to be sound isn't: {county.faults or county.map_faults}"
    made = table.folder / "made"
    made.unlink(missing_ok=True)
    if chance.random() < (0.4 if county.report else 0.15):
        yield from wrong(county.build(), "build", "--out", "made", *switches, *names)
        if made.exists() != bool(county.report):
            yield "build: a certificate was made, and the map isn't sound; or none was, and it is"
    is_built = made.exists() and county.report
    if is_built and judge.certificate_faults(county.map, made.read_bytes()):
        yield f"build: the certificate isn't valid: {judge.certificate_faults(county.map, made.read_bytes())[:9]}"
    for certificate, change in certificates_of(chance, case.town, made.read_bytes() if is_built else None):
        budget = chance.choice((None, None, None, 0, 3, 9, 60))
        table.lay("cert", certificate)
        tests = [] if budget is None else ["--tests", str(budget)]
        for it in wrong(county.check(certificate, budget), "check", "--cert", "cert", *tests, *switches, *names):
            yield f"{it}\n  the certificate, {change}: {certificate.decode('latin-1')}"
    for x, y in case.points[: chance.choice((0, 1, 1, 2))]:
        # Each of the two units, and of degrees no more decimals than are wanted at times.
        degrees = [placed.degrees(it, 6) for it in (x, y)]
        shortest = [it.rstrip("0") + "0" * it.rstrip("0").endswith(".") for it in degrees]
        word = "@" + ",".join(chance.choice(((str(x), str(y)), degrees, shortest)))
        yield from wrong(others.locate(judge.Point(x, y)), "locate", *reading, word, *names)
    if chance.random() < 0.1:
        yield from wrong(others.show(), "show", *reading, *names)
        yield from wrong(others.landmarks(), "landmarks", *reading, *names)


def parts_of(chance, texts):
    """The texts, or at times a single one cut behind line feeds into up to four: as one text that is the same."""
    if len(texts) > 1 or chance.random() < 0.6:
        return texts
    lines = re.findall(rb"[^\n]*\n|[^\n]+", texts[0])
    cuts = sorted(chance.randrange(len(lines) + 1) for _ in range(chance.choice((1, 1, 2, 3))))
    return [b"".join(lines[first:last]) for first, last in zip([0, *cuts], [*cuts, len(lines)])]


def placed_complaints(table, chance, county, faults, listed, wrong, words):
    """What is wrong with the lines of records behind faults, and with the file that is made of faults, where these are the lines
    of the list: which point of two segments is told is open, and one is in all answers."""
    is_all, most = chance.random() < 0.8, chance.choice((None, None, None, 0, 1, 3))
    plain = county.audit_all(most) if is_all else county.audit_first()
    told = ["--all", *([] if most is None else ["--most", str(most)])] if is_all else []
    where = judge.Placed(plain, faults)
    out = table.folder / "faults.geojson"
    stood = out.read_bytes() if out.exists() else None
    yield from wrong(where, "audit", "--where", *told, *words)
    has_where = chance.random() < 0.3
    asked = ["audit", *told, "--geojson", out.name, *["--where"] * has_where, *words]
    yield from wrong(where if has_where else plain, *asked)
    made = out.read_bytes() if out.exists() else None
    if county.records.refusals and not is_all:
        if made != stood:
            yield f"{' '.join(asked)}: a line is refused, and a file was made or changed"
        return
    if county.records.refusals:
        complaint = placed.wrong_collection(made or b"", faults.refused_features(county.records.refusals))
        yield from wrong(judge.Placed(county.audit_skipping(), county.left_faults(faults.names, faults.texts)), "audit", "--all", "--where", "--skip-refused", *words)
    else:
        touched = getattr(county.audit_all(), "touched", 0)
        complaint = placed.wrong_collection(made or b"", faults.features(listed if is_all else listed[:1]), touched)
    if complaint:
        yield f"{' '.join(asked)}: {complaint}"


def certificates_of(chance, town, built):
    """Certificates by which a case is checked, with what was done to each: that which was built, one that is proposed,
    as they are and changed, or none."""
    kind = chance.choice(("built", "built", "none") if built else ("proposed", "changed", "changed", "changed", "none"))
    if kind == "none":
        return []
    text = built if kind == "built" else draw.proposal(chance, town)
    as_made = [(text, "as it was made")] if kind != "changed" else []
    return as_made + ([draw.changed(chance, text)] if kind != "proposed" else [])


def drawn(seed, number):
    return draw.case_of(random.Random(f"{seed} {number}"))


def play_one(table, seed, number):
    """The first complaint of a case, or None."""
    return first_complaint(table, drawn(seed, number), f"{seed} {number}")


def first_complaint(table, case, chance):
    """It, or None; that the judge itself fails is one too."""
    try:
        return next(complaints(table, case, chance), None)
    except Exception:
        return traceback.format_exc()


def made_small(table, case, chance):
    """The case with each line taken away that it doesn't need to fail: at first all lines of a TLID together."""

    def fails(lines):
        return lines and first_complaint(table, draw.replace(case, lines=lines, is_town=False), chance) is not None

    # The TLID of a type 1 line stands in columns 6-15, and that of a released type I line in 11-20.
    tlids = sorted({line[5:15] for line in case.lines if line[:1] == b"1"})
    groups = [[line for line in case.lines if line[:1] in (b"1", b"2", b"I") and tlid in line[5:20]] for tlid in tlids]
    lines = case.lines
    for group in [*groups, *([line] for line in case.lines), *groups]:
        fewer = [line for line in lines if line not in group]
        if len(fewer) < len(lines) and fails(fewer):
            lines = fewer
    return draw.replace(case, lines=lines, is_town=False) if fails(lines) else case


def scratch():
    """A folder in memory where there is one."""
    return tempfile.TemporaryDirectory(dir="/dev/shm" if Path("/dev/shm").is_dir() else None)


def play_share(share):
    """How many cases of these numbers pass, and the numbers of those that don't."""
    program, seed, numbers = share
    with scratch() as folder:
        table = Table(program, folder)
        ill = [number for number in numbers if play_one(table, seed, number)]
    return len(numbers) - len(ill), ill


def tell(program, seed, number):
    """Prints a case that fails, made small, and all that is wrong with it."""
    with scratch() as folder:
        table, case, chance = Table(program, folder), drawn(seed, number), f"{seed} {number}"
        done = ", ".join(case.done) or "a town as it was drawn"
        print(f"judged: --seed {seed} --only {number}, {done}: {' '.join(case.switches)}")
        small = made_small(table, case, chance)
        for line in small.lines:
            print(f"  {line}")
        print(first_complaint(table, small, chance) or first_complaint(table, case, chance))


def play_cases(program, seed, cases):
    """How many cases pass, and how many don't, on all processors that this process may use."""
    shares = [(program, seed, range(first, min(first + SHARE, cases))) for first in range(0, cases, SHARE)]
    context = multiprocessing.get_context("spawn")
    with context.Pool(len(os.sched_getaffinity(0))) as pool:
        counts = list(pool.imap(play_share, shares))
    ill = [number for _, numbers in counts for number in numbers]
    if ill:
        tell(program, seed, ill[0])
        print(f"judged: cases that fail: {' '.join(map(str, ill[:40]))}")
    return sum(well for well, _ in counts), len(ill)


def seed_of_commit():
    """A seed that each commit has for itself, so that what fails in one run of the gate fails in the next."""
    words = ["git", "rev-parse", "--short=8", "HEAD"]
    found = subprocess.run(words, cwd=TOP, capture_output=True, text=True, check=False).stdout.strip()
    return int(found[:8], 16) if found else int(time.time())


def play_all(program=PROGRAM, seed=None, cases=CASES):
    """How many rows and cases pass, and how many don't."""
    seed = seed_of_commit() if seed is None else seed
    print(f"judged: --seed {seed} --cases {cases}", flush=True)
    counts = [judge_rows(), play_cases(str(program), seed, cases)]
    return sum(well for well, _ in counts), sum(ill for _, ill in counts)


def main():
    words = argparse.ArgumentParser(description="Plays drawn counties over the program, and judges each answer.")
    words.add_argument("--seed", type=int)
    words.add_argument("--cases", type=int, default=CASES)
    words.add_argument("--only", type=int, help="plays this case of the seed alone, and tells what is wrong with it")
    words.add_argument("--program", default=PROGRAM)
    asked = words.parse_args()
    if asked.only is not None:
        return tell(asked.program, asked.seed, asked.only)
    well, ill = play_all(asked.program, asked.seed, asked.cases)
    print(f"judged: {well} of {well + ill}")
    return ill > 0


if __name__ == "__main__":
    sys.exit(main())
