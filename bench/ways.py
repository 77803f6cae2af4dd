#!/usr/bin/env python3
"""Counts, in the built program itself, how often a command sweeps over a map, how often a search of all its segments decides behind it,
and how often vertices are passed by exact places: by the calls that valgrind's callgrind sees, of maps of each family that the bench makes. One sweep
is wanted of each, and none of the others; but where neighbouring sides disagree `--all` and `draw --faults` sweep once more, over the map
without the polygons that they touch. The gate asks for it.

usage: ways.py [--chains N] [PROGRAM]

Where valgrind isn't there all of it is skipped.
"""

import importlib.util
import re
import subprocess
import sys
import tempfile
from concurrent.futures import ThreadPoolExecutor
from pathlib import Path

BENCH = Path(__file__).resolve().parent
sys.path.append(str(BENCH.parent / "tests"))
import skipped


def bench_run():
    """The module of bench/run.py. The gate has another of that name."""
    spec = importlib.util.spec_from_file_location("bench_run", BENCH / "run.py")
    module = importlib.util.module_from_spec(spec)
    spec.loader.exec_module(module)
    return module


run = bench_run()

# What is counted, each by functions that are called where it happens and nowhere else.
SWEEPS, SEARCHES, EXACT = "sweeps", "searches of all segments", "vertices passed by exact places"
COUNTED = {
    SWEEPS: ["tl_check_sweep::answer::sweep"],
    SEARCHES: ["tl_tree::search::search_within", "tl_decide::meets::list_by_search"],
    EXACT: ["tl_check_sweep::exact::pass_exactly"],
}
WANTED = {SWEEPS: 1, SEARCHES: 0, EXACT: 0}
# A map of which neighbouring sides disagree. A ring of one chain has the same sides about its node when they are exchanged.
DISAGREE = "star-exchanged"
# Words by which a command lists all faults.
LISTS = {"--all", "--faults"}
CHAINS = 300
# Words of each command that decides a map; and of those that stand for all where a map is seen in a mirror or turned, or its chains meet.
COMMANDS = [["audit"], ["audit", "--faces"], ["audit", "--all"], ["audit", "--all", "--faces"], ["build"], ["build", "--faces"], ["check"],
            ["check", "--faces"], ["draw", "--faults"]]
DECIDES = [["audit"], ["check"]]


def can_play():
    """Whether valgrind is there. Else all of this is skipped."""
    return skipped.has("sweeps of each command", "valgrind")


def maps():
    """The kinds of maps that are sound, or whose sides are exchanged, with all commands; and those that are seen otherwise or whose chains
    meet, with those that decide."""
    for kind in ("county", "shuffled", "grid", "nested"):
        yield kind, COMMANDS
    for kind in run.LONG:
        yield f"{kind}-", COMMANDS
        for seen in ("mirrored", "turned", "mirrored-turned", "crossed"):
            yield f"{kind}-{seen}", DECIDES
    for kind in run.SIDED:
        yield f"{kind}-exchanged", COMMANDS


def records(folder, kind, chains):
    """The records of such a map in one file."""
    made = Path(folder, kind)
    maker, *choices = run.MAKERS[kind]
    subprocess.run([sys.executable, BENCH / maker, made, str(chains), *choices], check=True, stdout=subprocess.DEVNULL)
    whole = Path(folder, f"{kind}.records")
    whole.write_bytes(b"".join(file.read_bytes() for file in sorted(made.glob("*.RT*"))))
    return whole


def certified(folder, kind, file):
    """A certificate for these records, made by none of the program's parts, of a map that is sound or not."""
    made = Path(folder, f"{kind}.cert")
    subprocess.run([sys.executable, BENCH / "certificate.py", made, file], check=True, stdout=subprocess.DEVNULL)
    return made


def given(words, certificate, number):
    """What a command is given beside its own words and the records: what it makes, or the certificate that it checks by."""
    made = ["--out", f"made.{number}"]
    return {"build": made, "draw": made, "check": ["--cert", certificate.name]}.get(words[0], [])


def calls_in(text):
    """How often each function was called, by what callgrind wrote."""
    names, called = {}, {}
    callee = None
    for line in text.splitlines():
        found = re.match(r"(c?)fn=\((\d+)\)(?: (.*))?$", line)
        if found:
            if found[3]:
                names[found[2]] = found[3]
            callee = found[2] if found[1] else None
        elif line.startswith("calls=") and callee:
            called[callee] = called.get(callee, 0) + int(line[6:].split()[0])
    counts = {}
    for number, count in called.items():
        # Recursion has a mark behind the name, and so have forms of a generic function.
        name = re.sub(r"(::<.*|'\d+)$", "", names.get(number, ""))
        counts[name] = counts.get(name, 0) + count
    return counts


def wanted_of(kind, words):
    """The counts that are wanted of this command and a map of this kind."""
    return {**WANTED, SWEEPS: 2} if kind == DISAGREE and LISTS.intersection(words) else WANTED


def counts_of(program, words, folder, number):
    """How often each of these things happened in a run."""
    out = Path(folder, f"calls.{number}")
    subprocess.run(["valgrind", "--tool=callgrind", f"--callgrind-out-file={out}", program, *words], cwd=folder, capture_output=True)
    called = calls_in(out.read_text())
    out.unlink()
    return {what: sum(called.get(name, 0) for name in names) for what, names in COUNTED.items()}


def unseen(program):
    """The functions among those that are counted that the program doesn't have by themselves, so that no call of them is seen."""
    symbols = subprocess.run(["nm", program], capture_output=True, text=True, check=True).stdout
    have = {re.sub(r"::<.*$", "", line.split(" ", 2)[2]) for line in symbols.splitlines() if line.count(" ") >= 2}
    return [name for names in COUNTED.values() for name in names if name not in have]


def play_all(program=run.PROGRAM, chains=CHAINS):
    """Counts of each map and command, in pairs of those that are as wanted and those that aren't."""
    gone = unseen(program)
    for name in gone:
        print(f"the program has no {name}")
    if gone:
        return 0, len(gone)
    passed = failed = 0
    with tempfile.TemporaryDirectory() as folder, ThreadPoolExecutor(4) as pool:
        asked = []
        for kind, commands in maps():
            file = records(folder, kind, chains)
            certificate = certified(folder, kind, file)
            for words in commands:
                number = len(asked)
                counts = pool.submit(counts_of, program, [*words, *given(words, certificate, number), file.name], folder, number)
                asked.append((kind, words, counts))
        for kind, words, counts in asked:
            well = counts.result() == wanted_of(kind, words)
            passed, failed = passed + well, failed + (not well)
            if not well:
                print(f"{' '.join(words)} of {kind}: {counts.result()}")
    return passed, failed


def main():
    words = sys.argv[1:]
    chains = int(words[1]) if words[:1] == ["--chains"] else CHAINS
    rest = words[2:] if words[:1] == ["--chains"] else words
    passed, failed = play_all(*rest[:1], chains=chains) if can_play() else (0, 0)
    print(skipped.counts(passed, failed))
    return failed > 0 or not (passed or skipped.PARTS)


if __name__ == "__main__":
    sys.exit(main())
