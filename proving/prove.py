#!/usr/bin/env python3
"""Proves and builds programs of this repository: each crate that they stand on as soon as those below it are proved,
side by side on as many processors as there are and as memory holds. Each is proved from nothing and held to what `rt ci`
wants of it, but for the search for a contract that no call can meet. One that an earlier start proved is left as it stands
while its own files and the libraries below it, as they are built, are the same. So a change that leaves what is built as it
was, as of a comment or a test, proves one crate.

usage: prove.py [CRATE..]     with no CRATE, tigertopo
"""

import hashlib
import importlib.machinery
import importlib.util
import os
import shutil
import signal
import sys
import tempfile
import threading
import time
from concurrent.futures import FIRST_COMPLETED, ThreadPoolExecutor, wait
from pathlib import Path

TOP = Path(__file__).resolve().parent.parent
# Where in a crate's out/ it stands what is proved of it: in the folder that `rt ci`, which empties out/, gives back.
PROVED = "rlib/proved"
# There where the libraries were unpacked from an archive of `make dist`.
TAKEN = TOP / "out" / "taken"
# Seconds of one processor that a crate of no known share is taken to need.
UNKNOWN_SHARE = 60


def program_of(name, *folders):
    """Where the program of a crate is, once it is built."""
    return TOP.joinpath("crates", name, "out", *folders, name)


def stop(why):
    print(f"tigertopo: {why}", file=sys.stderr)
    sys.exit(4)


def kit():
    """The module behind the kit's command `rt`, which knows how crates are proved and how many fit side by side."""
    command = shutil.which("rt")
    if not command:
        stop("it isn't built, and the command rt of the Rattle kit isn't on the PATH")
    sys.dont_write_bytecode = True
    loader = importlib.machinery.SourceFileLoader("rt", os.path.realpath(command))
    module = importlib.util.module_from_spec(importlib.util.spec_from_loader("rt", loader))
    sys.modules["rt"] = module
    loader.exec_module(module)
    return module


def shares(column=1):
    """What the proof of each crate takes on one processor, in seconds, as last seen; with column 2, what that of its tests does."""
    lines = (TOP / "proving" / "seconds.txt").read_text().splitlines()
    rows = [line.split() for line in lines if line and not line.startswith("#")]
    return {row[0]: float(row[column]) for row in rows if column < len(row)}


def in_minutes(seconds):
    minutes, seconds = divmod(round(seconds), 60)
    return f"{minutes} min {seconds} s" if minutes else f"{seconds} s"


class Progress:
    """Tells on standard error what is proved, what is at work, and about how long it still takes: on one line where that
    is a terminal, and else a line a crate."""

    def __init__(self, names, processors):
        known = shares()
        self.share = {it: known.get(it, UNKNOWN_SHARE) for it in names}
        self.left = dict(self.share)
        self.processors = processors
        self.running = {}
        self.begun = time.monotonic()
        self.lock = threading.Lock()
        self.is_terminal = sys.stderr.isatty()

    def begins(self, name):
        with self.lock:
            self.running[name] = time.monotonic()
            if self.is_terminal:
                self.show("")

    def ends(self, name):
        with self.lock:
            del self.running[name], self.left[name]
            self.show(f"{name} proved, ")

    def passes_over(self, name):
        """One that needs no proof counts no more."""
        with self.lock:
            del self.share[name], self.left[name]

    def minutes_left(self):
        """The shares that are left, at the speed of those that are done; of one at work a second is taken as done for each second
        since it began. Before anything is done two processors are taken to be at work."""
        now = time.monotonic()
        at_work = sum(min(now - begun, self.left[name]) for name, begun in self.running.items())
        left = sum(self.left.values()) - at_work
        done = sum(self.share.values()) - left
        speed = done / (now - self.begun) if done > 1 else min(2, self.processors)
        return max(1, round(left / speed / 60))

    def show(self, news):
        count = f"{len(self.share) - len(self.left)} of {len(self.share)} crates"
        after = in_minutes(time.monotonic() - self.begun)
        left = f", about {self.minutes_left()} min left" if self.left else ""
        if self.is_terminal:
            busy = f": {', '.join(self.running)}" if self.running else ""
            line = f"tigertopo: {count} proved after {after}{left}{busy}"
            width = shutil.get_terminal_size().columns - 1
            print(f"\r\033[K{line[:width]}", end="", file=sys.stderr, flush=True)
        else:
            print(f"tigertopo: {news}{count} after {after}{left}", file=sys.stderr, flush=True)

    def finish(self):
        if self.is_terminal:
            print(file=sys.stderr)


def sum_of_folder(folder):
    """The sum of all files below a folder, by their places."""
    found = hashlib.sha256()
    for at, folders, files in os.walk(folder):
        folders.sort()
        for name in sorted(files):
            file = Path(at, name)
            found.update(repr((str(file.relative_to(folder)), file.read_bytes())).encode())
    return found.hexdigest()


class Proof:
    """A crate that is to be proved, with those below it. What stands of it: what was built, the sum of that, and the sum of all that
    it was proved from."""

    def __init__(self, rt, crate, below):
        self.rt = rt
        self.crate = crate
        self.below = below
        self.folder = Path(crate.folder) / "out" / PROVED
        self.built = self.folder / "built"
        self.proved_from = self.folder / "sum"
        crate.rlib = str(self.folder / f"{crate.name}.rlib")
        self.program = program_of(crate.name)
        self.own = self.sum_of_files()

    def sum_of_files(self):
        """The sum of the crate's own files, and of the kit."""
        found = hashlib.sha256(Path(f"{self.rt.KIT}/KIT-ID").read_bytes())
        for file in self.rt.rtlib.files_of(self.crate.folder):
            found.update(repr((os.path.relpath(file, self.crate.folder), Path(file).read_bytes())).encode())
        return found.hexdigest()

    def sum(self):
        """The sum of all that the crate is proved from: its own files, and the libraries below as they are built."""
        below = [(it.crate.name, it.built.read_text()) for it in self.below]
        return hashlib.sha256(repr((self.own, below)).encode()).hexdigest()

    def made(self):
        """What is built of it: a library or a program."""
        return Path(self.crate.rlib) if self.crate.makes_rlib() else self.program

    def stands(self):
        """Whether it is proved as it is now, where all below stand."""
        kept = self.made().exists() and self.built.is_file() and self.proved_from.is_file()
        return kept and self.proved_from.read_text() == self.sum()

    def note(self, proved_from):
        """Notes what was built, and what it was proved from."""
        self.built.write_text(sum_of_folder(self.crate.rlib))
        self.proved_from.write_text(proved_from)

    def adopt(self):
        """Takes over what `rt ci` has proved in this checkout, where nothing else stands and the crate's files are what they were."""
        by_ci = self.folder.parent / f"{self.crate.name}.rlib" if self.crate.makes_rlib() else self.program
        is_last = all(it.built.is_file() for it in self.below) and self.own == self.sum_of_files()
        if self.folder.exists() or not by_ci.exists() or not is_last:
            return
        self.folder.mkdir(parents=True)
        if self.crate.makes_rlib():
            shutil.copytree(by_ci, self.crate.rlib, copy_function=os.link)
        self.note(self.sum())

    def prove(self, jobs):
        """Proves the crate with so many jobs, and gives whether it is proved and what was said."""
        shutil.rmtree(self.folder, ignore_errors=True)
        self.folder.mkdir(parents=True)
        proved_from = self.sum()
        with tempfile.TemporaryFile("w+", errors="replace") as self.crate.out:
            words = self.crate.words(["--jobs", str(jobs)], keeps=False)
            if self.crate.makes_rlib():
                status = self.crate.prove(["build", *words, "--statements", "-o", self.crate.rlib])
            else:
                status = self.prove_and_build(words)
            self.crate.out.seek(0)
            said = self.crate.out.read()
        # What changed while it was proved is seen at the next start.
        if not status:
            self.note(proved_from)
        return not status, said

    def prove_and_build(self, words):
        """Proves a program, and builds it from what was proved."""
        made = f"out/{self.crate.name}"
        words = [*words, "--toolchain", f"{self.rt.KIT}/toolchain", "--backend", "llvm", "-o", f"{made}.o"]
        return self.crate.prove(["build", *words]) or self.crate.link(f"{made}.o", made)


class Lanes:
    """Proofs side by side, first those with the longest chain of others behind them, and no more at a time than memory
    holds."""

    def __init__(self, rt, proofs, share):
        self.processors = rt.processors()
        self.memory = 0.85 * rt.free()
        self.proofs = {it.crate.name: it for it in proofs}
        self.share = share
        # No check has been seen to take half of what the kit reckons with.
        self.needs = {name: rt.need(it.crate) / 2 for name, it in self.proofs.items()}
        self.below = {name: [d.name for d in it.crate.below() if d.name in self.proofs] for name, it in self.proofs.items()}
        self.chain = {}
        for name in reversed(self.proofs):
            behind = [self.chain[above] for above in self.chain if name in self.below[above]]
            self.chain[name] = share[name] + max(behind, default=0)
        self.left = sorted(self.proofs, key=lambda name: -self.chain[name])
        self.running = {}
        self.done = set()

    def jobs_for(self, name, ready):
        """How many processors the proof gets now, 0 where none is free or memory doesn't hold it."""
        idle = self.processors - sum(jobs for _, jobs in self.running.values())
        taken = sum(self.needs[it] * (1 + 0.6 * (jobs - 1)) for it, jobs in self.running.values())
        if idle < 1 or self.running and taken + self.needs[name] > self.memory:
            return 0
        # A second job makes a proof a third shorter and a fifth dearer: it gets the processors that no other is ready for.
        jobs = max(1, idle - len(ready) + 1)
        while jobs > 1 and taken + self.needs[name] * (1 + 0.6 * (jobs - 1)) > self.memory:
            jobs -= 1
        return jobs

    def run(self, prove):
        """Calls `prove` for each, with its jobs, until one gives that it failed."""
        with ThreadPoolExecutor(self.processors) as pool:
            is_well = True
            while self.running or self.left and is_well:
                ready = [it for it in self.left if is_well and self.done.issuperset(self.below[it])]
                for name in ready:
                    jobs = self.jobs_for(name, ready)
                    if jobs:
                        self.left.remove(name)
                        self.running[pool.submit(prove, self.proofs[name], jobs)] = name, jobs
                for ended in wait(self.running, return_when=FIRST_COMPLETED).done:
                    self.done.add(self.running.pop(ended)[0])
                    is_well = ended.result() and is_well


def prove_all(rt, proofs):
    """Proves those of these crates that don't stand, lowest first, and gives the name and the words of one that failed, if one
    did."""
    progress = Progress([it.crate.name for it in proofs], rt.processors())
    failed = []

    def prove(proof, jobs):
        name = proof.crate.name
        if proof.stands():
            progress.passes_over(name)
            return True
        progress.begins(name)
        is_proved, said = proof.prove(jobs)
        if is_proved:
            progress.ends(name)
        else:
            failed.append((name, said))
        return is_proved

    Lanes(rt, proofs, dict(progress.share)).run(prove)
    progress.finish()
    return failed[0] if failed else None


def ready():
    """The kit, made ready to prove the crates of this repository."""
    rt = kit()
    # An interrupt ends this process at once, and the kit's guard what it started.
    signal.signal(signal.SIGINT, signal.SIG_DFL)
    rt.rtlib.guarded()
    rt.Crate.cuts_libraries = True
    # Contracts that no call can meet are searched for by the gate alone: here that would take a twentieth of the time. The kit has
    # no option that leaves the search out; it is added wherever the prover's help names it.
    help_of = rt.rtlib.help_of
    rt.rtlib.help_of = lambda command: help_of(command).replace("--empty-contracts", "")
    rt.Crate.allowed = rt.handles_of(str(TOP))
    rt.rtlib.Crate = rt.Crate
    os.chdir(TOP)
    return rt


def every_crate(rt):
    """All crates of this repository."""
    return rt.rtlib.crates_below(str(TOP))


def proofs_of(rt, names):
    """The proofs of these crates and of all below them, lowest first, by the crates' names."""
    every = every_crate(rt)
    wanted = [it for it in every if it.name in names]
    crates = [it for it in every if any(it is top or it in top.below() for top in wanted)]
    for crate in crates:
        rt.read_files(crate)
        os.makedirs(f"{crate.folder}/out", exist_ok=True)
    proofs = {}
    for crate in sorted(crates, key=lambda it: len(it.below())):
        proofs[crate.name] = Proof(rt, crate, [proofs[it.name] for it in crate.below()])
    return proofs


def prove_missing(rt, proofs):
    """Proves those of these crates that don't stand, and ends where one isn't proved. Those below each are among them. Until this process
    ends no other works there: one that runs in another terminal is waited for."""
    rt.rtlib.lock([it.crate for it in proofs.values()])
    # Of one above a crate that doesn't stand it shows once that is built whether it stands.
    open_ones = {}
    for name, proof in proofs.items():
        if any(it.crate.name in open_ones for it in proof.below) or not proof.stands():
            open_ones[name] = proof
    failure = prove_all(rt, list(open_ones.values())) if open_ones else None
    if failure:
        stop(f"{failure[0]} isn't proved\n{failure[1]}")


def main():
    names = sys.argv[1:] or ["tigertopo"]
    rt = ready()
    if TAKEN.exists():
        print(f"tigertopo: {TAKEN.read_text()}", end="", file=sys.stderr)
    prove_missing(rt, proofs_of(rt, names))
    # A program that stands is as new as its sources, whatever their times say.
    for program in filter(Path.exists, map(program_of, names)):
        os.utime(program)
    return 0


if __name__ == "__main__":
    sys.exit(main())
