#!/usr/bin/env python3
"""Tries the wrong bodies that the gate leaves out: the edits in the folders `wrong-bodies` of crates.

An edit in a crate's `must-fail` turns what a contract promises to a user, in a crate that answers one: the gate tries it.
One in `wrong-bodies` turns a body of a crate whose contracts serve callers and the proofs of the crates above it, or is one of
many of a crate that answers. The crates below are proved first, where their sources have changed, as `prove.py` does it. An edit that
was refused isn't tried again until its crate or one below it changes.

usage: wrong_bodies.py [CRATE..]     with no CRATE, each crate that has such edits
"""

import hashlib
import shutil
import sys
from concurrent.futures import FIRST_COMPLETED, ThreadPoolExecutor, wait
from pathlib import Path

from prove import TOP, UNKNOWN_SHARE, proofs_of, prove_missing, ready, shares

FLAGS = ["--jobs", "1"]
# More memory than any check has been seen to take, in bytes.
LANE = 5_000_000_000
# What a try costs of the crate's proof, as it is planned with: it begins with what was proved of the crate as it stands.
OF_PROOF = 0.3


def edits_of(name):
    return sorted((TOP / "crates" / name / "wrong-bodies").glob("*.edit"))


def crates_with_some():
    return sorted(folder.parent.name for folder in TOP.glob("crates/*/wrong-bodies"))


class Tries:
    """The edits of a crate that are to be tried."""

    def __init__(self, rt, proof):
        self.rt = rt
        self.proof = proof
        self.edits = [it for it in edits_of(proof.crate.name) if not self.was_refused(it)]
        self.left = len(self.edits)
        self.room = None

    def note_of(self, edit):
        """The file that says of what an edit was refused."""
        return self.proof.folder.parent / "refused" / edit.stem

    def sum_of(self, edit):
        return hashlib.sha256(self.proof.sum().encode() + edit.read_bytes()).hexdigest()

    def was_refused(self, edit):
        note = self.note_of(edit)
        return note.is_file() and note.read_text() == self.sum_of(edit)

    def begin(self):
        """Checks the crate as it stands, and gives whether it is proved."""
        self.room = self.rt.seeded(self.proof.crate, FLAGS)
        if not self.room:
            print(f"wrong-bodies {self.proof.crate.name}: NOT TRIED: the crate isn't proved as it stands", flush=True)
        return bool(self.room)

    def is_refused(self, edit):
        """Tries an edit over what was proved of the crate as it stands, and prints what the prover says of it."""
        over = f"{self.room}/{edit.stem}"
        self.rt.linked(f"{self.room}/seed", over)
        told, text = self.rt.must_fail(self.proof.crate, str(edit), FLAGS, over)
        shutil.rmtree(over, ignore_errors=True)
        self.left -= 1
        if not self.left:
            shutil.rmtree(self.room, ignore_errors=True)
        print(text.replace("must-fail ", "wrong-bodies ", 1), flush=True)
        if told not in (self.rt.REFUSED, self.rt.AT_LIMIT):
            return False
        self.note_of(edit).parent.mkdir(parents=True, exist_ok=True)
        self.note_of(edit).write_text(self.sum_of(edit))
        return True


def lanes(rt):
    """How many checks fit side by side."""
    return max(1, min(rt.processors(), rt.free() // LANE))


def try_all(rt, tries):
    """Tries all edits side by side, and gives how many aren't refused. Those of a crate that is begun come before the next crate."""
    failed, edits, running = 0, [], {}
    # Asked once: what is at work later takes of the memory that this goes by.
    width = lanes(rt)
    with ThreadPoolExecutor(width) as several:
        while tries or edits or running:
            while (tries or edits) and len(running) < width:
                if edits:
                    it, edit = edits.pop()
                    running[several.submit(it.is_refused, edit)] = it, [edit]
                else:
                    it = tries.pop(0)
                    running[several.submit(it.begin)] = it, it.edits
            for ended in wait(running, return_when=FIRST_COMPLETED).done:
                it, of = running.pop(ended)
                if not ended.result():
                    failed += len(of)
                elif of is it.edits:
                    edits += [(it, edit) for edit in of]
    return failed


def main():
    some = crates_with_some()
    names = sys.argv[1:] or some
    lacking = [it for it in names if it not in some]
    if lacking:
        sys.exit(f"wrong_bodies.py: {lacking[0]} has no folder wrong-bodies")
    rt = ready()
    proofs = proofs_of(rt, names)
    below = {it.name for name in names for it in proofs[name].crate.below()}
    prove_missing(rt, {name: proof for name, proof in proofs.items() if name in below})
    share = shares()
    cost = lambda it: share.get(it.proof.crate.name, UNKNOWN_SHARE) * (1 + OF_PROOF * it.left)
    tries = sorted((it for it in (Tries(rt, proofs[name]) for name in names) if it.edits), key=cost, reverse=True)
    failed = try_all(rt, tries)
    print(f"{sum(len(edits_of(it)) for it in names) - failed} refused, {failed} not refused")
    return 1 if failed else 0


if __name__ == "__main__":
    sys.exit(main())
