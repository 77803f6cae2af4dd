#!/usr/bin/env python3
"""`rt ci`, with its tasks planned by what they have been seen to take: the longest chain of seconds first, two or more jobs for
a proof where processors are idle, and a third of the memory that the kit reckons with."""

import sys

from prove import UNKNOWN_SHARE, kit, shares

# No check has been seen to take a third of the memory that the kit reckons with.
OF_MEMORY = 0.35
# What the try of an edit takes of the crate's proof.
OF_PROOF = 0.3


def planned(tasks):
    """The tasks of `rt ci`, each with the seconds that it takes in place of its lines, and with less memory."""
    proofs, tests = shares(), shares(2)

    def seconds_of(name, kind, work):
        proof = proofs.get(name, UNKNOWN_SHARE)
        if kind == "seed":
            return proof
        if not work:
            return 0
        return {"proof": proof, "tests": tests.get(name, proof)}.get(kind, OF_PROOF * proof)

    return {
        key: (waits, seconds_of(*key[:2], work), OF_MEMORY * memory, call)
        for key, (waits, work, memory, call) in tasks.items()
    }


def main():
    rt = kit()
    run_in_lanes = rt.in_lanes
    rt.in_lanes = lambda tasks: run_in_lanes(planned(tasks))
    return rt.main(["ci"])


if __name__ == "__main__":
    sys.exit(main())
