#!/usr/bin/env python3
"""Refuses each allocation of `bench tree` in its turn: of the trees, flat and in boxes, and of their checks.

usage: tree_memory.py [PROGRAM]

With each allocation refused, the program has to print a beginning of what it prints otherwise, say that memory was
refused, and end with status 1; or print all of it, where it can do without that allocation. It needs what memory.py
needs.
"""

import sys
import tempfile
from pathlib import Path

sys.path.append(str(Path(__file__).resolve().parents[1]))
from folders import BENCH

from memory import REFUSE, answer_of, library_of

WORDS = ["tree", "300"]


def play_all(program=BENCH):
    """How many refused allocations were answered well, and how many weren't."""
    with tempfile.TemporaryDirectory() as folder:
        library = library_of(folder, REFUSE)
        (_, usual, _), _ = answer_of([program, *WORDS], library, 0)
        count = failed = 0
        for which in range(1, 100_000):
            (status, printed, told), was_reached = answer_of([program, *WORDS], library, which)
            if not was_reached:
                break
            count += 1
            stopped = status == 1 and usual.startswith(printed) and b"memory" in told.splitlines()[-1]
            if not stopped and (status, printed) != (0, usual):
                failed += 1
                print(f"with allocation {which} refused: status {status}, {printed}, {told}")
    return count - failed, failed


if __name__ == "__main__":
    passed, failed = play_all(*sys.argv[1:2])
    print(f"{passed} passed, {failed} failed")
    sys.exit(failed > 0 or passed == 0)
