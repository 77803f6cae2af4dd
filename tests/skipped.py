"""The parts of tests that are skipped since what they need isn't there. Each is told as soon as it is skipped; whoever counts what
passes and what fails counts them too."""

import shutil
import sys

# Each part that is skipped, with what isn't there.
PARTS = []


def skip(part, needed):
    """Skips a part that needs what isn't there."""
    PARTS.append(f"{part} (no {needed})")
    # In one piece, since parts are played side by side.
    sys.stdout.write(f"skipped {part}: no {needed}\n")
    sys.stdout.flush()


def has(part, *commands):
    """Whether the commands are there that a part needs. Else it is skipped."""
    missing = [it for it in commands if not shutil.which(it)]
    if missing:
        skip(part, " and no ".join(missing))
    return not missing


def counts(passed, failed):
    """The line that counts what passed, what failed and, if anything was, what was skipped."""
    return f"{passed} passed, {failed} failed" + (f", {len(PARTS)} skipped" if PARTS else "")
