#!/usr/bin/env python3
"""Looks at the manual page and at the completions that install/pages.py makes of the program's help: each command and each
option stands in each of them, and the programs that read them take them with no complaint. And the program of
docs/library.md is that of crates/, which is proved and run.

usage: installed.py [PROGRAM]
"""

import re
import subprocess
import sys
import tempfile
from pathlib import Path

sys.path.append(str(Path(__file__).resolve().parents[1]))
from folders import PROGRAM, TOP

import pages
import skipped

# What reads each file: it has to say nothing on standard error.
READERS = {
    "tigertopo.1": [["man", "--warnings", "-l"], ["mandoc", "-T", "lint", "-W", "error"]],
    "tigertopo.bash": [["bash", "-n"]],
    "_tigertopo": [["zsh", "-n"]],
    "tigertopo.fish": [["fish", "-n"]],
}


def complaints(name, file):
    """What the readers of a file complain of."""
    for reader in READERS[name]:
        if skipped.has(f"{name} read by {reader[0]}", reader[0]):
            done = subprocess.run([*reader, str(file)], capture_output=True, text=True, env={"PATH": "/usr/bin:/bin", "LC_ALL": "C.UTF-8", "MANPAGER": "cat"})
            if done.returncode or done.stderr:
                yield f"{name}: {' '.join(reader)}: {done.stderr.strip() or done.returncode}"


def lacks(name, text, commands):
    """The commands and the options that a file doesn't name."""
    plain = text.replace("\\-", "-")
    for command in commands:
        if not re.search(rf"\b{command.name}\b", plain):
            yield f"{name} has no {command.name}"
        for option in command.options:
            if not re.search(rf"(--|-l ){option.long}\b", plain):
                yield f"{name} has no --{option.long} of {command.name}"


def other_programs():
    """The programs of docs/library.md that aren't those of crates/."""
    told = re.findall(r"^```rust\n(.*?)^```$", (TOP / "docs" / "library.md").read_text(), re.M | re.S)
    stand = [it.read_text() for it in sorted((TOP / "crates").glob("use_*/src/main.rt"))]
    return [f"docs/library.md: no crate has: {it[:60]}" for it in told if it not in stand] or ([] if told else ["docs/library.md has no program"])


def play_all(program=PROGRAM):
    """How many things are as they have to be, and how many aren't."""
    wrong = other_programs()
    commands = pages.program_of(program)[1]
    with tempfile.TemporaryDirectory() as folder:
        for name, text in pages.pages(program).items():
            file = Path(folder) / name
            file.write_text(text)
            wrong += [*complaints(name, file), *lacks(name, text, commands)]
    for it in wrong:
        print(it)
    looked = len(READERS) * sum(1 + len(it.options) for it in commands)
    return looked - len(wrong), len(wrong)


if __name__ == "__main__":
    passed, failed = play_all(*sys.argv[1:2])
    print(skipped.counts(passed, failed))
    sys.exit(failed > 0)
