#!/usr/bin/env python3
"""Runs commands with `--progress` and looks at what they show: nothing but where the error output is a terminal, there that
the records are read and it is decided, and of a slow file how far reading is.

usage: progress.py [PROGRAM]
"""

import os
import pty
import subprocess
import sys
import tempfile
import threading
import time
from pathlib import Path

sys.path.append(str(Path(__file__).resolve().parents[1]))
from folders import EXAMPLES, PROGRAM

COUNTY = EXAMPLES / "county"
SOUND = b"chains=5 segments=12 nodes=4 polygons=3 landmarks=1 rings=5\n"


def on_terminal(program, *words):
    """The status, the output, and what a terminal shows that is the error output."""
    ours, theirs = pty.openpty()
    with subprocess.Popen([program, *map(str, words)], stdout=subprocess.PIPE, stderr=theirs) as process:
        os.close(theirs)
        printed = process.communicate()[0]
    shown = b""
    try:
        while part := os.read(ours, 4096):
            shown += part
    except OSError:
        # The other end is closed.
        pass
    os.close(ours)
    return process.returncode, printed, shown.replace(b"\r\n", b"\n")


def feed(pipe):
    """Writes the county into the pipe, and waits for more than a second before its end."""
    text = COUNTY.read_bytes()
    with open(pipe, "wb", buffering=0) as file:
        file.write(text[:-1])
        time.sleep(1.3)
        file.write(text[-1:])


def slow(program, folder):
    """What is shown where the file takes more than a second to read."""
    pipe = Path(folder, "pipe")
    os.mkfifo(pipe)
    feeder = threading.Thread(target=feed, args=[pipe], daemon=True)
    feeder.start()
    answer = on_terminal(program, "audit", "--progress", pipe)
    feeder.join(10)
    return answer, (0, b"sound " + SOUND, f"reading {pipe}, 0 MB\ndeciding\n".encode())


def play_all(program=PROGRAM):
    """How many runs show what they have to, and how many don't."""
    with tempfile.TemporaryDirectory() as folder:
        made = Path(folder, "made")
        words = ["audit", "--progress", COUNTY]
        silent = subprocess.run([program, *words], capture_output=True)
        cases = [
            (on_terminal(program, *words), (0, b"sound " + SOUND, b"deciding\n")),
            (on_terminal(program, "audit", COUNTY), (0, b"sound " + SOUND, b"")),
            ((silent.returncode, silent.stdout, silent.stderr), (0, b"sound " + SOUND, b"")),
            (on_terminal(program, "build", "--progress", "--out", made, COUNTY), (0, b"built " + SOUND, b"deciding\n")),
            (on_terminal(program, "check", "--progress", "--cert", made, COUNTY), (0, b"sound " + SOUND, b"deciding\n")),
            slow(program, folder),
        ]
    wrong = [case for case in cases if case[0] != case[1]]
    for found, wanted in wrong:
        print(f"{found} in place of {wanted}")
    return len(cases) - len(wrong), len(wrong)


if __name__ == "__main__":
    passed, failed = play_all(*(Path(word).resolve() for word in sys.argv[1:2]))
    print(f"{passed} passed, {failed} failed")
    sys.exit(failed > 0)
