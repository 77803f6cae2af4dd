#!/usr/bin/env python3
"""Makes what `make dist` makes twice, in two folders, and looks at it: both times the bytes are the same; the sums are those of
the files; the logic of the kit is that of `rt version`; the archive has the program and its documents. The static program runs over a
county in a root that has nothing else. The package is installed by `dpkg` into a root of its own, runs there with nothing beside it but the
C library, and is taken away without leaving anything.

usage: packaged.py [PROGRAM]
"""

import hashlib
import os
import re
import shutil
import subprocess
import sys
import tarfile
import tempfile
from pathlib import Path

sys.path.append(str(Path(__file__).resolve().parents[1]))
from folders import EXAMPLES, PROGRAM, TOP

import dist
import skipped

ANSWER = "sound chains=5 segments=12 nodes=4 polygons=3 landmarks=1 rings=5\n"


def run(*words, **more):
    return subprocess.run([str(word) for word in words], capture_output=True, text=True, timeout=60, **more)


def make(program, folder):
    """Makes the files as `make dist` does, and gives their bytes by their names."""
    done = run(sys.executable, TOP / "install" / "dist.py", program, folder)
    return {it.name: it.read_bytes() for it in Path(folder).iterdir()} if not done.returncode else done.stderr


def one_of(made, ending):
    return next(it for it in made if it.endswith(ending))


def logic_of(line):
    """The sum of the logic that proves, in the line of a kit: kits of several names have one logic."""
    return line.strip().partition(" logic ")[2]


def wrong_sums(made):
    """What is wrong with the sums and with the kit's line."""
    told = dict(reversed(it.split()) for it in made["SHA256SUMS"].decode().splitlines())
    if told != {name: hashlib.sha256(held).hexdigest() for name, held in made.items() if name != "SHA256SUMS"}:
        return f"sums: {told}"
    if skipped.has("the kit of what is taken away", "rt") and logic_of(run("rt", "version").stdout) != logic_of(made["KIT"].decode()):
        return f"kit: {made['KIT']}"
    return None


def wrong_archive(program, folder, made):
    """What is wrong with the archive."""
    name = one_of(made, ".tar.gz")
    with tarfile.open(Path(folder) / name) as archive:
        entries = archive.getmembers()
        held = archive.extractfile(f"./{name.removesuffix('.tar.gz')}/bin/tigertopo").read()
    names = [it.name for it in entries]
    times = {it.mtime for it in entries}
    if held != Path(program).read_bytes() or names != sorted(names) or times != {dist.date()} or {(it.uid, it.gid) for it in entries} != {(0, 0)}:
        return f"archive: {names}, {times}"
    lacks = [it for it in ("commands.md", "faults.md", "sound.md", "tigertopo.1") if not any(name.endswith(f"/{it}") for name in names)]
    return f"archive lacks {lacks}" if lacks else None


def wrong_answer(root, program):
    """What is wrong with the answer of a program in a root."""
    answer = run("chroot", root, program, "audit", "/county")
    return None if (answer.returncode, answer.stdout, answer.stderr) == (0, ANSWER, "") else f"run: {answer}"


def wrong_static(folder, made):
    """What is wrong where the static program runs in a root with nothing else."""
    root = Path(folder) / "empty"
    root.mkdir()
    shutil.copy(EXAMPLES / "county", root / "county")
    shutil.copy(Path(folder) / one_of(made, "-static"), root / "tigertopo")
    return wrong_answer(root, "/tigertopo")


def take_libraries(program, root):
    """Puts the C library into a root, and what loads programs."""
    for library in re.findall(r"(/\S+) \(0x", run("ldd", program).stdout):
        (root / library[1:]).parent.mkdir(parents=True, exist_ok=True)
        shutil.copy(library, root / library[1:])


def listed(root):
    return {str(it.relative_to(root)) for it in root.rglob("*") if not str(it.relative_to(root)).startswith("var/lib/dpkg") and not it.is_dir()}


def wrong_package(program, folder, made):
    """What is wrong where the package is installed, runs and is removed."""
    root = Path(folder) / "root"
    for it in ("info", "updates"):
        (root / "var" / "lib" / "dpkg" / it).mkdir(parents=True)
    (root / "var" / "lib" / "dpkg" / "status").write_text("")
    take_libraries(program, root)
    shutil.copy(EXAMPLES / "county", root / "county")
    before = listed(root)
    # The root's list of packages names no C library.
    dpkg = ["dpkg", f"--root={root}", f"--log={folder}/log", "--force-depends", "--force-script-chrootless"]
    done = run(*dpkg, "--install", Path(folder) / one_of(made, ".deb"))
    if done.returncode:
        return f"dpkg: {done.stdout}{done.stderr}"
    new = listed(root) - before
    if not {"usr/bin/tigertopo", "usr/share/man/man1/tigertopo.1", "usr/share/doc/tigertopo/faults.md"} <= new:
        return f"installed: {new}"
    wrong = wrong_answer(root, "/usr/bin/tigertopo")
    if wrong:
        return wrong
    if run(*dpkg, "--verify", "tigertopo").stdout:
        return "its files aren't those of its sums"
    done = run(*dpkg, "--purge", "tigertopo")
    if done.returncode or listed(root) != before:
        return f"purge: {listed(root) - before} {done.stderr}"
    return None


def play_all(program=PROGRAM):
    """How many things are as they have to be, and how many aren't."""
    wrong = []
    with tempfile.TemporaryDirectory() as folder:
        first, second = Path(folder) / "first", Path(folder) / "another" / "second"
        made = make(program, first)
        if isinstance(made, str):
            wrong.append(("made", made))
        else:
            wrong.append(("made twice", None if made == make(program, second) else "the bytes differ"))
            wrong.append(("sums", wrong_sums(made)))
            wrong.append(("archive", wrong_archive(program, first, made)))
            if os.geteuid():
                skipped.skip("the package, installed", "root's rights")
            elif skipped.has("the package, installed", "dpkg", "chroot", "ldd"):
                wrong.append(("package", wrong_package(program, first, made)))
            # `rt ci` keeps no object of a program that an earlier run proved.
            if os.geteuid() or not any(it.endswith("-static") for it in made):
                skipped.skip("the static program", "root's rights" if os.geteuid() else "object of the program")
            else:
                wrong.append(("static", wrong_static(first, made)))
    for title, what in wrong:
        if what:
            print(f"{title}: {what}")
    failed = sum(what is not None for _, what in wrong)
    return len(wrong) - failed, failed


if __name__ == "__main__":
    passed, failed = play_all(*sys.argv[1:2])
    print(skipped.counts(passed, failed))
    sys.exit(failed > 0)
