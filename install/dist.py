#!/usr/bin/env python3
"""Makes what is taken away: an archive and a Debian package of the built program with its manual page, its completions and the
documents; where the program's object stands beside it, the program as one static file; where the libraries stand that it was
proved over, an archive of these; the SHA-256 sums of all; and the line of the kit that the program is proved with.

usage: dist.py PROGRAM FOLDER

The same program, libraries, documents and date give the same bytes, whenever and wherever. The date is SOURCE_DATE_EPOCH where that
is set, and else the day of the newest version in CHANGELOG.md.
"""

import gzip
import hashlib
import io
import os
import re
import subprocess
import sys
import tarfile
import tempfile
from datetime import datetime, timezone
from pathlib import Path

sys.path.append(str(Path(__file__).resolve().parents[1] / "proving"))
import pages
import promises
from prove import PROVED, TAKEN, TOP, kit

CHANGES = TOP / "CHANGELOG.md"
DOCUMENTS = [*sorted(TOP.glob("docs/*.md")), CHANGES]
# What whoever unpacks the libraries is told, there and by each later build.
MAKER = """The libraries in crates/*/out were proved where this archive was made. `make` builds the program over them and proves nothing else.
So its maker is trusted until `make check`, which proves all from nothing, has run here.
"""
# Debian's names of the machines that the program's first bytes name.
MACHINES = {62: "amd64", 183: "arm64"}
# Where completions and the manual page lie below share/.
PLACES = {
    "tigertopo.1": "man/man1/tigertopo.1",
    "tigertopo.bash": "bash-completion/completions/tigertopo",
    "_tigertopo": "zsh/vendor-completions/_tigertopo",
    "tigertopo.fish": "fish/vendor_completions.d/tigertopo.fish",
}


def newest():
    """The newest version of CHANGELOG.md, and its day."""
    return re.search(r"^## (\S+) \((\d{4}-\d\d-\d\d)\)$", CHANGES.read_text(), re.M).groups()


def date():
    """The time of all files, in seconds since 1970."""
    day = datetime.fromisoformat(newest()[1]).replace(tzinfo=timezone.utc)
    return int(os.environ.get("SOURCE_DATE_EPOCH") or day.timestamp())


def told(program):
    """The version of the program, and the kit's line, as it prints them."""
    text = subprocess.run([program, "--version"], capture_output=True, text=True, check=True).stdout
    return re.fullmatch(r"tigertopo (\S+), proved with (.+)\n", text).groups()


def files(program):
    """The bytes of each file by its name below /usr, and which of them is run."""
    found = {"bin/tigertopo": Path(program).read_bytes()}
    found |= {f"share/{PLACES[name]}": text.encode() for name, text in pages.pages(program).items()}
    found |= {f"share/doc/tigertopo/{it.name}": it.read_bytes() for it in DOCUMENTS}
    found["share/doc/tigertopo/promises.md"] = promises.page().encode()
    return dict(sorted(found.items()))


def write_tar(out, entries, when):
    """Writes an archive of these files, by their names, with the folders that they lie in; all belong to root. A file is given as its bytes,
    or as the place where it stands."""
    with tarfile.open(fileobj=out, mode="w|", format=tarfile.GNU_FORMAT) as archive:
        folders = {str(it) for name in entries for it in Path(name).parents if str(it) != "."}
        for name in sorted(folders | set(entries)):
            entry = tarfile.TarInfo(f"./{name}")
            entry.mtime, entry.uname, entry.gname = when, "root", "root"
            if name in entries:
                held = entries[name].read_bytes() if isinstance(entries[name], Path) else entries[name]
                entry.size, entry.mode = len(held), 0o755 if "/bin/" in f"/{name}" else 0o644
                archive.addfile(entry, io.BytesIO(held))
            else:
                entry.type, entry.mode = tarfile.DIRTYPE, 0o755
                archive.addfile(entry)


def tar_gz(entries, when):
    """The same, packed."""
    made = io.BytesIO()
    write_tar(made, entries, when)
    return gzip.compress(made.getvalue(), 9, mtime=when)


def machine(program):
    """Debian's name of the machine that the program runs on."""
    return MACHINES[int.from_bytes(program[18:20], "little")]


def library(program):
    """The oldest C library that has all that the program calls."""
    asked = {tuple(map(int, it)) for it in re.findall(rb"\0GLIBC_(\d+)\.(\d+)", program)}
    return f"libc6 (>= {'.'.join(map(str, max(asked)))})" if asked else None


def control(version, found):
    """What the package says of itself."""
    program = found["bin/tigertopo"]
    lines = [
        "Package: tigertopo",
        f"Version: {version}",
        f"Architecture: {machine(program)}",
        "Maintainer: the tigertopo project <tigertopo@localhost>",
        f"Installed-Size: {sum(-(-len(it) // 1024) for it in found.values())}",
        *(f"Depends: {it}" for it in [library(program)] if it),
        "Section: science",
        "Priority: optional",
        "Description: decides whether the map of a TIGER/Line county is sound",
        " Reads the record files of a county of the TIGER/Line files of 2006, decides",
        " whether the map that they draw is sound, and names each fault and its place.",
    ]
    return "".join(f"{it}\n" for it in lines).encode()


def ar(members, when):
    """An archive of `ar` with these members."""
    made = b"!<arch>\n"
    for name, held in members:
        made += f"{name:<16}{when:<12}{0:<6}{0:<6}{100644:<8}{len(held):<10}`\n".encode() + held + b"\n" * (len(held) % 2)
    return made


def package(version, found, when):
    """The Debian package."""
    data = {f"usr/{name}": held for name, held in found.items()}
    sums = "".join(f"{hashlib.md5(held).hexdigest()}  {name}\n" for name, held in data.items()).encode()
    about = {"control": control(version, found), "md5sums": sums}
    members = [("debian-binary", b"2.0\n"), ("control.tar.gz", tar_gz(about, when)), ("data.tar.gz", tar_gz(data, when))]
    return ar(members, when)


def static_program(program):
    """The bytes of the program as one file that needs no C library beside it, where its object stands."""
    made, of_kit = Path(f"{program}.o"), f"{kit().KIT}/c"
    if not made.exists():
        return {}
    with tempfile.TemporaryDirectory() as folder:
        words = ["gcc", "-static", "-s", "-o", f"{folder}/static", made, f"{of_kit}/libos_c.a", f"{of_kit}/liblibc_c.a"]
        subprocess.run(words, check=True)
        return {"-static": Path(folder, "static").read_bytes()}


def libraries(when):
    """The bytes of the archive of the proved libraries, by their places in the repository, where they stand."""
    folders = sorted(it for it in TOP.glob(f"crates/*/out/{PROVED}") if list(it.glob("*.rlib")))
    found = {str(it.relative_to(TOP)): it for folder in folders for it in folder.rglob("*") if it.is_file()}
    if not found:
        return {}
    found[str(TAKEN.relative_to(TOP))] = MAKER.encode()
    # The libraries repeat one another over long stretches.
    with tempfile.TemporaryFile() as packed:
        with subprocess.Popen(["zstd", "-q", "-c", "--long=30"], stdin=subprocess.PIPE, stdout=packed) as packing:
            write_tar(packing.stdin, found, when)
        if packing.returncode:
            sys.exit("zstd packed no libraries")
        packed.seek(0)
        return {"-proved.tar.zst": packed.read()}


def made_of(program):
    """The bytes of each file that is made, by its name."""
    version, line = told(program)
    if version != newest()[0]:
        sys.exit(f"the program is {version}, and CHANGELOG.md ends with {newest()[0]}")
    when, found = date(), files(program)
    name = f"tigertopo-{version}-{machine(found['bin/tigertopo'])}"
    made = {
        f"{name}.tar.gz": tar_gz({f"{name}/{it}": held for it, held in found.items()}, when),
        f"tigertopo_{version}_{machine(found['bin/tigertopo'])}.deb": package(version, found, when),
        "KIT": f"{line}\n".encode(),
    }
    made |= {f"{name}{ending}": held for ending, held in (static_program(program) | libraries(when)).items()}
    sums = "".join(f"{hashlib.sha256(held).hexdigest()}  {it}\n" for it, held in sorted(made.items()))
    return made | {"SHA256SUMS": sums.encode()}


def make(program, folder):
    """Makes the files."""
    folder.mkdir(parents=True, exist_ok=True)
    for name, held in made_of(program).items():
        (folder / name).write_bytes(held)
        (folder / name).chmod(0o755 if name.endswith("-static") else 0o644)


if __name__ == "__main__":
    if len(sys.argv) != 3:
        sys.exit(__doc__)
    make(sys.argv[1], Path(sys.argv[2]))
