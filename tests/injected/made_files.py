#!/usr/bin/env python3
"""Makes certificates, files of GeoJSON, pictures and borders where something stands in the way, and looks for a file of a user's that is
lost or half written.

usage: made_files.py [PROGRAM]

OUT is a file that is none of the kind, one of the files that are read under that or another name, an old one of the kind, a
link, a pipe, a device, a folder that isn't there, or may not be written; beside it lies what a killed run left, another run's
file, one of the files that are read, or a file of somebody else's; such a file comes while the program reads; the disk is full;
and the program is killed at each of its writes. What stood under OUT has to stay until the new file is whole. It needs a C
compiler, cc, and glibc, whose write it stands before.
"""

import errno
import fcntl
import os
import resource
import signal
import subprocess
import sys
import tempfile
from dataclasses import dataclass
from pathlib import Path

sys.path.append(str(Path(__file__).resolve().parents[1]))
from folders import EXAMPLES, PROGRAM

import hints
import skipped
from memory import library_of

COUNTY = EXAMPLES / "county"
TOWN = EXAMPLES / "faults" / "town"


@dataclass
class Kind:
    """A kind of file that is made: an old one, beginnings of one, and its name."""

    old: bytes
    beginnings: tuple
    name: bytes

    def refusal(self, out=b"OUT"):
        """What is said where a file of this name is another's."""
        return 64, b"", out + b" stands and is no " + self.name + b"\n"


CERTIFICATE = Kind(b"TIGERCERT 2\nan old one\n", (b"T", b"TIGERCERT "), b"certificate")
COLLECTION = Kind(
    b'{"type":"FeatureCollection","name":"tigertopo"\nan old one\n',
    (b"{", b'{"type":"FeatureCollection","name":"tigertopo"'),
    b"GeoJSON of tigertopo",
)
PICTURE = Kind(
    b'<svg xmlns="http://www.w3.org/2000/svg" class="tigertopo"\nan old one\n',
    (b"<", b'<svg xmlns="http://www.w3.org/2000/svg" class="tigertopo"'),
    b"picture of tigertopo",
)
BORDER = Kind(b"1EDGE an old one\n", (b"1", b"1EDGE"), b"border of tigertopo")
KINDS = {
    **{"build": CERTIFICATE, "convert": CERTIFICATE, "export": COLLECTION, "audit": COLLECTION},
    **{"draw": PICTURE, "border": BORDER},
}
# What is no file of any kind.
FOREIGN = (b'{"type":"FeatureCollection","features":[]}\n', b'<svg xmlns="http://www.w3.org/2000/svg">\n')
STRANGERS = (b"a", b"TIGERCERT", *FOREIGN, b"a file that stands\n", COUNTY.read_bytes())
IS_READ = (64, b"", b"OUT is one of the files that are read\n")
IS_READ_BESIDE = (64, b"", b"OUT.unfinished is one of the files that are read\n")
DEVICE = (4, b"", b"stopped Device\n")
KILL = r"""
#include <signal.h>
#include <stdlib.h>
#include <sys/syscall.h>
#include <unistd.h>

static long left;

__attribute__((constructor)) static void begin(void) {
    const char *which = getenv("KILLED_WRITE");
    left = which ? atol(which) : 0;
}

ssize_t write(int file, const void *bytes, size_t count) {
    if (left > 0 && --left == 0) {
        /* Half of it is written. */
        (void)!syscall(SYS_write, file, bytes, count / 2);
        raise(SIGKILL);
    }
    return syscall(SYS_write, file, bytes, count);
}
"""


# Names under which no file can be made, with what the system says: of some only what would be written beside them can't.
UNMADE = (
    *(("none/made", errno.ENOENT), (".", errno.EISDIR), ("/proc/made", errno.ENOENT), ("/dev/full", errno.ENOSPC)),
    *(("records/made", errno.ENOTDIR), ("loop", errno.ELOOP), ("n" * 250, errno.ENAMETOOLONG), ("n" * 300, errno.ENAMETOOLONG)),
)


class Play:
    def __init__(self, program, folder):
        self.program, self.folder = program, Path(folder)
        self.passed = self.failed = 0
        (self.folder / "records").write_bytes(COUNTY.read_bytes())
        (self.folder / "cert").write_bytes((EXAMPLES / "county.CERT").read_bytes())
        (self.folder / "town").write_bytes(TOWN.read_bytes())
        (self.folder / "loop").symlink_to("loop")
        self.made = self.folder / "made"
        self.beside = self.folder / "made.unfinished"
        self.done, self.whole = {}, {}
        for name, words in self.commands():
            self.done[name], self.whole[name] = self.ask(words), self.made.read_bytes()
            self.made.unlink()

    def commands(self, out="made"):
        return [
            ("build", ["build", "--out", out, "records"]),
            ("convert", ["convert", "cert", out]),
            ("export", ["export", "--geojson", out, "records"]),
            ("audit", ["audit", "--all", "--where", "--geojson", out, "town"]),
            ("draw", ["draw", "--faults", "--out", out, "town"]),
            ("border", ["border", "--name", "B", "--out", out, "records"]),
        ]

    def run(self, words, **more):
        return subprocess.run([self.program, *words], cwd=self.folder, capture_output=True, stdin=subprocess.DEVNULL, **more)

    def ask(self, words, **more):
        ran = self.run(words, **more)
        return ran.returncode, ran.stdout, hints.without(ran.stderr, words, self.folder)

    def count(self, is_well, wrong):
        self.passed, self.failed = self.passed + bool(is_well), self.failed + (not is_well)
        if not is_well:
            print(wrong)

    def clear(self):
        for path in (self.made, self.beside):
            if path.is_symlink() or path.exists():
                path.unlink()

    def is_made(self, name, answer, path=None):
        """The file stands whole, and nothing beside it."""
        return answer == self.done[name] and (path or self.made).read_bytes() == self.whole[name] and not self.beside.exists()

    def standing(self):
        """What stands under OUT."""
        for name, words in self.commands():
            others = [it.old for it in (CERTIFICATE, COLLECTION, PICTURE, BORDER) if it is not KINDS[name]]
            for text in (*STRANGERS, *others):
                self.made.write_bytes(text)
                answer = self.ask(words)
                is_well = answer == KINDS[name].refusal() and self.made.read_bytes() == text and not self.beside.exists()
                self.count(is_well, f"{name} over {text[:20]}: {answer}")
            wholes = [self.whole[it] for it in self.whole if KINDS[it] is KINDS[name]]
            for text in (b"", KINDS[name].old, *wholes):
                self.made.write_bytes(text)
                self.made.chmod(0o640)
                answer = self.ask(words)
                is_well = self.is_made(name, answer) and self.made.stat().st_mode & 0o777 == 0o640
                self.count(is_well, f"{name} over {text[:20]}: {answer}")
            self.clear()

    # The commands that make a file of records, up to its name.
    MAKING = (
        *(["build", "--out"], ["export", "--geojson"], ["audit", "--geojson"], ["audit", "--all", "--geojson"]),
        *(["draw", "--out"], ["draw", "--faults", "--out"], ["border", "--name", "B", "--out"]),
    )

    def inputs(self):
        """OUT is one of the files that are read, by whatever name."""
        os.link(self.folder / "records", self.folder / "hard")
        os.symlink("records", self.folder / "soft")
        for out in ("records", "./records", str(self.folder / "records"), "hard", "soft"):
            for words in self.MAKING:
                answer = self.ask([*words, out, "cert", "records"])
                self.count(answer == IS_READ, f"{words[0]} over {out}: {answer}")
        for out in ("cert", "./cert"):
            answer = self.ask(["convert", "cert", out])
            self.count(answer == IS_READ, f"convert over {out}: {answer}")
        self.count(self.stay(), "what is read was written over")

    def stay(self):
        """What is read stands as it did."""
        stays = (self.folder / "records").read_bytes() == COUNTY.read_bytes()
        return stays and (self.folder / "cert").read_bytes() == (EXAMPLES / "county.CERT").read_bytes()

    def inputs_beside(self):
        """What stands beside OUT is one of the files that are read, by that or another name."""
        cert, beside = self.folder / "cert", self.beside
        ways = {
            "a file": (beside.name, lambda: cert.rename(beside), lambda: beside.rename(cert), IS_READ_BESIDE),
            "a hard link to one": ("cert", lambda: os.link(cert, beside), beside.unlink, IS_READ_BESIDE),
            "a link to one": ("cert", lambda: beside.symlink_to("cert"), beside.unlink, CERTIFICATE.refusal(b"OUT.unfinished")),
        }
        for what, (read, begin, end, wanted) in ways.items():
            begin()
            answer = self.ask(["convert", read, "made"])
            stays = beside.read_bytes() == (EXAMPLES / "county.CERT").read_bytes() and not self.made.exists()
            end()
            self.count(answer == wanted and stays, f"convert beside {what} that is read: {answer}")
        for words in self.MAKING:
            beside.write_bytes(b"")
            answer = self.ask([*words, "made", "records", beside.name])
            stays = beside.exists() and beside.read_bytes() == b"" and not self.made.exists()
            self.count(answer == IS_READ_BESIDE and stays, f"{words[0]} beside an empty file that is read: {answer}")
            beside.unlink()
            os.link(self.folder / "records", beside)
            answer = self.ask([*words, "made", "cert", "records"])
            self.count(answer == IS_READ_BESIDE and not self.made.exists(), f"{words[0]} beside a hard link to records: {answer}")
            beside.unlink()
        self.count(self.stay(), "what is read was written over")

    def read_only(self):
        """OUT, what stands beside it, or their folder may not be written. Whoever runs as root may write all."""
        may_all = os.geteuid() == 0
        if may_all:
            skipped.skip("files made in a folder that is read alone", "user but root")
        for name, words in self.commands():
            old = KINDS[name].old
            self.made.write_bytes(old)
            self.made.chmod(0o444)
            answer = self.ask(words)
            is_well = self.is_made(name, answer) and self.made.stat().st_mode & 0o777 == 0o444
            self.count(is_well, f"{name} over a file that is read alone: {answer}")
            self.made.chmod(0o644)
            self.made.write_bytes(old)
            self.beside.write_bytes(b"")
            self.beside.chmod(0o444)
            answer = self.ask(words)
            is_well = self.is_made(name, answer) if may_all else answer == DEVICE and self.made.read_bytes() == old
            self.count(is_well, f"{name} beside a file that is read alone: {answer}")
            self.clear()
            if may_all:
                continue
            self.made.write_bytes(old)
            self.folder.chmod(0o555)
            answer = self.ask(words)
            self.folder.chmod(0o755)
            self.count(answer == DEVICE and self.made.read_bytes() == old, f"{name} in a folder that is read alone: {answer}")
            self.clear()

    def links(self):
        """A link stays one, and what it leads to is replaced or made."""
        target = self.folder / "target"
        for name, words in self.commands():
            for text in (KINDS[name].old, None):
                if text:
                    target.write_bytes(text)
                os.symlink("target", self.made)
                answer = self.ask(words)
                is_well = self.is_made(name, answer, target) and self.made.is_symlink()
                self.count(is_well and not Path(f"{target}.unfinished").exists(), f"{name} over a link: {answer}")
                self.clear()
                target.unlink()
            target.write_bytes(b"another's")
            os.symlink("target", self.made)
            answer = self.ask(words)
            is_well = answer == KINDS[name].refusal() and target.read_bytes() == b"another's"
            self.count(is_well, f"{name} over a link to a file: {answer}")
            self.clear()
            target.unlink()

    def others(self):
        """OUT is no regular file, or can't be made."""
        for name, _ in self.commands():
            words = dict(self.commands("/dev/stdout"))[name]
            status, printed, told = self.done[name]
            answer = self.ask(words)
            # A certificate has its line behind it; any other file stands alone, and its line goes to the error output.
            is_behind = KINDS[name] is CERTIFICATE
            wanted = (status, self.whole[name] + printed, told) if is_behind else (status, self.whole[name], printed + told)
            self.count(answer == wanted, f"{name} to a pipe: {answer[0]} {answer[2]}")
            answer = self.ask(dict(self.commands("/dev/null"))[name])
            wanted = self.done[name] if is_behind else (status, b"", printed + told)
            self.count(answer == wanted, f"{name} to nowhere: {answer}")
            for out, error in UNMADE:
                ran = self.run(dict(self.commands(out))[name])
                why = f"stopped Device\n  {out}: {os.strerror(error)}\n".encode()
                self.count((ran.returncode, ran.stdout, ran.stderr) == (4, b"", why), f"{name} to {out}: {ran}")

    def beside_it(self):
        """What lies where the new file is written."""
        for name, words in self.commands():
            old = KINDS[name].old
            for text in (b"", *KINDS[name].beginnings, self.whole[name][:99]):
                self.made.write_bytes(old)
                self.beside.write_bytes(text)
                answer = self.ask(words)
                self.count(self.is_made(name, answer), f"{name} beside {text[:20]}: {answer}")
            for text in (b"U", b"another's file\n"):
                self.made.write_bytes(old)
                self.beside.write_bytes(text)
                answer = self.ask(words)
                stays = (self.made.read_bytes(), self.beside.read_bytes()) == (old, text)
                is_well = answer == KINDS[name].refusal(b"OUT.unfinished") and stays
                self.count(is_well, f"{name} beside {text}: {answer}")
            self.beside.write_bytes(self.whole[name][:99])
            with open(self.beside, "rb") as held:
                fcntl.flock(held, fcntl.LOCK_EX)
                answer = self.ask(words)
                stays = (self.made.read_bytes(), self.beside.read_bytes()) == (old, self.whole[name][:99])
                self.count(answer == DEVICE and stays, f"{name} beside another run: {answer}")
            self.clear()
            stranger = self.folder / "stranger"
            stranger.write_bytes(old)
            os.symlink("stranger", self.beside)
            answer = self.ask(words)
            is_well = answer == KINDS[name].refusal(b"OUT.unfinished") and stranger.read_bytes() == old and not self.made.exists()
            self.count(is_well, f"{name} beside a link: {answer}")
            self.clear()
            # A file that isn't read, by another name of its own, and a pipe, of which nothing may be awaited.
            os.link(stranger, self.beside)
            answer = self.ask(words)
            is_well = answer == KINDS[name].refusal(b"OUT.unfinished") and stranger.read_bytes() == old and not self.made.exists()
            self.count(is_well, f"{name} beside a hard link: {answer}")
            self.clear()
            os.mkfifo(self.beside)
            answer = self.ask(words, timeout=10)
            is_well = answer == KINDS[name].refusal(b"OUT.unfinished") and self.beside.is_fifo() and not self.made.exists()
            self.count(is_well, f"{name} beside a pipe: {answer}")
            self.clear()

    def meanwhile(self):
        """A file of somebody else's comes under OUT while the program reads: it waits for a pipe then."""
        pipe = self.folder / "pipe"
        os.mkfifo(pipe)
        making = [([*words, "made", "pipe"], COUNTY.read_bytes()) for words in self.MAKING]
        for words, text in (*making, (["convert", "pipe", "made"], (EXAMPLES / "county.CERT").read_bytes())):
            begun = {"cwd": self.folder, "stdin": subprocess.DEVNULL, "stdout": subprocess.PIPE, "stderr": subprocess.PIPE}
            with subprocess.Popen([self.program, *words], **begun) as ran:
                # The program has opened the pipe when this comes back, and has asked before whether OUT may be made.
                with open(pipe, "wb") as writer:
                    self.made.write_bytes(b"another's")
                    writer.write(text)
                printed, told = ran.communicate()
            answer = ran.returncode, printed, told
            stays = self.made.read_bytes() == b"another's" and not self.beside.exists()
            why = b"stopped Device\n  made: entity already exists\n"
            self.count(answer == (4, b"", why) and stays, f"{words[0]} under a name that is taken meanwhile: {answer}")
            self.clear()
        pipe.unlink()

    def full_disk(self):
        """Files may not grow beyond so many bytes."""
        def small():
            signal.signal(signal.SIGXFSZ, signal.SIG_IGN)
            resource.setrlimit(resource.RLIMIT_FSIZE, (100, 100))

        for name, words in self.commands():
            for text in (KINDS[name].old, None):
                if text:
                    self.made.write_bytes(text)
                answer = self.ask(words, preexec_fn=small)
                stays = self.made.read_bytes() == text if text else not self.made.exists()
                self.count(answer == DEVICE and stays and not self.beside.exists(), f"{name} on a full disk: {answer}")
                self.clear()

    def kills(self):
        """The program is killed in the midst of each of its writes, and run again."""
        with tempfile.TemporaryDirectory() as folder:
            library = library_of(folder, KILL)
            for name, words in self.commands():
                for which in range(1, 100):
                    self.made.write_bytes(KINDS[name].old)
                    answer = self.ask(words, env={**os.environ, "LD_PRELOAD": library, "KILLED_WRITE": str(which)})
                    if answer[0] != -signal.SIGKILL:
                        break
                    left = self.made.read_bytes()
                    # The line that tells of it is written when it has taken its name.
                    self.count(left in (KINDS[name].old, self.whole[name]), f"{name} killed at write {which}: {left[:40]}")
                    again = self.ask(words)
                    self.count(self.is_made(name, again), f"{name} after it was killed at write {which}: {again}")
                self.count(which > 1, f"{name} was never killed")
                self.clear()


def play_all(program=PROGRAM):
    """How many runs left what they have to, and how many didn't."""
    with tempfile.TemporaryDirectory() as folder:
        play = Play(program, folder)
        of_what_stands = (play.standing, play.inputs, play.inputs_beside, play.read_only, play.links, play.others, play.beside_it)
        for part in (*of_what_stands, play.meanwhile, play.full_disk, play.kills):
            part()
    return play.passed, play.failed


if __name__ == "__main__":
    passed, failed = play_all(*sys.argv[1:2])
    print(skipped.counts(passed, failed))
    sys.exit(failed > 0 or passed == 0)
