"""The lines that the program says behind `refused ..` and behind `stopped Device`, by the files' bytes: in which file the line
stands, in which of its lines and columns, and what it holds there, whether the other columns of type I would take it, and what
the file is where it holds no records; or which file can't be read or made, and why. And those behind an answer where no line of
the files begins as a record of type 1 does: of each file what it holds, or what it is.

It is said here once more, by docs/records.md, and compared wherever the program is played."""

import os
import re
from pathlib import Path

import placed
from judge import Line, Refused, record_of

REFUSED = re.compile(rb"refused line (\d+) L\d \w+ ?(\w+)?\n")
# What the system, and the program's own library, says of a file that can't be made.
WORDS = {os.strerror(it) for it in range(1, 134)} | {"entity already exists", "operation would block"}
# The options that have a value, and that of them which names a certificate that is read.
VALUED = {"--cert", "--out", "--name", "--tests", "--most", "--at", "--width", "--geojson", "--layer"}
# The commands that have --complete.
COMPLETE = {"audit", "build", "check", "border"}


class Asked:
    """What words ask for: the command, its switches, the names of the files that are read, a certificate behind the records, and
    that of the file that is made."""

    def __init__(self, words):
        self.words = [it.decode(errors="surrogateescape") if isinstance(it, bytes) else str(it) for it in words]
        self.command, *rest = self.words or [""]
        self.switches, self.names, cert, self.made = set(), [], [], None
        while rest:
            word, *rest = rest
            if word == "--":
                self.names += rest
                break
            option, equals, value = word.partition("=")
            if option in VALUED:
                if not equals and rest:
                    value, *rest = rest
                cert += [value] if option == "--cert" else []
                self.made = value if option in ("--out", "--geojson") else self.made
            elif word.startswith("-") and word != "-":
                self.switches.add(word)
            else:
                self.names.append(word)
        if self.command == "locate":
            self.names = self.names[1:]
        if self.command == "convert" and self.names:
            self.made = self.names[-1]
            self.names = self.names[:1]
        self.all_names = self.names + cert


def of_columns(line, zero_cells, released):
    """That the columns of type I that weren't asked for take the line, where they do."""
    if not line.startswith(b"I"):
        return b""
    try:
        record_of(Line(line), zero_cells, not released)
    except Refused:
        return b""
    return b"  these type I lines read %s --released\n" % (b"without" if released else b"with")


def typed(word):
    """A word as a shell takes it: between quotation marks, and behind `$` what isn't shown."""
    if re.fullmatch(r"[A-Za-z0-9%+,./:=@_-]+", word):
        return word.encode()
    marked = {"'": b"'\\''", "\\": b"\\"}
    parts = [(it, placed.shown_name(it)) for it in word]
    hidden = lambda shown: b"".join(b"'$'%b''" % shown[at : at + 4] for at in range(0, len(shown), 4))
    return b"'%b'" % b"".join(marked.get(it) or (shown if shown == it.encode(errors="surrogateescape") else hidden(shown)) for it, shown in parts)


def of_form(name, text, asked):
    """What a file is that begins as no records do, and what to type then: the words that were given, of what comes of the file."""
    shown = placed.shown_name(name)
    if text.startswith(b"\x00\x00\x27\x0a"):
        return b"  %b is a shapefile, which isn't read: tigertopo reads record files\n" % shown
    forms = (
        (b"PK", b"is an archive: unzip -p", True),
        (b"\x1f\x8b", b"is compressed: gzip -dc", True),
        (b"\xff\xfe", b"is UTF-16 text: iconv -f UTF-16 -t UTF-8", False),
        (b"\xfe\xff", b"is UTF-16 text: iconv -f UTF-16 -t UTF-8", False),
        (b"\xef\xbb\xbf", b"begins with a byte order mark: tail -c +4", False),
    )
    for front, tool, is_unpacked in forms:
        if text.startswith(front):
            wanted = ["--released", *["--complete"] * (asked.command in COMPLETE)] if is_unpacked else []
            switches = [it for it in wanted if it not in asked.switches]
            words = ["/dev/stdin" if it == name else it for it in asked.words[1:]]
            line = b" ".join(map(typed, [asked.command, *switches, *words]))
            return b"  %b %b %b | tigertopo %b\n" % (shown, tool, typed(name), line)
    return b""


def of_holding(name, text, asked):
    """What is said of a file of this text, in which no line begins as a record of type 1 does; of a pipe none is known."""
    if text is not None and of_form(name, text, asked):
        return of_form(name, text, asked)
    is_any_read = text is None or any(it[:1] in (b"2", b"7", b"8", b"I", b"P") for it in text.split(b"\n"))
    return b"  %b holds no %b\n" % (placed.shown_name(name), b"type 1 record" if is_any_read else b"record that is read")


def of_unread(folder, asked):
    """What has to stand behind an answer to files in which no line begins as a record of type 1 does."""
    paths = [Path(folder, it) for it in asked.names]
    if asked.command == "convert" or not all(it.exists() for it in paths):
        return b""
    texts = [it.read_bytes() if it.is_file() else None for it in paths]
    if any(text and (b"\n" + text).count(b"\n1") for text in texts):
        return b""
    told = [of_holding(name, text, asked) for name, text in zip(asked.names, texts)]
    more = b"  more files without a type 1 record: %d\n" % (len(told) - 8)
    return b"".join(told[:8]) + (more if len(told) > 8 else b"")


def of_refusal(asked, texts, number, field):
    """Where line so and so of these texts, read as one, stands, and what helps."""
    released = "--released" in asked.switches
    found = placed.found_line(asked.names, texts, number)
    if not found:
        return b""
    name, text, number, line = found
    more = of_columns(line, "--zero-cells" in asked.switches, released) if field else b""
    return placed.place_of_line(name, number, line, field, released) + more + of_form(name, text, asked)


def of_trouble(folder, names):
    """Which of the files can't be read, and why."""
    for name in names:
        try:
            # An empty name is none of the folder's own.
            with open(Path(folder, name) if name else "", "rb") as file:
                file.read()
        except OSError as error:
            return b"  " + placed.shown_name(name) + f": {error.strerror}\n".encode()
    return b""


def is_of_obstacle(rest, words):
    """It is said of the file that is made why it can't be."""
    made = Asked(words).made
    head, tail = b"  " + placed.shown_name(made or "") + b": ", b"\n"
    return made is not None and rest.startswith(head) and rest.endswith(tail) and rest[len(head) : -1].decode() in WORDS


def wanted(told, words, folder):
    """What has to stand behind the first line that was told on standard error."""
    asked = Asked(words)
    if told == b"stopped Device\n":
        return of_trouble(folder, asked.all_names)
    refused = REFUSED.fullmatch(told)
    if not refused:
        return b""
    texts = [Path(folder, name).read_bytes() for name in asked.names]
    field = refused[2] and refused[2].decode()
    return of_refusal(asked, texts, int(refused[1]), field)


def without_unread(told, words, folder, is_due):
    """The same of what was told with an answer, which may be on standard error too."""
    due = of_unread(folder, Asked(words))
    rest = told.removesuffix(due)
    if rest.startswith((b"error", b"OUT")):
        return told
    return rest if rest != told or not due or not is_due else told + b"and no hint\n"


def without(told, words, folder, is_due=False):
    """What was told on standard error without the lines behind the first, where these are the ones that are wanted; else all of it,
    and where they are due, since each file can be read again, and none was told, that too."""
    words = list(words)
    first, feed, rest = told.partition(b"\n")
    first += feed
    if not first.startswith((b"refused line ", b"stopped ")):
        return without_unread(told, words, folder, is_due)
    due = wanted(first, words, folder)
    if is_due and due and not rest and all(Path(folder, it).is_file() for it in Asked(words).all_names):
        return told + b"and no hint\n"
    is_made_so = first == b"stopped Device\n" and is_of_obstacle(rest, words)
    return first if rest == due or is_made_so else told
