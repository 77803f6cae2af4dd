#!/usr/bin/env python3
"""Makes out/promises.md: of each crate its story, its public calls with what their clauses promise, and the edits of its code that
the prover refuses. It is made of the clauses and their comments.

usage: promises.py
"""

import re
import sys
from collections import namedtuple
from functools import lru_cache
from pathlib import Path

TOP = Path(__file__).resolve().parents[1]
CRATES = TOP / "crates"
PAGE = TOP / "out" / "promises.md"
HEAD = """# What each public call promises

Made from the public contracts and their comments. Which of these carry the promises of the whole program says docs/proof.md of the repository.

The first row of a call has what its doc comment promises, and the clauses that have no comment of their own; each further row has one clause with its comment. Behind a clause's name stands the definition that it cites above all, in `crates/NAME/specs/`, or the clause itself where it cites none and is short. Left out are calls without a contract, calls that only hand out a part of their value, and what a crate hands on of another. Behind a crate's calls stand the edits of its code that the prover refuses.
"""
# A first paragraph that is longer than this many characters is cut behind a sentence.
LONG = 400
# A clause that cites no definition is printed itself where it is no longer than this.
SHORT = 90
# What a type keeps of these traits says how it is held in memory, which promises nothing.
INNER = {"Model"}

FUNCTION = r"(?P<indent> *)(?P<public>pub(?:\([a-z]+\))? )?(?:const )?fn (?P<name>\w+)"
TYPE = r"(?:pub(?:\([a-z]+\))? )?(?:struct|enum|trait|type|const|static) (\w+)"
USE = r"ghost use Rattle\.(\w+)\.specs\.([\w.]+)\.\{([^}]*)\};"
MODULE = r"^(pub )?mod (\w+);"
LENT = r"^pub use ([^;]*);"

# A function with what it requires and ensures; the item that it is a function of, if it is of one.
Call = namedtuple("Call", "name doc clauses owner")
# A clause: whether it is required or ensured, its name, its text, and the comment above it.
Clause = namedtuple("Clause", "kind name text comment")
# What a type keeps of a trait: the ghost members that say so, as clauses.
Kept = namedtuple("Kept", "trait owner clauses")
# Where a definition of specs stands, what stands above it, and its type.
Definition = namedtuple("Definition", "crate path name comment shape")
# A part of the page: a crate, or a module of it that has modules of its own.
Part = namedtuple("Part", "title module")


# How a source is read. All of it is formatted by `rt fmt`, so that indents tell what belongs to what.


class Source:
    """A source: its lines, its story, its calls by their owners, what its types keep of traits, and what it cites."""

    def __init__(self, path):
        self.path = path
        self.text = path.read_text()
        self.lines = self.text.splitlines()
        self.story = paragraphs(line[3:] for line in self.lines if line.startswith("//!"))
        self.cites = dict(cited_in(self.text))
        self.calls, self.kept = [], []
        self.read()

    def read(self):
        """Reads the items of the file, one after the other."""
        at = 0
        while at < len(self.lines):
            line = self.lines[at]
            if re.match(FUNCTION, line) and not line.startswith(" "):
                self.add_call(at, None)
            elif re.match(r"(pub )?trait ", line):
                self.add_trait(at)
            elif line.startswith("impl"):
                self.add_impl(at)
            at = self.end_of(at)

    def end_of(self, at):
        """The line behind an item that begins here: behind its last line where it is a block."""
        if re.match(r"(pub(\([a-z]+\))? )?(const )?(fn|trait|struct|enum|impl)\b", self.lines[at]):
            for end in range(at, len(self.lines)):
                if self.lines[end] in ("}", "{}", ")") or (end == at and re.search(r"[;}]$", self.lines[end])):
                    return end + 1
        return at + 1

    def block(self, at):
        """The numbers of the lines of a block that begins here."""
        return range(at + 1, self.end_of(at))

    def add_call(self, at, owner):
        """A function by itself, or of the item that owns it."""
        name = re.match(FUNCTION, self.lines[at]).group("name")
        self.calls.append(Call(name, doc_above(self.lines, at), clauses_below(self.lines, at), owner))

    def add_trait(self, at):
        """The functions of a trait, whose contracts each type that keeps it keeps."""
        owner = re.search(r"trait (\w+)", self.lines[at]).group(1)
        for line in self.block(at):
            if re.match(r" {4}fn ", self.lines[line]):
                self.add_call(line, owner)

    def add_impl(self, at):
        """The public functions of a type; or what it keeps of a trait, and the functions in which it promises more than that."""
        kept, owner = impl_of(self.lines[at])
        if kept and owner:
            self.kept.append(Kept(last_name(kept), owner, ghosts_in(self.lines, self.block(at))))
        elif not owner:
            return
        for line in self.block(at):
            if re.match(r" {4}fn " if kept else r" {4}pub (const )?fn ", self.lines[line]):
                self.add_call(line, owner)


def impl_of(line):
    """The trait and the type of an `impl`, by their names; an empty one where there is none, or it has no name."""
    kept, _, owner = rest_behind_generics(line.split(" {")[0][len("impl") :]).rpartition(" for ")
    return kept, last_name(owner)


def rest_behind_generics(text):
    """What stands behind the generics with which a text begins, if it begins with some."""
    depth = 0
    for at, letter in enumerate(text):
        depth += (letter == "<") - (letter == ">" and text[at - 1] != "-")
        if depth == 0:
            return text[at + (letter == ">") :].strip()
    return text.strip()


def last_name(path):
    """The name at the end of a path, without what it is generic over."""
    found = re.match(r"(?:\w+::)*(\w+)(?:<.*)?$", path.strip())
    return found.group(1) if found else ""


def doc_above(lines, at):
    """The doc comment above a line, as text."""
    at -= 1
    while lines[at].lstrip().startswith("#[") or lines[at].endswith(")]"):
        at -= 1
    doc = []
    while at >= 0 and lines[at].lstrip().startswith("///"):
        doc.append(lines[at].lstrip()[3:])
        at -= 1
    return paragraphs(reversed(doc))


def paragraphs(lines):
    """The paragraphs of a comment, each as one line; rows of tables and of lists stay lines of their own."""
    found, is_open = [], False
    for line in lines:
        line = line.rstrip()
        if not line:
            is_open = False
        elif re.match(r" (\||- )", line) and is_open:
            found[-1] += "\n" + line.strip()
        elif is_open:
            found[-1] += " " + line.strip()
        else:
            found.append(line.strip())
            is_open = True
    return [without_links(it) for it in found]


def without_links(text):
    """A text with the links of doc comments as mere names."""
    return re.sub(r"\[`(?:crate::)?([^`]+)`\](?:\([\w:]+\))?", r"`\1`", text)


def clauses_below(lines, at):
    """The clauses of the function whose head begins at a line."""
    indent = re.match(" *", lines[at]).group() + " " * 4
    found, comment, at = [], [], at + 1
    if lines[at - 1].endswith(("{", ";", "}")):
        return found
    while at < len(lines):
        line = lines[at]
        clause = re.match(indent + r"(requires|ensures)(?: (\w+))? \{", line)
        if clause:
            text, at = braced(lines, at)
            found.append(Clause(clause.group(1), clause.group(2), text, " ".join(comment)))
            comment = []
            if lines[at].endswith("};"):
                return found
        elif line.startswith(indent + "//"):
            comment.append(line.strip()[2:].strip())
        elif line.startswith(indent[4:] + "{") or (not found and line.endswith(("{", ";"))):
            return found
        at += 1
    return found


def braced(lines, at):
    """What stands between the braces that open in a line, on one line, and the number of the line in which they close."""
    text = lines[at][lines[at].index("{") + 1 :]
    depth = 1 + text.count("{") - text.count("}")
    while depth > 0:
        at += 1
        text += " " + lines[at].strip()
        depth += lines[at].count("{") - lines[at].count("}")
    return text[: text.rindex("}")].strip(), at


def ghosts_in(lines, block):
    """The ghost members of a block that are defined there, as clauses."""
    found, comment = [], []
    for at in block:
        line = lines[at]
        member = re.match(r" {4}ghost (\w+) = \{", line)
        if member:
            found.append(Clause("ghost", member.group(1), braced(lines, at)[0], " ".join(comment)))
        comment = comment + [line.strip()[2:].strip()] if re.match(r" {4}// ", line) else []
    return found


# Which names a crate lends, and from which of its files.


class Module:
    """A module of a crate: its source, its modules, which of these are public, and which names it lends of them."""

    def __init__(self, path, folder, root=None):
        self.source = Source(path)
        self.root = root or self
        self.modules, self.public, self.lent = {}, [], []
        for is_public, name in re.findall(MODULE, self.source.text, re.M):
            below = folder / f"{name}.rt"
            if below.is_file():
                self.modules[name] = Module(below, folder / name, self.root)
                if is_public:
                    self.public.append(name)
        for use in re.findall(LENT, self.source.text, re.M):
            self.lent += paths_of(" ".join(use.split()))

    def find(self, path):
        """The module and the name for which a path stands here, or none where it leads out of the crate."""
        first, *rest = path
        if first in ("self", "crate") and rest:
            return (self.root if first == "crate" else self).find(rest)
        if rest:
            return self.modules[first].find(rest) if first in self.modules else None
        for lent in self.lent:
            if lent[-1] == first and lent != path:
                return self.find(lent)
        return self, first

    def is_part(self):
        """Whether it is a part of the page of its own: it has modules of its own, and tells its story."""
        return bool(self.modules and self.source.story)


def paths_of(use):
    """The paths that a `use` names."""
    before, brace, names = use.partition("{")
    start = [it for it in before.strip().split("::") if it]
    if not brace:
        return [start]
    names = names.rstrip("} ").split(",")
    return [start + it.strip().split("::") for it in names if it.strip()]


@lru_cache(None)
def root_of(crate):
    """The root of a crate that is a library; of another, none."""
    path = CRATES / crate / "src" / "lib.rt"
    return Module(path, path.parent) if path.is_file() else None


def names_lent(module, before=""):
    """The names that a module lends, each with the words that stand before it where it is used, its module, and its own name."""
    for path in module.lent:
        found = module.find(path)
        if found:
            yield (before,) + found
    for name in re.findall(r"^pub (?:const )?(?:fn|struct|enum|trait) (\w+)", module.source.text, re.M):
        yield before, module, name
    for name in module.public:
        below = module.modules[name]
        if not below.is_part():
            yield from names_lent(below, f"{before}{name}::")


def parts_of(title, module):
    """The parts of a module: itself, and the public modules below it that are parts of their own."""
    yield Part(title, module)
    for name in module.public:
        if module.modules[name].is_part():
            yield from parts_of(f"{title}::{name}", module.modules[name])


def files_of(part):
    """The sources that belong to a part and to no part below it."""
    def walk(module):
        yield module
        for name, below in module.modules.items():
            if not (name in module.public and below.is_part()):
                yield from walk(below)

    return list(walk(part.module))


# Definitions that clauses cite.


def cited_in(text):
    """The names of definitions that a source uses, each with its crate, the path of its file and its own name."""
    for crate, path, names in re.findall(USE, text):
        if path.startswith("declared") or not (CRATES / crate).is_dir():
            continue
        for name in names.split(","):
            own, _, here = name.strip().partition(" as ")
            if re.fullmatch(r"\w+", own):
                yield here or own, (crate, path.replace(".", "/"), own)


@lru_cache(None)
def definition(crate, path, name):
    """A definition of specs, or none where it isn't found."""
    stands = CRATES / crate / "specs" / f"{path}.antt"
    if not stands.is_file():
        return None
    lines = stands.read_text().splitlines()
    for at, line in enumerate(lines):
        if re.match(rf"(?:\w+ )?pub (?:record |data )?{re.escape(name)}\b", line):
            return Definition(crate, path, name, comment_above(lines, at), shape_of(lines, at, name))
    return None


def comment_above(lines, at):
    """The comment above a definition, on one line."""
    comment = []
    while at > 0 and lines[at - 1].startswith("-- "):
        at -= 1
        comment.append(lines[at][3:].strip())
    return " ".join(reversed(comment))


def shape_of(lines, at, name):
    """What stands behind a definition's name up to its first equation: its arguments and its type."""
    shape = lines[at].split(name, 1)[1]
    for line in lines[at + 1 :]:
        if shape.endswith("where") or not line.startswith(" "):
            break
        shape += " " + line.strip()
    return shape


def is_predicate(found):
    """Whether a definition says something of its arguments."""
    shape = found.shape[: -len("where")].strip() if found.shape.endswith("where") else found.shape.strip()
    return found.name[0].isupper() and shape.endswith("Type 0") and shape != ": Type 0"


def is_frame(found):
    """Whether a predicate only says in which case another one holds, as `IfFault` does."""
    return bool(re.match("If|On|Unless|Where|When", found.name)) and is_over(found)


def is_over(found):
    """Whether a predicate is over another one, as it is an argument of it."""
    return re.sub(r"\{[^}]*\}", "", found.shape).count("Type 0") > 1


def main_predicates(source, clause):
    """The predicate that a clause cites above all, the first of what it concludes or of all of it; and behind each that is over
    another the next, three at most."""
    for text in (conclusion(clause.text), clause.text):
        found = [it for it in looked_up(source, words_of(text)) if is_predicate(it) and not is_frame(it)]
        if found:
            found = list(dict.fromkeys(found))
            last = next((at for at, it in enumerate(found) if not is_over(it)), len(found))
            return found[: min(last + 1, 3)]
    return []


def main_function(source, text):
    """The function or the value of specs that something is by a text, if it is one."""
    found = looked_up(source, re.findall(r"≡ \(?(?:Some \()?(\w+)", text)[:1])
    return [it for it in found if it.name[0].islower()]


def some_function(source, text):
    """The first function or value of specs in a text."""
    return [it for it in looked_up(source, words_of(text)) if it.name[0].islower()][:1]


def looked_up(source, names):
    """The definitions of this repository for which names stand in a source."""
    found = [definition(*source.cites[it]) for it in names if it in source.cites]
    return [it for it in found if it]


def words_of(text):
    """The names in a text, but for those that are of something before them."""
    return re.findall(r"(?<![\w.])[A-Za-z_]\w*(?!\w)", text)


def conclusion(text):
    """What a clause says behind its last arrow that stands in no parentheses."""
    depth, last = 0, 0
    for at, letter in enumerate(text):
        depth += (letter in "({[") - (letter in ")}]")
        if letter == "→" and depth == 0:
            last = at + 1
    return text[last:]


# What stands in the tables.


def carried(source, clause):
    """What carries a promise: the clause's words, and what it cites, or its text where it cites nothing and is short; the latter
    with the file where it stands apart."""
    words = {"requires": "requires "}.get(clause.kind, "") + (f"`{clause.name}`" if clause.name else "")
    found = cited_by(source, clause)
    if found:
        over = "".join(before_next(it, other) for it, other in zip(found, found[1:]))
        return words.strip(), f"{over}`{found[-1].name}`", file_of(found[-1])
    text = re.sub(r"⟦<.*? as (\w+)>⟧", r"\1", clause.text)
    return words.strip(), f"`{text}`" if len(text) <= SHORT else "", ""


def cited_by(source, clause):
    """The definitions that a clause is told by."""
    found = main_predicates(source, clause) or main_function(source, clause.text)
    return found or (some_function(source, clause.text) if clause.kind == "ghost" else [])


def before_next(found, other):
    """A definition that is over another one, as it stands before that, with its file where it is another file."""
    return f"`{found.name}` over " if file_of(found) == file_of(other) else f"`{found.name}` of {file_of(found)} over "


def file_of(found):
    """The file of a definition, in code marks."""
    return f"`{found.crate}/specs/{found.path}`"


def carriers(source, clauses):
    """What carries a promise, of several clauses: those that cite one file stand together before it."""
    told, last = [], None
    for clause in clauses:
        words, what, file = carried(source, clause)
        if not what and (not words or words == "requires"):
            continue
        if not words and told:
            words = "ensures"
        one = ": ".join(it for it in (words, what) if it)
        if file and last == (clause.kind, file):
            told[-1] = told[-1][: -len(f" of {file}")] + f", {one} of {file}"
        else:
            told.append(f"{one} of {file}" if file else one)
        last = clause.kind, file
    return "; ".join(told)


def first_words(doc):
    """The first paragraph of a doc comment, or of a long one the sentences with which it begins."""
    text = doc[0] if doc else ""
    if len(text) <= LONG:
        return text
    cut = [it.end() for it in re.finditer(r"[.](?= [A-Z`])", text)]
    return text[: max([it for it in cut if it <= LONG] or cut[:1] or [len(text)])]


def is_getter(call):
    """Whether a call only hands out something that its value holds, and so says nothing beyond its name."""
    if len(call.clauses) != 1 or call.clauses[0].comment:
        return False
    return bool(re.fullmatch(r"result ≡ (\w+ self(\.now)?|self(\.\w+)*|\w+(\.\w+)* self(\.\w+)*)", call.clauses[0].text))


def rows_of_call(source, before, call):
    """The rows of a call: what it promises by itself, and each clause that has a comment."""
    plain = [it for it in call.clauses if not it.comment]
    name = f"`{before}{call.owner + '::' if call.owner else ''}{call.name}`"
    yield name, first_words(call.doc), carriers(source, plain)
    for clause in call.clauses:
        if clause.comment:
            yield "", without_links(clause.comment), carriers(source, [clause])


def rows_of_kept(source, before, kept):
    """The rows of a trait that a type keeps: its members that cite a definition, by their comments or that definition's."""
    name = f"`{before}{kept.owner}` as `{kept.trait}`"
    for clause in kept.clauses:
        found = cited_by(source, clause)
        promise = without_links(clause.comment) or (sentence(found[0].comment) if found else "")
        if found and promise:
            yield name, promise, carriers(source, [clause])
            name = ""


def sentence(text):
    """A comment of a definition as a sentence."""
    return f"{text[:1].upper()}{text[1:]}." if text else ""


def rows_of_name(sources, before, module, name):
    """The rows of a name that is lent: of a function its own; of a type and of a trait those of their functions."""
    for call in module.source.calls:
        if call.owner is None and call.name == name and is_shown(call):
            yield from rows_of_call(module.source, before, call)
    for source in [module.source] + [it for it in sources if it is not module.source]:
        if source is not module.source and (declares(source, name) or not names_it(source, name)):
            continue
        for call in source.calls:
            if call.owner == name and is_shown(call):
                yield from rows_of_call(source, before, call)
        for kept in source.kept:
            if kept.owner == name and kept.trait not in INNER:
                yield from rows_of_kept(source, before, kept)


def declares(source, name):
    """Whether a source declares a type of this name itself."""
    return any(it == name for it in re.findall(rf"^{TYPE}", source.text, re.M))


def names_it(source, name):
    """Whether a source uses a name of its crate."""
    return bool(re.search(rf"^use (?:crate|super)\b[^;]*\b{name}\b[^;]*;", source.text, re.M))


def is_shown(call):
    """Whether a call is shown: it has a contract, and isn't a mere getter."""
    return bool(call.clauses) and not is_getter(call)


def table_of(part):
    """The table of a part's calls; nothing where it has none."""
    sources = [it.source for it in files_of(part)]
    rows, seen = [], set()
    for before, module, name in in_order(names_lent(part.module)):
        if (module, name) not in seen and module.source in sources:
            seen.add((module, name))
            rows += rows_of_name(sources, before, module, name)
    if not rows:
        return ""
    return "\n".join([row("Call", "Promise", "Clause"), "|---|---|---|", *(row(*it) for it in rows)]) + "\n"


def in_order(lent):
    """Names that are lent, module by module, and those of a module as they stand in its file."""
    lent = list(lent)
    modules = list(dict.fromkeys(module for _, module, _ in lent))

    def place(item):
        _, module, name = item
        declared = re.search(rf"^pub .*\b{name}\b", module.source.text, re.M)
        return modules.index(module), declared.start() if declared else 0

    return sorted(lent, key=place)


def row(*cells):
    """A row of a table, on one line."""
    return "|" + "|".join(f" {escaped(it)} " if it else " " for it in cells) + "|"


def escaped(text):
    """A text as a cell has it."""
    return " ".join(text.split()).replace("|", "\\|")


# Edits that are refused.


def edits_of(part):
    """The line of the edits whose text stands in a part's files; nothing where there is none."""
    crate = CRATES / part.title.split("::")[0]
    sources = {it.source.path: it.source for it in files_of(part)}
    told = []
    for folder, by in (("must-fail", "in the gate"), ("wrong-bodies", "by `make wrong-bodies`")):
        named = [f"`{it.stem}` ({where})" for it, where in edits_in(crate, folder, sources)]
        if named:
            told.append(f"{by} {', '.join(named)}")
    return f"Refused edits: {'; '.join(told)}.\n" if told else ""


def edits_in(crate, folder, sources):
    """The edits of a folder that change one of these sources, each with the functions in which it does."""
    for edit in sorted((crate / folder).glob("*.edit")):
        lines = [it.partition(": ") for it in edit.read_text().splitlines()]
        path, places = None, []
        for word, _, text in lines:
            if word == "file":
                path = crate / text.strip()
            elif word == "old" and path in sources:
                places.append(place_in(sources[path], text))
        # A later pair may change what an earlier one has put there.
        if any(places):
            yield edit, ", ".join(dict.fromkeys(it for it in places if it))


def place_in(source, text):
    """In which function of a source a text stands, or in which other item; an empty place where it doesn't stand there."""
    at = next((at for at, line in enumerate(source.lines) if text.strip() in line), -1)
    for above in range(at, -1, -1):
        head = re.match(FUNCTION, source.lines[above])
        if head and head.group("indent") + "}" not in source.lines[above:at]:
            return f"`{owner_above(source, above)}{head.group('name')}`"
        item = re.match(r"(?:pub(?:\([a-z]+\))? )?(?:const|static|struct|enum) (\w+)|impl.* for (\w+)", source.lines[above])
        if item and "}" not in source.lines[above:at]:
            return f"`{item.group(1) or item.group(2)}`"
    return f"`{source.path.name}`" if at >= 0 else ""


def owner_above(source, at):
    """The type or the trait whose function stands in a line, as it stands before the function's name."""
    if not source.lines[at].startswith(" "):
        return ""
    for line in reversed(source.lines[:at]):
        if line.startswith("impl"):
            owner = impl_of(line)[1]
            return f"{owner}::" if owner else ""
        if re.match(r"(pub )?trait ", line):
            return re.search(r"trait (\w+)", line).group(1) + "::"
    return ""


# The page.


def floors():
    """The floors with their crates, but for the last: that of tests, a program over the libraries and what is measured."""
    title, found = None, []
    for line in (TOP / "crates.txt").read_text().splitlines():
        if line.startswith("#"):
            title = line[1:].strip().rstrip(".")
        else:
            if not found or found[-1][0] != title:
                found.append((title, []))
            found[-1][1].append(line.split(":")[0])
    return found[:-1]


def text_of_part(part):
    """A part of the page."""
    pieces = [f"### {part.title}\n", *(f"{it}\n" for it in part.module.source.story), table_of(part), edits_of(part)]
    return "\n".join(it for it in pieces if it)


def text_of_crate(crate):
    """All parts of a crate; nothing of a program, which has no public call."""
    root = root_of(crate)
    return "\n".join(text_of_part(it) for it in parts_of(crate, root)) if root else ""


def made():
    """What the script makes: the headings of the floors, and behind each the crates with their parts."""
    for title, crates in floors():
        yield None, f"## {title}\n"
        for crate in crates:
            text = text_of_crate(crate)
            if text:
                yield crate, text


def page():
    """The whole page."""
    return HEAD + "".join("\n" + text for _, text in made())


def play_all():
    """Looks for each edit of code, and for its crate, in what is made; gives how many are there and how many aren't."""
    told = page()
    every = [it for kind in ("must-fail", "wrong-bodies") for it in CRATES.glob(f"*/{kind}/*.edit")]
    edits = [it for it in every if "file: src/" in it.read_text()]
    wanted = {f"### {it.parent.parent.name}\n" for it in edits} | {f"`{it.stem}`" for it in edits}
    missing = sorted(it for it in wanted if it not in told)
    for it in missing:
        print(f"promises: {it.strip()} isn't there")
    return len(wanted) - len(missing), len(missing)


def main():
    PAGE.parent.mkdir(exist_ok=True)
    PAGE.write_text(page())


if __name__ == "__main__":
    sys.exit(main())
