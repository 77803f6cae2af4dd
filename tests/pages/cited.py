#!/usr/bin/env python3
"""Looks up what pages and comments name: crates, files of definitions, files of this repository, and functions, types, clauses, laws and
definitions. Where a table has a file with its number of lines, it has to have so many.

A name stands in code marks. It is looked up where it can't be a plain word: in snake case with an underscore, in camel case with two
humps, as a path with `::`, as a link of a comment (in brackets), as a clause (behind that word, or behind a call and a colon), or with the
crate that it is of. It has to be one that the sources define or import, or one of `OTHERS`.

usage: cited.py
"""

import re
import sys
from collections import defaultdict, namedtuple
from pathlib import Path

sys.path.append(str(Path(__file__).resolve().parents[1]))
from folders import TOP

CRATES = TOP / "crates"
PAGES = [TOP / "README.md", TOP / "CONTRIBUTING.md", TOP / "examples" / "README.md", *sorted((TOP / "docs").glob("*.md"))]
CRATE = r"\b((?:tl|tigertopo)(?:_[a-z]+)+|tigertopo)\b"
# A file of definitions with its crate before it, or behind it.
DEFINITIONS = [CRATE + r"/specs/([A-Z]\w*(?:/[A-Z]\w*)*)", r"specs/([A-Z]\w*(?:/[A-Z]\w*)*)`? of `?" + CRATE]
# A crate by its name alone, in code marks.
NAMED = r"`(tl_[a-z_]+|tigertopo_[a-z_]+)`"
FILE = r"\b((?:tests|proving|docs|examples|bench|install|crates)/[\w/.-]+\.\w+)\b(?![*[])"
# A row of a table: a file of a crate, without the ending of definitions, its number of lines, and what it says.
COUNTED = r"^\| `(\w+/[\w/.]+)` \| (\d+) \|[^|]*\|$"
# What is named and isn't there: files of an example that fails, and of any crate.
ABSENT = {"examples/missing.RT2", "crates/NAME/proofs/MODULE/FUNCTION/Invariants.antt", "crates/NAME/proofs/MODULE/FUNCTION/Answers.antt"}

# A name, which may have the arguments of a call behind it: a path, in snake case, or in camel case.
NAME = r"`(\w+(?:::\w+)+|[a-z][a-z0-9]*(?:_[a-z0-9]+)+|(?:[A-Z][a-z0-9]+){2,})(?:\([^`]*\))?!?`"
LINK = r"\[`([\w:]+)(?:\(\))?`\]"
CLAUSES = r"\bclauses? ((?:`\w+`(?:, and |, | and )?)+)"
CLAUSES_OF = r"`(?:\w+::)*(\w+)`: ((?:`\w+`(?:, )?)+)"
NAMES_OF_CRATE = r"((?:`[\w:]+`(?:: |, ))*`[\w:]+`) \(?(?:of )?" + NAMED[:-1] + r"(?:::\w+)*`"
# What sources define: in Rust items, clauses, what is bound, fields and parameters; in specs definitions and what is bound.
IN_RUST = [r"\b(?:fn|struct|enum|trait|type|mod|const|static|let|mut|for)\s+(\w+)", r"\b(?:ensures|requires|ghost)\s+(\w+)", r"(\w+)\s*:(?!:)", r"\|(\w+)\|", r'\\"(\w+)\\":']
IN_SPECS = [r"^(?:[a-z]+ )*(?:abbrev|unfoldable|record|data|opaque) (?:pub )?([\w◌]+)", r"(\w+)\s*:", r"λ (\w+)\."]
IN_PYTHON = [r"\b(?:def|class)\s+(\w+)", r"^([A-Z_]+) =", r"^import (\w+)"]
VARIANT = r"^\s+([A-Z]\w*)\s*(?:[,({=]|$)"
IMPORTS = [r"^\s*(?:pub )?use ([^;]*);", r"^\s*ghost use [^;{]*\{([^;]*)\};"]
# What is named and isn't of this repository: a number of Rust, and a script that a page shows.
OTHERS = {"u64::MAX", "audit_county"}
# Names of the first papers, which docs/DECISIONS.md gives with what they have become.
OTHERS |= {"PlanStop", "open_and_run"}

# An item with a body, and its name: of an `impl` that of the type.
ITEM = r"^(?:pub(?:\(\w+\))? )?(?:struct|enum|trait|impl(?:<[^{]*>)?(?: [^{]*? for)?) (\w+)[^\n]*\n((?:[ )][^\n]*\n|\n)*)"

# What sources define: all names; the names in each crate, in each module and in each type; and the clauses of each function.
Sources = namedtuple("Sources", "names held clauses")


def uncommented(source):
    """A source without its comments."""
    return "\n".join(line.split("//", 1)[0] for line in source.splitlines())


def found_by(patterns, text):
    """What these patterns find."""
    return {name for pattern in patterns for name in re.findall(pattern, text, re.M)}


def items_in(code):
    """The items of a source that have a body, each with the names in it: fields, variants, functions and what these bind."""
    for name, body in re.findall(ITEM, code, re.M):
        yield name, found_by([*IN_RUST, VARIANT], body)


def clauses_in(code):
    """The functions of a source, each with the names of its clauses."""
    for function, head in re.findall(r"\bfn (\w+)(.*?)(?=^\s*\{|\bfn |\Z)", code, re.M | re.S):
        yield function, set(re.findall(r"\b(?:ensures|requires) (\w+) \{", head))


def add_source(file, crate, known):
    """Adds what a source in Rust defines, and what it imports."""
    code = uncommented(file.read_text())
    imported = set(re.findall(r"\w+", " ".join(found_by(IMPORTS, code))))
    known.held["use"] |= imported
    names = found_by(IN_RUST, code) | imported
    for name, inner in items_in(code):
        known.held[name] |= inner
        names |= inner
    for module in (crate, file.stem, *file.parent.relative_to(CRATES / crate / "src").parts):
        known.held[module] |= names | {file.stem}
    for function, named in clauses_in(code):
        known.clauses[function] |= named


def sources():
    """What all sources define: those of the crates, and the tests and the programs beside them."""
    known = Sources(set(OTHERS), defaultdict(set), defaultdict(set))
    for crate in (it.name for it in CRATES.iterdir() if it.is_dir()):
        for file in (CRATES / crate).glob("src/**/*.rt"):
            add_source(file, crate, known)
        for file in [*(CRATES / crate).glob("specs/**/*.antt"), *(CRATES / crate).glob("proofs/**/*.antt")]:
            known.held[crate] |= found_by(IN_SPECS, file.read_text()) | {file.stem}
        known.names.update(known.held[crate], {crate}, (it.stem for it in (CRATES / crate).glob("*/*.edit")))
    for folder in ("bench", "examples", "install", "proving", "real-maps", "tests"):
        for file in (TOP / folder).glob("**/*.py"):
            known.names.update(found_by(IN_PYTHON, file.read_text()), {file.stem})
    return known


def is_known(path, known):
    """Whether a path is a name, or each part of it is one, and is in the part before it, which is imported where it isn't ours."""
    parts = path.split("::")
    inner = (it in known.held.get(outer, known.names) and outer in known.held["use"].union(known.held) for outer, it in zip(parts, parts[1:]))
    return path in known.names or (set(parts) <= known.names and all(inner))


def names_in(text, known):
    """The names that a text names, each with whether it is known."""
    for name in dict.fromkeys(re.findall(NAME, text) + re.findall(LINK, text)):
        yield name, is_known(name, known)
    for listed, crate in re.findall(NAMES_OF_CRATE, text):
        for name in re.findall(r"(\w+)`", listed):
            yield f"{name} of {crate}", name in known.held.get(crate, ())
    for listed in re.findall(CLAUSES, text):
        for name in re.findall(r"`(\w+)`", listed):
            yield f"clause {name}", any(name in it for it in known.clauses.values())
    for function, listed in re.findall(CLAUSES_OF, text):
        for name in re.findall(r"`(\w+)`", listed):
            yield f"clause {name} of {function}", name in known.clauses.get(function, ())


def has_definitions(crate, name):
    """Whether the crate has a file or a folder of definitions of this name."""
    stands = CRATES / crate / "specs" / name
    return stands.is_dir() or stands.with_suffix(".antt").is_file()


def definitions_in(text):
    """The crates and the names of definitions that a text names together."""
    first, second = DEFINITIONS
    return re.findall(first, text) + [(crate, name) for name, crate in re.findall(second, text)]


def counted_in(text):
    """The files of crates with the lines that a text counts of them, each with whether it has so many."""
    for name, lines in re.findall(COUNTED, text, re.M):
        file = CRATES / (name if "." in name else f"{name}.antt")
        yield f"{name} with {lines} lines", file.is_file() and len(file.read_text().splitlines()) == int(lines)


def missing_of(where, text, known):
    """What a text names and isn't there, and how much it names."""
    named = [(f"{crate}/specs/{name}", has_definitions(crate, name)) for crate, name in definitions_in(text)]
    named += [(name, (CRATES / name).is_dir()) for name in re.findall(NAMED, text)]
    named += [(name, (TOP / name).exists()) for name in re.findall(FILE, text) if name not in ABSENT]
    named += [*names_in(text, known), *counted_in(text)]
    return [f"{where}: {name}" for name, stands in named if not stands], len(named)


def comments_of(source):
    """The comments of a source, as one text."""
    return "\n".join(line.split("//", 1)[1] for line in source.splitlines() if "//" in line)


def texts():
    """Each text in which names are looked up, with the place that is told."""
    for page in PAGES:
        yield page.relative_to(TOP), page.read_text()
    for source in sorted(CRATES.glob("*/src/**/*.rt")):
        yield source.relative_to(TOP), comments_of(source.read_text())


def play_all():
    """Looks all of them up, tells what isn't there, and gives how many are and how many aren't."""
    known = sources()
    missing, count = [], 0
    for where, text in texts():
        here, more = missing_of(where, text, known)
        missing += here
        count += more
    for name in missing:
        print(f"not there: {name}")
    return count - len(missing), len(missing)


def main():
    passed, failed = play_all()
    print(f"{passed} passed, {failed} failed")
    return failed > 0


if __name__ == "__main__":
    sys.exit(main())
