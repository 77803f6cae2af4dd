#!/usr/bin/env python3
"""Reads what `audit --json` prints of the counties below, as those do who use it.

usage: objects.py [PROGRAM]

Each line has to be one object by Python's reader, and has to keep to the schema as it is written in docs/commands.md. What the
objects say is compared with what `audit` prints of the same files with `--where`: how many there are of what, the codes, the names and
the words of faults, the files, lines, types and columns of their records, and where they lie.
"""

import json
import re
import subprocess
import sys
import tempfile
from fractions import Fraction
from pathlib import Path

sys.path.append(str(Path(__file__).resolve().parents[1]))
from folders import EXAMPLES, PROGRAM, TOP

import hints

# What the counties of examples/faults are asked beside, where that is needed for their fault.
SWITCHES = {"G6": ["--zero-cells"], "G7": ["--faces"], "M14": ["--complete"]}
# How a county is asked for.
WAYS = [[], ["--all"], ["--all", "--most", "1"], ["--all", "--most", "0"]]
# A name of a file that JSON has to escape, and bytes of a field that are no text.
NAME = 'a "county"\\\t'
BYTES = b"+1\xe9\x7f\x00`\\\"3"
# The numbers of the last line of each kind of answer, by the keys of the last object.
SOUND = ("chains", "segments", "nodes", "polygons", "landmarks", "rings")
REFUSED = re.compile(r"refused line (\d+) (\w+) (\w+)(?: (\w+))?")
# Where a record stands, and where a refused line does.
RECORD = re.compile(r"  (.*) line (\d+), type (.)(?:, (?:tlid|polygon|land) [^,]*)(?:, (.*), segment (\d+) of its chain)?(?:, at (\S+))?$")
COLUMNS = re.compile(r"  (.*) line (\d+)(?:, columns (\d+) to (\d+): `.*`)?$")
END = re.compile(r"(faults|refused)=(\d+)(?: printed=(\d+))?")
TOUCHED = re.compile(r"touched polygons=(\d+) not looked at")


class Wrong(Exception):
    """Something isn't as it has to be."""


def need(holds, *told):
    if not holds:
        raise Wrong(" ".join(map(str, told)))


def run(words, folder=TOP):
    """The status and the two outputs of an answer, the error output without what helps."""
    done = subprocess.run([str(PROGRAM), "audit", *words], cwd=folder, capture_output=True)
    return done.returncode, done.stdout.decode(), hints.without(done.stderr, ["audit", *words], folder).decode()


# ---- the schema


def schema():
    """The schema of docs/commands.md, which is the page's only block of JSON that names one."""
    blocks = re.findall(r"```json\n(.*?)```", (TOP / "docs" / "commands.md").read_text(), re.DOTALL)
    found = [json.loads(it) for it in blocks if '"$schema"' in it]
    need(len(found) == 1, "the page has", len(found), "schemas")
    return found[0]


TYPES = {
    "object": lambda it: isinstance(it, dict),
    "array": lambda it: isinstance(it, list),
    "string": lambda it: isinstance(it, str),
    "integer": lambda it: isinstance(it, int) and not isinstance(it, bool),
    "number": lambda it: isinstance(it, (int, float)) and not isinstance(it, bool),
    "null": lambda it: it is None,
}
# The words of a schema that are understood here. A schema with another one is refused.
KNOWN = {"$schema", "$defs", "$ref", "description", "type", "const", "enum", "pattern", "minimum", "oneOf", "properties", "required",
         "items", "minItems", "maxItems"}


def keeps(value, rule, whole):
    """Whether a value keeps to a rule of the schema."""
    need(set(rule) <= KNOWN, "the schema has words that aren't known:", set(rule) - KNOWN)
    if "$ref" in rule and not keeps(value, whole["$defs"][rule["$ref"].removeprefix("#/$defs/")], whole):
        return False
    if "type" in rule and not any(TYPES[it](value) for it in ([rule["type"]] if isinstance(rule["type"], str) else rule["type"])):
        return False
    if "const" in rule and value != rule["const"] or "enum" in rule and value not in rule["enum"]:
        return False
    if "oneOf" in rule and sum(keeps(value, it, whole) for it in rule["oneOf"]) != 1:
        return False
    if isinstance(value, str) and not re.search(rule.get("pattern", ""), value):
        return False
    if TYPES["number"](value) and value < rule.get("minimum", value):
        return False
    if isinstance(value, list):
        long = rule.get("minItems", 0) <= len(value) <= rule.get("maxItems", len(value))
        return long and all(keeps(it, rule.get("items", {}), whole) for it in value)
    if isinstance(value, dict):
        named = rule.get("properties", {})
        # The schema lets later versions add members; this version has none beside those that it names.
        return (set(value) <= set(named) or "properties" not in rule) and set(rule.get("required", ())) <= set(value) and all(keeps(value[it], named[it], whole) for it in set(value) & set(named))
    return True


def read(text, whole):
    """The objects of an answer: one a line, each of which keeps to the schema and names no member twice."""

    def members(pairs):
        need(len(dict(pairs)) == len(pairs), "a member twice in", pairs)
        return dict(pairs)

    need(text.endswith("\n"), "no whole line in", text)
    objects = [json.loads(line, object_pairs_hook=members) for line in text[:-1].split("\n")]
    for it in objects:
        need(keeps(it, whole, whole), "the schema doesn't have", it)
    return objects


# ---- what the same files are told in lines


def told_in(text):
    """What lines say: each fault or refused line with the lines behind it, and the last line, with what stands before it of polygons
    that are touched."""
    told, last, touched = [], None, 0
    for line in text.splitlines():
        if line.startswith("  "):
            told[-1][1].append(line)
        elif found := TOUCHED.fullmatch(line):
            touched = int(found[1])
        elif line.startswith(("map fault ", "refused line ")):
            told.append((line, []))
        else:
            last = line
    return told, last, touched


def same_fault(it, line, behind):
    """Compares the object of a fault with its line and the lines of its records."""
    fault = line.removeprefix("map fault ")
    need(it["is"] == "fault" and it["fault"] == fault and fault.split(" ")[:2] == [it["code"], it["name"]], it, "for", line)
    need(len(it["records"]) == len(behind), it, "for", behind)
    for record, place in zip(it["records"], behind):
        file, number, kind, ends, segment, at = RECORD.fullmatch(place).groups()
        need((record["file"], str(record["line"]), record["type"]) == (file, number, kind), record, "for", place)
        need(segment is None and "segment" not in record or str(record.get("segment")) == segment, record, "for", place)
        need(ends is None or ends == ends_of(record["ends"]), record, "for", place)
        need((at is None) == (it["place"] is None), it, "for", place)
        if at:
            for exact, printed in zip(it["place"]["exact"], at.split(",")):
                need(abs(Fraction(exact) / 10**6 - Fraction(printed)) <= Fraction(1, 2 * 10**10), it, "for", place)
    if it["place"]:
        for exact, degrees in zip(it["place"]["exact"], it["place"]["degrees"]):
            need(abs(Fraction(exact) / 10**6 - Fraction(str(degrees))) <= Fraction(1, 10**12), it)
    numbers = [int(word) for word in re.findall(r"(?<!\S)\d+(?!\S)", fault)]
    about = it["about"]
    told = [*about["tlids"], *about.get("segments", ()), *about.get("darts", ()), *about.get("ids", ()), *about["landmarks"]]
    if it["code"] not in ("G2", "G6"):
        need(set(about["tlids"]) == {int(word) for word in re.findall(r"tlid (\d+)", fault)}, it)
    need(it["code"] in ("G2", "G6") or all(number in numbers for number in told), it)
    need(about.get("darts", ()) == () or about["darts"] == [int(word) for word in re.search(r"darts (\d+) (\d+)", fault).groups()], it)
    need(set(about["polygons"]) == set(re.findall(r"\S+/\d+", fault)), it)


def ends_of(ends):
    """The ends of a segment as a line names them."""
    if all(isinstance(it, int) for it in ends):
        return f"pair {ends[0]}" if len(ends) == 1 else f"pairs {ends[0]} and {ends[1]}"
    return " and ".join(it if isinstance(it, str) else f"pair {it}" for it in ends)


def same_refusal(it, line, behind):
    """Compares the object of a refused line with its line and the line of its place."""
    number, code, name, field = REFUSED.fullmatch(line).groups()
    need((it["is"], it["code"], it["name"], it["about"]) == ("refused", code, name, {"line": int(number), "field": field}), it, "for", line)
    need(len(it["records"]) == len(behind), it, "for", behind)
    for record, place in zip(it["records"], behind):
        file, number, first, last = COLUMNS.fullmatch(place).groups()
        need((record["file"], str(record["line"])) == (file, number), record, "for", place)
        need(record.get("columns") == (first and [int(first), int(last)]), record, "for", place)


def same(objects, text, status):
    """Compares the objects with the lines of `--all --where`."""
    told, last, touched = told_in(text)
    need(len(objects) == len(told) + 1, objects, "for", text)
    for it, (line, behind) in zip(objects, told):
        (same_fault if line.startswith("map") else same_refusal)(it, line, behind)
    end = objects[-1]
    if last.startswith("sound "):
        need(end == {"is": "sound", **{word: int(n) for word, n in (it.split("=") for it in last.split(" ")[1:])}}, end, "for", last)
        return
    kind, count, printed = END.fullmatch(last).groups()
    need(end["is"] == ("faults" if kind == "faults" else "refusals") and end[kind] == int(count), end, "for", last)
    need(end["printed"] == int(printed or count) == len(told) and end.get("touched", 0) == touched, end, "for", last)
    need(status == (1 if kind == "faults" else 3), status, "for", last)


# ---- the cases


def compare(words, whole, folder=TOP):
    """One county in one way: what is told in objects and in lines. Without `--all` the lines are those of the first fault or of the
    first refused line."""
    status, out, err = run(["--json", *words], folder)
    need(not err, "on the error output:", err)
    all_words = words if "--all" in words else ["--all", "--most", "1", *words]
    other, lines, _ = run(["--where", *all_words], folder)
    need(status == other, "the status is", status, "and not", other)
    same(read(out, whole), lines, status)
    need(run(["--json", "--where", *words], folder) == (status, out, err), "--where makes a difference")


def odd(whole):
    """A name that has to be escaped, and bytes that are no text."""
    record = (EXAMPLES / "faults" / "L2").read_bytes().split(b"\n")[0]
    with tempfile.TemporaryDirectory() as folder:
        (Path(folder) / NAME).write_bytes(record[:190] + BYTES.ljust(10) + record[200:] + b"\n")
        status, out, err = run(["--json", NAME], folder)
    need(status == 3 and not err, status, err)
    first, end = read(out, whole)
    need(first["records"] == [{"file": NAME, "line": 1, "columns": [191, 200], "bytes": BYTES.ljust(10).decode("latin-1")}], first)
    need(end == {"is": "refusals", "refused": 1, "printed": 1}, end)


def cases():
    """Each case by its name, with what plays it."""
    whole = schema()
    counties = sorted(it for it in (EXAMPLES / "faults").iterdir() if it.suffix != ".CERT")
    for county in [EXAMPLES / "county", *counties]:
        for way in WAYS:
            words = [*way, *SWITCHES.get(county.name, []), str(county.relative_to(TOP))]
            yield " ".join(words), lambda words=words: compare(words, whole)
    yield "a name and bytes that are odd", lambda: odd(whole)


def codes():
    """Whether the counties have each code that a county of this size can have."""
    seen = set()
    for county in (EXAMPLES / "faults").iterdir():
        if county.suffix != ".CERT":
            _, out, _ = run(["--all", "--json", *SWITCHES.get(county.name, []), str(county)])
            seen |= {it["code"] for it in map(json.loads, out.splitlines()) if "code" in it}
    missing = {f"L{n}" for n in range(1, 5)} | {f"M{n}" for n in range(1, 13)} | {f"G{n}" for n in range(1, 8)}
    need(missing <= seen, "no county has", missing - seen)


def play_all():
    """Plays all cases, and gives how many passed and how many failed."""
    passed = failed = 0
    for name, play in [*cases(), ("all codes", codes)]:
        try:
            play()
            passed += 1
        except (Wrong, ValueError, AttributeError, LookupError, TypeError) as why:
            print(f"objects: {name}: {type(why).__name__}: {why}")
            failed += 1
    return passed, failed


def main():
    passed, failed = play_all()
    print(f"{passed} passed, {failed} failed")
    return failed > 0


if __name__ == "__main__":
    if len(sys.argv) > 1:
        PROGRAM = Path(sys.argv[1]).resolve()
    sys.exit(main())
