#!/usr/bin/env python3
"""Counts, for each point of docs/DESIGN-PASS.md, the places in src/ that its search finds, and lists them with -l.

Usage: tools/places.py [-l] [FOLDER], where FOLDER is a checkout. The crate `trials`, which has tests alone, is counted apart.
"""
import collections
import pathlib
import re
import sys

LISTED = "-l" in sys.argv
TOP = pathlib.Path(next((a for a in sys.argv[1:] if a != "-l"), "."))
FILES = sorted(TOP.glob("crates/*/src/**/*.rt"))

# What is looked for in each line that is no comment.
LINES = {
    "1 numbers for kinds and refusals": r"=> [0-9]+,|[^_][0-9]+ =>|const (KIND|SIZE)\b|fn (kind_number|octet_count)\(|^\s+[0-9]+$",
    "1 an answer thrown away": r"let _ =",
    "1 a length tested before a value is taken": r"if .*(\.is_empty\(\)|\.len\(\) [<!])|return log",
    "3 loops": r"^\s*(for|while|loop)\b",
    "4 equality, order, copying or conversion by hand": r"^impl.*\b(PartialEq|Eq|PartialOrd|Ord|Hash|Clone|Copy|Default|From<.*>|TryFrom<.*>) for|fn (value_of|mark_of|bit_at)\b| as u(16|32)\b",
    "4 printing by hand": r"^impl.*\bDisplay for|fn (digit|hexadecimal|on_off|\w+_text|word)\b",
    "5 members of a bound passed one by one": r"\b([A-Z])\.\w+ \1\.\w+",
    "5 parameters that travel together": r"first: bool, last: bool|zoom: u8, column: u32, row: u32",
    "5 a view that each clause applies": r"(ensures|ghost).*\b(loads_of|rain_state|rain_made|store_waits|wire_waits)\b",
    "5 a private field in a contract": r"(ensures|ghost \w+ =).*\b(self|before|after)(\.(now|entry))?\.(near|far|below|mark|ahead|octets|frame|loads)\b",
    "6 parts of a buffer by places": r"\[[A-Za-z0-9_:+ ]*\.\.[^\]@]*\]|\b[a-z_.]+\[([a-z]+|[0-9]+)\]",
    "7 dyn, pointers, steps as an enum": r"\bdyn\b|: fn\(|enum (Call|Event)\b",
}


def code(path):
    return [(n, line) for n, line in enumerate(path.read_text().splitlines(), 1) if not line.strip().startswith("//")]


def functions(path):
    """The name and the body of each function, without its clauses."""
    lines = path.read_text().splitlines()
    for n, line in enumerate(lines):
        name = re.search(r"\bfn (\w+)", line)
        while name and n < len(lines) and not lines[n].endswith((";", "{")):
            n += 1
        if name and n < len(lines) and lines[n].endswith("{"):
            close = re.match(r"\s*", line).group() + "}"
            end = next((m for m in range(n + 1, len(lines)) if lines[m] == close), n)
            yield name.group(1), "\n".join(lines[n + 1:end])


def twins():
    """Functions whose bodies are equal once names and numbers are taken out."""
    groups = collections.defaultdict(list)
    for path in FILES:
        for name, body in functions(path):
            body = re.sub(r"//[^\n]*", "", body)
            shape = re.sub(r"\s+", " ", re.sub(r"\w+", "x", body)).strip()
            groups[shape].append(f"{path.relative_to(TOP)}: {name}")
    return [", ".join(names) for names in groups.values() if len(names) > 1]


def show(point, places):
    apart = sum("crates/trials/" in place for place in places)
    print(f"{point}: {len(places) - apart}, in trials {apart}")
    if LISTED:
        print(*(f"    {place}" for place in places), sep="\n")


for point, wanted in LINES.items():
    show(point, [f"{p.relative_to(TOP)}:{n}: {line.strip()}" for p in FILES for n, line in code(p) if re.search(wanted, line)])
show("2 groups of functions of one shape", twins())
proofs = [p.read_text() for p in sorted(TOP.glob("crates/*/proofs/**/*.antt")) if p.name != "Lib.antt"]
print(f"8 files of proofs: {len(proofs)}, their lines: {sum(len(p.splitlines()) for p in proofs)},",
      f"answers: {sum(len(re.findall(r'^pub [^ ]+ : goal', p, re.M)) for p in proofs)}")
