#!/usr/bin/env python3
"""Lists the places in src/ where a plainer form of today's Rattle may stand, by the points of docs/DESIGN-PASS.md.

    python3 tools/places.py [FOLDER]

FOLDER is a checkout, this one if it is left out. It goes by text: a place that it prints is one to look at, no more.
"""
import glob
import itertools
import os
import re
import sys
from collections import defaultdict

root = sys.argv[1] if len(sys.argv) > 1 else os.path.join(os.path.dirname(__file__), "..")
os.chdir(root)
FILES = sorted(glob.glob("crates/*/src/*.rt"))
LINES = [(f, n, line) for f in FILES for n, line in enumerate(open(f).read().split("\n"), 1)]
CODE = [(f, n, l) for f, n, l in LINES if not l.strip().startswith(("//", "ghost ", "ensures", "requires"))]


def functions():
    """(file, line, name, parameters, clauses, body) of each function."""
    for f in FILES:
        text = open(f).read()
        for m in re.finditer(r"^( *)(?:pub(?:\(crate\))? )?fn (\w+)", text, re.M):
            end = text.find("\n" + m.group(1) + "}", m.start())
            semi = text.find(";\n", m.start())
            if end < 0 or (0 <= semi < end and "\n" + m.group(1) + "{" not in text[m.start() : semi] and "{\n" not in text[m.start() : semi]):
                end = semi
            whole = text[m.start() : end]
            lines = whole.split("\n")
            clauses = [l.strip() for l in lines if re.match(r"\s*(requires|ensures)", l)]
            body = "\n".join(l for l in lines[1:] if not re.match(r"\s*(requires|ensures|//)", l))
            head = whole.split("{\n")[0].split("\n    requires")[0].split("\n        ensures")[0]
            inside = re.search(r"\(([^{]*?)\)\s*(?:->|\n|\{|;|$)", head, re.S)
            params = re.findall(r"(?:mut )?(\w+): ([^,()]+(?:\([^)]*\))?[^,()]*)", inside.group(1)) if inside else []
            yield f, text[: m.start()].count("\n") + 1, m.group(2), params, clauses, body


FUNCTIONS = list(functions())


def show(point, what, places):
    print(f"{point} {what}: {len(places)}")
    for place in places:
        print("    " + place)


def grep(pattern, lines=CODE):
    return [f"{f}:{n}: {l.strip()}" for f, n, l in lines if re.search(pattern, l)]


show(1, "matches that only pass None, Err or Ok on", grep(r"^\s*(None => (None|Err\()|Err\(_\) => (None|Err\()|Err\((\w+)\) => (return )?Err\(|Ok\(\(\)\) => Ok\(\(\)\)|Err\((\w+)\) => Answer::)"))
show(1, "flags beside a value", grep(r"\b\w+: bool\b"))
show(1, "functions that give back what they were given, beside an answer", grep(r"-> \((Desk|Held|Tape|Recording), "))
show(1, "values that mean nothing while another is 0", grep(r"\blen(\(\))? == 0\b"))
show(1, "numbers for kinds and refusals", grep(r"fn (number|of_number)\(\w+(: u32)?\)"))


def shape(body):
    body = re.sub(r"\b[A-Z]\w*\b", "T", body)
    body = re.sub(r"\b\d[\d_]*\b|\"[^\"]*\"", "0", body)
    return re.sub(r"\s+", " ", body).strip()


twins = defaultdict(list)
for f, n, name, params, clauses, body in FUNCTIONS:
    if len(re.findall(r"\w+", body)) >= 6:
        twins[shape(re.sub(r"\b\w+ *(?=\()", lambda m: m.group(0), body))].append(f"{f}:{n} {name}")
show(2, "functions with one body but for types and constants", [" = ".join(v) for v in twins.values() if len(v) > 1])
show(2, "words made by hand from a kind and a payload", grep(r"\* (268_435_456|0x1000_0000|PAYLOADS)|\.unwrap\(\)\.bits\(\)|u32::from\(Word::new"))

show(3, "indices counted by hand", grep(r"\+= 1;|-= 1;|= \w+\.saturating_add\(1\)|\bwhile\b|at = if "))
show(3, "loops over a range", grep(r"for \w+ in \d*\.\."))
LOOP = re.compile(r"for [^{]* in [^{]*\{\n\s*(?:if [^{]*\{\n\s*return (?:true|false);\n\s*\}\n\s*\}|\w+ = [^;]*;\n\s*\}|\w+\.push\([^;]*;\n\s*\})")
show(3, "loops that the library has", [f"{f}:{open(f).read()[:m.start()].count(chr(10)) + 1}" for f in FILES for m in LOOP.finditer(open(f).read())])

show(4, "conversions and printing by functions of their own", grep(r"fn (number|of_number|bits|of_bits|show_\w+|family|item|add)\((self|&?\w+: |\w+: &)"))

groups = defaultdict(set)
for f, n, name, params, clauses, body in FUNCTIONS:
    names = sorted({p for p, _ in params})
    for k in (3, 4, 5):
        for g in itertools.combinations(names, k):
            groups[g].add(f"{f}:{n} {name}")
big = {g: v for g, v in groups.items() if len(v) >= 3}
big = {g: v for g, v in big.items() if not any(set(g) < set(h) and v == w for h, w in big.items())}
show(5, "parameters together in three functions or more", [f"{', '.join(g)}: {len(v)}: {'; '.join(sorted(v))}" for g, v in sorted(big.items())])
facts = defaultdict(list)
for f, n, name, params, clauses, body in FUNCTIONS:
    for c in clauses:
        if c.startswith("requires"):
            fact = re.sub(r"\b(self\.now\.|self\.old\.|self\.)", "", re.sub(r"^requires( \w+)? ", "", c))
            facts[fact].append(f"{f}:{n} {name}")
show(5, "facts asked for by three functions or more", [f"{c}: {'; '.join(v)}" for c, v in facts.items() if len(v) >= 3])

show(6, "arrays of a fixed size", grep(r"\[[^\]\[]*; *\d+\]", [x for x in CODE if "/vectors/" not in x[0]]))
show(6, "lengths beside a buffer", grep(r"\blen: usize\b|\bwidth: usize\b"))

show(7, "switches over what to run", grep(r"match (\(self\.phase, event\)|(self\.name|held|name|command|parts|text)\b)"))

answers = glob.glob("crates/*/proofs/**/Answers.antt", recursive=True)
proofs = glob.glob("crates/*/proofs/**/*.antt", recursive=True)
print(f"8 files of answers: {len(answers)}, their lines: {sum(open(a).read().count(chr(10)) for a in answers)}, lines of proofs/: {sum(open(a).read().count(chr(10)) for a in proofs)}")
