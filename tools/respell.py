#!/usr/bin/env python3
"""Gives the repository's own ghost names today's spelling, in every specs/, proofs/ and src/ below crates/.

Run once, after the kit's port.py, at the top of the repository. A definition, field, lemma or constructor that is declared
at the margin of a file or up to four blanks in is written in snake case, a type or a fact in camel case: `band-wrong` becomes
`band_wrong`, `gcdOf` becomes `gcd_of`, `Run-fits` becomes `RunFits`. What Rattle makes (goals and steps) and what its library
declares keep their names, and so do functions, strings and comments of src/. `first_of` is the name of a tactic, so the
definition of that name becomes `first_refusal`; the lemma `bit-and` becomes `bit_of_and`, as the library has a `bit_and`.

It stops with a message where two such names would fall together. It does not look at the variants of enums in src/.
"""

import collections
import glob
import re
import sys

STOPS = r"\s(){}\[\].;,:|«»⌜⌝⟦⟧`\""
WORD = re.compile(rf"[^{STOPS}]+")
OTHER_WORDS = {"first_of": "first_refusal", "bit-and": "bit_of_and"}


def is_made(path):
    return re.search(r"/(Answers|Invariants|Proof)\.antt$", path) is not None


def declared(text):
    """The names that a file of specs/ or proofs/ declares."""
    names = set()
    for line in text.split("\n"):
        if line.lstrip().startswith("--"):
            continue
        kind = re.match(rf"^\s*(?:pub )?(?:record|data) ([^{STOPS}]+)", line)
        if kind:
            names.add(kind.group(1))
            continue
        if re.match(r"^\s*(use|let|in|elim|module|infix)\b", line):
            continue
        item = re.match(rf"^(?:  )?(?:  )?(?:abbrev |unfoldable |ruleset )?(?:pub )?([^{STOPS}]+) (?:\{{.*|\(.*)?: ", line)
        if item:
            names.add(item.group(1))
    return names


def turned(name):
    if name in OTHER_WORDS:
        return OTHER_WORDS[name]
    if name[0].isupper():
        parts = name.split("-")
        return parts[0] + "".join(part[:1].upper() + part[1:] for part in parts[1:])
    name = name.replace("-", "_")
    return re.sub(r"([a-z0-9])([A-Z])", lambda m: m.group(1) + "_" + m.group(2).lower(), name)


def foreign(text):
    """The names that a file takes from the kit."""
    names = set()
    for line in re.findall(r"use Rattle\.(?:std|core|logic)\.[^{;\n]*\{([^}]*)\}", text):
        names.update(word.strip() for part in line.split(",") for word in part.split(" as "))
    return names


def respell(text, names, is_source):
    def words(piece):
        return WORD.sub(lambda m: names.get(m.group(0), m.group(0)), piece)

    lines = []
    for line in text.split("\n"):
        if is_source:
            # comments and strings stay
            cut = re.search(r"//", line)
            head, tail = (line[: cut.start()], line[cut.start():]) if cut else (line, "")
            pieces = re.split(r'("(?:[^"\\]|\\.)*")', head)
            lines.append("".join(p if p.startswith('"') else words(p) for p in pieces) + tail)
        else:
            cut = re.search(r"(^|\s)--(\s|$)", line)
            head, tail = (line[: cut.start()], line[cut.start():]) if cut else (line, "")
            lines.append(words(head) + tail)
    return "\n".join(lines)


def main():
    ghost = sorted(glob.glob("crates/*/specs/**/*.antt", recursive=True) + glob.glob("crates/*/proofs/**/*.antt", recursive=True))
    source = sorted(glob.glob("crates/*/src/**/*.rt", recursive=True))
    texts = {path: open(path, encoding="utf-8").read() for path in ghost + source}
    own = set()
    for path in ghost:
        found = declared(texts[path])
        # in an answer file, what is declared for a goal is Rattle's name
        if is_made(path):
            found = {name for name in found if not re.search(rf"^(?:abbrev )?(?:pub )?{re.escape(name)} : goal\.", texts[path], re.M)}
        own |= found
    names = {name: turned(name) for name in own if turned(name) != name}
    kit = set().union(*(foreign(text) for text in texts.values()))
    for name in sorted(set(names) & kit):
        print(f"left, as the kit has it: {name}")
        del names[name]
    together = collections.defaultdict(set)
    for name in own:
        together[names.get(name, name)].add(name)
    bad = {new: old for new, old in together.items() if len(old) > 1}
    bad.update({new: {old, new} for old, new in names.items() if new in kit})
    if bad:
        sys.exit(f"these fall together: {bad}")
    for path, text in texts.items():
        new = respell(text, names, path.endswith(".rt"))
        if new != text:
            open(path, "w", encoding="utf-8").write(new)
    print(f"{len(names)} names")


main()
