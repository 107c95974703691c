#!/usr/bin/env python3
"""port-names: the repository's own definitions and lemmas in the spelling of today's Rattle.

Run once, at the top, after port.py. A word in camel case that begins with a small letter becomes snake case, part by part
of a name joined by dashes: `sameAs` is `same_as`, `labelOf-fits` is `label_of-fits`. A part that begins with a capital is a
type or a fact and stays. Source names (functions, fields, exported C names) are in snake case already, so nothing of them
moves; text between quotes in a source stays as it is. No two names fall together: the script stops where two would."""
import glob
import re
import sys

WORD = re.compile(r"(?<![A-Za-z0-9_'\-·])[A-Za-z_][A-Za-z0-9_'\-]*")
CAMEL = re.compile(r"[a-z][a-z0-9']*[A-Z]")

# Local names that a definition's new name would be hidden by.
LOCALS = {
    "crates/assurance/proofs/Kept.antt": [(r"\bpair_made\b", "made_of_asked")],
    "crates/assurance/proofs/LeavesKept.antt": [(r"\bruns_as\b", "runs_as_own")],
}


def snake(word):
    def part(p):
        return re.sub(r"(?<=[a-z0-9])([A-Z])", lambda m: "_" + m.group(1).lower(), p) if CAMEL.match(p) else p

    return "-".join("_".join(part(q) for q in p.split("_")) for p in word.split("-"))


def turned(text, source):
    if not source:
        return WORD.sub(lambda m: snake(m.group(0)), text)
    pieces = re.split(r'("(?:[^"\\\n]|\\.)*")', text)
    return "".join(p if i % 2 else WORD.sub(lambda m: snake(m.group(0)), p) for i, p in enumerate(pieces))


def main():
    files = [f for kind in ("specs", "proofs") for f in glob.glob(f"crates/*/{kind}/**/*.antt", recursive=True)]
    files += glob.glob("crates/*/src/**/*.rt", recursive=True)
    old_of = {}
    for f in files:
        for m in WORD.finditer(open(f, encoding="utf-8").read()):
            old_of.setdefault(snake(m.group(0)), set()).add(m.group(0))
    both = {n: ws for n, ws in old_of.items() if len(ws - {n}) > 1}
    if both:
        sys.exit(f"port-names: these fall together: {both}")
    for f in files:
        text = open(f, encoding="utf-8").read()
        new = text
        for old, to in LOCALS.get(f, []):
            new = re.sub(old, to, new)
        new = turned(new, f.endswith(".rt"))
        if new != text:
            open(f, "w", encoding="utf-8").write(new)


main()
