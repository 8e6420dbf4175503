#!/usr/bin/env python3
"""Spells the repository's own definitions and lemmas as today's Rattle does: lowerCamel becomes snake_case.

usage: python3 tools/snake_names.py [--look]     at the top of the repository, once, after port.py

A name counts where a file of specs/ or proofs/ declares it, or binds it, and no imported line of the kit's has it. It changes in .antt files, in the
clauses, ghost lines and comments of .rt files, in must-fail edits, and in back quotes on the pages. Functions of src/, strings, inputs and outputs keep
their names. It stops where two names would fall together, or where a new name is one that the same file has already.
"""
import collections
import glob
import re
import sys

TOKEN = re.compile(r"[^\s(){}\[\].,;:=`\"#|\\⌜⌝<>!?*+/&@$%^~]+")
CAMEL = re.compile(r"[a-z0-9₀-₉'][A-Z]")
DECLARED = re.compile(r"^\s*(?:unfoldable |abbrev |pub |data |record )*([^\s:(){}.,;]+)\s*:(?!=)")
PAGES = ["README.md", "docs/*.md", "tests/promises", "tests/second/README.md", "scripts/thin-law"]
# lemmas that a definition would fall together with: in these folders the lemma takes `_lem`, as a lemma that would have its function's name does
LEMMAS = {
    "is_within": ["crates/kinds/proofs/Records.antt"],
    "is_digit": ["crates/numeral/proofs/Scan.antt", "crates/numeral/proofs/OneText.antt"],
    "moved_on": ["crates/clock/proofs/Calls.antt", "crates/clock_time/proofs/InStep.antt", "crates/clock_time/proofs/Lowered.antt"],
    "none_passes": ["crates/outcome/proofs/Exactly.antt", "crates/wide_finder/proofs/Exactly.antt"],
}
# bound inside a definition and not at the head of a line
BOUND = ["oldCores", "oldLoads", "oldProposal", "onOne", "proposedAt", "standingAt", "answerAt", "aAt"]


def snake(name):
    def part(p):
        return re.sub(r"(?<=[a-z0-9₀-₉'])([A-Z])", lambda m: "_" + m.group(1).lower(), p) if p[:1].islower() else p
    return "-".join(part(p) for p in name.split("-"))


def antt():
    return sorted(glob.glob("crates/*/specs/**/*.antt", recursive=True) + glob.glob("crates/*/proofs/**/*.antt", recursive=True))


def read(path):
    with open(path, encoding="utf-8", newline="") as f:
        return f.read()


def code_of(text):
    return "\n".join(l for l in text.split("\n") if not l.lstrip().startswith("--"))


def table():
    found = set(BOUND)
    for path in antt():
        for line in code_of(read(path)).split("\n"):
            m = DECLARED.match(line)
            if m and CAMEL.search(m.group(1)) and m.group(1)[0].islower():
                found.add(m.group(1))
    return {n: snake(n) for n in found if snake(n) != n}


def clashes(names):
    bad = []
    by_new = collections.defaultdict(set)
    for old, new in names.items():
        by_new[new].add(old)
    bad += [f"fall together: {sorted(v)} as {k}" for k, v in by_new.items() if len(v) > 1]
    for path in antt() + sorted(glob.glob("crates/*/src/**/*.rt", recursive=True)):
        text = code_of(read(path)) if path.endswith(".antt") else "\n".join(c for _, c in clauses(read(path)))
        words = collections.Counter(TOKEN.findall(text))
        for old, new in names.items():
            if words[old] and words[new]:
                bad.append(f"{path}: {old} becomes {new}, which is there {words[new]} times already")
    return bad


def clauses(text):
    """The parts of a .rt file that may change: all but string literals."""
    for i, piece in enumerate(re.split(r'(b?"(?:[^"\\\n]|\\.)*")', text)):
        yield i % 2, piece


def turned(text, names):
    return TOKEN.sub(lambda m: names.get(m.group(0), m.group(0)), text)


def main(look):
    names = table()
    bad = clashes(names)
    for line in bad:
        print("look: " + line)
    print(f"{len(names)} names, {len(bad)} to look at")
    if look:
        return 0
    changed = 0
    files = [(p, "antt") for p in antt()] + [(p, "rt") for p in glob.glob("crates/*/src/**/*.rt", recursive=True)]
    files += [(p, "edit") for p in glob.glob("crates/*/must-fail/*.edit")] + [(p, "page") for g in PAGES for p in glob.glob(g)]
    for path, kind in files:
        text = read(path)
        if kind == "rt":
            new = "".join(piece if s else turned(piece, names) for s, piece in clauses(text))
        elif kind == "page" and path.endswith(".md"):
            new = re.sub(r"`[^`\n]+`", lambda m: turned(m.group(0), names), text)
        else:
            mine = {n: n + "_lem" for n, files in LEMMAS.items() if path in files}
            new = turned(turned(text, mine), names)
        if new != text:
            with open(path, "w", encoding="utf-8", newline="") as f:
                f.write(new)
            changed += 1
    print(f"{changed} files changed")
    return 0


if __name__ == "__main__":
    raise SystemExit(main("--look" in sys.argv[1:]))
