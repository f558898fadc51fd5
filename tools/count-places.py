#!/usr/bin/env python3
"""Counts the places in src/ that docs/DESIGN-PASS.md speaks of.

  tools/count-places.py [FOLDER]         the count of each point, in FOLDER or here
  tools/count-places.py --list POINT     its places, one a line
"""
import collections
import glob
import os
import re
import sys

POINTS = {
    "1a own enums": r"^(?:pub(?:\(crate\))? )?enum \w+",
    "1b refusals by a bare number": r"(?:Stop|Refused|Shut|result_of|refused)\((?:rt, )?\d+",
    "1c kinds by a bare number": r"(?:\b(?:mode|halves|size|width) (?:==|!=|<|<=) \d+|(?:==|<) halves\b)",
    "3 loops that are no for": r"^\s*(?:while|loop) ",
    "4 library functions by hand": r"fn (?:same|lesser|greater|least|wider|view|bits|negative|size|past|copied|padded|widened|narrowed|byte|clipped"
    r"|group_count|block_count|piece_end|counted|below|from32|wide|quad|pair|load|store|half)[0-9_a-z]*[(<]",
    "6 slices with a number beside": r"(?:codes|values|numbers|c|s|bytes|text): &(?:mut )?\[\w+\], (?:n|w|at|count|bit): usize",
    "7 switches on a width or a mode": r"(?:match w |if (?:t\.)?width == \d+|if t\.mode == \d)",
}


def sources(top):
    return sorted(glob.glob(os.path.join(top, "crates/*/src/*.rt")))


def places(top):
    found = collections.defaultdict(list)
    names = collections.defaultdict(list)
    facts = collections.defaultdict(set)
    runs = collections.defaultdict(set)
    for path in sources(top):
        text = open(path).read()
        short = os.path.relpath(path, top)
        for number, line in enumerate(text.split("\n"), 1):
            for point, pattern in POINTS.items():
                for _ in re.finditer(pattern, line):
                    found[point].append(f"{short}:{number}: {line.strip()}")
            for name in re.findall(r"\b(?:fn|struct|enum) (\w+)", line):
                twin = re.sub(r"32|64|_?narrow|_?wide|Narrow", "", name)
                if twin != name:
                    names[twin].append(f"{short}:{number}: {name}")
        for m in re.finditer(r"fn (\w+)[^{;]*?\(([^)]*)\)[^{;]*?((?:\n\s+(?:requires|ensures)[^\n]*)*)\n\{", text):
            who = f"{short}: {m.group(1)}"
            for clause in re.findall(r"requires[^{]*\{(.*)\}", m.group(3)):
                for fact in clause.split("×"):
                    facts[fact.strip().strip("()").strip()].add(who)
            params = tuple(p.split(":")[0].strip() for p in m.group(2).split(",") if ":" in p)
            for i in range(len(params)):
                for j in range(i + 3, len(params) + 1):
                    runs[params[i:j]].add(who)
    for twin, who in names.items():
        if len(who) > 1:
            found["2 functions and types of one width"] += who
    for fact, who in facts.items():
        if len(who) >= 3:
            found["5a facts that three or more contracts ask"].append(f"{len(who)} {fact}")
    for run, who in runs.items():
        if len(who) >= 5:
            found["5b three or more parameters that five or more functions take"].append(f"{len(who)} {', '.join(run)}")
    for path in glob.glob(os.path.join(top, "crates/*/proofs/**/*.antt"), recursive=True):
        lines = open(path).read().split("\n")
        for kind in ("Answers.antt", "Invariants.antt"):
            if path.endswith(kind):
                found[f"8 files {kind}"].append(os.path.relpath(path, top))
        found["8 lines of proofs"] += lines[:-1]
    return found


def main():
    arguments = sys.argv[1:]
    wanted = None
    if arguments[:1] == ["--list"]:
        wanted = arguments[1]
        arguments = arguments[2:]
    found = places(arguments[0] if arguments else os.path.join(os.path.dirname(os.path.abspath(__file__)), ".."))
    for point in sorted(found):
        if wanted is None:
            print(f"{len(found[point]):6} {point}")
        elif point.startswith(wanted):
            print("\n".join(found[point]))


main()
