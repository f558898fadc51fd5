#!/usr/bin/env python3
"""Spells the names that this repository's own antt files declare as today's Rattle does: words in snake case.

usage: tools/respell.py        once, at the top of the repository, right after port/port.py of the kit (see docs/PORT.md)

Turned are the definitions, lemmas, fields and constructors of specs/ and proofs/, with camel case or dashes, wherever the crates' .rt and .antt
files name them. Types, modules, what a Proof.antt declares only to answer a need that Rattle names, and names of the libraries stay.
Where a lemma would get the name of the definition that it is about, it gets `_lem` behind it.
"""
import collections
import os
import re

WORD = r'[^\s(){}.;,@"«»]+'
DECLARED = re.compile(r"(?m)^(\s*)(?:(?:abbrev|unfoldable|pub|data|record)\s+)*(" + WORD + r")((?:\s+\{[^{}\n]*\}|\s+\([^()\n]*\))*)\s:(?=\s)(.*)")
USE = re.compile(r"(?m)^\s*(?:pub )?use ([^\s;{]+?)\.?\{([^}]*)\}")
NEED = re.compile(r"\s*\(?tie\.|\s*\{M : Type 1\}")

# Names that would fall together, or that a library's older word stands in.
OTHER = {
    "piece_bytes": "piece_bytes_lem",
    "is-nan": "is_nan_lem",
    "nan-bits": "nan_bits_lem",
    "at-least": "at_least_lem",
    "length-of": "length_of",
    "getD-padded": "get_or_padded",
    "leZ-not": "int_le_not",
    "leZ-both": "int_le_both",
}


def files(ending):
    for folder, _, names in sorted(os.walk("crates")):
        for name in sorted(names):
            if name.endswith(ending) and "/out/" not in folder:
                yield os.path.join(folder, name)


def snake(name):
    if name[0].islower():
        name = re.sub(r"(?<=[a-z0-9])[A-Z]|(?<=[A-Z])[A-Z](?=[a-z])", lambda m: "_" + m[0].lower(), name)
    return re.sub(r"(?<=\w)-(?=\w)", "_", name)


def of_a_function(path):
    return os.path.basename(path) == "Proof.antt"


def read(path):
    with open(path, encoding="utf-8") as f:
        return f.read()


def declared():
    """The names that are to be turned: those of all files, and those of one Proof.antt alone; and which of them are fields."""
    everywhere, fields, local = set(), set(), collections.defaultdict(set)
    for path in files(".antt"):
        for indent, name, _, type_ in DECLARED.findall(read(path)):
            if not of_a_function(path):
                everywhere.add(name)
                if indent.strip("\n"):
                    fields.add(name)
            elif not NEED.match(type_) or name.endswith("-spec"):
                local[path].add(name)
    return everywhere, fields, local


def table(names):
    turned = {n: snake(n) for n in names if snake(n) != n and n not in OTHER}
    plain = collections.Counter(turned.values())
    for n, to in list(turned.items()):
        if "-" in n and (plain[to] > 1 or to in names):
            turned[n] = to + "_lem"
    turned.update({n: to for n, to in OTHER.items() if n in names})
    return turned


def of_libraries(text, crates):
    names = set()
    for path, items in USE.findall(text):
        steps = path.split(".")
        if not (steps[0] == "Rattle" and steps[1:2] and steps[1] in crates):
            names |= {i.strip().split(" as ")[0] for i in items.split(",")}
    return names


def turn(text, names, fields, in_proof):
    def line(l):
        code, comment = l, ""
        at = re.search(r"(?<![^\s(){}.;,])--", l)
        if at:
            code, comment = l[: at.start()], l[at.start() :]
        return code, comment

    out = []
    for l in text.splitlines(keepends=True):
        code, comment = line(l)
        piece, last = "", 0
        for m in re.finditer(WORD, code):
            before = code[m.start() - 1 : m.start()] if m.start() else ""
            name = m[0]
            if name in names and not (before == "." and in_proof and name not in fields):
                name = names[name]
            piece += code[last : m.start()] + name
            last = m.end()
        piece += code[last:]
        out.append(piece + in_comment(comment, names))
    return "".join(out)


def in_comment(text, names):
    # a camel case word is a name; a word with dashes may be plain text, but for one in a code span
    text = re.sub(r"(?<![\w-])[a-z][\w']*[A-Z][\w']*(?![\w-])", lambda m: names.get(m[0], m[0]), text)
    return re.sub(r"`([^`\n]+)`", lambda m: "`" + re.sub(WORD, lambda w: names.get(w[0], w[0]), m[1]) + "`", text)


def main():
    crates = set(os.listdir("crates"))
    everywhere, fields, local = declared()
    names = table(everywhere)
    for path in files(".antt"):
        text = read(path)
        libraries = of_libraries(text, crates)
        mine = dict(names)
        if of_a_function(path):
            mine.update({n: to for n, to in table(local[path]).items() if n not in names and not n.endswith("-spec")})
            mine.update({n: re.sub(r"-", "_", n) for n in local[path] if n.endswith("-spec")})
        mine = {n: to for n, to in mine.items() if n not in libraries}
        for n, to in mine.items():
            if to in libraries and re.search(r"(?<![\w-])" + re.escape(n) + r"(?![\w-])", text):
                print(f"look: {path}: {n} becomes {to}, which a library has")
        new = turn(text, mine, fields, of_a_function(path))
        if new != text:
            with open(path, "w", encoding="utf-8") as f:
                f.write(new)
    for path in files(".rt"):
        text = read(path)
        new = re.sub(r"(?<![\w-])[a-z][\w']*[A-Z][\w']*(?![\w-])", lambda m: names.get(m[0], m[0]), text)
        if new != text:
            with open(path, "w", encoding="utf-8") as f:
                f.write(new)
    print(f"respelled: {len(names)} of {len(everywhere)} names that are declared outside of Proof.antt files")


main()
