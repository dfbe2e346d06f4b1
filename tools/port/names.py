#!/usr/bin/env python3
"""Brings the names of this repository's definitions, lemmas and labels to one spelling: words in snake case, types in camel case.

usage: tools/port/names.py [--docs]     at the top of the repository, after port.py

`codesFit` becomes `codes_fit`, `below-means` becomes `below_means`, and a definition that gives a type, as `distinct`, becomes `Distinct`. What is declared in
specs/ and proofs/ is renamed, in .antt and .rt files and in must-fail edits; with --docs, in the backticks of the papers too. Names of src/ are
not touched, nor what a proof of a function declares, nor strings. If two names would fall together in a file, nothing is written.
A second run changes nothing.
"""
import collections
import glob
import re
import sys

DECLARED = re.compile(r"^( {0,8})(?:(?:unfoldable|abbrev|pub) )*([^\s:(){}«»]+) :(?: |$)(.*)")
TOKEN = re.compile(r"[^\s(){}.;,@\"«»\[\]\\`]+")
# A definition that gives a type, in lower case. Its new name is a type's.
TYPES = {"codesInRange": "CodesInRange", "distinct": "Distinct"}
# Names that had their spelling already and stand in the way of a definition's new one, in proofs/ alone: of each its new name, and the definition.
IN_THE_WAY = {"half_at": ("half_at_lem", "halfAt"), "same_bytes": ("same_bytes_lem", "sameBytes"), "split_at": ("split_asked", "splitAt")}
# What a lemma's or a label's name ends in if a definition has that name in snake case.
LEMMA, LABEL = "_lem", "_is"


def read(path):
    with open(path, encoding="utf-8") as file:
        return file.read()


def sources():
    return sorted(glob.glob("crates/*/specs/**/*.antt", recursive=True) + glob.glob("crates/*/proofs/**/*.antt", recursive=True))


def declared():
    """The names, and those of them that are labels of records."""
    names, labels = set(), set()
    for path in sources():
        if path.endswith("/Proof.antt") or re.search(r"(?m)^use .*\.(Goals|Given) as goal$", read(path)):
            continue
        record = False
        for line in read(path).split("\n"):
            if re.match(r"\S", line):
                record = bool(re.match(r"(pub )?record ", line))
            found = DECLARED.match(line)
            if found:
                names.add(found.group(2))
                if record:
                    labels.add(found.group(2))
    return names, labels


def spelled(names, labels):
    """The new name of each that gets one."""
    out = {name: snake(name) for name in sorted(names) if snake(name) != name}
    taken = collections.Counter([*out.values(), *(name for name in names if name not in out)])
    for name in out:
        if "-" in name and taken[out[name]] > 1:
            out[name] += LABEL if name in labels else LEMMA
    return out


def snake(name):
    if name in TYPES:
        return TYPES[name]
    if not name[0].islower():
        return name
    name = re.sub(r"(?<=[a-z0-9])([A-Z])", lambda it: "_" + it.group(1).lower(), name)
    return name.replace("-", "_")


def renamed(text, names, proof=False):
    """Every token that is a name, in code; a comment is as much of the text as the rest, but a dashed word in it is a name only in backticks."""

    def code(piece):
        if proof:
            # A step of a proof by hand is named after a function.
            piece = re.sub(r"(?<=\.)[\w-]+(?=\.(ensures|result|new|auto|given)\b)", lambda it: snake(it.group(0)) if it.group(0) in names else it.group(0), piece)
        return TOKEN.sub(lambda it: names.get(it.group(0), it.group(0)), piece)

    def comment(piece):
        parts = piece.split("`")
        for i, part in enumerate(parts):
            if i % 2:
                parts[i] = code(part)
            else:
                parts[i] = TOKEN.sub(lambda it: names.get(it.group(0), it.group(0)) if re.search("[a-z][A-Z]", it.group(0)) else it.group(0), part)
        return "`".join(parts)

    out = []
    for line in text.split("\n"):
        mark = re.search(r"(?<!\S)(--|//)(?!\S)", line)
        cut = mark.start() if mark else len(line)
        out.append(code(line[:cut]) + comment(line[cut:]))
    return "\n".join(out)


def standing(path):
    """The names that stand in a file and could be meant where another is renamed to one of them."""
    code = re.sub(r"(?m)(?<!\S)(--|//)(?!\S).*$", "", read(path))
    if path.endswith(".antt"):
        # In a line that imports, the names behind the path; and no labels.
        code = re.sub(r"(?m)^use [^\s{}]+?(\.(?=\{)| as |$)", "", code)
        return set(TOKEN.findall(code)), set(TOKEN.findall(re.sub(r"(?<=[^\s.])\.[^\s(){}.;,]+", "", code)))
    # Of the code the parameters: functions, and what a body binds, do not stand in clauses.
    return set(TOKEN.findall(code)), set(re.findall(r"(?:[(,]|\bmut )\s*(\w+):", code))


def main(words):
    names = spelled(*declared())
    files = sources() + sorted(glob.glob("crates/*/src/**/*.rt", recursive=True)) + sorted(glob.glob("crates/*/must-fail/**/*.edit", recursive=True)) + sorted(glob.glob("tools/rules/*.edit"))
    wrong = 0
    olds = collections.defaultdict(list)
    for name in names:
        olds[names[name]].append(name)
    for name, them in sorted(olds.items()):
        if len(them) > 1:
            print("fall together:", *them, "->", name)
            wrong += 1
    for path in files:
        if path.endswith(".edit"):
            continue
        tokens, others = standing(path)
        if "/proofs/" in path:
            others -= set(IN_THE_WAY)
        for name in sorted(tokens & set(names)):
            if names[name] in others:
                print(f"{path}: {name} -> {names[name]}, which stands there already")
                wrong += 1
    if wrong and "--force" not in words:
        print(f"{wrong} names fall together; nothing is written")
        return 1
    for path in files:
        text = read(path)
        new = text
        if "/proofs/" in path:
            for name, (to, definition) in IN_THE_WAY.items():
                if definition in names:
                    new = re.sub(rf"(?<![^\s(),{{}}]){name}(?![^\s(),{{}}])", to, new)
        new = renamed(new, names, path.endswith("/Proof.antt"))
        if new != text:
            with open(path, "w", encoding="utf-8") as file:
                file.write(new)
    if "--docs" in words:
        for path in sorted(glob.glob("*.md") + glob.glob("docs/*.md")):
            text = read(path)
            parts = text.split("`")
            for i in range(1, len(parts), 2):
                parts[i] = TOKEN.sub(lambda it: names.get(it.group(0), it.group(0)), parts[i])
            if "`".join(parts) != text:
                with open(path, "w", encoding="utf-8") as file:
                    file.write("`".join(parts))
    print(f"{len(names)} names")
    return 0


if __name__ == "__main__":
    raise SystemExit(main(sys.argv[1:]))
