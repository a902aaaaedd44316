#!/usr/bin/env python3
"""Brings the repository's own definitions and lemmas to one spelling: words in snake case, types and facts in camel case.

usage: python3 tools/respell.py [TOP]

It reads crates/*/{specs,proofs} for the names that are declared there and have a dash, and writes them anew wherever
they are cited, in specs/, proofs/ and the clauses of src/. Names of the library, names that the check makes (of goals,
and what follows `c.` in an answer) and comments stay as they are. It was run once, after the port's own script.
"""
import os
import re
import sys

WORD = r"[A-Za-z0-9_'₁₂-]+"
NAME = re.compile(WORD)
# two names of the library, which some files of proofs also give to a lemma of their own
KEPT = {"map-append", "map-id"}
# ghost members of traits, which had no dash
MEMBERS = {"itemOf": "item_of", "wordOf": "word_of"}
# steps of a function, named by the check as a definition is
STEP = re.compile(r"(?<![\w'.])(?:c|w|l|g|goal|need)\.$")
DECLARED = re.compile(r"^(\s*)((?:pub |abbrev |unfoldable )*)(" + WORD + r"(?: " + WORD + r")*) : (.*)$")
OTHER = ("use ", "data ", "record ", "pub data", "pub record", "let ", "mod", "λ", "|", "[", "elim")


def files(top):
    for folder, dirs, names in os.walk(os.path.join(top, "crates")):
        dirs[:] = sorted(d for d in dirs if d != "out")
        for name in sorted(names):
            if name.endswith((".antt", ".rt")):
                yield os.path.join(folder, name)


def declared(paths):
    """The names that the files of specs/ and proofs/ declare, and those of them that follow a dot: fields and constructors."""
    names, dotted = set(), set()
    for path in paths:
        if not path.endswith(".antt"):
            continue
        inside = False
        with open(path, encoding="utf-8") as f:
            for line in f:
                bare = line.strip()
                if not bare or bare.startswith("--"):
                    continue
                if not line[0].isspace():
                    inside = re.match(r"(pub )?(record|data) ", line) is not None
                it = re.match(r"(?:pub )?(?:record|data) (" + WORD + ")", bare)
                if it:
                    names.add(it.group(1))
                it = DECLARED.match(line.rstrip())
                if it and not bare.startswith(OTHER) and not it.group(4).startswith("goal."):
                    found = it.group(3).split()
                    names.update(found)
                    if inside and it.group(1):
                        dotted.update(found)
                names.update(re.findall(r"\blet (" + WORD + ")", line))
                for group in re.findall(r"[({](" + WORD + r"(?: " + WORD + r")*) : ", line):
                    names.update(group.split())
                for group in re.findall(r"λ (" + WORD + r"(?: " + WORD + r")*)\.", line):
                    names.update(group.split())
    return {n for n in names if "-" in n and n not in KEPT}, dotted


def spelled(name):
    if name[0].isupper():
        return "".join(w[:1].upper() + w[1:] for w in name.split("-"))
    return name.replace("-", "_")


def respell(line, names, dotted, own):
    def one(m):
        word, before = m.group(0), line[: m.start()]
        if word in MEMBERS:
            return MEMBERS[word]
        if word not in names:
            return word
        if before.endswith("."):
            path = re.search(r"Rattle\.(\w+)\.(?:specs|proofs)\.[\w.+]*$", before)
            if path:
                return spelled(word) if path.group(1) in own else word
            if STEP.search(before) or word not in dotted:
                return word
        return spelled(word)

    return NAME.sub(one, line)


def clauses(text):
    """Which characters of a source file are ghost: the `ghost use` lines, and what stands between a clause's braces."""
    ghost = [False] * len(text)
    for m in re.finditer(r"^\s*ghost use [^;]*;|\b(?:requires|ensures|ghost)\*?(?: \w+)?(?::| =)? ?\{", text, re.M):
        if m.group(0).rstrip().endswith(";"):
            ghost[m.start() : m.end()] = [True] * (m.end() - m.start())
            continue
        depth, k = 1, m.end()
        while depth:
            depth += {"{": 1, "}": -1}.get(text[k], 0)
            ghost[k] = True
            k += 1
    return ghost


def turn(path, names, dotted, own):
    with open(path, encoding="utf-8") as f:
        text = f.read()
    out = []
    if path.endswith(".antt"):
        for line in text.splitlines(keepends=True):
            at = re.search(r"(^|\s)--( |-|$)", line)
            cut = at.start() if at else len(line)
            out.append(respell(line[:cut], names, dotted, own) + line[cut:])
    else:
        ghost, k = clauses(text), 0
        while k < len(text):
            end = k
            while end < len(text) and ghost[end] == ghost[k]:
                end += 1
            part = text[k:end]
            if ghost[k]:
                part = "".join(respell(l, names, dotted, own) for l in part.splitlines(keepends=True))
            out.append(part)
            k = end
    new = re.sub(r"\b(" + "|".join(MEMBERS) + r")\b", lambda m: MEMBERS[m.group(0)], "".join(out))
    if new != text:
        with open(path, "w", encoding="utf-8") as f:
            f.write(new)
        return 1
    return 0


def main():
    top = sys.argv[1] if len(sys.argv) > 1 else "."
    paths = list(files(top))
    names, dotted = declared(paths)
    own = set(os.listdir(os.path.join(top, "crates")))
    new = {}
    for n in names:
        new.setdefault(spelled(n), set()).add(n)
    together = {k: v for k, v in new.items() if len(v) > 1}
    if together:
        sys.exit(f"names fall together: {together}")
    print(sum(turn(p, names, dotted, own) for p in paths), "files,", len(names), "names")


main()
