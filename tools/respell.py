#!/usr/bin/env python3
"""Respells the definitions and lemmas of this repository: words joined by dashes get underscores.

usage: python3 tools/respell.py        at the top of the repository, once, behind the kit's own port.py

A name counts as the repository's own if a file of specs/ or proofs/ declares it: at the head of a line with a
type behind it, as a field of a record, or as a variable. What an Answers or an Invariants file answers bears a
name of the prover's and stays, and so do the steps of a function's proof, which stand behind a dot.
In .rt files only the clauses and the imports of ghost names are turned. Functions, strings, inputs and outputs stay.
A name that would fall together with another one of the repository's own stops the script before it writes.
"""

import os
import re
import sys

WORD = r"[A-Za-z◌0-9_'ℕ·-]+"
DECLARED = re.compile(r"^\s*(?:abbrev |unfoldable )?(?:pub )?(?:infix[lr]? \d+ )?(" + WORD + r") :(?: (.*))?$")
BOUND = re.compile(r"λ (" + WORD + r")\. |let (" + WORD + r") [:=]")
CLAUSE = re.compile(r"^\s*(ghost |requires|ensures|law )")


def files(root):
    for folder, dirs, names in os.walk(os.path.join(root, "crates")):
        dirs[:] = sorted(d for d in dirs if d != "out")
        for name in sorted(names):
            if name.endswith((".antt", ".rt")):
                yield os.path.join(folder, name)


def own_names(path, text):
    answers = os.path.basename(path) in ("Answers.antt", "Invariants.antt")
    for line in text.split("\n"):
        found = DECLARED.match(line)
        if found and not (answers and (found.group(2) or "").startswith(("goal.", "given."))):
            yield found.group(1)
        if line.lstrip().startswith("--"):
            continue
        for bound in BOUND.findall(line):
            yield bound[0] or bound[1]


def respelled(name):
    return name.replace("-", "_")


def main():
    texts = {}
    for path in files("."):
        with open(path, encoding="utf-8") as file:
            texts[path] = file.read()
    own = set()
    for path, text in texts.items():
        if path.endswith(".antt"):
            own.update(own_names(path, text))
    own.add("where-it-is")
    dashed = {name for name in own if "-" in name}
    heard = {}
    for name in sorted(dashed):
        if respelled(name) in own or respelled(name) in heard:
            sys.exit(f"{name} would fall together with {heard.get(respelled(name), respelled(name))}")
        heard[respelled(name)] = name
    operators = {name.strip("◌"): respelled(name.strip("◌")) for name in dashed if "◌" in name}
    turned = {name: respelled(name) for name in dashed} | operators
    token = re.compile(r"(?<![A-Za-z◌0-9_'ℕ·-])(\.?)(" + "|".join(re.escape(n) for n in sorted(turned, key=len, reverse=True)) + r")(?![A-Za-z◌0-9_'ℕ·-])")
    fields = {"as-asked", "lines-too", "spells-graph", "exit-there"}

    def turn(found):
        dot, name = found.groups()
        if dot and name not in fields:
            return found.group(0)
        return dot + turned[name]

    for path, text in texts.items():
        lines = text.split("\n")
        for i, line in enumerate(lines):
            if path.endswith(".rt") and not CLAUSE.match(line):
                continue
            if path.endswith(".antt") and line.lstrip().startswith("--"):
                continue
            lines[i] = token.sub(turn, line)
        new = "\n".join(lines)
        if new != text:
            with open(path, "w", encoding="utf-8") as file:
                file.write(new)
    for name in sorted(turned):
        print(f"{name} {turned[name]}")


main()
