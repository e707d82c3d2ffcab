#!/usr/bin/env python3
"""Respell the repository's own definitions, fields and lemmas.

Words are spelled in snake case, types and facts in camel case. Run it once at the top of the repository, after the kit's
port.py: it reads which names with a dash the files of specs/ and proofs/ declare, and respells each of them there and in
the clauses and ghost lines of src/. Names that Rattle makes (goals and steps) and names of functions stay.
"""
import os
import re
import subprocess

# A name whose plain respelling would fall together with a name of the standard library.
APART = {"bit-or": "bit_of_or"}

# Names that are bound inside a proof.
LOCAL = ("is-top", "more-limits", "no-limits", "no-numbers")

NAME = r"[A-Za-z_][A-Za-z_0-9'-]*"
DECLARED = re.compile(
    rf"^\s*(?:(?:abbrev|unfoldable|pub)\s+)*(?:(?:record|data)\s+)?({NAME})\s*(?:[({{][^)}}]*[)}}]\s*)*:\s(.*)"
)
MADE = ("returns-", "loop-", "invariant-", "decreases-")


def listed(ending):
    names = subprocess.run(["git", "ls-files"], capture_output=True, text=True, check=True).stdout.split("\n")
    return [n for n in names if n.startswith("crates/") and n.endswith(ending) and os.path.exists(n)]


def declared(path):
    """The names with a dash that a file declares, but not the goals that it answers."""
    answers = os.path.basename(path) in ("Answers.antt", "Invariants.antt")
    with open(path, encoding="utf-8") as file:
        for line in file:
            found = DECLARED.match(line)
            if not found or "-" not in found[1]:
                continue
            if answers and (found[1].startswith(MADE) or "goal." in found[2]):
                continue
            yield found[1]


def respelled(name):
    if name in APART:
        return APART[name]
    if name[0].isupper():
        return "".join(part[:1].upper() + part[1:] for part in name.split("-"))
    return name.replace("-", "_")


def main():
    antt = listed(".antt")
    own = {name for path in antt for name in declared(path)}
    names = {name: respelled(name) for name in own.union(LOCAL)}
    token = re.compile(NAME)

    def turn(text):
        return token.sub(lambda found: names.get(found[0], found[0]), text)

    for path in antt:
        with open(path, encoding="utf-8") as file:
            lines = file.read().split("\n")
        out = []
        for line in lines:
            code, dashes, comment = line.partition("-- ")
            out.append(turn(code) + dashes + comment)
        with open(path, "w", encoding="utf-8") as file:
            file.write("\n".join(out))
    for path in listed(".rt"):
        with open(path, encoding="utf-8") as file:
            lines = file.read().split("\n")
        out = [turn(line) if re.match(r"\s*(pub )?(ghost|requires|ensures)\b", line) else line for line in lines]
        with open(path, "w", encoding="utf-8") as file:
            file.write("\n".join(out))
    for old, new in sorted(names.items()):
        print(f"{old} -> {new}")


if __name__ == "__main__":
    main()
