#!/usr/bin/env python3
"""Spells the repository's own definitions and lemmas in snake case, as Rattle's library spells its own.

usage: tools/spell_names.py           rewrites crates/*/{specs,proofs,src,must-fail}, README.md and docs/ in place
       tools/spell_names.py --list    prints each old name beside the new one, and names that would fall together

A name in camel case that begins with a small letter, as rowSum, becomes row_sum. Each part of a name that dashes join is
spelled so, as roundRoot-is becomes round_root-is; the dashes stay. Types, facts and modules begin with a capital and keep
their names, and so do functions of src/, exported C names, strings, and what a program reads and writes.
"""

import glob
import os
import re
import sys

NAME = re.compile(r"(?<![\w'\-.\u00b7/])[a-z][\w'\-]*|(?<=\.)[a-z][\w'\-]*|(?<=[\u00ab{(])[a-z][\w'\-]*")
WORD = r"(?<![\w'\-])%s(?![\w'\-])"
PROSE = {"squareRoot"}  # IEEE 754's own name of the operation, in comments and pages
WHOLE = {"getD": "get_or"}  # a word of the library that has another name now, within a lemma's name


def is_camel(name):
    return re.match(r"[a-z]", name) and re.search(r"[a-z0-9][A-Z]", name) and not re.match(r"x[0-9A-F_]+$", name)


def snake(name):
    return "-".join(WHOLE.get(p) or re.sub(r"(?<=[a-z0-9])[A-Z]", lambda m: "_" + m.group(0).lower(), p) for p in name.split("-"))


def antt_files():
    return sorted(glob.glob("crates/*/specs/**/*.antt", recursive=True) + glob.glob("crates/*/proofs/**/*.antt", recursive=True))


def read(path):
    with open(path, encoding="utf-8") as f:
        return f.read()


def names():
    found, all_words = set(), set()
    for path in antt_files():
        text = re.sub(r"--.*", "", read(path))
        for m in NAME.finditer(text):
            all_words.add(m.group(0))
            if is_camel(m.group(0)):
                found.add(m.group(0))
    return {n: snake(n) for n in found}, all_words


def turn(text, table, pattern):
    return pattern.sub(lambda m: table[m.group(0)], text)


def main():
    os.chdir(os.path.join(os.path.dirname(os.path.realpath(__file__)), ".."))
    table, words = names()
    together = sorted((new, old) for old, new in table.items() if new in words or list(table.values()).count(new) > 1)
    if "--list" in sys.argv[1:]:
        for old, new in sorted(table.items()):
            print(f"{old} {new}")
        for new, old in together:
            print(f"together: {old} becomes {new}, which stands already")
        return 0
    every = "|".join(re.escape(n) for n in sorted(table, key=len, reverse=True))
    pattern = re.compile(WORD % f"(?:{every})")
    prose = re.compile(WORD % ("(?:" + "|".join(re.escape(n) for n in sorted(set(table) - PROSE, key=len, reverse=True)) + ")"))
    changed = 0
    sources = antt_files() + sorted(glob.glob("crates/*/src/**/*.rt", recursive=True))
    for path in sources:
        mark = "//" if path.endswith(".rt") else "--"
        old = read(path)
        lines = []
        for line in old.split("\n"):
            code, comment = (line, "")
            at = line.find(mark)
            if at >= 0 and '"' not in line[:at]:
                code, comment = line[:at], line[at:]
            lines.append(turn(code, table, pattern) + turn(comment, table, prose))
        new = "\n".join(lines)
        if new != old:
            changed += 1
            with open(path, "w", encoding="utf-8") as f:
                f.write(new)
    for path in sorted(glob.glob("crates/*/must-fail/*.edit")):
        old = read(path)
        new = "\n".join(turn(l, table, pattern) if re.match(r"(old|new):", l) else turn(l, table, prose) for l in old.split("\n"))
        if new != old:
            changed += 1
            with open(path, "w", encoding="utf-8") as f:
                f.write(new)
    for path in ["README.md"] + sorted(glob.glob("docs/*.md")):
        old = read(path)
        new = re.sub(r"`[^`\n]+`", lambda m: turn(m.group(0), table, pattern), old)
        if new != old:
            changed += 1
            with open(path, "w", encoding="utf-8") as f:
                f.write(new)
    print(f"{len(table)} names, {changed} files changed")
    return 0


if __name__ == "__main__":
    raise SystemExit(main())
