#!/usr/bin/env python3
"""Turns the names that proofs/**/Proof.antt files of a crate take from Rattle (goals, steps, places, loops) to today's.

usage: tools/tie_names.py CRATE..      run at the top of the repository; crates below each must be built

`rt check --generated` lists, for each function, what each goal, step and place was called and is called. A name is looked
up with - for _, and a goal also without the word overflow, which older goals carried. A step is a field of the goal's own
record now, wherever it stands in the code before: so `c.before.before.f.ensures` becomes `c.f.ensures`, and a `let` that
only names such a record goes.
"""

import json
import os
import re
import subprocess
import sys
import tempfile

START = {"args", "requires", "ranges", "well-formed"}


def plain(name):
    return name.replace("_", "-").replace("\u00ab", "").replace("\u00bb", "")


def rust(fields):
    return [f.replace("-", "_") for f in fields]


def names_of(crate):
    with tempfile.TemporaryDirectory() as folder:
        out = os.path.join(folder, "gen")
        said = subprocess.run(["rt", "check", "--generated", out, "--old-names"], cwd=f"crates/{crate}", stdout=subprocess.PIPE, stderr=subprocess.STDOUT, text=True).stdout
        path = os.path.join(out, "names.json")
        if not os.path.exists(path):
            print(f"{crate}: no names: " + "\n".join(said.strip().split("\n")[-6:]))
            return None
        with open(path) as f:
            return json.load(f)


class Names:
    def __init__(self, v):
        self.needs, self.steps, self.arms, self.params = {}, {}, {}, {}
        for old, new in v["needs"]:
            self.needs.setdefault(plain(old), new)
        for old, new in v["needs"]:
            self.needs.setdefault(plain(new), new)
        for p, arm in zip(v["places"], v["arms"]):
            if arm:
                for field, old, path in arm[2]:
                    self.arms.setdefault((plain(old), tuple(path)), (arm[0], field))
            if p[2][0]:
                self.steps.setdefault(plain(p[2][0]), p[2][1])
                self.params.setdefault(p[2][1], v["params"].get(p[3]) or [])
        self.parent = {plain(p[0]): p[1] and plain(p[1]) for p in v["places"]}
        self.merged = {plain(p[0]): (arm[1] if arm else 1) for p, arm in zip(v["places"], v["arms"])}
        self.asked_at = {plain(n[0]): plain(at[0]) for n, at in zip(v["needs"], v["asked_at"])}
        self.places = {plain(p[0]): n for p, n in zip(v["places"], v["places_by_name"])}
        self.loops = {plain(l[0][0]): l[0][1] for l in v["loops"]}
        self.variables = {plain(name): name for l in v["loops"] for name in l[1]}

    def place_of(self, block):
        """The place of the record c in an answer or a helper."""
        m = re.search(r"\.Need-([\w'\-]+)", block)
        if m:
            return self.asked_at.get(self.old_name(plain(m.group(1))))
        m = re.search(r"\([\w'\-]+ : [\w'\-]+\.([A-Z][\w'\-]*)[ )]", block) or re.search(r" : [\w'\-]+\.([A-Z][\w'\-]*)[ \w'\-]* →", block)
        return plain(m.group(1)) if m and plain(m.group(1)) in self.parent else None

    def asked(self, name):
        name = self.old_name(plain(name))
        return self.needs[name] if name else None

    def old_name(self, name):
        """What the list calls a goal that a file calls name: a kind stood before it there."""
        m = re.match(r"(?:overflow|nonzero|slice-bounds)-(.*)", name)
        for n in ([m.group(1), "part-" + m.group(1)] if m else []) + [name]:
            if n in self.needs:
                return n
        return None

    def up(self, place, k):
        for _ in range(k):
            place = self.parent.get(place) if place else None
        return place

    def befores(self, place, above):
        """How many records lie from one place to one above it now."""
        k = 0
        while place != above:
            if place is None:
                return None
            place, k = self.up(place, self.merged[place]), k + 1
        return k

    def step(self, name, path):
        """The path to a field of the step that was called name."""
        name = plain(name)
        if name not in self.steps:
            name = name[0].lower() + name[1:]
        for k in range(len(path), 0, -1):
            if (name, tuple(path[:k])) in self.arms:
                arm, field = self.arms[name, tuple(path[:k])]
                return [arm, field] + path[k:]
        if name in self.steps:
            step = self.steps[name]
            if path and path[0] in ("new", "auto") and "0" in path:
                # what was found by its place in a tuple has the parameter's name
                k, of = path.index("0") - 1, self.params.get(step, [])
                if all(p == "1" for p in path[1:k + 1]) and k < len(of):
                    path = [path[0], of[k]] + path[k + 2:]
            return [step] + path
        return None


PATH = r"(?<![\w'\-.\1])(%s)(?![\w'\-])((?:\.before)*)((?:\.[\w'\-\u00ab\u00bb]+)*)"


def turn_paths(text, names, missing):
    """In one answer: names of records go, and steps are fields of c."""
    of = re.search(r"\((\w[\w'\-]*) : \w+\.[A-Z][\w'\-]*[ )]", text)
    base = of.group(1) if of and not re.search(r"\.Need-", text) else "c"
    local = re.search(r"\blet c(?= [:=])", text) if base == "c" else None
    if local:
        # a local c, which is no record, would hide the goal's
        text = text[:local.start()] + re.sub(r"(?<![\w'\-.])c(?![\w'\-.])", "c'", text[local.start():])
    aliases, at = [base], {base: names.place_of(text)}

    def chain(alias, befores):
        old = names.up(at.get(alias), befores)
        k = names.befores(at[base], old) if old else None
        return (old, base + ".before" * k) if k is not None else (old, None)

    while True:
        m = re.search(r"\blet (\w[\w'\-]*)(?: : tie\.[\w'\-]+)? = (" + "|".join(map(re.escape, aliases)) + r")((?:\.before)*) in[ \n]*", text)
        if not m:
            break
        name = m.group(1)
        rest = text[m.end():]
        old, now = chain(m.group(2), m.group(3).count(".before"))
        at[name] = old
        bare = re.search(r"(?<![\w'\-.])" + re.escape(name) + r"(?![\w'\-.])", rest)
        if bare or name in aliases:
            if now is None:
                missing.append(f"the record {name}")
                now = m.group(2) + m.group(3)
            shown = m.group(0)[3:].replace(m.group(2) + m.group(3) + " in", "\1" + now + " in")
            text = text[:m.start()] + "\0" + shown + rest
            if name not in aliases:
                aliases.append(name)
            continue
        aliases.append(name)
        text = text[:m.start()] + rest

    def path(m):
        fields = [f for f in m.group(3).split(".") if f]
        if m.group(0).startswith("\1"):
            return m.group(0)
        if not fields:
            old, now = chain(m.group(1), m.group(2).count(".before"))
            if m.group(2) and now is None:
                missing.append(m.group(0))
            return now if m.group(2) and now else m.group(0)
        if plain(fields[0]) in START:
            return base + "." + ".".join(rust(fields[:2]) + fields[2:])
        to = names.step(fields[0], fields[1:])
        if to is None:
            missing.append(".".join(fields))
            return m.group(0)
        if to[0] in names.loops.values() and len(to) > 1 and plain(to[1]) in names.variables:
            to[1] = names.variables[plain(to[1])]
        return base + "." + ".".join(to)

    text = re.sub(PATH % "|".join(map(re.escape, aliases)), path, text)
    for m in re.findall(r"\blet (\w[\w'\-]*) = " + re.escape(base) + r"\.args in", text):
        text = re.sub(r"(?<![\w'\-.])" + re.escape(m) + r"\.([\w'\-]+)", lambda x: m + "." + x.group(1).replace("-", "_"), text)
    return text.replace("\0", "let").replace("\1", "")


def turn(text, v, function):
    names, missing = Names(v), []

    def need(m):
        now = names.asked(m.group(2))
        if now is not None:
            return m.group(1) + ".Need-" + now
        missing.append(m.group(2))
        return m.group(0)

    def of_loop(m):
        name = plain(m.group(2))
        return f"{m.group(1)}-{names.loops[name]}" if name in names.loops else m.group(0)

    def place(m):
        name = plain(m.group(1))
        return "tie." + names.places[name] if name in names.places else m.group(0)

    blocks = re.split(r"(\n\n+)", text)
    gone = []
    for i, b in enumerate(blocks):
        m = re.match(r"((?:--.*\n)*)([\w'\-]+) :\s", b)
        n = re.search(r"\.Need-([\w'\-]+)", b)
        if m and n and names.asked(n.group(1)) is None:
            gone.append((m.group(2), n.group(1)))
            blocks[i] = ""
            if i + 1 < len(blocks):
                blocks[i + 1] = ""
    blocks = [turn_paths(b, names, missing) if re.search(r"(?m)^[\w'\-]+ (?:t )?c\b", b) or re.search(r"\(\w[\w'\-]* : \w+\.[A-Z][\w'\-]*[ )]", b) else b for b in blocks]
    text = "".join(blocks)
    for name, goal in gone:
        text = re.sub(r"\s+(?:\(" + re.escape(name) + r" t\)|" + re.escape(name) + r")(?=[\s)])", "", text)
        print(f"    {function}: no goal {goal} any more: {name} goes")
    text = re.sub(r"([\w'\-]+)\.Need-([\w'\-]+)", need, text)
    text = re.sub(r"\b(invariant|decreases)-([\w'\-]+)", of_loop, text)
    text = re.sub(r"tie\.((?!Need-)[A-Z][\w'\-]*)", place, text)
    text = re.sub(r"\.type-inv(?![\w'\-])", ".type_inv", text)
    # a test of `!x` is a fact about x now
    text = re.sub(r"\(not-(?:true|false) _ (c\.if-not-[\w'\-]+\.(?:true|false))\)|not-(?:true|false) _ (c\.if-not-[\w'\-]+\.(?:true|false))", lambda m: m.group(1) or m.group(2), text)
    if re.search(r"\bap not\b", text):
        text = re.sub(r"(?<!ap not )(c\.if-not-[\w'\-]+\.(?:true|false))", r"(ap not \1)", text)
    spec = plain(function) + "-spec"
    text = re.sub(r"(?<![\w'\-])" + re.escape(spec) + r"(?![\w'\-])", function + "_spec", text)
    return text, missing


def parameters(crate):
    """The parameters of the crate's functions."""
    found = set()
    for folder, _, files in os.walk(f"crates/{crate}/src"):
        for name in files:
            with open(os.path.join(folder, name)) as f:
                found.update(re.findall(r"\b([a-z]\w*_\w*): ", f.read()))
    return found


def main(crates):
    os.chdir(os.path.join(os.path.dirname(os.path.realpath(__file__)), ".."))
    for crate in crates:
        names = names_of(crate)
        if names is None:
            continue
        for key, v in names.items():
            m = re.match(rf"Rattle-{crate}-proofs\.(.+)\.Lts(?:-[\w]+)?$", key)
            if not m:
                continue
            folder = m.group(1).replace(".", "/")
            path = f"crates/{crate}/proofs/{folder}/Proof.antt"
            if not os.path.exists(path):
                print(f"{crate}: {folder} has no Proof.antt")
                continue
            with open(path) as f:
                old = f.read()
            new, missing = turn(old, v, folder.split("/")[-1].lstrip("+"))
            rusts = parameters(crate)
            new = re.sub(r"\.([a-z]\w*(?:-\w+)+)(?![\w'\-])", lambda m: "." + m.group(1).replace("-", "_") if m.group(1).replace("-", "_") in rusts else m.group(0), new)
            if missing:
                print(f"{crate}: {folder}: not found: {' '.join(missing)}")
            if new != old:
                with open(path, "w") as f:
                    f.write(new)


if __name__ == "__main__":
    main(sys.argv[1:])
