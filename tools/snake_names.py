#!/usr/bin/env python3
"""Brings this repository's own definitions and lemmas to the kit's spelling: words in snake case.

usage: python3 tools/snake_names.py [--list]     at the top of the repository, once, after port.py

A definition in camel case, as imageLength, becomes image_length. A lemma or a record's field whose words were joined by dashes, as
track-of-drive, becomes track_of_drive. Names of the kit's library, of goals and of what the check generates keep their dashes, as do
Rust names, strings, inputs and outputs. A fact keeps its capital.
"""
import os
import re
import sys

IDENT = r"[A-Za-z0-9_'α-ωΑ-Ω₀-₉ℕ][A-Za-z0-9_'α-ωΑ-Ω₀-₉ℕ*-]*"
TOKEN = re.compile(rf"(?<![A-Za-z0-9_'α-ωΑ-Ω₀-₉ℕ-]){IDENT}")
HEX = re.compile(r"^[xch]-?[0-9]")
CAMEL = re.compile(r"^[a-z][a-z0-9_'-]*[A-Z]")
SIGNATURE = re.compile(rf"^\s*(?:pub |abbrev |unfoldable |opaque |rec |private |instance )*({IDENT}(?: {IDENT})*) :(?: |$)(.*)")
FIELD = re.compile(rf"[({{;]\s*({IDENT}) : ")


def files():
    for folder, dirs, names in os.walk("crates"):
        dirs[:] = sorted(d for d in dirs if d != "out")
        for n in sorted(names):
            yield os.path.join(folder, n)


def read(p):
    with open(p, encoding="utf-8") as f:
        return f.read()


def imported():
    """Names that come from the kit."""
    found = set()
    for p in files():
        if p.endswith((".antt", ".rt")):
            for path, names in re.findall(r"use ([\w.·-]+)\.\{([^}]*)\}", read(p)):
                parts = path.split(".")
                own = parts[0] == "Rattle" and len(parts) > 1 and os.path.isdir(os.path.join("crates", parts[1]))
                if not own or ".declared" in path:
                    found |= {n.strip().split(" as ")[0].strip() for n in names.split(",")}
    return found


def defined():
    camel, dashed = set(), set()
    for p in files():
        if not p.endswith(".antt"):
            continue
        made = p.endswith("/Proof.antt")
        for line in read(p).splitlines():
            if line.startswith("--"):
                continue
            m = SIGNATURE.match(line)
            if m and not (made and m.group(2).startswith("tie.")):
                for n in m.group(1).split(" "):
                    if not made or n == m.group(1):
                        (dashed if "-" in n else camel).add(n)
    return camel, dashed


def snake(name):
    if HEX.match(name):
        return name
    name = re.sub(r"(?<=[a-z0-9])-(?=[a-z0-9])", "_", name)
    if CAMEL.match(name):
        name = re.sub(r"(?<=[a-z0-9'])([A-Z])(?=[a-z])", lambda m: "_" + m.group(1).lower(), name)
        name = re.sub(r"(?<=[a-z])([A-Z]+)(?=[0-9]*$|_)", lambda m: "_" + m.group(1).lower(), name)
        name = re.sub(r"(?<=_)([A-Z])", lambda m: m.group(1).lower(), name)
        name = re.sub(r"([A-Z])(?=_)", lambda m: "_" + m.group(1).lower(), name)
    return name


def main():
    kit = imported()
    tokens = set()
    for p in files():
        if p.endswith((".antt", ".rt")):
            tokens |= set(TOKEN.findall(read(p)))
    camel_defs, dashed = defined()
    lemmas, plain = set(), set()
    for p in files():
        if p.endswith(".antt") and not p.endswith("/Proof.antt"):
            for line in read(p).splitlines():
                m = SIGNATURE.match(line)
                if m and not line.startswith("--"):
                    (plain if "/specs/" in p else lemmas).update(n for n in m.group(1).split(" ") if "-" not in n and not CAMEL.match(n))
    names = {t: snake(t) for t in tokens if t not in kit and not HEX.match(t) and "-" not in t and CAMEL.match(t)}
    taken = set(names.values()) | plain
    # A lemma that would have a definition's name gets _lem.
    for t in lemmas & set(names.values()):
        names[t] = t + "_lem"
    for t in tokens & dashed - kit:
        s = snake(t)
        names[t] = s + "_lem" if s in taken or s in lemmas or s in kit else s
    names = {a: b for a, b in names.items() if a != b}
    for b in sorted(set(names.values())):
        same = [a for a in names if names[a] == b]
        if len(same) > 1 or b in (plain | lemmas) - set(names):
            print("look: fall together as", b, same)
    if "--list" in sys.argv:
        for a in sorted(names):
            mark = " COLLIDES" if names[a] in tokens or names[a] in kit else ""
            print(a, names[a] + mark)
        return
    turned = 0
    pattern = re.compile(r"Rattle\.[\w.'-]+\.proofs\.[\w.'-]+(?=\.\{)|(?<![\w'α-ωΑ-Ω₀-₉ℕ-])(" + "|".join(sorted(map(re.escape, names), key=len, reverse=True)) + r")(?![\w'α-ωΑ-Ω₀-₉ℕ*-])")
    for p in files():
        if not p.endswith((".antt", ".rt", ".edit")):
            continue
        old = read(p)
        new = pattern.sub(lambda m: names[m.group(1)] if m.group(1) else m.group(0), old)
        if p.endswith("/Proof.antt"):
            # A goal keeps its name, and so does its answer where it stands as an argument of the whole.
            goals = set(re.findall(rf"^({IDENT}) : tie\.", old, re.M))
            new = pattern.sub(lambda m: (names[m.group(1)] if m.group(1) not in goals else m.group(0)) if m.group(1) else m.group(0), old)
        if new != old:
            turned += 1
            with open(p, "w", encoding="utf-8") as f:
                f.write(new)
    print(f"{len(names)} names, {turned} files")


if __name__ == "__main__":
    main()
