#!/usr/bin/env python3
"""Brings the names of this repository's own definitions and lemmas to the spelling of today's library.

usage: python3 tools/spell_names.py [--dry]      at the top, once, right after the kit's port.py

Functions, lemmas, record fields and constructors become snake case, and facts and types upper camel case: cellsIn and
cells-in become cells_in, Told-apart becomes ToldApart. Only names that a file of specs/ or proofs/ declares are turned,
never those of goals, of the library or of src/. Where two names of one crate would fall together the script stops and
names them; OWN says what they are called then.
"""

import os
import re
import sys

# names that would fall together with another by the rule
OWN = {
    "dotAt": "dot_at",
    "dot_at": "dot_at_lem",
    "in-float": "in_float_lem",
    "in-turn": "in_turn_lem",
    "of-int": "of_int_lem",
    "pairs-from": "pairs_from_lem",
}

WORD = r"[^\s(){}\[\];,.⌜⌝:\"«»|]+"
HEAD = re.compile(r"^\s*(?:(?:abbrev|pub|unfoldable)\s+)*(" + WORD + r")\s+:(?=\s|$)")
KIND = re.compile(r"^\s*(?:pub\s+)?(?:record|data)\s+(?:pub\s+)?(" + WORD + r")")
GOAL = re.compile(r"^\s*(?:(?:abbrev|pub|unfoldable)\s+)*(" + WORD + r")\s+:\s+goal\.")
USED = re.compile(r"^\s*(?:ghost )?use\s+([\w.+'-]+)\.\{([^}]*)\}")


def spelled(name):
    parts = name.split("-")
    if name[0].isupper():
        return "".join(p[:1].upper() + p[1:] for p in parts)
    return "_".join(re.sub(r"(?<=[a-z0-9])([A-Z])", r"_\1", p) for p in parts).lower()


def files(root):
    for folder, dirs, names in os.walk(os.path.join(root, "crates")):
        dirs[:] = sorted(d for d in dirs if d not in ("out", ".git"))
        for f in sorted(names):
            if f.endswith((".rt", ".antt")):
                yield os.path.join(folder, f)


def own_library(path, root):
    rel = os.path.relpath(path, os.path.join(root, "crates")).split(os.sep)
    return rel[0]


def main(argv):
    root = os.getcwd()
    crates = set(os.listdir(os.path.join(root, "crates")))
    texts = {p: open(p, encoding="utf-8").read() for p in files(root)}
    own, goals, foreign = {}, set(), {}
    for p, t in texts.items():
        if p.endswith(".antt"):
            for line in t.split("\n"):
                g = GOAL.match(line)
                if g:
                    goals.add(g.group(1))
                    continue
                m = HEAD.match(line) or KIND.match(line)
                if m:
                    own.setdefault(m.group(1), set()).add(own_library(p, root))
        for line in t.split("\n"):
            m = USED.match(line)
            if not m:
                continue
            path = m.group(1).split(".")
            made = path[0] == "Rattle" and path[1] in crates and "Goals" not in path and "Given" not in path
            if not made:
                for n in m.group(2).split(","):
                    for w in n.replace(" as ", " ").split():
                        foreign.setdefault(w, p)
    turn, clash = {}, []
    for n in sorted(own):
        if n in goals or n in foreign:
            if "-" in n or n != spelled(n):
                print(f"kept: {n} ({'a goal' if n in goals else 'also of ' + foreign[n]})")
            continue
        to = OWN.get(n, spelled(n))
        if to != n:
            turn[n] = to
    for a, to in turn.items():
        others = [b for b in own if b != a and turn.get(b, b) == to and own[a] & own[b]]
        if others:
            clash.append(f"{a} and {' '.join(others)} would both be {to} in {', '.join(sorted(own[a]))}")
        if to in foreign:
            clash.append(f"{a} would be {to}, which {foreign[to]} has from a library")
    words = {}
    for p, t in texts.items():
        for w in re.findall(r"[A-Za-z_][\w'-]*", t):
            words.setdefault(w, set()).add(own_library(p, root))
    for a, to in turn.items():
        if to in words and not [b for b in own if b == to]:
            print(f"look: {a} becomes {to}, a word that stands in {', '.join(sorted(words[to]))}")
    if clash:
        print("\n".join(clash))
        return 1
    if "--dry" in argv:
        for a, to in sorted(turn.items()):
            print(a, to)
        return 0
    token = re.compile(r"(?<![\w'‿-])(" + "|".join(re.escape(n) for n in sorted(turn, key=len, reverse=True)) + r")(?![\w'-])")
    n = 0
    for p, t in texts.items():
        new = token.sub(lambda m: turn[m.group(1)], t)
        if new != t:
            n += 1
            with open(p, "w", encoding="utf-8") as f:
                f.write(new)
    print(f"{len(turn)} names turned in {n} files")
    return 0


if __name__ == "__main__":
    raise SystemExit(main(sys.argv[1:]))
