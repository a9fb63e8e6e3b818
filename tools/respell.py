#!/usr/bin/env python3
"""Brings the repository's own definitions and lemmas to snake case: run once, right after the kit's port.py.

usage: python3 tools/respell.py [--dry]      at the top of the repository

It takes each name that a file of specs/ or proofs/ declares (a definition, a lemma, a record's field, a constructor) and that is written with
dashes, with a capital inside or with a prime, and writes it in snake case in every .rt, .antt and .edit file below crates/. Names of types keep
their spelling, and so do names that Rattle makes (goals, steps), functions of src/, strings and comments' plain words.
"""

import os
import re
import sys

NAME = r"[^\s(){}.,;:λ∷\[\]|↦⌜⌝\"→×≡⊎]+"
DECLARED = re.compile(
    r"\s*(?:pub )?(?:abbrev )?(?:unfoldable )?(?:pub )?(?:data |record )?(?:pub )?(" + NAME + r")(?: [({].*?)? : "
)
TOKEN = re.compile(r"(?<![\w'′-])([\w'′][\w'′-]*)(?![\w'′-])")

# Two names that would become one, or a name that something else has already.
APART = {
    "capacity-of": "state_capacity",
    "noPlan": "no_plan_text",
    "outOfSpace": "out_of_space_text",
    "leastOf": "least_choice",
    "cover-of": "cover_of_answers",
    "move-count": "move_count_lem",
}


def files():
    for folder, dirs, found in os.walk("crates"):
        dirs[:] = sorted(d for d in dirs if d not in ("out", "data"))
        for f in sorted(found):
            if f.endswith((".rt", ".antt", ".edit")):
                yield os.path.join(folder, f)


def snake(name):
    name = name.replace("getD", "get_or").replace("′", "'")
    if name[0].isupper() and "-" not in name:
        return name
    name = re.sub(r"(?<=[a-z0-9])([A-Z])", lambda m: "_" + m.group(1).lower(), name)
    return name.replace("-", "_")


def own_names():
    """The names that files of specs/ and proofs/ declare, but for the answers' goals."""
    found = {}
    for p in files():
        if not p.endswith(".antt"):
            continue
        with open(p, encoding="utf-8") as f:
            for line in f:
                if line.lstrip().startswith("--") or " goal." in line:
                    continue
                m = DECLARED.match(line)
                if m:
                    found.setdefault(m.group(1), set()).add(p)
                m = re.match(r"\s*(?:pub )?(?:unfoldable )?(?:abbrev )?(?:pub )?((?:" + NAME + r" )+): ", line)
                if m and "=" not in line.split(":")[0]:
                    for n in m.group(1).split():
                        if n not in ("pub", "abbrev", "unfoldable", "data", "record"):
                            found.setdefault(n, set()).add(p)
    return found


def main():
    own = own_names()
    turn = {}
    for n in own:
        to = APART.get(n, snake(n))
        if to != n:
            turn[n] = to
    seen = set()
    texts = {}
    for p in files():
        with open(p, encoding="utf-8") as f:
            texts[p] = f.read()
        for l in texts[p].splitlines():
            seen |= set(TOKEN.findall(l.split("--")[0]))
    clash = [(n, to) for n, to in sorted(turn.items()) if to in seen and n not in APART]
    for n, to in clash:
        print(f"fall together: {n} -> {to}: {sorted(own[n])[0]}; {sorted(own.get(to, ['not declared']))[0]}")
    back = {}
    for n, to in turn.items():
        back.setdefault(to, []).append(n)
    for to, ns in back.items():
        if len(ns) > 1:
            print("fall together:", ns, "->", to)
    print(f"{len(turn)} names to respell")
    if "--dry" in sys.argv:
        return
    for p, t in texts.items():
        out = []
        for line in t.split("\n"):
            code, dash, comment = (line, "", "") if p.endswith((".rt", ".edit")) else line.partition("--")
            # a step of a proof, named after a call of src/
            code = code.replace("c.move-count", "c.move_count")
            out.append(TOKEN.sub(lambda m: turn.get(m.group(1), m.group(1)), code) + dash + comment)
        new = "\n".join(out)
        if new != t:
            with open(p, "w", encoding="utf-8") as f:
                f.write(new)


main()
