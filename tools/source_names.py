#!/usr/bin/env python3
"""Gives names from src/ their own spelling inside the names of goals and steps: 'row-covers' of an older build is 'row_covers' now.

usage: python3 tools/source_names.py CRATE..      at the top of the repository

It reads each identifier with an underscore in any src/ and writes it so in the crate's answers and invariants, wherever a dash stands for the
underscore in a name of Rattle's making. Names that a `use` line brings from std keep their spelling.
"""

import os
import re
import sys

TOKEN = re.compile(r"(?<![\w'-])([A-Za-z][\w'+]*(?:-[\w'+]+)+)")


def source_words():
    words = set()
    for folder, dirs, found in os.walk("crates"):
        dirs[:] = [d for d in dirs if d != "out"]
        if "/src" not in folder:
            continue
        for f in found:
            if f.endswith(".rt"):
                with open(os.path.join(folder, f), encoding="utf-8") as it:
                    for line in it:
                        line = line.split("//")[0]
                        words |= set(re.findall(r"\b[a-z0-9]+(?:_[a-z0-9]+)+\b", line))
    return {w for w in words if "__" not in w}


def main():
    words = sorted(source_words(), key=len, reverse=True)
    dashed = [(w.replace("_", "-"), w) for w in words]
    for crate in sys.argv[1:]:
        for folder, dirs, found in os.walk(os.path.join("crates", crate, "proofs")):
            for f in found:
                if f not in ("Answers.antt", "Invariants.antt", "Choices.antt", "Proof.antt"):
                    continue
                p = os.path.join(folder, f)
                with open(p, encoding="utf-8") as it:
                    text = it.read()
                keep = set()
                for m in re.finditer(r"^use (Rattle\.(?:std|core)\S*|mathlib\S*)\.\{([^}]*)\}", text, re.M):
                    keep |= {x.strip() for x in m.group(2).split(",")}
                used = {}

                def turn(m):
                    t = m.group(1)
                    if t in keep:
                        return t
                    if t not in used:
                        parts = "-" + t + "-"
                        for d, w in dashed:
                            while "-" + d + "-" in parts:
                                parts = parts.replace("-" + d + "-", "-" + w + "-")
                        used[t] = parts[1:-1]
                    return used[t]

                new = "\n".join(l if l.startswith("use Rattle.std") else TOKEN.sub(turn, l) for l in text.split("\n"))
                if new != text:
                    with open(p, "w", encoding="utf-8") as it:
                        it.write(new)
                    print(p, ", ".join(f"{a}→{b}" for a, b in used.items() if a != b))


main()
