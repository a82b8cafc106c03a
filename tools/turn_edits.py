#!/usr/bin/env python3
"""Brings must-fail edits of definitions and proofs to the spelling that port.py and respell.py gave the files.

usage: python3 tools/turn_edits.py NAMES.json      NAMES.json: the names that respell.py turned, as it wrote them

Only spelling: projections are written tight, names as respell.py has them. An edit whose text does not stand once
afterwards is listed, and brought over by hand.
"""

import json
import os
import re
import sys

PART = r"[A-Za-z_][\w']*"
NAME = re.compile(rf"(?<![\w'-]){PART}(?:-[\w'→≤<+*∷]+)*")


def tight(text):
    """x .f .g to x.f.g, g x .f to (g x).f, and no brackets around a projection of a name"""
    text = re.sub(r"\b(\w+ \.(?:machines|judges) \w+)(?= \.[a-z])", r"(\1)", text)
    text = re.sub(r"(?<=[\w')]) \.(?=[a-z])", ".", text)
    return re.sub(rf"\(({PART}(?:\.{PART})+|\(\w+\.\w+ \w+\)\.{PART})\)", r"\1", text)


def respelled(line, turned):
    return tight(NAME.sub(lambda m: turned.get(m.group(0), m.group(0)), line.replace("List·Memᴰ", "Memᴰ")))


def main():
    turned = json.load(open(sys.argv[1]))
    for crate in sorted(os.listdir("crates")):
        folder = os.path.join("crates", crate, "must-fail")
        for f in sorted(os.listdir(folder)) if os.path.isdir(folder) else []:
            path = os.path.join(folder, f)
            old = open(path, encoding="utf-8").read()
            file = re.search(r"(?m)^file: (.*)$", old).group(1)
            text = open(os.path.join("crates", crate, file), encoding="utf-8").read()
            lines = old.split("\n")
            if file.endswith(".antt"):
                # port.py itself turned some names
                turned |= {m.group(0): m.group(0).replace("-", "_") for m in NAME.finditer(old) if "-" in m.group(0) and m.group(0).replace("-", "_") in text}
                for i, line in enumerate(lines):
                    if line.startswith(("old: ", "new: ")):
                        lines[i] = respelled(line, turned)
            new = "\n".join(lines)
            if new != old:
                open(path, "w", encoding="utf-8").write(new)
            for line in lines:
                if line.startswith("old: "):
                    n = text.count(line[5:])
                    if n != 1:
                        print(f"{path}: {n} times: {line[5:]}")
                    else:
                        text = text.replace(line[5:], "")


if __name__ == "__main__":
    main()
