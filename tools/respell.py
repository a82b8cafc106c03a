#!/usr/bin/env python3
"""Brings this repository's own definitions and lemmas to snake case, and its own families of facts to camel case.

usage: python3 tools/respell.py [NAMES.json]      at the top, right after the kit's port/port.py; the names that it
turned are written to NAMES.json, for turn_edits.py

Names that Rattle makes (loop-i, returns-then-x) and names of the libraries stay. Where a name would fall together with a
function of its crate, it gets an ending of its own (APART). Run it once.
"""

import json
import os
import re
import sys

# a family of facts is spelled as a type; IfRan, since RanClaim is there
FACTS = {"of-accepted": "OfAccepted", "of_word": "OfWord", "of-event": "OfEvent", "ran-claim": "IfRan", "cut-leaves": "CutLeaves"}
# the word for a function of the same name in Rust
APART = {n: n.replace("-", "_") + "_of" for n in ("any-bad", "before-suffix", "load-all", "quarter-at", "ran-for", "really-ran", "sealed-by")} | {"cases-hold": "cases_hold_lem"}
# not kebab-case, but not snake case either
CAMEL = {"allGood": "all_good"}
# a lemma of the library has this name too, and a dash may join two names
KEPT = {"length-zip2"}

PART = r"[A-Za-z_][\w']*"
NAME = re.compile(rf"(?<![\w'-]){PART}(?:-[\w'→≤<+*∷]+)*")
DECLARED = re.compile(rf"^\s*(?:(?:abbrev|unfoldable|pub|private|data|record|let)\s+)*((?:{PART}(?:-[\w'→≤<+*∷]+)*\s+)*{PART}(?:-[\w'→≤<+*∷]+)*)\s*:(?!=)")
ALONE = re.compile(rf"^(?:(?:abbrev|unfoldable|pub|private)\s+)*({PART}(?:-[\w'→≤<+*∷]+)+)$")
RECORD = re.compile(rf"^\s*(?:pub\s+)?(?:record|data)\s+({PART}(?:-[\w'→≤<+*∷]+)+)(?=\s|$)")
BOUND = re.compile(rf"[({{]\s*((?:{PART}(?:-[\w'→≤<+*∷]+)*\s+)+):(?!=)")


def texts():
    for folder, dirs, files in os.walk("crates"):
        dirs[:] = sorted(d for d in dirs if d != "out")
        for f in sorted(files):
            if f.endswith((".antt", ".rt")):
                yield os.path.join(folder, f)


def is_lemmas(path):
    folder = os.path.dirname(path)
    return path.endswith(".antt") and ("/specs" in folder or os.path.basename(folder) == "proofs")


def declared():
    found = set()
    for path in filter(is_lemmas, texts()):
        with open(path, encoding="utf-8") as f:
            for line in f:
                if line.startswith("--"):
                    continue
                for m in filter(None, (DECLARED.match(line), ALONE.match(line), RECORD.match(line))):
                    found |= {n for n in m.group(1).split() if "-" in n}
                for b in BOUND.finditer(line):
                    found |= {n for n in b.group(1).split() if "-" in n}
    return found - KEPT


def respelled(name):
    parts = name.split("-")
    return "".join(p[:1].upper() + p[1:] for p in parts) if name[0].isupper() else "_".join(parts)


def main():
    turned = {n: respelled(n) for n in declared()} | APART | FACTS | CAMEL
    for path in texts():
        with open(path, encoding="utf-8") as f:
            old = f.read()
        new = []
        for line in old.split("\n"):
            said = line.lstrip().startswith(("--", "//"))
            new.append(line if said else NAME.sub(lambda m: turned.get(m.group(0), m.group(0)), line))
        new = "\n".join(new)
        if new != old:
            with open(path, "w", encoding="utf-8") as f:
                f.write(new)
    if len(sys.argv) > 1:
        with open(sys.argv[1], "w", encoding="utf-8") as f:
            json.dump(turned, f)
    print(f"respell: {len(turned)} names")


if __name__ == "__main__":
    main()
