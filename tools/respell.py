#!/usr/bin/env python3
"""Turns the repository's own definitions and lemmas, after the kit's port.py, to the spelling of today's Rattle.

usage: python3 tools/respell.py [FOLDER]      once, at the top of a checkout that port.py has turned and nobody has edited

A definition in mixed case, as `packetBytes`, becomes `packet_bytes`, and a lemma or a field with dashes, as `put-before`,
`put_before`. Types and modules keep their capitals; what Rattle makes of the source, as `loop-i-preserved`, keeps its dashes.
Where a lemma would get the name of a definition it gets `_lem` behind it; FIXED names the few other cases.
It rewrites specs/, proofs/, clauses and ghost items of src/, must-fail edits, and names in code spans of README and docs/.
It prints each name that falls together with another, and ends with 1 if there is one.
"""

import glob
import os
import re
import subprocess
import sys

WORD = r"[^\s(){}.;,@\"«»\[\]]+"
DECLARED = re.compile(r"^( *)((?:pub |abbrev |unfoldable |record |data )*)(" + WORD + r")((?: [({][^{}()]*[)}])*) :(?= |$)")

# What the rules alone would let fall together, or would give the name of something else.
FIXED = {
    "carried-out": "is_carried_out",  # a field of LowestBy, beside the number carried_out
    # lemmas that port.py respelled, each beside a definition whose spelling they would keep it from
    "number_by": "number_by_lem",
    "one_more": "one_more_lem",
    "refused_as": "refused_as_lem",
    "line_ok": "line_ok_lem",
}


def snake(name):
    name = re.sub(r"(?<=[a-z0-9])[A-Z]+", lambda m: "_" + m[0].lower(), name)
    return name.replace("-", "_")


def read(path):
    with open(path, encoding="utf-8") as f:
        return f.read()


def own_files(top):
    found = []
    for kind in ("specs", "proofs"):
        found += glob.glob(os.path.join(top, "crates", "*", kind, "**", "*.antt"), recursive=True)
    return sorted(f for f in found if "/out/" not in f)


def own_crates(top):
    return {os.path.basename(f) for f in glob.glob(os.path.join(top, "crates", "*"))}


def is_walk(path):
    return os.path.basename(path) == "Proof.antt"


def declared(top):
    """The names that specs/ and proofs/ declare: for each the places, and whether it is a record's field somewhere."""
    places, fields = {}, set()
    for path in own_files(top):
        if is_walk(path):
            continue
        record = False
        for line in read(path).splitlines():
            it = DECLARED.match(line)
            if it:
                places.setdefault(it[3], set()).add(path)
                if record and it[1]:
                    fields.add(it[3])
                record = "record " in it[2] or (record and bool(it[1]))
            elif line and not line.startswith((" ", "--")):
                record = "record " in line
            if re.match(r"^(pub |abbrev )*record ", line):
                record = True
    return places, fields


def table(top):
    places, fields = declared(top)
    wanted = {}
    for name in sorted(places):
        if name[0].isupper():
            continue
        wanted[name] = FIXED.get(name, snake(name))
    rename, taken, met = {}, {}, []
    own = own_crates(top)
    libraries = set().union(*(brought(read(path), own) for path in own_files(top)))
    # What has the spelling already stays; then definitions of specs/, then fields, then lemmas.
    def rank(name):
        if wanted[name] == name:
            return 0
        if "-" not in name:
            return 1
        return 2 if name in fields else 3

    for name in sorted(wanted, key=lambda n: (rank(n), n)):
        new = wanted[name]
        if new in taken or (new != name and new in libraries):
            new += "_lem"
        if new in taken:
            met.append((name, taken[new], new))
            continue
        taken[new] = name
        if new != name:
            rename[name] = new
    return rename, fields, met


def brought(text, own):
    """The names that a file brings from libraries of the kit."""
    found = set()
    for it in re.finditer(r"\buse ([^\s;{]+?)\.?(?:\{([^}]*)\})?(?: as \S+)?[ \t]*;?[ \t]*$", text, re.M):
        steps = it[1].split(".")
        if steps[0] == "Rattle" and len(steps) > 1 and steps[1] in own:
            continue
        names = it[2].split(",") if it[2] is not None else [steps[-1]]
        found |= {name.split(" as ")[0].strip() for name in names}
    return found


def turn(text, rename, fields, own, walk=False):
    """Each word that is a name of the table; in a walk a word with dashes behind a dot is a step of the code, unless it is a field.
    What the file brings from a library stays."""
    others = brought(text, own)

    def one(it):
        new = None if it[0] in others else rename.get(it[0])
        if new is None:
            return it[0]
        before = it.string[it.start() - 1 : it.start()]
        if before == "." and walk and "-" in it[0] and it[0] not in fields:
            return it[0]
        if before == "." and walk and it.string[it.end() : it.end() + 1] == ".":
            return it[0]  # a step of the code, as `c.put-before.ensures`
        return new

    return re.sub(WORD, one, text)


def turn_spans(text, rename):
    """The code spans of a page."""

    def span(it):
        return re.sub(r"[\w'-]+", lambda w: rename.get(w[0], w[0]), it[0])

    return re.sub(r"`[^`\n]+`", span, text)


def write(path, text, before):
    if text != before:
        with open(path, "w", encoding="utf-8") as f:
            f.write(text)


def main():
    top = sys.argv[1] if len(sys.argv) > 1 else "."
    rename, fields, met = table(top)
    own = own_crates(top)
    mixed = {n: s for n, s in rename.items() if "-" not in n}
    for path in own_files(top):
        before = read(path)
        write(path, turn(before, rename, fields, own, is_walk(path)), before)
    for path in sorted(glob.glob(os.path.join(top, "crates", "*", "src", "**", "*.rt"), recursive=True)):
        before = read(path)
        write(path, re.sub(r"\b[a-z]\w*[A-Z]\w*\b", lambda w: mixed.get(w[0], w[0]), before), before)
    for path in sorted(glob.glob(os.path.join(top, "crates", "*", "must-fail", "*.edit"))):
        before = read(path)
        write(path, turn(before, rename, fields, own), before)
    for path in [os.path.join(top, "README.md")] + sorted(glob.glob(os.path.join(top, "docs", "*.md"))):
        if os.path.basename(path) in ("PORT.md", "CHANGES.md"):
            continue
        before = read(path)
        write(path, turn_spans(before, rename), before)
    for crate in sorted(glob.glob(os.path.join(top, "crates", "*"))):
        subprocess.run(["rt", "fmt"], cwd=crate, stdout=subprocess.DEVNULL, stderr=subprocess.DEVNULL)
    for name, other, new in met:
        print(f"falls together: {name} and {other}, as {new}")
    print(f"{len(rename)} names respelled, {len(met)} fall together")
    return 1 if met else 0


if __name__ == "__main__":
    raise SystemExit(main())
