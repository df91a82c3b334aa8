#!/usr/bin/env python3
"""The documents name what is there. In every document:

- each path in backquotes stands in the repository (crates/ may be left out), and each file's name without a folder somewhere in it;
- each single word in backquotes is a name of the code, the definitions, the proofs or the tests (comments apart), or the name of a
  crate, a file or an edit; of a::b each part is. A word with an option's two hyphens stands in some program or test. All else in
  backquotes (commands, printed lines, numbers, several words) is let through;
- each line of code that begins with `fn` is a signature of the code.

In docs/READING-THE-PROOFS.md each name of a row stands in one of the row's files, every must-fail edit is named in a row of its
crate, and the functions of such a row stand in that crate. In docs/ARCHITECTURE.md every crate is named, and in its map each stands
above all that it stands on. In docs/CHANGES.md a name of earlier days may stand that its table "Names that have changed" has in the
first column, and a name in the spelling of its day. docs/PORT.md, docs/DESIGN-PASS.md
and docs/LOOK-BACK.md, which name what stood before, are left out.

    python3 tests/documents.py         prints what is missing; the last line is 'N passed, M failed'
"""
import re
from pathlib import Path

ROOT = Path(__file__).resolve().parent.parent
CRATES = ROOT / "crates"
PAGES = sorted(f"docs/{p.name}" for p in (ROOT / "docs").glob("*.md") if p.name not in ("PORT.md", "DESIGN-PASS.md", "LOOK-BACK.md"))
DOCUMENTS = ["README.md", "bench/README.md", "reference/README.md", *PAGES]
READING = "docs/READING-THE-PROOFS.md"
PATH = re.compile(r"^[\w.-]+(/[\w.-]+)+/?$")
ENDINGS = (".rt", ".antt", ".edit", ".py", ".rs", ".sh", ".md", ".txt", ".c", ".bin")
FOLDERS = ["crates", "reference", "tests", "bench", "example"]
TEXTS = (".rt", ".antt", ".py", ".rs", ".sh", ".c", ".txt", ".toml")
COMMENT = re.compile(r"^\s*(//|--|#).*$", re.M)
NAME = re.compile(r"^[A-Za-z][\w′-]*(::[A-Za-z]\w*)*$")
WORD = re.compile(r"[A-Za-z][\w′]*(?:-[\w′]+)*|--[a-z][a-z-]*")
# of the C library
FOREIGN = {"memset"}
# of the kit
KIT = {"rattle-kit-13f"}


def text_of(document):
    return (ROOT / document).read_text(encoding="utf-8")


def quoted(text):
    return re.findall(r"`([^`\n]+)`", text)


def files():
    """The repository's files, but for what is built."""
    return [f for folder in FOLDERS for f in sorted((ROOT / folder).rglob("*")) if "target" not in f.parts and f.is_file()]


def code(path):
    """A file's text without its comments."""
    return COMMENT.sub("", path.read_text(encoding="utf-8"))


# ---- paths

def place(document, path):
    """The file or folder that a document means by a path, or None."""
    for start in (CRATES, ROOT, ROOT / Path(document).parent):
        if (start / path).exists():
            return start / path
    return None


def paths(text):
    return [w for w in quoted(text) if PATH.match(w) and (w.endswith(ENDINGS) or w.endswith("/"))]


def missing_paths(document):
    return [f"{document}: no {path}" for path in paths(text_of(document)) if not place(document, path)]


# ---- names

def known():
    """Every word of the code, and the names of files and folders."""
    words = set(FOREIGN | KIT)
    for f in files() + [ROOT / "crates.txt"]:
        words.update({f.name, f.stem, f.parent.name})
        if f.suffix in TEXTS:
            words.update(WORD.findall(code(f)))
    return words | {"crates.txt"} | {Path(d).name for d in DOCUMENTS}


def earlier_names():
    """The first column of the table of names that have changed."""
    section = re.search(r"^## Names that have changed\n(.*?)(?=^## |\Z)", text_of("docs/CHANGES.md"), re.M | re.S)
    rows = [line.split(" | ")[0] for line in section.group(1).splitlines() if line.startswith("|")] if section else []
    return {w for row in rows for w in quoted(row)}


def cited(document):
    """The names, options and files without a folder that a document has in backquotes."""
    words = quoted(text_of(document))
    names = [part for w in words if NAME.match(w) for part in w.split("::")]
    return names + [w for w in words if WORD.fullmatch(w) and w.startswith("--")] \
        + [w for w in words if re.match(r"^\w+\.\w+$", w) and w.endswith(ENDINGS)]


def respelled(name):
    """A name with dashes or in mixed case, as a name of today is spelled."""
    return re.sub(r"(?<=[a-z0-9])[A-Z]", lambda m: "_" + m[0].lower(), name).replace("-", "_")


def unknown_names(document, words):
    earlier = document == "docs/CHANGES.md"
    let = words | (earlier_names() if earlier else set())
    return [f"{document}: {n} stands nowhere" for n in dict.fromkeys(cited(document))
            if n not in let and not (earlier and (respelled(n) in words or respelled(n) + "_lem" in words))]


# ---- signatures

def signatures(text):
    return re.findall(r"^    (fn .*)$", text, re.M)


def bare(text):
    return re.sub(r"\s+", "", text).replace(",)", ")")


def unknown_signatures(document):
    sources = [bare(f.read_text(encoding="utf-8")) for f in CRATES.glob("*/src/**/*.rt")]
    return [f"{document}: no {s}" for s in signatures(text_of(document))
            if not any("pub" + bare(s) in source for source in sources)]


# ---- rows of docs/READING-THE-PROOFS.md

def rows(document):
    lines = text_of(document).splitlines()
    return [line.strip().strip("|").split(" | ") for line in lines if line.startswith("|")]


def names(cell):
    """The single names of a cell, in the spelling of the code and of the definitions."""
    return [w for w in quoted(cell) if re.match(r"^[A-Za-z][\w′-]*$", w)]


def stands(name, places):
    found = re.compile(rf"(?<![\w-]){re.escape(name)}(?![\w-])")
    return any(found.search(f.read_text(encoding="utf-8")) for f in places if f.is_file())


def misplaced_names(document):
    """Rows of three cells: what is said, the files, the names (or the names, then the files)."""
    missing = []
    for cells in rows(document):
        if len(cells) == 3:
            places = [place(document, p) for cell in cells[1:] for p in paths(cell)]
            if places and all(places):
                missing += [f"{document}: {n} stands in none of {cells[1]}" for cell in cells[1:] for n in names(cell)
                            if not stands(n, places)]
    return missing


def crates_of(cell):
    """The crates that the first cell of a row of edits names."""
    return {c.name for c in CRATES.iterdir() if re.search(rf"`{c.name}(`|::|/)", cell)}


def missing_edits(document):
    edits = {(e.parent.parent.name, e.stem) for e in CRATES.glob("*/must-fail/*.edit")}
    found, faults = set(), []
    for cells in rows(document):
        of_row = {(c, w) for c in crates_of(cells[0]) for w in quoted(cells[-1]) if (c, w) in edits}
        if not of_row or len(cells) != 2:
            continue
        found |= of_row
        places = [f for c in crates_of(cells[0]) for f in (CRATES / c).rglob("*") if f.suffix in (".rt", ".antt")]
        functions = [part for w in quoted(cells[0]) if NAME.match(w) for part in w.split("::")]
        faults += [f"{document}: {n} stands in no file of {cells[0]}" for n in functions
                   if not (CRATES / n).exists() and not stands(n, places) and n not in {f.stem for f in places}]
    return faults + [f"{document}: no {crate}/{name} in a row of its crate" for crate, name in sorted(edits - found)]


# ---- the map of docs/ARCHITECTURE.md

def stands_on():
    lines = [line.split("#")[0].split(":") for line in text_of("crates.txt").splitlines()]
    return {line[0].strip(): line[1].split() for line in lines if len(line) == 2}


def map_faults(document):
    text = text_of(document)
    heights = {c: int(row.split()[0]) for row in re.findall(r"^    ( ?\d+ .*)$", text, re.M) for c in row.split()[1:]}
    below = stands_on()
    return [f"{document}: {c} is not named" for c in below if f"`{c}`" not in text] \
        + [f"{document}: {c} stands in no row of the map" for c in below if c not in heights and not c.endswith("_cases")] \
        + [f"{document}: {c} does not stand above {d}" for c in heights for d in below.get(c, [])
           if d in heights and heights[c] <= heights[d]] \
        + [f"{document}: {c} is no crate" for c in heights if c not in below]


def main():
    words = known()
    checks = [(missing_paths, ()), (unknown_names, (words,)), (unknown_signatures, ())]
    faults = [fault for d in DOCUMENTS for check, more in checks for fault in check(d, *more)]
    faults += misplaced_names(READING) + missing_edits(READING) + map_faults("docs/ARCHITECTURE.md")
    for fault in faults:
        print(fault)
    checked = sum(len(paths(text_of(d))) + len(set(cited(d))) + len(signatures(text_of(d))) for d in DOCUMENTS)
    print(f"{max(checked - len(faults), 0)} passed, {len(faults)} failed")
    raise SystemExit(bool(faults))


main()
