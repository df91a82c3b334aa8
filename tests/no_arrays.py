"""Holds document 02, Point 3: the code that writes sample packets declares no array, from the open call down.

    python3 tests/no_arrays.py          prints what is found; the last line is 'N passed, M failed'

The functions are found by what calls what, in `processor` and the crates that it stands on: those by which a call comes to
packet's write_samples, and those that this one calls. Each is searched for the type or the value of an array, also by the name
of a type that is one or by a function of the library that makes or lends one, and for a local copy of a state's arrays. Other
functions that a close calls, such as the table sum, are not of the sample packets' way.
"""
import os
import re

TOP = os.path.join(os.path.dirname(os.path.abspath(__file__)), "..")
OPEN = "processor"
WRITER = "packet::write::write_samples"
# [u8; 4], [0u8; N] and [filler; 32]; and [1, 2] as a value.
ARRAY = re.compile(r"\[[^\[\]]*;[^\[\]]*\]|[=(,]\s*&?(?:mut\s+)?\[[^\[\]]*\]")
# The library's functions that make or lend one.
MAKER = re.compile(r"\b(?:to_[bln]e_bytes|as_(?:mut_)?array|as_r?chunks(?:_mut)?|first_chunk|from_fn|from_array)\b")
# type Tables = [u8; TABLE_BYTES];
ALIAS = re.compile(r"^\s*(?:pub(?:\([a-z]+\))? )?type (\w+)[^=;]*= &?\[[^\[\]]*;", re.M)
# let counts = i.counts;
COPY = re.compile(r"\blet\s+(?:mut\s+)?\w+\s*=\s*[\w.]+\.(?:interval|counts|boxes|beacons|totals)\s*;")
CLAUSE = re.compile(r"\b(?:requires|ensures)\*?(?: \w+)? \{")
FUNCTION = re.compile(r"^\s*(?:pub(?:\([a-z]+\))?\s+)?fn (\w+)", re.M)


def code_of(text):
    """The text without comments, contracts and imports of definitions."""
    text = re.sub(r"//[^\n]*", "", text)
    return re.sub(r"ghost use[^\n]*", "", without_clauses(text))


def without_clauses(text):
    """The text without what stands in the braces of contracts."""
    kept, at = [], 0
    for clause in CLAUSE.finditer(text):
        if clause.start() < at:
            continue
        kept.append(text[at:clause.start()])
        at, depth = clause.end(), 1
        while depth:
            depth += {"{": 1, "}": -1}.get(text[at], 0)
            at += 1
    return "".join(kept) + text[at:]


def imports_of(text):
    """Each imported name with its path."""
    found = {}
    for path, names in re.findall(r"^use ([\w:]+?)(?:::\{([^}]*)\})?;", text, re.M):
        for name in re.findall(r"\w+", names) or [path.split("::")[-1]]:
            found[name] = f"{path}::{name}" if names else path
    return found


def arrays_in(code, aliases=()):
    named = re.findall(rf"\b(?:{'|'.join(aliases)})\b", code) if aliases else []
    return ARRAY.findall(code) + MAKER.findall(code) + COPY.findall(code) + named


def below(crate):
    """The crate and those that it stands on."""
    lists = {}
    with open(os.path.join(TOP, "crates.txt"), encoding="utf-8") as f:
        for line in f:
            if ":" in line and not line.startswith("#"):
                name, rest = line.split(":", 1)
                lists[name] = rest.split()
    found, left = set(), [crate]
    while left:
        name = left.pop()
        if name not in found:
            found.add(name)
            left += lists.get(name, [])
    return sorted(found)


def sources():
    """Each module of `processor` and what it stands on, with its text without comments, contracts and imports of definitions."""
    for crate in below(OPEN):
        folder = os.path.join(TOP, "crates", crate, "src")
        for file in sorted(os.listdir(folder)) if os.path.isdir(folder) else []:
            with open(os.path.join(folder, file), encoding="utf-8") as f:
                text = code_of(f.read())
            yield crate if file == "lib.rt" else f"{crate}::{file[:-3]}", text


def functions():
    """Each function's code with the names that its file imports, by its whole name."""
    found = {}
    for module, text in sources():
        imports = imports_of(text)
        starts = [m for m in FUNCTION.finditer(text)]
        ends = [m.start() for m in starts[1:]] + [len(text)]
        for m, end in zip(starts, ends):
            # A trait's method stands once for each type: all of them together.
            name = f"{module}::{m.group(1)}"
            before = found[name][2] if name in found else ""
            found[name] = (module, imports, before + text[m.start():end])
    return found


def calls_of(functions):
    """What each function calls, by whole names."""
    called = {}
    for name, (module, imports, code) in functions.items():
        paths = set()
        for path in re.findall(r"\b((?:\w+::)*\w+)\s*\(", code):
            first, *rest = path.split("::")
            crate = module.split("::")[0]
            for whole in (
                f"{module}::{path}",
                f"{crate}::{path}",
                path.replace("crate::", f"{crate}::"),
                path,
                "::".join([imports.get(first, first).replace("crate", crate), *rest]),
            ):
                if whole in functions and whole != name:
                    paths.add(whole)
        # A method of an imported trait or type: it stands beside it.
        for method in re.findall(r"\.(\w+)\s*\(", code):
            for path in imports.values():
                whole = f"{path.rpartition('::')[0]}::{method}"
                if whole in functions and whole != name:
                    paths.add(whole)
        called[name] = paths
    return called


def reached(start, arrows):
    found, left = set(), [start]
    while left:
        name = left.pop()
        if name not in found:
            found.add(name)
            left += arrows.get(name, ())
    return found


counts = {"passed": 0, "failed": 0}


def case(name, right):
    counts["passed" if right else "failed"] += 1
    if not right:
        print(f"failed: {name}")


# The search finds each way to declare one.
for line in (
    "let mut part = [0u8; 272];",
    "fn f(a: [u32; 64])",
    "let w = [a, b];",
    "put(&[1, 2]);",
    "let c = i.counts;",
    "fn f(tables: &Tables)",
    "copy_from_slice(&v.to_be_bytes());",
    "let t = tables.as_mut_array();",
):
    case(f"finds {line}", arrays_in(line, {"Tables"}))
for line in ("let a = &part[0..4];", "out: &mut [u8],", "slots[i] = 0;", "let n = tables.len();"):
    case(f"passes {line}", not arrays_in(line, {"Tables"}))
case("passes // [0u8; 4]", not arrays_in(code_of("// [0u8; 4]")))

known = functions()
aliases = {name for _, text in sources() for name in ALIAS.findall(text)}
for name in ("Tables", "Staging", "Bitmap", "Echo"):
    case(f"{name} is known as an array", name in aliases)
calls = calls_of(known)
callers = {name: {other for other in calls if name in calls[other]} for name in calls}
way = reached(WRITER, callers) | reached(WRITER, calls)
# The way begins at the open call, and ends where bytes are written.
for name in ("processor::close::close", "output::write_packets", WRITER, "wire::write::put_words", "packet::envelope::write_sum"):
    case(f"{name} is on the way", name in way)
for name in sorted(way):
    found = arrays_in(known[name][2], aliases)
    case(f"{name}: {found}", not found)
print(f"{counts['passed']} passed, {counts['failed']} failed")
