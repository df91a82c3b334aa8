#!/usr/bin/env python3
"""Lists the places of docs/DESIGN-PASS.md in crates/*/src, point by point, and counts them.

    tools/places.py [POINT..]     all points, or those named, as `tools/places.py 1 3`
    tools/places.py --counts      the counts alone
    tools/places.py --in FOLDER   of another checkout; with the other words behind it

What a regular expression can't tell, as whether two functions are twins, is judged by eye in the page; the list is where to look."""
import re
import sys
from collections import defaultdict
from pathlib import Path

WORDS = sys.argv[1:]
if WORDS[:1] == ["--in"]:
    TOP, WORDS = Path(WORDS[1]).resolve(), WORDS[2:]
else:
    TOP = Path(__file__).resolve().parent.parent
FILES = sorted(TOP.glob("crates/*/src/*.rt"))


def lines(pattern):
    """The lines of src/ that the pattern is found in."""
    at = re.compile(pattern)
    for file in FILES:
        for number, line in enumerate(file.read_text().splitlines(), 1):
            if at.search(line.split("//")[0]):
                yield f"{file.relative_to(TOP / 'crates')}:{number}: {line.strip()}"


def functions():
    """Each function: its place, name, parameters, clauses and body."""
    head = re.compile(r"^( *)(?:pub(?:\([a-z]+\))? )?(?:final )?fn (\w+)(?:<[^>]*>)?\((.*?)\)[^{;]*?(?=\n\1\{|\n\1    (?:requires|ensures|where|ghost)|\{ |;| \{\n)", re.S | re.M)
    for file in FILES:
        text = re.sub(r"//.*", "", file.read_text())
        for it in head.finditer(text):
            indent = it[1]
            ends = re.compile(rf"^{indent}\}}$", re.M).search(text, it.end())
            if not ends:
                continue
            rest = text[it.end():ends.end()]
            body_at = re.search(rf"^{indent}\{{$| \{{$", rest, re.M)
            clauses, body = (rest[:body_at.start()], rest[body_at.start():]) if body_at else ("", rest)
            place = f"{file.relative_to(TOP / 'crates')}:{text.count(chr(10), 0, it.start()) + 1}"
            yield place, it[2], it[3], clauses, body


KEYWORDS = set("if else while for in let mut return match fn pub as true false Some None Ok Err loop break".split())


def shape(body):
    """The body with every name, number and text but keywords and operators replaced by the place where it first stands."""
    seen = {}
    words = re.findall(r'b?"[^"]*"|b\'.\'|\w+|[^\s\w]', body)
    return tuple(w if w in KEYWORDS or not re.match(r"[\w\"]", w) else seen.setdefault(w, f"#{len(seen)}") for w in words)


def twins():
    """Functions whose bodies are the same but for names, numbers and types."""
    groups = defaultdict(list)
    for place, name, _, _, body in functions():
        it = shape(body)
        if 18 <= len(it) and name != "main":
            groups[it].append(f"{place}: {name}")
    for group in groups.values():
        if 1 < len(group):
            yield " = ".join(group)


def facts():
    """Facts about a value that stand in the clauses of three functions or more."""
    where = defaultdict(set)
    for place, name, _, clauses, _ in functions():
        for clause in re.findall(r"requires[^{]*\{(.*?)\}\s*(?=requires|ensures|$)", clauses, re.S):
            for fact in re.split(r"×", clause):
                fact = " ".join(fact.split())
                while fact.startswith("(") and fact.endswith(")"):
                    fact = fact[1:-1].strip()
                where[re.sub(r"\b\w+\.(now|old)\b", r"_.\1", fact).replace(".old", ".now")].add(f"{place} {name}")
    for fact, users in sorted(where.items()):
        if 3 <= len(users):
            yield f"{len(users)} functions: {fact}"


def together():
    """Pairs of parameters that stand together in five functions or more, wherever either stands."""
    with_each, users = defaultdict(int), defaultdict(int)
    for _, _, parameters, _, _ in functions():
        names = sorted({" ".join(p.split()) for p in re.split(r",\s*(?![^<\[]*[>\]])", parameters) if ":" in p})
        for i, a in enumerate(names):
            users[a] += 1
            for b in names[i + 1:]:
                with_each[a, b] += 1
    for (a, b), n in sorted(with_each.items(), key=lambda it: -it[1]):
        if 5 <= n and n * 10 >= 9 * min(users[a], users[b]):
            yield f"{n} functions: {a} | {b}"


POINTS = {
    "1 own enums": lambda: lines(r"^(pub )?enum "),
    "1 a flag or a number of a refusal with a value beside it": lambda: lines(r"^    (pub )?(number|read|ended|failed|more|beacon|over): (u8|bool|Option<Error>),"),
    "1 numbers for refusals, kinds, editions: constants": lambda: lines(r"^(pub )?const (CARRIED_OUT|BUFFER_OR_STATE|FIELD_RANGE|INTERVAL_FULL|LINE_BYTES|WRONG_LINE|LOAD_WAITING|COMMAND_LIMIT|PACKAGE_FORM|PAST_STAGING|PACKAGE_SUM|NO_HEADER|PACKET_SUM|BODY_FAULT|NOT_LISTED|BAD_STAGED|SUM_DIFFERS|NO_FIRST_CODE|\w+_MARK|(ONE|TWO|THREE)_BYTES?|\w+_KINDS?|EVENT|READING|LINE|CLOSE|PACKAGE|PACKET|LISTING|GATHER|GATHERED|TO_SECOND|TO_FIRST|STATE|SHOW|SLOTS|OVER): (u8|usize) = ([0-9]+|usize::MAX|CONVERTED_MARK);"),
    "1 numbers for refusals, kinds, editions: parameters and results": lambda: lines(r"(?<!pub )\b(number|wanted|mark|kind|y|how|cause|read): u8\b|fn (\w*number\w*|unless|judge|convert_accepted|to_second|to_first|listing|event|line|package|close|gather_with|kind_of|\w+_with)\(.*\) -> u8"),
    "2 functions with the same body but for names, numbers, types": twins,
    "2 functions named for a size, an edition or a count": lambda: lines(r"\bfn \w*(8|16|24|32|_one|_two|_three|ones|twos|threes|one_argument|two_arguments|three_arguments|to_first|to_second|put_six|hex2)\b"),
    "3 loops that count by hand": lambda: lines(r"^\s*(while|loop)\b"),
    "4 equality, order, copying, conversion, printing by hand": lambda: lines(r"\bfn (same|is_kind|is_load|is_sample|smaller|larger|wide\w*|bit|flag_bit|low|kind_of|setting_of|low_byte|hex_digit|put_hex\w*|decimal|numbers?|hex|line_end|print_\w+|write_decimal|say\w*|no_settings|no_counts|none)\("),
    "5 facts in three contracts or more": facts,
    "5 parameters that travel together": together,
    "6 a buffer with a length or an index beside it": lambda: lines(r"^    (pub )?(at|end|filled|used|waiters|next|replaced): (usize|u32),|\bat: &mut usize"),
    "7 a switch on which step to run": lambda: lines(r"^\s*match kind \{|\brow\(keyword"),
    "8 answers": lambda: (f"{f.relative_to(TOP / 'crates')}: {len(f.read_text().splitlines())} lines" for f in sorted(TOP.glob("crates/*/proofs/**/Answers.antt"))),
}


def main():
    only = [it for it in WORDS if it != "--counts"]
    for title, places in POINTS.items():
        if only and title.split()[0] not in only:
            continue
        found = list(places())
        print(f"{len(found):5}  {title}")
        if "--counts" not in WORDS:
            for it in found:
                print(f"         {it}")


main()
