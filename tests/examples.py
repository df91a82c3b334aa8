#!/usr/bin/env python3
"""README's examples print what README says.

    python3 tests/examples.py          the last line is 'N passed, M failed'

An example is a block of commands (lines indented by four spaces) with the block of its output behind it; the text between the
two ends in the word "prints". The commands are run by bash in the repository's folder, with the programs in target/bin and the
second implementation's in reference/target/release, and what they write to standard output and standard error is compared byte
for byte. They must end well: the last one's exit status is 0. Blocks without such an output are not run: those that build.
"""
import re
import subprocess
from pathlib import Path

ROOT = Path(__file__).resolve().parent.parent
INDENT = "    "


def parts(text):
    """The text in turns: (True, a block's lines without their indent) and (False, the lines between two blocks)."""
    turns = []
    for line in text.splitlines():
        # an empty line belongs to what stands before it
        inside = line.startswith(INDENT) if line.strip() else bool(turns) and turns[-1][0]
        if not turns or turns[-1][0] != inside:
            turns.append((inside, []))
        turns[-1][1].append(line[len(INDENT):] if inside else line)
    return [(inside, "\n".join(lines).strip("\n")) for inside, lines in turns]


def examples(text):
    """The commands and what they print."""
    turns = parts(text)
    return [(commands, output + "\n") for (code, commands), (_, between), (_, output) in zip(turns, turns[1:], turns[2:])
            if code and re.search(r"\bprints$", between)]


def run(commands):
    done = subprocess.run(["bash", "-c", commands], cwd=ROOT, stdout=subprocess.PIPE, stderr=subprocess.STDOUT, timeout=600)
    return done.returncode, done.stdout.decode("utf-8", "replace")


def main():
    found = examples((ROOT / "README.md").read_text(encoding="utf-8"))
    failed = 0
    for commands, want in found:
        status, got = run(commands)
        if (status, got) != (0, want):
            failed += 1
            print(f"FAILED, status {status}:\n{commands}\n-- prints\n{got}-- README has\n{want}")
    if not found:
        failed = 1
        print("README has no example")
    print(f"{len(found) - failed if found else 0} passed, {failed} failed")
    raise SystemExit(failed != 0)


main()
