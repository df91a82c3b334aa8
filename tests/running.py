"""What the cases of the programs share: where the programs stand, comparing, and the line at the end.

The folder of the programs is the first argument, or target/bin."""
import contextlib
import os
import subprocess
import sys
import tempfile

HERE = os.path.dirname(os.path.abspath(__file__))
BIN = os.path.abspath(sys.argv[1] if len(sys.argv) > 1 else os.path.join(HERE, "..", "target", "bin"))
counts = {"passed": 0, "failed": 0}


def told(program, what, number):
    """The line on standard error of a program that could not do this."""
    return f"{BIN}/{program}: cannot {what}: {os.strerror(number)}"


def check(name, got, want):
    """got: text; want: a list of lines."""
    text = "".join(x + "\n" for x in want)
    if got == text:
        counts["passed"] += 1
        return
    counts["failed"] += 1
    print("FAILED", name)
    for g, w in zip(got.split("\n"), text.split("\n")):
        if g != w:
            print("  got  ", g[:150], "\n  want ", w[:150])
            return
    print("  got", len(got), "bytes, want", len(text))


@contextlib.contextmanager
def interrupting(**variables):
    """An environment in which reads and writes are interrupted by a signal, and move three bytes at most; see interrupts.c."""
    with tempfile.TemporaryDirectory() as room:
        library = os.path.join(room, "libinterrupts.so")
        subprocess.run(["cc", "-O2", "-shared", "-fPIC", "-o", library, os.path.join(HERE, "interrupts.c")], check=True)
        yield dict(os.environ, LD_PRELOAD=library, **variables)


def finish():
    print(f"{counts['passed']} passed, {counts['failed']} failed")
    sys.exit(counts["failed"] != 0)
