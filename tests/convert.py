"""Cases for the program convert, which converts an archive of packets. What it must write and count is worked out by
archive.py from documents 01 and 02; what it says on standard error stands in docs/DECISIONS.md.

    python3 tests/convert.py [FOLDER OF THE PROGRAMS]      target/bin if none is named

Prints each case that fails and what differs. The last line is 'N passed, M failed'.
"""
import errno
import os
import resource
import subprocess
import tempfile

import paper
from archive import ARCHIVE, OLD, SAMPLES, counted, written
from running import BIN, check, finish, interrupting, told

EDITIONS = {"second": paper.CONVERTED, "first": paper.FIRST}
USAGE = "usage: convert second|first < packets > converted"


# ---- running

def run(arguments, **streams):
    """What the program writes, what it says on standard error, and how it ended."""
    streams.setdefault("stdout", subprocess.PIPE)
    done = subprocess.run([BIN + "/convert", *arguments], stderr=subprocess.PIPE, check=False, timeout=120, **streams)
    return done.stdout or b"", done.stderr.decode(), done.returncode


def check_run(name, arguments, data, want, said, **streams):
    """The bytes, as digits, and the lines on standard error."""
    found, lines, status = run(arguments, input=data, **streams)
    check(f"convert: {name}", f"{found.hex()}\n{lines}{status}\n", [want.hex(), *said, "0"])


# ---- cases

def packets():
    """Every packet alone, all together, none."""
    for word, wanted in EDITIONS.items():
        for k, p in enumerate(ARCHIVE):
            check_run(f"{word}, packet {k} alone", [word], p, written([p], wanted), [counted([p], wanted)])
        check_run(f"{word}, an archive", [word], b"".join(ARCHIVE), written(ARCHIVE, wanted), [counted(ARCHIVE, wanted)])
        check_run(f"{word}, no input", [word], b"", b"", [counted([], wanted)])


def there_and_back():
    """A first-edition archive is the same bytes again; more than one piece of the input is read."""
    archive = (OLD + SAMPLES) * 400
    there, _, _ = run(["second"], input=b"".join(archive))
    check("convert: there", there.hex() + "\n", [written(archive, paper.CONVERTED).hex()])
    check_run("there and back", ["first"], there, b"".join(archive), ["1600 converted, 1200 passed on, refused: 0 by 11, 0 by 12, 0 by 13, 0 by 17"])


def cut():
    """An input that ends within a packet: the rest is written as it is, and counted nowhere."""
    whole, most = OLD + SAMPLES, (OLD + SAMPLES) * 100
    for packets, rest in ((whole, 1), (whole, 100), (whole, 271), ([], 1), ([], 271), (most, 270)):
        data = b"".join(packets) + OLD[0][:rest]
        said = [f"the input ends within a packet: its {rest} bytes are written as they are", counted(packets, paper.CONVERTED)]
        check_run(f"{rest} bytes behind {len(packets)} packets", ["second"], data, written(packets, paper.CONVERTED) + OLD[0][:rest], said)


def arguments():
    """Nothing is read or written where the edition is not said."""
    for words in ([], ["third"], ["secon"], ["seconds"], ["Second"], [""], ["first "], ["second", "first"], ["first", ""], ["x" * 5000]):
        check_run(f"arguments {[w[:9] for w in words]}", words, OLD[0], b"", [USAGE])


def pieces():
    """The input may come in pieces of any size."""
    data = b"".join(ARCHIVE)
    for n in (1, 271, 273, 4096):
        with subprocess.Popen([BIN + "/convert", "second"], stdin=subprocess.PIPE, stdout=subprocess.PIPE, stderr=subprocess.PIPE, bufsize=0) as p:
            for at in range(0, len(data), n):
                p.stdin.write(data[at:at + n])
            p.stdin.close()
            found = p.stdout.read().hex()
        check(f"convert: pieces of {n}", found + "\n", [written(ARCHIVE, paper.CONVERTED).hex()])


def little_memory():
    """The memory does not grow with the input: 100,000 packets, 27 megabytes, in 16 megabytes of address space."""
    packets = OLD + SAMPLES[:1]
    limit = 16 * 1024 * 1024
    check_run("27 MB in 16 MB", ["second"], b"".join(packets) * 20000, written(packets, paper.CONVERTED) * 20000,
              ["80000 converted, 20000 passed on, refused: 0 by 11, 0 by 12, 0 by 13, 0 by 17"],
              preexec_fn=lambda: resource.setrlimit(resource.RLIMIT_AS, (limit, limit)))


def failures():
    """Reads and writes that fail are told; a reader that has closed the pipe is not, and the run ends quietly, since a
    Rattle program ignores the signal. Interrupted ones change nothing."""
    with tempfile.TemporaryDirectory() as room:
        descriptor = os.open(room, os.O_RDONLY)
        _, lines, _ = run(["second"], stdin=descriptor)
        os.close(descriptor)
    check("convert: standard input is a folder", lines, [told("convert", "read standard input", errno.EISDIR), counted([], paper.CONVERTED)])
    for what, data in (("one packet", OLD[0]), ("many", OLD[0] * 10000)):
        with open("/dev/full", "wb") as full:
            _, lines, _ = run(["second"], input=data, stdout=full)
        check(f"convert: /dev/full, {what}", lines, [told("convert", "write standard output", errno.ENOSPC)])
    out, pipe = os.pipe()
    os.close(out)
    _, lines, status = run(["second"], input=OLD[0], stdout=pipe)
    os.close(pipe)
    check("convert: nobody reads", lines + f"{status}\n", ["0"])
    with interrupting() as environment:
        check_run("interrupted, three bytes at a time", ["second"], b"".join(ARCHIVE), written(ARCHIVE, paper.CONVERTED),
                  [counted(ARCHIVE, paper.CONVERTED)], env=environment)
    # More often than the text has bytes: no number of them is too many.
    with interrupting(INTERRUPTS="1000") as environment:
        check_run("interrupted a thousand times", ["second"], OLD[0], written(OLD[:1], paper.CONVERTED),
                  [counted(OLD[:1], paper.CONVERTED)], env=environment)
    with interrupting(MOVES_NOTHING="1") as environment:
        _, lines, _ = run(["second"], input=OLD[0], env=environment)
        check("convert: a write that moves nothing", lines, [f"{BIN}/convert: cannot write standard output: write zero"])


for case in (packets, there_and_back, cut, arguments, pieces, little_memory, failures):
    case()
finish()
