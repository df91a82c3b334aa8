"""Writes the streams for `replay` that run.sh measures, in pairs that differ in the measured work alone.

    python3 bench/streams.py FOLDER CLOSES REPEATS

NAME.with has the work, NAME.less is the same without it. CLOSES is how often a stream of closes has it, REPEATS how often any
other. The streams `closes` are for `minute` as well.
"""
import pathlib
import sys

SLOTS = 704
TABLE_BYTES = 62_985
WORDS = 20_995
FIRST_WORD = 0x7000


def counted(kind, body):
    """A record of a kind, a 16-bit length and as many bytes."""
    return bytes([kind]) + len(body).to_bytes(2, "big") + body


def line(text):
    return counted(3, text.encode())


def close():
    return bytes([4]) + (60).to_bytes(4, "big")


def slots(records):
    return counted(22, b"".join(record.to_bytes(4, "big") for record in records))


# Records of the boxes 6 to 116.
FILLED = slots(i << 8 | (6 + i % 111) << 1 for i in range(SLOTS))
EMPTY = slots([0] * SLOTS)


def staged(n):
    """Bytes to stage."""
    return bytes(i * 73 % 251 for i in range(n))


def package(data, sum_off=0, length_off=0):
    """A load package of the data; its sum or its length may be wrong."""
    total = (sum(data) + sum_off) % 65_536
    return counted(5, (len(data) + 2 + length_off).to_bytes(2, "big") + data + total.to_bytes(2, "big"))


def packages(repeats, **wrong):
    """The package, again and again from address 0 on."""
    return repeats * (line("loadat 0") + package(staged(TABLE_BYTES - 1), **wrong))


def asks(repeats, text):
    """A package, then the line again and again."""
    return package(staged(TABLE_BYTES - 1)) + repeats * line(text)


def loads(repeats, n, text):
    """A package of n bytes, a command that waits, the line, and a close."""
    return repeats * (line("load 0") + package(staged(n)) + line("hvstep 10") + line(text) + close())


def streams(closes, repeats):
    yield "closes", closes * close(), b""
    yield "printed", closes * (FILLED + close()), closes * FILLED
    yield "fuller", closes * (FILLED + close()), closes * (EMPTY + close())
    yield "package", packages(repeats), packages(repeats, length_off=1)
    yield "wrong", packages(repeats, sum_off=1), packages(repeats, sum_off=1, length_off=1)
    yield "ask", asks(repeats, f"ask {FIRST_WORD:x} 0"), asks(repeats, "hvstep 10")
    for y, n in enumerate([TABLE_BYTES, WORDS, 2 * WORDS]):
        asked = f"{FIRST_WORD:x} {y}"
        yield f"load{y}", loads(repeats, n, f"commit {asked} {sum(staged(n)):x}"), loads(repeats, n, f"ask {asked}")


folder = pathlib.Path(sys.argv[1])
for name, work, less in streams(*map(int, sys.argv[2:])):
    (folder / f"{name}.with").write_bytes(work)
    (folder / f"{name}.less").write_bytes(less)
