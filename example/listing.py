#!/usr/bin/env python3
"""Records for `replay`, and what it prints of them: the tables aboard, listed and gathered.
    listing.py ask      writes a listing record for each of the table's 250 packets
    listing.py gather   reads what replay printed of them; writes a gather record for each packet, and a gathered record
    listing.py table    reads what replay printed of those; writes the gathered table, says how many packets are missing"""
import sys

LISTING, GATHER, GATHERED = 7, 8, 9
PACKETS = 250
TIME = 60


def ask():
    return b"".join(bytes([LISTING]) + i.to_bytes(2, "big") + TIME.to_bytes(4, "big") for i in range(PACKETS))


def gather(lines):
    packets = [bytes.fromhex(words[1]) for words in lines if words[0] == "out"]
    records = [bytes([GATHER]) + len(p).to_bytes(2, "big") + p for p in packets]
    return b"".join(records) + bytes([GATHERED])


def table(lines):
    missing, digits = next(words[1:] for words in lines if words[0] == "gathered")
    print(f"missing: {missing}", file=sys.stderr)
    return bytes.fromhex(digits)


def main():
    steps = {"ask": lambda: ask(), "gather": lambda: gather(read()), "table": lambda: table(read())}
    if sys.argv[1:] and sys.argv[1] in steps:
        sys.stdout.buffer.write(steps[sys.argv[1]]())
    else:
        raise SystemExit(__doc__)


def read():
    return (line.split() for line in sys.stdin if line.strip())


main()
