"""An operator's session, as records for replay: a package, an ask, a commit with the sum that the ask returns, a close, and the
first listing packet of what is aboard then.

    python3 load.py | ../target/bin/replay
"""
import sys

WORDS = bytes([1, 2, 3, 4, 5, 6])


def record(kind, body):
    return bytes([kind]) + body


def counted(kind, body):
    return bytes([kind]) + len(body).to_bytes(2, "big") + body


def package(data):
    return (len(data) + 2).to_bytes(2, "big") + data + (sum(data) % 65536).to_bytes(2, "big")


session = [
    counted(5, package(WORDS)),
    counted(3, b"ask 7000 0"),
    counted(3, b"commit 7000 0 %x" % sum(WORDS)),
    record(4, (60).to_bytes(4, "big")),
    record(7, (0).to_bytes(2, "big") + (61).to_bytes(4, "big")),
]
sys.stdout.buffer.write(b"".join(session))
