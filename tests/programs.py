"""Cases for the programs minute and replay. The expected outputs are worked out here from documents 01 and 02,
but for one: `example` holds the program to what README shows, which the second implementation printed.

    python3 tests/programs.py [FOLDER OF THE PROGRAMS]      target/bin if none is named

Prints each case that fails and what differs. The last line is 'N passed, M failed'.
"""
import contextlib
import errno
import os
import select
import signal
import subprocess
import sys
import tempfile
import time
import tty

from running import BIN, HERE, check, finish, interrupting, told
from paper import SLOTS, STATE_BYTES, TABLE_BYTES, Settings, State, accepted_echo, echo_buffer, pack, package_echo, put_numbers, \
    refused_echo, state_bytes, sum_error_echo, with_sum



# ---- inputs

def tables(words=()):
    """Lookup tables of zeros but for some words, given as (address, value)."""
    data = bytearray(TABLE_BYTES)
    for address, value in words:
        at = 3 * (address - 0x7000)
        data[at:at + 3] = value.to_bytes(3, "big")
    return bytes(data)


def event(t=0, high=0, low=0, flags=8):
    return b"\x01" + b"".join(n.to_bytes(2, "big") for n in (t, high, low)) + bytes([flags])


def reading(*counts):
    return b"\x02" + b"".join(n.to_bytes(2, "big") for n in counts)


def close(time=60):
    return b"\x04" + time.to_bytes(4, "big")


def filled_line(text):
    """A line of minute: 80 bytes, zero-filled."""
    return b"\x03" + text.ljust(80, b"\0")


def counted(kind, body):
    """A record of replay that has its length in front."""
    return bytes([kind]) + len(body).to_bytes(2, "big") + body


def line(text):
    return counted(3, text)


def package(data, error=0):
    total = (sum(data) + error) % 65536
    return counted(5, (len(data) + 2).to_bytes(2, "big") + data + total.to_bytes(2, "big"))


def packet(body):
    return counted(6, body)


def listing(i, time=60):
    return b"\x07" + i.to_bytes(2, "big") + time.to_bytes(4, "big")


def gather(body):
    return counted(8, body)


GATHERED = b"\x09"


def handed(**fields):
    """A fresh state but for these fields."""
    return b"\x14" + state_bytes(State(**fields))


SHOW = b"\x15"


def slots(*records):
    """These records in the first slots, and zeros."""
    return counted(22, put_numbers(records, 4).ljust(4 * SLOTS, b"\0"))


# ---- expected text

def echo(text):
    return echo_buffer(text).hex()


def answered(number, text, total=0):
    """A line's number, its echo, and the sum, which is 0 of all lines but an accepted ask."""
    return f"line {number} {echo(text)} {total}"


def accepted(frame, sequence, text, total=0):
    return answered(0, accepted_echo(frame, sequence, text), total)


def refused(number, text):
    return answered(number, refused_echo(text))


def shown(**fields):
    return "state " + state_bytes(State(**fields)).hex()


def closed(frame, taken, filled, boxes=(), beacons=(), sample_counts=None):
    """The first three lines of a close; boxes and beacons as (number, count), all others 0. The sample_counts are eligible, replaced
    and dropped; where they are not said, every eligible event is in a slot."""
    eligible, replaced, dropped = sample_counts or (filled, 0, 0)
    b, n = [0] * 116, [0] * 12
    for at, count in boxes:
        b[at - 1] = count
    for at, count in beacons:
        n[at - 1] = count
    return [f"close 0 {frame} {taken} {filled} {eligible} {replaced} {dropped}",
            "boxes " + " ".join(map(str, b)), "beacons " + " ".join(map(str, n))]


# ---- running

@contextlib.contextmanager
def folder(data):
    """A folder to run in. data: the bytes of tables.bin, or None for no file, or "folder"."""
    with tempfile.TemporaryDirectory() as room:
        path = os.path.join(room, "tables.bin")
        if data == "folder":
            os.mkdir(path)
        elif data is not None:
            with open(path, "wb") as f:
                f.write(data)
        yield room


def run(program, stdin, data=tables(), pieces=None):
    """What the program prints."""
    with folder(data) as room:
        if pieces is None:
            return subprocess.run([BIN + "/" + program], cwd=room, input=stdin, capture_output=True, check=True).stdout.decode()
        # What it prints goes to a file: a full pipe would stop it while it is still being fed.
        with open(os.path.join(room, "printed"), "w+b") as printed:
            with subprocess.Popen([BIN + "/" + program], cwd=room, stdin=subprocess.PIPE, stdout=printed, bufsize=0) as p:
                at = 0
                for n in pieces:
                    p.stdin.write(stdin[at:at + n])
                    at += n
                p.stdin.write(stdin[at:])
                p.stdin.close()
            printed.seek(0)
            return printed.read().decode()


def run_on(program, data=tables(), **streams):
    """What the program prints and what it tells on standard error, on streams of any kind; and how it ended."""
    streams.setdefault("stdout", subprocess.PIPE)
    with folder(data) as room:
        done = subprocess.run([BIN + "/" + program], cwd=room, stderr=subprocess.PIPE, check=False, timeout=60, **streams)
    return (done.stdout or b"").decode(), done.stderr.decode(), done.returncode


def lines_now(pipe, n, seconds=10):
    """The next n lines of a pipe, or as many as come within the time."""
    text, end = b"", time.monotonic() + seconds
    while text.count(b"\n") < n and select.select([pipe], [], [], max(0, end - time.monotonic()))[0]:
        more = os.read(pipe.fileno(), 65536)
        if not more:
            break
        text += more
    return text.decode()


def without_packets(output):
    return "".join(x for x in output.splitlines(keepends=True) if not x.startswith("out "))


# ---- tables.bin, ends of the input, bad records

def start_and_end():
    for program in ("minute", "replay"):
        for what, data in (("no tables.bin", None), ("an empty one", b""), ("one byte too few", bytes(TABLE_BYTES - 1)),
                           ("one byte too many", bytes(TABLE_BYTES + 1)), ("far too many", bytes(300000)), ("a folder", "folder")):
            check(f"{program}: tables.bin: {what}", run(program, event() + b"\xff", data), ["refused 1"])
        check(f"{program}: no input", run(program, b""), [])
        first = ["event 0"] if program == "replay" else []
        check(f"{program}: silent end", run(program, event()), first)
        for kind in (0, 12, 49, 255) + ((5, 6, 7, 8, 9, 10, 11, 20, 21, 22) if program == "minute" else (19, 23)):
            check(f"{program}: kind {kind}", run(program, event() + bytes([kind]) + bytes(100)), first + ["bad record"])
        bodies = [(1, 7), (2, 16), (4, 4)] + ([(3, 80)] if program == "minute" else [(7, 6), (20, STATE_BYTES)])
        for kind, n in bodies:
            for short in (0, n - 1):
                check(f"{program}: kind {kind}, {short} bytes", run(program, event() + bytes([kind]) + bytes(short)), first + ["bad record"])
    for kind in (3, 5, 6, 8, 10, 11, 22):
        for short in (b"", b"\0", b"\0\5", b"\0\5abcd", b"\xff\xff" + bytes(65534)):
            check(f"replay: kind {kind}, {len(short)} bytes", run("replay", bytes([kind]) + short), ["bad record"])
    check("minute: the example", run("minute", bytes.fromhex("01000500640000000400 00003C")), ["0 1 1 0 0 0"])
    check("minute: the example, other tables", run("minute", bytes.fromhex("01000500640000000400 00003C"), b"\xff" * TABLE_BYTES), ["0 1 1 0 0 0"])


# ---- events

def ranges():
    """Each field at its last value and one above; a flag byte up to 15 and above."""
    right = [event(511, 4095, 2047, 15), event(flags=0), event(flags=7)]
    wrong = [event(512), event(65535), event(0, 4096), event(0, 0, 2048), event(flags=16), event(flags=255), event(512, flags=24)]
    # All three are discarded: the error flag is set, or there is no valid stop.
    check("minute: ranges", run("minute", b"".join(right + wrong) + close()), ["refused 2"] * len(wrong) + ["0 3 3 0 0 0"])
    check("replay: ranges", without_packets(run("replay", b"".join(right + wrong) + close())),
          ["event 0"] * 3 + ["event 2"] * len(wrong) + closed(0, 3, 0, [(5, 3)]))


def million():
    """3 comes after 1,000,000 events, whatever the event; 2 comes before 3."""
    stream = event(flags=0) * 1000000 + event(flags=0) + event() + event(flags=16) + close() + event(flags=0) + close()
    check("minute: 1,000,001 events", run("minute", stream), ["refused 3", "refused 3", "refused 2", "0 1000000 1000000 0 0 0", "1 1 1 0 0 0"])


# With tables of zeros u is 65,536, f_m is 18, f_e is 88: every event with a valid stop goes to cell 128 * 18 + 88.
CELL = 0x8000 + 128 * 18 + 88
# With Klo 65,536 an event of gain 1 has u 0, so f_m 0: cell 88.
LOW_CELL, KLO = 0x8000 + 88, 0xC201
# Box 60 with priority 1, box 61 with priority 0.
SORTED = tables([(CELL, (128 + 60) << 16), (LOW_CELL, 61 << 16), (KLO, 65536)])


def columns():
    """The mass column at its edges (document 02, Point 2): u is the energy word less one, and f_e is 88."""
    edges = {-1: None, 0: 10, 3583: 10, 3584: 11, 458751: 12, 458752: None}
    words = [(0x7000 + k, u + 1) for k, u in enumerate(edges, 1)] + [(0xC200, 65537)]
    words += [(0x8000 + 128 * f + 88, b << 16) for f, b in ((0, 10), (1, 11), (127, 12))]
    stream = b"".join(event(high=k) for k in range(1, len(edges) + 1)) + close()
    counts = [(1, 4), (3, 6), (6, 2), (10, 2), (11, 1), (12, 1)]
    check("replay: the mass column's edges", without_packets(run("replay", stream, tables(words))), ["event 0"] * 6 + closed(0, 6, 4, counts))


def record(t, channel, gain, box, priority):
    return pack(t, channel, 0, 0, gain, 0, box, priority)


def samples():
    """The first 704; then the h-th later one with priority 1 replaces slot h while h < LIMHI."""
    for limhi in (0, 1, 500, 704):
        for extra in (0, 1, 2, 400, 1600):
            stream = line(b"limhi %x" % limhi) + close()
            slots, h, dropped, by_gain = [], 0, 0, [0, 0]
            for k in range(SLOTS + extra):
                # Every third event has gain 1 and so priority 0. No two records are alike.
                t, channel, gain = k % 512, 1 + k // 2, int(k % 3 == 0)
                stream += event(t, 4095 if gain else channel, channel if gain else 0)
                w = record(t, channel, gain, 61 if gain else 60, 1 - gain)
                by_gain[gain] += 1
                if len(slots) < SLOTS:
                    slots.append(w)
                elif not gain and h < limhi:
                    slots[h] = w
                    h += 1
                else:
                    dropped += 1
            # The close after these has no event: its slots are empty.
            output = run("replay", stream + close() + close(), SORTED)
            outs = [bytes.fromhex(x[4:]) for x in output.splitlines() if x.startswith("out ")]
            kept = b"".join(p[11:267] for p in outs[14:25])
            after = b"".join(p[11:267] for p in outs[27:38])
            check(f"replay: slots, limhi {limhi}, {extra} more",
                  "".join(f"{int.from_bytes(kept[4 * i:4 * i + 4], 'big'):08x}\n" for i in range(SLOTS)), ["%08x" % w for w in slots])
            check(f"replay: empty slots after, limhi {limhi}, {extra} more", after.hex() + "\n", ["00" * 2816])
            high, low = by_gain
            boxes = [(1, low), (2, high), (3, high), (4, low), (60, high), (61, low)]
            check(f"replay: counts, limhi {limhi}, {extra} more", without_packets(output),
                  [accepted(0, 0, b"limhi %x" % limhi)] + closed(0, 0, 0) + ["event 0"] * (SLOTS + extra)
                  + closed(1, SLOTS + extra, SLOTS, boxes, sample_counts=(SLOTS + extra, h, dropped)) + closed(2, 0, 0))


def sample_counts():
    """What became of the samples (document 02, Point 7), with junk 0 and then with junk 1 and LIMHI 3."""
    # Gain 0 is box 7 with priority 1; by Klo gain 1 has u −1: box 6 with priority 0.
    words = tables([(CELL, (128 + 7) << 16), (KLO, 65537)])
    high, low = event(), event(high=4095)
    # 704 in the slots. Of 8 after them 5 have priority 1: 3 replace, 2 and the 3 of priority 0 are dropped.
    events = high * 400 + low * 304 + event(flags=0) + low * 2 + high * 4 + low + high
    boxes = [(2, 405), (3, 405), (4, 307), (5, 1), (6, 307), (7, 405)]
    output = run("replay", line(b"junk 1") + line(b"limhi 3") + events + close() + events + close() + close(), words)
    check("replay: samples replaced and dropped", without_packets(output),
          [accepted(0, 0, b"junk 1"), accepted(0, 1, b"limhi 3")] + ["event 0"] * 713 + closed(0, 713, 0, boxes)
          + ["event 0"] * 713 + closed(1, 713, 704, boxes, sample_counts=(712, 3, 5)) + closed(2, 0, 0))
    outs = [bytes.fromhex(x[4:]) for x in output.splitlines() if x.startswith("out ")]
    # 712 is 2c8 hex.
    codes = "".join(outs[k][35:42].hex() + "\n" for k in (12, 25, 38))
    check("replay: their codes in the beacon packets", codes, ["00" * 7, "02c80003000500", "00" * 7])
    check("replay: their rates read back", run("replay", packet(outs[25])), ["packet 0", "beacon 1 60 1 1", "rates" + " 0" * 12 + " 712 3 5"])


# ---- readings and commands

def readings():
    ones, full = reading(*range(1, 9)), reading(*[65535] * 8)
    check("minute: 61 readings", run("minute", ones * 61 + close() + ones), ["refused 3", "0 0 0 0 0 0"])
    output = run("replay", full * 61 + close() + ones + close())
    check("replay: 61 readings", without_packets(output), ["reading 0"] * 60 + ["reading 3"] + closed(0, 0, 0) + ["reading 0"] + closed(1, 0, 0))
    outs = [bytes.fromhex(x[4:]) for x in output.splitlines() if x.startswith("out ")]
    # 60 * 65,535 is 3,932,100: e is 10, the quotient by 512 is 7,679, the code 40,960 + 7,679 - 4,096, ADFF hex.
    check("replay: totals", outs[0][11:27].hex() + "\n" + outs[13][11:27].hex() + "\n", ["adff" * 8, "".join("%04x" % n for n in range(1, 9))])


def commands():
    """32 in a frame, also those carried out at once; an empty line is none; 5 comes before 7."""
    lines = [b"junk 1", b"load 0", b"loadat 0"] + [b"hvstep %x" % n for n in range(30)]
    stream = b"".join(map(line, lines)) + line(b"") + line(b"junk 2") + close() + line(b"hv 1")
    want = [accepted(0, k, x) for k, x in enumerate(lines[:32])] + [refused(7, lines[32])]
    want += [answered(0, b"SIT> "), refused(5, b"junk 2")] + closed(0, 0, 0) + [accepted(1, 0, b"hv 1")]
    check("replay: 33 commands", without_packets(run("replay", stream)), want)
    stream = b"".join(map(filled_line, lines)) + filled_line(b"") + filled_line(b"junk 2") + close() + filled_line(b"hv 1")
    check("minute: 33 commands", run("minute", stream), ["refused 7", "refused 5", "0 0 0 0 0 0"])


def zero_bytes():
    """minute's line ends before its first zero byte; to replay a zero byte is a byte as any other."""
    e = event(flags=0)
    # Eonly 1 from the close on, and not Eonly 0, which stands behind a zero byte.
    stream = filled_line(b"eonly 1\0eonly 0") + e + close() + e + close()
    check("minute: bytes behind a zero", run("minute", stream), ["0 1 1 0 0 0", "1 1 0 0 1 0"])
    check("minute: a zero first", run("minute", filled_line(b"\0junk 1") + close()), ["0 0 0 0 0 0"])
    check("minute: 80 bytes", run("minute", filled_line(b"x" * 80) + filled_line(b"junk\t1") + filled_line(b"junk 1 ")), ["refused 5", "refused 4", "refused 5"])
    stream = line(b"junk 1") + line(b"junk 1\0") + line(b"\0") + line(b"x" * 80) + line(b"x" * 81) + line(b"~\x7f")
    first, last = b"0000 junk 1\r\nSIT> ", b"x" * 80 + b"?\r\nSIT> "
    check("replay: lines with other bytes", run("replay", stream),
          [answered(n, text) for n, text in ((0, first), (4, first), (4, first), (5, last), (4, last), (4, last))])


def long_bodies():
    zeros = echo(b"")
    most = bytes(range(256)) * 246 + bytes(9)
    check("replay: bodies of 65,535 bytes", run("replay", line(b" " * 65535) + counted(5, b"\xff\xfd" + bytes(65533)) + packet(bytes(65535)) + event()),
          [answered(4, b""), "package 9 " + zeros, "packet 11", "event 0"])
    check("replay: staging filled", run("replay", package(most) + package(b"") + package(b"a")),
          ["package 0 " + echo(package_echo(0, TABLE_BYTES)), "package 0 " + echo(package_echo(TABLE_BYTES, 0)), "package 9 " + echo(package_echo(TABLE_BYTES, 0))])


# ---- loads

# Box 60, priority 1 and beacon 3, in the cell that events go to: the sum of these bytes is 191, bf hex.
LOADED = bytes([128 + 60, 3, 0])
ASK, COMMIT = b"ask %x 0" % CELL, b"commit %x 0 bf" % CELL
PLACED = "package 0 " + echo(package_echo(0, 3))
BAD = "package 10 " + echo(sum_error_echo(0, 3, 192, 191))
# The close of frame 1, after one event.
AFTER_COMMIT = closed(1, 1, 1, [(2, 1), (3, 1), (60, 1)], [(3, 1)])


def loads():
    """A commit runs at close, behind the packets, and blocks packages and lines about staging until then."""
    stream = event() + package(LOADED) + line(COMMIT) + event() + package(b"a") + line(b"load 0") + close() + event() + line(COMMIT) + close()
    committed = accepted_echo(0, 0, COMMIT)
    output = run("replay", stream)
    check("replay: a commit at close", without_packets(output),
          ["event 0", PLACED, answered(0, committed), "event 0", "package 6 " + echo(committed), refused(6, b"load 0")]
          + closed(0, 2, 0, [(1, 2), (3, 2), (7, 2)]) + ["event 0", refused(5, COMMIT)] + AFTER_COMMIT)
    outs = [bytes.fromhex(x[4:]) for x in output.splitlines() if x.startswith("out ")]
    check("replay: table sums before and after", outs[0][264:267].hex() + "\n" + outs[13][264:267].hex() + "\n", ["000000", LOADED.hex()])


def asks():
    """An ask is answered with the sum of the staged bytes; a commit needs that sum (document 02, Point 4)."""
    stream = package(LOADED) + line(ASK) + line(COMMIT) + close() + event() + close()
    check("replay: package, ask, commit, close", without_packets(run("replay", stream)),
          [PLACED, accepted(0, 0, ASK, 191), accepted(0, 1, COMMIT)] + closed(0, 0, 0) + ["event 0"] + AFTER_COMMIT)
    more, less = b"commit %x 0 c0" % CELL, b"commit %x 0 be" % CELL
    check("replay: a commit of another sum", run("replay", package(LOADED) + line(more) + line(less) + line(b"hv 1") + line(COMMIT)),
          [PLACED, refused(16, more), refused(16, less), accepted(0, 0, b"hv 1"), accepted(0, 1, COMMIT)])
    lines = [ASK, COMMIT, more, b"load 0", b"loadat 0", b"ask 6fff 0", b"load %x 0" % CELL]
    check("replay: lines while a commit waits", run("replay", package(LOADED) + line(COMMIT) + b"".join(map(line, lines))),
          [PLACED, accepted(0, 0, COMMIT)] + [refused(6, x) for x in lines[:5]] + [refused(5, x) for x in lines[5:]])
    # 62,985 bytes of 255: 16,061,175 is f512f7 hex.
    most = [b"ask 7000 0", b"commit 7000 0 f512f6", b"commit 7000 0 f512f8", b"commit 7000 0 f512f7"]
    check("replay: the largest sum", run("replay", package(b"\xff" * TABLE_BYTES) + b"".join(map(line, most))),
          ["package 0 " + echo(package_echo(0, TABLE_BYTES)), accepted(0, 0, most[0], 16061175)]
          + [refused(16, x) for x in most[1:3]] + [accepted(0, 1, most[3])])
    lines = (ASK, COMMIT, b"commit 7000 0 0", b"load 7000 0", b"load 0", b"loadat 0", b"loadat 1")
    check("minute: nothing is staged", run("minute", b"".join(map(filled_line, lines))), ["refused 5"] * 5)


def bad_bytes():
    """While a staged byte is bad an ask and a commit are 15, until a package with a right sum has written it again."""
    asked = line(ASK) + line(COMMIT)
    check("replay: a package whose sum is wrong", run("replay", package(LOADED, 1) + asked), [BAD, refused(15, ASK), refused(15, COMMIT)])
    again = line(b"loadat 0") + package(LOADED) + asked + close() + event() + close()
    check("replay: a bad package sent again", without_packets(run("replay", package(LOADED, 1) + again)),
          [BAD, accepted(0, 0, b"loadat 0"), PLACED, accepted(0, 1, ASK, 191), accepted(0, 2, COMMIT)] + closed(0, 0, 0) + ["event 0"] + AFTER_COMMIT)
    # The last byte stays bad; then it is written again.
    part = line(b"loadat 0") + package(LOADED[:2]) + asked + package(LOADED[2:]) + asked
    check("replay: a bad package sent again in two parts", run("replay", package(LOADED, 1) + part),
          [BAD, accepted(0, 0, b"loadat 0"), "package 0 " + echo(package_echo(0, 2)), refused(15, ASK), refused(15, COMMIT),
           "package 0 " + echo(package_echo(2, 1)), accepted(0, 1, ASK, 191), accepted(0, 2, COMMIT)])
    # Of no bytes: sets no bit. After a reset: the bytes beyond the reach may be bad.
    stream = package(LOADED, 1) + line(b"load 0") + package(LOADED[:2]) + package(b"", 1) + line(b"ask 7000 0")
    check("replay: bad bytes beyond the reach", run("replay", stream),
          [BAD, accepted(0, 0, b"load 0"), "package 0 " + echo(package_echo(0, 2)), "package 10 " + echo(sum_error_echo(2, 0, 1, 0)),
           accepted(0, 1, b"ask 7000 0", 191)])


# ---- packets

def packets():
    """The packets of a close, read back."""
    stream = line(b"limhi 2c0") + line(b"hvstep a5") + line(b"toferror 1") + close(7) + event() + reading(*range(8)) + close(0x01020304)
    outs = [bytes.fromhex(x[4:]) for x in run("replay", stream, SORTED).splitlines() if x.startswith("out ")][13:]
    want = ["packet 0", "rate 1 16909060 1 1", "rates 0 1 2 3 4 5 6 7 0 1 1" + " 0" * 56 + " 1" + " 0" * 56,
            "settings 165 0 0 1 0 704 %d" % (((128 + 60 + 61) << 16) + 65536 & 0xFFFFFF)]
    slot = "%08x" % record(0, 0, 0, 60, 1)
    for p in range(11):
        want += ["packet 0", f"sample 1 16909060 1 {p}", "records " + (slot if p == 0 else "00000000") + "00" * 252]
    want += ["packet 0", "beacon 1 16909060 1 1", "rates" + " 0" * 12 + " 1 0 0"]
    check("replay: packets read back", run("replay", b"".join(map(packet, outs))), want)
    rate = bytearray(outs[0])
    rate[271] ^= 1
    check("replay: a wrong sum, no header, a fault", run("replay", packet(bytes(rate)) + packet(outs[0][:-1]) + packet(b"") + packet(fault(outs[0]))),
          ["packet 12", "packet 11", "packet 11", "packet 13"])


def fault(rate):
    """Byte 259 of a rate packet has no use; the sum is made right again."""
    b = bytearray(rate)
    b[259] += 1
    return with_sum(b)


# Each code with its least count in the first edition and in the second (document 02, Point 5); None where no count has it.
EDGE_CODES = {0x0FFF: (4095, 4095), 0x1000: (None, 4096), 0x17FF: (None, 6143), 0x1800: (4096, 6144), 0x8E84: (3716 * 256, 999936),
              0x8F42: (999936, (3906 + 4096) * 128), 0xCFFF: (4095 * 4096, 8191 * 2048), 0xD000: (None, None), 0xFFFF: (None, None)}


def beacon(code, mark):
    """A beacon packet of time 60 and frame 0 with fifteen rates of one code: 624 is 270 hex."""
    head = bytes.fromhex("0a70c00001090000003c00") + code.to_bytes(2, "big") * 15
    return changed(head.ljust(272, b"\0"), 269, mark)


def editions():
    """The mark says by which edition codes are judged and read; aboard the second alone is written."""
    cases = [(code, mark) for code in EDGE_CODES for mark in (0, 1, 2, 3, 255)]
    want = []
    for code, mark in cases:
        least = EDGE_CODES[code][min(mark, 1)] if mark < 3 else None
        want += ["packet 13"] if least is None else ["packet 0", f"beacon 0 60 0 {mark}", "rates" + f" {least}" * 15]
    check("replay: codes under each mark", run("replay", b"".join(packet(beacon(*c)) for c in cases)), want)
    output = run("replay", event() * 4099 + close(), SORTED)
    outs = [bytes.fromhex(x[4:]) for x in output.splitlines() if x.startswith("out ")]
    # 4,099 in boxes 2, 3 and 60: 1003 hex.
    boxes = bytes.fromhex("0000 1003 1003").ljust(2 * 59, b"\0") + bytes.fromhex("1003")
    check("replay: the second edition aboard", (outs[0][27:27 + 2 * 60].hex() + f" {outs[0][269]} {outs[12][269]}\n"), [boxes.hex() + " 1 1"])
    # 4,099 are eligible, of priority 1: 500 replace, 4,099 - 704 - 500 = 2,895 are dropped.
    check("replay: the second edition in the beacon packet", outs[12][11:42].hex() + "\n", ["00" * 24 + "1003" + "01f4" + "0b4f" + "00"])
    # In the first edition 1003 hex is no code: it has s 1 and a quotient below 2,048.
    check("replay: the same under mark 0", run("replay", packet(changed(outs[0], 269, 0)) + packet(changed(outs[12], 269, 0))), ["packet 13"] * 2)
    # Byte 41 of a beacon packet has no use.
    cases = [(beacon(0x0FFF, mark), at, 1) for mark in (0, 1, 2) for at in (35, 40, 41, 266)]
    cases += [(beacon(0x1800, 0), 39, 0x17), (beacon(0x1800, 1), 39, 0xD0)]
    got = [x for x in run("replay", b"".join(packet(changed(*c)) for c in cases)).splitlines() if x.startswith("packet")]
    check("replay: bytes 35 to 41 of a beacon packet", "".join(x + "\n" for x in got), (["packet 0"] * 2 + ["packet 13"] * 2) * 3 + ["packet 13"] * 2)


def to_second(body):
    return counted(10, body)


def to_first(body):
    return counted(11, body)


# The first edition's code, and the second's of the same least count: 0, 4,095, 4,096, 2,049 x 2, 999,936 and 4,095 x 4,096.
SAME_COUNT = {0x0000: 0x0000, 0x0FFF: 0x0FFF, 0x1800: 0x1000, 0x1801: 0x1002, 0x8F42: 0x8E84, 0xCFFF: 0xCFFE}


def conversions():
    """From one edition to the other (document 02, Point 6): each rate's least count stays, or the packet is refused."""
    stream, want = b"", []
    for first, second in SAME_COUNT.items():
        stream += to_second(beacon(first, 0)) + to_first(beacon(second, 2)) + to_first(beacon(second, 1))
        want += ["second 0", "out " + beacon(second, 2).hex()] + ["first 0", "out " + beacon(first, 0).hex()] * 2
    check("replay: the same counts in the other edition", run("replay", stream), want)
    odd = [0x1001, 0x8E85, 0xCFFF]
    check("replay: counts that the first edition has not", run("replay", b"".join(to_first(beacon(c, m)) for c in odd for m in (1, 2))), ["first 17"] * 6)
    # A beacon packet of one odd code among even ones, and a fault before it.
    one = changed(changed(beacon(0x1000, 1), 33, 0x10), 34, 1)
    last = changed(beacon(0x1000, 1), 40, 1)
    good, sample = beacon(0x1800, 0), with_sum(bytes.fromhex("0a5ec00001090000003c00").ljust(272, b"\0"))
    cases = [(one, 13, 17), (last, 13, 17), (changed(one, 270, 1), 13, 13), (changed(last, 41, 1), 13, 13), (sample, 13, 13), (good, 0, 13),
             (beacon(0x1000, 1), 13, 0), (beacon(0x1000, 2), 13, 0), (beacon(0x1000, 3), 13, 13), (beacon(0x1000, 0), 13, 13), (beacon(0xD000, 2), 13, 13),
             (good[:-1], 11, 11), (b"", 11, 11), (changed(good, 1, 0x52), 11, 11), (good[:-1] + bytes([good[-1] ^ 1]), 12, 12)]
    got = [x for x in run("replay", b"".join(to_second(p) + to_first(p) for p, _, _ in cases)).splitlines() if not x.startswith("out ")]
    check("replay: what is not converted", "".join(x + "\n" for x in got), [x for _, s, f in cases for x in (f"second {s}", f"first {f}")])


# ---- listing packets (document 02, Point 1)

WORDS = bytes(i * 7 % 251 for i in range(TABLE_BYTES))


def listed(i, words, time=60, frame=0):
    """Packet i: 594 is 252 hex; three zeros, the frame, the address, 84 words or, in the last, 79 and zeros."""
    head = bytes.fromhex("0a52") + (3 << 14 | frame).to_bytes(2, "big") + bytes.fromhex("0109") + time.to_bytes(4, "big") + b"\0"
    place = bytes(3) + frame.to_bytes(2, "big") + (0x7000 + 84 * i).to_bytes(3, "big")
    return with_sum((head + place + words[252 * i:252 * (i + 1)]).ljust(272, b"\0"))


def changed(data, at, value):
    """The packet with another byte, and its sum made right again."""
    return with_sum(data[:at] + bytes([value]) + data[at + 1:])


def listings():
    """Packets of the tables, of the interval's frame and the time that is given; i over 249 is none of them."""
    stream = listing(0) + listing(249, 0x01020304) + listing(250) + listing(65535) + close() + listing(7)
    want = ["listing 0", "out " + listed(0, WORDS).hex(), "listing 0", "out " + listed(249, WORDS, 0x01020304).hex(), "listing 14", "listing 14"]
    after = ["listing 0", "out " + listed(7, WORDS, frame=1).hex()]
    output = run("replay", stream, WORDS).splitlines()
    check("replay: listings", "\n".join(output[:6] + output[-2:]) + "\n", want + after)
    words = bytes.fromhex("c07f01")
    stream = package(words) + line(b"commit 7000 0 140") + listing(0) + close() + listing(0)
    got = [x for x in run("replay", stream, WORDS).splitlines() if x.startswith("out 0a52")]
    check("replay: what a commit left aboard", "\n".join(got) + "\n",
          ["out " + listed(0, WORDS).hex(), "out " + listed(0, words + WORDS[3:], frame=1).hex()])


def gathers():
    """All 250 packets, last first and each twice, then a fresh gatherer; and what is refused."""
    packets = [listed(i, WORDS, time=i, frame=i) for i in reversed(range(250))]
    stream = b"".join(gather(p) * 2 for p in packets) + GATHERED + GATHERED
    want = [f"gather 0 {left}" for left in reversed(range(250)) for _ in (1, 2)]
    check("replay: a table gathered", run("replay", stream), want + ["gathered 0 " + WORDS.hex(), "gathered 250 " + "00" * TABLE_BYTES])
    first, last = listed(0, WORDS), listed(249, WORDS)
    wrong = [(b"", 11), (first[:-1], 11), (first + b"\0", 11), (changed(first, 1, 0x5D), 11), (changed(first, 10, 1), 11),
             (first[:-1] + bytes([first[-1] ^ 1]), 12), (changed(first, 18, 1), 14), (changed(changed(last, 17, 0xC2), 18, 0x08), 14),
             (changed(changed(first, 18, 1), 11, 1), 14), (changed(first, 11, 1), 13), (changed(first, 13, 1), 13), (changed(last, 256, 1), 13),
             (changed(last, 270, 1), 13), (changed(last, 255, 1), 0)]
    want = [f"gather {n} {249 if n == 0 else 250}" for _, n in wrong]
    check("replay: packets that are not gathered", run("replay", b"".join(gather(p) for p, _ in wrong)), want)
    check("replay: a listing packet is not read", run("replay", packet(first)), ["packet 11"])


# ---- the example that README shows

def example():
    """README's first command runs minute in example/; README shows what it prints."""
    with open(os.path.join(HERE, "..", "example", "tables.bin"), "rb") as f:
        data = f.read()
    with open(os.path.join(HERE, "..", "example", "stdin"), "rb") as f:
        stream = f.read()
    with open(os.path.join(HERE, "..", "README.md"), encoding="utf-8") as f:
        shown = f.read().split("prints\n\n    ")[1].split("\n")[0]
    check("minute: README's example", run("minute", stream, data), [shown])


def session():
    """README's session of a load: the records of example/load.py through replay, taken apart as README does."""
    folder = os.path.join(HERE, "..", "example")
    records = subprocess.run([sys.executable, "load.py"], cwd=folder, capture_output=True, check=True).stdout
    with open(os.path.join(folder, "tables.bin"), "rb") as f:
        data = f.read()
    with open(os.path.join(HERE, "..", "README.md"), encoding="utf-8") as f:
        text = f.read()
    shown = text[text.index("    package 0\n"):text.index("The ask returned the sum")].split("\n")
    picked = []
    for line in run("replay", records, data).splitlines():
        words = line.split(" ")
        if words[0] in ("package", "close", "listing"):
            picked.append(" ".join(words[:2]))
        elif words[0] == "line":
            picked.append(" ".join((words[0], words[1], words[3])))
        elif line.startswith("out 0a52"):
            picked.append(line[:60])
    check("replay: README's load", "".join(line + "\n" for line in picked), [line.strip() for line in shown if line.strip()])


# ---- states and slots handed in

# The entries of the state's layout: limhi 0 where nothing waits.
EMPTY = ((0, 0, 0),)


def entries(*first):
    return (*first, *EMPTY * (32 - len(first)))


def states():
    """What was handed in is shown again; a call changes it as it changes any state."""
    check("replay: a fresh state", run("replay", SHOW), ["state " + "0" * 1124 + "01f4" + "0" * 428])
    check("replay: eligible comes last", run("replay", handed(eligible=0x01020304) + SHOW)[-17:], ["0000000001020304"])
    odd = dict(frame=0x1234, taken=9, boxes=tuple(range(10)) + (0,) * 106, beacons=(9,) * 12, used=7, replaced=8, readings=2, totals=(131070,) * 8,
               settings=Settings(704, 1, 0, 1, 0, 255), accepted=5, waits=2, entries=entries((5, 255, 0), (255, 0x7000, 2), (4, 65535, 0)), next=3, reach=4,
               eligible=6)
    check("replay: every field", run("replay", handed(**odd) + SHOW), ["state", shown(**odd)])
    beyond = {**odd, "taken": 2**32 - 1, "used": 2**32 - 1, "accepted": 2**32 - 1, "waits": 2**32 - 1, "next": 2**32 - 1, "reach": 0}
    calls = event(512) + reading(*[1] * 8) + line(b"\t") + package(b"a") + close() + listing(250)
    check("replay: a state beyond its limits", run("replay", handed(**beyond) + calls + SHOW),
          ["state", "event 1", "reading 1", answered(1, b""), "package 1 " + echo(b""), "close 1", "listing 1", shown(**beyond)])
    # Of a record whose flag byte is over 15 no call is made.
    check("replay: a flag byte over 15", run("replay", handed(**beyond) + event(flags=16) + SHOW), ["state", "event 2", shown(**beyond)])
    # Other flags are ignored, and y of a setting.
    data = bytearray(state_bytes(State()))
    data[564], data[579] = 15, 99
    check("replay: bits of no use", run("replay", b"\x14" + bytes(data) + SHOW), ["state", shown()])
    stream = handed(frame=65535, accepted=1, entries=entries((255, 9, 9), (1, 9, 0))) + line(b"hvstep 7") + SHOW + close() + SHOW
    waits = dict(frame=65535, accepted=2, waits=1, entries=entries((5, 7, 0), (1, 9, 0)))
    check("replay: a command waits, and a close empties the entries", without_packets(run("replay", stream)),
          ["state", accepted(65535, 1, b"hvstep 7"), shown(**waits)] + closed(65535, 0, 0) + [shown(settings=Settings(hvstep=7))])


def no_states():
    """A kind that is none, or a setting's value over 65,535, is a bad record; so are slots of another length."""
    for at, value in ((574, 6), (574, 254), (574 + 6 * 31, 7), (575, 1), (576, 1), (575 + 6 * 31, 255)):
        data = changed(state_bytes(State()), at, value)
        check(f"replay: byte {at} of a state is {value}", run("replay", event() + b"\x14" + data + SHOW), ["event 0", "bad record"])
    for n in (0, 1, 2812, 2815, 2817, 2820, 65535):
        check(f"replay: slots in {n} bytes", run("replay", counted(22, bytes(n)) + SHOW), ["bad record"])


# A state, and the number of an event's call.
LIMITS = [
    (dict(taken=999999), 0), (dict(taken=1000000), 3), (dict(taken=1000001), 1),
    (dict(taken=5, boxes=(5,) * 116), 0), (dict(taken=5, boxes=(0,) * 115 + (6,)), 1),
    (dict(taken=5, beacons=(5,) * 12), 0), (dict(taken=5, beacons=(0,) * 11 + (6,)), 1),
    (dict(taken=5, used=5), 0), (dict(taken=5, used=6), 1), (dict(taken=999, used=704), 0), (dict(taken=999, used=705), 1),
    (dict(taken=5, replaced=5), 0), (dict(taken=5, replaced=6), 1), (dict(taken=5, eligible=5), 0), (dict(taken=5, eligible=6), 1),
    (dict(readings=60), 0), (dict(readings=61), 1), (dict(readings=1, totals=(65535,) * 8), 0), (dict(readings=1, totals=(0,) * 7 + (65536,)), 1),
    (dict(accepted=32), 0), (dict(accepted=33), 1), (dict(accepted=32, waits=32), 0), (dict(accepted=31, waits=32), 1),
    (dict(next=9, reach=9), 0), (dict(next=10, reach=9), 1), (dict(reach=62985), 0), (dict(reach=62986), 1),
    (dict(settings=Settings(704)), 0), (dict(settings=Settings(705)), 1),
] + [(dict(accepted=1, waits=waits, entries=entries((kind, most + more, 0))), waits * more)
     for kind, most in enumerate((704, 1, 1, 1, 1, 255)) for more in (0, 1) for waits in (0, 1)] + [
    (dict(accepted=1, waits=1, reach=reach, entries=entries((255, a, y))), number)
    for a, y, reach, number in ((0x7000, 0, 1, 0), (0x7000, 0, 0, 1), (0x6FFF, 0, 1, 1), (0xC202, 0, 3, 0), (0xC202, 0, 4, 1), (0x7000, 3, 1, 1))] + [
    (dict(accepted=2, waits=waits, reach=3, entries=entries((255, 0x7000, 0), (255, 0xC202, 0))), number) for waits, number in ((1, 0), (2, 1))]


def limits():
    """Each limit of document 01, met and passed."""
    for fields, number in LIMITS:
        check(f"replay: an event, {fields}", run("replay", handed(**fields) + event(flags=0)), ["state", f"event {number}"])


def handed_slots():
    """A close counts the slots that are not zero, and is refused if one is of no box from 6 to 116."""
    right = [record(1, 1, 0, 6, 0), record(511, 2047, 1, 116, 1)]
    output = run("replay", slots(*right) + close() + close())
    check("replay: two slots", without_packets(output), ["slots"] + closed(0, 0, 2, sample_counts=(0, 0, 0)) + closed(1, 0, 0))
    check("replay: their packet", output.splitlines()[5][26:42] + "\n", ["".join(f"{w:08x}" for w in right)])
    for wrong in (1, record(1, 1, 0, 5, 1), record(1, 1, 0, 117, 0), 0xFFFFFFFF):
        check(f"replay: slot {wrong:08x}", run("replay", slots(0, wrong) + event() + close()), ["slots", "event 0", "close 1"])


def handed_numbers():
    """Numbers that are handed in have no events: dropped is eligible less filled less replaced, and 0 where that is less than 0."""
    for eligible, filled, replaced, dropped in ((5, 7, 0, 0), (5, 3, 1, 1), (5, 3, 2, 0), (5, 3, 3, 0), (9, 0, 4, 5), (0, 704, 0, 0)):
        stream = handed(taken=9, eligible=eligible, replaced=replaced) + slots(*[record(1, 1, 0, 60, 1)] * filled)
        check(f"replay: {eligible} eligible, {filled} filled, {replaced} replaced", without_packets(run("replay", stream + close() + close())),
              ["state", "slots"] + closed(0, 9, filled, sample_counts=(eligible, replaced, dropped)) + closed(1, 0, 0))
    # 703 filled, 499 replaced and 98 dropped; then one event fills the last slot, one replaces, two are dropped.
    begun = dict(taken=1300, used=703, replaced=499, eligible=1300)
    stream = handed(**begun) + slots(*[record(1, 1, 0, 60, 1)] * 703) + event() * 2 + event(high=4095) + event() + SHOW + close()
    counts = [(1, 1), (2, 3), (3, 3), (4, 1), (60, 3), (61, 1)]
    boxes = [0] * 116
    for at, count in counts:
        boxes[at - 1] = count
    check("replay: events after a state", without_packets(run("replay", stream, SORTED)), ["state", "slots"] + ["event 0"] * 4
          + [shown(taken=1304, used=704, replaced=500, eligible=1304, boxes=tuple(boxes))] + closed(0, 1304, 704, counts, sample_counts=(1304, 500, 100)))


# ---- many closes, and input in pieces

def frames():
    check("minute: 65,537 closes", run("minute", close() * 65537), [f"{k % 65536} 0 0 0 0 0" for k in range(65537)])


def pieces():
    """The input may come in pieces of any size. 32 commands, 60 readings and 62,985 bytes of packages are taken."""
    stream, want, staged = b"", [], 0
    for k in range(700):
        text = b"junk %x" % (k % 2)
        stream += event(k % 512) + line(text) + package(bytes(k)) + reading(*[k] * 8)
        reply = accepted_echo(0, k, text) if k < 32 else refused_echo(text)
        answer = answered(0 if k < 32 else 7, reply)
        fits = staged + k <= TABLE_BYTES
        # A package that does not fit leaves the line's echo.
        placed = "package 0 " + echo(package_echo(staged, k)) if fits else "package 9 " + echo(reply)
        staged += k if fits else 0
        want += ["event 0", answer, placed, "reading 0" if k < 60 else "reading 3"]
    for n in (1, 3, 131071):
        sizes = [n] * min(3000, len(stream) // n)
        check(f"replay: pieces of {n}", run("replay", stream, pieces=sizes), want)
    check("replay: a cut stream", run("replay", stream[:-1], pieces=[4096] * 10), want[:-1] + ["bad record"])


def pieces_of_minute():
    """The same of minute: 300 closes, each after as many events as its frame's number, all discarded."""
    stream = b"".join(event(flags=0) * k + filled_line(b"hvstep 1") + close() for k in range(300))
    for n in (1, 3, 131071):
        check(f"minute: pieces of {n}", run("minute", stream, pieces=[n] * min(3000, len(stream) // n)), [f"{k} {k} {k} 0 0 0" for k in range(300)])


# ---- standard input that is held open, reads and writes that fail

PROGRAMS = ("minute", "replay")
# An event that is discarded, and the close after it.
INTERVAL = event(flags=0) + close()


def interval(program, frame):
    """What an interval prints, and how many lines of packets follow."""
    if program == "minute":
        return [f"{frame} 1 1 0 0 0"], 0
    return ["event 0"] + closed(frame, 1, 0, [(5, 1)]), 13


def held_open():
    """A line comes when its call is carried out, while the input is held open, also behind a part of the next record."""
    for program in PROGRAMS:
        # Each piece ends with the first bytes of the record behind it.
        for cut in (0, 1, 5):
            next_bytes = event(flags=0)[:cut]
            with folder(tables()) as room, subprocess.Popen([BIN + "/" + program], cwd=room, stdin=subprocess.PIPE, stdout=subprocess.PIPE, bufsize=0) as p:
                for frame in range(3):
                    p.stdin.write((INTERVAL if frame == 0 else INTERVAL[cut:]) + next_bytes)
                    want, more = interval(program, frame)
                    got = lines_now(p.stdout, len(want) + more)
                    check(f"{program}: held open, cut at {cut}, close {frame}", without_packets(got), want)
                p.stdin.write(event(flags=16)[cut:])
                want = ["refused 2"] if program == "minute" else ["event 2"]
                check(f"{program}: held open, cut at {cut}, refusal", lines_now(p.stdout, 1), want)
                p.stdin.close()
                check(f"{program}: held open, cut at {cut}, end", p.stdout.read().decode(), [])


def failed_reads():
    """A read that fails is told on standard error. What was carried out before it is printed, and no bad record."""
    for program in PROGRAMS:
        with tempfile.TemporaryDirectory() as room:
            descriptor = os.open(room, os.O_RDONLY)
            printed, line, _ = run_on(program, stdin=descriptor)
            os.close(descriptor)
        check(f"{program}: standard input is a folder", printed + line, [told(program, "read standard input", errno.EISDIR)])
        # The controlling side of a terminal fails once the other side is closed and its bytes are read.
        descriptor, other = os.openpty()
        tty.setraw(other)
        os.write(other, INTERVAL + event()[:3])
        os.close(other)
        printed, line, _ = run_on(program, stdin=descriptor)
        os.close(descriptor)
        check(f"{program}: standard input fails within a record, printed", without_packets(printed), interval(program, 0)[0])
        check(f"{program}: standard input fails within a record, told", line, [told(program, "read standard input", errno.EIO)])
        printed, line, _ = run_on(program, data="folder", input=INTERVAL)
        check(f"{program}: tables.bin is a folder", printed + line, ["refused 1", told(program, "read tables.bin", errno.EISDIR)])


def failed_writes():
    """A write that fails is told on standard error, once. A reader that has closed the pipe is not: the run ends quietly,
    also where the signal is not ignored by who starts the program, since a Rattle program itself ignores it."""
    for program in PROGRAMS:
        for what, stream, data in (("one close", INTERVAL, tables()), ("more text than one write holds", event(512) * 200000, tables()), ("no tables.bin", b"", None)):
            with open("/dev/full", "wb") as full:
                _, line, _ = run_on(program, data, input=stream, stdout=full)
            check(f"{program}: /dev/full, {what}", line, [told(program, "write standard output", errno.ENOSPC)])
        with open("/dev/full", "wb") as full:
            _, line, status = run_on(program, input=b"", stdout=full)
        check(f"{program}: /dev/full, nothing to print", line + f"{status}\n", ["0"])
        for what, ignored in (("", False), (", its signal ignored", True)):
            out, pipe = os.pipe()
            os.close(out)
            ignore = (lambda: signal.signal(signal.SIGPIPE, signal.SIG_IGN)) if ignored else None
            _, line, status = run_on(program, input=INTERVAL, stdout=pipe, preexec_fn=ignore)
            os.close(pipe)
            check(f"{program}: nobody reads{what}", line + f"{status}\n", ["0"])


def interrupted():
    """Reads and writes that a signal interrupts, and that move three bytes at most, change nothing."""
    with interrupting() as environment:
        for program in PROGRAMS:
            printed, line, status = run_on(program, input=INTERVAL * 2 + b"\xff", env=environment)
            want = interval(program, 0)[0] + interval(program, 1)[0] + ["bad record", "0"]
            check(f"{program}: interrupted, three bytes at a time", without_packets(printed) + line + f"{status}\n", want)
            printed, line, _ = run_on(program, None, input=INTERVAL, env=environment)
            check(f"{program}: interrupted, no tables.bin", printed + line, ["refused 1"])
    # More often than the text has bytes: no number of them is too many.
    with interrupting(INTERRUPTS="1000") as environment:
        for program in PROGRAMS:
            printed, line, status = run_on(program, input=b"\xff", env=environment)
            check(f"{program}: interrupted a thousand times", printed + line + f"{status}\n", ["bad record", "0"])
            printed, line, _ = run_on(program, None, input=INTERVAL, env=environment)
            check(f"{program}: interrupted a thousand times, no tables.bin", printed + line, ["refused 1"])


def moved_nothing():
    """A write that moves nothing and has no error is told, and ends the run."""
    with interrupting(MOVES_NOTHING="1") as environment:
        for program in PROGRAMS:
            printed, line, status = run_on(program, input=INTERVAL, env=environment)
            check(f"{program}: a write that moves nothing", printed + line + f"{status}\n",
                  [f"{BIN}/{program}: cannot write standard output: write zero", "0"])


for case in (start_and_end, ranges, million, columns, samples, sample_counts, readings, commands, zero_bytes, long_bodies, loads, asks, bad_bytes, packets, editions, conversions, listings, gathers, states, no_states, limits, handed_slots, handed_numbers, example, session, frames, pieces,
             pieces_of_minute, held_open, failed_reads, failed_writes, interrupted, moved_nothing):
    case()
finish()
