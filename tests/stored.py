"""Works out the stored outputs of the programs, crates/*/stdout, from documents 01 and 02 and compares them;
those of limit_cases and ground_cases come from the second implementation (compare.sh).

    python3 tests/stored.py             prints what differs; the last line is 'N passed, M failed'
    python3 tests/stored.py --write     writes them anew

No program runs here. The rules are those of paper.py, which is held to "Numbers at the edges" first. The inputs:
- replay: its stored tables.bin and stdin, which `reference/target/release/streams 5176 400 FOLDER --states` writes;
- minute: the example of document 01, which is its stored stdin;
- command_cases: command_inputs.py, which its stored stdin is compared with too;
- convert: archive.py, which its stored stdin is compared with too;
- sort_cases and packet_cases: those in their sources, repeated below.
"""
import functools
import os
import sys

import archive
import command_inputs
import paper
from paper import Event, Processor, Settings, get_numbers

CRATES = os.path.join(os.path.dirname(os.path.abspath(__file__)), "..", "crates")
counts = {"passed": 0, "failed": 0}


def stored(crate, name):
    with open(os.path.join(CRATES, crate, name), "rb") as f:
        return f.read()


def joined(*values):
    return " ".join(map(str, values))


# ---- replay: the records and answers of the program that replays a list of calls

BODY_BYTES = {1: 7, 2: 16, 4: 4, 7: 6, 9: 0, 20: paper.STATE_BYTES, 21: 0}
COUNTED = (3, 5, 6, 8, 10, 11, 22)
CONVERTERS = {10: ("second", paper.CONVERTED), 11: ("first", paper.FIRST)}


def replay_records(stream):
    """Each record as (kind, body); (None, b"") for a bad kind, or a short or a wrong body, which is the last."""
    at = 0
    while at < len(stream):
        kind, at = stream[at], at + 1
        size = BODY_BYTES.get(kind)
        if kind in COUNTED:
            # The length, 16 bits, stands before the bytes.
            size = int.from_bytes(stream[at:at + 2], "big") if at + 2 <= len(stream) else None
            at += 2
        if size is None or at + size > len(stream) or not body_right(kind, stream[at:at + size]):
            yield None, b""
            return
        yield kind, stream[at:at + size]
        at += size


def body_right(kind, body):
    """The bytes of a state are one, and slots come for all of them."""
    if kind == 20:
        return paper.state_of(body) is not None
    return kind != 22 or len(body) == 4 * paper.SLOTS


def event_of(body):
    """t, high and low, 16 bits each, and the flag byte."""
    return Event(*get_numbers(body[:6], 2), body[6])


def close_lines(c):
    if c == 1:
        return ["close 1"]
    head = [joined("close", 0, c.frame, c.taken, c.filled, *c.sample_counts), joined("boxes", *c.boxes), joined("beacons", *c.beacons)]
    return head + ["out " + p.hex() for p in c.packets]


def packet_lines(p):
    """What is printed of a packet that the reader takes, or its number alone."""
    if p.number != 0:
        return [joined("packet", p.number)]
    # A sample packet has p where the others have their mark.
    lines = ["packet 0", joined(p.kind, p.sequence, p.time, p.frame, p.p if p.kind == "sample" else p.mark)]
    if p.kind == "rate":
        s = p.settings
        settings = joined("settings", s.hvstep, s.hv, s.eonly, s.toferror, s.junk, s.limhi, p.sum)
        return lines + [joined("rates", *p.rates), settings]
    if p.kind == "beacon":
        return lines + [joined("rates", *p.beacon_rates)]
    return lines + ["records " + p.records.hex()]


def written_lines(call, answer):
    """A call that writes a packet, or answers a number."""
    return [joined(call, 0), "out " + answer.hex()] if isinstance(answer, bytes) else [joined(call, answer)]


def listing_lines(processor, body):
    return written_lines("listing", processor.listing(int.from_bytes(body[:2], "big"), int.from_bytes(body[2:], "big")))


def ground_lines(gatherer, kind, body):
    """A call on the ground, and what replay prints of its answer."""
    if kind == 6:
        return packet_lines(paper.read_packet(body))
    if kind == 8:
        return [joined("gather", gatherer.gather(body), gatherer.missing())]
    if kind in CONVERTERS:
        call, wanted = CONVERTERS[kind]
        return written_lines(call, paper.convert(body, wanted))
    lines = [joined("gathered", gatherer.missing(), gatherer.tables.hex())]
    # A fresh gatherer begins.
    gatherer.__init__()
    return lines


def handed_lines(processor, kind, body):
    """A state or slots handed in, or the state shown."""
    if kind == 21:
        return [joined("state", paper.state_bytes(processor.state()).hex())]
    state = paper.state_of(body) if kind == 20 else processor.state()
    processor.hand_in(state, get_numbers(body, 4) if kind == 22 else processor.slots_now())
    return ["state" if kind == 20 else "slots"]


def answer_lines(processor, gatherer, kind, body):
    """One call, and what replay prints of its answer."""
    if kind in (6, 8, 9, *CONVERTERS):
        return ground_lines(gatherer, kind, body)
    if kind in (20, 21, 22):
        return handed_lines(processor, kind, body)
    if kind == 1:
        return [joined("event", processor.event(event_of(body)))]
    if kind == 2:
        return [joined("reading", processor.reading(get_numbers(body, 2)))]
    if kind == 3:
        return [joined("line", processor.line(body), processor.echo.hex(), processor.sum)]
    if kind == 4:
        return close_lines(processor.close(int.from_bytes(body, "big")))
    if kind == 5:
        return [joined("package", processor.package(body), processor.echo.hex())]
    if kind == 7:
        return listing_lines(processor, body)
    return ["bad record"]


def replay_lines(tables, stream):
    """What replay prints for a tables.bin and a standard input."""
    if len(tables) != paper.TABLE_BYTES:
        return ["refused 1"]
    processor, gatherer, lines = Processor(tables), paper.Gatherer(), []
    for kind, body in replay_records(stream):
        lines += answer_lines(processor, gatherer, kind, body)
    return lines


def replay():
    return replay_lines(stored("replay", "data/tables.bin"), stored("replay", "stdin"))


# ---- minute: the example of document 01, 'The program "minute"', an event and a close

EXAMPLE = bytes.fromhex("01 00 05 00 64 00 00 00 04 00 00 00 3C")


def minute():
    # "Each close prints the ended frame, taken, boxes 5, 6, 7, filled slots"
    processor = Processor(stored("minute", "data/tables.bin"))
    processor.event(event_of(EXAMPLE[1:8]))
    c = processor.close(int.from_bytes(EXAMPLE[9:], "big"))
    return [joined(c.frame, c.taken, *c.boxes[4:7], c.filled)]


# ---- sort_cases: events under given settings, the record of document 01, and 710 records placed

# t, high, low, flags (FLG0 1, FLG1 2, error 4, valid stop 8), settings (Eonly 1, toferror 2, junk 4).
EVENTS = [
    (20, 100, 0, 8, 0),
    (20, 100, 0, 0, 0),
    (20, 100, 0, 0, 1),
    (20, 100, 0, 12, 0),
    (20, 100, 0, 15, 2),
    (5, 2047, 0, 8, 0),
    (5, 2048, 900, 8, 4),
    (5, 2048, 0, 8, 4),
    (390, 10, 0, 8, 4),
    (390, 10, 0, 8, 0),
    (300, 4095, 2047, 8, 4),
    (511, 0, 0, 8, 0),
    (512, 0, 0, 8, 0),
    (0, 4096, 0, 8, 0),
    (0, 0, 2048, 8, 0),
    (40, 1, 7, 9, 4),
]
# Record i + 1 for each i below this, of priority 1 where i is even.
PLACED = 710


def case_tables():
    """Energies and times of flight rise by a fixed step; the matrix goes through all boxes and beacons."""
    words = [524288 + 300 * i for i in range(2048)] + [500000 + 300 * i for i in range(2048)]
    words += [65536 * (i * 7 % 256) + 256 * (i % 16) + 170 for i in range(4096, 20480)]
    words += [500000 + 1000 * i for i in range(512)] + [524288, 600000, 524288]
    return paper.put_numbers(words, 3)


def event_line(tables, case):
    """Box, priority, whether it is eligible, the record, the boxes and the beacon; 2 for a field over its range.
    A discarded event has no record in document 01; the program prints the one that its box 5 would make."""
    e, bits = Event(*case[:4]), case[4]
    if not paper.in_range(e):
        return "event 2"
    settings = Settings(eonly=bits & 1, toferror=bits >> 1 & 1, junk=bits >> 2 & 1)
    s = paper.sort_event(settings, tables, e)
    beacons = [s.beacon] if s.beacon else []
    return joined("event", s.box, s.priority, int(paper.eligible(settings, s)), f"{paper.record_of(e, s):08x}",
                  "boxes", *sorted(s.boxes), "beacons", *beacons)


def slots_line(limhi):
    """How many slots are used and replaced, the first five slots and the last four."""
    slots, _, replaced = paper.place_samples([(i + 1, int(i % 2 == 0)) for i in range(PLACED)], limhi)
    return joined("slots", len(slots), replaced, *slots[:5], *slots[700:])


def sort_cases():
    tables = case_tables()
    word = paper.pack(300, 1000, 0, 0, 0, 0, 60, 1)
    return [joined("record", f"{word:08x}", *paper.unpack(word))] + [event_line(tables, e) for e in EVENTS] \
        + [slots_line(limhi) for limhi in (0, 1, 704)]


# ---- packet_cases: three packets, what the reader answers for them, and for damaged ones

TOTALS = [4095, 4096, 4097, 8191, 8192, 1000000, 16777215, 0]
SETTINGS = Settings(limhi=704, eonly=1, toferror=0, junk=1, hv=1, hvstep=201)
TABLE_SUM = 11259375
KINDS = {"none": 0, "rate": 1, "sample": 2, "beacon": 3}

# The damage: the packet cut to its first bytes; a byte changed with the sum made right (summed) or left (changed).
RATE_DAMAGE = [
    ("cut", 0), ("cut", 271),
    ("summed", 0, 42), ("summed", 0, 26), ("summed", 0, 2), ("summed", 1, 92), ("summed", 2, 128), ("summed", 5, 8),
    ("summed", 10, 1), ("summed", 3, 1), ("summed", 9, 121), ("summed", 268, 1), ("changed", 20, 1), ("changed", 271, 0),
    ("summed", 13, 23), ("summed", 13, 216), ("summed", 13, 200), ("summed", 259, 1), ("summed", 261, 209),
    ("summed", 261, 216), ("summed", 263, 193), ("summed", 269, 0), ("summed", 269, 2), ("summed", 269, 3), ("summed", 270, 1),
]
SAMPLE_DAMAGE = [
    ("summed", 1, 105), ("summed", 1, 103), ("summed", 269, 9), ("summed", 270, 1), ("summed", 14, 11),
    ("summed", 14, 234), ("summed", 14, 12), ("summed", 14, 232), ("summed", 42, 1), ("changed", 14, 0),
]
BEACON_DAMAGE = [
    ("summed", 1, 113), ("summed", 41, 1), ("summed", 266, 1), ("summed", 269, 0), ("summed", 269, 2), ("summed", 269, 3), ("summed", 270, 1),
    ("summed", 11, 255), ("summed", 35, 208), ("summed", 40, 1), ("changed", 35, 1),
]


def generated(n, seed):
    """n numbers below 2^24, each from the one before."""
    x, numbers = seed, []
    for _ in range(n):
        x = (x * 251 + 12345) % 2**24
        numbers.append(x)
    return numbers


def generated_counts(n, seed):
    return [x >> i % 24 for i, x in enumerate(generated(n, seed))]


def generated_records(n, seed):
    """Records of boxes 6 to 116, each eighth empty."""
    return [0 if i % 8 == 7 else x * 256 % 2**32 + (6 + x % 111) * 2 + x // 3 % 2 for i, x in enumerate(generated(n, seed))]


def damaged(data, how, at, value=0):
    if how == "cut":
        return data[:at]
    copy = data[:at] + bytes([value]) + data[at + 1:]
    return paper.with_sum(copy) if how == "summed" else copy


def row(*values):
    """Numbers, with a space behind each."""
    return "".join(f"{v} " for v in values)


def read_lines(data, damage):
    """The packet's bytes, all that the reader answers for it, and the number of each damaged one."""
    p = paper.read_packet(data)
    s = p.settings
    lines = [data.hex(), row(p.number, KINDS[p.kind], p.application, p.sequence, p.time, p.frame, p.sum, p.p, p.mark),
             row(s.limhi, s.eonly, s.toferror, s.junk, s.hv, s.hvstep), row(*p.rates), row(*p.beacon_rates), p.records.hex()]
    return lines + [str(paper.read_packet(damaged(data, *d)).number) for d in damage]


def packet_cases():
    rate = paper.rate_packet(0, 305419896, TOTALS, generated_counts(116, 1), SETTINGS, TABLE_SUM)
    sample = paper.sample_packet(40000, 4294967295, 10, generated_records(64, 7))
    beacon = paper.beacon_packet(65535, 60, generated_counts(12, 99) + [1000000, 704, 998592])
    return read_lines(rate, RATE_DAMAGE) + read_lines(sample, SAMPLE_DAMAGE) + read_lines(beacon, BEACON_DAMAGE)


# ---- command_cases: a line of digits for each case, a kind byte and its body

def line_case(body):
    """The reach in three bytes, and the line: whether its bytes are right, and what it is."""
    line = body[3:]
    command = paper.parse(line, int.from_bytes(body[:3], "big")) if paper.line_bytes_right(line) else None
    return f"line bytes {'ok' if paper.line_bytes_right(line) else 'wrong'}, {line_kind(line, command)}"


def line_kind(line, command):
    """What a line is, its numbers in decimal. Of an ask the word alone is printed: it keeps neither a nor y."""
    if not line:
        return "empty"
    if command is None:
        return "wrong"
    return "ask" if command[0] == "ask" else joined(*command)


def echo_line(text):
    return "echo " + paper.echo_buffer(text).hex()


def accepted_case(body):
    """The frame in two bytes, the sequence number, and the line."""
    return echo_line(paper.accepted_echo(int.from_bytes(body[:2], "big"), body[2], body[3:]))


def sum_error_case(body):
    """The address and the number of bytes, four bytes each; the received and the computed sum, two bytes each."""
    return echo_line(paper.sum_error_echo(*get_numbers(body[:8], 4), *get_numbers(body[8:12], 2)))


@functools.lru_cache
def filling(step):
    """Bytes that differ from place to place, with which the cases fill staging and tables."""
    v, data = 7, bytearray()
    for _ in range(paper.TABLE_BYTES):
        v = (3 * v + step) % 251
        data.append(v)
    return bytes(data)


@functools.lru_cache
def digest(data):
    """A number that depends on each byte and its place."""
    h = 0
    for b in data:
        h = (31 * h + b) % 65521
    return h


def package_case(body):
    """Next address and reach, three bytes each, and the package: its number; and of one that is placed the number of
    its bytes, both sums, the addresses afterwards and a digest of staging."""
    data = body[6:]
    processor = Processor(bytes(paper.TABLE_BYTES))
    processor.staging[:] = filling(5)
    processor.next, processor.reach = get_numbers(body[:6], 3)
    number = processor.package(data)
    if number in (8, 9):
        return joined("package", number)
    placed, received = paper.split_package(data)
    return joined("package", number, "placed", len(placed), "sums", received, sum(placed) % 65536, "next", processor.next,
                  "reach", processor.reach, "staging", digest(bytes(processor.staging)))


def load_case(body):
    """The address in three bytes, how to pack, the reach in three bytes: whether it is lawful, then digests of the
    tables before and after it, and its first word."""
    a, y, reach = int.from_bytes(body[:3], "big"), body[3], int.from_bytes(body[4:7], "big")
    if not paper.load_lawful(a, y, reach):
        return "load unlawful"
    tables = bytearray(filling(11))
    paper.run_load(tables, filling(5), a, y, reach)
    return joined("load lawful", digest(filling(11)), digest(bytes(tables)), "first", f"{paper.word_at(tables, a):06x}")


COMMAND_CASES = {
    1: line_case,
    2: accepted_case,
    3: lambda body: echo_line(paper.refused_echo(body)),
    4: lambda body: echo_line(paper.PROMPT),
    5: lambda body: echo_line(paper.package_echo(*get_numbers(body[:8], 4))),
    6: sum_error_case,
    7: package_case,
    8: load_case,
}


def command_cases():
    return [COMMAND_CASES[case[0]](case[1:]) for case in command_inputs.cases()]


# ---- "Numbers at the edges", to which paper.py is held

CODES = {4095: 0x0FFF, 4096: 0x1800, 4097: 0x1800, 8191: 0x1FFF, 8192: 0x2800, 1000000: 0x8F42, 16777215: 0xCFFF}
# Document 02, Point 5.
SECOND_CODES = {4095: 0x0FFF, 4096: 0x1000, 8192: 0x2000, 1000000: 0x8E84}
COLUMNS = {-1: -1, 0: 0, 3583: 0, 3584: 1, 458751: 127, 458752: 128}


def edges():
    check("rate codes", [f"{paper.first_code(n):04X}" for n in CODES], [f"{c:04X}" for c in CODES.values()])
    check("second edition", [f"{paper.second_code(n):04X}" for n in SECOND_CODES], [f"{c:04X}" for c in SECOND_CODES.values()])
    check("f_m", [str(paper.mass_column(u)) for u in COLUMNS], [str(f) for f in COLUMNS.values()])
    check("record", [f"{paper.pack(300, 1000, 0, 0, 0, 0, 60, 1):08X}"], ["963E8079"])
    check("rate header", [paper.packet_header(605, 0, 0)[:6].hex(" ").upper()], ["0A 5D C0 00 01 09"])


# ---- comparing and writing

def check(name, found, expected):
    """Two lists: prints each place where they differ."""
    differing = [k for k in range(max(len(found), len(expected))) if found[k:k + 1] != expected[k:k + 1]]
    counts["failed" if differing else "passed"] += 1
    for k in differing:
        print(f"{name}, line {k + 1}")
        print("  found     ", *found[k:k + 1])
        print("  by paper  ", *expected[k:k + 1])


def compare(crate, name, expected):
    check(f"crates/{crate}/{name}", stored(crate, name).split(b"\n"), expected.split(b"\n"))


def write(crate, name, expected):
    with open(os.path.join(CRATES, crate, name), "wb") as f:
        f.write(expected)


def text(lines):
    """Every line ends in LF."""
    return "".join(x + "\n" for x in lines).encode()


def main():
    deal = write if "--write" in sys.argv[1:] else compare
    edges()
    deal("command_cases", "stdin", text(case.hex() for case in command_inputs.cases()))
    deal("minute", "stdin", EXAMPLE)
    deal("convert", "stdin", b"".join(archive.ARCHIVE))
    deal("convert", "stdout", archive.written(archive.ARCHIVE, paper.CONVERTED))
    for program in (sort_cases, packet_cases, command_cases, minute, replay):
        deal(program.__name__, "stdout", text(program()))
    print(f"{counts['passed']} passed, {counts['failed']} failed")
    sys.exit(counts["failed"] != 0)


if __name__ == "__main__":
    main()
