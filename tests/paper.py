"""The rules of document 01, and of the points of document 02 that are named, written from their sentences, for the tests
that work out expected outputs.

An interval is kept as the list of its events, as in "The tally of demand 3": counts, slots and packets are worked out
from that list when it is closed. Sentences in quotes are the paper's.
"""
import re
from dataclasses import dataclass, field, replace
from typing import NamedTuple

TABLE_BYTES = 62985
SLOTS = 704
BOXES = 116
BEACONS = 12
# The beacon packet has three more rates (document 02, Point 7).
BEACON_RATES = BEACONS + 3


def put_numbers(numbers, size):
    # "Multi-byte numbers go most significant byte first."
    return b"".join(n.to_bytes(size, "big") for n in numbers)


def get_numbers(data, size):
    return [int.from_bytes(data[i:i + size], "big") for i in range(0, len(data), size)]


# ---- "The lookup tables"

HIGH_ENERGY, LOW_ENERGY, MATRIX, TIME_OF_FLIGHT = 0x7000, 0x7800, 0x8000, 0xC000
K_HIGH, K_LOW, K_TOF = 0xC200, 0xC201, 0xC202
FIRST_WORD, LAST_WORD = HIGH_ENERGY, K_TOF


def word_at(tables, address):
    # "word address a is at byte 3 × (a − 7000 hex)"
    at = 3 * (address - FIRST_WORD)
    return int.from_bytes(tables[at:at + 3], "big")


def table_sum(tables):
    # "sum of all table words modulo 2^24"
    return sum(get_numbers(tables, 3)) % 2**24


# ---- "One event"

@dataclass(frozen=True)
class Settings:
    # "Fresh: .. LIMHI 500, all other settings 0."
    limhi: int = 500
    eonly: int = 0
    toferror: int = 0
    junk: int = 0
    hv: int = 0
    hvstep: int = 0


class Event(NamedTuple):
    """The flag byte is that of the program "minute": FLG0 1, FLG1 2, error 4, valid stop 8."""
    t: int
    high: int
    low: int
    flags: int

    def flag(self, value):
        return int(self.flags & value != 0)


FLG0, FLG1, ERROR, VALID_STOP = 1, 2, 4, 8


def in_range(e):
    # "time-of-flight channel t 0 to 511, high channel 0 to 4095, low channel 0 to 2047"; "a flag byte over 15 is refused".
    return e.t <= 511 and e.high <= 4095 and e.low <= 2047 and e.flags <= 15


class Sorted(NamedTuple):
    """What rules 1 to 5 make of an event: its own box, its priority, the beacon (0 for none), every box that counts."""
    box: int
    priority: int
    beacon: int
    boxes: tuple


def mass_column(u):
    # "f_m is now floor(u / 3,584)" (document 02, Point 2). Python's // goes towards minus infinity, as the paper's floor.
    return u // 3584


def energy_column(ktof, tof):
    # "f_e = floor((Ktof + 360,448 − T) / 4,096)"
    return (ktof + 360448 - tof) // 4096


def gain_of(e):
    """Rule 2: "High channel ≤ 2047: gain 0 .. Otherwise gain 1"."""
    return int(e.high > 2047)


def channel_of(e):
    return e.low if gain_of(e) else e.high


def columns(tables, e):
    """Rules 2 and 3: both columns."""
    energies, offset = (LOW_ENERGY, K_LOW) if gain_of(e) else (HIGH_ENERGY, K_HIGH)
    energy, k = word_at(tables, energies + channel_of(e)), word_at(tables, offset)
    tof, ktof = word_at(tables, TIME_OF_FLIGHT + e.t), word_at(tables, K_TOF)
    return mass_column(energy - k + tof - ktof + 65536), energy_column(ktof, tof)


def discarded(settings, e):
    """Rule 1: "No valid stop with Eonly 0, or error set with toferror 0"."""
    return (not e.flag(VALID_STOP) and not settings.eonly) or (e.flag(ERROR) and not settings.toferror)


def sort_event(settings, tables, e):
    """Rules 1 to 5."""
    if discarded(settings, e):
        return Sorted(5, 0, 0, (5,))
    gain_box = 3 + gain_of(e)
    f_m, f_e = columns(tables, e)
    if not (0 <= f_m <= 127 and 0 <= f_e <= 127):
        return Sorted(6, 0, 0, (gain_box, 6))
    first, second, _ = word_at(tables, MATRIX + 128 * f_m + f_e).to_bytes(3, "big")
    # "Its box b is used if 7 to 116, else 7."
    box = first % 128 if 7 <= first % 128 <= BOXES else 7
    priority = first // 128
    beacon = second if second <= BEACONS else 0
    return Sorted(box, priority, beacon, (1 + priority, gain_box, box))


def eligible(settings, s):
    # "boxes 8 to 116 are eligible; boxes 6 and 7 only with junk 1"
    return s.box >= 8 or s.box in (6, 7) and settings.junk == 1


def pack(t, channel, flg0, flg1, gain, error, box, priority):
    # "Record from bit 31 down: t 9 bits, channel used 11, FLG0, FLG1, gain, error, box 7, priority."
    word = 0
    for value, bits in ((t, 9), (channel, 11), (flg0, 1), (flg1, 1), (gain, 1), (error, 1), (box, 7), (priority, 1)):
        word = word << bits | value
    return word


def unpack(word):
    """The fields of a record, in the order of `pack`."""
    values = []
    for bits in (1, 7, 1, 1, 1, 1, 11, 9):
        values.insert(0, word % 2**bits)
        word >>= bits
    return values


def record_of(e, s):
    return pack(e.t, channel_of(e), e.flag(FLG0), e.flag(FLG1), gain_of(e), e.flag(ERROR), s.box, s.priority)


def place_samples(samples, limhi, used=0, replaced=0, slots=()):
    """The slots, how many are used and how many were replaced, from (record, priority) of each eligible event in order;
    of an interval under way, from those there were."""
    # "the first 704 eligible in order; then, for h from 0, the h-th later one with priority 1 replaces slot h while
    # h < LIMHI; all others drop out"
    slots = list(slots)
    free = SLOTS - used
    first = [record for record, _ in samples[:free]]
    slots[used:used + len(first)] = first
    later = [record for record, priority in samples[free:] if priority == 1][:max(0, limhi - replaced)]
    slots[replaced:replaced + len(later)] = later
    return slots, used + len(first), replaced + len(later)


class SampleCounts(NamedTuple):
    """"three more counts: eligible, replaced and dropped events" (document 02, Point 7)"""
    eligible: int
    replaced: int
    dropped: int


def sample_counts_of(samples, limhi):
    """The three counts of an interval from (record, priority) of each eligible event in order; none is the rest of another."""
    late = [priority for _, priority in samples[SLOTS:]]
    # "replaced counts the priority 1 eligible events after the 704th eligible one, or is LIMHI if less, and dropped counts
    # every other one after the 704th"
    passed_over = [priority for priority in late if priority == 1][limhi:]
    return SampleCounts(len(samples), min(late.count(1), limhi), late.count(0) + len(passed_over))


# ---- "Commands and loads"

PROMPT = b"SIT> "
ECHO_BYTES = 128
MAX_COMMANDS = 32
# The highest value of each setting's argument.
HIGHEST = {b"limhi": 0x2C0, b"eonly": 1, b"toferror": 1, b"junk": 1, b"hv": 1, b"hvstep": 0xFF}

# How many arguments there are: a and y, and of a commit the sum.
ARGUMENTS = {b"ask": 2, b"commit": 3}


def line_bytes_right(line):
    # "A line has up to 80 bytes, each 32 to 126"
    return len(line) <= 80 and all(32 <= b <= 126 for b in line)


def words_of_load(y, reach):
    # "y 0 three bytes a word, y 1 one .., y 2 two .., a short last word filled with zeros behind"
    return -(-reach // (3, 1, 2)[y])


def load_lawful(a, y, reach):
    # "It needs reach ≥ 1 and all words in 7000 to C202"
    return y <= 2 and reach >= 1 and FIRST_WORD <= a and a + words_of_load(y, reach) - 1 <= LAST_WORD


def parse(line, reach):
    """A line that is not empty: a tuple of its keyword and values; None for an unknown keyword or a wrong argument."""
    keyword, *digits = line.split(b" ")
    if not all(re.fullmatch(b"[0-9a-f]{1,6}", d) for d in digits):
        return None
    values = [int(d, 16) for d in digits]
    if keyword in HIGHEST:
        right = len(values) == 1 and values[0] <= HIGHEST[keyword]
    elif keyword == b"load":
        # "Two-argument load disappears; load 0 stays." (document 02, Point 4)
        right = values == [0]
    elif keyword in ARGUMENTS:
        # "The line "ask a y" checks as load did"; "The line "commit a y sum" is checked likewise".
        right = len(values) == ARGUMENTS[keyword] and load_lawful(*values[:2], reach)
    elif keyword == b"loadat":
        right = len(values) == 1 and values[0] <= reach
    else:
        right = False
    return (keyword.decode(), *values) if right else None


def accepted_echo(frame, sequence, line):
    # "low frame byte and sequence number as two digits 0-9 a-f each, a space, the line, CR LF, "SIT> ""
    return b"%02x%02x %s\r\n" % (frame % 256, sequence, line) + PROMPT


def refused_echo(line):
    # "Refused by 5, 6 or 7: the line, "?", CR LF, "SIT> ""
    return line + b"?\r\n" + PROMPT


def package_echo(address, placed):
    return b"binary A:%08x N:%08x OK\r\n" % (address, placed) + PROMPT


def sum_error_echo(address, placed, received, computed):
    # ""ckserr" with received and computed sum for OK, eight digits 0-9 a-f each"
    return b"binary A:%08x N:%08x ckserr %08x %08x\r\n" % (address, placed, received, computed) + PROMPT


def echo_buffer(text):
    # "The echo buffer has 128 bytes, zero after the echo."
    return text.ljust(ECHO_BYTES, b"\0")


def split_package(data):
    """The bytes and the received sum: "A package is a 16-bit N, then N − 2 bytes, then their sum modulo 65,536"."""
    return data[2:-2], int.from_bytes(data[-2:], "big")


def judge_package(data, address):
    """Causes 8, 9 and 10 of a package that comes when the next address is `address`."""
    n = int.from_bytes(data[:2], "big")
    if len(data) < 2 or n < 2 or len(data) != 2 + n:
        return 8
    body, received = split_package(data)
    if address + len(body) > TABLE_BYTES:
        return 9
    return 0 if sum(body) % 65536 == received else 10


def run_load(tables, staging, a, y, reach):
    """Changes the tables: "load a y packs the reach"."""
    size = (3, 1, 2)[y]
    packed = b""
    for at in range(0, reach, size):
        # The reach may end within the last word.
        packed += bytes(3 - size) + staging[at:min(at + size, reach)].ljust(size, b"\0")
    start = 3 * (a - FIRST_WORD)
    tables[start:start + len(packed)] = packed


# ---- "Packets"

PACKET_BYTES = 272
SAMPLE_PACKETS = 11
RATE, FIRST_SAMPLE, BEACON = 605, 606, 624
APPLICATIONS = (RATE, *range(FIRST_SAMPLE, FIRST_SAMPLE + SAMPLE_PACKETS), BEACON)


def first_code(n):
    # "n below 4,096; else 4,096s + floor(n / 2^s), s the least with quotient < 4,096"
    s = 0
    while n >> s >= 4096:
        s += 1
    return 4096 * s + (n >> s)


def first_least_count(code):
    # "Its least count is quotient × 2^s." None for a "code with s ≥ 1 and quotient below 2,048 or s above 12".
    s, quotient = divmod(code, 4096)
    if s > 12 or s >= 1 and quotient < 2048:
        return None
    return quotient << s


def second_code(n):
    # "Below 4,096 the code stays n. From 4,096 on, with e so that 2^(11+e) ≤ n < 2^(12+e), the code is
    # 4,096e + floor(n / 2^(e−1)) − 4,096." (document 02, Point 5)
    if n < 4096:
        return n
    e = next(e for e in range(1, 13) if 2**(11 + e) <= n < 2**(12 + e))
    return 4096 * e + n // 2**(e - 1) - 4096


def second_least_count(code):
    """The least n with floor(n / 2^(e−1)) − 4,096 as the code says. None for the codes "from D000 hex on"."""
    e, rest = divmod(code, 4096)
    if code >= 0xD000:
        return None
    return (rest + 4096) * 2**(e - 1) if e >= 1 else rest


# "Rate and beacon packets get 1 in byte 269; the reader takes both editions, and 13 judges codes by that byte";
# "The reader takes the mark 2 by the second edition's rule."
MARK = 1
LEAST_COUNT = {0: first_least_count, 1: second_least_count, 2: second_least_count}


def rates_of(mark, part):
    """The least counts of the codes that stand there, each None where no count has the code; [None] for another mark."""
    return [LEAST_COUNT[mark](c) for c in get_numbers(part, 2)] if mark in LEAST_COUNT else [None]


def packet_header(application, frame, time):
    # "version 0, type 0, secondary flag 1, sequence flags 3, count frame modulo 16,384, length 265; then time (4 bytes)
    # and a zero"
    return put_numbers([1 << 11 | application, 3 << 14 | frame % 16384, 265], 2) + time.to_bytes(4, "big") + b"\0"


def packet(application, frame, time, parts):
    """A packet with each (place, bytes) of `parts`: "Other bytes are zero"."""
    data = bytearray(PACKET_BYTES)
    for at, part in [(0, packet_header(application, frame, time)), (267, frame.to_bytes(2, "big")), *parts]:
        data[at:at + len(part)] = part
    return with_sum(data)


def with_sum(data):
    # "Byte 271 is the sum of bytes 0 to 270 modulo 256."
    return bytes(data[:271]) + bytes([sum(data[:271]) % 256])


def codes(counts):
    return put_numbers(map(second_code, counts), 2)


def flags_of(s):
    return 128 * s.hv + 64 * s.eonly + 32 * s.toferror + 16 * s.junk


def rate_packet(frame, time, totals, boxes, s, total_of_tables):
    return packet(RATE, frame, time, [
        (11, codes(totals)), (27, codes(boxes)), (260, bytes([s.hvstep, flags_of(s)])),
        (262, s.limhi.to_bytes(2, "big")), (264, total_of_tables.to_bytes(3, "big")), (269, bytes([MARK]))])


def sample_packet(frame, time, p, records):
    return packet(FIRST_SAMPLE + p, frame, time, [(11, put_numbers(records, 4)), (269, bytes([p]))])


def beacon_packet(frame, time, rates):
    # "the beacon packet carries their codes at bytes 35-40, rates like the others under every mark"
    return packet(BEACON, frame, time, [(11, codes(rates)), (269, bytes([MARK]))])


# ---- the ground reader

@dataclass
class Packet:
    """What the reader returns: "kind, header and frame number, with a rate packet's rates, settings and table sum, a
    beacon's rates, or p and the record bytes", and the mark of rates. A refused packet has its number alone."""
    number: int = 0
    kind: str = "none"
    application: int = 0
    sequence: int = 0
    time: int = 0
    frame: int = 0
    sum: int = 0
    p: int = 0
    settings: Settings = Settings(limhi=0)
    rates: list = field(default_factory=lambda: [0] * (8 + BOXES))
    beacon_rates: list = field(default_factory=lambda: [0] * BEACON_RATES)
    records: bytes = b""
    mark: int = 0


def has_header(data, applications):
    """Cause 11: "no header above (any sequence count passes)", with one of these application numbers."""
    if len(data) != PACKET_BYTES:
        return False
    application, frame = get_numbers(data[:4], 2)
    time = int.from_bytes(data[6:10], "big")
    return application % 2048 in applications and data[:11] == packet_header(application % 2048, frame, time)


def read_rate(data, answer):
    """Whether the body has no fault; the answer's fields are filled in."""
    answer.kind = "rate"
    answer.mark = data[269]
    answer.rates = rates_of(answer.mark, data[11:259])
    hv, eonly, toferror, junk = (data[261] >> bit & 1 for bit in (7, 6, 5, 4))
    answer.settings = Settings(int.from_bytes(data[262:264], "big"), eonly, toferror, junk, hv, data[260])
    answer.sum = int.from_bytes(data[264:267], "big")
    unused = [data[259], data[261] % 16, data[270]]
    return None not in answer.rates and not any(unused) and answer.settings.limhi <= SLOTS


def read_sample(data, answer):
    answer.kind = "sample"
    answer.p, answer.records = data[269], data[11:267]
    # "a non-zero record with box outside 6 to 116"
    boxes = [unpack(w)[6] for w in get_numbers(answer.records, 4) if w != 0]
    return data[270] == 0 and answer.application == FIRST_SAMPLE + answer.p and all(6 <= b <= BOXES for b in boxes)


def read_beacon(data, answer):
    answer.kind = "beacon"
    answer.mark = data[269]
    answer.beacon_rates = rates_of(answer.mark, data[11:41])
    return None not in answer.beacon_rates and not any(data[41:267]) and data[270] == 0


def read_packet(data):
    """The ground reader: causes 11, 12 and 13, or the packet's fields."""
    if not has_header(data, APPLICATIONS):
        return Packet(11)
    if data != with_sum(data):
        return Packet(12)
    first, count = get_numbers(data[:4], 2)
    answer = Packet(application=first % 2048, sequence=count % 16384, time=int.from_bytes(data[6:10], "big"),
                    frame=int.from_bytes(data[267:269], "big"))
    read_body = {RATE: read_rate, BEACON: read_beacon}.get(answer.application, read_sample)
    return answer if read_body(data, answer) else Packet(13)


# ---- converting from one edition to the other (document 02, Point 6)

FIRST, CONVERTED = 0, 2


def codes_by_least_count(least_count):
    return {least_count(code): code for code in range(65536) if least_count(code) is not None}


# Each edition's codes by their least counts.
CODE_OF = {FIRST: codes_by_least_count(first_least_count), CONVERTED: codes_by_least_count(second_least_count)}


def convert(data, wanted):
    """The packet in the edition of the mark wanted, or the number by which it is refused."""
    p = read_packet(data)
    if p.number != 0:
        return p.number
    # "A sample packet, or one already in the edition wanted, gets 13."
    if p.kind == "sample" or (p.mark == FIRST) == (wanted == FIRST):
        return 13
    codes = [CODE_OF[wanted].get(n) for n in (p.rates if p.kind == "rate" else p.beacon_rates)]
    # "17 when no first-edition code has some rate's least count"
    if None in codes:
        return 17
    # "byte 269 becomes 2 (converted), or 0 on the way back, the sum is renewed and every other byte stays"
    end = 11 + 2 * len(codes)
    return with_sum(data[:11] + put_numbers(codes, 2) + data[end:269] + bytes([wanted]) + data[270:])


# ---- listing packets and their gatherer (document 02, Point 1)

LISTING = 594
LISTING_PACKETS = 250
LISTING_BYTES = 3 * 84


def listing_address(i):
    # "A call writes packet i, 0 to 249, of the table's 250, from 7000 hex + 84i"
    return 0x7000 + 84 * i


def listing_packet(frame, time, i, tables):
    # "the usual header with a time that the caller gives, 14-15 the frame, 16-18 the first word's address, 19-270 84
    # words, 271 the sum, the rest zero"; "the last has 79 words and zeros behind"
    data = bytearray(PACKET_BYTES)
    words = tables[LISTING_BYTES * i:LISTING_BYTES * (i + 1)]
    parts = [packet_header(LISTING, frame, time), bytes(3), frame.to_bytes(2, "big"), listing_address(i).to_bytes(3, "big"), words]
    data[:19 + len(words)] = b"".join(parts)
    return with_sum(data)


class Gatherer:
    """"A ground gatherer puts them into a table buffer": a fresh one, with a buffer of zeros."""

    def __init__(self):
        self.tables = bytearray(TABLE_BYTES)
        self.came = set()

    def missing(self):
        return LISTING_PACKETS - len(self.came)

    def gather(self, data):
        """Causes 11, 12, 14 and 13 in this order: "14 .., after 12 and before 13, which covers the zeros"."""
        if not has_header(data, [LISTING]):
            return 11
        if data != with_sum(data):
            return 12
        address = int.from_bytes(data[16:19], "big")
        places = [i for i in range(LISTING_PACKETS) if listing_address(i) == address]
        if not places:
            return 14
        at = LISTING_BYTES * places[0]
        size = len(self.tables[at:at + LISTING_BYTES])
        if any(data[11:14]) or any(data[19 + size:271]):
            return 13
        self.tables[at:at + size] = data[19:19 + size]
        self.came.add(places[0])
        return 0


# ---- a state that anyone hands in, and its limits

# A waiting command: a setting and its value, or 255, an address and y. What stands where none waits:
EMPTY = (0, 0, 0)
LOAD = 255
KEYWORDS = [k.decode() for k in HIGHEST]


@dataclass(frozen=True)
class State:
    frame: int = 0
    taken: int = 0
    boxes: tuple = (0,) * BOXES
    beacons: tuple = (0,) * BEACONS
    used: int = 0
    replaced: int = 0
    readings: int = 0
    totals: tuple = (0,) * 8
    settings: Settings = Settings()
    accepted: int = 0
    waits: int = 0
    entries: tuple = (EMPTY,) * MAX_COMMANDS
    next: int = 0
    reach: int = 0
    eligible: int = 0


def state_bytes(s):
    """The state in the layout of replay's records 20 and 21."""
    words = [s.taken, *s.boxes, *s.beacons, s.used, s.replaced, s.readings, *s.totals]
    settings = s.settings.limhi.to_bytes(2, "big") + bytes([flags_of(s.settings), s.settings.hvstep])
    entries = b"".join(bytes([kind]) + value.to_bytes(4, "big") + bytes([y]) for kind, value, y in s.entries)
    return s.frame.to_bytes(2, "big") + put_numbers(words, 4) + settings + put_numbers([s.accepted, s.waits], 4) + entries \
        + put_numbers([s.next, s.reach, s.eligible], 4)


STATE_BYTES = len(state_bytes(State()))


def state_of(data):
    """The state of these bytes; None where a kind is none, or a setting's value over 65,535."""
    taken, *rest = get_numbers(data[2:562], 4)
    limhi, flags, hvstep = int.from_bytes(data[562:564], "big"), data[564], data[565]
    hv, eonly, toferror, junk = (flags >> bit & 1 for bit in (7, 6, 5, 4))
    accepted, waits = get_numbers(data[566:574], 4)
    entries = []
    for at in range(574, 766, 6):
        kind, value, y = data[at], int.from_bytes(data[at + 1:at + 5], "big"), data[at + 5]
        if kind != LOAD and (kind >= len(KEYWORDS) or value > 65535):
            return None
        # "y .. for a setting not read, and shown as 0"
        entries.append((kind, value, y if kind == LOAD else 0))
    return State(int.from_bytes(data[:2], "big"), taken, tuple(rest[:116]), tuple(rest[116:128]), *rest[128:131],
                 tuple(rest[131:]), Settings(limhi, eonly, toferror, junk, hv, hvstep), accepted, waits, tuple(entries),
                 *get_numbers(data[766:], 4))


def given(entry, reach):
    """Whether a line could give this waiting command."""
    kind, value, y = entry
    return load_lawful(value, y, reach) if kind == LOAD else value <= list(HIGHEST.values())[kind]


def within_limits(s):
    # "State limits", in the paper's order; and no "waiting command that no line could give"
    counts = [*s.boxes, *s.beacons, s.eligible, s.used, s.replaced]
    waiting = s.entries[:s.waits]
    return s.taken <= 1000000 and max(counts) <= s.taken and s.used <= SLOTS and s.readings <= 60 \
        and max(s.totals) <= 65535 * s.readings and s.accepted <= MAX_COMMANDS and s.waits <= s.accepted \
        and s.next <= s.reach <= TABLE_BYTES and s.settings.limhi <= 0x2C0 \
        and [kind for kind, _, _ in waiting].count(LOAD) <= 1 and all(given(e, s.reach) for e in waiting)


def slot_right(w):
    # "at close, each slot zero or of box 6 to 116"
    return w == 0 or 6 <= unpack(w)[6] <= BOXES


# ---- the six calls

class Closed(NamedTuple):
    """The ended frame; "the taken count, 116 boxes, 12 beacons and filled slots", and Point 7's counts; the packets."""
    frame: int
    taken: int
    filled: int
    sample_counts: SampleCounts
    boxes: list
    beacons: list
    packets: list


class Processor:
    """The calls on a fresh processor, or on a state handed in. Each answers its number, the lowest that applies."""

    def __init__(self, tables):
        self.tables = bytearray(tables)
        self.staging = bytearray(TABLE_BYTES)
        # "the tally keeping which staged bytes are bad" (document 02, Point 4)
        self.bad = set()
        self.echo = bytes(ECHO_BYTES)
        self.sum = 0
        self.hand_in(State())

    def hand_in(self, state, slots=(0,) * SLOTS):
        """From here on the interval is this state's and these slots', and what comes now."""
        self.begun, self.slots = state, tuple(slots)
        self.over = not within_limits(state)
        self.frame, self.settings = state.frame, state.settings
        self.next, self.reach = state.next, state.reach
        self.events, self.readings = [], []
        self.accepted, self.waits, self.entries = state.accepted, state.waits, list(state.entries)

    def outcomes(self):
        return [sort_event(self.settings, self.tables, e) for e in self.events]

    def samples(self):
        """(record, priority) of each eligible event."""
        return [(record_of(e, s), s.priority) for e, s in zip(self.events, self.outcomes()) if eligible(self.settings, s)]

    def placed(self):
        """The slots at present, how many are used and how many were replaced."""
        b = self.begun
        return place_samples(self.samples(), self.settings.limhi, b.used, b.replaced, self.slots)

    def sample_counts(self, filled):
        """Point 7's counts at a close that finds so many slots filled: where all began with nothing, from the events; else, as
        what was handed in has no events, dropped by "Eligible = filled + replaced + dropped", and 0 where that is less."""
        s, b = self.state(), self.begun
        left = max(0, s.eligible - filled - s.replaced)
        if b.eligible or b.used or b.replaced or any(self.slots):
            return SampleCounts(s.eligible, s.replaced, left)
        sample_counts = sample_counts_of(self.samples(), self.settings.limhi)
        assert sample_counts == (s.eligible, s.replaced, left)
        return sample_counts

    def state(self):
        """The state at present: what it was and what the calls since then add."""
        b = self.begun
        if self.over:
            return b
        outcomes = self.outcomes()
        put = [box for s in outcomes for box in s.boxes]
        boxes = tuple(n + put.count(k) for k, n in enumerate(b.boxes, 1))
        beacons = tuple(n + sum(s.beacon == k for s in outcomes) for k, n in enumerate(b.beacons, 1))
        totals = tuple(n + sum(r[k] for r in self.readings) for k, n in enumerate(b.totals))
        _, used, replaced = self.placed()
        return State(self.frame, b.taken + len(self.events), boxes, beacons, used, replaced, b.readings + len(self.readings), totals,
                     self.settings, self.accepted, self.waits, tuple(self.entries), self.next, self.reach, b.eligible + len(self.samples()))

    def slots_now(self):
        return self.slots if self.over else self.placed()[0]

    def event(self, e):
        # "a flag byte over 15 is refused by 2", before any call is made
        if e.flags > 15:
            return 2
        if self.over:
            return 1
        if not in_range(e):
            return 2
        if self.begun.taken + len(self.events) == 1000000:
            return 3
        self.events.append(e)
        return 0

    def reading(self, counts):
        if self.over:
            return 1
        if self.begun.readings + len(self.readings) == 60:
            return 3
        self.readings.append(counts)
        return 0

    def line(self, line):
        """The sum is that of an accepted ask: "it returns those bytes' sum"."""
        self.sum = 0
        if self.over:
            return 1
        if not line_bytes_right(line):
            return 4
        if not line:
            self.echo = echo_buffer(PROMPT)
            return 0
        command = parse(line, self.reach)
        number = self.judge(command)
        if number == 0:
            self.echo = echo_buffer(accepted_echo(self.frame, self.accepted, line))
            self.accept(command)
        else:
            self.echo = echo_buffer(refused_echo(line))
        return number

    def judge(self, command):
        """Causes 5, 6, 7, 15 and 16."""
        if command is None:
            return 5
        if command[0] in ("load", "loadat", "ask", "commit") and self.commit_waits():
            return 6
        if self.accepted == MAX_COMMANDS:
            return 7
        return self.judge_staged(command) if command[0] in ("ask", "commit") else 0

    def judge_staged(self, command):
        # "15 when a staged byte is bad, after 7; 16 when commit's sum differs from that of the bytes lent below the reach"
        if any(i in self.bad for i in range(self.reach)):
            return 15
        return 16 if command[0] == "commit" and command[3] != self.staged_sum() else 0

    def staged_sum(self):
        return sum(self.staging[:self.reach])

    def waiting(self):
        return self.entries[:self.waits]

    def commit_waits(self):
        return any(kind == LOAD for kind, _, _ in self.waiting())

    def accept(self, command):
        # "Carried out when accepted: load 0 .., loadat a", and an ask; all others wait until close.
        self.accepted += 1
        if command == ("load", 0):
            self.next = self.reach = 0
        elif command[0] == "loadat":
            self.next = command[1]
        elif command[0] == "ask":
            self.sum = self.staged_sum()
        else:
            entry = (LOAD, *command[1:3]) if command[0] == "commit" else (KEYWORDS.index(command[0]), command[1], 0)
            self.entries[self.waits] = entry
            self.waits += 1

    def package(self, data):
        if self.over:
            return 1
        number = 6 if self.commit_waits() else judge_package(data, self.next)
        if number in (0, 10):
            body, received = split_package(data)
            echo = package_echo(self.next, len(body)) if number == 0 else \
                sum_error_echo(self.next, len(body), received, sum(body) % 65536)
            self.echo = echo_buffer(echo)
            self.place(body, number == 10)
        return number

    def place(self, body, sum_wrong):
        # "Bytes go to the next address, which moves past them, reach too." Each is bad if it was "last written by a package
        # with a wrong sum".
        written = range(self.next, self.next + len(body))
        self.bad = self.bad.union(written) if sum_wrong else self.bad.difference(written)
        self.staging[self.next:self.next + len(body)] = body
        self.next += len(body)
        self.reach = max(self.reach, self.next)

    def close(self, time):
        """1, or what it returns."""
        slots = self.slots_now()
        if self.over or not all(map(slot_right, slots)):
            return 1
        # "Packets come from the ending interval's settings and tables; then waiting commands run in order"
        s, filled = self.state(), sum(w != 0 for w in slots)
        sample_counts = self.sample_counts(filled)
        answer = Closed(s.frame, s.taken, filled, sample_counts, s.boxes, s.beacons, self.packets(time, s, slots, sample_counts))
        for entry in self.waiting():
            self.run(*entry)
        # "then counts and slots become zero and the frame number rises by one modulo 65,536"
        self.hand_in(State(frame=(s.frame + 1) % 65536, settings=self.settings, next=self.next, reach=self.reach))
        return answer

    def listing(self, i, time):
        """1, 14, or packet i: "Listing changes nothing aboard"."""
        if self.over:
            return 1
        return listing_packet(self.frame, time, i, self.tables) if i < LISTING_PACKETS else 14

    def packets(self, time, s, slots, sample_counts):
        # "rate (application number 605), samples 606 to 616, beacon 624"
        rate = rate_packet(s.frame, time, s.totals, s.boxes, s.settings, table_sum(self.tables))
        samples = [sample_packet(s.frame, time, p, slots[64 * p:64 * p + 64]) for p in range(SAMPLE_PACKETS)]
        return [rate, *samples, beacon_packet(s.frame, time, [*s.beacons, *sample_counts])]

    def run(self, kind, value, y):
        if kind == LOAD:
            run_load(self.tables, self.staging, value, y, self.reach)
            # "Both addresses are 0 once it has run."
            self.next = self.reach = 0
        else:
            self.settings = replace(self.settings, **{KEYWORDS[kind]: value})
