"""An archive of packets of every kind, edition and fault, and what the program convert must make of it, by paper.py."""
import paper


# ---- inputs

def rate(codes, mark, frame=7):
    """A rate packet of these codes, with settings and a table sum."""
    return paper.packet(paper.RATE, frame, 60, [(11, paper.put_numbers(codes, 2)), (260, b"\x09\xf0\x02\xc0\xab\xcd\xef"), (269, bytes([mark]))])


def beacon(codes, mark, frame=7):
    return paper.packet(paper.BEACON, frame, 60, [(11, paper.put_numbers(codes, 2)), (269, bytes([mark]))])


def spread(n, code):
    """The codes of n counts of every magnitude below 2^24."""
    return [code((3 << k % 23) + k) for k in range(n)]


def changed(data, at, value):
    return paper.with_sum(data[:at] + bytes([value]) + data[at + 1:])


# The first beacon packet is of the time before Point 7: zeros in the place of the last three codes.
OLD = [rate(spread(124, paper.first_code), 0), beacon(spread(12, paper.first_code), 0), rate([0] * 124, 0), beacon([0xCFFF] * 15, 0)]
NEW = [rate([0x8E84] * 124, 1), beacon([0x1002] * 15, 1), rate([0xCFFE] * 124, 2), beacon([0] * 12 + [0x8E84, 0x01F4, 0x2000], 2)]
# Counts that no first-edition code has as its least: one among others, the first, the twelfth beacon, each count of samples, all.
ODD = [rate([0x1000] * 60 + [0x1001] + [0x1000] * 63, 1), beacon([0x8E85] + [0] * 14, 2), beacon([0] * 11 + [0x1001], 1),
       *(beacon([0x1000] * k + [0x1001], 1) for k in (12, 13, 14)), rate([0xCFFF] * 124, 2)]
SAMPLES = [paper.sample_packet(7, 60, p, [paper.pack(300, 1000, 0, 0, 0, 0, 60, 1)] * 64) for p in (0, 2, 10)]
# By 11: a listing packet, other bytes. By 12: sums that are wrong. By 13: a mark, a code, a byte without use, an edition's
# wrong code.
WRONG = [paper.listing_packet(7, 60, 3, bytes(paper.TABLE_BYTES)), bytes(272), bytes(range(256)) + bytes(16),
         OLD[0][:271] + bytes([OLD[0][271] ^ 1]), SAMPLES[0][:271] + bytes([SAMPLES[0][271] ^ 128]),
         changed(OLD[0], 269, 3), rate([0xD000] * 124, 2), changed(OLD[1], 270, 1), changed(OLD[3], 41, 1), beacon([0x1000] * 15, 0),
         *(beacon([0] * k + [0x17FF], 0) for k in (12, 13, 14)), beacon([0] * 14 + [0xD000], 1), changed(SAMPLES[0], 269, 1)]
ARCHIVE = OLD + SAMPLES + NEW + WRONG + ODD + OLD[::-1]


# ---- expected

def written(packets, wanted):
    """Each packet in the edition wanted, or as it is."""
    answers = [paper.convert(p, wanted) for p in packets]
    return b"".join(a if isinstance(a, bytes) else p for a, p in zip(answers, packets))


def counted(packets, wanted):
    """How many packets were converted, passed on, and refused by each number."""
    numbers = {}
    for p in packets:
        answer = paper.convert(p, wanted)
        number = "converted" if isinstance(answer, bytes) else answer
        # What the reader takes and the converter refuses by 13 is passed on.
        if number == 13 and paper.read_packet(p).number == 0:
            number = "passed on"
        numbers[number] = numbers.get(number, 0) + 1
    refused = ", ".join(f"{numbers.get(n, 0)} by {n}" for n in (11, 12, 13, 17))
    return f"{numbers.get('converted', 0)} converted, {numbers.get('passed on', 0)} passed on, refused: {refused}"
