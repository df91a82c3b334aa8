"""The cases of crates/command_cases/stdin: values on both sides of each bound that documents 01 and 02 set for lines and
loads, lines with one thing wrong, every echo, and packages with one thing wrong.

A case is a kind byte and a body, printed as digits on a line: 1 a line judged at a reach, 2 to 6 the echoes, 7 a
package, 8 a load.
"""
from paper import TABLE_BYTES

SWITCHES = ("eonly", "toferror", "junk", "hv")
# Values around the bound, with zeros before them, and more than six digits.
SWITCH_ARGUMENTS = "0 1 2 f 10 11 00 01 02 000000 000001 000002 0000001 100001"
LIMHI_ARGUMENTS = "0 1 2bf 2c0 2c1 2cf 3c0 1000 ffffff 000 0002c0 0002c1 00002c0 2C0 2c0g"
HVSTEP_ARGUMENTS = "0 1 7f 80 fe ff 100 101 1ff 0000ff 000100 00000ff FF fF"
LOAD_ARGUMENTS = "0 00 000000 0000000 1 f 7000 000001 100000"


def settings_and_resets():
    """Each keyword with one argument, as (reach, line)."""
    arguments = [("limhi", LIMHI_ARGUMENTS), *((k, SWITCH_ARGUMENTS) for k in SWITCHES), ("hvstep", HVSTEP_ARGUMENTS)]
    lines = [(0, f"{keyword} {n}") for keyword, numbers in arguments for n in numbers.split()]
    return lines + [(9, f"load {n}") for n in LOAD_ARGUMENTS.split()]


def loadats():
    # "loadat a needs a ≤ reach": addresses around every reach tried and around the end of staging.
    lines = []
    for reach in (0, 1, 5, TABLE_BYTES):
        near = {0, 1, 4, 5, 6, 0xF608, 0xF609, 0xF60A, 0xFFFFFF} | {reach, reach + 1}
        lines += [(reach, f"loadat {a:x}") for a in sorted(near)]
    return lines + [(TABLE_BYTES, "loadat " + a) for a in ("00f609", "000f609", "F609")]


# Arguments a and y with the reach at which they are judged: "all words in 7000 to C202", with as many words as there can be.
LARGE_LOADS = [
    (62985, "7000 0"), (62985, "7001 0"), (62982, "7001 0"), (62983, "7001 0"), (20995, "7000 1"), (20996, "7000 1"),
    (20994, "7001 1"), (20995, "7001 1"), (41989, "7000 2"), (41990, "7000 2"), (41991, "7000 2"), (41988, "7001 2"),
    (41989, "7001 2"), (62985, "7000 2"), (49152, "8000 0"), (512, "c000 1"), (1, "ffffff 0"), (1, "0 0"), (1, "0 1"),
]
# Arguments with something wrong, and a few that are right with zeros before them.
ODD_LOADS = ("7000 4", "7000 ff", "7000 100", "7000 101", "7000 ffffff", "7000 100000", "07000 00", "007000 000002", "0007000 0",
             "7000 0000002", "7000", "0 0", "0 2", "C200 0", " c200 0", "c200  0", "c200,0", "c200 -0", "7000 y", "7000 0 0", "c200 0 ")
# Third arguments of a commit: digits from none to seven, large letters, others than digits, and one argument more.
SUMS = ("", "0", "9", "a", "f", "ff", "abcdef", "ffffff", "000000", "00000f", "0000000", "1000000", "A", "aB", "FF", "g", "-1", "0x1",
        "+0", "0 ", " 0", "0 0", "0 0 0", "?")


def load_arguments():
    """Addresses around both ends of the tables, with few words; then many words, and arguments with something wrong."""
    few = [(reach, f"{a} {y}") for reach in range(8) for y in range(4)
           for a in ("6fff", "7000", "c200", "c201", "c202", "c203")]
    return few + LARGE_LOADS + [(3, x) for x in ODD_LOADS]


def asks_and_commits():
    """A commit is judged as an ask is, and takes any sum; document 01's "load a y" is wrong (document 02, Point 4)."""
    lines = [(reach, "ask " + x) for reach, x in load_arguments()]
    lines += [(reach, f"commit {x} {reach:x}") for reach, x in load_arguments()]
    lines += [(reach, f"commit 7000 0 {x}") for reach in (0, 3) for x in SUMS] + [(3, "commit 7000 0")]
    lines += [(reach, "load " + x) for reach, x in LARGE_LOADS + [(3, x) for x in ODD_LOADS if x != "7000"]]
    return lines + [(3, x) for x in (" ask c200 0", "ask", "ask ", "askc200 0", "commit", "commit ", " commit c200 0 0", "commit c200",
                                     "ask 7000 0 3", "asked 7000 0", "loadn 7000 0 3", "load 7000 0 0")]


def misspelt(keyword):
    """Each letter changed, made large or left out; a letter before or behind; all large; the last one twice."""
    words = []
    for i, letter in enumerate(keyword):
        words += [keyword[:i] + other + keyword[i + 1:] for other in (chr(ord(letter) + 1), letter.upper(), "")]
    return words + [keyword + "x", "x" + keyword, keyword.upper(), keyword + keyword[-1]]


# A keyword in place of *, with something wrong around it or in its argument.
WRONG_FORMS = ("*", "* ", "*  0", "* 0 ", " * 0", "* 0 0", "*0", "*\t0", "* 0\t", "* 0\r", "* 0\n", "* 0\0", "*=0", "* =0",
               "* 0x0", "* +0", "* -0", "* 0.", "* 0,0", "* g", "* :", "* /", "* `", "* A", "* F", "* 0 0 0", "* 0000000",
               "* 00000000", "*\xa00", "* \xff")


def wrong_keywords():
    lines = []
    arguments = {"load": ("0", "1", "7000 1"), "ask": ("7000 1",), "commit": ("7000 1 0",)}
    for keyword in ("limhi", *SWITCHES, "hvstep", "load", "loadat", "ask", "commit"):
        lines += [(5, f"{word} {n}") for word in misspelt(keyword) for n in arguments.get(keyword, ("0", "1"))]
        lines += [(5, form.replace("*", keyword)) for form in WRONG_FORMS]
    return lines


def other_lines():
    """Lines without a keyword, and those around "up to 80 bytes, each 32 to 126"."""
    lines = ["", " ", "  ", "?", "0", " 0", "help", "binary", "SIT> "]
    for n in (79, 80, 81, 82):
        lines += ["a" * n, "hv 1".ljust(n), "hv " + "1".rjust(n - 3, "0")]
    for b in (0, 1, 9, 10, 13, 31, 32, 33, 125, 126, 127, 128, 200, 255):
        lines += [chr(b), "hv " + chr(b), chr(b) + "v 1"]
    return [(0, x) for x in lines]


def line_cases():
    """Every line once at a reach."""
    lines = settings_and_resets() + loadats() + asks_and_commits() + wrong_keywords() + other_lines()
    return [b"\1" + reach.to_bytes(3, "big") + x.encode("latin-1") for reach, x in dict.fromkeys(lines)]


# ---- echoes

ACCEPTED = [(0, 0, b"limhi 2c0"), (1, 1, b"hv 1"), (0xFF, 9, b"junk 0"), (0x100, 10, b"eonly 1"), (0xABCD, 15, b"ask 7000 0"),
            (0xABCE, 16, b"commit 7000 0 ffffff"), (0xFFFF, 31, b"loadat f609"), (0x1F0A, 16, b"load 0"), (7, 255, b"x" * 80), (9, 3, b"")]
REFUSED = [b"", b"?", b"limhi 2c1", b"LIMHI 0", b"load 7000 0", b"ask 7000 0", b"commit 7000 0 1", b"y" * 79, b"z" * 80]
# Address and number of bytes; with them the received and the computed sum.
PLACED = ["00000000 00000000", "00000000 00000400", "00000400 00000400", "0000f609 00000000", "deadbeef ffffffff",
          "0a0b0c0d 00000009"]
SUM_WRONG = ["00000000 00000001 0000 0001", "00000400 000003ff ffff abcd", "0000f608 00000001 0a0f 00a0",
             "ffffffff 12345678 9abc def0"]


def echo_cases():
    accepted = [b"\2" + frame.to_bytes(2, "big") + bytes([sequence]) + line for frame, sequence, line in ACCEPTED]
    return accepted + [b"\3" + line for line in REFUSED] + [b"\4"] \
        + [b"\5" + bytes.fromhex(x) for x in PLACED] + [b"\6" + bytes.fromhex(x) for x in SUM_WRONG]


# ---- packages

# "no N, N below 2 or not matching the bytes", beside two that are right in form.
FORMS = ("", "00", "02", "0000", "0001", "000100", "0002", "000200", "00020000", "00020001", "0002000000", "00000000", "01000000")
ADDRESSES = [(0, 0), (0, 10), (4, 10), (9, 10), (10, 10), (62980, 62981), (62982, 62982), (62983, 62983), (62985, 62985),
             (62986, 62985), (0xFFFFFF, 5)]


def package(body, longer=0, sum_change=0):
    """N, the bytes and their sum; `longer` is added to N, the bits of `sum_change` are turned in the sum."""
    total = sum(body) % 65536 ^ sum_change
    return (len(body) + 2 + longer).to_bytes(2, "big") + body + total.to_bytes(2, "big")


def packages_at(following, reach):
    """Four packages, each also with its sum wrong; at two addresses with its length wrong."""
    packages = []
    for body in (b"", b"\1", b"\xff\1", b"abc"):
        right = package(body)
        packages += [right, package(body, sum_change=1)]
        if following in (4, 62983):
            packages += [right[:-1], right + b"\0", package(body, longer=256), package(body, sum_change=256)]
    return [(following, reach, p) for p in packages]


def package_cases():
    cases = [(0, 0, bytes.fromhex(x)) for x in FORMS]
    for following, reach in ADDRESSES:
        cases += packages_at(following, reach)
    # Sums of 65,535 and just above.
    cases += [(3, 3, package(b"\xff" * n)) for n in (257, 258, 258)] + [(0, 0, package(bytes(range(256))))]
    return [b"\7" + following.to_bytes(3, "big") + reach.to_bytes(3, "big") + p for following, reach, p in cases]


# ---- loads

# Address, how to pack, reach: the bounds of a lawful load, and the largest.
LOADS = [(0x7000, 0, 0), (0x7000, 3, 3), (0x6FFF, 0, 3), (0xC203, 1, 1), (0x7000, 0, 62985), (0x7000, 0, 62984),
         (0x7000, 0, 62983), (0x7000, 1, 20995), (0x7000, 1, 20996), (0x7000, 2, 41990), (0x7000, 2, 41989), (0x7000, 2, 41991),
         (0x8000, 0, 49152), (0xC000, 2, 1023), (0x7800, 1, 2048), (0xFFFFFF, 0, 1)]


def load_cases():
    short = [(a, y, reach) for y in range(3) for reach in range(1, 8) for a in (0x7000, 0xC201)]
    return [b"\x08" + a.to_bytes(3, "big") + bytes([y]) + reach.to_bytes(3, "big") for a, y, reach in short + LOADS]


def cases():
    return line_cases() + echo_cases() + package_cases() + load_cases()
