#!/usr/bin/env python3
"""Writes the tables from the rows of the code: python3 docs/make_tables.py > src/tables.rt, and
python3 docs/make_tables.py words > src/word_tables.rt, then rt fmt."""

import sys

ROWS = {
    "10": "0100",
    "11": "1000",
    "000": "000100",
    "010": "100100",
    "011": "001000",
    "0010": "00100100",
    "0011": "00001000",
}
WORD_BITS = 24
TAIL = "011"


def beginnings(sides, step):
    """The proper beginnings of the sides, in steps of so many bits, by length and then by value."""
    found = {side[:k] for side in sides for k in range(0, len(side), step)}
    return sorted(found, key=lambda beginning: (len(beginning), beginning))


def advance(pending, bits):
    """What the bits complete after pending ones: the channel bits, and the bits pending then."""
    channel = ""
    for bit in bits:
        pending += bit
        if pending in ROWS:
            channel += ROWS[pending]
            pending = ""
    return channel, pending


def read(pending, channel):
    """The bits and flags that channel bits settle after pending ones, and the channel bits pending then."""
    sides = {right: left for left, right in ROWS.items()}
    waiting = beginnings(ROWS.values(), 2)
    bits, flags = "", ""
    for k in range(0, len(channel), 2):
        pending += channel[k : k + 2]
        while pending not in waiting:
            if pending in sides:
                bits += sides[pending]
                flags += "0" * len(sides[pending])
                pending = ""
            else:
                bits += "0"
                flags += "1"
                pending = pending[2:]
    return bits, flags, pending


def placed(pending, bits):
    """The channel bits that bits complete as a number, the first the lowest, above six places less two for each pending bit."""
    channel, _ = advance(pending, bits)
    return int("0" + channel[::-1], 2) << 6 - 2 * len(pending)


def literal(name, kind, doc, numbers):
    print(f"/// {doc}")
    print(f"pub(crate) const {name}: [{kind}; {len(numbers)}] = [")
    for k in range(0, len(numbers), 16):
        print("    " + ", ".join(str(n) for n in numbers[k : k + 16]) + ",")
    print("];")
    print()


def word_tables():
    print("//! Tables for words of channel bits, written by docs/make_tables.py.")
    print()
    states = beginnings(ROWS, 1)
    entries = [placed(pending, f"{byte:08b}") for pending in states for byte in range(256)]
    doc = "The channel bits that a byte completes, the first the lowest, above six places less two for each bit that was pending."
    literal("PLACED", "u32", doc, entries)
    tails = [placed(pending, TAIL) for pending in states]
    literal("TAILS", "u32", "The channel bits that the tail completes, in each state, placed likewise.", tails)
    settled, following = [], []
    waiting = beginnings(ROWS.values(), 2)
    for channel in range(256):
        # The first of the eight channel bits is the lowest. Of sixteen places the last six, which no state has, are as the first.
        entries, row = [], 0
        for state, pending in enumerate(waiting):
            spelled, flagged, then = read(pending, f"{channel:08b}"[::-1])
            low = "0" * (len(then) // 2)
            entries.append(int("0" + spelled + low, 2) + (int("0" + flagged + low, 2) << 16))
            row += waiting.index(then) << 4 * state + 2
        settled += entries + 6 * entries[:1]
        following.append(row)
    doc = "The bits that eight channel bits settle in each state, above a place for each pair that is pending then, and from bit 16 on which are flagged."
    literal("SETTLED", "u32", doc, settled)
    literal("FOLLOWING", "u64", "The states after eight channel bits, four bits for each state before them, from bit 2 on.", following)


def bit_tables():
    print("//! Tables by state and eight bits, written by docs/make_tables.py.")
    print()

    states = beginnings(ROWS, 1)
    words, after = [], []
    for pending in states:
        for byte in range(256):
            channel, then = advance(pending, f"{byte:08b}")
            words.append(int(channel.ljust(WORD_BITS, "0"), 2))
            after.append(256 * states.index(then))
    literal("WORDS", "u32", "The channel bits that a byte completes, from the highest of 24 bits on.", words)
    literal("PENDING", "u16", "Where the entries of the state after the byte begin.", after)

    states = beginnings(ROWS.values(), 2)
    bits, flags, after = [], [], []
    for pending in states:
        for channel in range(256):
            spelled, flagged, then = read(pending, f"{channel:08b}")
            low = "0" * (len(then) // 2)
            bits.append(int("0" + spelled + low, 2))
            flags.append(int("0" + flagged + low, 2))
            after.append(256 * states.index(then))
    literal("BITS", "u8", "The bits that eight channel bits settle, above a place for each pair that is pending then.", bits)
    literal("FLAGS", "u8", "Which of those bits are flagged.", flags)
    literal("WAITING", "u16", "Where the entries of the state after the eight channel bits begin.", after)

    digits = {"0": "false", "1": "true"}
    spread = [digits[bit] for byte in range(256) for bit in f"{byte:08b}"]
    literal("SPREAD", "bool", "The eight bits of each byte, one byte after another.", spread)


if sys.argv[1:] == ["words"]:
    word_tables()
else:
    bit_tables()
