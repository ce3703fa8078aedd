"""The input of the program `try_byte_call`, and the counts that it must print for it.

    python3 tests/try_byte_call.py --stream > crates/try_byte_call/stdin
    python3 tests/try_byte_call.py > crates/try_byte_call/stdout

The counts are those of the model of 01's receiver with all twenty marks, tests/model/receiver.py: for each
answer but 0 that came, the answer, a space, how many bytes had it. The stream is one after the other of the
pieces below, short parts, undamaged and damaged. Each piece is given with the answers that it must get, worked
out by hand from 01's table; where the model gives others, this ends with an error. "Row" is a row of that table.
"""

import sys
from collections import Counter

sys.dont_write_bytecode = True
from listen import (QUALITY_BEGUN, QUALITY_HIGH, QUALITY_LOW, QUALITY_PAYLOAD, THREE_RADARS, TOP_BEGUN,
                            TOP_PAYLOAD, TOP_TAKEN, data, end, start, whole, with_extra)
from receiver import ALL_MARKS, SAMPLE_END, SAMPLE_START, Receiver
from texts import FD, FE, FF, INTENSITY, OPENING, QUALITY, TOP

NO_ECHO = start(INTENSITY, noecho=True) + end(INTENSITY)
WITH_TOPS = whole(TOP, TOP_PAYLOAD, modes=(2, 1, 1), mode=2, radars=THREE_RADARS)
WITH_QUALITY = whole(QUALITY, QUALITY_PAYLOAD, picture=0xF1)
QUALITY_DATA = data(QUALITY, 1, QUALITY_PAYLOAD)
assert [len(part) for part in (NO_ECHO, WITH_TOPS, WITH_QUALITY)] == [80, 491, 191]


# Any one byte altered
def altered(made, place, b):
    assert made[place] != b
    return made[:place] + bytes([b]) + made[place + 1:]


# ---- The pieces, each with its answers

PIECES = [
    (NO_ECHO, (1, 3)),
    (WITH_TOPS, (1, 2, 3)),
    (WITH_QUALITY, (1, 2, 3)),
    # Every value that a quality payload may have
    (whole(QUALITY, QUALITY_LOW) + whole(QUALITY, QUALITY_HIGH), (1, 2, 3) * 2),
    (bytes(range(256)), ()),  # noise with no part open
    (NO_ECHO * 9, (1, 3) * 9),  # so that a count has two digits
    # Row 11: an opening in quality payload, and the new text goes on
    (QUALITY_BEGUN + QUALITY_DATA[:40] + SAMPLE_START + SAMPLE_END, (1, 11, 1, 3)),
    # Row 12: a byte between the texts of a part, or an opening's byte altered; the end text has no part
    # open in the first (row 16), and is not found in the second
    (TOP_TAKEN + b"\x00" + end(TOP), (1, 2, 12, 16)),
    (altered(NO_ECHO, 43, 0x16), (1, 12)),
    # Rows 13 to 17: no picture code, none of the kinds, a start text while a part is open, a text that is
    # not the due one, another picture code. A later text then has no part open (row 16)
    (altered(NO_ECHO, 6, 0xCD), (13, 16)),
    (altered(WITH_QUALITY, 47, 0x22), (1, 14, 16)),
    (TOP_BEGUN + NO_ECHO, (1, 15, 1, 3)),
    (TOP_BEGUN + end(TOP) + SAMPLE_END, (1, 16, 16)),
    (altered(NO_ECHO, 46, 0xC0), (1, 17)),
    # Row 18: an echo top 9, and a second radar that is not above the first
    (TOP_BEGUN + data(TOP, 1, TOP_PAYLOAD, {3: 9}) + end(TOP), (1, 18, 16)),
    (start(TOP, radars=bytes.fromhex("A5 A3 00 00 00 00 00 00")), (18,)),
    # ... and quality's bit 7 with a cause beside it, and what no payload has
    *((QUALITY_BEGUN + data(QUALITY, 1, QUALITY_PAYLOAD, {place: b}) + end(QUALITY), (1, 18, 16))
      for place, b in ((3, 0x81), (3, FF), (52, 0xC0), (53, FE), (102, 0x81), (102, FD))),
    # Request 111: the first and the last minute, leap days, and the days around those that are none
    *((start(TOP, noecho=True, time=time) + end(TOP), (1, 3))
      for time in ("000001010000", "999912312359", "199912312359", "200001010000", "000002290000", "200002292359",
                   "190002282359", "190003010000", "210002282359", "210003010000", "199909091919", "999602290000")),
    # ... and times that are none: row 18 at byte 23; the end text has no part open (row 16)
    *((start(TOP, noecho=True, time=time) + end(TOP), (18, 16))
      for time in ("000000010000", "000001000000", "999912312400", "999912312360", "199902290000", "190002290000",
                   "210002290000", "200002300000", "999913312359", "999912322359", "999999999999")),
    # Row 19: a payload byte too many
    (QUALITY_BEGUN + with_extra(QUALITY_DATA, 50, 0x05), (1, 19)),
    # Row 20: a payload byte altered to an allowed one; row 21: the `FF`
    (altered(WITH_TOPS, 200, (WITH_TOPS[200] + 1) % 9), (1, 20, 16)),
    (altered(WITH_QUALITY, 48 + QUALITY_PAYLOAD.index(0x40), 0x41), (1, 20, 16)),
    (altered(WITH_QUALITY, 190, FE), (1, 2, 21)),
    # Row 22: status 2 says mode 1, and the radar's mode is 2
    (start(TOP, noecho=True) + end(TOP, (2,)), (1, 22)),
    # A text that never ends
    (OPENING + b"\xCC\x10\x00", ()),
]

STREAM = b"".join(made for made, _ in PIECES)
assert len(STREAM) < 12_000


# How many bytes had each answer
def counts():
    receiver = Receiver(ALL_MARKS)
    found = Counter()
    for number, (made, answers) in enumerate(PIECES):
        got = tuple(filter(None, map(receiver.byte, made)))
        assert got == answers, f"piece {number}: answers {answers} by hand, {got} by the model"
        found.update(got)
    assert set(found) == {1, 2, 3, *range(11, 23)}
    return found


if __name__ == "__main__":
    if sys.argv[1:] == ["--stream"]:
        sys.stdout.buffer.write(STREAM)
    else:
        for answer, count in sorted(counts().items()):
            print(answer, count)
