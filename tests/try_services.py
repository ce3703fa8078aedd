"""The lines that the program `try_services` must print.

    python3 tests/try_services.py > crates/try_services/stdout

They are those of the model of 01's services with Requests 101, 106 and 111, tests/model/services.py. The samples and
calls stand here and in the program, crates/try_services/src. A sum is Adler-32, begun at 0.

    grid LENGTH SUM                     a grid, which the lines below it are about
    mesh NUMBER level LEVEL             the level of a mesh
    from LEVEL count COUNT              how many meshes are at or above a level
    overlay FIRST SECOND THIRD laid SUM
                                        lengths of the three grids, and the third's sum after the call;
                                        before it the third is all `FF`
    clock FROM TO steps STEPS           clock steps
    part PART LENGTH SUM                a part that the writer made
    altered, preceded, followed, cut, nothing LENGTH SUM
                                        that part with one byte altered, with a byte before it, with a byte
                                        behind it, without its last byte, and no byte of it
    text K LENGTH SUM                   the payload of data text K of the bytes in the line above
    taken TAKEN PLACE left BYTES        bytes left after so many bytes of the part in the heading above, which
                                        a fresh receiver with all twenty marks is given byte by byte, where
                                        the state has this place; with 0 bytes taken, of a fresh receiver
    state PLACE KIND PICTURE PART DUE CHECK SEEN-COUNT MARKS DIGITS set COUNT left BYTES
                                        how many of the twenty marks are set, and bytes left, in a state of
                                        these numbers. The twelve digits that wait are two hexadecimal digits
                                        each, the first one first

Where a service refuses, `refused` and the row of 01 stand in place of the last word and its number. In an
overlay's line they stand in place of `laid`, and the sum is that of the third grid as it was.
"""

import sys
import zlib
from pathlib import Path

sys.dont_write_bytecode = True
sys.path.insert(0, str(Path(__file__).resolve().parent / "model"))
import services
import texts
from receiver import ALL_MARKS, Receiver
from services import Refused
from texts import CONTROL, FF, GRID, INTENSITY, QUALITY, TOP, WriterHeader

LINES = []


# Words and numbers, as they come
def line(*items):
    LINES.append(" ".join(str(item) for item in items))


def adler(data):
    return zlib.adler32(bytes(data), 0)


# A line that ends with a service's value under its name, or with its refusal. `wanted`, by hand, is either
def answer(start, name, found, wanted):
    assert wanted is None or found == wanted, f"{start}: {wanted} by hand, {found} by the model"
    line(*start, *(("refused", found.row) if isinstance(found, Refused) else (name, found)))


# ---- Samples

# The bytes that a part may carry, in rising order
ALLOWED = {part: bytes(b for b in range(256) if texts.is_payload_byte(part, b)) for part in texts.PARTS}
assert [len(ALLOWED[part]) for part in texts.PARTS] == [225, 9, 129]


# The two sample grids, in as many bytes as a call has: all 225 bytes in turn, in two orders
def first_grid(size=GRID):
    return bytes(ALLOWED[INTENSITY][(16 * i + 27) % 225] for i in range(size))


def second_grid(size=GRID):
    return bytes(ALLOWED[INTENSITY][(7 * i + 200) % 225] for i in range(size))


FIRST, SECOND = first_grid(), second_grid()
assert set(FIRST) == set(SECOND) == set(ALLOWED[INTENSITY]) and FIRST[:2] == b"\x1C\x2D"


# `data` with `b` at `place`
def altered(data, place, b):
    return data[:place] + bytes([b]) + data[place + 1:]


# ---- Levels and counts

def mesh(grid, number, wanted=None):
    answer(("mesh", number), "level", services.mesh_level(grid, number), wanted)


def count(grid, level, wanted=None):
    answer(("from", level), "count", services.meshes_from(grid, level), wanted)


def all_levels(grid, known):
    for level in range(16):
        count(grid, level, {0: 40_000, 15: Refused(41), **known}.get(level))


def levels():
    line("grid", len(FIRST), adler(FIRST))
    # From the first two bytes, by hand
    known = {0: Refused(41), 1: 1, 2: 12, 3: 2, 4: 13, 40_001: Refused(41), 4_294_967_295: Refused(41)}
    for number in (0, 1, 2, 3, 4, 19_999, 20_000, 39_999, 40_000, 40_001, 4_294_967_295):
        mesh(FIRST, number, known.get(number))
    all_levels(FIRST, {})
    # 225 bytes have each level in 30 meshes; the grid has them 88 times, and 200 bytes more
    for level in range(15):
        assert 88 * 30 * (15 - level) <= services.meshes_from(FIRST, level) <= 89 * 30 * (15 - level)


# Bytes `00`, whose meshes count at level 0 alone: a grid of nothing else, and one with a stretch that has every
# allowed byte
def dry():
    line("grid", GRID, adler(bytes(GRID)))
    all_levels(bytes(GRID), dict.fromkeys(range(1, 15), 0))
    stretch = first_grid(339)
    grid = bytes(5001) + stretch + bytes(GRID - 5340)
    line("grid", len(grid), adler(grid))
    all_levels(grid, {})
    # 339 bytes are the 225 once, and 114 of them again
    for level in range(1, 15):
        assert 30 * (15 - level) <= services.meshes_from(grid, level) <= 60 * (15 - level)


# A grid that is refused with `row` whatever is asked; where `row` is None only what there is not is refused
def asked(grid, row):
    line("grid", len(grid), adler(grid))
    mesh(grid, 1, row)
    mesh(grid, 40_001, row or Refused(41))
    count(grid, 1, row)
    count(grid, 15, row or Refused(41))


def refusals():
    sample = first_grid(20_001)
    for size in (19_999, 20_001, 0):
        asked(altered(sample, 0, 0)[:size], Refused(42))
    for place, high, low in ((0, 0xF0, 0x0F), (10_000, 0xFE, 0xEF), (19_999, 0xF0, 0x0F)):
        for b in (high, low):
            asked(altered(sample, place, b)[:GRID], Refused(43))
    # 42 comes before 43; and what lies behind a grid is none of it
    asked(altered(sample, 0, 0xFF)[:19_999], Refused(42))
    asked(altered(sample, 20_000, 0xFF), Refused(42))
    asked(altered(sample, 20_000, 0xFF)[:GRID], None)


# ---- Overlays

# `wanted`, by hand, is a refusal, the third grid after the call, or None where neither is known
def overlay(first, second, size, wanted=None):
    third = b"\xFF" * size
    refused, after = services.overlay(first, second, third)
    start = ("overlay", len(first), len(second), size)
    if refused is None:
        assert len(after) == GRID and not isinstance(wanted, Refused) and wanted in (None, after)
        line(*start, "laid", adler(after))
    else:
        assert refused == wanted and after == third
        line(*start, "refused", refused.row, adler(after))


def overlays():
    zeros = bytes(GRID)
    for grid in (FIRST, SECOND):
        line("grid", GRID, adler(grid))
    both = services.overlay(FIRST, SECOND, zeros)[1]
    assert both not in (FIRST, SECOND)
    overlay(FIRST, SECOND, GRID, both)
    overlay(SECOND, FIRST, GRID, both)
    overlay(FIRST, FIRST, GRID, FIRST)
    overlay(SECOND, SECOND, GRID, SECOND)
    overlay(FIRST, zeros, GRID, FIRST)
    overlay(zeros, SECOND, GRID, SECOND)


# The two sample grids in `a` and `b` bytes, with these bytes at `place`, and a third in `c` bytes
def altered_overlay(a, b, c, place, one, other, wanted=None):
    overlay(altered(first_grid(20_001), place, one)[:a], altered(second_grid(20_001), place, other)[:b], c, wanted)


def overlay_refusals():
    for n in (19_999, 20_001, 0):
        for lengths in ((n, GRID, GRID), (GRID, n, GRID), (GRID, GRID, n)):
            altered_overlay(*lengths, 0, 0, 0, Refused(42))
    for place in (0, 10_000, 19_999):
        for pair in ((0xF0, 0), (0x0F, 0), (0, 0xF0), (0, 0x0F)):
            altered_overlay(GRID, GRID, GRID, place, *pair, Refused(43))
    # 42 comes before 43; and what lies behind a grid is none of it
    for lengths in ((19_999, GRID, GRID), (GRID, 20_001, GRID), (GRID, GRID, 19_999)):
        altered_overlay(*lengths, 0, 0xFF, 0xFF, Refused(42))
    altered_overlay(GRID, GRID, GRID, 20_000, 0xFF, 0xFF)


# ---- Clocks

# With the steps by hand
CLOCKS = ((0, 0, 0), (0, 1, 1), (1, 0, 16_383), (16_383, 0, 1), (0, 16_383, 16_383), (65_535, 0, 1),
          (0, 65_535, 16_383), (16_384, 0, 0), (5, 65_530, 16_373), (40_000, 3, 9_155))


def clocks():
    for a, b, steps in CLOCKS:
        answer(("clock", a, b), "steps", services.clock_steps(a, b), steps)


# ---- Stored parts

# The minute is that of 1999.06.07.12.10
WRITER_HEADER = WriterHeader(-298_790, (0xA0, 0xA7, 0xB3, *(0,) * 5), 9983, 0xCC)
MODES = (2, 1, 3, *(0,) * 5)

# Payloads: the first sample grid, echo tops in turn, and the hundred highest values of quality
SAMPLES = {
    INTENSITY: FIRST,
    TOP: bytes(ALLOWED[TOP][i % 9] for i in range(400)),
    QUALITY: ALLOWED[QUALITY][-100:],
}


# A part with data, or with a payload of all zeros
def made(part, echoes=True):
    payload = SAMPLES[part] if echoes else bytes(texts.payload_length(part))
    return texts.written_part(part, WRITER_HEADER, MODES, payload)


def text(data, k, wanted):
    found = services.text_payload(data, k)
    assert found == wanted
    line("text", k, len(found), adler(found))


# "empty unless these are exactly one undamaged part": text 1 of bytes that are not
def damaged(word, data):
    line(word, len(data), adler(data))
    text(data, 1, b"")


# `shares` are the payloads of its data texts, by hand
def part_lines(part, data, length, shares):
    assert len(data) == length
    line("part", part, length, adler(data))
    for k in (*range(13), 255):
        text(data, k, shares[k - 1] if 1 <= k <= len(shares) else b"")
    damaged("preceded", b"\x16" + data)
    damaged("followed", data + b"\x16")
    damaged("nothing", b"")
    damaged("cut", data[:-1])
    middle = length // 2
    damaged("altered", altered(data, middle, data[middle] ^ 1))


def payloads():
    tops, qualities = bytes(i % 9 for i in range(400)), bytes(range(0x1D, 0x81))
    part_lines(INTENSITY, made(INTENSITY), 20_190, [FIRST[i:i + 2000] for i in range(0, GRID, 2000)])
    part_lines(TOP, made(TOP), 491, [tops])
    part_lines(QUALITY, made(QUALITY), 191, [qualities])
    # NO ECHO: no data texts
    part_lines(INTENSITY, made(INTENSITY, False), 80, [])


# ---- Bytes left

# Bytes taken up to the end of each text of a part, by hand: start text, data texts, end text
ENDS = {
    INTENSITY: (40, *(40 + 2_011 * k for k in range(1, 11)), 20_190),
    TOP: (40, 451, 491),
    QUALITY: (40, 151, 191),
}
# The first three places, one within, and the last three of a text with a block of 32 bytes, 103, 403 and 2,003
SHOWN = {1, 2, 3, 17} | {32, 33, 34} | {103, 104, 105} | {403, 404, 405} | {2003, 2004, 2005}


# By hand: answer, place and bytes left after so many bytes of a part whose texts end so. The five control bytes
# stand between texts, and the kind is read at place 3
def by_hand(ends, taken):
    before = [end for end in ends if end < taken]
    end = ends[len(before)]
    if taken == end:
        return 1 if not before else 3 if end == ends[-1] else 2, 0, 0
    place = max(0, taken - max(before, default=0) - 5)
    return 0, place, end - taken if place >= 3 else 0


# Of the three parts, after each byte that is answered and at places that are shown; by hand after each byte
def left():
    answer(("taken", 0, 0), "left", services.bytes_left(Receiver(ALL_MARKS)), 0)
    last = []
    for part, ends in ENDS.items():
        data = made(part)
        assert len(data) == ends[-1]
        line("part", part, len(data), adler(data))
        receiver = Receiver(ALL_MARKS)
        for taken, b in enumerate(data, 1):
            # The figure 1 stands right before each text's `FF`, and nowhere else
            assert (services.bytes_left(receiver) == 1) == (taken in ends)
            if taken in ends:
                assert b == FF
                last.append(receiver.kind)
            said = receiver.byte(b)
            wanted_said, place, wanted = by_hand(ends, taken)
            assert said == wanted_said and receiver.place == place
            assert services.bytes_left(receiver) == wanted
            if said != 0 or place in SHOWN:
                answer(("taken", taken, place), "left", services.bytes_left(receiver), wanted)
    assert bytes(last) == bytes.fromhex("10 11 12 13 14 15 16 17 18 19 1A 1F 20 21 2F 30 31 3F")


# Place, kind, picture code, part, due text, check byte, count of the bytes seen, marks; how many marks are set, and
# bytes left, by hand
STATES = [
    # The longest text: its first place with the kind read, within, and its last
    (3, 0x11, 0xCC, 1, 1, 0, 5, ALL_MARKS, 20, 2_003),
    (1000, 0x15, 0xCC, 1, 5, 0, 5, ALL_MARKS, 20, 1_006),
    (2005, 0x1A, 0xCC, 1, 10, 0, 5, ALL_MARKS, 20, 1),
    # Before the kind is read, with no part open and with one
    (1, 0, 0, 0, 0, 0, 5, ALL_MARKS, 20, 0),
    (2, 0, 0xCC, 0, 0, 0, 5, ALL_MARKS, 20, 0),
    (2, 0, 0xCC, 1, 3, 0, 5, ALL_MARKS, 20, 0),
    # The other lengths: a start text before its `FF`, another before its `FE`, an end text with its kind just
    # read, data of echo top and of quality before their `FE` and their `FF`
    (34, 0x10, 0xCC, 0, 0, 0, 5, ALL_MARKS, 20, 1),
    (32, 0x30, 0xCC, 0, 0, 0, 5, ALL_MARKS, 20, 3),
    (3, 0x1F, 0xCC, 1, 11, 0, 5, ALL_MARKS, 20, 32),
    (403, 0x21, 0xCC, 2, 1, 0, 5, ALL_MARKS, 20, 3),
    (405, 0x21, 0xCC, 2, 1, 0, 5, ALL_MARKS, 20, 1),
    (103, 0x31, 0xCC, 3, 1, 0, 5, ALL_MARKS, 20, 3),
    (105, 0x31, 0xCC, 3, 1, 0, 5, ALL_MARKS, 20, 1),
    # Between texts: with a part open, and with none
    (0, 0, 0, 1, 3, 0, 5, ALL_MARKS, 20, 0),
    (0, 0, 0, 0, 0, 0, 5, ALL_MARKS, 20, 0),
    # Request 101: no mark; the picture under way marked, and unmarked, which does not make a state impossible;
    # every second mark, from `C1` on
    (0, 0, 0, 0, 0, 0, 5, 0, 0, 0),
    (17, 0x10, 0xCC, 0, 0, 0, 5, 128, 1, 18),
    (17, 0x10, 0xCC, 0, 0, 0, 5, 1, 1, 18),
    (0, 0, 0, 0, 0, 0, 5, 699_050, 10, 0),
    # Not possible: past a text's last place, place 3 with no kind, a picture code at place 0, a data kind with
    # no part open, an end kind where data is due, six bytes seen; past the last place of quality's data and of
    # echo top's
    (2006, 0x1A, 0xCC, 1, 10, 0, 5, ALL_MARKS, 20, Refused(2)),
    (35, 0x10, 0xCC, 0, 0, 0, 5, ALL_MARKS, 20, Refused(2)),
    (65_535, 0x10, 0xCC, 0, 0, 0, 5, ALL_MARKS, 20, Refused(2)),
    (3, 0, 0xCC, 0, 0, 0, 5, ALL_MARKS, 20, Refused(2)),
    (0, 0, 0xCC, 0, 0, 0, 5, ALL_MARKS, 20, Refused(2)),
    (3, 0x11, 0xCC, 0, 0, 0, 5, ALL_MARKS, 20, Refused(2)),
    (3, 0x2F, 0xCC, 2, 1, 0, 5, ALL_MARKS, 20, Refused(2)),
    (0, 0, 0, 0, 0, 0, 6, ALL_MARKS, 20, Refused(2)),
    (106, 0x31, 0xCC, 3, 1, 0, 5, ALL_MARKS, 20, Refused(2)),
    (406, 0x21, 0xCC, 2, 1, 0, 5, ALL_MARKS, 20, Refused(2)),
    # ... and marks beyond the twentieth, which are not counted: the twenty-first, with the first too, the last of
    # 32, and all
    (0, 0, 0, 0, 0, 0, 5, 1_048_576, 0, Refused(2)),
    (0, 0, 0, 0, 0, 0, 5, 1_048_577, 1, Refused(2)),
    (0, 0, 0, 0, 0, 0, 5, 2_147_483_648, 0, Refused(2)),
    (0, 0, 0, 0, 0, 0, 5, 4_294_967_295, 20, Refused(2)),
]
# Request 111: place, kind, picture code, part, due text, check byte, count of the bytes seen; the digits that wait, two
# hexadecimal digits each; bytes left, by hand. All marks are set
DIGITS = [
    # The first place of a start text with digits, and the last: 35 bytes come from the `FD` on
    ((9, 0x10, 0xCC, 0, 0, 0, 5), "09 00 00 00 00 00 00 00 00 00 00 00", 26),
    ((23, 0x20, 0xCC, 0, 0, 0, 5), "09 09 09 09 09 09 09 09 09 09 09 09", 12),
    # Not possible: a digit above 9; one that is not 0 before byte 8 and after byte 23, between texts, in an end text
    ((17, 0x10, 0xCC, 0, 0, 0, 5), "0A 00 00 00 00 00 00 00 00 00 00 00", Refused(2)),
    ((8, 0x10, 0xCC, 0, 0, 0, 5), "01 00 00 00 00 00 00 00 00 00 00 00", Refused(2)),
    ((24, 0x10, 0xCC, 0, 0, 0, 5), "00 00 00 00 00 00 00 00 00 00 00 01", Refused(2)),
    ((0, 0, 0, 0, 0, 0, 5), "00 00 00 00 00 00 00 00 00 00 00 01", Refused(2)),
    ((12, 0x1F, 0xCC, 1, 11, 0, 5), "01 00 00 00 00 00 00 00 00 00 00 00", Refused(2)),
]


def state(frame, digits, marked, wanted):
    receiver = Receiver()
    (receiver.place, receiver.kind, receiver.picture, receiver.part, receiver.due, receiver.check,
     seen, receiver.marks) = frame
    receiver.seen, receiver.digits = CONTROL.rjust(seen, b"\0"), tuple(digits)
    assert receiver.marks_set() == marked and len(receiver.digits) == 12
    start = ("state", *frame, digits.hex().upper(), "set", marked)
    answer(start, "left", services.bytes_left(receiver), wanted)


def states():
    for *frame, marked, wanted in STATES:
        state(frame, bytes(12), marked, wanted)
    for frame, digits, wanted in DIGITS:
        state((*frame, ALL_MARKS), bytes.fromhex(digits), 20, wanted)


if __name__ == "__main__":
    levels()
    dry()
    refusals()
    overlays()
    overlay_refusals()
    clocks()
    payloads()
    left()
    states()
    print("\n".join(LINES))
