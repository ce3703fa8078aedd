"""A fixed stream for the listening program, and the lines that it must print for it.

    python3 tests/listen.py --stream > listen.bin
    python3 tests/listen.py > listen.txt

The lines are those of the model of 01's receiver with all twenty marks, tests/model/receiver.py: "one line
for each answer but 0: bytes read so far, a space, the answer". The stream is one after the other of the
pieces below. Each piece is given with the answers that it must get, worked out by hand from 01's table;
where the model gives others, this ends with an error. "Row" is a row of that table. The last pieces are
parts with altered bytes, by Request 113 and outside its limits; tests/altered.py has more of these, by chance.
"""

import sys
from pathlib import Path

sys.dont_write_bytecode = True
sys.path.insert(0, str(Path(__file__).resolve().parent / "model"))
import texts
from receiver import ALL_MARKS, SAMPLE_END, SAMPLE_START, listen
from texts import CONTROL, FD, FE, INTENSITY, OPENING, PICTURES, QUALITY, TOP

PIECES = []


# A piece of the stream, and the answers to it
def piece(data, *answers):
    PIECES.append((bytes(data), answers))


# ---- Building

ONE_RADAR = (0xA5, 0, 0, 0, 0, 0, 0, 0)
THREE_RADARS = (0xA0, 0xA7, 0xB3, 0, 0, 0, 0, 0)
EIGHT_RADARS = (0xA5, 0xA7, 0xAF, 0xB0, 0xB1, 0xB3, 0xB5, 0xB6)


# 1999.06.07.12.10
def header(picture=0xCC, radars=ONE_RADAR, mode=1, clock=9983, noecho=False):
    return texts.Header(-298_790, radars, clock, picture, mode, noecho)


# A start, data or end text, with some block bytes set otherwise than 01 has them, given as
# {place: byte}; the check byte is then that of the changed block
def text(block, changes={}):
    block = bytearray(block)
    for place, b in changes.items():
        block[place] = b
    return texts.make_text(bytes(block))


# `time` is twelve digits, also such as no minute has
def start(part, changes={}, time="199906071210", **fields):
    in_bytes = texts.time_bytes(tuple(map(int, time)))
    return text(texts.start_block(part, header(**fields)), {**dict(enumerate(in_bytes, 8)), **changes})


def data(part, k, payload, changes={}, picture=0xCC):
    return text(texts.data_block(part, k, picture, payload), changes)


def end(part, modes=(1,), changes={}, picture=0xCC):
    return text(texts.end_block(part, picture, (*modes, *(0,) * (8 - len(modes)))), changes)


# A data text whose check byte is `wanted`: the first payload byte that can is moved by what is missing
def with_check(made, wanted):
    missing = made[-2] ^ wanted
    moved = (made[:i] + bytes([made[i] ^ missing]) + made[i + 1:-2] + bytes([wanted, 0xFF])
             for i in range(8, len(made) - 3))
    return next(filter(texts.undamaged_text, moved))


# A text without the byte at `place` of its block; with `b` put in before it
def without(made, place):
    return made[:5 + place] + made[6 + place:]


def with_extra(made, place, b):
    return made[:5 + place] + bytes([b]) + made[5 + place:]


# Three pieces: `front` with its answers; a text's bytes before place `place` of its block, all quiet; the
# byte at that place, with its answer. After a block of n bytes, n is the `FE`'s place, n + 1 the check
# byte's and n + 2 the `FF`'s. What is left of the text is not sent.
def answered_at(place, answer, made, front=b"", answers=()):
    piece(front, *answers)
    piece(made[:5 + place])
    piece(made[5 + place:6 + place], answer)


# ---- Payloads: levels 0 to 14 in uneven turns

def level(n):
    return (n * n // 7 + n // 40) % 15


# 40,000 meshes; levels 1 and 6 side by side, `16`, come about, and once the five control bytes
INTENSITY_PAYLOAD = bytearray(level(2 * i + 1) << 4 | level(2 * i + 2) for i in range(20_000))
INTENSITY_PAYLOAD[12_345:12_350] = CONTROL
TOP_PAYLOAD = bytes(i * i // 3 % 9 for i in range(400))
# Bit 7 alone at both ends, and causes in between: the even values, and the odd ones from `3F` on
QUALITY_PAYLOAD = bytes([0x80, *range(0x00, 0x80, 2), *range(0x3F, 0x80, 2), 0x40, 0x80])
assert 0x16 in INTENSITY_PAYLOAD[:2000] and max(TOP_PAYLOAD) == 8
assert len(QUALITY_PAYLOAD) == 100 and {0x00, 0x3F, 0x40, 0x41, 0x7F, 0x80} <= set(QUALITY_PAYLOAD)
# Every value that a quality payload may have, in two payloads
QUALITY_LOW, QUALITY_HIGH = bytes(range(0x00, 0x64)), bytes(range(0x1D, 0x81))

INTENSITY_ANSWERS = (1, *(2,) * 10, 3)  # the answers to an intensity part with its data texts


def whole(part, payload, modes=(1,), changes={}, **fields):
    made = start(part, changes, **fields)
    picture = fields.get("picture", 0xCC)
    for k in range(1, texts.data_texts(part, False) + 1):
        made += data(part, k, payload, picture=picture)
    return made + end(part, modes, picture=picture)


# The front of parts, to be followed by what is tried
TOP_BEGUN = start(TOP)  # 1; data text 1 is due
TOP_TAKEN = start(TOP) + data(TOP, 1, TOP_PAYLOAD)  # 1 2; the end text is due
INTENSITY_BEGUN = start(INTENSITY)  # 1; data text 1 is due
QUALITY_BEGUN = start(QUALITY)  # 1; data text 1 is due

# ---- 01's sample traffic

# "For the start text with `4F` (call it S) and then the end text with `D4`"
piece(SAMPLE_START + SAMPLE_END, 1, 3)
# "S twice", and the end text, so that no part is left open
piece(SAMPLE_START + SAMPLE_START + SAMPLE_END, 1, 15, 1, 3)
# "The first 20 bytes of S and then S", and the end text
piece(SAMPLE_START[:20] + SAMPLE_START + SAMPLE_END, 18, 1, 3)

# ---- Noise with no part open: "bytes between texts are free"

piece(bytes(range(256)))
piece(bytes([FD, FD, FE, 0xFF, FD, 0xCC, 0x10, 0x00]))
# Openings that break off, and control bytes without the `FD`: "Taking `16 16 16 10 02` without `FD` as
# an opening"
piece(bytes.fromhex("16 16 10 02 FD  16 16 16 02 FD  16 16 16 10 FD  16 16 16 10 02 CC  16 16 16 10 02 FE"))
piece(bytes.fromhex("16 16 16 10 16 02 FD  16 16 16 10 10 02 FD  16 16 16 10 02 02 FD"))
# An undamaged part but for its opening, which has a byte too few: nothing of it is a text, until the
# end text, which then has no part open (row 16)
piece(b"\x00" + (SAMPLE_START + SAMPLE_END)[1:], 16)
# The same with noise before it that ends in `16`: that byte is as good as the missing one
piece(b"\x02\x10\x16" + (SAMPLE_START + SAMPLE_END)[1:], 1, 3)
# One and more `16` too many before a start text: the last three are the opening's
piece(b"\x16" + SAMPLE_START + SAMPLE_END, 1, 3)
piece(b"\x16" * 50 + SAMPLE_START + SAMPLE_END, 1, 3)
# The control bytes, and then a whole opening
piece(CONTROL + SAMPLE_START + SAMPLE_END, 1, 3)

# ---- Whole parts

piece(whole(INTENSITY, INTENSITY_PAYLOAD, modes=(2, 1, 1), mode=2, radars=THREE_RADARS), *INTENSITY_ANSWERS)
piece(bytes.fromhex("00 16 FD 16 16 16 10 02"))  # noise between
piece(whole(TOP, TOP_PAYLOAD, picture=0xC0, time="000002290000"), 1, 2, 3)
piece(whole(QUALITY, QUALITY_PAYLOAD, picture=0xF1, time="999912312359"), 1, 2, 3)
# Nothing between the parts; eight radars with all modes
for_eight = {"modes": (1, 2, 3, 1, 2, 3, 1, 2), "mode": 3, "radars": EIGHT_RADARS}
piece(whole(QUALITY, bytes(100), clock=0, **for_eight) + whole(TOP, bytes(400), clock=16_383, **for_eight),
      1, 2, 3, 1, 2, 3)
# Quality: all values, and one value throughout: all causes, unknown alone
for payload in (QUALITY_LOW, QUALITY_HIGH, b"\x7F" * 100, b"\x80" * 100):
    piece(whole(QUALITY, payload), 1, 2, 3)
# NO ECHO: "intensity and echo top have no data texts; quality always has one"
piece(start(INTENSITY, noecho=True) + end(INTENSITY), 1, 3)
piece(start(TOP, noecho=True) + end(TOP), 1, 3)
piece(start(QUALITY, noecho=True) + data(QUALITY, 1, QUALITY_PAYLOAD) + end(QUALITY), 1, 2, 3)
# "Applying NO ECHO to quality": its end text is not the due one (row 16), nor the data text of a NO ECHO
# part, nor the end text of a part whose data text is due
piece(start(QUALITY, noecho=True) + end(QUALITY), 1, 16)
piece(start(TOP, noecho=True) + data(TOP, 1, bytes(400)), 1, 16)
piece(start(INTENSITY, noecho=True) + data(INTENSITY, 1, bytes(2000)), 1, 16)
piece(TOP_BEGUN + end(TOP), 1, 16)
piece(INTENSITY_BEGUN + end(INTENSITY), 1, 16)

# Meaningless bits. Status 1 `F7` is all bits but NO ECHO, `FD` has it; status 2 `AF` is mode 1 and all
# bits but the modes'
piece(start(TOP, {4: 0xF7, 5: 0xAF}) + data(TOP, 1, TOP_PAYLOAD) + end(TOP, changes={3: 0xAF}), 1, 2, 3)
piece(start(TOP, {4: FD}) + end(TOP), 1, 3)
piece(start(INTENSITY, {4: FD, 5: 0xC0}) + end(INTENSITY, changes={3: 0x6B}), 1, 3)
# Status 1 `FE` and `FF`, which are NO ECHO too
piece(start(TOP, {4: FE}) + end(TOP) + start(TOP, {4: 0xFF}) + end(TOP), 1, 3, 1, 3)

# Check bytes. "Finding `FD` as a check byte and starting there": every text of this part has the check byte
# `FD`; the clock and a meaningless bit of status 1 see to it in the start text, a payload byte in the data
# texts, and the picture code `E5` with mode 1 in the end text
fd_start = next(made for status in (0x00, 0x80) for clock in range(128)
                for made in [start(INTENSITY, {4: status}, picture=0xE5, clock=clock)] if made[-2] == FD)
fd_data = [with_check(data(INTENSITY, k, INTENSITY_PAYLOAD, picture=0xE5), FD) for k in range(1, 11)]
fd_end = end(INTENSITY, picture=0xE5)
assert fd_end[-2] == FD
piece(fd_start + b"".join(fd_data) + fd_end, *INTENSITY_ANSWERS)
# After that check byte not `FF` (row 21), but what would go on as a start text if the `FD` began one
piece(fd_start[:-1] + SAMPLE_START[6:], 21)
# Check bytes `16`, `FE`, `FF` and `00`
for wanted in (0x16, FE, 0xFF, 0x00):
    text_with = next(made for b in range(256) for made in [start(TOP, {4: b}, clock=8)] if made[-2] == wanted)
    rest = b"" if texts.no_echo_of(text_with[9]) else data(TOP, 1, TOP_PAYLOAD)
    piece(text_with + rest + end(TOP), *((1, 2, 3) if rest else (1, 3)))

# ---- Row 11: an opening ends while a text is under way

# In intensity payload: the new text is a start text, which goes on to its end
piece(INTENSITY_BEGUN + data(INTENSITY, 1, INTENSITY_PAYLOAD)[:700] + SAMPLE_START + SAMPLE_END, 1, 11, 1, 3)
# The same after payload that is all `16`: of these bytes in a row the last three are the opening's
piece(INTENSITY_BEGUN + data(INTENSITY, 1, b"\x16" * 2000)[:70] + SAMPLE_START + SAMPLE_END, 1, 11, 1, 3)
# The payload has the control bytes itself, and then only the `FD` comes, and a part goes on from it
piece(INTENSITY_BEGUN + data(INTENSITY, 1, CONTROL * 400)[:5 + 3 + 15] + SAMPLE_START[5:] + SAMPLE_END, 1, 11, 1, 3)
# As the block's last bytes: `FD` where `FE` is due is an opening's (row 11), not row 19
ends_so = bytes(1995) + CONTROL
piece(INTENSITY_BEGUN + data(INTENSITY, 1, ends_so)[:-3] + SAMPLE_START[5:] + SAMPLE_END, 1, 11, 1, 3)
# Without the `FD` these are payload; the end text is then not the due one (row 16)
piece(INTENSITY_BEGUN + data(INTENSITY, 1, ends_so) + end(INTENSITY), 1, 2, 16)
# In quality payload; the new text is the same part's data text, and no part is open any more (row 16)
piece(QUALITY_BEGUN + data(QUALITY, 1, QUALITY_PAYLOAD)[:40] + data(QUALITY, 1, QUALITY_PAYLOAD) + end(QUALITY),
      1, 11, 16, 16)
# The new text is damaged at once: no picture code (row 13)
piece(QUALITY_BEGUN + data(QUALITY, 1, QUALITY_PAYLOAD)[:40] + OPENING + b"\x00", 1, 11, 13)
# Echo top payload has no `16`: row 18 at the opening's first byte, and then the text is found
piece(TOP_BEGUN + data(TOP, 1, TOP_PAYLOAD)[:40] + SAMPLE_START + SAMPLE_END, 1, 18, 1, 3)

# ---- Row 12: part open, place 0, not the opening's due byte

piece(TOP_BEGUN + b"\x00", 1, 12)
piece(TOP_BEGUN + bytes([FD]) + data(TOP, 1, TOP_PAYLOAD) + end(TOP), 1, 12, 16, 16)
piece(TOP_TAKEN + b"\xFF\xFF", 1, 2, 12)  # the second `FF` is free
piece(TOP_BEGUN + b"\x16\x16\x10", 1, 12)
piece(TOP_BEGUN + b"\x16\x16\x16\x02", 1, 12)
piece(TOP_BEGUN + b"\x16\x16\x16\x10\x16", 1, 12)
piece(TOP_BEGUN + CONTROL + b"\xFE", 1, 12)
# A `16` too many: the fourth is not the due byte. But the last bytes seen are kept, and so the opening is
# found all the same: a start text goes on, a data text has no part open (row 16)
piece(TOP_BEGUN + b"\x16" + SAMPLE_START + SAMPLE_END, 1, 12, 1, 3)
piece(TOP_BEGUN + b"\x16" + data(TOP, 1, TOP_PAYLOAD), 1, 12, 16)

# ---- Row 13: block byte 1 not a picture code

for picture in (0x00, 0xC3, 0xCD, 0xF2, FD):
    answered_at(1, 13, start(TOP, picture=picture))
answered_at(1, 13, data(TOP, 1, TOP_PAYLOAD, picture=0xCD), TOP_BEGUN, (1,))
# The opening twice: the `16` is no picture code, and is kept
piece(OPENING + SAMPLE_START + SAMPLE_END, 13, 1, 3)

# ---- Row 14: byte 2 not one of the 18 kinds

for kind in (0x00, 0x0F, 0x1B, 0x1E, 0x22, 0x2E, 0x32, 0x40, FD):
    answered_at(2, 14, start(TOP, {2: kind}))
answered_at(2, 14, start(TOP, {2: 0x22}), TOP_BEGUN, (1,))
# ... with a part open and another picture code: row 14 comes first
answered_at(2, 14, start(TOP, {2: 0x22}, picture=0xC0), TOP_BEGUN, (1,))

# ---- Row 15: a start kind while a part is open

# Of another part and picture: it goes on, and its part is complete
other = whole(QUALITY, QUALITY_PAYLOAD, picture=0xE5)
answered_at(2, 15, other, TOP_BEGUN, (1,))
piece(other[8:], 1, 2, 3)
# After data texts, so that the grid is not 0
other = start(TOP, noecho=True, picture=0xD2) + end(TOP, picture=0xD2)
answered_at(2, 15, other, TOP_TAKEN, (1, 2))
piece(other[8:], 1, 3)
# It goes on and is damaged (row 18); nothing is open after that
piece(TOP_TAKEN + start(TOP, {3: 1})[:9] + b"\x00\x00", 1, 2, 15, 18)
# It breaks off with an opening inside: the clock's place takes `16` twice, the first digit's does not
piece(TOP_TAKEN + SAMPLE_START[:11] + SAMPLE_START + SAMPLE_END, 1, 2, 15, 18, 1, 3)

# ---- Row 16: a data or end kind with no part open, or not the due one

answered_at(2, 16, data(QUALITY, 1, QUALITY_PAYLOAD))
answered_at(2, 16, end(QUALITY))
# The kind `16` is data text 6 of intensity: a `16` as block byte 2 is kept, and the opening found
piece(OPENING + b"\xCC" + SAMPLE_START + SAMPLE_END, 16, 1, 3)
# Texts in wrong order: 1 then 3, then 2 and the end
one, two, three = (data(INTENSITY, k, INTENSITY_PAYLOAD) for k in (1, 2, 3))
piece(INTENSITY_BEGUN + one + three + two + end(INTENSITY), 1, 2, 16, 16, 16)
# A text doubled
piece(INTENSITY_BEGUN + one + one + two, 1, 2, 16, 16)
piece(TOP_TAKEN + data(TOP, 1, TOP_PAYLOAD) + end(TOP), 1, 2, 16, 16)
piece(QUALITY_BEGUN + data(QUALITY, 1, QUALITY_PAYLOAD) + end(QUALITY) * 2, 1, 2, 3, 16)
# Another part's data and end text
answered_at(2, 16, data(QUALITY, 1, QUALITY_PAYLOAD), TOP_BEGUN, (1,))
answered_at(2, 16, end(QUALITY), TOP_TAKEN, (1, 2))
# Not the due one and of another picture: row 16 comes first
answered_at(2, 16, end(TOP, picture=0xC0), TOP_BEGUN, (1,))

# ---- Row 17: due kind, other picture code than the start's

answered_at(2, 17, data(TOP, 1, TOP_PAYLOAD, picture=0xC0), TOP_BEGUN, (1,))
answered_at(2, 17, end(TOP, picture=0xC0), TOP_TAKEN, (1, 2))
# A data text with a wrong picture in the midst of a part; the next one has no part open (row 16)
piece(INTENSITY_BEGUN + one + data(INTENSITY, 2, INTENSITY_PAYLOAD, picture=0xC8) + three, 1, 2, 17, 16)

# ---- Two parts interleaved

# Echo top and quality, text by text: the second start text drops the first part (15), the top data text
# is not the due one, and then no part is open
piece(start(TOP) + start(QUALITY) + data(TOP, 1, TOP_PAYLOAD) + data(QUALITY, 1, QUALITY_PAYLOAD)
      + end(TOP) + end(QUALITY), 1, 15, 1, 16, 16, 16, 16)
# Two pictures of one kind: the first one's data text is the due kind with the other picture code (17)
piece(start(TOP, picture=0xC4) + start(TOP, picture=0xC5) + data(TOP, 1, TOP_PAYLOAD, picture=0xC4)
      + data(TOP, 1, TOP_PAYLOAD, picture=0xC5) + end(TOP, picture=0xC4) + end(TOP, picture=0xC5),
      1, 15, 1, 17, 16, 16, 16)
# A whole part between two texts of another: it is complete, the other one is not
piece(start(TOP) + whole(QUALITY, QUALITY_PAYLOAD) + data(TOP, 1, TOP_PAYLOAD) + end(TOP), 1, 15, 1, 2, 3, 16, 16)

# ---- Row 18: a later block byte breaks its rule

# Start block: byte 3; status 2 without a mode, with two, three, meaningless bits alone; the clock's bit 7
for place, b in ((3, 0x01), (3, FD), (5, 0x00), (5, 0x14), (5, 0x54), (5, 0xAB), (6, 0x80), (7, 0x80), (7, FD)):
    answered_at(place, 18, start(TOP, {place: b}))
# Digits and stops, at their own byte
for place in range(8, 24):
    for b in (0x2F, 0x3A, 0x30 if place in (12, 15, 18, 21) else 0x2E):
        answered_at(place, 18, start(TOP, {place: b}))
# Date, hour and minute at 23
for time in ("199902290000", "190002290000", "200000010000", "200013010000", "200001000000", "200001320000",
             "200004310000", "200001012400", "200001010060"):
    answered_at(23, 18, start(TOP, time=time))
piece(start(TOP, noecho=True, time="200002292359") + end(TOP), 1, 3)
MONTHS_2001 = ("0131", "0228", "0331", "0430", "0531", "0630", "0731", "0831", "0930", "1031", "1130", "1231")
# Request 111: the first and the last minute of years 0000 to 9999 and those next to them; from both sides of 2000, of
# the turn of other years, of leap days, and of the days that 1900 and 2100 have not; a day's first and last minute, and
# the last day of each month
for time in ("000001010000", "000001010001", "999912312358", "999912312359", "199912312359", "200001010000",
             "200001010001", "200001012359", "200001020000", "000012312359", "000101010000", "999901010000",
             "000002282359", "000002290000", "000002292359", "000003010000", "190002282359", "190003010000",
             "199602282359", "199602290000", "199602292359", "199603010000", "200002282359", "200002290000",
             "200003010000", "210002282359", "210003010000", "240002290000", "999602290000", "999602292359",
             "999603010000", "999902282359", "999903010000", *(f"2001{last}2359" for last in MONTHS_2001)):
    piece(start(TOP, noecho=True, time=time) + end(TOP), 1, 3)
# ... and one beyond: the hour 24, the minute 60, the days and months before the first and after the last
for time in ("000000010000", "000001000000", "000001002359", "000000000000", "999912312360", "999912312400",
             "999912322359", "999913312359", "999912002359", "999900312359", "199912312400", "199912312360",
             "199912320000", "200000000000", "200001002359", "000002300000", "190002290000", "190002292359",
             "199602300000", "199702290000", "200002300000", "210002290000", "999602300000", "999902290000",
             *(f"2001{int(last) + 1:04}0000" for last in MONTHS_2001)):
    answered_at(23, 18, start(TOP, time=time))
# 9 in every place of the time, one after the other, and in all: no month 96, day 97, hour 92 and minute 90
for time in ("999906071210", "199906071210", "199909071210", "199906091210", "199906071910", "199906071219"):
    piece(start(QUALITY, time=time) + data(QUALITY, 1, QUALITY_PAYLOAD) + end(QUALITY), 1, 2, 3)
for time in ("199996071210", "199906971210", "199906079210", "199906071290", "999999999999"):
    answered_at(23, 18, start(QUALITY, time=time))
# While a part is open, the time of the text that follows breaks its rule: row 15 at its kind, and then row 18
piece(TOP_TAKEN + start(INTENSITY, time="200002300000"), 1, 2, 15, 18)
# Two times, one behind the other: what waited of the first does not stay
piece(start(TOP, noecho=True, time="999912312359") + end(TOP) + start(TOP, noecho=True, time="000001010000") + end(TOP),
      1, 3, 1, 3)
piece(start(TOP, time="999912312359")[:28] + b"\x00", 18)
piece(start(TOP, noecho=True, time="000001010000") + end(TOP), 1, 3)
# An opening's first byte within the time breaks its rule (row 18), and the text that it opens is found
for place in range(8, 24):
    piece(SAMPLE_START[:5 + place] + SAMPLE_START + SAMPLE_END, 18, 1, 3)
# Radars: none, no code, not rising, twice the same, after `00`; each at the byte that breaks the rule
for place, radars in ((24, "00"), (24, "A6"), (24, "16"), (25, "A5 A3"), (25, "A5 A5"), (25, "A5 B2"),
                      (25, "A5 B7"), (26, "A5 00 A7"), (31, "A0 A1 A2 A3 A4 A5 A7 A4")):
    answered_at(place, 18, start(TOP, radars=bytes.fromhex(radars).ljust(8, b"\0")))
# Payload: echo top 9; levels 15; quality's bit 7 with a cause beside it; `FD`, `FE` and `FF`, which no payload has
for place, b in ((3, 9), (402, 9), (3, FD), (9, FE), (10, 0xFF)):
    answered_at(place, 18, data(TOP, 1, TOP_PAYLOAD, {place: b}), TOP_BEGUN, (1,))
for place, b in ((3, 0xEF), (4, 0xF0), (50, FD), (60, FE), (2002, 0xFF)):
    answered_at(place, 18, data(INTENSITY, 1, INTENSITY_PAYLOAD, {place: b}), INTENSITY_BEGUN, (1,))
for place in (3, 52, 102):
    for b in (0x81, 0x82, 0x84, 0x88, 0x90, 0xA0, 0xC0, FD, FE, 0xFF):
        answered_at(place, 18, data(QUALITY, 1, QUALITY_PAYLOAD, {place: b}), QUALITY_BEGUN, (1,))
for place, b, others in ((3, 0x81, b"\x80"), (59, 0x81, b"\x80"), (102, 0xFF, b"\x80"), (60, 0xC0, b"\x7F")):
    answered_at(place, 18, data(QUALITY, 1, others * 100, {place: b}), QUALITY_BEGUN, (1,))
# End block: no mode, two modes, meaningless bits alone; a mode or a meaningless bit where there is no radar;
# byte 11 and byte 31
for place, b in ((3, 0x00), (3, 0x50), (3, 0xAB), (4, 0x04), (4, 0x01), (10, 0x04), (11, 0x04), (31, 0x01)):
    answered_at(place, 18, end(TOP, changes={place: b}), start(TOP, noecho=True), (1,))

# A byte lost. In intensity payload: the `FE` comes as payload (18); the other texts have no part open (16).
# "Skipping by length, and so over a start text after lost bytes": the start text after it is found
piece(INTENSITY_BEGUN + without(one, 1500) + two + end(INTENSITY) + SAMPLE_START + SAMPLE_END, 1, 18, 16, 16, 1, 3)
piece(INTENSITY_BEGUN + one[:-1] + two + SAMPLE_START + SAMPLE_END, 1, 21, 16, 1, 3)  # the `FF` (21)
piece(INTENSITY_BEGUN + one[1:] + two, 1, 12, 16)  # the opening's first byte (12 at the `10`)
piece(INTENSITY_BEGUN + without(one, 0) + two, 1, 12, 16)  # the `FD` (12 at the picture code)
piece(INTENSITY_BEGUN + without(one, 1) + two, 1, 13, 16)  # the picture code (13 at the kind)
piece(INTENSITY_BEGUN + without(one, 2)[:40] + b"\0", 1, 14)  # the kind: 14 at the payload's first byte
piece(SAMPLE_START[:-1] + SAMPLE_END, 21, 16)  # a start text's `FF`
piece(without(SAMPLE_START, 20) + SAMPLE_END, 18, 16)  # a byte of its time

# ---- Row 19: not `FE`

good = data(TOP, 1, TOP_PAYLOAD)
answered_at(403, 19, with_extra(good, 100, 0x05), TOP_BEGUN, (1,))  # a payload byte too many
answered_at(2003, 19, with_extra(one, 2003, 0x16), INTENSITY_BEGUN, (1,))  # one more after the last
answered_at(403, 19, good[:-3] + bytes([FD]), TOP_BEGUN, (1,))  # `FD` alone is no opening
answered_at(32, 19, SAMPLE_START[:-3] + b"\xFF")
answered_at(32, 19, end(TOP)[:-3] + b"\x00", start(TOP, noecho=True), (1,))
# The opening in place of the `FE`: its first byte is not `FE`, and the start text is found
piece(TOP_BEGUN + good[:-3] + SAMPLE_START + SAMPLE_END, 1, 19, 1, 3)

# ---- Row 20: wrong check byte

# A payload byte altered to an allowed one; the end text has no part open (row 16)
altered = good[:200] + bytes([(good[200] + 1) % 9]) + good[201:]
answered_at(404, 20, altered, TOP_BEGUN, (1,))
piece(altered[-1:] + end(TOP), 16)
# Quality's too: `40` to `41`, `7F` to `80`, `80` to `00`
good = data(QUALITY, 1, QUALITY_PAYLOAD)
for b, other in ((0x40, 0x41), (0x7F, 0x80), (0x80, 0x00)):
    at = 8 + QUALITY_PAYLOAD.index(b)
    answered_at(104, 20, good[:at] + bytes([other]) + good[at + 1:], QUALITY_BEGUN, (1,))
# The check byte without the `FE`; `FD`, and then a block's bytes: nothing starts there
answered_at(104, 20, good[:-2] + bytes([good[-2] ^ FE, 0xFF]), QUALITY_BEGUN, (1,))
piece(QUALITY_BEGUN + good[:-2] + SAMPLE_START[5:], 1, 20)
answered_at(33, 20, SAMPLE_START[:-2] + b"\x4E\xFF")
answered_at(33, 20, SAMPLE_END[:-2] + b"\xD5\xFF", SAMPLE_START, (1,))

# ---- Row 21: not `FF`

answered_at(34, 21, SAMPLE_START[:-1] + b"\xFE")
answered_at(105, 21, good[:-1] + bytes([FD]), QUALITY_BEGUN, (1,))
answered_at(34, 21, SAMPLE_END[:-1] + b"\x00\xFF", SAMPLE_START, (1,))
# The `FF` is lost and the next opening follows: its first byte is not `FF`
piece(SAMPLE_START + SAMPLE_END[:-1] + SAMPLE_START + SAMPLE_END, 1, 21, 1, 3)

# ---- Row 22: status 2 is not the highest mode

for mode, radars, modes in ((1, ONE_RADAR, (2,)), (3, ONE_RADAR, (2,)), (2, THREE_RADARS, (1, 2, 3)),
                            (3, THREE_RADARS, (2, 1, 2)), (2, EIGHT_RADARS, (1,) * 8)):
    begun = start(TOP, noecho=True, mode=mode, radars=radars)
    answered_at(34, 22, end(TOP, modes), begun, (1,))
piece(start(TOP, noecho=True, mode=3, radars=THREE_RADARS) + end(TOP, (1, 3, 2)), 1, 3)
piece(start(TOP, noecho=True, mode=3, radars=EIGHT_RADARS) + end(TOP, (1,) * 7 + (3,)), 1, 3)
# A wrong check byte or last byte in such a text comes first (20, 21)
begun, low = start(TOP, noecho=True, mode=1), end(TOP, (2,))
answered_at(33, 20, low[:-2] + bytes([low[-2] ^ 1, 0xFF]), begun, (1,))
answered_at(34, 21, low[:-1] + b"\x00", begun, (1,))

# ---- One byte altered to `FD`, which demand 3 excludes

# The last data text ends with what an `FD` in place of one byte makes a start text with NO ECHO, and its check
# byte is right for both: the bytes then end with an undamaged part of 80 bytes, and complete is true
inner = start(INTENSITY, noecho=True, clock=9966)
ending = bytearray(20_000)
ending[-37:] = CONTROL + b"\x00" + inner[6:37]
last = with_check(data(INTENSITY, 10, ending), inner[-2])
front = b"".join(data(INTENSITY, k, ending) for k in range(1, 10))
piece(INTENSITY_BEGUN + front + last + end(INTENSITY), *INTENSITY_ANSWERS)
piece(INTENSITY_BEGUN + front + last[:-35] + bytes([FD]) + last[-34:] + end(INTENSITY), 1, *(2,) * 9, 11, 1, 3)

# ---- Noise with openings in it, a whole part in its midst, and a text that never ends

for i in range(64):
    piece(OPENING[:i % 6] + bytes([i * 37 % 256 & 0xEF, FD, FE, 0xFF]))
piece(whole(QUALITY, QUALITY_PAYLOAD), 1, 2, 3)
piece(bytes(i * i * 11 // 3 % 256 for i in range(3000)))
# An intensity part whose payload has `16` everywhere, and all control bytes
busy = (CONTROL + b"\x16" * 7 + b"\x10\x02" * 3) * 1200
piece(whole(INTENSITY, busy[:20_000], picture=0xE0), *INTENSITY_ANSWERS)
# The listening program has all twenty marks (Request 101): a part of every picture is complete
for code in PICTURES:
    piece(start(INTENSITY, picture=code, noecho=True) + end(INTENSITY, picture=code), 1, 3)
piece(CONTROL + b"\x16\x16")
piece(start(INTENSITY) + one + two[:1000], 1, 2)

# ---- Request 113: "an undamaged part with at least one altered byte, at most one in each text, and none altered to
# `FD`, given to a fresh receiver, yields no complete". The receiver of this stream is not fresh, but each of these
# parts finds no part open, no text under way and an `FF` seen last. Behind it stands 01's sample part, which must be
# complete


# The texts of a part with bytes altered, {number of the text: (place, byte)}, as one piece; then the sample part.
# Places are those of `answered_at`, so that -5 to -1 are the control bytes
def altered_piece(sent, changes, *answers):
    assert texts.undamaged_part(b"".join(sent)) and changes
    come = list(sent)
    for i, (place, b) in changes.items():
        assert sent[i][5 + place] != b and b != FD
        come[i] = sent[i][:5 + place] + bytes([b]) + sent[i][6 + place:]
    piece(b"".join(come), *answers)
    piece(SAMPLE_START + SAMPLE_END, 1, 3)


# The text that has not ended above is dropped (row 11)
piece(SAMPLE_START + SAMPLE_END, 11, 1, 3)

# Both texts of a NO ECHO part. A start text with a wrong check byte (row 20), and an end text with no part open (row
# 16): another year and another mode; mode 2 in both; picture `C0` in both; the kinds of echo top; the check bytes
# without the `FE`
sample = [SAMPLE_START, SAMPLE_END]
for first, second in (((11, 0x38), (3, 0x40)), ((5, 0x10), (3, 0x10)), ((1, 0xC0), (1, 0xC0)), ((2, 0x20), (2, 0x2F)),
                      ((33, 0x4F ^ FE), (33, 0xD4 ^ FE))):
    altered_piece(sample, {0: first, 1: second}, 20, 16)
# Each has the other's kind: no part is open for the first (row 16); the second has `04` for block byte 3 (row 18)
altered_piece(sample, {0: (2, 0x1F), 1: (2, 0x10)}, 16, 18)
# `16` for the `FF` (row 21), and `00` for the `16` behind it: no opening. No `FD` in either: no text at all
altered_piece(sample, {0: (34, 0x16), 1: (-5, 0x00)}, 21)
altered_piece(sample, {0: (0, FE), 1: (0, 0xFF)})
# The start text whole: a mode (row 20 at the check byte, before row 22), a start kind (rows 15 and 18), an opening
altered_piece(sample, {1: (3, 0x40)}, 1, 20)
altered_piece(sample, {1: (2, 0x10)}, 1, 15, 18)
altered_piece(sample, {1: (-1, 0x10)}, 1, 12)

# Echo top. NO ECHO set (row 20); the data text has a start kind, and payload `00 00 01`: no status 2 (row 18); the
# end text has no part open. Fields of all three: a minute, an echo top, a mode where there is no radar
of_top = [start(TOP), data(TOP, 1, TOP_PAYLOAD), end(TOP)]
assert TOP_PAYLOAD[:3] == b"\x00\x00\x01"
altered_piece(of_top, {0: (4, 0x08), 1: (2, 0x20), 2: (34, 0x00)}, 20, 18, 16)
altered_piece(of_top, {0: (23, 0x35), 1: (402, 0x08), 2: (10, 0x04)}, 20, 16, 16)
# The start text whole: data and end text have each other's kind; the last one's `FF`
altered_piece(of_top, {1: (2, 0x2F), 2: (2, 0x21)}, 1, 16, 16)
altered_piece(of_top, {2: (34, FE)}, 1, 2, 21)

# Quality. The start text has status 1 `FD`, and `02` before it: `02 FD` is no opening (row 18). The data text's
# payload ends `16 16 16 10`, its check byte is `FD`, and the `FE` between becomes `02`: that is an opening, and the
# `FF` behind it no picture code (row 13)
critical = with_check(data(QUALITY, 1, QUALITY_LOW[:96] + CONTROL[:4]), FD)
of_quality = [start(QUALITY, {4: FD}), critical, end(QUALITY)]
altered_piece(of_quality, {0: (3, 0x02), 1: (103, 0x02), 2: (34, FE)}, 18, 16, 13, 16)
altered_piece(of_quality, {0: (7, 0x00), 1: (3, 0x7F), 2: (3, 0x05)}, 20, 16, 16)
altered_piece(of_quality, {1: (103, 0x02)}, 1, 19, 13, 16)  # the start text whole

# Intensity, all twelve texts. Data text 3 has a start block's bytes behind its kind, and no `FE` behind these; data
# text 6 ends as the quality text above
critical_payload = INTENSITY_PAYLOAD[:]
critical_payload[4000:4029] = start(INTENSITY, clock=9982)[8:37]
critical_payload[11_996:12_000] = CONTROL[:4]
of_intensity = [start(INTENSITY), *(data(INTENSITY, k, critical_payload) for k in range(1, 11)), end(INTENSITY)]
of_intensity[6] = with_check(of_intensity[6], FD)
altered_piece(of_intensity, {
    0: (7, 0x7E),  # the clock: row 20
    1: (1, 0xF1),  # another picture: row 16, for no part is open
    2: (-3, 0x10),  # the third `16`: no opening
    3: (2, 0x10),  # a start kind: row 19 behind 32 bytes
    4: (2, 0x15),  # the next kind: row 16
    5: (900, 0xEE),  # payload: row 16, at the kind
    6: (2003, 0x02),  # the `FE`: row 16 at the kind, row 13 behind the opening
    7: (2004, of_intensity[7][-2] ^ FE),  # the check byte: row 16, at the kind
    8: (2005, 0x16),  # the `FF`: row 16, at the kind
    9: (0, 0xFF),  # the `FD`: no opening
    10: (1, 0x00),  # no picture: row 13
    11: (2, 0x1A),  # the kind of data text 10: row 16
}, 20, 16, 19, 16, 16, 16, 13, 16, 16, 13, 16)
# The start text whole, and data text 1: the `FF` of data text 2 (row 21), and a mode in the end text
altered_piece(of_intensity, {2: (2005, 0x00), 11: (3, 0x10)}, 1, 2, 21, *(16,) * 9)

# Outside the limits. Two bytes of one text: clock 9,982 and its check byte; two payload bytes, both by 1; a bit
# without meaning and its check byte. Undamaged parts have come of these, and are complete
two_altered = bytearray(SAMPLE_START)
two_altered[5 + 7], two_altered[5 + 33] = 0x7E, 0x4E
piece(two_altered + SAMPLE_END, 1, 3)
two_altered = bytearray(of_quality[1])
two_altered[5 + 3] ^= 1
two_altered[5 + 4] ^= 1
piece(of_quality[0] + two_altered + of_quality[2], 1, 2, 3)
two_altered = bytearray(of_top[2])
two_altered[5 + 3] ^= 0x80
two_altered[5 + 33] ^= 0x80
piece(of_top[0] + of_top[1] + two_altered, 1, 2, 3)
# One altered to `FD`, as above, and one in each data text before it: complete is true all the same. The start text
# has another clock (row 20), the others no part open (row 16), and the `FD` falls between texts
ending_so = [INTENSITY_BEGUN, *(data(INTENSITY, k, ending) for k in range(1, 10)), last, end(INTENSITY)]
come = [bytearray(made) for made in ending_so]
for made in come[:10]:
    made[5 + 7] ^= 1  # the clock, or payload
come[10][-35] = FD
piece(b"".join(come), 20, *(16,) * 10, 1, 3)
# The same byte altered to `FC` instead, which is level 15 (row 18)
altered_piece(ending_so, {10: (2003 - 32, 0xFC)}, 1, *(2,) * 9, 18, 16)
# At last again a text that never ends
piece(start(INTENSITY) + one + two[:1000], 1, 2)


STREAM = b"".join(data for data, _ in PIECES)


# The answers to each piece, from the listening lines
def check_pieces(lines):
    at, rest = 0, list(lines)
    for number, (made, answers) in enumerate(PIECES):
        at += len(made)
        got = []
        while rest and rest[0][0] <= at:
            got.append(rest.pop(0)[1])
        assert tuple(got) == answers, f"piece {number}: answers {answers} by hand, {got} by the model"
    assert not rest
    assert {answer for _, answer in lines} == {1, 2, 3, *range(11, 23)}
    assert len(STREAM) < 300_000


if __name__ == "__main__":
    if sys.argv[1:] == ["--stream"]:
        sys.stdout.buffer.write(STREAM)
    else:
        lines = listen(STREAM, ALL_MARKS)
        check_pieces(lines)
        for read, answer in lines:
            print(read, answer)
