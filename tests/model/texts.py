"""01-scope.md, section "A text", with requests #107 and #111, as plain functions.

Written from these papers alone: nothing here is taken from the library or from its definitions.
Blocks, texts and parts are bytes; lists of digits, radar codes and modes are tuples of numbers.
A part is 1 (intensity), 2 (echo top) or 3 (quality). A text's number within its part is 0 for the
start text, k for data text k and 11 for the end text. The minute of an observation time is a signed
count from 1 January 2000, 00:00. Where an argument names no part, text, kind, mode, month or minute,
a number is 0 and a test is False. What stands in quotes is 01's, and after "#107:" or "#111:" that
request's. The sheet of #107 for the quality bits takes the place of 01's.

Run as a program, it tries the rows of "Sample traffic" that are marked P, those of quality as #107 has
them, 01's figures, and minutes: some by hand, and many more against Python's own calendar.
"""

import datetime
import random
from bisect import bisect_right
from collections import namedtuple
from itertools import accumulate

INTENSITY, TOP, QUALITY = 1, 2, 3
PARTS = (INTENSITY, TOP, QUALITY)
START, END = 0, 11

# "A text is `16 16 16 10 02`, a block, `FE`, the check byte, `FF`." "Block byte 0 is `FD`"
CONTROL = bytes.fromhex("16 16 16 10 02")
FD, FE, FF = 0xFD, 0xFE, 0xFF
# "The *opening* is the five control bytes and the `FD`."
OPENING = CONTROL + bytes([FD])

# "Start block, 32 bytes." "End block, 32 bytes."
EDGE_BLOCK = 32
# "The grid is a lent slice of 20,000 bytes."
GRID = 20_000

# "header (without status bytes)": the minute, the radar codes and then 0. #111: "The header keeps that
# number instead of the digits"
WriterHeader = namedtuple("WriterHeader", "minute radars clock picture")
# "A part's header is the picture code, clock, time, radar codes, NO ECHO and mode that its start
# block gives."
Header = namedtuple("Header", "minute radars clock picture mode noecho")


# ---- Codes

# "Picture codes (20)"
PICTURES = bytes.fromhex("C0 C1 C2 C4 C5 C8 C9 CC D2 D3 D4 D5 D8 DC E0 E1 E4 E5 F0 F1")

# "Radar codes (21): `A0` to `A5`, `A7` to `AF`, `B0 B1 B3 B4 B5 B6`"
RADARS = bytes([*range(0xA0, 0xA6), *range(0xA7, 0xB0), 0xB0, 0xB1, 0xB3, 0xB4, 0xB5, 0xB6])


# "byte 1 the picture code"
def is_picture_code(b):
    return b in PICTURES


# "one to eight radar codes"
def is_radar_code(b):
    return b in RADARS


# ---- Kinds and lengths

# The table: start, first data, last data, end, data block
TABLE = {
    INTENSITY: (0x10, 0x11, 0x1A, 0x1F, 2003),
    TOP: (0x20, 0x21, 0x21, 0x2F, 403),
    QUALITY: (0x30, 0x31, 0x31, 0x3F, 103),
}

# (part, text) by kind: "byte 2 the kind", one of "the 18 kinds"
KINDS = {}
for _part, (_start, _first, _last, _end, _) in TABLE.items():
    KINDS[_start] = (_part, START)
    KINDS[_end] = (_part, END)
    for _kind in range(_first, _last + 1):
        KINDS[_kind] = (_part, _kind - _first + 1)


# "one of the 18 kinds"
def is_kind(b):
    return b in KINDS


# The table's column "Start"
def is_start_kind(b):
    return b in [start for start, _, _, _, _ in TABLE.values()]


# The table's column "End"
def is_end_kind(b):
    return b in [end for _, _, _, end, _ in TABLE.values()]


# The row of 01's table that has the kind
def part_of_kind(b):
    return KINDS[b][0] if b in KINDS else 0


# The column of the table that has the kind, and of a data kind the k of "data text k (1 to 10)"
def text_of_kind(b):
    return KINDS[b][1] if b in KINDS else 0


# The table read the other way
def kind_of(part, text):
    for kind, place in KINDS.items():
        if place == (part, text):
            return kind
    return 0


# The table's column "Data block"
def data_block_length(part):
    return TABLE[part][4] if part in TABLE else 0


# "Start block, 32 bytes", "End block, 32 bytes", and the table's column "Data block"
def block_length(kind):
    if kind not in KINDS:
        return 0
    part, text = KINDS[kind]
    return EDGE_BLOCK if text in (START, END) else data_block_length(part)


# "`16 16 16 10 02`, a block, `FE`, the check byte, `FF`"
def text_length(kind):
    return 5 + block_length(kind) + 3 if kind in KINDS else 0


# "With NO ECHO, intensity and echo top have no data texts; quality always has one."
def data_texts(part, noecho):
    if part not in TABLE or (noecho and part != QUALITY):
        return 0
    return sum(1 for p, t in KINDS.values() if p == part and t not in (START, END))


# "Part: start, data texts in order, end"
def kinds_of_part(part, noecho):
    data = range(1, data_texts(part, noecho) + 1)
    return [kind_of(part, text) for text in (START, *data, END)]


# Its texts "with .. nothing between"; "20,190, 491 or 191, or 80 with NO ECHO"
def part_length(part, noecho):
    return sum(map(text_length, kinds_of_part(part, noecho))) if part in TABLE else 0


# "payload from byte 3", of all data texts; "20,000, 400 or 100 bytes by part"
def payload_length(part):
    return (data_block_length(part) - 3) * data_texts(part, False) if part in TABLE else 0


# ---- The check byte

# "The exclusive or over a block"; "an empty one gives 0"
def xor_all(block):
    total = 0
    for b in block:
        total ^= b
    return total


# "The check byte is the exclusive or of all block bytes and the `FE`."
def check_byte(block):
    return xor_all(block) ^ FE


# ---- Status bytes, modes, clock

# "bit 6 mode 3, bit 4 mode 2, bit 2 mode 1"
MODE_BITS = {1: 1 << 2, 2: 1 << 4, 3: 1 << 6}


# "Byte 4 is status 1: bit 3 is NO ECHO." "Other status bits have no meaning and are ignored."
def no_echo_of(status1):
    return bool(status1 >> 3 & 1)


# "bit 6 mode 3, bit 4 mode 2, bit 2 mode 1, exactly one of these set"; else 0. "other bits ignored"
def mode_of(b):
    found = [mode for mode, bit in MODE_BITS.items() if b & bit]
    return found[0] if len(found) == 1 else 0


# The byte that says a mode: "Meaningless bits are 0."
def mode_byte(mode):
    return MODE_BITS.get(mode, 0)


# "Status 2 is the highest mode in the end block."
def highest_mode(modes):
    return max(modes)


# "the clock, 0 to 16,383"
def is_clock(clock):
    return 0 <= clock <= 16_383


# "seven bits each, .. bit 7 zero"
def is_clock_byte(b):
    return b >> 7 == 0


# "seven bits each, high part first"
def clock_of(high, low):
    return high * 128 + low


# The two bytes of a clock: "clock 9,983 is `4D 7F`"
def clock_bytes(clock):
    return bytes([clock // 128, clock % 128])


# ---- The observation time

# "a Gregorian date": each fourth year, but of the full centuries only each fourth
def is_leap_year(year):
    return year % 400 == 0 if year % 100 == 0 else year % 4 == 0


# "a Gregorian date": thirty days have April, June, September and November. 01 has no other months
# than these twelve, and so no days of them
def days_in(year, month):
    if not 1 <= month <= 12:
        return 0
    if month == 2:
        return 29 if is_leap_year(year) else 28
    return 30 if month in (4, 6, 9, 11) else 31


# "a Gregorian date (years 0000 to 9999), hour 00 to 23, minute 00 to 59"
def is_moment(year, month, day, hour, minute):
    date = 0 <= year <= 9999 and 1 <= month <= 12 and 1 <= day <= days_in(year, month)
    return date and 0 <= hour <= 23 and 0 <= minute <= 59


# The days from 1 January 2000 to 1 January of the years 0000 to 10000, by year: the days of all months
# before, from the first year on, and less as many as stand at 2000
YEAR_DAYS = [0, *accumulate(sum(days_in(year, month) for month in range(1, 13)) for year in range(10_000))]
YEAR_DAYS = [days - YEAR_DAYS[2000] for days in YEAR_DAYS]

# 24 hours of 60 minutes
DAY = 24 * 60
# "years 0000 to 9999": the first of their minutes, and the last
FIRST_MINUTE, LAST_MINUTE = YEAR_DAYS[0] * DAY, YEAR_DAYS[10_000] * DAY - 1


# #111: "let it give the signed count of minutes from 1 January 2000, 00:00, or invalid", here None; of
# the twelve digits of `YYYY.MM.DD.hh.mm`, as numbers
def minute_of(digits):
    if len(digits) != 12 or not all(0 <= d <= 9 for d in digits):
        return None
    text = "".join(map(str, digits))
    year, month, day, hour, minute = int(text[:4]), *(int(text[i:i + 2]) for i in (4, 6, 8, 10))
    if not is_moment(year, month, day, hour, minute):
        return None
    days = YEAR_DAYS[year] + sum(days_in(year, before) for before in range(1, month)) + day - 1
    return days * DAY + hour * 60 + minute


# #111: "32 also covers a minute outside years 0000 to 9999"
def is_minute(minute):
    return FIRST_MINUTE <= minute <= LAST_MINUTE


# The twelve digits YYYYMMDDhhmm of a minute; all 0 outside years 0000 to 9999
def digits_of(minute):
    if not is_minute(minute):
        return (0,) * 12
    days, clock = divmod(minute, DAY)
    year, month = bisect_right(YEAR_DAYS, days) - 1, 1
    days -= YEAR_DAYS[year]
    while days >= days_in(year, month):
        days -= days_in(year, month)
        month += 1
    return tuple(map(int, f"{year:04}{month:02}{days + 1:02}{clock // 60:02}{clock % 60:02}"))


# The form of bytes 8 to 23: a letter for a digit, and the stop
TIME_FORM = "YYYY.MM.DD.hh.mm"


# "ASCII `YYYY.MM.DD.hh.mm`, the stop being `2E`"
def time_bytes(digits):
    rest = list(digits)
    return bytes(0x2E if c == "." else 0x30 + rest.pop(0) for c in TIME_FORM)


# The twelve digits of "Bytes 8 to 23"; None where a digit or a stop is not in its place
def time_digits(field):
    digits = []
    for form, b in zip(TIME_FORM, field, strict=True):
        if form == "." and b != 0x2E or form != "." and not 0x30 <= b <= 0x39:
            return None
        if form != ".":
            digits.append(b - 0x30)
    return tuple(digits)


# The minute of "Bytes 8 to 23"; None where they break a rule
def minute_of_field(field):
    digits = time_digits(field)
    return None if digits is None else minute_of(digits)


# ---- Payload

# "two meshes a byte, the odd number in the high four bits"
def levels(b):
    return b >> 4, b & 0x0F


# #107: "seven named causes in bits 0 to 6, and "cause unknown" in bit 7, alone. Allowed are `00` to
# `7F`, and `80`."
def is_quality_byte(b):
    return b <= 0x7F or b == 0x80


# "Data block, payload from byte 3", by part
def is_payload_byte(part, b):
    if part == INTENSITY:  # "levels 0 to 14"
        return all(level <= 14 for level in levels(b))
    if part == TOP:  # "one mesh a byte, 0 to 8"
        return b <= 8
    if part == QUALITY:  # "one mesh a byte", and #107's sheet
        return is_quality_byte(b)
    return False


# ---- Radars and their modes

# "strictly rising, then `00`": after a radar a higher one or `00`, after `00` only `00`
def radar_follows(before, radar):
    return radar == 0 or before != 0 and before < radar and is_radar_code(radar)


# "one to eight radar codes, strictly rising, then `00`"
def is_radar_list(radars):
    codes = [r for r in radars if r != 0]
    rising = all(a < b for a, b in zip(codes, codes[1:]))
    then_none = list(radars) == codes + [0] * (8 - len(codes))
    return 1 <= len(codes) <= 8 and all(map(is_radar_code, codes)) and rising and then_none


# "a byte with exactly one of the three mode bits set (other bits ignored); `00` where there is no
# radar"
def is_mode_byte(radar, b):
    return b == 0 if radar == 0 else mode_of(b) != 0


# "modes 1 to 3 (0 where there is no radar)"
def is_mode_for(radar, mode):
    return mode == 0 if radar == 0 else mode in (1, 2, 3)


# "for each radar .., in place": the same at all eight places
def are_modes_for(radars, modes):
    return len(modes) == 8 and all(map(is_mode_for, radars, modes))


# ---- What a writer takes

# Row 32, "header or modes break a rule above": the header's share
def is_writer_header(writer_header):
    return (
        is_picture_code(writer_header.picture)
        and is_clock(writer_header.clock)
        and is_minute(writer_header.minute)
        and is_radar_list(writer_header.radars)
    )


# Row 32, "header or modes break a rule above"
def is_writer_input(writer_header, modes):
    return is_writer_header(writer_header) and are_modes_for(writer_header.radars, modes)


# Row 33, "payload not 20,000, 400 or 100 bytes by part, or a forbidden byte"
def is_payload(part, payload):
    return (
        part in TABLE
        and len(payload) == payload_length(part)
        and all(is_payload_byte(part, b) for b in set(payload))
    )


# "header (without status bytes)"
def writer_header_of(header):
    return WriterHeader(header.minute, header.radars, header.clock, header.picture)


# ---- Blocks

# "Block byte 0 is `FD`, byte 1 the picture code, byte 2 the kind", at the kind's length
def has_front(block, kind):
    return (
        is_kind(kind)
        and len(block) == block_length(kind)
        and block[0] == FD
        and is_picture_code(block[1])
        and block[2] == kind
    )


# "Start block, 32 bytes. Byte 3 is `00`. ..": its rules byte by byte; status 1 has none
def is_start_block(block):
    if len(block) != EDGE_BLOCK or not has_front(block, block[2]) or text_of_kind(block[2]) != START:
        return False
    return (
        block[3] == 0
        and mode_of(block[5]) != 0
        and is_clock_byte(block[6])
        and is_clock_byte(block[7])
        and minute_of_field(block[8:24]) is not None
        and is_radar_list(tuple(block[24:32]))
    )


# "Data block, payload from byte 3"
def is_data_block(block):
    if len(block) < 3 or not has_front(block, block[2]) or text_of_kind(block[2]) in (START, END):
        return False
    return all(is_payload_byte(part_of_kind(block[2]), b) for b in set(block[3:]))


# "for each radar of the start block, in place, ..; `00` where there is no radar. Bytes 11 to 31 are
# `00`."
def is_end_block_for(block, radars):
    if len(block) != EDGE_BLOCK or not has_front(block, block[2]) or text_of_kind(block[2]) != END:
        return False
    return all(map(is_mode_byte, radars, block[3:11])) and not any(block[11:])


# An end block by itself: it keeps the rule for some start block, which has "one to eight" radars
def is_end_block(block):
    lists = [RADARS[:n] + bytes(8 - n) for n in range(1, 9)]
    return any(is_end_block_for(block, radars) for radars in lists)


# A block of any of "the 18 kinds"
def is_block(block):
    return is_start_block(block) or is_data_block(block) or is_end_block(block)


# "the picture code, clock, time, radar codes, NO ECHO and mode that its start block gives"
def header_of_block(block):
    return Header(
        minute=minute_of_field(block[8:24]),
        radars=tuple(block[24:32]),
        clock=clock_of(block[6], block[7]),
        picture=block[1],
        mode=mode_of(block[5]),
        noecho=no_echo_of(block[4]),
    )


# ---- Texts

# "A text is `16 16 16 10 02`, a block, `FE`, the check byte, `FF`."
def make_text(block):
    return CONTROL + bytes(block) + bytes([FE, check_byte(block), FF])


# The block of a text: what stands between the control bytes and the `FE`
def block_of_text(text):
    return text[5:-3]


# "A text .. is *undamaged* when it keeps every rule of this section"
def undamaged_text(text):
    block = block_of_text(text)
    return len(text) >= 8 and is_block(block) and text == make_text(block)


# ---- Parts

# The blocks of a part's texts, by the kind that each names; None where the bytes do not divide so.
# It goes by lengths, as it may with bytes that are a whole part or none.
def split_part(data):
    blocks = []
    while data:
        length = text_length(data[7]) if len(data) > 7 else 0
        if length == 0 or length > len(data):
            return None
        blocks.append(block_of_text(data[:length]))
        data = data[length:]
    return blocks


# "Part: start, data texts in order, end, with one picture code and nothing between." "Status 2 is
# the highest mode in the end block."
def undamaged_part(data):
    blocks = split_part(data)
    if not blocks or b"".join(map(make_text, blocks)) != data or not is_start_block(blocks[0]):
        return False
    header = header_of_block(blocks[0])
    due = kinds_of_part(part_of_kind(blocks[0][2]), header.noecho)
    return (
        [block[2] for block in blocks] == due
        and all(block[1] == header.picture for block in blocks)
        and all(map(is_data_block, blocks[1:-1]))
        and is_end_block_for(blocks[-1], header.radars)
        and header.mode == highest_mode(modes_of_part(data))
    )


# Which part these bytes are, by the kind of the start text
def part_of_part(data):
    return part_of_kind(data[7])


# "A part's header is .. that its start block gives."
def header_of_part(data):
    return header_of_block(split_part(data)[0])


# "Its modes are those of its end block, by place, 0 where there is no radar."
def modes_of_part(data):
    return tuple(map(mode_of, split_part(data)[-1][3:11]))


# "the payload of its data texts in order"
def payload_of_part(data):
    return b"".join(block[3:] for block in split_part(data)[1:-1])


# "Its grid is the payload of its data texts in order, then zeros; all zeros where it has none."
def grid_of_part(data):
    return payload_of_part(data).ljust(GRID, b"\0")


# ---- Building

# "Start block", as it gives this header; "Meaningless bits are 0." #111: "The written bytes are those of
# before."
def start_block(part, header):
    return (
        bytes([FD, header.picture, kind_of(part, START), 0, header.noecho << 3, mode_byte(header.mode)])
        + clock_bytes(header.clock)
        + time_bytes(digits_of(header.minute))
        + bytes(header.radars)
    )


# "Data block" of data text k, which has its share of the part's payload
def data_block(part, k, picture, payload):
    share = data_block_length(part) - 3
    return bytes([FD, picture, kind_of(part, k)]) + bytes(payload[share * (k - 1):share * k])


# "End block", with these modes; "Meaningless bits are 0."
def end_block(part, picture, modes):
    front = bytes([FD, picture, kind_of(part, END)]) + bytes(map(mode_byte, modes))
    return front.ljust(EDGE_BLOCK, b"\0")


# "start, data texts in order, end", with NO ECHO and the mode of status 2 as the header says; the
# payload goes into as many data texts as the part then has
def make_part(part, header, modes, payload):
    texts = range(1, data_texts(part, header.noecho) + 1)
    data = [data_block(part, k, header.picture, payload) for k in texts]
    blocks = [start_block(part, header), *data, end_block(part, header.picture, modes)]
    return b"".join(map(make_text, blocks))


# What the writer makes: "NO ECHO is set exactly for an intensity or top payload of all
# zeros."
def written_part(part, writer_header, modes, payload):
    noecho = part != QUALITY and not any(payload)
    header = Header(*writer_header, mode=highest_mode(modes), noecho=noecho)
    return make_part(part, header, modes, payload)


# "quality `05`" allowed; #107: "Of the samples, `40` and `41` are now both allowed, `80` is allowed, `81`
# is not.", "no payload byte becomes `FD`, `FE` or `FF`"
def _quality():
    allowed = [b for b in range(256) if is_payload_byte(QUALITY, b)]
    samples = {0x05: True, 0x40: True, 0x41: True, 0x7F: True, 0x80: True, 0x81: False}
    assert {b: b in allowed for b in samples} == samples
    # The causes' bits in any way, or bit 7 alone
    assert allowed == [b for b in range(256) if not b >> 7 & 1 or b == 1 << 7] and len(allowed) == 129
    assert not any(is_payload_byte(part, b) for part in PARTS for b in (FD, FE, FF))


# "Sample traffic", the rows marked P; counts of codes and kinds, and lengths of parts and payloads
def _samples():
    assert clock_bytes(9983) == bytes.fromhex("4D 7F") and clock_of(0x4D, 0x7F) == 9983
    assert minute_of_field(b"1987.08.15.12.15") is not None
    assert is_moment(2000, 2, 29, 0, 0) and not is_moment(1999, 2, 29, 0, 0)
    assert levels(0x1E) == (1, 14)
    assert [is_payload_byte(INTENSITY, b) for b in (0xEE, 0xEF, 0xF0)] == [True, False, False]
    assert [is_payload_byte(TOP, b) for b in (0x08, 0x09)] == [True, False]
    assert mode_byte(highest_mode((1, 2, 3))) == 0x40 and mode_byte(highest_mode((2, 1, 1, 1))) == 0x10
    lists = [bytes.fromhex(text).ljust(8, b"\0") for text in ("A3 A5", "A5 A3", "A5 A5", "A6")]
    assert [is_radar_list(radars) for radars in lists] == [True, False, False, False]
    end = bytes.fromhex("FD CC 1F 04") + bytes(28)
    start = bytes.fromhex("FD CC 10 00 08 04 4D 7F") + b"1999.06.07.12.10" + b"\xA5" + bytes(7)
    assert check_byte(end) == 0xD4 and check_byte(start) == 0x4F
    assert len(PICTURES) == 20 and len(RADARS) == 21 and len(KINDS) == 18
    assert [part_length(part, False) for part in PARTS] == [20_190, 491, 191]
    assert [part_length(part, True) for part in PARTS] == [80, 80, 191]
    assert [payload_length(part) for part in PARTS] == [20_000, 400, 100]
    part = make_text(start) + make_text(end)
    assert undamaged_text(make_text(start)) and undamaged_text(make_text(end)) and undamaged_part(part)
    header = header_of_part(part)
    assert header == Header(-298_790, (0xA5, *(0,) * 7), 9983, 0xCC, 1, True)
    assert part == written_part(INTENSITY, writer_header_of(header), modes_of_part(part), bytes(20_000))


# #111: "1999.12.31.23.59 is −1", and others by hand: from both sides of 2000, of leap days, and of the days that are
# none in 1900 and 2100; those of 01; the first and the last
MINUTES = {
    "1999.12.31.23.59": -1, "2000.01.01.00.00": 0, "2000.01.01.00.01": 1, "2000.01.01.23.59": 1_439,
    "2000.01.02.00.00": 1_440, "1999.12.31.00.00": -1_440, "1999.12.30.23.59": -1_441,
    "2000.02.28.23.59": 84_959, "2000.02.29.00.00": 84_960, "2000.02.29.23.59": 86_399, "2000.03.01.00.00": 86_400,
    "1987.08.15.12.15": -6_510_945, "1999.06.07.12.10": -298_790,
    "1900.02.28.23.59": -52_509_601, "1900.03.01.00.00": -52_509_600,
    "2100.02.28.23.59": 52_680_959, "2100.03.01.00.00": 52_680_960,
    "0000.01.01.00.00": -1_051_898_400, "0000.02.29.00.00": -1_051_813_440, "9999.12.31.23.59": 4_207_593_599,
}
# No leap day in 1999, 1900 and 2100; no 30 February; month and day 00, month 13, day 32 and 31 June; 24:00, minute
# 60; all 0 and all 9
NO_MINUTES = (
    *("1999.02.29.00.00", "1900.02.29.00.00", "2100.02.29.00.00", "2000.02.30.00.00", "2000.00.01.00.00"),
    *("2000.01.00.00.00", "2000.13.01.00.00", "2000.12.32.00.00", "2000.06.31.00.00", "1999.12.31.24.00"),
    *("2000.01.01.23.60", "0000.00.00.00.00", "9999.99.99.99.99"),
)


def _minutes():
    for text, minute in MINUTES.items():
        digits = tuple(int(c) for c in text if c != ".")
        assert minute_of(digits) == minute_of_field(text.encode()) == minute and is_minute(minute)
        assert digits_of(minute) == digits and time_bytes(digits) == text.encode()
    assert all(minute_of_field(text.encode()) is None for text in NO_MINUTES)
    assert (FIRST_MINUTE, LAST_MINUTE) == (-1_051_898_400, 4_207_593_599)
    for minute in (FIRST_MINUTE - 1, LAST_MINUTE + 1, -2 ** 63, 2 ** 63 - 1):
        assert not is_minute(minute) and digits_of(minute) == (0,) * 12
    # A digit above 9, though the number that it would give is one
    assert minute_of((1, 9, 8, 7, 0, 8, 1, 5, 0, 12, 1, 5)) is None and minute_of((0,) * 11) is None


# Years 0001 to 9999 against Python's own calendar: the first day of each month, and random minutes. Year 0000, which
# it has not, is 400 years of 146,097 days before year 0400
def _calendar():
    rng = random.Random(111)
    begin = datetime.datetime(2000, 1, 1)
    for year in range(1, 10_000):
        for month in range(1, 13):
            digits = tuple(map(int, f"{year:04}{month:02}010000"))
            assert minute_of(digits) == (datetime.date(year, month, 1) - begin.date()).days * DAY
    for _ in range(20_000):
        minute = rng.randint(YEAR_DAYS[1] * DAY, LAST_MINUTE)
        moment = begin + datetime.timedelta(minutes=minute)
        text = f"{moment.year:04}.{moment:%m.%d.%H.%M}"
        assert minute_of_field(text.encode()) == minute and time_bytes(digits_of(minute)) == text.encode()
    for minute in range(FIRST_MINUTE, YEAR_DAYS[1] * DAY, 61):
        digits, later = digits_of(minute), digits_of(minute + 146_097 * DAY)
        assert digits[:4] == (0, 0, 0, 0) and later[:4] == (0, 4, 0, 0) and digits[4:] == later[4:]
        assert minute_of(digits) == minute
    # Digits that are no minute: as many days in each year as there are, and no other day, hour or minute
    for year in (0, 1900, 1999, 2000, 2004, 9999):
        days = [tuple(map(int, f"{year:04}{month:02}{day:02}0000")) for month in range(100) for day in range(100)]
        found = [minute_of(digits) for digits in days if minute_of(digits) is not None]
        assert found == list(range(YEAR_DAYS[year] * DAY, YEAR_DAYS[year + 1] * DAY, DAY))
    clocks = [minute_of((2, 0, 0, 0, 0, 1, 0, 1, *map(int, f"{clock:04}"))) for clock in range(10_000)]
    assert [minute for minute in clocks if minute is not None] == list(range(DAY))


if __name__ == "__main__":
    _samples()
    _quality()
    _minutes()
    _calendar()
