"""The input of the program `try_text`, and the lines that it must print for it.

    python3 tests/try_text.py --stream > crates/try_text/stdin
    python3 tests/try_text.py > crates/try_text/stdout

The vectors stand here alone. The input is requests, one behind the other: a byte for what is asked, two bytes
for the length of the arguments, high byte first, and the arguments. The line of a request is its number, that
is the byte in decimal, and the results, a space before each: of 1 to 42 one for each group of arguments, else
one. A test's result is 1 or 0. A minute is a signed count from 1 January 2000, 00:00, here eight bytes, two's
complement, high byte first (Request 111). Results are those of the model of 01, "A text", tests/model/texts.py.

    1   is_picture_code         byte
    2   is_radar_code           byte
    3   is_kind                 byte
    4   is_start_kind           byte
    5   is_end_kind             byte
    6   part_of_kind            byte
    7   text_of_kind            byte
    8   block_length            kind
    9   data_block_length       part
    10  payload_length          part
    11  no_echo_of              status 1
    12  mode_of                 byte
    13  mode_byte               mode
    20  kind_of                 part, text
    21  data_texts              part, NO ECHO
    22  part_length             part, NO ECHO
    23  is_payload_byte         part, byte
    24  clock_of                high part, low part
    25  radar_follows           radar before, radar
    26  is_mode_byte            radar, byte
    27  is_mode_for             radar, mode
    40  is_leap_year            year (two bytes)
    41  days_in                 year (two bytes), month
    42  is_moment               year (two bytes), month, day, hour, minute
    50  the time check          12 digits; the result is the minute, or the word `invalid`
    51  highest_mode            8 modes
    52  is_radar_list           8 radars
    53  are_modes_for           8 radars, 8 modes
    54  is_writer_header              minute, 8 radars, clock (two bytes), picture code
    55  is_writer_input               the same, 8 modes
    56  writer_header_of              as 54, mode, NO ECHO; the results are what the writer takes, as in 54
    57  is_minute               minute; whether it is one of years 0000 to 9999
    58  digits_of               minute; the results are its 12 digits, all 0 outside these years
    60  xor_all                 bytes
    61  check_byte              bytes
    62  are_zero                bytes
    63  are_payload_bytes       part, bytes
    64  put                     place, bytes; the results are an output of eight bytes, all `AA` before
"""

import struct
import sys
from pathlib import Path

sys.dont_write_bytecode = True
sys.path.insert(0, str(Path(__file__).resolve().parent / "model"))
import texts
from texts import Header, WriterHeader

# ---- What is asked

# The numbers of what a writer takes in a row, as requests and lines have them
WRITER_HEADER = "q8BHB"


def row(writer_header):
    return writer_header.minute, *writer_header.radars, writer_header.clock, writer_header.picture


# What a writer takes of a header, of its numbers in a row
def writer_header(numbers):
    return WriterHeader(numbers[0], numbers[1:9], *numbers[9:])


# A header: what a writer takes of it, mode and NO ECHO
def header(numbers):
    return Header(*writer_header(numbers[:11]), *numbers[11:])


# The time check: the minute, or the word
def minute_or_invalid(*digits):
    minute = texts.minute_of(digits)
    return "invalid" if minute is None else minute


# 01 has no such call. What its own comment says: bytes from a place on, and where they do not fit the output
# as it was
def put(place, *data):
    output = bytearray(b"\xAA" * 8)
    if place + len(data) <= len(output):
        output[place:place + len(data)] = data
    return tuple(output)


# By number: the layout of one group of arguments, in the letters of Python's struct (none: bytes, as many as
# there are), and what the model answers to its numbers
ASKED = {
    1: ("B", texts.is_picture_code),
    2: ("B", texts.is_radar_code),
    3: ("B", texts.is_kind),
    4: ("B", texts.is_start_kind),
    5: ("B", texts.is_end_kind),
    6: ("B", texts.part_of_kind),
    7: ("B", texts.text_of_kind),
    8: ("B", texts.block_length),
    9: ("B", texts.data_block_length),
    10: ("B", texts.payload_length),
    11: ("B", texts.no_echo_of),
    12: ("B", texts.mode_of),
    13: ("B", texts.mode_byte),
    20: ("BB", texts.kind_of),
    21: ("BB", texts.data_texts),
    22: ("BB", texts.part_length),
    23: ("BB", texts.is_payload_byte),
    24: ("BB", texts.clock_of),
    25: ("BB", texts.radar_follows),
    26: ("BB", texts.is_mode_byte),
    27: ("BB", texts.is_mode_for),
    40: ("H", texts.is_leap_year),
    41: ("HB", texts.days_in),
    42: ("HBBBB", texts.is_moment),
    50: ("12B", minute_or_invalid),
    51: ("8B", lambda *modes: texts.highest_mode(modes)),
    52: ("8B", lambda *radars: texts.is_radar_list(radars)),
    53: ("16B", lambda *both: texts.are_modes_for(both[:8], both[8:])),
    54: (WRITER_HEADER, lambda *numbers: texts.is_writer_header(writer_header(numbers))),
    55: (WRITER_HEADER + "8B", lambda *numbers: texts.is_writer_input(writer_header(numbers[:11]), numbers[11:])),
    56: (WRITER_HEADER + "BB", lambda *numbers: row(texts.writer_header_of(header(numbers)))),
    57: ("q", texts.is_minute),
    58: ("q", texts.digits_of),
    60: (None, lambda *block: texts.xor_all(block)),
    61: (None, lambda *block: texts.check_byte(block)),
    62: (None, lambda *data: not any(data)),
    63: (None, lambda part, *data: all(texts.is_payload_byte(part, b) for b in data)),
    64: (None, put),
}

REQUESTS, LINES = [], []


# One request: groups of numbers are its arguments. From 50 on there is one group. `wanted`, by hand, are the results
# or None
def ask(number, *groups, wanted=None):
    layout, answer = ASKED[number]
    assert number < 50 or len(groups) == 1
    args = b"".join(struct.pack(f">{layout or f'{len(group)}B'}", *group) for group in groups)
    REQUESTS.append(struct.pack(">BH", number, len(args)) + args)
    results = []
    for group in groups:
        result = answer(*group)
        results += result if isinstance(result, tuple) else [result]
    assert wanted in (None, results), f"{number} {groups}: {wanted} by hand, {results} by the model"
    LINES.append(" ".join(str(item if item == "invalid" else int(item)) for item in (number, *results)))


# The same of each byte, or of what stands before it with each byte
def ask_each_byte(number, *before):
    ask(number, *((*before, b) for b in range(256)))


# ---- The vectors

# A list of eight, from its bytes in hexadecimal
def eight(text):
    return tuple(bytes.fromhex(text).ljust(8, b"\0"))


# The digits of a time
def time(text):
    return tuple(map(int, text))


# Every byte: its codes, its kind, its mode bits, the part or the mode that it is; and which of the parts 0
# to 4 may carry it
def bytes_of_all_sorts():
    for number in range(1, 14):
        ask_each_byte(number)
    for part in range(5):
        ask_each_byte(23, part)


# Parts 0 to 5 and 255: the kinds of texts 0 to 31 and 255, and lengths without NO ECHO and with it
def kinds_and_lengths():
    parts = *range(6), 255
    for part in parts:
        ask(20, *((part, text) for text in (*range(32), 255)))
    for number in (21, 22):
        ask(number, *((part, noecho) for part in parts for noecho in (False, True)))


# Every high part of the clock with some low parts, and the high part of 01's clock, `4D 7F`, with every one;
# the two rows of 01, no mode, all alike, and a mode 3 at each place
def modes():
    for low in (0, 1, 64, 127):
        ask(24, *((high, low) for high in range(128)))
    ask(24, *((0x4D, low) for low in range(128)))
    lists = ["01 02 03", "02 01 01 01", "", "01 " * 8, "03 " * 8]
    lists += ["02 " * i + "03 " + "02 " * (3 - i) + "01 " * 4 for i in range(4)]
    lists += ["01 " * 4 + "02 " * i + "03 " + "02 " * (3 - i) for i in range(4)]
    for some in map(eight, lists):
        ask(51, some)


YEARS = (
    *(0, 1, 4, 99, 100, 400, 1582, 1600, 1700, 1900, 1987, 1999),
    *(2000, 2023, 2024, 2100, 9999, 10_000),
)
MORE_YEARS = (*range(1890, 1911), *range(1990, 2011), *range(2090, 2111), *range(9990, 10_011))


# Leap years; of each year the days of its months, then which of the days 0 to 32 months 0 to 13 have; of more
# years, which of the days 28 to 30 February has. Of the hours 0 to 25 of a day, which of the minutes 0 to 61
# they have
def calendar():
    ask(40, *((year,) for year in (*YEARS, *range(1600, 2401))))
    for year in YEARS:
        ask(41, *((year, month) for month in range(1, 13)))
        for month in range(14):
            ask(42, *((year, month, day, 0, 0) for day in range(33)))
    ask(42, *((year, 2, day, 23, 59) for year in MORE_YEARS for day in (28, 29, 30)))
    for hour in range(26):
        ask(42, *((1987, 8, 15, hour, minute) for minute in range(62)))


# Times and their minutes, by hand: those of 01, the first and the last, and from both sides of 2000, of leap days, of
# the days that 1900 and 2100 have not, and of what 32 bits hold. The rest have 9 at a place
GOOD_TIMES = {
    "198708151215": -6_510_945, "199906071210": -298_790, "200002290000": 84_960,
    "000001010000": -1_051_898_400, "999912312359": 4_207_593_599,
    "000001010001": -1_051_898_399, "000001012359": -1_051_896_961, "999912310000": 4_207_592_160,
    "999912312358": 4_207_593_598,
    "199912312359": -1, "200001010000": 0, "200001010001": 1, "200001012359": 1_439, "200001020000": 1_440,
    "199912310000": -1_440, "199912302359": -1_441,
    "200002282359": 84_959, "200002292359": 86_399, "200003010000": 86_400,
    "000002282359": -1_051_813_441, "000002290000": -1_051_813_440, "000003010000": -1_051_812_000,
    "190002282359": -52_509_601, "190003010000": -52_509_600,
    "210002282359": 52_680_959, "210003010000": 52_680_960,
    "199602290000": -2_018_880, "199602292359": -2_017_441, "199603010000": -2_017_440,
    "999602290000": 4_205_574_720, "999603010000": 4_205_576_160,
    "608301230207": 2_147_483_647, "608301230208": 2_147_483_648,
    "999906071210": 4_207_294_810, "199909071210": -166_310, "199906091210": -295_910, "199906071910": -298_370,
    "199906071219": -298_781,
}
# A rule broken in each: that of the date, of the hour or of the minute
BAD_TIMES = (
    *("199902290000", "200002300000", "198700151215", "198713151215", "198708001215", "198708321215"),
    *("198706311215", "198708152400", "198708151260", "000000000000"),
    *("190002290000", "210002290000", "999902290000", "000002300000", "199602300000", "000000010000"),
    *("000001000000", "999900312359", "999912002359", "999913312359", "999912322359", "999912312400"),
    *("999912312360", "199912312400", "199912312360", "200000010000", "200001000000", "200101012400"),
    *("199996071210", "199906971210", "199906079210", "199906071290", "999999999999"),
)


# A digit above 9, where the number that it would give is a right one; then others that are no digits, ASCII
# among them
def bad_digits():
    whole = time("198708151215")
    for place in (3, 2, 1, 5, 7, 9, 11):
        yield whole[:place] + (10,) + whole[place + 1:]
    yield time("1987081512") + (0, 59)
    yield (10,) + whole[1:]
    yield (255,) * 12
    yield tuple(b"198708151215")


def times():
    for text, minute in GOOD_TIMES.items():
        ask(50, time(text), wanted=[minute])
    for digits in (*map(time, BAD_TIMES), *bad_digits()):
        ask(50, digits, wanted=["invalid"])


# The least and the greatest number of 64 bits
LEAST, GREATEST = -2 ** 63, 2 ** 63 - 1
# One beyond the first minute of years 0000 to 9999, one beyond the last, a day beyond each; the ends of what 64 bits
# hold, and the least number of 32 bits; then numbers whose lower 32 bits are a minute's
NO_MINUTES = (
    *(-1_051_898_401, 4_207_593_600, -1_051_898_400 - 1_440, 4_207_593_599 + 1_440, LEAST, LEAST + 1, GREATEST - 1),
    *(GREATEST, -2 ** 31, 2 ** 32, -2 ** 32, 4_207_593_599 + 2 ** 32, -1_051_898_400 - 2 ** 32),
)


# Of the minutes of the times above, and of numbers that are none
def minutes():
    for text, minute in GOOD_TIMES.items():
        ask(57, (minute,), wanted=[True])
        ask(58, (minute,), wanted=list(time(text)))
    for minute in NO_MINUTES:
        ask(57, (minute,), wanted=[False])
        ask(58, (minute,), wanted=[0] * 12)


# One, two, seven and eight radars
GOOD_LISTS = (
    *("A0", "A5", "B6", "A3 A5", "A0 B6", "A0 A1 A2 A3 A4 A5 A7", "A0 A1 A2 A3 A4 A5 A7 A8"),
    *("AF B0 B1 B3 B4 B5 B6", "A5 A7 AF B0 B1 B3 B4 B6"),
)
# A rule broken in each: rising, no code twice, no gap, known codes, one at least
BAD_LISTS = (
    *("A5 A3", "A5 A5", "A0 A1 A2 A3 A4 A5 A8 A7", "A0 A1 A2 A3 A4 A5 A7 A7", "A3 00 A5"),
    *("A3 00 00 00 00 00 00 A5", "A6", "A5 A6", "A5 A6 A7", "A0 B2", "9F A0", "A0 B7"),
    *("A0 A1 A2 A3 A4 A5 A7 FF", "A0 01", "00 A5", ""),
)
FULL = "A0 A1 A2 A3 A4 A5 A7 A8"
# Three that keep the rule; then a mode missing, a mode too many, and a mode above 3, at the first place and
# at the last
MODES = (
    *(("A5", "01"), ("A3 A5", "03 02"), (FULL, "01 02 03 01 02 03 01 02")),
    *(("A5", ""), ("A5", "01 01"), ("A5", "01 00 00 00 00 00 00 03"), ("A5", "04"), ("A3 A5", "02")),
    *((FULL, "01 02 03 01 02 03 01 00"), (FULL, "01 02 03 01 02 03 01 FF")),
)


# Every byte after each code and after none; every byte as a mode, and as an end block's byte for one
def radars():
    for before in (0, *texts.RADARS):
        ask_each_byte(25, before)
    for radar in (0x00, 0xA0, 0xA5, 0xB6):
        ask_each_byte(26, radar)
        ask_each_byte(27, radar)
    for some in map(eight, GOOD_LISTS + BAD_LISTS):
        ask(52, some)
    for some, their_modes in MODES:
        ask(53, eight(some) + eight(their_modes))


# What 01's start and end text give, and then other fields in their place
SAMPLE = {"minute": -298_790, "radars": "A5", "clock": 9983, "picture": 0xCC, "modes": "01"}
# Headers and modes that keep every rule
GOOD_INPUT = (
    *({}, {"clock": 0}, {"clock": 16383}, {"picture": 0xC0}, {"picture": 0xF1}, {"minute": 84_960}),
    *({"minute": minute} for minute in (-1_051_898_400, -1_051_898_399, -1, 0, 1, 4_207_593_598, 4_207_593_599)),
    *({"radars": "A3 A5", "modes": "03 01"}, {"radars": FULL, "modes": "01 02 03 01 02 03 01 02"}),
)
# The clock, the picture code, the minute or the radars break their rule; then the modes do, and the header
# does not
BAD_INPUT = (
    *({"clock": 16384}, {"clock": 65535}, {"picture": 0x00}, {"picture": 0xC3}, {"picture": 0xFD}),
    *({"minute": minute} for minute in NO_MINUTES),
    *({"radars": "", "modes": ""}, {"radars": "A6"}, {"radars": "A5 A3", "modes": "01 01"}),
    *({"radars": "A5 A5", "modes": "01 01"}, {"radars": "A3 00 A5", "modes": "01 00 01"}),
    *({"modes": ""}, {"modes": "04"}, {"modes": "01 01"}, {"modes": "01 00 00 00 00 00 00 02"}),
    {"radars": "A3 A5"},
)
# Minute, clock, picture code, mode and NO ECHO of headers; a writer takes not the last two
HEADERS = ((-298_790, 9983, 0xCC, 1, True), (4_207_593_599, 16383, 0xF1, 3, False), (0, 0, 0, 0, False),
           (-1_051_898_400, 1, 0xC0, 2, True), (LEAST, 65_535, 0xFF, 255, True), (GREATEST, 0, 0, 0, False))


def writer_headers():
    for other in GOOD_INPUT + BAD_INPUT:
        case = SAMPLE | other
        given = row(WriterHeader(case["minute"], eight(case["radars"]), case["clock"], case["picture"]))
        ask(54, given)
        ask(55, given + eight(case["modes"]), wanted=[other in GOOD_INPUT])
    for minute, clock, picture, mode, noecho in HEADERS:
        given = row(WriterHeader(minute, eight(SAMPLE["radars"]), clock, picture))
        ask(56, (*given, mode, noecho), wanted=list(given))


# Byte i of the generated block of n bytes: (31 * i + i / 7 + n) mod 256
def generated(n):
    return bytes((31 * i + i // 7 + n) % 256 for i in range(n))


# Blocks of one byte; 01's start block, whose check byte is `4F`, and its end block, `D4`; generated blocks
# of 0 to 40 bytes and of the lengths of data blocks
def blocks():
    start = bytes.fromhex("FD CC 10 00 08 04 4D 7F") + b"1999.06.07.12.10" + b"\xA5" + bytes(7)
    end = bytes.fromhex("FD CC 1F 04") + bytes(28)
    known = b"\x00", b"\xFD", b"\xFE", start, end
    for block in (*known, *map(generated, (*range(41), 103, 403, 2003))):
        ask(60, block)
        ask(61, block)


# Zeros, and one other byte among them: at the front, at the end and in the middle
ALMOST_ZEROS = (
    *(b"", b"\0", b"\1", bytes(40), b"\1" + bytes(39), bytes(39) + b"\1"),
    bytes(20) + b"\x80" + bytes(19),
)


# For parts 0 to 4 no bytes, and the bytes that each of the parts 1 to 3 may carry; for these parts their own
# with one that they may not, at the front and at the end. For quality more of these, in the middle too, and the
# highest byte that it may carry, alone and many times
def payloads():
    for data in ALMOST_ZEROS:
        ask(62, data)
    carried = {part: [b for b in range(256) if texts.is_payload_byte(part, b)] for part in texts.PARTS}
    assert carried[texts.QUALITY] == [*range(0x80), 0x80]
    for part in range(5):
        for data in ([], *carried.values()):
            ask(63, (part, *data))
    for part, data in carried.items():
        ask(63, (part, 0xFF, *data))
        ask(63, (part, *data, 0xFF))
    low, high = carried[texts.QUALITY][:50], carried[texts.QUALITY][-50:]
    for b in (0x81, 0xC0, 0xFD, 0xFE, 0xFF):
        for data in ([b, *low, *high], [*low, b, *high], [*low, *high, b]):
            ask(63, (texts.QUALITY, *data))
    for data in ([0x80], [0x81], [0x80] * 100, [0x80] * 99 + [0x81], [0x80] * 50 + [0xC0] + [0x7F] * 49):
        ask(63, (texts.QUALITY, *data))


# Places and bytes: at the front, in the middle and at the end of the output, and over all of it; one place
# too far, one byte too many; none at the end, and none past it
PUTS = (
    *((0, b"abc"), (3, b"abc"), (5, b"abc"), (7, b"a"), (0, b"abcdefgh")),
    *((6, b"abc"), (8, b"a"), (255, b"a"), (1, b"abcdefgh"), (0, b"abcdefghi")),
    *((0, b""), (8, b""), (9, b"")),
)


def puts():
    for place, data in PUTS:
        ask(64, (place, *data))


if __name__ == "__main__":
    bytes_of_all_sorts()
    kinds_and_lengths()
    modes()
    calendar()
    times()
    minutes()
    radars()
    writer_headers()
    blocks()
    payloads()
    puts()
    if sys.argv[1:] == ["--stream"]:
        sys.stdout.buffer.write(b"".join(REQUESTS))
    else:
        print("\n".join(LINES))
