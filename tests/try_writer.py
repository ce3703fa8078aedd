"""The input of the program `try_writer`, and the lines that it must print for it.

    python3 tests/try_writer.py --stream > crates/try_writer/stdin
    python3 tests/try_writer.py > crates/try_writer/stdout

The calls stand here alone. The input is calls, one behind the other. A call is what the writer takes, of
a number's bytes the high one first; the minute, a signed count from 1 January 2000, 00:00 (Request 111), is in two's
complement:

    byte 0            part
    bytes 1 to 8      minute
    bytes 9 to 16     radars
    bytes 17 and 18   clock
    byte 19           picture code
    bytes 20 to 27    modes
    bytes 28 and 29   the output's length
    bytes 30 and 31   the payload's length
    from byte 32 on   the payload

The output is all `AA` before the writer has it. What was written goes to a fresh receiver with all twenty marks,
by as many slice calls as that takes. The lines of a call, in decimal:

    wrote LENGTH SUM          the length of what was written
    took COUNT ANSWER         one for each slice call
    held CONTENTS             after answer 3: header (minute, 8 radars, clock, picture code, mode, NO ECHO), 8 modes,
                              the grid's sum
    refused NUMBER SUM        a row of 01's table, 31 to 34

A sum is Adler-32, begun at 0. SUM is over the whole output after the call: what was written, and behind it, or
after a refusal everywhere, `AA`. The lines are those of the models of 01's texts and receiver, tests/model,
and of rows 31 to 34 of its table. Every part that is written must give what it was given.
"""

import struct
import sys
import zlib
from pathlib import Path

sys.dont_write_bytecode = True
sys.path.insert(0, str(Path(__file__).resolve().parent / "model"))
import texts
from receiver import ALL_MARKS, Receiver
from texts import INTENSITY, QUALITY, TOP, WriterHeader

CALLS, LINES = [], []


def adler(data):
    return zlib.adler32(bytes(data), 0)


# ---- What the writer takes

# A list of eight, from its bytes in hexadecimal
def eight(text):
    return tuple(bytes.fromhex(text).ljust(8, b"\0"))


# The first minute of years 0000 to 9999, and the last; the least and the greatest number of 64 bits
FIRST, LAST = -1_051_898_400, 4_207_593_599
LEAST, GREATEST = -2 ** 63, 2 ** 63 - 1
# Minutes and how they are written, by hand: the first and the last and those next to them, from both sides of 2000, of
# leap days, and of the days that 1900 and 2100 have not; others with 9 at a place; the least above what 32 bits with a
# sign hold
TIMES = {
    FIRST: "0000.01.01.00.00", FIRST + 1: "0000.01.01.00.01", LAST - 1: "9999.12.31.23.58", LAST: "9999.12.31.23.59",
    -1: "1999.12.31.23.59", 0: "2000.01.01.00.00", 1: "2000.01.01.00.01",
    84_959: "2000.02.28.23.59", 84_960: "2000.02.29.00.00", 86_399: "2000.02.29.23.59", 86_400: "2000.03.01.00.00",
    -1_051_813_440: "0000.02.29.00.00", -1_051_812_000: "0000.03.01.00.00",
    -52_509_601: "1900.02.28.23.59", -52_509_600: "1900.03.01.00.00",
    52_680_959: "2100.02.28.23.59", 52_680_960: "2100.03.01.00.00",
    -2_018_880: "1996.02.29.00.00", 4_205_574_720: "9996.02.29.00.00",
    -298_790: "1999.06.07.12.10", -6_510_945: "1987.08.15.12.15", -166_310: "1999.09.07.12.10",
    -295_910: "1999.06.09.12.10", -298_370: "1999.06.07.19.10", -298_781: "1999.06.07.12.19",
    2_147_483_648: "6083.01.23.02.08",
}

WRITER_HEADERS = {
    INTENSITY: WriterHeader(-298_790, eight("A5"), 9983, 0xCC),
    TOP: WriterHeader(86_399, eight("A0 A7 B3"), 16_383, 0xC0),
    QUALITY: WriterHeader(FIRST, eight("A5 A7 AF B0 B1 B3 B5 B6"), 0, 0xF1),
}
MODES = {
    INTENSITY: eight("01"),
    TOP: eight("02 01 01"),
    QUALITY: eight("01 02 03 01 02 03 01 02"),
}


# The bytes that a part may carry, in rising order from the one numbered `first` on, over and over; a part that
# is none goes by quality here and above
def payload_of(part, size, first=0):
    allowed = [b for b in range(256) if texts.is_payload_byte(part if part in texts.PARTS else QUALITY, b)]
    return bytes(allowed[(first + i) % len(allowed)] for i in range(size))


# Quality's highest ones, `1D` to `80`
QUALITY_HIGH = payload_of(QUALITY, 100, 29)


# `data` with `b` at `place`
def altered(data, place, b):
    return data[:place] + bytes([b]) + data[place + 1:]


# ---- The writer

# Rows 31 to 34 of 01's table, which "the writer tests .. in order"; 0 where none is met
def refusal(part, header, modes, payload, length):
    # "part is not 1, 2 or 3 (intensity, top, quality)"
    if part not in (1, 2, 3):
        return 31
    # "header or modes break a rule above"
    if not texts.is_writer_input(header, modes):
        return 32
    # "payload not 20,000, 400 or 100 bytes by part, or a forbidden byte"
    if not texts.is_payload(part, payload):
        return 33
    # "output shorter than the part"
    if length < len(texts.written_part(part, header, modes, payload)):
        return 34
    return 0


# One call: its bytes, its line, and the bytes written. `wanted`, by hand, is a row's number or the length of
# what is written. "the rest of the output is untouched"; a refusal leaves "output unchanged, 0 written"
def attempt(wanted, part, header, modes, payload, length):
    head = struct.pack(">Bq8BHB", part, header.minute, *header.radars, header.clock, header.picture)
    CALLS.append(head + struct.pack(">8BHH", *modes, length, len(payload)) + payload)
    output = bytearray(b"\xAA" * length)
    row = refusal(part, header, modes, payload, length)
    if row != 0:
        assert row == wanted, f"row {wanted} by hand, {row} by the model"
        LINES.append(f"refused {row} {adler(output)}")
        return b""
    data = texts.written_part(part, header, modes, payload)
    assert len(data) == wanted and texts.undamaged_part(data)
    # "Bytes 8 to 23 are ASCII", behind the control bytes. Request 111: "The written bytes are those of before."
    assert data[13:29] == TIMES[header.minute].encode()
    output[:wanted] = data
    assert len(output) == length
    LINES.append(f"wrote {wanted} {adler(output)}")
    return data


# The same with the header and modes of a part
def usual(wanted, part, payload, length):
    model = part if part in texts.PARTS else QUALITY
    return attempt(wanted, part, WRITER_HEADERS[model], MODES[model], payload, length)


# ---- Parts, read back

# The line for what a receiver holds
def held(receiver):
    header = receiver.header
    numbers = [header.minute, *header.radars, header.clock, header.picture, header.mode, int(header.noecho)]
    return " ".join(map(str, ["held", *numbers, *receiver.modes, adler(receiver.grid)]))


# Slice calls of a fresh receiver on what was written, until it is used up, and their lines. Header, modes and
# payload are those given; `mode`, `noecho` and `answers` are by hand
def read_back(data, header, modes, payload, mode, noecho, answers):
    receiver, found, at = Receiver(ALL_MARKS), [], 0
    while at < len(data):
        answer, count = receiver.slice(data, at)
        at += count
        found.append(answer)
        LINES.append(f"took {count} {answer}")
    LINES.append(held(receiver))
    assert found == answers, f"answers {answers} by hand, {found} by the model"
    assert texts.writer_header_of(receiver.header) == header and receiver.modes == modes
    assert receiver.header.mode == mode and receiver.header.noecho == noecho
    assert receiver.grid == payload.ljust(texts.GRID, b"\0")


# One part, written and read back
def through(part, payload, length, wanted, mode, answers):
    data = usual(wanted, part, payload, length)
    read_back(data, WRITER_HEADERS[part], MODES[part], payload, mode, wanted == 80, answers)


# With all the bytes that a part may carry, for quality in two payloads, and with zeros alone
def parts():
    echoes, tops, low = (payload_of(part, texts.payload_length(part)) for part in texts.PARTS)
    assert len(set(echoes)) == 225 and max(echoes) == 0xEE and set(tops) == set(range(9))
    assert low == bytes(range(0x64)) and QUALITY_HIGH == bytes(range(0x1D, 0x81))
    for length in (20_190, 20_200):
        through(INTENSITY, echoes, length, 20_190, 1, [1, *(2,) * 10, 3])
    for length in (80, 20_200):
        through(INTENSITY, bytes(20_000), length, 80, 1, [1, 3])
    for length in (491, 600):
        through(TOP, tops, length, 491, 2, [1, 2, 3])
    for length in (80, 600):
        through(TOP, bytes(400), length, 80, 2, [1, 3])
    # "Applying NO ECHO to quality" is a misreading
    for payload in (low, QUALITY_HIGH, bytes(100)):
        for length in (191, 300):
            through(QUALITY, payload, length, 191, 3, [1, 2, 3])
    # One value throughout: all causes, unknown alone
    for b in (0x7F, 0x80):
        through(QUALITY, bytes([b]) * 100, 191, 191, 3, [1, 2, 3])


# Every minute above with a payload of all zeros, echo top and quality in turn; intensity with the first and the last
def minutes():
    tried = [(TOP if i % 2 == 0 else QUALITY, minute) for i, minute in enumerate(TIMES)]
    for part, minute in (*tried, (INTENSITY, FIRST), (INTENSITY, LAST)):
        header, modes = WRITER_HEADERS[part]._replace(minute=minute), MODES[part]
        size, length, mode, answers = {
            INTENSITY: (20_000, 80, 1, [1, 3]), TOP: (400, 80, 2, [1, 3]), QUALITY: (100, 191, 3, [1, 2, 3]),
        }[part]
        data = attempt(length, part, header, modes, bytes(size), length)
        read_back(data, header, modes, bytes(size), mode, length == 80, answers)


# ---- Refusals

# With what keeps every other rule for some part
def row_31():
    usual(31, 0, bytes(20_000), 20_190)
    usual(31, 4, bytes(100), 191)
    usual(31, 255, bytes(400), 491)


# One field of what keeps every rule is altered, or radars and modes; first none is
def row_32():
    good = WriterHeader(-6_510_945, eight("A3 A5"), 16_383, 0xD4)
    good_modes = eight("02 01")
    calls = [({"picture": code}, good_modes) for code in (0x00, 0xCD, 0xFD)]
    calls += [({"clock": clock}, good_modes) for clock in (16_384, 65_535)]
    # One beyond the first and the last minute of years 0000 to 9999, and a day; the ends of what 64 bits hold; numbers
    # whose lower 32 bits are a minute's
    minutes = (FIRST - 1, LAST + 1, FIRST - 1_440, LAST + 1_440, LEAST, LEAST + 1, GREATEST - 1, GREATEST, 2 ** 32,
               -2 ** 32, LAST + 2 ** 32, FIRST - 2 ** 32)
    calls += [({"minute": minute}, good_modes) for minute in minutes]
    # Falling, the same twice, none, a code that is none, one after `00`
    calls += [({"radars": eight("A5 A3")}, good_modes), ({"radars": eight("A5 A5")}, good_modes)]
    calls += [({"radars": eight("")}, eight("")), ({"radars": eight("A3 A6")}, good_modes)]
    calls += [({"radars": eight("A3 00 A5")}, eight("02 00 01"))]
    # Missing at one radar, at all; where there is no radar; not 1 to 3
    lists = ("02", "", "02 01 01", "02 01 00 00 00 00 00 03", "04 01", "02 FF")
    calls += [({}, eight(modes)) for modes in lists]
    data = attempt(191, QUALITY, good, good_modes, bytes(100), 191)
    read_back(data, good, good_modes, bytes(100), 2, False, [1, 2, 3])
    for fields, modes in calls:
        attempt(32, QUALITY, good._replace(**fields), modes, bytes(100), 191)


# Each output long enough
def row_33():
    for part, size, length, zeros, forbidden in (
        (INTENSITY, 20_000, 20_190, 19_999, ((0, 0x0F), (10_000, 0xF0), (19_999, 0xEF))),
        (TOP, 400, 491, 0, ((0, 0x09), (399, 0x80))),
        (QUALITY, 100, 191, 400, ((0, 0x81), (50, 0x81), (99, 0x81), (0, 0xC0), (50, 0xFF), (99, 0xFF), (0, 0xFD),
                                  (50, 0xFD), (99, 0xFE))),
    ):
        good = QUALITY_HIGH if part == QUALITY else payload_of(part, size)
        usual(33, part, payload_of(part, size - 1), length)
        usual(33, part, payload_of(part, size + 1), length)
        usual(33, part, bytes(zeros), length)
        for place, b in forbidden:
            usual(33, part, altered(good, place, b), 20_190)


# Quality's part is as long with a payload of all zeros
def row_34():
    for part, size, lengths, lengths_of_zeros in (
        (INTENSITY, 20_000, (20_189, 80, 0), (79,)),
        (TOP, 400, (490, 0), (79,)),
        (QUALITY, 100, (190,), (190, 80, 0)),
    ):
        for length in lengths:
            usual(34, part, payload_of(part, size), length)
        for length in lengths_of_zeros:
            usual(34, part, bytes(size), length)


# From a call that breaks every rule to one that breaks the last
def order():
    nothing = WriterHeader(GREATEST, eight(""), 65_535, 0)
    attempt(31, 4, nothing, (4,) * 8, b"\xFF", 79)
    attempt(32, TOP, nothing, (4,) * 8, b"\xFF", 79)
    usual(33, TOP, b"\xFF", 79)
    usual(34, TOP, bytes(400), 79)
    # The minute alone, and a rule of the next row
    no_minute = WRITER_HEADERS[TOP]._replace(minute=LAST + 1)
    attempt(31, 4, no_minute, MODES[TOP], bytes(400), 491)
    attempt(32, TOP, no_minute, MODES[TOP], b"\xFF", 491)
    attempt(32, TOP, no_minute, MODES[TOP], bytes(400), 79)


if __name__ == "__main__":
    parts()
    minutes()
    row_31()
    row_32()
    row_33()
    row_34()
    order()
    if sys.argv[1:] == ["--stream"]:
        sys.stdout.buffer.write(b"".join(CALLS))
    else:
        print("\n".join(LINES))
