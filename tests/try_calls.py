"""The input of the program `try_calls`, and the lines that it must print for it.

    python3 tests/try_calls.py --stream > crates/try_calls/stdin
    python3 tests/try_calls.py > crates/try_calls/stdout

The input is records: a length of two bytes, high byte first, and so many bytes. A record is a part, or
a part with one altered byte. The lines are those of the model of 01's receiver, tests/model/receiver.py,
and of what it holds. CONTENTS is the header (minute, 8 radars, clock, picture code, mode, NO ECHO), 8 modes,
and Adler-32 of the grid, begun at 0: all 0 after a drop. The minute is a signed count from 1 January 2000, 00:00
(Request 111); the digits are twelve, YYYYMMDDhhmm.

    part LENGTH             a record, before its runs
    cut K TAKEN ANSWER      from the slice call, where the cut is K bytes into the opening
    byte TAKEN ANSWER       from the byte call; TAKEN counts the record's bytes taken so far
    waiting TAKEN PLACE MINUTE DIGITS
                            from the byte call, after each quiet byte that leaves place 8 to 25 of a start text:
                            the header's minute, and the digits that wait in the state
    held CONTENTS           after answer 3
    dropped CONTENTS        after an answer above 10
    refused CALL NUMBER COUNT SEEN PLACE KIND PICTURE PART DUE CHECK SEEN-COUNT MARKS DIGITS CONTENTS
    answered, and the same  where a call of those is answered and not refused

Of the last two, CALL is 1 for the byte call and 2 for the slice call, NUMBER is the refusal or the answer, and
COUNT the bytes taken; what follows is the state returned and the grid left, which a refusal leaves as they were.
Both calls are given the one byte `FD`, which would begin a text, for the bytes seen are the control bytes. Each
record is run with the cut at K = 0 to 6 and then byte by byte; state and grid go on from run to run, and the grid
goes on to the calls of the last two kinds, but where these have one of another length. All receivers have all twenty
marks, but where a line of these two kinds says others.
"""

import sys
import zlib
from pathlib import Path

sys.dont_write_bytecode = True
sys.path.insert(0, str(Path(__file__).resolve().parent / "model"))
import texts
from receiver import ALL_MARKS, NO_DIGITS, NO_HEADER, NO_MODES, Receiver
from texts import CONTROL, FD, GRID, INTENSITY, OPENING, QUALITY, TOP

# ---- The records, each with the answers that it must get, worked out by hand from 01's table

RECORDS = []


def record(data, *answers):
    RECORDS.append((bytes(data), answers))


# Any one byte altered
def altered(data, place, b):
    assert data[place] != b
    return data[:place] + bytes([b]) + data[place + 1:]


# The minutes of the times below, by hand
MINUTES = {"199906071210": -298_790, "200002292359": 86_399, "000001010000": -1_051_898_400,
           "999912312359": 4_207_593_599, "199912312359": -1}


def header(picture, time, radars, mode, clock, noecho=False):
    return texts.Header(MINUTES[time], bytes.fromhex(radars).ljust(8, b"\0"), clock, picture, mode, noecho)


def no_echo(time):
    return texts.make_part(INTENSITY, header(0xCC, time, "A5", 1, 9983, True), (1, *(0,) * 7), b"")


NO_ECHO = no_echo("199906071210")
assert NO_ECHO[13:29] == b"1999.06.07.12.10"
TOP_PAYLOAD = bytes(i * i // 3 % 9 for i in range(400))
WITH_TOPS = texts.make_part(TOP, header(0xC0, "200002292359", "A0 A7 B3", 2, 16_383),
                            (2, 1, 1, *(0,) * 5), TOP_PAYLOAD)
# Bit 7 alone at both ends, and causes in between: the even values, and the odd ones from `3F` on
QUALITY_PAYLOAD = bytes([0x80, *range(0x00, 0x80, 2), *range(0x3F, 0x80, 2), 0x40, 0x80])
assert len(QUALITY_PAYLOAD) == 100 and {0x00, 0x3F, 0x40, 0x41, 0x7F, 0x80} <= set(QUALITY_PAYLOAD)
WITH_QUALITY = texts.make_part(QUALITY, header(0xF1, "000001010000", "A5 A7 AF B0 B1 B3 B5 B6", 3, 128),
                               (1, 2, 3, 1, 2, 3, 1, 2), QUALITY_PAYLOAD)
assert [len(part) for part in (NO_ECHO, WITH_TOPS, WITH_QUALITY)] == [80, 491, 191]
assert all(part[40:46] == OPENING for part in (NO_ECHO, WITH_TOPS, WITH_QUALITY))

record(NO_ECHO, 1, 3)
record(WITH_TOPS, 1, 2, 3)
# The fourth byte of the opening (row 12), and the end text's picture code (row 17)
record(altered(NO_ECHO, 43, 0x16), 1, 12)
record(altered(NO_ECHO, 46, 0xC0), 1, 17)
# The last payload byte, altered to an allowed one: the check byte does not fit (row 20), and the end text
# has no part open (row 16)
record(altered(WITH_TOPS, 40 + 8 + 399, 8 - TOP_PAYLOAD[399]), 1, 20, 16)
# Quality's first payload byte and one in the middle, the same: `80` to `7F`, `40` to `41`
record(altered(WITH_QUALITY, 40 + 8, 0x7F), 1, 20, 16)
record(altered(WITH_QUALITY, 40 + 8 + QUALITY_PAYLOAD.index(0x40), 0x41), 1, 20, 16)
# Altered to one that is not allowed, at the first, a middle and the last place (row 18)
record(altered(WITH_QUALITY, 40 + 8, 0x81), 1, 18, 16)
record(altered(WITH_QUALITY, 40 + 8 + 50, 0xC0), 1, 18, 16)
record(altered(WITH_QUALITY, 40 + 8 + 99, 0xFF), 1, 18, 16)
# The end text's `FF` (row 21)
record(altered(WITH_QUALITY, 190, 0xFE), 1, 2, 21)
# The last minute of all, and the last before 2000
record(no_echo("999912312359"), 1, 3)
record(no_echo("199912312359"), 1, 3)
# The time of the first record: minute 90 at byte 23 (row 18), a stop for the day's last digit, at its own byte (row
# 18), and the end text has no part open (row 16)
record(altered(NO_ECHO, 5 + 22, 0x39), 18, 16)
record(altered(NO_ECHO, 5 + 17, 0x2E), 18, 16)
# Its year 9999, another minute: the check byte does not fit (row 20)
record(altered(NO_ECHO, 5 + 8, 0x39), 20, 16)
# Last, so that the refusals below have something to leave
record(WITH_QUALITY, 1, 2, 3)

STREAM = b"".join(len(data).to_bytes(2) + data for data, _ in RECORDS)
assert len(STREAM) <= 3000

# ---- The runs

LINES = []


def line(word, *numbers):
    LINES.append(" ".join([word, *map(str, map(int, numbers))]))


def contents(receiver):
    h = receiver.header
    return (h.minute, *h.radars, h.clock, h.picture, h.mode, h.noecho, *receiver.modes,
            zlib.adler32(bytes(receiver.grid), 0))


# What is printed after an answer; what it must be, as 01 says it
def after(receiver, answer, data):
    if answer == 3:
        assert texts.undamaged_part(data) and receiver.header == texts.header_of_part(data)
        assert receiver.modes == texts.modes_of_part(data) and receiver.grid == texts.grid_of_part(data)
        line("held", *contents(receiver))
    if answer > 10:
        assert receiver.header == NO_HEADER and receiver.modes == NO_MODES and not any(receiver.grid)
        assert receiver.digits == NO_DIGITS
        line("dropped", *contents(receiver))


# The bytes of a start block that are digits
DIGIT_BYTES = (8, 9, 10, 11, 13, 14, 16, 17, 19, 20, 22, 23)


# What waits at place 8 to 25 of the start text with which `data` begins: by hand, until byte 23 has come, the digits
# that have, and then none; the minute from then on. Place counts the bytes, so byte 23 leaves place 24
def waiting(receiver, taken, data):
    come = [data[5 + at] - 0x30 for at in DIGIT_BYTES if at < receiver.place]
    wanted = (*come, *(0,) * (12 - len(come))) if receiver.place < 24 else (0,) * 12
    assert taken == 5 + receiver.place and receiver.digits == wanted
    assert receiver.header.minute == (texts.minute_of_field(data[13:29]) if receiver.place >= 24 else 0)
    line("waiting", taken, receiver.place, receiver.header.minute, *receiver.digits)


# In two slices, each given until it is used up; the answers but 0
def cut_run(receiver, data, k):
    answers = []
    for start, stop in ((0, 40 + k), (40 + k, len(data))):
        while start < stop:
            answer, count = receiver.slice(data, start, stop)
            start += count
            if answer != 0:
                answers.append(answer)
                line("cut", k, start, answer)
                after(receiver, answer, data)
    return tuple(answers)


def byte_run(receiver, data):
    answers = []
    for taken, b in enumerate(data, 1):
        answer = receiver.byte(b)
        if answer != 0:
            answers.append(answer)
            line("byte", taken, answer)
            after(receiver, answer, data)
        elif texts.is_start_kind(receiver.kind) and 8 <= receiver.place <= 25:
            waiting(receiver, taken, data)
    return tuple(answers)


# ---- Refusals

# What the slice call is given, and of this one byte the byte call
GIVEN = bytes([FD])
# Place, kind, picture code, part, due text, check byte, count of the bytes seen
FREE = (0, 0, 0, 0, 0, 0, 5)
SIX_SEEN = (0, 0, 0, 0, 0, 0, 6)
# Not possible, so that both calls are refused with 2
STATES = [
    (2, 0, 0, 0, 0, 0x31, 5),  # place 2 with no picture code
    (0, 0, 0xCC, 0, 0, 0, 5),  # a picture code at place 0
    (0, 0, 0, 0, 0, 1, 5),  # a check byte at place 0
    (3, 0, 0xCC, 0, 0, 0, 5),  # place 3 with no kind
    (35, 0x10, 0xCC, 0, 0, 0, 5),  # past a start text's last place
    (3, 0x22, 0xCC, 2, 1, 0, 5),  # a kind that is none
    (0, 0, 0, 2, 5, 0, 5),  # due text 5 of echo top
    (0, 0, 0, 0, 1, 0, 5),  # a due text with no part
    (0, 0, 0, 4, 1, 0, 5),  # part 4
    SIX_SEEN,
    (3, 0x11, 0xCC, 0, 0, 0, 5),  # a data kind with no part open
    (3, 0x2F, 0xCC, 2, 1, 0, 5),  # an end kind where data is due
]
# Request 101, in the state FREE: all marks and none, which are answered, and the least and the greatest number with
# marks beyond the twentieth, refused with 2
MARKS = ((ALL_MARKS, 0), (0, 0), (1_048_576, 2), (4_294_967_295, 2))


# Twelve digits, 0 but for these: {number of the digit, from 0: digit}
def digits(others):
    return tuple(others.get(i, 0) for i in range(12))


NINES = digits(dict.fromkeys(range(12), 9))
# Request 111: states with digits that wait. With 11, no rule is broken, and an opening ends while a text is under way
DIGITS = [
    ((9, 0x10, 0xCC, 0, 0, 0, 5), NINES, 11),  # the first place with digits
    ((23, 0x30, 0xCC, 0, 0, 0, 5), NINES, 11),  # the last one
    ((9, 0x20, 0xCC, 0, 0, 0, 5), digits({11: 1}), 11),  # one that has still to come is not judged
    ((16, 0x10, 0xCC, 0, 0, 0, 5), NO_DIGITS, 11),
    ((9, 0x10, 0xCC, 0, 0, 0, 5), digits({0: 10}), 2),  # above 9
    ((23, 0x10, 0xCC, 0, 0, 0, 5), digits({11: 255}), 2),
    ((16, 0x20, 0xCC, 0, 0, 0, 5), digits({5: 10}), 2),
    ((8, 0x10, 0xCC, 0, 0, 0, 5), digits({0: 1}), 2),  # before the first digit is taken
    ((24, 0x10, 0xCC, 0, 0, 0, 5), digits({11: 1}), 2),  # after byte 23
    ((34, 0x10, 0xCC, 0, 0, 0, 5), NINES, 2),
    ((0, 0, 0, 0, 0, 0, 5), digits({0: 1}), 2),  # between texts
    ((2, 0, 0xCC, 0, 0, 0, 5), digits({11: 9}), 2),  # before the kind is read
    ((12, 0x1F, 0xCC, 1, 11, 0, 5), digits({2: 2}), 2),  # an end text
    ((12, 0x11, 0xCC, 1, 1, 0, 5), digits({2: 2}), 2),  # a data text
]
# Refused with 1, whatever the state
LENGTHS = (0, 19_999, 20_001)


# A receiver in a made-up state, with header and modes of one that has received, and this grid
def made_up(receiver, grid, frame, marks, twelve):
    tried = Receiver()
    tried.place, tried.kind, tried.picture, tried.part, tried.due, tried.check, count = frame
    tried.seen = CONTROL.rjust(count, b"\0")
    tried.marks, tried.digits = marks, twelve
    tried.header, tried.modes, tried.grid = receiver.header, receiver.modes, grid
    return tried


# The bytes seen are printed as one number, the newest byte lowest
def state(tried):
    return (int.from_bytes(tried.seen), tried.place, tried.kind, tried.picture, tried.part, tried.due, tried.check,
            len(tried.seen), tried.marks, *tried.digits, *contents(tried))


# Both calls in one state. A refused call takes nothing and leaves all as it was; `wanted` is the refusal, or 0 or 11.
# The byte is an opening's last. Between texts with no part open it is quiet: place 1, its check byte, and all else as
# it was. While a text is under way that is row 11: state and grid are dropped, and the new text has the same place and
# check byte
def call_lines(receiver, grid, frame, wanted, marks=ALL_MARKS, twelve=NO_DIGITS):
    for call in (1, 2):
        tried = made_up(receiver, grid, frame, marks, twelve)
        assert tried.refusal() == (wanted if wanted in (1, 2) else 0)
        if wanted in (1, 2):
            line("refused", call, wanted, 0, *state(tried))
            continue
        kept = contents(tried) if wanted == 0 else (0,) * 22
        answer, count = (tried.byte(GIVEN[0]), 1) if call == 1 else tried.slice(GIVEN)
        assert (answer, count, tried.seen) == (wanted, 1, OPENING[1:]) and contents(tried) == kept
        assert (tried.place, tried.kind, tried.picture, tried.part, tried.due) == (1, 0, 0, 0, 0)
        assert (tried.check, tried.marks, tried.digits) == (FD, marks, NO_DIGITS)
        line("answered", call, answer, count, *state(tried))


def make_lines():
    receiver = Receiver(ALL_MARKS)
    for data, answers in RECORDS:
        line("part", len(data))
        runs = [cut_run(receiver, data, k) for k in range(7)] + [byte_run(receiver, data)]
        assert all(run == answers for run in runs), f"answers {answers} by hand, {runs} by the model"
    assert receiver.header.minute == -1_051_898_400
    for frame in STATES:
        call_lines(receiver, receiver.grid, frame, 2)
    for marks, wanted in MARKS:
        call_lines(receiver, receiver.grid, FREE, wanted, marks)
    assert any(receiver.grid)
    for frame, twelve, wanted in DIGITS:
        call_lines(receiver, receiver.grid, frame, wanted, ALL_MARKS, twelve)
        assert not any(receiver.grid)  # from the first of these on
    # "1" comes before "2". The grid is all sevens
    for length in LENGTHS:
        for frame in (FREE, SIX_SEEN):
            call_lines(receiver, bytearray(b"\x07" * length), frame, 1)


if __name__ == "__main__":
    if sys.argv[1:] == ["--stream"]:
        sys.stdout.buffer.write(STREAM)
    else:
        make_lines()
        print("\n".join(LINES))
