"""The input and the arguments of the program `decode`, and what it must print for them.

    python3 tests/decode.py --stream > crates/decode/stdin
    python3 tests/decode.py --args > crates/decode/args
    python3 tests/decode.py > crates/decode/stdout
    python3 tests/decode.py --try crates/decode/out/decode

What a part has is what the model of 01's receiver with Requests 101 and 111, tests/model/receiver.py, holds at
answer 3; its time is that of the minute in the header.
The layout stands in crates/decode/src/main.rt. Names, and where levels begin, are tables of notice No. 49; the
causes of quality are request #107's, by their bits. The stream is one after the other of the pieces below, which
have every picture code, every radar, every value of quality and every answer.
Each piece is given with the answers that it must get, worked out by hand from 01's table, also where a picture of
it is unmarked; where the model gives others, this ends with an error. "Row" is a row of that table, and 51 is
Request 101's.

The arguments are the codes of the pictures that are marked, each two hexadecimal digits, upper or lower case; all
twenty are where there is no argument. Where one is no listed code nothing is decoded, and standard error has for
each such argument the line

    decode: argument K is no listed picture code: WORD

in which K counts from 1, and WORD is left out where it is longer than 4,095 bytes. With --try, the program that is
named is given the stream with many lists of arguments, and all that it prints is compared.
"""

import re
import subprocess
import sys
from collections import Counter

sys.dont_write_bytecode = True
from try_byte_call import altered
from listen import (EIGHT_RADARS, INTENSITY_ANSWERS, QUALITY_BEGUN, QUALITY_HIGH, QUALITY_LOW, THREE_RADARS,
                            TOP_BEGUN, TOP_TAKEN, data, end, start, whole, with_extra)
from receiver import SAMPLE_END, SAMPLE_START, Receiver, marks_of
from texts import FE, INTENSITY, OPENING, PICTURES, QUALITY, RADARS, TOP, digits_of, payload_length

# ---- The notice's tables

# 5(1), in its order
PICTURE_NAMES = {
    0xC0: "東北海道", 0xC1: "西北海道", 0xC2: "北北海道", 0xC4: "北部東北", 0xC5: "南部東北",
    0xC8: "東部北陸", 0xC9: "西部北陸", 0xD3: "西部東海", 0xD2: "東部東海", 0xCC: "関東地方",
    0xD4: "北部近畿", 0xD5: "南部近畿", 0xD8: "中国地方", 0xDC: "四国地方", 0xE0: "北部福岡",
    0xE1: "南部福岡", 0xE4: "北鹿児島", 0xE5: "南鹿児島", 0xF0: "東部沖縄", 0xF1: "西部沖縄",
}

# 5(2), in its order
RADAR_NAMES = {
    0xA0: "札幌", 0xA1: "釧路", 0xA2: "函館", 0xA3: "仙台", 0xA4: "秋田", 0xA5: "東京", 0xB6: "富士山",
    0xA7: "新潟", 0xA8: "福井", 0xB4: "長野", 0xB5: "静岡", 0xA9: "名古屋", 0xAA: "大阪", 0xAB: "松江",
    0xAC: "広島", 0xAD: "室戸岬", 0xAE: "福岡", 0xAF: "種子島", 0xB0: "名瀬", 0xB1: "沖縄", 0xB3: "石垣島",
}
assert set(PICTURE_NAMES) == set(PICTURES) and set(RADAR_NAMES) == set(RADARS)

# 5(3): what each level stands for
RAIN = ["0 mm/h", "below 1 mm/h", "1 to below 2 mm/h", "2 to below 4 mm/h", "4 to below 8 mm/h",
        "8 to below 12 mm/h", "12 to below 16 mm/h", "16 to below 24 mm/h", "24 to below 32 mm/h",
        "32 to below 40 mm/h", "40 to below 48 mm/h", "48 to below 56 mm/h", "56 to below 64 mm/h",
        "64 to below 80 mm/h", "80 mm/h and above"]
HEIGHT = ["no echo", "below 2 km", "2 to below 4 km", "4 to below 6 km", "6 to below 8 km", "8 to below 10 km",
          "10 to below 12 km", "12 to below 14 km", "14 km and above"]

# ---- 01's words

KIND = {INTENSITY: "intensity", TOP: "echo top", QUALITY: "quality"}
MEANING = {
    1: "part begun",
    2: "data text taken",
    3: "complete",
    11: "an opening ends while a text is under way",
    12: "part open, place 0, byte is not the opening's due byte",
    13: "block byte 1 not a picture code",
    14: "byte 2 not one of the 18 kinds",
    15: "a start kind while a part is open",
    16: "a data or end kind with no part open, or not the due one",
    17: "due kind, other picture code than the start's",
    18: "a later block byte breaks its rule",
    19: "not FE",
    20: "wrong check byte",
    21: "not FF",
    22: "end text's FF: status 2 is not the highest mode",
    51: "a listed code that is unmarked",  # Request 101's words
}


# ---- Payloads

# Zeros but for the bytes given as {place: byte}
def sparse(part, changes):
    payload = bytearray(payload_length(part))
    for place, b in changes.items():
        payload[place] = b
    return bytes(payload)


# A few showers: at both ends of the grid, both halves of a byte, and the five control bytes
SHOWERS = sparse(INTENSITY, {0: 0x10, 1: 0x23, 2: 0x30, 700: 0x45, 701: 0x16, 702: 0x16, 703: 0x16, 704: 0x10,
                             705: 0x02, 9_999: 0x98, 10_000: 0xAB, 12_000: 0x7C, 15_000: 0xDE, 19_999: 0x0E})
# Every level but 4 and 11, many times
STORM = bytes((level := (i // 130 + i % 7) % 15) * 16 + (level + 1) % 15 for i in range(20_000))
STORM = bytes(0 if {4, 11} & {b // 16, b % 16} else b for b in STORM)
TOPS = sparse(TOP, {0: 1, 1: 2, 2: 2, 17: 8, 18: 7, 19: 6, 20: 5, 21: 5, 22: 4, 399: 3})
LOW_TOPS = sparse(TOP, dict.fromkeys(range(40, 300), 1))
# Each cause alone, some and all together, and unknown, at both ends too
CLUTTER = sparse(QUALITY, {0: 0x80, 1: 0x01, 2: 0x02, 3: 0x04, 4: 0x08, 5: 0x10, 6: 0x20, 7: 0x40, 8: 0x05,
                           9: 0x05, 10: 0x05, 11: 0x3F, 12: 0x41, 13: 0x41, 14: 0x7F, 15: 0x7E, 16: 0x60,
                           17: 0x55, 50: 0x2A, 51: 0x6A, 52: 0x15, 53: 0x43, 98: 0x80, 99: 0x80})
QUALITY_DATA = data(QUALITY, 1, CLUTTER)


# ---- Parts

# An intensity or echo top part without data texts
def no_echo(part, modes=(1,), picture=0xCC, **fields):
    return start(part, noecho=True, picture=picture, **fields) + end(part, modes, picture=picture)


# One to eight radar codes, as a header has them
def radars(*codes):
    return (*codes, *(0,) * (8 - len(codes)))


# ---- Times

# Request 111. The first and the last minute of years 0000 to 9999 and those next to them; from both sides of 2000, of
# leap days, and of the days that 1900 and 2100 have not; the last day of a year and the first; others with 9 at a place
TIMES = ("000001010000", "000001010001", "999912312358", "999912312359", "199912312359", "200001010000",
         "200001010001", "000002290000", "000003010000", "000012312359", "000101010000", "190002282359",
         "190003010000", "199602292359", "200002282359", "200002290000", "200002292359", "200003010000",
         "210002282359", "210003010000", "999602290000", "198708151215", "999906071210", "199909071210",
         "199906091210", "199906071910", "199906071219")
# No such time: no leap day, day and month 00, 30 February, 24:00, minute 60, 9 where it cannot be
NO_TIMES = ("190002290000", "199902290000", "210002290000", "000000010000", "000001000000", "200002300000",
            "999912312400", "999912312360", "199912312400", "999913312359", "199996071210", "199906971210",
            "199906079210", "199906071290", "999999999999")

# ---- The pieces, each with its answers

# A piece is its bytes; its answers where its pictures are marked; and by the codes that are not, in rising order,
# its answers then.

# An undamaged part: each text has an answer. Where the picture is unmarked that is 51, at the picture code, and
# the bytes behind it are free
def sound(made, answers, picture=0xCC):
    return made, answers, {bytes([picture]): (51,) * len(answers)}


# Damaged, of the picture `CC`, with the answers where that is unmarked
def damaged(made, answers, *unmarked):
    return made, answers, {b"\xCC": unmarked}


PIECES = [
    (bytes(range(256)), (), {}),  # noise with no part open
    sound(SAMPLE_START + SAMPLE_END, (1, 3)),  # 01's sample traffic
    # An observation: intensity, echo top with nothing between, and after a while quality
    sound(whole(INTENSITY, SHOWERS, modes=(1, 2), mode=2, radars=radars(0xA5, 0xA7), picture=0xCC),
          INTENSITY_ANSWERS),
    sound(whole(TOP, TOPS, modes=(1, 2), mode=2, radars=radars(0xA5, 0xA7), picture=0xCC), (1, 2, 3)),
    (b"\x00\x16\xFD", (), {}),
    sound(whole(QUALITY, CLUTTER, modes=(1, 2), mode=2, radars=radars(0xA5, 0xA7), picture=0xCC), (1, 2, 3)),
    # Three radars and eight; a leap day, and the last minute that there is
    sound(whole(INTENSITY, STORM, modes=(2, 1, 1), mode=2, radars=THREE_RADARS, picture=0xE0, time="200002291530",
                clock=16_383), INTENSITY_ANSWERS, 0xE0),
    sound(whole(TOP, LOW_TOPS, modes=(1, 2, 3, 1, 2, 3, 1, 2), mode=3, radars=EIGHT_RADARS, picture=0xF1,
                time="999912312359", clock=0), (1, 2, 3), 0xF1),
    # Data texts that are all zeros; quality with NO ECHO, which has its data text all the same
    sound(whole(TOP, bytes(400), picture=0xC0, time="000001010000"), (1, 2, 3), 0xC0),
    sound(start(QUALITY, noecho=True) + QUALITY_DATA + end(QUALITY), (1, 2, 3)),
    sound(whole(QUALITY, bytes(100), picture=0xD8), (1, 2, 3), 0xD8),
    sound(whole(QUALITY, b"\x80" * 100, picture=0xE5), (1, 2, 3), 0xE5),
    sound(whole(QUALITY, b"\x40" * 100, picture=0xE4), (1, 2, 3), 0xE4),
    # Every value of quality: as many in one part as it has meshes
    sound(whole(QUALITY, QUALITY_LOW, picture=0xD4), (1, 2, 3), 0xD4),
    sound(whole(QUALITY, QUALITY_HIGH, picture=0xD5), (1, 2, 3), 0xD5),
    # Every picture code, and every radar alone
    *(sound(no_echo(INTENSITY, picture=code, clock=100 + i), (1, 3), code) for i, code in enumerate(PICTURES)),
    *(sound(no_echo(TOP, (1 + i % 3,), mode=1 + i % 3, radars=radars(code)), (1, 3))
      for i, code in enumerate(RADARS)),
    # Times, of which only the right ones are begun
    *(sound(no_echo(TOP, time=time, clock=200 + i), (1, 3)) for i, time in enumerate(TIMES)),
    *(damaged(no_echo(TOP, time=time), (18, 16), 51, 51) for time in NO_TIMES),
    # Row 11: an opening in quality payload, and the new text goes on
    damaged(QUALITY_BEGUN + QUALITY_DATA[:40] + SAMPLE_START + SAMPLE_END, (1, 11, 1, 3), 51, 51, 51, 51),
    # Row 12: a byte between the texts of a part; then the end text has no part open (row 16)
    damaged(TOP_TAKEN + b"\x00" + end(TOP), (1, 2, 12, 16), 51, 51, 51),
    # Rows 13 to 17: no picture code, none of the kinds, a start text while a part is open, a text that is
    # not the due one, another picture code
    damaged(altered(no_echo(TOP), 6, 0xCD), (13, 16), 13, 51),
    damaged(altered(no_echo(TOP), 7, 0x40), (14, 16), 51, 51),
    damaged(TOP_BEGUN + no_echo(TOP), (1, 15, 1, 3), 51, 51, 51),
    damaged(TOP_BEGUN + end(TOP), (1, 16), 51, 51),
    # ... where that is unmarked: 51, which comes at the code; where only the start's is, no part is open (row 16)
    (altered(no_echo(TOP), 46, 0xC0), (1, 17), {b"\xC0": (1, 51), b"\xCC": (51, 16), b"\xC0\xCC": (51, 51)}),
    # Row 18: no minute 60, an echo top 9, and quality's bit 7 with a cause beside it
    damaged(start(TOP, time="199906071260"), (18,), 51),
    damaged(TOP_BEGUN + data(TOP, 1, TOPS, {3: 9}) + end(TOP), (1, 18, 16), 51, 51, 51),
    *(damaged(QUALITY_BEGUN + data(QUALITY, 1, CLUTTER, {place: b}) + end(QUALITY), (1, 18, 16), 51, 51, 51)
      for place, b in ((3, 0x81), (52, 0xC0), (102, 0xFF))),
    # Row 19: a payload byte too many; row 20: one altered to an allowed one; row 21: the `FF`; row 22: status 2
    # says mode 1, and the radar's mode is 2
    damaged(QUALITY_BEGUN + with_extra(QUALITY_DATA, 50, 0x05), (1, 19), 51, 51),
    damaged(altered(whole(TOP, TOPS), 200, 0x01), (1, 20, 16), 51, 51, 51),
    damaged(altered(no_echo(INTENSITY), 79, FE), (1, 21), 51, 51),
    damaged(no_echo(TOP, (2,), mode=1), (1, 22), 51, 51),
    # A text that never ends
    damaged(OPENING + b"\xCC\x10\x00", (), 51),
]

STREAM = b"".join(made for made, _, _ in PIECES)
assert 40_000 < len(STREAM) < 60_000


# The answers to a piece by hand, with these pictures marked
def by_hand(answers, others, marked):
    unmarked = bytes(code for code in sorted(set(b"".join(others))) if code not in marked)
    return others[unmarked] if unmarked else answers


# ---- Arguments

# Not in 01's order, in both cases, and `CC` twice. The six that are missing are `C1 C9 D3 D8 E1 F0`
ARGUMENTS = "e5 cC F1 D5 d4 c0 E0 DC CC c8 C5 d2 E4 C2 c4".split()


# The picture code that a word is; None where it is none
def code_of(word):
    hexadecimal = re.fullmatch("[0-9A-Fa-f]{2}", word) is not None
    return int(word, 16) if hexadecimal and int(word, 16) in PICTURES else None


# The pictures that are marked by arguments without a wrong one
def marked_by(words):
    return bytes(map(code_of, words)) or PICTURES


# The lines about wrong arguments
def complaints(words):
    for number, word in enumerate(words, 1):
        if code_of(word) is None:
            shown = word if len(word.encode()) <= 4_095 else ""
            yield f"decode: argument {number} is no listed picture code: {shown}"


# ---- What must be printed

# The lines at the front; `marked` are the codes of the marked pictures, in any order
def heading(marked=PICTURES):
    yield " ".join(["marked pictures", *(f"{code:02X}" for code in PICTURES if code in marked)])
    yield ""


# How many meshes are at each level, or have each value: "Intensity: two meshes a byte", else one
def meshes(part, grid):
    payload = grid[:payload_length(part)]
    return Counter([n for b in payload for n in divmod(b, 16)] if part == INTENSITY else payload)


# #107: "seven named causes in bits 0 to 6, and "cause unknown" in bit 7, alone"
def causes(value):
    if value == 1 << 7:
        return "cause unknown"
    named = [str(bit) for bit in range(7) if value >> bit & 1]
    return " ".join(["causes", *named]) if named else "no cause"


# The lines about the part that a receiver holds; which kind it is, the header does not say
def block(number, read, part, receiver):
    header = receiver.header
    digits = "".join(map(str, digits_of(header.minute)))
    yield f"part {number} complete at byte {read}"
    yield f"  picture  {header.picture:02X} {PICTURE_NAMES[header.picture]}"
    yield f"  kind     {KIND[part]}"
    yield f"  time     {digits[:4]}-{digits[4:6]}-{digits[6:8]} {digits[8:10]}:{digits[10:]}"
    yield f"  clock    {header.clock}"
    yield f"  mode     {header.mode}"
    for code, mode in zip(header.radars, receiver.modes):
        if code != 0:
            yield f"  radar    {code:02X} {RADAR_NAMES[code]} mode {mode}"
    yield f"  NO ECHO  {'yes' if header.noecho else 'no'}"
    for level, count in sorted(meshes(part, receiver.grid).items()):
        if part == QUALITY:
            yield f"  value {level:02X}  {count:5} meshes  {causes(level)}"
        else:
            yield f"  level {level:2}  {count:5} meshes  {(RAIN if part == INTENSITY else HEIGHT)[level]}"
    yield ""


# The lines at the end
def totals(found, read):
    for answer, count in sorted(found.items()):
        yield f"answer {answer:2}  {count:8}  {MEANING[answer]}"
    yield f"bytes {read}"


# All lines about the stream
def decoded(marked=PICTURES):
    receiver = Receiver(marks_of(marked))
    found = Counter()
    read = 0
    yield from heading(marked)
    for place, (made, answers, others) in enumerate(PIECES):
        got = []
        for b in made:
            part = receiver.part
            answer = receiver.byte(b)
            read += 1
            if answer != 0:
                got.append(answer)
                found[answer] += 1
            if answer == 3:
                yield from block(found[3], read, part, receiver)
        wanted = by_hand(answers, others, marked)
        assert tuple(got) == wanted, f"piece {place}: answers {wanted} by hand, {got} by the model"
    yield from totals(found, read)


def in_lines(lines):
    return "".join(line + "\n" for line in lines)


# What the program must print on standard output and on standard error
def printed(words):
    wrong = in_lines(complaints(words))
    return ("" if wrong else in_lines(decoded(marked_by(words)))), wrong


# What the arguments above let through: every answer, and several parts of each kind
def sample():
    text, _ = printed(ARGUMENTS)
    assert {int(line.split()[1]) for line in text.split("\n") if line.startswith("answer ")} == set(MEANING)
    assert all(text.count(f"  kind     {kind}\n") >= 4 for kind in KIND.values())
    # Each time as it was sent, told by its clock
    for i, time in enumerate(TIMES):
        shown = f"{time[:4]}-{time[4:6]}-{time[6:8]} {time[8:10]}:{time[10:]}"
        assert text.count(f"  time     {shown}\n  clock    {200 + i}\n") == 1
    return text


# ---- A program tried

# Words that are no listed code: no code, not two digits, no hexadecimal digit. `BG` would be `C0` if `G` were
# a digit behind `F`
WRONG = ["00", "C3", "CD", "FF", "CCC", "C", "", "0xCC", "G0", "BG", "C/", "c:", "C`", " CC", "CC ", "-"]
ALL_CODES = [f"{code:02X}" for code in PICTURES]

TRIED = [
    [],
    *([word] for word in ALL_CODES),
    ALL_CODES,
    [word.lower() for word in reversed(ALL_CODES)],
    *(ALL_CODES[:i] + ALL_CODES[i + 1:] for i in (0, 7, 19)),
    ["CC", "CC"],
    ["CC", "d2", "cc", "Cc", "cC"],
    ["d2"],
    ARGUMENTS,
    *([word] for word in WRONG),
    WRONG,
    ["CC", "C3"],
    ["C3", "CC"],
    ["", "CC", ""],
    [*ALL_CODES, "C3"],
    ["C" * 4_095],
    ["C" * 4_096, "CC", "C" * 5_000],
]


# The program run with these arguments: a message for each output that is not as it must be
def differences(program, words):
    done = subprocess.run([program, *words], input=STREAM, capture_output=True, timeout=60)
    outputs = zip(("standard output", "standard error"), (done.stdout, done.stderr), printed(words))
    for name, found, wanted in outputs:
        if found != wanted.encode():
            pairs = zip([*found.split(b"\n"), None], [*wanted.encode().split(b"\n"), None])
            number, pair = next((n, pair) for n, pair in enumerate(pairs, 1) if pair[0] != pair[1])
            yield f"{[word[:20] for word in words]}, {name}, line {number}: {pair[0]!r}, wanted {pair[1]!r}"


def try_program(program):
    found = [message for words in TRIED for message in differences(program, words)]
    print("\n".join([*found, f"{len(TRIED)} lists of arguments, {len(found)} differences"]))
    return 1 if found else 0


if __name__ == "__main__":
    if sys.argv[1:] == ["--stream"]:
        sys.stdout.buffer.write(STREAM)
    elif sys.argv[1:] == ["--args"]:
        sys.stdout.buffer.write(in_lines(ARGUMENTS).encode())
    elif sys.argv[1:2] == ["--try"]:
        sys.exit(try_program(sys.argv[2]))
    else:
        sys.stdout.buffer.write(sample().encode())
