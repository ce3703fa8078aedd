"""01-scope.md, section "The receiver", with Requests 101 and 111, as a class.

Written from these papers alone, on texts.py, the model of 01's section "A text": nothing here is taken
from the library or from its definitions. The rows of 01's table are cited by their number, and 51 is
Request 101's. What stands in quotes is 01's, and after "Request 101:" or "Request 111:" that request's.

Run as a program, it tries 01's sample traffic, the marks and the digits that wait by hand, and on small
streams "complete" and row 51 against texts.py.
"""

import sys

sys.dont_write_bytecode = True
import texts
from texts import CONTROL, END, FD, FE, FF, GRID, KINDS, OPENING, PICTURES, START

# Request 101: "twenty marks, one for each picture code in 01's order, as one number with `C0` at bit 0"
MARK = {code: 1 << i for i, code in enumerate(PICTURES)}
ALL_MARKS = sum(MARK.values())

# "header and modes": "all else 0"
NO_HEADER = texts.Header(minute=0, radars=(0,) * 8, clock=0, picture=0, mode=0, noecho=False)
NO_MODES = (0,) * 8
NO_DIGITS = (0,) * 12
NO_GRID = bytes(GRID)

# Looked up instead of worked out for each byte: a byte as bytes, the block length of a kind, and
# whether a part's payload may have a byte
ONE = [bytes([b]) for b in range(256)]
LENGTH = {kind: texts.block_length(kind) for kind in KINDS}
ALLOWED = {part: [texts.is_payload_byte(part, b) for b in range(256)] for part in texts.PARTS}
# The byte of a start block that is each digit, and its number among the twelve digits
DIGIT = {}
for _i, _letter in enumerate(texts.TIME_FORM):
    if _letter != ".":
        DIGIT[8 + _i] = len(DIGIT)
# Request 111: "at places 9 to 23 of a start text". Place counts the bytes taken, so byte 8 leaves place 9, and byte
# 23 place 24
WAITING = range(9, 24)


# The marks of these picture codes, and of no others
def marks_of(codes):
    return sum(MARK[code] for code in set(codes))


# The marks of a fresh receiver. Request 101: "marks beyond the twentieth; a receiver asked for with such has
# no mark at all"
def fresh_marks(number):
    return number if 0 <= number <= ALL_MARKS else 0


# `values` with `value` at `i`
def put(values, i, value):
    return values[:i] + (value,) + values[i + 1:]


# "its due byte is the one after the longest run, at the end of the bytes seen, with which an opening
# begins"
def due_byte(seen):
    return OPENING[max(n for n in range(6) if seen.endswith(OPENING[:n]))]


# "The due text is .. 1 to 10 for data (1 alone for top and quality) and 11 for the end", after text
# `text` of a part (0 for its start)
def due_after(part, text, noecho):
    return text + 1 if text < texts.data_texts(part, noecho) else END


class Receiver:
    """The state as 01 and Requests 101 and 111 list it, and the grid: "a lent slice of 20,000 bytes"."""

    __slots__ = ("marks", "seen", "place", "kind", "picture", "part", "due", "check", "digits", "header", "modes",
                 "grid")

    # "Fresh: nothing seen, place 0, no part, all else 0, grid all 0." Request 101: "A fresh receiver is made
    # from marks and keeps them for good", so nothing below sets them; "the listening program's has all
    # twenty", and so has one that is asked for without saying
    def __init__(self, marks=ALL_MARKS, grid=None):
        self.marks = fresh_marks(marks)
        self.grid = bytearray(GRID) if grid is None else grid
        assert len(self.grid) == GRID
        self.seen = b""  # "the last bytes seen (0 to 5 of them)"
        self._drop()

    # Request 101: "a call tells, in any state, how many of the twenty marks are set"
    def marks_set(self):
        return sum(self.marks & mark != 0 for mark in MARK.values())

    # "Dropped: state and grid as fresh, but the last bytes seen are kept, the byte just taken among
    # them." As fresh with the same marks
    def _drop(self):
        self.place = 0  # "0 between texts, else the count of bytes taken from `FD` on"
        self.kind = 0  # "0 until read and at place 0"
        self.picture = 0  # the same, of the text under way; the part's own is in the header
        self.part = 0  # "the part open or none"
        self.due = 0  # "0 with no part open"
        self.check = 0  # "the running check byte (0 at place 0)"
        self.digits = NO_DIGITS  # Request 111: "wait in the state until byte 23 and are 0 from then on"
        self.header = NO_HEADER
        self.modes = NO_MODES
        self.grid[:] = NO_GRID

    # The same, with the answer that a row of the table gives
    def _dropped(self, answer):
        self._drop()
        return answer

    # The byte call, after refusals 1 and 2: takes one byte and gives its answer
    def byte(self, b):
        before = self.seen
        self.seen = before[-4:] + ONE[b]
        # "An opening is looked for among the last six bytes always, .. before every other check, and
        # starts a text at place 1; an open part's header stays."
        if b == FD and before == CONTROL:
            # Row 11: "dropped; the new text goes on"
            answer = 0 if self.place == 0 else self._dropped(11)
            self.place = 1
            self.check = FD
            return answer
        place = self.place
        if place >= 3:
            length = LENGTH[self.kind]
            if place >= length:
                return self._closing_byte(b, place - length)
            # Row 18, "a later block byte breaks its rule"
            if not self._later_byte(b, place):
                return self._dropped(18)
            self.check ^= b
            self.place = place + 1
            return 0
        if place == 0:
            # Row 12. "With no part open, bytes between texts are free."
            if self.part != 0 and b != due_byte(before):
                return self._dropped(12)
            return 0
        if place == 1:
            # Row 13
            if not texts.is_picture_code(b):
                return self._dropped(13)
            # Row 51. Request 101: "a listed code that is unmarked, at block byte 1 after 13, dropping as 13
            # does"
            if self.marks & MARK[b] == 0:
                return self._dropped(51)
            self.picture = b
            self.check ^= b
            self.place = 2
            return 0
        return self._kind_byte(b)

    # Block byte 2: rows 14 to 17, "from the top down"
    def _kind_byte(self, b):
        picture, check = self.picture, self.check ^ b
        answer = 0
        # Row 14
        if not texts.is_kind(b):
            return self._dropped(14)
        part, text = KINDS[b]
        if text == START:
            # Row 15: "part dropped; this text goes on"
            if self.part != 0:
                answer = self._dropped(15)
            # "Taking a start kind sets header and modes to 0; the fields .. then enter as they come,
            # the picture code first."
            self.header = NO_HEADER._replace(picture=picture)
            self.modes = NO_MODES
        # Row 16, "with no part open, or not the due one"
        elif (part, text) != (self.part, self.due):
            return self._dropped(16)
        # Row 17, "other picture code than the start's"
        elif picture != self.header.picture:
            return self._dropped(17)
        self.picture, self.check, self.kind, self.place = picture, check, b, 3
        return answer

    # A block byte from 3 on enters, or it breaks its rule: False
    def _later_byte(self, b, place):
        part, text = KINDS[self.kind]
        if text == START:
            return self._start_byte(b, place)
        if text == END:
            return self._end_byte(b, place)
        if not ALLOWED[part][b]:
            return False
        # "Payload bytes enter the grid as they come, data text k from byte 2,000 × (k − 1)"
        self.grid[2000 * (text - 1) + place - 3] = b
        return True

    # "Start block, 32 bytes. ..": "the fields .. enter as they come"
    def _start_byte(self, b, place):
        header = self.header
        if place == 3:  # "Byte 3 is `00`."
            return b == 0
        if place == 4:  # "Byte 4 is status 1: bit 3 is NO ECHO."
            self.header = header._replace(noecho=texts.no_echo_of(b))
            return True
        if place == 5:  # "Byte 5 is status 2: .. exactly one of these set."
            self.header = header._replace(mode=texts.mode_of(b))
            return texts.mode_of(b) != 0
        if place == 6:  # "the clock, .. high part first, bit 7 zero"
            self.header = header._replace(clock=texts.clock_of(b, 0))
            return texts.is_clock_byte(b)
        if place == 7:
            self.header = header._replace(clock=header.clock + b)
            return texts.is_clock_byte(b)
        if place <= 23:  # "digits and stops are judged at their own byte, date, hour and minute at 23"
            if place not in DIGIT:
                return b == 0x2E
            if not 0x30 <= b <= 0x39:
                return False
            digits = put(self.digits, DIGIT[place], b - 0x30)
            if place != 23:
                self.digits = digits
                return True
            # Request 111: "The digits wait in the state until byte 23 and are 0 from then on", and "The header
            # keeps that number instead of the digits". Until then it is as the start kind set it, 0
            minute = texts.minute_of(digits)
            if minute is None:
                return False
            self.digits = NO_DIGITS
            self.header = header._replace(minute=minute)
            return True
        # "Bytes 24 to 31 are one to eight radar codes, strictly rising, then `00`."
        i = place - 24
        self.header = header._replace(radars=put(header.radars, i, b))
        return texts.is_radar_code(b) if i == 0 else texts.radar_follows(header.radars[i - 1], b)

    # "End block, 32 bytes. ..": "and, later, the modes (1 to 3) then enter as they come"
    def _end_byte(self, b, place):
        if place > 10:  # "Bytes 11 to 31 are `00`."
            return b == 0
        i = place - 3
        self.modes = put(self.modes, i, texts.mode_of(b))
        return texts.is_mode_byte(self.header.radars[i], b)

    # The three bytes after the block: rows 19 to 22, and the answers that "come on the `FF`". The
    # check byte itself does not enter the running one.
    def _closing_byte(self, b, after):
        if after == 0:
            # Row 19. "The `FE` comes in last."
            if b != FE:
                return self._dropped(19)
            self.check ^= FE
            self.place += 1
            return 0
        if after == 1:
            # Row 20
            if b != self.check:
                return self._dropped(20)
            self.place += 1
            return 0
        # Row 21
        if b != FF:
            return self._dropped(21)
        part, text = KINDS[self.kind]
        # Row 22, "end text's `FF`: status 2 is not the highest mode"
        if text == END and self.header.mode != texts.highest_mode(self.modes):
            return self._dropped(22)
        self.place = self.kind = self.picture = self.check = 0
        # "3 complete (no part open from here, due text 0; header, modes and grid kept)"
        if text == END:
            self.part = self.due = 0
            return 3
        self.part = part
        self.due = due_after(part, text, self.header.noecho)
        # "1 part begun (start text accepted: header kept, modes 0, whole grid 0), 2 data text taken"
        if text == START:
            self.modes = NO_MODES
            self.grid[:] = NO_GRID
            return 1
        return 2

    # "The slice call takes a slice, stops after the first byte answered other than 0, and returns
    # that answer, or 0 where there is none, and the count of bytes taken". The slice is data[start:stop].
    def slice(self, data, start=0, stop=None):
        stop = len(data) if stop is None else stop
        byte = self.byte
        for i in range(start, stop):
            answer = byte(data[i])
            if answer != 0:
                return answer, i + 1 - start
        return 0, stop - start

    # What either call must be refused with before it takes a byte: row 1, then row 2; else 0
    def refusal(self):
        if len(self.grid) != GRID:
            return 1
        dues = {0: (0,), 1: (*range(1, 11), END), 2: (1, END), 3: (1, END)}
        if len(self.seen) > 5 or self.due not in dues.get(self.part, ()):
            return 2
        # Request 101: "Refusal 2 also covers marks beyond the twentieth". A picture under way that is
        # unmarked it does not name
        if not 0 <= self.marks <= ALL_MARKS:
            return 2
        if self.place <= 2:  # "at most 2 before the kind is read"; "each 0 until read and at place 0"
            if self.kind != 0 or self.place < 0:
                return 2
        elif self.kind not in KINDS or self.place > LENGTH[self.kind] + 2:
            return 2
        if self.picture != 0 if self.place <= 1 else not texts.is_picture_code(self.picture):
            return 2
        if self.check != 0 if self.place == 0 else not 0 <= self.check <= 255:
            return 2
        # Request 111: "a digit above 9, or one not 0 other than at places 9 to 23 of a start text". What the digits
        # are that have still to come there, it does not say
        if not all(0 <= digit <= 9 for digit in self.digits):
            return 2
        if any(self.digits) and not (texts.is_start_kind(self.kind) and self.place in WAITING):
            return 2
        # "a read kind not the due one of an open part, or not a start kind with none"
        if self.kind != 0:
            part, text = KINDS[self.kind]
            if text != START if self.part == 0 else (part, text) != (self.part, self.due):
                return 2
        return 0


# What the listening program prints: "one line for each answer but 0: bytes read so far, a space, the
# answer", here as pairs. With other marks than all twenty, what it would print if its receiver had these
def listen(data, marks=ALL_MARKS):
    byte = Receiver(marks).byte
    found = []
    for read, b in enumerate(data, 1):
        answer = byte(b)
        if answer != 0:
            found.append((read, answer))
    return found


# The bytes end with "an undamaged part": which, or None. No part is the end of another, for an
# undamaged part has an opening of a start text at its front alone.
def part_at_end(data):
    for length in sorted({texts.part_length(part, noecho) for part in texts.PARTS for noecho in (0, 1)}):
        tail = data[-length:]
        if len(tail) == length and tail.startswith(OPENING) and texts.undamaged_part(bytes(tail)):
            return bytes(tail)
    return None


# The same of a receiver with these marks. Request 101: "exactly the undamaged parts of marked pictures are
# called complete"
def complete_at_end(data, marks):
    part = part_at_end(data)
    return part if part is not None and marks & MARK[texts.header_of_part(part).picture] else None


# The bytes end with an opening and a listed code that is unmarked. Row 51 is answered exactly there, for an
# opening always "starts a text at place 1", and no opening ends with a picture code
def unmarked_at_end(data, marks):
    return data[-7:-1] == OPENING and data[-1] in MARK and marks & MARK[data[-1]] == 0


# 01's start and end text: S and the text with `D4`
SAMPLE_START = texts.make_text(
    bytes.fromhex("FD CC 10 00 08 04 4D 7F") + b"1999.06.07.12.10" + b"\xA5" + bytes(7)
)
SAMPLE_END = texts.make_text(bytes.fromhex("FD CC 1F 04") + bytes(28))


# 01's "Sample traffic", the rows of the listening program
def _samples():
    assert SAMPLE_START[-2] == 0x4F and SAMPLE_END[-2] == 0xD4
    assert listen(SAMPLE_START + SAMPLE_END) == [(40, 1), (80, 3)]
    assert listen(SAMPLE_START * 2) == [(40, 1), (48, 15), (80, 1)]
    assert listen(SAMPLE_START[:20] + SAMPLE_START) == [(21, 18), (60, 1)]


# Rows 1 and 2: another grid's length before all else; a due text of another part
def _refusals():
    receiver = Receiver()
    assert receiver.refusal() == 0
    receiver.part, receiver.due = texts.TOP, 2
    assert receiver.refusal() == 2
    receiver.grid = bytearray(GRID - 1)
    assert receiver.refusal() == 1


# ---- Request 101 by hand

# All of a receiver but its grid, and its grid's bytes
def _state(receiver):
    return [getattr(receiver, name) for name in Receiver.__slots__[:-1]] + [bytes(receiver.grid)]


# The receiver after these bytes
def _after(data, marks):
    receiver = Receiver(marks)
    for b in data:
        receiver.byte(b)
    return receiver


# NO ECHO, so a start and an end text of 40 bytes each; the picture code is a text's seventh byte
def _short_part(picture):
    return b"".join(texts.make_text(bytes([FD, picture]) + text[7:-3]) for text in (SAMPLE_START, SAMPLE_END))


# The three texts of a quality part of this picture, of 40, 111 and 40 bytes
def _quality_texts(picture):
    header = texts.Header(-298_790, (0xA5, *(0,) * 7), 9983, picture, 1, False)
    part = texts.make_part(texts.QUALITY, header, (1, *(0,) * 7), bytes(range(0x1D, 0x81)))
    return part[:40], part[40:151], part[151:]


# "`C0 C1 C2 C4 C5 C8 C9 CC D2 D3 D4 D5 D8 DC E0 E1 E4 E5 F0 F1`", counted by hand from 0; numbers of marks,
# and what is made of those that are none
def _mark_numbers():
    counted = {0xC0: 0, 0xC1: 1, 0xC2: 2, 0xC4: 3, 0xC5: 4, 0xC8: 5, 0xC9: 6, 0xCC: 7, 0xD2: 8, 0xD3: 9, 0xD4: 10,
               0xD5: 11, 0xD8: 12, 0xDC: 13, 0xE0: 14, 0xE1: 15, 0xE4: 16, 0xE5: 17, 0xF0: 18, 0xF1: 19}
    assert ALL_MARKS == 1_048_575 and marks_of(b"\xC0") == 1 and marks_of(b"\xF1\xCC\xF1") == 524_288 + 128
    for code, bit in counted.items():
        part, only = _short_part(code), 2 ** bit
        for marks in (only, ALL_MARKS):
            assert listen(part, marks) == [(40, 1), (80, 3)]
        for marks in (0, ALL_MARKS - only):
            assert listen(part, marks) == [(7, 51), (47, 51)]
    for number, count in ((0, 0), (1, 1), (524_288, 1), (699_050, 10), (ALL_MARKS, 20)):
        assert Receiver(number).marks == number and Receiver(number).marks_set() == count
    # Beyond the twentieth, with none, some and all of the twenty beside: how many of these are set
    beyond = ((1_048_576, 0), (1_048_577, 1), (1_048_704, 1), (2_097_151, 20), (2 ** 31, 0), (2 ** 32 - 1, 20))
    for number, count in beyond:
        assert _state(Receiver(number)) == _state(Receiver(0)) and Receiver(number).marks_set() == 0
        assert listen(_short_part(0xCC), number) == [(7, 51), (47, 51)]
        receiver = Receiver(128)
        receiver.marks = number
        assert receiver.marks_set() == count and receiver.refusal() == 2
        receiver.place = 65_535  # "in any state"
        assert receiver.marks_set() == count
        receiver.grid = bytearray(GRID + 1)
        assert receiver.refusal() == 1


# Row 51 among the others, of a receiver with the mark of `CC` alone, which is 128
def _row_51():
    begun, data_text, end, other = *_quality_texts(0xCC), _quality_texts(0xC0)[1]
    # "after 13": a code that is not listed, whatever the marks
    for b in sorted(set(range(256)) - set(PICTURES)):
        for marks in (0, 128, ALL_MARKS):
            assert listen(OPENING + bytes([b]), marks) == [(7, 13)]
    # Text by text, and quiet between: no byte of the part behind its picture code is looked at
    assert listen(begun + data_text + end, 128) == [(40, 1), (151, 2), (191, 3)]
    assert listen(begun + data_text + end, ALL_MARKS - 128) == [(7, 51), (47, 51), (158, 51)]
    # In a data text of an open part, before 17, which comes at block byte 2; the end text has no part open
    assert listen(begun + other + end, 128 + 1) == [(40, 1), (48, 17), (159, 16)]
    assert listen(begun + other + end, 128) == [(40, 1), (47, 51), (159, 16)]
    # ... and before 15, 16 and 14, which come there too
    for kind, answer in ((0x30, 15), (0x3F, 16), (0x40, 14)):
        assert listen(begun + OPENING + bytes([0xC0, kind]), 128 + 1) == [(40, 1), (48, answer)]
        assert listen(begun + OPENING + bytes([0xC0, kind]), 128)[1:] == [(47, 51)]
    # "dropping as 13 does": in both, as fresh with the same marks, but for the bytes seen
    for b, answer in ((0xC0, 51), (0xCD, 13)):
        receiver, fresh = _after(begun + data_text + OPENING, 128), Receiver(128)
        assert receiver.part == texts.QUALITY and any(receiver.grid) and receiver.place == 1
        assert receiver.byte(b) == answer
        fresh.seen = bytes([0x16, 0x10, 0x02, FD, b])
        assert _state(receiver) == _state(fresh) and receiver.marks == 128
    # 12 comes before it, and the opening is found all the same, for "the last bytes seen are kept"
    assert listen(begun + b"\x16" + other, 128) == [(40, 1), (44, 12), (48, 51)]
    # A picture under way that is unmarked comes about by no list of calls. It is not refused, and goes on
    receiver = _after(begun[:7], 128)
    receiver.marks = 1
    assert receiver.refusal() == 0 and list(map(receiver.byte, begun[7:])) == [0] * 32 + [1]
    # ... but its next text does not
    assert [receiver.byte(b) for b in data_text[:7]] == [0] * 6 + [51]


# "An opening is looked for among the last six bytes always, .. before every other check"
def _openings_and_51():
    begun, data_text, _, other = *_quality_texts(0xCC), _quality_texts(0xC0)[0]
    # Row 11, and the new text is unmarked: both are answered, each at its byte
    assert listen(begun + data_text[:40] + other, 128) == [(40, 1), (86, 11), (87, 51)]
    assert listen(begun + data_text[:40] + other, 129) == [(40, 1), (86, 11), (120, 1)]
    # Behind an unmarked code an opening follows at once, or in what is left of the unmarked text
    assert listen(OPENING + b"\xC0" + begun, 128) == [(7, 51), (47, 1)]
    assert listen(other[:30] + begun, 128) == [(7, 51), (70, 1)]
    # The control bytes seen at place 1 come about by no list of calls: row 11 and not 13, and it goes on
    receiver = Receiver(0)
    receiver.seen, receiver.place, receiver.check = CONTROL, 1, FD
    assert receiver.refusal() == 0 and receiver.byte(FD) == 11 and receiver.place == 1
    assert receiver.byte(0xCC) == 51


# Rows 11 and 15, which go on, and answers 1 to 3 leave the marks as they were. "Finding the way back holds from
# an undamaged start text of a marked picture, against a fresh receiver with the same marks": what came before the
# start text, and the answers within it but its own
def _marks_stay():
    begun, data_text, end = _quality_texts(0xCC)
    fronts = {b"": (), begun: (15,), begun + data_text[:40]: (11,), begun + data_text: (15,), begun[:20]: (18,),
              begun[:11]: (18,), begun + data_text + end: (), OPENING: (13,), OPENING + b"\xC0": (), CONTROL: ()}
    for front, answers in fronts.items():
        receiver, alone = _after(front, 128), Receiver(128)
        assert tuple(filter(None, map(receiver.byte, begun))) == (*answers, 1)
        assert tuple(filter(None, map(alone.byte, begun))) == (1,)
        for b in data_text + end:
            assert _state(receiver) == _state(alone) and receiver.marks == 128
            assert receiver.byte(b) == alone.byte(b)
        assert _state(receiver) == _state(alone) and receiver.marks == 128


# ---- Request 111 by hand

# Digits as numbers
def _digits(text):
    return tuple(map(int, text))


# The digits of S, 1999.06.07.12.10, that wait after each byte of its start block from byte 8 to byte 22; the others
# are still 0, as all are before and after
WAIT = ("1", "19", "199", "1999", "1999", "19990", "199906", "199906", "1999060", "19990607", "19990607", "199906071",
        "1999060712", "1999060712", "19990607121")


def _digits_wait():
    receiver = Receiver()
    for place, b in enumerate(SAMPLE_START[:37], -4):
        assert receiver.byte(b) == 0 and receiver.place == max(0, place) and receiver.refusal() == 0
        waiting = WAIT[place - 9] if place in WAITING else ""
        assert receiver.digits == _digits(waiting.ljust(12, "0"))
        # "the fields .. then enter as they come": the minute with byte 23, after the clock and before the radars
        assert receiver.header.minute == (-298_790 if place >= 24 else 0)
        assert receiver.header.clock == (9983 if place >= 8 else 77 * 128 if place == 7 else 0)
        assert receiver.header.radars[0] == (0xA5 if place >= 25 else 0)
    assert [receiver.byte(b) for b in SAMPLE_START[37:]] == [0, 0, 1]
    assert receiver.header.minute == -298_790 and receiver.digits == NO_DIGITS
    # An open part's header stays while its end text comes, and a start kind sets it to 0 (row 15)
    for b in SAMPLE_END[:7]:
        assert receiver.byte(b) == 0 and receiver.header.minute == -298_790
    assert receiver.byte(0x30) == 15 and receiver.header.minute == 0


# S with another time; the check byte is that of the changed block
def _with_time(time):
    return texts.make_text(SAMPLE_START[5:13] + texts.time_bytes(_digits(time)) + SAMPLE_START[29:-3])


# By hand: the minute that a time gives, or None for row 18 at byte 23; dropping leaves no digit and no minute
def _times():
    times = {
        "000001010000": -1_051_898_400, "000002290000": -1_051_813_440, "999912312359": 4_207_593_599,
        "199912312359": -1, "200001010000": 0, "200001010001": 1, "200002290000": 84_960, "200002292359": 86_399,
        "200003010000": 86_400, "190002282359": -52_509_601, "190003010000": -52_509_600,
        "210002282359": 52_680_959, "210003010000": 52_680_960, "198708151215": -6_510_945,
        "199902290000": None, "190002290000": None, "210002290000": None, "200002300000": None, "200012312400": None,
        "200000010000": None, "200001000000": None, "200013010000": None, "200001010060": None, "000000000000": None,
        "999999999999": None,
    }
    # 9 in every place of S's time: no month 96, day 97, hour 92 and minute 90
    years = {"999906071210": 4_207_294_810, "199906071210": -298_790}
    nines = {**years, "199996071210": None, "199909071210": -166_310, "199906971210": None, "199906091210": -295_910,
             "199906079210": None, "199906071910": -298_370, "199906071290": None, "199906071219": -298_781}
    for time, minute in (times | nines).items():
        receiver, begun = Receiver(), _with_time(time)
        assert [receiver.byte(b) for b in begun[:28]] == [0] * 28
        assert receiver.digits == _digits(time[:11] + "0") and receiver.header.minute == 0
        assert receiver.byte(begun[28]) == (18 if minute is None else 0)
        assert receiver.digits == NO_DIGITS and receiver.header.minute == (minute or 0)
        if minute is None:
            assert receiver.place == 0 and receiver.header == NO_HEADER
        assert listen(begun + SAMPLE_END) == ([(29, 18), (48, 16)] if minute is None else [(40, 1), (80, 3)])
    # A digit or a stop at its own byte: what waited is dropped with the rest
    for place in range(8, 24):
        for b in (0x2F, 0x3A, 0x30 if place not in DIGIT else 0x2E, 0x16):
            receiver = _after(SAMPLE_START[:5 + place], ALL_MARKS)
            assert receiver.byte(b) == 18 and receiver.digits == NO_DIGITS and receiver.header == NO_HEADER


# Refusal 2: place, kind, part, due text; digits; the refusal
def _refused_digits():
    first, last, nines = (1, *(0,) * 11), (*(0,) * 11, 1), (9,) * 12
    tries = [
        *((place, kind, 0, 0, digits, 0) for place in (9, 16, 23) for kind in (0x10, 0x20, 0x30)
          for digits in (NO_DIGITS, first, last, nines)),
        *((place, 0x10, 0, 0, digits, 2) for place in (8, 24, 34) for digits in (first, last, nines)),
        *((place, 0x10, 0, 0, put(NO_DIGITS, i, b), 2) for place in (9, 23) for i in range(12) for b in (10, 255)),
        *((place, 0, part, due, digits, 2) for place in (0, 1, 2) for part, due in ((0, 0), (1, 11), (2, 1))
          for digits in (first, last)),
        *((12, kind, part, due, digits, 2 if any(digits) else 0) for digits in (NO_DIGITS, first, last)
          for kind, part, due in ((0x1F, 1, 11), (0x11, 1, 1), (0x21, 2, 1), (0x3F, 3, 11))),
    ]
    for place, kind, part, due, digits, wanted in tries:
        receiver = Receiver()
        receiver.place, receiver.kind, receiver.part, receiver.due, receiver.digits = place, kind, part, due, digits
        receiver.picture = 0xCC if place >= 2 else 0
        assert receiver.refusal() == wanted
        receiver.grid = bytearray(GRID + 1)
        assert receiver.refusal() == 1
    # Digits that wait come about with no other bytes; but an opening among them is found (row 11), and they are dropped
    receiver = _after(SAMPLE_START[:20], ALL_MARKS)
    assert receiver.digits == _digits("199906000000")
    receiver.seen = CONTROL
    assert receiver.byte(FD) == 11 and receiver.place == 1 and receiver.digits == NO_DIGITS
    # Those still to come are taken as they come, whatever stood there
    receiver = _after(SAMPLE_START[:20], ALL_MARKS)
    receiver.digits = _digits("199906999999")
    assert receiver.refusal() == 0 and [receiver.byte(b) for b in SAMPLE_START[20:]] == [0] * 19 + [1]
    assert receiver.header.minute == -298_790


# ---- Against texts.py

# Byte by byte: no state comes about that row 2 would refuse, and the marks stay; 51 exactly at an unmarked code;
# complete exactly when the bytes end with an undamaged part of a marked picture, and then with its header, modes
# and grid
def _against_texts(data, marks=ALL_MARKS):
    receiver = Receiver(marks)
    completes = 0
    for read, b in enumerate(data, 1):
        answer = receiver.byte(b)
        assert receiver.refusal() == 0 and receiver.marks == marks
        assert (answer == 51) == unmarked_at_end(data[max(0, read - 7):read], marks)
        part = complete_at_end(data[:read], marks) if b == FF else None
        assert (answer == 3) == (part is not None)
        if part is not None:
            assert receiver.header == texts.header_of_part(part)
            assert receiver.modes == texts.modes_of_part(part)
            assert receiver.grid == texts.grid_of_part(part)
            completes += 1
    return completes


# Parts of the three kinds, of the picture whose mark is 524,288; then the short ones with one byte altered,
# each place in turn: none of these is complete
def _parts():
    header = texts.Header(
        minute=86_399,
        radars=(0xA0, 0xB6, 0, 0, 0, 0, 0, 0),
        clock=9983,
        picture=0xF1,
        mode=3,
        noecho=False,
    )
    modes = (1, 3, 0, 0, 0, 0, 0, 0)
    allowed = {part: [b for b in range(256) if ALLOWED[part][b]] for part in texts.PARTS}
    whole, short = [], []
    for part in texts.PARTS:
        payload = bytes(allowed[part][i * i % len(allowed[part])] for i in range(texts.payload_length(part)))
        whole.append(texts.make_part(part, header, modes, payload))
        short.append(texts.make_part(part, header._replace(noecho=True), modes, payload))
    for marks, completes in ((ALL_MARKS, 6), (524_288, 6), (ALL_MARKS - 524_288, 0)):
        assert _against_texts(b"".join(whole + short), marks) == completes
    for data in short:
        for i, b in enumerate(data):
            for other in (b ^ 1, b ^ 0x10, b ^ 0x80, FD, 0x16):
                altered = data[:i] + bytes([other]) + data[i + 1:]
                for marks in (ALL_MARKS, 524_288):
                    assert _against_texts(altered, marks) == (altered == data)


if __name__ == "__main__":
    _samples()
    _refusals()
    _mark_numbers()
    _row_51()
    _openings_and_51()
    _marks_stay()
    _digits_wait()
    _times()
    _refused_digits()
    _parts()
