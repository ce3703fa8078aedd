"""The lines that the program `try_bytes_left` must print for a stream on its standard input.

    python3 tests/try_bytes_left.py | diff - crates/try_bytes_left/stdout
    python3 tests/try_bytes_left.py STREAM

The stream is crates/try_bytes_left/stdin, or the file that is named. A fresh receiver with all twenty marks is
given it with the byte call, and after each byte the service is asked for bytes left. The lines are those of the
models of 01's receiver and, with Request 106, of its services, tests/model/receiver.py and
tests/model/services.py; the same lines come from the second implementation, `second left`. All numbers are decimal.

    TOTAL ANSWER BEFORE AFTER SUM       for each byte that is answered other than 0: bytes read so far, with
                                        this one; its answer; bytes left before it and after it
    TOTAL LEFT SUM                      when the input ends: bytes read, bytes left, in one line, the last

SUM is Adler-32, begun at 0, of the bytes left after each byte read so far, with this one: each figure goes in
as two bytes, high byte first. So every figure tells, and not only those that stand in a line.
"""

import sys
import zlib
from pathlib import Path

sys.dont_write_bytecode = True
ROOT = Path(__file__).resolve().parent.parent
sys.path.insert(0, str(ROOT / "tests/model"))
from receiver import ALL_MARKS, Receiver
from services import Refused, bytes_left


# By hand, from 01's table: bytes left before a byte with this answer, where the answer tells them. A text's
# last byte has 1, 2, 3, 21 or 22, the check byte 20, the `FE` 19; rows 12 to 17 come up to and with the kind
BEFORE = {1: 1, 2: 1, 3: 1, **dict.fromkeys(range(12, 18), 0), 19: 3, 20: 2, 21: 1, 22: 1}
# ... and after a kind that is read: the block's bytes but three, and the three behind it
KIND_READ = (32, 2003, 403, 103)


# By hand: whether bytes left may be so before and after a byte with this answer
def may_be(answer, before, after):
    if answer != 0:  # the text has ended, or is dropped; in row 11 its kind is not read, in row 15 it is a start's
        return before == BEFORE.get(answer, before) and after == (32 if answer == 15 else 0)
    # No text's last byte is quiet. One of those left has come, or none are, and this may be the kind
    return before != 1 and (after == before - 1 if before != 0 else after in (0, *KIND_READ))


# The lines, each as a tuple of its numbers
def lines(stream):
    receiver = Receiver(ALL_MARKS)
    total, before, added = 0, bytes_left(receiver), 0
    for total, b in enumerate(stream, 1):
        answer = receiver.byte(b)
        after = bytes_left(receiver)
        assert not isinstance(after, Refused), f"byte {total}: refused"
        assert may_be(answer, before, after), f"byte {total}: answer {answer}, {before} left, then {after}"
        added = zlib.adler32(after.to_bytes(2, "big"), added)
        if answer != 0:
            yield total, answer, before, after, added
        before = after
    yield total, before, added


if __name__ == "__main__":
    stream = Path(sys.argv[1]) if sys.argv[1:] else ROOT / "crates/try_bytes_left/stdin"
    for numbers in lines(stream.read_bytes()):
        print(*numbers)
