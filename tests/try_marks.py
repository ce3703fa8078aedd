"""The lines that the program `try_marks` must print for its standard input.

    python3 tests/try_marks.py < crates/try_marks/stdin | diff - crates/try_marks/stdout

The input is one byte N; N times four bytes, high byte first, which are numbers handed to fresh; and then a stream, to
the input's end. The lines are those of the model of 01's receiver with Requests 101 and 111, tests/model/receiver.py;
input and the same lines come from the second implementation. All numbers are decimal. For each of the N numbers:

    marks NUMBER SET RAW    the number; how many marks the fresh receiver has; how many are set in the fresh state
                            when its marks are overwritten by the number itself
    slice TOTAL ANSWER      the stream, given to the fresh receiver by slice calls, each with all bytes that are
                            left: a line for each answer but 0. TOTAL is the bytes of the stream so far
    held PART PICTURE CLOCK NOECHO MODE MINUTE RADARS MODES
                            after answer 3: what the receiver holds. The minute is a signed count from 1 January
                            2000, 00:00; radars and modes are 8 each
    grid RUNS               after that the grid, from its first byte on: COUNTxBYTE for each run of equal bytes
    byte TOTAL ANSWER       the same stream to another fresh receiver by byte calls; then `held` and `grid` too
    end MARKS SET MARKS SET marks and how many are set, of the slice calls' last state and of the byte calls'
"""

import itertools
import sys
from pathlib import Path

sys.dont_write_bytecode = True
sys.path.insert(0, str(Path(__file__).resolve().parent / "model"))
import texts
from receiver import MARK, Receiver, complete_at_end, unmarked_at_end
from texts import FF

LINES = []


# Words and numbers, as they come
def line(*items):
    LINES.append(" ".join(map(str, items)))


# The numbers and the stream
def read(given):
    assert 1 <= len(given) <= 65_536 and len(given) >= 1 + 4 * given[0]
    behind = 1 + 4 * given[0]
    return [int.from_bytes(given[at:at + 4], "big") for at in range(1, behind, 4)], given[behind:]


# What a receiver holds of this part, at answer 3
def held(part, receiver):
    header = receiver.header
    line("held", part, header.picture, header.clock, int(header.noecho), header.mode, header.minute, *header.radars,
         *receiver.modes)
    line("grid", *(f"{len(list(run))}x{b}" for b, run in itertools.groupby(receiver.grid)))


# Each call takes what it takes of the stream from a place on, and gives its answer and how many bytes these are
def slice_call(receiver, stream, at):
    return receiver.slice(stream, at)


def byte_call(receiver, stream, at):
    return receiver.byte(stream[at]), 1


# The stream by calls of one kind: their answers but 0, each behind the bytes so far
def run(word, call, receiver, stream):
    answers, total = [], 0
    while total < len(stream):
        part, marks = receiver.part, receiver.marks
        answer, count = call(receiver, stream, total)
        total += count
        assert receiver.marks == marks and receiver.refusal() == 0
        if answer != 0:
            answers.append((total, answer))
            line(word, total, answer)
        if answer == 3:
            check_held(stream[:total], part, receiver)
            held(part, receiver)
    return answers


# By hand: what is held at answer 3 is the part with which the bytes end, and its picture is marked
def check_held(data, part, receiver):
    made = complete_at_end(data, receiver.marks)
    assert part == texts.part_of_part(made) and receiver.header == texts.header_of_part(made)
    assert receiver.modes == texts.modes_of_part(made) and receiver.grid == texts.grid_of_part(made)


# By hand: the bytes of the stream that are answered 3, and those that are answered 51
def by_hand(stream, marks):
    ends = range(1, len(stream) + 1)
    complete = [(end, 3) for end in ends if stream[end - 1] == FF and complete_at_end(stream[:end], marks) is not None]
    unmarked = [(end, 51) for end in ends if unmarked_at_end(stream[max(0, end - 7):end], marks)]
    return sorted(complete + unmarked)


def of_number(number, stream):
    raw, by_slices, by_bytes = Receiver(number), Receiver(number), Receiver(number)
    raw.marks = number
    # By hand: a number of more than twenty bits gives no mark, and of these bits the lowest twenty count
    marks = number if number < 2 ** 20 else 0
    counted = bin(number % 2 ** 20).count("1")
    assert by_slices.marks == by_bytes.marks == marks and len(MARK) == 20 and raw.marks_set() == counted
    line("marks", number, by_slices.marks_set(), raw.marks_set())
    answers = run("slice", slice_call, by_slices, stream)
    assert run("byte", byte_call, by_bytes, stream) == answers
    assert [answer for answer in answers if answer[1] in (3, 51)] == by_hand(stream, marks)
    line("end", by_slices.marks, by_slices.marks_set(), by_bytes.marks, by_bytes.marks_set())


if __name__ == "__main__":
    numbers, stream = read(sys.stdin.buffer.read())
    for number in numbers:
        of_number(number, stream)
    sys.stdout.write("".join(line + "\n" for line in LINES))
