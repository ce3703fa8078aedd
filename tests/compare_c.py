"""Compares the receiver in C, bench/receiver.c, with the model of 01's receiver, tests/model/receiver.py.

    python3 tests/compare_c.py

It builds the C file as a program (with $CC, else cc), gives it the stream of listen.py, hostile traffic
made by tests/second with fixed seeds, and start texts with times by chance, and compares: the listening lines from
the byte call and both slice calls, in slices of several lengths; the state but for the digits that wait, and the grid,
after every call; and refusals 1 and 2 of made-up states, with digits too (Request 111). The receivers have all twenty
marks, and on some streams each of several others (Request 101). It also holds the model's answer 3 against texts.py on
the same streams: a part is complete exactly when the bytes taken end with an undamaged part of a marked picture, and is
then kept as it was sent. Ends with an error at the first difference, and otherwise says what was compared.
"""

import os
import random
import shlex
import subprocess
import sys
import tempfile
import zlib
from collections import Counter
from pathlib import Path

sys.dont_write_bytecode = True
HERE = Path(__file__).resolve().parent
sys.path[:0] = [str(HERE), str(HERE / "model")]
import texts
from listen import STREAM
from receiver import LENGTH, Receiver, part_at_end
from texts import CONTROL, FF, KINDS, OPENING, PICTURES

ALL_MARKS = 1_048_575

# ---- Streams

# Hostile traffic, from the generator that differential.py uses
def hostile_stream(second, seed, size):
    return subprocess.run([second, "generate", str(seed), str(size)], capture_output=True, check=True).stdout


# Numbers that receivers are made from, and hostile traffic for them: parts of marked and of unmarked pictures
def marks_stream(second, seed, size):
    command = [second, "generate-marks", str(seed), str(size)]
    made = subprocess.run(command, capture_output=True, check=True).stdout
    head = 1 + 4 * made[0]
    return [int.from_bytes(made[at:at + 4], "big") for at in range(1, head, 4)], made[head:]


# Nothing but bytes that matter
def likely_stream(seed, size):
    rng = random.Random(seed)
    likely = OPENING + bytes([0xFE, 0xFF, 0x00, 0xCC, 0xC0, 0x20, 0x21, 0x2F, 0x30, 0x31, 0x3F, 0x11, 0x1F, 0x08])
    pieces = (OPENING, CONTROL, OPENING + b"\xCC\x10", OPENING + b"\xCC\x20\x00\x08\x04", b"\x16", b"\xFD", b"\xCC")
    out = bytearray()
    while len(out) < size:
        out += rng.choice(pieces) if rng.random() < 0.5 else bytes([rng.choice(likely)])
    return bytes(out)


# Start texts with times (Request 111): those of a minute by chance, such a time with one digit by chance, and any
# digits
def times_stream(seed, count):
    rng = random.Random(seed)
    first, last = -1_051_898_400, 4_207_593_599
    edges = (first, last, -1, 0, 84_960, 86_399, -52_509_601, 52_680_960, -1_051_813_440)
    out = bytearray()
    for _ in range(count):
        minute = rng.choice((rng.randint(first, last), rng.randint(first, last), rng.choice(edges)))
        header = texts.Header(minute, (0xA5, *(0,) * 7), 9983, 0xCC, 1, True)
        block = bytearray(texts.start_block(rng.choice(texts.PARTS), header))
        places = [8 + i for i, letter in enumerate(texts.TIME_FORM) if letter != "."]
        way = rng.randrange(8)
        for place in places if way == 0 else [rng.choice(places)] if way < 4 else []:
            block[place] = rng.choice(b"0123456789")
        out += texts.make_text(bytes(block))
    return bytes(out)


# ---- The model's side

# Has the picture its mark in a receiver that was made from this number?
def is_marked(picture, number):
    return number <= ALL_MARKS and number >> PICTURES.index(picture) & 1 == 1


# The listening lines; and answer 3 held against texts.py
def model_lines(data, number):
    receiver = Receiver(number)
    lines = []
    for read, b in enumerate(data, 1):
        answer = receiver.byte(b)
        if answer != 0:
            lines.append(f"{read} {answer}")
        if b == FF:
            part = part_at_end(data[max(0, read - 20_190):read])
            if part is not None and not is_marked(texts.header_of_part(part).picture, number):
                part = None
            assert (answer == 3) == (part is not None), f"after {read} bytes"
            if part is not None:
                assert receiver.header == texts.header_of_part(part)
                assert receiver.modes == texts.modes_of_part(part)
                assert receiver.grid == texts.grid_of_part(part)
    return lines


# A line for each call, with the answer, the state and the CRC-32 of the grid, as the C program prints it
def model_states(data, most, number):
    receiver = Receiver(number)
    lines = []
    at = 0
    while at < len(data):
        answer, count = receiver.slice(data, at, min(at + most, len(data)))
        at += count
        assert receiver.refusal() == 0
        header = receiver.header
        numbers = (receiver.place, receiver.kind, receiver.picture, receiver.part, receiver.due, receiver.check,
                   header.minute, *header.radars, header.clock, header.picture, header.mode, int(header.noecho),
                   *receiver.modes, receiver.marks, zlib.crc32(receiver.grid))
        lines.append(f"{at} {answer} {receiver.seen.rjust(5, bytes(1)).hex()} {' '.join(map(str, numbers))}")
    return lines


# ---- Comparing

def c_lines(program, data, *arguments):
    done = subprocess.run([program, *map(str, arguments)], input=data, capture_output=True, check=True)
    return done.stdout.decode().splitlines()


def same(name, ours, theirs):
    for model, c in zip(ours, theirs):
        if model != c:
            sys.exit(f"{name}: the model has\n  {model}\nand C has\n  {c}")
    if len(ours) != len(theirs):
        sys.exit(f"{name}: {len(ours)} lines from the model, {len(theirs)} from C")


SLICE_LENGTHS = (0, 1, 2, 3, 6, 7, 100, 2003)


def compare_lines(program, name, data, answers, number=ALL_MARKS):
    lines = model_lines(data, number)
    answers.update(int(line.split()[1]) for line in lines)
    for entry in ("byte", "asked"):
        same(f"{name}, {entry}", lines, c_lines(program, data, entry, 0, "lines", number))
    for entry in ("slice", "payload"):
        for most in SLICE_LENGTHS:
            same(f"{name}, {entry} by {most}", lines, c_lines(program, data, entry, most, "lines", number))


def compare_states(program, name, data, most, number=ALL_MARKS):
    lines = model_states(data, most, number)
    entries = ("byte", "slice", "payload") if most == 1 else ("slice", "payload")
    for entry in entries:
        same(f"{name}, {entry} by {most}, states", lines, c_lines(program, data, entry, most, "states", number))


# States of numbers in and out of their ranges
def compare_refusals(program, count):
    rng = random.Random(2)
    given, ours = bytearray(), []
    for _ in range(count):
        receiver = Receiver()
        receiver.part = rng.choice((0, 0, 1, 2, 3, 3, 4))
        receiver.due = rng.choice((0, 0, 1, 1, 2, 10, 11, 11, 12))
        receiver.kind = rng.choice((0, 0, *KINDS, texts.kind_of(receiver.part, receiver.due), 0x1B, 0x40))
        length = LENGTH.get(receiver.kind, 0)
        receiver.place = rng.choice((0, 1, 2, 3, 3, 31, length, length + 2, length + 3))
        receiver.picture = rng.choice((0, 0xCC, 0xF1, 0xC3))
        receiver.check = rng.choice((0, 0, 255))
        # Marks beyond the twentieth are refused; a code under way need not be marked
        receiver.marks = rng.choice((0, 1, ALL_MARKS, ALL_MARKS, 699_050, ALL_MARKS + 1, 2**31 + 128, 2**32 - 1))
        given += numbers_of(receiver)
        ours.append(str(receiver.refusal()))
    same("refusals", ours, c_lines(program, bytes(given), "refusals"))
    return Counter(ours)


# A made-up state as the C program reads it
def numbers_of(receiver):
    numbers = (receiver.kind, receiver.picture, receiver.part, receiver.due, receiver.check)
    return receiver.place.to_bytes(2, "big") + bytes(numbers) + receiver.marks.to_bytes(4, "big")


# The same with digits, in states that are possible without: Request 111, "a digit above 9, or one not 0 other than at
# places 9 to 23 of a start text"
def compare_digits(program, count):
    rng = random.Random(111)
    given, ours = bytearray(), []
    for _ in range(count):
        receiver = Receiver()
        part = rng.choice(texts.PARTS)
        text = rng.choice((texts.START, texts.START, texts.START, texts.START, 1, texts.END))
        receiver.place = rng.choice((0, 1, 2, 3, 8, 8, 9, 9, 10, 16, 22, 23, 23, 24, 24, 25, 31, 34))
        if receiver.place > 1:
            receiver.picture = 0xCC
        if receiver.place > 2:
            receiver.kind = texts.kind_of(part, text)
        if text != texts.START:
            receiver.part, receiver.due = part, text
        assert receiver.refusal() == 0
        digits = [0] * 12
        for _ in range(rng.choice((0, 1, 1, 1, 2, 12))):
            digits[rng.randrange(12)] = rng.choice((0, 1, 9, 9, rng.randint(1, 9), 10, 255))
        receiver.digits = tuple(digits)
        given += numbers_of(receiver) + bytes(digits)
        ours.append(str(receiver.refusal()))
    same("refusals with digits", ours, c_lines(program, bytes(given), "refusals", "digits"))
    return Counter(ours)


# How often each answer came
def told(answers):
    return f"{sum(answers.values())} answers: " + ", ".join(f"{answers[a]} of {a}" for a in sorted(answers))


def built(folder, name, *arguments):
    program = str(Path(folder) / name)
    compiler = shlex.split(os.environ.get("CC", "cc"))
    subprocess.run([*compiler, "-O2", *arguments, "-o", program], check=True)
    return program


def main():
    with tempfile.TemporaryDirectory() as folder:
        program = built(folder, "receiver", "-DLISTEN", str(HERE.parent / "bench" / "receiver.c"))
        second = built(folder, "second", *map(str, sorted((HERE / "second").glob("*.c"))))

        answers, read = Counter(), 0
        streams = [("samples", STREAM)]
        streams += [(f"hostile, seed {seed}", hostile_stream(second, seed, 150_000)) for seed in range(1, 21)]
        streams += [(f"likely bytes, seed {seed}", likely_stream(seed, 20_000)) for seed in range(1, 6)]
        streams += [("random bytes", random.Random(1).randbytes(200_000))]
        for name, data in streams:
            compare_lines(program, name, data, answers)
            read += len(data)
        print(f"lines: {len(streams)} streams, {read} bytes, {told(answers)}")
        assert set(answers) == {1, 2, 3, *range(11, 23)}

        # Seven seeds, and more until every answer has come
        answers, made, all_answers = Counter(), 0, {1, 2, 3, *range(11, 23), 51}
        for seed in range(1, 31):
            numbers, data = marks_stream(second, seed, 25_000)
            for number in numbers:
                compare_lines(program, f"seed {seed}, marks {number}", data, answers, number)
                compare_states(program, f"seed {seed}, marks {number}", data[:3_000], 1, number)
                made += 1
            if seed >= 7 and set(answers) == all_answers:
                break
        print(f"marks: {made} receivers, {told(answers)}")
        assert set(answers) == all_answers

        states = 0
        for name, data, lengths in [
            ("samples", STREAM, (7, 2003)),
            ("samples, from the midst", STREAM[48_000:58_000], (1,)),
            ("samples, from the first minute on", STREAM[STREAM.index(b"0000.01.01.00.00"):][:9_000], (1,)),
            *((f"times, seed {seed}", times_stream(seed, 2_000), (40,)) for seed in range(101, 104)),
            ("times, seed 104", times_stream(104, 100), (1, 3)),
            *((f"hostile, seed {seed}", hostile_stream(second, seed, 5_000), (1, 3, 50)) for seed in range(101, 107)),
            *((f"likely bytes, seed {seed}", likely_stream(seed, 2_000), (1, 5)) for seed in range(101, 104)),
        ]:
            for most in lengths:
                compare_states(program, name, data, most)
                states += 1
        print(f"states and grids after every call: {states} runs")
        for name, compare in (("made-up states", compare_refusals), ("... with digits", compare_digits)):
            refused = compare(program, 20_000)
            print(f"{name}:", ", ".join(f"{refused[r]} with {r}" for r in sorted(refused)))


if __name__ == "__main__":
    main()
