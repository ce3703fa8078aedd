"""Request 113 tried on the model of 01's receiver: parts with altered bytes, made by chance.

    python3 tests/altered.py [--parts 1000] [--seed 113]

The request: "an undamaged part with at least one altered byte, at most one in each text, and none altered to `FD`,
given to a fresh receiver, yields no complete". So many parts of every sort are altered so, by another reading than
that of tests/second, and each is given alone to fresh receivers with all twenty marks, with its picture's alone, and
with others; and of 01's sample part every pair of places is altered. None may be complete.

That this can fail is shown beside it: parts with two altered bytes in one text, and with one byte altered to `FD`,
are made so that an undamaged part ends with them; the same trial must find every one of them complete, and the
request's words must say of none of them that it is such a part. Ends with an error where one of this does not hold,
and otherwise says what was tried.
"""

import argparse
import itertools
import random
import sys
from collections import Counter
from pathlib import Path

sys.dont_write_bytecode = True
sys.path.insert(0, str(Path(__file__).resolve().parent / "model"))
import texts
from receiver import ALL_MARKS, MARK, SAMPLE_END, SAMPLE_START, listen
from texts import CONTROL, FD, FE, FF, INTENSITY, KINDS, PICTURES, QUALITY, RADARS, TOP

SORTS = [(INTENSITY, False), (INTENSITY, True), (TOP, False), (TOP, True), (QUALITY, False), (QUALITY, True)]
WEIGHTS = [2, 6, 6, 6, 8, 4]  # an intensity part with data texts is long
ALLOWED = {part: bytes(b for b in range(256) if texts.is_payload_byte(part, b)) for part in texts.PARTS}
MEANINGLESS = 0xFF - 0x54  # of a mode byte


# ---- Parts as they are sent, each a list of texts

def some_radars(rng):
    chosen = sorted(rng.sample(RADARS, rng.randint(1, 8)))
    return (*chosen, *(0,) * (8 - len(chosen)))


# Any minute of years 0000 to 9999, and more often than by chance their first, their last, and one around 2000
def some_minute(rng):
    first, last = -1_051_898_400, 4_207_593_599
    return rng.choice((rng.randint(first, last), rng.randint(first, last), rng.randint(-1, 86_400), first, last))


# All zeros, one value, all values, or what is left of the control bytes
def some_payload(rng, part):
    size, allowed = texts.payload_length(part), ALLOWED[part]
    few = bytes(b for b in CONTROL if b in allowed)
    return rng.choice((bytes(size), rng.choices(allowed, k=1) * size, rng.choices(allowed, k=size),
                       rng.choices(few, k=size)))


# An undamaged part. Bits without meaning are set in every second one
def some_part(rng, sort=None):
    part, noecho = sort or rng.choices(SORTS, WEIGHTS)[0]
    radars = some_radars(rng)
    modes = [rng.randint(1, 3) if radar else 0 for radar in radars]
    header = texts.Header(some_minute(rng), radars, rng.randint(0, 16_383), rng.choice(PICTURES), max(modes), noecho)
    blocks = texts.split_part(texts.make_part(part, header, modes, bytes(some_payload(rng, part))))
    first, *rest, last = map(bytearray, blocks)
    if rng.random() < 0.5:
        first[4] |= rng.choice((rng.randrange(256), FD)) & ~(0 if noecho or part == QUALITY else 0x08)
        first[5] |= rng.randrange(256) & MEANINGLESS
        last[3] |= rng.randrange(256) & MEANINGLESS
    return [texts.make_text(block) for block in (first, *rest, last)]


# The check byte of a data text made the wanted one by two payload bytes from place `at` on, of which the first takes
# the bits that its part allows together
def with_check(made, at, wanted):
    block = bytearray(texts.block_of_text(made))
    block[at:at + 2] = bytes(2)
    missing = texts.check_byte(block) ^ wanted
    together = 0x77 if texts.part_of_kind(block[2]) == INTENSITY else 0x7F
    block[at:at + 2] = bytes([missing & together, missing & ~together])
    made = texts.make_text(block)
    assert made[-2] == wanted and texts.undamaged_text(made)
    return made


# Payload that ends `16 16 16 10` and the check byte `FD`: `02` for the `FE` between them makes an opening
def with_critical(rng, made):
    return with_check(texts.make_text(texts.block_of_text(made)[:-4] + CONTROL[:4]), rng.randint(3, 90), FD)


# ---- Alterations

# The places and bytes in which a text has come otherwise than it was sent
def altered_bytes(sent, come):
    return [(place, b) for place, (a, b) in enumerate(zip(sent, come, strict=True)) if a != b]


# The request's words
def is_altered_part(sent, come):
    altered = [altered_bytes(*pair) for pair in zip(sent, come, strict=True)]
    return (texts.undamaged_part(b"".join(sent)) and any(altered) and all(len(found) <= 1 for found in altered)
            and all(b != FD for found in altered for _, b in found))


# A text with one byte altered, at its front or its end more often than not, to a byte that tells more often than not
def hit(rng, made):
    telling = (*CONTROL, FE, FF, 0x00, *PICTURES, *KINDS, 0x04, 0x10, 0x40)
    while True:
        place = rng.choice((rng.randrange(9), len(made) - rng.randint(1, 4), rng.randrange(len(made))))
        b = rng.choice((rng.choice(telling), made[place] ^ 1 << rng.randrange(8), rng.randrange(256)))
        if b not in (made[place], FD):
            return made[:place] + bytes([b]) + made[place + 1:]


# One text, some, all, or some but not the start text
def some_numbers(rng, count):
    numbers = range(rng.choice((0, 0, 1)), count)
    return rng.sample(numbers, rng.choice((1, len(numbers), rng.randint(1, len(numbers)))))


# A part as it was sent and as it came. Now and then all texts get the same other picture code, or the same bit
# turned; a critical text gets its byte; texts get another listed kind
def some_altered(rng):
    sent = some_part(rng)
    come = list(sent)
    way = rng.randrange(8)
    for i in some_numbers(rng, len(sent)) if way > 1 else range(len(sent)):
        if way == 0:
            come[i] = sent[i][:6] + bytes([PICTURES[PICTURES.index(sent[i][6]) - 1]]) + sent[i][7:]
        elif way == 1:
            place = rng.randint(8, len(sent[i]) - 4)
            b = sent[i][place] ^ 0x01
            come[i] = hit(rng, sent[i]) if b == FD else sent[i][:place] + bytes([b]) + sent[i][place + 1:]
        elif way == 2 and 0 < i < len(sent) - 1 and sent[i][7] != 0x21:
            sent[i] = with_critical(rng, sent[i])
            come[i] = sent[i][:-3] + b"\x02" + sent[i][-2:]
        elif way == 3:
            come[i] = sent[i][:7] + bytes([rng.choice([kind for kind in KINDS if kind != sent[i][7]])]) + sent[i][8:]
        else:
            come[i] = hit(rng, sent[i])
    return sent, come


# ---- Outside the limits

# Two bytes of one text altered to another undamaged text: bits of the clock and of status 1 or the check byte, two
# payload bytes or one and the check byte, a mode's bits without meaning and the check byte
def altered_twice(rng):
    while True:
        sent = some_part(rng)
        i = rng.randrange(len(sent))
        front = {0: (9, 12), len(sent) - 1: (8, 8)}.get(i, (8, len(sent[i]) - 4))
        places = rng.randint(*front), rng.choice((rng.randint(*front), len(sent[i]) - 2))
        made, bit = bytearray(sent[i]), 1 << rng.randrange(8)
        for place in places:
            made[place] ^= bit
        come = [*sent[:i], bytes(made), *sent[i + 1:]]
        found = altered_bytes(sent[i], made)
        if len(found) == 2 and all(b != FD for _, b in found) and texts.undamaged_part(b"".join(come)):
            return sent, come


# An intensity part whose data text 10 ends with a NO ECHO start text of the same picture that has some payload byte
# for its `FD`, and whose check byte is right for both; that byte has come as `FD`. In every second one, all texts
# before it are altered too
def altered_to_fd(rng):
    while True:
        sent = some_part(rng, (INTENSITY, False))
        block = bytearray(texts.block_of_text(sent[0]))
        block[4], block[6], block[7] = 0x08, rng.randint(0, 0x0E), rng.randint(0, 0x0E)
        if all(b in ALLOWED[INTENSITY] for b in block[1:]):
            break
    inner = texts.make_text(block)
    for_fd = rng.choice(ALLOWED[INTENSITY])
    data = texts.block_of_text(sent[10])[:-37] + CONTROL + bytes([for_fd]) + inner[6:37]
    sent[10] = with_check(texts.make_text(data), rng.randint(3, 1900), inner[-2])
    come = [hit(rng, made) for made in sent[:10]] if rng.random() < 0.5 else sent[:10]
    return sent, [*come, sent[10][:-35] + bytes([FD]) + sent[10][-34:], sent[11]]


# ---- The trial

# The bytes at which a fresh receiver with these marks answers complete
def completes(made, marks):
    return [read for read, answer in listen(made, marks) if answer == 3]


# How many of these are complete, and how often each answer came. Whatever else its marks, a receiver that has the
# picture's says the same of a part, and one that has it not calls nothing complete
def tried(parts, rng):
    complete, answers = 0, Counter()
    for sent, come in parts:
        made, own = b"".join(come), MARK[sent[0][6]]
        answers.update(answer for _, answer in listen(made))
        found = completes(made, ALL_MARKS)
        for marks, wanted in ((own, found), (own | rng.randrange(ALL_MARKS), found), (ALL_MARKS - own, [])):
            got = completes(made, marks)
            assert got == wanted, f"marks {marks}: complete at {got}, all marks: {found}; {made.hex()}"
        complete += len(found)
    return complete, answers


# 01's sample part, each place of its start text with each of its end text
def pairs_of_sample():
    sent = [SAMPLE_START, SAMPLE_END]
    for first, second in itertools.product(range(40), repeat=2):
        for one, two in ((0x01, 0x01), (0x80, 0x80), (0x03, 0x10)):
            come = [made[:place] + bytes([made[place] ^ bits]) + made[place + 1:]
                    for made, place, bits in ((SAMPLE_START, first, one), (SAMPLE_END, second, two))]
            if is_altered_part(sent, come):
                yield sent, come


def main():
    parser = argparse.ArgumentParser(description=__doc__.splitlines()[0])
    parser.add_argument("--parts", type=int, default=1000)
    parser.add_argument("--seed", type=int, default=113)
    options = parser.parse_args()
    rng = random.Random(options.seed)
    parts = [some_altered(rng) for _ in range(options.parts)]
    assert all(is_altered_part(*pair) for pair in parts)
    complete, answers = tried(parts, rng)
    altered = sum(len(altered_bytes(*pair)) for part in parts for pair in zip(*part))
    every = sum(all(map(altered_bytes, sent, come)) for sent, come in parts)
    assert complete == 0, f"{complete} of {len(parts)} altered parts are complete"
    print(f"{len(parts):,} altered parts, {altered:,} altered bytes, {every:,} parts with one in every text: "
          f"{complete} complete")
    print("answers:", ", ".join(f"{answer}: {count:,}" for answer, count in sorted(answers.items())))
    pairs = list(pairs_of_sample())
    complete, _ = tried(pairs, rng)
    assert complete == 0, f"{complete} of {len(pairs)} are complete"
    print(f"{len(pairs):,} pairs of alterations of 01's sample part: {complete} complete")
    for name, make in (("two altered bytes in one text", altered_twice), ("a byte altered to FD", altered_to_fd)):
        outside = [make(rng) for _ in range(max(1, options.parts // 30))]
        complete, _ = tried(outside, rng)
        assert complete == len(outside), f"{complete} of {len(outside)} parts with {name} are complete"
        assert not any(is_altered_part(*pair) for pair in outside)
        print(f"{len(outside):,} parts with {name}: {complete:,} complete")


if __name__ == "__main__":
    main()
