"""Writes the three streams that bench/run runs on, of so many MB (1,000,000 bytes; 16 if not given).

    python3 bench/streams.py FOLDER [MB]

intensity.bin  full intensity parts, one after the other: ten data texts each
short.bin      NO ECHO parts of intensity and echo top, and quality parts, in turn
noise.bin      pseudo-random bytes with a fixed seed; no opening is in them

The first two hold as many whole parts as fit, and so are a little shorter; undamaged, they get the
answers 1, 2 and 3 alone. The parts are built with tests/model/texts.py from 01's section "A text";
quality bytes are drawn from the whole sheet of request #107.
"""

import random
import sys
from pathlib import Path

sys.dont_write_bytecode = True
sys.path.insert(0, str(Path(__file__).resolve().parent.parent / "tests" / "model"))
import texts

SEED = 49


# The n-th of a row of headers: pictures, clocks and minutes change, modes and radars stay
def header(n, noecho):
    return texts.Header(
        minute=texts.minute_of(tuple(map(int, f"19990607{n // 60 % 24:02}{n % 60:02}"))),
        radars=(0xA0, 0xA5, 0xB1, 0, 0, 0, 0, 0),
        clock=n * 300 % 16_384,
        picture=texts.PICTURES[n % 20],
        mode=2,
        noecho=noecho,
    )


MODES = (1, 2, 1, 0, 0, 0, 0, 0)


# Allowed payload bytes, pseudo-random
def payload(part, rng):
    allowed = [b for b in range(256) if texts.is_payload_byte(part, b)]
    return bytes(rng.choices(allowed, k=texts.payload_length(part)))


# Twenty different full intensity parts
def intensity_parts(rng):
    return [
        texts.make_part(texts.INTENSITY, header(n, False), MODES, payload(texts.INTENSITY, rng)) for n in range(20)
    ]


# Twenty times NO ECHO intensity, NO ECHO top, quality
def short_parts(rng):
    parts = []
    for n in range(20):
        for part in texts.PARTS:
            noecho = part != texts.QUALITY
            parts.append(texts.make_part(part, header(n, noecho), MODES, payload(part, rng)))
    return parts


# As many of the parts, over and over, as fit into `size` bytes
def repeated(parts, size):
    out = bytearray()
    while True:
        for part in parts:
            if len(out) + len(part) > size:
                return bytes(out)
            out += part


def noise(rng, size):
    out = rng.randbytes(size)
    assert texts.OPENING not in out
    return out


if __name__ == "__main__":
    if len(sys.argv) not in (2, 3):
        sys.exit("usage: python3 bench/streams.py FOLDER [MB]")
    folder = Path(sys.argv[1])
    size = int(sys.argv[2] if len(sys.argv) == 3 else 16) * 1_000_000
    folder.mkdir(parents=True, exist_ok=True)
    (folder / "intensity.bin").write_bytes(repeated(intensity_parts(random.Random(SEED)), size))
    (folder / "short.bin").write_bytes(repeated(short_parts(random.Random(SEED)), size))
    (folder / "noise.bin").write_bytes(noise(random.Random(SEED), size))
