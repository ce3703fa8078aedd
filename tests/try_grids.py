"""The input of the program `try_grids`, and the lines that it must print for it.

    python3 tests/try_grids.py --grids > crates/try_grids/stdin
    python3 tests/try_grids.py > crates/try_grids/stdout

The input is intensity grids of 20,000 bytes, one behind the other. The lines are those of the model of 01's
services, tests/model/services.py: for each grid how many of its meshes are at or above level 1, level 5 and
level 10, and of all grids so far laid over each other, how many are at or above level 1. A grid that is refused
has its refusal in place of each number, and is not laid over the others.
"""

import sys
from pathlib import Path

sys.dont_write_bytecode = True
sys.path.insert(0, str(Path(__file__).resolve().parent / "model"))
import services
from services import Refused
from texts import GRID


# A grid of zeros but for `stretches`: bytes by the place of the first
def grid(stretches):
    made = bytearray(GRID)
    for place, some in stretches.items():
        made[place:place + len(some)] = some
    assert len(made) == GRID
    return bytes(made)


# Each grid with its four numbers by hand. Long stretches of one byte, so that the counts can be worked out: a
# byte has two meshes
REFUSED = (43,) * 4
GRIDS = [
    # 2,000 meshes of level 4, 1,000 pairs of 5 and 9, 500 pairs of 10 and 0
    (grid({0: b"\x44" * 1000, 1000: b"\x59" * 1000, 19_500: b"\xA0" * 500}), (4500, 2500, 500, 4500)),
    # 1,000 of the same 2,000 meshes lower, and 3,000 others, half of them 0
    (grid({0: b"\x11" * 500, 5000: b"\x0E" * 3000}), (4000, 3000, 3000, 7500)),
    # Level 15 in one mesh, the last: refused, and not laid over the others
    (grid({0: b"\xEE" * 10_000, 19_999: b"\x0F"}), REFUSED),
    # No echo: the overlay stays
    (grid({}), (0, 0, 0, 7500)),
    # Every mesh of the grid at level 14 but the last 500 bytes, whose even meshes stay 0
    (grid({0: b"\xEE" * 19_500}), (39_000, 39_000, 39_000, 39_500)),
    # One echo in every 161st byte, alone among bytes `00`, so that each stretch of 160 bytes has one, at another place:
    # an even mesh of level 1, of which the last three are new to the overlay, and an odd one of level 9
    (grid({161 * k: b"\x01" for k in range(125)}), (125, 0, 0, 39_503)),
    (grid({161 * k + 35: b"\x90" for k in range(125)}), (125, 125, 0, 39_503)),
    # Level 15 alone among bytes `00`
    (grid({10_001: b"\x0F"}), REFUSED),
    (grid({9_998: b"\xF0"}), REFUSED),
]
# Fewer bytes than a grid has at the end, which are none
REST = b"\xEE" * 9
STREAM = b"".join(given for given, _ in GRIDS) + REST


def make_lines():
    laid = bytes(GRID)
    for given, wanted in GRIDS:
        numbers = [services.meshes_from(given, level) for level in (1, 5, 10)]
        refused, laid = services.overlay(given, laid, laid)
        numbers.append(services.meshes_from(laid, 1) if refused is None else refused)
        numbers = tuple(n.row if isinstance(n, Refused) else n for n in numbers)
        assert numbers == wanted, f"{wanted} by hand, {numbers} by the model"
        print(*numbers)


if __name__ == "__main__":
    if sys.argv[1:] == ["--grids"]:
        sys.stdout.buffer.write(STREAM)
    else:
        make_lines()
