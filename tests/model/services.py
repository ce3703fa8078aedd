"""01-scope.md, section "Services", with Requests 101, 106, 110 and 111, as plain functions.

Written from these papers alone, on texts.py and receiver.py, the models of 01's sections "A text" (with
Requests 107 and 111) and "The receiver" (with Requests 101 and 111): nothing here is taken from the library or from
its definitions. A grid is bytes; a mesh number, a level and a clock are numbers. A service gives its value, or
`Refused` with the row of 01's table: "A service's refusal carries no value." What stands in quotes is 01's, and
after "Request 106:" or "Request 110:" that request's; 106's bytes left take the place of what 01 leaves free.
Requests 101 and 111 make more states impossible. Which bytes are an undamaged part they leave to 01, so that a
stored part of any picture has its payload, whatever a receiver's marks.

Run as a program, it tries what the papers' figures settle by hand, and Request 110's claim on random grids.
"""

import functools
import random
import sys
from collections import namedtuple

sys.dont_write_bytecode = True
import texts
from receiver import ALL_MARKS, SAMPLE_START, Receiver
from texts import CONTROL, GRID, INTENSITY

Refused = namedtuple("Refused", "row")

# "mesh number outside 1 to 40,000"
MESHES = range(1, 40_001)
# "levels 0 to 14"
LEVELS = range(15)


# ---- Grids

# "two meshes a byte, the odd number in the high four bits"; "data text k (1 to 10) has meshes 4,000 ×
# (k − 1) + 1 to 4,000 × k", and its payload stands "from byte 2,000 × (k − 1)": meshes are numbered along
# the grid
def level_of(grid, mesh):
    odd, even = texts.levels(grid[(mesh - 1) // 2])
    return odd if mesh % 2 == 1 else even


# "an intensity grid that is read holds level 15"
def holds_level_15(grid):
    return any(15 in texts.levels(b) for b in set(grid))


# "the services 42, 43, 41": the row that `grids` are refused with, of which `read` are read; None where there
# is none. `asked` says that the mesh number or level is one
def refusal(grids, read, asked=True):
    if any(len(grid) != GRID for grid in grids):
        return Refused(42)
    if any(map(holds_level_15, read)):
        return Refused(43)
    return None if asked else Refused(41)


# "Level of a mesh"
def mesh_level(grid, mesh):
    return refusal([grid], [grid], mesh in MESHES) or level_of(grid, mesh)


# "count of meshes at or above a level"
def meshes_from(grid, level):
    return refusal([grid], [grid], level in LEVELS) or sum(level_of(grid, mesh) >= level for mesh in MESHES)


# "overlay of two intensity grids into a third, mesh by mesh the higher": a refusal or None, and the third
# grid after the call. "nothing touched" on a refusal; the third is not "read"
def overlay(first, second, third):
    refused = refusal([first, second, third], [first, second])
    if refused is not None:
        return refused, third
    higher = [max(level_of(first, mesh), level_of(second, mesh)) for mesh in MESHES]
    return None, bytes(odd * 16 + even for odd, even in zip(higher[::2], higher[1::2]))


# "clock steps from a to b, (b − a) modulo 16,384 for every pair of 16-bit numbers"
def clock_steps(a, b):
    return (b - a) % 16_384


# ---- Stored parts

# "The payload of data text k of a stored part comes back ..; it is empty unless these are exactly one
# undamaged part that has text k."
def text_payload(data, k):
    if not texts.undamaged_part(data):
        return b""
    datas = texts.split_part(data)[1:-1]
    return datas[k - 1][3:] if 1 <= k <= len(datas) else b""


# ---- Bytes left in the text under way

# "an impossible state gives 2". Request 106: "Where the kind has been read and a text is under way, the number
# is from now on exactly the bytes that an undamaged text still has to come, the `FF` included. Before the kind
# is read, and at place 0, it is 0."
def bytes_left(receiver):
    if receiver.refusal() != 0:
        return Refused(2)
    if receiver.place == 0 or receiver.kind == 0:
        return 0
    # The five control bytes came before the `FD`, and place is "the count of bytes taken from `FD` on"
    return texts.text_length(receiver.kind) - (len(CONTROL) + receiver.place)


# Levels, counts and rows of the smallest grids that show them
def _grids():
    grid = b"\x1E" + bytes(GRID - 2) + b"\x7A"
    assert [mesh_level(grid, mesh) for mesh in (1, 2, 3, 39_999, 40_000)] == [1, 14, 0, 7, 10]
    assert [mesh_level(grid, mesh) for mesh in (0, 40_001)] == [Refused(41)] * 2
    assert [meshes_from(grid, level) for level in (0, 1, 2, 10, 14, 15)] == [40_000, 4, 3, 2, 1, Refused(41)]
    assert meshes_from(grid[1:], 15) == Refused(42) and meshes_from(b"\xF0" + grid[1:], 15) == Refused(43)
    assert meshes_from(b"\x0F" + grid, 15) == Refused(42)
    other = b"\x42" + bytes(GRID - 1)
    assert overlay(grid, other, grid) == (None, b"\x4E" + grid[1:])
    assert overlay(grid, other, b"\xFF" * GRID) == (None, b"\x4E" + grid[1:])
    assert overlay(grid, other, b"") == (Refused(42), b"")
    assert overlay(grid, b"\x0F" + grid[1:], other) == (Refused(43), other)


# Request 110: "Regional rooms lay up to twenty grids over one another in the order of arrival. Show for overlay that
# order and grouping make no difference, that a grid over itself is that grid, and that the all-zero grid changes
# nothing, for all intensity grids without level 15." A tree is a grid, or two trees laid over each other. What each call
# answered, and the grid that is left; every third grid holds `third` before
def lay(tree, third):
    if isinstance(tree, bytes):
        return [], tree
    (answers, first), (more, second) = (lay(branch, third) for branch in tree)
    refused, grid = overlay(first, second, third)
    return [*answers, *more, refused], grid


def in_order(grids):
    return functools.reduce(lambda laid, grid: (laid, grid), grids)


def in_groups(grids, rng):
    if len(grids) == 1:
        return grids[0]
    cut = rng.randrange(1, len(grids))
    return in_groups(grids[:cut], rng), in_groups(grids[cut:], rng)


def _orders():
    rng = random.Random(110)
    full, zeros = b"\xFF" * GRID, bytes(GRID)
    allowed = bytes(odd * 16 + even for odd in LEVELS for even in LEVELS)
    grids = [bytes(rng.choices(allowed, k=GRID)) for _ in range(20)]
    highest = bytes(max(b >> 4 for b in column) * 16 + max(b & 15 for b in column) for column in zip(*grids))
    assert lay(in_order(grids), full) == ([None] * 19, highest)
    for count in (20, 20, 3, 2):
        some = grids[:count]
        wanted = lay(in_order(some), zeros)[1]
        rng.shuffle(some)
        assert lay(in_groups(some, rng), full) == ([None] * (count - 1), wanted)
        assert lay(in_groups(some + [zeros, some[0]], rng), zeros) == ([None] * (count + 1), wanted)
    # One among several that cannot be laid: the call that reads it is refused and leaves its third grid, of which the
    # calls above it know nothing
    for unfit, row in ((grids[0][:-1], 42), (grids[0] + b"\x00", 42), (b"\x0F" + grids[0][1:], 43), (b"\xF0" + grids[0][1:], 43)):
        assert overlay(unfit, grids[1], full) == overlay(grids[1], unfit, full) == (Refused(row), full)
        for some in ([unfit, *grids[1:6]], [*grids[1:6], unfit]):
            answers, _ = lay(in_groups(some, rng), zeros)
            assert answers.count(Refused(row)) == 1 and answers.count(None) == 4


def _clocks():
    pairs = ((0, 0), (0, 1), (1, 0), (16_383, 0), (0, 16_383), (65_535, 0), (0, 65_535), (16_384, 0))
    assert [clock_steps(a, b) for a, b in pairs] == [0, 1, 16_383, 1, 16_383, 1, 16_383, 0]


# An intensity part whose data texts are full of their own numbers
def _payloads():
    header = texts.Header(-298_790, (0xA5, *(0,) * 7), 9983, 0xCC, 1, False)
    payload = b"".join(bytes([k]) * 2000 for k in range(1, 11))
    data = texts.make_part(INTENSITY, header, (1, *(0,) * 7), payload)
    for k in range(1, 11):
        assert text_payload(data, k) == bytes([k]) * 2000
    for k in (0, 11, 12, 255):
        assert text_payload(data, k) == b""
    for bytes_given in (b"\x16" + data, data + b"\x16", data[:-1], b""):
        assert text_payload(bytes_given, 1) == b""
    # Of every picture
    for picture in texts.PICTURES:
        data = texts.make_part(texts.TOP, header._replace(picture=picture), (1, *(0,) * 7), bytes(range(8)) * 50)
        assert text_payload(data, 1) == bytes(range(8)) * 50


# Along a start text of 40 bytes: 0 up to and with the picture code, and from the kind on, which is the eighth
# byte, one fewer with each, down to 1 before the `FF` and 0 after it
def _left():
    receiver = Receiver(ALL_MARKS)
    assert bytes_left(receiver) == 0
    left = []
    for b in SAMPLE_START:
        receiver.byte(b)
        left.append(bytes_left(receiver))
    assert left == [0] * 7 + list(range(32, -1, -1))
    # Where the kind was just read, the block's bytes but three and the three behind it are to come; the last
    # place is two behind the block, and past it the state is not possible
    receiver.picture = 0xCC
    for part, due, kind, block in ((0, 0, 0x10, 32), (1, 1, 0x11, 2003), (1, 10, 0x1A, 2003), (1, 11, 0x1F, 32),
                                   (2, 1, 0x21, 403), (2, 11, 0x2F, 32), (3, 1, 0x31, 103), (3, 11, 0x3F, 32)):
        receiver.part, receiver.due, receiver.kind = part, due, kind
        for place, wanted in ((3, block), (block + 2, 1), (block + 3, Refused(2))):
            receiver.place = place
            assert bytes_left(receiver) == wanted
    # A kind at place 0 is not possible either: 2, and not the 0 of that place
    receiver.place = 0
    assert bytes_left(receiver) == Refused(2)


# Request 101: marks beyond the twentieth are not possible; no mark is, and a picture under way that is unmarked
def _marks():
    receiver = Receiver(128)
    for b in SAMPLE_START[:22]:
        receiver.byte(b)
    for marks, wanted in ((128, 18), (ALL_MARKS, 18), (1, 18), (0, 18), (1_048_576, Refused(2)),
                          (2 ** 32 - 1, Refused(2))):
        receiver.marks = marks
        assert bytes_left(receiver) == wanted
    # With the picture unmarked nothing is under way at the same byte
    receiver = Receiver(ALL_MARKS - 128)
    for b in SAMPLE_START[:22]:
        receiver.byte(b)
        assert bytes_left(receiver) == 0


# Request 111: digits that wait where none may are not possible, nor is one above 9. At place 9 to 23 of a start text,
# which has 32 bytes and 3 behind them, 35 less the place are left
def _digits():
    first, last = (9, *(0,) * 11), (*(0,) * 11, 1)
    for place, digits, wanted in ((8, (0,) * 12, 27), (8, first, Refused(2)), (9, first, 26), (17, (9,) * 12, 18),
                                  (17, (10, *(0,) * 11), Refused(2)), (23, last, 12), (24, last, Refused(2)),
                                  (24, (0,) * 12, 11)):
        receiver = Receiver()
        receiver.place, receiver.kind, receiver.picture, receiver.digits = place, 0x10, 0xCC, digits
        assert bytes_left(receiver) == wanted
    receiver = Receiver()
    receiver.digits = last
    assert bytes_left(receiver) == Refused(2)


if __name__ == "__main__":
    _grids()
    _orders()
    _clocks()
    _payloads()
    _left()
    _marks()
    _digits()
