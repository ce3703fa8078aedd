"""Draws docs/layers.svg: the crates in their layers, and what they use.

    python3 tests/layers_picture.py

From crates.txt alone, and the same bytes each time. A crate stands above those of its layer that it uses. An arrow
goes from a crate to one that it uses, unless it uses that one through another as well; programs have no arrows.
An arrow has a place of its own in each row that it passes, so that it runs through no box and no title.
Prints how many crates and arrows there are, or which crates are too many for one row, and then ends with status 1.
"""

import sys
from dataclasses import dataclass, field
from itertools import accumulate, pairwise

from layers import PROGRAM, ROOT, TERMINAL, layer_of, listed, reached

WIDTH, EDGE = 1100, 14  # of the picture, and around it
LEFT, RIGHT = 178, WIDTH - EDGE - 8  # boxes and arrows stand between these, titles on the left
WRITER = WIDTH - EDGE - 168  # from here on stands the writer, beside the receiver
BOX, GAP, PAD = 28, 38, 16  # heights: of a box, between rows, of a band above and below its boxes
TITLES = {0: ["below layer 1:", "general laws"], 1: ["layer 1: texts"], 2: ["layer 2: receiver"], 3: ["layer 3: services"],
          TERMINAL: ["the crate to name;", "reading for programs"]}
FILLS = ["#f2f2f2", "#ecf5ec", "#e8f0fa", "#fbf3e2", "#faecec", "#f2f2f2"]
NOTE = "An arrow goes from a crate to one that it uses, unless it uses that one through another as well."
HEAD = """<svg xmlns="http://www.w3.org/2000/svg" viewBox="0 0 WIDTH HEIGHT" font-family="Helvetica, Arial, sans-serif" role="img">
  <title>The crates in their layers, and what they use</title>
  <style>
    .bg { fill: #ffffff; }
    .band { stroke: #9aa7b5; stroke-width: 1; }
    .box { fill: #ffffff; stroke: #34506e; stroke-width: 1.4; }
    .h { font-size: 14px; font-weight: bold; fill: #1d2f42; }
    .t { font-size: 13px; fill: #1d2f42; text-anchor: middle; }
    .s { font-size: 12px; fill: #3b4a5a; }
    .use { fill: none; stroke: #7d8894; stroke-width: 1.1; }
  </style>
  <defs>
    <marker id="tip" viewBox="0 0 10 10" refX="9" refY="5" markerWidth="7" markerHeight="7" orient="auto"><path d="M0 0 L10 5 L0 10 z" fill="#7d8894"/></marker>
  </defs>
  <rect class="bg" x="0" y="0" width="WIDTH" height="HEIGHT"/>"""


# A place in a row: a box, the writer's title or, without text, an arrow that passes. The lowest row is 0
@dataclass(eq=False)
class Spot:
    text: str
    row: int
    x: float = 0
    above: list = field(default_factory=list)
    below: list = field(default_factory=list)

    def half(self):
        """Half of its width."""
        return max(30, 3.7 * len(self.text) + 9) if self.text else 3

    def is_writer(self):
        return "writer" in self.text

    def bounds(self):
        """Between which its middle stands; receiver and writer keep to their own sides."""
        low = WRITER + 8 if self.is_writer() else LEFT
        high = WRITER - 24 if layer_of(self.text) == 2 and not self.is_writer() else RIGHT
        return low + self.half(), high - self.half()


# ---- the crates in rows

# What each crate uses and does not reach through another
def reduced(crates):
    return {crate: [one for one in uses if not any(one in reached(crates, other) for other in uses if other != one)]
            for crate, uses in crates.items()}


# The longest chain of crates below a crate in its layer
def depth(crates, crate):
    return max((1 + depth(crates, one) for one in crates[crate] if layer_of(one) == layer_of(crate)), default=0)


def in_rows(crates):
    """The layer of each row; the spots of each row; the arrows, each by its spots from user to used."""
    levels = {crate: (layer_of(crate), depth(crates, crate)) for crate in crates}
    ranks = sorted(set(levels.values()))
    boxes = {crate: Spot(crate, ranks.index(level)) for crate, level in levels.items()}
    spots, arrows = [*boxes.values()], []
    for user, used in ((boxes[crate], boxes[one]) for crate, uses in reduced(crates).items() for one in uses):
        passing = [Spot("", row) for row in range(user.row - 1, used.row, -1)]
        arrows.append([user, *passing, used])
        spots += passing
    for upper, lower in (pair for arrow in arrows for pair in pairwise(arrow)):
        upper.below.append(lower)
        lower.above.append(upper)
    if any(spot.is_writer() for spot in spots):
        spots.append(Spot("layer 2: writer", max(row for row, (layer, _) in enumerate(ranks) if layer == 2)))
    rows = [[spot for spot in spots if spot.row == row] for row in range(len(ranks))]
    return [layer for layer, _ in ranks], rows, arrows


# ---- the order in the rows; here `x` counts from the middle of a row

def number(row):
    for i, spot in enumerate(row):
        spot.x = i - len(row) / 2


def mean(spots, otherwise):
    return sum(spot.x for spot in spots) / len(spots) if spots else otherwise


# How often the arrows of two spots of a row cross, with the first on the left
def crossings(a, b):
    return sum(p.x > q.x for p in a.above for q in b.above) + sum(p.x > q.x for p in a.below for q in b.below)


def swap(row):
    """Swaps neighbours whose arrows cross less the other way round; whether there were any."""
    swapped = False
    for i in range(1, len(row)):
        a, b = row[i - 1:i + 1]
        if crossings(b, a) < crossings(a, b) and not (a.text and b.is_writer()):
            row[i - 1:i + 1] = b, a
            number(row)
            swapped = True
    return swapped


def put_in_order(rows):
    """Each row by the mean place of what its spots are joined to, above and below in turn; the best of these orders."""
    orders = []
    for row in rows:
        number(row)
    for turn in range(60):
        for row in rows if turn % 2 else rows[::-1]:
            row.sort(key=lambda spot: (spot.is_writer(), mean(spot.below if turn % 2 else spot.above, spot.x)))
            number(row)
        while any([swap(row) for row in rows]):
            pass
        count = sum(crossings(a, b) for row in rows for i, a in enumerate(row) for b in row[i + 1:])
        orders.append((count, turn, [list(row) for row in rows]))
    rows[:] = min(orders)[2]


# ---- the places in the rows

def apart(a, b):
    return a.half() + b.half() + (16 if a.text or b.text else 6)


def settle(row, wanted):
    """Moves the spots of a row as near as can be to where they are wanted, in their order and within their bounds."""
    offsets = [*accumulate((apart(a, b) for a, b in pairwise(row)), initial=0)]
    groups = []  # of spots that touch: the sum of their places by weight, that of their weights, their number
    for place, spot, offset in zip(wanted, row, offsets):
        weight = 1 if spot.text else 8
        groups.append((weight * (place - offset), weight, 1))
        while len(groups) > 1 and groups[-2][0] / groups[-2][1] > groups[-1][0] / groups[-1][1]:
            groups[-2:] = [tuple(map(sum, zip(*groups[-2:])))]
    places = [total / weight for total, weight, size in groups for _ in range(size)]
    for i, spot in enumerate(row):
        least = row[i - 1].x + apart(row[i - 1], spot) if i else 0
        spot.x = max(places[i] + offsets[i], spot.bounds()[0], least)
    for spot, behind in zip(row[::-1], [None, *row[::-1]]):
        spot.x = min(spot.x, spot.bounds()[1], behind.x - apart(spot, behind) if behind else WIDTH)


# Where an arrow would go straight down: by its mean place, and by that of its spots which is farthest from there
def upright(arrow):
    middle = mean(arrow, 0)
    return 0.4 * middle + 0.6 * max((spot.x for spot in arrow[1:-1]), key=lambda x: abs(x - middle))


def put_in_place(rows, arrows):
    """Boxes near what they are joined to, arrows straight where they pass rows."""
    passing = {spot: arrow for arrow in arrows for spot in arrow[1:-1]}
    for row in rows:
        for i, spot in enumerate(row):
            spot.x = LEFT + (RIGHT - LEFT) * (i + 0.5) / len(row)
    for turn in range(300):
        for row in rows if turn % 2 else rows[::-1]:
            settle(row, [upright(passing[spot]) if spot in passing else mean(spot.above + spot.below, spot.x)
                         for spot in row])


# ---- the drawing

def words(kind, x, y, text):
    return f'  <text class="{kind}" x="{x:.1f}" y="{y}">{text}</text>'


def band(x, y, width, height, layer):
    return (f'  <rect class="band" x="{x:.1f}" y="{y}" width="{width:.1f}" height="{height}" rx="8" '
            f'fill="{FILLS[layer]}"/>')


# A box, or the writer's title
def drawn(spot, y):
    left, width = spot.x - spot.half(), 2 * spot.half()
    if layer_of(spot.text) is None:
        return [words("h", left + 2, y - PAD + 24, spot.text)]
    return [f'  <rect class="box" x="{left:.1f}" y="{y}" width="{width:.1f}" height="{BOX}" rx="6"/>',
            words("t", spot.x, y + 18.5, spot.text)]


def bands(layers, tops):
    for layer in sorted(set(layers)):
        own = [top for top, other in zip(tops, layers) if other == layer]
        top, height = min(own) - PAD, max(own) - min(own) + BOX + 2 * PAD
        yield band(EDGE, top, (WRITER - 8 if layer == 2 else WIDTH - EDGE) - EDGE, height, layer)
        if layer == 2:
            yield band(WRITER, top, WIDTH - EDGE - WRITER, height, layer)
        yield from (words("h", EDGE + 10, top + 24 + 18 * i, line) for i, line in enumerate(TITLES[layer]))


# Where an arrow leaves its first box, or reaches its last: beside others, in the order in which they go on
def port(arrow, arrows, end, neighbour):
    beside = sorted((other for other in arrows if other[end] is arrow[end]), key=lambda other: other[neighbour].x)
    step = min(12, (2 * arrow[end].half() - 18) / len(beside))
    return arrow[end].x + (beside.index(arrow) - (len(beside) - 1) / 2) * step


# Curves between rows, and straight lines through them
def line(arrow, arrows, tops):
    points = [(port(arrow, arrows, 0, 1), tops[arrow[0].row] + BOX)]
    points += [(spot.x, tops[spot.row] + down) for spot in arrow[1:-1] for down in (0, BOX)]
    points += [(port(arrow, arrows, -1, -2), tops[arrow[-1].row] - 1)]
    way = "M{:.1f} {}".format(*points[0])
    for i, ((x, y), (u, v)) in enumerate(pairwise(points)):
        way += f" L{u:.1f} {v}" if i % 2 else f" C{x:.1f} {(y + v) / 2} {u:.1f} {(y + v) / 2} {u:.1f} {v}"
    return f'  <path class="use" d="{way}" marker-end="url(#tip)"/>'


# Boxes from left to right from here on, in as many rows as they need, and the place behind the last of the longest row
def laid(names, left):
    spots, row, right = [], 0, left + 10
    for spot in (Spot(name, 0) for name in names):
        if right + 2 * spot.half() > WIDTH - EDGE - 10:
            row, right = row + 1, left + 10
        spot.row, spot.x = row, right + spot.half()
        right = spot.x + spot.half() + 10
        spots.append(spot)
    return spots, max(spot.x + spot.half() for spot in spots) + 10


def programs(names):
    """Those for people and those for the gate, each in a band of its own; the height of both, and the drawing."""
    people, right = laid([name for name in names if not name.startswith("try_")], EDGE)
    right = max(right, EDGE + 170)
    gate, _ = laid([name for name in names if name.startswith("try_")], right + 8)
    height = 46 + BOX + (BOX + 8) * max(spot.row for spot in people + gate)
    parts = []
    for title, spots, left, end in [("programs for people", people, EDGE, right),
                                    ("programs for the gate (no arrows are drawn from programs)", gate, right + 8, WIDTH - EDGE)]:
        parts += [band(left, EDGE, end - left, height, PROGRAM), words("h", left + 10, EDGE + 22, title)]
        parts += [part for spot in spots for part in drawn(spot, EDGE + 34 + (BOX + 8) * spot.row)]
    return height, parts


def main():
    crates = {crate: uses for crate, uses in listed() if layer_of(crate) is not None}
    libraries = [crate for crate in crates if layer_of(crate) < PROGRAM]
    layers, rows, arrows = in_rows({crate: [one for one in crates[crate] if one in libraries] for crate in libraries})
    put_in_order(rows)
    put_in_place(rows, arrows)
    for row in rows:
        if any(spot.x < spot.bounds()[0] - 0.1 for spot in row):
            sys.exit("too many for one row: " + ", ".join(spot.text for spot in row if spot.text))
    steps = [BOX + (GAP if one == other else 2 * PAD + 8) for one, other in pairwise(layers)]
    above, drawn_programs = programs([crate for crate in crates if layer_of(crate) == PROGRAM])
    tops = [*accumulate(steps[::-1], initial=EDGE + above + 8 + PAD)][::-1]
    height = tops[0] + BOX + PAD + 40
    parts = [HEAD.replace("WIDTH", str(WIDTH)).replace("HEIGHT", str(height))]
    parts += [*drawn_programs, *bands(layers, tops)]
    parts += [line(arrow, arrows, tops) for arrow in arrows]
    parts += [part for row in rows for spot in row if spot.text for part in drawn(spot, tops[spot.row])]
    parts += [words("s", EDGE + 10, height - 16, NOTE), "</svg>", ""]
    (ROOT / "docs" / "layers.svg").write_text("\n".join(parts), encoding="utf-8")
    print(f"docs/layers.svg: {len(crates)} crates and {len(arrows)} arrows")


if __name__ == "__main__":
    main()
