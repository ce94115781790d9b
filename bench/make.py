#!/usr/bin/env python3
"""Makes campaign files to measure: four classes of boards, of 8, 16, 32 and 64 rows over the full six weeks.

    make.py DIRECTORY      writes CLASS-ROWS.campaign files and longest.campaign, the same bytes each time

loose     few channels asked for, wide windows: nothing moves
tight     hidden start times fill the channels, and every window has a little room around them: rules narrow for some rounds
overfull  windows about one interval, whose least use is one channel-slot more than the interval has; only S can tell
slow      two long rows take all channels that immovable rows leave, and each has room on one side only of a small booking:
          S takes one slot a round off one window
"""

import os
import random
import sys

SLOTS = 4032
SIZES = (8, 16, 32, 64)


def number(n):
    """Groups of seven bits, lowest first; the top bit says that another follows."""
    groups = bytearray()
    while n > 127:
        groups.append(n & 127 | 128)
        n >>= 7
    groups.append(n)
    return bytes(groups)


def text(content):
    return number(len(content)) + content


def test(place, row, label=b""):
    """A record of a row (release, deadline, duration, demand); its place gives it a pair of its own."""
    profile, bearer = divmod(place, 11)
    return b"".join(map(number, (1, profile, 5 + bearer, *row))) + text(label)


def campaign(capacity, rows):
    records = b"".join(test(place, row) for place, row in enumerate(rows))
    return number(capacity) + number(len(rows)) + records


def loose(count, draw):
    capacity = 4000
    rows = []
    for _ in range(count):
        duration = draw.randint(40, 400)
        release = draw.randint(0, SLOTS // 3)
        deadline = draw.randint(SLOTS * 2 // 3, SLOTS)
        rows.append((release, deadline, duration, draw.randint(1, capacity // 100)))
    return capacity, rows


def tight(count, draw):
    """Rows side by side in lanes that share the channels; each window is its row's place with some room on either side."""
    lanes = max(2, count // 8)
    capacity = 240 * lanes
    rows = []
    for lane in range(lanes):
        in_lane = count // lanes
        cuts = sorted(draw.sample(range(1, 64), in_lane - 1))
        cuts = [0] + [cut * (SLOTS // 64) for cut in cuts] + [SLOTS]
        for start, end in zip(cuts, cuts[1:]):
            room = (end - start) * draw.randint(5, 60) // 100
            release = max(0, start - draw.randint(0, room))
            deadline = min(SLOTS, end + draw.randint(0, room))
            rows.append((release, deadline, end - start, 240 - draw.randint(0, 3)))
    draw.shuffle(rows)
    return capacity, rows


def overfull(count, draw):
    """Windows that lie in the middle weeks, and, for every fourth row, one that sticks out of them by as much on both sides."""
    t1, t2 = SLOTS // 4, SLOTS * 3 // 4
    length = t2 - t1
    capacity = 16 * count
    want = capacity * length + 1
    rows = []
    for left in range(count - 1, -1, -1):
        # The least use of a row is its demand times what its duration has over the part that sticks out, and no slot is used
        # for certain. The last row takes the rest, one channel wide.
        held = length // 2 - draw.randint(0, 40) if left else want
        demand = (want - 1) // (held * left) if left else 1
        out = draw.randint(1, SLOTS // 4) if left % 4 == 0 else 0
        rows.append((t1 - out, t2 + out, held + out, demand))
        want -= demand * held
    draw.shuffle(rows)
    return capacity, rows


def slow(count, draw):
    """Three rows, and immovable rows that together use the same channels in every slot, so that they leave the three as they were.

    The three are those of most rounds in a random search among a few long rows and small bookings.
    """
    scale, layer = 100, 40
    core = [(168, 3807, 1220, 6 * scale), (28, 3784, 1260, 6 * scale), (1350, 1362, 3, 2 * scale)]
    layers = 1 if count < 32 else 4
    rows = list(core)
    for n in range(layers):
        pieces = (count - len(core)) * (n + 1) // layers - (count - len(core)) * n // layers
        cuts = [0] + sorted(draw.sample(range(1, SLOTS), pieces - 1)) + [SLOTS]
        rows += [(start, end, end - start, layer) for start, end in zip(cuts, cuts[1:])]
    return 6 * scale + layers * layer, rows


def longest():
    """As many bytes as a file that loads may have: 64 tests and 64 notes with the longest texts, all numbers in three groups."""

    def wide(n):
        return bytes((n & 127 | 128, n >> 7 & 127 | 128, n >> 14))

    draw = random.Random(64)
    capacity, rows = tight(64, draw)
    out = wide(capacity) + wide(128)
    for place, row in enumerate(rows):
        profile, bearer = divmod(place, 11)
        out += b"".join(map(wide, (1, profile, 5 + bearer, *row))) + wide(200) + b"x" * 200
        out += wide(0) + wide(200) + b"y" * 200
    return out


def main():
    folder = sys.argv[1]
    os.makedirs(folder, exist_ok=True)
    for make in (loose, tight, overfull, slow):
        for count in SIZES:
            capacity, rows = make(count, random.Random(count))
            assert len(rows) == count
            assert all(r + p <= d <= SLOTS and 1 <= c <= capacity for r, d, p, c in rows), (make.__name__, count)
            with open(os.path.join(folder, f"{make.__name__}-{count}.campaign"), "wb") as file:
                file.write(campaign(capacity, rows))
    with open(os.path.join(folder, "longest.campaign"), "wb") as file:
        file.write(longest())


if __name__ == "__main__":
    main()
