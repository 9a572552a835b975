"""Makes large lawful cases whose plans are accepted.

Every plan waits until the tick clock has passed a unit, and some waits are longer, so each round that we carry out
ticks; all priorities are even. No odd colour comes up, and all ranks are 0.

usage: generate.py FOLDER      writes one .case file per family
"""
import os
import sys
from collections import deque

import model

FREE = (0, False, None, True)


def written(bounds):
    low, low_open, high, high_open = bounds
    upper = "-" if high is None else str(high)
    return ("(" if low_open else "[") + f"{low},{upper}" + (")" if high_open else "]")


def steps_from(game, region, extra):
    """The steps to the first region that ticks, and at most `extra` steps more."""
    steps = 0
    while region[-1][0] < 1:
        region, steps = game.next(region), steps + 1
    while extra > 0 and game.next(region) is not None:
        region, steps, extra = game.next(region), steps + 1, extra - 1
    return steps


def closure(game, extra, limit):
    """The rows that the plan can come to, in the order in which they are met; None if they are more than the limit."""
    start = game.start()
    first = (start, game.priority(start))
    rows, queue = {first: None}, deque([first])
    while queue:
        position, latch = place = queue.popleft()
        rows[place] = move = (steps_from(game, position[1], extra), None)
        for outcome in game.outcomes(position, move):
            _, after = model.coloured(game, latch, outcome)
            to = (outcome[0], after)
            if to not in rows:
                if len(rows) == limit:
                    return None
                rows[to] = None
                queue.append(to)
    return rows


def text(game, rows):
    lines = [["clock", c] for c in game.ceilings[:-1]]
    lines += [["loc", p] + [written(b) for b in zone] for p, zone in game.locations]
    for us, source, to, resets, guard in game.edges:
        letters = "".join("r" if r else "k" for r in resets) or "-"
        lines.append(["edge", "us" if us else "them", source, to, letters] + [written(b) for b in guard])
    for ((location, region), latch), (steps, edge) in rows.items():
        parts = [n for part in region for n in part]
        lines.append(["row", location, latch] + parts + [steps, "-" if edge is None else edge, 0, 0, 0, 0])
    return "".join("\t".join(map(str, line)) + "\n" for line in lines)


def game_of(ceilings, locations, edges, resetting):
    """So many locations in a ring; from each, so many edges of theirs to the next ones, the first few resetting the first clock."""
    free = [FREE] * len(ceilings)
    out = []
    for source in range(locations):
        for e in range(edges):
            resets = [i == 0 and e < resetting for i in range(len(ceilings))]
            out.append((False, source, (source + 1 + e) % locations, resets, free))
    return model.Game({"clock": list(ceilings), "loc": [(2 * (i % 3), free) for i in range(locations)], "edge": out})


# name: ceilings, locations, edges per location, how many of them reset, extra steps
FAMILIES = {
    "rows-94": ((15,), 1, 1, 1, 0),
    "rows-190": ((15,), 2, 1, 1, 0),
    "rows-386": ((15,), 4, 1, 1, 0),
    "rows-962": ((15,), 10, 1, 1, 0),
    "rows-966": ((7,), 10, 6, 1, 8),
    "rows-968": ((15, 15, 15), 5, 12, 0, 92),
    "rows-846": ((15,), 4, 16, 1, 20),
}


def write(folder):
    """Writes each family's case into the folder, and gives the names one by one."""
    os.makedirs(folder, exist_ok=True)
    for name, (ceilings, locations, edges, resetting, extra) in FAMILIES.items():
        game = game_of(ceilings, locations, edges, resetting)
        rows = closure(game, extra, 1024)
        with open(os.path.join(folder, name + ".case"), "w") as out:
            out.write(text(game, rows))
        yield name


def main():
    for name in write(sys.argv[1]):
        print(name)


if __name__ == "__main__":
    main()
