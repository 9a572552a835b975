"""Compares the program with the model on random cases and on damaged ones.

usage: compare.py [COUNT [SEED]]      (default 2000 texts, seed 1; the program must be built)

Ends with 'N texts, 0 differ'; every text on which the two differ is kept in the folder `differing`.
"""
import os
import random
import subprocess
import sys

import generate
import model

PROGRAM = os.environ.get("PLANCHECK") or os.path.join(os.path.dirname(os.path.abspath(__file__)), "..", "target", "bin", "plancheck")
BYTES = b"\t\n\r 0123456789-+[](),rkusthemlocdgw\x00\xff"


def random_bounds(pick, ceiling):
    low = pick.randint(0, ceiling)
    if pick.random() < 0.6:
        return (low if pick.random() < 0.3 else 0, pick.random() < 0.2, None, True)
    high = pick.randint(low, ceiling)
    if high == low:
        return (low, False, high, False)
    return (low, pick.random() < 0.4, high, pick.random() < 0.4)


def random_game(pick):
    ceilings = [pick.choice((1, 1, 2, 3, 15)) for _ in range(pick.randint(0, 3))]
    count = pick.randint(1, 4)
    zone = lambda: [random_bounds(pick, c) for c in ceilings]
    locations = [(pick.randint(0, 5), zone()) for _ in range(count)]
    locations[0] = (locations[0][0], [(0, False, None, True) for _ in ceilings])
    edges = []
    for _ in range(pick.randint(0, 6)):
        resets = [pick.random() < 0.4 for _ in ceilings]
        edges.append((pick.random() < 0.5, pick.randrange(count), pick.randrange(count), resets, zone()))
    return model.Game({"clock": ceilings, "loc": locations, "edge": edges})


def random_move(pick, game, position):
    """A legal move, if one is found soon."""
    ours = [None] + [e for e, edge in enumerate(game.edges) if edge[0] and edge[1] == position[0]]
    for _ in range(20):
        move = (pick.choice((0, 1, 2, 2, 3, 4, 6)), pick.choice(ours))
        if game.legal(True, position, move):
            return move
    return (0, None)


def random_case(pick, limit=60):
    """A game and a plan that has a row for most of what can come up, with ranks that are often right."""
    game = random_game(pick)
    start = game.start()
    first = (start, game.priority(start))
    rows, queue = {first: None}, [first]
    while queue:
        position, latch = place = queue.pop()
        rows[place] = move = random_move(pick, game, position)
        for outcome in game.outcomes(position, move):
            to = (outcome[0], model.coloured(game, latch, outcome)[1])
            if to not in rows and len(rows) < limit:
                rows[to] = None
                queue.append(to)
    return generate.text(game, rows).encode()


def damaged(pick, text):
    """The text with a byte, a field or a line changed, left out, doubled or swapped."""
    lines = text.split(b"\n")
    how = pick.randrange(6)
    at = pick.randrange(len(lines))
    if how == 0 and text:
        i = pick.randrange(len(text))
        return text[:i] + bytes([pick.choice(BYTES)]) + text[i + pick.randint(0, 1) :]
    if how == 1:
        del lines[at]
    elif how == 2:
        lines.insert(at, pick.choice(lines))
    elif how == 3:
        other = pick.randrange(len(lines))
        lines[at], lines[other] = lines[other], lines[at]
    else:
        fields = lines[at].split(b"\t")
        i = pick.randrange(len(fields))
        fields[i] = pick.choice([b"0", b"1", b"2", b"5", b"6", b"16", b"65536", b"-", b"", b"[0,-)", b"[1,1]", b"(1,2)", b"us", b"r", b"01"])
        lines[at] = b"\t".join(fields if how == 4 else fields[:i])
    return b"\n".join(lines)


def main():
    count = int(sys.argv[1]) if len(sys.argv) > 1 else 2000
    pick = random.Random(int(sys.argv[2]) if len(sys.argv) > 2 else 1)
    differ, told = 0, {}
    for n in range(count):
        text = random_case(pick)
        for _ in range(pick.choice((0, 0, 1, 1, 2))):
            text = damaged(pick, text)
        expected = model.verdict(text)
        answer = subprocess.run([PROGRAM], input=text, capture_output=True).stdout.decode()
        word = " ".join(expected.split()[:2] if expected.startswith("r") else ["accepted"])
        told[word] = told.get(word, 0) + 1
        if answer != expected:
            differ += 1
            os.makedirs("differing", exist_ok=True)
            with open(f"differing/{n}.case", "wb") as out:
                out.write(text)
            print(f"text {n}: the program says {answer!r}, the model {expected!r}")
    print(", ".join(f"{word}: {times}" for word, times in sorted(told.items())))
    print(f"{count} texts, {differ} differ")
    sys.exit(differ > 0)


if __name__ == "__main__":
    main()
