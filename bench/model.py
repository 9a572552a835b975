"""A plain model of the rules in ../docs, to make cases with and to compare the program's answers against.

It is written for shortness, not for speed, and nothing about it is proved.
"""
import re

LIMITS = {"clock": 3, "loc": 32, "edge": 64, "row": 1024}
KINDS = list(LIMITS)


class Refused(Exception):
    """A refusal: number, place, detail."""


# The case text


def number(field, low, high):
    if not re.fullmatch(rb"0|[1-9][0-9]*", field):
        return None
    value = int(field)
    return value if low <= value <= high else None


def interval(field):
    found = re.fullmatch(rb"([\[(])([^,]*),([^,]*)([\])])", field, re.S)
    if not found:
        return None
    left, low, high, right = found.groups()
    low = number(low, 0, 15)
    if low is None:
        return None
    if high == b"-":
        return (low, left == b"(", None, True) if right == b")" else None
    high = number(high, 0, 15)
    return None if high is None else (low, left == b"(", high, right == b")")


def interval_fault(field, ceiling):
    bounds = interval(field)
    if bounds is None:
        return 3
    low, low_open, high, high_open = bounds
    if low > ceiling or (high is not None and high > ceiling):
        return 5
    if high is not None and (high < low or (high == low and (low_open or high_open))):
        return 5
    return 0


def in_range(low, high):
    return lambda field: 0 if number(field, low, high) is not None else 3


def edge_end(locations):
    def test(field):
        value = number(field, 0, 31)
        return 3 if value is None else 0 if value < locations else 6

    return test


def letters(clocks):
    pattern = rb"-" if clocks == 0 else rb"[rk]{%d}" % clocks
    return lambda field: 0 if re.fullmatch(pattern, field) else 3


def forms(kind, case):
    """The test of each field after the first: 0, or the number of the refusal."""
    ceilings = case["clock"]
    spans = [lambda f, c=c: interval_fault(f, c) for c in ceilings]
    if kind == "clock":
        return [in_range(1, 15)]
    if kind == "loc":
        return [in_range(0, 5)] + spans
    if kind == "edge":
        end = edge_end(len(case["loc"]))
        return [lambda f: 0 if f in (b"us", b"them") else 3, end, end, letters(len(ceilings))] + spans
    clocks = [in_range(0, 16), in_range(0, 4)] * (len(ceilings) + 1)
    edge = lambda f: 0 if f == b"-" or number(f, 0, 63) is not None else 3
    return [in_range(0, 31), in_range(0, 5)] + clocks + [in_range(0, 96), edge] + [in_range(0, 65535)] * 4


def read_line(case, kind, fields):
    if kind == "clock":
        return int(fields[1])
    if kind == "loc":
        return (int(fields[1]), [interval(f) for f in fields[2:]])
    n = len(case["clock"])
    if kind == "edge":
        resets = [c == ord("r") for c in fields[4]] if n else []
        return (fields[1] == b"us", int(fields[2]), int(fields[3]), resets, [interval(f) for f in fields[5:]])
    parts = [(int(fields[3 + 2 * i]), int(fields[4 + 2 * i])) for i in range(n + 1)]
    steps, edge = fields[5 + 2 * n], fields[6 + 2 * n]
    position = (int(fields[1]), tuple(parts))
    choice = (int(steps), None if edge == b"-" else int(edge))
    return (position, int(fields[2]), choice, [int(f) for f in fields[7 + 2 * n :]])


def read(text):
    if len(text) > 65536:
        raise Refused(4, 0, 0)
    case = {kind: [] for kind in KINDS}
    lines = text.split(b"\n")
    if lines[-1] == b"":
        lines.pop()
    for at, line in enumerate(lines, 1):
        fields = line.split(b"\t")
        if fields[0] not in (b"clock", b"loc", b"edge", b"row"):
            raise Refused(1, at, 1)
        kind = fields[0].decode()
        tests = forms(kind, case)
        if len(fields) != len(tests) + 1:
            raise Refused(2, at, min(len(fields), len(tests) + 1) + 1)
        later = any(case[k] for k in KINDS[KINDS.index(kind) + 1 :])
        late = 4 if later or len(case[kind]) >= LIMITS[kind] else 0
        faults = [late] + [test(field) for test, field in zip(tests, fields[1:])]
        least = min(((f, i) for i, f in enumerate(faults, 1) if f), default=None)
        if least:
            raise Refused(least[0], at, least[1])
        case[kind].append(read_line(case, kind, fields))
    game = Game(case)
    if not case["loc"] or not game.keeps(*game.start()):
        raise Refused(7, 0, 0)
    return game, case["row"]


# Timed games. A clock's part of a region is a pair (whole part, class).


class Game:
    def __init__(self, case):
        self.ceilings = case["clock"] + [1]
        self.locations = case["loc"]
        self.edges = case["edge"]

    def start(self):
        return (0, tuple((0, 0) for _ in self.ceilings))

    def next(self, region):
        resting = [i for i, (w, k) in enumerate(region) if w <= self.ceilings[i] and k == 0]
        if resting:
            rises = any(region[i][0] < self.ceilings[i] for i in resting)
            out = []
            for i, (w, k) in enumerate(region):
                if i in resting:
                    out.append((w, 1) if w < self.ceilings[i] else (w + 1, 0))
                else:
                    out.append((w, k + 1 if k and rises else k))
            return tuple(out)
        top = max(k for _, k in region)
        if top == 0:
            return None
        return tuple((w + 1, 0) if k == top else (w, k) for w, k in region)

    def wait(self, region, steps):
        for _ in range(steps):
            region = self.next(region)
            if region is None:
                return None
        return region

    @staticmethod
    def meets(bounds, part):
        low, low_open, high, high_open = bounds
        whole, cls = part
        here = (whole, 1 if cls else 0)
        if here < (low, 0) or (low_open and here == (low, 0)):
            return False
        return high is None or here < (high, 0) or (not high_open and here == (high, 0))

    def holds(self, zone, region):
        return all(self.meets(b, p) for b, p in zip(zone, region))

    def keeps(self, location, region):
        return location < len(self.locations) and self.holds(self.locations[location][1], region)

    def owns(self, position):
        location, region = position
        classes = {k for _, k in region if k}
        return (
            all(w <= c + 1 and (k == 0 or w < c) for (w, k), c in zip(region, self.ceilings))
            and classes == set(range(1, len(classes) + 1))
            and region[-1][0] == 0
            and self.keeps(location, region)
        )

    def priority(self, position):
        return self.locations[position[0]][0] if self.owns(position) else 0

    def carry(self, region, resets):
        """The region after resets, the tick clock's among them if it reached a unit, classes closed up."""
        resets = list(resets) + [region[-1][0] >= 1]
        region = [(0, 0) if r else p for p, r in zip(region, resets)]
        classes = sorted({k for _, k in region if k})
        return tuple((w, classes.index(k) + 1 if k else 0) for w, k in region)

    def after(self, location, region, edge):
        to, resets = location, [False] * (len(self.ceilings) - 1)
        if edge is not None:
            to, resets = self.edges[edge][2], self.edges[edge][3]
        return (to, self.carry(region, resets))

    def may_take(self, us, location, region, edge):
        if edge is None:
            return True
        if edge >= len(self.edges):
            return False
        side, source, _, _, guard = self.edges[edge]
        return side == us and source == location and self.holds(guard, region) and self.keeps(*self.after(location, region, edge))

    def legal(self, us, position, move):
        steps, edge = move
        if steps > 96 or not self.owns(position):
            return False
        region = self.wait(position[1], steps)
        return region is not None and self.keeps(position[0], region) and self.may_take(us, position[0], region, edge)

    def outcomes(self, position, move):
        """(position, ticked, by us) for each outcome of a legal move of ours."""
        location, region = position
        steps, edge = move
        end = self.wait(region, steps)
        yield self.after(location, end, edge), end[-1][0] >= 1, True
        for j in range(steps + 1):
            if j:
                region = self.next(region)
            yield self.after(location, region, None), region[-1][0] >= 1, False
            for e in range(len(self.edges)):
                if self.may_take(False, location, region, e):
                    yield self.after(location, region, e), region[-1][0] >= 1, False


# Colours and the check


def coloured(game, latch, outcome):
    """The colour of a round and the latch after it."""
    position, ticked, by_us = outcome
    priority = game.priority(position)
    return (latch + 2, priority) if ticked else (1 if by_us else 0, max(latch, priority))


def check(game, rows):
    index = {}
    for s, (position, latch, _, _) in enumerate(rows):
        if not game.owns(position) or not game.priority(position) <= latch <= 5:
            raise Refused(8, s, 0)
        if (position, latch) in index:
            raise Refused(9, s, 0)
        index[position, latch] = s
    if (game.start(), game.priority(game.start())) not in index:
        raise Refused(10, 0, 0)
    count = 0
    for s, (position, latch, move, ranks) in enumerate(rows):
        if not game.legal(True, position, move):
            raise Refused(11, s, 0)
        for i, outcome in enumerate(game.outcomes(position, move)):
            colour, after = coloured(game, latch, outcome)
            t = index.get((outcome[0], after))
            if t is None:
                raise Refused(12, s, i)
            for k, p in enumerate((1, 3, 5, 7)):
                to = rows[t][3][k]
                if p >= colour and not (ranks[k] > to if p == colour else ranks[k] >= to):
                    raise Refused(13, s, i)
            count += 1
    return len(rows), count


def verdict(text):
    """The line that the program writes."""
    try:
        return "accepted\t%d\t%d\n" % check(*read(text))
    except Refused as fault:
        return "refused\t%d\t%d\t%d\n" % fault.args
