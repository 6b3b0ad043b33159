"""Decides by itself, for fuzz.py, whether the reason `balance` supports the query of a root. docs/FORMATS.md has the rule."""
import functools
from dataclasses import dataclass

from fuzz_texts import squares_of

NEVER = 5000
OFFICERS = "nbrq"
BACK_RANK = "RNBQKBNR"
CASTLINGS = {"K": (4, 7), "Q": (4, 0), "k": (60, 63), "q": (60, 56)}
STEPS = {
    "n": [(1, 2), (2, 1), (2, -1), (1, -2), (-1, -2), (-2, -1), (-2, 1), (-1, 2)],
    "b": [(1, 1), (1, -1), (-1, -1), (-1, 1)],
    "r": [(1, 0), (0, 1), (-1, 0), (0, -1)],
}
STEPS["q"] = STEPS["k"] = STEPS["b"] + STEPS["r"]


@dataclass
class Query:
    # 64 men, from a1 on, None for an empty square; the rights that are held, and the squares whose men are left out.
    board: list
    rights: str
    odds: frozenset


@dataclass
class Prices:
    # By side, "w" and "b": sixteen prices. By square: the gates.
    takes: dict
    gates: dict

    def take(self, side, s):
        return self.takes[side][2 * (s % 8) + (s % 8 + s // 8) % 2]


def men_of(placement):
    """64 men, from a1 on, None for an empty square."""
    men = []
    for rank in reversed(placement.split("/")):
        for letter in rank:
            men += [None] * int(letter) if letter.isdigit() else [letter]
    return men


def root_query(text):
    """What the root of a certificate with a good head is about."""
    _, claim, *lines = text.split("\n")
    at = next(at for at, line in enumerate(lines) if line.startswith("fen "))
    placement, _, rights, _ = lines[at][4:].split(" ")
    lost = claim[-1] if claim.startswith("claim lost ") else ""
    odds = next((squares_of(line[5:]) for line in lines[:at] if line.startswith("odds ")), frozenset())
    return Query(men_of(placement), "".join(letter for letter in "KQkq" if letter in rights + lost), odds)


def side_of(man):
    return "w" if man.isupper() else "b"


def other(side):
    return "b" if side == "w" else "w"


def last_rank(side):
    return 7 if side == "w" else 0


def array(odds):
    men = list(BACK_RANK) + ["P"] * 8 + [None] * 32 + ["p"] * 8 + list(BACK_RANK.lower())
    return [None if s in odds else man for s, man in enumerate(men)]


def beside(s, steps):
    """The squares of the board that lie so many files and ranks from s."""
    return [8 * (s // 8 + up) + s % 8 + across for across, up in steps if 0 <= s % 8 + across < 8 and 0 <= s // 8 + up < 8]


@functools.cache
def next_to(kind, s):
    """The squares next to s, or a leap away, as an officer or a king goes."""
    return beside(s, STEPS[kind])


@functools.cache
def behind(side, s, across=(-1, 0, 1)):
    return beside(s, [(file, -1 if side == "w" else 1) for file in across])


def entries(man, s):
    """The squares by which the man may have come to s."""
    side, kind = side_of(man), man.lower()
    from_home = s // 8 if side == "w" else 7 - s // 8
    if kind == "p":
        return behind(side, s) if 2 <= from_home <= 6 else []
    promoted = behind(side, s) if kind != "k" and s // 8 == last_rank(side) else []
    return next_to(kind, s) + promoted


def is_settled(query, frozen):
    """The set is frozen and as in the array."""
    homes = {home for right in query.rights for home in CASTLINGS[right]}
    first = array(query.odds)
    for s in frozen:
        man = query.board[s]
        if man is None or man != first[s] or not (s in homes or frozen.issuperset(entries(man, s))):
            return False
    return True


def region(frozen, kind, start):
    """The squares to which an officer of this kind can go from there."""
    found, due = {start}, [start]
    while due:
        for t in next_to(kind, due.pop()):
            if t not in frozen and t not in found:
                found.add(t)
                due.append(t)
    return found


def is_exposed(frozen, side, s):
    """A pawn of the other side may take a man of this one on s."""
    strikers = behind(other(side), s, (-1, 1))
    return s not in frozen and any(0 < u // 8 < 7 and u not in frozen for u in strikers)


class Costs:
    """What it costs that the men of a side stand or are gone."""

    def __init__(self, query, frozen, prices, side):
        self.query, self.frozen, self.prices, self.side = query, frozen, prices, side
        self.ways, self.region = functools.cache(self.ways), functools.cache(self.region)

    def region(self, kind, start):
        return region(self.frozen, kind, start)

    def earned(self, squares):
        return max((self.prices.take(other(self.side), s) for s in squares if is_exposed(self.frozen, self.side, s)), default=0)

    def ways(self, home):
        """For each square that a pawn comes to, what it pays at least without a capture, where it can, and with one or more."""
        found, rank = {home: (self.prices.gates.get(home, 0), NEVER)}, {home}
        while rank:
            ahead = set()
            for s in rank:
                straight, aside = found[s]
                for t in behind(other(self.side), s):
                    if t in self.frozen:
                        continue
                    old = found.get(t, (NEVER, NEVER))
                    if t % 8 == s % 8:
                        new = (straight + self.prices.gates.get(t, 0) if straight < NEVER else NEVER, aside)
                    else:
                        new = (NEVER, min(0 if straight < NEVER else NEVER, aside) + self.prices.take(self.side, t))
                    found[t] = tuple(map(min, old, new))
                    ahead.add(t)
            rank = ahead
        return found

    def stands(self, man, home, kind, s):
        if home in self.frozen or s in self.frozen:
            return 96 if home == s else NEVER
        if man != "p":
            return 96 if man == kind and (kind == "k" or s in self.region(kind, home)) else NEVER
        if kind == "p":
            return min(NEVER, 96 + min(self.ways(home)[s])) if s in self.ways(home) and s // 8 != last_rank(self.side) else NEVER
        if kind == "k":
            return NEVER
        ends = [min(tolls) for end, tolls in self.ways(home).items() if end // 8 == last_rank(self.side) and s in self.region(kind, end)]
        return min(NEVER, 96 + min(ends, default=NEVER))

    def gone(self, man, home):
        if home in self.frozen or man == "k":
            return NEVER
        if man != "p":
            return 96 - self.earned(self.region(man, home))
        costs = [NEVER]
        for s, (straight, aside) in self.ways(home).items():
            if s // 8 == last_rank(self.side):
                costs.append(96 + min(straight, aside) - self.earned(set().union(*(self.region(kind, s) for kind in OFFICERS))))
            else:
                costs.append(96 + min(0 if straight < NEVER else NEVER, aside) - self.earned([s]))
        return min(costs)

    def table(self):
        """A row for each man of the side and each that is missing, or None if there are more than there were in the array."""
        first = array(self.query.odds)
        homes = range(16) if self.side == "w" else range(48, 64)
        began = [h for h in homes if first[h]]
        men = [s for s in range(64) if self.query.board[s] and side_of(self.query.board[s]) == self.side]
        if len(men) > len(began):
            return None
        row = lambda cost: [min(NEVER, cost(first[h].lower(), h)) if first[h] else NEVER for h in homes]
        rows = [row(lambda man, h, s=s: self.stands(man, h, self.query.board[s].lower(), s)) for s in men]
        return rows + [row(self.gone)] * (len(began) - len(men))


def least_cost(table):
    """The least sum of the rows' costs with columns of their own: rows are added one by one, each by the cheapest chain of changes."""
    width = len(table[0]) if table else 0
    u, v, taken = [0] * len(table), [0] * width, [None] * width
    for i in range(len(table)):
        best, before, done, left, row, column = [10**9] * width, [None] * width, [], list(range(width)), i, None
        while row is not None:
            costs, own = table[row], u[row]
            for j in left:
                slack = costs[j] - own - v[j]
                if slack < best[j]:
                    best[j], before[j] = slack, column
            following = min(left, key=best.__getitem__)
            step = best[following]
            u[i] += step
            for j in done:
                u[taken[j]] += step
                v[j] -= step
            for j in left:
                best[j] -= step
            left.remove(following)
            done.append(following)
            column, row = following, taken[following]
        while column is not None:
            taken[column] = taken[before[column]] if before[column] is not None else i
            column = before[column]
    return sum(table[taken[j]][j] for j in range(width) if taken[j] is not None)


def balance_sums(query, frozen, prices):
    """What the men of both sides cost at least, and what they may cost; None if the set or the men don't fit."""
    if not is_settled(query, frozen):
        return None
    tables = [Costs(query, frozen, prices, side).table() for side in "wb"]
    if None in tables:
        return None
    return sum(map(least_cost, tables)), 96 * sum(map(len, tables)) + sum(prices.gates.values())


def balances(query, frozen, prices):
    sums = balance_sums(query, frozen, prices)
    return sums is not None and sums[0] > sums[1]
