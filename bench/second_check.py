#!/usr/bin/env python3
"""Checks a certificate, or a game, once more: by docs/FORMATS.md and the Laws in Python, with nothing of the program.

second_check.py < CERTIFICATE            what `check` answers, with its status
second_check.py --game < FEN-AND-MOVES   what `play` answers of a game from the whole array

Retractions are found by trying: each way in which a man may have come to his square is played forward by chess_rules.py. Balances of
captures go by fuzz_rules.py, and sketches by fuzz_sketches.py.
"""
import dataclasses
import re
import sys

from chess_rules import ASLANT, CASTLINGS, LEAPS, STRAIGHT, Position, name, step
from fuzz_rules import Prices, Query, array, balances, behind, entries, is_exposed, is_settled, men_of, other, region, side_of
from fuzz_sketches import predecessor, sketch_fault
from fuzz_texts import MOVE, prices_of, read_nodes, square_of, squares_of

ALLOWED = {"P": 8, "N": 2, "R": 2, "Q": 1}
CLAIM = re.compile(rf"claim (illegal|last {MOVE}[nbrq]?|lost [KQkq]|ep {MOVE})")
RANK = r"(?:[PNBRQKpnbrqk]|[1-8](?![1-8]))+"
FEN = re.compile(rf"fen ({RANK}(?:/{RANK}){{7}}) ([wb]) (-|(?=[KQkq])K?Q?k?q?) (-|[a-h][36])")
MAY_LACK = frozenset(s for s in range(64) if s // 8 in (0, 1, 6, 7)) - {4, 60}


class Refused(Exception):
    """A line and what is wrong with it."""


@dataclasses.dataclass
class Asked(Query):
    # The side to move; the double step that must have been the last move, and the move that must not; and the clock that is demanded.
    turn: str = "w"
    only: str | None = None
    barred: str | None = None
    clock: int | None = None

    def mover(self):
        return other(self.turn)

    def position(self, crossed=None):
        """The side that moved is to move, with every castling whose king and rook stand at home."""
        board = [man or "." for man in self.board]
        rights = "".join(right for right in "KQkq" if is_at_home(self.board, right))
        return Position(board, self.mover() == "w", rights, crossed)

    def men(self, side):
        return [man.upper() for man in self.board if man and side_of(man) == side]

    def attacks(self, side, s):
        return Position([man or "." for man in self.board]).is_attacked(s, side == "w")


def is_at_home(board, right):
    king, rook = CASTLINGS[right][:2]
    return board[king] == ("K" if right.isupper() else "k") and board[rook] == ("R" if right.isupper() else "r")


def double_over(target, side):
    """The double step of the other side that a capture by this side on the target answers."""
    ahead = 8 if side == "w" else -8
    return name(target + ahead) + name(target - ahead)


# Which retractions a query has.


def kind_of(man, s):
    """The kind of a man as it counts among the officers of the array: bishops of dark and of light squares are two kinds."""
    return man.upper() + str((s // 8 + s % 8) % 2) if man in "Bb" else man.upper()


def counted(board, side, homes):
    """The pawns of a side, and its officers above those that can be the array's, of whom `homes` says how many of each kind there are."""
    number = {}
    for s in range(64):
        if board[s] and side_of(board[s]) == side and board[s].upper() != "K":
            kind = kind_of(board[s], s)
            number[kind] = number.get(kind, 0) + 1
    return number.pop("P", 0) + sum(max(0, many - homes.get(kind, 0)) for kind, many in number.items())


def officers(first, side, squares=range(64)):
    """How many officers of each kind the array has on these squares."""
    homes = {}
    for s in squares:
        if first[s] and side_of(first[s]) == side and first[s].upper() not in "PK":
            kind = kind_of(first[s], s)
            homes[kind] = homes.get(kind, 0) + 1
    return homes


def pawns(board, side):
    return [s for s in range(64) if board[s] == ("P" if side == "w" else "p")]


def is_sane(query):
    """What is so of the board of each game, with the side that isn't to move out of check."""
    first = array(query.odds)
    if any(query.men(side).count("K") != 1 for side in "wb") or any(man in ("P", "p") for man in query.board[:8] + query.board[56:]):
        return False
    king = query.board.index("k" if query.turn == "w" else "K")
    if query.attacks(query.turn, king):
        return False
    return all(counted(query.board, side, officers(first, side)) <= len(pawns(first, side)) for side in "wb")


def origins(query, b):
    """Where the man on b may have come from, with what he was promoted to."""
    board, side, man = query.board, query.mover(), query.board[b].lower()
    back = -1 if side == "w" else 1
    if man == "p":
        yield from ((s, "") for across, ranks in ((0, back), (0, 2 * back), (-1, back), (1, back)) if (s := step(b, across, ranks)) is not None)
        return
    if man != "k" and b // 8 == (7 if side == "w" else 0):
        yield from ((s, man) for across in (0, -1, 1) if (s := step(b, across, back)) is not None)
    ways = LEAPS if man == "n" else ((ASLANT if man != "r" else ()) + (STRAIGHT if man != "b" else ()))
    for way in ways:
        s = step(b, *way)
        while s is not None and board[s] is None:
            yield s, ""
            s = step(s, *way) if man not in "nk" else None
    if man == "k" and b in (2, 6, 58, 62):
        yield (4 if b < 8 else 60), ""


def is_retraction(query, a, b, promoted, taken):
    """Whether the move can have been the last, but for the clock."""
    board, side = query.board, query.mover()
    label = name(a) + name(b) + promoted + taken
    if board[a] is not None or any({a, b} & set(CASTLINGS[right][:2]) for right in query.rights):
        return False
    if query.only not in (None, name(a) + name(b) + promoted) or query.only and board[b] not in ("P", "p") or query.barred == name(a) + name(b) + promoted:
        return False
    before = dataclasses.replace(query, board=predecessor(query, label).board, turn=side)
    if taken == "ep" and (b // 8 != (5 if side == "w" else 2) or a % 8 == b % 8 or before.board[square_of(double_over(b, side))] is not None):
        return False
    if not is_sane(before):
        return False
    played = dataclasses.replace(before, turn=query.turn).position(b if taken == "ep" else None)
    move = played.named(name(a) + name(b) + promoted)
    return move is not None and move.retraction() == label and [man if man != "." else None for man in played.after(move).board] == board


def obeys_clock(query, b, promoted, taken):
    resets = query.board[b] in ("P", "p") or promoted or taken
    return query.clock is None or bool(resets) == (query.clock == 0)


def order(label):
    """By target, origin, promotion, captured man."""
    a, b, rest = square_of(label), square_of(label[2:]), label[4:]
    promoted = rest[:1] if rest[:1] in ("n", "b", "r", "q") else ""
    return b, a, " nbrq".index(promoted or " "), ("", "xp", "xn", "xb", "xr", "xq", "ep").index(rest[len(promoted) :])


def retractions(query):
    found = []
    for b in range(64):
        if query.board[b] and side_of(query.board[b]) == query.mover():
            for a, promoted in set(origins(query, b)):
                for taken in ("", "xp", "xn", "xb", "xr", "xq", "ep"):
                    if obeys_clock(query, b, promoted, taken) and is_retraction(query, a, b, promoted, taken):
                        found.append(name(a) + name(b) + promoted + taken)
    return sorted(found, key=order)


def step_back(query, label):
    """The query that a game must reach before the move of a retraction."""
    before = predecessor(query, label)
    only = double_over(square_of(label[2:]), query.mover()) if label.endswith("ep") else None
    clock = query.clock - 1 if query.clock else None
    return Asked(before.board, before.rights, query.odds, query.mover(), only, None, clock)


# When a node is supported.


def is_frozen(query, frozen):
    homes = {home for right in query.rights for home in CASTLINGS[right][:2]}
    return all(query.board[s] and (s in homes or frozen.issuperset(entries(query.board[s], s))) for s in frozen)


def living_homes(query, first, side, frozen):
    """The homes of a side's officers that aren't dead, and how many are dead and shielded."""
    alive, lost = [], 0
    for home in range(64):
        if not first[home] or side_of(first[home]) != side or first[home].upper() in "PK":
            continue
        reach = region(frozen, first[home].lower(), home)
        if any(query.board[s] == first[home] for s in reach):
            alive.append(home)
        elif not any(is_exposed(frozen, side, s) for s in reach):
            lost += 1
    return alive, lost


def captures_from(file, s, side, first):
    """How many captures the pawn on s needs from a file, or 64."""
    ranks = (s // 8 if side == "w" else 7 - s // 8) - 1
    away = abs(s % 8 - file)
    return away if first[file + (8 if side == "w" else 48)] and ranks >= away else 64


def caps(query, side, frozen, words):
    first, at = array(query.odds), words.index("/")
    ours, files = list(map(int, words[:at])), list(map(int, words[at + 1 :]))
    own = pawns(query.board, side)
    if not is_settled(query, frozen) or len(own) != len(ours) or any(number > 0 for number in files):
        return False
    if any(u + v > captures_from(file, s, side, first) for s, u in zip(own, ours) for file, v in enumerate(files)):
        return False
    began = sum(1 for man in first if man and side_of(man) != side)
    return sum(ours) + sum(files) > began - len(query.men(other(side))) - living_homes(query, first, other(side), frozen)[1]


def supports(query, words):
    """Whether a rule line supports the query."""
    rule, *rest = words
    first = array(query.odds)
    if rule == "kings":
        return any(query.men(side).count("K") != 1 for side in "wb")
    if rule == "ranks":
        return any(man in ("P", "p") for man in query.board[:8] + query.board[56:])
    if rule == "check":
        king = "k" if query.turn == "w" else "K"
        return any(query.board[s] == king and query.attacks(query.turn, s) for s in range(64))
    if rule == "rights":
        return any(not is_at_home(query.board, right) or CASTLINGS[right][1] in query.odds for right in query.rights)
    if rule == "count":
        return counted(query.board, rest[0], officers(first, rest[0])) > len(pawns(first, rest[0]))
    if rule == "frozen":
        frozen = squares_of(rest[0])
        return is_frozen(query, frozen) and any(query.board[s] != first[s] for s in frozen)
    if rule == "promo":
        side, frozen = rest[0], squares_of(rest[1])
        homes = officers(first, side, living_homes(query, first, side, frozen)[0])
        return is_settled(query, frozen) and counted(query.board, side, homes) > len(pawns(first, side))
    if rule == "caps":
        return caps(query, rest[0], squares_of(rest[1]), rest[2:])
    white, black, gates = prices_of(rest[1:])
    return balances(query, squares_of(rest[0]), Prices({"w": white, "b": black}, gates))


def covers(above, query):
    same = (above.board, above.turn, above.odds) == (query.board, query.turn, query.odds)
    demands = ((above.only, query.only), (above.barred, query.barred), (above.clock, query.clock))
    return same and set(above.rights) <= set(query.rights) and all(ours in (None, theirs) for ours, theirs in demands)


def is_array(query):
    """The game of no moves reaches the query."""
    held = any(CASTLINGS[right][1] in query.odds for right in query.rights)
    return query.board == array(query.odds) and query.turn == "w" and query.only is None and not held and not query.clock


# The walk.


def visit(nodes, at, query, above):
    """Looks at a node and all below it; the place behind them."""
    node = nodes[at]
    body, *words = node.body.split(" ")
    if body == "rule" and not supports(query, words):
        raise Refused(node.line, "unsupported rule")
    if body == "sketch" and (fault := sketch_fault(query, node.sketch)):
        raise Refused(fault[0], f"unsupported {fault[1]}")
    if body == "back" and not covers(above[-int(words[0])], query):
        raise Refused(node.line, "unsupported back")
    if body != "expand":
        return at + 1
    if is_array(query):
        raise Refused(node.line, "unsupported array")
    left, following = retractions(query), at + 1
    for _ in range(int(words[0])):
        child = nodes[following]
        if not left or order(child.label) < order(left[0]):
            raise Refused(child.line, "unsupported stray")
        if child.label != left[0]:
            raise Refused(child.line, f"unlisted {left[0]}")
        following = visit(nodes, following, step_back(query, left.pop(0)), [*above, query])
    if left:
        raise Refused(node.line, f"unlisted {left[0]}")
    return following


def ep_fits(query, a, b):
    side, ahead = query.turn, 8 if query.turn == "w" else -8
    pawn, enemy = ("P", "p") if side == "w" else ("p", "P")
    board = query.board
    if query.board[a] != pawn or a // 8 != (4 if side == "w" else 3) or abs(a % 8 - b % 8) != 1 or b // 8 - a // 8 != ahead // 8:
        return False
    if board[b] or board[b - ahead] != enemy or board[b + ahead]:
        return False
    after = list(board)
    after[a], after[b - ahead], after[b] = None, None, pawn
    played = dataclasses.replace(query, board=after)
    king = "K" if side == "w" else "k"
    return not any(after[s] == king and played.attacks(other(side), s) for s in range(64))


def target(query, claim):
    """The query that a game reaches if and only if it contradicts the claim."""
    kind, _, said = claim.partition(" ")
    if kind == "lost":
        return dataclasses.replace(query, rights="".join(right for right in "KQkq" if right in query.rights + said))
    if kind == "last":
        return dataclasses.replace(query, barred=said)
    if kind == "ep" and ep_fits(query, square_of(said), square_of(said[2:])):
        return dataclasses.replace(query, barred=double_over(square_of(said[2:]), query.turn))
    return query


def query_of(fen, odds=frozenset(), clock=None):
    """The query of four fields of FEN; None if they aren't FEN."""
    fields = FEN.fullmatch(f"fen {fen}")
    if not fields or any(len(men_of(rank)) != 8 for rank in fields[1].split("/")):
        return None
    turn, crossed = fields[2], fields[4]
    if crossed != "-" and crossed[1] != ("6" if turn == "w" else "3"):
        return None
    only = None if crossed == "-" else double_over(square_of(crossed), turn)
    return Asked(men_of(fields[1]), fields[3].replace("-", ""), odds, turn, only, None, clock)


def read_head(text):
    """The claim, the query, the number of the root's line, and what `accepted` says of the head."""
    lines = text.split("\n")[:-1]
    due = iter(range(1, 6))

    def line(is_good, needed=True):
        number = next(due)
        if number > len(lines) or not is_good(lines[number - 1]):
            if needed:
                raise Refused(number, "text")
        return lines[number - 1]

    form = line(lambda words: words in ("retro 1", "retro 2"))
    claim = line(CLAIM.fullmatch).removeprefix("claim ")
    at, odds, clock, behind_fen = 2, frozenset(), None, ""
    is_odds = lambda words: re.fullmatch(r"odds [0-9a-f]{16}", words) and squares_of(words[5:]) and squares_of(words[5:]) <= MAY_LACK
    is_clock = lambda words: re.fullmatch(r"clock (?:0|[1-9]\d{0,3})", words)
    if form == "retro 2":
        for is_good in (is_odds, is_clock):
            if len(lines) > at and is_good(lines[at]):
                word, said = lines[at].split(" ")
                odds, clock = (squares_of(said), clock) if word == "odds" else (odds, int(said))
                behind_fen += f" {word} {said}"
                at += 1
        if at == 2:
            raise Refused(3, "text")
    fen = lines[at].removeprefix("fen ") if len(lines) > at and lines[at].startswith("fen ") else ""
    query = query_of(fen, odds, clock)
    if query is None:
        raise Refused(at + 1, "text")
    return claim, query, at + 2, f"accepted {claim} {fen}{behind_fen}"


def checked(text):
    """The answer to a certificate, and its status."""
    try:
        claim, query, root, accepted = read_head(text)
        nodes, bad = read_nodes(text, root)
        if bad:
            raise Refused(bad, "text")
        visit(nodes, 0, target(query, claim), [])
    except Refused as fault:
        return f"refused line {fault.args[0]} {fault.args[1]}", 1
    return accepted, 0


def played(text):
    """The answer to a diagram and the moves of a game, and its status."""
    fen, _, words = text.partition("\n")
    fen, game = " ".join(fen.split(" ")[:4]), words.split()
    if query_of(fen) is None:
        return "bad fen", 6
    done = Position.replayed(game)
    if done is None:
        return f"refused ply {next(n for n in range(1, len(game) + 1) if Position.replayed(game[:n]) is None)}", 1
    return ("legal", 0) if done[0].meets(fen) else ("refused end", 1)


def main():
    words = sys.argv[1:]
    if words not in ([], ["--game"]):
        sys.exit(__doc__)
    sys.setrecursionlimit(10_000)
    text = sys.stdin.buffer.read().decode("latin-1")
    answer, status = played(text) if words else checked(text)
    print(answer)
    sys.exit(status)


if __name__ == "__main__":
    main()
