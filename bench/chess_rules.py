"""The rules of play once more, in few lines of Python, for games that the program is tried on: a second reading of the Laws.

Squares are numbers from 0 for a1 and 1 for b1 to 63 for h8; a board is a list of 64 letters, White's large, and a dot for an empty square.
"""
import dataclasses

ARRAY = "rnbqkbnr/pppppppp/8/8/8/8/PPPPPPPP/RNBQKBNR"
STRAIGHT, ASLANT = ((1, 0), (-1, 0), (0, 1), (0, -1)), ((1, 1), (1, -1), (-1, 1), (-1, -1))
LEAPS = tuple((a, b) for a in (-2, -1, 1, 2) for b in (-2, -1, 1, 2) if abs(a) != abs(b))
LINES = {"b": ASLANT, "r": STRAIGHT, "q": STRAIGHT + ASLANT}
# The squares of the king and the rook of each castling, before and after.
CASTLINGS = {"K": (4, 7, 6, 5), "Q": (4, 0, 2, 3), "k": (60, 63, 62, 61), "q": (60, 56, 58, 59)}


def name(s):
    return "abcdefgh"[s % 8] + str(s // 8 + 1)


def place(text):
    """The square that a text begins with."""
    return "abcdefgh".index(text[0]) + 8 * (int(text[1]) - 1)


def step(s, files, ranks):
    """The square so many files and ranks away, or None off the board."""
    file, rank = s % 8 + files, s // 8 + ranks
    return 8 * rank + file if 0 <= file < 8 and 0 <= rank < 8 else None


def placed(placement):
    """The board of the first field of a FEN."""
    ranks = ["".join("." * int(c) if c.isdigit() else c for c in rank) for rank in placement.split("/")]
    return list("".join(reversed(ranks)))


@dataclasses.dataclass(frozen=True)
class Move:
    origin: int
    target: int
    promotion: str = ""
    # What it captures, a small letter, and whether en passant.
    captured: str = ""
    passing: bool = False

    def text(self):
        return name(self.origin) + name(self.target) + self.promotion

    def retraction(self):
        return self.text() + ("ep" if self.passing else "x" + self.captured if self.captured else "")


@dataclasses.dataclass
class Position:
    board: list
    white: bool = True
    # The castlings whose king and rook haven't moved, and the rook wasn't captured.
    rights: str = "KQkq"
    # The square that a pawn crossed by a double step on the last move.
    crossed: int | None = None

    @staticmethod
    def array():
        return Position(placed(ARRAY))

    def is_own(self, s):
        return self.board[s] != "." and self.board[s].isupper() == self.white

    def is_attacked(self, s, by_white):
        """Whether a man of this side attacks the square."""
        for man, steps in (("n", LEAPS), ("k", STRAIGHT + ASLANT)):
            if any(self.holds(step(s, *way), man, by_white) for way in steps):
                return True
        ahead = -1 if by_white else 1
        if any(self.holds(step(s, side, ahead), "p", by_white) for side in (-1, 1)):
            return True
        for men, ways in (("bq", ASLANT), ("rq", STRAIGHT)):
            for way in ways:
                end = self.first(s, way)
                if end is not None and any(self.holds(end, man, by_white) for man in men):
                    return True
        return False

    def holds(self, s, man, is_white):
        return s is not None and self.board[s] == (man.upper() if is_white else man)

    def first(self, s, way):
        """The first square on a line that isn't empty."""
        s = step(s, *way)
        while s is not None and self.board[s] == ".":
            s = step(s, *way)
        return s

    def in_check(self, white):
        return self.is_attacked(self.board.index("K" if white else "k"), not white)

    def reached(self, s):
        """The squares to which the man there may go, but for pawns, castling and his king's safety."""
        man = self.board[s].lower()
        for way in {"n": LEAPS, "k": STRAIGHT + ASLANT}.get(man, LINES.get(man, ())):
            t = step(s, *way)
            while t is not None and not self.is_own(t):
                yield t
                if self.board[t] != "." or man in "nk":
                    break
                t = step(t, *way)

    def pawn_moves(self, s):
        ahead, home, last = (1, 1, 7) if self.white else (-1, 6, 0)
        t = step(s, 0, ahead)
        ends = [t] if self.board[t] == "." else []
        if ends and s // 8 == home and self.board[step(t, 0, ahead)] == ".":
            yield Move(s, step(t, 0, ahead))
        for side in (-1, 1):
            t = step(s, side, ahead)
            if t is not None and self.board[t] != "." and not self.is_own(t):
                ends.append(t)
            elif t is not None and t == self.crossed:
                yield Move(s, t, "", "p", True)
        for t in ends:
            captured = self.board[t].lower() if t % 8 != s % 8 else ""
            for promotion in "qrbn" if t // 8 == last else [""]:
                yield Move(s, t, promotion, captured)

    def castlings(self):
        for right in self.rights:
            king, rook, beyond, beside = CASTLINGS[right]
            between = range(min(king, rook) + 1, max(king, rook))
            crossed = range(min(king, beyond), max(king, beyond) + 1)
            if right.isupper() == self.white and all(self.board[s] == "." for s in between):
                if not any(self.is_attacked(s, not self.white) for s in crossed):
                    yield Move(king, beyond)

    def moves_from(self, s):
        """The moves of the man there, but for castling and his king's safety."""
        if not self.is_own(s):
            return []
        if self.board[s] in "Pp":
            return list(self.pawn_moves(s))
        return [Move(s, t, "", self.board[t].lower().strip(".")) for t in self.reached(s)]

    def safe(self, moves):
        """Those of the moves that leave the king out of check."""
        return [move for move in moves if not self.after(move).in_check(self.white)]

    def moves(self):
        """The legal moves."""
        return self.safe([*self.castlings(), *(move for s in range(64) for move in self.moves_from(s))])

    def named(self, text):
        """The legal move that is written so, or None."""
        origin = place(text)
        found = [move for move in (*self.castlings(), *self.moves_from(origin)) if move.text() == text]
        return next(iter(self.safe(found)), None)

    @staticmethod
    def replayed(words):
        """The position after a game, and its moves; None if one isn't legal."""
        position, moves = Position.array(), []
        for word in words:
            move = position.named(word)
            if move is None:
                return None
            position, moves = position.after(move), [*moves, move]
        return position, moves

    def meets(self, fen):
        """Whether it is the diagram of a FEN of four fields, with the rights and the double step that it demands."""
        men, side, rights, square = fen.split(" ")
        held = set(rights.replace("-", "")) <= set(self.rights)
        crossed = square == "-" or self.crossed is not None and name(self.crossed) == square
        return self.board == placed(men) and side == ("w" if self.white else "b") and held and crossed

    def after(self, move):
        """The position after a move."""
        board, man = list(self.board), self.board[move.origin]
        board[move.origin] = "."
        board[move.target] = (move.promotion.upper() if self.white else move.promotion) or man
        if move.passing:
            board[move.target + (-8 if self.white else 8)] = "."
        if man in "Kk" and abs(move.target - move.origin) == 2:
            _, rook, _, beside = next(c for c in CASTLINGS.values() if (c[0], c[2]) == (move.origin, move.target))
            board[beside], board[rook] = board[rook], "."
        touched = {move.origin, move.target}
        rights = "".join(right for right in self.rights if not touched & set(CASTLINGS[right][:2]))
        is_double = man in "Pp" and abs(move.target - move.origin) == 16
        return Position(board, not self.white, rights, (move.origin + move.target) // 2 if is_double else None)

    def fen(self, rights=None, crossed=None):
        """The four fields of the FEN, with these rights and this crossed square as its demands."""
        ranks = []
        for rank in range(7, -1, -1):
            text, empty = "", 0
            for man in self.board[8 * rank : 8 * rank + 8]:
                if man == ".":
                    empty += 1
                    continue
                text, empty = text + (str(empty) if empty else "") + man, 0
            ranks.append(text + (str(empty) if empty else ""))
        return f"{'/'.join(ranks)} {'w' if self.white else 'b'} {rights or '-'} {'-' if crossed is None else name(crossed)}"


def games_of(position, depth):
    """How many sequences of so many legal moves there are: published numbers show that the rules are these."""
    moves = position.moves()
    return len(moves) if depth == 1 else sum(games_of(position.after(move), depth - 1) for move in moves)
