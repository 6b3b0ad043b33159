"""Tests of what bench/ holds the program's answers against: the second reading of the Laws, and what can't all be so.

python3 -m unittest discover -s tools
"""
import pathlib
import random
import sys
import unittest

TOP = pathlib.Path(__file__).resolve().parent.parent
sys.path.insert(0, str(TOP / "bench"))

from chess_rules import Position, games_of, placed  # noqa: E402
from second_check import checked, played  # noqa: E402
from two_answers import changed, gainsaid  # noqa: E402


class SecondReading(unittest.TestCase):
    def test_published_numbers(self):
        self.assertEqual([games_of(Position.array(), depth) for depth in (1, 2, 3)], [20, 400, 8902])
        men = "r3k2r/p1ppqpb1/bn2pnp1/3PN3/1p2P3/2N2Q1p/PPPBBPPP/R3K2R"
        self.assertEqual([games_of(Position(placed(men)), depth) for depth in (1, 2)], [48, 2039])
        self.assertEqual(games_of(Position(placed("8/2p5/3p4/KP5r/1R3p1k/8/4P1P1/8"), rights=""), 3), 2812)

    def test_games_are_replayed(self):
        for file in ("wheeler-1887.game", "castling.game"):
            fen, *lines = (TOP / "examples" / file).read_text().splitlines()
            position, moves = Position.replayed(" ".join(lines).split())
            self.assertTrue(position.meets(" ".join(fen.split()[:4])), file)
            self.assertEqual(len(moves), len(" ".join(lines).split()))
        self.assertIsNone(Position.replayed("e2e4 e7e5 e4e5".split()))

    def test_demands(self):
        position = Position.replayed("e2e4 a7a6 e4e5 d7d5".split())[0]
        men = "rnbqkbnr/1pp1pppp/p7/3pP3/8/8/PPPP1PPP/RNBQKBNR"
        for rest, meets in (("w KQkq d6", True), ("w - -", True), ("w KQkq e6", False), ("b KQkq -", False)):
            self.assertEqual(position.meets(f"{men} {rest}"), meets, rest)
        self.assertEqual(position.named("e5d6").retraction(), "e5d6ep")
        moved = Position.replayed("e2e4 a7a6 e1e2 d7d5 e2e1 a6a5".split())[0]
        self.assertEqual([moved.meets(f"{moved.fen().split(' ')[0]} w {rights} -") for rights in ("kq", "K")], [True, False])


class SecondCheck(unittest.TestCase):
    def certificate(self, name):
        return (TOP / "examples" / f"{name}.cert").read_text()

    def test_examples_are_accepted(self):
        for path in sorted((TOP / "examples").glob("*.cert")):
            answer, status = checked(path.read_text())
            said = "refused line 4 unsupported rule" if path.stem == "array" else "accepted "
            self.assertTrue(answer.startswith(said), f"{path.name}: {answer}")
            self.assertEqual(status, 1 if path.stem == "array" else 0)

    def test_first_faults(self):
        good = self.certificate("dawson-1913")
        for old, new, said in (
            ("root expand 6\nh7h6 expand 0\n", "root expand 5\n", "refused line 5 unlisted h7h6"),
            ("c8b8 expand 0", "c8b8xp expand 0", "refused line 6 unlisted c8b8"),
            ("h7h6 expand", "a2a3 expand", "refused line 5 unsupported stray"),
            ("c8b8 expand 0", "c8b8 back 1", "refused line 6 unsupported back"),
            ("frozen 034f070200000090", "frozen 0000000200000000", "refused line 7 unsupported rule"),
            ("claim lost K", "claim lost X", "refused line 2 text"),
            ("expand 6", "expand 7", "refused line 11 text"),
            ("w - -", "w - d3", "refused line 3 text"),
        ):
            self.assertEqual(good.count(old) > 0 and checked(good.replace(old, new, 1))[0], said, new)
        odds = "retro 2\nclaim illegal\nodds 0000000000000100\nfen 4k3/8/8/8/8/8/P7/4K3 w - -\nroot rule frozen 0000000000000100\n"
        self.assertEqual(checked(odds)[1], 0)
        self.assertEqual(checked(odds.replace("retro 2", "retro 1").replace("odds 0000000000000100\n", ""))[0], "refused line 4 unsupported rule")

    def test_games(self):
        for file, said in (("wheeler-1887.game", "legal"), ("castling.game", "legal"), ("blocked.game", "refused ply 3")):
            self.assertEqual(played((TOP / "examples" / file).read_text())[0], said)
        self.assertEqual(played("rnbqkbnr/pppppppp/8/8/8/8/PPPPPPPP/RNBQKBNR b - -\n")[0], "refused end")


class Answers(unittest.TestCase):
    def said(self, text):
        return len(list(gainsaid(text.split("\n"))))

    def test_what_can_be_so(self):
        for text in (
            "proved 0 illegal\nother side countered illegal",
            "countered illegal\nproved 2 lost K\ncountered lost Q\nleft 2 of 9 a2a1 b2b1xq\npossible 1 of 2 b2b1xq\natleast 20",
            "countered illegal\nproved 1 last a2a1\nleft 2 of 9 a2a1 a2a1xq\npossible 2 of 2 a2a1 a2a1xq",
            "open illegal\nstuck illegal\nleft 1 of 9 a2a1\npossible 0 of 1",
        ):
            self.assertEqual(self.said(text), 0, text)

    def test_what_cannot_be_so(self):
        for text in (
            "proved 2 illegal\ncountered lost K",
            "countered illegal\ncountered lost K\nproved 1 lost K",
            "countered illegal\nproved 1 lost K\ncountered notboth K q",
            "countered illegal\nleft 1 of 9 a2a1\npossible 1 of 1 b2b1",
            "countered illegal\nleft 1 of 9 a2a1\npossible 2 of 1 a2a1",
            "countered illegal\nproved 1 last a2a1\nleft 2 of 9 a2a1 b2b1\npossible 1 of 2 b2b1",
            "open illegal\nleft 1 of 9 a2a1\npossible 1 of 1 a2a1",
            "spent illegal\ncountered lost K",
        ):
            self.assertGreater(self.said(text), 0, text)

    def test_changed_diagrams(self):
        fen = "r3k2r/8/8/8/4P3/8/8/R3K2R b - -"
        some = [changed(fen, random.Random(seed)) for seed in range(200)]
        self.assertEqual(some, [changed(fen, random.Random(seed)) for seed in range(200)])
        self.assertGreater(len(set(some)), 150)
        for men, side, rights, square in (it.split(" ") for it in some):
            board = placed(men)
            self.assertEqual((len(board), board.count("K"), board.count("k")), (64, 1, 1))
            self.assertFalse(set("Pp") & set(board[:8] + board[56:]))
            for right, king, rook in (("K", 4, 7), ("Q", 4, 0), ("k", 60, 63), ("q", 60, 56)):
                if right in rights:
                    self.assertEqual(board[king] + board[rook], "KR" if right.isupper() else "kr")


if __name__ == "__main__":
    unittest.main()
