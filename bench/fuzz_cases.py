"""The cases of fuzz.py: words and inputs, made by mutation of good ones. A case depends on its seed and its number alone."""
import pathlib
import random
from dataclasses import dataclass

import sketch_cases
from fuzz_rules import men_of

EXAMPLES = pathlib.Path(__file__).resolve().parent.parent / "examples"
LIMIT = 67_108_864

FENS = [
    "rnbqkbnr/pppppppp/8/8/8/8/PPPPPPPP/RNBQKBNR w KQkq -",
    "rnbqkbnr/pppppppp/8/8/4P3/8/PPPP1PPP/RNBQKBNR b KQkq e3 0 1",
    "rnbqkbnr/ppp1pppp/8/3pP3/8/8/PPPP1PPP/RNBQKBNR w KQkq d6",
    "r1bqkbnr/pppp1ppp/2n5/4p3/4P3/5N2/PPPP1PPP/RNBQKB1R w KQkq - 2 3",
    "rnbqk2r/ppppppbp/5np1/8/8/5NP1/PPPPPPBP/RNBQ1RK1 b kq - 3 4",
    "8/8/8/8/8/8/8/8 w - -",
    "4k3/8/8/8/8/8/8/4K3 w - -",
    "4k3/8/8/3p4/8/8/P7/4K2R w K d6",
    "4k3/8/8/8/8/8/P7/4K2R b - -",
    "4k3/8/3P4/8/8/8/8/4K2R b K -",
    "N3k3/8/8/8/8/8/8/4K2R b K -",
    "5rk1/5ppp/8/8/8/8/8/4K3 w - -",
    "4k3/2N3N1/8/8/8/8/8/4K3 b - -",
    "4k3/8/8/8/8/8/6P1/4K2B w - -",
    "4k3/4R3/8/8/8/8/8/4K3 w - -",
    "4k3/8/8/8/8/P7/PPPPPPPP/4K3 w - -",
    "k7/pp6/8/8/8/8/6PP/6KB w - -",
    "rnbqkbnr/pppppppp/8/8/8/1P6/1PPPPPPP/RNBQKBNR w KQkq -",
    "rn1qkbnr/pppppppp/8/8/8/1P6/1PPPPPPP/RNBQKBNR w KQkq -",
    "rnbqkbnr/pppppppp/8/8/5B2/8/PPPPPPPP/RN1QKBNR w KQkq -",
    "kN6/pp6/2P1P3/2KpP3/8/8/8/8 w - -",
    "r3k2r/8/8/3PpP2/8/8/8/R3K2R w - -",
    "4k3/8/8/K2pP2r/8/8/8/8 w - -",
    "4k3/8/8/8/3pP3/8/8/4K3 b - -",
    "QQQQQQQQ/QQQQQQQQ/QQQQQQQQ/QQQQQQQQ/qqqqqqqq/qqqqqqqq/qqqqqqqq/qqqqqqqq w - -",
    "r3k2r/pp1bnppp/1qn1p3/2ppP3/3P4/2PB1N2/PP3PPP/RNBQK2R w KQkq -",
]
# Men whose absence changes something: a knight, a rook, pawns, a queen, nearly all; and sets that are no odds.
ODDS = ["0000000000000002", "0000000000000080", "0000000000000100", "0800000000000000", "0020000000000001", "efff00000000ffef",
        "0000000000000010", "0000000000010000", "0000000000000000"]
# Each with the position that it reaches.
GAMES = [
    ("rnbqkbnr/pppppppp/8/8/8/8/PPPPPPPP/RNBQKBNR w KQkq -", ""),
    ("r1bqkbnr/pppp1ppp/2n5/4p3/4P3/5N2/PPPP1PPP/RNBQKB1R w KQkq - 2 3", "e2e4 e7e5 g1f3 b8c6"),
    ("rnbqkbnr/ppp1pppp/8/3pP3/8/8/PPPP1PPP/RNBQKBNR w KQkq -", "e2e4 d7d6 e4e5 d6d5"),
    ("rnbqkbnr/1pp1pppp/p7/3pP3/8/8/PPPP1PPP/RNBQKBNR w KQkq d6", "e2e4 a7a6 e4e5 d7d5"),
    ("rnbq1rk1/ppp1bppp/3p1n2/8/8/5N2/PPPPBPPP/RNBQ1RK1 b - -", "e2e4 g8f6 e4e5 d7d5 e5d6 e7d6 f1e2 f8e7 g1f3 e8g8 e1g1"),
    ("Q2qkbnr/2pppppp/2n5/8/8/8/1PPPPPPP/RNBQKBNR b KQk -", "a2a4 b7b5 a4b5 a7a6 b5a6 c8b7 a6b7 b8c6 b7a8q"),
    ("rnb1kbnr/pppp1ppp/8/4p3/6Pq/5P2/PPPPP2P/RNBQKBNR w KQkq -", "f2f3 e7e5 g2g4 d8h4"),
]
# The same with odds or a clock.
DEMANDING = [
    ("odds 0000000000000002\n", "rnbqkbnr/pppppppp/8/8/8/8/PPPPPPPP/R1BQKBNR w KQkq -", ""),
    ("odds 0000000000000080\nclock 0\n", "rnbqkbnr/pppppppp/8/8/4P3/8/PPPP1PPP/RNBQKBN1 b Qkq e3 0 1", "e2e4"),
    ("clock 1\n", "rnbqkbnr/pppppppp/8/8/8/5N2/PPPPPPPP/RNBQKB1R b KQkq -", "g1f3"),
]
CERTIFICATES = [
    ("illegal", FENS[18], ["root rule caps w 000a000000000000 1 0 0 0 0 0 0 1 / 0 -1 0 0 0 0 0 0"]),
    ("illegal", FENS[19], ["root rule promo w 0000000000000a00"]),
    ("illegal", FENS[13], ["root rule frozen 0000000000004080"]),
    ("illegal", FENS[14], ["root rule check"]),
    ("lost Q", FENS[8], ["root rule rights"]),
    ("last d7d5", "kN6/pp6/2P1P3/2KpP3/8/8/8/8 w - -", ["root expand 0"]),
    ("illegal", "4k3/8/8/8/8/8/8/P3K3 w - -", ["root rule ranks"]),
    ("illegal", FENS[5], ["root expand 1"] + ["a1a2 expand 1"] * 254 + ["a1a2 expand 0"]),
]
# Before Black's pawn took a bishop on b5: at equal prices one more is paid than earned. And before it came from b6.
BALANCED = "1KRqb3/p2krpp1/2ppp3/PB6/BrPPP3/1p1P4/2p1P3/Q7 b - -"
UNBALANCED = "1KRqb3/p2krpp1/1p1pp3/P7/BrPPP3/1p1P4/2p1P3/Q7 b - -"
ONES = " ".join(["1"] * 16)
BALANCE = f"balance 0061000000001000 {ONES} / {ONES} /"
CERTIFICATES += [("illegal", fen, [f"root rule {BALANCE}{gates}"]) for fen in (BALANCED, UNBALANCED) for gates in ("", " e6 1", " e4 1 e6 1")]
# Certificates of format 2: claim, lines of odds and clock, FEN, nodes.
FORMAT_2 = [
    ("illegal", "odds 0000000000000100\n", "4k3/8/8/8/8/8/P7/4K3 w - -", ["root rule frozen 0000000000000100"]),
    ("illegal", "odds 0000000000000100\n", "4k3/8/8/8/8/1P6/1PPPPPPP/4K3 w - -", ["root rule count w"]),
    ("lost K", "odds 0000000000000080\n", "4k3/8/8/8/8/8/8/4K2R w - -", ["root rule rights"]),
    ("illegal", "clock 1\n", FENS[7], ["root expand 0"]),
    ("illegal", "odds 0000000000000002\nclock 1\n", FENS[7], ["root expand 0"]),
    ("illegal", "clock 0\n", BALANCED, [f"root rule {BALANCE}"]),
    ("illegal", "odds 0000000000000100\n", BALANCED, [f"root rule {BALANCE} d6 2"]),
    ("ep e5d6", "clock 0\n", "rnbqkbnr/ppp1pppp/8/2KpP3/8/8/PPPP1PPP/RNBQ1BNR w kq -", ["root expand 0"]),
]
CERTIFICATES += sketch_cases.CERTIFICATES
FORMAT_2 += sketch_cases.DEMANDING
LENGTHS = [
    (FENS[4], 7, "w", "0 0 0 0 0 0 1 0 1 0 0 0 0 0 0 0 / 0 0 0 0 0 0 0 0 0 0 0 0 0 0 0 0"),
    (FENS[0], 0, "b", "0 0 0 0 0 0 0 0 0 0 0 0 0 0 0 0 / 0 0 0 0 0 0 0 0 0 0 0 0 0 0 0 0"),
]
# Claims of several steps and positions.
LINE_CLAIMS = [
    ("claim line d7d5", "kN6/pp6/2P1P3/2KpP3/8/8/8/8 w - -"),
    ("claim notboth K k", "4k2r/8/8/8/8/8/P7/4K2R b - -"),
    ("claim notboth k q", "r3k2r/p1p1p2p/4K3/8/8/4Q3/8/8 w - -"),
    ("claim line d7e8 d1e1 e8d7 e1d1", "4k3/8/8/8/8/8/8/4K3 w - -"),
    ("claim line d7d5 a2a3", "4k3/8/8/3p4/8/P7/8/4K2R w K d6"),
    ("claim line a1a8n", "N3k3/8/8/8/8/8/8/4K2R b K -"),
]
DOSSIERS = [
    b"retro line 1\nclaim notboth K k\nfen 4k2r/8/8/8/8/8/P7/4K2R b - -\npart 70\nretro 1\nclaim illegal\nfen 4k2r/8/8/8/8/8/P7/4K2R b Kk -\nroot expand 0\n",
    b"retro line 1\nclaim line d7d5\nfen kN6/pp6/2P1P3/2KpP3/8/8/8/8 w - -\npart 76\nretro 1\nclaim last d7d5\nfen kN6/pp6/2P1P3/2KpP3/8/8/8/8 w - -\nroot expand 0\n",
    b"retro line 1\nclaim notboth K Q\nodds 0000000000000080\nfen 4k3/8/8/8/8/8/8/4K2R w - -\n",
]
SANS = [
    (FENS[3], "1. e4 e5 2.Nf3 Nc6 *"),
    ("rnbqk2r/ppppppbp/5np1/8/8/5NP1/PPPPPPBP/RNBQ1RK1 b kq -", "1. Nf3 Nf6 2. g3 g6 3. Bg2 Bg7 4. O-O"),
    ("rnb1kbnr/pppp1ppp/8/4p3/6Pq/5P2/PPPPP2P/RNBQKBNR w KQkq -", "f3 e5 g4 Qh4# 0-1"),
    ("Q2qkbnr/2pppppp/2n5/8/8/8/1PPPPPPP/RNBQKBNR b KQk -", "a4 b5 axb5 a6 bxa6 Bb7 axb7 Nc6 bxa8=Q"),
]
SAN_WORDS = ["Nf3", "Nbd2", "R1e2", "e4", "exd5", "e8=Q", "O-O", "O-O-O", "Qh4#", "Bb5+", "1.", "1...", "1.e4", "*", "1-0", "1/2-1/2", "nf3", "0-0", "e9"]
BODIES = [b"rule kings", b"rule ranks", b"rule check", b"rule rights", b"rule count w", b"rule count b", b"rule frozen 0000000000004080",
          b"rule promo b 0000000000000000", b"rule caps w 0000000000000000 / 0 0 0 0 0 0 0 0", b"back 1", b"back 2", b"expand 0", b"expand 1",
          b"rule " + BALANCE.encode(), b"rule " + BALANCE.encode() + b" e4 1 e6 12", b"rule " + BALANCE.encode().replace(b" 1", b" 96")]
BODIES += [head.encode() for head in sketch_cases.HEADS]
NO_PRICES = [b"0", b"1", b"2", b"95", b"96", b"97", b"096", b"-1", b"", b"/", b"e4"]
PLACES = [b"a1", b"h8", b"e4", b"e6", b"b5", b"i9", b"e0", b"E4", b"4e"]
TOKENS = [b"0", b"1", b"2", b"00", b"01", b"-0", b"+1", b"-1", b"8", b"64", b"65", b"-64", b"-65", b"255", b"256", b"999999", b"1000000", b"500000",
          b"500001", b"4294967296", b"18446744073709551615", b"18446744073709551616", b"", b"-", b"/", b"w", b"b", b"K", b"KQkq", b"QK", b"e3", b"d6",
          b"e2e4", b"e7e8q", b"d7d8nxr", b"c5d6ep", b"e9e5", b"e1g1", b"retro", b"claim", b"fen", b"root", b"rule", b"back", b"expand", b"illegal",
          b"last", b"lost", b"ep", b"000000000000000", b"000000000000000A", b"ffffffffffffffff", b"odds", b"clock", b"0000000000000002", b"0000000000000010", b"9999", b"10000",
          b"length", b"atleast", b"moves", b"line", b"part", b"notboth", b"67108864", b"67108865", b"sketch", b"now", b"marks", b"mark", b"closed", b"steps",
          b"split", b"case", b"files", b"a2xb1nrq=", b"1024", b"1025", b"262144"]
BYTES = b" \n\r\t-/+0123456789abcdefghKQkqPNBRpnbrwx\x00\x7f\x80\xff"
MEN = "PNBRQKpnbrqk"


@dataclass
class Case:
    words: list
    input: bytes
    # What is made to fail: "read", "write", "pipe", where nobody reads the answer, or nothing.
    fails: str = ""


def placed(men):
    """The placement field of 64 men, from a1 on, None for an empty square."""
    ranks = []
    for rank in range(7, -1, -1):
        text, empty = "", 0
        for man in men[8 * rank : 8 * rank + 8]:
            if man is None:
                empty += 1
                continue
            text += (str(empty) if empty else "") + man
            empty = 0
        ranks.append(text + (str(empty) if empty else ""))
    return "/".join(ranks)


def parted(text):
    """The lines of odds and clock, the FEN line, and what follows it."""
    lines = ""
    while text.startswith(("odds ", "clock ")):
        line, _, text = text.partition("\n")
        lines += line + "\n"
    fen, _, rest = text.partition("\n")
    return lines, fen, rest


def square(rng):
    return rng.choice("abcdefgh") + rng.choice("12345678")


def move(rng):
    return square(rng) + square(rng) + rng.choice(["", "", "", "", "", "n", "b", "r", "q"])


class Maker:
    """Makes cases from the examples and the tables above."""

    def __init__(self):
        read = lambda kind: [path.read_bytes() for path in sorted(EXAMPLES.glob(f"*.{kind}"))]
        claims = [text.decode().split("\n", 1) for text in read("claim")]
        self.claims = [(claim, *parted(rest)[:2]) for claim, rest in claims]
        self.fens = FENS + [fen for _, _, fen in self.claims]
        plain, demanding = "retro 1\nclaim {}\nfen {}\n{}\n", "retro 2\nclaim {}\n{}fen {}\n{}\n"
        self.certs = read("cert") + [plain.format(claim, fen, "\n".join(nodes)).encode() for claim, fen, nodes in CERTIFICATES]
        self.certs += [demanding.format(claim, lines, fen, "\n".join(nodes)).encode() for claim, lines, fen, nodes in FORMAT_2]
        self.games = [parted(text.decode()) for text in read("game")] + [("", *game) for game in GAMES] + DEMANDING

    def demands(self, rng):
        """Lines of odds and of a clock, or none; a few are bad, twice or in the wrong order."""
        odds = f"odds {rng.choice(ODDS[:6] if rng.random() < 0.9 else ODDS)}\n" if rng.random() < 0.25 else ""
        clock = f"clock {rng.choice([0, 0, 1, 1, 2, 3, 9, 9999, rng.randrange(10_100)])}\n" if rng.random() < 0.25 else ""
        if rng.random() < 0.03:
            return clock + odds
        return odds * 2 + clock * 2 if rng.random() < 0.03 else odds + clock

    def position(self, rng):
        return f"{self.demands(rng)}{self.fen(rng)}\n"

    def fen(self, rng):
        """A FEN of the grammar: a good one, in most cases with some men moved, taken away or added."""
        placement, turn, rights, double, *counts = rng.choice(self.fens).split(" ")
        if rng.random() < 0.7:
            men = men_of(placement)
            for _ in range(rng.choice([1, 1, 1, 2, 3, 30])):
                a, b = rng.randrange(64), rng.randrange(64)
                kind = rng.randrange(3)
                if kind == 0:
                    men[a], men[b] = men[b], men[a]
                else:
                    men[a] = None if kind == 1 else rng.choice(MEN)
            placement = placed(men)
        if rng.random() < 0.2:
            turn = rng.choice("wb")
            double = "-"
        if rng.random() < 0.3:
            rights = "".join(letter for letter in "KQkq" if rng.random() < 0.4) or "-"
        if rng.random() < 0.15:
            double = rng.choice("abcdefgh") + ("6" if turn == "w" else "3")
        return " ".join([placement, turn, rights, double, *counts])

    def claim(self, rng):
        kind = rng.randrange(6)
        if kind == 0:
            return f"claim last {move(rng)}"
        if kind == 1:
            return "claim lost " + rng.choice("KQkq")
        if kind == 2:
            file, rank = rng.randrange(8), rng.choice("45")
            beside = "abcdefgh"[max(0, min(7, file + rng.choice([-1, 1])))]
            return f"claim ep {'abcdefgh'[file]}{rank}{beside}{'6' if rank == '5' else '3'}"
        return "claim illegal"

    def statement(self, rng):
        claim, lines, fen = rng.choice(self.claims)
        if rng.random() < 0.8:
            claim = self.claim(rng)
        if rng.random() < 0.8:
            lines, fen = self.demands(rng), self.fen(rng)
        return f"{claim}\n{lines}{fen}\n".encode()

    def line_claim(self, rng):
        """A claim of several steps, and a position, for `dossier`."""
        claim, fen = rng.choice(LINE_CLAIMS)
        if rng.random() < 0.3:
            claim = "claim notboth " + " ".join(sorted(rng.sample("KQkq", 2), key="KQkq".index))
        elif rng.random() < 0.2:
            claim = f"claim line {' '.join(move(rng) for _ in range(rng.choice([1, 2, 16, 17])))}"
        if rng.random() < 0.4:
            fen = self.fen(rng)
        return f"{claim}\n{self.demands(rng) if rng.random() < 0.3 else ''}{fen}\n".encode()

    def dossier(self, rng):
        """A dossier, or one with another part, a part more or less, or another number of bytes."""
        head, *parts = rng.choice(DOSSIERS).split(b"part ")
        if rng.random() < 0.3:
            part = rng.choice(self.certs)
            parts[rng.randrange(len(parts) + 1):] = [b"%d\n%s" % (len(part) + rng.choice([0, 0, 0, 1, -1]), part)]
        if rng.random() < 0.1:
            parts *= 2
        if rng.random() < 0.1:
            head = head.replace(b"fen ", self.demands(rng).encode() + b"fen ", 1)
        return b"part ".join([head, *parts])

    def game(self, rng):
        lines, fen, text = rng.choice(self.games)
        moves = text.split()
        for _ in range(rng.choice([0, 0, 0, 1, 4]) if moves else 0):
            moves[rng.randrange(len(moves))] = move(rng)
        if rng.random() < 0.2:
            moves = moves[: rng.randrange(len(moves) + 1)]
        if rng.random() < 0.2:
            fen = self.fen(rng)
        if rng.random() < 0.1:
            lines = self.demands(rng)
        return f"{lines}{fen}\n{rng.choice([' ', chr(10)]).join(moves)}\n".encode()

    def moves(self, rng):
        """A game alone, for `spell`."""
        return parted(self.game(rng).decode())[2].encode()

    def notation(self, rng):
        """A position and a game in algebraic notation."""
        fen, text = rng.choice(SANS)
        words = text.split()
        for _ in range(rng.choice([0, 0, 0, 1, 3])):
            words[rng.randrange(len(words))] = rng.choice(SAN_WORDS)
        lines = self.demands(rng) if rng.random() < 0.2 else ""
        return f"{lines}{self.fen(rng) if rng.random() < 0.1 else fen}\n{' '.join(words)}\n".encode()

    def length(self, rng):
        """Potentials of a side's men, for `atleast`."""
        fen, number, side, potentials = rng.choice(LENGTHS)
        words = potentials.split()
        for _ in range(rng.choice([0, 0, 1, 2])):
            words[rng.randrange(len(words))] = str(rng.choice([-64, -1, 0, 1, 2, 64]))
        odds = f"odds {rng.choice(ODDS)}\n" if rng.random() < 0.2 else ""
        number = rng.choice([number, number, number + 1, 0, 9999, 10_000])
        return f"retro length 1\n{odds}fen {' '.join(fen.split(' ')[:4])}\natleast {number}\nmoves {side} {' '.join(words)}\n".encode()

    def proof(self, rng):
        """A certificate, a dossier or a length, for `explain`."""
        return rng.choice([self.certificate, self.certificate, self.certificate, self.dossier, self.length])(rng)

    def certificate(self, rng):
        text = resketched(rng, rng.choice(self.certs))
        lines = text.split(b"\n")
        lines = [rebalanced(rng, line) if b" balance " in line and rng.random() < 0.4 else line for line in lines]
        head = next(at for at, line in enumerate(lines) if line.startswith(b"fen ")) + 1
        if rng.random() < (0.05 if b" sketch " in text else 0.5):
            at = rng.randrange(head, len(lines) - 1)
            label = lines[at].split(b" ")[0] if rng.random() < 0.8 else move(rng).encode()
            lines[at] = label + b" " + rng.choice(BODIES)
        if rng.random() < 0.2:
            lines[head - 1] = b"fen " + " ".join(self.fen(rng).split(" ")[:4]).encode()
        if rng.random() < 0.2:
            demands = self.demands(rng).encode()
            lines[: head - 1] = [b"retro 2" if demands else b"retro 1", lines[1], *demands.split(b"\n")[:-1]]
        return b"\n".join(lines)

    def case(self, seed, number):
        rng = random.Random(f"{seed} {number}")
        if rng.randrange(20_000) == 0:
            return Case([rng.choice([b"check", b"explain", b"play", b"unmoves"])], b"x" * (LIMIT + rng.choice([0, 1, 2])))
        command = rng.choice([b"check", b"check", b"check", b"check", b"explain", b"explain", b"play", b"play", b"unmoves", b"solve", b"solve", b"settle", b"study", b"report", b"verdict",
                              b"tree", b"sample", b"san", b"spell", b"length", b"atleast", b"line", b"line", b"dossier"])
        words = [command]
        alone = command in (b"settle", b"study", b"report") and rng.random() < 0.02
        if command in (b"solve", b"settle", b"study", b"report", b"verdict", b"tree", b"dossier") and not alone:
            words += [b"%d" % rng.choice([0, 1, 1, 2, 2, 3, 4, 9, 64]), b"%d" % rng.choice([1, 2, 5, 10, 30, 100, 100])]
        if command == b"sample":
            words += [b"%d" % rng.choice([0, 1, rng.randrange(2**64), 2**64 - 1]), b"%d" % rng.randint(1, 3), b"%d" % rng.randint(1, 6)]
        makers = {b"check": self.certificate, b"explain": self.proof, b"play": self.game, b"solve": self.statement, b"settle": self.statement, b"san": self.notation,
                  b"spell": self.moves, b"atleast": self.length, b"line": self.dossier, b"dossier": self.line_claim}
        text = makers.get(command, lambda rng: self.position(rng).encode())(rng)
        for _ in range(rng.choice([0, 0, 0, 0, 0, 1, 1, 2, 5])):
            text = mutated(rng, text)
        if rng.random() < 0.08:
            words = changed_words(rng, words)
        return Case(words, text, rng.choices(["", "read", "write", "pipe"], [96, 2, 1, 1])[0])


def resketched(rng, text):
    """The text with up to three changes to its first sketch, if it has one."""
    lines = text.decode().split("\n")[:-1]
    for _ in range(rng.choice([0, 0, 1, 1, 1, 2, 3]) if sketch_cases.sketch_at(lines) else 0):
        lines = sketch_cases.changed(rng, lines) or lines
    return "\n".join([*lines, ""]).encode()


def rebalanced(rng, line):
    """The line of a balance with its set, a price, a slash or its gates changed."""
    front, _, rest = line.partition(b" balance ")
    frozen, *words = rest.split(b" ")
    kind, at = rng.randrange(6), rng.randrange(len(words))
    if kind == 0:
        frozen = b"%016x" % (int(frozen, 16) ^ 1 << rng.randrange(64))
    elif kind == 1 and words[at].isdigit():
        words[at] = b"%d" % max(0, int(words[at]) + rng.choice([-1, -1, -2, 1]))
    elif kind == 2:
        words[at] = rng.choice(NO_PRICES)
    elif kind == 3:
        words[at : at + 1] = rng.choice([[], [words[at]] * 2])
    elif kind == 4:
        words += [word for _ in range(rng.choice([1, 1, 2, 16, 17])) for word in (rng.choice(PLACES), rng.choice([b"1", b"12", b"96", b"0", b"97"]))]
    else:
        gates = sorted(rng.sample(range(64), rng.choice([1, 2, 15, 16, 17])))
        words[34:] = [word for s in gates for word in (b"%c%d" % (97 + s % 8, s // 8 + 1), b"%d" % rng.choice([1, 1, 2, 96]))]
    return b" ".join([front + b" balance", frozen, *words])


def mutated(rng, text):
    """The text with a byte, a word or a line changed."""
    kind = rng.randrange(8)
    if kind < 4 or not text:
        at = rng.randrange(len(text) + 1)
        byte = bytes([rng.choice(BYTES)])
        return [text[:at] + text[at + 1 :], text[:at] + byte + text[at:], text[:at] + byte + text[at + 1 :], text[:at]][kind % 4]
    if kind < 6:
        words = text.split(b" ")
        words[rng.randrange(len(words))] = rng.choice(TOKENS)
        return b" ".join(words)
    lines = text.split(b"\n")
    at, other = rng.randrange(len(lines)), rng.randrange(len(lines))
    if kind == 6:
        lines[at], lines[other] = lines[other], lines[at]
    else:
        lines[at] = rng.choice([lines[at] + b"\r", lines[at] + b"\n" + lines[other], b""])
    return b"\n".join(lines)


def changed_words(rng, words):
    """Words of which one is changed, taken away or added; none has a zero byte."""
    words = list(words)
    at = rng.randrange(len(words))
    token = rng.choice(TOKENS + [b"check", b"explain", b"solve", b"tree", b"Check", b"check ", b"1 ", b"\xff", b"1.0", b"0x1", b"--help", b"-h"])
    kind = rng.randrange(4)
    if kind == 0:
        del words[at]
    elif kind == 1:
        words.insert(at, token)
    elif kind == 2:
        words[at] = token
    else:
        words[at] = words[at] + rng.choice([b"0", b" ", b"\n", b"\xc3", b"s"])
    return words
