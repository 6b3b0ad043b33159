#!/usr/bin/env python3
"""Tries whether a ledger says what isn't so, outside the gate: on positions of random games whose men have labels.

ledgers.py PROGRAM [--positions N] [--seed N]

PROGRAM is ledger.program, built. The games are random ones with more captures, promotions and moves of pawns than chance has, by the rules of
`chess_rules.py`. Each man keeps the square on which he began as his label, so it is known where the men of a position began, which captures
they made as pawns, and who fell to whom. At half of the positions the rights that the game still has are demanded. Each fact of the ledger
is compared with that. Without a number it goes through 2,000 positions.

It prints each position with a false fact, and how many facts there were, and ends with status 1 if one is false.
"""
import argparse
import random
import subprocess
import sys

from chess_rules import CASTLINGS, Position, name

FATES = ("stands", "stands_promoted", "taken", "struck", "taken_promoted", "struck_promoted")
# Of each ledger: homes for each square, pawns who captured or didn't, fates; for each side three ranges and the least of each class.
WIDTH, COUNTS = 64 + 2 + len(FATES), 3 * 2 + 16
# The first words of the lines of a ledger that `study` writes, also of those that are so if a right is held.
LINES = ("unmoved", "lacks", "captures", "pawn", "man", "ahead", "original", "promoted", "among", "fell", "became", "if")


class Labelled:
    """A game whose men have labels."""

    def __init__(self):
        self.position = Position.array()
        men = [s for s in range(64) if self.position.board[s] != "."]
        self.labels = {s: s for s in men}
        self.captures = {h: [] for h in men}
        self.stood = {h: {h} for h in men}
        self.promoted, self.gone, self.struck = set(), set(), set()
        # The squares on which each side's pawns captured, and those on which moves began and ended.
        self.strikes, self.touched = {True: [], False: []}, set()

    def play(self, move):
        position, board = self.position, self.position.board
        mover = self.labels.pop(move.origin)
        self.touched |= {move.origin, move.target}
        if move.captured:
            place = move.target + (-8 if position.white else 8) if move.passing else move.target
            victim = self.labels.pop(place)
            self.gone.add(victim)
            self.touched.add(place)
            if board[move.origin] in "Pp":
                self.struck.add(victim)
                self.captures[mover].append(move.target)
                self.strikes[position.white].append(move.target)
        if move.promotion:
            self.promoted.add(mover)
        if board[move.origin] in "Kk" and abs(move.target - move.origin) == 2:
            _, rook, _, beside = next(c for c in CASTLINGS.values() if (c[0], c[2]) == (move.origin, move.target))
            self.labels[beside] = self.labels.pop(rook)
            self.touched |= {rook, beside}
        self.labels[move.target] = mover
        for place, man in self.labels.items():
            self.stood[man].add(place)
        self.position = position.after(move)

    def fate(self, home):
        kind = "stands" if home not in self.gone else "struck" if home in self.struck else "taken"
        return kind + ("_promoted" if home in self.promoted else "")


def played(rng):
    """Labelled games, ply after ply, without end."""
    while True:
        game = Labelled()
        for _ in range(rng.randrange(20, 260)):
            legal, board = game.position.moves(), game.position.board
            if not legal:
                break
            weights = [1 + 3 * bool(m.captured) + (board[m.origin] in "Pp") * (1 + 6 * bool(m.captured)) + 20 * m.passing + 8 * bool(m.promotion) for m in legal]
            game.play(rng.choices(legal, weights)[0])
            if rng.random() < 0.03:
                yield game


def class_of(s):
    return 2 * (s % 8) + (s % 8 + s // 8) % 2


def false_facts(words, game):
    """What a ledger says that isn't so, and how many facts it has."""
    sets, false = [int(word, 16) for word in words[:WIDTH]], []
    facts = sum(bin(one).count("1") for one in sets)
    homes, (captured, straight), fates = sets[:64], sets[64:66], dict(zip(FATES, sets[66:]))
    for s in range(64):
        home = game.labels.get(s)
        if homes[s] and (home is None or homes[s] >> home & 1):
            false.append(f"home of {name(s)}")
        for told, holds in ((captured, True), (straight, False)):
            if told >> s & 1 and (home is None or bool(game.captures[home]) != holds):
                false.append(f"{'captured' if holds else 'straight'} {name(s)}")
    false += [f"{game.fate(home)} {name(home)}" for home in game.captures if fates[game.fate(home)] >> home & 1]
    for white, part in ((True, words[WIDTH : WIDTH + COUNTS]), (False, words[WIDTH + COUNTS :])):
        numbers, made = [int(word) for word in part], [class_of(s) for s in game.strikes[white]]
        several = (len(made), sum(k % 2 == 0 for k in made), sum(k % 2 == 1 for k in made))
        false += [f"captures {several}" for i, n in enumerate(several) if not numbers[2 * i] <= n <= numbers[2 * i + 1]]
        false += [f"captures on class {k}" for k in range(16) if numbers[6 + k] > made.count(k)]
        facts += sum(numbers[0:6:2]) + sum(16 - n for n in numbers[1:6:2]) + sum(numbers[6:])
    return false, facts


def lacking_words(board, white):
    """A word for each man whom a side lacks, by kinds, in the order of the line."""
    men = {"q": 1, "r": 2, "bd": 1, "bl": 1, "n": 2, "p": 8}
    for s in range(64):
        letter = board[s].lower()
        kind = letter + "dl"[class_of(s) % 2] if letter == "b" else letter
        if board[s].isupper() == white and kind in men:
            men[kind] -= 1
    return [kind for kind, number in men.items() for _ in range(number)]


def is_false_line(line, game):
    """Whether a line of the ledger that `study` tells isn't so of a game. A line behind `if` is so of games that have lost the right."""
    word, *words = line.split()
    if word == "if":
        return words[0] in game.position.rights and is_false_line(" ".join(words[1:]), game)
    numbers = [int(one) for one in words if one.isdigit()]
    squares = [8 * (int(one[1]) - 1) + "abcdefgh".index(one[0]) for one in words if len(one) == 2 and one[0].isalpha() and one[1].isdigit()]
    board, homes = game.position.board, [game.labels.get(s) for s in squares]
    if word == "unmoved":
        return bool(game.touched & set(squares))
    if word == "lacks":
        return words[1:] != lacking_words(board, words[0] == "w")
    if word == "captures":
        white, (least, most, lacking) = words[0] == "w", numbers[:3]
        made = [class_of(s) for s in game.strikes[white]]
        dark = [int(one) for one in words[words.index("dark") + 1 :][:2]] if "dark" in words else [0, 16]
        several = [2 * "abcdefgh".index(words[i + 1][0]) + words[i + 1].endswith("light") for i, one in enumerate(words) if one == "on" for _ in range(int(words[i + 2]))]
        standing = sum(1 for s in range(64) if board[s] != "." and board[s].isupper() != white)
        few = any(several.count(k) > made.count(k) for k in several) or not dark[0] <= sum(k % 2 == 0 for k in made) <= dark[1]
        return few or not least <= len(made) <= most or lacking != 16 - standing
    if word == "pawn":
        made = game.captures[homes[0]]
        if not words[2][0].isdigit():
            return name(homes[0]) != words[1] or [name(s) for s in made] != words[2:]
        return name(homes[0]) not in words[1].split(",") or (len(made) < int(words[2][:-1]) if words[2].endswith("+") else len(made) != int(words[2]))
    if word == "man":
        return homes[0] != squares[1]
    if word == "ahead":
        return any(home is None or bool(game.captures[home]) or board[s] not in "Pp" for s, home in zip(squares, homes))
    if word == "original":
        return any(home is None or home // 8 in (1, 6) for home in homes)
    if word == "promoted":
        return homes[0] // 8 not in (1, 6) or name(homes[0]) not in words[1].split(",") or board[squares[0]] in "Pp"
    if word == "among":
        return sum(home // 8 in (1, 6) for home in homes) < numbers[0]
    if word == "became":
        return squares[0] not in game.promoted
    home = squares[0]
    if "within" in words and len(game.stood[home]) > numbers[0]:
        return True
    holds = {"pawn": home in game.struck, "officer": home not in game.struck, "as-pawn": home not in game.promoted, "as-promoted": home in game.promoted}
    return home not in game.gone or not all(holds[one] for one in words[1:] if one in holds)


def main():
    parser = argparse.ArgumentParser(prog="ledgers.py")
    parser.add_argument("program")
    parser.add_argument("--positions", type=int, default=2000)
    parser.add_argument("--seed", type=int, default=1)
    args = parser.parse_args()
    rng, facts, failed = random.Random(args.seed), 0, 0
    games = played(rng)
    for _ in range(args.positions):
        game = next(games)
        fen = game.position.fen(game.position.rights if rng.random() < 0.5 else None)
        answer = subprocess.run([args.program, "1"], input=fen + "\n", capture_output=True, text=True, check=True).stdout
        false, number = false_facts(answer.split()[4:], game)
        facts += number
        failed += bool(false)
        if false:
            print(fen, *false, sep="; ")
    print(f"{args.positions} positions, {facts} facts, {failed} positions with false ones")
    sys.exit(1 if failed else 0)


if __name__ == "__main__":
    main()
