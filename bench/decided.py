#!/usr/bin/env python3
"""Counts what the built program decides, and by how much processor time, outside the gate.

decided.py diagrams PROGRAM FILE .. [--every N] [--by WORDS]   diagrams of collections, as tools/collection.py reads them: can they arise?
decided.py games PROGRAM [--positions N] [--by WORDS]          positions of random games after 20 to 160 half-moves, without and with the
                                                               castling rights demanded that the game kept
decided.py last PROGRAM FILE .. [--every N] [--most N]         the last moves that `study` leaves of diagrams: with which does a game end?

A diagram is decided if it is proved that no game leads to it, or if a game is found. WORDS call the program, as in `--by 'settle 1 4000'`;
`settle` alone if they are left out. A game that is found is replayed by chess_rules.py. Of each N diagrams one is tried, of the last moves
those of N diagrams (30). What stays open is printed, and what takes longer than three seconds, or ten if it stays open.
"""
import argparse
import collections
import pathlib
import random
import resource
import subprocess
import sys

from chess_rules import Position
from soundness import diagrams_of

PLIES = (20, 40, 60, 80, 120, 160)
# A game's moves are played at random, with more captures and moves of pawns than chance has.
CAPTURE, PAWN = 2, 1
LONG, LONG_OPEN = 3, 10


def timed(program, words, text):
    """The status and the answer of a run, and its seconds of processor time."""
    before = resource.getrusage(resource.RUSAGE_CHILDREN)
    done = subprocess.run([program, *words], input=text.encode(), stdout=subprocess.PIPE, stderr=subprocess.DEVNULL)
    after = resource.getrusage(resource.RUSAGE_CHILDREN)
    return done.returncode, done.stdout.decode(), after.ru_utime + after.ru_stime - before.ru_utime - before.ru_stime


class Counts:
    """What was decided of some positions, and by how much processor time."""

    def __init__(self, title):
        self.title, self.words, self.seconds, self.plies = title, collections.Counter(), collections.defaultdict(list), []

    def add(self, fen, word, seconds, game=()):
        self.words[word] += 1
        self.seconds["open" if word == "open" else "decided"].append(seconds)
        if game:
            self.plies.append(len(game))
        if word == "open" or seconds > LONG:
            print(f"{word} {seconds:.2f} s: {fen}", flush=True)

    def tell(self):
        total = self.words.total()
        decided = total - self.words["open"]
        print(f"{self.title}: {decided} of {total} decided, {100 * decided / max(total, 1):.1f} %: {self.words['proof']} proofs, {self.words['game']} games")
        for word, seconds in self.seconds.items():
            print(f"  {word}: {spread(seconds, 3)} seconds of processor time, {sum(seconds):.0f} in all")
        late = sum(it > LONG for it in self.seconds["decided"]), sum(it > LONG_OPEN for it in self.seconds["open"])
        print(f"  {late[0]} decided take more than {LONG} seconds, {late[1]} open ones more than {LONG_OPEN}")
        if self.plies:
            print(f"  games of {spread(self.plies, 0)} half-moves")


def spread(numbers, places):
    """Mean, median, 95 of a hundred, and the greatest."""
    some = sorted(numbers)
    parts = [("mean", sum(some) / max(len(some), 1)), *((word, some[int((len(some) - 1) * at)] if some else 0) for word, at in (("median", 0.5), ("p95", 0.95), ("max", 1)))]
    return ", ".join(f"{word} {number:.{places}f}" for word, number in parts)


def decide(program, words, fen):
    """What is found of a position, `proof`, `game` or `open`, in how many seconds, and the game."""
    is_study = words[0] == "study"
    status, text, seconds = timed(program, words, f"{fen}\n" if is_study else f"claim illegal\n{fen}\n")
    first = text.split("\n")[0]
    if is_study:
        return {"proved": "proof", "countered": "game"}.get(first.split(" ")[0], "open"), seconds, ()
    if status not in (0, 2, 3, 4):
        sys.exit(f"{' '.join(words)}: status {status}: {fen}")
    game = first.split(" ")[1:] if status == 4 else ()
    if status == 4 and not reaches(game, fen):
        sys.exit(f"a game that doesn't lead there: {fen}: {first}")
    return {0: "proof", 4: "game"}.get(status, "open"), seconds, game


def reaches(game, fen):
    """Whether a game is legal and leads to a position, by chess_rules.py."""
    replayed = Position.replayed(game)
    return replayed is not None and replayed[0].meets(fen)


def try_diagrams(args):
    counts = Counts(f"diagrams by `{args.by}`")
    for fen in diagrams_of(args.files)[:: args.every]:
        word, seconds, game = decide(args.program, args.by.split(" "), fen)
        counts.add(fen, word, seconds, game)
    counts.tell()


def positions_of_games(rng):
    """Positions of random games after some numbers of half-moves, without end."""
    while True:
        position, ply = Position.array(), 0
        while legal := ply < max(PLIES) and position.moves():
            weights = [1 + CAPTURE * bool(move.captured) + PAWN * (position.board[move.origin] in "Pp") for move in legal]
            position, ply = position.after(rng.choices(legal, weights)[0]), ply + 1
            if ply in PLIES:
                yield position


def try_games(args):
    plain, kept = Counts(f"positions of games by `{args.by}`"), Counts(f"the same with the rights demanded that the game kept, by `{args.by}`")
    rng = random.Random(args.seed)
    positions = positions_of_games(rng)
    for _ in range(args.positions):
        position = next(positions)
        word, seconds, game = decide(args.program, args.by.split(" "), position.fen())
        plain.add(position.fen(), word, seconds, game)
        if position.rights:
            word, seconds, game = decide(args.program, args.by.split(" "), position.fen(position.rights))
            kept.add(position.fen(position.rights), word, seconds, game)
    plain.tell()
    kept.tell()


def try_last(args):
    """Looks for a game with each last move that is left, by one to the position before it; and reads what `study` says of them itself."""
    counts, told, asked = Counts("last moves left"), [0, 0], 0
    for fen in diagrams_of(args.files)[:: args.every]:
        text = timed(args.program, ["study"], fen + "\n")[1].splitlines()
        left = next(([*line.split(" ")] for line in text if line.startswith("left ")), [])
        if not left[4:] or text[0].startswith("proved"):
            continue
        for line in text:
            if line.startswith("possible "):
                told[0], told[1] = told[0] + int(line.split(" ")[1]), told[1] + int(line.split(" ")[3])
        before = dict(line.split(" ", 1) for line in timed(args.program, ["unmoves"], fen + "\n")[1].splitlines()[:-1])
        for label in left[4:]:
            word, seconds, game = decide(args.program, ["settle", "0", "24000"], before[label])
            if word == "game" and not reaches([*game, label.partition("x")[0].removesuffix("ep")], fen):
                sys.exit(f"a game that doesn't end with {label}: {fen}")
            counts.add(f"{label} to {fen}", word, seconds, game)
        asked += 1
        if asked == args.most:
            break
    print(f"{asked} diagrams; `study` itself says of {told[0]} of {told[1]} last moves that they are possible")
    counts.tell()


def main():
    parser = argparse.ArgumentParser(description=__doc__, formatter_class=argparse.RawDescriptionHelpFormatter)
    parser.add_argument("what", choices=("diagrams", "games", "last"))
    parser.add_argument("program", type=lambda path: str(pathlib.Path(path).resolve()))
    parser.add_argument("files", nargs="*", type=pathlib.Path)
    parser.add_argument("--by", default="settle")
    parser.add_argument("--every", type=int, default=1)
    parser.add_argument("--positions", type=int, default=300)
    parser.add_argument("--most", type=int, default=30)
    parser.add_argument("--seed", type=int, default=0)
    args = parser.parse_args()
    {"diagrams": try_diagrams, "games": try_games, "last": try_last}[args.what](args)


if __name__ == "__main__":
    main()
