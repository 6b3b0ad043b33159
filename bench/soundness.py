#!/usr/bin/env python3
"""Tries whether the program proves what isn't so, outside the gate: on the plies of games, and on diagrams, for which it looks for a proof and
for a game.

soundness.py PROGRAM [--positions N] [--jobs N] [--seed N] [--games FILE.pgn ..]
soundness.py PROGRAM --diagrams FILE .. [--changed N] [--minutes N] [--finder PATH] [--jobs N] [--seed N]

**Games.** They are random ones, and those from the array in the files named; `chess_rules.py` makes them, which is a second reading of the Laws.
At each ply the position demands, by turns, the rights that the game still has and the double step that came last. Of it the program is
asked:

- `unmoves`, which has to list the last move;
- `settle`, one claim that the game contradicts: that there is none, that another move was the last, that a right which the game holds is
  lost, that a capture en passant is legal which isn't. None may be proved, and none answered by a game that isn't legal;
- `study`, at one ply of ten: no line may say what the game contradicts. Those of the ledger are compared with where the men began.

Without a number it goes through 2,000 positions.

**Diagrams.** Of each diagram of the files, as tools/collection.py reads them, and of so many changed ones (10,000 where no number is named: a
man more, less or elsewhere, the other side to move, with rights and a double step demanded by chance) both a proof that no game leads there and
a game are looked for (`two_answers.py`). No position has both. It ends after so many minutes where a number is named. PATH is games.program,
built, which looks for games alone.

It prints each finding, with the game's moves, and ends with status 1 if there is one.
"""
import argparse
import collections
import concurrent.futures
import pathlib
import random
import re
import sys
import time

from chess_rules import Position, name
from ledgers import LINES, Labelled, is_false_line
from two_answers import changed, run
from two_answers import tried as tried_diagram

sys.path.insert(0, str(pathlib.Path(__file__).resolve().parent.parent / "tools"))
from collection_records import Diagram, read

DEPTHS, NODES, PLIES, STUDIED = (1, 2, 3, 4), 300, 120, 10


def random_games(rng):
    """The moves of random games, without end, with more captures and moves of pawns than chance has."""
    while True:
        position, moves = Position.array(), []
        for _ in range(rng.randrange(1, PLIES)):
            legal = position.moves()
            if not legal:
                break
            weights = [1 + 2 * bool(move.captured) + (position.board[move.origin] in "Pp") + 20 * move.passing for move in legal]
            move = rng.choices(legal, weights)[0]
            moves.append(move)
            position = position.after(move)
        yield moves


def named_move(position, word):
    """The only legal move that a word of algebraic notation names, or None."""
    word = word.rstrip("+#!?").replace("0", "O")
    if word in ("O-O", "O-O-O"):
        found = [m for m in position.castlings() if m.target % 8 == (6 if word == "O-O" else 2)]
        return found[0] if found else None
    parts = re.fullmatch(r"([NBRQK]?)([a-h]?)([1-8]?)x?([a-h][1-8])=?([NBRQ]?)", word)
    if not parts:
        return None
    man, file, rank, target, promotion = parts.groups()
    found = [
        m
        for m in position.moves()
        if name(m.target) == target
        and position.board[m.origin].upper() == (man or "P")
        and m.promotion == promotion.lower()
        and name(m.origin)[0] in (file or "abcdefgh")
        and name(m.origin)[1] in (rank or "12345678")
    ]
    return found[0] if len(found) == 1 else None


def printed_games(path):
    """The moves of the games of a PGN file that begin from the array, each as far as it can be read."""
    for text in re.split(r"\n(?=\[Event )", path.read_text(errors="replace")):
        if "[FEN " in text:
            continue
        text = re.sub(r"\{[^}]*\}|;[^\n]*|^\[.*$|\$\d+", " ", text, flags=re.MULTILINE)
        while "(" in text and (shorter := re.sub(r"\([^()]*\)", " ", text)) != text:
            text = shorter
        position, moves = Position.array(), []
        for word in re.sub(r"\d+\.+", " ", text).split():
            move = named_move(position, word)
            if move is None:
                break
            moves.append(move)
            position = position.after(move)
        if moves:
            yield moves


def passings(position):
    """The captures en passant that fit the board, each with whether it is legal."""
    ahead, fifth = (8, 4) if position.white else (-8, 3)
    legal = {move.text() for move in position.moves() if move.passing}
    for s in range(8 * fifth, 8 * fifth + 8):
        for side in (-1, 1):
            beside = s + side
            if beside // 8 != fifth or not position.holds(s, "p", position.white) or not position.holds(beside, "p", not position.white):
                continue
            if position.board[beside + ahead] == position.board[beside + 2 * ahead] == ".":
                move = name(s) + name(beside + ahead)
                yield move, move in legal


def false_claims(position, moves, listed, rng):
    """Claims that the game contradicts, each with the rights that its position may demand."""
    yield "illegal", position.rights
    for right in position.rights:
        yield f"lost {right}", position.rights.replace(right, "")
    others = sorted({re.sub(r"(x.|ep)$", "", word) for word in listed} - {moves[-1].text()} if moves else set(listed))
    if others:
        yield f"last {rng.choice(others)}", position.rights
    for move, legal in passings(position):
        if not legal:
            yield f"ep {move}", position.rights


def labelled(moves):
    """The game of these moves, with labels."""
    game = Labelled()
    for move in moves:
        game.play(move)
    return game


def wrong_line(line, position, moves, legal_passings):
    """What a line of `study` says that the game contradicts."""
    words = line.split()
    if words[0] == "left":
        shown = words[4:]
        return bool(moves) and (words[1] == "0" or bool(shown) and moves[-1].retraction() not in shown)
    if words[0] == "possible":
        return bool(moves) and words[1] == words[3] and moves[-1].retraction() not in words[4:]
    if words[0] == "atleast":
        return int(words[1]) > len(moves)
    if words[0] in LINES:
        return is_false_line(line, labelled(moves))
    if words[0] != "proved":
        return False
    claim, *given = words[2:]
    return {
        "illegal": lambda: True,
        "lost": lambda: given[0] in position.rights,
        "notboth": lambda: set(given) <= set(position.rights),
        "ep": lambda: given[0] not in legal_passings,
        "last": lambda: not moves or moves[-1].text() != given[0],
        "line": lambda: [move.retraction() for move in moves[: -len(given) - 1 : -1]] != given,
    }[claim]()


def findings(program, position, moves, rng, studies):
    """What the program says of a position that its game contradicts."""
    crossed = position.crossed if rng.random() < 0.5 else None
    fen = position.fen(position.rights if rng.random() < 0.7 else "", crossed)
    status, text = run(program, ["unmoves"], fen + "\n")
    listed = [line.split()[0] for line in text.splitlines()[:-1]]
    if status or moves and moves[-1].retraction() not in listed:
        yield f"unmoves: {fen}: {status}"
    claim, rights = rng.choice(list(false_claims(position, moves, listed, rng)))
    held = "".join(right for right in rights if rng.random() < 0.8)
    fen = position.fen(held, crossed)
    status, text = run(program, ["settle", str(rng.choice(DEPTHS)), str(NODES)], f"claim {claim}\n{fen}\n")
    if status not in (2, 3, 4):
        yield f"settle: claim {claim}: {fen}: {status} {text[:60]}"
    if status == 4 and run(program, ["play"], f"{fen}\n{' '.join(text.split()[1:])}\n")[0] != 0:
        yield f"countered: claim {claim}: {fen}: {text}"
    if studies:
        legal = {move for move, is_legal in passings(position) if is_legal}
        status, text = run(program, ["study", "2", str(NODES)], fen + "\n")
        if status or any(wrong_line(line, position, moves, legal) for line in text.splitlines() if not line.startswith(("other", "without"))):
            yield f"study: {fen}: {status} {text}"


def tried(task):
    """Asks at each ply of a game. How many positions there were, and what was found."""
    program, moves, seed = task
    rng, position, found = random.Random(seed), Position.array(), []
    for ply in range(len(moves) + 1):
        before = moves[:ply]
        found += [f"{what} after {' '.join(m.text() for m in before)}" for what in findings(program, position, before, rng, rng.randrange(STUDIED) == 0)]
        if ply < len(moves):
            position = position.after(moves[ply])
    return len(moves) + 1, found


def tasks(args):
    rng, left = random.Random(args.seed), args.positions
    for path in args.games:
        for moves in printed_games(path):
            yield args.program, moves, rng.randrange(2**32)
            left -= len(moves) + 1
    for moves in random_games(rng):
        if left <= 0:
            return
        yield args.program, moves, rng.randrange(2**32)
        left -= len(moves) + 1


def through(pool, work, rest, jobs):
    """What comes of each of the tasks, in order, a few ahead of those that are asked for."""
    waiting = collections.deque()
    while True:
        while len(waiting) < 4 * jobs and (task := next(rest, None)):
            waiting.append(pool.submit(work, task))
        if not waiting:
            return
        yield waiting.popleft().result()


def play_games(args, pool):
    """Asks at each ply of games, and says how many findings there are."""
    positions, found = 0, 0
    for count, told in through(pool, tried, tasks(args), args.jobs):
        positions, found = positions + count, found + len(told)
        print(*told, sep="\n", end="\n" * bool(told), flush=True)
    print(f"{positions} positions; {found} findings")
    return found


def asked_on_the_way(program, position, moves, rng):
    """What the program says of a position on the way of a game that the game contradicts."""
    return list(findings(program, position, moves, rng, True)) if rng.randrange(4) == 0 else []


def diagrams_of(files):
    """The diagrams of collections, each once, with each side that may be to move."""
    return list(dict.fromkeys(fen for file in files for it in read(file) if isinstance(it, Diagram) for fen in it.fens))


def changed_ones(diagrams, proved, args, rng):
    """Changed diagrams, one of three made of a diagram that is proved to be illegal."""
    for _ in range(args.changed):
        yield args.program, args.finder, changed(rng.choice(proved if proved and rng.randrange(3) == 0 else diagrams), rng), rng.randrange(2**32), asked_on_the_way


def try_diagrams(args, pool):
    """Looks for both answers of diagrams and of changed ones, and says how many findings there are."""
    rng, diagrams, proved, found = random.Random(args.seed), diagrams_of(args.diagrams), [], 0
    end = time.monotonic() + 60 * args.minutes if args.minutes else float("inf")
    given = [(args.program, args.finder, fen, rng.randrange(2**32), asked_on_the_way) for fen in diagrams]
    for title, rest in (("diagrams", iter(given)), ("changed ones", changed_ones(diagrams, proved, args, rng))):
        answers = collections.Counter()
        for fen, answer, told in through(pool, tried_diagram, (task for task in rest if time.monotonic() < end), args.jobs):
            answers[answer], found = answers[answer] + 1, found + len(told)
            if answer == "proved" and title == "diagrams":
                proved.append(fen)
            print(*told, sep="\n", end="\n" * bool(told), flush=True)
        print(f"{answers.total()} {title}: {', '.join(f'{answers[it]} {it}' for it in ('proved', 'game', 'neither', 'late'))}", flush=True)
    print(f"{found} findings")
    return found


def main():
    parser = argparse.ArgumentParser(description=__doc__, formatter_class=argparse.RawDescriptionHelpFormatter)
    parser.add_argument("program", type=lambda path: str(pathlib.Path(path).resolve()))
    parser.add_argument("--positions", type=int, default=2_000)
    parser.add_argument("--jobs", type=int, default=4)
    parser.add_argument("--seed", type=int, default=0)
    parser.add_argument("--games", type=pathlib.Path, nargs="*", default=[])
    parser.add_argument("--diagrams", type=pathlib.Path, nargs="+", default=[])
    parser.add_argument("--changed", type=int, default=10_000)
    parser.add_argument("--minutes", type=float)
    parser.add_argument("--finder", type=lambda path: str(pathlib.Path(path).resolve()))
    args = parser.parse_args()
    with concurrent.futures.ProcessPoolExecutor(args.jobs) as pool:
        return 1 if (try_diagrams if args.diagrams else play_games)(args, pool) else 0


if __name__ == "__main__":
    sys.exit(main())
