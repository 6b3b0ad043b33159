"""A proof that no game leads to a position, and a game that leads there: both are looked for, and both found is a failure.

The proof is looked for by `study`, none of whose lines may gainsay another. The game is looked for by `settle 0`, which looks for
no proof but a rule that closes the position itself; where one does, by `settle 0` of some positions before it, since a game there goes on to the
position, and by `find_game` alone (`games.program`) where that is built. Each game is replayed by chess_rules.py and by `play`.
Of some games a position on the way is asked about too, and of some positions with a game the deep search of `solve`.
"""
import random
import subprocess

from chess_rules import Position, placed

STUDY, GAME, DEEP = ["study", "4", "2000"], ["settle", "0", "4000"], ["solve", "64", "20000"]
# How many positions before a closed one are asked for a game, and of how many games one is asked the deep search.
BEFORE, SELDOM = 3, 10
SECONDS = 120


class Late(Exception):
    """A run that didn't end in time."""


def run(program, words, text):
    """The status and the answer of a run."""
    try:
        done = subprocess.run([program, *words], input=text.encode(), stdout=subprocess.PIPE, stderr=subprocess.DEVNULL, timeout=SECONDS)
    except subprocess.TimeoutExpired as late:
        raise Late(f"{' '.join(words)}: no end within {SECONDS} seconds: {text.strip()}") from late
    return done.returncode, done.stdout.decode()


def studied(program, fen):
    """What `study` proves of the legality of a position, or None; and what it says that can't all be so."""
    status, text = run(program, STUDY, fen + "\n")
    first = text.split("\n")[0]
    if status != 0 or first.split(" ")[0] not in ("proved", "countered", "open", "spent"):
        raise Late(f"study: status {status}: {fen}: {first}")
    parts = text.split("without demands\n")
    return first if first.startswith("proved") else None, [f"study: {fen}: {what}" for part in parts for what in gainsaid(part.splitlines())]


def gainsaid(lines):
    """What in a part of a study can't all be so."""
    lines = [line.split(" ") for line in lines]
    proved = [" ".join(line[2:]) for line in lines if line[0] == "proved"]
    countered = [" ".join(line[1:]) for line in lines if line[0] == "countered"]
    yield from (f"`{claim}` is proved and countered" for claim in countered if claim in proved)
    if "illegal" in proved and countered:
        yield f"`illegal` is proved, and `{countered[0]}` countered"
    for claim in countered:
        if claim.startswith("notboth") and any(f"lost {letter}" in proved for letter in claim.split(" ")[1:]):
            yield f"`{claim}` is countered, and one of the two proved to be lost"
    left, possible = ([line for line in lines if line[0] == word] for word in ("left", "possible"))
    games = [f"countered {claim}" for claim in countered] + [" ".join(words) for words in possible if words[1] != "0"]
    if games and any(words in (["open", "illegal"], ["spent", "illegal"]) for words in lines):
        yield f"`illegal` isn't countered beside `{games[0]}`"
    for words in possible:
        ends, whole = words[4:], left[0][4:]
        moves = [end.partition("x")[0].removesuffix("ep") for end in ends]
        if len(ends) != int(words[1]) or words[3] != left[0][1] or not set(ends) <= set(whole) or "illegal" in proved:
            yield f"{' '.join(left[0])} / {' '.join(words)}"
        for claim in proved:
            if claim.startswith("last ") and set(moves) - {claim[5:]}:
                yield f"`{claim}` is proved, and {' '.join(moves)} possible"


def game_to(program, fen):
    """The status of the search for a game to a position, and the words of the game, None if none is found."""
    status, text = run(program, GAME, f"claim illegal\n{fen}\n")
    return status, text.split()[1:] if status == 4 else None


def game_over_one_before(program, fen, rng):
    """A game to a position by one of some positions before it, or None."""
    lines = run(program, ["unmoves"], fen + "\n")[1].split("\n")[:-2]
    for line in rng.sample(lines, min(BEFORE, len(lines))):
        label, before = line.split(" ", 1)
        game = game_to(program, before)[1]
        if game is not None:
            return [*game, label.partition("x")[0].removesuffix("ep")]
    return None


def found_alone(finder, fen):
    """What the search for games alone finds, or None."""
    text = run(finder, [GAME[2]], fen + "\n")[1]
    return text.strip() if text.startswith("found") else None


def wrong_game(program, fen, game):
    """What is wrong with a game that is to lead to a position."""
    replayed = Position.replayed(game)
    if replayed is None or not replayed[0].meets(fen):
        yield f"a game that chess_rules.py doesn't accept: {fen}: {' '.join(game)}"
    if run(program, ["play"], f"{fen}\n{' '.join(game)}\n")[0] != 0:
        yield f"a game that `play` doesn't accept: {fen}: {' '.join(game)}"


def findings(program, finder, fen, rng, asks):
    """What the program answers of a position's legality (`proved`, `game` or `neither`), and what is wrong with it. `asks` says what
    is wrong with what the program says of a position on the way of a game."""
    proof, wrong = studied(program, fen)
    status, game = game_to(program, fen)
    if status == 0 and proof is None:
        proof = "settle 0"
    if status == 0:
        game = game_over_one_before(program, fen, rng)
        if finder and (found := found_alone(finder, fen)):
            wrong.append(f"BOTH a proof ({proof}) and a game that the search for games finds alone: {found}")
    if game is None:
        return "proved" if proof else "neither", wrong
    wrong += wrong_game(program, fen, game)
    if not proof and rng.randrange(SELDOM) == 0 and run(program, DEEP, f"claim illegal\n{fen}\n")[0] == 0:
        proof = " ".join(DEEP)
    if proof:
        wrong.append(f"BOTH a proof ({proof}) and a game: {fen}: {' '.join(game)}")
    if not wrong and not proof:
        moves = Position.replayed(game)[1][: rng.randrange(len(game) + 1)]
        position = Position.replayed(move.text() for move in moves)[0]
        wrong += [f"{what} after {' '.join(move.text() for move in moves)}" for what in asks(program, position, moves, rng)]
    return "game", wrong


def tried(task):
    """What is answered of a position, which it was, and what is wrong."""
    program, finder, fen, seed, asks = task
    try:
        return fen, *findings(program, finder, fen, random.Random(seed), asks)
    except Late as why:
        return fen, "late", [str(why)]


def free(board, man):
    """The squares where a man may be put."""
    return [s for s in range(64) if board[s] == "." and (man not in "Pp" or 0 < s // 8 < 7)]


def with_more(board, rng):
    man = rng.choice("QRBNPPqrbnpp")
    board[rng.choice(free(board, man))] = man


def with_less(board, rng):
    men = [s for s in range(64) if board[s] not in ".Kk"]
    if men:
        board[rng.choice(men)] = "."


def with_moved(board, rng):
    s = rng.choice([s for s in range(64) if board[s] != "."])
    man, board[s] = board[s], "."
    board[rng.choice([t for t in free(board, man) if t != s])] = man


def demands(position, rng):
    """Rights and a double step that a position may demand, by chance."""
    home = [right for right, men in (("K", "e1K h1R"), ("Q", "e1K a1R"), ("k", "e8k h8r"), ("q", "e8k a8r")) if stands(position.board, men)]
    rights = "".join(right for right in home if rng.randrange(2))
    first, ahead, pawn = (6, -8, "p") if position.white else (1, 8, "P")
    doubles = [s + ahead for s in range(8 * first, 8 * first + 8) if position.board[s] == position.board[s + ahead] == "." and position.board[s + 2 * ahead] == pawn]
    return rights, rng.choice(doubles) if doubles and rng.randrange(8) == 0 else None


def stands(board, men):
    return all(board["abcdefgh".index(it[0]) + 8 * int(it[1]) - 8] == it[2] for it in men.split(" "))


def changed(fen, rng):
    """A diagram with a man more, less or elsewhere, or with the other side to move; sometimes two of these."""
    men, side, _, _ = fen.split(" ")
    position = Position(placed(men), side == "w")
    for change in rng.choices([with_more, with_less, with_moved, None], k=rng.choice((1, 1, 2))):
        if change:
            change(position.board, rng)
        else:
            position.white = not position.white
    return position.fen(*demands(position, rng))
