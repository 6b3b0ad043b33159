"""Runs `retractor study` and `retractor settle` on diagrams, and says what is proved and what a game counters, and whether castling and en
passant of the solution are sound."""
import dataclasses
import re
import subprocess

HOMES = {"K": ("e1", "h1", "K", "R"), "Q": ("e1", "a1", "K", "R"), "k": ("e8", "h8", "k", "r"), "q": ("e8", "a8", "k", "r")}
FACT = re.compile(r"(other side )?(?:proved (\d+)|(countered|open|spent)) (.+)")
CASTLING = re.compile(r"(?:0-0-0|O-O-O|0-0|O-O)(?![-\w])")
# A mark of en passant, the number before a first move, a first move that is a try, and words by which a solution says that a move isn't legal.
MARK = r"(?:\s*\(?e\.?\s*p\b\.?\)?)"
FIRST = re.compile(r"(?<![\d.])1\s*\.(?!\s*\.)")
TRY = re.compile(rf"1\s*\.\s*[^\s(]+{MARK}?\s*[+#]*\s*\?")
DENIED = re.compile(r"illegal|impossible|not allowed", re.I)


# What is made of a castling or a capture en passant in a solution, and how the report counts it.
VERDICTS = {
    "lost": "unsound: the right is proved to be lost",
    "away": "unsound: king or rook isn't at home",
    "held": "sound: a game keeps the right",
    "undisproved": "sound by convention: the right isn't disproved",
    "permitted": "sound: the double step is proved",
    "countered": "not permitted: a game ends otherwise",
    "unproved": "not permitted by convention: the double step isn't proved",
    "empty": "says nothing: the diagram is illegal",
}
KINDS = {
    "lost": "castlings whose right is proved to be lost",
    "away": "castlings without king and rook at home",
    "held": "castlings whose right a game keeps",
    "undisproved": "castlings whose right is neither disproved nor kept by a game",
    "permitted": "captures en passant that are proved to be permitted",
    "countered": "captures en passant that a game shows not to be permitted",
    "unproved": "captures en passant of which neither is shown",
    "empty": "castlings of illegal diagrams",
}


class Failed(Exception):
    """A run of the program that didn't answer."""


@dataclasses.dataclass
class Fact:
    """What is known of a claim: the FEN that it is about, the claim, whether it is proved, countered or open, how many moves its proof takes
    back, and the game that counters it, if they are known."""

    fen: str
    claim: str
    word: str
    depth: int | None = None
    game: str | None = None

    @property
    def is_mere(self):
        """Whether a game that counters it isn't known yet."""
        return self.word == "countered" and self.game is None

    def learn(self, answer):
        """Takes over what `settle` says."""
        word, _, rest = answer.partition(" ")
        if {word, self.word} == {"proved", "countered"}:
            raise Failed(f"`{self.claim}` is {self.word} by `study`, and {word} by `settle`")
        if word == "proved":
            self.word, self.depth = word, int(rest)
        elif word == "countered":
            self.word, self.game = word, rest

    @property
    def text(self):
        """The claim, with how many moves its proof takes back or its game has."""
        count = self.depth if self.word == "proved" else None if self.game is None else len(self.game.split())
        return self.claim if count is None else f"{self.claim} ({count})"


@dataclasses.dataclass
class Use:
    """A castling or a capture en passant in a solution: where it stands, the right's letter or the move, and of which of the kinds it is."""

    where: str
    move: str
    kind: str

    @property
    def verdict(self):
        return VERDICTS[self.kind]

    @property
    def is_settled(self):
        return self.kind not in ("undisproved", "unproved")


class Program:
    """The built program, and how long a run of it may take."""

    def __init__(self, path, seconds):
        self.path, self.seconds = path, seconds

    def run(self, words, text):
        """The status and the answer."""
        try:
            done = subprocess.run([self.path, *words], input=text.encode(), stdout=subprocess.PIPE, stderr=subprocess.DEVNULL, timeout=self.seconds)
        except subprocess.TimeoutExpired as late:
            raise Failed(f"no end of `{' '.join(words)}` within {self.seconds} seconds") from late
        except OSError as error:
            raise Failed(f"the program can't be run: {error}") from error
        return done.returncode, done.stdout.decode("ascii", "replace")

    def study(self, fen, depth, nodes):
        """The text of the study of a FEN."""
        status, answer = self.run(["study", str(depth), str(nodes)], fen + "\n")
        if status != 0:
            raise Failed(f"`study` ends with status {status}: {answer.strip() or 'no answer'}")
        return answer

    def report(self, fen, depth, nodes):
        """The report of a FEN."""
        status, answer = self.run(["report", str(depth), str(nodes)], fen + "\n")
        if status == 5:
            raise Failed("this program doesn't know `report`")
        if status != 0:
            raise Failed(f"`report` ends with status {status}: {answer.strip() or 'no answer'}")
        return answer

    def settle(self, text, depth, nodes):
        """What decides a claim: `proved` and how many moves the certificate takes back, or the game that counters it, or `open`."""
        status, answer = self.run(["settle", str(depth), str(nodes)], text)
        if status not in (0, 2, 3, 4):
            raise Failed(f"`settle` ends with status {status}: {answer.strip() or 'no answer'}")
        return answer.strip() if status == 4 else f"proved {height(answer)}" if status == 0 else "open"


def facts_of(fen, answer):
    """The facts of a study's text. Behind `without demands` they are about the FEN without rights and square."""
    facts = []
    for line in answer.split("\n"):
        if line == "without demands":
            fen = f"{' '.join(fen.split(' ')[:2])} - -"
        elif found := FACT.fullmatch(line):
            about = other_side(fen) if found[1] else fen
            word = "proved" if found[2] else "countered" if found[3] == "countered" else "open"
            facts.append(Fact(about, found[4], word, int(found[2]) if found[2] else None))
    return facts


def other_side(fen):
    """The FEN with the other side to move, and no square that the last move crossed."""
    men, side, rights, _ = fen.split(" ")
    return f"{men} {'b' if side == 'w' else 'w'} {rights} -"


def word_of(facts, claim):
    """What is known of a claim, by one of the facts."""
    return next((fact.word for fact in facts if fact.claim == claim), "open")


def castlings(solution, board, direct):
    """The castlings as first move or with mate, of the solution or of set play before it: which of these, and the letter of the right. Tries
    aren't looked at, nor what is said to be illegal."""
    for start, part, is_try in tries(solution):
        for found in [] if is_try else CASTLING.finditer(part):
            before, after = part[: found.start()], part[found.end() :]
            line = whole_line(solution, start + found.start())
            is_key = bool(re.fullmatch(r"\s*1\s*\.\s*", before))
            is_mate = bool(re.match(r"\s*(?:\+\s*)?(?:#|mate)", after))
            is_denied = DENIED.search(line) or re.match(r"[\s+#]*\?", after)
            if (is_key or is_mate) and not is_denied:
                yield "key" if is_key else "mate" if FIRST.match(part) else "set mate", letter_of(found[0], board, before, direct)


def whole_line(text, at):
    """The line of a text that a place of it stands on."""
    return text[:at].rpartition("\n")[2] + text[at:].partition("\n")[0]


def tries(solution):
    """The solution cut at each first move: where each part starts, the part, and whether it is a try."""
    starts = [0, *(found.start() for found in FIRST.finditer(solution)), len(solution)]
    for start, end in zip(starts, starts[1:]):
        part = solution[start:end]
        yield start, part, bool(TRY.match(part))


def letter_of(castling, board, before, direct):
    """The letter of the right that a printed castling uses: of the two sides the one that has king and rook at home, else by the move's number."""
    wing = "K" if len(castling) == 3 else "Q"
    able = [it for it in (wing, wing.lower()) if stands_home(it, board)]
    if len(able) == 1:
        return able[0]
    number_alone = bool(re.search(r"\d\s*\.\s*$", before))
    dots = bool(re.search(r"\.\.\.\s*$", before))
    return wing if number_alone == direct and not dots else wing.lower()


def stands_home(letter, board):
    king, rook, *men = HOMES[letter]
    return [board.get(king), board.get(rook)] == men


def board_of(fen):
    """The men by square."""
    ranks = re.sub(r"\d", lambda digit: "1" * int(digit[0]), fen.split(" ")[0]).split("/")
    return {f"{file}{8 - row}": man for row, rank in enumerate(ranks) for file, man in zip("abcdefgh", rank) if man != "1"}


def is_key(move, solution):
    """Whether the solution's first move is the pawn's capture, with a mark of en passant or without; a capture that names no rank needs the mark."""
    short = rf"{move[0]}{move[1]}?\s*[x*:]?\s*{move[2]}"
    form = re.compile(rf"1\s*\.\s*(?:{short}{move[3]}|{short}(?!\d)[+#]?(?={MARK}))")
    return any(not is_try and form.match(part) for _, part, is_try in tries(solution))


def kind_of(letter, board, facts):
    """What is made of a castling in a diagram that isn't proved to be illegal."""
    if not stands_home(letter, board):
        return "away"
    return {"proved": "lost", "countered": "held", "open": "undisproved"}[word_of(facts, f"lost {letter}")]


def verdicts(solution, fen, facts):
    """The castlings and the captures en passant of a solution, and what is made of them."""
    board, direct = board_of(fen), fen.split(" ")[1] == "w"
    is_illegal = word_of([fact for fact in facts if fact.fen == fen], "illegal") == "proved"
    found = dict.fromkeys(castlings(solution, board, direct))
    uses = [Use(where, letter, "empty" if is_illegal else kind_of(letter, board, facts)) for where, letter in found]
    captures = [fact for fact in facts if fact.claim.startswith("ep ") and is_key(fact.claim[3:], solution)]
    kinds = {"proved": "permitted", "countered": "countered", "open": "unproved"}
    return uses + [Use("key", fact.claim, kinds[fact.word]) for fact in captures]


def with_rights(fen, letters):
    """The FEN that demands these rights besides its own."""
    men, side, rights, square = fen.split(" ")
    return f"{men} {side} {''.join(it for it in 'KQkq' if it in rights or it in letters) or '-'} {square}"


def claim_text(fact):
    """The claim and the position by which `settle` decides a fact; that of two castlings is the illegality of the diagram with both rights."""
    kind, *letters = fact.claim.split(" ")
    return f"claim illegal\n{with_rights(fact.fen, letters)}\n" if kind == "notboth" else f"claim {fact.claim}\n{fact.fen}\n"


def game_text(fact):
    """The game that counters a fact, as `play` reads it: the diagram, with the rights that the game keeps, and the moves."""
    kind, *letters = fact.claim.split(" ")
    fen = with_rights(fact.fen, letters) if kind in ("lost", "notboth") else fact.fen
    return f"{fen}\n{fact.game}\n"


def height(certificate):
    """How many moves a certificate takes back: the depth of its deepest node."""
    deepest, due = 0, []
    for line in certificate.split("\n"):
        found = re.fullmatch(r"(?:root|[a-h][1-8][a-h]\S+) (?:expand (\d+)|.*)", line)
        if not found:
            continue
        while due and not due[-1]:
            due.pop()
        deepest = max(deepest, len(due))
        if due:
            due[-1] -= 1
        due.append(int(found[1] or 0))
    return deepest


def certify(program, fact, nodes, path):
    """Writes the certificate of a fact and its explanation, and says what couldn't be written; None if all was."""
    kind, checker = ("dossier", "line") if fact.claim.startswith("line ") else ("settle", "check")
    text = f"claim {fact.claim}\n{fact.fen}\n" if kind == "dossier" else claim_text(fact)
    status, certificate = program.run([kind, str(fact.depth), str(nodes)], text)
    if status != 0:
        return f"no certificate of `{fact.claim}`: `{kind} {fact.depth} {nodes}` ends with status {status}"
    if program.run([checker], certificate)[0] != 0:
        return f"a certificate of `{fact.claim}` that `{checker}` doesn't accept"
    path.with_name(path.name + ".cert").write_text(certificate)
    return explain(program, fact, certificate, path) if kind == "settle" else None


def keep_game(program, fact, path):
    """Writes the game that counters a fact, and says what is wrong with it; None if nothing is."""
    if fact.game is None:
        return f"no game against `{fact.claim}`: `settle` finds none"
    text = game_text(fact)
    if program.run(["play"], text)[0] != 0:
        return f"a game against `{fact.claim}` that `play` doesn't accept"
    path.with_name(path.name + ".game").write_text(text)
    return None


def explain(program, fact, certificate, path):
    """Writes the explanation of a certificate, and says so if there is none."""
    status, explained = program.run(["explain"], certificate)
    if status == 5:
        return "no explanation: this program doesn't know `explain`"
    if status != 0:
        return f"no explanation of `{fact.claim}`: `explain` ends with status {status}"
    path.with_name(path.name + ".txt").write_text(explained)
    return None
