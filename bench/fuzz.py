#!/usr/bin/env python3
"""Runs the built program on many mutated inputs, outside the gate, and tells where it breaks docs/COMMANDS.md.

fuzz.py PROGRAM [--cases N] [--jobs N] [--seed N] [--found FOLDER]
fuzz.py PROGRAM --again FOLDER     runs the cases again that were found and kept there

What is looked for: a death by a signal; a run over ten seconds; a status that the command hasn't, or that bad words, failing reads and
writes, or too long an input don't allow; something written at a status that writes nothing; an answer that hasn't the form of its status; a
certificate of `solve` or `settle` that `check` doesn't accept; a game of theirs that `play` doesn't call legal; nodes that `check` calls
bad text at another line than fuzz_texts.py, a balance at the root that it weighs otherwise than fuzz_rules.py, and a sketch that it judges
otherwise than fuzz_sketches.py; a verdict that `solve` doesn't bear out; a legal game that `spell` doesn't spell or `san` doesn't read; a
length of `length` that `atleast` doesn't accept, a dossier of `dossier` that `line` doesn't accept; an answer of `explain` to what the
checker of such proofs refuses that isn't that checker's, to what it accepts that explains nothing, or that shows another diagram; and two runs that differ. Each
finding goes into a file of FOLDER, with the words, the input and what was wrong.
The same seed gives the same cases, with any number of jobs. The exit status is 1 if something was found.
"""
import argparse
import json
import multiprocessing
import os
import pathlib
import random
import re
import subprocess
import sys
import time

from fuzz_cases import LIMIT, Case, Maker, mutated, parted
from fuzz_rules import Prices, balances, men_of, root_query
from fuzz_sketches import sketch_fault, sketches_before
from fuzz_texts import bad_node, prices_of, root_of, squares_of

SECONDS = 10
CHUNK = 250
STATUSES = {"check": (0, 1), "explain": (0, 1), "play": (0, 1, 6), "unmoves": (0, 6), "solve": (0, 2, 3, 4, 6), "settle": (0, 2, 3, 4, 6), "verdict": (0, 3, 6),
            "tree": (0, 3, 6), "sample": (0,), "san": (0, 1, 6), "spell": (0, 1), "length": (0, 2, 6), "atleast": (0, 1), "line": (0, 1),
            "dossier": (0, 1, 2, 3, 6), "study": (0, 6), "report": (0, 6), "--help": (0,), "--version": (0,)}
RANGES = {"solve": [(0, 64), (1, 500_000)], "sample": [(0, 2**64 - 1), (1, 1000), (1, 200)]}
RANGES["settle"] = RANGES["study"] = RANGES["report"] = RANGES["verdict"] = RANGES["tree"] = RANGES["dossier"] = RANGES["solve"]
# The commands that may be called without their numbers, and those that read nothing.
ALONE, UNREADING = ("settle", "study", "report"), ("sample", "--help", "--version")
LAST_LINE = {"study": 4, "report": 4, "play": 3, "san": 3, "unmoves": 4, "solve": 5, "settle": 5, "verdict": 4, "tree": 4, "length": 3, "dossier": 5}

MOVE = r"[a-h][1-8][a-h][1-8][nbrq]?"
UNMOVE = rf"(?:{MOVE}(?:x[pnbrq])?|[a-h][1-8][a-h][1-8]ep)"
FEN = r"[1-8PNBRQKpnbrqk]{1,8}(?:/[1-8PNBRQKpnbrqk]{1,8}){7} [wb] (?:-|K?Q?k?q?) (?:-|[a-h][36])"
CLAIM = rf"(?:illegal|last {MOVE}|lost [KQkq]|ep [a-h][1-8][a-h][1-8])"
SKETCH = r"sketch \d+(?: files [a-h]+)?(?:\n(?:\d|mark |now |case |[a-h][1-8][-=x])[^\n]+)+"
NODE = rf"(?:rule [^\n]+|back [1-9]\d*|expand \d+|{SKETCH})"
ODDS = r"odds [0-9a-f]{16}"
CLOCK = r"clock (?:0|[1-9]\d{0,3})"
STEPS = rf"(?:notboth [KQkq] [KQkq]|line {UNMOVE}(?: {UNMOVE}){{0,15}})"
FAULT = rf"(?:text|unlisted {UNMOVE}|unsupported (?:rule|back|array|stray))"
SAN = r"(?:O-O(?:-O)?|[NBRQK][a-h]?[1-8]?x?[a-h][1-8]|(?:[a-h]x)?[a-h][1-8](?:=[NBRQ])?)[+#]?"
# The commands that may say something on standard error where they refuse what they read.
HINTING = ("check", "explain", "play", "san", "spell")
FORMS = {
    ("check", 0): rf"accepted {CLAIM} {FEN}(?: {ODDS})?(?: {CLOCK})?\n",
    ("check", 1): rf"refused line [1-9]\d* {FAULT}\n",
    ("explain", 0): r"  a b c d e f g h\n(?:[1-8](?: [.PNBRQKpnbrqk]){8}(?:     (?:White|Black) to move)?\n){8}(?:(?:[!-~][ -~]{0,99}| {1,99}[!-~][ -~]{0,98})?\n)+",
    ("explain", 1): rf"refused (?:unsupported|line [1-9]\d* {FAULT}|head|step [1-9]\d* unlisted|part [1-9]\d* (?:text|other|line [1-9]\d* {FAULT}))\n",
    ("play", 0): r"legal\n",
    ("play", 1): r"refused (?:(?:word|ply) [1-9]\d*|end)\n",
    ("unmoves", 0): rf"(?:{UNMOVE} {FEN}\n)*total \d+\n",
    ("solve", 0): rf"retro (?:1|2(?=\n[^\n]+\n[oc]))\nclaim {CLAIM}\n(?:{ODDS}\n)?(?:{CLOCK}\n)?fen {FEN}\nroot {NODE}\n(?:{UNMOVE} {NODE}\n)*",
    ("solve", 2): rf"undecided(?: {UNMOVE})*\n",
    ("solve", 4): rf"countered(?: {MOVE})*\n",
    ("verdict", 0): rf"no rights\n|(?:[KQkq] (?:not permitted|undisproved to \d+)\n|{MOVE} (?:permitted|unproved to \d+)\n)+",
    ("tree", 0): rf"root [^\n]+\n(?:(?:  )+{UNMOVE} [^\n]+\n)*",
    ("sample", 0): r"games [1-9]\d* plies \d+ unmoves \d+ missing 0\n",
    ("san", 0): r"legal\n",
    ("san", 1): r"refused (?:word [1-9]\d*|ply [1-9]\d* (?:none|many)|end)\n",
    ("spell", 0): rf"(?:1\. {SAN}(?: (?:[1-9]\d*\. )?{SAN})*)?\n",
    ("spell", 1): r"refused (?:word|ply) [1-9]\d*\n",
    ("length", 0): rf"retro length 1\n(?:{ODDS}\n)?fen {FEN}\natleast \d+\nmoves [wb](?: -?\d+){{0,16}} /(?: -?\d+){{16}}\n",
    ("length", 2): r"undecided\n",
    ("atleast", 0): rf"accepted atleast \d+ {FEN}(?: {ODDS})?\n",
    ("atleast", 1): r"refused (?:line [1-9]\d* text|unsupported)\n",
    ("line", 0): rf"accepted {STEPS} {FEN}(?: {ODDS})?(?: {CLOCK})?\n",
    ("line", 1): rf"refused (?:head|step [1-9]\d* unlisted|part [1-9]\d* (?:text|other|line [1-9]\d* {FAULT}))\n",
    ("dossier", 0): rf"retro line 1\nclaim {STEPS}\n(?:{ODDS}\n)?(?:{CLOCK}\n)?fen {FEN}\n(?:part [1-9]\d*\nretro [12]\n(?:(?!part )[^\n]+\n)+)+",
    ("dossier", 1): r"refused step [1-9]\d* unlisted\n",
    ("dossier", 2): r"undecided part [1-9]\d*\n",
}
WORD = r"(?:proved \d+|countered|open|spent)"
RIGHT = r"(?:lost [KQkq]|notboth [KQkq] [KQkq]|ep [a-h][1-8][a-h][1-8])"
# A claim that isn't proved, with where the search for a proof of an open one got stuck.
UNPROVED = lambda claim: rf"(?:(?:countered|spent) {claim}\n|open {claim}\n(?:stuck {claim}(?: {UNMOVE}){{0,8}}\n)?)"
SQUARE = r"(?: [a-h][1-8])"
# Each line of a ledger, and how often it comes; and what a ledger says only if a castling is held.
LEDGER_LINES = (
    (rf"unmoved{SQUARE}+", "?"),
    (r"lacks [wb](?: q)*(?: r)*(?: bd)*(?: bl)*(?: n)*(?: p)*", "{0,2}"),
    (r"captures [wb] \d+ \d+ \d+(?: dark \d+ \d+)?(?: on [a-h]-(?:dark|light) \d+)*", "{0,2}"),
    (rf"pawn{SQUARE}(?: [a-h][1-8](?:,[a-h][1-8])* \d\+?|{SQUARE}{{2,6}})", "*"),
    (rf"man{SQUARE}{{2}}", "*"),
    (rf"ahead{SQUARE}+", "?"),
    (rf"original{SQUARE}+", "?"),
    (rf"promoted{SQUARE} [a-h][1-8](?:,[a-h][1-8])*", "*"),
    (rf"among \d+{SQUARE}+", "*"),
    (rf"fell{SQUARE}(?: pawn| officer)?(?: as-pawn| as-promoted)?(?: within [1-3])?", "*"),
    (rf"became{SQUARE}", "*"),
)
LEDGER = "".join(rf"(?:{form}\n){times}" for form, times in LEDGER_LINES)
HELD = "".join(rf"(?:if {right} {form}\n){times}" for right in "KQkq" for form, times in LEDGER_LINES)
STUDY = (
    rf"(?:proved \d+ illegal\nother side {WORD} illegal\n|{UNPROVED('illegal')}(?:proved \d+ {RIGHT}\n|{UNPROVED(RIGHT)})*"
    rf"(?:proved \d+ last {MOVE}\n)?(?:proved \d+ line {UNMOVE}(?: {UNMOVE}){{1,15}}\n)?left \d+ of \d+(?: {UNMOVE}){{0,24}}\n(?:possible [0-8] of [1-8](?: {UNMOVE}){{0,8}}\n)?{LEDGER}{HELD}(?:atleast \d+\n)?)"
)
DRAWN = r"  a b c d e f g h\n(?:[1-8](?: [.PNBRQKpnbrqk]){8}(?:     (?:White|Black) to move)?\n){8}"
FORMS |= {("report", 0): rf"{DRAWN}[^\0]+", ("study", 0): rf"{STUDY}(?:without demands\n{STUDY})?", ("--help", 0): r"usage:\n[^\0]+", ("--version", 0): r"retractor \d+\.\d+\n"}
FORMS |= {("settle", status): FORMS["solve", status] for status in (0, 2, 4)}
FORMS = {key: re.compile(form) for key, form in FORMS.items()}
SPENT = re.compile(r"spent \d+\n")
BAD = re.compile(r"bad line ([1-5])\n|bad fen field [1-9]\d* byte \d+\n")
NOTE = re.compile(r"closed|array|end|(?:back|expand) \d+")


def command_of(words):
    """The command that the words call, None if they call none."""
    if not words:
        return None
    name = words[0].decode("ascii", "replace")
    numbers, ranges = words[1:], RANGES.get(name, [])
    if name in ALONE and not numbers:
        return name
    if name not in STATUSES or len(numbers) != len(ranges):
        return None
    fits = all(re.fullmatch(rb"0|[1-9][0-9]{0,30}", word) and low <= int(word) <= high for word, (low, high) in zip(numbers, ranges))
    return name if fits else None


class Program:
    """The program under test, and how often it was run."""

    def __init__(self, path):
        self.path, self.runs = path, 0

    def run(self, case):
        """The status, standard output and standard error; the status is None where the time is over."""
        self.runs += 1
        given = {"input": case.input, "stdout": subprocess.PIPE}
        opened = self.failing(case.fails)
        if case.fails == "read":
            given = {"stdin": opened, "stdout": subprocess.PIPE}
        elif case.fails:
            given["stdout"] = opened
        try:
            done = subprocess.run([self.path, *case.words], stderr=subprocess.PIPE, timeout=SECONDS, **given)
            return done.returncode, done.stdout or b"", done.stderr
        except subprocess.TimeoutExpired:
            return None, b"", b""
        finally:
            if opened is not None:
                os.close(opened)

    @staticmethod
    def failing(fails):
        """A folder, whose reads fail; a full device or a pipe without a reader, whose writes do; None if nothing is to fail."""
        if fails == "read":
            return os.open("/", os.O_RDONLY)
        if fails == "write":
            return os.open("/dev/full", os.O_WRONLY)
        if fails == "pipe":
            reader, writer = os.pipe()
            os.close(reader)
            return writer
        return None

    def answers(self, words, text):
        return self.run(Case([word.encode() for word in words], text))


def due(case, command):
    """The statuses that the case can end with."""
    if command is None:
        return (5,)
    if command not in UNREADING and case.fails == "read":
        return (7,)
    if command not in UNREADING and len(case.input) > LIMIT:
        return (10,)
    return (8,) if case.fails in ("write", "pipe") else STATUSES[command]


def misbehaves(case, command, status, out, said):
    """What is wrong with how the run ended, whatever it wrote."""
    if status is None:
        return f"no end within {SECONDS} seconds"
    if status < 0:
        return f"died by signal {-status}"
    if status not in due(case, command):
        return f"status {status}, not one of {due(case, command)}"
    if status in (5, 7, 9, 10) and out:
        return f"status {status} with an answer"
    if status in (5, 6) and said.count(b"\n") != 1:
        return "not one line on standard error"
    if said and not (status > 4 or status == 1 and command in HINTING):
        return "something on standard error beside an answer"
    return None


def misformed(case, command, status, out):
    """What is wrong with the form of the answer."""
    if status in (5, 7, 8, 9, 10):
        return None
    try:
        text = out.decode("ascii")
    except UnicodeDecodeError:
        return "an answer that isn't ASCII"
    if status == 6:
        found = BAD.fullmatch(text)
        fits = found and (not found[1] or int(found[1]) <= LAST_LINE[command])
    elif status == 3:
        nodes = case.words[2].decode() if len(case.words) > 2 else "500000"
        fits = SPENT.fullmatch(text) and text == f"spent {nodes}\n"
    else:
        fits = FORMS[command, status].fullmatch(text)
    if not fits:
        return "an answer of another form"
    check = NUMBERS.get((command, status))
    return check(case, text) if check else None


def checker_of(text):
    """The command that checks such a proof: its first line says which."""
    return {b"retro line 1": "line", b"retro length 1": "atleast"}.get(text.partition(b"\n")[0] if b"\n" in text else b"", "check")


def wrong_said(case, text):
    """An accepted line names the claim, the position, the odds and the clock of the input."""
    _, claim, *lines = case.input.decode("ascii").split("\n")
    at = next(at for at, line in enumerate(lines) if line.startswith("fen "))
    said = " ".join([claim[6:], lines[at][4:], *lines[:at]])
    if text != f"accepted {said}\n":
        return "another claim or position than the input's"
    return None


def wrong_accepted(case, text):
    given = case.input.decode("ascii")
    wrong = wrong_said(case, text) or ("bad text that is accepted" if bad_node(given, root_of(given)) else wrong_balance(case, True))
    return wrong or wrong_sketches(given, root_of(given))


def wrong_refused(case, text):
    """Whether the nodes of a certificate go bad at the line of the answer, where the head is good."""
    words = text.split()
    given = case.input.decode("latin-1")
    if checker_of(case.input) != "check" and case.words[0] == b"explain":
        return None
    line, root = int(words[2]), root_of(given)
    if words[3] == "text" and (root is None or line < root):
        return None
    if root is None:
        return "a fault of a text without a head"
    if bad_node(given, root) != (line if words[3] == "text" else None):
        return "text that goes bad at another line"
    if words[3] == "text":
        return None
    wrong = wrong_balance(case, False) if words[2:] == [str(root), "unsupported", "rule"] else None
    return wrong or wrong_sketches(given, root, line, words[-1])


def wrong_sketches(text, root, line=sys.maxsize, word=""):
    """Whether fuzz_sketches.py judges the sketches likewise that were looked at before the text ended or the fault was met at this line."""
    for sketch, query in sketches_before(text, root, line):
        faulty = line <= sketch.line + len(sketch.prices) + len(sketch.lines)
        if sketch_fault(query, sketch) != ((line, word) if faulty else None):
            return "a sketch that is judged otherwise"
    return None


def wrong_explained(case, text):
    """Whether the text begins with the diagram of the proof's position, ends with its end, and has no long line and none that ends with a blank."""
    lines = case.input.decode("ascii").split("\n")
    placement, turn = next(line for line in lines if line.startswith("fen ")).split(" ")[1:3]
    men = men_of(placement)
    ranks = [f"{rank + 1} {' '.join(man or '.' for man in men[8 * rank : 8 * rank + 8])}" for rank in range(7, -1, -1)]
    ranks[-1] += f"     {'White' if turn == 'w' else 'Black'} to move"
    told = text.split("\n")[:-1]
    if told[1:9] != ranks:
        return "another diagram than that of the position"
    if not told[-1].endswith("QED"):
        return "a proof without its end"
    return "a long line, or a blank at an end" if any(len(line) > 100 or line.endswith(" ") for line in told) else None


def wrong_balance(case, accepted):
    """Whether the reason `balance` of a root is weighed as fuzz_rules.py weighs it."""
    text = case.input.decode("ascii")
    line = text.split("\n")[root_of(text) - 1]
    if not line.startswith("root rule balance "):
        return None
    frozen, *words = line.split(" ")[3:]
    white, black, gates = prices_of(words)
    supports = balances(root_query(text), squares_of(frozen), Prices({"w": white, "b": black}, gates))
    return None if supports == accepted else "a balance that is weighed otherwise"


def wrong_total(case, text):
    lines = text.split("\n")
    return None if lines[-2] == f"total {len(lines) - 2}" else "a wrong total"


def wrong_length(case, text):
    return None if len(text.split()) - 1 == int(case.words[1]) else "an open line that isn't as long as the depth"


def wrong_depth(case, text):
    depths = re.findall(r" to (\d+)\n", text)
    return None if all(depth == case.words[1].decode() for depth in depths) else "another depth than was asked for"


def wrong_tree(case, text):
    """Whether the lines are a tree: each `expand n` has n children, and `end` stands at the last level."""
    lines, deepest = text.split("\n")[:-1], int(case.words[1])
    if len(lines) > int(case.words[2]):
        return "more lines than were allowed"
    # How many children each open level still wants.
    wanted = [1]
    for line in lines:
        level = (len(line) - len(line.lstrip(" "))) // 2
        note = line.strip().split(" ", 1)[1]
        while wanted and wanted[-1] == 0:
            wanted.pop()
        if not NOTE.fullmatch(note) or level != len(wanted) - 1 or (note == "end") > (level == deepest):
            return "a line that doesn't fit the tree"
        wanted[-1] -= 1
        if note.startswith("expand"):
            if level == deepest:
                return "a node below the last level"
            wanted.append(int(note.split(" ")[1]))
        if note.startswith("back") and not 1 <= int(note.split(" ")[1]) <= level:
            return "a step back above the root"
    return "a node with too few children" if any(wanted) else None


def wrong_summary(case, text):
    games, plies = (int(text.split(" ")[at]) for at in (1, 3))
    return None if games == int(case.words[2]) and plies <= games * int(case.words[3]) else "wrong counts"


NUMBERS = {
    ("check", 0): wrong_accepted,
    ("check", 1): wrong_refused,
    ("explain", 0): wrong_explained,
    ("explain", 1): wrong_refused,
    ("line", 0): wrong_said,
    ("unmoves", 0): wrong_total,
    ("solve", 2): wrong_length,
    ("verdict", 0): wrong_depth,
    ("tree", 0): wrong_tree,
    ("sample", 0): wrong_summary,
}


def stated(case):
    """The claim of `solve` or `dossier`, the lines of odds and clock, and the FEN."""
    claim, _, rest = case.input.decode().replace("\r\n", "\n").partition("\n")
    return claim, *parted(rest)[:2]


def unproved(program, case, out, rng):
    """What is wrong with a certificate of `solve` or a dossier. One that is mutated may be refused, in the form of a refusal."""
    claim, demands, fen = stated(case)
    checker = "line" if case.words[0] == b"dossier" else "check"
    form = "line 1" if checker == "line" else 2 if demands else 1
    head = f"retro {form}\n{claim}\n{demands}fen {' '.join(fen.split(' ')[:4])}\n"
    if not out.decode().startswith(head):
        return "a text of another claim or position"
    if program.answers([checker], out)[0] != 0:
        return "a text that isn't accepted"
    other = Case([checker.encode()], mutated(rng, out))
    status, answer, said = program.run(other)
    wrong = misbehaves(other, checker, status, answer, said) or misformed(other, checker, status, answer)
    if wrong:
        return f"{wrong}, in a mutated text: {other.input.decode('latin-1')!r}"
    return unexplained(program, out) if checker == "check" else None


def unexplained(program, text):
    """What is wrong with the proof in plain words of a certificate that `check` accepts."""
    explained = Case([b"explain"], text)
    status, told, said = program.run(explained)
    if status != 0:
        return "a certificate that isn't explained"
    return misbehaves(explained, "explain", status, told, said) or misformed(explained, "explain", status, told)


def unlike_check(program, case, status, out):
    """What is wrong with an answer of `explain`: it explains what the checker accepts, and writes what the checker writes where it refuses."""
    checker = checker_of(case.input)
    checked, line, _ = program.answers([checker], case.input)
    if (checked, status) == (0, 0):
        return None
    return None if (checked, line) == (status, out) else f"an answer unlike that of {checker}: {checked}, {line!r}"


def uncountered(program, case, out):
    """What is wrong with a game of `solve`: it reaches the position, with the right that is said to be lost, or by another last move."""
    claim, demands, fen = stated(case)
    moves = out.decode().split()[1:]
    kind, _, what = claim.partition(" ")[2].partition(" ")
    fields = fen.split(" ")
    if kind == "lost":
        fields[2] = "".join(letter for letter in "KQkq" if letter in fields[2] + what)
    if kind == "last" and moves[-1:] == [what]:
        return "a game that ends with the claimed move"
    status, answer, _ = program.answers(["play"], f"{demands}{' '.join(fields)}\n{' '.join(moves)}\n".encode())
    return None if (status, answer) == (0, b"legal\n") else "a game that isn't legal or doesn't reach the target"


def misspelled(program, case):
    """What is wrong with the spelling of a game from the whole array that `play` calls legal: `san` calls it legal too."""
    demands, fen, moves = parted(case.input.decode().replace("\r\n", "\n"))
    if "odds" in demands:
        return None
    status, spelled, _ = program.answers(["spell"], moves.encode())
    if status != 0:
        return "a legal game that isn't spelled"
    answer = program.answers(["san"], f"{demands}{fen}\n".encode() + spelled)[:2]
    return None if answer == (0, b"legal\n") else "a spelled game that isn't legal"


def unreckoned(program, out):
    """What is wrong with a text of `length`."""
    return None if program.answers(["atleast"], out)[0] == 0 else "a length that isn't accepted"


def unborne(program, case, out, rng):
    """What is wrong with one line of `verdict`, by `solve`."""
    line = rng.choice(out.decode().split("\n")[:-1])
    if line == "no rights":
        return None
    right, words = line.split(" ", 1)
    claim = f"claim lost {right}" if len(right) == 1 else f"claim ep {right}"
    status = program.answers(["solve", *(word.decode() for word in case.words[1:])], claim.encode() + b"\n" + case.input)[0]
    fits = status == 0 if words.endswith("permitted") else status in (2, 4)
    return None if fits else f"the line {line!r}, where solve ends with status {status}"


def wrong(program, case, rng):
    """What is wrong with a run of the case, with the run; None if nothing is."""
    command = command_of(case.words)
    ended = program.run(case)
    status, out, _ = ended
    found = misbehaves(case, command, *ended) or misformed(case, command, status, out)
    if not found and not case.fails:
        if (command, status) in (("solve", 0), ("settle", 0), ("dossier", 0)):
            found = unproved(program, case, out, rng)
        elif (command, status) in (("solve", 4), ("settle", 4)):
            found = uncountered(program, case, out)
        elif (command, status) == ("verdict", 0):
            found = unborne(program, case, out, rng)
        elif (command, status) == ("play", 0):
            found = misspelled(program, case)
        elif (command, status) == ("length", 0):
            found = unreckoned(program, out)
        elif command == "explain":
            found = unlike_check(program, case, status, out)
    if not found and rng.randrange(100) == 0 and program.run(case) != ended:
        found = "a second run that differs"
    return found, ended


def keep(folder, seed, number, case, found, ended):
    """Writes a file for the finding. An input over a megabyte is left out, since seed and number give it again."""
    text = lambda value: value.decode("latin-1")
    said = {
        "wrong": found,
        "seed": seed,
        "number": number,
        "words": [text(word) for word in case.words],
        "fails": case.fails,
        "input": text(case.input) if len(case.input) <= 1_000_000 else None,
        "status": ended[0],
        "stdout": text(ended[1][:10_000]),
        "stderr": text(ended[2][:10_000]),
    }
    folder.mkdir(parents=True, exist_ok=True)
    (folder / f"{seed}-{number}.json").write_text(json.dumps(said, indent=1) + "\n")


def work(task):
    """Tries some cases, and tells how many, how many runs it took and what was found."""
    path, folder, seed, numbers = task
    program, maker, findings = Program(path), Maker(), []
    for number in numbers:
        case = maker.case(seed, number)
        found, ended = wrong(program, case, random.Random(f"{seed} {number} tried"))
        if found:
            keep(pathlib.Path(folder), seed, number, case, found, ended)
            findings.append(f"{seed}-{number}: {found}")
    return len(numbers), program.runs, findings


def again(program, folder):
    """Runs the kept cases of a folder, and tells how many are still wrong."""
    left = 0
    for path in sorted(folder.glob("*.json")):
        said = json.loads(path.read_text())
        seed, number = said["seed"], said["number"]
        case = Maker().case(seed, number)
        if said["input"] is not None:
            case = Case([word.encode("latin-1") for word in said["words"]], said["input"].encode("latin-1"), said["fails"])
        found, _ = wrong(Program(program), case, random.Random(f"{seed} {number} tried"))
        left += found is not None
        print(f"{path.name}: {found or 'as it should be'}")
    return left


def main():
    parser = argparse.ArgumentParser(description=__doc__, formatter_class=argparse.RawDescriptionHelpFormatter)
    parser.add_argument("program")
    parser.add_argument("--cases", type=int, default=10_000)
    parser.add_argument("--jobs", type=int, default=os.cpu_count())
    parser.add_argument("--seed", type=int, default=1)
    parser.add_argument("--found", default="fuzz-found")
    parser.add_argument("--again", type=pathlib.Path)
    args = parser.parse_args()
    program = str(pathlib.Path(args.program).resolve())
    if args.again:
        sys.exit(1 if again(program, args.again) else 0)

    begun = time.perf_counter()
    tasks = [(program, args.found, args.seed, range(at, min(at + CHUNK, args.cases))) for at in range(0, args.cases, CHUNK)]
    cases = runs = found = 0
    with multiprocessing.Pool(args.jobs) as pool:
        for number, (some, more, findings) in enumerate(pool.imap_unordered(work, tasks), 1):
            cases, runs, found = cases + some, runs + more, found + len(findings)
            print(*findings, sep="\n", end="\n" if findings else "", flush=True)
            if number % 100 == 0:
                print(f"{cases} cases, {cases / (time.perf_counter() - begun):.0f} a second, {found} found", file=sys.stderr)
    seconds = time.perf_counter() - begun
    print(f"{cases} cases in {runs} runs, {seconds:.1f} seconds, {cases / seconds:.0f} cases a second, {found} found")
    sys.exit(1 if found else 0)


if __name__ == "__main__":
    main()
