"""Certificates with sketches that hold, and changes of them, for fuzz_cases.py and sketches.py."""
import re

FLAT = " ".join(["24"] * 16)
# Each a position and a sketch: a king that can't have come from home, L'Alfiere 1922, RA 51, Tägliche Rundschau.
KING = ["fen 4k3/8/8/8/8/8/4PPPP/5BK1 w - -", "sketch 0", "now steps 0"]
ALFIERE = [
    "fen 8/pbp5/1b6/8/PPPPPPP1/pprprpp1/2N1PR1n/R3K2k w Q -",
    "sketch 1",
    f"24 24 24 24 24 24 24 24 24 25 26 27 24 24 21 21 / {FLAT} / h2 3 f3 3 h3 3 f4 3",
    "now marks 1 steps 8",
    "mark 1 4 6 13 14 15 16 17 18 22",
    *(f"{label} closed 1" for label in ("b2=b1", "a2xb1b=", "a2xb1nrq=", "g2xf1b=", "g2xf1nrq=", "h3xg4p", "h3xg4b", "h3xg4nrq")),
]
RA_51 = [
    "fen K3k2r/1p2p1p1/p1p1p3/2Q1Np2/3n1P2/4PRP1/PPPPRrP1/n2bqB2 w k -",
    "sketch 1",
    f"{FLAT} / {FLAT} /",
    "now marks 1 steps 13",
    "mark 1 2 4 9 12 13 16 17 18 19 20 21",
    *(f"h2x{rest} closed 1" for rest in ("g1b=", "g1nrq=", "g3p", "g3b", "g3nrq", "g1b=", "g1nrq=")),
    *(f"{pawn}7xe6{victim} closed 1" for pawn in "df" for victim in ("p", "b", "nrq")),
]
TAEGLICHE = ["fen 8/5p2/5p2/2R5/k5P1/P2PpP2/1PP1P2P/4K2R w K -", "sketch 1", f"{FLAT} / {FLAT} /", "now closed 1"]
SKETCHES = {"king": KING, "alfiere": ALFIERE, "ra 51": RA_51, "taegliche": TAEGLICHE}
# The king, of whom it is asked what was before his last move. Black's men are shut in, and nobody was taken.
BEFORE = ("odds 4200000000000000\n", "r1bqkb1r/pppppppp/8/8/8/8/4PPPP/5BK1 b - -", ["root expand 1", "h1g1 sketch 0", "now steps 0"])
# Lines, in the order of fuzz_cases.py: claim, demands, FEN, nodes.
CERTIFICATES = [("illegal", lines[0][4:], [f"root {lines[1]}", *lines[2:]]) for lines in SKETCHES.values()]
CERTIFICATES += [
    ("lost Q", ALFIERE[0][4:].replace(" Q ", " - "), CERTIFICATES[1][2]),
    ("lost k", RA_51[0][4:].replace(" k ", " - "), CERTIFICATES[2][2]),
    ("last e2e4", KING[0][4:], CERTIFICATES[0][2]),
]
DEMANDING = [
    ("illegal", *BEFORE),
    ("illegal", "odds 0000000000000002\n", KING[0][4:], CERTIFICATES[0][2]),
    ("illegal", "clock 3\n", ALFIERE[0][4:], CERTIFICATES[1][2]),
    ("illegal", "odds 0000000000000080\n", "4k3/8/8/8/8/8/8/4K2R w K -", ["root sketch 0", "now void"]),
    ("illegal", "odds 0200000000000000\nclock 0\n", TAEGLICHE[0][4:], CERTIFICATES[3][2]),
]
HEADS = ["sketch 0", "sketch 1", "sketch 2", "sketch 64", "sketch 65", "sketch 0 files a", "sketch 1 files dh", "sketch 1 files hd", "sketch"]
COUNT = re.compile(r"(?<=sketch |.steps |.marks )\d+")


def certificate(lines):
    """The text of a certificate that claims the position of the first line to be illegal, with the sketch of the others."""
    return "\n".join(["retro 1", "claim illegal", *lines[:1], *(f"root {line}" for line in lines[1:2]), *lines[2:], ""])


def sketch_at(lines):
    """The number of the first line of a sketch, None if there is none."""
    return next((at for at, line in enumerate(lines) if line.startswith("sketch ") or " sketch " in line), None)


def parts(lines, at):
    """The numbers of the lines of prices of the sketch that begins there, and of the nodes and the marks behind them."""
    found = re.search(r"sketch (\d+)", lines[at])
    prices = list(range(at + 1, min(len(lines), at + 1 + int(found[1]) if found else 0)))
    behind = range(at + 1 + len(prices), len(lines))
    marks = [i for i in behind if lines[i].startswith("mark ")]
    return prices, [i for i in behind if i not in set(marks)], marks


def square(rng):
    return rng.choice("abcdefgh") + rng.choice("12345678")


def put(lines, i, line):
    return [*lines[:i], line, *lines[i + 1 :]]


def label_of(line):
    words = line.split(" ")
    return " ".join(words[:2]) if words[0] == "case" else words[0]


def dropped(rng, lines, at):
    i = rng.randrange(at, len(lines))
    return lines[:i] + lines[i + 1 :]


def doubled(rng, lines, at):
    i = rng.randrange(at, len(lines))
    return lines[: i + 1] + lines[i:]


def swapped(rng, lines, at):
    """A node's line with the next, or with any other, that has another label."""
    _, nodes, _ = parts(lines, at)
    if not nodes:
        return None
    i = rng.choice(nodes)
    j = min(i + 1, len(lines) - 1) if rng.random() < 0.5 else rng.randrange(at, len(lines))
    return put(put(lines, i, lines[j]), j, lines[i]) if label_of(lines[i]) != label_of(lines[j]) else None


def relabelled(rng, lines, at):
    nodes = [i for i in parts(lines, at)[1][1:] if re.match(r"case |..[-=x]..", lines[i])]
    if not nodes:
        return None
    i, kind = rng.choice(nodes), rng.randrange(4)
    label = old = label_of(lines[i])
    if label.startswith("case "):
        label = f"case {rng.choice('nrq')}"
    elif kind == 0:
        found = re.compile("..").match(label, rng.choice([0, 3]))
        label = label[: found.start()] + square(rng) + label[found.end() :]
    elif kind == 1:
        label = re.sub(r"(?<=.....)(?:nrq|ep|p|b)(=?\d*)$", lambda found: rng.choice(["nrq", "b", "p", "ep"]) + found[1], label)
    elif kind == 2 and label[-1] != "=":
        label = re.sub(r"(?<=.....[pbq])\d?$", rng.choice(["", "1", "2", "3", "6"]), label)
    else:
        label = label[:2] + rng.choice("x-=") + label[3:]
    return put(lines, i, label + lines[i][len(old) :]) if label != old else None


def recounted(rng, lines, at):
    """A number of prices, marks or steps one more or less."""
    counting = [i for i in [at, *parts(lines, at)[1]] if COUNT.search(lines[i])]
    if not counting:
        return None
    i = rng.choice(counting)
    found = rng.choice(list(COUNT.finditer(lines[i])))
    number = max(0, int(found[0]) + rng.choice([-1, 1]))
    return put(lines, i, lines[i][: found.start()] + str(number) + lines[i][found.end() :])


def closed_by_another(rng, lines, at):
    prices, nodes, _ = parts(lines, at)
    closed = [i for i in nodes if " closed " in lines[i]]
    i = rng.choice(closed) if closed else None
    return put(lines, i, f"{lines[i].rpartition(' ')[0]} {rng.randint(1, len(prices) + 1)}") if closed else None


def remarked(rng, lines, at, change):
    """A line of marks with other words behind `mark`."""
    prices, _, marks = parts(lines, at)
    if not marks:
        return None
    i = rng.choice(marks)
    _, price, *figures = lines[i].split(" ")
    if not all(map(str.isdigit, [price, *figures])) or not figures:
        return None
    return put(lines, i, " ".join(["mark", *change(price, figures, len(prices))]))


def in_order(figures):
    return sorted(set(figures), key=int)


def marked_by_another(rng, lines, at):
    return remarked(rng, lines, at, lambda price, figures, prices: [str(rng.randint(1, prices + 1)), *figures])


def mark_moved(rng, lines, at):
    return remarked(rng, lines, at, lambda price, figures, prices: [price, *in_order(rng.sample(figures, len(figures) - 1) + [str(rng.randint(1, 32))])])


def mark_added(rng, lines, at):
    return remarked(rng, lines, at, lambda price, figures, prices: [price, *in_order(figures + [str(rng.randint(1, 32))])])


def mark_left_out(rng, lines, at):
    return remarked(rng, lines, at, lambda price, figures, prices: [price, *in_order(rng.sample(figures, len(figures) - 1))])


def ended_otherwise(rng, lines, at):
    nodes = parts(lines, at)[1]
    if not nodes:
        return None
    i = rng.choice(nodes)
    ends = ["void", "closed 1", "steps 0", "steps 1", f"split {square(rng)}"]
    return put(lines, i, re.sub(r"(?:void|closed \d+|steps \d+|split ..)$", rng.choice(ends), lines[i]))


def repriced(rng, lines, at):
    """A price or a gate that is more or less, or another square of a gate."""
    prices = parts(lines, at)[0]
    if not prices:
        return None
    i = rng.choice(prices)
    words = lines[i].split(" ")
    j = rng.randrange(len(words))
    if words[j].isdigit():
        words[j] = str(max(0, int(words[j]) + rng.choice([-9, -3, -1, 1, 3, 9, 90])))
    elif words[j] != "/":
        words[j] = square(rng)
    return put(lines, i, " ".join(words))


def of_other_files(rng, lines, at):
    head = lines[at].partition(" files ")[0]
    return put(lines, at, head if " files " in lines[at] else f"{head} files {rng.choice(['a', 'b', 'c', 'd', 'e', 'f', 'g', 'h', 'ah', 'abcdefgh', 'ba'])}")


def of_other_rights(rng, lines, at):
    i = next(i for i, line in enumerate(lines) if line.startswith("fen "))
    words = lines[i].split(" ")
    if len(words) != 5:
        return None
    words[3] = "".join(letter for letter in "KQkq" if (letter in words[3]) != (rng.random() < 0.3)) or "-"
    return put(lines, i, " ".join(words))


def of_other_men(rng, lines, at):
    """A man less, or another on his square."""
    i = next(i for i, line in enumerate(lines) if line.startswith("fen "))
    squares = re.sub(r"\d", lambda found: "." * int(found[0]), lines[i][4:])
    end = squares.index(" ")
    men = [j for j in range(end) if squares[j].isalpha()]
    if not men:
        return None
    j = rng.choice(men)
    squares = squares[:j] + rng.choice(".....PNBRQpnbrq") + squares[j + 1 :]
    return put(lines, i, "fen " + re.sub(r"\.+", lambda found: str(len(found[0])), squares[:end]) + lines[i][lines[i].index(" ", 4) :])


def byte_changed(rng, lines, at):
    text = "\n".join(lines[at:])
    j = rng.randrange(len(text))
    return [*lines[:at], *(text[:j] + rng.choice("abc 129x=-/\n") + text[j + 1 :]).split("\n")]


# Those that leave no sketch that holds, and those that may.
REFUSED = {"line dropped": dropped, "line doubled": doubled, "lines swapped": swapped, "label": relabelled, "count": recounted}
CHANGES = REFUSED | {
    "closing line": closed_by_another,
    "line of a mark": marked_by_another,
    "mark moved": mark_moved,
    "mark added": mark_added,
    "mark left out": mark_left_out,
    "end": ended_otherwise,
    "price": repriced,
    "files": of_other_files,
    "rights": of_other_rights,
    "man": of_other_men,
    "byte": byte_changed,
}


def changed(rng, lines, kind=None):
    """The lines with a change of this kind, or of any, to the first sketch; None if there is none or nothing changes."""
    at = sketch_at(lines)
    if at is None or at + 1 >= len(lines):
        return None
    new = CHANGES[kind or rng.choice(list(CHANGES))](rng, lines, at)
    return new if new != lines else None
