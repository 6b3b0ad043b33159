"""Reads the nodes of a certificate by itself, for fuzz.py and sketches.py. docs/FORMATS.md has the grammar."""
import re
from dataclasses import dataclass

MOVE = r"[a-h][1-8][a-h][1-8]"
LABEL = re.compile(rf"{MOVE}(?:[nbrq]?(?:x[pnbrq])?|ep)")
NUMBER = re.compile(r"0|[1-9][0-9]*")
SIGNED = re.compile(r"0|-?[1-9][0-9]*")
SET = re.compile(r"[0-9a-f]{16}")
SQUARE = re.compile(r"[a-h][1-8]")
STEP = re.compile(r"[a-h][1-8](?:[-=][a-h][1-8]|x[a-h][1-8](?:(?:p|b|nrq|ep)[1-5]?|(?:b|nrq)=))")
MOST_CHILDREN = 999_999
DEEPEST = 255
# Of sketches: nodes one below another, steps of a node, lines of prices; and the units of all sketches of a certificate.
LOWEST, MOST_STEPS, MOST_PRICES, MOST_UNITS = 64, 1024, 64, 262_144


def is_number(word, low, high):
    return NUMBER.fullmatch(word) is not None and low <= int(word) <= high


def square_of(word):
    return 8 * (int(word[1]) - 1) + ord(word[0]) - ord("a")


def squares_of(word):
    return frozenset(s for s in range(64) if int(word, 16) >> s & 1)


def prices_of(words):
    """Sixteen prices a side and the gates, by square; None if the words are none."""
    if words.count("/") != 2 or len(words) < 34 or words[16] != "/" or words[33] != "/":
        return None
    white, black, gates = words[:16], words[17:33], words[34:]
    if len(gates) % 2 or len(gates) > 32 or not all(is_number(word, 0, 96) for word in white + black):
        return None
    squares, tolls = gates[::2], gates[1::2]
    if not all(map(SQUARE.fullmatch, squares)) or not all(is_number(toll, 1, 96) for toll in tolls):
        return None
    numbers = [square_of(square) for square in squares]
    if any(a >= b for a, b in zip(numbers, numbers[1:])):
        return None
    return [int(word) for word in white], [int(word) for word in black], dict(zip(numbers, map(int, tolls)))


def is_rule(words):
    """Whether a reason has such words, without `rule`."""
    name, rest = words[0], words[1:]
    if name in ("kings", "ranks", "check", "rights"):
        return not rest
    if name == "balance":
        return len(rest) > 1 and SET.fullmatch(rest[0]) is not None and prices_of(rest[1:]) is not None
    if name in ("count", "promo", "caps"):
        if not rest or rest[0] not in ("w", "b"):
            return False
        rest = rest[1:]
    if name == "count":
        return not rest
    if name in ("frozen", "promo"):
        return len(rest) == 1 and SET.fullmatch(rest[0]) is not None
    if name != "caps" or not rest or not SET.fullmatch(rest[0]):
        return False
    at = len(rest) - 9
    potentials = rest[1:at] + rest[at + 1 :]
    return 1 <= at <= 9 and rest[at] == "/" and all(SIGNED.fullmatch(word) and -64 <= int(word) <= 64 for word in potentials)


def children(body, depth):
    """How many children a body tells, None if it is none at this depth."""
    kind, *words = body.split(" ")
    if kind == "rule" and words:
        return 0 if is_rule(words) else None
    if kind == "sketch":
        return 0 if sketch_head(words) else None
    if len(words) != 1:
        return None
    if kind == "back":
        return 0 if is_number(words[0], 1, depth) else None
    if kind == "expand":
        return int(words[0]) if is_number(words[0], 0, 0 if depth == DEEPEST else MOST_CHILDREN) else None
    return None


def sketch_head(words):
    """How many lines of prices a sketch has, and its exact files; None if the words behind `sketch` say none."""
    number, files = words[:1], words[2:]
    if not number or not is_number(number[0], 0, MOST_PRICES) or words[1:2] not in ([], ["files"]) or len(files) != len(words[1:2]):
        return None
    exact = files[0] if files else ""
    letters = [letter for letter in "abcdefgh" if letter in exact]
    return (int(number[0]), letters) if not files or exact and exact == "".join(letters) else None


@dataclass
class SketchNode:
    label: str
    # How many lines of marks follow, and the end: its word, and a number or a square behind it.
    marks: int
    end: str
    value: int = 0

    def below(self):
        """How many nodes it has below it."""
        return {"steps": self.value, "split": 3}.get(self.end, 0)


@dataclass
class Marks:
    price: int
    figures: list


def node_of(line, prices):
    """What the line of a node of a sketch says, None if it says nothing."""
    label, *words = line.split(" ")
    if label == "case":
        if words[:1] not in (["n"], ["r"], ["q"]):
            return None
        label = f"case {words.pop(0)}"
    elif label != "now" and not STEP.fullmatch(label):
        return None
    marks = 0
    if words[:1] == ["marks"]:
        if len(words) < 2 or not is_number(words[1], 1, 8):
            return None
        marks, words = int(words[1]), words[2:]
    if words == ["void"]:
        return SketchNode(label, marks, "void")
    if len(words) != 2:
        return None
    end, word = words
    if end == "closed" and is_number(word, 1, prices) or end == "steps" and is_number(word, 0, MOST_STEPS):
        return SketchNode(label, marks, end, int(word))
    return SketchNode(label, marks, end, square_of(word)) if end == "split" and SQUARE.fullmatch(word) else None


def marks_of(line, prices):
    """What a line of marks says, None if it says nothing."""
    kind, *words = line.split(" ")
    if kind != "mark" or len(words) < 2 or not is_number(words[0], 1, prices) or not all(is_number(word, 1, 32) for word in words[1:]):
        return None
    figures = [int(word) for word in words[1:]]
    return Marks(int(words[0]), figures) if all(a < b for a, b in zip(figures, figures[1:])) else None


class Sketch:
    """A sketch in a certificate as far as its lines are read: what they say, what is due, and the units that are certain by now."""

    def __init__(self, line, prices, files, units):
        # The number of its first line, its lines of prices, and its other lines.
        self.line, self.files, self.prices, self.lines = line, files, [], []
        self.wanted, self.marks, self.nodes = prices, 0, [1]
        self.units = units + prices + 1

    def is_over(self):
        return not self.wanted and not self.marks and not self.nodes

    def goes_on(self, line):
        """Whether the line is one that is due, within the limits."""
        if self.wanted:
            prices = prices_of(line.split(" "))
            self.prices.append(prices)
            self.wanted -= 1
            return prices is not None
        said = marks_of(line, len(self.prices)) if self.marks else node_of(line, len(self.prices))
        self.lines.append(said)
        if said is None or not self.marks and not self.has_room(said):
            return False
        if self.marks:
            self.marks -= 1
            self.units += len(said.figures) - 1
        else:
            self.announce(said)
        return self.units <= MOST_UNITS

    def has_room(self, node):
        """Whether the node may stand where one is due."""
        depth = len(self.nodes) - 1
        return (node.label == "now") == (depth == 0) and not (node.below() and depth >= LOWEST) and not (node.marks and not self.prices)

    def announce(self, node):
        """Charges what must follow the node: a unit for each line of marks and each node, and 32 for its own steps or cases."""
        self.units += node.marks + node.below() + (32 if node.end in ("steps", "split") else 0)
        self.marks = node.marks
        self.nodes[-1] -= 1
        self.nodes.append(node.below())
        while self.nodes and self.nodes[-1] == 0:
            self.nodes.pop()


@dataclass
class Node:
    line: int
    depth: int
    label: str
    body: str
    sketch: Sketch | None = None


def read_nodes(text, first):
    """The nodes of a certificate, from the root's on, which has the number `first`; and the line at which they go bad, None if they don't."""
    *lines, rest = text.split("\n")
    nodes, wanted, sketch, units = [], [1], None, 0
    for number, line in enumerate(lines[first - 1 :], first):
        if sketch:
            if not sketch.goes_on(line):
                return nodes, number
            if sketch.is_over():
                units, sketch = sketch.units, None
            continue
        while wanted and wanted[-1] == 0:
            wanted.pop()
        if not wanted:
            return nodes, number
        label, _, body = line.partition(" ")
        depth = len(wanted) - 1
        count = children(body, depth) if (label == "root" if depth == 0 else LABEL.fullmatch(label)) else None
        if count is None:
            return nodes, number
        if body.startswith("sketch "):
            sketch = Sketch(number, *sketch_head(body.split(" ")[1:]), units)
            if sketch.units > MOST_UNITS:
                return nodes, number
        nodes.append(Node(number, depth, label, body, sketch))
        wanted[-1] -= 1
        wanted.append(count)
    return nodes, len(lines) + 1 if rest or sketch or any(wanted) else None


def root_of(text):
    """The number of the root's line, behind the line of the FEN; None if there is no such line among the first five."""
    return next((at + 2 for at, line in enumerate(text.split("\n")[:5]) if line.startswith("fen ")), None)


def bad_node(text, first):
    """The number of the line at which the nodes go bad, None if they don't."""
    return read_nodes(text, first)[1]
