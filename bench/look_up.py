#!/usr/bin/env python3
"""Looks up each node of certificates in their explanations, as a reader does: by the printed text alone.

look_up.py [--against PLAIN] PROGRAM FILE ..
  --against PLAIN   a program whose `explain` tells the nodes otherwise: each node has to say the same in both texts

A FILE is a certificate, or has a line `name | claim | FEN | ..` for each claim of which `PROGRAM settle` writes one. Of each certificate
`PROGRAM explain` is read. A node is found by the retractions that lead to it in the certificate: at each, of the paragraphs below, the one
that names it, or else *Every other move*; if there is none and the paragraph says *As in N*, below N. Every node has to be found, and to
say what is of the kind of its line: that moves follow if it has children, that nobody can have moved if it is `expand 0`, and otherwise
neither. Letters of men are compared with the board. What isn't so is printed, and the exit status is then 1.
"""
import argparse
import pathlib
import re
import subprocess
import sys

NODE = re.compile(r"(?:root|([a-h][1-8])([a-h][1-8])([nbrq]?)(x[pnbrq]|ep)?) (expand|rule|back|sketch)\b ?(\d*)")
KINDS = {"pawn": "xp", "knight": "xn", "bishop": "xb", "rook": "xr", "queen": "xq"}
NUMBER = re.compile(r"(\d+(?:\.\d+)*)(?:-\d+)? (.*)$")
GOES_ON = re.compile(r"([^.]*\. (?:As in [\d.]*\d(?:\.|, but for (?:this|these):)|[^.:]* was one of these:)) (\d+(?:\.\d+)*) (.*)$")
WAY = re.compile(r"([NBRQK]?)([a-h][1-8](?:/[a-h][1-8])*)([-x])([a-h][1-8])(?:=([NBRQ]))?( castles)?( en passant)?")


class Node:
    """A node of a certificate: the retraction that leads to it, what its line has, and its children."""

    def __init__(self, match):
        self.label = None if match[0].startswith("root") else (match[1], match[2], match[3], match[4] or "")
        self.body, self.count = match[5], int(match[6]) if match[5] == "expand" else 0
        self.kids = []


def tree_of(certificate):
    """The tree of a certificate's lines. Those that belong to a sketch begin otherwise than a node."""
    nodes = [Node(match) for match in map(NODE.match, certificate.splitlines()) if match]
    open_nodes = []
    for node in nodes:
        while open_nodes and len(open_nodes[-1].kids) == open_nodes[-1].count:
            open_nodes.pop()
        if open_nodes:
            open_nodes[-1].kids.append(node)
        open_nodes.append(node)
    return nodes[0]


class Paragraph:
    """A paragraph: the retractions that it names, or that it tells every other move; its words, or the number of that as in which it is."""

    def __init__(self, labels, said):
        self.is_rest = labels == "Every other move"
        self.ways = set() if self.is_rest or labels is None else set(ways_of(labels))
        reference = re.fullmatch(r"As in ([\d.]*\d)(?:-\d+)?(?:\.|, but for (?:this|these):)", said)
        self.reference, self.words, self.below = reference and reference[1], said, []


def takings(text):
    """The captures of some moves of one bundle."""
    if text == "officer":
        return [KINDS[kind] for kind in KINDS if kind != "pawn"]
    return [KINDS[kind] for kind in re.split(r", | or ", text)]


def ways_of(labels):
    """The retractions that labels name."""
    for bundle in labels.split("; "):
        whoever = bundle.endswith(", whoever fell")
        moves, _, taken = re.sub(r", (?:each )?capturing an? |, whoever fell$", "\0", bundle).partition("\0")
        for way in moves.split(", "):
            match = WAY.fullmatch(way)
            if not match:
                raise ValueError(f"not a move: {way}")
            captured = ["ep"] if match[7] else list(KINDS.values()) if whoever else takings(taken) if taken else [""]
            for origin in match[2].split("/"):
                for taking in captured:
                    yield origin, match[4], (match[5] or "").lower(), taking


def joined(parts):
    """Numbers and words, also of paragraphs that go on in a line: behind one that ends with a colon, or with a reference."""
    for number, said in parts:
        words = " ".join(said)
        while number and (match := GOES_ON.match(words)):
            yield number, match[1]
            number, words = match[2], match[3]
        yield number, words


def paragraphs_of(text):
    """The paragraphs of an explanation by their numbers; that of the root has none."""
    lines = text.splitlines()
    start = next(i for i, line in enumerate(lines) if line.startswith("Suppose "))
    parts = [["", []]]
    for line in lines[start:-1]:
        match = NUMBER.match(line)
        if match:
            parts.append([match[1], [match[2]]])
        else:
            parts[-1][1].append(line.strip())
    found = {}
    for number, words in joined(parts):
        labels, _, rest = (None, "", words) if number == "" else words.partition(". ")
        found[number] = Paragraph(labels, rest)
        if number:
            found[number.rpartition(".")[0]].below.append(found[number])
    return found


def found_below(paragraphs, paragraph, label):
    """The paragraph that tells the node to which a retraction leads, if one does."""
    while True:
        for kid in paragraph.below:
            if label in kid.ways:
                return kid
        for kid in paragraph.below:
            if kid.is_rest:
                return kid
        if not paragraph.reference:
            return None
        paragraph = paragraphs[paragraph.reference]


def words_of(paragraphs, paragraph):
    while paragraph.reference:
        paragraph = paragraphs[paragraph.reference]
    return paragraph.words


def is_of_kind(node, words):
    """Whether the words are of the kind of the node's line."""
    if node.body != "expand":
        return not words.endswith(" was one of these:")
    if node.count:
        return words.endswith(" was one of these:")
    return "no move before it" in words or "but no man can have" in words or "moved last" in words


def looked_up(text, root):
    """The words of each node by the retractions that lead there, or None if the node isn't found."""
    paragraphs = paragraphs_of(text)
    todo, found = [((), root, paragraphs[""])], {}
    while todo:
        path, node, paragraph = todo.pop()
        found[path] = (node, paragraph and words_of(paragraphs, paragraph))
        for kid in node.kids:
            todo.append((path + (kid.label,), kid, paragraph and found_below(paragraphs, paragraph, kid.label)))
    return found


def answer(program, words, text):
    return subprocess.run([program, *words], input=text, stdout=subprocess.PIPE, stderr=subprocess.DEVNULL, text=True, check=False).stdout


def certificates(program, files):
    for file in files:
        text = pathlib.Path(file).read_text()
        if text.startswith("retro "):
            yield pathlib.Path(file).name, text
            continue
        for line in text.splitlines():
            name, claim, fen = (part.strip() for part in line.split("|")[:3])
            yield name, answer(program, ["settle"], f"claim {claim}\n{fen}\n")


def faults(program, plain, certificate):
    """How many nodes the certificate has, and what is wrong with how they are told."""
    text, root = answer(program, ["explain"], certificate), tree_of(certificate)
    found, wrong = looked_up(text, root), []
    others = looked_up(answer(plain, ["explain"], certificate), root) if plain else {}
    for path, (node, words) in found.items():
        way = " ".join("".join(label) for label in path) or "root"
        if words is None:
            wrong.append(f"not found: {way}")
        elif path and not is_of_kind(node, words):
            wrong.append(f"of another kind: {way}: {words}")
        elif plain and words != others[path][1]:
            wrong.append(f"otherwise: {way}: {words} | {others[path][1]}")
    return len(found), wrong, text.count("\n")


def main():
    parser = argparse.ArgumentParser(description=__doc__, formatter_class=argparse.RawDescriptionHelpFormatter)
    parser.add_argument("--against", metavar="PLAIN")
    parser.add_argument("program", metavar="PROGRAM")
    parser.add_argument("files", metavar="FILE", nargs="+")
    args = parser.parse_args()
    texts, nodes, lines, most, bad = 0, 0, 0, 0, 0
    for name, certificate in certificates(args.program, args.files):
        count, wrong, length = faults(args.program, args.against, certificate)
        texts, nodes, lines, most, bad = texts + 1, nodes + count, lines + length, max(most, length), bad + len(wrong)
        for fault in wrong:
            print(f"{name}: {fault}")
    print(f"{texts} texts, {lines} lines, {most} at most; {nodes} nodes, {bad} not told so")
    sys.exit(1 if bad else 0)


if __name__ == "__main__":
    main()
