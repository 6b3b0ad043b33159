#!/usr/bin/env python3
"""Asks the built program about certificates with sketches, and whether it answers as fuzz_sketches.py does.

sketches.py PROGRAM [FOLDER] [--changes N] [--seed N] [--largest N]    cases by hand, and N changes of each kind to certificates that hold
sketches.py --second [FOLDER] ..                                       the same with fuzz_sketches.py alone
sketches.py PROGRAM --limits                                           two texts with all units that a certificate may have, and how long they take
sketches.py --second --limits                                          these texts

The certificates are those of sketch_cases.py, or those of FOLDER: files of a line `fen ..` and a sketch. Each has to be accepted, each case
by hand refused as the table says, and each text with a line dropped or doubled, lines swapped, a label or a count changed refused. The exit
status is 1 if an answer differs.
"""
import argparse
import collections
import pathlib
import random
import re
import subprocess
import sys
import time

from fuzz_rules import array, men_of
from fuzz_sketches import Asked, Steps, closed, first_sketch, held_homes, sketch_fault, sketches_before
from fuzz_texts import MOST_UNITS, bad_node, root_of
from sketch_cases import ALFIERE, BEFORE, CHANGES, REFUSED, SKETCHES, certificate, changed, put

RULE, STRAY, TEXT = "unsupported rule", "unsupported stray", "text"
PRICES = ALFIERE[2]
BARE = "fen 4k3/8/8/8/8/8/8/4K3 w - -"
MARKED = "mark 1 2 3 4 5 9 11 16 17 21 32"
END = len(ALFIERE) + 2


def at(number, line):
    """L'Alfiere's certificate with another line of this number."""
    return certificate(put(ALFIERE, number - 3, line))


def bare(*lines, fen=BARE):
    return certificate([fen, "sketch 0", *lines])


def deep(*lines):
    """63 nodes one below another, and these lines."""
    return bare("now steps 1", *["a2-a3 steps 1"] * 63, *lines)


def split(*lines):
    return certificate([*ALFIERE[:3], "now split a1", *lines])


def many_prices(number):
    lines = [ALFIERE[0], f"sketch {number}", *[PRICES] * number, *ALFIERE[3:]]
    return certificate([line.replace("mark 1 ", "mark 64 ") for line in lines])


def left_out(squares, fen):
    """A void sketch in format 2."""
    return bare("now void", fen=fen).replace("retro 1", "retro 2").replace("fen", f"odds {squares:016x}\nfen")


WHOLE, HOME = certificate(ALFIERE), "fen 4k3/8/8/8/8/8/8/4K2R w K -"
EIGHT, SEVEN, NINE = ALFIERE[3], "now marks 1 steps 7", "now marks 1 steps 9"
# Each with the line and the word of the fault that is due, or nothing where there is none.
CASES = [
    ("as it is", WHOLE, None),
    ("no sketch", certificate([]), (3, TEXT)),
    ("no end of the last line", WHOLE[:-1], (END, TEXT)),
    ("a line too many", WHOLE + "now void\n", (END + 1, TEXT)),
    ("a letter too many", WHOLE + "x", (END + 1, TEXT)),
    ("a line too few", certificate(ALFIERE[:-1]), (END, TEXT)),
    ("a step left out, and its count", certificate(put(ALFIERE, 3, SEVEN)[:11] + ALFIERE[12:]), (14, STRAY)),
    ("the last step left out, and its count", certificate(put(ALFIERE, 3, SEVEN)[:12]), (6, RULE)),
    ("a step too many, and its count", certificate([*put(ALFIERE, 3, NINE), ALFIERE[12]]), (16, STRAY)),
    ("bad text behind another fault", certificate(put(put(ALFIERE, 5, "h3xg4b closed 1"), 11, "g2xf1nrq= closed 2")), (14, TEXT)),
    ("steps in another order", certificate([*ALFIERE[:5], ALFIERE[6], ALFIERE[5], *ALFIERE[7:]]), (8, STRAY)),
    ("a king marked", at(7, MARKED), (7, RULE)),
    ("marks in another order", at(7, "mark 1 3 2"), (7, TEXT)),
    ("figure 0", at(7, "mark 1 0 2"), (7, TEXT)),
    ("figure 33", at(7, "mark 1 2 33"), (7, TEXT)),
    ("nobody marked", at(7, "mark 1"), (7, TEXT)),
    ("no lines of marks", at(6, "now marks 0 steps 8"), (6, TEXT)),
    ("nine lines of marks", at(6, "now marks 9 steps 8"), (6, TEXT)),
    ("line 0 of prices", at(8, "h3xg4p closed 0"), (8, TEXT)),
    ("a zero in front", at(8, "h3xg4p closed 01"), (8, TEXT)),
    ("0 above", at(8, "h3xg4p0 closed 1"), (8, TEXT)),
    ("6 above", at(8, "h3xg4p6 closed 1"), (8, TEXT)),
    ("5 above", at(8, "h3xg4p5 closed 1"), (8, STRAY)),
    ("a pawn taken by a promotion", at(8, "h3xg4p= closed 1"), (8, TEXT)),
    ("now below", at(8, "now closed 1"), (8, TEXT)),
    ("a case among steps", at(8, "case n closed 1"), (8, STRAY)),
    ("a case of a bishop", at(8, "case b closed 1"), (8, TEXT)),
    ("a step first", at(6, "h3xg4p marks 1 steps 8"), (6, TEXT)),
    ("64 lines of prices", many_prices(64), None),
    ("65 lines of prices", many_prices(65), (4, TEXT)),
    ("files in another order", at(4, "sketch 1 files ba"), (4, TEXT)),
    ("a file twice", at(4, "sketch 1 files aa"), (4, TEXT)),
    ("no file", at(4, "sketch 1 files "), (4, TEXT)),
    ("no word of files", at(4, "sketch 1 files"), (4, TEXT)),
    ("a price of 97", at(5, PRICES.replace("21 21 /", "21 97 /")), (5, TEXT)),
    ("a gate of 0", at(5, f"{PRICES} h4 0"), (5, TEXT)),
    ("gates in another order", at(5, f"{PRICES} a1 3"), (5, TEXT)),
    ("a space at an end", at(8, f"{ALFIERE[5]} "), (8, TEXT)),
    ("a split of nobody unknown", split("case n void", "case r void", "case q void"), (6, RULE)),
    ("a split in two", split("case n void", "case r void"), (9, TEXT)),
    ("what can be the array", bare("now steps 0"), (5, RULE)),
    ("1,025 steps", bare("now steps 1025"), (5, TEXT)),
    ("1,024 steps, and none there", bare("now steps 1024"), (6, TEXT)),
    ("depth 64", deep("a2-a3 steps 0"), (5, RULE)),
    ("depth 65", deep("a2-a3 steps 1", "a2-a3 void"), (69, TEXT)),
    ("a split at depth 64", deep("a2-a3 split a1", "case n void", "case r void", "case q void"), (69, TEXT)),
    ("a pawn on rank 8", bare("now void", fen="fen P3k3/8/8/8/8/8/8/4K3 w - -"), (5, RULE)),
    ("17 men", bare("now void", fen="fen 4k3/8/8/8/8/P7/PPPPPPPP/RNBQKBNR w - -"), (5, RULE)),
    ("two kings", bare("now void", fen="fen 4k3/8/8/8/8/8/8/K3K3 w - -"), (5, RULE)),
    ("a right with another man at home", bare("now void", fen="fen 4k3/8/8/8/8/8/8/4K2N w K -"), None),
    ("a right with nobody at home", bare("now void", fen="fen 4k3/8/8/8/8/8/8/4K3 w K -"), (5, RULE)),
    ("a double step isn't looked at", WHOLE.replace(" w Q -", " w Q e6"), None),
    ("nor the side to move", WHOLE.replace(" w Q -", " b Q -"), None),
    ("steps of other rights", WHOLE.replace(" w Q -", " w - -"), (8, STRAY)),
    ("marks without prices", bare("now marks 1 void", "mark 1 1"), (5, TEXT)),
    ("a mark twice", certificate([*put(ALFIERE, 3, "now marks 2 steps 8")[:5], "mark 1 4", *ALFIERE[5:]]), (8, RULE)),
    ("a line of 234 bytes", at(8, "h" * 234), (8, TEXT)),
]
# What was before the king's last move, if he took nobody or a man: a knight may have been promoted on many squares.
BELOW = "retro 1\nclaim illegal\nfen 4k3/8/8/8/8/8/4PPPP/5BK1 b - -\nroot expand 5\n"
LEAVES = [f"h1g1{taken} sketch 0\nnow steps 0\n" for taken in ("", "xn", "xb", "xr", "xq")]
ODDS, FEN, NODES = BEFORE
ONE = "\n".join(["retro 2", "claim illegal", ODDS[:-1], f"fen {FEN}", *NODES, ""])
CASES += [
    ("below the root", ONE, None),
    ("void below the root", ONE.replace("steps 0", "void"), (7, RULE)),
    ("bad text below the root", ONE.replace("steps 0", "closed 1"), (7, TEXT)),
    ("a rook at home, with his right", bare("now void", fen=HOME), (5, RULE)),
    ("one who was left out", left_out(0x80, HOME), None),
    ("a man too many for the odds", left_out(0x100, "fen rnbqkbnr/pppppppp/8/8/8/8/PPPPPPPP/RNBQKBNR w - -"), (6, RULE)),
    ("steps of a knight", BELOW + "".join(LEAVES), (8, RULE)),
    ("void before another fault", BELOW + "".join([LEAVES[0].replace("steps 0", "void"), *LEAVES[1:]]), (6, RULE)),
]


def laden(units):
    """The lines of a sketch behind its first, with so many units, nearly all of them figures in lines of marks."""
    steps = 1020
    figures = units - 34 - steps
    full, rest = divmod(figures, 32)
    marks = [" ".join(["mark 1", *map(str, range(1, n + 1))]) for n in [32] * full + [rest]]
    nodes = []
    for i in range(0, len(marks), 8):
        some = marks[i : i + 8]
        nodes += [f"a2-a3 marks {len(some)} void", *some]
    bare_nodes = steps - (len(marks) + 7) // 8
    return [PRICES, f"now steps {steps}", *["a2-a3 void"] * bare_nodes, *nodes]


ALL, MORE = (certificate([BARE, "sketch 1", *laden(MOST_UNITS + n)]) for n in (0, 1))
# Behind four sketches of 33 units.
LAST = f"h1g1xq sketch 1\n{{}}\n".format("\n".join(laden(MOST_UNITS - 4 * 33)))
CASES += [
    ("all units", ALL, (6, RULE)),
    ("a unit too many", MORE, (MORE.count("\n"), TEXT)),
    ("all units together", BELOW + "".join(LEAVES[:4]) + LAST, (8, RULE)),
    ("a unit too many together", BELOW + "".join([LEAVES[0].replace("steps 0", "steps 1\na2-a3 void"), *LEAVES[1:4]]) + LAST, (13 + LAST.count("\n"), TEXT)),
]


# Black's pawn on d2 stays, and from there attacks White's king, so that nothing that Black may have done is a step; but each is tried. Two of
# White's pawns are unmarked and may have taken three men. White has nine pawns, so each sketch has an account above 0, and none is the array.
CROWDED = "4k3/PPP1PPPP/P7/8/8/pppPpppp/p1ppp1p1/4K2R w K -"
CROWDED_MARKS = "mark 1 5 11 16 17 18 21 22 23"


class Crowded:
    """A certificate with all units: of nodes most of which have no step, though hundreds have to be tried, or with a mark in each line of marks."""

    def __init__(self, by_marks):
        self.by_marks = by_marks
        board = men_of(CROWDED.split(" ")[0])
        self.asked = Asked(array(frozenset()), held_homes("K"), frozenset())
        marked = [int(word) - 1 for word in CROWDED_MARKS.split(" ")[2:]]
        sketch = [f._replace(marked=i in marked) for i, f in enumerate(first_sketch(board))]
        left, (first, *lines) = self.lines("now marks 1", sketch, MOST_UNITS - 1 - len(marked))
        # What is left goes into lines of prices.
        self.text = certificate([f"fen {CROWDED}", f"sketch {1 + left}", *[PRICES] * (1 + left), first, CROWDED_MARKS, *lines])

    def lines(self, label, sketch, units):
        """The lines of a node and of those below it, with at most so many units, and how many are left of these."""
        crowded = sum(f.side == "b" for f in sketch) == 16
        if crowded and self.by_marks:
            figures = [i for i, f in enumerate(sketch, 1) if not f.marked and f.kinds != "k"][: min(8, units - 1)]
            marks = f"marks {len(figures)} " if figures else ""
            return units - 1 - len(figures), [f"{label} {marks}closed 1", *(f"mark 1 {i}" for i in figures)]
        if units < 33:
            return units - 1, [f"{label} closed 1"]
        if crowded:
            return units - 33, [f"{label} steps 0"]
        due = Steps(self.asked, closed(self.asked, sketch)).found
        left, lines = units - 33 - len(due), [f"{label} steps {len(due)}"]
        if left < 0:
            return units - 1, [f"{label} closed 1"]
        for label, earlier in due:
            left, more = self.lines(label, earlier, left + 1)
            lines += more
        return left, lines


def second(text):
    """The answer of fuzz_sketches.py to a certificate with a good head, if it has one: None where it finds no fault, else line and words."""
    root = root_of(text)
    bad = bad_node(text, root) if root else text.count("\n") + 1
    if bad:
        return bad, TEXT
    faults = (sketch_fault(query, sketch) for sketch, query in sketches_before(text, root, sys.maxsize))
    return next(((fault.line, f"unsupported {fault.word}") for fault in faults if fault), None)


def asked(program, text):
    """The answer of the program: None where it accepts, else the line and the words of the fault; or what else it said."""
    done = subprocess.run([program, "check"], input=text.encode("latin-1"), capture_output=True)
    line = done.stdout.decode("ascii", "replace")
    found = re.fullmatch(r"refused line (\d+) ([^\n]+)\n", line)
    if done.returncode == 0 and line.startswith("accepted "):
        return None
    return (int(found[1]), found[2]) if done.returncode == 1 and found else (done.returncode, line)


class Trial:
    """What was asked, and how many answers weren't as they should be."""

    def __init__(self, program, largest):
        self.program, self.largest, self.wrong, self.counts = program, largest, 0, collections.Counter()

    def answer(self, name, text):
        """The program's answer, which has to be that of fuzz_sketches.py if the text isn't too large for it; or that alone."""
        if not self.program:
            return second(text)
        given = asked(self.program, text)
        if text.count("\n") <= self.largest:
            self.expect(name, text, given, second(text))
        return given

    def expect(self, name, text, given, due):
        if given != due:
            self.wrong += 1
            print(f"{name}: {given}, not {due}\n{text[:500]}")

    def cases(self):
        for name, text, due in CASES:
            self.expect(name, text, self.answer(name, text), due)
        print(f"{len(CASES)} cases by hand")

    def certificates(self, sketches):
        for name, lines in sketches.items():
            self.expect(name, certificate(lines), self.answer(name, certificate(lines)), None)
        print(f"{len(sketches)} certificates")

    def changes(self, sketches, number, seed):
        """So many changes of each kind, to certificates at random: of each folder alike, and to small ones more often than to large ones."""
        rng, names = random.Random(seed), list(sketches)
        folders = [name.rpartition("/")[0] or name for name in names]
        weights = [1 / folders.count(folder) / len(sketches[name]) ** 0.5 for folder, name in zip(folders, names)]
        for kind in CHANGES:
            tried = 0
            for _ in range(50 * number):
                name = rng.choices(names, weights)[0]
                lines = changed(rng, sketches[name], kind)
                if not lines or tried == number:
                    continue
                tried += 1
                given = self.answer(f"{kind} in {name}", certificate(lines))
                self.counts[kind, given[1] if given else "accepted"] += 1
                if given is None and kind in REFUSED:
                    self.expect(f"{kind} in {name}", certificate(lines), None, "refused")
            self.tell(kind)

    def tell(self, kind):
        counts = {word: count for (of, word), count in sorted(self.counts.items()) if of == kind}
        print(f"{kind}: {sum(counts.values())},", ", ".join(f"{count} {word}" for word, count in counts.items()), flush=True)


def limits(program):
    """Prints the two texts with all units, or has the program check them, and tells how long that takes."""
    wrong = 0
    for kind in ("steps", "marks"):
        text = Crowded(kind == "marks").text
        if not program:
            print(text, end="")
            continue
        begun = time.perf_counter()
        given = asked(program, text)
        print(f"{kind}: {len(text)} bytes, {given or 'accepted'}, {time.perf_counter() - begun:.1f} seconds")
        wrong += given is not None
    return 1 if wrong else 0


def main():
    parser = argparse.ArgumentParser(description=__doc__, formatter_class=argparse.RawDescriptionHelpFormatter)
    parser.add_argument("places", nargs="*", help="PROGRAM and FOLDER, or FOLDER with --second")
    parser.add_argument("--second", action="store_true")
    parser.add_argument("--limits", action="store_true")
    parser.add_argument("--changes", type=int, default=30)
    parser.add_argument("--seed", type=int, default=1)
    parser.add_argument("--largest", type=int, default=5000, help="lines of a text that fuzz_sketches.py judges beside the program")
    args = parser.parse_args()
    program = None if args.second else args.places.pop(0)
    if args.limits:
        sys.exit(limits(program))
    sketches = dict(SKETCHES)
    for folder in args.places:
        sketches |= {str(path.relative_to(folder)): path.read_text().split("\n")[:-1] for path in sorted(pathlib.Path(folder).rglob("*.txt"))}
    trial = Trial(program, args.largest)
    trial.cases()
    trial.certificates(sketches)
    trial.changes(sketches, args.changes, args.seed)
    print(f"{trial.wrong} wrong")
    sys.exit(1 if trial.wrong else 0)


if __name__ == "__main__":
    main()
