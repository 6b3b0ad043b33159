"""Tests of collection.py, on records made for the purpose and with a stand-in for the program.

python3 -m unittest discover -s tools
RETRACTOR=PATH python3 -m unittest discover -s tools     some of them with the built program too
"""
import csv
import os
import pathlib
import subprocess
import sys
import tempfile
import unittest

import collection
import collection_records as records
import collection_studies as studies

TOOL = pathlib.Path(__file__).resolve().parent / "collection.py"
RECORD = """
authors: 
  - Maker, A.
  - Other, B.
source: A Magazine
source-id: 7/12
date: 1911-04
algebraic: 
  white: [{white}]
  black: [{black}]
stipulation: "{stipulation}"
{more}solution: |
  "{solution}"
keywords: 
  - Retro
"""
BENKO = "8/8/8/8/n3k3/p3pb1r/p1q1P2P/RN2K1NR b - -"
LOYD = "b5rn/1kPBpp2/pP4p1/PR1Pp3/PP2P3/8/2NP4/R3K3 w - -"
TROITZKY = "6nk/2p4p/3B1P1P/5KpP/8/8/8/8 w - -"
STUDIES = {
    BENKO: "open illegal\nproved 1 lost K\nproved 1 lost Q\nleft 11 of 20\natleast 41\n",
    LOYD: "proved 0 illegal\nother side proved 0 illegal\n",
    TROITZKY: "open illegal\nproved 2 ep h5g6\nproved 2 last g7g5\nleft 1 of 6 g7g5\natleast 24\n",
}
KINGS = "4k3/8/8/8/8/8/8/4K3 w - -"
# What a game is told against, and the game; every other claim that no study proves stays open.
GAMES = {
    f"claim illegal\n{BENKO}\n": "e2e4 e7e5 g1f3",
    f"claim illegal\n{KINGS}\n": "e2e4 e7e5",
    "claim lost K\n4k3/8/8/8/8/8/8/4K2R w - -\n": "g1f3 g8f6",
    "claim illegal\nr3k2r/8/8/8/8/8/8/4K3 w kq -\n": "b1a3 b8a6",
    "claim ep h5g6\n7k/6p1/8/6pP/8/8/8/7K w - -\n": "h2h4 g7g6",
}
# A program that answers `study` and `settle` from lists of texts, accepts each game that it told, and notes each FEN that it was asked about.
STAND_IN = """#!{python}
import pathlib, sys
words, here = sys.argv[1:], pathlib.Path(__file__).resolve().parent
if words == ["--version"]:
    print("stand-in 1.0")
    sys.exit(0)
text = sys.stdin.read()
studies, games = {studies!r}, {games!r}
if words[0] == "study":
    (here / "asked").open("a").write(words[1] + " " + text)
    sys.stdout.write(studies.get(text.strip(), "open illegal\\nleft 5 of 5\\n"))
    sys.exit(6 if "q7/8/8/8/8/8/8/K1k5" in text else 0)
if words[0] == "settle":
    (here / "settled").open("a").write(words[1] + " " + text.replace("\\n", " ") + "\\n")
    claim, fen = text.split("\\n")[:2]
    if text in games:
        print("countered", games[text])
        sys.exit(4)
    if not any(line.startswith("proved") and line.endswith(claim[6:]) for line in studies.get(fen, "").split("\\n")):
        print("undecided a1a2")
        sys.exit(2)
if words[0] in ("settle", "dossier"):
    sys.stdout.write("retro 1\\n" + text)
elif words[0] == "play":
    sys.exit(0 if text.split("\\n")[1] in games.values() else 1)
elif words[0] in ("explain", "report"):
    sys.exit(5) if not {explains} else sys.stdout.write("Claim.\\n" if words[0] == "explain" else "Report of " + text)
"""


def record(white="Ke1", black="Ke8", stipulation="#2", solution="1.Ke1-e2 !", more=""):
    return RECORD.format(white=white, black=black, stipulation=stipulation, solution=solution, more=more)


def made(*texts):
    """What is read of an .olv file of these records."""
    return list(records.read_olv("some.olv", "---".join(["", *texts])))


def only(text):
    (diagram,) = made(text)
    return diagram


class Stipulations(unittest.TestCase):
    def sides(self, stipulation, more=""):
        return "".join(fen.split(" ")[1] for fen in only(record(stipulation=stipulation, more=more)).fens)

    def test_white_begins(self):
        for stipulation in ("#2", "#1", "s#3", "r#2", "+", "=", "=3", "hs#2", "ser-#5", "ser-s#4", "h#2.5", "s=2"):
            self.assertEqual(self.sides(stipulation), "w", stipulation)

    def test_black_begins(self):
        for stipulation in ("h#3", "h=2", "ser-h#15", "Ser-h#4", "hs#2.5", "#2 by Black", "s#2 Black"):
            self.assertEqual(self.sides(stipulation), "b", stipulation)

    def test_either_side(self):
        for stipulation in ("See text", "Last move?", "#1 How many?", "Who plays #4?", "-1w & #2", "12x #1", "#2 b) Black"):
            self.assertEqual(self.sides(stipulation), "wb", stipulation)
        self.assertEqual(self.sides("h#2", "options: \n  - Duplex\n"), "wb")


class Records(unittest.TestCase):
    def test_a_record(self):
        diagram = only(record("Ke1, Rh1, Sb1, Pa2", "Ke8, Qd8"))
        self.assertEqual(diagram.fens, ["3qk3/8/8/8/8/8/P7/1N2K2R w - -"])
        self.assertEqual((diagram.place, diagram.author, diagram.source), ("some.olv:1", "Maker, A., Other, B.", "A Magazine, 7/12, 1911-04"))

    def test_the_plain_reader(self):
        text = record(more="options: \n  - SetPlay\ntwins: \n  b: Move e1 f1\n")
        plain = records.parse_plainly(text)
        self.assertEqual(plain["algebraic"], {"white": ["Ke1"], "black": ["Ke8"]})
        self.assertEqual((plain["authors"], plain["twins"], plain["options"]), (["Maker, A.", "Other, B."], {"b": "Move e1 f1"}, ["SetPlay"]))
        long = records.parse_plainly(text.replace("[Ke1]", "\n    - Ke1\n    - Qd1").replace("  - Retro", '  - "no end: \\D'))
        self.assertEqual(long["algebraic"], {"white": ["Ke1", "Qd1"], "black": ["Ke8"]})
        if records.yaml:
            self.assertEqual(list(records.diagrams_of(plain, "x")), list(records.diagrams_of(records.parse(text), "x")))

    def test_bad_records(self):
        bad = [record(white="Ke1, R"), record(white="Ke1, Re1"), '\nstipulation: "=" Black to move\n', "\nno record\n", '\nsource: "no end\n', "\ndate: 1911\n"]
        self.assertEqual([it.is_broken for it in made(*bad)], [True] * len(bad))
        yaml, records.yaml = records.yaml, None
        try:
            self.assertEqual([it.is_broken for it in made(*bad)], [True] * len(bad))
        finally:
            records.yaml = yaml

    def test_not_orthodox(self):
        whys = [
            only(record(white="Ke1, Ga1")).why,
            only(record(white="Ke1, Nb2")).why,
            only(record(more="options: \n  - Circe\n")).why,
            only(record(white="Ra1")).why,
            only(record(black="Ke8, Kd8")).why,
            only(record(more="").replace("  black:", "  neutral: [Rc3]\n  black:")).why,
        ]
        self.assertEqual(whys, [f"not orthodox: {it}" for it in ("the man Ga1", "the man Nb2", "circe", "no white king", "2 black kings", "neutral men")])

    def test_goes_on(self):
        kinds = [type(it).__name__ for it in made(record(), record(white="Ke1, R"), record(white="Ke1, Ga1"), record())]
        self.assertEqual(kinds, ["Diagram", "LeftOut", "LeftOut", "Diagram"])


class Twins(unittest.TestCase):
    def placement(self, text, white="Ke1, Pa2", name="b"):
        twin = made(record(white=white, more=f"twins: \n  {name}: {text}\n"))[1]
        return twin.fens[0].split(" ")[0] if isinstance(twin, records.Diagram) else twin.why

    def test_changes(self):
        for text, board in [
            ("Move a2 c3", "4k3/8/8/8/8/2P5/8/4K3"),
            ("Pa2-c3", "4k3/8/8/8/8/2P5/8/4K3"),
            ("Remove a2", "4k3/8/8/8/8/8/8/4K3"),
            ("Remove a2, Add wPe3", "4k3/8/8/8/8/4P3/8/4K3"),
            ("Add black Sd5", "4k3/8/8/3n4/8/8/P7/4K3"),
            ("Shift a1 b1", "5k2/8/8/8/8/8/1P6/5K2"),
            ("Shift a1==b1", "5k2/8/8/8/8/8/1P6/5K2"),
            ("Exchange e1 e8", "4K3/8/8/8/8/8/P7/4k3"),
            ("Rotate 180", "3K4/7P/8/8/8/8/8/3k4"),
        ]:
            self.assertEqual(self.placement(text), board, text)

    def test_not_made(self):
        for text in ("WSc2", "Rotate 90", "...", "Move c3 c4", "Shift a1 a2", "Remove h8"):
            self.assertRegex(self.placement(text), "twin|no man|off the board", text)

    def test_continued(self):
        twins = "twins: \n  b: Move a2 a3\n  c: Continued Move a3 b3\n  d: WSc2\n  e: cont Move b3 b4\n"
        found = made(record(white="Ke1, Pa2", more=twins))
        self.assertEqual([it.place for it in found], [f"some.olv:1{name}" for name in ("", "b", "c", "d", "e")])
        self.assertEqual(found[2].fens, ["4k3/8/8/8/8/1P6/8/4K3 w - -"])
        self.assertEqual([type(it).__name__ for it in found[3:]], ["LeftOut"] * 2)

    def test_stipulation(self):
        self.assertEqual(made(record(more="twins: \n  b: Move e1 f1 Stipulation h#2\n"))[1].fens[0].split(" ")[1], "b")

    def test_own_solution(self):
        first, second = made(record(solution='a)\n  1.Kf1 !\n  b)\n  1.Kf2 !', more="twins: \n  b: Move e8 d8\n"))
        self.assertEqual([first.solution.strip(), second.solution.strip(' "\n')], ["1.Kf1 !", "1.Kf2 !"])


class Lines(unittest.TestCase):
    def test_lines(self):
        text = "# a list\n\n4k3/8/8/8/8/8/8/4K2R w K - 0 1\n4k3/8/8/8/8/8/8/4K2R  b\n4k3/8/8/8/8/8/8/4K2R\n4k3/8/8/8/8/8/8/4K2R w kK - bm O-O; id \"one\";\nnothing\n"
        *diagrams, bad = records.read_lines("list.fen", text)
        self.assertEqual([len(it.fens) for it in diagrams], [1, 1, 2, 1])
        self.assertEqual(diagrams[0].fens, ["4k3/8/8/8/8/8/8/4K2R w K -"])
        self.assertEqual((diagrams[3].fens, diagrams[3].source, diagrams[3].solution), (["4k3/8/8/8/8/8/8/4K2R w Kk -"], "one", "1.O-O"))
        self.assertEqual((bad.place, bad.is_broken), ("list.fen:7", True))


class Solutions(unittest.TestCase):
    def uses(self, solution, fen, answer="open illegal\n"):
        return [(use.where, use.move, use.kind) for use in studies.verdicts(solution, fen, studies.facts_of(fen, answer))]

    def test_castling_key(self):
        fen = "4k3/8/8/8/8/8/8/R3K2R w - -"
        for solution in ("1.0-0-0 ! zugzwang.", '"1. O-O-O!! zz', "1.Kd2 ?\n1...Kd8 !\n1.0-0-0 !"):
            self.assertEqual(self.uses(solution, fen), [("key", "Q", "undisproved")], solution)
        self.assertEqual(self.uses("1.0-0 !", fen, "open illegal\nproved 2 lost K\n"), [("key", "K", "lost")])
        self.assertEqual(self.uses("1.0-0 !", fen, "countered illegal\ncountered lost K\nopen lost Q\n"), [("key", "K", "held")])
        self.assertEqual(self.uses("1.0-0 !", fen, "proved 0 illegal\nother side open illegal\n"), [("key", "K", "empty")])
        self.assertEqual(self.uses("1.0-0 !", "4k3/8/8/8/8/8/8/R3K3 w - -"), [("key", "K", "away")])

    def test_castling_with_mate(self):
        fen = "r3k2r/8/8/8/8/8/8/R3K2R {} - -"
        self.assertEqual(self.uses("1.Qa1 !\n1...Kf3 2.0-0 #", fen.format("w")), [("mate", "K", "undisproved")])
        self.assertEqual(self.uses("1...Kf3 2.0-0 #\n1.Qa1 !", fen.format("w")), [("set mate", "K", "undisproved")])
        self.assertEqual(self.uses("1.Kd8 Qa1 2.Kc8 0-0-0#", fen.format("b")), [("mate", "Q", "undisproved")])
        self.assertEqual(self.uses("1.0-0 Qa1 2.Kh8 Qa8#", fen.format("b")), [("key", "k", "undisproved")])

    def test_no_castling(self):
        fen = "r3k2r/8/8/8/8/8/8/R3K2R w - -"
        for solution in ("1.0-0#?\n1.Ke2#!", "1.Sg4 ? threat:\n 2.0-0 # (illegal)", "Illegal is 1.0-0 (2.Rf8#)", "1.Qa1 !\n1...0-0 2.Qg7#", "1.Sg4 ?\n 1...Kf8\n 2.0-0 #"):
            self.assertEqual(self.uses(solution, fen), [], solution)

    def test_en_passant_key(self):
        shown, unshown, ended = "open illegal\nproved 2 ep h5g6\n", "open illegal\nspent ep h5g6\n", "countered illegal\ncountered ep h5g6\n"
        for solution in ("1.h5*g6 !", "1.h5xg6 ep.!", "1.hxg6+!", '"1. hg e.p.!', "1.h*g6"):
            self.assertEqual(self.uses(solution, TROITZKY, shown), [("key", "ep h5g6", "permitted")], solution)
            self.assertEqual(self.uses(solution, TROITZKY, unshown), [("key", "ep h5g6", "unproved")], solution)
            self.assertEqual(self.uses(solution, TROITZKY, ended), [("key", "ep h5g6", "countered")], solution)
        for solution in ("1.Kg4 !", "1.h5*g6 ? Kg8", "1.h5xg6 ep ?", "1.hg e.p.+?", "1.hg", "1.Be5 ! g4 2.h5*g6"):
            self.assertEqual(self.uses(solution, TROITZKY, shown), [], solution)

    def test_claims(self):
        facts = studies.facts_of("r3k2r/8/8/8/8/8/8/4K3 w k -", "proved 1 illegal\nother side open illegal\nwithout demands\nopen illegal\nproved 1 notboth k q\n")
        self.assertEqual([fact.fen.split(" ", 1)[1] for fact in facts], ["w k -", "b k -", "w - -", "w - -"])
        self.assertEqual(studies.claim_text(facts[-1]), "claim illegal\nr3k2r/8/8/8/8/8/8/4K3 w kq -\n")
        self.assertEqual([fact.word for fact in facts], ["proved", "open", "open", "proved"])

    def test_games(self):
        answer = "countered illegal\nopen lost K\ncountered lost Q\nleft 2 of 9 a2a1 a2b1\nstuck lost K a2a1 b7b8\npossible 1 of 2 a2a1\natleast 30\n"
        facts = studies.facts_of("8/8/8/8/8/8/k7/R3K2R w - -", answer)
        self.assertEqual([(fact.claim, fact.word) for fact in facts], [("illegal", "countered"), ("lost K", "open"), ("lost Q", "countered")])
        facts[2].learn("countered g1f3 g8f6 f3g1")
        self.assertEqual((facts[2].text, facts[2].is_mere, facts[0].is_mere), ("lost Q (3)", False, True))
        self.assertEqual(studies.game_text(facts[2]), "8/8/8/8/8/8/k7/R3K2R w Q -\ng1f3 g8f6 f3g1\n")
        self.assertRaises(studies.Failed, facts[0].learn, "proved 3")

    def test_settled_to_be_illegal(self):
        row = collection.Row(None, "4k3/8/8/8/8/8/8/4K2R w - -", "open illegal\nopen lost K\nleft 5 of 5\n", None)
        collection.learn(row, row.facts[0], "proved 5", None)
        self.assertEqual([(fact.claim, fact.text) for fact in row.facts], [("illegal", "illegal (5)")])
        self.assertEqual(row.legality, "proved")

    def test_height(self):
        head = "retro 1\nclaim lost K\nfen 4k3/8/8/8/8/8/8/4K2R w - -\n"
        bodies = ["root rule kings", "root expand 0", "root expand 2\ne8d8 expand 1\ne1e2xq back 1\ne8f8 rule check"]
        self.assertEqual([studies.height(f"{head}{body}\n") for body in bodies], [0, 0, 2])


class Runs(unittest.TestCase):
    def setUp(self):
        self.folder = pathlib.Path(self.enterContext(tempfile.TemporaryDirectory()))
        (self.folder / "list.fen").write_text(f"{BENKO}\n{LOYD}\n{TROITZKY} bm hxg6;\n4k3/8/8/8/8/8/8/4K3 w\n")
        self.program(explains=True)

    def program(self, explains, more=None):
        path = self.folder / "stand-in"
        path.write_text(STAND_IN.format(python=sys.executable, studies=STUDIES | (more or {}), games=GAMES, explains=explains))
        path.chmod(0o755)

    def run_tool(self, *words, files=("list.fen",)):
        command = [sys.executable, str(TOOL), *files, "--program", "./stand-in", "--jobs", "2", *words]
        return subprocess.run(command, cwd=self.folder, capture_output=True, text=True)

    def asked(self, file="asked"):
        return (self.folder / file).read_text().split("\n")[:-1]

    def test_markdown(self):
        done = self.run_tool()
        self.assertEqual(done.returncode, 0, done.stderr)
        lines = (self.folder / "collection.md").read_text().split("\n")
        self.assertEqual([len(line.split(" | ")) for line in lines[:-1]], [10] * 6)
        self.assertIn("| lost K (1); lost Q (1) | illegal (3) |  |", lines[2])
        self.assertIn("| illegal (0); other side illegal (0) |  |  |", lines[3])
        self.assertIn("| ep h5g6 (2); last g7g5 (2) |  | illegal | key ep h5g6: sound: the double step is proved |", lines[4])
        self.assertIn("4 diagrams, 4 with a side to move, 3 with something proved\n1 illegal, 2 to which a game leads, 1 open\n", done.stdout)
        self.assertIn("claims `illegal`: 1 proved, 2 countered, 1 open\nclaims `lost`: 2 proved, 0 countered, 0 open\n", done.stdout)
        self.assertIn(f"1 left open\n  list.fen:3: {TROITZKY}\n", done.stdout)

    def test_csv(self):
        self.run_tool("--table", "t.csv", "--findings")
        with (self.folder / "t.csv").open(newline="") as file:
            rows = list(csv.reader(file))
        self.assertEqual([row[0] for row in rows], ["place", "list.fen:1", "list.fen:2", "list.fen:3"])
        (self.folder / "open.fen").write_text("4k3/8/8/8/8/8/8/3K4 w\n4k3/8/8/8/8/8/8/4K3 w\n")
        self.run_tool("--table", "t.csv", "--findings", files=["open.fen"])
        with (self.folder / "t.csv").open(newline="") as file:
            self.assertEqual([row[0] for row in csv.reader(file)], ["place", "open.fen:1"])

    def test_resume(self):
        self.run_tool()
        journal = self.folder / "collection.md.journal"
        lines = journal.read_text().split("\n")
        journal.write_text("\n".join(lines[:3]) + '\n{"key": ["cut')
        first, table = self.asked(), (self.folder / "collection.md").read_text()
        self.assertEqual(self.run_tool("--resume").returncode, 0)
        self.assertEqual((len(first), len(self.asked())), (4, 6))
        self.assertEqual((self.folder / "collection.md").read_text(), table)
        journal.write_text("another 2.0\n")
        self.assertIn("is of another 2.0", self.run_tool("--resume").stderr)

    def test_deeper(self):
        (self.folder / "castling.fen").write_text("4k3/8/8/8/8/8/8/4K2R w K - bm O-O;\n")
        self.run_tool("--depth", "2", files=["castling.fen"])
        self.assertEqual([line.split(" ")[0] for line in self.asked()], ["2", "64"])

    def test_settled(self):
        self.run_tool()
        asked = [line.split(" ", 2) for line in self.asked("settled")]
        self.assertEqual(sorted(asked), sorted([depth, "claim", f"illegal {fen} "] for depth, fens in (("1", [BENKO, TROITZKY, KINGS]), ("64", [TROITZKY])) for fen in fens))

    def test_study_alone(self):
        done = self.run_tool("--study-alone")
        self.assertFalse((self.folder / "settled").exists())
        self.assertIn("1 illegal, 0 to which a game leads, 3 open\n", done.stdout)

    def test_both_answers(self):
        self.program(explains=True, more={KINGS: "countered illegal\nleft 5 of 5\n", BENKO: "open illegal\nproved 1 lost K\n", TROITZKY: "open illegal\n"})
        self.assertEqual(self.run_tool("--certificates", "proofs").returncode, 0)
        self.program(explains=True, more={KINGS: "countered ep a5b6\nproved 2 ep a5b6\n"})
        done = self.run_tool("--certificates", "proofs")
        self.assertEqual(done.returncode, 1)
        self.assertIn("1 not studied\n  list.fen:4: `ep a5b6` is countered by `study`, and proved by `settle`\n", done.stdout)

    def test_nothing_in_silence(self):
        (self.folder / "some.olv").write_text("---".join(["", record(white="Ke1, R"), record(white="Ke1, Ga1"), record("Ka1", "Kc1, Qa8"), record()]))
        done = self.run_tool(files=["some.olv", "none.fen"])
        self.assertEqual(done.returncode, 1)
        self.assertIn("1 left out\n  some.olv:2: not orthodox: the man Ga1\n", done.stdout)
        self.assertIn("2 not read\n  some.olv:1: a man without a square: 'R'\n  none.fen: can't be read", done.stdout)
        self.assertIn("1 not studied\n  some.olv:3: `study` ends with status 6", done.stdout)
        self.assertIn("some.olv:4", (self.folder / "collection.md").read_text())

    def test_certificates(self):
        self.run_tool("--certificates", "proofs")
        names = sorted(path.name for path in (self.folder / "proofs").iterdir())
        claims = ["1-b-lost-K", "1-b-lost-Q", "2-w-illegal", "3-w-ep-h5g6", "3-w-last-g7g5"]
        games = ["list-fen-1-b-illegal.game", "list-fen-4-w-illegal.game"]
        reports = [f"list-fen-{diagram}.report" for diagram in ("1-b", "2-w", "3-w", "4-w")]
        self.assertEqual(names, sorted(games + reports + [f"list-fen-{claim}.{ending}" for claim in claims for ending in ("cert", "txt")]))
        self.assertEqual((self.folder / "proofs/list-fen-2-w.report").read_text(), f"Report of {LOYD}\n")
        self.assertEqual((self.folder / "proofs/list-fen-2-w-illegal.cert").read_text(), f"retro 1\nclaim illegal\n{LOYD}\n")
        self.assertEqual((self.folder / "proofs" / games[0]).read_text(), f"{BENKO}\ne2e4 e7e5 g1f3\n")

    def test_games_of_claims(self):
        rook, both, pawn = "4k3/8/8/8/8/8/8/4K2R w - -", "r3k2r/8/8/8/8/8/8/4K3 w - -", "7k/6p1/8/6pP/8/8/8/7K w - -"
        open_claims = {rook: "lost K", both: "notboth k q", pawn: "ep h5g6"}
        self.program(explains=True, more={fen: f"countered illegal\nopen {claim}\n" for fen, claim in open_claims.items()})
        (self.folder / "three.fen").write_text("\n".join(open_claims))
        self.run_tool("--certificates", "proofs", files=["three.fen"])
        names = {"three-fen-1-w-lost-K": rook.replace("- -", "K -"), "three-fen-2-w-notboth-k-q": both.replace("- -", "kq -"), "three-fen-3-w-ep-h5g6": pawn}
        self.assertEqual({path.stem: path.read_text().split("\n")[0] for path in (self.folder / "proofs").glob("*.game")}, names)
        self.assertIn("no game against `illegal`: `settle` finds none", (self.folder / "collection.md").read_text())

    def test_no_explanation(self):
        self.program(explains=False)
        self.run_tool("--certificates", "proofs")
        table = (self.folder / "collection.md").read_text()
        self.assertIn("no explanation: this program doesn't know `explain`", table)
        self.assertIn("no report: this program doesn't know `report`", table)
        self.assertEqual(sorted(path.suffix for path in (self.folder / "proofs").iterdir()), [".cert"] * 5 + [".game"] * 2)

    def test_no_program(self):
        done = subprocess.run([sys.executable, str(TOOL), "x.fen", "--program", "./none"], cwd=self.folder, capture_output=True, text=True)
        self.assertIn("there is no program ./none", done.stderr)
        self.assertEqual(done.returncode, 1)


@unittest.skipUnless(os.environ.get("RETRACTOR"), "no program in RETRACTOR")
class BuiltProgram(unittest.TestCase):
    def test_findings(self):
        program = studies.Program(os.environ["RETRACTOR"], 300)
        for fen, claims in [(BENKO, ["lost K", "lost Q"]), (LOYD, ["illegal", "illegal"]), (TROITZKY, ["ep h5g6", "last g7g5"])]:
            facts = [fact for fact in studies.facts_of(fen, program.study(fen, 4, 2000)) if fact.word == "proved"]
            self.assertEqual([fact.claim for fact in facts], claims)
            with tempfile.TemporaryDirectory() as folder:
                path = pathlib.Path(folder) / "proof"
                self.assertRegex(studies.certify(program, facts[0], 2000, path) or "", "^$|doesn't know `explain`")
                self.assertTrue(path.with_name("proof.cert").read_text().startswith("retro 1\n"))

    def test_a_game(self):
        program, fact = studies.Program(os.environ["RETRACTOR"], 300), studies.Fact(BENKO, "illegal", "open")
        fact.learn(program.settle(studies.claim_text(fact), 1, 4000))
        with tempfile.TemporaryDirectory() as folder:
            self.assertIsNone(studies.keep_game(program, fact, pathlib.Path(folder) / "proof"))
            self.assertEqual((pathlib.Path(folder) / "proof.game").read_text().split("\n")[0], BENKO)


if __name__ == "__main__":
    unittest.main()
