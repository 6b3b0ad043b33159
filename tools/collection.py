#!/usr/bin/env python3
"""Goes through collections of chess problems with the built program: which diagrams are illegal, and to which a game leads, which
castlings have no right, which captures en passant are sound. docs/EDITORS.md says how to read what it finds.

collection.py FILE.. [--program PATH] [--jobs N] [--depth N] [--nodes N] [--seconds N] [--table PATH] [--findings]
                     [--certificates FOLDER] [--study-alone] [--resume]

A FILE is an .olv file, as Debian's package pychess has them, or a list of FEN or EPD lines. The side to move is that of the stipulation:
White in `#n`, `s#n`, `r#n`, `hs#n`, `+`, `=` and series other than `ser-h#n`; Black in `h#n` and `ser-h#n`; the other one if a half move
is added (`h#2.5`) or Black is named; both in a duplex and if the stipulation doesn't say. Each diagram is studied with no right
demanded, unless a FEN line demands one; what `study` leaves open is put to `settle`, which looks for a game against it too. The table has
Markdown, or CSV if its name ends with .csv.

Each answer is kept beside the table in a file .journal; with --resume those that stand there aren't run again. The exit status is 1 if
something couldn't be read or studied, and 2 if the words are wrong.
"""
import argparse
import collections
import concurrent.futures
import csv
import itertools
import json
import os
import pathlib
import re
import resource
import shutil
import sys
import time

from collection_records import Diagram, read
from collection_studies import KINDS, Failed, Program, certify, claim_text, facts_of, keep_game, verdicts

try:
    from tqdm import tqdm
except ImportError:
    tqdm = None

HEAD = ["place", "author", "source", "asked", "diagram", "proved", "countered", "open", "castling and en passant", "remarks"]
# How a diagram is studied again whose castling or capture en passant isn't settled: as `study` alone does.
DEEPER = (64, 20_000)
# How claims are put to `settle` that a study leaves open: as far as it looks for a game, then deeper.
SETTLED = [(1, 4_000), DEEPER]


class Journal:
    """The answers that were got, one line of JSON each, so that a run that is stopped can go on. Its first line names the program."""

    def __init__(self, path, version, resume):
        self.path, self.answers = path, {}
        lines = resume and path.exists() and path.read_text().split("\n")[:-1] or [version]
        if lines[0] != version:
            sys.exit(f"{path} is of {lines[0]}, and this is {version}: run without --resume, or with that program")
        for line in lines[1:]:
            said = json.loads(line)
            self.answers[tuple(said["key"])] = said["answer"]
        # (a last line that was cut off is left out; the file is changed at once, so that nothing is lost if this run is stopped too)
        whole = path.with_name(path.name + ".new")
        whole.write_text("\n".join(lines) + "\n")
        whole.replace(path)
        self.file = path.open("a")

    def keep(self, key, answer):
        """Writes an answer behind the others."""
        self.answers[key] = answer
        self.file.write(json.dumps({"key": key, "answer": answer}) + "\n")
        self.file.flush()


def ask(run, key):
    """The answer of a run of the program, or why there is none."""
    try:
        return key, run(key), None
    except (Failed, OSError) as why:
        return key, None, str(why)


def ask_all(run, keys, journal, jobs):
    """Asks what the journal doesn't have yet, so many at a time, and gives what failed, with the reason."""
    left, failed = [key for key in dict.fromkeys(keys) if key not in journal.answers], {}
    with concurrent.futures.ThreadPoolExecutor(jobs) as pool:
        runs = [pool.submit(ask, run, key) for key in left]
        try:
            for done in progress(concurrent.futures.as_completed(runs), len(runs)):
                key, answer, why = done.result()
                if why:
                    failed[key] = why
                else:
                    journal.keep(key, answer)
        except KeyboardInterrupt:
            pool.shutdown(cancel_futures=True)
            sys.exit(f"stopped; what was asked stands in {journal.path}, and --resume goes on")
    return failed


class Row:
    """What is known of a diagram with one side to move."""

    def __init__(self, diagram, fen, answer, why):
        self.diagram, self.fen, self.why, self.remarks = diagram, fen, why, []
        self.facts = facts_of(fen, answer) if answer else []

    @property
    def uses(self):
        return verdicts(self.diagram.solution, self.fen, self.facts)

    @property
    def proved(self):
        return [fact for fact in self.facts if fact.word == "proved"]

    @property
    def mine(self):
        """What is known with this side to move."""
        return [fact for fact in self.facts if fact.fen.split(" ")[1] == self.fen.split(" ")[1]]

    @property
    def legality(self):
        """What is known of the claim that no game leads here."""
        return next((fact.word for fact in self.facts if (fact.fen, fact.claim) == (self.fen, "illegal")), "unknown")

    @property
    def is_found(self):
        """Whether there is something for an editor to look at: a proof, a castling or capture en passant, or a diagram that isn't decided."""
        return bool(self.proved or self.uses or self.why) or self.legality == "open"

    def cells(self):
        """The cells of the table."""
        texts = {word: [] for word in ("proved", "countered", "open")}
        for fact in self.facts:
            texts[fact.word].append(f"{'' if fact in self.mine else 'other side '}{fact.text}")
        uses = [f"{use.where} {use.move}: {use.verdict}" for use in self.uses]
        remarks = [f"not studied: {self.why}"] if self.why else self.remarks
        it = self.diagram
        return [it.place, it.author, it.source, it.stipulation, self.fen, *map("; ".join, [*texts.values(), uses, remarks])]


def study_all(tasks, depth, nodes, journal, args, program):
    """A row for each diagram with a FEN, studied so far."""
    key_of = lambda fen: (fen, depth, nodes)
    failed = ask_all(lambda key: program.study(*key), [key_of(fen) for _, fen in tasks], journal, args.jobs)
    return [Row(diagram, fen, journal.answers.get(key_of(fen)), failed.get(key_of(fen))) for diagram, fen in tasks]


def settle_all(rows, journal, args, program):
    """Has `settle` decide the claims that are left open, and give the games that counter others where they are kept; first those of `illegal`,
    since nothing else is asked of a diagram that is."""
    for (depth, nodes), is_first in itertools.product(SETTLED, (True, False)):
        asked = {}
        for row in rows:
            for fact in row.facts:
                is_asked = fact.word == "open" or (args.certificates and fact.is_mere)
                if is_asked and (fact.claim == "illegal") == is_first:
                    asked.setdefault(("settle", claim_text(fact), depth, nodes), []).append((row, fact))
        failed = ask_all(lambda key: program.settle(*key[1:]), list(asked), journal, args.jobs)
        for key, some in asked.items():
            for row, fact in some:
                learn(row, fact, journal.answers.get(key), failed.get(key))


def learn(row, fact, answer, why):
    """Has a fact of a row take over what `settle` says, or the row remark why nothing was said."""
    if why:
        row.remarks.append(f"`{fact.claim}` isn't settled: {why}")
        return
    try:
        fact.learn(answer)
    except Failed as both:
        row.why = str(both)
    if row.legality == "proved":
        row.facts = [it for it in row.facts if it.claim == "illegal"]


def rows_of(tasks, journal, args, program):
    """The rows of all diagrams: each is studied, what stays open is settled, and if a castling or a capture en passant of the solution
    still isn't, the diagram is studied again deeper."""
    settle = lambda some: None if args.study_alone else settle_all(some, journal, args, program)
    rows = study_all(tasks, args.depth, args.nodes, journal, args, program)
    settle(rows)
    unsettled = [at for at, row in enumerate(rows) if not all(use.is_settled for use in row.uses)]
    deep = study_all([tasks[at] for at in unsettled], max(args.depth, DEEPER[0]), max(args.nodes, DEEPER[1]), journal, args, program)
    settle(deep)
    for at, row in zip(unsettled, deep):
        if row.facts:
            rows[at] = row
        else:
            rows[at].remarks.append(f"not studied deeper: {row.why}")
    return rows


def certify_all(rows, journal, args, program):
    """Writes a certificate and an explanation of all that is proved, and the game against all that is countered, and has the rows remark
    what couldn't be written."""
    args.certificates.mkdir(parents=True, exist_ok=True)
    items = {}
    for row in rows:
        for fact in row.mine:
            if fact.word != "open":
                items[str(args.certificates / stem_of(row, fact.claim)), fact.fen, fact.claim, fact.text] = row, fact
    run = lambda key: write_down(program, items[key][1], max(args.nodes, DEEPER[1]), pathlib.Path(key[0])) or ""
    failed = ask_all(run, list(items), journal, args.jobs)
    for key, (row, _) in items.items():
        row.remarks += [it for it in [failed.get(key) or journal.answers.get(key)] if it]


def report_all(rows, journal, args, program):
    """Writes a report of each diagram of which something is proved or countered, beside what `certify_all` writes, and has the rows remark
    if there is none."""
    depth, nodes = max(args.depth, DEEPER[0]), max(args.nodes, DEEPER[1])
    asked = {("report", str(args.certificates / f"{stem_of(row)}.report"), row.fen): row for row in rows if any(fact.word != "open" for fact in row.mine)}

    def run(key):
        pathlib.Path(key[1]).write_text(program.report(key[2], depth, nodes))

    for key, why in ask_all(run, list(asked), journal, args.jobs).items():
        asked[key].remarks.append(f"no report: {why}")


def stem_of(row, claim=""):
    """How the names of the files of a diagram begin, or of those about a claim."""
    return re.sub(r"[^0-9A-Za-z]+", "-", f"{row.diagram.place} {row.fen.split(' ')[1]} {claim}".rstrip())


def write_down(program, fact, nodes, path):
    """Writes the certificate of a fact and its explanation, or the game against it, and says what couldn't be written; None if all was."""
    return certify(program, fact, nodes, path) if fact.word == "proved" else keep_game(program, fact, path)


def progress(done, total):
    """The runs as they end, with a bar on a terminal if tqdm is installed, and a line on standard error now and then elsewhere."""
    if tqdm and sys.stderr.isatty():
        yield from tqdm(done, total=total, unit="diagram")
        return
    for number, it in enumerate(done, 1):
        if number % 500 == 0 or number == total:
            print(f"{number} of {total}", file=sys.stderr, flush=True)
        yield it


def write_table(path, rows):
    """Writes the rows as CSV or as a Markdown table."""
    with path.open("w", newline="") as file:
        if path.suffix == ".csv":
            csv.writer(file).writerows([HEAD, *rows])
            return
        for cells in [HEAD, ["---"] * len(HEAD), *rows]:
            file.write("| " + " | ".join(cell.replace("|", "\\|").replace("\n", " ") for cell in cells) + " |\n")


def counted(rows):
    """What the rows say, in numbers: one line for each thing."""
    by_place = {}
    for row in rows:
        by_place.setdefault(row.diagram.place, []).append(row.legality)
    illegal = sum(set(some) == {"proved"} for some in by_place.values())
    reached = sum("countered" in some for some in by_place.values())
    claims = collections.Counter((fact.claim.split(" ")[0], fact.word) for row in rows for fact in row.mine)
    words = ("proved", "countered", "open")
    uses = collections.Counter(use.kind for row in rows for use in row.uses)
    return [
        f"{len(by_place)} diagrams, {len(rows)} with a side to move, {sum(bool(row.proved) for row in rows)} with something proved",
        f"{illegal} illegal, {reached} to which a game leads, {len(by_place) - illegal - reached} open",
        *(f"claims `{kind}`: {', '.join(f'{claims[kind, word]} {word}' for word in words)}" for kind in dict.fromkeys(kind for kind, _ in claims)),
        *(f"{uses[kind]} {words}" for kind, words in KINDS.items()),
    ]


def report(rows, left_out):
    """Says what was found, what was left out and what failed, and gives the exit status."""
    print(*counted(rows), sep="\n")
    broken = [(it.place, it.why) for it in left_out if it.is_broken]
    failed = [(row.diagram.place, row.why) for row in rows if row.why]
    undecided = [(row.diagram.place, row.fen) for row in rows if row.legality == "open"]
    strange = [(it.place, it.why) for it in left_out if not it.is_broken]
    remarks = collections.Counter(remark for row in rows for remark in row.remarks)
    lists = {"left out": strange, "not read": broken, "not studied": failed, "left open": undecided, "kinds of remarks": remarks.items()}
    for title, items in lists.items():
        print(f"{len(items)} {title}")
        for place, why in items:
            print(f"  {place}: {why}")
    return 1 if failed or broken else 0


def number(low, high):
    """What reads a number of a range."""

    def read_number(word):
        if not low <= int(word) <= high:
            raise argparse.ArgumentTypeError(f"a number from {low} to {high}, not {word}")
        return int(word)

    return read_number


def options():
    parser = argparse.ArgumentParser(description=__doc__, formatter_class=argparse.RawDescriptionHelpFormatter)
    parser.add_argument("files", nargs="+", type=pathlib.Path, metavar="FILE")
    parser.add_argument("--program", default="retractor", help="the built program (retractor on the path)")
    parser.add_argument("--jobs", type=number(1, 1000), default=os.cpu_count(), help="how many studies at a time (as many as processors)")
    parser.add_argument("--depth", type=number(0, 64), default=4, help="how many moves are taken back at most (4)")
    parser.add_argument("--nodes", type=number(1, 500_000), default=2000, help="how many positions each search visits at most (2000)")
    parser.add_argument("--seconds", type=number(1, 86_400), default=300, help="how long a run of the program may take (300)")
    parser.add_argument("--table", type=pathlib.Path, default=pathlib.Path("collection.md"), help="the table (collection.md)")
    parser.add_argument("--findings", action="store_true", help="only rows in which something was found")
    parser.add_argument("--certificates", type=pathlib.Path, metavar="FOLDER", help="a certificate and an explanation of each finding, each game, and a report of each diagram")
    parser.add_argument("--study-alone", action="store_true", help="what a study leaves open stays open: no game is looked for by `settle`")
    parser.add_argument("--resume", action="store_true", help="go on where a run with the same settings was stopped")
    return parser.parse_args()


def version_of(program):
    """The program's name and version."""
    try:
        return program.run(["--version"], "")[1].strip()
    except Failed as why:
        sys.exit(str(why))


def main():
    args = options()
    path = shutil.which(args.program)
    if not path:
        sys.exit(f"there is no program {args.program}: build it as README.md says, and name it by --program")
    begun = time.perf_counter()
    items = [it for file in args.files for it in read(file)]
    tasks = [(it, fen) for it in items if isinstance(it, Diagram) for fen in it.fens]
    program = Program(os.path.abspath(path), args.seconds)
    journal = Journal(args.table.with_name(args.table.name + ".journal"), version_of(program), args.resume)
    rows = rows_of(tasks, journal, args, program)
    if args.certificates:
        certify_all(rows, journal, args, program)
        report_all(rows, journal, args, program)
    write_table(args.table, [row.cells() for row in rows if row.is_found or not args.findings])
    status = report(rows, [it for it in items if not isinstance(it, Diagram)])
    spent = resource.getrusage(resource.RUSAGE_CHILDREN)
    print(f"{time.perf_counter() - begun:.0f} seconds, and {spent.ru_utime + spent.ru_stime:.0f} seconds of processor time in the program")
    sys.exit(status)


if __name__ == "__main__":
    main()
