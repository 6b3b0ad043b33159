#!/usr/bin/env python3
"""Times the built program, outside the gate.

measure.py play PROGRAM     `PROGRAM play` on games of 200,000 and 1,000,000 plies, knights going to and fro
measure.py search PROGRAM   `PROGRAM solve` on examples/, in time and by valgrind in machine instructions, and `PROGRAM check` of what it writes
measure.py visits PROGRAM   how many positions `PROGRAM solve` visits there, and how many it would visit if it kept no refutations
measure.py settle PROGRAM   `PROGRAM settle` beside `PROGRAM solve` on published problems: visits, nodes, lines with prices, milliseconds
measure.py texts PROGRAM    `PROGRAM length` and `PROGRAM dossier` on examples/, and the checks of what they write, in machine instructions
measure.py study PROGRAM FILE .. [--every N]   `PROGRAM study 8 2000` of each Nth diagram of collections, which decided.py reads likewise: machine
                            instructions, and by which functions
measure.py stream PROGRAM   `PROGRAM check` on certificates of stray labels: machine instructions a byte, time and memory on 64 MiB
measure.py moves            `legal_moves` on four middle-game positions: builds legal_moves.program over a copy of the crates
measure.py pawns            `least` and `bound` on eight pawns, in machine instructions, by valgrind: builds pawns.program likewise
measure.py unmoves          lists of retractions of eight positions, in machine instructions: builds unmoves.program likewise
measure.py cages            a greatest frozen set and seven regions beside it, in machine instructions: builds cages.program likewise
measure.py games FENS       the search for games to the positions of a file, a FEN of four fields a line: builds games.program likewise
measure.py sketch           closures of sketches, their trims, homes and steps, likewise: builds sketch.program
measure.py accounts         accounts of sketches at equal prices, anew, at other prices and again, likewise: builds accounts.program
measure.py trees            searches for sketches, found and not, likewise: builds trees.program
measure.py ledger           ledgers of problems and of middle-game positions, likewise: builds ledger.program
measure.py balance          the balance of captures at equal prices, and the search for prices, likewise: builds balance.program
"""
import argparse
import collections
import contextlib
import pathlib
import re
import resource
import shutil
import subprocess
import sys
import tempfile
import time

from soundness import diagrams_of

HERE = pathlib.Path(__file__).resolve().parent
ARRAY = b"rnbqkbnr/pppppppp/8/8/8/8/PPPPPPPP/RNBQKBNR w KQkq -\n"

# Eight pawns at home; one that captured; four on each of two files; all on one file; and three boards on which no step of the method
# ends early.
PAWNS = [
    "a2b2c2d2e2f2g2h2",
    "b2c2d2e2f2g2h2b3",
    "a3a4a5a6b3b4b5b6",
    "d1d2d3d4d5d6d7d8",
    "h2h3h4f5g6f7h7c8",
    "h2h3g4g5e6f6c7g7",
    "a2a5b5a6c6c7d8e8",
]
# Middle-game positions with a blocked pawn chain.
CHAINS = [
    "r3k2r/pp1bnppp/1qn1p3/2ppP3/3P4/2PB1N2/PP3PPP/RNBQK2R w KQkq -",
    "r1bq1rk1/pp2npbp/3p1np1/2pPp3/2P1P3/2N2N2/PP2BPPP/R1BQ1RK1 w - -",
]
# The position of examples/barred-kings.claim, two later ones of its certificate, and middle-game positions.
RETRACTED = [
    "r3k2r/1p1p1p1p/p1p1p1p1/8/8/P1P1P1P1/1P1P1P1P/R3K2R b KQkq -",
    "r3k2r/1p1p1p1p/p1p1p1p1/8/8/2P1P1P1/PP1P1P1P/R3K2R w KQkq -",
    "r3k2r/1p1p1p1p/p1p1p1p1/8/8/6P1/PPPPPP1P/R3K2R b KQkq -",
    "r3k2r/p1ppqpb1/bn2pnp1/3PN3/1p2P3/2N2Q1p/PPPBBPPP/R3K2R w KQkq -",
    "r4rk1/1pp1qppp/p1np1n2/2b1p1B1/2B1P1b1/P1NP1N2/1PP1QPPP/R4RK1 w - -",
    "r1bqkb1r/pp3ppp/2n1pn2/2pp4/3P1B2/2PBPN2/PP1N1PPP/R2QK2R b KQkq -",
    "r2q1rk1/pp2bppp/2npbn2/4p3/4P3/1NN1BP2/PPPQ2PP/2KR1B1R w - -",
    "2r2rk1/1b3ppp/p2qpn2/1p6/3P4/1BN1Q3/PP3PPP/3R1RK1 b - -",
]
# Diagrams whose sketches are refuted.
SKETCHED = [
    "8/5p2/5p2/2R5/k5P1/P2PpP2/1PP1P2P/4K2R w K -",
    "8/pbp5/1b6/8/PPPPPPP1/pprprpp1/2N1PR1n/R3K2k w Q -",
]
# Diagrams whose sketches are closed: those of three certificates, and two situations in which a king or a rook is out of its cage.
CLOSED = [
    SKETCHED[1],
    "K3k2r/1p2p1p1/p1p1p3/2Q1Np2/3n1P2/4PRP1/PPPPRrP1/n2bqB2 w k -",
    "1b3NrR/P1pp2pK/1p2p1RQ/5pP1/1P3p2/1P3k2/2PPP2P/N7 b - -",
    "rnbqkbnr/pppppppp/8/8/4K3/8/PPPPPPPP/RNBQ1BNR w - -",
    "rn2k2r/ppp1pppp/8/3p4/8/8/PPP1PPPP/RRR1K3 w q -",
]
# Composed diagrams of few men.
ORDINARY = [
    "8/8/4p3/1K2p3/3k4/5Q2/8/8 w - -",
    "3N4/3p4/K2Br3/1N1kPR2/1p2p3/1P1r1p2/3P1P2/7Q w - -",
    "r7/p1N3p1/3p3P/P3kB2/4p1Q1/1P6/2P1p1P1/4Kb2 w - -",
]
# Claims of examples/, each with the depth that settles it.
CLAIMS = {"loyd-1859": 1, "loyd-1891": 1, "dawson-1913": 2, "benko-1996": 2, "dawson-chess-magazine-1913": 4, "barred-kings": 9}
# Claims of examples/ that the rule lines leave open, and `settle` proves.
BALANCED = ["dawson-1918", "dawson-1934", "dawson-1940", "dawson-1948"]
MOST_NODES = 500_000
# A certificate whose first child is a stray label already: from there on only the text is checked.
STRAYS = b"retro 1\nclaim illegal\nfen 4k3/8/8/8/8/8/8/4K3 w - -\n"
STRAY = b"a1a2 back 1\n"
MOST_CHILDREN = 999_999
LIMITS = {"least": 20_000, "bound": 2_000, "balances": 100_000}


def timed(words, text):
    begun = time.perf_counter()
    done = subprocess.run(words, input=text, stdout=subprocess.PIPE)
    return done.returncode, done.stdout.decode().strip(), time.perf_counter() - begun


@contextlib.contextmanager
def built(name, deps, words=()):
    """The program of `name`.program, proved and built over a copy of the crates."""
    with tempfile.TemporaryDirectory() as folder:
        top = pathlib.Path(folder)
        for crate in (HERE.parent / "crates").iterdir():
            shutil.copytree(crate, top / "crates" / crate.name, ignore=shutil.ignore_patterns("out", "must-fail"))
        bench = top / "crates" / f"bench_{name}"
        (bench / "src").mkdir(parents=True)
        shutil.copy(HERE / f"{name}.program", bench / "src" / "main.rt")
        (top / "crates.txt").write_text((HERE.parent / "crates.txt").read_text() + f"{bench.name}: {deps}\n")
        subprocess.run(["rt", "run", *words], cwd=bench, check=True, stdout=subprocess.DEVNULL)
        yield str(bench / "out" / bench.name)


def play(program):
    for plies in (200_000, 1_000_000):
        text = ARRAY + b"g1f3 g8f6 f3g1 f6g8 " * (plies // 4)
        status, answer, seconds = timed([program, "play"], text)
        print(f"{plies} plies: status {status}, {answer}, {seconds:.2f} s, {seconds / plies * 1e6:.2f} microseconds a ply")


def search(program):
    for name, depth in CLAIMS.items():
        claim = (HERE.parent / "examples" / f"{name}.claim").read_bytes()
        words = [program, "solve", str(depth), "500000"]
        done = subprocess.run(words, input=claim, stdout=subprocess.PIPE, check=True)
        seconds = min(timed(words, claim)[2] for _ in range(5))
        nodes = done.stdout.count(b"\n") - 3
        found = instructions(words, claim)
        checked = instructions([program, "check"], done.stdout)
        print(f"{name}: {nodes} nodes, {seconds * 1000:.1f} ms; solve {found:,} instructions, check {checked:,}")


def visited(program, depth, claim, command="solve"):
    """The least number of nodes with which the search isn't spent."""
    low, high = 1, MOST_NODES
    while low < high:
        middle = (low + high) // 2
        if timed([program, command, str(depth), str(middle)], claim)[0] == 3:
            low = middle + 1
        else:
            high = middle
    return low


def visits(program):
    for name, depth in [*CLAIMS.items(), ("barred-kings", 11)]:
        claim = (HERE.parent / "examples" / f"{name}.claim").read_bytes()
        certificate = timed([program, "solve", str(depth), str(MOST_NODES)], claim)[1]
        # A search that keeps nothing visits each node of the certificate.
        plain = len(certificate.split("\n")) - 3
        print(f"{name} to depth {depth}: {visited(program, depth, claim)} visits, {plain} without the memo")


def problems():
    """The claims of examples/ and of problems.txt, each with a name."""
    for name in [*CLAIMS, *BALANCED]:
        yield name, (HERE.parent / "examples" / f"{name}.claim").read_bytes()
    for line in (HERE / "problems.txt").read_text().splitlines():
        if not line.startswith("#"):
            claim, fen, author, source, year = line.split(" | ")
            yield f"{author}, {source}, {year}", f"{claim}\n{fen}\n".encode()


def settle(program):
    for name, claim in problems():
        for command in ("solve", "settle"):
            words = [program, command, "64", str(MOST_NODES)]
            status, text, _ = timed(words, claim)
            seconds = min(timed(words, claim)[2] for _ in range(5))
            nodes = text.count("\n") - 2 if status == 0 else 0
            print(f"{name}: {command} 64: status {status}, {visited(program, 64, claim, command)} visits, {nodes} nodes, {text.count(' rule balance ')} with prices, {seconds * 1000:.1f} ms")


def moves():
    with built("legal_moves", "fen_text play_rules query_base board_base") as program:
        status, answer, seconds = timed([program], b"")
        print(f"100000 lists: status {status}, {answer} moves, {seconds:.2f} s, {seconds * 10:.2f} microseconds a list")


def instructions(words, text=b""):
    done = subprocess.run(["valgrind", "--tool=callgrind", "--callgrind-out-file=/dev/null", *words], input=text, capture_output=True)
    return int(re.search(rb"Collected : (\d+)", done.stderr)[1])


def profiled(words, text):
    """The machine instructions of each function without those that it calls, those with them of each call, and the calls, by names."""
    own, calls, inner, names = collections.Counter(), collections.Counter(), collections.Counter(), {}

    def name_of(word):
        number, name = re.match(r"\((\d+)\)(?: (.*))?", word).groups()
        return names.setdefault(number, re.sub(r"'\d+$", "", name or ""))

    with tempfile.NamedTemporaryFile() as out:
        subprocess.run(["valgrind", "--tool=callgrind", f"--callgrind-out-file={out.name}", *words], input=text, capture_output=True, check=True)
        here, called = None, None
        for line in pathlib.Path(out.name).read_text(errors="replace").splitlines():
            if line.startswith("fn="):
                here = name_of(line[3:])
            elif line.startswith("cfn="):
                called = name_of(line[4:])
            elif line.startswith("calls="):
                calls[called] += int(line[6:].split()[0])
            elif re.match(r"[\d+*-]\S* \d+$", line):
                cost = int(line.split()[1])
                if called is None:
                    own[here] += cost
                elif called != here:
                    inner[called] += cost
                called = None
    return own, inner, calls


def study(words):
    parser = argparse.ArgumentParser(prog="measure.py study")
    parser.add_argument("program")
    parser.add_argument("files", nargs="+", type=pathlib.Path)
    parser.add_argument("--every", type=int, default=1)
    args = parser.parse_args(words)
    program, fens = args.program, diagrams_of(args.files)[:: args.every]
    own, inner, calls = collections.Counter(), collections.Counter(), collections.Counter()
    for fen in fens:
        for total, more in zip((own, inner, calls), profiled([program, "study", "8", "2000"], fen.encode() + b"\n")):
            total.update(more)
    every = sum(own.values())
    visited, asked = calls["retro_search::searching::search"], calls["price_search::desk::prices_by"]
    # (homes at each of the three flat prices are kept for each key that was searched)
    searched, evaluated = calls["price_search::desk::PlacedMen::by_traces"] // 3, calls["price_search::outcomes::outcome_of"]
    games = inner["game_search::finding::find_game"]
    rest = every - games
    print(f"{len(fens)} diagrams, {every:,} instructions, {games:,} of them for games, {visited:,} positions visited, {asked:,} asked for prices")
    print(f"without those for games {rest // max(visited, 1):,} for each that is visited, {rest // max(asked, 1):,} for each that is asked")
    print(f"{searched:,} searches for prices, {evaluated / max(searched, 1):.2f} evaluations a search")
    for title, counts in (("alone", own), ("with what they call", inner)):
        for name, cost in counts.most_common(40):
            print(f"{100 * cost / every:5.1f} of a hundred {title}: {name}, {calls[name]:,} calls")


def texts(program):
    wheeler = (HERE.parent / "examples" / "wheeler-1887.game").read_bytes().splitlines(keepends=True)[0]
    three = (HERE.parent / "examples" / "loyd-1891-three-moves.claim").read_bytes()
    for words, text, checker in ((["length"], wheeler, "atleast"), (["dossier", "1", "100"], three, "line")):
        made = subprocess.run([program, *words], input=text, stdout=subprocess.PIPE, check=True).stdout
        print(f"{words[0]} {instructions([program, *words], text):,} instructions, {checker} {instructions([program, checker], made):,}")


def strays(lines):
    """A certificate of so many nodes with stray labels, below as few others as may be."""
    whole, rest = divmod(lines, MOST_CHILDREN)
    nodes = [MOST_CHILDREN] * whole + [rest] * (rest > 0)
    return STRAYS + b"root expand %d\n" % len(nodes) + b"".join(b"a1a2 expand %d\n" % n + STRAY * n for n in nodes)


def deep_and_wide():
    """A certificate of a little less than 64 MiB with stray labels, and 143 children a level down to depth 255."""
    inner, leaf = b"a1a2 expand 143\n", b"a7b8qxq rule count w\n"
    last_levels = 143 * (inner + 143 * (inner + 143 * leaf))
    return STRAYS + b"root expand 143\n" + 252 * inner + last_levels + 252 * 142 * leaf


def stream(program):
    few, many = strays(20_000), strays(120_000)
    counts = [instructions([program, "check"], text) for text in (few, many)]
    print(f"{(counts[1] - counts[0]) / (len(many) - len(few)):.1f} instructions a byte")
    text = strays((64 * 1024 * 1024 - 200) // len(STRAY))
    seconds = min(timed([program, "check"], text)[2] for _ in range(5))
    print(f"{len(text)} bytes: {seconds:.2f} s, {len(text) / seconds / 1e6:.0f} MB/s")
    done = subprocess.run(["/usr/bin/time", "-v", program, "check"], input=text, capture_output=True)
    resident = re.search(rb"Maximum resident set size \(kbytes\): (\d+)", done.stderr)[1]
    print(f"{done.stdout.decode().strip()}: {int(resident)} KiB resident")
    text = deep_and_wide()
    status, answer, seconds = timed([program, "check"], text)
    print(f"{len(text)} bytes, 143 children a level: status {status}, {answer}, {seconds:.2f} s")


def pawns():
    with built("pawns", "pawn_assign board_base", ["--", "least", PAWNS[0], "1"]) as program:
        for call in ("least", "bound"):
            limit = LIMITS[call]
            for squares in PAWNS:
                few, many = (instructions([program, call, squares, str(times)]) for times in (100, 1100))
                each = (many - few) / 1000
                print(f"{call} {squares}: {each:.0f} instructions, {'under' if each < limit else 'NOT UNDER'} {limit}")


def cages():
    with built("cages", "board_base cage_rules fen_text query_base", ["--", CHAINS[0], "0"]) as program:
        for fen in CHAINS:
            none, many = (instructions([program, fen, times]) for times in ("0", "100"))
            print(f"{(many - none) / 100:.0f} instructions: {fen}")


def balance():
    parts = "board_base query_base cage_rules fen_text capture_prices balance_rule price_search"
    with built("balance", parts, ["--", CHAINS[0], "0", "0"]) as program:
        for fen in [*CHAINS, RETRACTED[3], RETRACTED[4], RETRACTED[7]]:
            none, many, found = (instructions([program, fen, a, b]) for a, b in (("0", "0"), ("20", "0"), ("0", "1")))
            each, limit = (many - none) / 20, LIMITS["balances"]
            print(f"{each:.0f} instructions to weigh, {'under' if each < limit else 'NOT UNDER'} {limit}; {found - none} to look for prices: {fen}")


def accounts():
    with built("accounts", "query_base fen_text capture_prices figures sketch_account", ["--", CHAINS[0], "0", "0", "0"]) as program:
        for fen in [*CHAINS, *SKETCHED]:
            none, *many = (instructions([program, fen, *words]) for words in (("0", "0", "0"), ("20", "0", "0"), ("0", "20", "0"), ("0", "0", "20")))
            anew, priced, same = ((each - none) / 20 for each in many)
            print(f"{anew:.0f} instructions for an account, {priced:.0f} for one at other prices, {same:.0f} for one more: {fen}")


def sketch():
    parts = "board_base query_base fen_text figures sketch_sets sketch_list sketch_walk"
    with built("sketch", parts, ["--", SKETCHED[0], "0", "0", "0", "0"]) as program:
        for fen in CLOSED:
            none, *once = (instructions([program, fen, *words]) for words in ("0000", "1000", "0100", "0010", "0001"))
            closed, trimmed, homes, walked = (each - none for each in once)
            steps = subprocess.run([program, fen, *"0001"], capture_output=True, text=True, check=True).stdout.split()[3]
            print(f"{closed:,} instructions to close, {trimmed:,} to trim, {homes:,} for homes, {walked:,} for {steps} steps: {fen}")


def trees():
    with built("trees", "board_base fen_text query_base sketch_trees sketch_search", ["--", CHAINS[0], "0"]) as program:
        for fen in [*SKETCHED, *CHAINS, RETRACTED[4], RETRACTED[6], *ORDINARY]:
            none, once = (instructions([program, fen, times]) for times in ("0", "1"))
            found, states = timed([program, fen, "1"], b"")[1].split()
            print(f"{once - none:,} instructions, {found} found, {states} sketches looked at: {fen}")


def ledger():
    with built("ledger", "board_base fen_text query_base ledger_search", ["--", "0"]) as program:
        for fen in [*SKETCHED, *CHAINS, RETRACTED[4], RETRACTED[6], *ORDINARY]:
            none, once = (instructions([program, times], fen.encode() + b"\n") for times in ("0", "1"))
            print(f"{once - none:,} instructions: {fen}")


def games(path):
    fens = [" ".join(line.split()[:4]) for line in pathlib.Path(path).read_text().splitlines() if line.strip()]
    with built("games", "board_base fen_text query_base unmove_gen game_search", ["--", "0"]) as program:
        found, times, lengths, looked = 0, [], [], []
        for fen in fens:
            begun = resource.getrusage(resource.RUSAGE_CHILDREN).ru_utime
            answer = subprocess.run([program, "20000"], input=fen + "\n", capture_output=True, text=True, check=True).stdout.split()
            times.append(resource.getrusage(resource.RUSAGE_CHILDREN).ru_utime - begun)
            looked.append(int(answer[2]))
            if answer[0] == "found":
                found += 1
                lengths.append(int(answer[1]))
            else:
                print("open:", fen)
        middle = lambda numbers: sorted(numbers)[len(numbers) // 2] if numbers else 0
        print(f"found {found} of {len(fens)}, {middle(lengths)} moves in the median, {max(lengths, default=0)} at most")
        print(f"{middle(looked)} queries in the median; {1000 * sum(times) / len(times):.0f} ms of processor time in the mean, {1000 * middle(times):.0f} in the median, {1000 * max(times):.0f} at most")


def unmoves():
    with built("unmoves", "board_base fen_text query_base unmove_gen", ["--", RETRACTED[0], "0"]) as program:
        for fen in RETRACTED:
            none, many = (instructions([program, fen, times]) for times in ("0", "100"))
            print(f"{(many - none) / 100:.0f} instructions, {timed([program, fen, '1'], b'')[1].split()[0]} retractions: {fen}")


def main():
    if sys.argv[1:2] == ["play"] and len(sys.argv) == 3:
        play(sys.argv[2])
    elif sys.argv[1:2] == ["search"] and len(sys.argv) == 3:
        search(sys.argv[2])
    elif sys.argv[1:2] == ["visits"] and len(sys.argv) == 3:
        visits(sys.argv[2])
    elif sys.argv[1:2] == ["settle"] and len(sys.argv) == 3:
        settle(sys.argv[2])
    elif sys.argv[1:2] == ["texts"] and len(sys.argv) == 3:
        texts(sys.argv[2])
    elif sys.argv[1:2] == ["study"] and len(sys.argv) > 3:
        study(sys.argv[2:])
    elif sys.argv[1:2] == ["stream"] and len(sys.argv) == 3:
        stream(sys.argv[2])
    elif sys.argv[1:] == ["moves"]:
        moves()
    elif sys.argv[1:] == ["pawns"]:
        pawns()
    elif sys.argv[1:] == ["unmoves"]:
        unmoves()
    elif sys.argv[1:] == ["cages"]:
        cages()
    elif sys.argv[1:] == ["balance"]:
        balance()
    elif sys.argv[1:] == ["accounts"]:
        accounts()
    elif sys.argv[1:] == ["trees"]:
        trees()
    elif sys.argv[1:] == ["ledger"]:
        ledger()
    elif sys.argv[1:] == ["sketch"]:
        sketch()
    elif sys.argv[1:2] == ["games"] and len(sys.argv) == 3:
        games(sys.argv[2])
    else:
        sys.exit(__doc__)


if __name__ == "__main__":
    main()
