#!/usr/bin/env python3
"""Compiles each program of this folder over a copy of the crates, and runs it once, with nothing proved.

programs.py

Tells which programs don't compile, fail or print nothing; the exit status is 1 if there is one. A program's crates are those that
its `use` lines name.
"""
import pathlib
import re
import shutil
import subprocess
import sys
import tempfile

HERE = pathlib.Path(__file__).resolve().parent
TOP = HERE.parent
CASTLED = "r1bq1rk1/pp2npbp/3p1np1/2pPp3/2P1P3/2N2N2/PP2BPPP/R1BQ1RK1 w - -"
# The words that each program is run with.
WORDS = {
    "accounts": [CASTLED, "1", "1", "1"],
    "balance": [CASTLED, "1", "0"],
    "cages": [CASTLED, "1"],
    "games": ["100"],
    "ledger": ["1"],
    "legal_moves": ["1"],
    "pawns": ["least", "a2b2c2d2e2f2g2h2", "1"],
    "sketch": [CASTLED, "1", "1", "1", "1"],
    "trees": [CASTLED, "1"],
    "unmoves": [CASTLED, "1"],
}
# What some read.
INPUTS = {"games": f"{CASTLED}\n", "ledger": f"{CASTLED}\n"}


def copied(top):
    """A copy of the crates with a crate for each program, and the programs' crates by name."""
    for crate in (TOP / "crates").iterdir():
        shutil.copytree(crate, top / "crates" / crate.name, ignore=shutil.ignore_patterns("out", "must-fail"))
    lines = (TOP / "crates.txt").read_text()
    benches = {}
    for program in sorted(HERE.glob("*.program")):
        used = set(re.findall(r"^use (\w+)", program.read_text(), re.M)) - {"std"}
        bench = top / "crates" / f"bench_{program.stem}"
        (bench / "src").mkdir(parents=True)
        shutil.copy(program, bench / "src" / "main.rt")
        lines += f"{bench.name}: {' '.join(sorted(used))}\n"
        benches[program.stem] = bench
    (top / "crates.txt").write_text(lines)
    return benches


def main():
    failed = 0
    with tempfile.TemporaryDirectory() as folder:
        for name, bench in copied(pathlib.Path(folder)).items():
            done = subprocess.run(["rt", "try", "--", *WORDS.get(name, [])], cwd=bench, input=INPUTS.get(name, ""), capture_output=True, text=True)
            good = done.returncode == 0 and done.stdout.strip() != ""
            failed += not good
            print(f"{name}: {done.stdout.strip()}" if good else f"{name} FAILED:\n{done.stdout}{done.stderr}")
    sys.exit(1 if failed else 0)


if __name__ == "__main__":
    main()
