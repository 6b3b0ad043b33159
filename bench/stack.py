#!/usr/bin/env python3
"""Prints the least stack, in steps of 4 KiB, with which `check` and `line` answer as they do with 8 MiB.

stack.py PROGRAM

Each runs on a text of one line, on a large one of examples/, and on a certificate that is walked down to the greatest depth, alone and
as the part of a dossier.
"""
import pathlib
import resource
import subprocess
import sys

EXAMPLES = pathlib.Path(__file__).resolve().parent.parent / "examples"
STEP = 4
MOST = 8_192
DEEPEST = 255
ARRAY = "rnbqkbnr/pppppppp/8/8/8/8/PPPPPPPP/RNBQKBNR b KQkq -"
# The first retractions of the array with Black to move; after eight of them the same four come again and again.
KNIGHTS = ["a3b1", "a6b8", "f3g1", "b4a6", "b1a3", "d5b4", "a3b1", "c3d5"]
ROUND = ["b1a3", "a4c3", "a3b1", "c3a4"]


def chain():
    """The lines of a certificate that is walked down to the greatest depth."""
    labels = KNIGHTS + [ROUND[i % 4] for i in range(len(KNIGHTS), DEEPEST - 1)]
    nodes = ["root expand 1", *(f"{label} expand 1" for label in labels), "a3b1 back 255"]
    return "\n".join(["retro 1", "claim illegal", f"fen {ARRAY}", *nodes, ""])


def dossier(program, name):
    claim = (EXAMPLES / f"{name}.claim").read_bytes()
    return subprocess.run([program, "dossier", "1", "100"], input=claim, stdout=subprocess.PIPE, check=True).stdout


def certificate(program):
    claim = (EXAMPLES / "barred-kings.claim").read_bytes()
    return subprocess.run([program, "solve", "9", "500000"], input=claim, stdout=subprocess.PIPE, check=True).stdout


def texts(program):
    """The words and the text of each run."""
    deep = chain()
    part = f"retro line 1\nclaim notboth k q\nfen {ARRAY}\npart {len(deep)}\n{deep}".encode()
    yield "check", "of one line", b"retro\n"
    yield "check", "of the large tree", certificate(program)
    yield "check", f"at depth {DEEPEST}", deep.encode()
    yield "line", "of one line", b"retro\n"
    yield "line", "of Loyd's three moves", dossier(program, "loyd-1891-three-moves")
    yield "line", f"with a part at depth {DEEPEST}", part


def ended(words, text, kib):
    """The status and the answer of a run with so much stack."""

    def limit():
        resource.setrlimit(resource.RLIMIT_STACK, (kib * 1024, kib * 1024))

    done = subprocess.run(words, input=text, capture_output=True, preexec_fn=limit)
    return done.returncode, done.stdout


def least(words, text):
    """The least stack in KiB with which the run ends as with the most."""
    want = ended(words, text, MOST)
    low, high = 1, MOST // STEP
    while low < high:
        middle = (low + high) // 2
        if ended(words, text, middle * STEP) == want:
            high = middle
        else:
            low = middle + 1
    return high * STEP, want


def main():
    if len(sys.argv) != 2:
        sys.exit(__doc__)
    program = str(pathlib.Path(sys.argv[1]).resolve())
    for command, what, text in texts(program):
        kib, (status, answer) = least([program, command], text)
        print(f"{command} {what}: {kib} KiB; status {status}, {answer.decode().strip()}")


if __name__ == "__main__":
    main()
