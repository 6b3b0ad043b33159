#!/usr/bin/env python3
"""Refuses each allocation of a run of the built program in turn, outside the gate.

refused.py PROGRAM [--most N]    runs each command once for each of its allocations, or for N of them at even steps where it makes more

Each run ends with status 9 and nothing written, or as where nothing is refused. A run that doesn't is printed, and the exit status is 1 then.
`check`, `atleast` and `line` take no memory, but the words of the command line do, before they begin. The Nth call of `malloc` and `realloc` is refused by a
library that the program is loaded with; it is compiled by `cc`, and the program has to be one that loads the C library when it starts, as
those of this kit do.
"""
import argparse
import os
import pathlib
import struct
import subprocess
import sys
import tempfile

HERE = pathlib.Path(__file__).resolve().parent
EXAMPLES = HERE.parent / "examples"
WANT_OF_MEMORY = 9

REFUSING = r"""
#include <errno.h>
#include <fcntl.h>
#include <stdlib.h>
#include <sys/mman.h>

void *__libc_malloc(size_t size);
void *__libc_realloc(void *block, size_t size);

/* The calls so far, in a file, and the number of the call that is refused. */
static volatile long *calls;
static long refused;

__attribute__((constructor)) static void begin(void) {
    int file = open(getenv("CALLS"), O_RDWR);
    if (file < 0)
        abort();
    refused = atol(getenv("REFUSED"));
    calls = mmap(0, sizeof *calls, PROT_READ | PROT_WRITE, MAP_SHARED, file, 0);
    if (calls == MAP_FAILED)
        abort();
}

static int is_refused(void) {
    if (!calls || ++*calls != refused)
        return 0;
    errno = ENOMEM;
    return 1;
}

void *malloc(size_t size) { return is_refused() ? 0 : __libc_malloc(size); }
void *realloc(void *block, size_t size) { return is_refused() ? 0 : __libc_realloc(block, size); }
"""

ARRAY = b"rnbqkbnr/pppppppp/8/8/8/8/PPPPPPPP/RNBQKBNR w KQkq -\n"
STEPPED = b"4k3/8/8/3p4/8/8/P7/4K2R w K d6\n"


def cases():
    """Words and an input of each command, and of several searches."""
    yield ["check"], (EXAMPLES / "no-kings.cert").read_bytes()
    yield ["check"], (EXAMPLES / "loyd-1891.cert").read_bytes()
    yield ["explain"], (EXAMPLES / "loyd-1891.cert").read_bytes()
    yield ["explain"], (EXAMPLES / "dawson-1913.cert").read_bytes()
    yield ["explain"], (EXAMPLES / "nine-pawns.cert").read_bytes() + b"x\n"
    yield ["play"], ARRAY + b"e2e4 e7e5 e4e5\n"
    yield ["unmoves"], b"4k3/8/3P4/8/8/8/8/4K2R b K -\n"
    yield ["solve", "2", "10"], b"claim illegal\n" + STEPPED
    yield ["solve", "1", "1000"], (EXAMPLES / "loyd-1859.claim").read_bytes()
    yield ["solve", "4", "1000"], (EXAMPLES / "dawson-chess-magazine-1913.claim").read_bytes()
    yield ["solve", "9", "281"], (EXAMPLES / "barred-kings.claim").read_bytes()
    yield ["settle", "64", "1000"], (EXAMPLES / "dawson-1940.claim").read_bytes()
    yield ["study", "2", "1000"], b"6nk/2p4p/3B1P1P/5KpP/8/8/8/8 w - -\n"
    yield ["report", "2", "1000"], b"6nk/2p4p/3B1P1P/5KpP/8/8/8/8 w - -\n"
    yield ["verdict", "1", "100"], b"4k3/8/8/8/8/8/P7/4K2R b - -\n"
    yield ["tree", "4", "1000"], ARRAY.replace(b" w ", b" b ")
    yield ["sample", "0", "3", "20"], b""
    yield ["san"], ARRAY + b"1. e4 e5 2. Ke2 *\n"
    yield ["spell"], b"e2e4 e7e5 f1c4 b8c6 d1h5 g8f6 h5f7\n"
    yield ["length"], (EXAMPLES / "wheeler-1887.game").read_bytes().splitlines(keepends=True)[0]
    yield ["atleast"], b"retro length 1\nfen 8/8/8/8/8/8/8/8 w - -\natleast 0\nmoves w /" + b" 0" * 16 + b"\n"
    yield ["line"], b"retro line 1\nclaim line d6d5\nfen kN6/pp6/2P1P3/2KpP3/8/8/8/8 w - -\n"
    yield ["dossier", "1", "100"], (EXAMPLES / "loyd-1891-three-moves.claim").read_bytes()


class Refusing:
    """Runs of a program of which one call for memory is refused."""

    def __init__(self, program, folder):
        self.program, self.calls, self.library = program, folder / "calls", folder / "refusing.so"
        (folder / "refusing.c").write_text(REFUSING)
        subprocess.run(["cc", "-O1", "-shared", "-fPIC", "-o", self.library, folder / "refusing.c"], check=True)

    def run(self, words, text, refused):
        """The status and the output of a run, and how often it called for memory."""
        self.calls.write_bytes(struct.pack("q", 0))
        given = {"LD_PRELOAD": str(self.library), "CALLS": str(self.calls), "REFUSED": str(refused)}
        done = subprocess.run([self.program, *words], input=text, stdout=subprocess.PIPE, stderr=subprocess.DEVNULL, env={**os.environ, **given})
        return (done.returncode, done.stdout), struct.unpack("q", self.calls.read_bytes())[0]


def tried(refusing, words, text, most):
    """Refuses the calls of these words in turn. How many runs were wrong."""
    whole, calls = refusing.run(words, text, 0)
    step, wanting, wrong = -(-calls // most) or 1, 0, 0
    for refused in range(1, calls + 1, step):
        answer, _ = refusing.run(words, text, refused)
        wanting += answer == (WANT_OF_MEMORY, b"")
        if answer not in (whole, (WANT_OF_MEMORY, b"")):
            wrong += 1
            print(f"{' '.join(words)}: with call {refused} refused: status {answer[0]}, {answer[1][:80]!r}")
    print(f"{' '.join(words)}: status {whole[0]}, {calls} calls, {-(-calls // step)} refused, {wanting} times status 9, {wrong} wrong")
    return wrong


def main():
    asked = argparse.ArgumentParser(description=__doc__, formatter_class=argparse.RawDescriptionHelpFormatter)
    asked.add_argument("program")
    asked.add_argument("--most", type=int, default=2_000)
    asked = asked.parse_args()
    with tempfile.TemporaryDirectory() as folder:
        refusing = Refusing(os.path.abspath(asked.program), pathlib.Path(folder))
        wrong = sum(tried(refusing, words, text, asked.most) for words, text in cases())
    sys.exit(1 if wrong else 0)


if __name__ == "__main__":
    main()
