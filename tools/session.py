#!/usr/bin/env python3
"""Runs every command that a page shows with a built program, and reports where it writes something else than is shown, on standard
output or on standard error.

session.py [--write] PROGRAM
  --write   put what is written into the pages, where it differs

The pages are README.md, CHANGELOG.md, bench/README.md and those of docs/. In a plain block each line that begins with `$ ` is a
command, and the lines after it are what it writes. In a block of `sh` each line is a command, and all that counts is that the block
ends with status 0; lines that begin with one of LEFT_OUT are named and not run: they take long, or change the machine. Of a call in
the text that reads an example, as `solve 1 100 < examples/loyd-1859.claim`, only the status counts too.
"""
import os
import pathlib
import re
import subprocess
import sys
import tempfile

TOP = pathlib.Path(__file__).resolve().parent.parent
LEFT_OUT = ("rt ", "cd ", "retractor() ", "unset ", "apt-get ", "install ", "export ", "python3 tools/collection.py /usr/")


def pages():
    return [TOP / "README.md", TOP / "CHANGELOG.md", TOP / "bench" / "README.md", *sorted((TOP / "docs").glob("*.md"))]


def run(command, folder):
    """Status and output of a command of the shell that finds the program, as `retractor`, in this folder, which is its home too."""
    path = f"{folder}{os.pathsep}{os.environ['PATH']}"
    done = subprocess.run(command, shell=True, cwd=TOP, env={**os.environ, "PATH": path, "HOME": folder}, stdin=subprocess.DEVNULL, stdout=subprocess.PIPE, stderr=subprocess.STDOUT, text=True)
    return done.returncode, done.stdout


def try_shown(page, block, folder, counts):
    """A plain block with what its commands write; counts them, and reports each that writes something else than is shown."""
    parts = re.split(r"^\$ ", block, flags=re.M)[1:]
    written = []
    for part in parts:
        command, _, shown = part.partition("\n")
        output = run(command, folder)[1]
        counts["commands"] += 1
        if output.strip("\n") != shown.strip("\n"):
            counts["differ"] += 1
            print(f"differs: {page.name}: {command}\n{output}")
        written.append(f"$ {command}\n" + (output.strip("\n") + "\n" if output.strip("\n") else ""))
    return "".join(written)


def try_script(page, block, folder, counts):
    """Runs the lines of a block of `sh`, but for those that are left out."""
    lines = [line for line in block.split("\n") if line.strip()]
    left = [line for line in lines if line.startswith(LEFT_OUT)]
    for line in left:
        print(f"left out: {page.name}: {line}")
    tried = [line for line in lines if line not in left]
    if not tried:
        return
    counts["commands"] += len(tried)
    status, output = run("set -e\n" + "\n".join(tried), folder)
    if status:
        counts["differ"] += 1
        print(f"status {status}: {page.name}: {'; '.join(tried)}\n{output}")


def try_calls(page, text, folder, counts):
    """Runs the calls in the text, outside of its blocks, that read an example."""
    prose = re.sub(r"```.*?```", "", text, flags=re.S)
    for call in re.findall(r"`([a-z]+(?: \d+)* < examples/[\w.-]+)`", prose):
        counts["commands"] += 1
        status, output = run(f"retractor {call}", folder)
        if status:
            counts["differ"] += 1
            print(f"status {status}: {page.name}: {call}\n{output}")


def main():
    words = sys.argv[1:]
    write = "--write" in words
    words = [word for word in words if word != "--write"]
    if words == ["--help"]:
        return print(__doc__)
    if len(words) != 1:
        sys.exit(__doc__)
    counts = {"commands": 0, "differ": 0}
    with tempfile.TemporaryDirectory() as folder:
        os.symlink(pathlib.Path(words[0]).resolve(), pathlib.Path(folder) / "retractor")
        for page in filter(pathlib.Path.is_file, pages()):
            text = page.read_text()
            new = re.sub(r"```\n(\$.*?)```", lambda found: f"```\n{try_shown(page, found[1], folder, counts)}```", text, flags=re.S)
            for block in re.findall(r"```sh\n(.*?)```", text, re.S):
                try_script(page, block, folder, counts)
            try_calls(page, text, folder, counts)
            if write and new != text:
                page.write_text(new)
    print(f"{counts['commands']} commands, {counts['differ']} differ")
    sys.exit(1 if counts["differ"] else 0)


if __name__ == "__main__":
    main()
