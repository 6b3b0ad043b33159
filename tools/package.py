#!/usr/bin/env python3
"""Makes a Debian package of the built program, its manual page, completions, pages, examples and the second checker of certificates.

package.py PROGRAM [FOLDER]
  FOLDER   where the package is put; the working directory if it is left out

The version is what `PROGRAM --version` says. It needs `dpkg-deb` and nothing else, and prints the package's path.
"""
import gzip
import pathlib
import shutil
import subprocess
import sys
import tempfile

TOP = pathlib.Path(__file__).resolve().parent.parent
# The second checker of certificates, and what it imports.
SECOND_CHECK = ("second_check", "chess_rules", "fuzz_rules", "fuzz_sketches", "fuzz_texts")
# What the toolchain builds for.
ARCHITECTURE = "amd64"
CONTROL = """Package: retractor
Version: {version}
Architecture: {architecture}
Maintainer: The developers of Retractor <retractor@localhost>
Section: utils
Priority: optional
Depends: libc6
Description: prove facts about the past of a chess position
 Whether a diagram can arise at all, what the last move was, who may still
 castle, whether a capture en passant is permitted: for composers, solvers,
 judges and editors of retro problems. Each fact comes with its proof, in
 English and as a certificate that anybody can check.
"""


def said(*words):
    return subprocess.run([str(word) for word in words], check=True, capture_output=True, text=True).stdout.strip()


def put(source, target, mode=0o644):
    target.parent.mkdir(parents=True, exist_ok=True)
    shutil.copyfile(source, target)
    target.chmod(mode)


def lay_out(program, root):
    """Everything that the package installs, below this folder."""
    share = root / "usr" / "share"
    put(program, root / "usr" / "bin" / "retractor", 0o755)
    put(TOP / "completions" / "retractor.bash", share / "bash-completion" / "completions" / "retractor")
    put(TOP / "completions" / "_retractor", share / "zsh" / "vendor-completions" / "_retractor")
    put(TOP / "completions" / "retractor.fish", share / "fish" / "vendor_completions.d" / "retractor.fish")
    manual = share / "man" / "man1" / "retractor.1.gz"
    manual.parent.mkdir(parents=True)
    manual.write_bytes(gzip.compress((TOP / "docs" / "retractor.1").read_bytes(), mtime=0))
    manual.chmod(0o644)
    pages = share / "doc" / "retractor"
    scripts = [TOP / "bench" / f"{name}.py" for name in SECOND_CHECK]
    for page in [TOP / "README.md", TOP / "CHANGELOG.md", *sorted((TOP / "docs").glob("*.md")), *sorted((TOP / "examples").iterdir()), *scripts]:
        put(page, pages / page.relative_to(TOP))


def package(program, folder):
    """The path of the package of this program, which is put into the folder."""
    version = said(program, "--version").removeprefix("retractor ")
    with tempfile.TemporaryDirectory() as room:
        root = pathlib.Path(room) / "retractor"
        lay_out(program, root)
        for place in [root, *root.rglob("*")]:
            if place.is_dir():
                place.chmod(0o755)
        (root / "DEBIAN").mkdir(mode=0o755)
        (root / "DEBIAN" / "control").write_text(CONTROL.format(version=version, architecture=ARCHITECTURE))
        path = folder / f"retractor_{version}_{ARCHITECTURE}.deb"
        said("dpkg-deb", "--root-owner-group", "--build", root, path)
    return path


def main():
    words = sys.argv[1:]
    if words == ["--help"]:
        return print(__doc__)
    if not 1 <= len(words) <= 2:
        sys.exit(__doc__)
    print(package(pathlib.Path(words[0]).resolve(), pathlib.Path(words[1] if len(words) == 2 else ".").resolve()))


if __name__ == "__main__":
    main()
