#!/usr/bin/env python3
"""Tries wrong bodies, outside the gate: the contracts have to refuse each.

wrong_bodies.py [CRATE ..] [--most N]   those of bench/wrong_bodies/CRATE.txt, or of each file there, at most N of each crate at even steps
wrong_bodies.py [CRATE ..] --edits      the must-fail edits of these crates, or of all, which the gate tries too: here it is told where each falls

A wrong body stands under a line `# name`, as a must-fail edit does: a file, and pairs of an old and a new text. They are tried by `rt ci CRATE ..`
on a copy of the crates that has no other edits, so what a gate passed on this machine isn't proved again. Those of known.txt are let through, each
with why. The exit status is 1 if another is let through, where one of known.txt is refused, and where one can't be tried; each is printed.
A body is refused at a goal of the source, or at a proof in `proofs/` that no longer fits, which says less of the clause; both are counted.

Of these two `rt ci` and `rt must-fail` print one line, and a proof that no longer fits goes before a goal. So with `--edits` each edit is tried by
`rt check`, which prints all of them, on a copy of the crates. The exit status is 1 if an edit falls at no goal of the source.
"""
import argparse
import pathlib
import re
import shutil
import subprocess
import sys
import tempfile

TOP = pathlib.Path(__file__).resolve().parent.parent
BODIES = TOP / "bench" / "wrong_bodies"
TOLD = re.compile(r"must-fail (\S+)\.edit: (refused|NOT REFUSED|BAD EDIT|NOT TRIED)")
AT_GOAL = re.compile(r"must-fail \S+\.edit: refused, as it must be: (?:note: )?src/")
GOAL = re.compile(r"(?m)^(?:note: )?(?:\./)?(src/\S+):(\d+):\d+: (?:error: )?it is not proved that.*?\(`([^`]+)`\)")
UNNAMED = re.compile(r"module `Rattle\.\w+\.proofs\.(?:[\w+]+\.)*(\w+)\.Goals` has no `([^`]+)`")


def bodies(crate):
    """The wrong bodies of a crate, each as its name and the text of an edit."""
    for part in re.split(r"(?m)^# ", (BODIES / f"{crate}.txt").read_text())[1:]:
        name, text = part.split("\n", 1)
        yield name, text.rstrip("\n") + "\n"


def known():
    """Those that are let through, by crate and name."""
    lines = (BODIES / "known.txt").read_text().splitlines()
    return {line.split(":", 1)[0] for line in lines if line and not line.startswith("#")}


def chosen(crate, most):
    """At most so many wrong bodies of a crate, at even steps; all where no number is given."""
    every = list(bodies(crate))
    if most is None or len(every) <= most:
        return every
    return [every[len(every) * place // most] for place in range(most)]


def copied(folder):
    """A copy of the crates without their edits and without what checks kept."""
    top = pathlib.Path(folder)
    shutil.copy(TOP / "crates.txt", top)
    shutil.copy(TOP / "HANDLES", top)
    subprocess.run(["git", "init", "-q", folder], check=True)
    for crate in (TOP / "crates").iterdir():
        shutil.copytree(crate, top / "crates" / crate.name, ignore=shutil.ignore_patterns("out", "must-fail"))
    return top


def run(words, folder):
    """The exit status of a command in a folder, and what it printed."""
    done = subprocess.run(words, cwd=folder, stdout=subprocess.PIPE, stderr=subprocess.STDOUT, text=True)
    return done.returncode, done.stdout


def tried(chosen_bodies):
    """What `rt ci` says of each of the wrong bodies of the crates."""
    with tempfile.TemporaryDirectory() as folder:
        top = copied(folder)
        for crate, some in chosen_bodies.items():
            edits = top / "crates" / crate / "must-fail"
            edits.mkdir()
            for name, text in some:
                (edits / f"{name}.edit").write_text(text)
        _, told = run(["rt", "ci", *chosen_bodies], folder)
        return dict(TOLD.findall(told)), told


def try_bodies(chosen_bodies):
    """Tries the wrong bodies of the crates; whether each is refused, but for those that are known."""
    told, text = tried(chosen_bodies)
    passed, strange = known(), 0
    for crate, some in chosen_bodies.items():
        for name, _ in some:
            body = f"{crate}/{name}"
            want = "NOT REFUSED" if body in passed else "refused"
            if told.get(body) != want:
                strange += 1
                print(f"{body}: {told.get(body, 'nothing was said')}")
    refused = sum(it == "refused" for it in told.values())
    print(f"{len(told)} wrong bodies, {refused} refused, {len(AT_GOAL.findall(text))} of them at a goal, {strange} otherwise than they should be")
    if not told:
        print(text, file=sys.stderr)
    return strange == 0


def edited(text, folder):
    """The texts of the files that an edit changes, by their paths in a crate."""
    texts, path, old = {}, None, None
    for line in text.splitlines():
        word, _, rest = line.partition(":")
        rest = rest.removeprefix(" ")
        if word == "file":
            path = rest.strip()
        elif word == "old":
            old = rest
        elif word == "new":
            before = texts.get(path) or (folder / path).read_text()
            if before.count(old) != 1:
                raise ValueError(f"{old!r} doesn't stand once in {path}")
            texts[path] = before.replace(old, rest)
    return texts


def sort_of(function, goal):
    """What a goal asks of a function: what it calls, or that it returns, and which clause."""
    return function, goal.split("-")[0], goal.partition("-clause-")[2]


def goals_in(told, folder):
    """The goals of the source at which a check fails, but for those whose answer in `proofs/` is only under another name."""
    unnamed = {sort_of(function, goal) for function, goal in UNNAMED.findall(told)}
    found = set()
    for path, line, goal in GOAL.findall(told):
        above = (folder / path).read_text().splitlines()[: int(line)]
        functions = re.findall(r"\bfn (\w+)", "\n".join(above))
        found.add(sort_of(functions[-1] if functions else "", goal))
    return found - unnamed


def goals(text, folder):
    """The goals of the source at which the check of a crate with an edit fails, and what it printed."""
    texts = edited(text, folder)
    before = {path: (folder / path).read_text() for path in texts}
    try:
        for path, new in texts.items():
            (folder / path).write_text(new)
        status, told = run(["rt", "check"], folder)
        return goals_in(told, folder) if status else set(), told
    finally:
        for path, old in before.items():
            (folder / path).write_text(old)


def try_edits(crates):
    """Tries the must-fail edits of the crates; whether each falls at a goal of the source."""
    well, count = True, 0
    with tempfile.TemporaryDirectory() as place:
        top = copied(place)
        for crate in crates:
            folder = top / "crates" / crate
            status, told = run(["rt", "check"], folder)
            if status:
                print(f"{crate} isn't proved without edits\n{told[-2000:]}")
                well = False
                continue
            for edit in sorted((TOP / "crates" / crate / "must-fail").glob("*.edit")):
                found, told = goals(edit.read_text(), folder)
                count += 1
                if not found:
                    well = False
                    first = next((it for it in told.splitlines() if re.match(r"(note: )?\S+:\d+:\d+:", it)), "nothing")
                    print(f"{crate}/{edit.stem}: at no goal of the source, but: {first[:160]}")
    print(f"{count} edits tried")
    return well


def main():
    with_bodies = sorted(it.stem for it in BODIES.glob("*.txt") if it.stem != "known")
    with_edits = sorted(it.parent.name for it in (TOP / "crates").glob("*/must-fail"))
    parser = argparse.ArgumentParser()
    parser.add_argument("crates", nargs="*")
    parser.add_argument("--most", type=int)
    parser.add_argument("--edits", action="store_true")
    args = parser.parse_args()
    every = with_edits if args.edits else with_bodies
    other = [it for it in args.crates if it not in every]
    if other:
        parser.error(f"nothing is tried of {' '.join(other)}")
    if args.edits:
        well = try_edits(args.crates or every)
    else:
        well = try_bodies({crate: chosen(crate, args.most) for crate in args.crates or every})
    sys.exit(0 if well else 1)


if __name__ == "__main__":
    main()
