#!/usr/bin/env python3
"""Check that docs/ lists each definition that a clause of `run` reaches, with what its comment says, and nothing else.

Usage: tools/trust.py [--repo DIR] [--write]
  --write   write the list anew

docs/TRUST.md has the definitions of the headline, the first of HEADLINES below, and docs/TRUST-LIST.md those of all other clauses. In
both the list begins behind the line MARK, and what stands before it is written by hand. A definition is reached if a clause of `run`
cites it, directly or through other definitions, as tools/believed.py finds it. The clauses stand in the order of HEADLINES, then in
that of `run`, each with the number of the definitions that it reaches, and with those that no clause before it reaches. The cases of
a data type stand in the entry of the type. The definitions of the headline stand in the order of READING, each behind those that it
uses; the others by crate, lowest first. It prints each definition that has no comment or stands before one that it uses, each entry that
is missing, old or too many, and the page of the headline if it is longer than MOST_BYTES; if there is any, it ends with status 1.
"""
import argparse
import itertools
import pathlib
import re
import sys

sys.path.insert(0, str(pathlib.Path(__file__).resolve().parent))
from believed import block, cited, crates, imported, load, reached

HEADLINES = ["accepted", "accepted_line", "proved", "proved_line", "countered", "decided", "measured", "bounded", "refused"]
MARK = "<!-- The rest is written by tools/trust.py --write. -->"
PAGE, LIST = "TRUST.md", "TRUST-LIST.md"
MOST_BYTES = 14_336
# The files of specs/ that the headline reaches, in the order in which one reads them.
READING = {
    "The rules of the game": ["board_base/Board", "board_base/Attacks", "board_base/Play", "board_base/Legal", "board_base/Game"],
    "Claims, and what contradicts them": ["board_base/Rights", "query_base/Asked", "play_rules/Clocks", "query_base/Reach"],
    "The line that is written": ["board_base/Texts", "fen_text/Fen", "cert_text/ClaimLines", "fen_text/Spelling", "board_base/Squares", "fen_text/Sets", "command_answers/Checks", "retro_top/Answers"],
}


def cited_by_run(folder, definitions):
    """The clauses of `run` by their names, each with the definitions that it names."""
    text = re.sub(r"(?m)(^|\s)//.*$", "", (folder / "src" / "top.rt").read_text())
    start = re.search(r"(?m)^pub fn run\b", text).start()
    named, clause = {}, re.compile(r"\s*ensures (\w+) (?={)")
    end = re.search(r"\bensures\b", text[start:]).start() + start
    while match := clause.match(text, end):
        found = block(text, match.end())
        end = match.end() + len(found)
        named[match[1]] = cited(found, imported(text), definitions)
    return {name: named[name] for name in [*HEADLINES, *(name for name in named if name not in HEADLINES)]}


def comments(text):
    """What the comment before each definition of a file says, in the file's order."""
    found, said = {}, []
    for line in text.split("\n"):
        line = line.strip()
        comment = re.match(r"--( (.*))?$", line)
        head = re.match(r"(?:pub )?(?:record|data) (\S+)|(?:abbrev |unfoldable )?pub (\S+) : ", line)
        if comment:
            said.append(comment[2] or "")
        elif head:
            found.setdefault(head[1] or head[2], " ".join(said))
            said = []
        elif not re.match(r"infix", line):
            said = []
    return found


def entry(name, said):
    """The line of a definition."""
    said = said[:1].upper() + said[1:] if said else ""
    return f"- `{name.strip('◌')}`: {said}{'' if said.endswith('.') else '.'}"


def title(text):
    """What the comment at the head of a file says."""
    return " ".join(line[2:].strip() for line in itertools.takewhile(lambda line: line.startswith("--"), text.split("\n")))


def file_listing(name, crate, file, specs, believed):
    """The list of these definitions that stand in a file, under this name of it, and what is wrong with the comments."""
    said = comments(specs[crate][file])
    found = [one for one in said if (crate, file, one) in believed]
    wrong = [f"{crate}/specs/{file}.antt says nothing of {one}" for one in found if not said[one]]
    return ["", f"`{name}`. {title(specs[crate][file])}", "", *(entry(one, said[one]) for one in found)], wrong


def listing(folders, specs, believed):
    """The list of these definitions, by crate, lowest first, and file, and what is wrong with the comments."""
    lines, wrong = [], []
    for crate in folders:
        files = sorted({file for owner, file, _ in believed if owner == crate})
        lines += ["", f"### {crate}"] if files else []
        for file in files:
            more, faults = file_listing(file, crate, file, specs, believed)
            lines += more
            wrong += faults
    return lines, wrong


def used_before(read, definitions, scopes):
    """Which definitions of a list stand before one of the list that they use."""
    wrong = []
    for index, one in enumerate(read):
        later = cited(definitions[one], scopes[one[:2]], definitions) & set(read[index + 1 :])
        wrong += [f"READING has {one[2]} before {two[2]}, which it uses" for two in sorted(later)]
    return wrong


def reading(specs, definitions, scopes, believed):
    """The list of these definitions in the order of READING, and what is wrong with the comments or the order."""
    lines, wrong, read = [], [], []
    for heading, files in READING.items():
        lines += ["", f"### {heading}"]
        for name in files:
            crate, file = name.split("/")
            more, faults = file_listing(name, crate, file, specs, believed)
            lines += more
            wrong += faults
            read += [(crate, file, one) for one in comments(specs[crate][file]) if (crate, file, one) in believed]
    wrong += used_before(read, definitions, scopes)
    wrong += [f"READING lacks {crate}/{file}" for crate, file in sorted({one[:2] for one in believed - set(read)})]
    return lines, wrong


def told(specs, believed):
    """The definitions that have an entry of their own: all but the cases of data types."""
    return {one for one in believed if one[2] in comments(specs[one[0]][one[1]])}


def by_clause(folders, specs, definitions, scopes):
    """The list of each page, and what is wrong with the comments."""
    pages, wrong, before = {PAGE: [], LIST: []}, [], set()
    for name, start in cited_by_run(folders["retro_top"], definitions).items():
        believed = told(specs, reached(start, definitions, scopes))
        fresh = believed - before
        before |= believed
        count = f"{len(believed)} definition{'' if len(believed) == 1 else 's'}" + ("" if len(fresh) == len(believed) else f", {len(fresh)} of them not above")
        is_first = name == HEADLINES[0]
        more, faults = reading(specs, definitions, scopes, fresh) if is_first else listing(folders, specs, fresh)
        pages[PAGE if is_first else LIST] += ["", f"## `{name}`: {count}", *more]
        wrong += faults
    return pages, wrong


def compared(page, lines, old):
    """What a page lacks of these lines, and what it has besides."""
    before, after = set(old.split("\n")), set(lines)
    wrong = [f"docs/{page} lacks: {line}" for line in lines if line not in before]
    wrong += [f"docs/{page} has: {line}" for line in old.split("\n") if line not in after]
    return wrong or [f"docs/{page} has its entries in another order"]


def main():
    parser = argparse.ArgumentParser(description=__doc__, formatter_class=argparse.RawDescriptionHelpFormatter)
    parser.add_argument("--repo", default=pathlib.Path(__file__).resolve().parent.parent, type=pathlib.Path)
    parser.add_argument("--write", action="store_true")
    args = parser.parse_args()

    order = re.findall(r"(?m)^(\w+):", (args.repo / "crates.txt").read_text())
    folders = dict(sorted(crates(args.repo).items(), key=lambda item: order.index(item[0])))
    specs, definitions, scopes = load(folders)
    pages, wrong = by_clause(folders, specs, definitions, scopes)
    for page, lines in pages.items():
        path = args.repo / "docs" / page
        front, mark, old = path.read_text().partition(MARK)
        new = "\n".join(lines) + "\n"
        if args.write:
            path.write_text(front + MARK + "\n" + new)
        elif not mark or old.lstrip("\n") != new.lstrip("\n"):
            wrong += compared(page, lines, old)
    size = (args.repo / "docs" / PAGE).stat().st_size
    wrong += [f"docs/{PAGE} has {size} bytes, and {MOST_BYTES} at most are wanted"] if size > MOST_BYTES else []
    for fault in wrong:
        print(fault)
    entries = sum(line.startswith("- ") for lines in pages.values() for line in lines)
    print(f"{entries} entries; {len(wrong)} faults")
    return 1 if wrong else 0


if __name__ == "__main__":
    sys.exit(main())
