#!/usr/bin/env python3
"""List the definitions of specs/ that no public clause reaches, and check that their files say so.

Usage: tools/believed.py [--repo DIR] [--all] [CRATE ...]
  --all   also list what stands in the files that say so

A definition is to be believed if a public clause cites it, directly or through other definitions. All others serve inner
functions or proofs: they stand in files of their own, whose first line is INNER below, and which specs/Lib.antt lists last. It prints
each file of which this isn't so, and then ends with status 1. The clauses of all crates count; naming crates limits what is printed.

Public are the clauses of what lib.rt re-exports or declares: functions, methods, traits and what fulfils them. So is the value as
which a type is seen; its view and its invariant only if its fields are public. Of a program every clause in main.rt counts. A
variable that has the name of a definition in scope counts as citing it. Reads files only.
"""
import argparse
import pathlib
import re
import sys

INNER = "-- Inner: no public clause cites this file."
NAME = re.compile(r"(?<![^\s(){}\[\];,])[^\s(){}\[\];,.]+(?:\.[^\s(){}\[\];,.]+)*")


def imported(text):
    """The names, and the modules, that the `use` lines of a text bring in, each with what it stands for."""
    names, modules = {}, {}
    for crate, file, listed, module in re.findall(r"use Rattle\.(\w+)\.specs\.([\w.]+?)(?:\.\{([^}]*)\}| as (\w+))", text):
        if module:
            modules[module] = (crate, file)
        for item in filter(None, map(str.strip, listed.split(","))):
            name, _, other = item.partition(" as ")
            names[(other or name).strip("◌")] = (crate, file, name)
    return names, modules


def cited(text, scope, definitions):
    """The definitions that a piece of text names."""
    names, modules = scope
    found = set()
    for name in NAME.findall(re.sub(r'"[^"]*"', "", text)):
        first, *rest = name.split(".")
        found.add((*modules[first], rest[0]) if rest and first in modules else names.get(first))
    return found & definitions.keys()


def items(text):
    """The text's definitions and other lines, each with the lines that continue it."""
    found, indented = [], False
    for line in text.split("\n"):
        line = re.sub(r"(^|\s)--(\s.*)?$", "", line).rstrip()
        if not line:
            continue
        depth = len(line) - len(line.lstrip())
        if depth == 0:
            indented = re.match(r"(abbrev )?mutual$|module ", line)
        if depth == 0 and line[0] not in "})" or depth == 2 and indented:
            found.append(line.strip())
        else:
            found[-1] += "\n" + line.strip()
    return found


def defined(text):
    """What a file of specs/ defines: each name with the text that says what it is."""
    found, name, around = {}, None, ""
    for item in items(text):
        if item.startswith("module "):
            around = item
        if re.match(r"(pub )?use |unfolding |infix|module |(abbrev )?mutual$", item):
            continue
        head = re.match(r"(?:pub )?(record|data) (\S+)|(?:abbrev |unfoldable )?(?:pub )?(\S+) : ", item)
        if head:
            name = head[2] or head[3]
            found[name] = around
            if head[1] == "data":
                found.update((case, name) for case in re.findall(r"\n(\S+) : ", item))
        found[name] += "\n" + item
    return found


def block(text, start):
    """From the first brace after `start` to the one that closes it."""
    start, depth = text.index("{", start), 0
    for index in range(start, len(text)):
        depth += {"{": 1, "}": -1}.get(text[index], 0)
        if depth == 0:
            break
    return text[start : index + 1]


def clauses(text, start):
    """The clauses of the function that begins at `start`."""
    end = re.compile(r"\b(requires|ensures|ghost)\b|{|;$", re.MULTILINE).search(text, start).start()
    clause = re.compile(r"\s*(requires|ensures|ghost)\*?\s+(\w+:?\s+)?(?=\{)")
    while match := clause.match(text, end):
        found = block(text, match.end())
        end = match.end() + len(found)
        yield found


def hides_fields(text, name):
    """Whether the struct of this name has a private field, or stands in another file."""
    head = re.search(rf"(?m)^pub struct {name}\b[^\n;]*(?=\{{)", text)
    return not head or re.search(r"\n    \w+: ", block(text, head.end()))


def public_clauses(text, exported, is_program):
    """The public clauses of a file of src/."""
    for head in re.finditer(r"(?m)^(pub )?(?:const )?fn (\w+)", text):
        if is_program or head[1] and head[2] in exported:
            yield from clauses(text, head.start())
    for head in re.finditer(r"(?m)^(?:pub )?(trait|impl|struct)\b([^\n{;]*)(?=\{)", text):
        named = re.sub(r"<[^<>]*>", "", head[2].split(" for ")[-1])
        name, inside = re.match(r"\s*(\w+)", named)[1], block(text, head.end())
        if name not in exported:
            continue
        hides = " Model for " in head[2] and hides_fields(text, name)
        for ghost in re.finditer(r"\n    (?:pub )?ghost (\w+)\s*[:=]\s*(?=\{)", inside):
            if not hides or ghost[1] == "Value":
                yield block(inside, ghost.end())
        for method in re.finditer(r"\n    (pub )?(?:const )?fn ", inside):
            if method[1] or head[1] == "trait" or " for " in head[2]:
                yield from clauses(inside, method.start())


def cited_publicly(folder, definitions):
    """The definitions that the public clauses of a crate name."""
    library = folder / "src" / "lib.rt"
    listed = library.read_text() if library.is_file() else ""
    lines = re.findall(r"pub use [\w:]+::(\w+|\{[^}]*\});", listed)
    lines += re.findall(r"(?m)^pub (?:const )?(?:fn|struct|enum|trait) (\w+)", listed)
    exported = set(re.findall(r"\w+", " ".join(lines)))
    found = set()
    for path in (folder / "src").rglob("*.rt"):
        text = re.sub(r"(?m)(^|\s)//.*$", "", path.read_text()).split("#[cfg(test)]\nmod tests {")[0]
        for clause in public_clauses(text, exported, path.name == "main.rt"):
            found |= cited(clause, imported(text), definitions)
    return found


def reached(start, definitions, scopes):
    """The definitions that can be come to from these."""
    seen, left = set(), set(start)
    while left:
        one = left.pop()
        seen.add(one)
        left |= cited(definitions[one], scopes[one[:2]], definitions) - seen
    return seen


def crates(repo):
    """The folder of each crate, by its name."""
    return {path.name: path for path in sorted((repo / "crates").iterdir()) if (path / "src").is_dir()}


def load(folders):
    """The files of specs/ by crate, what each definition says, and what each file's names stand for."""
    specs = {name: {path.stem: path.read_text() for path in sorted((folder / "specs").glob("*.antt"))} for name, folder in folders.items()}
    definitions, scopes = {}, {}
    for crate, files in specs.items():
        for file, text in files.items():
            if file == "Lib":
                continue
            own = defined(text)
            definitions.update(((crate, file, name), said) for name, said in own.items())
            names, modules = imported(text)
            scopes[crate, file] = ({**names, **{name.strip("◌"): (crate, file, name) for name in own}}, modules)
    return specs, definitions, scopes


def told(crate, files, definitions, believed, everything):
    """What is to be said of a crate's specs/, and in how many files it breaks the rule."""
    inner, broken = set(), 0
    for file, text in files.items():
        own = [one for one in definitions if one[:2] == (crate, file)]
        is_inner = text.startswith(INNER + "\n")
        inner |= {file} if is_inner else set()
        wrong = [one[2] for one in own if (one in believed) == is_inner]
        if wrong:
            broken += 1
            fault = "is said to be inner, but a public clause reaches" if is_inner else "has what no public clause reaches:"
            print(f"{crate}/specs/{file}.antt {fault} {' '.join(wrong)}{'' if len(wrong) < len(own) else ' (the whole file)'}")
        elif is_inner and everything:
            print(f"{crate}/specs/{file}.antt is inner: {' '.join(one[2] for one in own)}")
    return inner, broken


def main():
    parser = argparse.ArgumentParser(description=__doc__, formatter_class=argparse.RawDescriptionHelpFormatter)
    parser.add_argument("--repo", default=pathlib.Path(__file__).resolve().parent.parent, type=pathlib.Path)
    parser.add_argument("--all", action="store_true")
    parser.add_argument("crates", nargs="*")
    args = parser.parse_args()

    folders = crates(args.repo)
    unknown = [name for name in args.crates if name not in folders]
    if unknown:
        parser.error(f"no crate {' '.join(unknown)}")
    specs, definitions, scopes = load(folders)
    listings = {name: files.pop("Lib", "") for name, files in specs.items()}
    start = set().union(*(cited_publicly(folder, definitions) for folder in folders.values()))
    believed = reached(start, definitions, scopes)

    total = 0
    for crate in args.crates or folders:
        inner, broken = told(crate, specs[crate], definitions, believed, args.all)
        last = re.findall(r"mod (\w+)", listings[crate])[-len(inner) :] if inner else []
        if set(last) != inner:
            broken += 1
            print(f"{crate}/specs/Lib.antt doesn't list the inner files last: {' '.join(sorted(inner))}")
        total += broken
    print(f"{len(believed)} of {len(definitions)} definitions are reached; {total} files break the rule")
    return 1 if total else 0


if __name__ == "__main__":
    sys.exit(main())
