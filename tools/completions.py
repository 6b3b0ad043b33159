#!/usr/bin/env python3
"""Writes the completions of bash, zsh and fish for what `retractor --help` says.

retractor --help | completions.py [--check]
  --check   write nothing, and end with status 1 if a file differs
"""
import pathlib
import re
import sys
import typing

TOP = pathlib.Path(__file__).resolve().parent.parent
FOLDER = TOP / "completions"
HEAD = "Written by tools/completions.py for what `retractor --help` says."


class Command(typing.NamedTuple):
    name: str
    # The words behind the name, as DEPTH.
    words: list
    answer: str


def commands_of(usage):
    """The commands of the usage, in its order. What a command answers begins in one column."""
    lines = re.findall(r"(?m)^  retractor ([a-z].*)$", usage)
    column = re.search(r"  (?=\S)", lines[0][len("check < CERTIFICATE"):]).end() + len("check < CERTIFICATE")
    found = []
    for line in lines:
        call, answer = line[:column], line[column:]
        words = call.partition("<")[0].replace("[", "").replace("]", "").split()
        found.append(Command(words[0], words[1:], answer))
    return found


def ranges_of(usage):
    """What the usage says of each word, as `from 0 to 64` of DEPTH."""
    text = re.sub(r"\s+", " ", usage)
    return {word: re.search(r"from \d+ to \d+|any number", said)[0] for word, said in re.findall(r"([A-Z]{4,}): ([^.]*)\.", text)}


def bash(commands):
    names = " ".join(command.name for command in commands)
    return f"""# {HEAD}
_retractor() {{
    COMPREPLY=()
    if [ "$COMP_CWORD" -eq 1 ]; then
        COMPREPLY=($(compgen -W "{names} --help --version" -- "${{COMP_WORDS[1]}}"))
    fi
}}
complete -F _retractor retractor
"""


def zsh(commands, ranges):
    rows = "".join(f"        '{command.name}:{command.answer}'\n" for command in commands)
    cases = {}
    for command in commands:
        cases.setdefault(tuple(command.words), []).append(command.name)
    numbers = ""
    for words, names in cases.items():
        if words:
            said = " ".join(f"'{word}, {ranges[word]}'" for word in words)
            numbers += f"        ({'|'.join(names)}) numbers=({said}) ;;\n"
    return f"""#compdef retractor
# {HEAD}
_retractor() {{
    local -a commands numbers
    commands=(
{rows}        '--help:how each command is called'
        '--version:the name and version of the program'
    )
    if (( CURRENT == 2 )); then
        _describe command commands
        return
    fi
    case $words[2] in
{numbers}    esac
    if (( CURRENT - 2 <= $#numbers )); then
        _message "$numbers[CURRENT - 2]"
    else
        _message 'nothing more but < and a file'
    fi
}}
_retractor "$@"
"""


def fish(commands):
    rows = "".join(f"complete -c retractor -n __fish_is_first_token -a {command.name} -d '{command.answer}'\n" for command in commands)
    return f"""# {HEAD}
complete -c retractor -f
{rows}complete -c retractor -n __fish_is_first_token -l help -d 'how each command is called'
complete -c retractor -n __fish_is_first_token -l version -d 'the name and version of the program'
"""


def files(usage):
    """The text of each file of completions."""
    commands = commands_of(usage)
    return {
        FOLDER / "retractor.bash": bash(commands),
        FOLDER / "_retractor": zsh(commands, ranges_of(usage)),
        FOLDER / "retractor.fish": fish(commands),
    }


def main():
    words = sys.argv[1:]
    if words == ["--help"]:
        return print(__doc__)
    if words not in ([], ["--check"]):
        sys.exit(__doc__)
    differ = False
    for path, text in files(sys.stdin.read()).items():
        if words:
            if not path.exists() or path.read_text() != text:
                differ = True
                print(f"{path.name} differs")
        else:
            FOLDER.mkdir(exist_ok=True)
            path.write_text(text)
    sys.exit(1 if differ else 0)


if __name__ == "__main__":
    main()
