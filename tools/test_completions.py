"""Tests of the completions and of the manual page: that they name the commands that the program has.

python3 -m unittest discover -s tools
RETRACTOR=PATH python3 -m unittest discover -s tools     with what the built program says, too
"""
import os
import re
import shutil
import subprocess
import unittest

import completions
from session import TOP

PAGE = TOP / "docs" / "retractor.1"


def usage_of_rows():
    """The lines of the commands in the usage, from the table in the code."""
    rows = (TOP / "crates/retro_top/src/rows.rt").read_text()
    rows = re.findall(r'line: "([^"]*)",\s*answer: "([^"]*)"', rows)
    width = max(len(line) for line, _ in rows) + 1
    return "".join(f"  retractor {line.ljust(width)}{answer}\n" for line, answer in rows)


def shown(words):
    return subprocess.run(words, capture_output=True, text=True, cwd=TOP)


class Completions(unittest.TestCase):
    def test_they_name_the_commands_of_the_code(self):
        commands = completions.commands_of(usage_of_rows())
        self.assertEqual(len(commands), 17)
        folder = completions.FOLDER
        self.assertEqual((folder / "retractor.bash").read_text(), completions.bash(commands))
        self.assertEqual((folder / "retractor.fish").read_text(), completions.fish(commands))
        text = (folder / "_retractor").read_text()
        ranges = dict(re.findall(r"'([A-Z]+), ([^']*)'", text))
        self.assertEqual(text, completions.zsh(commands, ranges))
        table = (TOP / "docs" / "COMMANDS.md").read_text()
        self.assertIn(f"at most | {ranges['NODES'].removeprefix('from ')} |", table)
        self.assertIn(f"at most | {ranges['DEPTH'].removeprefix('from ')} |", table)

    @unittest.skipUnless("RETRACTOR" in os.environ, "RETRACTOR names no built program")
    def test_they_are_what_the_program_says(self):
        usage = shown([os.environ["RETRACTOR"], "--help"]).stdout
        for path, text in completions.files(usage).items():
            self.assertEqual(path.read_text(), text, path.name)

    @unittest.skipUnless(shutil.which("bash"), "there is no bash")
    def test_bash_completes_a_command(self):
        script = 'source completions/retractor.bash; COMP_WORDS=(retractor s); COMP_CWORD=1; _retractor; echo "${COMPREPLY[@]}"'
        self.assertEqual(shown(["bash", "-c", script]).stdout.split(), ["san", "spell", "study", "solve", "settle", "sample"])

    @unittest.skipUnless(shutil.which("zsh"), "there is no zsh")
    def test_zsh_reads_its_file(self):
        self.assertEqual(shown(["zsh", "-n", "completions/_retractor"]).stderr, "")

    @unittest.skipUnless(shutil.which("fish"), "there is no fish")
    def test_fish_completes_a_command(self):
        script = 'source completions/retractor.fish; complete -C "retractor ver"'
        self.assertEqual(shown(["fish", "-c", script]).stdout.partition("\t")[0], "verdict")


class ManualPage(unittest.TestCase):
    def test_it_has_each_command_and_its_call(self):
        text = re.sub(r"\\f[BIRP]|\\", "", PAGE.read_text())
        calls = re.findall(r"(?m)^\.TP\nretractor (\S.*)$", text)
        rows = re.findall(r'line: "([^"]*)"', (TOP / "crates/retro_top/src/rows.rt").read_text())
        self.assertEqual(calls[: len(rows)], rows)

    def test_it_has_the_version_of_the_program(self):
        version = re.search(r'VERSION: &str = "([^"\\]*)', (TOP / "crates/front_door/src/lib.rt").read_text())[1]
        self.assertIn(f'"{version}"', PAGE.read_text())

    @unittest.skipUnless(shutil.which("man"), "there is no man")
    def test_man_shows_it_without_a_warning(self):
        done = subprocess.run(["man", "--warnings", "-l", PAGE], capture_output=True, text=True, env={**os.environ, "LC_ALL": "C.UTF-8", "MANWIDTH": "80", "MAN_KEEP_FORMATTING": ""})
        self.assertEqual((done.returncode, done.stderr), (0, ""))
        self.assertIn("whether the certificate proves its claim", re.sub(r"\s+", " ", done.stdout))


if __name__ == "__main__":
    unittest.main()
