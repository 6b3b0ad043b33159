"""Tests of the pages: that the README stays short, that links lead somewhere, and that what is quoted stands in the code.

python3 -m unittest discover -s tools
RETRACTOR=PATH python3 -m unittest discover -s tools     what the pages show too, with the built program
"""
import os
import pathlib
import re
import subprocess
import sys
import unittest

import trust
from session import TOP, pages

MOST_BYTES = 20_480
# Words that the pages avoid, each with the plain one.
AVOIDED = {
    "exactly where": "if and only if",
    "memory is wanting": "out of memory",
    "memory isn't wanting": "there is enough memory",
    "only where": "only if",
    "exactly there": "if and only if",
}


def prose(page):
    """The text of a page without its blocks of code and without what is generated."""
    text = page.read_text().partition("<!-- The rest is written by")[0]
    return re.sub(r"```.*?```", "", text, flags=re.S)


def anchors(page):
    """The names by which links reach the headings of a page."""
    headings = re.findall(r"(?m)^#+ (.*)$", re.sub(r"```.*?```", "", page.read_text(), flags=re.S))
    return {re.sub(r"[^\w\- ]", "", heading.lower()).replace(" ", "-") for heading in headings}


def squeezed(text):
    return re.sub(r"\s+", "", text)


class Pages(unittest.TestCase):
    def test_the_readme_is_short(self):
        self.assertLessEqual((TOP / "README.md").stat().st_size, MOST_BYTES)

    def test_links_lead_somewhere(self):
        for page in pages():
            for link in re.findall(r"\]\(([^)\s]+)\)", prose(page)):
                if "://" in link:
                    continue
                path, _, anchor = link.partition("#")
                target = (page.parent / path).resolve() if path else page
                self.assertTrue(target.exists(), f"{page.name}: {link}")
                if anchor:
                    self.assertIn(anchor, anchors(target), f"{page.name}: {link}")

    def test_the_readme_leads_to_every_page(self):
        readme = (TOP / "README.md").read_text()
        for page in pages():
            name = str(page.relative_to(TOP))
            self.assertTrue(name == "README.md" or f"({name}" in readme, f"the README has no link to {name}")

    def test_files_that_are_named_exist(self):
        for page in pages():
            for name in re.findall(r"`((?:crates|docs|examples|tools|bench)/[\w./-]+\.\w+)`", prose(page)):
                self.assertTrue((TOP / name).exists(), f"{page.name}: {name}")

    def test_no_row_of_a_table_stands_twice(self):
        seen = {}
        for page in pages():
            for row in re.findall(r"(?m)^\|.{60,}\|$", prose(page)):
                other = seen.setdefault(row, page.name)
                self.assertEqual(other, page.name, f"{page.name} and {other}: {row}")

    def test_words_are_plain(self):
        for page in pages():
            text = re.sub(r'"[^"\n]*"', "", prose(page))
            for word, plain in AVOIDED.items():
                self.assertFalse(word in text, f"{page.name}: write {plain!r} for {word!r}")

    def test_quoted_definitions_stand_in_the_code(self):
        crates = TOP / "crates"
        code = squeezed("".join(path.read_text() for path in [crates / "retro_top/src/top.rt", *crates.glob("*/specs/*.antt")]))
        front = (TOP / "docs" / "TRUST.md").read_text().partition("<!-- The rest is written by")[0]
        for block in re.findall(r"```\n(.*?)```", front, re.S):
            for line in block.strip().split("\n"):
                self.assertIn(squeezed(line), code, f"TRUST.md quotes: {line}")


@unittest.skipUnless("RETRACTOR" in os.environ, "RETRACTOR names no built program")
class Shown(unittest.TestCase):
    def test_the_program_writes_what_the_pages_show(self):
        done = subprocess.run([sys.executable, TOP / "tools" / "session.py", os.environ["RETRACTOR"]], capture_output=True, text=True)
        self.assertEqual(done.returncode, 0, done.stdout)

    def test_each_reason_of_the_laws_closes_its_diagram(self):
        part = (TOP / "docs" / "LAWS.md").read_text().partition("## Each reason by a small diagram\n")[2].partition("\n## ")[0]
        shown = [(name, re.search(r"`(\S*(?:/\S*){7} [wb] \S+ -)`", text)) for name, text in re.findall(r"(?s)- \*\*`(\w+)`\*\*(.*?)(?=\n- \*\*|$)", part)]
        rules = ["kings", "ranks", "check", "rights", "count", "frozen", "promo", "caps", "balance"]
        self.assertEqual([name for name, _ in shown], [*rules, "expand", "back", "sketch"])
        for name, fen in shown:
            done = subprocess.run([os.environ["RETRACTOR"], "settle"], input=f"claim illegal\n{fen[1]}\n", capture_output=True, text=True)
            said = f"root rule {name}" if name in rules else f" {name} "
            self.assertTrue(any(f"{line} ".startswith(f"{said} ") or name not in rules and said in line for line in done.stdout.split("\n")), fen[1])


class Lists(unittest.TestCase):
    def test_a_definition_before_one_that_it_uses_is_found(self):
        rank, ranks = ("a", "Texts", "rank"), ("a", "Texts", "ranks")
        definitions = {rank: "rank r = r", ranks: "ranks b = map rank b"}
        scopes = {("a", "Texts"): ({"rank": rank, "ranks": ranks}, {})}
        self.assertEqual(trust.used_before([rank, ranks], definitions, scopes), [])
        self.assertEqual(trust.used_before([ranks, rank], definitions, scopes), ["READING has ranks before rank, which it uses"])

    def test_what_must_be_believed_is_listed(self):
        for tool in ("trust.py", "believed.py"):
            done = subprocess.run([sys.executable, TOP / "tools" / tool], capture_output=True, text=True)
            self.assertEqual(done.returncode, 0, done.stdout)


if __name__ == "__main__":
    unittest.main()
