"""Tests of the Debian package: what is in it, and that its program answers as the tutorial shows.

python3 -m unittest discover -s tools
RETRACTOR=PATH python3 -m unittest discover -s tools     with the built program
"""
import os
import pathlib
import re
import shutil
import subprocess
import tempfile
import unittest

from package import package
from session import TOP

# It stands for the program in the test of what is in the package.
STAND_IN = "#!/bin/sh\necho retractor 7.5\n"


@unittest.skipUnless(shutil.which("dpkg-deb"), "there is no dpkg-deb")
class Package(unittest.TestCase):
    def unpacked(self, program):
        """The package of this program, and a folder with what it installs."""
        room = tempfile.TemporaryDirectory()
        self.addCleanup(room.cleanup)
        folder = pathlib.Path(room.name)
        path = package(program, folder)
        subprocess.run(["dpkg-deb", "-x", path, folder / "root"], check=True)
        return path, folder / "root"

    def stand_in(self):
        room = tempfile.TemporaryDirectory()
        self.addCleanup(room.cleanup)
        program = pathlib.Path(room.name) / "retractor"
        program.write_text(STAND_IN)
        program.chmod(0o755)
        return program

    def test_what_is_in_it(self):
        path, root = self.unpacked(self.stand_in())
        self.assertRegex(path.name, r"^retractor_7\.5_\w+\.deb$")
        shown = subprocess.run(["dpkg-deb", "-f", path, "Package", "Version"], capture_output=True, text=True, check=True).stdout
        self.assertEqual(shown, "Package: retractor\nVersion: 7.5\n")
        self.assertEqual((root / "usr/bin/retractor").read_text(), STAND_IN)
        self.assertTrue(os.access(root / "usr/bin/retractor", os.X_OK))
        pages = root / "usr/share/doc/retractor"
        for folder in ("docs", "examples"):
            own = sorted(page.name for page in (TOP / folder).iterdir() if page.name != "retractor.1")
            self.assertEqual(sorted(page.name for page in (pages / folder).iterdir()), own)
        certificate = (TOP / "examples" / "benko-1996.cert").read_text()
        done = subprocess.run(["python3", "bench/second_check.py"], input=certificate, capture_output=True, text=True, cwd=pages)
        self.assertEqual(done.stdout, "accepted ep a5b6 kbN5/n1p5/B1N5/PpK5/8/8/8/8 w - -\n", done.stderr)
        for file in ("bash-completion/completions/retractor", "zsh/vendor-completions/_retractor", "fish/vendor_completions.d/retractor.fish"):
            self.assertTrue((root / "usr/share" / file).exists(), file)

    @unittest.skipUnless(shutil.which("man"), "there is no man")
    def test_man_shows_its_page(self):
        page = self.unpacked(self.stand_in())[1] / "usr/share/man/man1/retractor.1.gz"
        done = subprocess.run(["man", "--warnings", "-l", page], capture_output=True, text=True, env={**os.environ, "LC_ALL": "C.UTF-8"})
        self.assertEqual((done.returncode, done.stderr), (0, ""))
        self.assertIn("retractor", done.stdout)

    @unittest.skipUnless("RETRACTOR" in os.environ, "RETRACTOR names no built program")
    def test_its_program_answers_as_the_tutorial_shows(self):
        root = self.unpacked(pathlib.Path(os.environ["RETRACTOR"]).resolve())[1]
        pages = root / "usr/share/doc/retractor"
        blocks = re.findall(r"```\n(\$.*?)```", (pages / "docs/TUTORIAL.md").read_text(), re.S)[:2]
        self.assertEqual(len(blocks), 2)
        for block in blocks:
            for part in re.split(r"^\$ ", block, flags=re.M)[1:]:
                command, _, shown = part.partition("\n")
                path = f"{root / 'usr/bin'}{os.pathsep}{os.environ['PATH']}"
                done = subprocess.run(command, shell=True, cwd=pages, env={**os.environ, "PATH": path}, stdin=subprocess.DEVNULL, stdout=subprocess.PIPE, stderr=subprocess.STDOUT, text=True)
                self.assertEqual(done.stdout.strip("\n"), shown.strip("\n"), command)


if __name__ == "__main__":
    unittest.main()
