"""README.md: its examples are run, its commands print what it says, and the committed page is what they make."""
import doctest
import os
import re
import subprocess
import unittest
from pathlib import Path

from cushiedoo import library

from .samples import ROOT

README = Path(__file__).resolve().parents[1] / "README.md"


def load_tests(loader: unittest.TestLoader, tests: unittest.TestSuite, pattern: object) -> unittest.TestSuite:
    """Adds the examples of the file."""
    tests.addTests(doctest.DocFileSuite(str(README), module_relative=False, encoding="utf-8"))
    return tests


class Commands(unittest.TestCase):
    def test_commands_print_what_the_file_says(self) -> None:
        (ROOT / "target").mkdir(exist_ok=True)
        surroundings = {
            **os.environ, "PYTHONPATH": "bindings/python", "CUSHIEDOO_LIBRARY": str(library.find()), "PYTHONDONTWRITEBYTECODE": "1"}
        blocks = re.findall(r"```console\n(.*?)```", README.read_text("utf-8"), re.DOTALL)
        self.assertEqual(len(blocks), 2)
        for block in blocks:
            commands = [line[2:] for line in block.splitlines() if line.startswith("$ ")]
            expected = "".join(f"{line}\n" for line in block.splitlines() if not line.startswith("$ "))
            done = subprocess.run(
                ["bash", "-c", "\n".join(commands)], cwd=ROOT, env=surroundings, stdout=subprocess.PIPE, stderr=subprocess.STDOUT)
            self.assertEqual(done.stdout.decode("utf-8"), expected)
        self.assertEqual((ROOT / "target" / "p.html").read_bytes(), (ROOT / "docs" / "pictures" / "p.html").read_bytes())
