"""The commands, and what they tell when something is wrong: one line on standard error and exit code 2."""
import contextlib
import io
import os
import subprocess
import sys
import tempfile
import unittest
from pathlib import Path
from unittest import mock

from cushiedoo import Ranked, library, sheet_text
from cushiedoo.cli import main
from cushiedoo.page import build

from .samples import sample

PACKAGE = Path(__file__).resolve().parents[1]


class Commands(unittest.TestCase):
    def setUp(self) -> None:
        folder = tempfile.TemporaryDirectory()
        self.addCleanup(folder.cleanup)
        self.folder = Path(folder.name)
        self.sheet = self.folder / "p.sheet"
        self.sheet.write_bytes(sample("p"))

    def run_alone(self, command: list, env: object = (), **more: object) -> subprocess.CompletedProcess:
        """Runs a command in a process of its own."""
        surroundings = {**os.environ, "PYTHONPATH": str(PACKAGE), "CUSHIEDOO_LIBRARY": str(library.find()), **dict(env)}
        streams = {"stdout": subprocess.PIPE, "stderr": subprocess.PIPE, **more}
        return subprocess.run([sys.executable, *command], env=surroundings, cwd=self.folder, **streams)

    def run_it(self, *arguments: object) -> subprocess.CompletedProcess:
        """Runs a command in this process, which takes less time."""
        out, err = io.TextIOWrapper(io.BytesIO(), "ascii"), io.StringIO()
        with contextlib.redirect_stdout(out), contextlib.redirect_stderr(err):
            try:
                code = main([str(one) for one in arguments])
            except SystemExit as left:  # --help
                code = left.code
        out.flush()
        return subprocess.CompletedProcess(arguments, code, out.buffer.getvalue(), err.getvalue().encode())

    def refused(self, *arguments: object, out: bytes = b"", done: object = None) -> str:
        """Runs a command that must fail, with one line on standard error; `done` is one that was run."""
        done = done or self.run_it(*arguments)
        told = done.stderr.decode()
        self.assertEqual((done.returncode, done.stdout, told.count("\n")), (2, out, 1), told)
        self.assertRegex(told, r"^cushiedoo: \S")
        return told

    def test_sheet(self) -> None:
        done = self.run_it("sheet", self.sheet)
        self.assertEqual((done.returncode, done.stderr), (0, b""))
        self.assertEqual(done.stdout, b"loop 2 3\n1 rank 1 -1 from 2 down 1\n2 refused 22 1\n")
        alone = self.run_alone(["-m", "cushiedoo", "sheet", "-"], input=sample("p"))
        self.assertEqual((alone.returncode, alone.stdout, alone.stderr), (0, done.stdout, b""))
        self.assertEqual(self.run_it("sheet", "/dev/null").stdout, b"loop refused 1 0\n")

    def test_sheet_too_long(self) -> None:
        self.sheet.write_bytes(sample("too-long"))
        told = self.refused("sheet", self.sheet, out=b"input too long\n")
        self.assertIn("more than 65,536 bytes", told)
        self.refused("sheet", "/dev/zero", out=b"input too long\n")
        self.sheet.write_bytes(sample("longest"))
        self.assertEqual(self.run_it("sheet", self.sheet).stdout.decode(), sheet_text(sample("longest")))

    def test_words(self) -> None:
        plain = {"LC_ALL": "C", "PYTHONIOENCODING": "ascii"}
        done = self.run_alone(["-m", "cushiedoo", "words", self.sheet, "--names", "x,y"], plain)
        self.assertEqual((done.returncode, done.stderr), (0, b""))
        self.assertIn("(Y − Z)A is not 0 in column 1 (y)", done.stdout.decode("utf-8"))

    def test_page(self) -> None:
        out = self.folder / "p.html"
        done = self.run_it("page", self.sheet, "-o", out, "--names", "x,y", "--state", "5, 3")
        self.assertEqual((done.returncode, done.stdout, done.stderr), (0, b"", b""))
        self.assertIn("takes at most <strong>1 step</strong>", out.read_text("utf-8"))
        for output in ((), ("-o", "-")):
            again = self.run_it("page", self.sheet, "--names", "x,y", "--state", "5,3", *output)
            self.assertEqual((again.returncode, again.stdout, again.stderr), (0, out.read_bytes(), b""))
        self.assertEqual(self.run_it("page", self.sheet, "--state=-5,−3").returncode, 0)

    def test_page_of_an_input_that_is_too_long(self) -> None:
        self.sheet.write_bytes(sample("too-long"))
        out = self.folder / "p.html"
        self.refused("page", self.sheet, "-o", out)
        self.assertIn("input too long", out.read_text("utf-8"))

    def test_files(self) -> None:
        for command in ("sheet", "words", "page"):
            self.assertIn("No such file", self.refused(command, self.folder / "none"))
            self.assertIn("Is a directory", self.refused(command, self.folder))
            self.refused(command, "no\udcffname")
            self.refused(command, "no\0name")
            self.refused(command, "")
        self.assertIn("No such file", self.refused("page", self.sheet, "-o", self.folder / "none" / "p.html"))
        self.assertIn("Is a directory", self.refused("page", self.sheet, "-o", self.folder))
        before = self.sheet.read_bytes()
        self.assertIn("place of the input", self.refused("page", self.sheet, "-o", self.sheet))
        self.assertEqual(self.sheet.read_bytes(), before)

    @unittest.skipIf(os.geteuid() == 0, "root may read every file")
    def test_no_permission(self) -> None:
        self.sheet.chmod(0)
        for command in ("sheet", "words", "page"):
            self.assertIn("Permission denied", self.refused(command, self.sheet))

    def test_no_permission_as_the_system_tells_it(self) -> None:
        with mock.patch("builtins.open", side_effect=PermissionError(13, "Permission denied")):
            for command in ("sheet", "words", "page"):
                self.assertEqual(self.refused(command, "p.sheet"), "cushiedoo: p.sheet: cannot be read: Permission denied\n")

    def test_arguments(self) -> None:
        self.refused()
        self.refused("sheets", self.sheet)
        self.refused("sheet")
        self.refused("sheet", self.sheet, "more")
        self.refused("page", self.sheet, "--nam", "x,y")
        self.refused("page", self.sheet, "--colour")
        self.refused("page", self.sheet, "--state")
        self.assertEqual(self.run_it("--help").returncode, 0)
        self.assertEqual(self.run_it("page", "--help").returncode, 0)

    def test_names(self) -> None:
        for bad in ("x", "x,y,z", "x,x", "x,", "x-1,y", "2x,y", "x\ny,z", "x,\udcff", "x," + "y" * 41, "x′,y", "x+,y", "≤,y"):
            for command in ("words", "page"):
                with self.subTest(names=bad):
                    self.refused(command, self.sheet, f"--names={bad}")
        self.assertEqual(self.run_it("page", self.sheet, "--names", "<b>&amp;\"(=), größe").returncode, 0)

    def test_states(self) -> None:
        for bad in ("5", "5,3,1", "5,a", "5,", "", "5.0,3", "5,1000001", "5,٣", "1e3,2", "0x5,3", "5,--3", "5," + "9" * 5000):
            with self.subTest(state=bad):
                self.refused("page", self.sheet, f"--state={bad}")

    def test_a_missing_library(self) -> None:
        command = ["-m", "cushiedoo", "sheet", self.sheet]
        told = self.refused(done=self.run_alone(command, {"CUSHIEDOO_LIBRARY": str(self.folder / "none.so")}))
        self.assertIn("bindings/python/build makes it", told)
        told = self.refused(done=self.run_alone(command, {"CUSHIEDOO_LIBRARY": str(self.sheet)}))
        self.assertIn("cannot be loaded", told)

    def test_outputs_that_fail(self) -> None:
        with open("/dev/full", "wb") as full:
            done = self.run_alone(["-m", "cushiedoo", "sheet", self.sheet], stdout=full)
        self.assertEqual((done.returncode, done.stderr.count(b"\n")), (2, 1), done.stderr)
        reader, writer = os.pipe()
        os.close(reader)
        with os.fdopen(writer, "wb") as gone:
            done = self.run_alone(["-m", "cushiedoo", "page", self.sheet], stdout=gone)
        self.assertEqual((done.returncode, done.stderr.count(b"\n")), (2, 1), done.stderr)
        closed = self.run_alone(["-c", "import os; os.close(1); os.execv('/bin/sh', ['sh', '-c', 'exec \"$0\" -m cushiedoo sheet p.sheet', "
                                 f"{sys.executable!r}])"])
        self.assertEqual((closed.returncode, closed.stderr.count(b"\n")), (2, 1), closed.stderr)

    def test_a_page_that_disagrees(self) -> None:
        out = self.folder / "p.html"
        with mock.patch.object(build, "judge_bytes", lambda *_: Ranked((1, -1), 3, 1)):
            done = self.run_it("page", self.sheet, "-o", out)
        self.assertEqual((done.returncode, done.stdout, done.stderr.count(b"\n")), (1, b"", 1), done.stderr)
        self.assertIn(b"the page and the checker disagree: certificate 1", done.stderr)
        self.assertIn('class="disagree"', out.read_text("utf-8"))
