"""What a person gets where the program is missing, old or wrong, and from the command line."""
from __future__ import annotations

import os
import subprocess
import sys
import tempfile
import unittest
from typing import Dict, List, Tuple

import support

from pimtree import PimtreeFault, Session, program
from pimtree.__main__ import COMMANDS


def run(*words: str, **variables: str) -> Tuple[int, str, str]:
    """The status, the output and the errors of `python3 -m pimtree` with these words."""
    package = os.path.join(support.TOP, "python")
    given: Dict[str, str] = {**os.environ, "PYTHONPATH": package, **variables}
    command = [sys.executable, "-m", "pimtree", *words]
    ran = subprocess.run(command, capture_output=True, env=given, stdin=subprocess.DEVNULL)
    return ran.returncode, ran.stdout.decode(), ran.stderr.decode()


class Programs(unittest.TestCase):
    def setUp(self) -> None:
        room = tempfile.TemporaryDirectory()
        self.addCleanup(room.cleanup)
        self.addCleanup(os.environ.__setitem__, "PIMTREE", support.PROGRAM)
        self.folder = room.name

    def script(self, text: str) -> str:
        path = os.path.join(self.folder, "pimtree")
        with open(path, "w", encoding="utf-8") as file:
            file.write(f"#!/bin/sh\n{text}\n")
        os.chmod(path, 0o755)
        return path

    def refused(self, path: str) -> str:
        os.environ["PIMTREE"] = path
        with self.assertRaises(PimtreeFault) as raised:
            Session()
        return raised.exception.words

    def test_none(self) -> None:
        self.assertIn("no program gone, which PIMTREE names", self.refused("gone"))
        status, output, errors = run("live", "10.0.0.2", PIMTREE="", PATH=self.folder)
        self.assertEqual((status, output), (2, ""))
        self.assertEqual(errors.count("\n"), 1)
        self.assertTrue(errors.startswith("pimtree: no program pimtree on PATH: README.md"), errors)

    def test_an_older_one(self) -> None:
        path = self.script("echo pimtree 0.2.9")
        words = f"{path} is version 0.2.9, but {program.VERSION} is needed"
        self.assertIn(words, self.refused(path))

    def test_a_later_one(self) -> None:
        version = '[ "$1" = --version ] && echo pimtree 1.10'
        os.environ["PIMTREE"] = self.script(f'{version} || exec {support.PROGRAM} "$@"')
        with Session() as session:
            session.port("10.0.0.1")

    def test_another_one(self) -> None:
        path = self.script("echo hello")
        self.assertIn(f"{path} isn't the program pimtree", self.refused(path))

    def test_one_that_ends_at_once(self) -> None:
        version = f"[ $1 = --version ] && echo pimtree {program.VERSION}"
        os.environ["PIMTREE"] = self.script(f"{version}; exit 3")
        with Session() as session, self.assertRaises(PimtreeFault) as raised:
            session.port("10.0.0.1")
        self.assertEqual(raised.exception.words, "the program ended with status 3")

    def test_the_version_is_that_of_the_program(self) -> None:
        self.assertEqual(program.run(["--version"], b"").decode(), f"pimtree {program.VERSION}\n")


class CommandLine(unittest.TestCase):
    def test_help(self) -> None:
        status, output, errors = run("--help")
        self.assertEqual((status, errors), (0, ""))
        for name, about in COMMANDS.items():
            self.assertIn(f"  {name:<9} {about}", output)
            status, told, errors = run(name, "--help")
            self.assertEqual((status, errors), (0, ""))
            self.assertIn(f"python3 -m pimtree {name}", told)
        self.assertEqual(run()[0], 2)
        self.assertEqual(run("--version")[1], f"pimtree (Python) {program.VERSION}\n")

    def test_an_unknown_command(self) -> None:
        status, output, errors = run("draw")
        self.assertEqual((status, output), (2, ""))
        self.assertEqual(errors, f"pimtree: word draw: commands are {', '.join(COMMANDS)}\n")

    def test_no_command_shows_a_traceback(self) -> None:
        for name in COMMANDS:
            unwritten = ["-o", "/gone/x.svg", "10.0.0.2@gone"]
            given: List[List[str]] = [[], ["x"], ["-o"], ["--rp"], unwritten]
            for words in given:
                with self.subTest(name, words=words):
                    status, _, errors = run(name, *words)
                    self.assertEqual(status, 2)
                    self.assertTrue(errors.startswith(("pimtree: ", "error: ")), errors)
                    self.assertNotIn("Traceback", errors)


if __name__ == "__main__":
    unittest.main()
