"""The program as a process, on the examples: its output, its errors and its status."""
from __future__ import annotations

import os
import subprocess
import unittest
from typing import List, Tuple

import support

EXAMPLES = os.path.join(support.TOP, "examples")
# No message of the capture is for this port, so there is a warning.
WARNED = ["replay", "--input", "any", "--rp", "10.9.9.9", "10.0.0.4@lan.pcap"]


def run(*words: str, data: bytes = b"") -> Tuple[str, str, int]:
    ran = subprocess.run([support.PROGRAM, *words], input=data, capture_output=True,
                         cwd=EXAMPLES)
    return ran.stdout.decode(), ran.stderr.decode(), ran.returncode


def words_of(name: str) -> List[str]:
    """The words of an example, without the command."""
    return support.read(support.example(f"{name}.words")).split()[1:]


class Examples(unittest.TestCase):
    def test_replay(self) -> None:
        for name in ("lan", "lost", "ipv6"):
            with self.subTest(name):
                report = support.read(support.example(f"{name}.report"))
                self.assertEqual(run("replay", *words_of(name)), (report, "", 0))

    def test_a_fault_has_status_2(self) -> None:
        report = support.read(support.example("fault.report"))
        errors = support.read(support.example("fault.errors"))
        self.assertEqual(run("replay", *words_of("fault")), (report, errors, 2))

    def test_trace(self) -> None:
        for name in ("lan", "lost", "ipv6"):
            for option, kind in ((), "trace"), (("--json",), "json"):
                path = support.example(f"{name}.{kind}")
                if os.path.exists(path):
                    with self.subTest(name, kind=kind):
                        expected = support.read(path)
                        self.assertEqual(run("trace", *option, *words_of(name)), (expected, "", 0))

    def test_audit(self) -> None:
        for option, kind in ((), "audit"), (("--json",), "json"):
            with self.subTest(kind=kind):
                expected = support.read(support.example(f"transit.{kind}"))
                self.assertEqual(run("audit", *option, *words_of("transit")), (expected, "", 1))

    def test_a_session(self) -> None:
        text = support.read(support.example("override.session"))
        answers = [it[3:] for it in text.splitlines() if it.startswith("#= ")]
        output, errors, status = run("session", data=text.encode())
        self.assertEqual((output.splitlines(), errors, status), (answers, "", 0))

    def test_check_and_build(self) -> None:
        with open(support.example("join-star.pim"), "rb") as file:
            data = file.read()
        text, errors, status = run("check", data=data)
        self.assertEqual((text.count("\n"), errors, status), (3, "", 0))
        ran = subprocess.run([support.PROGRAM, "build"], input=text.encode(), capture_output=True)
        self.assertEqual((ran.stdout, ran.returncode), (data, 0))

    def test_an_unwritten_output(self) -> None:
        for words in (["trace", *words_of("lan")], ["session"]):
            with self.subTest(words[0]), open("/dev/full", "wb") as full:
                ran = subprocess.run([support.PROGRAM, *words], input=b"port 10.0.0.1\n",
                                     stdout=full, stderr=subprocess.PIPE,
                                     cwd=EXAMPLES)
                self.assertEqual((ran.stderr, ran.returncode), (b"pimtree: output\n", 2))

    def test_warnings_follow_all_output(self) -> None:
        report, warning, status = run(*WARNED)
        self.assertEqual((warning.count("\n"), status), (1, 0))
        ran = subprocess.run([support.PROGRAM, *WARNED], stdout=subprocess.PIPE,
                             stderr=subprocess.STDOUT, cwd=EXAMPLES)
        self.assertEqual((ran.stdout.decode(), ran.returncode), (report + warning, 0))

    def test_an_unwritten_warning(self) -> None:
        for errors in (">/dev/full", ">&-"):
            with self.subTest(errors):
                ran = subprocess.run(["sh", "-c", f'exec "$@" 2{errors}', "sh",
                                      support.PROGRAM, *WARNED], capture_output=True, cwd=EXAMPLES)
                self.assertEqual((ran.stdout.decode(), ran.returncode), (run(*WARNED)[0], 2))

    def test_standard_input_among_files(self) -> None:
        words = ["replay", "--input", "any", "--routes"]
        routes = b"rp 224.0.0.0/4 10.9.9.9\n"
        self.assertIn("\nwant star 239.1.1.1 via -\n",
                      run(*words, "-", "10.0.0.2@lan.pcap", data=routes)[0])
        for more in (["-", "10.0.0.2@-"], ["lan.pcap", "10.0.0.2@-", "+-"]):
            with self.subTest(more):
                self.assertEqual(run(*words, *more, data=routes), ("", "pimtree: word -\n", 2))


if __name__ == "__main__":
    unittest.main()
