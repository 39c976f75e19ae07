"""Live captures: timers that fire in silence, numbers without the added records, signals, faults
while the stream goes on, alerts and their command."""
from __future__ import annotations

import json
import os
import queue
import signal
import struct
import subprocess
import sys
import tempfile
import threading
import time
import unittest
from typing import Dict, List, Tuple

import capture_files as made
import support

from pimtree import Entry, GroupSet, Hello, JoinPrune, Message, PimtreeFault, captures, live

OWN, A, B, RP, G = "10.0.0.2", "10.0.0.7", "10.0.0.8", "10.9.9.9", "239.1.1.1"
WORDS = [sys.executable, "-m", "pimtree", "live", "--rp", RP]
VARIABLES = {**os.environ, "PYTHONPATH": os.path.join(support.TOP, "python")}
PATIENCE = 10


def message(source: str, it: Message) -> bytes:
    return support.ipv4(source, it.build(source))


def joined(joins: bool) -> JoinPrune:
    entries = (Entry("star", RP),)
    return JoinPrune(OWN, 210, (GroupSet(G, entries if joins else (), () if joins else entries),))


def record(form: str, seconds: float, packet: bytes) -> bytes:
    """A record at so many seconds from now."""
    micros = int((time.time() + seconds) * 10**6)
    if form == "pcap":
        return made.pcap_record("<", 10**6, micros, packet)
    return made.enhanced("<", 0, micros, packet)


def header(form: str) -> bytes:
    return made.pcap_header() if form == "pcap" else made.section() + made.interface("<", 101)


def story(form: str) -> bytes:
    """Two neighbours, a join, and a prune that takes effect in less than a second from now."""
    return header(form) + b"".join([
        record(form, -9, message(A, Hello(105, generation=1))),
        record(form, -8, message(B, Hello(105, generation=1))),
        record(form, -7, message(A, joined(True))),
        record(form, -2.2, message(A, joined(False))),
    ])


class Run:
    """The command with a stream that stays open."""

    def __init__(self, *words: str) -> None:
        pipe = subprocess.PIPE
        self.process = subprocess.Popen([*WORDS, *words], stdin=pipe, stdout=pipe, stderr=pipe,
                                        env=VARIABLES, start_new_session=True)
        self._lines: "queue.Queue[bytes]" = queue.Queue()
        threading.Thread(target=self._read, daemon=True).start()

    def _read(self) -> None:
        assert self.process.stdout is not None
        with self.process.stdout as output:
            for line in output:
                self._lines.put(line)
        self._lines.put(b"")

    def write(self, data: bytes) -> None:
        assert self.process.stdin is not None
        self.process.stdin.write(data)
        self.process.stdin.flush()

    def line(self) -> str:
        """The next line, which must come soon; empty at the end."""
        return self._lines.get(timeout=PATIENCE).decode().rstrip("\n")

    def until(self, text: str) -> List[str]:
        """The next lines, up to one that has this text."""
        found = [self.line()]
        while found[-1] and text not in found[-1]:
            found.append(self.line())
        return found

    def end(self) -> Tuple[int, str]:
        """The status and the errors of the command, which must end soon."""
        assert self.process.stdin is not None and self.process.stderr is not None
        try:
            status = self.process.wait(PATIENCE)
        finally:
            self.process.kill()
        with self.process.stderr as errors, self.process.stdin:
            return status, errors.read().decode()


class Silence(unittest.TestCase):
    def check_silence(self, run: Run, rest: bytes) -> None:
        lines = run.until("prune takes effect")
        self.assertIn(" #4 10.0.0.7 prunes star 239.1.1.1: join -> prune-pending", lines[-2])
        self.assertTrue(lines[-1].endswith("pruned by 10.0.0.7 in #4, 3000 ms before"))
        # Half a record came before the silence. It is the fifth of the capture.
        run.write(rest)
        lines += run.until("#5")
        self.assertIn(" #5 10.0.0.8: hello restarted", lines[-1])
        run.process.send_signal(signal.SIGTERM)
        lines += run.until(" end: ")
        self.assertTrue(lines[-1].endswith(
            "end: records 0 neighbours 2 "
            "skipped cut 0 not-ip 0 bad-header 0 not-pim 0 fragment 0 family 0"))
        self.assertEqual((run.line(), run.end()), ("", (0, "")))
        self.assertNotIn("skipped:", "".join(lines))

    def test_timers_fire(self) -> None:
        runs = {"pcap": Run(f"lan={OWN}"), "pcapng": Run("--all", f"{OWN}@-")}
        rests = {}
        for form, run in runs.items():
            later = record(form, 1, message(B, Hello(105, generation=2)))
            run.write(story(form) + later[:20])
            rests[form] = later[20:]
        for form, run in runs.items():
            with self.subTest(form):
                self.check_silence(run, rests[form])

    def test_a_fault_after_silence(self) -> None:
        run = Run("--alert", "hello,timed-out", OWN)
        run.write(header("pcap") + record("pcap", -0.5, message(A, Hello(1, generation=1))))
        self.assertIn("hello new", run.line())
        self.assertIn("neighbour 10.0.0.7 timed out; Hello #1, 1000 ms before", run.line())
        run.write(b"\xff" * 16)
        self.assertEqual(run.line(), "")
        self.assertEqual(run.end(), (2, "pimtree: capture too-long in - at record 2\n"))

    def test_no_record_before_the_first(self) -> None:
        stream = live._Input(live._Added())
        self.assertEqual(stream.fill(time.time_ns()), b"")
        data = made.pcap_header()
        self.assertEqual(stream.take(data), data)
        self.assertEqual((stream.fill(time.time_ns()), stream.patience()), (b"", None))


class Streams(unittest.TestCase):
    """Streams that end: the output is that of the trace itself."""

    def run_live(self, data: bytes, *words: str) -> "subprocess.CompletedProcess[bytes]":
        return subprocess.run([*WORDS, *words], input=data, capture_output=True, env=VARIABLES)

    def check(self, data: bytes, *words: str) -> None:
        command = [support.PROGRAM, "trace", "--rp", RP, *words]
        ran = self.run_live(data, *words)
        expected = subprocess.run(command, input=data, capture_output=True)
        self.assertEqual((ran.returncode, ran.stdout, ran.stderr),
                         (expected.returncode, expected.stdout, expected.stderr))

    def test_whole(self) -> None:
        lan = made.example_records("lan.pcap")
        for data in (made.pcap(lan, ">", 10**9, 1), made.pcapng(lan, ">")):
            self.check(data, f"lan={OWN}@-")
            self.check(data, "--json", "--all", f"{OWN}@-")
            self.check(data, "--at", "12000", "--time", "utc", f"{OWN}@-")

    def test_cut(self) -> None:
        lan = made.example_records("lan.pcap")
        for data in (made.pcap(lan), made.pcapng(lan)):
            for size in (len(data) - 1, len(data) - 60, 20, 0):
                with self.subTest(form=data[:4], size=size):
                    self.check(data[:size], f"{OWN}@-")

    def test_snapped_frames_are_counted(self) -> None:
        lan = made.example_records("lan.pcap")
        self.check(made.pcap([*lan, (lan[-1][0], lan[-1][1][:30])]), f"{OWN}@-")

    def test_no_capture(self) -> None:
        self.check(b"This is no capture at all.", f"{OWN}@-")
        run = Run(OWN)
        run.write(b"This is no capture at all.")
        self.assertEqual((run.line(), run.end()), ("", (2, "pimtree: capture magic in -\n")))

    def test_interrupt(self) -> None:
        run = Run(OWN)
        run.write(story("pcap"))
        run.until("#4")
        os.killpg(run.process.pid, signal.SIGINT)
        self.assertIn(" end: records 1 neighbours 2 ", run.line())
        self.assertEqual((run.line(), run.end()), ("", (0, "")))

    def test_nobody_reads_on(self) -> None:
        read_end, write_end = os.pipe()
        command = subprocess.Popen([*WORDS, OWN], stdin=subprocess.PIPE, stdout=write_end,
                                   stderr=subprocess.PIPE, env=VARIABLES)
        os.close(read_end)
        os.close(write_end)
        assert command.stdin is not None and command.stderr is not None
        with command.stdin, command.stderr:
            command.stdin.write(story("pcap"))
            command.stdin.flush()
            self.assertEqual((command.wait(PATIENCE), command.stderr.read()), (2, b""))

    def test_alert_and_command(self) -> None:
        data = made.pcap(made.example_records("lan.pcap"))
        with tempfile.TemporaryDirectory() as folder:
            path = os.path.join(folder, "objects")
            command = f"cat >> {path}; echo once; test $(wc -l < {path}) != 2"
            ran = self.run_live(data, "--alert", "fired,end", "--exec", command, f"{OWN}@-")
            objects = support.read(path).splitlines()
        words = [support.PROGRAM, "trace", "--rp", RP, "--json", f"{OWN}@-"]
        rows = subprocess.run(words, input=data, capture_output=True).stdout.decode().splitlines()
        expected = [it for it in rows if json.loads(it)["event"] in ("fired", "end")]
        self.assertEqual(objects, expected)
        lines = ran.stdout.decode().splitlines()
        expected = ["14000", "once", "75000", "once", "80000", "once"]
        self.assertEqual([it.split()[0] for it in lines], expected)
        self.assertEqual(ran.stderr.decode(),
                         "pimtree: warning: --exec: the command ended with status 1\n")
        self.assertEqual(ran.returncode, 0)

    def test_the_state_at_the_end(self) -> None:
        data = made.pcap(made.example_records("lan.pcap"))
        ran = self.run_live(data, "--state", "--alert", "record,want", f"{OWN}@-")
        words = [support.PROGRAM, "trace", "--rp", RP, "--state", f"{OWN}@-"]
        rows = subprocess.run(words, input=data, capture_output=True).stdout.decode().splitlines()
        expected = [it for it in rows if " holds " in it or " wants " in it]
        self.assertEqual([it.split(":")[0] for it in expected], [
            "80000 0 holds star 239.1.1.1", "80000 0 holds rpt 192.0.2.1 239.1.1.1",
            "80000 wants star 239.1.1.1",
        ])
        self.assertEqual((ran.stdout.decode().splitlines(), ran.returncode), (expected, 0))

    def test_words(self) -> None:
        faults: List[Tuple[List[str], str]] = [
            (["--alert", "fired,fire", OWN], "--alert fire: events are hello, packet, "),
            ([OWN, "10.0.0.3"], "live takes one port"),
            (["10.0.0.2@lan.pcap"], "live takes one port"),
            ([f"{OWN}@-", "+more.pcap"], "live takes one port"),
            ([], "live takes one port"),
        ]
        for words, fault in faults:
            with self.subTest(words=words), self.assertRaises(PimtreeFault) as raised:
                live.main(words)
            self.assertTrue(raised.exception.words.startswith(fault), raised.exception.words)


class Empty(unittest.TestCase):
    """The records that are added, as the program reads them."""

    def added(self, data: bytes, nanoseconds: int) -> Dict[str, object]:
        stream = captures.Stream()
        list(stream.feed(data))
        whole = data + stream.empty(nanoseconds)
        words = [support.PROGRAM, "trace", "--all", "--json", f"{OWN}@-"]
        rows = subprocess.run(words, input=whole, capture_output=True).stdout.decode().splitlines()
        found: Dict[str, object] = json.loads(rows[-2])
        return found

    def test_forms(self) -> None:
        start, hello = 1_700_000_000, message(A, Hello(105, generation=1))
        records, later = [(start * 10**6, hello)], (start + 7) * 10**9 + 123_456_789
        files = [made.pcap(records, order, units) for order in "<>" for units in (10**6, 10**9)]
        for order in "<>":
            offset = struct.pack(order + "q", -3600)
            listed = [(made.IF_TSRESOL, b"\x03"), (made.IF_TSOFFSET, offset)]
            stamp = (start + 3600) * 1000
            files.append(made.section(order) + made.interface(order, 101, listed)
                         + made.enhanced(order, 0, stamp, hello))
            files.append(made.pcapng(records, order))
        for data in files:
            found = self.added(data, later)
            self.assertEqual((found["event"], found["frame"], found["why"], found["epoch"]),
                             ("skipped", 2, "cut", f"{start + 7}.123"))

    def test_no_interface(self) -> None:
        stream = captures.Stream()
        self.assertEqual(stream.empty(0), b"")
        self.assertEqual(len(list(stream.feed(made.section()))), 1)
        self.assertEqual(stream.empty(0), b"")


if __name__ == "__main__":
    unittest.main()
