"""A session from Python: each command once, each fault, and what a person gets."""
from __future__ import annotations

import os
import select
import subprocess
import sys
import unittest

import support

from pimtree import (
    Echo,
    Entry,
    GroupSet,
    Hello,
    JoinPrune,
    LanPruneDelay,
    Neighbour,
    PimtreeFault,
    Record,
    Refresh,
    Session,
    Verdict,
    Want,
    program,
)

OWN, A, B, UP, RP = "10.0.0.1", "10.0.0.2", "10.0.0.3", "10.0.1.1", "10.9.9.9"
ALL, G, S = "224.0.0.13", "239.1.1.1", "192.0.2.5"
STAR = JoinPrune(OWN, 210, (GroupSet(G, (Entry("star", RP),), (Entry("rpt", S),)),))
LEAVE = JoinPrune(OWN, 210, (GroupSet(G, (), (Entry("star", RP),)),))


class OneSession(unittest.TestCase):
    def setUp(self) -> None:
        self.session = Session()
        self.addCleanup(self.session.close)

    def ready(self) -> Session:
        """A router with two neighbours, of which one joins a group but for a source."""
        session = self.session
        session.port(OWN, delays=(400, 1600))
        session.port("10.0.1.2")
        session.rp("224.0.0.0/4", RP)
        session.via("0.0.0.0/0", UP)
        session.limit(100)
        session.start()
        lan = LanPruneDelay(True, 500, 1600)
        hello = Hello(105, lan, 1, 7)
        self.assertEqual(session.from_(0, A, hello), Verdict("hello new"))
        self.assertEqual(session.from_(0, B, Hello(holdtime=65535)), Verdict("hello new"))
        self.assertEqual(session.packet(0, B, ALL, STAR.build(B)), Verdict("applied"))
        return session


class Commands(OneSession):
    def test_state(self) -> None:
        session = self.ready()
        self.assertEqual(session.state(), [
            Record(0, "star", G, None, "join", 210_000, None),
            Record(0, "rpt", G, S, "prune-pending", 210_000, 3_000),
        ])
        self.assertEqual((session.now(), session.next()), (0, 3_000))

    def test_time(self) -> None:
        session = self.ready()
        self.assertEqual(session.run(1_000), [])
        self.assertEqual(session.from_(0, B, LEAVE), Verdict("applied"))
        self.assertEqual(session.run(60_000), [Echo(4_000, 0, "star", G, None), Refresh(60_000)])
        self.assertEqual(session.now(), 60_000)

    def test_echo_of_a_source(self) -> None:
        session = self.ready()
        join = JoinPrune(OWN, 65535, (GroupSet(G, (Entry("source", S),)),))
        prune = JoinPrune(OWN, 65535, (GroupSet(G, (), (Entry("source", S),)),))
        session.from_(0, A, join)
        self.assertEqual(session.state()[1], Record(0, "source", G, S, "join", None, None))
        session.from_(0, A, prune)
        self.assertEqual(session.run(3_000), [Echo(3_000, 0, "source", G, S)])

    def test_wants(self) -> None:
        session = self.ready()
        session.run(3_000)
        self.assertEqual(session.wants(), [Want("star", G, None, UP), Want("except", G, S, UP)])

    def test_wants_of_nobody(self) -> None:
        session = self.session
        session.port(OWN)
        session.start()
        session.from_(0, A, Hello(105))
        session.from_(0, A, JoinPrune(OWN, 210, (GroupSet(G, (Entry("source", S),)),)))
        self.assertEqual(session.wants(), [Want("source", G, S, None)])

    def test_neighbours(self) -> None:
        session = self.ready()
        session.run(5_000)
        hello = Hello(105, LanPruneDelay(True, 500, 1600), 1, 7)
        self.assertEqual(session.neighbours(), [
            Neighbour(0, A, 100_000, hello), Neighbour(0, B, None, Hello(65535)),
        ])

    def test_messages(self) -> None:
        session = self.ready()
        [data] = session.messages(UP, "10.0.1.2", holdtime=120, budget=500)
        join = JoinPrune(UP, 120, (GroupSet(G, (Entry("star", RP),)),))
        self.assertEqual(data, join.build("10.0.1.2"))

    def test_change(self) -> None:
        session = self.ready()
        session.keep("before", UP)
        self.assertTrue(session.same("before", UP, "10.0.1.2"))
        session.run(3_000)
        self.assertFalse(session.same("before", UP, "10.0.1.2", budget=500))
        [data] = session.change("before", UP, "10.0.1.2", holdtime=120)
        prune = JoinPrune(UP, 120, (GroupSet(G, (), (Entry("rpt", S),)),))
        self.assertEqual(data, prune.build("10.0.1.2"))

    def test_reset(self) -> None:
        session = self.ready()
        session.reset()
        session.port("fe80::1")
        session.start()
        self.assertEqual((session.now(), session.next(), session.state()), (0, None, []))

    def test_verdicts(self) -> None:
        session = self.ready()
        verdict = session.packet(0, A, ALL, b"\x23\0\0\0")
        self.assertEqual(verdict.fault, "frame checksum")
        self.assertEqual(str(verdict), "malformed frame checksum")
        self.assertFalse(verdict.is_applied)
        self.assertEqual(session.packet(0, A, ALL, b"").fault, "frame short")
        self.assertIsNone(session.from_(0, "10.0.0.9", STAR).fault)
        to_us = session.from_(0, A, STAR, destination=OWN)
        self.assertEqual(to_us.fault, "frame not-all-routers")

    def test_two_sessions(self) -> None:
        with Session() as other:
            other.port("fe80::1")
            self.assertEqual(len(self.ready().neighbours()), 2)
            other.start()


class AtOnce(unittest.TestCase):
    """What was read is answered before more input comes, however it was parted."""

    def setUp(self) -> None:
        self.process = program.start(["session"], subprocess.PIPE)
        self.addCleanup(self.process.wait)
        assert self.process.stdin is not None and self.process.stdout is not None
        self.addCleanup(self.process.stdout.close)
        self.addCleanup(self.process.stdin.close)
        self.input, self.output = self.process.stdin, self.process.stdout.fileno()

    def answers(self, text: str, count: int) -> str:
        """The lines that come after this input, without more of it."""
        self.input.write(text.encode())
        self.input.flush()
        got = b""
        while got.count(b"\n") < count and select.select([self.output], [], [], 5)[0]:
            got += os.read(self.output, 4096)
        return got.decode()

    def test_each_command(self) -> None:
        self.assertEqual(self.answers(f"port {OWN}\n", 1), "ok\n")
        self.assertEqual(self.answers("start\n", 1), "ok\n")
        self.assertEqual(self.answers("now\n", 2), "0\nok\n")

    def test_several_commands(self) -> None:
        self.assertEqual(self.answers(f"port {OWN}\nstart\n\n# now\nno", 2), "ok\nok\n")
        self.assertEqual(self.answers("w\n", 2), "0\nok\n")

    def test_a_text(self) -> None:
        self.answers(f"port {OWN}\nstart\n", 2)
        text = f"from 0 {A}\nhello\nholdtime 105\nsend\n"
        self.assertEqual(self.answers(text, 2), "hello new\nok\n")
        self.assertEqual(self.answers(text + "now\n", 4), "hello same\nok\n0\nok\n")


class Example(unittest.TestCase):
    def test_example(self) -> None:
        """Nobody is asked, and the override interval is 3 s (RFC 7761, 4.11)."""
        variables = {**os.environ, "PYTHONPATH": os.path.join(support.TOP, "python")}
        command = [sys.executable, support.example("session.py")]
        ran = subprocess.run(command, capture_output=True, env=variables)
        pending = Record(0, "star", G, None, "prune-pending", 209_000, 2_000)
        self.assertEqual(ran.stdout.decode().splitlines(), [
            f"{A} hello new",
            f"{B} hello new",
            f"{[pending]}",
            f"[] {[Want('star', G, None, None)]}",
            f"{[Echo(13_000, 0, 'star', G, None)]} []",
        ])


class Faults(OneSession):
    def refused(self, words: str, command: str) -> None:
        with self.subTest(command=command[:40]), self.assertRaises(PimtreeFault) as raised:
            self.session.ask(command)
        self.assertEqual(raised.exception.words, words)

    def test_before_a_start(self) -> None:
        for words, command in [
            ("word hello", "hello"),
            ("word -1", "limit -1"),
            ("word port", "port"),
            ("address 10.0.0", "port 10.0.0"),
            ("not started", "now"),
            ("routes length", "rp 224.0.0.0/33 10.9.9.9"),
            ("routes bits", "via 10.0.0.1/8 10.9.9.9"),
            ("routes kind", "rp 10.0.0.0/8 10.9.9.9"),
            ("config ports", "start"),
            ("line too-long", "port " + "1" * (1 << 20)),
        ]:
            self.refused(words, command)
        self.session.rp("224.0.0.0/4", RP)
        self.refused("routes twice", "rp 224.0.0.0/4 10.8.8.8")
        self.refused("family", "port fe80::1")
        self.session.port("224.0.0.1")
        self.refused("config address", "start")

    def test_too_many_routes(self) -> None:
        for number in range(4_096):
            self.session.via(f"10.{number // 256}.{number % 256}.0/24", RP)
        self.refused("routes full", "via 11.0.0.0/8 10.9.9.9")

    def test_after_a_start(self) -> None:
        self.ready()
        for words, command in [
            ("started", "start"),
            ("hex", f"packet 0 {A} {ALL} 2"),
            ("port 2", f"packet 2 {A} {ALL} 23"),
            ("family", f"packet 0 fe80::1 {ALL} 23"),
            ("name kept", f"same kept {UP} 10.0.1.2"),
            ("writer address", f"messages {UP} {UP}"),
        ]:
            self.refused(words, command)

    def test_tables(self) -> None:
        session = self.ready()
        session.keep("before", UP)
        session.reset()
        session.port(OWN)
        session.start()
        self.refused("tables", f"change before {UP} {OWN}")

    def test_too_big(self) -> None:
        session = self.ready()
        sources = [Entry("rpt", f"192.0.2.{at}") for at in range(1, 20)]
        join = GroupSet(G, (Entry("star", RP),), sources)
        session.from_(0, B, JoinPrune(OWN, 210, (join,)))
        session.run(3_000)
        self.refused(f"too big {G}", f"messages {UP} 10.0.1.2 budget 70")

    def test_texts(self) -> None:
        session = self.ready()
        lengthy = "# " + "x" * (1 << 19) + "\n"
        for words, text in [
            ("text line 2", "hello\nholdtime x"),
            ("text line 1", "goodbye"),
            ("text line 2", "hello\nsend\nreset"),
            ("text too-long", "hello\n" + lengthy * 17),
            ("port 7", "hello"),
        ]:
            with self.subTest(text[:20]), self.assertRaises(PimtreeFault) as raised:
                session.from_(7 if words == "port 7" else 0, A, text)
            self.assertEqual(raised.exception.words, words)
        self.assertEqual(len(session.neighbours()), 2)

    def test_a_command_is_one_line(self) -> None:
        for command in ["", "# remark", "now\nnow", "from 0 10.0.0.2"]:
            with self.subTest(command), self.assertRaises(PimtreeFault):
                self.session.ask(command)
        with self.assertRaises(PimtreeFault):
            self.session.from_(0, "10.0.0.2\nreset", "hello")
        self.session.port(OWN)

    def test_a_closed_session(self) -> None:
        self.session.close()
        with self.assertRaises(PimtreeFault) as raised:
            self.session.port(OWN)
        self.assertEqual(raised.exception.words, "the session is closed")

    def test_a_process_that_is_gone(self) -> None:
        self.session._process.kill()
        self.session._process.wait()
        with self.assertRaises(PimtreeFault) as raised:
            self.session.port(OWN)
        self.assertEqual(raised.exception.words, "the program ended with status -9")


if __name__ == "__main__":
    unittest.main()
