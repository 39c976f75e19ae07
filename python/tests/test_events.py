"""The events of a trace as objects: each kind once, its faults, and that they come at once."""
from __future__ import annotations

import io
import os
import subprocess
import tempfile
import unittest
import warnings

import support

from pimtree import (
    Cause,
    End,
    Entry,
    Fired,
    GroupSet,
    HeldMachine,
    Hello,
    HelloHeard,
    IgnoredJoin,
    JoinPrune,
    Message,
    PacketHeard,
    PimtreeFault,
    PimtreeWarning,
    Restarted,
    Skipped,
    TimedOut,
    Transition,
    WantedEntry,
    events,
    trace,
)

OWN, A, B, RP = "10.0.0.2", "10.0.0.7", "10.0.0.8", "10.9.9.9"
G, S = "239.1.1.1", "192.0.2.5"
START = 1_700_000_000


def packet(source: str, message: Message) -> bytes:
    return support.ipv4(source, message.build(source))


def entry(kind: str, address: str, joins: bool = True, group: str = G) -> JoinPrune:
    entries = (Entry(kind, address),)
    listed = GroupSet(group, joined=entries) if joins else GroupSet(group, pruned=entries)
    return JoinPrune(OWN, 210, (listed,))


def story() -> "list[tuple[int, bytes]]":
    """A capture with each kind of event, by the rules of RFC 7761."""
    both = GroupSet(G, (Entry("star", RP),), (Entry("rpt", S),))
    return [
        (0, packet(A, Hello(holdtime=2, generation=1))),
        (10, packet(B, Hello(holdtime=105, generation=1))),
        (20, packet(B, Hello(holdtime=105, generation=2))),
        (30, packet(B, Hello(holdtime=105, generation=2))),
        (40, packet(OWN, Hello(holdtime=105, generation=5))),
        (50, packet(OWN, Hello(holdtime=105, generation=6))),
        (100, packet(B, JoinPrune(OWN, 210, (both,)))),
        (200, packet(B, entry("star", RP))),
        (300, packet(B, entry("star", "10.8.8.8"))),
        (400, packet(B, JoinPrune("10.0.0.3", 210))),
        (500, support.ipv4(B, b"\x23\0\0\0")),
        (600, b"\x45\0\0\x14" + bytes(5) + b"\x11" + b"\xb9\xdb" + bytes(8)),
        (3000, packet(B, Hello(holdtime=0, generation=2))),
    ]


class Events(unittest.TestCase):
    def setUp(self) -> None:
        self.folder = self.enterContext_(tempfile.TemporaryDirectory())
        self.path = support.write_capture(os.path.join(self.folder, "a.pcap"), story())

    def enterContext_(self, context: "tempfile.TemporaryDirectory[str]") -> str:
        self.addCleanup(context.cleanup)
        return context.name

    def at(self, millis: int, port: "str | None" = "lan") -> "tuple[int, str, str | None]":
        return millis, f"{START + millis // 1000}.{millis % 1000:03}", port

    def test_each_kind(self) -> None:
        at = self.at
        star, rpt = ("star", G, None), ("rpt", G, S)
        skipped = ["cut", "not-ip", "bad-header", "not-pim", "fragment", "family"]
        expected = [
            HelloHeard(*at(0), 1, A, "new", None, 1),
            HelloHeard(*at(10), 2, B, "new", None, 1),
            HelloHeard(*at(20), 3, B, "restarted", 1, 2),
            HelloHeard(*at(30), 4, B, "same", 2, 2),
            PacketHeard(*at(40), 5, OWN, "mine", None, None, None),
            PacketHeard(*at(50), 6, OWN, "mine", None, None, None),
            Restarted(*at(50), 6, 5, 6),
            PacketHeard(*at(100), 7, B, "applied", OWN, 1, 1),
            Transition(*at(100), 7, B, "join", *star, "no-info", "join", 210_000, None, 2, None),
            Transition(
                *at(100), 7, B, "prune", *rpt, "no-info", "prune-pending", 210_000, 3000, 2, None
            ),
            PacketHeard(*at(200), 8, B, "applied", OWN, 1, 0),
            Transition(*at(200), 8, B, "join", *star, "join", "join", 210_000, None, 2, None),
            Transition(*at(200), 8, B, "end", *rpt, "prune-pending", "no-info", None, None, 2, 7),
            PacketHeard(*at(300), 9, B, "applied", OWN, 1, 0),
            IgnoredJoin(*at(300), 9, B, G, "10.8.8.8", RP),
            PacketHeard(*at(400), 10, B, "not-for-us", "10.0.0.3", 0, 0),
            PacketHeard(*at(500), 11, B, "malformed frame checksum", None, None, None),
            Skipped(*at(600), 12, "not-pim"),
            TimedOut(*at(2000), A, Cause(1, 0)),
            HelloHeard(*at(3000), 13, B, "gone", 2, 2),
            Fired(
                *at(210_200), "et", "star", G, None, "join", "no-info", False, Cause(8, 200, B)
            ),
            End(*at(303_000, None), 0, 0, {**dict.fromkeys(skipped, 0), "not-pim": 1}),
        ]
        found = list(trace(f"lan={OWN}@{self.path}", rp=RP, after=300_000, everything=True))
        for event, wanted in zip(found, expected):
            self.assertEqual(event, wanted)
        self.assertEqual(len(found), len(expected))
        kinds = set(events.NAMES) - {"record", "want"}
        self.assertEqual({events.name_of(it) for it in found}, kinds)

    def routes(self) -> str:
        """A file of routes to the RP, and to the source."""
        path = os.path.join(self.folder, "routes")
        with open(path, "w", encoding="utf-8") as file:
            file.write(f"rp 224.0.0.0/4 {RP}\nvia 10.9.9.9/32 10.1.0.1\n")
            file.write("via 192.0.2.0/24 10.1.0.9\n")
        return path

    def test_the_state_at_the_end(self) -> None:
        """Holdtime 65535 never ends. Where there is no other neighbour, a Prune takes effect at
        once (RFC 7761, 4.5.3)."""
        at, cause, times = self.at(1100), Cause(2, 100, B), (1000, "never", None)
        both = GroupSet(G, (Entry("star", RP), Entry("source", S)), (Entry("rpt", S),))
        heard = [
            (0, packet(B, Hello(holdtime=105, generation=1))),
            (100, packet(B, JoinPrune(OWN, 65_535, (both,)))),
        ]
        word = f"lan={OWN}@{support.write_capture(self.path, heard)}"
        found = list(trace(word, routes=self.routes(), since="1100", at="1100", state=True))
        no_port = self.at(1100, None)
        self.assertEqual(found[:-1], [
            HeldMachine(*at, "star", G, None, "join", *times, cause),
            HeldMachine(*at, "source", G, S, "join", *times, cause),
            HeldMachine(*at, "rpt", G, S, "prune", *times, cause),
            WantedEntry(*no_port, "star", G, None, "10.1.0.1"),
            WantedEntry(*no_port, "except", G, S, "10.1.0.1"),
            WantedEntry(*no_port, "source", G, S, "10.1.0.9"),
        ])
        self.assertIsInstance(found[-1], End)
        self.assertEqual({events.name_of(it) for it in found}, {"record", "want", "end"})

    def test_times_of_a_held_machine(self) -> None:
        """Join(*,G) of record 8 sets the timer again. After 300 ms a Prune is pending for 3 s."""
        heard = [*story()[:8], (500, packet(B, entry("star", RP, joins=False)))]
        word = f"lan={OWN}@{support.write_capture(self.path, heard)}"
        held = [it for it in trace(word, rp=RP, since="2000", at="2000", state=True)
                if isinstance(it, HeldMachine)]
        star, cause = ("star", G, None), Cause(8, 200, B)
        self.assertEqual(held, [
            HeldMachine(*self.at(2000), *star, "prune-pending", 1900, 208_200, 1500, cause),
        ])

    def test_options(self) -> None:
        words = [f"lan={OWN}@{self.path}"]
        shown = trace(words, rp=RP, since="50", at="150", groups=[G], sources=[S])
        self.assertEqual([(type(it), it.ms) for it in shown], [
            (Restarted, 50), (Transition, 100), (Transition, 100), (End, 150),
        ])

    def test_lines_are_those_of_the_program(self) -> None:
        words = ["--rp", RP, "--time", "utc", f"{OWN}@-"]
        with open(self.path, "rb") as file:
            pairs = list(events.lines(words, file))
        with open(self.path, "rb") as file:
            command = [support.PROGRAM, "trace", *words]
            ran = subprocess.run(command, stdin=file, capture_output=True)
        self.assertEqual([line for _, line in pairs], ran.stdout.decode().splitlines())
        self.assertEqual(pairs[-1][0].ms, 3000)

    def test_lines_with_routes_on_standard_input(self) -> None:
        port, routes = f"{OWN}@{self.path}", f"rp 224.0.0.0/4 {RP}\n".encode()
        wanted = [line for _, line in events.lines(["--rp", RP, port], io.BytesIO())]
        for words in ["--routes", "-", port], ["--routes=-", port]:
            with self.subTest(words):
                found = events.lines(words, io.BytesIO(routes))
                self.assertEqual([line for _, line in found], wanted)

    def test_several_files(self) -> None:
        """A port's files from standard input and of a name that JSON escapes, and a Prune(S,G,rpt)
        of the first one that the second one overrides."""
        last = support.write_capture(os.path.join(self.folder, 'b".pcap'), story()[7:])
        words = ["--rp", RP, f"lan={OWN}@-", f"+{last}"]
        first = support.write_capture(os.path.join(self.folder, "c.pcap"), story()[:7])
        with open(first, "rb") as file:
            pairs = list(events.lines(words, file))
        with open(first, "rb") as file:
            command = [support.PROGRAM, "trace", *words]
            ran = subprocess.run(command, stdin=file, capture_output=True)
        self.assertEqual([line for _, line in pairs], ran.stdout.decode().splitlines())
        found = [it for it, _ in pairs if isinstance(it, (HelloHeard, Transition, TimedOut))]
        self.assertEqual(found[0], HelloHeard(*self.at(0), 1, A, "new", None, 1, "-"))
        end = ("prune-pending", "no-info", None, None, 2, 7, last, "-")
        change = Transition(*self.at(200), 1, B, "end", "rpt", G, S, *end)
        self.assertIn(change, found)
        self.assertIn(TimedOut(*self.at(2000), A, Cause(1, 0, None, "-")), found)

    def test_standard_input_is_read_once(self) -> None:
        for words in [f"{OWN}@-", "+-"], ["--routes", "-", f"{OWN}@-"]:
            with self.subTest(words), self.assertRaises(PimtreeFault) as raised:
                list(events.lines(words, io.BytesIO()))
            self.assertEqual(raised.exception.words, "word -")

    def test_they_come_at_once(self) -> None:
        read_end, write_end = os.pipe()
        with open(read_end, "rb") as stream, open(write_end, "wb", buffering=0) as writer:
            found = trace(f"{OWN}@-", stdin=stream)
            writer.write(support.HEADER + support.record(*story()[0]))
            self.assertEqual(next(found), HelloHeard(*self.at(0, "0"), 1, A, "new", None, 1))
            writer.close()
            self.assertIsInstance(next(found), End)

    def test_faults(self) -> None:
        for ports, words in [
            ("10.0.0.2@gone.pcap", "file gone.pcap: no such file"),
            ("lan.pcap", "word lan.pcap"),
            (f"224.0.0.1@{self.path}", "config address"),
            (f"{OWN}@{__file__}", f"capture magic in {__file__}"),
            ([], "config ports"),
        ]:
            with self.subTest(words), self.assertRaises(PimtreeFault) as raised:
                list(trace(ports, rp=RP))
            self.assertEqual(raised.exception.words, words)

    def test_what_came_before_a_fault_stays(self) -> None:
        with open(self.path, "ab") as file:
            file.write(support.record(3_100, b"")[:8] + b"\xff" * 8)
        seen = []
        with self.assertRaises(PimtreeFault) as raised:
            for event in trace(f"{OWN}@{self.path}", rp=RP):
                seen.append(event.ms)
        self.assertEqual(raised.exception.words, f"capture too-long in {self.path} at record 14")
        self.assertEqual(seen, [0, 10, 20, 50, 100, 100, 200, 300, 400, 500, 2000, 3000])

    def test_a_cut_file_is_warned_of(self) -> None:
        with warnings.catch_warnings(record=True) as caught:
            warnings.simplefilter("always")
            list(trace(f"{OWN}@{support.example('fault.pcap')}", rp="10.9.9.9"))
        self.assertEqual([it.category for it in caught], [PimtreeWarning])
        self.assertIn("ends inside record 8", str(caught[0].message))


if __name__ == "__main__":
    unittest.main()
