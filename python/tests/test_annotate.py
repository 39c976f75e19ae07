"""Captures with the lines of a trace as comments. The lines that are expected are those of the
program; on which record each belongs, the rules in the module's text say."""
from __future__ import annotations

import itertools
import os
import re
import struct
import subprocess
import sys
import tempfile
import unittest
import warnings
from typing import Dict, List, Sequence, Tuple

import capture_files as made
import support

from pimtree import Entry, GroupSet, Hello, JoinPrune, Message, PimtreeFault, annotate

OWN, A, RP, G = "10.0.0.2", "10.0.0.7", "10.9.9.9", "239.1.1.1"
LAN = made.example_records("lan.pcap")
LAN_COMMENTS = {
    1: ["0 lan #1 "], 2: ["10 lan #2 "], 3: ["20 lan #3 "], 4: ["1000 lan #4 "],
    5: ["2000 lan #5 "], 6: ["3000 lan #6 "], 7: ["10000 lan #7 "], 8: ["11000 lan #8 "],
    9: ["14000 lan prune takes effect star 239.2.2.2", "15000 lan #9 "],
    11: ["75000 lan expired source", "80000 lan #11 ", "80000 end: "],
}
"""What the lines of each record of examples/lan.pcap begin with. Record 10 isn't PIM."""


def message(source: str, it: Message) -> bytes:
    return support.ipv4(source, it.build(source))


def join(group: str = G, joins: bool = True) -> JoinPrune:
    entries = (Entry("star", RP),)
    group_set = GroupSet(group, entries if joins else (), () if joins else entries)
    return JoinPrune(OWN, 210, (group_set,))


def lines_of(packets: Sequence[made.Packet]) -> List[str]:
    """The lines of all comments."""
    return [line for it in packets for text in it.comments for line in text.split("\n")]


class Folder(unittest.TestCase):
    def setUp(self) -> None:
        room = tempfile.TemporaryDirectory()
        self.addCleanup(room.cleanup)
        self.folder = room.name
        self.why = self.path("why.pcapng")

    def path(self, name: str) -> str:
        return os.path.join(self.folder, name)

    def file(self, name: str, data: bytes) -> str:
        with open(self.path(name), "wb") as file:
            file.write(data)
        return file.name

    def annotate(self, *words: str) -> Tuple[List[made.Interface], List[made.Packet]]:
        """Runs the command, and reads what it wrote."""
        with warnings.catch_warnings(record=True) as caught:
            warnings.simplefilter("always")
            self.assertEqual(annotate.main(["-o", self.why, "--rp", RP, *words]), 0)
        self.warnings = [str(it.message) for it in caught]
        self.assertEqual(os.listdir(self.folder).count("why.pcapng"), 1)
        return made.read_pcapng(self.why)

    def lines(self, *words: str) -> List[str]:
        """The lines of the program."""
        ran = subprocess.run([support.PROGRAM, "trace", "--rp", RP, *words], capture_output=True)
        return ran.stdout.decode().splitlines()

    def check(self, packets: Sequence[made.Packet], expected: Dict[int, List[str]]) -> List[str]:
        """Compares comments by what their lines begin with. Returns all their lines."""
        found = {at: it.comments[-1].split("\n") for at, it in enumerate(packets, 1) if it.comments}
        self.assertEqual({at: len(it) for at, it in found.items()},
                         {at: len(it) for at, it in expected.items()})
        for at, lines in expected.items():
            for line, start in zip(found[at], lines):
                self.assertTrue(line.startswith(start), (at, line, start))
        return [line for lines in found.values() for line in lines]


class Lines(Folder):
    """Which record has a line."""

    def test_one_port(self) -> None:
        word = f"lan={OWN}@{support.example('lan.pcap')}"
        interfaces, packets = self.annotate(word)
        self.assertEqual(interfaces, [made.Interface(101, 65535, [(made.IF_NAME, b"lan")])])
        self.assertEqual([(it.stamp, it.frame, it.length) for it in packets],
                         [(time, packet, len(packet)) for time, packet in LAN])
        self.assertEqual(self.check(packets, LAN_COMMENTS), self.lines(word))

    def test_only(self) -> None:
        word = f"lan={OWN}@{support.example('lan.pcap')}"
        _, packets = self.annotate("--only", "--group", "239.2.2.2", word)
        times = [LAN[at][0] for at in (0, 1, 2, 6, 7, 8, 10)]
        self.assertEqual([it.stamp for it in packets], times)
        self.assertEqual(lines_of(packets), self.lines("--group", "239.2.2.2", word))

    def test_further_files(self) -> None:
        parts = [LAN[:4], LAN[4:5], LAN[:0], LAN[5:8], LAN[8:]]
        made_by = [
            made.pcapng(it) if at in (1, 2) else made.pcap(it) for at, it in enumerate(parts)
        ]
        files = [self.file(f"{at}", data) for at, data in enumerate(made_by)]
        words = [f"lan={OWN}@{files[0]}", *(f"+{it}" for it in files[1:])]
        places = [f" {file}#{number}" for file, part in zip(files, parts)
                  for number in range(1, len(part) + 1)]
        expected = {
            at: [re.sub(" #[0-9]+", places[at - 1], line) for line in lines]
            for at, lines in LAN_COMMENTS.items()
        }
        for filters in ((), ("--group", "239.2.2.2"), ("--from", "3000")):
            with self.subTest(filters=filters):
                interfaces, packets = self.annotate(*filters, *words)
                self.assertEqual([it.stamp for it in packets], [it[0] for it in LAN])
                self.assertEqual(lines_of(packets), self.lines(*filters, *words))
                if not filters:
                    self.check(packets, expected)
        # Files of the same form share a description; those of pcapng have no snap length.
        self.assertEqual([it.snap for it in interfaces], [65535, 0])

    def test_ports_are_merged_by_time(self) -> None:
        start = LAN[0][0]
        hello = message("10.0.1.7", Hello(2, generation=1))
        other = self.file("b", made.pcapng([(start + it * 10**6, hello) for it in (1, 9)], ">", 1))
        _, packets = self.annotate(f"a={OWN}@{support.example('lan.pcap')}", f"b=10.0.1.2@{other}")
        self.assertEqual([it.interface for it in packets], [0, 0, 0, 0, 1, 0, 0, 1, 0, 0, 0, 0, 0])
        self.assertEqual([it.stamp - start for it in packets][3:8],
                         [10**6, 10**6, 2 * 10**6, 3 * 10**6, 9 * 10**6])
        # The second port's neighbour times out 2 s after each Hello. The first time, the next
        # record of all is the other port's. The second time, its own port has no later one.
        self.check([it for it in packets if it.interface == 1], {
            1: ["1000 b #1 "], 2: ["3000 b neighbour", "9000 b #2 ", "11000 b neighbour"],
        })
        self.check([it for it in packets if it.interface == 0], {
            at: [line.replace(" lan ", " a ") for line in lines]
            for at, lines in LAN_COMMENTS.items()
        })

    def test_lines_after_the_last_record_of_a_port(self) -> None:
        hello = message(A, Hello(2, generation=1))
        first = self.file("a", made.pcap([(LAN[0][0], hello)]))
        later = self.file("b", made.pcap([(LAN[0][0] + 9 * 10**6, hello)]))
        _, packets = self.annotate(f"a={OWN}@{first}", f"b=10.0.1.2@{later}")
        self.check(packets, {1: ["0 a #1 ", "2000 a neighbour"], 2: ["9000 b #1 ", "9000 end: "]})

    def test_a_timer_that_fires_at_once(self) -> None:
        start = LAN[0][0]
        found = [Hello(105, generation=1), join(), join(joins=False), Hello(105, generation=1)]
        path = self.file("a", made.pcap([(start, message(A, it)) for it in found]))
        _, packets = self.annotate("--all", f"{OWN}@{path}")
        self.check(packets, {
            1: ["0 0 #1 "], 2: ["0 0 #2 ", "0 0 #2 "], 3: ["0 0 #3 ", "0 0 #3 "],
            4: ["0 0 prune takes effect", "0 0 #4 ", "0 end: "],
        })

    def test_the_end_of_the_run(self) -> None:
        _, packets = self.annotate("--at", "14500", f"lan={OWN}@{support.example('lan.pcap')}")
        expected = {at: lines for at, lines in LAN_COMMENTS.items() if at < 9}
        self.check(packets, {**expected, 9: ["14000 lan prune"], 11: ["14500 end: "]})

    def test_the_state_at_the_end(self) -> None:
        word = f"lan={OWN}@{support.example('lan.pcap')}"
        words = ["--state", "--at", "14500", word]
        _, packets = self.annotate(*words)
        expected = {at: lines for at, lines in LAN_COMMENTS.items() if at < 9}
        star = "star 239.1.1.1"
        state = [f"14500 lan holds {star}: join", f"14500 wants {star}", "14500 end: "]
        found = self.check(packets, {**expected, 9: ["14000 lan prune"], 11: state})
        self.assertEqual(found, self.lines(*words))

    def test_the_state_after_further_files(self) -> None:
        files = [self.file(f"{at}", made.pcap(it)) for at, it in enumerate([LAN[:4], LAN[4:]])]
        words = ["--state", f"lan={OWN}@{files[0]}", f"+{files[1]}"]
        _, packets = self.annotate(*words)
        self.assertEqual(lines_of(packets), self.lines(*words))

    def test_a_long_comment(self) -> None:
        joined = tuple(Entry("source", f"192.0.{at >> 8}.{at & 255}") for at in range(2000))
        start, sets = LAN[0][0], (GroupSet(G, joined),)
        messages = [Hello(105, generation=1), JoinPrune(OWN, 210, sets)]
        path = self.file("a", made.pcap([(start, message(A, it)) for it in messages]))
        _, packets = self.annotate(f"{OWN}@{path}")
        self.assertGreater(len(packets[1].comments), 1)
        self.assertLessEqual(max(len(it) for it in packets[1].comments), 65535)
        self.assertEqual(lines_of(packets), self.lines(f"{OWN}@{path}"))

    def test_the_longest_comment(self) -> None:
        # A block has at most 16 MiB.
        found = list(annotate._comments([f"{at:07} {'x' * 992}" for at in range(20_000)]))
        self.assertLess(sum(len(it.value) + 8 for it in found), (1 << 24) - 300_000)
        lines = b"\n".join(it.value for it in found).decode().split("\n")
        self.assertEqual([int(it[:7]) for it in lines[:-1]], list(range(len(lines) - 1)))
        self.assertEqual(lines[-1], f".. {20_000 - len(lines) + 1} more lines")


class Forms(Folder):
    """Captures of each form."""

    def test_classic(self) -> None:
        for order, units, link in itertools.product("<>", (10**6, 10**9), made.FRONTS):
            with self.subTest(order=order, units=units, link=link):
                path = self.file("a", made.pcap(LAN, order, units, link))
                interfaces, packets = self.annotate(f"lan={OWN}@{path}")
                resolution = [(made.IF_TSRESOL, b"\x09")] if units == 10**9 else []
                listed = [(made.IF_NAME, b"lan"), *resolution]
                self.assertEqual(interfaces, [made.Interface(link, 65535, listed)])
                self.assertEqual([(it.stamp, it.frame) for it in packets], [
                    (time * units // 10**6, made.FRONTS[link] + it) for time, it in LAN
                ])
                self.check(packets, LAN_COMMENTS)

    def test_options_stay(self) -> None:
        for order in "<>":
            with self.subTest(order=order):
                flags, drops = struct.pack(order + "I", 0x123), struct.pack(order + "Q", 5)
                offset = struct.pack(order + "q", -3600)
                described = [(made.IF_NAME, b"eth0"), (3, b"a link"), (made.IF_TSRESOL, b"\x8a"),
                             (made.IF_TSOFFSET, offset)]
                hello = message(A, Hello(105, generation=1))
                listed = [(2, flags), (made.COMMENT, b"seen"), (4, drops), (3, b"\x02\x01\x02")]
                data = made.section(order) + made.interface(order, 101, described, 96)
                data += made.enhanced(order, 0, 1 << 42, hello, listed, 200)
                path = self.file("a", data)
                interfaces, packets = self.annotate(f"lan={OWN}@{path}")
                self.assertEqual(interfaces, [made.Interface(101, 96, [
                    (made.IF_NAME, b"lan"), (3, b"a link"), (made.IF_TSRESOL, b"\x8a"),
                    (made.IF_TSOFFSET, struct.pack("<q", -3600)),
                ])])
                text = "\n".join(self.lines(f"lan={OWN}@{path}"))
                self.assertEqual(packets, [made.Packet(0, 1 << 42, hello, 200, ["seen", text], [
                    (2, struct.pack("<I", 0x123)), (4, struct.pack("<Q", 5)), (3, b"\x02\x01\x02"),
                ])])

    def test_an_obsolete_packet(self) -> None:
        hello = message(A, Hello(105, generation=1))
        for order in "<>":
            flags = [(2, struct.pack(order + "I", 1))]
            old = [made.obsolete(order, 0, it, 7 * 10**6, hello, flags) for it in (3, 0xFFFF)]
            front = made.section(order) + made.interface(order, 101)
            _, packets = self.annotate(f"{OWN}@{self.file('a', front + b''.join(old))}")
            swapped = [(2, struct.pack("<I", 1))]
            self.assertEqual([(it.stamp, it.frame, it.options) for it in packets], [
                (7 * 10**6, hello, [*swapped, (4, struct.pack("<Q", 3))]),
                (7 * 10**6, hello, swapped),
            ])

    def mixed(self, order: str) -> str:
        """A file of what has a number and what hasn't: a simple packet, an enhanced one, a custom
        block, statistics, and in a further section a simple one and an enhanced one."""
        hello = [message(A, Hello(105, generation=at)) for at in range(4)]
        custom = made.block(order, made.CUSTOM, struct.pack(order + "I", 4242) + b"data")
        front = made.section(order) + made.interface(order, 101)
        return self.file("mixed", b"".join([
            front, made.simple(order, hello[0]), made.enhanced(order, 0, 10**6, hello[1]), custom,
            made.block(order, made.STATISTICS, bytes(12)), front, made.simple(order, hello[2]),
            made.enhanced(order, 0, 2 * 10**6, hello[3]),
        ]))

    def test_blocks_without_a_time(self) -> None:
        for order in "<>":
            with self.subTest(order=order):
                _, packets = self.annotate(f"{OWN}@{self.mixed(order)}")
                self.check(packets, {
                    1: ["0 0 #1 skipped: without a time", "0 0 #2 "],
                    2: ["0 0 #3 skipped: without a time", "0 0 #4 skipped: without a time"],
                    3: ["1000 0 #5 ", "1000 end: "],
                })
                # The second simple packet has the time of the record before it.
                self.assertEqual([it.stamp for it in packets], [10**6, 10**6, 2 * 10**6])
                with open(self.why, "rb") as file:
                    found = made.blocks_of(file.read())
                self.assertEqual([it.kind for it in found], [
                    made.SECTION, made.INTERFACE, made.SIMPLE, made.ENHANCED, made.CUSTOM,
                    made.ENHANCED, made.ENHANCED,
                ])
                self.assertEqual(found[4].body, struct.pack("<I", 4242) + b"data")

    def test_a_simple_packet_of_another_interface(self) -> None:
        words = [f"a={OWN}@{support.example('lan.pcap')}", f"b=10.0.1.2@{self.mixed('<')}"]
        _, packets = self.annotate(*words)
        simple = [it for it in packets if it.interface == 1][0]
        self.assertEqual(simple.stamp, 0)
        self.assertIn(" b #1 skipped: without a time", simple.comments[0])

    def test_several_interfaces(self) -> None:
        hello = message(A, Hello(105, generation=1))
        path = self.file("a", made.section() + made.interface("<", 101) + made.interface("<", 147)
                         + made.enhanced("<", 1, 10**6, b"x") + made.enhanced("<", 0, 10**6, hello))
        interfaces, packets = self.annotate("--all", f"{OWN}@{path}")
        self.assertEqual([(it.link, it.options) for it in interfaces],
                         [(101, [(made.IF_NAME, b"0")]), (147, [(made.IF_NAME, b"0")])])
        self.assertEqual([it.interface for it in packets], [1, 0])

    def test_standard_input_and_output(self) -> None:
        words = [sys.executable, "-m", "pimtree", "annotate", "-o", "-", "--rp", RP, f"lan={OWN}@-"]
        variables = {**os.environ, "PYTHONPATH": os.path.join(support.TOP, "python")}
        data = made.pcap(LAN)
        ran = subprocess.run(words, input=data + data[24:40], capture_output=True, env=variables)
        self.assertEqual((ran.returncode, ran.stderr.decode()),
                         (0, "pimtree: warning: - ends inside record 12\n"))
        _, packets = made.read_pcapng(self.file("why", ran.stdout))
        end = LAN_COMMENTS[11]
        self.check(packets, {**LAN_COMMENTS, 11: [*end[:2], "80000 lan #12 skipped: cut", end[2]]})

    @unittest.skipUnless(made.has_tshark, "tshark isn't installed")
    def test_tshark(self) -> None:
        files = [made.pcap(LAN, ">", 10**9, 1), made.pcapng(LAN, ">", 113), made.pcapng(LAN)]
        ports = "abc"
        words = [f"{it}={OWN}@{self.file(it, data)}" for it, data in zip(ports, files)]
        words += [f"d=10.0.1.2@{self.mixed('>')}"]
        self.annotate(*words)
        rows = made.tshark(self.why, "frame.interface_name", "frame.time_epoch", "frame.comment",
                           "frame.protocols", "_ws.malformed", "pim.type", "_ws.expert")
        for port, link in zip(ports, ("eth", "sll", "raw")):
            own = [it for it in rows if it["frame.interface_name"] == port]
            lines = [line for it in own for line in it["frame.comment"].split("\\n") if line]
            self.assertEqual([it for it in lines if " end: " not in it],
                             [it for it in self.lines(*words) if it.split(" ")[1] == port])
            self.assertTrue(all(it["frame.protocols"].startswith(link) for it in own))
            seconds = [f"{time // 10**6}.{time % 10**6:06}000" for time, _ in LAN]
            self.assertEqual([it["frame.time_epoch"] for it in own], seconds)
        self.assertEqual({it["_ws.malformed"] for it in rows}, {""})
        notes = [it["_ws.expert"] for it in rows if it["_ws.expert"]]
        self.assertEqual([it for it in notes if "Expert Info (Comment/Comment)" not in it], [])


class Faults(Folder):
    def refused(self, *words: str) -> str:
        with self.assertRaises(PimtreeFault) as raised:
            self.annotate(*words)
        return raised.exception.words

    def test_what_came_before_a_fault_stays(self) -> None:
        bad = made.block("<", made.ENHANCED, bytes(20))[:-4] + bytes(4)
        for data, words in [
            (made.pcap(LAN[:5]) + b"\xff" * 16, "capture too-long"),
            (made.pcapng(LAN[:5]) + bad, "capture block"),
        ]:
            path = self.file("a", data)
            self.assertEqual(self.refused(f"lan={OWN}@{path}"), f"{words} in {path} at record 6")
            _, packets = made.read_pcapng(self.why)
            self.check(packets, {at: LAN_COMMENTS[at] for at in range(1, 6)})

    def test_a_fault_after_the_run(self) -> None:
        path = self.file("a", made.pcap(LAN) + b"\xff" * 16)
        found = self.refused("--at", "500", f"lan={OWN}@{path}")
        self.assertEqual(found, f"capture too-long in {path} at record 12")
        self.assertEqual(len(made.read_pcapng(self.why)[1]), len(LAN))

    def test_a_fault_before_any_line(self) -> None:
        self.file("why.pcapng", b"kept")
        path = self.file("a", b"This is no capture at all.")
        self.assertEqual(self.refused(f"{OWN}@{path}"), f"capture magic in {path}")
        self.assertEqual(self.refused(f"{OWN}@{self.path('gone')}"),
                         f"file {self.path('gone')}: no such file")
        with open(self.why, "rb") as file:
            self.assertEqual(file.read(), b"kept")
        self.assertEqual(sorted(os.listdir(self.folder)), ["a", "why.pcapng"])

    def test_a_file_that_is_replaced_by_its_own_comments(self) -> None:
        path = self.file("why.pcapng", made.pcap(LAN))
        _, packets = self.annotate(f"lan={OWN}@{path}")
        self.check(packets, LAN_COMMENTS)
        _, again = self.annotate(f"lan={OWN}@{path}")
        self.assertEqual([it.comments for it in again], [it.comments * 2 for it in packets])

    def test_a_cut_file(self) -> None:
        for data in (made.pcap(LAN), made.pcapng(LAN)):
            path = self.file("a", data[:-1])
            _, packets = self.annotate(f"lan={OWN}@{path}")
            expected = {at: lines for at, lines in LAN_COMMENTS.items() if at < 10}
            # Nothing of the last record is there, so the line on it is on the one before.
            self.check(packets, {**expected, 10: ["20000 lan #11 skipped: cut", "20000 end: "]})
            self.assertEqual(self.warnings, [f"{path} ends inside record 11"])

    def test_words(self) -> None:
        word = f"{OWN}@{support.example('lan.pcap')}"
        with self.assertRaisesRegex(PimtreeFault, "annotate needs -o FILE"):
            annotate.main([word])
        self.assertIn("lines of text", self.refused("--json", word))
        with self.assertRaisesRegex(PimtreeFault, f"file {self.folder}: is a directory"):
            annotate.main(["-o", self.folder, word])
        with self.assertRaisesRegex(PimtreeFault, "file /gone/x: no such file or directory"):
            annotate.main(["-o", "/gone/x", word])


if __name__ == "__main__":
    unittest.main()
