"""Messages as objects: their text, their bytes, and the faults of both."""
from __future__ import annotations

import unittest

import support

from pimtree import (
    Entry,
    GroupSet,
    Hello,
    JoinPrune,
    LanPruneDelay,
    Message,
    OtherMessage,
    PimtreeFault,
)

HELLO = Hello(105, LanPruneDelay(True, 500, 2500), 1, 908773124, ("10.0.0.9", "10.0.0.10"))
HELLO_TEXT = """hello
holdtime 105
lan-prune-delay t 1 propagation 500 override 2500
dr-priority 1
generation 908773124
address 10.0.0.9
address 10.0.0.10
"""
JOIN = JoinPrune("10.0.0.2", 210, (
    GroupSet("239.1.1.1", (Entry("star", "10.9.9.9"),), (Entry("rpt", "192.0.2.1"),)),
    GroupSet("239.2.2.2", (Entry("source", "192.0.2.5"),)),
))
JOIN_TEXT = """join/prune upstream 10.0.0.2 holdtime 210 sets 2
set 239.1.1.1 joined 1 pruned 1
join star 10.9.9.9
prune rpt 192.0.2.1
set 239.2.2.2 joined 1 pruned 0
join source 192.0.2.5
"""


class Texts(unittest.TestCase):
    def test_texts(self) -> None:
        for message, text in [(HELLO, HELLO_TEXT), (JOIN, JOIN_TEXT), (Hello(), "hello\n")]:
            self.assertEqual(str(message), text)
            self.assertEqual(Message.parse(text), message)

    def test_wrong_texts(self) -> None:
        for line, text in [
            (1, ""),
            (1, "howdy\n"),
            (2, "hello\nholdtime x\n"),
            (3, "hello\nholdtime 1\nholdtime 2\n"),
            (2, "join/prune upstream 10.0.0.2 holdtime 210 sets 1\n"),
            (4, JOIN_TEXT.replace("prune rpt 192.0.2.1\n", "")),
            (1, "join/prune upstream 10.0.0.2 holdtime 210 sets many\n"),
            (7, JOIN_TEXT + "join source 192.0.2.6\n"),
        ]:
            with self.subTest(text), self.assertRaises(PimtreeFault) as raised:
                Message.parse(text)
            self.assertEqual(raised.exception.words, f"text line {line}")


class Bytes(unittest.TestCase):
    def test_bytes(self) -> None:
        with open(support.example("join-star.pim"), "rb") as file:
            data = file.read()
        join = JoinPrune("10.0.0.2", 210, (GroupSet("239.1.1.1", (Entry("star", "10.9.9.9"),)),))
        self.assertEqual(Message.check(data), join)
        self.assertEqual(join.build(), data)

    def test_both_ways(self) -> None:
        for message in (HELLO, JOIN):
            self.assertEqual(Message.check(message.build("10.0.0.9"), "10.0.0.9"), message)

    def test_ipv6(self) -> None:
        hello = Hello(105, addresses=("2001:db8::9",))
        data = hello.build("fe80::9")
        self.assertEqual(Message.check(data, "fe80::9"), Hello(105, addresses=(
            "2001:0db8:0000:0000:0000:0000:0000:0009",)))
        with self.assertRaises(PimtreeFault) as raised:
            Message.check(data, "fe80::8")
        self.assertEqual(raised.exception.words, "frame checksum")

    def test_another_type(self) -> None:
        self.assertEqual(Message.check(bytes.fromhex("2400dbff")), OtherMessage(4))
        with self.assertRaises(PimtreeFault) as raised:
            OtherMessage(4).build()
        self.assertEqual(raised.exception.words, "text line 1")

    def test_faults(self) -> None:
        with open(support.example("join-cut.pim"), "rb") as file, self.assertRaises(
            PimtreeFault
        ) as raised:
            Message.check(file.read())
        self.assertEqual(raised.exception.words, "join/prune short at 22")
        twice = GroupSet("239.1.1.1", (Entry("star", "10.9.9.9"), Entry("star", "10.9.9.8")))
        with self.assertRaises(PimtreeFault) as raised:
            JoinPrune("10.0.0.2", 210, (twice,)).build()
        self.assertEqual(raised.exception.words, "join/prune second-star at 30")


if __name__ == "__main__":
    unittest.main()
