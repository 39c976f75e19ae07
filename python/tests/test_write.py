"""Messages as captures: what the program and tshark read of them."""
from __future__ import annotations

import contextlib
import io
import os
import re
import struct
import subprocess
import sys
import tempfile
import unittest
import warnings
from typing import List, Sequence, Tuple
from unittest import mock

import capture_files as made
import support

from pimtree import PimtreeFault, program, write

HELLO = "hello\nholdtime 105\ngeneration 7\n"
JOIN = """join/prune upstream 10.0.0.2 holdtime 210 sets 1
set 239.1.1.1 joined 1 pruned 1
join star 10.9.9.9
prune rpt 192.0.2.1
"""
HELLO_6 = "hello\nholdtime 105\naddress 2001:0db8:0000:0000:0000:0000:0000:0001\n"
MACS = {4: "01005e00000d02000a000007", 6: "33330000000d020000000007"}
"""The MAC addresses of 224.0.0.13 by RFC 1112, and of ff02::d by RFC 2464, each before one that is
made of 10.0.0.7 or fe80::7."""


def long_join(count: int) -> str:
    """A Join of so many sources. It has 26 bytes, and 8 of each source."""
    front = "join/prune upstream 10.0.0.2 holdtime 210 sets 1"
    sources = [f"join source 10.1.{at >> 8}.{at & 255}" for at in range(count)]
    return "\n".join([front, f"set 239.1.1.1 joined {count} pruned 0", *sources, ""])


class Written(unittest.TestCase):
    def setUp(self) -> None:
        room = tempfile.TemporaryDirectory()
        self.addCleanup(room.cleanup)
        self.path = os.path.join(room.name, "x.pcap")

    def write(self, text: str, *words: str) -> List[Tuple[int, bytes]]:
        """Runs the command. Returns the records, with their times in microseconds."""
        data = io.TextIOWrapper(io.BytesIO(text.encode("latin-1")))
        with mock.patch("sys.stdin", data), contextlib.redirect_stdout(io.StringIO()):
            self.assertEqual(write.main(["-o", self.path, *words]), 0)
        with open(self.path, "rb") as file:
            header = struct.unpack("<IHHiIII", file.read(24))
            rest = file.read()
        self.assertEqual(header, (0xA1B2C3D4, 2, 4, 0, 0, 262144, 1))
        at, found = 0, []
        while at < len(rest):
            seconds, micros, captured, length = struct.unpack_from("<IIII", rest, at)
            self.assertEqual(captured, length)
            found.append((seconds * 10**6 + micros, rest[at + 16 : at + 16 + captured]))
            at += 16 + captured
        return found

    def read_back(self, messages: Sequence[bytes], *ends: str) -> List[str]:
        """The texts of messages."""
        return [program.run(["check", *ends], it).decode() for it in messages]

    def trace(self, address: str, *words: str) -> List[str]:
        command = [support.PROGRAM, "trace", *words, f"{address}@{self.path}"]
        return subprocess.run(command, capture_output=True, text=True).stdout.splitlines()


class Messages(Written):
    def test_texts(self) -> None:
        records = self.write(HELLO + JOIN + f"\n# a comment\n\n{HELLO}", "--src", "10.0.0.7")
        self.assertEqual([time for time, _ in records], [0, 1000, 2000])
        self.assertEqual({frame[:14].hex() for _, frame in records}, {MACS[4] + "0800"})
        found = self.read_back([frame[34:] for _, frame in records])
        self.assertEqual(found, [HELLO, JOIN, HELLO])
        lines = self.trace("10.0.0.2", "--all", "--rp", "10.9.9.9")
        self.assertEqual(lines[0], "0 0 #1 10.0.0.7: hello new, generation 7")
        self.assertEqual(lines[1], "1 0 #2 10.0.0.7: applied, for 10.0.0.2, joined 1 pruned 1")

    def test_ipv6(self) -> None:
        records = self.write(HELLO_6, "--src", "fe80::7")
        self.assertEqual(records[0][1][:14].hex(), MACS[6] + "86dd")
        found = self.read_back([records[0][1][54:]], "--src=fe80::7", "--dst=ff02::d")
        self.assertEqual(found, [HELLO_6])
        self.assertIn("#1 fe80::7: hello new", self.trace("fe80::2")[0])

    def test_answers_of_commands(self) -> None:
        capture = support.example("ipv6.pcap")
        words = ["--rp=2001:db8::9", "--upstream=fe80::3", "--own=fe80::1", f"fe80::2@{capture}"]
        answers = program.run(["mirror", *words], b"").decode()
        messages = [bytes.fromhex(it) for it in re.findall("^message [0-9]+ (.*)$", answers, re.M)]
        records = self.write(answers, "--src", "fe80::1")
        self.assertEqual([frame[54:] for _, frame in records], messages)
        self.assertTrue(messages)
        self.assertIn("unknown-neighbour, for fe80::3", self.trace("fe80::3")[0])
        # The checksum over IPv6 covers the sender.
        with self.assertRaisesRegex(PimtreeFault, "^line 1: frame checksum$"):
            self.write(answers, "--src", "fe80::2")

    def test_a_text_between_answers(self) -> None:
        message = program.run(["build"], HELLO.encode())
        line = f"message {len(message)} {message.hex()}\n"
        records = self.write(f"ok\n{HELLO}{line}messages 1\nagrees\n{line}", "--src", "10.0.0.7")
        self.assertEqual([frame[34:] for _, frame in records], [message] * 3)

    def test_tags(self) -> None:
        for vlan, tags in (("5", "81000005"), ("5.4094", "88a8000581000ffe")):
            frame = self.write(HELLO, "--src", "10.0.0.7", "--vlan", vlan)[0][1]
            self.assertEqual(frame[:12].hex() + frame[12:].hex()[: len(tags)], MACS[4] + tags)
            self.assertIn("hello new", self.trace("10.0.0.2", "--vlan", vlan)[0])

    def test_a_long_message(self) -> None:
        # The packet has 65,534 bytes of at most 65,535.
        frame = self.write(long_join(8186), "--src", "10.0.0.7")[0][1]
        self.assertEqual(frame[16:18], struct.pack(">H", 65534))
        self.assertEqual(len(frame), 14 + 65534)
        self.assertIn("joined 8186", self.trace("10.0.0.2")[0])

    def test_no_message(self) -> None:
        with warnings.catch_warnings(record=True) as caught:
            warnings.simplefilter("always")
            self.assertEqual(self.write("messages 0\nagrees\n", "--src", "10.0.0.7"), [])
        self.assertEqual([str(it.message) for it in caught], ["the input has no message"])

    @unittest.skipUnless(made.has_tshark, "tshark isn't installed")
    def test_tshark(self) -> None:
        fields = ["pim.type", "pim.cksum.status", "ip.checksum.status", "vlan.id"]
        notes = ["_ws.expert", "_ws.malformed"]
        for source, text, header, vlan in [
            ("10.0.0.7", HELLO + JOIN, "1", ""),
            ("10.0.0.7", HELLO + JOIN, "1", "5"),
            ("fe80::7", HELLO_6, "", "5"),
        ]:
            self.write(text, "--src", source, *(["--vlan", vlan] if vlan else []))
            rows = made.tshark(self.path, *fields, *notes, preferences=["ip.check_checksum:TRUE"])
            types = ["0", "3"] if "join" in text else ["0"]
            expected = [[it, "1", header, vlan, "", ""] for it in types]
            self.assertEqual([list(it.values()) for it in rows], expected)


class Faults(Written):
    def refused(self, text: str, *words: str) -> str:
        with self.assertRaises(PimtreeFault) as raised:
            self.write(text, *(words or ("--src", "10.0.0.7")))
        self.assertFalse(os.path.exists(self.path))
        return raised.exception.words

    def test_lines(self) -> None:
        good = HELLO + "\n"
        for text, words in [
            (good + "hello\nholdtim 5\n", "text line 6"),
            (good + JOIN.replace("pruned 1", "pruned 2"), "text line 9"),
            (good + "join/prune\n" + JOIN, "text line 5"),
            (good + "join/prune upstream 10.0.0.2 holdtime 210\n", "text line 5"),
            (good + "holdtime 5\n", "text line 5"),
            (good + "hello\n\xff\n", "text line 6"),
            (good + JOIN.replace("10.9.9.9", "fe80::1"), "line 5: family"),
            (good + JOIN.replace("239.1.1.1", "10.1.1.1"), "line 5: join/prune not-group at 10"),
            (good + "message 3 aabbcc\n", "line 5: frame short"),
            (good + "message 4 aabbcc\n", "line 5: the message has 3 bytes"),
            (good + "message 4 aabbccd\n", "line 5: this isn't `message N HEX`"),
            (good + "message 4 aabbccdd ee\n", "line 5: this isn't `message N HEX`"),
            (good + "message 4 20000000\n", "line 5: frame checksum"),
        ]:
            with self.subTest(words):
                self.assertEqual(self.refused(text), words)

    def test_a_message_above_a_packet(self) -> None:
        fault = "line 2: a message of 65522 bytes, but a packet has at most 65515"
        self.assertEqual(self.refused("\n" + long_join(8187)), fault)

    def test_words(self) -> None:
        ends = ("--src", "10.0.0.1")
        for words, fault in [
            (("--src", "0.0.0.0"), "--src 0.0.0.0: this is no valid source"),
            (("--src", "224.0.0.0"), "--src 224.0.0.0: this is no valid source"),
            (("--src", "::"), "--src ::: this is no valid source"),
            (("--src", "ff02::1"), "--src ff02::1: this is no valid source"),
            (("--src", "10.0.0"), "address 10.0.0"),
            (("--src", "fe80::1%eth0"), "address fe80::1%eth0"),
            (("--src", "10.0.0.1", "--dst", "ff02::d"), "family"),
            (("--src", "10.0.0.1", "--dst", "10.0.0.2"), "line 1: frame not-all-routers"),
            ((*ends, "--vlan", "0"), "--vlan 0: the number of a VLAN is 1 to 4094"),
            ((*ends, "--vlan", "5.4095"), "--vlan 5.4095: the number of a VLAN is 1 to 4094"),
            ((*ends, "--vlan", "x"), "--vlan x: a VLAN is 5, or 5.7 for two tags"),
            (("--dst", "224.0.0.13"), "write needs --src"),
            (("--src", "10.0.0.1", "messages"), "word messages"),
        ]:
            with self.subTest(fault):
                self.assertEqual(self.refused(JOIN, *words), fault)

    def test_the_command(self) -> None:
        words = [sys.executable, "-m", "pimtree", "write", "-o", "-", "--src", "10.0.0.7"]
        variables = {**os.environ, "PYTHONPATH": os.path.join(support.TOP, "python")}
        ran = subprocess.run(words, input=HELLO.encode(), capture_output=True, env=variables)
        self.assertEqual((ran.returncode, ran.stderr, len(ran.stdout)), (0, b"", 24 + 16 + 34 + 18))
        ran = subprocess.run(words, input=b"hello\n-", capture_output=True, env=variables)
        self.assertEqual((ran.returncode, ran.stdout), (2, b""))
        self.assertEqual(ran.stderr, b"pimtree: text line 2\n")


if __name__ == "__main__":
    unittest.main()
