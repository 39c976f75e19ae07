"""The live speaker without sockets: what it sends, on a clock of the test.

Expected periods, delays and messages are those of RFC 7761."""
from __future__ import annotations

import contextlib
import io
import ipaddress
import os
import re
import shutil
import subprocess
import sys
import tempfile
import unittest
from typing import Dict, List, Optional, Sequence, Tuple
from unittest import mock

import support

from pimtree import (
    Entry,
    GroupSet,
    Hello,
    JoinPrune,
    LanPruneDelay,
    Message,
    PimtreeFault,
    Session,
    sockets,
    speak,
)
from pimtree.speak import Configuration, Port, Route, Speaker

ALL = "224.0.0.13"
UP, OWN_UP, OWN, A, B = "10.0.1.1", "10.0.1.2", "10.0.0.1", "10.0.0.2", "10.0.0.3"
RP, G, S = "10.9.9.9", "239.1.1.1", "192.0.2.5"
PORTS = (Port("up0", OWN_UP), Port("lan", OWN))
ROUTES = (Route("rp", "224.0.0.0/4", RP, "--rp"), Route("via", "0.0.0.0/0", UP, "--upstream"))
STAR = Entry("star", RP)
GENERATION = 7


def joins(upstream: str, *entries: Entry, group: str = G) -> JoinPrune:
    return JoinPrune(upstream, 210, (GroupSet(group, joined=entries),))


def prunes(upstream: str, *entries: Entry, group: str = G) -> JoinPrune:
    return JoinPrune(upstream, 210, (GroupSet(group, pruned=entries),))


def hello(holdtime: int = 105, generation: int = GENERATION) -> Hello:
    return Hello(holdtime, LanPruneDelay(False, 500, 2500), 1, generation)


class Link:
    """What the speaker sends and hears, on a clock that the test moves."""

    def __init__(self, configuration: Configuration) -> None:
        self.now = 0
        self.lines: List[str] = []
        self.broken: Dict[int, OSError] = {}
        self._sent: List[Tuple[str, Message]] = []
        self._ports = configuration.ports
        self._session = Session()
        with mock.patch("random.getrandbits", return_value=GENERATION):
            self.speaker = Speaker(
                self._session, configuration, lambda: self.now, self._send, self.lines.append
            )

    def close(self) -> None:
        self._session.close()

    def _send(self, port: int, message: bytes) -> None:
        if port in self.broken:
            raise self.broken[port]
        own = self._ports[port]
        self._sent.append((own.name, Message.check(message, own.address)))

    def sent(self) -> List[Tuple[str, Message]]:
        """What was sent since the last call, with the name of the port."""
        sent, self._sent = self._sent, []
        return sent

    def pass_to(self, moment: int) -> List[Tuple[str, Message]]:
        """Lets time pass as `select` does: to each moment at which something is due."""
        while self.speaker.due() <= moment:
            self.now = self.speaker.due()
            self.speaker.time_passed()
        self.now = moment
        return self.sent()

    def hear(self, port: int, source: str, message: Message) -> List[Tuple[str, Message]]:
        all_routers = ALL if "." in source else "ff02::d"
        self.speaker.heard(port, source, all_routers, message.build(source))
        return self.sent()


class OnLinks(unittest.TestCase):
    """A speaker with two ports, or those of another configuration."""

    def begin(self, configuration: Optional[Configuration] = None) -> Link:
        """A speaker that has sent its first Hellos."""
        link = Link(configuration or Configuration(PORTS, ROUTES))
        self.addCleanup(link.close)
        link.pass_to(0)
        return link

    def meet(self, *neighbours: str, period: int = 30) -> Link:
        """A speaker with its upstream neighbour and these on its other port. None times out."""
        link = self.begin(Configuration(PORTS, ROUTES, period))
        link.hear(0, UP, hello(65535))
        for neighbour in neighbours:
            link.hear(1, neighbour, hello(65535))
        return link

    def without_hellos(self, sent: Sequence[Tuple[str, Message]]) -> List[Tuple[str, Message]]:
        return [it for it in sent if not isinstance(it[1], Hello)]


class Hellos(OnLinks):
    def test_period(self) -> None:
        link = Link(Configuration(PORTS))
        self.addCleanup(link.close)
        both = [("up0", hello()), ("lan", hello())]
        self.assertEqual(link.pass_to(0), both)
        self.assertEqual(link.pass_to(29_999), [])
        self.assertEqual(link.pass_to(30_000), both)
        self.assertEqual(link.pass_to(90_000), both + both)

    def test_another_period(self) -> None:
        link = self.begin(Configuration(PORTS[:1], hello=9))
        self.assertEqual(link.pass_to(8_999), [])
        self.assertEqual(link.pass_to(9_000), [("up0", hello(31))])

    def test_after_a_pause(self) -> None:
        link = self.begin()
        link.now = 95_000
        link.speaker.time_passed()
        self.assertEqual(link.sent(), [("up0", hello()), ("lan", hello())])
        self.assertEqual(link.pass_to(119_999), [])
        self.assertEqual(len(link.pass_to(120_000)), 2)

    def test_new_and_restarted_neighbours(self) -> None:
        link = self.begin()
        self.assertEqual(link.hear(1, A, hello(105, 1)), [("lan", hello())])
        self.assertEqual(link.hear(1, A, hello(105, 1)), [])
        self.assertEqual(link.hear(1, A, hello(105, 2)), [("lan", hello())])
        self.assertEqual(link.hear(1, A, hello(0, 2)), [])
        self.assertEqual(link.hear(1, A, hello(105, 2)), [("lan", hello())])
        self.assertEqual(len(link.pass_to(30_000)), 2)

    def test_goodbye(self) -> None:
        link = self.begin()
        link.now = 1_234
        link.speaker.time_passed()
        link.lines.clear()
        link.speaker.goodbye()
        self.assertEqual(link.sent(), [("up0", hello(0)), ("lan", hello(0))])
        self.assertRegex(link.lines[0], "^1234 up0 sends goodbye 20[0-9a-f]+$")
        self.assertRegex(link.lines[1], "^1234 lan sends goodbye 20[0-9a-f]+$")


class Upstream(OnLinks):
    def test_nothing_before_its_hello(self) -> None:
        link = self.begin()
        link.hear(1, A, hello(65535))
        self.assertEqual(link.hear(1, A, joins(OWN, STAR)), [])
        self.assertEqual(self.without_hellos(link.pass_to(70_000)), [])
        both = [("up0", hello()), ("up0", joins(UP, STAR))]
        self.assertEqual(link.hear(0, UP, hello()), both)

    def test_changes(self) -> None:
        link = self.meet(A)
        self.assertEqual(link.hear(1, A, joins(OWN, STAR)), [("up0", joins(UP, STAR))])
        self.assertEqual(link.hear(1, A, joins(OWN, STAR)), [])
        source = Entry("source", S)
        self.assertEqual(link.hear(1, A, joins(OWN, source)), [("up0", joins(UP, source))])
        # There is nobody who could override, so the Prune-Pending Timer is 0.
        self.assertEqual(link.hear(1, A, prunes(OWN, STAR)), [])
        self.assertEqual(link.pass_to(0), [("up0", prunes(UP, STAR))])

    def test_an_exception(self) -> None:
        link, rpt = self.meet(A), Entry("rpt", S)
        entries = GroupSet(G, (STAR,), (rpt,))
        # The Prune of (S,G,rpt) has a Prune-Pending Timer, too.
        expected = [("up0", joins(UP, STAR))]
        self.assertEqual(link.hear(1, A, JoinPrune(OWN, 210, (entries,))), expected)
        self.assertEqual(link.pass_to(0), [("up0", prunes(UP, rpt))])
        expected = [("up0", JoinPrune(UP, 210, (entries,)))]
        self.assertEqual(self.without_hellos(link.pass_to(60_000)), expected)

    def test_refreshes(self) -> None:
        link = self.meet(A, period=7)
        link.hear(1, A, joins(OWN, STAR))
        self.assertEqual(self.without_hellos(link.pass_to(59_999)), [])
        expected = [("up0", joins(UP, STAR))]
        self.assertEqual(self.without_hellos(link.pass_to(60_000)), expected)
        self.assertEqual(self.without_hellos(link.pass_to(119_999)), [])
        self.assertEqual(self.without_hellos(link.pass_to(180_000)), expected + expected)

    def test_expiry(self) -> None:
        link = self.meet(A)
        link.hear(1, A, joins(OWN, STAR))
        link.pass_to(209_999)
        self.assertEqual(self.without_hellos(link.pass_to(210_000)), [("up0", prunes(UP, STAR))])
        self.assertEqual(self.without_hellos(link.pass_to(300_000)), [])

    def test_restart(self) -> None:
        link = self.meet(A)
        link.hear(1, A, joins(OWN, STAR))
        both = [("up0", hello()), ("up0", joins(UP, STAR))]
        self.assertEqual(link.hear(0, UP, hello(65535, 8)), both)
        self.assertEqual(link.hear(0, UP, hello(65535, 8)), [])

    def test_goodbye_and_return(self) -> None:
        link = self.meet(A)
        link.hear(1, A, joins(OWN, STAR))
        link.hear(0, UP, hello(0))
        self.assertEqual(link.hear(1, A, joins(OWN, STAR, group="239.2.2.2")), [])
        link.hear(1, A, prunes(OWN, STAR))
        self.assertEqual(self.without_hellos(link.pass_to(70_000)), [])
        both = [("up0", hello()), ("up0", joins(UP, STAR, group="239.2.2.2"))]
        self.assertEqual(link.hear(0, UP, hello()), both)

    def test_its_port_is_where_its_hello_came(self) -> None:
        link = self.begin()
        link.hear(0, A, hello())
        link.hear(1, UP, hello())
        self.assertEqual(link.hear(0, A, joins(OWN_UP, STAR)), [("lan", joins(UP, STAR))])

    def test_timeout(self) -> None:
        link = self.meet(A)
        link.hear(0, UP, hello(105))
        link.pass_to(105_000)
        self.assertEqual(link.hear(1, A, joins(OWN, STAR)), [])
        both = [("up0", hello()), ("up0", joins(UP, STAR))]
        self.assertEqual(link.hear(0, UP, hello(105)), both)

    def test_too_big(self) -> None:
        link = self.begin()
        rpt = tuple(Entry("rpt", f"192.0.2.{number}") for number in range(200))
        link.hear(1, A, hello(65535))
        link.hear(1, A, JoinPrune(OWN, 210, (GroupSet(G, (STAR,), rpt),)))
        link.pass_to(0)
        self.assertEqual(link.hear(0, UP, hello(65535)), [("up0", hello())])
        self.assertEqual(link.lines[-2], f"0 up0 fault joins: too big {G}")
        self.assertEqual(link.lines[-1], f"0 up0 fault change: too big {G}")
        self.assertEqual(self.without_hellos(link.pass_to(60_000)), [])
        self.assertIn(f"60000 up0 fault refresh: too big {G}", link.lines)
        link.hear(1, A, joins(OWN, STAR))
        expected = [("up0", joins(UP, STAR))]
        self.assertEqual(self.without_hellos(link.pass_to(120_000)), expected)

    def test_several(self) -> None:
        other, prefixes = "10.0.1.9", ("192.0.2.0/24", "198.51.100.0/24")
        rows = [Route("via", prefix, other, "file r") for prefix in prefixes]
        link = self.begin(Configuration(PORTS, (*ROUTES, *rows)))
        link.hear(1, A, hello())
        link.hear(0, UP, hello())
        link.hear(1, A, joins(OWN, STAR))
        source = Entry("source", S)
        self.assertEqual(link.hear(1, A, joins(OWN, source)), [])
        both = [("up0", hello()), ("up0", joins(other, source))]
        self.assertEqual(link.hear(0, other, hello()), both)
        expected = [("up0", joins(UP, STAR)), ("up0", joins(other, source))]
        self.assertEqual(self.without_hellos(link.pass_to(60_000)), expected)


class PruneEchoes(OnLinks):
    def test_star(self) -> None:
        link = self.meet(A, B)
        link.hear(1, A, joins(OWN, STAR))
        self.assertEqual(link.hear(1, A, prunes(OWN, STAR)), [])
        self.assertEqual(link.pass_to(2_999), [])
        both = [("lan", prunes(OWN, STAR)), ("up0", prunes(UP, STAR))]
        self.assertEqual(link.pass_to(3_000), both)
        self.assertRegex(link.lines[-2], "^3000 lan sends echo 23[0-9a-f]+$")
        self.assertRegex(link.lines[-1], "^3000 up0 sends change 23[0-9a-f]+$")

    def test_source(self) -> None:
        link, source = self.meet(A, B), Entry("source", S)
        link.hear(1, A, joins(OWN, source))
        link.hear(1, A, prunes(OWN, source))
        both = [("lan", prunes(OWN, source)), ("up0", prunes(UP, source))]
        self.assertEqual(link.pass_to(3_000), both)

    def test_override(self) -> None:
        link = self.meet(A, B)
        link.hear(1, A, joins(OWN, STAR))
        link.hear(1, A, prunes(OWN, STAR))
        link.pass_to(1_000)
        self.assertEqual(link.hear(1, B, joins(OWN, STAR)), [])
        self.assertEqual(link.pass_to(29_999), [])

    def test_rp_of_the_longest_prefix(self) -> None:
        rows = (("239.0.0.0/8", "10.9.9.8"), ("239.1.1.0/24", RP), ("224.0.0.0/4", "10.9.9.7"))
        routes = [Route("rp", prefix, rp, "file r") for prefix, rp in rows]
        link = self.begin(Configuration(PORTS, routes))
        for neighbour in (A, B):
            link.hear(1, neighbour, hello())
        for group, rp in ((G, RP), ("239.2.2.2", "10.9.9.8"), ("225.1.1.1", "10.9.9.7")):
            prune = prunes(OWN, Entry("star", rp), group=group)
            link.hear(1, A, joins(OWN, Entry("star", rp), group=group))
            link.hear(1, A, prune)
            self.assertEqual(link.pass_to(link.now + 3_000), [("lan", prune)])


class Lines(OnLinks):
    def test_answers(self) -> None:
        link = self.meet(A)
        link.hear(1, A, joins(OWN, STAR))
        link.now = 5_000
        self.assertEqual(link.speaker.answer("now"), ["5000", "ok"])
        self.assertEqual(link.speaker.answer("wants"), [f"want star {G} via {UP}", "ok"])
        record = f"port 1 star {G} join et 205000 ppt -"
        self.assertEqual(link.speaker.answer("state"), [record, "ok"])
        self.assertEqual(link.speaker.answer("next"), ["210000", "ok"])
        self.assertEqual(link.speaker.answer(f"same {UP} {UP} {OWN_UP}"), ["same", "ok"])
        self.assertEqual(link.speaker.answer(f"change {UP} {UP} {OWN_UP}"), ["messages 0", "ok"])
        message = joins(UP, STAR).build(OWN_UP)
        expected = [f"message {len(message)} {message.hex()}", "messages 1", "ok"]
        self.assertEqual(link.speaker.answer(f"messages {UP} {OWN_UP}"), expected)

    def test_faults(self) -> None:
        link = self.meet(A)
        for line in ("run 5", "reset", "port 10.0.0.9", "packet 0 10.0.0.2", "from 0 10.0.0.2", ""):
            expected = [f"fault word {line.split(' ')[0]}"]
            self.assertEqual(link.speaker.answer(line), expected)
        self.assertEqual(link.speaker.answer("state x"), ["fault word x"])
        self.assertEqual(link.speaker.answer("messages x y"), ["fault address x"])
        self.assertEqual(link.speaker.answer("now"), ["0", "ok"])

    def test_what_is_heard(self) -> None:
        link = self.meet(A)
        link.now = 40
        link.hear(1, B, joins(OWN, STAR))
        self.assertEqual(link.lines[-1], f"40 lan hears {B} unknown-neighbour")
        link.speaker.heard(1, A, ALL, b"\x23\x00\x00\x00")
        self.assertEqual(link.lines[-1], f"40 lan hears {A} malformed frame checksum")
        link.hear(1, A, joins(OWN, STAR))
        self.assertEqual(link.lines[-2], f"40 lan hears {A} applied")
        self.assertRegex(link.lines[-1], "^40 up0 sends change 23[0-9a-f]+$")

    def test_broken_links(self) -> None:
        link = self.meet(A)
        link.broken[0] = OSError(100, "Network is down")
        self.assertEqual(link.pass_to(30_000), [("lan", hello())])
        self.assertEqual(link.lines[-2], "30000 up0 fault hello: network is down")
        link.speaker.fails(0, "hears", link.broken[0])
        self.assertEqual(link.lines[-1], "30000 up0 fault hears: network is down")
        link.speaker.goodbye()
        self.assertEqual(link.sent(), [("lan", hello(0))])


class IPv6(OnLinks):
    """The same over IPv6, whose checksum covers the sender's address."""

    OWN, UP, A, B = "fe80::1", "fe80::2", "fe80::3", "fe80::4"
    STAR, GROUP = Entry("star", "2001:db8::9"), "ff0e::1"

    def text(self, sent: Tuple[str, Message]) -> Tuple[str, str]:
        """What was sent, with short addresses."""
        long = r"[0-9a-f]{4}(:[0-9a-f]{4}){7}"
        short = re.sub(long, lambda it: ipaddress.ip_address(it[0]).compressed, str(sent[1]))
        return sent[0], short

    def test_all(self) -> None:
        ports = (Port("up0", self.OWN), Port("lan", self.OWN))
        via = Route("via", "::/0", "FE80:0::2", "--upstream")
        link = self.begin(Configuration(ports, (Route("rp", "ff00::/8", "2001:db8::9", "r"), via)))
        for port, neighbour in ((1, self.A), (1, self.B), (0, self.UP)):
            link.hear(port, neighbour, hello())
        [sent] = link.hear(1, self.A, joins(self.OWN, self.STAR, group=self.GROUP))
        expected = joins(self.UP, self.STAR, group=self.GROUP)
        self.assertEqual(self.text(sent), ("up0", str(expected)))
        link.hear(1, self.A, prunes(self.OWN, self.STAR, group=self.GROUP))
        [sent, _] = link.pass_to(3_000)
        expected = prunes(self.OWN, self.STAR, group=self.GROUP)
        self.assertEqual(self.text(sent), ("lan", str(expected)))


class Words(unittest.TestCase):
    def refused(self, *words: str) -> str:
        with self.assertRaises(PimtreeFault) as caught:
            speak.read(words)
        return str(caught.exception)

    def file(self, text: bytes) -> str:
        """A file of routes."""
        with tempfile.NamedTemporaryFile(delete=False) as file:
            self.addCleanup(os.unlink, file.name)
            file.write(text)
        return file.name

    def test_all(self) -> None:
        file = self.file(b"# RPs\n\nrp 239.0.0.0/8 10.9.9.8\nvia 192.0.2.0/24 10.0.1.9")
        words = ["--upstream", UP, f"--rp={RP}", "--routes", file, "--hello", "5", f"up0={OWN_UP}"]
        rows = (
            *ROUTES,
            Route("rp", "239.0.0.0/8", "10.9.9.8", f"file {file} line 3"),
            Route("via", "192.0.2.0/24", "10.0.1.9", f"file {file} line 4"),
        )
        expected = Configuration([PORTS[0], PORTS[1]], tuple(sorted(rows, key=rows.index)), 5)
        self.assertEqual(speak.read([*words, f"lan={OWN}"]), expected)
        self.assertEqual(expected.upstreams(), [UP, "10.0.1.9"])

    def test_none(self) -> None:
        self.assertEqual(speak.read([f"lan={OWN}"]), Configuration([PORTS[1]], (), 30))
        six = speak.read(["--rp=::9", "--upstream=fe80::2", "lan=fe80::1"])
        prefixes = [(it.kind, it.prefix) for it in six.routes]
        self.assertEqual(prefixes, [("rp", "ff00::/8"), ("via", "::/0")])

    def test_faults(self) -> None:
        self.assertEqual(self.refused(), "no INTERFACE=ADDRESS")
        self.assertEqual(self.refused("lan"), "word lan: not INTERFACE=ADDRESS")
        self.assertEqual(self.refused("--all", "lan=::1"), "word --all: not INTERFACE=ADDRESS")
        self.assertEqual(self.refused("--limit", "5"), "word --limit: not INTERFACE=ADDRESS")
        self.assertEqual(self.refused("lan=x"), "address x")
        self.assertEqual(self.refused(f"lan={OWN}@file"), f"address {OWN}@file")
        self.assertEqual(self.refused(f"a={OWN}", f"a={UP}"), "an interface has two words")
        self.assertEqual(self.refused("--rp", "x", f"lan={OWN}"), "address x")
        self.assertEqual(self.refused("--upstream=", f"lan={OWN}"), "address ")
        self.assertEqual(self.refused("--rp"), "--rp needs a value")
        for word in ("0", "18001", "05", "1.5", "", "\u0665"):
            expected = f"--hello {word}: not 1 to 18000"
            self.assertEqual(self.refused(f"--hello={word}", f"lan={OWN}"), expected)

    def test_faults_of_files(self) -> None:
        rows = b"via 10.0.0.0/8", b"to 10.0.0.0/8 10.0.1.1", b"rp  239.0.0.0/8 10.9.9.9", b"\xff"
        for row in rows:
            file = self.file(b"#\n" + row + b"\n")
            expected = f"file {file} line 2: neither `rp PREFIX/LENGTH ADDRESS` nor `via ..`"
            self.assertEqual(self.refused("--routes", file, f"lan={OWN}"), expected)

    def started(self, *words: str) -> str:
        """The fault of a speaker with these words, which the session finds."""
        with Session() as session, self.assertRaises(PimtreeFault) as caught:
            Speaker(session, speak.read(words), int, lambda *_: None, print)
        return str(caught.exception)

    def test_faults_of_the_session(self) -> None:
        file = self.file(b"via 10.0.0.0/8 10.0.1.9\nrp 10.0.0.0/8 10.9.9.9\n")
        words = ["--routes", file, f"lan={OWN}"]
        self.assertEqual(self.started(*words), f"file {file} line 2: routes kind")
        self.assertEqual(self.started("--rp=230.0.0.1", f"lan={OWN}"), "--rp: routes kind")
        self.assertEqual(self.started(f"a={OWN}", "b=fe80::1"), "word b=fe80::1: family")


class HeardOnce:
    """A link that hears one message."""

    def __init__(self, source: str, message: Message) -> None:
        self._reader, self._writer = os.pipe()
        os.write(self._writer, b"x")
        self._packet = sockets.Packet(source, ALL, message.build(source))

    def fileno(self) -> int:
        return self._reader

    def receive(self) -> sockets.Packet:
        os.read(self._reader, 1)
        return self._packet

    def close(self) -> None:
        os.close(self._reader)
        os.close(self._writer)


class Serving(OnLinks):
    """The loop, with a pipe as standard input."""

    def setUp(self) -> None:
        reader, self.writer = os.pipe()
        standard_input = os.fdopen(reader)
        self.addCleanup(standard_input.close)
        patch = mock.patch("sys.stdin", standard_input)
        patch.start()
        self.addCleanup(patch.stop)

    def serve(self, link: Link, *links: sockets.Link, signals: int) -> List[str]:
        """What the loop prints until it ends."""
        with contextlib.redirect_stdout(io.StringIO()) as printed:
            speak._serve(link.speaker, links, lambda: link.now, signals)
        return printed.getvalue().splitlines()

    def test_packets_and_commands(self) -> None:
        link, heard = self.begin(), HeardOnce(UP, hello())
        self.addCleanup(heard.close)
        signals, quiet = os.pipe()
        os.write(self.writer, b"now\n\n# neighbours\nnonsense\nquit\nnow\n")
        printed = self.serve(link, heard, signals=signals)  # type: ignore[arg-type]
        self.assertEqual(printed, ["0", "ok", "fault word nonsense"])
        self.assertIn(f"0 up0 hears {UP} hello new", link.lines)
        for file in (signals, quiet, self.writer):
            os.close(file)

    def test_end_of_standard_input(self) -> None:
        link, (signals, quiet) = self.begin(), os.pipe()
        os.write(self.writer, b"now")
        os.close(self.writer)
        self.assertEqual(self.serve(link, signals=signals), ["0", "ok"])
        os.close(signals)
        os.close(quiet)

    def test_a_signal(self) -> None:
        link, (signals, comes) = self.begin(), os.pipe()
        os.write(comes, b"\x0f")
        self.assertEqual(self.serve(link, signals=signals), [])
        for file in (signals, comes, self.writer):
            os.close(file)


class Sockets(unittest.TestCase):
    def test_an_ip_header_with_options(self) -> None:
        message = hello().build(A)
        packet = support.ipv4(A, message)
        longer = bytes([0x46]) + packet[1:2] + (24 + len(message)).to_bytes(2, "big") + packet[4:20]
        link = sockets.Link.__new__(sockets.Link)
        for received in (packet, packet + b"padding", longer + bytes(4) + message + b"padding"):
            link._socket = mock.Mock(recv=mock.Mock(return_value=received))
            self.assertEqual(link.receive(), (A, ALL, message))

    def test_faults(self) -> None:
        said = "^interface no-such-one: there is none of this name$"
        with self.assertRaisesRegex(PimtreeFault, said):
            sockets.open_link("no-such-one", OWN)
        for error, said in (
            (PermissionError(1, "Operation not permitted"), "^raw sockets need root$"),
            (OSError(97, "Address family not supported"), "^interface lo: address family not"),
        ):
            with mock.patch("socket.socket", side_effect=error):
                with self.assertRaisesRegex(PimtreeFault, said):
                    sockets.open_link("lo", OWN)

    @unittest.skipUnless(shutil.which("ip"), "iproute2 isn't installed")
    def test_addresses(self) -> None:
        with mock.patch("socket.socket"):
            sockets.open_link("lo", "127.0.0.1")
            said = f"^interface lo: {OWN} isn't one of its addresses$"
            with self.assertRaisesRegex(PimtreeFault, said):
                sockets.open_link("lo", OWN)


class CommandLine(unittest.TestCase):
    def run_it(self, *words: str) -> "subprocess.CompletedProcess[str]":
        command = [sys.executable, "-m", "pimtree", "speak", *words]
        folder = os.path.join(support.TOP, "python")
        pipe = subprocess.PIPE
        return subprocess.run(
            command, cwd=folder, stdin=subprocess.DEVNULL, stdout=pipe, stderr=pipe, text=True
        )

    def test_faults(self) -> None:
        for words, fault in (
            ((), "no INTERFACE=ADDRESS"),
            (("no-such-one=10.0.0.1",), "interface no-such-one: there is none of this name"),
            (("--routes=gone", "lo=10.0.0.1"), "file gone: no such file or directory"),
        ):
            ran = self.run_it(*words)
            self.assertEqual((ran.returncode, ran.stdout), (2, ""))
            self.assertEqual(ran.stderr, f"pimtree: {fault}\n")

    def test_help(self) -> None:
        ran = self.run_it("--help")
        self.assertEqual((ran.returncode, ran.stderr), (0, ""))
        for option in speak.OPTIONS:
            self.assertIn(f"    {option} ", ran.stdout)
        for question in speak.QUESTIONS:
            self.assertIn(question, ran.stdout)


if __name__ == "__main__":
    unittest.main()
