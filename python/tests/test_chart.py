"""Charts: their rows, bars and marks, their titles, their axes, and what a person gets.

The rows that are expected here were worked out by hand from the lines of examples/*.trace."""
from __future__ import annotations

import io
import json
import os
import re
import shutil
import subprocess
import sys
import tempfile
import unittest
import warnings
import xml.etree.ElementTree as ElementTree
from typing import List, Sequence

import support

from pimtree import (
    Entry,
    GroupSet,
    Hello,
    JoinPrune,
    Message,
    PimtreeFault,
    arguments,
    chart,
    events,
)
from pimtree.chart_axis import Clock, Form, milliseconds
from pimtree.chart_rows import Row, Rows

OWN, A, B, G = "10.0.0.2", "10.0.0.7", "10.0.0.8", "239.1.1.1"
LAN = ["--rp", "10.9.9.9", "--after", "5000", "lan=10.0.0.2@examples/lan.pcap"]
LAN_UTC = ["--rp", "10.9.9.9", "--after", "5000", "--time", "utc", LAN[-1]]
SVG = "{http://www.w3.org/2000/svg}"


def run_chart(*words: str, data: bytes = b"") -> "subprocess.CompletedProcess[str]":
    """Runs the command at the top of the repository."""
    return subprocess.run(
        [sys.executable, "-m", "pimtree", "chart", *words],
        cwd=support.TOP,
        env={**os.environ, "PYTHONPATH": os.path.join(support.TOP, "python")},
        input=data.decode("latin-1"),
        encoding="latin-1",
        capture_output=True,
    )


def words_of(name: str) -> List[str]:
    """The words of an example's trace, with the whole path of its capture."""
    words = support.read(support.example(f"{name}.words")).split()[1:]
    return [it.replace("@", f"@{support.example('')}") for it in words]


def rows_of(words: Sequence[str]) -> List[Row]:
    """The rows of a trace."""
    made = Rows()
    with warnings.catch_warnings():
        warnings.simplefilter("ignore")
        for event, line in events.lines(words, io.BytesIO()):
            made.take(event, line)
    return made.in_order([port.name for port in arguments.read(words, {}).ports])


def described(row: Row) -> str:
    """A row with its bars and marks, in short."""
    bars = [f"{bar.state.value} {bar.begin}-{bar.end}" for bar in row.bars]
    marks = [f"{mark.sign.value} {mark.at}" for mark in row.marks]
    return ", ".join([row.label, *bars, *marks]).replace("None", "")


def titles_in(text: str) -> List[str]:
    """The titles of an SVG file."""
    return [it.text or "" for it in ElementTree.fromstring(text).iter(f"{SVG}title")]


def packet(source: str, message: Message) -> bytes:
    return support.ipv4(source, message.build(source))


def joins(group: str, count: int) -> GroupSet:
    """A set that joins the sources 192.0.0.0, 192.0.0.1 and so on."""
    sources = (f"192.0.{at // 256}.{at % 256}" for at in range(count))
    return GroupSet(group, tuple(Entry("source", it) for it in sources), ())


class InFolder(unittest.TestCase):
    def setUp(self) -> None:
        folder = tempfile.TemporaryDirectory()
        self.addCleanup(folder.cleanup)
        self.folder = folder.name
        self.addCleanup(os.chdir, os.getcwd())
        os.chdir(support.TOP)

    def path(self, name: str) -> str:
        return os.path.join(self.folder, name)

    def drawn(self, *words: str, ending: str = "svg") -> str:
        """The file that the command writes."""
        path = self.path(f"chart.{ending}")
        with warnings.catch_warnings():
            warnings.simplefilter("ignore")
            self.assertEqual(chart.main(["-o", path, *words]), 0)
        return support.read(path)

    def refused(self, *words: str, data: bytes = b"") -> str:
        """The line on standard error of a run that writes no file."""
        ran = run_chart(*words, data=data)
        self.assertEqual((ran.stdout, ran.returncode), ("", 2))
        left = [it for it in os.listdir(self.folder) if it.startswith("chart") or ".part" in it]
        self.assertEqual(left, [])
        return ran.stderr


class ExampleRows(unittest.TestCase):
    def check(self, words: Sequence[str], expected: Sequence[str]) -> None:
        self.assertEqual([described(it) for it in rows_of(words)], list(expected))

    def test_lan(self) -> None:
        self.check(words_of("lan"), [
            "port 0",
            "neighbour 10.0.0.7, known 0-, new 0",
            "neighbour 10.0.0.8, known 10-, new 10",
            "neighbour 10.0.0.9, known 20-, new 20",
            "group 239.1.1.1",
            "star 239.1.1.1, join 1000-2000, prune-pending 2000-3000, join 3000-, override 3000",
            "rpt 192.0.2.1 239.1.1.1, prune-pending 80000-83000, prune 83000-",
            "group 239.2.2.2",
            "star 239.2.2.2, join 10000-11000, prune-pending 11000-14000, echo 14000",
            "group 239.3.3.3",
            "source 192.0.2.5 239.3.3.3, join 15000-75000, expiry 75000",
        ])

    def test_ipv6(self) -> None:
        self.check(words_of("ipv6"), [
            "port 0",
            "neighbour fe80::7, known 0-2500, new 0, gone 2500",
            "neighbour fe80::9, known 5-, new 5, restarted 5000",
            "group ff0e::1:1",
            "star ff0e::1:1, join 1000-",
            "rpt 2001:db8::a ff0e::1:1, prune-pending 1000-4000, prune 4000-",
            "group ff0e::2:2",
            "source 2001:db8::b ff0e::2:2, join 1000-",
        ])

    def test_lost(self) -> None:
        self.check(words_of("lost"), [
            "port 0",
            "neighbour 10.0.0.9, known 0-, new 0,"
            " other 60100, other 120100, other 180100, other 240100",
            "group 239.1.1.1",
            "source 192.0.2.1 239.1.1.1, join 100-210100, expiry 210100",
        ])

    def test_fault(self) -> None:
        self.check(words_of("fault"), [
            "port 0, other 0, other 6",
            "neighbour 10.0.0.9, known 1-, new 1, other 2, other 3, other 4",
            "group 239.1.1.1",
            "star 239.1.1.1, join 6-",
        ])

    def test_ignored_joins(self) -> None:
        self.check(["--rp", "10.9.9.8", f"10.0.0.2@{support.example('fault.pcap')}"], [
            "port 0, other 0, other 6",
            "neighbour 10.0.0.9, known 1-, new 1, other 2, other 3, other 4",
            "group 239.1.1.1",
            "star 239.1.1.1, ignored 6",
        ])

    def test_a_filter_leaves_out_rows(self) -> None:
        self.check(["--group", "239.2.2.2", *words_of("lan")], [
            "port 0",
            "neighbour 10.0.0.7, known 0-, new 0",
            "neighbour 10.0.0.8, known 10-, new 10",
            "neighbour 10.0.0.9, known 20-, new 20",
            "group 239.2.2.2",
            "star 239.2.2.2, join 10000-11000, prune-pending 11000-14000, echo 14000",
        ])

    def test_the_state_at_the_end_is_not_drawn(self) -> None:
        for name in ("lan", "ipv6"):
            drawn = [described(it) for it in rows_of(words_of(name))]
            self.check(["--state", *words_of(name)], drawn)

    def test_refreshes(self) -> None:
        """With `--all` the packets have lines, too: each Join/Prune, the IGMP query, and the Join
        that refreshes."""
        rows = [described(it) for it in rows_of(["--all", *words_of("lan")])]
        self.assertEqual(rows[:6], [
            "port 0, other 20000",
            "neighbour 10.0.0.7, known 0-, new 0, other 1000, other 2000",
            "neighbour 10.0.0.8, known 10-, new 10, other 3000, other 80000",
            "neighbour 10.0.0.9, known 20-, new 20, other 10000, other 11000, other 15000",
            "group 239.1.1.1",
            "star 239.1.1.1, join 1000-2000, prune-pending 2000-3000, join 3000-,"
            " override 3000, refresh 80000",
        ])

    def test_what_was_there_before(self) -> None:
        self.check(["--from", "2500", "--group", G, *words_of("lan")], [
            "port 0",
            "group 239.1.1.1",
            "star 239.1.1.1, prune-pending -3000, join 3000-, override 3000",
            "rpt 192.0.2.1 239.1.1.1, prune-pending 80000-83000, prune 83000-",
        ])
        self.check(["--from", "2000", *words_of("ipv6")], [
            "port 0",
            "neighbour fe80::7, known -2500, gone 2500",
            "neighbour fe80::9, known -, restarted 5000",
            "group ff0e::1:1",
            "rpt 2001:db8::a ff0e::1:1, prune-pending -4000, prune 4000-",
        ])


class OtherRows(InFolder):
    def rows(self, packets: Sequence["tuple[int, bytes]"], *words: str) -> List[str]:
        path = support.write_capture(self.path("made.pcap"), packets)
        return [described(it) for it in rows_of([*words, f"{OWN}@{path}"])]

    def test_a_prune_at_once(self) -> None:
        """Where there is no other neighbour, nobody can override. The prune takes effect in the
        same millisecond, and the trace leaves out that it was pending (RFC 7761, 4.5.2)."""
        both = GroupSet(G, (Entry("source", "192.0.2.1"),), (Entry("rpt", "192.0.2.1"),))
        leave = GroupSet(G, (), (Entry("source", "192.0.2.1"),))
        packets = [
            (0, packet(A, Hello(holdtime=30, generation=1))),
            (100, packet(A, JoinPrune(OWN, 210, (both,)))),
            (5000, packet(A, JoinPrune(OWN, 210, (leave,)))),
        ]
        before = ["port 0", "neighbour 10.0.0.7, known 0-30000, new 0, expiry 30000"]
        machines = [
            "group 239.1.1.1",
            "source 192.0.2.1 239.1.1.1, join 100-5000",
            "rpt 192.0.2.1 239.1.1.1, prune 100-210100, expiry 210100",
        ]
        self.assertEqual(self.rows(packets, "--after", "300000"), before + machines)
        self.assertEqual(
            self.rows(packets, "--from", "50"),
            ["port 0", *machines[:2], "rpt 192.0.2.1 239.1.1.1, prune 100-"],
        )
        self.assertEqual(
            self.rows(packets, "--from", "2000")[1:],
            ["group 239.1.1.1", "source 192.0.2.1 239.1.1.1, join -5000"],
        )

    def test_own_restart_and_strangers(self) -> None:
        """A Goodbye of a neighbour that isn't known begins no bar."""
        packets = [
            (0, packet(OWN, Hello(holdtime=105, generation=1))),
            (10, packet(OWN, Hello(holdtime=105, generation=2))),
            (20, packet(B, Hello(holdtime=0, generation=1))),
            (30, packet(A, JoinPrune(OWN, 210, (joins(G, 1),)))),
        ]
        for words in ((), ("--from", "5")):
            self.assertEqual(
                self.rows(packets, *words),
                ["port 0, restarted 10, other 30", "neighbour 10.0.0.8, gone 20"],
            )

    def test_order(self) -> None:
        """Ports stand in the order of their words, and addresses in that of their values."""
        star, *sources = [
            Entry("star", "10.9.9.9"), Entry("source", "192.0.10.1"), Entry("source", "192.0.9.1")
        ]
        sets = tuple(GroupSet(it, (star, *sources), ()) for it in ("239.10.0.1", "239.9.0.1"))
        packets = [
            (0, packet("10.0.0.10", Hello(holdtime=105))),
            (1, packet("10.0.0.9", Hello(holdtime=105))),
            (2, packet("10.0.0.9", JoinPrune(OWN, 210, sets))),
        ]
        path = support.write_capture(self.path("made.pcap"), packets)
        rows = rows_of(["--rp", "10.9.9.9", f"z={OWN}@{path}", f"a=10.0.0.3@{path}"])
        self.assertEqual([it.label for it in rows], [
            "port z",
            "neighbour 10.0.0.9",
            "neighbour 10.0.0.10",
            "group 239.9.0.1",
            "star 239.9.0.1",
            "source 192.0.9.1 239.9.0.1",
            "source 192.0.10.1 239.9.0.1",
            "group 239.10.0.1",
            "star 239.10.0.1",
            "source 192.0.9.1 239.10.0.1",
            "source 192.0.10.1 239.10.0.1",
            "port a",
            "neighbour 10.0.0.9",
            "neighbour 10.0.0.10",
        ])


class Axes(unittest.TestCase):
    FIRST = 1_700_000_000_000
    """2023-11-14T22:13:20Z, as `date -u -d @1700000000` prints it."""

    def check(self, form: Form, begin: int, end: int, expected: Sequence[str]) -> None:
        """Compares the ticks of an axis that has room for 100 characters."""
        ticks = Clock(form, self.FIRST).ticks(begin, end, 100)
        self.assertEqual([" ".join([str(it.at), it.day, it.label]) for it in ticks], expected)

    def test_milliseconds(self) -> None:
        """Ticks of "40" need 4 characters each: 25 have room, at steps of 2."""
        self.check(Form.MS, 0, 40, [f"{it}  {it}" for it in range(0, 41, 2)])
        self.check(Form.MS, 6_001, 30_000, [f"{it}  {it}" for it in range(8_000, 30_001, 2_000)])
        self.check(Form.MS, 7, 7, ["7  7"])

    def test_seconds_since_1970(self) -> None:
        self.check(Form.EPOCH, 1, 2_000, [
            "500  1700000000.500",
            "1000  1700000001.000",
            "1500  1700000001.500",
            "2000  1700000002.000",
        ])
        self.check(Form.EPOCH, 0, 60_000, [
            "0  1700000000",
            "10000  1700000010",
            "20000  1700000020",
            "30000  1700000030",
            "40000  1700000040",
            "50000  1700000050",
            "60000  1700000060",
        ])

    def test_dates(self) -> None:
        self.check(Form.UTC, 0, 85_000, [
            "10000 2023-11-14 22:13:30",
            "40000  22:14:00",
            "70000  22:14:30",
        ])
        self.check(Form.UTC, 6_000_000, 7_200_000, [
            "6100000 2023-11-14 23:55:00",
            "6400000 2023-11-15 00:00:00",
            "6700000  00:05:00",
            "7000000  00:10:00",
        ])
        self.check(Form.UTC, 0, 3, [
            "0 2023-11-14 22:13:20.000",
            "1  22:13:20.001",
            "2  22:13:20.002",
            "3  22:13:20.003",
        ])

    def test_moments(self) -> None:
        moments = {
            Form.MS: "2500",
            Form.EPOCH: "1700000002.500",
            Form.UTC: "2023-11-14T22:13:22.500Z",
        }
        for form, moment in moments.items():
            self.assertEqual(Clock(form, self.FIRST).moment(2_500), moment)
            self.assertEqual(milliseconds(moment, self.FIRST), 2_500)
        self.assertEqual(milliseconds("2023-11-14T22:13:22Z", self.FIRST), 2_000)
        self.assertEqual(milliseconds("1700000002.5", self.FIRST), 2_500)


class Pictures(InFolder):
    def check_titles(self, name: str, *more: str) -> None:
        """Each title is made of lines of the trace, and each line but the last is in a title."""
        words = [*more, *words_of(name)]
        ran = subprocess.run([support.PROGRAM, "trace", *words], capture_output=True)
        lines = ran.stdout.decode().splitlines()
        titles = titles_in(self.drawn(*words))
        self.assertEqual({it for title in titles for it in title.split("\n")}, set(lines[:-1]))
        self.assertEqual(set(map(len, map(str.splitlines, titles))) - {1, 2}, set())

    def test_titles(self) -> None:
        for name in ("lan", "ipv6", "lost", "fault"):
            with self.subTest(name):
                self.check_titles(name)
                self.check_titles(name, "--all", "--time", "utc")

    def test_titles_of_a_machine(self) -> None:
        """The lines are those of examples/lan.trace."""
        before = "2000 0 #5 10.0.0.7 prunes star 239.1.1.1: join -> prune-pending,"
        join = "1000 0 #4 10.0.0.7 joins star 239.1.1.1: no-info -> join, et 210000"
        prune = f"{before} et 209000, ppt 3000, 3 neighbours"
        override = (
            "3000 0 #6 10.0.0.8 joins star 239.1.1.1: prune-pending -> join,"
            " et 210000, overrides #5"
        )
        titles = titles_in(self.drawn("--at", "5000", *LAN[:2], "10.0.0.2@examples/lan.pcap"))
        self.assertEqual(
            titles[-4:],
            [f"{join}\n{prune}", f"{prune}\n{override}", override, override],
        )

    def test_places(self) -> None:
        """85 s are 720 pixels wide."""
        root = ElementTree.fromstring(self.drawn(*LAN))
        bars = [it.attrib for it in root.iter(f"{SVG}rect") if "data-begin" in it.attrib]
        found = [(it["class"], float(it["x"]), float(it["width"])) for it in bars]
        self.assertEqual(found, [
            ("known", 0.0, 720.0),
            ("known", 0.1, 719.9),
            ("known", 0.2, 719.8),
            ("join", 8.5, 8.4),
            ("prune-pending", 16.9, 8.5),
            ("join", 25.4, 694.6),
            ("prune-pending", 677.6, 25.5),
            ("prune", 703.1, 16.9),
            ("join", 84.7, 8.5),
            ("prune-pending", 93.2, 25.4),
            ("join", 127.1, 508.2),
        ])

    def test_marks_of_weight_are_on_top(self) -> None:
        """The first Join/Prune message comes 100 ms after the Hello that is new."""
        root = ElementTree.fromstring(self.drawn("--all", "10.0.0.2@examples/lost.pcap"))
        marks = [it.get("class") for it in root.iter(f"{SVG}path") if "data-at" in it.attrib]
        self.assertEqual(marks[:2] + marks[-3:], [
            "mark other", "mark refresh", "mark other", "mark new", "mark expiry",
        ])

    def test_a_bar_of_no_time(self) -> None:
        """It is wide enough to be seen."""
        text = self.drawn("--rp", "10.9.9.9", "10.0.0.2@examples/fault.pcap")
        self.assertIn('width="2" height="12" data-begin="6" data-end="6">', text)

    def test_what_was_there_before(self) -> None:
        words = ["--group", G, *LAN[:2], "10.0.0.2@examples/lan.pcap"]
        for since in ("2500", "1700000002.5", "2023-11-14T22:13:22.5Z"):
            root = ElementTree.fromstring(self.drawn("--from", since, *words))
            bar = next(it for it in root.iter(f"{SVG}rect") if "data-begin" in it.attrib)
            mark = next(it for it in root.iter(f"{SVG}path") if "data-at" in it.attrib)
            self.assertEqual((bar.get("data-begin"), bar.get("data-end")), ("2500", "3000"))
            self.assertEqual((mark.get("class"), mark.get("data-at")), ("mark before", "2500"))
            title = "in prune-pending since before 2500"
            self.assertEqual(mark[0].text, title)
            self.assertEqual((bar[0].text or "").split("\n")[0], title)
        early = self.drawn("--from", "1970-01-02T00:00:00Z", *LAN).split("</style>")[1]
        self.assertEqual(early, self.drawn(*LAN).split("</style>")[1].replace(
            "pimtree trace --rp", "pimtree trace --from 1970-01-02T00:00:00Z --rp"
        ))
        text = self.drawn("--from", "2000", "--time", "utc", "fe80::2@examples/ipv6.pcap")
        self.assertIn("known since before 2023-11-14T22:13:22.000Z", titles_in(text))

    def test_nothing(self) -> None:
        """No record at all, and no event since a moment after the end."""
        path = support.write_capture(self.path("none.pcap"), [])
        late = ["--from", "2100-01-01T00:00:00Z", "10.0.0.2@examples/lan.pcap"]
        for words in ([f"{OWN}@{path}"], ["--time", "utc", f"{OWN}@{path}"], late):
            for ending in ("svg", "html"):
                text = self.drawn(*words, ending=ending)
                self.assertIn("no machines and no neighbours", text)
                self.assertNotIn("<script>", text)
            self.assertEqual(titles_in(self.drawn(*words)), [])

    def test_a_cut_file(self) -> None:
        path = self.path("chart.svg")
        ran = run_chart("-o", path, "--rp", "10.9.9.9", "10.0.0.2@examples/fault.pcap")
        warning = "pimtree: warning: examples/fault.pcap ends inside record 8\n"
        self.assertEqual((ran.stderr, ran.returncode), (warning, 0))
        self.assertTrue(os.path.exists(path))

    def test_names(self) -> None:
        """The name of a file may have any character, those without a place in XML included."""
        path = self.path("a<&\"'>\1\x7f\n</script>".replace("/", "\u2215") + ".pcap")
        shutil.copy(support.example("lan.pcap"), path)
        text = self.drawn(f"{OWN}@{path}")
        heading = next(
            it.text or ""
            for it in ElementTree.fromstring(text).iter(f"{SVG}text")
            if it.get("class") == "heading"
        )
        self.assertTrue(heading.startswith("pimtree trace '10.0.0.2@"), heading)
        self.assertNotIn("<&", self.drawn(f"{OWN}@{path}", ending="html"))

    def test_stored_pictures(self) -> None:
        """Both were looked at in a browser (tools/try_chart.sh)."""
        stored = {
            "docs/chart.svg": "svg",
            "python/tests/data/chart_lan.html": "html",
        }
        for name, ending in stored.items():
            command = f"PYTHONPATH=python python3 -m pimtree chart -o {name} {' '.join(LAN_UTC)}"
            with self.subTest(f"the command that makes it anew: {command}"):
                path = os.path.join(support.TOP, name)
                self.assertEqual(self.drawn(*LAN_UTC, ending=ending), support.read(path))


class Pages(InFolder):
    def script(self, page: str) -> str:
        found = re.search(r"<script>\n(.*)</script>\n</body>\n</html>\n$", page, re.S)
        assert found is not None
        return found[1]

    def test_the_same_rows(self) -> None:
        """The page has the elements of the picture."""
        page = self.drawn(*LAN_UTC, ending="html")
        start, end = page.index('<svg id="body"'), page.index("<script>")
        body = page[start:end].replace("<svg", f'<svg xmlns="{SVG[1:-1]}"', 1)
        titles = titles_in(self.drawn(*LAN_UTC))
        self.assertEqual(titles_in(body), titles)

    def test_numbers(self) -> None:
        """The capture begins at 1700000000 s, and the run ends after 85 s."""
        script = self.script(self.drawn(*LAN_UTC, ending="HTM"))
        numbers = json.loads(script.split("const chart = ")[1].split(";\n")[0])
        found = [numbers[name] for name in ("begin", "end", "form", "zero")]
        self.assertEqual(found, [0, 85_000, "utc", 1_700_000_000_000])

    def test_no_network(self) -> None:
        page = self.drawn(*LAN_UTC, ending="html")
        self.assertEqual(re.findall(r"https?:|\bsrc=|\bhref=|@import|url\((?!#)", page), [])
        self.assertIn("default-src 'none'", page)

    @unittest.skipUnless(shutil.which("node"), "node isn't installed")
    def test_the_script_parses(self) -> None:
        path = self.path("script.js")
        with open(path, "w", encoding="utf-8") as file:
            file.write(self.script(self.drawn(*LAN_UTC, ending="html")))
        ran = subprocess.run(["node", "--check", path], capture_output=True, text=True)
        self.assertEqual((ran.stderr, ran.returncode), ("", 0))


class Commands(InFolder):
    def many(self, *counts: int) -> str:
        """A capture with joins of as many sources of one group after another."""
        packets = [(0, packet(A, Hello(holdtime=105)))]
        for place, count in enumerate(counts):
            message = JoinPrune(OWN, 210, (joins(f"239.1.1.{place + 1}", count),))
            packets.append((1000, packet(A, message)))
        return f"{OWN}@{support.write_capture(self.path('many.pcap'), packets)}"

    def test_standard_input(self) -> None:
        with open(support.example("lan.pcap"), "rb") as file:
            data = file.read()
        path = self.path("chart.svg")
        ran = run_chart("-o", path, *LAN[:-1], "lan=10.0.0.2@-", data=data)
        self.assertEqual((ran.stderr, ran.returncode), ("", 0))
        self.assertEqual(titles_in(support.read(path)), titles_in(self.drawn(*LAN)))

    def test_own_options(self) -> None:
        png, svg = self.path("chart.png"), self.path("chart.svg")
        cases = {
            (*LAN,): "-o FILE is missing: a chart is a file .svg or .html",
            (*LAN, "-o"): "-o needs a value",
            ("-o", png, *LAN): f"-o {png}: the name ends with none of .svg, .html, .htm",
            ("-o", svg, "--json", *LAN): "--json: a chart is SVG or HTML, by the ending of -o FILE",
            ("-o", svg, "--time", "noon", *LAN): "word noon",
            ("-o", svg, "--from", "noon", *LAN): "word noon",
            ("-o", svg): "config ports",
            ("-o", svg, "10.0.0.2@missing.pcap"): "file missing.pcap: no such file",
            ("-o", svg, "10.0.0.2@README.md"): "capture magic in README.md",
        }
        for words, fault in cases.items():
            with self.subTest(fault):
                self.assertEqual(self.refused(*words), f"pimtree: {fault}\n")

    def test_a_file_that_cannot_be_written(self) -> None:
        path = self.path("nowhere/chart.svg")
        line = f"pimtree: file {path}: no such file or directory\n"
        self.assertEqual(self.refused("-o", path, *LAN), line)

    def test_a_directory_in_its_place(self) -> None:
        path = self.path("folder.svg")
        os.mkdir(path)
        self.assertEqual(self.refused("-o", path, *LAN), f"pimtree: file {path}: is a directory\n")

    def test_a_link(self) -> None:
        path = self.path("link.svg")
        os.symlink("chart.svg", path)
        self.assertEqual(chart.main(["-o", path, *LAN]), 0)
        self.assertEqual(os.readlink(path), "chart.svg")
        self.assertEqual(support.read(self.path("chart.svg")), self.drawn(*LAN))

    def test_a_fault_before_the_first_event(self) -> None:
        """An older file stays as it is."""
        path = self.path("old.svg")
        with open(path, "w", encoding="utf-8") as file:
            file.write("old")
        self.refused("-o", path, "10.0.0.2@missing.pcap")
        self.assertEqual((support.read(path), os.listdir(self.folder)), ("old", ["old.svg"]))

    def test_a_fault_inside_a_capture(self) -> None:
        """A record above 262,144 bytes, at 90 s, is a fault. What came before it is drawn; the
        bars end at the last event, at 80 s."""
        with open(support.example("lan.pcap"), "rb") as file:
            data = file.read()
        path, made = self.path("chart.svg"), self.path("made.pcap")
        with open(made, "wb") as file:
            file.write(data + support.record(90_000, bytes(262_145)))
        ran = run_chart("-o", path, "--rp", "10.9.9.9", f"{OWN}@{made}")
        self.assertEqual((ran.stdout, ran.returncode), ("", 2))
        self.assertEqual(ran.stderr, f"pimtree: capture too-long in {made} at record 12\n")
        bars = [it for it in ElementTree.parse(path).iter(f"{SVG}rect") if "data-end" in it.attrib]
        self.assertEqual([it.get("data-end") for it in bars], [
            *["80000"] * 3, "2000", "3000", "80000", "80000", "11000", "14000", "75000",
        ])
        self.assertEqual(sorted(os.listdir(self.folder)), ["chart.svg", "made.pcap"])

    def test_many_rows(self) -> None:
        """Above the sources are the port, the neighbour and the group."""
        self.assertEqual(len(self.rows_drawn(self.many(1_997))), 2_000)
        with self.assertRaises(PimtreeFault) as caught:
            self.drawn(self.many(1_998))
        words = "chart has 2001 rows, of at most 2000: --source shows one source (192.0.0.0 has 1)"
        self.assertEqual(caught.exception.words, words)

    def test_too_many_rows(self) -> None:
        """The filters that are named help. A group's rows are its own one and its machines."""
        path, port = self.path("chart.svg"), self.many(2_000, 40, 41)
        words = "--group shows one group (239.1.1.3 has 42), --source shows one source"
        line = self.refused("-o", path, port)
        self.assertEqual(
            line,
            "pimtree: chart has 2086 rows, of at most 2000:"
            f" {words} (192.0.0.0 has 3)\n",
        )
        self.assertEqual(len(self.rows_drawn("--group", "239.1.1.3", port)), 2 + 42)
        self.assertEqual(len(self.rows_drawn("--source", "192.0.0.0", port)), 2 + 6)

    def rows_drawn(self, *words: str) -> List[str]:
        return re.findall(r'class="row ', self.drawn(*words))

    def test_help(self) -> None:
        ran = run_chart("--help")
        self.assertEqual((ran.stderr, ran.returncode), ("", 0))
        self.assertIn("usage: python3 -m pimtree chart -o FILE", ran.stdout)
        self.assertLessEqual(max(map(len, ran.stdout.splitlines())), 100)
