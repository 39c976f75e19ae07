#!/usr/bin/env python3
"""Checks a live speaker between three FRR routers. As root, some three minutes:

    PIMTREE=out/pimtree tools/live_frr.py [--keep]

It needs Debian's frr and iproute2. All is in network namespaces of its own, which no packet leaves:

    s --- u --- e ---+--- d1 --- h1
                     `--- d2 --- h2

e is `python3 -m pimtree speak`; u, d1 and d2 are FRR, and u is the RP. e, d1 and d2 share a link.
h1 and h2 receive, and s sends. d1 reaches s by a link of its own to u. e forwards no packets but
those of one scenario, by a fixed row of the kernel.

Each check waits until it holds, and has a line: `ok NAME` or `FAIL NAME ..`. The last line is
`N passed, M failed`, and the status is 1 if one failed. With --keep the captures and logs stay in
/run/pimtree-live, which the next run empties.
"""
from __future__ import annotations

import contextlib
import glob
import ipaddress
import json
import os
import queue
import re
import shutil
import signal
import socket
import subprocess
import sys
import threading
import time
import warnings
from typing import Any, Callable, Dict, Iterator, List, NamedTuple, Sequence, Set, Tuple

TOOLS = os.path.dirname(os.path.abspath(__file__))
PYTHON = os.path.join(os.path.dirname(TOOLS), "python")
sys.path.insert(0, PYTHON)

import pimtree  # noqa: E402
from pimtree.program import find  # noqa: E402

FOLDER, PREFIX = "/run/pimtree-live", "pimtree-"
SPACES = ("u", "e", "link", "d1", "d2", "h1", "h2", "s")
RP, UPSTREAM, OWN_UP, OWN = "10.255.0.1", "10.0.1.1", "10.0.1.2", "10.0.50.1"
D1, D2, SENDER = "10.0.50.11", "10.0.50.12", "10.1.1.100"
SHARED = "lan"
"""The interfaces of the shared link."""
DAEMONS = "/usr/lib/frr"


class End(NamedTuple):
    """An end of a link."""

    space: str
    interface: str
    address: str


LINKS = (
    (End("s", "eth0", f"{SENDER}/24"), End("u", "s0", "10.1.1.1/24")),
    (End("u", "dn0", f"{UPSTREAM}/24"), End("e", "up0", f"{OWN_UP}/24")),
    (End("u", "x0", "10.0.2.1/24"), End("d1", "x0", "10.0.2.2/24")),
    (End("d1", "h0", "10.11.0.1/24"), End("h1", "eth0", "10.11.0.100/24")),
    (End("d2", "h0", "10.12.0.1/24"), End("h2", "eth0", "10.12.0.100/24")),
)
SHARED_ENDS = [End(it, SHARED, f"{at}/24") for it, at in (("e", OWN), ("d1", D1), ("d2", D2))]
ROUTES = (
    ("s", "default", "10.1.1.1"),
    ("u", "10.0.50.0/24", OWN_UP),
    ("e", f"{RP}/32", UPSTREAM),
    ("e", "10.1.0.0/16", UPSTREAM),
    ("d1", f"{RP}/32", OWN),
    ("d1", "10.1.0.0/16", OWN),
    ("d1", f"{SENDER}/32", "10.0.2.1"),
    ("d2", f"{RP}/32", OWN),
    ("d2", "10.1.0.0/16", OWN),
    ("h1", "default", "10.11.0.1"),
    ("h2", "default", "10.12.0.1"),
)
FRR = {"u": ("lo", "dn0", "s0", "x0"), "d1": (SHARED, "h0", "x0"), "d2": (SHARED, "h0")}
"""The FRR routers, and the interfaces where they speak PIM."""
TO_HOSTS = ("s0", "h0")
FRR_REFRESH = 10
"""In seconds, so that what FRR asks expires after 35 s."""
STARS = [f"239.50.0.{number}" for number in range(1, 41)]
SOURCES = [f"232.50.0.{number},10.1.1.{101 + number % 5}" for number in range(1, 61)]
MOVES = "239.70.0.1"
"""The group of a source that leaves the shared tree."""


def output(*words: str) -> str:
    """What a command prints, which has to succeed."""
    ran = subprocess.run(words, stdout=subprocess.PIPE, stderr=subprocess.PIPE, text=True)
    if ran.returncode != 0:
        raise RuntimeError(f"{' '.join(words)}: {ran.stderr.strip()}")
    return ran.stdout


def inside(space: str, *words: str) -> List[str]:
    """A command inside a network namespace."""
    return ["ip", "netns", "exec", PREFIX + space, *words]


def ip(space: str, *words: str) -> None:
    """Lets `ip` change a network namespace."""
    output("ip", "-n", PREFIX + space, *words)


def make_space(space: str) -> None:
    output("ip", "netns", "add", PREFIX + space)
    for setting in ("ip_forward=1", "conf.all.rp_filter=0", "conf.default.rp_filter=0"):
        output(*inside(space, "sysctl", "-qw", f"net.ipv4.{setting}"))
    ip(space, "link", "set", "lo", "up")


def make_link(end: End, other_space: str, other_interface: str) -> None:
    peer = ("peer", "name", other_interface, "netns", PREFIX + other_space)
    ip(end.space, "link", "add", end.interface, "type", "veth", *peer)


def begin(end: End) -> None:
    """Gives an interface its address, and brings it up."""
    ip(end.space, "address", "add", end.address, "dev", end.interface)
    ip(end.space, "link", "set", end.interface, "up")


def make_shared_link() -> None:
    ip("link", "link", "add", "br0", "up", "type", "bridge", "mcast_snooping", "0")
    for end in SHARED_ENDS:
        make_link(end, "link", end.space)
        ip("link", "link", "set", end.space, "master", "br0", "up")


def make_network() -> None:
    for space in SPACES:
        make_space(space)
    for one, other in LINKS:
        make_link(one, other.space, other.interface)
    make_shared_link()
    for end in [*sum(LINKS, ()), *SHARED_ENDS, End("u", "lo", f"{RP}/32")]:
        begin(end)
    for space, prefix, via in ROUTES:
        ip(space, "route", "add", prefix, "via", via)


def kill(process: int) -> None:
    """Kills a process, and removes what a killed FRR leaves."""
    with contextlib.suppress(ProcessLookupError):
        os.kill(process, signal.SIGKILL)
    for folder in glob.glob(f"/var/tmp/frr/*.{process}"):
        shutil.rmtree(folder)


def remove_network() -> None:
    """Removes the namespaces that are there, with the processes in them."""
    for space in SPACES:
        if os.path.exists(f"/run/netns/{PREFIX}{space}"):
            for process in output("ip", "netns", "pids", PREFIX + space).split():
                kill(int(process))
            output("ip", "netns", "del", PREFIX + space)


def until(holds: Callable[[], bool], seconds: float) -> bool:
    """Waits for a condition at most these seconds, and says whether it holds."""
    end = time.monotonic() + seconds
    while not holds():
        if time.monotonic() > end:
            return False
        time.sleep(0.2)
    return True


Process = subprocess.Popen[str]


class Processes:
    """The processes in the namespaces."""

    def __init__(self) -> None:
        self._all: List[Process] = []

    def start(self, space: str, name: str, *words: str, is_piped: bool = False) -> Process:
        """Starts a process. What it says goes into a log, unless it is piped."""
        with open(f"{FOLDER}/{name}.log", "a") as log:
            process = subprocess.Popen(
                inside(space, *words),
                stdin=subprocess.PIPE if is_piped else subprocess.DEVNULL,
                stdout=subprocess.PIPE if is_piped else log,
                stderr=log,
                text=True,
                start_new_session=True,
            )
        self._all.append(process)
        return process

    def host(self, space: str, role: str, *words: str) -> Process:
        """Starts a role of `live_hosts.py`."""
        hosts = os.path.join(TOOLS, "live_hosts.py")
        return self.start(space, f"{space}-{role}", sys.executable, hosts, role, *words)

    def stop(self, process: Process) -> None:
        """Lets a process end, and ends it if it doesn't."""
        process.terminate()
        try:
            process.wait(10)
        except subprocess.TimeoutExpired:
            self.kill(process)

    def kill(self, process: Process) -> None:
        """Ends a process that can't say goodbye."""
        kill(process.pid)
        process.wait()

    def stop_all(self) -> None:
        """Lets all end."""
        for process in reversed(self._all):
            if process.poll() is None:
                self.stop(process)


def part_of(source: str, group: str) -> str:
    """What a join asks, in the words of a session."""
    return f"star {group}" if source == "*" else f"source {source} {group}"


class Frr:
    """An FRR router: its daemons zebra and pimd."""

    def __init__(self, processes: Processes, name: str) -> None:
        self._processes, self.name, self._folder = processes, name, f"{FOLDER}/{name}"
        os.makedirs(self._folder)
        shutil.chown(self._folder, "frr", "frr")
        for file, text in (("zebra", ""), ("pimd", self._configuration()), ("vtysh", "")):
            with open(f"{self._folder}/{file}.conf", "w") as target:
                target.write(text)
        self._daemon("zebra")
        until(lambda: os.path.exists(f"{self._folder}/zserv.api"), 30)
        self.start()

    def _configuration(self) -> str:
        lines = [f"ip pim rp {RP} 224.0.0.0/4", f"ip pim join-prune-interval {FRR_REFRESH}"]
        for interface in FRR[self.name]:
            lines += [f"interface {interface}", " ip pim", " ip pim hello 10 35"]
            lines += [" ip igmp"] if interface in TO_HOSTS else []
        return "\n".join([*lines, ""])

    def _daemon(self, name: str) -> Process:
        folder = self._folder
        words = ["-u", "frr", "-g", "frr", "-A", "127.0.0.1", "-P", "0", "--log", "stdout"]
        words += ["-f", f"{folder}/{name}.conf", "-i", f"{folder}/{name}.pid"]
        words += ["--vty_socket", folder, "-z", f"{folder}/zserv.api"]
        log = f"{self.name}-{name}"
        return self._processes.start(self.name, log, f"{DAEMONS}/{name}", *words)

    def start(self) -> None:
        """Starts pimd."""
        self._pimd = self._daemon("pimd")

    def kill(self) -> None:
        """Kills pimd."""
        self._processes.kill(self._pimd)

    def _show(self, what: str) -> Dict[str, Any]:
        """What `show ip pim` says; nothing while pimd isn't ready."""
        words = ["--vty_socket", self._folder, "--config_dir", self._folder, "-d", "pimd"]
        words += ["-c", f"show ip pim {what} json"]
        shown = subprocess.run(["vtysh", *words], stdout=subprocess.PIPE, stderr=subprocess.PIPE)
        try:
            return dict(json.loads(shown.stdout))
        except ValueError:
            return {}

    def neighbours(self) -> Set[str]:
        """Its neighbours' addresses."""
        return {address for link in self._show("neighbor").values() for address in link}

    def asks(self) -> Set[str]:
        """What it joins on the shared link."""
        return {
            part_of(source, group)
            for group, sources in self._show("upstream").items()
            for source, said in sources.items()
            if (said["joinState"], said["inboundInterface"]) == ("Joined", SHARED)
        }

    def _machines(self, interface: str) -> Iterator[Tuple[str, str, Dict[str, Any]]]:
        """The source, the group and the members of each downstream machine."""
        for group, sources in self._show("join").get(interface, {}).items():
            if isinstance(sources, dict):
                yield from ((source, group, said) for source, said in sources.items())

    def holds(self, interface: str) -> Set[str]:
        """What its neighbours on an interface ask of it."""
        found = set()
        for source, group, said in self._machines(interface):
            if said["channelJoinName"] == "JOIN":
                found.add(part_of(source, group))
            elif said["channelJoinName"] == "SGRpt(P)":
                found.add(f"except {source} {group}")
        return found

    def ends(self, interface: str) -> Dict[str, float]:
        """When each downstream machine of an interface expires, in seconds."""
        found = {}
        for source, group, said in self._machines(interface):
            left = re.fullmatch(r"(\d+):(\d+)", said["expire"])
            if left:
                end = time.monotonic() + int(left[1]) * 60 + int(left[2])
                found[part_of(source, group)] = end
        return found


class Speaker:
    """A speaker, a process with `python3 -m pimtree speak`."""

    def __init__(self, processes: Processes, space: str, *words: str) -> None:
        command = [sys.executable, "-m", "pimtree", "speak", "--hello", "10", *words]
        self.process = processes.start(space, f"{space}-speak", *command, is_piped=True)
        self.lines: List[str] = []
        """What it heard and sent."""
        self._log = f"{FOLDER}/{space}-speak.lines"
        self._answers: "queue.Queue[str]" = queue.Queue()
        threading.Thread(target=self._read, daemon=True).start()

    def _read(self) -> None:
        assert self.process.stdout is not None
        with open(self._log, "a") as log:
            for line in self.process.stdout:
                if re.match(r"\d+ \w+ (hears|sends|fault) ", line):
                    print(line, end="", file=log, flush=True)
                    self.lines.append(line.rstrip())
                else:
                    self._answers.put(line.rstrip())

    def log(self) -> List[str]:
        """What all speakers of this network namespace heard and sent."""
        with open(self._log) as log:
            return log.read().splitlines()

    def tell(self, line: str) -> None:
        """Writes a line to its standard input."""
        print(line, file=self.process.stdin, flush=True)

    def ask(self, question: str) -> List[str]:
        """The lines of an answer."""
        self.tell(question)
        try:
            return list(iter(lambda: self._answers.get(timeout=30), "ok"))
        except queue.Empty:
            raise RuntimeError(f"no answer to {question}") from None

    def neighbours(self) -> Set[str]:
        """Its neighbours' addresses."""
        rows = [line.split() for line in self.ask("neighbours")]
        return {ipaddress.ip_address(row[3]).compressed for row in rows}

    def wants(self) -> Set[str]:
        """What it asks of its upstream neighbour."""
        return {re.sub("^want | via .*", "", line) for line in self.ask("wants")}

    def ends(self) -> Dict[str, float]:
        """When each of its machines expires, in seconds."""
        now, rows = int(self.ask("now")[0]), [line.split() for line in self.ask("state")]
        return {" ".join(row[2:-5]): (now + int(row[-3])) / 1000 for row in rows}

    def echoed(self) -> Set[str]:
        """The groups of its PruneEchoes for (*,G)."""
        rows = [it.split() for it in self.lines if " sends echo " in it]
        messages = [pimtree.Message.check(bytes.fromhex(it[-1])) for it in rows]
        star = (pimtree.Entry("star", RP),)
        return {
            group_set.group
            for message in messages
            if isinstance(message, pimtree.JoinPrune)
            for group_set in message.sets
            if group_set.pruned == star
        }


class Checks:
    """Counts the checks, and prints a line for each."""

    def __init__(self) -> None:
        self.passed = self.failed = 0

    def count(self, holds: bool, words: str) -> None:
        """Counts a check, and prints its line."""
        self.passed, self.failed = self.passed + holds, self.failed + (not holds)
        print("ok" if holds else "FAIL", words, flush=True)

    def until(self, name: str, holds: Callable[[], bool], seconds: float = 60) -> None:
        """Checks that a condition comes to hold."""
        self.count(until(holds, seconds), name)

    def agree(
        self, name: str, ours: Callable[[], Set[str]], theirs: Callable[[], Set[str]], count: int
    ) -> None:
        """Checks that two sets come to be equal and have this number of entries."""
        if until(lambda: len(ours()) == count and ours() == theirs(), 90):
            self.count(True, f"{name} ({count} entries)")
        else:
            one, other = ours(), theirs()
            words = f"ours only {sorted(one - other)} theirs only {sorted(other - one)}"
            self.count(False, f"{name}: {words} both {len(one & other)} of {count}")


class Lab:
    """The routers, the speaker, and their checks."""

    def __init__(self, processes: Processes, checks: Checks) -> None:
        self.processes, self.checks = processes, checks
        self._capture = f"{FOLDER}/shared.pcap"
        processes.host("d1", "capture", SHARED, self._capture)
        processes.host("u", "capture", "dn0", f"{FOLDER}/upstream.pcap")
        until(lambda: os.path.exists(self._capture), 30)
        self.u, self.d1, self.d2 = (Frr(processes, name) for name in FRR)
        self.speaker = self.speak()
        self.leaving: List[Process] = []

    def speak(self) -> Speaker:
        """Starts the speaker of e."""
        routes = ("--rp", RP, "--upstream", UPSTREAM)
        return Speaker(self.processes, "e", *routes, f"up0={OWN_UP}", f"{SHARED}={OWN}")

    def receive(self, host: str, words: Sequence[str]) -> Process:
        """Lets a host receive groups, or sources of groups, until its process ends."""
        return self.processes.host(host, "join", "eth0", *words)

    def captured(self) -> List[pimtree.Event]:
        """The trace of the shared link, captured at d1."""
        with warnings.catch_warnings():
            warnings.simplefilter("ignore")
            return list(pimtree.trace(f"{OWN}@{self._capture}", rp=RP, everything=True))

    def joins(self) -> Set[str]:
        """What the speaker asks of its upstream neighbour, without exceptions."""
        return {it for it in self.speaker.wants() if not it.startswith("except ")}

    def asked(self) -> Set[str]:
        """What FRR asks of the speaker."""
        return self.d1.asks() | self.d2.asks()

    def held(self) -> Set[str]:
        """What FRR's upstream router holds of the speaker."""
        return self.u.holds("dn0")

    def agree(self, name: str, joins: int, exceptions: int = 0) -> None:
        """Checks that we ask what FRR asks of us, and that FRR upstream holds what we ask."""
        wants, count = self.speaker.wants, joins + exceptions
        self.checks.agree(f"{name}: FRR's demand is ours", self.joins, self.asked, joins)
        self.checks.agree(f"{name}: FRR upstream holds it", wants, self.held, count)


def meet(lab: Lab) -> None:
    """All become neighbours."""
    for router, own in ((lab.u, OWN_UP), (lab.d1, OWN), (lab.d2, OWN)):
        lab.checks.until(f"FRR {router.name} has us", lambda: own in router.neighbours())
    known = {UPSTREAM, D1, D2}
    lab.checks.until("we have the three FRR routers", lambda: lab.speaker.neighbours() == known)


def is_override(event: pimtree.Event) -> bool:
    """Whether a join of d2 undid a prune."""
    if not isinstance(event, pimtree.Transition):
        return False
    return (event.by, event.sender) == ("join", D2) and event.overrides is not None


def is_echo(event: pimtree.Event) -> bool:
    """Whether the speaker prunes one entry of its own."""
    if not isinstance(event, pimtree.PacketHeard):
        return False
    return (event.sender, event.upstream, event.joined, event.pruned) == (OWN, OWN, 0, 1)


def prune(lab: Lab) -> None:
    """A prune is overridden, and another isn't."""
    first = lab.receive("h1", STARS[:1])
    lab.agree("d1 joins (*,G)", 1)
    second = lab.receive("h2", STARS[:2])
    lab.agree("d2 joins it and another", 2)
    lab.processes.stop(first)
    lab.checks.until("d1 prunes and d2 overrides", lambda: any(map(is_override, lab.captured())))
    lab.agree("after the override", 2)
    lab.checks.until("no PruneEcho after the override", lambda: not lab.speaker.echoed())
    lab.processes.stop(second)
    lab.agree("d2 prunes both", 0)
    both = set(STARS[:2])
    lab.checks.until("we send PruneEchoes of both", lambda: lab.speaker.echoed() == both)
    lab.checks.until("both are on the link", lambda: sum(map(is_echo, lab.captured())) == 2)


def join_many(lab: Lab) -> None:
    """d1 and d2 join many entries, some of them both."""
    lab.leaving.append(lab.receive("h1", SOURCES[:30]))
    lab.receive("h1", SOURCES[30:50])
    lab.receive("h2", SOURCES[30:])
    lab.agree("60 (S,G)", 60)
    lab.leaving.append(lab.receive("h1", STARS))
    lab.agree("40 (*,G), too", 100)


def move(lab: Lab) -> None:
    """d1 gets a source by its own tree, and prunes it off the shared tree."""
    lab.leaving.append(lab.receive("h1", [MOVES]))
    lab.agree("a group", 101)
    lab.processes.host("e", "forward", "up0", SHARED, SENDER, MOVES)
    lab.leaving.append(lab.processes.host("s", "send", "eth0", MOVES))
    exception = f"except {SENDER} {MOVES}"
    lab.checks.until("its source moves", lambda: exception in lab.speaker.wants())
    lab.agree("with (S,G,rpt)", 101, 1)


def are_later(old: Dict[str, float], new: Dict[str, float]) -> bool:
    """Whether all machines end later than before. FRR rounds to seconds."""
    return all(new.get(it, 0) > end + 1 for it, end in old.items())


def refresh(lab: Lab) -> None:
    """Refreshes go on."""
    ours, theirs = lab.speaker.ends(), lab.u.ends("dn0")
    lab.checks.until("FRR refreshes us", lambda: are_later(ours, lab.speaker.ends()))
    lab.checks.until("we refresh FRR", lambda: are_later(theirs, lab.u.ends("dn0")), 90)
    lab.agree("after the refreshes", 101, 1)


def restart(lab: Lab) -> None:
    """The speaker dies, and starts anew with another Generation ID."""
    theirs = lab.u.ends("dn0")
    lab.processes.kill(lab.speaker.process)
    lab.speaker = lab.speak()
    lab.agree("we restart", 101, 1)
    lab.checks.until("we send all anew", lambda: are_later(theirs, lab.u.ends("dn0")), 90)


def restart_upstream(lab: Lab) -> None:
    """The upstream neighbour dies, and starts anew with another Generation ID."""
    lab.u.kill()
    lab.u.start()
    restarted = rf"^(\d+) up0 hears {UPSTREAM} hello restarted\n"
    at_once = re.compile(restarted + r"\1 up0 sends hello \w+\n\1 up0 sends joins", re.M)
    lines = lab.speaker.lines
    name = "FRR upstream restarts: Hello and joins at once"
    lab.checks.until(name, lambda: at_once.search("\n".join(lines)) is not None)
    lab.agree("the upstream restarts", 101, 1)


def leave(lab: Lab) -> None:
    """d1 leaves most of what only it joined."""
    for process in lab.leaving:
        lab.processes.stop(process)
    lab.agree("d1 leaves 71", 30)


def die(lab: Lab) -> None:
    """d2 dies, and what only it joined expires."""
    lab.d2.kill()
    known = {UPSTREAM, D1}
    lab.checks.until("d2 dies: we forget it", lambda: lab.speaker.neighbours() == known)
    lab.agree("d2's entries expire", 20)


def finish(lab: Lab) -> None:
    """The speaker ends with a goodbye."""
    faults = {it for it in lab.speaker.log() if re.search(" fault | malformed ", it)}
    lab.checks.agree("no message is faulty", lambda: faults, set, 0)
    lab.speaker.tell("quit")
    lab.checks.until("our end", lambda: lab.speaker.process.poll() == 0, 10)
    for router, own in ((lab.u, OWN_UP), (lab.d1, OWN)):
        gone = f"FRR {router.name} hears our goodbye"
        lab.checks.until(gone, lambda: own not in router.neighbours(), 10)


def speak_ipv6(lab: Lab) -> None:
    """Two speakers meet over IPv6, since Debian's FRR doesn't speak PIM over it."""
    speakers = []
    for space, interface, address in (("u", "dn0", "fe80::1"), ("e", "up0", "fe80::2")):
        ip(space, "address", "add", f"{address}/64", "dev", interface, "nodad")
        speakers.append(Speaker(lab.processes, space, f"{interface}={address}"))
    one, other = speakers
    lab.checks.until("IPv6: one has the other", lambda: one.neighbours() == {"fe80::2"})
    lab.checks.until("IPv6: the other has the one", lambda: other.neighbours() == {"fe80::1"})
    one.tell("quit")
    lab.checks.until("IPv6: a goodbye is heard", lambda: other.neighbours() == set(), 10)


SCENARIOS = (
    meet,
    prune,
    join_many,
    move,
    refresh,
    restart,
    restart_upstream,
    leave,
    die,
    finish,
    speak_ipv6,
)


def check(checks: Checks) -> None:
    """Makes the network, and runs all scenarios in it."""
    processes = Processes()
    try:
        make_network()
        lab = Lab(processes, checks)
        for scenario in SCENARIOS:
            scenario(lab)
    except (RuntimeError, OSError, pimtree.PimtreeFault) as error:
        checks.count(False, f"the run ends early: {error}")
    finally:
        processes.stop_all()
        remove_network()


def require() -> None:
    """Refuses to run where something is missing."""
    needs = {
        "root": os.geteuid() == 0,
        "Debian's iproute2": shutil.which("ip"),
        "Debian's frr": shutil.which("vtysh") and os.path.exists(f"{DAEMONS}/pimd"),
    }
    missing = [name for name, is_there in needs.items() if not is_there]
    if missing:
        raise pimtree.PimtreeFault(f"it needs {', '.join(missing)}")
    find()


def run(is_kept: bool) -> int:
    """Runs all checks in a clean folder, and gives the status."""
    remove_network()
    shutil.rmtree(FOLDER, ignore_errors=True)
    os.makedirs(FOLDER)
    checks = Checks()
    print(output(f"{DAEMONS}/pimd", "--version").splitlines()[0], "of FRR", flush=True)
    try:
        check(checks)
    finally:
        if not is_kept:
            shutil.rmtree(FOLDER)
    print(f"{checks.passed} passed, {checks.failed} failed")
    return int(checks.failed > 0)


def main(words: Sequence[str]) -> int:
    """Reads the words, and runs all checks if no other run goes on."""
    if words not in ([], ["--keep"]):
        print((__doc__ or "").strip())
        return 2
    require()
    os.umask(0o022)
    os.environ["PYTHONPATH"] = PYTHON
    signal.signal(signal.SIGTERM, lambda *_: sys.exit(143))
    with socket.socket(socket.AF_UNIX) as lock:
        try:
            # An abstract name, which the kernel frees whatever ends this process.
            lock.bind("\0pimtree-live")
        except OSError:
            raise pimtree.PimtreeFault("another one runs") from None
        return run(bool(words))


if __name__ == "__main__":
    try:
        sys.exit(main(sys.argv[1:]))
    except pimtree.PimtreeFault as refusal:
        print(f"live_frr.py: {refusal}", file=sys.stderr)
        sys.exit(2)
    except KeyboardInterrupt:
        sys.exit(130)
