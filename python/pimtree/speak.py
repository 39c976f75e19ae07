"""A live PIM speaker for tests, as root: a router of the engine on interfaces of this machine.

    python3 -m pimtree speak [OPTION ..] INTERFACE=ADDRESS ..

Each word is a port: an interface, and one of its addresses. Over IPv6 that is the link-local one.

    --upstream ADDRESS  the upstream neighbour toward all RPs and sources
    --rp ADDRESS        the RP of all groups
    --routes FILE       rows `rp` and `via` for prefixes, as in docs/MANUAL.md
    --hello SECONDS     the Hello period, 1 to 18000, else 30; the Holdtime is 3.5 times that

Each port sends Hellos, and one at once when a neighbour is new or restarted. An upstream neighbour
gets Join/Prune messages on the first port where it is a neighbour. It gets all when it is new or
restarted and each 60 s, and every change at once. Where a prune takes effect on a link with several
neighbours, the link gets a PruneEcho. The end of standard input, `quit`, SIGINT and SIGTERM end the
speaker. Then each port sends a goodbye, which is a Hello with Holdtime 0.

The speaker forwards no packets and sends no Asserts. It doesn't override the prunes of others on an
upstream neighbour's link, so it should be the only downstream router there.

Lines of output begin with the milliseconds since the start:

    MS INTERFACE hears A VERDICT    a PIM message of A, with its verdict in the words of `replay`
    MS INTERFACE sends hello HEX    HEX is the message from its PIM header on
    MS INTERFACE sends joins HEX    all that is asked of an upstream neighbour, new or restarted
    MS INTERFACE sends refresh HEX  the same each 60 s
    MS INTERFACE sends change HEX   what changed since the message before
    MS INTERFACE sends echo HEX     a PruneEcho
    MS INTERFACE sends goodbye HEX
    MS INTERFACE fault WORDS        why a message wasn't sent, or none was heard

Standard input takes the commands now, next, state, wants, neighbours, messages, change and same of
docs/SESSION.md. What an upstream neighbour was sent is kept under its address. An answer has the
lines of the session and then `ok`, or it is `fault WORDS`.
"""
from __future__ import annotations

import contextlib
import dataclasses
import ipaddress
import itertools
import os
import random
import re
import select
import signal
import sys
import time
from dataclasses import dataclass
from typing import Callable, Iterator, List, Mapping, Optional, Sequence

from . import arguments
from .message import Entry, GroupSet, Hello, JoinPrune, LanPruneDelay, version_of
from .program import PimtreeFault
from .session import Echo, Session
from .sockets import Link, open_link

HELLO_PERIOD = 30
"""In seconds (RFC 7761, 4.11)."""
LONGEST_HELLO_PERIOD = 18_000
REFRESH_PERIOD = 60_000
"""t_periodic in milliseconds (RFC 7761, 4.11)."""
HOLDTIME = 210
"""The Holdtime of a Join/Prune in seconds (RFC 7761, 4.11)."""
QUESTIONS = ("now", "next", "state", "wants", "neighbours", "messages", "change", "same")
"""The commands of a session that change nothing."""
OPTIONS = ("--upstream", "--rp", "--routes", "--hello")
Clock = Callable[[], int]
"""Gives the milliseconds since the start."""
_ALL_GROUPS = {4: "224.0.0.0/4", 6: "ff00::/8"}
_ALL_ADDRESSES = {4: "0.0.0.0/0", 6: "::/0"}


@dataclass(frozen=True)
class Port:
    """An interface, and the router's address on it."""

    name: str
    address: str


@dataclass(frozen=True)
class Route:
    """A row of the route table: `rp` or `via`, a prefix and an address."""

    kind: str
    prefix: str
    address: str
    where: str
    """Where the row stands, for its fault."""


@dataclass(frozen=True)
class Configuration:
    """What a speaker is."""

    ports: Sequence[Port]
    routes: Sequence[Route] = ()
    hello: int = HELLO_PERIOD
    """The Hello period in seconds."""

    def upstreams(self) -> List[str]:
        """The upstream neighbours, as a session writes them."""
        found = (_written(it.address) for it in self.routes if it.kind == "via")
        return list(dict.fromkeys(found))

    def rp_of(self, group: str) -> str:
        """The RP of a group that has one: that of the longest prefix."""
        rows = {ipaddress.ip_network(it.prefix): it for it in self.routes if it.kind == "rp"}
        around = (it for it in rows if ipaddress.ip_address(group) in it)
        return rows[max(around, key=lambda it: it.prefixlen)].address


def _written(address: str) -> str:
    """An address as a session writes it."""
    return ipaddress.ip_address(address).exploded


@contextlib.contextmanager
def _faults_of(where: str) -> Iterator[None]:
    """Puts the place of a fault before it."""
    try:
        yield
    except PimtreeFault as fault:
        raise PimtreeFault(f"{where}: {fault}") from None


def _fault(what: str, error: OSError) -> str:
    return f"fault {what}: {(error.strerror or str(error)).lower()}"


def _start(session: Session, configuration: Configuration) -> None:
    for port in configuration.ports:
        with _faults_of(f"word {port.name}={port.address}"):
            session.port(port.address)
    for route in configuration.routes:
        with _faults_of(route.where):
            session.ask(f"{route.kind} {route.prefix} {route.address}")
    session.start()


class Speaker:
    """A router that speaks PIM, without sockets and a clock of its own.

    The session is a new one. `clock` gives the milliseconds since its start. `send` takes a port's
    number and a message, and `tell` a line of output."""

    def __init__(
        self,
        session: Session,
        configuration: Configuration,
        clock: Clock,
        send: Callable[[int, bytes], None],
        tell: Callable[[str], None],
    ) -> None:
        self._session, self._configuration = session, configuration
        self._clock, self._transmit, self._tell = clock, send, tell
        self._ports = configuration.ports
        _start(session, configuration)
        self._upstreams = configuration.upstreams()
        for upstream in self._upstreams:
            session.keep(upstream, upstream)
        generation = random.getrandbits(32)
        hello = Hello(configuration.hello * 7 // 2, LanPruneDelay(), 1, generation)
        goodbye = dataclasses.replace(hello, holdtime=0)
        self._hellos = [hello.build(port.address) for port in self._ports]
        self._goodbyes = [goodbye.build(port.address) for port in self._ports]
        self._now = self._next_hello = 0

    def heard(self, port: int, source: str, destination: str, message: bytes) -> None:
        """A port hears the bytes of a PIM message."""
        self.time_passed()
        sender = _written(source)
        verdict = self._session.packet(port, source, destination, message).words
        self._say(port, f"hears {sender} {verdict}")
        if verdict in ("hello new", "hello restarted"):
            self._send(port, "hello", self._hellos[port])
            if sender in self._upstreams:
                self._announce(sender, "joins")
        self._announce_changes()

    def time_passed(self) -> None:
        """Does what is due by now."""
        self._now = max(self._now, self._clock())
        if self._now >= self._next_hello:
            self._send_hellos()
        for step in self._session.run(self._now):
            if isinstance(step, Echo):
                self._send_echo(step)
            else:
                self._refresh()
        self._announce_changes()

    def due(self) -> int:
        """The next moment at which something is due."""
        refresh = (self._now // REFRESH_PERIOD + 1) * REFRESH_PERIOD
        timer = self._session.next()
        return min(self._next_hello, refresh, refresh if timer is None else timer)

    def goodbye(self) -> None:
        """Sends a goodbye on each port, and then says so."""
        said = [self._sent(port, "goodbye", it) for port, it in enumerate(self._goodbyes)]
        for port, words in enumerate(said):
            self._say(port, words)

    def answer(self, line: str) -> List[str]:
        """The lines that answer a command of standard input."""
        self.time_passed()
        word = line.partition(" ")[0]
        if word not in QUESTIONS:
            return [f"fault word {word}"]
        try:
            return [*self._session.ask(line), "ok"]
        except PimtreeFault as fault:
            return [f"fault {fault}"]

    def fails(self, port: int, what: str, error: OSError) -> None:
        """A port fails to send or to hear."""
        self._say(port, _fault(what, error))

    def _say(self, port: int, words: str) -> None:
        self._tell(f"{self._now} {self._ports[port].name} {words}")

    def _sent(self, port: int, why: str, message: bytes) -> str:
        """Sends a message, and gives the words that say so."""
        try:
            self._transmit(port, message)
        except OSError as error:
            return _fault(why, error)
        return f"sends {why} {message.hex()}"

    def _send(self, port: int, why: str, message: bytes) -> None:
        self._say(port, self._sent(port, why, message))

    def _send_hellos(self) -> None:
        period = self._configuration.hello * 1000
        self._next_hello = (self._now // period + 1) * period
        for port, message in enumerate(self._hellos):
            self._send(port, "hello", message)

    def _send_echo(self, echo: Echo) -> None:
        """Repeats a prune to the port's link, for its own address (RFC 7761, 4.5.1 and 4.5.2)."""
        own = self._ports[echo.port].address
        if echo.source is None:
            entry = Entry("star", self._configuration.rp_of(echo.group))
        else:
            entry = Entry("source", echo.source)
        prune = JoinPrune(own, HOLDTIME, (GroupSet(echo.group, pruned=(entry,)),))
        self._send(echo.port, "echo", prune.build(own))

    def _refresh(self) -> None:
        for upstream in self._upstreams:
            self._announce(upstream, "refresh")

    def _announce_changes(self) -> None:
        for upstream in self._upstreams:
            self._announce(upstream, "change")

    def _port_to(self, upstream: str) -> Optional[int]:
        """The first port where this upstream neighbour is a neighbour."""
        found = (it.port for it in self._session.neighbours() if it.address == upstream)
        return next(found, None)

    def _announce(self, upstream: str, why: str) -> None:
        """Sends what changed, or all that is asked, to an upstream neighbour that is there."""
        port = self._port_to(upstream)
        if port is None:
            return
        own = self._ports[port].address
        try:
            if why == "change":
                messages = self._session.change(upstream, upstream, own)
            else:
                messages = self._session.messages(upstream, own)
        except PimtreeFault as fault:
            if not fault.words.startswith("too big "):
                raise
            self._say(port, f"fault {why}: {fault}")
            return
        for message in messages:
            self._send(port, why, message)
        self._session.keep(upstream, upstream)


def _address(word: str) -> str:
    """Refuses what is no address."""
    try:
        ipaddress.ip_address(word)
    except ValueError:
        raise PimtreeFault(f"address {word}") from None
    return word


def _port_of(word: str) -> Port:
    name, _, address = word.partition("=")
    return Port(name, _address(address))


def _rows_of(file: str) -> Iterator[Route]:
    """The rows of a file of routes."""
    with open(file, "rb") as rows:
        lines = rows.read().decode(errors="replace").split("\n")
    for number, line in enumerate(lines, 1):
        if line == "" or line.startswith("#"):
            continue
        kind, *words = line.split(" ")
        where = f"file {file} line {number}"
        if kind not in ("rp", "via") or len(words) != 2:
            raise PimtreeFault(f"{where}: neither `rp PREFIX/LENGTH ADDRESS` nor `via ..`")
        yield Route(kind, words[0], words[1], where)


def _routes_of(own: Mapping[str, str], version: int) -> Iterator[Route]:
    if "--rp" in own:
        yield Route("rp", _ALL_GROUPS[version], _address(own["--rp"]), "--rp")
    if "--upstream" in own:
        yield Route("via", _ALL_ADDRESSES[version], _address(own["--upstream"]), "--upstream")
    if "--routes" in own:
        yield from _rows_of(own["--routes"])


def _seconds(word: str) -> int:
    if re.fullmatch("[1-9][0-9]{0,4}", word) and int(word) <= LONGEST_HELLO_PERIOD:
        return int(word)
    raise PimtreeFault(f"--hello {word}: not 1 to {LONGEST_HELLO_PERIOD}")


def read(words: Sequence[str]) -> Configuration:
    """The configuration that the words of the command state."""
    found = arguments.read(words, dict.fromkeys(OPTIONS, True))
    strange = [it for at, it in enumerate(found.trace) if at not in found.places or "=" not in it]
    if strange:
        raise PimtreeFault(f"word {strange[0]}: not INTERFACE=ADDRESS")
    ports = [_port_of(it) for it in found.trace]
    if not ports:
        raise PimtreeFault("no INTERFACE=ADDRESS")
    if len({it.name for it in ports}) < len(ports):
        raise PimtreeFault("an interface has two words")
    routes = tuple(_routes_of(found.own, version_of(ports[0].address)))
    return Configuration(ports, routes, _seconds(found.own.get("--hello", str(HELLO_PERIOD))))


class _Commands:
    """The lines of standard input, as they come."""

    def __init__(self) -> None:
        self._rest = b""
        self.are_over = False

    def fileno(self) -> int:
        """The file, for `select`."""
        return sys.stdin.fileno()

    def read(self) -> List[str]:
        """The lines that are there. Their end, or `quit`, is the end of all."""
        data = os.read(self.fileno(), 65536)
        *rows, self._rest = (self._rest + (data or b"\n")).split(b"\n")
        lines = [it.decode(errors="replace") for it in rows]
        self.are_over = not data or "quit" in lines
        return list(itertools.takewhile(lambda it: it != "quit", lines))


def _signals() -> int:
    """A file that can be read once SIGINT or SIGTERM has come."""
    reader, writer = os.pipe()
    os.set_blocking(writer, False)
    signal.set_wakeup_fd(writer)
    for number in (signal.SIGINT, signal.SIGTERM):
        signal.signal(number, lambda *_: None)
    return reader


def _hear(speaker: Speaker, port: int, link: Link) -> None:
    try:
        packet = link.receive()
    except OSError as error:
        speaker.fails(port, "hears", error)
    else:
        speaker.heard(port, *packet)


def _answer(speaker: Speaker, commands: _Commands) -> None:
    for line in commands.read():
        if line and not line.startswith("#"):
            print("\n".join(speaker.answer(line)), flush=True)


def _serve(speaker: Speaker, links: Sequence[Link], clock: Clock, signals: int) -> None:
    """Speaks until the commands end or a signal comes."""
    commands = _Commands()
    while not commands.are_over:
        speaker.time_passed()
        wait = max(0, speaker.due() - clock()) / 1000
        ready = select.select([signals, commands, *links], [], [], wait)[0]
        if signals in ready:
            return
        for port, link in enumerate(links):
            if link in ready:
                _hear(speaker, port, link)
        if commands in ready:
            _answer(speaker, commands)


def _stopwatch() -> Clock:
    start = time.monotonic()
    return lambda: int((time.monotonic() - start) * 1000)


def main(words: List[str]) -> int:
    """Runs the command."""
    configuration = read(words)
    if sys.stdin is None:
        raise PimtreeFault("no standard input")
    signals = _signals()
    with contextlib.ExitStack() as stack:
        opened = (open_link(port.name, port.address) for port in configuration.ports)
        links = [stack.enter_context(contextlib.closing(link)) for link in opened]
        session, clock = stack.enter_context(Session()), _stopwatch()
        speaker = Speaker(
            session,
            configuration,
            clock,
            lambda port, message: links[port].send(message),
            lambda line: print(line, flush=True),
        )
        try:
            _serve(speaker, links, clock, signals)
        except PimtreeFault:
            # Ctrl-C ends the session's process, too.
            if not select.select([signals], [], [], 0)[0]:
                raise
        finally:
            speaker.goodbye()
    return 0
