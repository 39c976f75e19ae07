"""Messages as objects: the text of a Hello or Join/Prune, which `pimtree check` prints and
`pimtree build` reads (docs/MANUAL.md)."""
from __future__ import annotations

from dataclasses import dataclass
from typing import Iterable, Iterator, List, Optional, Sequence, Tuple

from . import program
from .program import PimtreeFault

ALL_PIM_ROUTERS = {4: "224.0.0.13", 6: "ff02::d"}
"""ALL-PIM-ROUTERS of both IP versions (RFC 7761, 4)."""


def version_of(address: str) -> int:
    """The IP version of an address."""
    return 6 if ":" in address else 4


def _ends(source: Optional[str], destination: Optional[str]) -> List[str]:
    """The options that name the IP addresses of a message."""
    if source is not None and destination is None:
        destination = ALL_PIM_ROUTERS[version_of(source)]
    named = (("--src", source), ("--dst", destination))
    return [f"{option}={address}" for option, address in named if address is not None]


class Message:
    """A PIM message: a `Hello`, a `JoinPrune` or an `OtherMessage`. `str` gives its text."""

    def _lines(self) -> Iterator[str]:
        raise NotImplementedError

    def __str__(self) -> str:
        return "".join(f"{line}\n" for line in self._lines())

    def build(self, source: Optional[str] = None, destination: Optional[str] = None) -> bytes:
        """The bytes of the message from its PIM header on, sealed from a source to a destination.
        The checksum over IPv6 covers both; without a destination it is ALL-PIM-ROUTERS.

        Raises `PimtreeFault` for a message that receivers refuse."""
        return program.run(["build", *_ends(source, destination)], str(self).encode())

    @staticmethod
    def check(
        data: bytes, source: Optional[str] = None, destination: Optional[str] = None
    ) -> "Message":
        """The message of these bytes, which begin with the PIM header.

        Raises `PimtreeFault` with its first fault."""
        return Message.parse(program.run(["check", *_ends(source, destination)], data).decode())

    @staticmethod
    def parse(text: str) -> "Message":
        """The message of a text."""
        lines = _Lines(text.split("\n"))
        message = _message_of(lines)
        if any(lines.rest()):
            raise lines.fault()
        return message


@dataclass(frozen=True)
class LanPruneDelay:
    """The LAN Prune Delay option (RFC 7761, 4.9.2), in milliseconds."""

    t: bool = False
    """Whether the sender can disable Join suppression."""
    propagation: int = 500
    override: int = 2500

    def __str__(self) -> str:
        delays = f"propagation {self.propagation} override {self.override}"
        return f"lan-prune-delay t {int(self.t)} {delays}"


@dataclass(frozen=True)
class Hello(Message):
    """A Hello (RFC 7761, 4.9.2). An option that it lacks is none."""

    holdtime: Optional[int] = None
    """In seconds; 65535 is for ever, 0 a goodbye."""
    lan_prune_delay: Optional[LanPruneDelay] = None
    dr_priority: Optional[int] = None
    generation: Optional[int] = None
    """The Generation ID."""
    addresses: Tuple[str, ...] = ()
    """The Address List."""

    def _lines(self) -> Iterator[str]:
        yield "hello"
        if self.holdtime is not None:
            yield f"holdtime {self.holdtime}"
        if self.lan_prune_delay is not None:
            yield str(self.lan_prune_delay)
        if self.dr_priority is not None:
            yield f"dr-priority {self.dr_priority}"
        if self.generation is not None:
            yield f"generation {self.generation}"
        for address in self.addresses:
            yield f"address {address}"


@dataclass(frozen=True)
class Entry:
    """A joined or pruned entry: `star` with the RP for (*,G), `source` for (S,G), `rpt` for
    (S,G,rpt)."""

    kind: str
    address: str

    def __str__(self) -> str:
        return f"{self.kind} {self.address}"


@dataclass(frozen=True)
class GroupSet:
    """The entries of a group."""

    group: str
    joined: Sequence[Entry] = ()
    pruned: Sequence[Entry] = ()

    def _lines(self) -> Iterator[str]:
        yield f"set {self.group} joined {len(self.joined)} pruned {len(self.pruned)}"
        yield from (f"join {entry}" for entry in self.joined)
        yield from (f"prune {entry}" for entry in self.pruned)


@dataclass(frozen=True)
class JoinPrune(Message):
    """A Join/Prune (RFC 7761, 4.9.5)."""

    upstream: str
    """The upstream neighbour."""
    holdtime: int
    """In seconds; 65535 is for ever."""
    sets: Sequence[GroupSet] = ()

    def _lines(self) -> Iterator[str]:
        yield f"join/prune upstream {self.upstream} holdtime {self.holdtime} sets {len(self.sets)}"
        for group_set in self.sets:
            yield from group_set._lines()


@dataclass(frozen=True)
class OtherMessage(Message):
    """A message of another type, which has no text to build it from."""

    type: int

    def _lines(self) -> Iterator[str]:
        yield f"type {self.type}"


class _Lines:
    """The lines of a text, of which the next one is looked at."""

    def __init__(self, lines: Sequence[str]) -> None:
        self._all, self._at = lines, 0

    def fault(self) -> PimtreeFault:
        return PimtreeFault(f"text line {self._at + 1}")

    def rest(self) -> Sequence[str]:
        return self._all[self._at :]

    def take(self, form: str) -> Optional[List[str]]:
        """The words at `*` of the next line, where it has this form, else none."""
        words = self._all[self._at].split(" ") if self._at < len(self._all) else []
        pattern = form.split(" ")
        if len(words) != len(pattern) or any(b not in ("*", a) for a, b in zip(words, pattern)):
            return None
        self._at += 1
        return [a for a, b in zip(words, pattern) if b == "*"]

    def number(self, word: str) -> int:
        """The number of the line that was taken."""
        if not word.isascii() or not word.isdigit():
            self._at -= 1
            raise self.fault()
        return int(word)

    def one(self, form: str) -> Optional[int]:
        """The number at `*`, where the next line has this form."""
        found = self.take(form)
        return None if found is None else self.number(found[0])


def lan_prune_delay_of(words: Sequence[str]) -> LanPruneDelay:
    """The option of its T bit, propagation delay and override interval."""
    t, propagation, override = (int(it) for it in words)
    return LanPruneDelay(t == 1, propagation, override)


def _hello_of(lines: _Lines) -> Hello:
    holdtime = lines.one("holdtime *")
    delays = lines.take("lan-prune-delay t * propagation * override *")
    numbers = None if delays is None else [str(lines.number(it)) for it in delays]
    delay = None if numbers is None else lan_prune_delay_of(numbers)
    priority, generation = lines.one("dr-priority *"), lines.one("generation *")
    addresses: Iterable[List[str]] = iter(lambda: lines.take("address *") or [], [])
    return Hello(holdtime, delay, priority, generation, tuple(it[0] for it in addresses))


def _entries_of(lines: _Lines, verb: str, count: int) -> Iterator[Entry]:
    for _ in range(count):
        found = lines.take(f"{verb} * *")
        if found is None:
            raise lines.fault()
        yield Entry(*found)


def _set_of(lines: _Lines) -> GroupSet:
    found = lines.take("set * joined * pruned *")
    if found is None:
        raise lines.fault()
    joined, pruned = (lines.number(it) for it in found[1:])
    join = tuple(_entries_of(lines, "join", joined))
    return GroupSet(found[0], join, tuple(_entries_of(lines, "prune", pruned)))


def _message_of(lines: _Lines) -> Message:
    if lines.take("hello") is not None:
        return _hello_of(lines)
    kind = lines.one("type *")
    if kind is not None:
        return OtherMessage(kind)
    found = lines.take("join/prune upstream * holdtime * sets *")
    if found is None:
        raise lines.fault()
    holdtime, sets = (lines.number(it) for it in found[1:])
    return JoinPrune(found[0], holdtime, tuple(_set_of(lines) for _ in range(sets)))
