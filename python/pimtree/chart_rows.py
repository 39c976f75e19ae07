"""What a chart shows: rows with bars and marks, made from the events of a trace."""
from __future__ import annotations

import enum
import ipaddress
from dataclasses import dataclass, field
from typing import Dict, List, Optional, Sequence, Tuple, Union

from .events import (
    End, Event, Fired, HeldMachine, HelloHeard, IgnoredJoin, PacketHeard, Restarted, Skipped,
    TimedOut, Transition, WantedEntry,
)

_NO_INFO = "no-info"


class State(enum.Enum):
    """What a bar stands for: the state of a machine, or a neighbour that is known."""

    JOIN = "join"
    PRUNE_PENDING = "prune-pending"
    PRUNE = "prune"
    KNOWN = "known"


class Sign(enum.Enum):
    """What a mark stands for."""

    NEW = "new"
    RESTARTED = "restarted"
    GONE = "gone"
    ECHO = "echo"
    OVERRIDE = "override"
    EXPIRY = "expiry"
    IGNORED = "ignored"
    REFRESH = "refresh"
    OTHER = "other"
    BEFORE = "before"


class Part(enum.IntEnum):
    """What a row stands for, in the order of rows."""

    PORT = 0
    NEIGHBOUR = 1
    GROUP = 2
    STAR = 3
    SOURCE = 4
    RPT = 5


@dataclass
class Bar:
    """A time in one state."""

    state: State
    begin: Optional[int]
    """Its first moment; none where it began before the chart."""
    end: Optional[int] = None
    """Its last moment; none where it lasts until the end of the chart."""
    lines: List[str] = field(default_factory=list)
    """The lines of the trace at its begin and at its end."""


@dataclass(frozen=True)
class Mark:
    """A moment of which the trace has a line."""

    sign: Sign
    at: int
    line: str


@dataclass
class Row:
    """A port, a neighbour, a group or a machine."""

    part: Part
    port: str
    group: str = ""
    address: str = ""
    """The address of the neighbour or of the source."""
    bars: List[Bar] = field(default_factory=list)
    marks: List[Mark] = field(default_factory=list)

    @property
    def label(self) -> str:
        """Its name in the chart. That of a machine is the one of the trace."""
        port = self.port if self.part is Part.PORT else ""
        return " ".join(filter(None, [self.part.name.lower(), port, self.address, self.group]))

    @property
    def level(self) -> int:
        """How many rows stand above it: a port, and a group."""
        return min(self.part, 1) + (self.part > Part.GROUP)

    def mark(self, sign: Sign, event: Event, line: str) -> None:
        """Adds a mark at an event."""
        self.marks.append(Mark(sign, event.ms, line))

    def change(self, now: Optional[State], event: Event, line: str) -> None:
        """Ends the bar that lasts, if there is one, and begins one of a state, if it is given."""
        if self.bars and self.bars[-1].end is None:
            self.bars[-1].end = event.ms
            self.bars[-1].lines.append(line)
        if now is not None:
            self.bars.append(Bar(now, event.ms, lines=[line]))


@dataclass(frozen=True)
class Chart:
    """The rows of a trace, and its time in milliseconds since the first record."""

    rows: List[Row]
    begin: int
    end: int


def _state_of(text: str) -> Optional[State]:
    return None if text == _NO_INFO else State(text)


def _was(event: Union[Transition, Fired]) -> Optional[State]:
    """The state before an event, as the trace shows it. Without `--all` a trace leaves out a change
    to Prune-Pending whose prune takes effect at once."""
    if isinstance(event, Fired) and event.timer == "ppt" and event.cause.ms == event.ms:
        return None if event.what == "rpt" else State.JOIN
    return _state_of(event.was)


def _sign_of(event: Union[Transition, Fired]) -> Optional[Sign]:
    if isinstance(event, Fired):
        return Sign.ECHO if event.echo else Sign.EXPIRY if event.timer == "et" else None
    if event.overrides is not None:
        return Sign.OVERRIDE
    return Sign.REFRESH if event.was == event.now else None


_SIGNS_OF_HELLOS = {
    "new": Sign.NEW,
    "same": Sign.REFRESH,
    "restarted": Sign.RESTARTED,
    "gone": Sign.GONE,
}


def _packed(address: str) -> bytes:
    return ipaddress.ip_address(address).packed if address else b""


class Rows:
    """The rows in the making."""

    def __init__(self) -> None:
        self._rows: Dict[Tuple[Part, str, str, str], Row] = {}

    def in_order(self, ports: Sequence[str]) -> List[Row]:
        """All rows, those of each port together. `ports` has the names of all ports."""
        places = {name: place for place, name in enumerate(ports)}

        def place(row: Row) -> Tuple[int, bytes, Part, bytes]:
            return places[row.port], _packed(row.group), row.part, _packed(row.address)

        return sorted(self._rows.values(), key=place)

    def take(self, event: Event, line: str) -> None:
        """Takes the next event, with its line of the trace."""
        if isinstance(event, (Transition, Fired)):
            self._take_machine(event, line)
        elif isinstance(event, HelloHeard):
            self._take_hello(event, line)
        elif isinstance(event, TimedOut):
            row = self._neighbour(event, event.neighbour, is_known=True)
            row.mark(Sign.EXPIRY, event, line)
            row.change(None, event, line)
        elif isinstance(event, IgnoredJoin):
            self._row(event, Part.STAR, event.group).mark(Sign.IGNORED, event, line)
        elif isinstance(event, Restarted):
            self._row(event, Part.PORT).mark(Sign.RESTARTED, event, line)
        elif not isinstance(event, (HeldMachine, WantedEntry, End)):
            self._take_other(event, line)

    def _row(self, event: Event, part: Part, group: str = "", address: str = "") -> Row:
        """The row of this part at the event's port, which begins with those above it."""
        key = (part, event.port or "", group, address)
        if key not in self._rows:
            self._rows[key] = Row(*key)
            if part > Part.GROUP:
                self._row(event, Part.GROUP, group)
            elif part > Part.PORT:
                self._row(event, Part.PORT)
        return self._rows[key]

    @staticmethod
    def _begin(row: Row, was: Optional[State]) -> None:
        """Gives a new row its state before its first event, where the trace leaves out its begin
        (`--from`)."""
        if not row.bars and was is not None:
            row.bars.append(Bar(was, None))

    def _neighbour(self, event: Event, address: str, is_known: bool) -> Row:
        row = self._row(event, Part.NEIGHBOUR, address=address)
        self._begin(row, State.KNOWN if is_known else None)
        return row

    def _take_machine(self, event: Union[Transition, Fired], line: str) -> None:
        row = self._row(event, Part[event.what.upper()], event.group, event.source or "")
        self._begin(row, _was(event))
        if event.was != event.now:
            row.change(_state_of(event.now), event, line)
        sign = _sign_of(event)
        if sign is not None:
            row.mark(sign, event, line)

    def _take_hello(self, event: HelloHeard, line: str) -> None:
        """A Hello `gone` may come from who wasn't known. Who had a Generation ID was."""
        is_known = event.verdict in ("same", "restarted") or event.was is not None
        row = self._neighbour(event, event.sender, is_known)
        row.mark(_SIGNS_OF_HELLOS[event.verdict], event, line)
        if event.verdict in ("new", "gone"):
            row.change(State.KNOWN if event.verdict == "new" else None, event, line)

    def _take_other(self, event: Event, line: str) -> None:
        """Marks a packet or a record at its sender, or at the port where there is no row of it."""
        sender = event.sender if isinstance(event, PacketHeard) else ""
        row = self._rows.get((Part.NEIGHBOUR, event.port or "", "", sender))
        (row or self._row(event, Part.PORT)).mark(Sign.OTHER, event, line)
