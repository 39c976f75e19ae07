"""Writes captures as pcapng, with the lines of a trace as comments.

    python3 -m pimtree annotate -o FILE [--only] [OPTION ..] [NAME=]ADDRESS@FILE ..

Options and words of ports are those of `pimtree trace`, without --json. Wireshark shows the
records with comments by the filter `frame.comment`.

    -o FILE  the file to write; `-` is standard output
    --only   leave out records without a comment

Each port has an interface of its name, or several where its files describe several. The records of
the ports are merged by time. A record without a time follows the one before it. Packets keep their
bytes, times and options.

The comment of a record has its lines of the trace. A line of time is in the comment of the port's
next record: the first one after the packet that set the timer, whose time isn't before that of the
line. Where there is none, it is in that of the port's last record. The line `end:` is in that of
the last record of all, after those of `--state`. A comment above 65,535 bytes is written as
several.

A simple packet block becomes an enhanced one with the time of the record before it in its file.
Before any time it stays a simple one on the first interface, and has no room for a comment. A
custom block has none either. The lines of such a record, and of one that the end of its file cuts,
are in the comment of the next record.

What the program warns of is on standard error. At a fault the lines before it stay, with all
records that can be read. Without any line nothing is written.
"""
from __future__ import annotations

import bisect
import collections
import heapq
import itertools
import warnings
from dataclasses import dataclass, field
from typing import (
    IO, Callable, Deque, Dict, Iterable, Iterator, List, Mapping, Optional, Sequence, Tuple,
)

from . import arguments, captures, events, pcapng
from .arguments import Port
from .events import (
    End, Event, Fired, HeldMachine, HelloHeard, PacketHeard, Skipped, TimedOut, WantedEntry,
)
from .program import PimtreeFault
from .records import CaptureFault, Interface, Option, Record

_OWN = {"-o": True, "--only": False}
_FILTERS = {"--group": True, "--source": True, "--from": True, "--all": False}
_COMMENT = 1
_MOST_OF_OPTION = 65_535
_MOST_OF_COMMENTS = 15 << 20
"""Readers refuse blocks above 16 MiB."""
_MILLISECOND = 10**6

_Counted = Tuple[Event, str, int]
"""An event, its line, and how many records its port had had by then."""


@dataclass
class _Line:
    """A line on its way to a record of its port. Records have places, from 0."""

    text: str
    first: int
    """The first record that may have it."""
    last: Optional[int] = None
    """The record that has it at the latest."""
    ms: int = 0
    """A record of this time or later has it, in milliseconds since 1970."""


class _Notes:
    """The lines of a port, in the order of the trace."""

    def __init__(self) -> None:
        self._lines: Deque[_Line] = collections.deque()
        self._of_time: List[_Line] = []

    def add(self, line: _Line) -> None:
        """Adds a line. Lines of time before that of a record come to this record at the latest."""
        if line.last is None:
            self._of_time.append(line)
        else:
            for earlier in self._of_time:
                earlier.last = line.last
            self._of_time.clear()
        self._lines.append(line)

    def take(self, place: int, time: Optional[int]) -> List[str]:
        """The lines for the record at this place, with this time in nanoseconds."""
        ms = -1 if time is None else time // _MILLISECOND
        found = []
        while self._lines and self._is_due(self._lines[0], place, ms):
            found.append(self._lines.popleft().text)
        return found

    def _is_due(self, line: _Line, place: int, ms: int) -> bool:
        is_late = line.last is not None and line.last <= place
        return is_late or (line.first <= place and line.ms <= ms)

    def rest(self) -> List[str]:
        """The lines that no record took."""
        return [it.text for it in self._lines]


@dataclass
class _Trace:
    """The lines of a trace, up to its fault if there is one."""

    notes: Dict[str, _Notes]
    """Those of each port, by its name."""
    end: List[str] = field(default_factory=list)
    fault: Optional[PimtreeFault] = None
    is_empty: bool = True

    def add(self, event: Event, text: str, count: int) -> None:
        """Adds a line."""
        self.is_empty = False
        if isinstance(event, (HeldMachine, WantedEntry, End)):
            self.end.append(text)
        elif isinstance(event, (Fired, TimedOut)):
            # A timer that is set to the present moment fires before the very next record.
            last = count if event.cause.ms == event.ms else None
            ms = int((event.epoch or "0").replace(".", ""))
            self.notes[event.port or ""].add(_Line(text, count, last, ms))
        else:
            self.notes[event.port or ""].add(_Line(text, count - 1, count - 1))


# ---- the trace


def _counted_by_frame(pairs: Iterable[Tuple[Event, str]]) -> Iterator[_Counted]:
    """The lines of ports with one file each. A line of time comes after the record of its cause."""
    for event, text in pairs:
        if isinstance(event, (Fired, TimedOut)):
            yield event, text, event.cause.frame
        else:
            yield event, text, getattr(event, "frame", 0)


class _Counts:
    """Counts the records of ports in a trace that leaves nothing out. There each record has one
    event that begins those of its own."""

    def __init__(self, found: Iterator[Event]) -> None:
        self._events = found
        self._counts: Dict[Optional[str], int] = collections.Counter()

    def up_to(self, event: Event) -> int:
        """Goes on up to this event, and returns how many records its port had by then."""
        for passed in self._events:
            self._counts[passed.port] += isinstance(passed, (HelloHeard, PacketHeard, Skipped))
            if passed == event:
                break
        return self._counts[event.port]


def _counted(words: Sequence[str], ports: Sequence[Port]) -> Iterator[_Counted]:
    """The lines of a trace. Where ports have further files, of which one may come twice, a second
    trace that leaves nothing out counts the records."""
    pairs = events.lines(words, captures.standard_input())
    if all(len(port.files) == 1 for port in ports):
        yield from _counted_by_frame(pairs)
        return
    counts = _Counts(events.events(["--all", *arguments.read(words, _FILTERS).trace]))
    for event, text in pairs:
        yield event, text, counts.up_to(event)


def _gather(words: Sequence[str], ports: Sequence[Port], names: Mapping[str, str]) -> _Trace:
    trace = _Trace({port.name: _Notes() for port in ports})
    try:
        for event, text, count in _counted(words, ports):
            trace.add(event, events.with_names(text, names), count)
    except PimtreeFault as fault:
        trace.fault = fault
    return trace


def _with_names(words: str, names: Mapping[str, str]) -> str:
    """Words with the names of the files that stand for others."""
    for copy, file in names.items():
        words = words.replace(copy, file)
    return words


def _traced(words: Sequence[str], ports: Sequence[Port], names: Mapping[str, str]) -> _Trace:
    """The lines of a trace. They, its fault and its warnings name files as the person did."""
    with warnings.catch_warnings(record=True) as caught:
        warnings.simplefilter("always")
        trace = _gather(words, ports, names)
    for warning in caught:
        warnings.warn(_with_names(str(warning.message), names), events.PimtreeWarning)
    if trace.fault is not None:
        trace.fault = PimtreeFault(_with_names(trace.fault.words, names))
    return trace


# ---- the records


def _comments(lines: Sequence[str]) -> Iterator[Option]:
    """The lines as comments: one, or several where they are too long for an option."""
    lengths = itertools.accumulate(len(it) + 1 for it in lines)
    fitting = bisect.bisect(list(lengths), _MOST_OF_COMMENTS)
    left_out = [f".. {len(lines) - fitting} more lines"] if fitting < len(lines) else []
    text = ""
    for line in [*lines[:fitting], *left_out]:
        if text and len(text) + 1 + len(line) > _MOST_OF_OPTION:
            yield Option(_COMMENT, text.encode())
            text = ""
        text += "\n" + line if text else line
    if text:
        yield Option(_COMMENT, text.encode())


@dataclass
class _Packet:
    """A record of the output, with its lines."""

    record: Record
    interface: int
    """The number of its interface in the output."""
    lines: List[str] = field(default_factory=list)

    @property
    def is_simple(self) -> bool:
        """Whether it is a packet that goes out without a time."""
        return self.record.stamp is None and self.interface == 0

    @property
    def has_room(self) -> bool:
        """Whether it can have a comment."""
        return self.record.interface is not None and not self.is_simple

    def rank(self) -> int:
        """What the records of ports are merged by. One without a time comes at once."""
        return -1 if self.record.time is None else self.record.time

    def block(self) -> bytes:
        """Its block of pcapng."""
        if self.record.interface is None:
            return self.record.block
        if self.is_simple:
            return pcapng.simple(self.record)
        return pcapng.enhanced(self.interface, self.record, _comments(self.lines))


def _with_last(packets: Iterator[_Packet], rest: Callable[[], List[str]]) -> Iterator[_Packet]:
    """The packets, of which the last one that has room gets further lines."""
    held: List[_Packet] = []
    for packet in packets:
        if packet.has_room:
            yield from held
            held = []
        held.append(packet)
    if held:
        held[0].lines += rest()
    yield from held


class _Output:
    """The file that is written, and the fault of a capture that can't be read on."""

    def __init__(self, file: IO[bytes]) -> None:
        self._file = file
        self._numbers: Dict[Tuple[str, Interface], int] = {}
        self.fault: Optional[PimtreeFault] = None
        file.write(pcapng.section())

    def number_of(self, port: str, interface: Interface) -> int:
        """The number of a port's interface, which is described once."""
        key = port, interface
        if key not in self._numbers:
            self._numbers[key] = len(self._numbers)
            self._file.write(pcapng.description(interface, port))
        return self._numbers[key]

    def _packets_in(self, port: str, file: str) -> Iterator[Optional[_Packet]]:
        """The records of a file of a port; none for the record inside which the file ends."""
        stream, numbers, count = captures.Stream(), {}, 0
        try:
            with open(file, "rb") as source:
                for item in captures.items(stream, source):
                    if isinstance(item, Interface):
                        numbers[item.number] = self.number_of(port, item)
                    else:
                        count += 1
                        yield _Packet(item, numbers.get(item.interface or 0, 0))
        except CaptureFault as fault:
            raise PimtreeFault(f"capture {fault} in {file} at record {count + 1}") from None
        if stream.rest:
            yield None

    def packets_of(self, port: Port, notes: _Notes) -> Iterator[_Packet]:
        """The records of a port with the lines that are for them, up to a fault."""
        found = itertools.chain.from_iterable(self._packets_in(port.name, it) for it in port.files)
        try:
            for place, packet in enumerate(found):
                if packet and packet.has_room:
                    packet.lines = notes.take(place, packet.record.time)
                if packet:
                    yield packet
        except PimtreeFault as fault:
            self.fault = self.fault or fault

    def write(self, packet: _Packet) -> None:
        """Writes a record."""
        self._file.write(packet.block())


def _write(
    file: IO[bytes], ports: Sequence[Port], trace: _Trace, only: bool
) -> Optional[PimtreeFault]:
    """Writes the records of ports with the lines of a trace. Returns the fault of a capture."""
    output = _Output(file)
    notes = [trace.notes[port.name] for port in ports]
    lanes = [_with_last(output.packets_of(*it), it[1].rest) for it in zip(ports, notes)]
    merged = heapq.merge(*lanes, key=_Packet.rank)
    for packet in _with_last(iter(merged), lambda: trace.end):
        if packet.lines or not only:
            output.write(packet)
    return output.fault


def main(words: List[str]) -> int:
    """Runs the command."""
    found = arguments.read(words, _OWN)
    if "-o" not in found.own:
        raise PimtreeFault("annotate needs -o FILE")
    if "--json" in found.trace:
        raise PimtreeFault("word --json: comments are lines of text")
    with arguments.kept(found.trace, captures.standard_input()) as (kept, names):
        ports = arguments.read(kept, {}).ports
        with captures.written(found.own["-o"]) as file:
            trace = _traced(kept, ports, names)
            if trace.fault is not None and trace.is_empty:
                raise trace.fault
            unread = _write(file, ports, trace, "--only" in found.own)
    fault = trace.fault or unread
    if fault is not None:
        raise PimtreeFault(_with_names(fault.words, names))
    return 0
