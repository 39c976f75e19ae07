"""Traces a live capture, in which timers fire in silence.

    python3 -m pimtree live [OPTION ..] [NAME=]ADDRESS < STREAM

    tcpdump -i eth0 --immediate-mode -U -w - pim | python3 -m pimtree live --rp 10.9.9.9 10.0.0.2

Options are those of `pimtree trace`. STREAM is pcap or pcapng. Its records are passed on to
`pimtree trace ADDRESS@-` when they are whole.

    --alert EVENT[,EVENT]  print only these events, by their names in `trace --json`
    --exec COMMAND         run a shell command for each event that is printed, with its object as
                           a line on standard input; one command after another
    --json                 print objects in place of lines

Where no record comes for a second, an empty one with the present time is added, and again each
second. So timers fire in silence, if this machine has the clock of the capture, and each record
comes when it is captured. In pcapng the empty record is on the first interface of its section.
None is added before the first record with a time. The numbers and the counts of the trace leave
the added records out.

SIGINT and SIGTERM end the input, and the trace prints its last lines. A second signal ends the
command at once.
"""
from __future__ import annotations

import bisect
import contextlib
import json
import os
import queue
import re
import select
import signal
import subprocess
import sys
import tempfile
import threading
import time
import warnings
from typing import Any, Callable, Dict, Iterator, List, Optional, Sequence, Tuple, Union

from . import arguments, events, program
from .arguments import STANDARD_INPUT, Arguments
from .captures import Stream
from .events import PimtreeWarning
from .program import PimtreeFault
from .records import CaptureFault, Interface, Record

_OWN = {"--alert": True, "--exec": True, "--json": False}
_SILENCE = 1.0
"""The seconds after which an empty record is added."""
_READ_LINKS = {0, 1, 12, 14, 101, 108, 113, 228, 229, 276}
"""The link types on which the program counts an empty record as cut (docs/CAPTURES.md)."""
_CHUNK = 1 << 16
_MOST_ROWS = 100_000
"""No more is read while this number of lines isn't printed."""
_PAUSE = 0.05
_MILLISECOND = 10**6
_Handler = Union[Callable[..., Any], signal.Handlers]


def _millis(epoch: Optional[str]) -> int:
    """Milliseconds since 1970."""
    return int((epoch or "0").replace(".", ""))


class _Added:
    """The records that were added to a stream, and a trace without them."""

    def __init__(self) -> None:
        self._numbers: List[int] = []
        self._cut: List[int] = []
        self._counted: Optional[int] = None

    def add(self, number: int, millis: int, link: int) -> None:
        """Adds a record. Those on some links are counted as cut."""
        self._numbers.append(number)
        if link in _READ_LINKS:
            self._cut.append(millis)

    def _number(self, number: int) -> int:
        """The number of a record in the capture."""
        return number - bisect.bisect_left(self._numbers, number)

    def _is_added(self, number: int) -> bool:
        at = bisect.bisect_left(self._numbers, number)
        return self._numbers[at : at + 1] == [number]

    def object(self, members: Dict[str, Any]) -> Optional[Dict[str, Any]]:
        """An object of the trace; none of a record that was added."""
        if members["event"] == "skipped" and self._is_added(members["frame"]):
            return None
        for holder in (members, members.get("cause", {})):
            numbers = {it: holder[it] for it in ("frame", "overrides") if holder.get(it)}
            holder.update((name, self._number(it)) for name, it in numbers.items())
        if members["event"] == "end":
            self._counted = bisect.bisect(self._cut, _millis(members["epoch"]))
            members["skipped"]["cut"] -= self._counted
        return members

    def line(self, text: str, members: Dict[str, Any]) -> str:
        """A line of the trace. `members` has its object."""
        if members["event"] == "end":
            return re.sub(r"(?<= skipped cut )\d+", str(members["skipped"]["cut"]), text)
        return re.sub(r"(?<=#)\d+", lambda it: str(self._number(int(it[0]))), text)

    def errors(self, text: str) -> str:
        """What the program wrote to standard error."""
        text = re.sub(r"(?m)(?<= record )\d+$", lambda it: str(self._number(int(it[0]))), text)
        return re.sub(r"(?m)^(.* has )(\d+)( frames that are cut .*\n)", self._cut_frames, text)

    def _cut_frames(self, found: "re.Match[str]") -> str:
        """The warning of cut frames; nothing where all were added."""
        count = int(found[2]) - (len(self._cut) if self._counted is None else self._counted)
        return f"{found[1]}{count}{found[3]}" if count > 0 else ""


class _Input:
    """The stream as it is passed on: whole pieces, and empty records in silence."""

    def __init__(self, added: _Added) -> None:
        self._added = added
        self._stream: Optional[Stream] = Stream()
        self._link = 0
        self._count = 0
        self._time: Optional[int] = None
        self._passed = 0.0

    def take(self, data: bytes) -> bytes:
        """What is passed on after these bytes. From a piece on that can't be read, that is
        everything, and the program says why."""
        if self._stream is None:
            return data
        pieces = []
        try:
            for piece, item in self._stream.feed(data):
                pieces.append(piece)
                self._see(item)
        except CaptureFault:
            pieces.append(self._stream.rest)
            self._stream = None
        return b"".join(pieces)

    def _see(self, item: Union[Interface, Record, None]) -> None:
        if isinstance(item, Interface) and item.number == 0:
            self._link = item.link
        if isinstance(item, Record):
            self._count += 1
            self._passed = time.monotonic()
            self._time = self._time if item.time is None else max(item.time, self._time or 0)

    def rest(self) -> bytes:
        """What is left at the end, which is no whole piece."""
        return self._stream.rest if self._stream else b""

    def patience(self) -> Optional[float]:
        """The seconds until an empty record is due; none where there can't be one."""
        if self._stream is None or self._time is None:
            return None
        return max(0.0, self._passed + _SILENCE - time.monotonic())

    def fill(self, now: int) -> bytes:
        """An empty record at a time, in nanoseconds since 1970, or the latest one that passed."""
        if self._stream is None or self._time is None:
            return b""
        self._passed = time.monotonic()
        self._time = max(now, self._time)
        record = self._stream.empty(self._time)
        if record:
            self._count += 1
            self._added.add(self._count, self._time // _MILLISECOND, self._link)
        return record


class _Program:
    """A trace that runs. Its output is always read, so that it never waits."""

    def __init__(self, words: Sequence[str]) -> None:
        self._errors = tempfile.TemporaryFile()
        self._process = program.start(["trace", *words], subprocess.PIPE, self._errors.fileno())
        self.rows: "queue.SimpleQueue[Optional[str]]" = queue.SimpleQueue()
        threading.Thread(target=self._drain, daemon=True).start()

    def _drain(self) -> None:
        assert self._process.stdout is not None
        with self._process.stdout as output:
            for row in output:
                self.rows.put(row.decode().rstrip("\n"))
        self.rows.put(None)

    def write(self, data: bytes) -> None:
        """Passes bytes on."""
        assert self._process.stdin is not None
        self._process.stdin.write(data)
        self._process.stdin.flush()

    def end(self) -> Tuple[int, str]:
        """Ends the input. The status of the program, and what it wrote to standard error."""
        with contextlib.suppress(BrokenPipeError):
            assert self._process.stdin is not None
            self._process.stdin.close()
        status = self._process.wait()
        with self._errors as errors:
            errors.seek(0)
            return status, errors.read().decode(errors="replace")


class _Printer:
    """Prints a trace, and runs the command."""

    def __init__(self, own: Dict[str, str], added: _Added) -> None:
        self._added = added
        self._alert = _alerts(own.get("--alert"))
        self._command = own.get("--exec")
        self._is_json = "--json" in own
        self.error: Optional[Exception] = None

    def print_all(self, programs: Sequence[_Program], wake: int) -> None:
        """Prints what programs say, of which the last one writes objects. Wakes at the end."""
        try:
            for rows in zip(*(iter(it.rows.get, None) for it in programs)):
                self._print(rows[0], json.loads(rows[-1]))
        except Exception as error:
            self.error = error
        os.write(wake, b"\0")

    def _print(self, text: str, found: Dict[str, Any]) -> None:
        members = self._added.object(found)
        if members is None or members["event"] not in self._alert:
            return
        row = json.dumps(members, separators=(",", ":"), ensure_ascii=False)
        print(row if self._is_json else self._added.line(text, members), flush=True)
        if self._command is not None:
            self._execute(self._command, row)

    def _execute(self, command: str, row: str) -> None:
        ran = subprocess.run(["sh", "-c", command], input=f"{row}\n".encode())
        if ran.returncode != 0:
            warnings.warn(f"--exec: the command ended with status {ran.returncode}", PimtreeWarning)


def _alerts(listed: Optional[str]) -> Sequence[str]:
    """The names of the events that are printed."""
    if listed is None:
        return events.NAMES
    for name in listed.split(","):
        if name not in events.NAMES:
            raise PimtreeFault(f"--alert {name}: events are {', '.join(events.NAMES)}")
    return listed.split(",")


def _words(found: Arguments) -> List[str]:
    """The words of the trace. Its port reads standard input."""
    files = [file for port in found.ports for file in port.files]
    if len(files) != 1 or files[0] not in ("", STANDARD_INPUT):
        raise PimtreeFault("live takes one port [NAME=]ADDRESS, whose capture is standard input")
    words = list(found.trace)
    words[found.places[0]] += "" if files[0] else "@" + STANDARD_INPUT
    return words


@contextlib.contextmanager
def _handled(handler: _Handler) -> Iterator[None]:
    """Has a handler of SIGINT and SIGTERM."""
    before = [(it, signal.signal(it, handler)) for it in (signal.SIGINT, signal.SIGTERM)]
    try:
        yield
    finally:
        for number, was in before:
            signal.signal(number, signal.SIG_DFL if was is None else was)


@contextlib.contextmanager
def _signals_to(wake: int) -> Iterator[None]:
    """SIGINT and SIGTERM write to a descriptor and do nothing else."""
    with _handled(lambda *_: None):
        before = signal.set_wakeup_fd(wake, warn_on_full_buffer=False)
        try:
            yield
        finally:
            signal.set_wakeup_fd(before)


def _write(programs: Sequence[_Program], data: bytes) -> None:
    for it in programs:
        it.write(data)


def _pass_on(source: int, wake: int, stream: _Input, programs: Sequence[_Program]) -> None:
    """Passes the input on until it ends, or something wakes."""
    ready: List[int] = []
    while wake not in ready:
        is_behind = any(it.rows.qsize() > _MOST_ROWS for it in programs)
        readable = [wake] if is_behind else [wake, source]
        ready, _, _ = select.select(readable, [], [], _PAUSE if is_behind else stream.patience())
        data = b""
        if source in ready:
            read = os.read(source, _CHUNK)
            data = stream.take(read) if read else stream.rest()
        elif not ready and not is_behind:
            data = stream.fill(time.time_ns())
        _write(programs, data)
        if source in ready and not read:
            return


def _warn(errors: str) -> None:
    """Warns of what a program warned of."""
    for warning in program.warnings_in(errors):
        warnings.warn(warning, PimtreeWarning)


def _judge(ends: Sequence[Tuple[int, str]], added: _Added) -> None:
    """Warns of what the last program warned of. Raises the fault of the first one that has one."""
    _warn(added.errors(ends[-1][1]))
    for status, errors in ends:
        if status != 0:
            raise program.fault_in(added.errors(errors), status)


def main(words: List[str]) -> int:
    """Runs the command."""
    found = arguments.read(words, _OWN)
    traced, added = _words(found), _Added()
    printer = _Printer(found.own, added)
    if sys.stdin is None:
        raise PimtreeFault("standard input is closed")
    texts = [] if "--json" in found.own else [traced]
    with _handled(signal.SIG_IGN):
        programs = [_Program(it) for it in (*texts, ["--json", *traced])]
    waking, wake = os.pipe()
    os.set_blocking(wake, False)
    thread = threading.Thread(target=printer.print_all, args=(programs, wake), daemon=True)
    with _signals_to(wake), contextlib.suppress(BrokenPipeError):
        thread.start()
        _pass_on(sys.stdin.fileno(), waking, _Input(added), programs)
    ends = [it.end() for it in programs]
    thread.join()
    if printer.error is not None:
        raise printer.error
    _judge(ends, added)
    return 0
