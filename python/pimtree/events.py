"""The events of `pimtree trace` (docs/TRACE.md), as they come."""
from __future__ import annotations

import contextlib
import json
import subprocess
import tempfile
import warnings
from dataclasses import dataclass
from typing import (
    IO,
    Any,
    Dict,
    Generator,
    Iterable,
    Iterator,
    Mapping,
    Optional,
    Sequence,
    Tuple,
    Type,
    Union,
)

from . import arguments, program
from .program import PimtreeFault


@dataclass(frozen=True)
class Event:
    """What each event has."""

    ms: int
    """The moment, in milliseconds since the first record."""
    epoch: Optional[str]
    """The same in seconds since 1970."""
    port: Optional[str]
    """The name of the port; none at the end."""


@dataclass(frozen=True)
class HelloHeard(Event):
    """A Hello that was taken."""

    frame: int
    """The number of the record in its file."""
    sender: str
    verdict: str
    """`new`, `same`, `restarted` or `gone`."""
    was: Optional[int]
    """The Generation ID before."""
    generation: Optional[int]
    file: Optional[str] = None
    """The name of the file of the record, where its port has several."""


@dataclass(frozen=True)
class PacketHeard(Event):
    """Another packet, with its verdict in the words of `replay`."""

    frame: int
    sender: str
    verdict: str
    upstream: Optional[str]
    """The upstream neighbour of a Join/Prune message."""
    joined: Optional[int]
    pruned: Optional[int]
    file: Optional[str] = None
    """The name of the file of the record, where its port has several."""


@dataclass(frozen=True)
class Transition(Event):
    """A Join/Prune message that changed or refreshed a machine."""

    frame: int
    sender: str
    by: str
    """`join`, `prune`, or `end`: the end of a message without this Prune(S,G,rpt)."""
    what: str
    """`star` for (*,G), `source` for (S,G), `rpt` for (S,G,rpt)."""
    group: str
    source: Optional[str]
    was: str
    now: str
    et: Union[int, str, None]
    """The time left on the Expiry Timer, in milliseconds, or `never`; none in `no-info`."""
    ppt: Optional[int]
    """The time left on the Prune-Pending Timer, in milliseconds."""
    neighbours: int
    overrides: Optional[int]
    """The record whose prune this join undid."""
    file: Optional[str] = None
    """The name of the file of the record, where its port has several."""
    overrides_file: Optional[str] = None
    """The name of the file of that record, likewise."""


@dataclass(frozen=True)
class IgnoredJoin(Event):
    """A Join(*,G) that counts for nothing, since it names another RP than that of the group."""

    frame: int
    sender: str
    group: str
    names: str
    rp: Optional[str]
    file: Optional[str] = None
    """The name of the file of the record, where its port has several."""


@dataclass(frozen=True)
class Restarted(Event):
    """A Hello of the router itself with another Generation ID."""

    frame: int
    was: Optional[int]
    generation: Optional[int]
    file: Optional[str] = None
    """The name of the file of the record, where its port has several."""


@dataclass(frozen=True)
class Skipped(Event):
    """A record without a PIM message that can be read."""

    frame: int
    why: str
    file: Optional[str] = None
    """The name of the file of the record, where its port has several."""


@dataclass(frozen=True)
class Cause:
    """The packet that set a timer."""

    frame: int
    ms: int
    sender: Optional[str] = None
    file: Optional[str] = None
    """The name of the file of the record, where its port has several."""


@dataclass(frozen=True)
class TimedOut(Event):
    """A neighbour whose Hellos no longer came."""

    neighbour: str
    cause: Cause


@dataclass(frozen=True)
class Fired(Event):
    """A timer of a machine that fired."""

    timer: str
    """`ppt` or `et`."""
    what: str
    group: str
    source: Optional[str]
    was: str
    now: str
    echo: bool
    """Whether the router repeats the prune to the link (PruneEcho)."""
    cause: Cause


@dataclass(frozen=True)
class HeldMachine(Event):
    """A machine that the router holds at the end (`--state`)."""

    what: str
    """`star`, `source` or `rpt`, as of a `Transition`."""
    group: str
    source: Optional[str]
    state: str
    held_for: int
    """The time since it was last in `no-info`, in milliseconds."""
    et: Union[int, str]
    """The time left on the Expiry Timer, in milliseconds, or `never`."""
    ppt: Optional[int]
    """The time left on the Prune-Pending Timer, in milliseconds."""
    cause: Cause
    """The packet that set the Expiry Timer."""


@dataclass(frozen=True)
class WantedEntry(Event):
    """What the router wants at the end (`--state`). It has no port."""

    what: str
    """`star` for the shared tree, `source` for the tree of a source, `except` for a source that is
    not wanted on the shared tree."""
    group: str
    source: Optional[str]
    via: Optional[str]
    """The upstream neighbour, if it is known."""


@dataclass(frozen=True)
class End(Event):
    """The end of the run."""

    records: int
    neighbours: int
    skipped: Dict[str, int]


_KINDS: Dict[str, Type[Event]] = {
    "hello": HelloHeard,
    "packet": PacketHeard,
    "transition": Transition,
    "ignored": IgnoredJoin,
    "restarted": Restarted,
    "skipped": Skipped,
    "timed-out": TimedOut,
    "fired": Fired,
    "record": HeldMachine,
    "want": WantedEntry,
    "end": End,
}
NAMES = tuple(_KINDS)
"""The names of events, as `trace --json` writes them."""
_FILES = ("file", "overrides_file")
"""The members with names of files."""
_RENAMED = {"from": "sender", "for": "upstream"}
_RENAMED_IN_RECORDS = {**_RENAMED, "for": "held_for"}


def name_of(event: Event) -> str:
    """The name of an event in `trace --json`."""
    return next(name for name, kind in _KINDS.items() if isinstance(event, kind))


def _renamed(members: Dict[str, Any], names: Mapping[str, str] = _RENAMED) -> Dict[str, Any]:
    return {names.get(name, name): value for name, value in members.items()}


def event_of(members: Dict[str, Any]) -> Event:
    """The event of an object of `trace --json`."""
    kind = _KINDS.get(members.get("event", ""))
    values = _renamed(members, _RENAMED_IN_RECORDS if kind is HeldMachine else _RENAMED)
    values.pop("event", None)
    if "cause" in values:
        values["cause"] = Cause(**_renamed(values["cause"]))
    try:
        if kind is not None:
            return kind(**values)
    except TypeError:
        pass
    raise PimtreeFault(f"the program writes an event that isn't known: {members}")


class PimtreeWarning(UserWarning):
    """What the program warns of, such as a capture that ends inside a record."""


def _end(process: "subprocess.Popen[bytes]", errors: IO[bytes], names: Mapping[str, str]) -> None:
    """Raises the fault of a program that ended, or warns of what it warned of. `names` has the
    names of files that stand for others."""
    status = process.wait()
    errors.seek(0)
    text = errors.read().decode(errors="replace")
    for copy, file in names.items():
        text = text.replace(copy, file)
    for warning in program.warnings_in(text):
        warnings.warn(warning, PimtreeWarning, stacklevel=4)
    if status != 0:
        raise program.fault_in(text, status)


def _rows(
    words: Sequence[str], stdin: program.Input, names: Mapping[str, str]
) -> Generator[str, None, None]:
    """The lines of a trace with these words as they come, and at the end its fault or warnings."""
    with tempfile.TemporaryFile() as errors:
        process = program.start(["trace", *words], stdin, errors.fileno())
        assert process.stdout is not None
        try:
            for row in process.stdout:
                yield row.decode().rstrip("\n")
            _end(process, errors, names)
        finally:
            process.stdout.close()
            process.kill()
            process.wait()


def events(words: Sequence[str], stdin: program.Input = None) -> Iterator[Event]:
    """The events of a trace with the words of `pimtree trace`, as they come."""
    for row in _rows(["--json", *words], stdin, {}):
        yield event_of(json.loads(row))


def with_names(text: str, names: Mapping[str, str]) -> str:
    """A line with the names of the files that others stand for, as `names` has them."""
    for copy, file in names.items():
        text = text.replace(f"{copy}#", f"{file}#")
    return text


def _with_names(members: Dict[str, Any], names: Mapping[str, str]) -> Dict[str, Any]:
    """The same of an object."""
    changed = {it: names.get(members[it], members[it]) for it in _FILES if members.get(it)}
    if "cause" in members:
        changed["cause"] = _with_names(members["cause"], names)
    return {**members, **changed}


def lines(words: Sequence[str], stdin: IO[bytes]) -> Iterator[Tuple[Event, str]]:
    """Each event of a trace with its text line. The program runs twice, once for each form, and so
    pipes and standard input are kept in files."""
    with arguments.kept(words, stdin) as (kept, names):
        with contextlib.closing(_rows(kept, subprocess.DEVNULL, names)) as texts:
            for row in _rows(["--json", *kept], subprocess.DEVNULL, names):
                event = event_of(_with_names(json.loads(row), names))
                yield event, with_names(next(texts, ""), names)


def trace(
    ports: Union[str, Iterable[str]],
    *,
    rp: Optional[str] = None,
    routes: Optional[str] = None,
    limit: Optional[int] = None,
    after: Optional[int] = None,
    at: Optional[str] = None,
    since: Optional[str] = None,
    vlan: Iterable[str] = (),
    interface: Iterable[str] = (),
    groups: Iterable[str] = (),
    sources: Iterable[str] = (),
    everything: bool = False,
    state: bool = False,
    stdin: program.Input = None,
) -> Iterator[Event]:
    """The events of a trace, as they come.

    `ports` has the words of the ports, `[NAME=]ADDRESS@FILE` and `+FILE`; one may be `ADDRESS@-`,
    whose bytes come from `stdin`. The other arguments are the options of `pimtree trace`: `since`
    is `--from`, `groups` and `sources` are `--group` and `--source`, `everything` is `--all`.

    Raises `PimtreeFault` where the program refuses, after the events before that. What the program
    warns of is a `PimtreeWarning`."""
    single = {"rp": rp, "routes": routes, "limit": limit, "after": after, "at": at, "from": since}
    several = {"vlan": vlan, "interface": interface, "group": groups, "source": sources}
    words = [f"--{name}={value}" for name, value in single.items() if value is not None]
    words += [f"--{name}={value}" for name, values in several.items() for value in values]
    words += ["--all"] if everything else []
    words += ["--state"] if state else []
    return events([*words, *([ports] if isinstance(ports, str) else ports)], stdin)
