"""A router that is driven by calls: `pimtree session` (docs/SESSION.md)."""
from __future__ import annotations

import subprocess
import tempfile
from dataclasses import dataclass
from types import TracebackType
from typing import List, Optional, Sequence, Type, Union

from . import program
from .message import Hello, Message, lan_prune_delay_of
from .program import PimtreeFault


@dataclass(frozen=True)
class Verdict:
    """What a router says of a packet, in the words of `pimtree replay`."""

    words: str

    @property
    def is_applied(self) -> bool:
        """Whether it was a Join/Prune on which the router acted."""
        return self.words == "applied"

    @property
    def fault(self) -> Optional[str]:
        """The first fault of a malformed message."""
        return self.words.partition("malformed ")[2] or None

    def __str__(self) -> str:
        return self.words


@dataclass(frozen=True)
class Echo:
    """A PruneEcho that is due: a prune took effect on a link with several neighbours."""

    moment: int
    """In milliseconds since `start`, as all moments of a session."""
    port: int
    what: str
    """`star` or `source`."""
    group: str
    source: Optional[str]


@dataclass(frozen=True)
class Refresh:
    """All Join/Prune messages are due (t_periodic, RFC 7761, 4.11)."""

    moment: int


@dataclass(frozen=True)
class Record:
    """A machine that a port holds."""

    port: int
    what: str
    """`star` for (*,G), `source` for (S,G), `rpt` for (S,G,rpt)."""
    group: str
    source: Optional[str]
    state: str
    """`join`, `prune-pending` or `prune`."""
    et: Optional[int]
    """The time left on the Expiry Timer, in milliseconds; none is never."""
    ppt: Optional[int]
    """The time left on the Prune-Pending Timer, in milliseconds; none where it doesn't run."""


@dataclass(frozen=True)
class Want:
    """A part of what the router asks of its upstream neighbours."""

    what: str
    """`star`, `source`, or `except`: a source that is left off the shared tree."""
    group: str
    source: Optional[str]
    via: Optional[str]
    """The upstream neighbour that is asked, if there is one."""


@dataclass(frozen=True)
class Neighbour:
    """A neighbour of a port."""

    port: int
    address: str
    left: Optional[int]
    """The time until it is forgotten, in milliseconds; none is never."""
    hello: Hello
    """What its last Hello said."""


def _what(words: Sequence[str]) -> "tuple[str, str, Optional[str]]":
    """The kind, the group and the source of `star G`, `source S G`, `rpt S G` or `except S G`."""
    return (words[0], words[-1], words[1] if len(words) == 3 else None)


def _time(word: str) -> Optional[int]:
    return None if word in ("never", "-") else int(word)


def _step(line: str) -> Union[Echo, Refresh]:
    moment, *words = line.split(" ")
    if words == ["refresh"]:
        return Refresh(int(moment))
    return Echo(int(moment), int(words[1]), *_what(words[3:]))


def _record(line: str) -> Record:
    words = line.split(" ")
    state, _, et, _, ppt = words[-5:]
    return Record(int(words[1]), *_what(words[2:-5]), state, _time(et), _time(ppt))


def _want(line: str) -> Want:
    words = line.split(" ")
    via = None if words[-1] == "-" else words[-1]
    return Want(*_what(words[words[0] == "want" : -2]), via)


def _option(words: Sequence[str], name: str) -> Optional[int]:
    return int(words[words.index(name) + 1]) if name in words else None


def _neighbour(line: str) -> Neighbour:
    words = line.split(" ")
    said = words[6:]
    at = said.index("lan-prune-delay") if "lan-prune-delay" in said else None
    delay = None if at is None else lan_prune_delay_of(said[at + 2 : at + 7 : 2])
    rest = (_option(said, "dr-priority"), _option(said, "generation"))
    hello = Hello(_option(said, "holdtime"), delay, *rest)
    return Neighbour(int(words[1]), words[3], _time(words[5]), hello)


def _messages(lines: Sequence[str]) -> List[bytes]:
    rows = [it.split(" ") for it in lines]
    return [bytes.fromhex(it[2]) for it in rows if it[0] == "message"]


def _limits(holdtime: Optional[int], budget: Optional[int]) -> str:
    given = (("holdtime", holdtime), ("budget", budget))
    return "".join(f" {name} {value}" for name, value in given if value is not None)


class Session:
    """A router of the engine in a process of its own. Use it by `with`.

    Each method is the command of its name. A fault is a `PimtreeFault`, and changes nothing."""

    def __init__(self) -> None:
        program.find()
        self._errors = tempfile.TemporaryFile()
        self._process = program.start(["session"], subprocess.PIPE, self._errors.fileno())

    def __enter__(self) -> "Session":
        return self

    def __exit__(
        self,
        kind: Optional[Type[BaseException]],
        value: Optional[BaseException],
        trace: Optional[TracebackType],
    ) -> None:
        self.close()

    def close(self) -> None:
        """Ends the process."""
        assert self._process.stdin is not None and self._process.stdout is not None
        try:
            self._process.stdin.close()
        except OSError:
            pass
        self._process.wait()
        self._process.stdout.close()
        self._errors.close()

    def _ended(self) -> PimtreeFault:
        status = self._process.wait()
        self._errors.seek(0)
        return program.fault_in(self._errors.read().decode(errors="replace"), status)

    def _write(self, text: str) -> None:
        stdin = self._process.stdin
        assert stdin is not None
        try:
            stdin.write(text.encode())
            stdin.flush()
        except ValueError:
            raise PimtreeFault("the session is closed") from None
        except OSError:
            raise self._ended() from None

    def _answer(self) -> List[str]:
        stdout = self._process.stdout
        assert stdout is not None
        lines: List[str] = []
        for row in iter(stdout.readline, b""):
            line = row.decode().rstrip("\n")
            if line == "ok":
                return lines
            if line.startswith("fault "):
                raise PimtreeFault(line[len("fault ") :])
            lines.append(line)
        raise self._ended()

    def ask(self, command: str) -> List[str]:
        """The lines of the answer to a command as it stands, without `ok`."""
        if "\n" in command or not command.strip() or command.startswith(("#", "from ")):
            raise PimtreeFault(f"word {command.split()[0] if command.split() else ''}")
        self._write(command + "\n")
        return self._answer()

    def port(self, address: str, delays: "Optional[tuple[int, int]]" = None) -> None:
        """Adds a port with this address, and its propagation delay and override interval in
        milliseconds."""
        self.ask(f"port {address}" + ("" if delays is None else " delays {} {}".format(*delays)))

    def rp(self, prefix: str, address: str) -> None:
        """The groups of a prefix have this RP."""
        self.ask(f"rp {prefix} {address}")

    def via(self, prefix: str, address: str) -> None:
        """The upstream neighbour toward the RPs and sources of a prefix."""
        self.ask(f"via {prefix} {address}")

    def limit(self, most: int) -> None:
        """The most records of a port."""
        self.ask(f"limit {most}")

    def start(self) -> None:
        """Makes the router, at moment 0."""
        self.ask("start")

    def run(self, moment: int) -> List[Union[Echo, Refresh]]:
        """Lets time pass up to a moment, and gives what is due on the way."""
        return [_step(it) for it in self.ask(f"run {moment}")]

    def packet(self, port: int, source: str, destination: str, message: bytes) -> Verdict:
        """Lets a port hear the bytes of a PIM message, before any timer fires."""
        return Verdict(self.ask(f"packet {port} {source} {destination} {message.hex()}")[0])

    def from_(
        self, port: int, source: str, message: Union[Message, str], destination: str = ""
    ) -> Verdict:
        """Lets a port hear a message or its text, legal or not: the command `from`."""
        lines = str(message).rstrip("\n").split("\n")
        if "send" in lines:
            raise PimtreeFault(f"text line {lines.index('send') + 1}")
        ends = f"{source} to {destination}" if destination else source
        if "\n" in ends:
            raise PimtreeFault("word from")
        self._write("\n".join([f"from {port} {ends}", *lines, "send", ""]))
        return Verdict(self._answer()[0])

    def now(self) -> int:
        """The moment."""
        return int(self.ask("now")[0])

    def next(self) -> Optional[int]:
        """The moment at which the first timer of a record ends; none is never."""
        return _time(self.ask("next")[0])

    def state(self) -> List[Record]:
        """The records of all ports."""
        return [_record(it) for it in self.ask("state")]

    def wants(self) -> List[Want]:
        """What the router asks of its upstream neighbours."""
        return [_want(it) for it in self.ask("wants")]

    def neighbours(self) -> List[Neighbour]:
        """The neighbours of all ports."""
        return [_neighbour(it) for it in self.ask("neighbours")]

    def messages(
        self, upstream: str, own: str, holdtime: Optional[int] = None, budget: Optional[int] = None
    ) -> List[bytes]:
        """The canonical messages that ask this upstream neighbour, sent from `own`. `holdtime` is
        in seconds, `budget` is the most bytes of a message."""
        return _messages(self.ask(f"messages {upstream} {own}{_limits(holdtime, budget)}"))

    def keep(self, name: str, upstream: str) -> None:
        """Keeps what is asked of this upstream neighbour now."""
        self.ask(f"keep {name} {upstream}")

    def change(
        self,
        name: str,
        upstream: str,
        own: str,
        holdtime: Optional[int] = None,
        budget: Optional[int] = None,
    ) -> List[bytes]:
        """The messages that lead from what was kept to what is asked now."""
        return _messages(self.ask(f"change {name} {upstream} {own}{_limits(holdtime, budget)}"))

    def same(
        self,
        name: str,
        upstream: str,
        own: str,
        holdtime: Optional[int] = None,
        budget: Optional[int] = None,
    ) -> bool:
        """Whether what was kept and what is asked now have the same messages."""
        answer = self.ask(f"same {name} {upstream} {own}{_limits(holdtime, budget)}")
        return answer == ["same"]

    def reset(self) -> None:
        """Forgets the router, its configuration and its family."""
        self.ask("reset")
