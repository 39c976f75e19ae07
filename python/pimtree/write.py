"""Writes PIM messages as a capture.

    python3 -m pimtree write -o FILE --src ADDRESS [--dst ADDRESS] [--vlan N[.M]] < MESSAGES

    pimtree mirror .. | python3 -m pimtree write -o demand.pcap --src 10.0.0.1

MESSAGES has texts as `pimtree check` prints them, or lines `message N HEX` as `mirror`, `change`
and `session` print them, or both. A text begins with a line `hello` or `join/prune ..` and ends
before the next message, an empty line or a line that begins with `#`. Other lines outside texts
are skipped.

    -o FILE        the file to write, classic pcap of Ethernet; `-` is standard output
    --src ADDRESS  the sender
    --dst ADDRESS  the destination, otherwise ALL-PIM-ROUTERS
    --vlan N[.M]   a VLAN tag, 1 to 4094, or two, the outer one first

The first record is at the beginning of 1970, and each other one a millisecond after the one before
it. Texts are sealed by `pimtree build`; other messages are so already, and `pimtree check` must
accept them with these addresses. A message that is refused is a fault that names the line of the
input, and then nothing is written.
"""
from __future__ import annotations

import ipaddress
import re
import warnings
from dataclasses import dataclass
from typing import Iterable, Iterator, List, Mapping, Sequence

from . import arguments, captures, packets, pcap, program
from .events import PimtreeWarning
from .message import ALL_PIM_ROUTERS
from .packets import Address
from .program import PimtreeFault

_OWN = {"-o": True, "--src": True, "--dst": True, "--vlan": True}
_GAP = 10**6
"""The nanoseconds between records."""
_MOST_VLAN = 4094
_MESSAGE = "message "
_INNER = frozenset(
    "holdtime lan-prune-delay dr-priority generation address set join prune".split()
)
"""The first words of the lines of a text but the first."""
_FIRST_GROUP = {4: 0xE000_0000, 6: 0xFF << 120}
"""The least multicast address of an IP version. No source is above it."""


@dataclass
class _Part:
    """A text, or a line `message N HEX`."""

    line: int
    """The number of its first line in the input, from 1."""
    lines: List[str]

    def fault(self, words: str) -> PimtreeFault:
        """The fault of these words, with the line of the input."""
        found = re.fullmatch(r"text line (\d+)", words)
        if found:
            return PimtreeFault(f"text line {self.line + int(found[1]) - 1}")
        return PimtreeFault(f"line {self.line}: {words}")


@dataclass(frozen=True)
class _Sender:
    """The ends of messages, and their VLAN tags."""

    source: Address
    destination: Address
    tags: Sequence[int]

    def _run(self, command: str, data: bytes) -> bytes:
        ends = ["--src", str(self.source), "--dst", str(self.destination)]
        return program.run([command, *ends], data)

    def _message_of(self, part: _Part) -> bytes:
        """The bytes of a message, which receivers accept."""
        if not part.lines[0].startswith(_MESSAGE):
            return self._run("build", _encoded("\n".join(part.lines) + "\n"))
        message = _message_in(part.lines[0])
        self._run("check", message)
        return message

    def frame_of(self, part: _Part) -> bytes:
        """The frame of a message."""
        try:
            message = self._message_of(part)
        except PimtreeFault as fault:
            raise part.fault(fault.words) from None
        most = packets.MOST[self.source.version]
        if len(message) > most:
            raise part.fault(f"a message of {len(message)} bytes, but a packet has at most {most}")
        return packets.frame(self.source, self.destination, self.tags, message)


def _encoded(text: str) -> bytes:
    return text.encode(errors="surrogateescape")


def _message_in(line: str) -> bytes:
    """The bytes in a line `message N HEX`."""
    try:
        _, length, digits = line.split(" ")
        message = bytes.fromhex(digits)
    except ValueError:
        raise PimtreeFault("this isn't `message N HEX`") from None
    if str(len(message)) != length:
        raise PimtreeFault(f"the message has {len(message)} bytes")
    return message


def _parts(lines: Iterable[str]) -> Iterator[_Part]:
    """The messages of the input. A line that belongs in a text can't be outside of one."""
    text = None
    for number, line in enumerate(lines, 1):
        is_text = line == "hello" or line.split(" ")[0] == "join/prune"
        is_message = line.startswith(_MESSAGE)
        is_between = not line or line.startswith("#")
        if text and (is_text or is_message or is_between):
            yield text
            text = None
        if is_message:
            yield _Part(number, [line])
        elif is_text:
            text = _Part(number, [line])
        elif text:
            text.lines.append(line)
        elif line.split(" ")[0] in _INNER:
            raise PimtreeFault(f"text line {number}")
    if text:
        yield text


def _address(word: str) -> Address:
    try:
        address = ipaddress.ip_address(word)
    except ValueError:
        raise PimtreeFault(f"address {word}") from None
    if "%" in word:
        raise PimtreeFault(f"address {word}")
    return address


def _sender(own: Mapping[str, str]) -> _Sender:
    """The ends and tags that the options give."""
    source = _address(own["--src"])
    if source.is_unspecified or int(source) >= _FIRST_GROUP[source.version]:
        raise PimtreeFault(f"--src {own['--src']}: this is no valid source")
    destination = _address(own.get("--dst", ALL_PIM_ROUTERS[source.version]))
    if source.version != destination.version:
        raise PimtreeFault("family")
    return _Sender(source, destination, _tags(own["--vlan"]) if "--vlan" in own else ())


def _tags(word: str) -> List[int]:
    """The VLAN tags that a word names."""
    if not re.fullmatch(r"[0-9]{1,4}(\.[0-9]{1,4})?", word):
        raise PimtreeFault(f"--vlan {word}: a VLAN is 5, or 5.7 for two tags")
    tags = [int(it) for it in word.split(".")]
    if not all(1 <= it <= _MOST_VLAN for it in tags):
        raise PimtreeFault(f"--vlan {word}: the number of a VLAN is 1 to {_MOST_VLAN}")
    return tags


def _write(path: str, frames: Sequence[bytes]) -> None:
    with captures.written(path) as file:
        file.write(pcap.header(pcap.ETHERNET))
        for at, frame in enumerate(frames):
            file.write(pcap.record(at * _GAP, frame))


def main(words: List[str]) -> int:
    """Runs the command."""
    found = arguments.read(words, _OWN)
    if found.trace:
        raise PimtreeFault(f"word {found.trace[0]}")
    missing = [it for it in ("-o", "--src") if it not in found.own]
    if missing:
        raise PimtreeFault(f"write needs {missing[0]}")
    sender = _sender(found.own)
    text = captures.standard_input().read().decode(errors="surrogateescape")
    frames = [sender.frame_of(part) for part in _parts(text.split("\n"))]
    if not frames:
        warnings.warn("the input has no message", PimtreeWarning)
    _write(found.own["-o"], frames)
    return 0
