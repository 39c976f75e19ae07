"""Interfaces and records of captures, whatever the form of their file."""
from __future__ import annotations

from dataclasses import dataclass
from typing import NamedTuple, Optional, Tuple

SECOND = 10**9
"""A second in nanoseconds."""


class CaptureFault(Exception):
    """Why a capture can't be read any further, in a word of docs/MANUAL.md."""


class Option(NamedTuple):
    """An option of a block of pcapng. Its numbers are little-endian."""

    code: int
    value: bytes


@dataclass(frozen=True)
class Interface:
    """An interface of a section of pcapng, or the only one of a classic file."""

    number: int
    """Its place in its section, from 0."""
    link: int
    """The link type of its frames."""
    snap_length: int
    units: int
    """How many units of its time stamps a second has."""
    offset: int
    """The seconds that are added to its times."""
    options: Tuple[Option, ...]
    """The options of pcapng that describe it, without its name."""

    def time_of(self, stamp: int) -> int:
        """The time of a stamp, in nanoseconds since 1970."""
        return stamp * SECOND // self.units + self.offset * SECOND

    def stamp_of(self, time: int) -> int:
        """The stamp of a time."""
        return max(0, (time - self.offset * SECOND) * self.units // SECOND)


class Record(NamedTuple):
    """A record that tools number: a packet, or a block of pcapng of another kind."""

    interface: Optional[int]
    """The number of the packet's interface; none for what isn't a packet."""
    stamp: Optional[int]
    """Its time stamp. That of a packet without a time is the time of the record before it."""
    time: Optional[int]
    """Its time in nanoseconds since 1970, if it has one."""
    data: bytes
    """The captured bytes of the packet."""
    length: int
    """The length of the packet on its link."""
    options: Tuple[Option, ...] = ()
    block: bytes = b""
    """The little-endian block of what isn't a packet."""
