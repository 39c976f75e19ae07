"""Reads and writes classic pcap files (draft-ietf-opsawg-pcap)."""
from __future__ import annotations

import struct
from typing import Optional, Tuple

from .records import SECOND, CaptureFault, Interface, Option, Record

HEADER = 24
"""The length of the header of a file."""
ETHERNET = 1
"""The link type of Ethernet."""
_UNITS = {0xA1B2C3D4: 10**6, 0xA1B23C4D: SECOND}
"""The magic of a file, and the units of its times that a second has."""
_HEAD = 16
_MOST_CAPTURED = 262_144
_HAS_FCS = 0x0400_0000
_IF_TSRESOL, _IF_FCSLEN = 9, 13


def byte_order(start: bytes) -> Optional[str]:
    """The byte order of a file that begins with these bytes; none if it is no classic file."""
    return next((it for it in "<>" if struct.unpack_from(it + "I", start)[0] in _UNITS), None)


def _options_of(units: int, link: int) -> Tuple[Option, ...]:
    """What pcapng says in options of the interface of a file with these units and link word."""
    resolution = [Option(_IF_TSRESOL, b"\x09")] if units == SECOND else []
    # The link word counts the bytes of the frame check sequence in pairs, the option in bits.
    check = [Option(_IF_FCSLEN, bytes([(link >> 28) * 16]))] if link & _HAS_FCS else []
    return (*resolution, *check)


class Records:
    """The records of a file with this header."""

    def __init__(self, header: bytes) -> None:
        self._order = byte_order(header) or "<"
        magic, *_, snap_length, link = struct.unpack(self._order + "IHHiIII", header)
        units = _UNITS[magic]
        options = _options_of(units, link)
        self.interface = Interface(0, link & 0xFFFF, snap_length, units, 0, options)

    def length(self, buffer: bytes, at: int) -> Optional[int]:
        """The length of the record that begins at an index; none where its head isn't there yet."""
        if len(buffer) < at + _HEAD:
            return None
        captured: int = struct.unpack_from(self._order + "I", buffer, at + 8)[0]
        if captured > _MOST_CAPTURED:
            raise CaptureFault("too-long")
        return _HEAD + captured

    def take(self, piece: bytes) -> Record:
        """The record with these bytes."""
        seconds, fraction, _, length = struct.unpack_from(self._order + "IIII", piece)
        stamp = seconds * self.interface.units + fraction
        return Record(0, stamp, self.interface.time_of(stamp), piece[_HEAD:], length)

    def empty(self, time: int) -> bytes:
        """A record of an empty packet at a time."""
        return record(time, b"", self._order, self.interface.units)


def header(link: int) -> bytes:
    """The header of a file of this link type, whose times count microseconds."""
    return struct.pack("<IHHiIII", 0xA1B2C3D4, 2, 4, 0, 0, _MOST_CAPTURED, link)


def record(time: int, packet: bytes, order: str = "<", units: int = 10**6) -> bytes:
    """The record of a packet at a time, in nanoseconds since 1970."""
    seconds, fraction = divmod(time * units // SECOND, units)
    return struct.pack(order + "IIII", seconds, fraction, len(packet), len(packet)) + packet
