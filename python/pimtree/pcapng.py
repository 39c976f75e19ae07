"""Reads and writes the blocks of pcapng files (draft-ietf-opsawg-pcapng)."""
from __future__ import annotations

import struct
from typing import Dict, Iterable, Iterator, List, Optional, Tuple, Union

from .records import CaptureFault, Interface, Option, Record

SECTION = 0x0A0D0D0A
"""The type of a section header block, the same in both byte orders."""
_INTERFACE, _OBSOLETE, _SIMPLE, _ENHANCED = 1, 2, 3, 6
_LEAST = {SECTION: 28, _INTERFACE: 20, _OBSOLETE: 32, _SIMPLE: 16, _ENHANCED: 32}
"""The length of a block without options, names and bytes of a packet."""
_MOST = 16_777_216
_CUSTOM, _CUSTOM_NOT_COPIED = 0x0BAD, 0x4000_0BAD
_NUMBERED = (_CUSTOM, _CUSTOM_NOT_COPIED, 9, 0x204, 0x216, 0x221)
"""Blocks that aren't packets but have a number: custom ones, a journal's, those of sysdig."""
_ORDER_MAGIC = 0x1A2B3C4D

_IF_NAME, _IF_TSRESOL, _IF_TSOFFSET = 2, 9, 14
_EPB_DROPCOUNT = 4
_UNKNOWN_DROPS = 0xFFFF
_Numbers = Dict[int, Tuple[int, ...]]
_IN_CUSTOM: _Numbers = dict.fromkeys((2988, 2989, 19372, 19373), (4,))
_IN_INTERFACE: _Numbers = {**_IN_CUSTOM, 8: (8,), 10: (4,), 14: (8,), 16: (8,), 17: (8,)}
_IN_PACKET: _Numbers = {**_IN_CUSTOM, 2: (4,), 4: (8,), 5: (8,), 6: (4,), 8: (4, 4)}
"""The lengths of the numbers with which options begin, by their codes."""


def _little(value: bytes, lengths: Iterable[int]) -> bytes:
    """A big-endian value that begins with numbers of these lengths, with little-endian ones."""
    at, numbers = 0, b""
    for length in lengths:
        numbers += value[at : at + length][::-1]
        at += length
    return numbers + value[at:]


def _options_in(order: str, data: bytes, numbers: _Numbers) -> Iterator[Option]:
    """The options, up to the first one that is cut."""
    at = 0
    while at + 4 <= len(data):
        code, length = struct.unpack_from(order + "HH", data, at)
        value = data[at + 4 : at + 4 + length]
        if code == 0 or len(value) < length:
            return
        yield Option(code, value if order == "<" else _little(value, numbers.get(code, ())))
        at += 4 + length + -length % 4


def _units_of(options: Iterable[Option]) -> int:
    """How many units a second has, by if_tsresol."""
    found = [it.value[0] for it in options if it.code == _IF_TSRESOL and len(it.value) == 1]
    resolution = found[-1] if found else 6
    return int(2 ** (resolution - 0x80) if resolution & 0x80 else 10**resolution)


def _offset_of(options: Iterable[Option]) -> int:
    """The seconds of if_tsoffset."""
    found = [it.value for it in options if it.code == _IF_TSOFFSET and len(it.value) == 8]
    return int.from_bytes(found[-1], "little", signed=True) if found else 0


class Blocks:
    """The blocks of a file, which begins with a section header."""

    def __init__(self) -> None:
        self._order = "<"
        self._interfaces: List[Interface] = []
        self._time: Optional[int] = None

    def _order_at(self, buffer: bytes, at: int) -> str:
        """The byte order of the block at an index."""
        if struct.unpack_from("<I", buffer, at)[0] != SECTION:
            return self._order
        for order in "<>":
            if struct.unpack_from(order + "I", buffer, at + 8)[0] == _ORDER_MAGIC:
                return order
        raise CaptureFault("magic")

    def length(self, buffer: bytes, at: int) -> Optional[int]:
        """The length of the block that begins at an index; none where its head isn't there yet."""
        if len(buffer) < at + 12:
            return None
        kind, length = struct.unpack_from(self._order_at(buffer, at) + "II", buffer, at)
        if length < _LEAST.get(kind, 12) or length % 4:
            raise CaptureFault("block")
        if length > _MOST:
            raise CaptureFault("too-long")
        return int(length)

    def take(self, piece: bytes) -> Union[Interface, Record, None]:
        """The interface that a block describes, or its record; none of another block."""
        self._order = self._order_at(piece, 0)
        if struct.unpack_from(self._order + "I", piece, len(piece) - 4)[0] != len(piece):
            raise CaptureFault("block")
        kind = struct.unpack_from(self._order + "I", piece)[0]
        if kind == SECTION:
            self._interfaces = []
        if kind == _INTERFACE:
            return self._described(piece)
        if kind in (_ENHANCED, _OBSOLETE):
            return self._packet(piece, kind == _OBSOLETE)
        if kind == _SIMPLE:
            return self._simple(piece)
        return self._other(piece, kind) if kind in _NUMBERED else None

    def _described(self, piece: bytes) -> Interface:
        link, _, snap_length = struct.unpack_from(self._order + "HHI", piece, 8)
        options = tuple(_options_in(self._order, piece[16:-4], _IN_INTERFACE))
        unnamed = tuple(it for it in options if it.code != _IF_NAME)
        units, offset = _units_of(options), _offset_of(options)
        found = Interface(len(self._interfaces), link, snap_length, units, offset, unnamed)
        self._interfaces.append(found)
        return found

    def _interface(self, number: int) -> Interface:
        if number >= len(self._interfaces):
            raise CaptureFault("block")
        return self._interfaces[number]

    def _packet(self, piece: bytes, is_obsolete: bool) -> Record:
        form = self._order + ("HH" if is_obsolete else "I") + "IIII"
        number, *drops, high, low, captured, length = struct.unpack_from(form, piece, 8)
        if len(piece) < 32 + captured:
            raise CaptureFault("block")
        stamp = (high << 32) + low
        self._time = self._interface(number).time_of(stamp)
        rest = piece[28 + captured + -captured % 4 : -4]
        options = tuple(_options_in(self._order, rest, _IN_PACKET))
        if is_obsolete and drops[0] != _UNKNOWN_DROPS:
            options += (Option(_EPB_DROPCOUNT, drops[0].to_bytes(8, "little")),)
        return Record(number, stamp, self._time, piece[28 : 28 + captured], length, options)

    def _simple(self, piece: bytes) -> Record:
        """The record of a simple packet block, which is of the section's first interface."""
        interface = self._interface(0)
        length = struct.unpack_from(self._order + "I", piece, 8)[0]
        captured = min(length, interface.snap_length or length)
        if len(piece) < 16 + captured:
            raise CaptureFault("block")
        stamp = None if self._time is None else interface.stamp_of(self._time)
        return Record(0, stamp, None, piece[12 : 12 + captured], length)

    def _other(self, piece: bytes, kind: int) -> Record:
        """The record of a block that isn't a packet. Some mustn't be copied."""
        block = b"" if kind == _CUSTOM_NOT_COPIED else piece
        if block and self._order == ">":
            body = piece[8:-4]
            block = _block(kind, _little(body, (4,)) if kind == _CUSTOM else body)
        return Record(None, None, None, b"", 0, (), block)

    def empty(self, time: int) -> bytes:
        """A record of an empty packet at a time, on the first interface; nothing without one."""
        if not self._interfaces:
            return b""
        stamp = self._interfaces[0].stamp_of(time)
        body = struct.pack(self._order + "IIIII", 0, stamp >> 32, stamp & 0xFFFFFFFF, 0, 0)
        return _block(_ENHANCED, body, self._order)


def _block(kind: int, body: bytes, order: str = "<") -> bytes:
    body += bytes(-len(body) % 4)
    length = struct.pack(order + "I", len(body) + 12)
    return struct.pack(order + "I", kind) + length + body + length


def _written(options: Iterable[Option]) -> bytes:
    listed = [
        struct.pack("<HH", it.code, len(it.value)) + it.value + bytes(-len(it.value) % 4)
        for it in options
    ]
    return b"".join([*listed, bytes(4)]) if listed else b""


def section() -> bytes:
    """The header of a section whose length isn't known."""
    return _block(SECTION, struct.pack("<IHHq", _ORDER_MAGIC, 1, 0, -1))


def description(interface: Interface, name: str) -> bytes:
    """The block that describes an interface by this name."""
    options = (Option(_IF_NAME, name.encode()), *interface.options)
    body = struct.pack("<HHI", interface.link, 0, interface.snap_length)
    return _block(_INTERFACE, body + _written(options))


def enhanced(number: int, record: Record, options: Iterable[Option]) -> bytes:
    """The block of a packet of the interface with this number, with further options."""
    stamp, data = record.stamp or 0, record.data
    head = (number, stamp >> 32, stamp & 0xFFFFFFFF, len(data), record.length)
    body = struct.pack("<IIIII", *head) + data + bytes(-len(data) % 4)
    return _block(_ENHANCED, body + _written([*record.options, *options]))


def simple(record: Record) -> bytes:
    """The simple block of a packet of the first interface."""
    return _block(_SIMPLE, struct.pack("<I", record.length) + record.data)
