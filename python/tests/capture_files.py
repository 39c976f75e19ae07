"""Makes captures of each form, and reads those of the package, by the drafts of pcap and pcapng
alone: nothing of the package is used."""
from __future__ import annotations

import shutil
import struct
import subprocess
from typing import Dict, Iterable, List, NamedTuple, Optional, Sequence, Tuple

import support

Options = Sequence[Tuple[int, bytes]]

FRONTS = {
    1: bytes.fromhex("01005e00000d 020000000009 0800"),
    101: b"",
    108: bytes.fromhex("00000002"),
    113: bytes.fromhex("0002 0001 0006 0000000000000000 0800"),
    276: bytes.fromhex("0800 0000 00000003 0001 02 06 0000000000000000"),
}
"""What frames of IPv4 begin with on Ethernet, raw IP, a BSD loopback, and cooked captures of both
versions, by their link types."""
SECTION, CUSTOM = 0x0A0D0D0A, 0xBAD
INTERFACE, OBSOLETE, SIMPLE, STATISTICS, ENHANCED = 1, 2, 3, 5, 6
COMMENT, IF_NAME, IF_TSRESOL, IF_TSOFFSET = 1, 2, 9, 14
has_tshark = shutil.which("tshark") is not None


def example_records(name: str) -> List[Tuple[int, bytes]]:
    """The records of an example, each with its time in microseconds since 1970. The examples are
    little-endian, in microseconds, of raw IP."""
    with open(support.example(name), "rb") as file:
        data = file.read()
    at, found = 24, []
    while at + 16 <= len(data):
        seconds, micros, captured, _ = struct.unpack_from("<IIII", data, at)
        found.append((seconds * 10**6 + micros, data[at + 16 : at + 16 + captured]))
        at += 16 + captured
    return found


# ---- classic pcap


def pcap_header(order: str = "<", units: int = 10**6, link: int = 101) -> bytes:
    magic = 0xA1B2C3D4 if units == 10**6 else 0xA1B23C4D
    return struct.pack(order + "IHHiIII", magic, 2, 4, 0, 0, 65535, link)


def pcap_record(order: str, units: int, micros: int, frame: bytes) -> bytes:
    seconds, rest = divmod(micros, 10**6)
    head = struct.pack(order + "IIII", seconds, rest * units // 10**6, len(frame), len(frame))
    return head + frame


def pcap(
    records: Iterable[Tuple[int, bytes]], order: str = "<", units: int = 10**6, link: int = 101
) -> bytes:
    """A file of packets, of which each gets the front of the link."""
    made = [pcap_record(order, units, time, FRONTS[link] + packet) for time, packet in records]
    return pcap_header(order, units, link) + b"".join(made)


# ---- pcapng


def block(order: str, kind: int, body: bytes) -> bytes:
    body += bytes(-len(body) % 4)
    length = struct.pack(order + "I", len(body) + 12)
    return struct.pack(order + "I", kind) + length + body + length


def options(order: str, listed: Options) -> bytes:
    made = [
        struct.pack(order + "HH", code, len(value)) + value + bytes(-len(value) % 4)
        for code, value in listed
    ]
    return b"".join([*made, bytes(4)]) if made else b""


def section(order: str = "<") -> bytes:
    return block(order, SECTION, struct.pack(order + "IHHq", 0x1A2B3C4D, 1, 0, -1))


def interface(order: str, link: int, listed: Options = (), snap: int = 0) -> bytes:
    head = struct.pack(order + "HHI", link, 0, snap)
    return block(order, INTERFACE, head + options(order, listed))


def enhanced(
    order: str,
    number: int,
    stamp: int,
    frame: bytes,
    listed: Options = (),
    length: Optional[int] = None,
) -> bytes:
    whole = len(frame) if length is None else length
    head = struct.pack(order + "IIIII", number, stamp >> 32, stamp & 0xFFFFFFFF, len(frame), whole)
    return block(order, ENHANCED, head + frame + bytes(-len(frame) % 4) + options(order, listed))


def obsolete(
    order: str, number: int, drops: int, stamp: int, frame: bytes, listed: Options = ()
) -> bytes:
    fields = (number, drops, stamp >> 32, stamp & 0xFFFFFFFF, len(frame), len(frame))
    head = struct.pack(order + "HHIIII", *fields)
    return block(order, OBSOLETE, head + frame + bytes(-len(frame) % 4) + options(order, listed))


def simple(order: str, frame: bytes) -> bytes:
    return block(order, SIMPLE, struct.pack(order + "I", len(frame)) + frame)


def pcapng(records: Iterable[Tuple[int, bytes]], order: str = "<", link: int = 101) -> bytes:
    """A file of packets, of which each gets the front of the link."""
    made = [enhanced(order, 0, time, FRONTS[link] + packet) for time, packet in records]
    return section(order) + interface(order, link, [(IF_NAME, b"any")]) + b"".join(made)


class Block(NamedTuple):
    """A block of a little-endian file."""

    kind: int
    body: bytes

    def options(self, at: int) -> List[Tuple[int, bytes]]:
        found = []
        while at < len(self.body):
            code, length = struct.unpack_from("<HH", self.body, at)
            if code == 0:
                break
            found.append((code, self.body[at + 4 : at + 4 + length]))
            at += 4 + length + -length % 4
        return found


class Interface(NamedTuple):
    link: int
    snap: int
    options: List[Tuple[int, bytes]]


class Packet(NamedTuple):
    """An enhanced packet block, of which comments stand beside the other options."""

    interface: int
    stamp: int
    frame: bytes
    length: int
    comments: List[str]
    options: List[Tuple[int, bytes]]


def blocks_of(data: bytes) -> List[Block]:
    """The blocks of a file, which is little-endian and well-formed."""
    at, found = 0, []
    while at < len(data):
        kind, length = struct.unpack_from("<II", data, at)
        assert struct.unpack_from("<I", data, at + length - 4)[0] == length
        found.append(Block(kind, data[at + 8 : at + length - 4]))
        at += length
    return found


def interface_of(made: Block) -> Interface:
    link, _, snap = struct.unpack_from("<HHI", made.body)
    return Interface(link, snap, made.options(8))


def packet_of(made: Block) -> Packet:
    number, high, low, captured, length = struct.unpack_from("<IIIII", made.body)
    listed = made.options(20 + captured + -captured % 4)
    comments = [value.decode() for code, value in listed if code == COMMENT]
    others = [it for it in listed if it[0] != COMMENT]
    frame = made.body[20 : 20 + captured]
    return Packet(number, (high << 32) + low, frame, length, comments, others)


def read_pcapng(path: str) -> Tuple[List[Interface], List[Packet]]:
    """The interfaces of a file and its enhanced packets."""
    with open(path, "rb") as file:
        found = blocks_of(file.read())
    interfaces = [interface_of(it) for it in found if it.kind == INTERFACE]
    return interfaces, [packet_of(it) for it in found if it.kind == ENHANCED]


# ---- tools


def tshark(path: str, *fields: str, preferences: Sequence[str] = ()) -> List[Dict[str, str]]:
    """The fields of each record, as tshark reads them. Of several values each has a line."""
    words = ["tshark", "-r", path, "-T", "fields", "-E", "occurrence=a", "-E", "aggregator=|"]
    words += [it for preference in preferences for it in ("-o", preference)]
    words += [it for field in fields for it in ("-e", field)]
    ran = subprocess.run(words, capture_output=True, text=True, check=True)
    return [dict(zip(fields, row.split("\t"))) for row in ran.stdout.split("\n")[:-1]]
