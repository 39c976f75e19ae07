"""What the tests share: the program under test, the top of the repository, and small captures."""
from __future__ import annotations

import os
import shutil
import socket
import struct
import sys
from typing import Iterable, Tuple

TOP = os.path.dirname(os.path.dirname(os.path.dirname(os.path.abspath(__file__))))
_PLACES = [os.path.join(TOP, it, "pimtree") for it in ("crates/pimtree/out", "out")]


def _program() -> str:
    """The program that PIMTREE names, else the proved one, else the quick build."""
    built = [it for it in _PLACES if os.path.isfile(it)]
    named = os.environ.get("PIMTREE") or [*built, "pimtree"][0]
    return os.path.abspath(shutil.which(named) or named)


PROGRAM = os.environ["PIMTREE"] = _program()
sys.path.insert(0, os.path.join(TOP, "python"))


def example(name: str) -> str:
    """The path of a file of `examples`."""
    return os.path.join(TOP, "examples", name)


def read(path: str) -> str:
    """The text of a file."""
    with open(path, encoding="utf-8") as file:
        return file.read()


def _sum(data: bytes) -> int:
    """The Internet checksum (RFC 1071)."""
    total: int = sum(struct.unpack(f">{len(data) // 2}H", data))
    total = (total >> 16) + (total & 0xFFFF)
    return ~((total >> 16) + total) & 0xFFFF


def ipv4(source: str, message: bytes, destination: str = "224.0.0.13") -> bytes:
    """An IPv4 packet of a PIM message."""
    ends = socket.inet_aton(source) + socket.inet_aton(destination)
    front = struct.pack(">BBHHHBB", 0x45, 0xC0, 20 + len(message), 0, 0, 1, 103)
    return front + struct.pack(">H", _sum(front + bytes(2) + ends)) + ends + message


HEADER = struct.pack("<IHHiIII", 0xA1B2C3D4, 2, 4, 0, 0, 65535, 101)
"""The header of a classic pcap file of raw IP packets."""


def record(millis: int, packet: bytes, start: int = 1_700_000_000) -> bytes:
    """A record of a packet, at so many milliseconds after the second `start`."""
    seconds, rest = divmod(millis, 1000)
    return struct.pack("<IIII", start + seconds, rest * 1000, len(packet), len(packet)) + packet


def write_capture(path: str, packets: Iterable[Tuple[int, bytes]]) -> str:
    """Writes a capture of packets, each with its moment in milliseconds. Returns its path."""
    with open(path, "wb") as file:
        file.write(HEADER + b"".join(record(*it) for it in packets))
    return path
