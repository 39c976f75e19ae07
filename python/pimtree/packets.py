"""IP packets and Ethernet frames around PIM messages."""
from __future__ import annotations

import ipaddress
import struct
from typing import Sequence, Union

Address = Union[ipaddress.IPv4Address, ipaddress.IPv6Address]

PIM = 103
"""The IP protocol number of PIM (RFC 7761, 4.9)."""
MOST = {4: 65_515, 6: 65_535}
"""The most bytes of a message in a packet of an IP version."""
_TRAFFIC_CLASS = 0xC0
"""Internetwork control (RFC 791, 3.1)."""
_DONT_FRAGMENT = 0x4000
_ETHERTYPE = {4: 0x0800, 6: 0x86DD}
_TAG, _OUTER_TAG = 0x8100, 0x88A8


def _checksum(data: bytes) -> int:
    """The Internet checksum (RFC 1071) of an even number of bytes."""
    total: int = sum(struct.unpack(f">{len(data) // 2}H", data))
    total = (total >> 16) + (total & 0xFFFF)
    return 0xFFFF - (total >> 16) - (total & 0xFFFF)


def ip_packet(source: Address, destination: Address, message: bytes) -> bytes:
    """The IP packet of a PIM message, which no router forwards: its TTL or Hop Limit is 1."""
    ends = source.packed + destination.packed
    if source.version == 6:
        first = 6 << 28 | _TRAFFIC_CLASS << 20
        return struct.pack(">IHBB", first, len(message), PIM, 1) + ends + message
    fields = (0x45, _TRAFFIC_CLASS, 20 + len(message), 0, _DONT_FRAGMENT, 1, PIM)
    front = struct.pack(">BBHHHBB", *fields)
    return front + struct.pack(">H", _checksum(front + ends)) + ends + message


def mac_of(address: Address) -> bytes:
    """The MAC address of an IP address: that of a multicast group (RFC 1112, RFC 2464), or else a
    locally administered one with the last 32 bits of the IP address."""
    low = address.packed[-4:]
    if not address.is_multicast:
        return b"\x02\x00" + low
    if address.version == 6:
        return b"\x33\x33" + low
    return b"\x01\x00\x5e" + bytes([low[1] & 0x7F]) + low[2:]


def frame(source: Address, destination: Address, tags: Sequence[int], message: bytes) -> bytes:
    """The Ethernet frame of a PIM message with VLAN tags, the outer one first. A second tag is that
    of IEEE 802.1ad."""
    kinds = [_OUTER_TAG, _TAG][-len(tags) :] if tags else []
    tagged = b"".join(struct.pack(">HH", *it) for it in zip(kinds, tags))
    kind = struct.pack(">H", _ETHERTYPE[source.version])
    macs = mac_of(destination) + mac_of(source)
    return macs + tagged + kind + ip_packet(source, destination, message)
