"""Raw sockets that send and hear the PIM messages of one interface."""
from __future__ import annotations

import ipaddress
import json
import os
import socket
import struct
import subprocess
from typing import NamedTuple

from .message import ALL_PIM_ROUTERS, version_of
from .program import PimtreeFault

PIM = 103
"""The IP protocol number of PIM (RFC 7761, 4.9)."""
_LARGEST = 65535
_CONTROL = 0xC0
"""The traffic class of network control."""
_IP_MREQN = "4s4si"
"""`struct ip_mreqn`: a group, an address of this machine, and the number of an interface."""
_IN6_PKTINFO = "16sI"
"""`struct in6_pktinfo`, and `struct ipv6_mreq` too: an address and the number of an interface."""


class Packet(NamedTuple):
    """A PIM message with the ends of its IP packet."""

    source: str
    destination: str
    message: bytes


def _index_of(name: str) -> int:
    try:
        return socket.if_nametoindex(name)
    except (OSError, ValueError):
        raise PimtreeFault(f"interface {name}: there is none of this name") from None


def _check_address(name: str, address: str) -> None:
    """Refuses an address that the interface doesn't have."""
    command = ["ip", "-json", "address", "show", "dev", name]
    try:
        shown = subprocess.run(command, stdout=subprocess.PIPE, check=True).stdout
    except (OSError, subprocess.CalledProcessError) as error:
        raise PimtreeFault(f"interface {name}: {error}") from None
    has = {row["local"] for link in json.loads(shown) for row in link.get("addr_info", ())}
    if ipaddress.ip_address(address) not in map(ipaddress.ip_address, has):
        raise PimtreeFault(f"interface {name}: {address} isn't one of its addresses")


class Link:
    """The PIM messages of one interface. Those that it sends come from one of its addresses."""

    def __init__(self, name: str, address: str) -> None:
        self._index, self._address = _index_of(name), address
        family = socket.AF_INET6 if version_of(address) == 6 else socket.AF_INET
        try:
            self._socket = socket.socket(family, socket.SOCK_RAW, PIM)
        except PermissionError:
            raise PimtreeFault("raw sockets need root") from None
        _check_address(name, address)
        self._socket.setsockopt(socket.SOL_SOCKET, socket.SO_BINDTODEVICE, os.fsencode(name))
        self._join()

    def _join(self) -> None:
        level, set_option = socket.IPPROTO_IP, self._socket.setsockopt
        group = socket.inet_aton(ALL_PIM_ROUTERS[4])
        member = struct.pack(_IP_MREQN, group, socket.inet_aton(self._address), self._index)
        set_option(level, socket.IP_ADD_MEMBERSHIP, member)
        set_option(level, socket.IP_MULTICAST_IF, member)
        set_option(level, socket.IP_MULTICAST_TTL, 1)
        set_option(level, socket.IP_MULTICAST_LOOP, 0)
        set_option(level, socket.IP_TOS, _CONTROL)

    def fileno(self) -> int:
        """The socket, for `select`."""
        return self._socket.fileno()

    def close(self) -> None:
        """Closes the socket."""
        self._socket.close()

    def send(self, message: bytes) -> None:
        """Sends a message to ALL-PIM-ROUTERS."""
        self._socket.sendto(message, (ALL_PIM_ROUTERS[4], 0))

    def receive(self) -> Packet:
        """The next message. The kernel gives an IPv4 packet with its header."""
        packet = self._socket.recv(_LARGEST)
        start, end = packet[0] % 16 * 4, int.from_bytes(packet[2:4], "big")
        source, destination = (socket.inet_ntoa(packet[at : at + 4]) for at in (12, 16))
        return Packet(source, destination, packet[start:end])


class Link6(Link):
    """The same over IPv6, where the address is link-local."""

    def _join(self) -> None:
        level, set_option = socket.IPPROTO_IPV6, self._socket.setsockopt
        group = socket.inet_pton(socket.AF_INET6, ALL_PIM_ROUTERS[6])
        set_option(level, socket.IPV6_JOIN_GROUP, struct.pack(_IN6_PKTINFO, group, self._index))
        set_option(level, socket.IPV6_MULTICAST_IF, self._index)
        set_option(level, socket.IPV6_MULTICAST_HOPS, 1)
        set_option(level, socket.IPV6_MULTICAST_LOOP, 0)
        set_option(level, socket.IPV6_TCLASS, _CONTROL)
        set_option(level, socket.IPV6_RECVPKTINFO, 1)

    def send(self, message: bytes) -> None:
        """Sends a message to ALL-PIM-ROUTERS."""
        own = socket.inet_pton(socket.AF_INET6, self._address)
        departs = struct.pack(_IN6_PKTINFO, own, self._index)
        said = [(socket.IPPROTO_IPV6, socket.IPV6_PKTINFO, departs)]
        self._socket.sendmsg([message], said, 0, (ALL_PIM_ROUTERS[6], 0, 0, self._index))

    def receive(self) -> Packet:
        """The next message. The kernel gives its destination beside it."""
        room = socket.CMSG_SPACE(struct.calcsize(_IN6_PKTINFO))
        message, said, _, source = self._socket.recvmsg(_LARGEST, room)
        destination = socket.inet_ntop(socket.AF_INET6, said[0][2][:16])
        return Packet(source[0].partition("%")[0], destination, message)


def open_link(name: str, address: str) -> Link:
    """Opens an interface at one of its addresses. Raises `PimtreeFault`."""
    try:
        return (Link6 if version_of(address) == 6 else Link)(name, address)
    except OSError as error:
        raise PimtreeFault(f"interface {name}: {(error.strerror or str(error)).lower()}") from None
