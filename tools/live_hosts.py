#!/usr/bin/env python3
"""Hosts of `tools/live_frr.py`, IPv4. Each runs until it is ended.

    live_hosts.py join INTERFACE GROUP[,SOURCE] ..         receives groups, or a source of each
    live_hosts.py send INTERFACE GROUP ..                  sends to each group ten times a second
    live_hosts.py forward INTERFACE OTHER SOURCE GROUP     forwards to the other interface
    live_hosts.py capture INTERFACE FILE                   captures PIM packets
"""
from __future__ import annotations

import signal
import socket
import struct
import sys
import time
from typing import List

MCAST_JOIN_GROUP, MCAST_JOIN_SOURCE_GROUP = 42, 46
ETH_P_ALL, IPV4, PIM = 3, b"\x08\x00", bytes([103])
MRT_INIT, MRT_ADD_VIF, MRT_ADD_MFC, VIFF_USE_IFINDEX = 200, 202, 204, 8
UDP_PORT = 5000


def sockaddr_storage(address: str) -> bytes:
    """An IPv4 address as the kernel takes it."""
    return struct.pack("=HH4s", socket.AF_INET, 0, socket.inet_aton(address)).ljust(128, b"\0")


def join(interface: str, words: List[str]) -> None:
    """Receives the groups. Each has a socket, since a socket has only some memberships."""
    index, sockets = socket.if_nametoindex(interface), []
    for word in words:
        group, _, source = word.partition(",")
        option = MCAST_JOIN_SOURCE_GROUP if source else MCAST_JOIN_GROUP
        value = struct.pack("=I4x", index) + sockaddr_storage(group)
        value += sockaddr_storage(source) if source else b""
        sockets.append(socket.socket(socket.AF_INET, socket.SOCK_DGRAM))
        sockets[-1].setsockopt(socket.IPPROTO_IP, option, value)
    signal.pause()


def send(interface: str, groups: List[str]) -> None:
    """Sends packets to the groups."""
    sender = socket.socket(socket.AF_INET, socket.SOCK_DGRAM)
    sender.setsockopt(socket.SOL_SOCKET, socket.SO_BINDTODEVICE, interface.encode() + b"\0")
    sender.setsockopt(socket.IPPROTO_IP, socket.IP_MULTICAST_TTL, 16)
    while True:
        for group in groups:
            sender.sendto(b"x" * 32, (group, UDP_PORT))
        time.sleep(0.1)


def forward(interface: str, words: List[str]) -> None:
    """Forwards what a source sends to a group from one interface to another, without any PIM."""
    target, source, group = words
    router = socket.socket(socket.AF_INET, socket.SOCK_RAW, socket.IPPROTO_IGMP)
    router.setsockopt(socket.IPPROTO_IP, MRT_INIT, 1)
    for number, name in enumerate((interface, target)):
        index = socket.if_nametoindex(name)
        row = struct.pack("=HBBIi4x", number, VIFF_USE_IFINDEX, 1, 0, index)
        router.setsockopt(socket.IPPROTO_IP, MRT_ADD_VIF, row)
    ends = socket.inet_aton(source) + socket.inet_aton(group)
    to_second = struct.pack("=H32s2x4I", 0, b"\0\1", 0, 0, 0, 0)
    router.setsockopt(socket.IPPROTO_IP, MRT_ADD_MFC, ends + to_second)
    signal.pause()


def capture(interface: str, words: List[str]) -> None:
    """Writes the PIM packets of an interface as a classic pcap file. Each record is whole."""
    [file] = words
    listener = socket.socket(socket.AF_PACKET, socket.SOCK_RAW, socket.htons(ETH_P_ALL))
    listener.bind((interface, ETH_P_ALL))
    with open(file, "wb", buffering=0) as target:
        target.write(struct.pack("=IHHiIII", 0xA1B2C3D4, 2, 4, 0, 0, 65535, 1))
        while True:
            frame = listener.recv(65535)
            if frame[12:14] == IPV4 and frame[23:24] == PIM:
                seconds, microseconds = divmod(time.time_ns() // 1000, 10**6)
                size = len(frame)
                target.write(struct.pack("=IIII", seconds, microseconds, size, size) + frame)


ROLES = {"join": join, "send": send, "forward": forward, "capture": capture}

if __name__ == "__main__":
    role, interface_name, *rest = sys.argv[1:]
    ROLES[role](interface_name, rest)
