#!/usr/bin/env python3
"""Writes the captures of examples/. Each has the PIM packets on one port of a router.

    python3 tools/example_captures.py
"""
import ipaddress
import os
import struct

FOLDER = os.path.join(os.path.dirname(os.path.abspath(__file__)), "..", "examples")
FOREVER = 0xFFFF
PIM = 103


def packed(text):
    return ipaddress.ip_address(text).packed


def total(data):
    """The one's complement sum of 16-bit words."""
    if len(data) % 2:
        data += b"\0"
    number = sum(struct.unpack(f">{len(data) // 2}H", data))
    while number > 0xFFFF:
        number = (number & 0xFFFF) + (number >> 16)
    return number


def sealed(source, destination, kind, body):
    """A PIM message with its checksum (RFC 7761, 4.9). Over IPv6 the checksum covers a
    pseudo-header (RFC 8200, 8.1)."""
    source, destination = packed(source), packed(destination)
    message = bytes([0x20 | kind, 0, 0, 0]) + body
    cover = source + destination + struct.pack(">II", len(message), PIM) if len(source) == 16 else b""
    checksum = 0xFFFF - total(cover + message)
    return message[:2] + struct.pack(">H", checksum) + message[4:]


def packet(source, destination, payload, protocol=PIM):
    """An IP packet with this payload."""
    source, destination = packed(source), packed(destination)
    if len(source) == 16:
        return struct.pack(">IHBB", 6 << 28, len(payload), protocol, 1) + source + destination + payload
    header = struct.pack(">BBHHHBBH", 0x45, 0xC0, 20 + len(payload), 0, 0, 1, protocol, 0) + source + destination
    return header[:10] + struct.pack(">H", 0xFFFF - total(header)) + header[12:] + payload


def all_routers(source):
    return "ff02::d" if ":" in source else "224.0.0.13"


def hello(source, holdtime=FOREVER, generation=1):
    body = struct.pack(">HHH", 1, 2, holdtime) + struct.pack(">HHI", 20, 4, generation)
    to = all_routers(source)
    return packet(source, to, sealed(source, to, 0, body))


def unicast(text):
    address = packed(text)
    return bytes([1 if len(address) == 4 else 2, 0]) + address


def masked(flags, text):
    address = packed(text)
    return bytes([1 if len(address) == 4 else 2, 0, flags, 8 * len(address)]) + address


STAR, RPT, SOURCE = 7, 5, 4


def join_prune_body(upstream, holdtime, sets):
    """The body of a Join/Prune message. A set is a group, its joined and its pruned entries, each
    of flags and address."""
    body = unicast(upstream) + struct.pack(">BBH", 0, len(sets), holdtime)
    for group, joined, pruned in sets:
        body += masked(0, group) + struct.pack(">HH", len(joined), len(pruned))
        body += b"".join(masked(flags, address) for flags, address in joined + pruned)
    return body


def join_prune(source, upstream, holdtime, sets):
    to = all_routers(source)
    return packet(source, to, sealed(source, to, 3, join_prune_body(upstream, holdtime, sets)))


def broken(data):
    """The packet with one bit of its last byte changed, so that the checksum is wrong."""
    return data[:-1] + bytes([data[-1] ^ 1])


def igmp_query(source):
    body = bytes([0x11, 100, 0, 0]) + bytes(4)
    body = body[:2] + struct.pack(">H", 0xFFFF - total(body)) + body[4:]
    return packet(source, "224.0.0.1", body, protocol=2)


def write(name, records):
    """Writes a classic pcap file of raw IP packets. A record is a time in milliseconds and a
    packet."""
    data = struct.pack("<IHHiIII", 0xA1B2C3D4, 2, 4, 0, 0, 65535, 101)
    for millis, frame in records:
        seconds = 1_700_000_000 + millis // 1000
        data += struct.pack("<IIII", seconds, millis % 1000 * 1000, len(frame), len(frame)) + frame
    with open(os.path.join(FOLDER, name), "wb") as file:
        file.write(data)


def lan():
    """Three neighbours: a join, a prune that another neighbour overrides, an echo, an expiry, a
    packet that isn't PIM."""
    seven, eight, nine, here = "10.0.0.7", "10.0.0.8", "10.0.0.9", "10.0.0.2"
    star = [(STAR, "10.9.9.9")]
    write("lan.pcap", [
        (0, hello(seven)),
        (10, hello(eight)),
        (20, hello(nine)),
        (1000, join_prune(seven, here, 210, [("239.1.1.1", star, [])])),
        (2000, join_prune(seven, here, 210, [("239.1.1.1", [], star)])),
        (3000, join_prune(eight, here, 210, [("239.1.1.1", star, [])])),
        (10000, join_prune(nine, here, 210, [("239.2.2.2", star, [])])),
        (11000, join_prune(nine, here, 210, [("239.2.2.2", [], star)])),
        (15000, join_prune(nine, here, 60, [("239.3.3.3", [(SOURCE, "192.0.2.5")], [])])),
        (20000, igmp_query(eight)),
        (80000, join_prune(eight, here, 210, [("239.1.1.1", star, [(RPT, "192.0.2.1")])])),
    ])


def lost():
    """One neighbour that joins a source once, and then sends its Joins to another router."""
    nine, here, other = "10.0.0.9", "10.0.0.2", "10.0.0.3"
    wanted = [("239.1.1.1", [(SOURCE, "192.0.2.1")], [])]
    records = [(millis, hello(nine, 105)) for millis in range(0, 240_001, 30_000)]
    records += [(100, join_prune(nine, here, 210, wanted))]
    records += [(millis + 100, join_prune(nine, other, 210, wanted)) for millis in range(60_000, 240_001, 60_000)]
    write("lost.pcap", sorted(records, key=lambda record: record[0]))


def ipv6():
    """Two neighbours over IPv6: a star with one exception, a source, a goodbye, and a restart."""
    seven, nine, here = "fe80::7", "fe80::9", "fe80::2"
    write("ipv6.pcap", [
        (0, hello(seven)),
        (5, hello(nine)),
        (1000, join_prune(nine, here, 210, [
            ("ff0e::1:1", [(STAR, "2001:db8::9")], [(RPT, "2001:db8::a")]),
            ("ff0e::2:2", [(SOURCE, "2001:db8::b")], []),
        ])),
        (2500, hello(seven, 0)),
        (5000, hello(nine, FOREVER, 2)),
    ])


def fault():
    """Messages that are refused for different causes, and others, in a file that ends inside a
    record."""
    nine, here, to = "10.0.0.9", "10.0.0.2", "224.0.0.13"
    good = [("239.1.1.1", [(STAR, "10.9.9.9")], [])]
    bad = [("239.1.1.1", [(6, "10.9.9.9")], [])]
    write("fault.pcap", [
        (0, join_prune(nine, here, 210, good)),
        (1, hello(nine)),
        (2, broken(join_prune(nine, here, 210, good))),
        (3, join_prune(nine, here, 210, bad)),
        (4, packet(nine, to, sealed(nine, to, 3, join_prune_body(here, 210, good) + b"\0"))),
        (5, packet(nine, to, sealed(nine, to, 5, b""))),
        (6, join_prune(nine, here, 210, good)),
    ])
    with open(os.path.join(FOLDER, "fault.pcap"), "ab") as file:
        file.write(bytes(7))


def transit_lan():
    """Three neighbours of a transit router, on its LAN: two trees that all is well with, a prune that
    another neighbour overrides, and two prunes that take effect. The router repeats these to itself
    (PruneEcho)."""
    seven, eight, nine, here = "10.0.0.7", "10.0.0.8", "10.0.0.9", "10.0.0.2"
    star, five, six = [(STAR, "10.9.9.9")], [(SOURCE, "192.0.2.5")], [(SOURCE, "192.0.2.6")]
    both = [("239.1.1.1", star, []), ("239.3.3.3", star, [])]
    write("transit-lan.pcap", [
        (0, hello(seven)),
        (10, hello(eight)),
        (20, hello(nine)),
        (30, hello(here)),
        (10000, join_prune(seven, here, 210, [("239.1.1.1", star, [])])),
        (12000, join_prune(nine, here, 210, [("239.2.2.2", five, [])])),
        (15000, join_prune(seven, here, 210, [("239.1.1.1", [], star)])),
        (16500, join_prune(eight, here, 210, [("239.1.1.1", star, [])])),
        (20000, join_prune(nine, here, 210, [("239.2.2.2", [], five)])),
        (23001, join_prune(here, here, 210, [("239.2.2.2", [], five)])),
        (30000, join_prune(eight, here, 210, [("239.3.3.3", star, [])])),
        (40000, join_prune(nine, here, 210, [("239.4.4.4", six, [])])),
        (50000, join_prune(nine, here, 210, [("239.4.4.4", [], six)])),
        (53001, join_prune(here, here, 210, [("239.4.4.4", [], six)])),
        (70000, join_prune(eight, here, 210, both)),
        (130000, join_prune(eight, here, 210, both)),
    ])


def transit_up():
    """The link of the transit router to its upstream neighbour, which restarts. The router asks late
    for a star, never prunes the source 192.0.2.6, and asks 18.9 s late for all after the restart."""
    upstream, here = "10.1.0.1", "10.1.0.2"
    star, five, six = [(STAR, "10.9.9.9")], [(SOURCE, "192.0.2.5")], [(SOURCE, "192.0.2.6")]
    held = [("239.1.1.1", star, []), ("239.3.3.3", star, []), ("239.4.4.4", six, [])]
    write("transit-up.pcap", [
        (40, hello(here)),
        (5000, hello(upstream, 105)),
        (10200, join_prune(here, upstream, 210, [("239.1.1.1", star, [])])),
        (12100, join_prune(here, upstream, 210, [("239.2.2.2", five, [])])),
        (23100, join_prune(here, upstream, 210, [("239.2.2.2", [], five)])),
        (35000, hello(upstream, 105)),
        (38500, join_prune(here, upstream, 210, [("239.3.3.3", star, [])])),
        (40100, join_prune(here, upstream, 210, [("239.4.4.4", six, [])])),
        (65000, hello(upstream, 105)),
        (70200, join_prune(here, upstream, 210, held)),
        (95000, hello(upstream, 105)),
        (100000, hello(upstream, 105, 2)),
        (118900, join_prune(here, upstream, 210, held)),
        (130000, hello(upstream, 105, 2)),
    ])


if __name__ == "__main__":
    lan()
    lost()
    ipv6()
    fault()
    transit_lan()
    transit_up()
