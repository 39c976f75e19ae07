#!/usr/bin/env python3
"""Makes small captures by text2pcap, editcap and mergecap, and compares what a program reads of
them with what tshark reads.

    tools/captures_of_tools.py FOLDER [PROGRAM]

PROGRAM prints a line for each PIM packet of the file that it is given: `packet MILLIS interface N index N
name NAME vlan N.N copy N payload N SOURCE DESTINATION`, addresses of IPv4; `tools/quick_build.sh container` builds one. It
needs Debian's tshark.
"""
import os
import struct
import subprocess
import sys

import example_captures

FROM, TO = "10.0.0.9", "224.0.0.13"
MACS = bytes.fromhex("01005e00000d020000000009")


def message(number):
    return example_captures.hello(FROM, 105, number)


def ethernet(packet, tags=b""):
    return MACS + tags + b"\x08\x00" + packet


def cooked(packet, kind, protocol=b"\x08\x00", tag=b"", device=1):
    return struct.pack(">HHH", kind, device, 6) + bytes(8) + protocol + tag + packet


def cooked_v2(packet, kind, index, protocol=b"\x08\x00", tag=b"", device=1):
    return protocol + struct.pack(">HIHBB", 0, index, device, kind, 6) + bytes(8) + tag + packet


def tag(vlan, kind=0x8100):
    return struct.pack(">HH", kind, vlan)


FRAMES = {
    "ethernet": (1, [ethernet(message(1)), ethernet(message(2)) + bytes(14), MACS + b"\x08\x06" + bytes(28)]),
    "vlans": (1, [ethernet(message(1), tag(0xA005)), ethernet(message(2), tag(7, 0x88A8) + tag(9)),
                  ethernet(message(3), tag(9) + tag(7, 0x88A8)), ethernet(message(4), tag(0)),
                  ethernet(message(5), tag(0) + tag(8)), ethernet(message(6), tag(7, 0x9100) + tag(9))]),
    "cooked": (113, [cooked(message(1), 2), cooked(message(2), 4), cooked(message(3), 2, b"\x81\0", b"\0\5\x08\0")]),
    "cooked_v2": (276, [cooked_v2(message(1), 2, 3), cooked_v2(message(2), 4, 3),
                        cooked_v2(message(3), 2, 4, b"\x81\0", b"\0\5\x08\0")]),
    "copies": (113, [cooked(message(1), 5), cooked(message(2), 4, device=772), cooked(message(3), 0, device=772)]),
    "copies_v2": (276, [cooked_v2(message(1), 5, 3), cooked_v2(message(2), 4, 1, device=772),
                        cooked_v2(message(3), 0, 1, device=772)]),
    "raw": (101, [message(1), b"\x60" + bytes(60)]),
    "raw_v4": (228, [message(1)]),
    "null": (0, [b"\2\0\0\0" + message(1), b"\0\0\0\2" + message(2)]),
    "loop": (108, [b"\0\0\0\2" + message(1)]),
    "other": (147, [message(1)]),
}


def run(*words):
    return subprocess.run(words, check=True, capture_output=True, text=True).stdout


def by_text2pcap(folder, name, link, frames):
    text = "".join(f"17{at}0000.12345678{at}\n000000 {frame.hex(' ')}\n\n" for at, frame in enumerate(frames))
    with open(f"{folder}/text", "w") as file:
        file.write(text)
    run("text2pcap", "-t", "%s.%f", "-l", str(link), "-F", "pcapng", f"{folder}/text", f"{folder}/{name}.pcapng")
    run("text2pcap", "-t", "%s.%f", "-l", str(link), "-F", "nsecpcap", f"{folder}/text", f"{folder}/{name}.pcap")
    os.remove(f"{folder}/text")


def block(order, kind, body):
    body += bytes(-len(body) % 4)
    size = struct.pack(order + "I", len(body) + 12)
    return struct.pack(order + "I", kind) + size + body + size


def section(order, interfaces, packets):
    """A section of interfaces (link, options) and of packets (interface, stamp, frame)."""
    made = block(order, 0x0A0D0D0A, struct.pack(order + "IHHq", 0x1A2B3C4D, 1, 0, -1))
    for link, options in interfaces:
        listed = b"".join(struct.pack(order + "HH", code, len(value)) + value + bytes(-len(value) % 4)
                          for code, value in options)
        made += block(order, 1, struct.pack(order + "HHI", link, 0, 0) + listed)
    for interface, stamp, frame in packets:
        made += block(order, 6, struct.pack(order + "IIIII", interface, stamp >> 32, stamp % 2**32, len(frame), len(frame)) + frame)
    return made


def by_hand(folder):
    """What no tool writes at will: resolutions, offsets, byte orders, obsolete and simple packets."""
    frame = ethernet(message(1))
    with open(f"{folder}/times.pcapng", "wb") as file:
        resolutions = [0, 3, 6, 9, 0x80 | 20, 0x80]
        units = [1, 10**3, 10**6, 10**9, 2**20, 1]
        file.write(section(">", [(1, [(2, b"any"), (9, bytes([at]))]) for at in resolutions],
                           [(at, int(1700000000.5 * unit), frame) for at, unit in enumerate(units)]))
        back = struct.pack("<q", -3600)
        file.write(section("<", [(1, [(14, back), (0, b"")]), (1, [(1, b"note"), (14, struct.pack("<q", 7))])],
                           [(0, 1700000000123456, frame), (1, 1700000000123456, frame)]))
        file.write(block("<", 2, struct.pack("<HHIIII", 1, 0, 1700000000123456 >> 32, 1700000000123456 % 2**32,
                                             len(frame), len(frame)) + frame))
        file.write(block("<", 3, struct.pack("<I", len(frame)) + frame) + block("<", 0xBAD, b"1234"))


def numbers(folder):
    """Packets between what tools number and what they don't number: tshark numbers the Hellos 2 and 6."""
    first, second = ethernet(message(1)), ethernet(message(2))
    simple, custom = block("<", 3, struct.pack("<I", len(first)) + first), block("<", 0xBAD, b"1234")
    statistics = block("<", 5, bytes(12))
    head = len(section("<", [], []))
    with open(f"{folder}/numbers.pcapng", "wb") as file:
        file.write(section("<", [(1, []), (147, [])], []) + simple)
        file.write(section("<", [], [(0, 1700000000123456, first)])[head:])
        file.write(section("<", [(1, [])], [(1, 1700000001123456, first)])[head:] + statistics + custom + simple)
        file.write(section("<", [], [(0, 1700000002123456, second)])[head:])


def make(folder):
    os.makedirs(folder, exist_ok=True)
    for name, (link, frames) in FRAMES.items():
        by_text2pcap(folder, name, link, frames)
    run("mergecap", "-w", f"{folder}/merged.pcapng", *(f"{folder}/{it}.pcapng" for it in ("ethernet", "cooked_v2", "other")))
    run("editcap", "-F", "pcap", "-T", "ether", f"{folder}/vlans.pcapng", f"{folder}/edited.pcap")
    run("editcap", "-s", "40", f"{folder}/ethernet.pcapng", f"{folder}/snapped.pcapng")
    by_hand(folder)
    numbers(folder)


def told_by_tshark(path):
    fields = "frame.time_epoch frame.interface_id ip.src ip.dst ip.len ip.hdr_len frame.protocols vlan.id ieee8021ad.id sll.pkttype sll.hatype"
    words = ["tshark", "-r", path, "-Y", "pim && ip && frame.cap_len == frame.len", "-T", "fields", "-E", "occurrence=a"]
    for it in fields.split():
        words += ["-e", it]
    for line in run(*words).splitlines():
        epoch, interface, source, destination, size, header, layers, plain, provider, kind, device = line.split("\t")
        if not epoch:
            continue
        seconds, _, fraction = epoch.partition(".")
        plain, provider = plain.split(","), provider.split(",")
        tags = [(plain if it == "vlan" else provider).pop(0) for it in layers.split(":") if it in ("vlan", "ieee8021ad")]
        outer, inner, *_ = [it for it in tags if it != "0"] + ["0", "0"]
        yield (f"packet {int(seconds) * 1000 + int((fraction + '000')[:3])} interface {interface or 0} vlan {outer}.{inner} "
               f"copy {int(kind == '5' or (kind, device) == ('4', '772'))} payload {int(size) - int(header)} {source} {destination}")


def told_by(program, path):
    for line in run(program, path).splitlines():
        words = line.split()
        if words[0] == "packet":
            yield " ".join(words[:4] + words[8:])


def main():
    folder = sys.argv[1]
    make(folder)
    different = 0
    for name in sorted(os.listdir(folder)) if len(sys.argv) > 2 else []:
        path = f"{folder}/{name}"
        expected, found = list(told_by_tshark(path)), list(told_by(sys.argv[2], path))
        print(name, os.path.getsize(path), "bytes,", len(expected), "packets:", "equal" if expected == found else "DIFFERENT")
        for line in () if expected == found else [f"  tshark {it}" for it in expected] + [f"  found  {it}" for it in found]:
            print(line)
        different += expected != found
    return 1 if different else 0


if __name__ == "__main__":
    sys.exit(main())
