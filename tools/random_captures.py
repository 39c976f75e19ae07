#!/usr/bin/env python3
"""Compares a program's reading of random captures with that of a slow reader, which is written by the
pcapng draft and the pcap format alone.

    tools/random_captures.py PROGRAM [COUNT [SEED]]
    tools/random_captures.py PROGRAM --cut FOLDER     each file of FOLDER, whole and cut at every byte
    tools/random_captures.py PROGRAM --cases          PROGRAM is crates/pimtree_cases: traces of files cut at every byte

tools/captures_of_tools.py makes a folder of captures as tools write them, and says which events PROGRAM
prints. Of others it prints the first word: `skipped`, `untimed`, `section`, `interface`, `passed`, `end`,
`fault NAME`.
"""
import os
import random
import re
import struct
import subprocess
import sys
import tempfile

import captures_of_tools as made

LATEST = 4294971589967
ETHERNET, RAW = (1,), (101, 12, 14)
NAMES = [b"eth0", b"eth0.5", b"0", b"12x", b"a,b", b"a=b", b"a+b", b"a b", b"\x1b[2J", b"\x7f", b"!~", b"", b"x" * 16, b"x" * 17]


def packet_of(link, frame):
    """(address bytes before the packet, VLANs, index, copy) or None where there is no IP."""
    vlans, index, copy = [], 0, False
    if link in RAW:
        return (0, vlans, index, copy) if frame else None
    if link == 228 or link == 229:
        return 0, vlans, index, copy
    if link in (0, 108):
        if len(frame) < 4:
            return None
        words = [int.from_bytes(frame[:4], it) for it in ("little", "big")]
        return (4, vlans, index, copy) if any(it in (2, 10, 24, 28, 30) for it in words) else None
    at = {1: 14, 113: 16, 276: 20}[link]
    if len(frame) < at:
        return None
    kind = int.from_bytes(frame[0:2] if link == 276 else frame[at - 2:at], "big")
    if link == 113:
        kinds = struct.unpack(">HH", frame[:4])
    if link == 276:
        index, device, sort = struct.unpack(">IHB", frame[4:11])
        kinds = sort, device
    if link in (113, 276):
        copy = kinds[0] == 5 or kinds == (4, 772)
    for _ in range(2):
        if kind in (0x8100, 0x88A8, 0x9100):
            if len(frame) < at + 4:
                return None
            vlans.append(int.from_bytes(frame[at:at + 2], "big") & 4095)
            kind, at = int.from_bytes(frame[at + 2:at + 4], "big"), at + 4
    return (at, [it for it in vlans if it], index, copy) if kind in (0x800, 0x86DD) else None


def told(link, millis, interface, frame, name="-"):
    place = packet_of(link, frame)
    if place is None:
        return "skipped"
    at, vlans, index, copy = place
    ip = frame[at:]
    if len(ip) < 20 or ip[0] >> 4 != 4 or ip[9] != 103:
        return "skipped"
    head, size = 4 * (ip[0] & 15), int.from_bytes(ip[2:4], "big")
    if head < 20 or size < head or len(ip) < size:
        return "skipped"
    outer, inner = (vlans + [0, 0])[:2]
    number, flags = struct.unpack(">HH", ip[4:8])
    part = flags & 0x3FFF
    which = f"protocol 103 identification {number} offset {8 * (part & 0x1FFF)} more {part >> 13} " if part else ""
    return (f"{'fragment' if part else 'packet'} {millis} interface {interface} index {index} name {name} "
            f"vlan {outer}.{inner} copy {int(copy)} {which}payload {size - head} {'.'.join(map(str, ip[12:16]))} {'.'.join(map(str, ip[16:20]))}")


def options(order, data):
    """The last name, resolution and offset, or None where an option is cut. A text that is no name is `-`."""
    name, resolution, offset = "-", 6, 0
    while len(data) >= 4:
        code, size = struct.unpack(order + "HH", data[:4])
        if code == 0:
            break
        end = 4 + size + -size % 4
        if len(data) < end:
            return None
        if code == 2:
            is_name = re.fullmatch(rb"[!-*\-./0-9:;<>-~]{1,16}", data[4:4 + size]) and not data[4:4 + size].isdigit()
            name = data[4:4 + size].decode() if is_name else "-"
        if code == 9 and size == 1:
            resolution = data[4]
        if code == 14 and size == 8:
            offset = struct.unpack(order + "q", data[4:12])[0]
        data = data[end:]
    return name, resolution, offset


def millis_of(stamp, resolution, offset):
    units = 2 ** (resolution - 128) if resolution > 127 else 10 ** resolution
    return stamp * 1000 // units + offset * 1000


def blocks(data):
    order, interfaces = ">", []
    while data:
        if len(data) < 12:
            return (yield "fault truncated")
        if data[:4] == b"\x0a\x0d\x0d\x0a":
            order = {b"\x1a\x2b\x3c\x4d": ">", b"\x4d\x3c\x2b\x1a": "<"}.get(data[8:12])
            if order is None:
                return (yield "fault magic")
        kind, size = struct.unpack(order + "II", data[:8])
        if size % 4 or size < {0x0A0D0D0A: 28, 1: 20, 2: 32, 6: 32, 3: 16}.get(kind, 12):
            return (yield "fault block")
        if size > 16 * 2**20:
            return (yield "fault too-long")
        if size > len(data):
            return (yield "fault truncated")
        block, data = data[:size], data[size:]
        if block[-4:] != block[4:8]:
            return (yield "fault block")
        if kind == 0x0A0D0D0A:
            if struct.unpack(order + "H", block[12:14])[0] != 1:
                return (yield "fault block")
            interfaces = []
            yield "section"
        elif kind == 1:
            said = options(order, block[16:-4])
            if said is None:
                return (yield "fault block")
            interfaces.append((struct.unpack(order + "H", block[8:10])[0], *said))
            yield "interface"
        elif kind in (2, 6):
            number = struct.unpack(order + ("H" if kind == 2 else "I"), block[8:10 if kind == 2 else 12])[0]
            high, low, length = struct.unpack(order + "III", block[12:24])
            if number >= len(interfaces) or length > size - 32:
                return (yield "fault block")
            link, name, *units = interfaces[number]
            millis = millis_of(high * 2**32 + low, *units)
            if not 0 <= millis <= LATEST:
                return (yield "fault time")
            known = link in made_links
            yield told(link, millis, number, block[28:28 + length], name) if known else "skipped"
        else:
            yield "untimed" if kind in (3, 9, 0x204, 0x216, 0x221, 0xBAD, 0x40000BAD) else "passed"
    yield "end"


made_links = {link for link, _ in made.FRAMES.values() if link != 147} | {12, 14, 229}


def records(data):
    if len(data) < 24:
        return (yield "fault truncated")
    if data[:2] == b"\x1f\x8b":
        return (yield "fault gzip")
    order = next((it for it in "<>" if struct.unpack(it + "I", data[:4])[0] in (0xA1B2C3D4, 0xA1B23C4D)), None)
    if order is None:
        return (yield "fault magic")
    link = struct.unpack(order + "I", data[20:24])[0] & 0xFFFF
    per = 1000 if struct.unpack(order + "I", data[:4])[0] == 0xA1B2C3D4 else 1000000
    if link not in made_links:
        return (yield "fault link-type")
    yield "section"
    data = data[24:]
    while data:
        if len(data) < 16:
            return (yield "fault truncated")
        seconds, fraction, length = struct.unpack(order + "III", data[:12])
        if length > 262144:
            return (yield "fault too-long")
        if len(data) < 16 + length:
            return (yield "fault truncated")
        yield told(link, seconds * 1000 + fraction // per, 0, data[16:16 + length])
        data = data[16 + length:]
    yield "end"


def expected(data):
    return list(blocks(data) if data[:4] == b"\x0a\x0d\x0d\x0a" else records(data))


def found(program, data):
    with tempfile.NamedTemporaryFile() as file:
        file.write(data)
        file.flush()
        lines = subprocess.run([program, file.name], check=True, capture_output=True, text=True).stdout.splitlines()
    return [it if it.split()[0] in ("packet", "fragment", "fault") else it.split()[0] for it in lines]


def fragment_of(link, frame, source):
    """The frame, whose packet is a fragment now if it is one of IPv4."""
    place = packet_of(link, frame) if link in made_links else None
    if place is None or len(frame) < place[0] + 20:
        return frame
    at = place[0] + 4
    return frame[:at] + struct.pack(">HH", source.randrange(65536), source.choice([0x2000, 1, 0x3FFF, 0x4000])) + frame[at + 4:]


def some_file(source):
    """A file of random sections or records, with some bytes changed, or cut."""
    frames = [(link, frame) for link, frames in made.FRAMES.values() for frame in frames]
    data = b""
    for _ in range(source.randint(1, 2)):
        order = source.choice("<>")
        chosen = [source.choice(frames) for _ in range(source.randint(1, 3))]
        chosen = [(link, fragment_of(link, it, source) if source.random() < 0.3 else it) for link, it in chosen]
        listed = []
        for link, _ in chosen:
            given = [(9, bytes([source.choice([0, 3, 6, 9, 30, 0x80, 0x94, 0xFF])]))] if source.random() < 0.5 else []
            given += [(14, struct.pack(order + "q", source.choice([5, -3600, -2**40])))] if source.random() < 0.3 else []
            given += [(2, source.choice(NAMES))] if source.random() < 0.5 else [(1, b"xyz"), (0, b"")]
            listed.append((link, given))
        stamps = [source.choice([1700000000123456, 1700000000, 2**52, 2**64 - 1]) for _ in chosen]
        data += made.section(order, listed, [(at, stamps[at], chosen[at][1]) for at in range(len(chosen))])
        if source.random() < 0.3:
            data += made.block(order, source.choice([2, 3, 4, 0xBAD]), bytes(source.randint(0, 40)))
    if source.random() < 0.3:
        order, link = source.choice("<>"), source.choice(frames)[0]
        data = struct.pack(order + "IHHIIII", source.choice([0xA1B2C3D4, 0xA1B23C4D]), 2, 4, 0, 0, 65535, link)
        for _ in range(source.randint(0, 3)):
            frame = source.choice([it for kind, it in frames if kind == link])
            data += struct.pack(order + "IIII", 1700000000, 123456789, len(frame), len(frame)) + frame
    if source.random() < 0.5:
        at = source.randrange(len(data))
        data = data[:at] + bytes([source.choice([0, 1, 4, 255, source.randrange(256)])]) + data[at + 1:]
    return data[:source.randrange(len(data) + 1)] if source.random() < 0.3 else data


def random_files(count, seed):
    source = random.Random(seed)
    return (some_file(source) for _ in range(count))


def cut_files(folder):
    for name in sorted(os.listdir(folder)):
        with open(f"{folder}/{name}", "rb") as file:
            data = file.read()
        yield from (data[:size] for size in range(len(data) + 1))


def traced(data):
    """What a trace of a file prints whose packets are ARP requests of one time, and the cause of its fault, if it has one. A file
    that ends inside a piece after its first one has one more record, which is skipped."""
    *events, last = expected(data)
    records = [it for it in events if it in ("skipped", "untimed")]
    lines = [f"0 0 #{at} skipped: without a time" for at, it in enumerate(records, 1) if it == "untimed"]
    if last == "fault truncated" and events:
        lines.append(f"0 0 #{len(records) + 1} skipped: cut short by the end of its file")
    elif last != "end":
        return lines, last.split()[1]
    counts = f"cut 0 not-ip {records.count('skipped')} bad-header 0 not-pim 0 fragment 0 family 0"
    return [*lines, f"0 end: records 0 neighbours 0 skipped {counts}"], None


def case(data):
    lines, fault = traced(data)
    output = "".join(f"= {it}\n" for it in lines)
    text = f"words trace 10.0.0.1@file\nfile file\nx {data.hex()}\n" + (f"output\n{output}" if lines else "")
    return text + (f"errors\n= pimtree: capture {fault}\nstatus 2\n" if fault else "")


def cut_cases(program):
    frame, stamp = made.MACS + b"\x08\x06" + bytes(28), 1700000000000000
    whole = []
    for order in "<>":
        records = struct.pack(order + "IIII", stamp // 10**6, 0, len(frame), len(frame)) + frame
        whole.append(struct.pack(order + "IHHIIII", 0xA1B2C3D4, 2, 4, 0, 0, 65535, 1) + 3 * records)
        section = made.section(order, [(1, [])], [(0, stamp, frame)])
        whole.append(section + made.block(order, 3, struct.pack(order + "I", len(frame)) + frame)
                     + made.block(order, 0x99, b"abc") + section)
    files = [data[:size] for data in whole for size in range(len(data) + 1)]
    with tempfile.NamedTemporaryFile(suffix=".case") as file:
        file.write("\n".join(case(it) for it in files).encode())
        file.flush()
        return subprocess.run([program, file.name]).returncode


def main():
    program, *words = sys.argv[1:]
    if words[:1] == ["--cases"]:
        return cut_cases(program)
    if words[:1] == ["--cut"]:
        files = cut_files(words[1])
    else:
        count, seed = (int(it) for it in (words + ["500", "1"][len(words):])[:2])
        files = random_files(count, seed)
    at = -1
    for at, data in enumerate(files):
        if expected(data) != found(program, data):
            print(f"file {at}: {data.hex()}\n  expected {expected(data)}\n  found    {found(program, data)}")
            return 1
    print(f"{at + 1} files: equal")
    return 0


if __name__ == "__main__":
    sys.exit(main())
