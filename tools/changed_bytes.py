#!/usr/bin/env python3
"""Prints what two tests expect of messages that are cut, or that have one byte changed to any
value.

    python3 tools/changed_bytes.py

Bodies are those of crates/pim_down_tests/src/tests/jp/changed_bytes.rt, whole messages those of
crates/pim_router_tests/src/tests/router/spoilt.rt.

This is a reader of PIM messages (RFC 7761, 4.9) that shares no code with the engine. It lists all
faults of all parts, as pairs of an offset and a number, and takes the least. For each list of
bodies or messages it prints how often each number is the result, where 0 is no fault, and a digest
of all results.
"""
# the numbers of faults, in the order in which one part reports them
SHORT, FAMILY, ENCODING, MASK, NOT_GROUP, FLAGS, NOT_SOURCE, SECOND_STAR, BOTH_LISTS, TRAILING = range(1, 11)

STAR = bytes.fromhex("01000a000002" "000100d2" "01000020ef010101" "00010000" "010007200a090909")
LISTS = STAR[:18] + bytes.fromhex(
    "00030002" "010007200a090909" "01000420c0000201" "01000520c0000202" "01000420c0000202" "01000520c0000201")


def form_faults(body, at, has_mask, size):
    """The faults of the family, the encoding and the mask of an encoded address of `size` bytes."""
    found = []
    if body[at] != (1 if size == 4 else 2):
        found.append((at, FAMILY))
    if body[at + 1] != 0:
        found.append((at, ENCODING))
    if has_mask and body[at + 3] != 8 * size:
        found.append((at, MASK))
    return found


def is_group(address):
    """Whether an address is a group."""
    return address[0] >> 4 == 14 if len(address) == 4 else address[0] == 255


def is_no_source(address):
    """Whether an address is too high for a source or an RP: from 224.0.0.0 on, or in ff00::/8."""
    return address[0] >= 224 if len(address) == 4 else address[0] == 255


def set_faults(body, at, size):
    """The faults of a group set, and its end, or None if a part is cut off."""
    part = 4 + size
    if at + part > len(body):
        return [(at, SHORT)], None
    found = form_faults(body, at, True, size)
    if not is_group(body[at + 4:at + part]):
        found.append((at, NOT_GROUP))
    at += part
    if at + 4 > len(body):
        return found + [(at, SHORT)], None
    counts = [int.from_bytes(body[at:at + 2], "big"), int.from_bytes(body[at + 2:at + 4], "big")]
    at += 4
    has_star = False
    joined = set()
    for is_pruned, count in enumerate(counts):
        for _ in range(count):
            if at + part > len(body):
                return found + [(at, SHORT)], None
            found += form_faults(body, at, True, size)
            wildcard, rpt = bool(body[at + 2] & 2), bool(body[at + 2] & 1)
            address = bytes(body[at + 4:at + part])
            if wildcard and not rpt:
                found.append((at, FLAGS))
            if not any(address) or is_no_source(address):
                found.append((at, NOT_SOURCE))
            if wildcard and rpt:
                if has_star:
                    found.append((at, SECOND_STAR))
                has_star = True
            if not wildcard and is_pruned and (rpt, address) in joined:
                found.append((at, BOTH_LISTS))
            if not wildcard and not is_pruned:
                joined.add((rpt, address))
            at += part
    return found, at


def faults(body, size=4):
    """All faults of the body of a Join/Prune message, up to the first part that is cut off.
    Addresses have `size` bytes."""
    at = 2 + size
    if len(body) < at:
        return [(0, SHORT)]
    found = form_faults(body, 0, False, size)
    if len(body) < at + 4:
        return found + [(at, SHORT)]
    sets = body[at + 1]
    at += 4
    for _ in range(sets):
        more, at = set_faults(body, at, size)
        found += more
        if at is None:
            return found
    if at < len(body):
        found.append((at, TRAILING))
    return found


def told_of_changes(body):
    """How often each number is the result for the body's changes, where 0 is no fault, and the
    digest of all results."""
    counts, digest = [0] * 11, 0
    for at in range(len(body)):
        for value in range(256):
            changed = body[:at] + bytes([value]) + body[at + 1:]
            offset, number = min(faults(changed), default=(0, 0))
            counts[number] += 1
            digest = (digest * 31 + offset * 16 + number) % 2**32
    return counts, digest


# The numbers of results for messages. A Hello without a fault has 0, and the event of its sender in
# place of an offset. A Join/Prune without a fault has 19 if its sender is unknown, otherwise 21 if
# it is for 10.0.0.2 or fe80::2, otherwise 20.
FRAME_SHORT, VERSION, CHECKSUM, OTHER_TYPE, HELLO, JOIN_PRUNE, UNKNOWN, NOT_FOR_US, APPLIED = 1, 2, 3, 5, 5, 8, 19, 20, 21
OWN = bytes([10, 0, 0, 2]), bytes.fromhex("fe800000000000000000000000000002")
OPTION_LENGTH, ADDRESS = 2, 3
LENGTHS = {1: 2, 2: 4, 19: 4, 20: 4}


def is_row(value):
    """Whether the value of an Address List option is a row of whole addresses in native
    encoding."""
    at = 0
    while at < len(value):
        size = {1: 4, 2: 16}.get(value[at])
        if size is None or at + 2 + size > len(value) or value[at + 1] != 0:
            return False
        at += 2 + size
    return True


def hello_faults(body):
    """All faults of the body of a Hello, up to the first option that is cut off."""
    found, at = [], 0
    while at < len(body):
        if at + 4 > len(body):
            return found + [(at, SHORT)]
        option, length = int.from_bytes(body[at:at + 2], "big"), int.from_bytes(body[at + 2:at + 4], "big")
        if LENGTHS.get(option, length) != length:
            found.append((at, OPTION_LENGTH))
        if at + 4 + length > len(body):
            return found + [(at, SHORT)]
        if option == 24 and not is_row(body[at + 4:at + 4 + length]):
            found.append((at, ADDRESS))
        at += 4 + length
    return found


NEW, SAME, RESTARTED, GONE = range(4)


class Sender:
    """What a port knows of the sender of Hellos (RFC 7761, 4.3.1), at one moment."""

    def __init__(self):
        self.is_known, self.generation = False, None

    def hear(self, body):
        """Hears a Hello that has no fault, and returns the event of its sender."""
        options, at = {}, 0
        while at < len(body):
            option, length = int.from_bytes(body[at:at + 2], "big"), int.from_bytes(body[at + 2:at + 4], "big")
            options[option] = body[at + 4:at + 4 + length]
            at += 4 + length
        was_known, was = self.is_known, self.generation
        self.is_known, self.generation = options.get(1) != bytes(2), options.get(20)
        if not self.is_known:
            return GONE
        if not was_known:
            return NEW
        return SAME if was == self.generation else RESTARTED


class Port:
    """The machines that a port holds at one moment (RFC 7761, 4.5). No group has an RP, so no
    Join(*,G) counts."""

    def __init__(self):
        self.machines = set()

    def hear(self, body, size):
        """Hears a Join/Prune message that has no fault."""
        at = 6 + size
        for _ in range(body[3 + size]):
            group = bytes(body[at + 4:at + 4 + size])
            at += 4 + size
            counts = [int.from_bytes(body[at:at + 2], "big"), int.from_bytes(body[at + 2:at + 4], "big")]
            at += 4
            for is_pruned, count in enumerate(counts):
                for _ in range(count):
                    self.hear_entry(group, is_pruned, body[at + 2] & 3, bytes(body[at + 4:at + 4 + size]))
                    at += 4 + size

    def hear_entry(self, group, is_pruned, bits, source):
        """Hears an entry: (S,G) if no bit is set, (S,G,rpt) if only the R bit is."""
        machine = group, bits, source
        if (bits == 0 and not is_pruned) or (bits == 1 and is_pruned):
            self.machines.add(machine)
        elif bits == 1:
            self.machines.discard(machine)


def told_of(message, pseudo, port, sender):
    """The result for a message, with its offset, version, type or event. `pseudo` gives the sum of
    the pseudo-header. The sender of a Join/Prune is unknown if there is no port; that of a Hello is
    as earlier Hellos left it."""
    if len(message) < 4:
        return FRAME_SHORT, 0
    version, kind = message[0] >> 4, message[0] & 15
    if version != 2:
        return VERSION, version
    if kind not in (0, 3):
        return OTHER_TYPE, kind
    total = words(message) + pseudo(len(message))
    if total == 0 or total % 65535 != 0:
        return CHECKSUM, 0
    body = message[4:]
    if kind == 0:
        at, number = min(hello_faults(body), default=(0, 0))
        return (HELLO + number, at) if number else (0, sender.hear(body))
    size = 4 if pseudo is over_ipv4 else 16
    at, number = min(faults(body, size), default=(0, 0))
    if number:
        return JOIN_PRUNE + number, at
    if port is None:
        return UNKNOWN, 0
    if body[2:2 + size] not in OWN:
        return NOT_FOR_US, 0
    port.hear(body, size)
    return APPLIED, 0


def words(message):
    """The sum of the 16-bit words, with a zero byte after an odd length."""
    padded = bytes(message) + bytes(len(message) % 2)
    return sum(int.from_bytes(padded[at:at + 2], "big") for at in range(0, len(padded), 2))


def over_ipv4(_length):
    return 0


def over_ipv6(length):
    """The sum of the pseudo-header from fe80::9 to ff02::d."""
    return 0xfe80 + 9 + 0xff02 + 0xd + length + 103


def mended(message, pseudo):
    """The message with a correct checksum, if it is long enough to have one."""
    if len(message) < 4:
        return message
    blank = message[:2] + bytes(2) + message[4:]
    return message[:2] + (-(words(blank) + pseudo(len(message))) % 65535).to_bytes(2, "big") + message[4:]


def told_of_all(messages, pseudo, port, sender):
    """How often each number is the result for the messages, heard in order, and the digest of all
    results."""
    counts, digest = [0] * 23, 0
    for message in messages:
        number, place = told_of(message, pseudo, port, sender)
        counts[number] += 1
        digest = (digest * 31 + place * 32 + number) % 2**32
    return counts, digest


def changes(message):
    """The message with each byte changed to each value."""
    for at in range(len(message)):
        for value in range(256):
            yield message[:at] + bytes([value]) + message[at + 1:]


def tell_spoilt(name, message, pseudo, port=None):
    """Prints the results for a message that is cut, changed, and changed with a correct checksum. A
    cut message has a correct checksum, too. Then it prints how many machines the port holds."""
    message = mended(message, pseudo)
    sender = Sender()
    fronts = [mended(message[:length], pseudo) for length in range(len(message) + 1)]
    print(name, "cut:", *told_of_all(fronts, pseudo, port, sender))
    print(name, "changed:", *told_of_all(changes(message), pseudo, port, sender))
    both = (mended(each, pseudo) for each in changes(message))
    print(name, "changed and mended:", *told_of_all(both, pseudo, port, sender))
    if port:
        print(name, "machines:", len(port.machines))


HELLO_MESSAGE = bytes.fromhex(
    "20000000" "000100020069" "0002000481f409c4" "0013000400000001" "0014000401020304" "fde800020707"
    "00180018" "0100c0000201" "0200fe800000000000000000000000000007" "0014000400000002" "00180000")
LISTS_MESSAGE = bytes.fromhex("23000000") + LISTS[:7] + b"\2" + LISTS[8:] + bytes.fromhex(
    "01000020ef010102" "00000001" "010007200a090909")
LISTS_MESSAGE_V6 = bytes.fromhex(
    "23000000" "0200fe800000000000000000000000000002" "000200d2"
    "02000080ff0e0000000000000000000000000001" "00030002"
    "0200078020010db8000000000000000000000009" "0200048020010db8000000000000000000000001"
    "0200058020010db8000000000000000000000002" "0200048020010db8000000000000000000000002"
    "0200058020010db8000000000000000000000001"
    "02000080ff0e0000000000000000000000000002" "00000001" "0200078020010db8000000000000000000000009")
OTHER_MESSAGE = bytes.fromhex("25000000" "01000a090909")

print("star", *told_of_changes(STAR))
print("lists", *told_of_changes(LISTS))
for joined in 22, 30, 38:
    for pruned in 46, 54:
        body = LISTS[:pruned] + LISTS[joined:joined + 8] + LISTS[pruned + 8:]
        print(f"the entry at {joined} also at {pruned}", *told_of_changes(body))
tell_spoilt("hello", HELLO_MESSAGE, over_ipv4)
tell_spoilt("hello over ipv6", HELLO_MESSAGE, over_ipv6)
tell_spoilt("join/prune", LISTS_MESSAGE, over_ipv4)
tell_spoilt("join/prune over ipv6", LISTS_MESSAGE_V6, over_ipv6)
tell_spoilt("another type", OTHER_MESSAGE, over_ipv4)
tell_spoilt("another type over ipv6", OTHER_MESSAGE, over_ipv6)
tell_spoilt("star of a neighbour", bytes.fromhex("23000000") + STAR, over_ipv4, Port())
tell_spoilt("join/prune of a neighbour", LISTS_MESSAGE, over_ipv4, Port())
tell_spoilt("join/prune of a neighbour over ipv6", LISTS_MESSAGE_V6, over_ipv6, Port())
