#!/usr/bin/env python3
"""Writes the captures of examples/, with their words, reports, traces and audits, as cases of crates/pimtree_cases.

    python3 tools/examples_as_tests.py
"""
import os

TOP = os.path.join(os.path.dirname(os.path.abspath(__file__)), "..")
NAMES = ["lan", "lost", "ipv6", "fault"]
LINKS = ["transit-lan", "transit-up"]
PLACE = os.path.join(TOP, "crates", "pimtree_cases", "data", "cases", "examples.case")


def content(name, kind):
    path = os.path.join(TOP, "examples", f"{name}.{kind}")
    if not os.path.exists(path):
        return b""
    with open(path, "rb") as file:
        return file.read()


def hexadecimal(data):
    digits = data.hex()
    return "".join(f"x {digits[i : i + 96]}\n" for i in range(0, len(digits), 96))


def lines(part, data):
    """A part of a case with these lines, or nothing where there are none."""
    rows = "".join(f"= {line}\n" for line in data.decode().splitlines())
    return f"{part}\n{rows}" if rows else ""


def case(name, command, kind):
    """The case of a command with the words of the replay, if there is a file of this kind with its output.
    Where a file is cut, a replay has an error, since it reads classic captures alone, and a trace a warning."""
    output = content(name, kind)
    if not output:
        return ""
    words = " ".join(command + content(name, "words").decode().split()[1:])
    errors = content(name, "errors" if kind == "report" else "warnings")
    status = "status 2\n" if errors and kind == "report" else ""
    return f"\nwords {words}\n" + lines("output", output) + lines("errors", errors) + status


def cases(name):
    replay = case(name, ["replay"], "report")
    return replay + case(name, ["trace"], "trace") + case(name, ["trace", "--json"], "json")


def audits(name):
    """The cases of an audit. Something is late in it, so its status is 1."""
    of_each = case(name, ["audit"], "audit"), case(name, ["audit", "--json"], "json")
    return "".join(f"{it}status 1\n" for it in of_each)


def text():
    head = "# The captures of examples/, written here by tools/examples_as_tests.py.\n"
    files = "".join(f"\nfile {name}.pcap\n" + hexadecimal(content(name, "pcap")) for name in NAMES + LINKS)
    return head + files + "".join(cases(name) for name in NAMES) + audits("transit")


with open(PLACE, "w") as file:
    file.write(text())
