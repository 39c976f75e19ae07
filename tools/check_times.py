#!/usr/bin/env python3
"""Prints the processor time in seconds that a check from nothing takes for each function of a
crate, the longest first.

    tools/check_times.py CRATE [--test]

The libraries of the crates below must be in crates/NAME/out/rlib, where `rt ci` and `rt lib` leave
them. The time of the function that is checked first is mostly that of loading libraries. It depends
on the inside of rattle-kit-13f.
"""
import importlib.machinery
import importlib.util
import os
import subprocess
import sys

BIN = os.path.dirname(os.path.realpath("/usr/local/bin/rt"))
TOP = os.path.join(os.path.dirname(os.path.abspath(__file__)), "..")
TICKS = os.sysconf("SC_CLK_TCK")


def load(name):
    loader = importlib.machinery.SourceFileLoader(name, f"{BIN}/{name}.py")
    module = importlib.util.module_from_spec(importlib.util.spec_from_loader(name, loader))
    sys.modules[name] = module
    loader.exec_module(module)
    return module


def spent(process):
    with open(f"/proc/{process}/stat") as file:
        fields = file.read().rsplit(")", 1)[1].split()
    return (int(fields[11]) + int(fields[12])) / TICKS


def main():
    name, flags = sys.argv[1], sys.argv[2:]
    folder = os.path.realpath(os.path.join(TOP, "crates", name))
    os.chdir(folder)
    rtlib = load("rtlib")
    rtlib.Crate.cuts_libraries = True
    crate = next(it for it in rtlib.crates_below(os.path.dirname(os.path.dirname(folder))) if it.folder == folder)
    words = [rtlib.RATTLE, "check", *crate.words(["--jobs", "1", *flags], keeps=False), "--progress"]
    running = subprocess.Popen(words, stdout=subprocess.PIPE, stderr=subprocess.STDOUT, text=True, errors="replace")
    rows, before, last = [], 0, ""
    for line in running.stdout:
        if line.startswith("checked "):
            now = spent(running.pid)
            rows.append((now - before, line.strip()))
            before = now
        last = line.strip() or last
    for seconds, line in sorted(rows, reverse=True):
        print(f"{seconds:7.1f} {line}")
    print(f"{before:7.1f} in all; {last}")
    return running.wait()


if __name__ == "__main__":
    sys.exit(main())
