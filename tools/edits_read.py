#!/usr/bin/env python3
"""Prints each edit (a wrong body) that the checker can't read, as when it names a type that isn't
imported.

    tools/edits_read.py [LANES]

Such an edit never reaches the prover, and `rt must-fail` reports it only when it tries it. Run this
in a crate's folder. The libraries of the crates below must be in crates/*/out, where `rt ci` leaves
them. LANES checks run at a time, one if not given.

It starts a check of each edit, and ends it after the time in which a type error would have been
reported: two and a half times what one takes at first, and 3 s. That is some ten seconds for each
edit. If the machine becomes much busier meanwhile, it may miss one. It doesn't report what can't be
read in specs/ or proofs/. tools/edits_fit.py prints the edits whose old text is gone. It depends on
the inside of rattle-kit-13f, as tools/over_gate.py does.
"""
import os
import shutil
import subprocess
import sys
import tempfile
import time
from concurrent.futures import ThreadPoolExecutor

from over_gate import BIN, crate_here, load

FOLDERS = ["must-fail", "more-must-fail"]
MISTAKE = "\nfn a_mistake_of_types(number: u64) -> bool { number }\n"


def told(rtlib, crate, texts, limit):
    """The first error of a check of the crate with these texts in place of its own; empty if there
    is none within `limit` seconds."""
    with tempfile.TemporaryDirectory(prefix="edits-read-") as room:
        for part in rtlib.PARTS:
            if os.path.isdir(f"{crate.folder}/{part}"):
                shutil.copytree(f"{crate.folder}/{part}", f"{room}/{part}")
        for path, text in texts.items():
            with open(f"{room}/{path}", "w", encoding="utf-8") as file:
                file.write(text)
        words = [rtlib.RATTLE, "check", *crate.words(["--jobs", "1"], keeps=False)]
        how = {"cwd": room, "stdin": subprocess.DEVNULL, "stdout": subprocess.PIPE, "stderr": subprocess.STDOUT, "text": True}
        try:
            said = subprocess.run(words, timeout=limit, errors="replace", **how).stdout
        except subprocess.TimeoutExpired:
            return ""
        return next((it for it in said.splitlines() if ": error[" in it), "")


def seconds_to_a_mistake(rtlib, crate):
    """The time in seconds until a type error is reported."""
    root = next(it for it in ("src/lib.rt", "src/main.rt") if os.path.exists(it))
    with open(root, encoding="utf-8") as file:
        text = file.read()
    begun = time.monotonic()
    if not told(rtlib, crate, {root: text + MISTAKE}, None):
        sys.exit("a type error isn't reported: are the libraries of the crates below in crates/*/out?")
    return time.monotonic() - begun


def main(lanes="1"):
    sys.path.insert(0, BIN)
    rt = load("rt")
    import rtlib

    crate = crate_here(rtlib)
    limit = 2.5 * seconds_to_a_mistake(rtlib, crate) + 3

    def fault(edit):
        texts, why = rt.read_edit(f"{crate.folder}/{edit}", crate.folder)
        return why or told(rtlib, crate, texts, limit)

    names = [f"{it}/{name}" for it in FOLDERS if os.path.isdir(it) for name in sorted(os.listdir(it)) if name.endswith(".edit")]
    with ThreadPoolExecutor(int(lanes)) as pool:
        faults = [(edit, why) for edit, why in zip(names, pool.map(fault, names)) if why]
    for edit, why in faults:
        print(f"{edit}: {why}")
    print(f"{crate.name}: {len(names)} edits, {len(faults)} that can't be read")
    return 1 if faults else 0


if __name__ == "__main__":
    sys.exit(main(*sys.argv[1:]))
