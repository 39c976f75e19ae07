#!/usr/bin/env python3
"""Prints each edit (a wrong body) that can't be applied, since its old text isn't in its file
exactly once.

    tools/edits_fit.py [CRATE..]

It reads crates/NAME/must-fail and crates/NAME/more-must-fail of these crates, or of all. `rt check`
reports only those of must-fail. Nothing is proved, so it takes no time.
"""
import pathlib
import sys

TOP = pathlib.Path(__file__).resolve().parent.parent / "crates"


def misfit(crate, edit):
    """The first old text that can't be replaced, or None."""
    texts = {}
    file = old = None
    for line in edit.read_text().splitlines():
        word, _, text = line.partition(": ")
        if word == "file":
            file = crate / text
            if not file.is_file():
                return f"no file {text}"
            texts.setdefault(file, file.read_text())
        elif word == "old":
            old = text
        elif word == "new":
            if texts[file].count(old) != 1 or old == text:
                return old
            texts[file] = texts[file].replace(old, text)
    return None


def main():
    crates = [TOP / name for name in sys.argv[1:]] or sorted(TOP.iterdir())
    count, misfits = 0, 0
    for crate in crates:
        for edit in sorted(crate.glob("m*-fail/*.edit")):
            count += 1
            old = misfit(crate, edit)
            if old is not None:
                misfits += 1
                print(f"{edit.relative_to(TOP)}: {old}")
    print(f"{count} edits, {misfits} that don't fit")
    return 1 if misfits else 0


sys.exit(main())
