#!/usr/bin/env python3
"""Moves definitions from one module to another in all `use` lines of crates/. It doesn't move the
definitions themselves.

    tools/move_name.py FROM TO NAME..       as in: pim_text.specs.Lines pim_lines.specs.AnyAddress Names
"""
import glob
import os
import re
import sys

TOP = os.path.join(os.path.dirname(os.path.abspath(__file__)), "..")


def use_lines(module):
    """A `use` line with a list of names of this module."""
    return re.compile(r"^( *(?:pub )?(?:unfoldable )?(?:ghost )?(?:pub )?use Rattle\.)" + re.escape(module) + r"\.\{([^}]*)\}(;?)$")


def names_of(text):
    return [it.strip() for it in text.split(",") if it.strip()]


def line_of(begins, module, names, ends):
    return [f"{begins}{module}.{{{', '.join(names)}}}{ends}"] if names else []


def moved(lines, old, new, names):
    """The lines, with these names under the new module."""
    pattern = use_lines(old)
    for line in lines:
        found = pattern.match(line)
        if not found:
            yield line
            continue
        begins, listed, ends = found.groups()
        going = [it for it in names_of(listed) if it.split(" as ")[0] in names]
        staying = [it for it in names_of(listed) if it not in going]
        yield from line_of(begins, old, staying, ends)
        yield from line_of(begins, new, going, ends)


def joined(lines, module):
    """The lines, with one `use` line of the module where several begin alike."""
    pattern = use_lines(module)
    result, places = [], {}
    for line in lines:
        found = pattern.match(line)
        if found and found[1] in places:
            place = places[found[1]]
            begins, listed, ends = pattern.match(result[place]).groups()
            names = dict.fromkeys(names_of(listed) + names_of(found[2]))
            result[place] = line_of(begins, module, names, ends)[0]
            continue
        if found:
            places[found[1]] = len(result)
        result.append(line)
    return result


def main():
    if len(sys.argv) < 4:
        sys.exit(__doc__)
    old, new, *names = sys.argv[1:]
    paths = [it for kind in ("src", "specs", "proofs") for it in glob.glob(f"{TOP}/crates/*/{kind}/**/*", recursive=True)]
    for path in paths:
        if not path.endswith((".rt", ".antt")):
            continue
        with open(path, encoding="utf-8") as file:
            text = file.read()
        lines = list(moved(text.split("\n"), old, new, names))
        if lines != text.split("\n"):
            with open(path, "w", encoding="utf-8") as file:
                file.write("\n".join(joined(lines, new)))


if __name__ == "__main__":
    main()
