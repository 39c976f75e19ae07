#!/usr/bin/env python3
"""Prints the definitions in crates/*/specs/: the place of each, its comment and its text.

Without NAME it prints all: crates in the order of crates.txt, files by name. With NAME it prints the statement NAME
and what it rests on. NAME is a definition, or a public function or law in crates/*/src/, of which the signature,
`requires` and `ensures` count. An ambiguous name is written CRATE.FILE.NAME, such as pim_jp.Canonical.canonical or
pim_router.canonical.canonical.

It follows the names in the text of each definition. An enum or struct of src/ is listed by its place alone; where it
has a `ghost view`, that is followed and not its fields. Names of the kit's libraries, such as std, are not followed.
A local variable with the name of a definition adds that definition to the list. Places begin at crates/.

The status is 2 where NAME does not exist or is ambiguous.
"""
import argparse
import difflib
import glob
import os
import re
import signal
from dataclasses import dataclass, field

CRATES = os.path.join(os.path.dirname(os.path.abspath(__file__)), "../crates")
USE = re.compile(r"^ *(?:ghost )?use Rattle\.(\w+)\.specs\.([\w.]+?)(?:\.\{([^}]*)\}| as (\w+));?$", re.M)
DEFINITION = re.compile(r"^( *)(?:(?:abbrev|unfoldable) )?pub (?:record |data |ruleset )?(?!mod )(\S+)", re.M)
BLOCK = re.compile(r"^( *)module _(?:.|\n)*?where$", re.M)
TYPE = re.compile(r"^(?:pub(?:\(crate\))? )?(?:enum|struct) (\w+)(?:[^{;]*;|(?:.|\n)*?^\})", re.M)
VIEW = re.compile(r"^ *ghost (?:Value|view) = (?:.|\n)*?\};$", re.M)
# The text of a function up to its body.
FUNCTION = re.compile(r"^( *)pub (?:const )?fn (\w+)(?:[^{]*?\{\}?$|(?:.|\n)*?^\1\{)", re.M)
# A word and what it is qualified by; no field after a dot, and no name that a record gives a value.
WORD = re.compile(r"(?<![\w.'])([A-Za-z_]\w*'*)(?:\.([A-Za-z_]\w*'*))?(?!\w| =[^=])")


@dataclass
class Source:
    """A file, and what its `use` lines bring in: names, and files or types under another name."""
    crate: str
    file: str
    path: str
    text: str
    names: dict = field(default_factory=dict)
    aliases: dict = field(default_factory=dict)


@dataclass
class Item:
    """A definition with its comment, an enum or struct, or a function; `around` is the head of its block."""
    kind: str
    source: Source
    name: str
    line: int
    text: str
    around: str = ""

    def place(self):
        return f"{self.source.path}:{self.line}"

    def full_name(self):
        return f"{self.source.crate}.{self.source.file}.{self.name}"


def read(path):
    """The file at this path below crates/. A name is kept as its crate, its file and its name there."""
    with open(os.path.join(CRATES, path), encoding="utf-8") as opened:
        source = Source(path.split("/")[0], os.path.basename(path).split(".")[0], path, opened.read())
    for crate, used, names, alias in USE.findall(source.text):
        declared = re.match(r"declared\.(\w+)\.(\w+)", used)
        if alias:
            source.aliases[alias] = (crate, *(declared.groups() if declared else (used, None)))
        for name in filter(None, (it.strip() for it in names.split(","))):
            theirs, _, ours = name.partition(" as ")
            source.names[ours or theirs] = (crate, *(declared.groups() if declared else (used, theirs)))
    return source


def definitions_in(source):
    """The definitions of a file of specs/: one in each paragraph that has one."""
    blocks, line = [], 1
    for part in source.text.rstrip().split("\n\n"):
        block, head = BLOCK.search(part), DEFINITION.search(part)
        if block:
            blocks = [it for it in blocks if len(it[1]) < len(block[1])] + [block]
        if head:
            blocks = [it for it in blocks if len(it[1]) < len(head[1])]
            text = part[block.end() + 1 if block else 0:]
            around = "\n".join(it[0] for it in blocks)
            yield Item("definition", source, head[2], line + part.count("\n", 0, head.start()), text, around)
        line += part.count("\n") + 2


def items_in_code(source):
    """The enums, structs and public functions of a file of src/. A type with a view has that as its text."""
    for found in TYPE.finditer(source.text):
        model = re.search(rf"^impl.* Model for {found[1]}\b(?:.|\n)*?^\}}", source.text, re.M)
        text = "\n".join(VIEW.findall(model[0])) if model else found[0]
        yield Item("type", source, found[1], source.text.count("\n", 0, found.start()) + 1, text)
    for found in FUNCTION.finditer(source.text):
        impl = re.findall(r"^impl.*", source.text[:found.start()], re.M)[-1:] if found[1] else []
        line = source.text.count("\n", 0, found.start()) + 1
        yield Item("function", source, found[2], line, re.sub(r"\s*\{\}?$", "", found[0]), "".join(impl))


def read_all():
    """All items, crate by crate: its definitions, then its types and functions."""
    with open(os.path.join(CRATES, "../crates.txt"), encoding="utf-8") as lines:
        crates = [line.split(":")[0] for line in lines if not line.startswith("#")]
    for crate in (it for it in crates if not it.endswith("_tests")):
        for path in sorted(glob.glob(f"{crate}/specs/*.antt", root_dir=CRATES)):
            yield from definitions_in(read(path))
        for path in sorted(glob.glob(f"{crate}/src/*.rt", root_dir=CRATES)):
            yield from items_in_code(read(path))


def index_of(items):
    """Definitions, constructors and types by their crate, file and name."""
    index = {}
    for item in items:
        key = (item.source.crate, item.source.file)
        if item.kind != "function":
            index[(*key, item.name)] = item
        if re.search(r"^ *pub data ", item.text, re.M):
            index |= {(*key, it): item for it in re.findall(r"^ +(\w+) :", item.text, re.M)}
    return index


def type_named(name, source, index):
    """The enum or struct that a text of src/ calls so: one of its crate, else of a crate that it uses."""
    types = {it.source.crate: it for it in index.values() if it.kind == "type" and it.name == name}
    crates = [source.crate, *re.findall(r"^use (\w+)::", source.text, re.M)]
    return next((types[it] for it in crates if it in types), None)


def cited(item, index):
    """The items that the text of an item names."""
    source = item.source
    for name, part in WORD.findall(re.sub(r"(--|//).*", "", f"{item.around}\n{item.text}")):
        crate, file, theirs = source.aliases.get(name) or source.names.get(name, (source.crate, source.file, name))
        found = index.get((crate, file, theirs or part))
        if not found and item.kind != "definition":
            found = type_named(name, source, index)
        if found:
            yield found


def all_below(items, index):
    """The ids of these items and of all that they rest on."""
    ids, left = set(), list(items)
    while left:
        item = left.pop()
        if id(item) not in ids:
            ids.add(id(item))
            left += cited(item, index)
    return ids


def items_called(name, items, refuse):
    """The items of this name: one, or the methods of one name in one file."""
    found = [it for it in items if name in (it.name, it.full_name())]
    names = sorted({it.full_name() for it in found})
    if not names:
        near = difflib.get_close_matches(name, sorted({it.name for it in items} | {it.full_name() for it in items}))
        refuse(f"there is no {name}" + (f"; did you mean {' or '.join(near)}?" if near else ""))
    if len(names) > 1:
        refuse(f"{name} is ambiguous: {', '.join(names)}")
    return found


def show(items, names_alone):
    for before, item in zip([None, *items], items):
        if names_alone or item.kind == "type":
            print(item.place(), item.name)
            continue
        around = "" if before and before.around == item.around else item.around
        print("\n".join(filter(None, [item.place(), around, item.text])) + "\n")


def main():
    words = argparse.ArgumentParser(description=__doc__, formatter_class=argparse.RawDescriptionHelpFormatter)
    how = words.add_mutually_exclusive_group()
    how.add_argument("--names", action="store_true", help="print one line for each: FILE:LINE NAME")
    how.add_argument("--count", action="store_true", help="count definitions, their lines with comments, and files")
    words.add_argument("name", nargs="*", metavar="NAME")
    given = words.parse_args()
    signal.signal(signal.SIGPIPE, signal.SIG_DFL)
    items = list(read_all())
    begin = [item for name in given.name for item in items_called(name, items, words.error)]
    below = all_below(begin, index_of(items))
    chosen = [it for it in items if (id(it) in below if begin else it.kind == "definition")]
    if given.count:
        counted = [it for it in chosen if it.kind == "definition"]
        lines = sum(it.text.count("\n") + 1 for it in counted)
        print(f"{len(counted)} definitions, {lines} lines, {len({it.source.path for it in counted})} files")
    else:
        show(chosen, given.names)


if __name__ == "__main__":
    main()
