"""The words of `pimtree trace`, and the options that a command of this package adds to them."""
from __future__ import annotations

import contextlib
import os
import shutil
import stat
import tempfile
from dataclasses import dataclass, field
from typing import IO, Dict, Iterator, List, Mapping, Optional, Sequence, Tuple

from .program import PimtreeFault

_TAKES_VALUE = {
    f"--{it}"
    for it in "rp routes limit after at vlan interface from group source time".split()
}
_FLAGS = {"--all", "--state", "--json"}
STANDARD_INPUT = "-"


@dataclass(frozen=True)
class Port:
    """A port of the router: a word `[NAME=]ADDRESS@FILE`, and the words `+FILE` after it."""

    name: str
    """Its name in a trace: NAME, else its place, from 0."""
    address: str
    files: Tuple[str, ...]


@dataclass
class Arguments:
    """The words of a command, parted."""

    trace: List[str] = field(default_factory=list)
    """Those of `pimtree trace`, in their order."""
    places: List[int] = field(default_factory=list)
    """Where the words of ports stand among them."""
    ports: List[Port] = field(default_factory=list)
    own: Dict[str, str] = field(default_factory=dict)
    """The values of the command's own options; a flag has an empty one."""

    def value(self, option: str) -> Optional[str]:
        """The value of an option of `pimtree trace`: its last one, if it is given."""
        given = [it for name, it in zip(self.trace, self.trace[1:]) if name == option]
        joined = [it[len(option) + 1 :] for it in self.trace if it.startswith(option + "=")]
        values = given + joined
        return values[-1] if values else None


def _port_of(word: str, place: int) -> Port:
    named, _, file = word.partition("@")
    name, _, address = named.rpartition("=")
    return Port(name or str(place), address, (file,))


def _take_word(found: Arguments, word: str) -> None:
    """Takes a word that isn't an option."""
    if word.startswith("+") and found.ports:
        last = found.ports[-1]
        found.ports[-1] = Port(last.name, last.address, (*last.files, word[1:]))
    else:
        found.ports.append(_port_of(word, len(found.ports)))
    found.places.append(len(found.trace))
    found.trace.append(word)


def _value_after(words: Sequence[str], at: int) -> str:
    if at + 1 == len(words):
        raise PimtreeFault(f"{words[at]} needs a value")
    return words[at + 1]


def read(words: Sequence[str], own: Mapping[str, bool]) -> Arguments:
    """Parts the words. `own` has the command's own options, and whether each takes a value. What
    `pimtree trace` itself refuses passes through to it."""
    found, at, are_options_over = Arguments(), 0, False
    while at < len(words):
        word = words[at]
        name, equals, value = word.partition("=")
        if are_options_over or not word.startswith("-") or word == STANDARD_INPUT:
            _take_word(found, word)
        elif name in own and equals and own[name]:
            found.own[name] = value
        elif word in own:
            found.own[word] = _value_after(words, at) if own[word] else ""
            at += own[word]
        elif word in _TAKES_VALUE:
            found.trace += [word, _value_after(words, at)]
            at += 1
        else:
            are_options_over = word == "--"
            found.trace.append(word)
        at += 1
    return found


def _is_read_once(file: str) -> bool:
    """Whether a file gives its bytes only once: a pipe, a terminal, standard input."""
    try:
        return file == STANDARD_INPUT or not stat.S_ISREG(os.stat(file).st_mode)
    except OSError:
        return False


def _copy(file: str, stdin: IO[bytes], copy: str) -> None:
    try:
        with contextlib.ExitStack() as opened, open(copy, "wb") as target:
            is_input = file == STANDARD_INPUT
            source = stdin if is_input else opened.enter_context(open(file, "rb"))
            shutil.copyfileobj(source, target)
    except OSError as error:
        raise PimtreeFault(f"file {file}: {(error.strerror or str(error)).lower()}") from None


def _file_of(word: str) -> str:
    return word[1:] if word.startswith("+") else word.partition("@")[2]


def _with_copy(word: str, copies: Mapping[str, str]) -> str:
    """The word of a port with the copy of its file in place of the file, where there is a copy."""
    file = _file_of(word)
    return word[: len(word) - len(file)] + copies[file] if file in copies else word


def _files_of(found: Arguments) -> List[str]:
    """The names of the files, as often as words name them: that of routes, and those of ports."""
    routes = found.value("--routes")
    files = [file for port in found.ports for file in port.files]
    if [routes, *files].count(STANDARD_INPUT) > 1:
        raise PimtreeFault(f"word {STANDARD_INPUT}")
    return files if routes is None else [routes, *files]


def _with_copy_of_routes(words: Sequence[str], copies: Mapping[str, str]) -> List[str]:
    """The words with the copy of the file of routes in place of the file, where there is a copy."""
    changed = list(words)
    for at, word in enumerate(words):
        name, equals, file = word.partition("=")
        if equals and name == "--routes" and file in copies:
            changed[at] = f"{name}={copies[file]}"
        elif at > 0 and words[at - 1] == "--routes" and word in copies:
            changed[at] = copies[word]
    return changed


@contextlib.contextmanager
def kept(words: Sequence[str], stdin: IO[bytes]) -> Iterator[Tuple[List[str], Dict[str, str]]]:
    """The words of a trace with files that can be read again and again. Gives them with the names
    that stand for others: pipes and standard input are copied into files until the end."""
    found = read(words, {})
    files = {file for file in _files_of(found) if _is_read_once(file)}
    with tempfile.TemporaryDirectory(prefix="pimtree-") as folder:
        copies = {file: os.path.join(folder, str(at)) for at, file in enumerate(sorted(files))}
        for file, copy in copies.items():
            _copy(file, stdin, copy)
        changed = _with_copy_of_routes(found.trace, copies)
        for place in found.places:
            changed[place] = _with_copy(changed[place], copies)
        yield changed, {copy: file for file, copy in copies.items()}
