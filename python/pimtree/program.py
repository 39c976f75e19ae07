"""The program `pimtree`: where it is, and how it is run."""
from __future__ import annotations

import os
import re
import shutil
import subprocess
from typing import IO, List, Optional, Sequence, Tuple, Union

VERSION = "0.3.0"
"""The version of this package, and the oldest one of the program that it runs."""

_LOOK = "README.md says how to build it, and PIMTREE names it"

Input = Union[IO[bytes], int, None]
"""Where a process reads: an open file, a constant of `subprocess`, or its parent's input."""


class PimtreeFault(Exception):
    """What the program refuses, in its words: those after `pimtree: ` or `fault `."""

    def __init__(self, words: str) -> None:
        super().__init__(words)
        self.words = words


def _numbers(version: str) -> Tuple[int, ...]:
    return tuple(int(it) for it in version.split("."))


def _check_version(path: str) -> None:
    """Refuses what isn't `pimtree`, and a version that lacks what this package uses."""
    try:
        ran = subprocess.run([path, "--version"], capture_output=True, timeout=30)
    except (OSError, subprocess.SubprocessError) as error:
        raise PimtreeFault(f"{path} doesn't run ({error}): {_LOOK}") from None
    found = re.match(rb"pimtree (\d+(\.\d+)*)\n", ran.stdout)
    if not found:
        raise PimtreeFault(f"{path} isn't the program pimtree: {_LOOK}")
    version = found[1].decode()
    if _numbers(version) < _numbers(VERSION):
        raise PimtreeFault(f"{path} is version {version}, but {VERSION} is needed: {_LOOK}")


_checked: List[str] = []


def find() -> str:
    """The path of the program: the one that the variable `PIMTREE` names, else one of `PATH`.

    Raises `PimtreeFault` where there is none, or where it is older than this package."""
    named = os.environ.get("PIMTREE", "")
    path = shutil.which(named or "pimtree")
    if path is None:
        where = f"{named}, which PIMTREE names" if named else "pimtree on PATH"
        raise PimtreeFault(f"no program {where}: {_LOOK}")
    if path not in _checked:
        _check_version(path)
        _checked.append(path)
    return path


def start(
    words: Sequence[str], stdin: Input = None, stderr: Input = None
) -> "subprocess.Popen[bytes]":
    """Starts the program with these words, its output in a pipe."""
    command = [find(), *words]
    try:
        return subprocess.Popen(command, stdin=stdin, stdout=subprocess.PIPE, stderr=stderr)
    except (OSError, ValueError) as error:
        raise PimtreeFault(f"{command[0]} doesn't run: {error}") from None


def fault_in(errors: str, status: int) -> PimtreeFault:
    """The fault that the program wrote to standard error."""
    rows = [it for it in errors.splitlines() if it and not it.startswith("pimtree: warning: ")]
    if rows and rows[0].startswith("pimtree: "):
        return PimtreeFault(rows[0][len("pimtree: ") :])
    if rows and rows[0].startswith("error: "):
        return PimtreeFault(rows[0])
    return PimtreeFault(rows[0] if rows else f"the program ended with status {status}")


def run(words: Sequence[str], data: bytes) -> bytes:
    """The output of the program with these words and this input. Raises its fault."""
    process = start(words, subprocess.PIPE, subprocess.PIPE)
    output, errors = process.communicate(data)
    if process.returncode != 0:
        raise fault_in(errors.decode(errors="replace"), process.returncode)
    return output


def warnings_in(errors: str) -> List[str]:
    """The warnings that the program wrote to standard error, in their order."""
    mark = "pimtree: warning: "
    return [it[len(mark) :] for it in errors.splitlines() if it.startswith(mark)]
