"""Runs a command of this package: `python3 -m pimtree COMMAND ..`."""
from __future__ import annotations

import importlib
import os
import sys
import warnings
from typing import List, Optional, TextIO, Type, Union

from .events import PimtreeWarning
from .program import VERSION, PimtreeFault

COMMANDS = {
    "chart": "draws a trace as a picture, SVG or HTML",
    "annotate": "writes captures as pcapng, with the lines of a trace as comments",
    "live": "traces a live capture, in which timers fire in silence",
    "speak": "is a PIM speaker on interfaces of this machine, for tests",
    "write": "writes messages as a capture",
}
"""Each command with what it does. The module of its name has `main` and, as its text, its help."""

FAULTY = 2
"""The status of a fault."""


def _usage() -> str:
    rows = [f"  {name:<9} {about}" for name, about in COMMANDS.items()]
    usage = "usage: python3 -m pimtree COMMAND .."
    return "\n".join([usage, "", *rows, "", "COMMAND --help says more."])


def _show_warning(
    message: Union[Warning, str],
    category: Type[Warning],
    filename: str,
    lineno: int,
    file: Optional[TextIO] = None,
    line: Optional[str] = None,
) -> None:
    print(f"pimtree: warning: {message}", file=sys.stderr)


def _run(name: str, words: List[str]) -> int:
    module = importlib.import_module(f"pimtree.{name}")
    if "--help" in words or "-h" in words:
        print((module.__doc__ or "").strip())
        return 0
    status: int = module.main(words)
    if sys.stdout is not None:
        sys.stdout.flush()
    return status


def main(words: List[str]) -> int:
    """Runs the command that the words name, and returns its status."""
    warnings.showwarning = _show_warning
    warnings.simplefilter("always", PimtreeWarning)
    if words[:1] == ["--version"]:
        print(f"pimtree (Python) {VERSION}")
        return 0
    if words[:1] in ([], ["--help"], ["-h"], ["help"]):
        print(_usage())
        return 0 if words else FAULTY
    if words[0] not in COMMANDS:
        raise PimtreeFault(f"word {words[0]}: commands are {', '.join(COMMANDS)}")
    return _run(words[0], words[1:])


def _unwritten(error: OSError) -> int:
    """The status where a file can't be read or written, and its line on standard error."""
    name = f"file {error.filename}: " if error.filename else ""
    print(f"pimtree: {name}{(error.strerror or str(error)).lower()}", file=sys.stderr)
    return FAULTY


def run() -> int:
    """Runs the words of the command line. A person sees one line of each fault."""
    try:
        return main(sys.argv[1:])
    except PimtreeFault as fault:
        print(f"pimtree: {fault}", file=sys.stderr)
        return FAULTY
    except BrokenPipeError:
        # Nobody reads on. The interpreter would write what is left once more.
        os.dup2(os.open(os.devnull, os.O_WRONLY), sys.stdout.fileno())
        return FAULTY
    except OSError as error:
        return _unwritten(error)
    except KeyboardInterrupt:
        return 130


if __name__ == "__main__":
    sys.exit(run())
