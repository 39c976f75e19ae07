"""Draws a trace as a picture: a row for each machine and each neighbour, with its states in time.

usage: python3 -m pimtree chart -o FILE [OPTIONS] [NAME=]ADDRESS@FILE...

  -o FILE    the picture: SVG if FILE ends with .svg, and a page with zoom and a filter if it ends
             with .html or .htm

The other words are those of `pimtree trace` but `--json`; `pimtree trace --help` explains them.
`--time` is the form of the axis. `--group` and `--source` choose rows, of which a chart has at most
2000. `--all` adds marks of refreshes and of packets that need no line.

A bar is a state; its title has the lines of the trace that begin and end it. A mark is an event;
its title has its line. With `--from`, only what has an event since then has a row. The lines of
`--state` aren't drawn.

If the trace ends with a fault inside a capture, the chart shows what came before it.
"""
from __future__ import annotations

import collections
import io
import os
import shlex
import sys
from typing import Callable, Counter, List, Optional, Sequence, Tuple

from . import arguments
from .chart_axis import Clock, Form, milliseconds
from .chart_page import page
from .chart_rows import Chart, Part, Row, Rows
from .chart_svg import Layout, layout_of, picture
from .events import Event, lines
from .program import PimtreeFault

MOST_ROWS = 2_000
"""The most rows of a chart."""

_WRITERS = {".svg": picture, ".html": page, ".htm": page}


def _writer(path: str) -> Callable[[Layout], str]:
    """What draws a file, by the ending of its name."""
    for ending, writer in _WRITERS.items():
        if path.lower().endswith(ending):
            return writer
    raise PimtreeFault(f"-o {path}: the name ends with none of {', '.join(_WRITERS)}")


def _path(given: arguments.Arguments) -> str:
    """The file to write, by the command's own options."""
    if "--json" in given.own:
        raise PimtreeFault("--json: a chart is SVG or HTML, by the ending of -o FILE")
    if "-o" not in given.own:
        raise PimtreeFault("-o FILE is missing: a chart is a file .svg or .html")
    return given.own["-o"]


def _read(words: Sequence[str], rows: Rows) -> Tuple[Optional[Event], Optional[PimtreeFault]]:
    """Takes the events of a trace. Returns the last one, and the fault with which it ended."""
    last: Optional[Event] = None
    stdin = sys.stdin.buffer if sys.stdin else io.BytesIO()
    try:
        for last, line in lines(words, stdin):
            rows.take(last, line)
    except PimtreeFault as fault:
        return last, fault
    return last, None


def _clock(given: arguments.Arguments, event: Event) -> Clock:
    """The clock of a trace by one of its events, which have no times where there is no record."""
    form = Form(given.value("--time") or "ms")
    if event.epoch is None:
        return Clock(form, 0)
    return Clock(form, int(event.epoch.replace(".", "")) - event.ms)


def _begin(given: arguments.Arguments, clock: Clock) -> int:
    """The first moment of a chart; `--from` may be before the first record."""
    return max(0, milliseconds(given.value("--from") or "0", clock.first))


def _largest(counts: Counter[str], room: int) -> Optional[str]:
    """Of the names with at most so many rows, the one with the most, and their number."""
    fitting = [it for it in counts.items() if it[1] <= room]
    name, count = max(fitting, key=lambda it: it[1], default=("", 0))
    return f"{name} has {count}" if name else None


def _ways(rows: List[Row]) -> List[str]:
    """The filters that leave few enough rows."""
    groups = collections.Counter(row.group for row in rows if row.group)
    sources = collections.Counter(row.address for row in rows if row.part > Part.STAR)
    group = _largest(groups, MOST_ROWS - len(rows) + sum(groups.values()))
    source = _largest(sources, MOST_ROWS - len(rows) + sum(sources.values()))
    ways = [f"--group shows one group ({group})"] if group else []
    return ways + ([f"--source shows one source ({source})"] if source else [])


def _check_size(rows: List[Row]) -> None:
    if len(rows) > MOST_ROWS:
        ways = _ways(rows) or ["--group with --source, or fewer ports, show less"]
        words = f"chart has {len(rows)} rows, of at most {MOST_ROWS}: "
        raise PimtreeFault(words + ", ".join(ways))


def _write(path: str, text: str) -> None:
    """Writes a file by way of another one beside it, so that no half of it is ever there."""
    target = os.path.realpath(path)
    part = f"{target}.{os.getpid()}.part"
    try:
        with open(part, "w", encoding="utf-8") as file:
            file.write(text)
        os.replace(part, target)
    except OSError as error:
        raise PimtreeFault(f"file {path}: {(error.strerror or str(error)).lower()}") from None
    finally:
        if os.path.exists(part):
            os.unlink(part)


def main(words: List[str]) -> int:
    """Writes the chart of the words' trace, and returns the status."""
    given = arguments.read(words, {"-o": True, "--json": False})
    path = _path(given)
    draw = _writer(path)
    made = Rows()
    last, fault = _read(given.trace, made)
    if last is None:
        raise fault or PimtreeFault("the program wrote no trace")
    rows = made.in_order([port.name for port in given.ports])
    _check_size(rows)
    clock = _clock(given, last)
    chart = Chart(rows, _begin(given, clock), last.ms)
    heading = shlex.join(["pimtree", "trace", *given.trace])
    _write(path, draw(layout_of(chart, clock, heading)))
    if fault is not None:
        raise fault
    return 0
