"""Draws a chart as SVG: a picture without script, and the parts that a page shares."""
from __future__ import annotations

import re
from dataclasses import dataclass
from typing import Iterator, List, Tuple, Union
from xml.sax.saxutils import escape

from .chart_axis import Clock, Form, Tick
from .chart_rows import Bar, Chart, Mark, Row, Sign, State

PLOT_WIDTH = 720
RIGHT_MARGIN = 50
"""Room for half of the axis's last label."""
ROW_HEIGHT = 20
_AXIS_HEIGHT = 36
CHARACTER_WIDTH = 6.8
_INDENTS = (8, 20, 32)

# The colours are of the set of Okabe and Ito. As greys they are dark, light and between.
STYLE = """
text { font-family: "DejaVu Sans Mono", Menlo, Consolas, monospace; font-size: 11px; fill: #000 }
.heading, .port text, .group text { font-weight: bold }
.paper { fill: #fff }
.rule { fill: #eee }
.grid { fill: none; stroke: #ccc; shape-rendering: crispEdges }
.join { fill: #0072b2; stroke: #000; stroke-width: .5 }
.prune-pending { fill: url(#hatch); stroke: #000; stroke-width: .8 }
.prune { fill: #e69f00; stroke: #000; stroke-width: .5 }
.known { fill: #999 }
.mark { fill: #000; stroke: #fff; stroke-width: .8 }
.ignored, .other, .before { fill: #fff; stroke: #000; stroke-width: 1.3 }
"""
HATCH = """<defs><pattern id="hatch" width="5" height="5" patternUnits="userSpaceOnUse"\
 patternTransform="rotate(45)"><rect width="5" height="5" fill="#f0e442"/>\
<rect width="1.4" height="5" fill="#000"/></pattern></defs>"""

_TOPS_AND_HEIGHTS = {
    State.JOIN: (4, 12),
    State.PRUNE_PENDING: (4, 12),
    State.PRUNE: (7, 6),
    State.KNOWN: (7, 6),
}
_SHAPES = {
    Sign.NEW: "M-4-6L6 0L-4 6Z",
    Sign.RESTARTED: "M-7-5L0 0V-5L7 0L0 5V0L-7 5Z",
    Sign.GONE: "M-5-5H5V5H-5Z",
    Sign.ECHO: "M0-7L6 0L0 7L-6 0Z",
    Sign.OVERRIDE: "M0-7L6 5H-6Z",
    Sign.EXPIRY: "M-6-4L-4-6L0-2L4-6L6-4L2 0L6 4L4 6L0 2L-4 6L-6 4L-2 0Z",
    Sign.IGNORED: "M5.5 0A5.5 5.5 0 1 1-5.5 0A5.5 5.5 0 1 1 5.5 0M-4 4L4-4",
    Sign.REFRESH: "M-1-8H1V8H-1Z",
    Sign.OTHER: "M3 0A3 3 0 1 1-3 0A3 3 0 1 1 3 0",
    Sign.BEFORE: "M4-6L-6 0L4 6Z",
}
_LEGEND: Tuple[Tuple[Union[State, Sign], str], ...] = (
    (State.JOIN, "join"),
    (State.PRUNE_PENDING, "prune-pending"),
    (State.PRUNE, "prune"),
    (Sign.ECHO, "echo"),
    (Sign.OVERRIDE, "override"),
    (Sign.EXPIRY, "expired, timed out"),
    (Sign.IGNORED, "ignored join"),
    (State.KNOWN, "neighbour"),
    (Sign.NEW, "hello new"),
    (Sign.RESTARTED, "restarted"),
    (Sign.GONE, "gone"),
    (Sign.REFRESH, "refresh"),
    (Sign.OTHER, "other packet"),
    (Sign.BEFORE, "began before"),
)

_AXES = {
    Form.MS: "ms since the first record",
    Form.EPOCH: "seconds since 1970",
    Form.UTC: "UTC",
}

_NOT_XML = re.compile("[^\t\n\r\x20-\ud7ff\ue000-\ufffd\U00010000-\U0010ffff]")


def escaped(text: str) -> str:
    """A text as XML and HTML hold it. Characters that XML can't hold become replacements."""
    return escape(_NOT_XML.sub("\ufffd", text), {'"': "&quot;"})


def _width_of(text: str) -> int:
    return round(len(text) * CHARACTER_WIDTH)


@dataclass(frozen=True)
class Layout:
    """A chart with its measures, in pixels."""

    chart: Chart
    clock: Clock
    heading: str
    left: int
    """Where the plot begins; the labels stand before it."""

    @property
    def width(self) -> int:
        """The width of the whole picture."""
        return self.left + PLOT_WIDTH + RIGHT_MARGIN

    @property
    def rows_height(self) -> int:
        """The height of all rows; that of one where there is none."""
        return max(1, len(self.chart.rows)) * ROW_HEIGHT

    @property
    def ticks(self) -> List[Tick]:
        """The ticks of the axis."""
        room = PLOT_WIDTH / CHARACTER_WIDTH
        return self.clock.ticks(self.chart.begin, self.chart.end, room)

    def x(self, at: int) -> float:
        """The place of a moment in the plot."""
        span = max(1, self.chart.end - self.chart.begin)
        return round((at - self.chart.begin) / span * PLOT_WIDTH, 1)


def layout_of(chart: Chart, clock: Clock, heading: str) -> Layout:
    """The layout of a chart. Its labels have the room that the longest one needs."""
    widths = [_INDENTS[row.level] + _width_of(row.label) for row in chart.rows]
    axis = 8 + _width_of(_AXES[clock.form])
    return Layout(chart, clock, heading, 16 + max([axis, *widths]))


def _title(text: str) -> str:
    return f"<title>{escaped(text)}</title>"


def _since_before(layout: Layout, state: State) -> str:
    name = state.value if state is State.KNOWN else f"in {state.value}"
    return f"{name} since before {layout.clock.moment(layout.chart.begin)}"


def _rectangle(state: State, x: float, width: float) -> str:
    """The beginning of a bar's element."""
    top, height = _TOPS_AND_HEIGHTS[state]
    return f'<rect class="{state.value}" x="{x:g}" y="{top}" width="{width:g}" height="{height}"'


def _shape(sign: Sign, x: float) -> str:
    """The beginning of a mark's element."""
    place = f"translate({x:g} {ROW_HEIGHT // 2})"
    return f'<path class="mark {sign.value}" d="{_SHAPES[sign]}" transform="{place}"'


def _bar(layout: Layout, bar: Bar) -> str:
    begin = layout.chart.begin if bar.begin is None else bar.begin
    end = layout.chart.end if bar.end is None else bar.end
    x = layout.x(begin)
    lines = [_since_before(layout, bar.state)] if bar.begin is None else []
    return (
        _rectangle(bar.state, x, max(2.0, round(layout.x(end) - x, 1)))
        + f' data-begin="{begin}" data-end="{end}">'
        + _title("\n".join(lines + bar.lines))
        + "</rect>"
    )


def _mark(layout: Layout, mark: Mark) -> str:
    element = _shape(mark.sign, layout.x(mark.at))
    return f'{element} data-at="{mark.at}">{_title(mark.line)}</path>'


def _marks(layout: Layout, row: Row) -> Iterator[Mark]:
    """The marks of a row: one where its first bar began before the chart, and its own. Those of
    most weight are the last, and so the topmost."""
    if row.bars and row.bars[0].begin is None:
        words = _since_before(layout, row.bars[0].state)
        yield Mark(Sign.BEFORE, layout.chart.begin, words)
    yield from sorted(row.marks, key=lambda mark: mark.sign not in (Sign.REFRESH, Sign.OTHER))


def _row(layout: Layout, row: Row, y: int) -> str:
    label = f'<text x="{_INDENTS[row.level]}" y="14">{escaped(row.label)}</text>'
    bars = [_bar(layout, bar) for bar in row.bars]
    marks = [_mark(layout, mark) for mark in _marks(layout, row)]
    return "\n".join([
        f'<g class="row {row.part.name.lower()}" data-level="{row.level}"'
        f' transform="translate(0 {y})">{label}',
        f'<rect class="rule" y="{ROW_HEIGHT - 1}" width="100%" height="1"/>',
        f'<g transform="translate({layout.left} 0)"><g class="plot">',
        *bars,
        *marks,
        "</g></g></g>",
    ])


def rows(layout: Layout) -> str:
    """The rows, on the lines of the axis."""
    if not layout.chart.rows:
        return '<text x="8" y="14">no machines and no neighbours</text>'
    grid = "".join(f"M{layout.x(tick.at):g} 0V{layout.rows_height}" for tick in layout.ticks)
    return "\n".join([
        f'<path id="grid" class="grid" d="{grid}" transform="translate({layout.left} 0)"/>',
        *(_row(layout, row, at * ROW_HEIGHT) for at, row in enumerate(layout.chart.rows)),
    ])


def _heading(layout: Layout) -> str:
    """The words of the trace, as many as fit."""
    most = int((layout.width - 16) / CHARACTER_WIDTH)
    text = layout.heading
    text = text if len(text) <= most else text[: most - 1] + "\u2026"
    return f'<text class="heading" x="8" y="18">{escaped(text)}</text>'


def _sample(sort: Union[State, Sign]) -> str:
    """A bar or a mark of the legend."""
    return (_rectangle(sort, -9, 18) if isinstance(sort, State) else _shape(sort, 0)) + "/>"


def _legend(width: int, y: int) -> Tuple[List[str], int]:
    """The entries of the legend from a height on, and the height at which they end."""
    x, entries = 8, []
    for sort, words in _LEGEND:
        needed = 40 + _width_of(words)
        if x + needed > width:
            x, y = 8, y + ROW_HEIGHT
        place = f'transform="translate({x + 10} {y})"'
        entries.append(f'<g {place}>{_sample(sort)}<text x="14" y="14">{words}</text></g>')
        x += needed
    return entries, y + ROW_HEIGHT


def _label(layout: Layout, tick: Tick) -> str:
    texts = [(14, tick.day)] if tick.day else []
    return "".join(
        f'<text x="{layout.x(tick.at):g}" y="{y}" text-anchor="middle">{text}</text>'
        for y, text in [*texts, (29, tick.label)]
    )


def _axis(layout: Layout, y: int) -> List[str]:
    """The labels of the axis at a height."""
    return [
        f'<text x="8" y="{y + 14}">{_AXES[layout.clock.form]}</text>',
        f'<g id="axis" transform="translate({layout.left} {y})">',
        *(_label(layout, tick) for tick in layout.ticks),
        "</g>",
    ]


def head(layout: Layout) -> Tuple[str, int]:
    """What stands above the rows, and its height: the words of the trace, the legend, the axis."""
    entries, y = _legend(layout.width, 26)
    axis = _axis(layout, y) if layout.chart.rows else []
    return "\n".join([_heading(layout), *entries, *axis]), y + _AXIS_HEIGHT


def picture(layout: Layout) -> str:
    """The chart as an SVG file."""
    above, y = head(layout)
    height = y + layout.rows_height + 8
    return "\n".join([
        f'<svg xmlns="http://www.w3.org/2000/svg" viewBox="0 0 {layout.width} {height}"'
        f' width="{layout.width}" height="{height}" role="img"'
        f' aria-label="Chart of {escaped(layout.heading)}">',
        f"<style>{STYLE}</style>",
        HATCH,
        '<rect class="paper" width="100%" height="100%"/>',
        above,
        f'<g transform="translate(0 {y})">',
        rows(layout),
        "</g>",
        "</svg>\n",
    ])
