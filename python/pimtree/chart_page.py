"""Draws a chart as a page with zoom and a filter, in one file that needs no network."""
from __future__ import annotations

import json

from .chart_svg import (
    CHARACTER_WIDTH,
    HATCH,
    PLOT_WIDTH,
    RIGHT_MARGIN,
    ROW_HEIGHT,
    STYLE,
    Layout,
    escaped,
    head,
    rows,
)

_POLICY = "default-src 'none'; style-src 'unsafe-inline'; script-src 'unsafe-inline'"

_STYLE = """
body { margin: 0; background: #fff; font: 13px sans-serif }
header { position: sticky; top: 0; background: #fff; border-bottom: 1px solid #999 }
[role=search] { padding: 6px 8px }
#find { width: 22em }
svg { display: block; background: #fff; user-select: none }
#body .row > text { user-select: text }
.plot { clip-path: url(#window); cursor: grab; display: none }
.seen .plot { display: inline }
@media print { .plot { display: inline } }
"""

_TOOLS = """<div role="search"><label for="find">Rows with</label>
<input id="find" type="search" autocomplete="off" placeholder="words of labels and lines">
<output id="count" for="find"></output> <button id="reset" type="button">Reset</button>
<small>Zoom: wheel, <kbd>+</kbd> <kbd>-</kbd>. Move: drag, <kbd>&larr;</kbd> <kbd>&rarr;</kbd>.
Filter: <kbd>/</kbd>. Reset: <kbd>Esc</kbd>. Point at a bar or a mark for its lines.</small>
</div>"""

_SCRIPT = """"use strict";
const chart = CHART;
const SHORTEST = 10;  // milliseconds from edge to edge
const [head, body, find, count, axis, grid, clip] =
  ["head", "body", "find", "count", "axis", "grid", "clip"].map(id => document.getElementById(id));
const whole = Math.max(1, chart.end - chart.begin);
let from = chart.begin, span = whole, width = chart.width, held = null, isDue = false;

function all(above, selector, read) { return Array.from(above.querySelectorAll(selector), read); }

function numbers(data) { return {begin: +data.begin, end: +data.end, at: +data.at}; }

const path = [];  // the labels of a row and of those above it
const rows = all(body, ".row", element => {
  const level = Number(element.dataset.level);
  path.length = level;
  path.push(element.querySelector("text").textContent);
  const titles = all(element, "title", title => title.textContent);
  return {
    element, level, y: 0, isShown: true,
    text: [...path, ...titles].join("\\n").toLowerCase(),
    bars: all(element, "rect[data-end]", bar => ({bar, ...numbers(bar.dataset)})),
    marks: all(element, "path[data-at]", mark => ({mark, ...numbers(mark.dataset)})),
  };
});

function within(low, value, high) { return Math.max(low, Math.min(value, high)); }

function x(at) { return within(-50, (at - from) / span * width, width + 50); }

function placeRow(row) {
  for (const {bar, begin, end} of row.bars) {
    bar.setAttribute("x", x(begin));
    bar.setAttribute("width", Math.max(2, x(end) - x(begin)));
  }
  for (const {mark, at} of row.marks) {
    mark.setAttribute("transform", `translate(${x(at)} ${chart.row / 2})`);
  }
}

function label(at, step) {
  const number = chart.zero + at;
  if (chart.form === "ms") return ["", String(number)];
  if (chart.form === "epoch") return ["", (number / 1000).toFixed(step < 1000 ? 3 : 0)];
  const date = new Date(number).toISOString();
  return [date.slice(0, 10), date.slice(11, step < 1000 ? 23 : 19)];
}

function drawAxis() {
  const until = from + span;
  const needed = step => Math.max(...label(Math.floor(until), step).map(it => it.length)) + 2;
  const step = chart.steps.find(it => span * needed(it) * chart.character <= it * width);
  const first = Math.ceil((from + chart.zero) / step) * step - chart.zero;
  let labels = "", lines = "", day = "";
  for (let at = first; at <= until; at += step) {
    const [date, time] = label(at, step), place = `x="${x(at)}" text-anchor="middle"`;
    if (date !== day) labels += `<text ${place} y="14">${date}</text>`;
    labels += `<text ${place} y="29">${time}</text>`;
    lines += `M${x(at)} 0V${body.getAttribute("height")}`;
    day = date;
  }
  axis.innerHTML = labels;
  grid.setAttribute("d", lines);
}

function draw() {
  isDue = false;
  drawAxis();
  const top = -chart.row - body.getBoundingClientRect().top, bottom = top + chart.row + innerHeight;
  for (const row of rows) {
    const isSeen = row.isShown && row.y > top && row.y < bottom;
    if (isSeen) placeRow(row);
    row.element.classList.toggle("seen", isSeen);  // rows out of sight cost no layout
  }
}

function drawSoon() {
  if (!isDue) requestAnimationFrame(draw);
  isDue = true;
}

// Shows this many milliseconds, with a moment at a share of the width.
function show(at, share, length) {
  span = within(Math.min(SHORTEST, whole), length, whole);
  from = within(chart.begin, at - share * span, chart.begin + whole - span);
  drawSoon();
}

function filter() {
  const words = find.value.toLowerCase().split(/\\s+/), below = [false, false, false, false];
  for (const row of [...rows].reverse()) {
    row.isShown = words.every(word => row.text.includes(word)) || below[row.level + 1];
    below[row.level + 1] = false;
    below[row.level] = below[row.level] || row.isShown;
  }
  let y = 0;
  for (const row of rows) {
    row.y = y;
    row.element.setAttribute("transform", `translate(0 ${y})`);
    row.element.style.display = row.isShown ? "" : "none";
    y += row.isShown ? chart.row : 0;
  }
  body.setAttribute("height", y);
  count.textContent = `${y / chart.row} of ${rows.length} rows`;
  drawSoon();
}

function fit() {
  width = Math.max(chart.width, document.documentElement.clientWidth - chart.left - chart.right);
  for (const part of [head, body]) part.setAttribute("width", chart.left + width + chart.right);
  clip.setAttribute("width", width + 16);
  drawSoon();
}

function reset() {
  find.value = "";
  filter();
  show(chart.begin, 0, whole);
}

function shareAt(event) {
  return (event.clientX - body.getBoundingClientRect().left - chart.left) / width;
}

for (const part of [head, body]) {
  part.addEventListener("wheel", event => {
    const share = shareAt(event);
    if (share < 0 || event.deltaY === 0) return;  // beside the plot, the page scrolls
    event.preventDefault();
    const turn = within(-100, event.deltaY * (event.deltaMode === 0 ? 1 : 33), 100);
    show(from + share * span, share, span * Math.exp(turn / 400));
  }, {passive: false});
  part.addEventListener("pointerdown", event => {
    const share = shareAt(event);
    if (share < 0 || event.button !== 0) return;
    held = {at: from + share * span, y: event.clientY + scrollY};
    part.setPointerCapture(event.pointerId);
  });
  part.addEventListener("pointermove", event => {
    if (held === null) return;
    show(held.at, shareAt(event), span);
    scrollTo(scrollX, held.y - event.clientY);
  });
  part.addEventListener("lostpointercapture", () => { held = null; });
}

const KEYS = {
  "+": () => show(from + span / 2, 0.5, span / 2),
  "-": () => show(from + span / 2, 0.5, span * 2),
  "ArrowLeft": () => show(from, 0.2, span),
  "ArrowRight": () => show(from, -0.2, span),
  "/": () => find.focus(),
  "Escape": reset,
};
addEventListener("keydown", event => {
  const isTyped = event.target === find && event.key !== "Escape";
  if (isTyped || event.ctrlKey || event.altKey || event.metaKey || !(event.key in KEYS)) return;
  event.preventDefault();
  KEYS[event.key]();
});
addEventListener("scroll", drawSoon);
addEventListener("beforeprint", () => rows.forEach(placeRow));
addEventListener("resize", fit);
find.addEventListener("input", filter);
document.getElementById("reset").addEventListener("click", reset);
fit();
filter();
"""


def _numbers(layout: Layout) -> str:
    """What the script needs to know, as JSON without any text from outside."""
    return json.dumps({
        "begin": layout.chart.begin,
        "end": layout.chart.end,
        "form": layout.clock.form.value,
        "zero": layout.clock.zero,
        "steps": layout.clock.steps,
        "left": layout.left,
        "width": PLOT_WIDTH,
        "right": RIGHT_MARGIN,
        "row": ROW_HEIGHT,
        "character": CHARACTER_WIDTH,
    })


def _svg(name: str, layout: Layout, height: int, content: str) -> str:
    return f'<svg id="{name}" width="{layout.width}" height="{height}">\n{content}\n</svg>'


def page(layout: Layout) -> str:
    """The chart as an HTML file. Without a row there is nothing to zoom or to filter."""
    above, height = head(layout)
    clip = f'<rect id="clip" x="-8" width="{PLOT_WIDTH + 16}" height="{ROW_HEIGHT}"/>'
    window = f'<clipPath id="window">{clip}</clipPath>'
    script = f"<script>\n{_SCRIPT.replace('CHART', _numbers(layout))}</script>"
    return "\n".join([
        '<!DOCTYPE html>\n<html lang="en">\n<head>\n<meta charset="utf-8">',
        f'<meta http-equiv="Content-Security-Policy" content="{_POLICY}">',
        f"<title>{escaped(layout.heading)}</title>",
        f"<style>{STYLE}{_STYLE}</style>\n</head>\n<body>\n<header>",
        *([_TOOLS] if layout.chart.rows else []),
        _svg("head", layout, height, f"{HATCH}\n{above}"),
        "</header>",
        _svg("body", layout, layout.rows_height, f"{window}\n{rows(layout)}"),
        *([script] if layout.chart.rows else []),
        "</body>\n</html>\n",
    ])
