"""A page of a run: one HTML file that opens anywhere, with no network."""
from __future__ import annotations

import io
import os
import re
from html import escape
from typing import Iterable, Iterator, Optional, Union

from .changes import Change, Why, changes_of
from .history import History
from .names import Pin, Stat
from .pictures import label_of, picture
from .refused import Refused
from .run import Entry
from .season import CellSeason, Report
from .streams import Stream

ALL_RECORDS = 3_000
"""Up to so many records all are listed; of more only those near a change."""
NEAR = 3

STYLE = """
:root { --ink: #1c2430; --pale: #5c6675; --line: #d7dce3; --mark: #fff1b8; --link: #0b4f8a; }
* { box-sizing: border-box; }
body { margin: 0; padding: 1.2rem 1.6rem 4rem; font: 15px/1.45 system-ui, "DejaVu Sans", sans-serif; color: var(--ink); background: #fff; }
h1 { font-size: 1.35rem; margin: 0 0 .2rem; } h2 { font-size: 1.05rem; margin: 0 0 .5rem; } p.about { color: var(--pale); margin: 0 0 1rem; }
.run { display: grid; grid-template-columns: minmax(0, 3fr) minmax(20rem, 2fr); gap: 1.4rem; align-items: start; }
.picture svg { width: 100%; height: auto; display: block; } .picture { position: relative; }
.picture .here { stroke: #b00020; stroke-width: 1.4; stroke-dasharray: 4 2; fill: none; }
section { margin-bottom: 1.6rem; min-width: 0; }
ol.changes { margin: 0; padding: 0; list-style: none; max-height: 34rem; overflow: auto; border: 1px solid var(--line); border-radius: 6px; }
ol.changes li { border-bottom: 1px solid var(--line); } ol.changes li:last-child { border: 0; }
ol.changes a { display: flex; padding: .35rem .7rem; color: var(--ink); text-decoration: none; }
ol.changes a:hover, ol.changes a:focus { background: #eef4fa; outline: none; } ol.changes li.picked a { background: var(--mark); }
ol.changes .what { flex: 0 0 4.8rem; color: var(--pale); font-size: .82em; padding-top: .15em; }
ol.changes .refused .what { color: #b00020; font-weight: 600; } .filters { margin: 0 0 .5rem; font-size: .9em; color: var(--pale); }
.filters label { margin-right: .9rem; white-space: nowrap; }
.wide { overflow: auto; } table { border-collapse: collapse; font-size: .9em; }
th, td { padding: .25rem .6rem; border-bottom: 1px solid var(--line); }
th { text-align: right; font-weight: 600; vertical-align: bottom; background: #f6f8fa; position: sticky; top: 0; }
td { text-align: right; font-variant-numeric: tabular-nums; }
th.text, td.text { text-align: left; } td.nothing { color: var(--pale); } tr:target, tr.picked { background: var(--mark); }
tr.gap td { color: var(--pale); text-align: center; font-style: italic; }
.records { max-height: 22rem; overflow: auto; border: 1px solid var(--line); border-radius: 6px; }
.records table { width: 100%; } code { font-family: "DejaVu Sans Mono", ui-monospace, monospace; font-size: .92em; }
@media (max-width: 60rem) { .run { grid-template-columns: minmax(0, 1fr); } }
@media print { ol.changes, .records { max-height: none; } }
"""

SCRIPT = """
(function () {
  'use strict';
  var svg = document.querySelector('.picture svg');
  var frame = document.querySelector('.picture');
  function clear() {
    document.querySelectorAll('.picked').forEach(function (one) { one.classList.remove('picked'); });
    document.querySelectorAll('.here').forEach(function (one) { one.remove(); });
  }
  function line(record) {
    var first = Number(frame.dataset.first), step = Number(frame.dataset.step);
    var made = document.createElementNS('http://www.w3.org/2000/svg', 'path');
    var x = first + step * record;
    made.setAttribute('class', 'here');
    made.setAttribute('d', 'M' + x + ',' + frame.dataset.top + 'V' + frame.dataset.bottom);
    svg.appendChild(made);
  }
  function show(row) {
    if (!row) { return; }
    var box = document.querySelector('.records');
    box.scrollTop += row.getBoundingClientRect().top - box.getBoundingClientRect().top - box.clientHeight / 2;
    box.scrollIntoView({block: 'nearest'});
  }
  function pick(change) {
    clear();
    change.classList.add('picked');
    var records = change.dataset.records.split(' ');
    records.forEach(function (number) {
      var row = document.getElementById('record-' + number);
      if (row) { row.classList.add('picked'); }
      line(Number(number));
    });
    show(document.getElementById('record-' + records[0]));
  }
  document.querySelectorAll('ol.changes li').forEach(function (change) {
    change.querySelector('a').addEventListener('click', function (event) {
      event.preventDefault();
      history.replaceState(null, '', this.getAttribute('href'));
      pick(change);
    });
  });
  document.querySelectorAll('.filters input').forEach(function (box) {
    box.addEventListener('change', function () {
      document.querySelectorAll('ol.changes li.' + box.value).forEach(function (one) { one.hidden = !box.checked; });
    });
  });
}());
"""

WORDS = {"refused": "refusals", "mode": "SHIP and waking", "bit": "bits", "alert": "ALERT", "drive": "drives", "setting": "settings"}


def page(stream: Stream, path: Union[None, str, "os.PathLike[str]"] = None, *, title: Optional[str] = None, why: Optional[Why] = None) -> str:
    """The page of a run: its picture, what changed as sentences, the season of each cell, the refusals and the records.

    A click on a change leads to the records that made it. The sentences are those of :func:`toralinge.changes`.

    :param path: where to write it, as ``run.html``
    :param why: tells why a bit rose, and which records made it due, in place of the proved calls
    :returns: the page's text
    """
    history = History(stream)
    named = title or label_of(stream)
    found = list(changes_of(history, why))
    text = _whole(history, named, found)
    if path is not None:
        with open(path, "w", encoding="utf-8") as file:
            file.write(text)
    return text


def _whole(history: History, named: str, found: list[Change]) -> str:
    part = history.setup.name if history.setup else "no chip stands"
    about = f"{part}, {len(history.run):,} records, {len(history.scans):,} scans stored, {sum(bool(one.number) for one in history.run):,} refused"
    return "".join((
        "<!DOCTYPE html>\n<html lang=\"en\">\n<head>\n<meta charset=\"utf-8\">\n",
        "<meta name=\"viewport\" content=\"width=device-width, initial-scale=1\">\n",
        f"<title>{escape(named)}</title>\n<style>{STYLE}</style>\n</head>\n<body>\n",
        f"<h1>{escape(named)}</h1>\n<p class=\"about\">{escape(about)}</p>\n<div class=\"run\">\n",
        _picture(history, named), _changes(found), "</div>\n", _records(history, found), _season(history), _refusals(history),
        f"<script>{SCRIPT}</script>\n</body>\n</html>\n"))


def _picture(history: History, named: str) -> str:
    """The picture, inline, with the places of its records for the script."""
    import matplotlib

    figure = picture(history, title="")
    held = io.StringIO()
    with matplotlib.rc_context({"svg.fonttype": "none", "svg.hashsalt": "toralinge", "hatch.linewidth": 0.6}):
        figure.savefig(held, format="svg", metadata={"Date": None})
    svg = held.getvalue()
    svg = re.sub(r"\A.*?(?=<svg)", "", svg, flags=re.S)
    svg = re.sub(r"<metadata>.*?</metadata>", "", svg, flags=re.S)
    svg = svg.replace("<svg ", f"<svg role=\"img\" aria-label=\"Cell voltages, bits and drives of {escape(named, quote=True)}\" ", 1)
    above, below = figure.axes[:2]
    tall = figure.get_figheight() * 72
    scale = 72 / figure.dpi
    first, second = (below.transData.transform((record, 1))[0] * scale for record in (0, 1))
    top, bottom = (tall - above.bbox.y1 * scale, tall - below.bbox.y0 * scale)
    return (f"<section class=\"picture\" data-first=\"{first:.3f}\" data-step=\"{second - first:.6f}\" data-top=\"{top:.1f}\" "
            f"data-bottom=\"{bottom:.1f}\">\n{svg}</section>\n")


def _changes(found: list[Change]) -> str:
    there = [what for what in WORDS if any(change.what == what for change in found)]
    boxes = "".join(f"<label><input type=\"checkbox\" value=\"{what}\" checked> {WORDS[what]}</label>" for what in there)
    items = "".join(
        f"<li id=\"change-{at}\" class=\"{change.what}\" data-records=\"{' '.join(map(str, change.records))}\">"
        f"<a href=\"#record-{change.records[0]}\"><span class=\"what\">{change.what}</span> <span>{escape(change.sentence)}</span></a></li>\n"
        for at, change in enumerate(found))
    none = "" if found else "<p class=\"about\">Nothing changed.</p>"
    return f"<section>\n<h2>What changed</h2>\n<p class=\"filters\">{boxes}</p>\n<ol class=\"changes\">\n{items}</ol>{none}\n</section>\n"


def _row(cells: Iterable[tuple[str, str]], name: str = "") -> str:
    return f"<tr{name}>" + "".join(f"<td{f' class={kind!r}' if kind else ''}>{text}</td>" for text, kind in cells) + "</tr>\n"


def _heads(heads: Iterable[tuple[str, str]]) -> str:
    return "<tr>" + "".join(f"<th{f' class={kind!r}' if kind else ''}>{escape(text)}</th>" for text, kind in heads) + "</tr>\n"


def _number(number: Optional[float]) -> tuple[str, str]:
    return ("–", "nothing") if number is None else (f"{number:,}", "")


SEASON_HEADS = ("cell", "scans", "connected in", "least (µV)", "in scan", "mean (µV)", "greatest (µV)", "in scan", "least count", "in scan",
                "greatest count", "in scan", "sum of counts", "sum of µV")


def _season(history: History) -> str:
    """The season of each cell, or why there is none."""
    try:
        report = Report.of(history.run.stream)
    except Refused as error:
        return f"<section>\n<h2>Season of each cell</h2>\n<p>None: {escape(str(error))}.</p>\n</section>\n"
    rows = "".join(_row(map(_number, _season_numbers(cell))) for cell in report.cells)
    return (f"<section>\n<h2>Season of each cell</h2>\n<div class=\"wide\"><table class=\"season\">\n{_heads((head, '') for head in SEASON_HEADS)}"
            f"{rows}</table></div>\n</section>\n")


def _season_numbers(cell: CellSeason) -> Iterator[Optional[int]]:
    mean = cell.mean_microvolts
    yield from (cell.cell, cell.scans, cell.connected_scans, cell.least_microvolts, cell.least_microvolts_scan,
                None if mean is None else round(mean), cell.greatest_microvolts, cell.greatest_microvolts_scan, cell.least_count,
                cell.least_count_scan, cell.greatest_count, cell.greatest_count_scan, cell.total_counts, cell.total_microvolts)


def _refusals(history: History) -> str:
    refused = history.run.refusals
    if not refused:
        return "<section>\n<h2>Refusals</h2>\n<p class=\"about\">No record was refused.</p>\n</section>\n"
    rows = "".join(_row(((f"<a href=\"#record-{one.record}\">{one.record:,}</a>", ""), (escape(history.run.words(one.record or 0)), "text"),
                         (str(one.number), ""), (escape(one.words), "text"))) for one in refused)
    heads = _heads((("record", ""), ("what it is", "text"), ("number", ""), ("in words", "text")))
    return f"<section>\n<h2>Refusals</h2>\n<div class=\"wide\"><table class=\"refusals\">\n{heads}{rows}</table></div>\n</section>\n"


def _listed(history: History, found: list[Change]) -> list[int]:
    """The records that the page lists: all, or in a long run those near a change."""
    many = len(history.run)
    if many <= ALL_RECORDS:
        return list(range(many))
    near = {at for change in found for record in change.records for at in range(record - NEAR, record + NEAR + 1)}
    return sorted(at for at in near | {0, many - 1} if 0 <= at < many)


def _records(history: History, found: list[Change]) -> str:
    rows: list[str] = []
    before = -1
    for at in _listed(history, found):
        if at != before + 1:
            rows.append(f"<tr class=\"gap\"><td colspan=\"8\">records {before + 1:,} to {at - 1:,}: nothing changed</td></tr>\n")
        rows.append(_record(history, history.run[at]))
        before = at
    heads = _heads((("record", ""), ("what it is", "text"), ("answer", "text"), ("bus", ""), ("SYS_STAT", "text"), ("ALERT", ""), ("CHG", ""),
                    ("DSG", "")))
    return f"<section>\n<h2>Records</h2>\n<div class=\"records\"><table>\n{heads}{''.join(rows)}</table></div>\n</section>\n"


def _record(history: History, entry: Entry) -> str:
    bits = " ".join(str(bit.name) for bit in Stat if bit in entry.stat) or "–"
    answer = "done" if not entry.number else f"refused, {entry.number}"
    cells = [(f"{entry.record:,}", ""), (f"<code>{escape(history.run.words(entry.record))}</code>", "text"), (answer, "text"),
             ("" if entry.bus is None else f"<code>{entry.bus:02X}</code>", ""), (bits, "text")]
    cells += [(word if pin in entry.pins else "–", "") for pin, word in ((Pin.ALERT, "up"), (Pin.CHG, "on"), (Pin.DSG, "on"))]
    return _row(cells, f" id=\"record-{entry.record}\"")
