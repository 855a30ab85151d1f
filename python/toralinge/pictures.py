"""Pictures of a run and of a season, for paper and screen. Nothing in them is told by colour alone."""
from __future__ import annotations

import os
from typing import TYPE_CHECKING, Any, Callable, Optional, Sequence, Union

from .history import History
from .names import Kind, Pin, Stat
from .season import CellSeason, Report
from .streams import Stream

if TYPE_CHECKING:
    from matplotlib.axes import Axes
    from matplotlib.figure import Figure

COLOURS = ("#0072B2", "#D55E00", "#009E73", "#CC79A7", "#56B4E9", "#7A5C00", "#000000")
MARKERS = "osD^vP*<>Xhpd8H"
STYLES = ("-", "--", "-.")
INK, PALE = "#222222", "#9A9A9A"
MOST_MARKERS = 400
"""Above so many scans a line has some forty marks and not one a scan."""

ROWS: tuple[tuple[str, Union[Pin, Stat]], ...] = (
    ("ALERT", Pin.ALERT), ("CHG", Pin.CHG), ("DSG", Pin.DSG), ("OV", Stat.OV), ("UV", Stat.UV), ("OCD", Stat.OCD), ("SCD", Stat.SCD),
    ("OVRD_ALERT", Stat.OVRD_ALERT), ("XREADY", Stat.XREADY), ("CC_READY", Stat.CC_READY))
"""The rows below the voltages, from above."""


def label_of(stream: Stream) -> str:
    """What a picture calls a stream: the name of its file."""
    return "a stream" if isinstance(stream, (bytes, bytearray, memoryview)) else os.path.basename(os.fspath(stream))


def volts(microvolts: float) -> float:
    """For an axis in volts."""
    return microvolts / 1_000_000


def spans(flags: Sequence[bool]) -> list[tuple[int, int]]:
    """Where flags are true: the first place and the one after the last of each run."""
    found: list[tuple[int, int]] = []
    begun: Optional[int] = None
    for at, flag in enumerate([*flags, False]):
        if flag and begun is None:
            begun = at
        elif not flag and begun is not None:
            found.append((begun, at))
            begun = None
    return found


def save(figure: "Figure", path: Union[str, "os.PathLike[str]"]) -> None:
    """Writes a picture; the ending of the name says how: ``.png``, ``.svg`` or ``.pdf``. The same picture is the same file."""
    import matplotlib

    name = os.fspath(path)
    dated = {".svg": "Date", ".pdf": "CreationDate"}.get(os.path.splitext(name)[1].lower())
    with matplotlib.rc_context({"svg.fonttype": "none", "svg.hashsalt": "toralinge", "hatch.linewidth": 0.6}):
        figure.savefig(name, dpi=120, metadata={dated: None} if dated else None)


def _figure(width: float, height: float) -> "Figure":
    from matplotlib.figure import Figure

    figure = Figure(figsize=(width, height), layout="constrained")
    figure.set_facecolor("white")
    return figure


# ---- a run ----------------------------------------------------------------------------------------------------------------

def picture(stream: Union[Stream, History], path: Union[None, str, "os.PathLike[str]"] = None, *, title: Optional[str] = None) -> "Figure":
    """The picture of a run: cell voltages by scan with the OV and UV lines, and below them the bits, ALERT and the drives.

    Everything stands at the number of its record. Scans that were not stored, and SHIP, are left blank.

    :param path: where to write it, as ``run.png`` or ``run.svg``
    :param title: what it calls the stream, in place of the name of its file; empty for no title
    """
    history = stream if isinstance(stream, History) else History(stream)
    named = title if title is not None else "a stream" if isinstance(stream, History) else label_of(stream)
    figure = _figure(11, 7.4)
    above, below = figure.subplots(2, 1, sharex=True, gridspec_kw={"height_ratios": (3, 2.5)})
    _voltages(above, history)
    _states(below, history)
    part = history.setup.name if history.setup else "no chip stands"
    if named:
        figure.suptitle(f"{named}: {part}, {len(history.run):,} records, {len(history.scans):,} scans stored", fontsize=12, x=0.01, ha="left")
    if path is not None:
        save(figure, path)
    return figure


def _asleep(history: History) -> list[tuple[int, int]]:
    return spans([not moment.awake for moment in history.moments])


def _voltages(axes: "Axes", history: History) -> None:
    blank = {at for begin, end in _asleep(history) for at in range(begin, end)} | set(history.not_stored)
    last = max(len(history.run) - 1, 1)
    axes.set_xlim(-0.7, last + 0.7)
    ends: list[tuple[float, int]] = []
    for cell in range(history.cells):
        ended = _cell(axes, history, cell, blank)
        if ended is not None:
            ends.append((ended, cell))
    if history.setup is not None:
        _line(axes, history, history.over_line, "OV line", (0, (6, 2)), "bottom")
        _line(axes, history, history.under_line, "UV line", (0, (2, 2)), "top")
    axes.margins(y=0.12)
    _end_labels(axes, ends)
    for begin, end in _asleep(history):
        _word(axes, (begin + end - 1) / 2, "SHIP", end - begin, last)
    for at in history.not_stored:
        _word(axes, at, "not stored", 1, last)
    axes.set_ylabel("cell voltage (V)")
    axes.grid(axis="y", color="#E4E4E4", linewidth=0.7)
    axes.set_axisbelow(True)
    for side in ("top", "right"):
        axes.spines[side].set_visible(False)
    if not history.moments:
        axes.set_yticks([])


def _word(axes: "Axes", at: float, word: str, wide: int, last: int) -> None:
    """A word that stands upright in a blank place; where it fits it lies."""
    lies = wide / last > 0.06
    if wide / last < 0.012:
        return
    axes.text(at, 0.5, word, transform=axes.get_xaxis_transform(), rotation=0 if lies else 90, ha="center", va="center",
              color="#6B6B6B", fontsize=8)


def _look(cell: int) -> dict[str, Any]:
    """How a cell's marks look: no two cells have the same mark."""
    return {"color": COLOURS[cell % len(COLOURS)], "marker": MARKERS[cell % len(MARKERS)], "markersize": 4.5, "markerfacecolor": "white",
            "markeredgewidth": 1.1}


def _cell(axes: "Axes", history: History, cell: int, blank: set[int]) -> Optional[float]:
    """Draws a cell, broken where something is left blank. The height of its last scan."""
    across: list[float] = []
    up: list[float] = []
    ended: Optional[float] = None
    before: Optional[int] = None
    for scan in history.scans:
        voltage = scan.microvolts[cell]
        if before is not None and any(at in blank for at in range(before + 1, scan.record)):
            across.append(float("nan"))
            up.append(float("nan"))
        across.append(scan.record)
        up.append(float("nan") if voltage is None else volts(voltage))
        ended = ended if voltage is None else volts(voltage)
        before = scan.record
    if ended is None:
        return None
    every = None if len(history.scans) <= MOST_MARKERS else len(history.scans) // 40
    axes.plot(across, up, linestyle=STYLES[cell // len(COLOURS) % len(STYLES)], linewidth=1.1, markevery=every, **_look(cell))
    return ended


def _line(axes: "Axes", history: History, height: Callable[[int], int], name: str, style: Any, side: str) -> None:
    """A line as the registers had it, while the chip was awake, with its name where it begins."""
    across: list[float] = []
    up: list[float] = []
    for at, moment in enumerate(history.moments):
        here = volts(height(at)) if moment.awake else float("nan")
        across += [at - 0.5, at + 0.5]
        up += [here, here]
    if not any(moment.awake for moment in history.moments):
        return
    axes.plot(across, up, color=INK, linestyle=style, linewidth=1.4)
    first = next(at for at, moment in enumerate(history.moments) if moment.awake)
    axes.annotate(name, (first - 0.4, volts(height(first))), xytext=(0, 3 if side == "bottom" else -3), textcoords="offset points",
                  va=side, fontsize=8.5, color=INK)


def _apart(heights: Sequence[float], least: float) -> list[float]:
    """Heights in order, moved apart where they are too close, each group about its own middle."""
    groups: list[list[float]] = []
    for height in heights:
        groups.append([height])
        while len(groups) > 1 and _lowest(groups[-1], least) < _lowest(groups[-2], least) + least * len(groups[-2]):
            groups[-2:] = [groups[-2] + groups[-1]]
    return [_lowest(group, least) + least * at for group in groups for at in range(len(group))]


def _lowest(group: Sequence[float], least: float) -> float:
    return sum(group) / len(group) - least * (len(group) - 1) / 2


def _end_labels(axes: "Axes", ends: Sequence[tuple[float, int]]) -> None:
    """The mark and the name of each cell beside the height of its last scan, moved apart where they would touch."""
    low, high = axes.get_ylim()
    axes.set_ylim(low, high)
    ordered = sorted(ends)
    placed = _apart([height for height, _ in ordered], (high - low) * 0.05)
    moved = min(0.0, high - placed[-1]) if placed else 0.0
    side = axes.get_yaxis_transform()
    for (height, cell), at in zip(ordered, (place + moved for place in placed)):
        look = _look(cell)
        axes.plot([1.002, 1.018], [height, at], transform=side, clip_on=False, color=PALE, linewidth=0.6)
        axes.plot([1.026], [at], transform=side, clip_on=False, **look)
        axes.text(1.036, at, f"cell {cell + 1}", transform=side, fontsize=8, va="center", color=INK)


def _states(axes: "Axes", history: History) -> None:
    """A row a pin and bit: a block while it is up or on, a thin line while not, nothing in SHIP; then the scans and the refusals."""
    awake = spans([moment.awake for moment in history.moments])
    names = [name for name, _ in ROWS] + ["scan", "refused"]
    height = {name: len(names) - at for at, name in enumerate(names)}
    for name, bit in ROWS:
        here = height[name]
        up = spans([bit in (entry.pins if isinstance(bit, Pin) else entry.stat) for entry in history.run])
        axes.hlines([here - 0.3] * len(awake), [begin - 0.5 for begin, _ in awake], [end - 0.5 for _, end in awake], color=PALE, linewidth=0.8)
        drive = bit in (Pin.CHG, Pin.DSG)
        axes.broken_barh([(begin - 0.5, end - begin) for begin, end in up], (here - 0.3, 0.6), facecolor="#BFD7EA" if drive else "#F2B8A0",
                         edgecolor=INK, linewidth=0.8, hatch=None if drive else "////", gid=f"row-{name}")
        for begin, end in up:
            if (end - begin) / max(len(history.run), 1) > 0.05:
                axes.text((begin + end - 1) / 2, here, "on" if drive else "up", fontsize=7.5, ha="center", va="center", color=INK,
                          bbox={"facecolor": "white", "edgecolor": "none", "pad": 0.8, "alpha": 0.85})
    _marks(axes, history, height)
    axes.set_yticks([height[name] for name in names], names, fontsize=8)
    axes.set_ylim(0.2, len(names) + 0.7)
    axes.tick_params(axis="y", length=0)
    axes.set_xlabel("record")
    axes.xaxis.get_major_locator().set_params(integer=True)
    for side in ("top", "right", "left"):
        axes.spines[side].set_visible(False)


def _marks(axes: "Axes", history: History, height: dict[str, int]) -> None:
    stored = [scan.record for scan in history.scans]
    axes.plot(stored, [height["scan"]] * len(stored), linestyle="none", marker="|", markersize=8, color=INK)
    missed = history.not_stored
    axes.plot(missed, [height["scan"]] * len(missed), linestyle="none", marker="o", markersize=5, markerfacecolor="white", color=INK)
    refused = [(entry.record, entry.number) for entry in history.run if entry.number]
    axes.plot([at for at, _ in refused], [height["refused"]] * len(refused), linestyle="none", marker="x", markersize=6, color="#B00020")
    crowded = len(refused) > 40 or any(later[0] - former[0] < len(history.run) / 60 for former, later in zip(refused, refused[1:]))
    for at, number in [] if crowded else refused:
        axes.annotate(str(number), (at, height["refused"]), xytext=(5, 0), textcoords="offset points", fontsize=7.5, va="center", color=INK)


# ---- a season -------------------------------------------------------------------------------------------------------------

def weakest_first(cells: Sequence[CellSeason]) -> list[CellSeason]:
    """Cells by their least voltage; those that were never connected last."""
    return sorted(cells, key=lambda cell: (cell.least_microvolts is None, cell.least_microvolts or 0, cell.cell))


def season_picture(stream: Union[Stream, Report], path: Union[None, str, "os.PathLike[str]"] = None, *,
                   title: Optional[str] = None) -> "Figure":
    """The picture of a pack's season: least, mean and greatest voltage of each cell, weak cells first.

    :param path: where to write it, as ``season.png`` or ``season.svg``
    """
    report = stream if isinstance(stream, Report) else Report.of(stream)
    named = title or ("a season" if isinstance(stream, Report) else label_of(stream))
    cells = weakest_first(report.cells)
    figure = _figure(10, 1.6 + 0.36 * len(cells))
    axes = figure.subplots()
    for row, cell in enumerate(cells):
        _season_row(axes, row, cell)
    axes.set_yticks(range(len(cells)), [_row_name(cell) for cell in cells])
    axes.set_ylim(len(cells) - 0.4, -1.1)
    axes.set_xlabel("cell voltage (V)")
    axes.grid(axis="x", color="#E4E4E4", linewidth=0.7)
    axes.set_axisbelow(True)
    for side in ("top", "right", "left"):
        axes.spines[side].set_visible(False)
    axes.tick_params(axis="y", length=0)
    if any(cell.connected_scans for cell in cells):
        _headings(axes, cells[0])
    else:
        axes.set_xticks([])
    figure.suptitle(f"{named}: {report.setup.name}, {report.scans:,} scans, weak cells first", fontsize=12, x=0.01, ha="left")
    if path is not None:
        save(figure, path)
    return figure


NUMBER_PLACES = (62, 118, 184)
"""Where the numbers beside the rows end, in points from the right."""


def _headings(axes: "Axes", weakest: CellSeason) -> None:
    """Names the three marks over the weakest cell, where they are far enough apart, and the numbers beside."""
    low, high = axes.get_xlim()
    marks = [volts(at or 0) for at in (weakest.least_microvolts, weakest.mean_microvolts, weakest.greatest_microvolts)]
    clear = min(marks[1] - marks[0], marks[2] - marks[1]) > (high - low) * 0.08
    for at, word, place in zip(marks, ("least", "mean", "greatest"), NUMBER_PLACES):
        if clear:
            axes.annotate(word, (at, 0), xytext=(0, 9), textcoords="offset points", ha="center", fontsize=8.5, color=INK)
        _beside(axes, -0.7, place, f"{word} (V)")


def _beside(axes: "Axes", row: float, place: int, said: str, ha: str = "right") -> None:
    axes.annotate(said, (1, row), xytext=(place, 0), xycoords=axes.get_yaxis_transform(), textcoords="offset points", ha=ha, va="center",
                  fontsize=8.5, color=INK, annotation_clip=False)


def _row_name(cell: CellSeason) -> str:
    if 0 < cell.connected_scans < cell.scans:
        return f"cell {cell.cell}, in {cell.connected_scans:,} of {cell.scans:,} scans"
    return f"cell {cell.cell}"


def _season_row(axes: "Axes", row: int, cell: CellSeason) -> None:
    found = (cell.least_microvolts, cell.mean_microvolts, cell.greatest_microvolts)
    if any(one is None for one in found):
        _beside(axes, row, 14, "never connected" if cell.scans else "no scans", "left")
        return
    least, mean, greatest = (volts(one or 0) for one in found)
    axes.plot([least, greatest], [row, row], color="#0072B2", linewidth=2, solid_capstyle="butt")
    axes.plot([least, greatest], [row, row], linestyle="none", marker="|", markersize=11, markeredgewidth=2, color="#0072B2")
    axes.plot([mean], [row], marker="D", markersize=6, markerfacecolor="white", markeredgecolor=INK, markeredgewidth=1.3)
    for number, place in zip((least, mean, greatest), NUMBER_PLACES):
        _beside(axes, row, place, f"{number:.4f}")
