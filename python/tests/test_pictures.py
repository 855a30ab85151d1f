"""Pictures: what is in them, and that they are drawn for every scene."""
from __future__ import annotations

import math
import struct

import pytest
from common import ROOT, SCENES, pack

import toralinge
from toralinge.history import History, over_count, under_count
from toralinge.pictures import picture, season_picture, spans, weakest_first

SOME = [path for path in SCENES if path.parent.name == "examples" or path.stem in ("kinds", "refused", "empty", "cut-header-1", "first-no-setup")]
PNG = b"\x89PNG\r\n\x1a\n"


def size(path):  # type: ignore[no-untyped-def]
    """Width and height of a PNG file."""
    data = path.read_bytes()
    assert data.startswith(PNG)
    return struct.unpack(">II", data[16:24])


def lines(axes):  # type: ignore[no-untyped-def]
    """The heights of each drawn line, rounded to microvolts; blanks left out."""
    return [[round(height * 1_000_000) for height in line.get_ydata() if not math.isnan(height)] for line in axes.get_lines()]


@pytest.mark.parametrize("scene", SOME, ids=lambda path: path.stem)
def test_a_scene_is_drawn(scene, tmp_path):  # type: ignore[no-untyped-def]
    picture(scene, tmp_path / "run.png")
    assert size(tmp_path / "run.png") == (1320, 888)
    try:
        season_picture(scene, tmp_path / "season.png")
    except toralinge.Refused as error:
        assert toralinge.play(scene)[:1] == [] or toralinge.play(scene)[0].number == error.number
    else:
        assert size(tmp_path / "season.png")[0] == 1200


@pytest.mark.parametrize("ending", ("svg", "pdf", "png"))
def test_the_same_picture_is_the_same_file(ending, tmp_path):  # type: ignore[no-untyped-def]
    for name in ("a", "b"):
        picture(ROOT / "examples/season.hex", tmp_path / f"{name}.{ending}")
    assert (tmp_path / f"a.{ending}").read_bytes() == (tmp_path / f"b.{ending}").read_bytes() != b""


def test_voltages_are_drawn_as_the_library_gives_them():  # type: ignore[no-untyped-def]
    stream = pack(5, 80, 2)
    above = picture(stream).axes[0]
    drawn = lines(above)
    found = list(toralinge.scans(stream))
    names = {text.get_text() for text in above.texts}
    for cell in range(10):
        had = [scan.microvolts[cell] for scan in found if scan.microvolts[cell] is not None]
        assert (had in drawn) == (f"cell {cell + 1}" in names) == bool(had)
    assert {"OV line", "UV line"} <= names and len(names) >= 11


def test_the_lines_are_where_the_chip_judges():  # type: ignore[no-untyped-def]
    """A count on the line is not over and one more is; a count on the lower line is not under and one less is."""
    for code in (0, 1, 0x80, 0xAC, 0xFF):
        for count, bit in ((over_count(code), 0), (over_count(code) + 1, 4), (under_count(code), 0), (under_count(code) - 1, 8)):
            chip = toralinge.Chip()
            chip.boot()
            chip.write("SYS_CTRL2", toralinge.Ctrl2.DELAY_DIS)
            chip.write("OV_TRIP", code if bit != 8 and count >= 8200 else 0xFF)
            chip.write("UV_TRIP", code if count < 8200 else 0)
            assert chip.scan([count] * 5).stat == bit, (code, count)


def test_the_lines_follow_the_registers():  # type: ignore[no-untyped-def]
    history = History(ROOT / "examples/sleep-and-wake.hex")
    assert history.over_line(10) == toralinge.cell_microvolts(10, 30, 10_952)
    assert history.over_line(11) == toralinge.cell_microvolts(10, 30, 10_248)
    assert [moment.awake for moment in history.moments] == [False] * 2 + [True] * 18 + [False] * 7 + [True] * 8
    drawn = lines(picture(history).axes[0])
    assert any({history.over_line(10), history.over_line(11)} == set(line) for line in drawn)


def test_what_is_left_blank():  # type: ignore[no-untyped-def]
    """The scan that was not stored and SHIP break every cell's line in the season example."""
    history = History(ROOT / "examples/season.hex")
    assert history.not_stored == [11]
    above, below = picture(history).axes
    blanks = [sum(math.isnan(height) for height in line.get_ydata()) for line in above.get_lines()[:4]]
    assert blanks == [2, 2, 2, 2]
    assert {"SHIP", "not stored"} <= {text.get_text() for text in above.texts}
    assert [label.get_text() for label in below.get_yticklabels()] == [
        "ALERT", "CHG", "DSG", "OV", "UV", "OCD", "SCD", "OVRD_ALERT", "XREADY", "CC_READY", "scan", "refused"]
    assert [list(line.get_xdata()) for line in below.get_lines()] == [[4, 5, 17, 20, 27], [11], [2]]


def test_no_two_cells_look_alike():  # type: ignore[no-untyped-def]
    drawn = picture(pack(2, 40, 3, shorted=False)).axes[0].get_lines()[:15]
    assert len({(line.get_marker(), line.get_linestyle()) for line in drawn}) == 15


def test_weak_cells_come_first():  # type: ignore[no-untyped-def]
    report = toralinge.season(pack(11, 60, 3))
    ordered = weakest_first(report.cells)
    had = [cell.least_microvolts for cell in ordered if cell.least_microvolts is not None]
    assert had == sorted(had) and all(cell.least_microvolts is None for cell in ordered[len(had):])
    labels = [label.get_text().split(",")[0] for label in season_picture(report).axes[0].get_yticklabels()]
    assert labels == [f"cell {cell.cell}" for cell in ordered]


def test_spans():  # type: ignore[no-untyped-def]
    assert spans([]) == [] and spans([True, True, False, True]) == [(0, 2), (3, 4)]
