"""Nothing in the package adds an offset or multiplies a gain: voltages come from the proved calls."""
from __future__ import annotations

import ast
import re
from pathlib import Path

from common import pack

import toralinge

WORDS = re.compile(r"offset|gain|microvolt|voltage|volts\b|count(?!er)|\b1_?000\b|\b344\b|\b354\b", re.I)
ARITHMETIC = (ast.Add, ast.Sub, ast.Mult)
ALLOWED = {
    "8200 + 16 * code",     # the count of a trip register, no voltage: how the chip judges
    "4096 + 16 * code",
}


def sums(source: str) -> list[str]:
    """The sums, differences and products of a source that speak of counts, voltages, offsets or gains."""
    found = []
    for node in ast.walk(ast.parse(source)):
        if isinstance(node, (ast.BinOp, ast.AugAssign)) and isinstance(node.op, ARITHMETIC):
            text = ast.unparse(node)
            named = {inner.id for inner in ast.walk(node) if isinstance(inner, ast.Name)}
            named |= {inner.attr for inner in ast.walk(node) if isinstance(inner, ast.Attribute)}
            named |= {str(inner.value) for inner in ast.walk(node) if isinstance(inner, ast.Constant)}
            if any(WORDS.search(name) for name in named) and text not in ALLOWED:
                found.append(text)
    return found


def test_the_look_out_sees_what_it_must():  # type: ignore[no-untyped-def]
    for wrong in ("v = gain * count + 1000 * offset", "x += offset_millivolts", "row.microvolts - 30000", "(344 + code)", "a.mean_voltage + b"):
        assert sums(wrong), wrong
    assert not sums("at + 1") and not sums("total / many")


def test_no_source_adds_an_offset():  # type: ignore[no-untyped-def]
    sources = sorted(Path(toralinge.__file__).parent.glob("*.py"))
    assert len(sources) > 12
    wrong = {path.name: found for path in sources if (found := sums(path.read_text(encoding="utf-8")))}
    assert wrong == {}


def test_the_offset_is_in_once_by_numbers():  # type: ignore[no-untyped-def]
    """The same counts on chips that differ in the offset alone: every voltage differs by it once, and every total once a scan."""
    seen = 0
    for seed in range(6):
        base = pack(seed, 40, shorted=False)
        tables = {}
        for millivolts in (0, 30, -128, 127):
            stream = bytearray(base)
            stream[8] = millivolts & 0xFF
            tables[millivolts] = toralinge.seasons([bytes(stream)])
            report = toralinge.season(bytes(stream))
            chip = toralinge.Chip.after(bytes(stream))
            for cell, row in zip(report.cells, tables[millivolts].itertuples()):
                plain = tables[0].iloc[cell.cell - 1]
                assert cell.least_microvolts == row.least_microvolts == plain["least_microvolts"] + 1000 * millivolts
                assert cell.greatest_microvolts == row.greatest_microvolts == plain["greatest_microvolts"] + 1000 * millivolts
                assert cell.total_microvolts == plain["total_microvolts"] + 1000 * millivolts * cell.connected_scans
                seen += 1
            voltages = chip.voltages
            assert chip.reading().total_microvolts == sum(voltages) and chip.reading().least_microvolts == min(voltages)
            assert list(list(toralinge.scans(bytes(stream)))[-1].microvolts) == voltages
    assert seen > 100
