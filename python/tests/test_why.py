"""Why bits rose, as sentences: those of ./why, by the model."""
from __future__ import annotations

import pickle
import re
import sys

import pytest
from common import ROOT, SCENES, model, model_stream, raises

import toralinge
from toralinge import By, Kind, Pin, Stat
from toralinge.why import rises

OVER = ROOT / "examples/over-voltage.hex"
SOME = (7, 19, 22, 26, 41, 44, 48, 63)
"""Streams of the model that have every form of a sentence among them."""


def held_to_the_model(stream: bytes) -> int:
    """Each rise in the model's words, and each drive that went off by what the model says; how many there were."""
    told = model("why", given=stream).decode().splitlines()
    run = toralinge.play(stream)
    found = rises(run)
    assert sorted(rise.sentence for rise in found.values()) == sorted(line for line in told if " rose: " in line)
    went = [f"record {change.record}: {change.name} off, by {change.sentence.rpartition(', by ')[2]}"
            for change in toralinge.changes(stream) if change.what == "drive" and not change.now]
    assert sorted(went) == sorted(line for line in told if " off, by " in line)
    return len(found) + len(went)


def test_scenes_in_the_model_s_words():  # type: ignore[no-untyped-def]
    assert sum(held_to_the_model(toralinge.stream_of(scene)) for scene in SCENES) > 20
    for scene in ROOT.glob("examples/*.hex"):
        stored = [line for line in scene.with_suffix(".why").read_text().splitlines() if " rose: " in line]
        assert sorted(rise.sentence for rise in rises(toralinge.play(scene)).values()) == sorted(stored)


@pytest.mark.parametrize("number", SOME)
def test_streams_in_the_model_s_words(number):  # type: ignore[no-untyped-def]
    stream = model_stream(number)
    held_to_the_model(stream)
    run = toralinge.play(stream)
    for (record, bit), rise in list(rises(run).items())[::7]:
        assert run.why(record, bit) == rise


def standing(run: toralinge.Run, record: int) -> list[str]:
    """What stands after a record, in the lines of ``./why FILE RECORD``."""
    entry = run[record]
    lines = [f"{bit.name} is up since record {rise.rose}: {rise.words}" for bit in Stat if bit in entry.stat for rise in (run.why(record, bit),)]
    return lines + [f"{pin.name} is on" if pin in entry.pins else run.off(record, pin).sentence for pin in (Pin.CHG, Pin.DSG)]


def test_what_stands_in_the_model_s_words(tmp_path):  # type: ignore[no-untyped-def]
    for number in (19, 26, 48):
        (tmp_path / str(number)).write_bytes(model_stream(number))
    for path in (*SCENES, *tmp_path.iterdir()):
        run = toralinge.play(path)
        for record in {len(run) // 3, len(run) // 2, len(run) - 1} if run else ():
            told = model("why", str(path), str(record)).decode().splitlines()
            assert told[told.index(f"after record {record}:") + 1:] == standing(run, record), (path, record)


def test_the_words_for_every_case():  # type: ignore[no-untyped-def]
    """Each form of a sentence is among those that are held to the model."""
    said = "".join(model("why", given=model_stream(number)).decode() for number in SOME)
    for form in ("a cell above", "an input above", "a cell below", "an input below", "scans .* the limit then set", "ticks .* the limit then set",
                 "one scan with", "one tick above", r"ticks \(records", r"ticks \(record ", "pulled up from outside", "the outside level is 1", "XREADY was reported", "a count of charge came"):
        assert re.search(form, said), form


def test_over_voltage_by_hand():  # type: ignore[no-untyped-def]
    rise = toralinge.why(OVER, 17, "OV")
    assert (rise.rose, rise.first, rise.cause, rise.many, rise.limit, rise.input, rise.value) == (12, 9, By.SCANS, 4, 10_952, 5, 10_953)
    assert rise.bit == Stat.OV and rise.records == (9, 10, 11, 12)
    assert rise.sentence == "record 12: OV rose: the last 4 scans (records 9 to 12) each had a cell above 10,952; cell 5 at 10,953"
    assert toralinge.why(OVER, 17, Stat.OV) == toralinge.why(toralinge.stream_of(OVER), 17, 4) == toralinge.play(OVER).why(17, "OV") == rise
    assert pickle.loads(pickle.dumps(rise)) == rise
    with pytest.raises(AttributeError):
        rise.rose = 3  # type: ignore[misc]


def test_drives_by_hand():  # type: ignore[no-untyped-def]
    assert toralinge.off(OVER, 3, "CHG") == toralinge.Off(Pin.CHG, None, Stat(0), "CHG is off: nobody has asked for it")
    assert toralinge.off(OVER, 17, Pin.CHG) == toralinge.Off(Pin.CHG, 12, Stat.OV, "CHG is off: OV is up since record 12")
    assert toralinge.off(OVER, 22, 2).sentence == "CHG is off since record 12, by OV: nobody has asked for it since"
    ships = toralinge.stream_of(ROOT / "examples/sleep-and-wake.hex")
    assert toralinge.off(ships, 25, "DSG").sentence == "DSG is off since record 20, by SHIP: nobody has asked for it since"
    by_host = toralinge.off(ROOT / "examples/spoiled-frame.hex", 19, "CHG")
    assert by_host.since == 19 and by_host.sentence == "CHG is off since record 19, by the host: nobody has asked for it since"


def test_what_is_not_so_is_refused():  # type: ignore[no-untyped-def]
    many = len(toralinge.play(OVER))
    for record in (many, many + 1, -1, 1 << 40, 1 << 64, 1 << 70):
        with raises(27, None):
            toralinge.why(OVER, record, "OV")
        with raises(27, None):
            toralinge.off(OVER, record, "CHG")
    for bit in (0, 3, 0x40, 0x104, -1, 1 << 32, "UV"):
        with raises(28, None):
            toralinge.why(OVER, 12, bit)
    for drive in (0, 3, 4, "ALERT", "DSG", -1):
        with raises(28, None):
            toralinge.off(OVER, 12, drive)
    with raises(27, None):
        toralinge.why(b"", 0, "OV")
    with pytest.raises(KeyError):
        toralinge.why(OVER, 12, "NONE")


def test_many_rises_are_asked_together(monkeypatch):  # type: ignore[no-untyped-def]
    """Counts of charge that are cleared again and again: one question for all. And where it would be too much, no reason is given."""
    frame = b"".join(toralinge.record(kind, 1, values) for kind, values in (
        (Kind.START, ()), (Kind.OUT, (0x10,)), (Kind.OUT, (0x05,)), (Kind.OUT, (0x40,)), (Kind.STOP, ())))
    clear = frame.replace(toralinge.record(Kind.OUT, 1, (0x05,)), toralinge.record(Kind.OUT, 1, (0x00,)), 1).replace(b"\x40", b"\x80")
    head = toralinge.record(Kind.SETUP, 1, (1, 0, 8, 10, 30, 1000)) + toralinge.record(Kind.BOOT, 1)
    stream = head + frame + (toralinge.record(Kind.COUNT, 1, (7,)) + clear) * 500 + toralinge.record(Kind.XREADY, 1)
    run = toralinge.play(stream)
    asked = []
    real = toralinge.library.library().calls
    monkeypatch.setattr(toralinge.library.library(), "calls", lambda many: asked.extend(many) or real(many))
    found = rises(run)
    assert len(found) == 501 and len(asked) == 2 and {rise.words for rise in found.values()} == {"a count of charge came", "XREADY was reported"}
    assert all(rise.rose == rise.first == record and rise.bit == bit for (record, bit), rise in found.items())
    monkeypatch.setattr(sys.modules["toralinge.why"], "REPLAYED_MOST", 1000)
    few = rises(run)
    assert len(few) == 500 and (len(run) - 1, Stat.XREADY) not in few
    last = toralinge.changes(stream)[-2]
    assert last.name == "XREADY" and last.sentence.endswith("XREADY rose (the chip reports an internal fault)")
