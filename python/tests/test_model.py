"""Every call against the answers of the model, which shares no line with the library."""
from __future__ import annotations

import ctypes

import pytest
from common import SCENES, model, model_stream, told

import toralinge
from toralinge.library import Spread, library, room
from toralinge.season import season_rows


def answer(call, *given):  # type: ignore[no-untyped-def]
    """The number and what a call gives."""
    try:
        return 0, call(*given)
    except toralinge.Refused as error:
        return error.number, None


def held_to_the_model(stream: bytes) -> int:
    """Holds all that is asked of a stream to the model; how many lines there were."""
    lines = list(told(stream))
    if lines[0][0] == "none":
        number = int(lines[0][1])
        for call in (toralinge.Chip.after, toralinge.season, toralinge.scans):
            assert answer(call, stream)[0] == number
        return 1
    chip = toralinge.Chip.after(stream)
    numbers = [(what, [int(word) for word in rest if word != "refused"]) for what, *rest in lines]
    for what, given in numbers:
        asked_of_the_chip(chip, what, given)
    found = list(toralinge.scans(stream))
    told_scans = [given for what, given in numbers if what == "scan"]
    assert len(found) == len(told_scans)
    for scan, (at, bits, *voltages) in zip(found, told_scans):
        assert scan.record == at and bits >> len(scan.microvolts) == 0
        assert [voltages[cell] if bits >> cell & 1 else None for cell in range(len(scan.microvolts))] == list(scan.microvolts)
    rows = [given for what, given in numbers if what == "season"]
    if len(rows[0]) == 9:
        assert season_rows(stream) == rows == toralinge.season(stream).rows
    else:
        assert [answer(toralinge.season, stream)[0]] == rows[0]
    run = toralinge.play(stream)
    for what, given in [one for one in numbers if one[0] in ("why", "off")][::5]:
        asked_why(run, what, given)
    return len(lines)


def asked_why(run, what, numbers):  # type: ignore[no-untyped-def]
    """Holds one line about why a bit is up, or since when a drive is off."""
    record, of, number, *row = numbers
    refused, given = answer(run.why if what == "why" else run.off, record, of)
    assert refused == number, (what, numbers)
    if not number and what == "why":
        assert [given.rose, given.first, given.cause, given.many, given.limit, given.input, given.value] == row
    elif not number:
        assert [(1 << 64) - 1 if given.since is None else given.since, given.held] == row


def asked_of_the_chip(chip, what, numbers):  # type: ignore[no-untyped-def]
    """Holds one line about the chip that a stream leaves."""
    if what == "registers":
        assert [chip.registers[at] for at in range(256)] == numbers
    elif what == "awake":
        assert chip.asleep == (not numbers[0])
    elif what == "voltage":
        cell, number, *microvolts = numbers
        assert answer(chip.voltage, cell) == (number, microvolts[0] if microvolts else None)
    elif what == "reading":
        number, *values = numbers
        given = answer(chip.reading)
        assert given[0] == number and (number or [float(one) for one in values] == list(given[1]))
    elif what == "bleed":
        margin, number, *three = numbers
        assert answer(chip.bleed, margin) == (number, tuple(three) if not number else None)
    elif what == "reply":
        command, resistor, number, *three = numbers
        given = answer(chip.smart_battery, command, resistor)
        assert given[0] == number and (number or list(given[1].data) == three)


@pytest.mark.parametrize("scene", SCENES, ids=lambda path: path.stem)
def test_scenes_play_as_they_are_stored(scene):  # type: ignore[no-untyped-def]
    assert toralinge.play(scene).lines() == scene.with_suffix(".expected").read_text()
    held_to_the_model(toralinge.stream_of(scene))


@pytest.mark.parametrize("number", range(0, 80, 2))
def test_streams_of_the_model(number):  # type: ignore[no-untyped-def]
    stream = model_stream(number)
    if len(stream) <= 65_536:
        assert toralinge.play(stream).lines() == model("play", given=stream).decode()
    assert held_to_the_model(stream) >= 1


CALLS = {"m": ("toralinge_cell_microvolts", ctypes.c_int64), "t": ("toralinge_thermistor_ohms", ctypes.c_uint64),
         "d": ("toralinge_die_temperature", ctypes.c_int64), "o": ("toralinge_over_voltage_code", ctypes.c_uint8),
         "u": ("toralinge_under_voltage_code", ctypes.c_uint8)}


def test_conversions_on_the_whole_grid():  # type: ignore[no-untyped-def]
    lines = [line.split() for line in model("values").decode().splitlines()]
    assert len(lines) > 200_000
    for call, (name, kind) in CALLS.items():
        rows = [[int(word) for word in line[1:]] for line in lines if line[0] == call]
        assert rows
        gains, offsets, counts, wanted, numbers, values = (list(column) for column in zip(*rows))
        given = room(kind, len(rows))
        out = Spread(given, range(0, ctypes.sizeof(kind) * len(rows), ctypes.sizeof(kind)))
        columns = {"m": (gains, offsets, counts, out), "o": (gains, offsets, wanted, out)}.get(call if call != "u" else "o", (counts, out))
        assert library().each(name, len(rows), *columns) == numbers
        assert [value for value, number in zip(given, numbers) if not number] == [value for value, number in zip(values, numbers) if not number]
    for line in lines:
        if line[0] == "c" and int(line[3]) % 97 == 0:
            assert toralinge.cc_hundredths(int(line[3])) == int(line[6])
