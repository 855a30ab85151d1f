"""Properties on made-up streams: splits and joins, damaged streams, hostile values."""
from __future__ import annotations

import pytest
from common import pack
from hypothesis import HealthCheck, given, settings, strategies as some

import toralinge
from toralinge import Chip, Kind, Refused, Report

modest = settings(max_examples=60, deadline=None, suppress_health_check=list(HealthCheck))
packs = some.builds(pack, some.integers(0, 10_000), some.integers(3, 60), some.integers(0, 3))
PACK = pack(3, 20)
numbers = some.integers() | some.sampled_from([0, 1, -1, 31, 32, 255, 256, 16_383, 16_384, 65_535, 65_536, 2**31, 2**32, 2**63 - 1, 2**63, -(2**63)])


@modest
@given(packs, some.lists(some.integers(0, 4000), max_size=5))
def test_feeding_in_pieces_is_playing_the_whole(stream, cuts):  # type: ignore[no-untyped-def]
    """Cut between records, wherever that is."""
    run = toralinge.play(stream)
    ends = [place.end for place in run.places]
    places = sorted({ends[cut % len(ends)] for cut in cuts} | {ends[0], len(stream)})
    chip = Chip.after(stream[:places[0]])
    entries = list(run[:1])
    for begin, end in zip(places, places[1:]):
        entries += chip.feed(stream[begin:end])
    assert entries == list(run)
    assert bytes(chip) == bytes(Chip.after(stream))


@modest
@given(some.integers(0, 10_000), some.integers(1, 3), some.lists(some.integers(1, 25), min_size=1, max_size=4))
def test_a_joined_season_is_the_season_of_the_whole(seed, part, lengths):  # type: ignore[no-untyped-def]
    """Parts of one pack, cut between scans; the floor makes cells come and go."""
    stream = pack(seed, 2 + sum(lengths), part)
    run = toralinge.play(stream)
    head = stream[:run.places[1].end]
    bodies, at = [], 2
    for length in lengths:
        bodies.append(b"".join(run.record(number) for number in range(at, min(at + length, len(run)))))
        at += length
    bodies.append(b"".join(run.record(number) for number in range(at, len(run))))
    whole = toralinge.season(head + b"".join(bodies))
    joined = toralinge.season(head + bodies[0])
    for body in bodies[1:]:
        joined = joined.join(toralinge.season(head + body))
    assert joined.rows == whole.rows and joined.cells == whole.cells


@modest
@given(packs, packs)
def test_joining_other_chips_is_refused(first, second):  # type: ignore[no-untyped-def]
    one, other = toralinge.season(first), toralinge.season(second)
    if one.setup[:1] + one.setup[3:] == other.setup[:1] + other.setup[3:]:
        assert one.join(other).scans == one.scans + other.scans
    else:
        with pytest.raises(Refused) as caught:
            one.join(other)
        assert caught.value.number == 25


@modest
@given(packs, some.data())
def test_damage_is_refused_and_never_more(stream, data):  # type: ignore[no-untyped-def]
    """Bytes changed, dropped and put in anywhere."""
    held = bytearray(stream)
    for _ in range(data.draw(some.integers(1, 6))):
        at = data.draw(some.integers(0, len(held) - 1)) if held else 0
        how = data.draw(some.sampled_from("sdi"))
        if how == "s" and held:
            held[at] = data.draw(some.integers(0, 255))
        elif how == "d":
            del held[at:at + data.draw(some.integers(1, 9))]
        else:
            held[at:at] = data.draw(some.binary(max_size=9))
    _tried(bytes(held))


@modest
@given(some.binary(max_size=300))
def test_any_bytes_are_refused_and_never_more(stream):  # type: ignore[no-untyped-def]
    _tried(stream)


def _explained(run: toralinge.Run) -> None:
    """Every bit that is up has a why, every drive that is off an off, and nothing else has one."""
    for at in sorted({0, len(run) // 3, len(run) // 2, len(run) - 2, len(run) - 1, len(run)}):
        there = 0 <= at < len(run)
        for bit in toralinge.Stat:
            try:
                rise = run.why(at, bit)
                assert there and bit in run[at].stat and rise.first <= rise.rose <= at and rise.records[0] == rise.first and rise.records[-1] == rise.rose
                assert bit not in (run[rise.rose - 1].stat if rise.rose else 0) and all(bit in run[since].stat for since in range(rise.rose, at))
            except Refused as error:
                assert error.number == (28 if there else 27) and not (there and bit in run[at].stat)
        for pin in (toralinge.Pin.CHG, toralinge.Pin.DSG):
            try:
                off = run.off(at, pin)
                assert there and pin not in run[at].pins and off.held == off.held & run[at].stat
                assert off.since is None or pin in run[off.since - 1].pins and all(pin not in run[since].pins for since in range(off.since, at + 1))
            except Refused as error:
                assert error.number == (28 if there else 27) and not (there and pin not in run[at].pins)


def _tried(stream: bytes) -> None:
    run = toralinge.play(stream)
    assert len(run) == len(run.places) and all(0 <= entry.number <= 26 for entry in run)
    for call in (toralinge.season, toralinge.scans, Chip.after, toralinge.setup_of):
        try:
            call(stream)
        except Refused as error:
            assert run[0].number == error.number if len(run) else error.number == 9
    assert len(toralinge.changes(stream)) >= len(run.refusals)
    _explained(run)
    [table] = [toralinge.seasons([stream])]
    assert len(table) >= 1 and table["refused_number"].isna().all() == (bool(run) and not run[0].number)


@modest
@given(numbers, numbers, numbers)
def test_hostile_numbers_are_refused_and_never_more(one, two, three):  # type: ignore[no-untyped-def]
    chip = Chip()
    chip.boot()
    calls = [
        lambda: toralinge.cell_microvolts(one, two, three), lambda: toralinge.thermistor_ohms(one), lambda: toralinge.die_temperature(one),
        lambda: toralinge.over_voltage_code(one, two, three), lambda: toralinge.under_voltage_code(one, two, three),
        lambda: toralinge.cc_hundredths(one), lambda: toralinge.crc8(b"x", one), lambda: Chip(one, address=two, floor=three),
        lambda: Chip(gain_code=one, offset=two, cells=three), lambda: chip.scan([one, two, three, 0, 0]), lambda: chip.temp([one]),
        lambda: chip.count(one), lambda: chip.sense(one, two), lambda: chip.out(one), lambda: chip.voltage(one), lambda: chip.bleed(one),
        lambda: chip.smart_battery(one, two), lambda: chip.registers[one], lambda: chip.write(one, two), lambda: chip.read(one),
        lambda: toralinge.record(one, two, (three,)), lambda: toralinge.values(b"\0\0\2\0", one),
        lambda: toralinge.why(b"", one, two), lambda: toralinge.off(PACK, one, two), lambda: toralinge.why(PACK, one, two),
    ]
    for call in calls:
        try:
            call()
        except Refused as error:
            assert 1 <= error.number <= 28 and error.words == toralinge.words(error.number)


@modest
@given(some.sampled_from([Kind.SCAN, Kind.TEMP, Kind.SENSE, Kind.OUT, Kind.TICKS, Kind.SOAK, Kind.COUNT, Kind.LOAD, Kind.STOP]),
       some.integers(1, 3), some.data())
def test_what_is_written_is_read(kind, part, data):  # type: ignore[no-untyped-def]
    count = some.integers(0, 16_383)
    value = some.integers(-500_000, 500_000)
    fields = {Kind.SCAN: [count] * 5 * part, Kind.TEMP: [count] * part, Kind.SENSE: [value], Kind.OUT: [some.integers(0, 255)],
              Kind.TICKS: [value, some.integers(1, 4096)], Kind.SOAK: [value, some.integers(1, 16_777_216)], Kind.COUNT: [some.integers(0, 65_535)],
              Kind.LOAD: [some.integers(0, 1)], Kind.STOP: []}
    drawn = tuple(data.draw(field) for field in fields[kind])
    assert toralinge.values(toralinge.record(kind, part, drawn), part) == (kind, drawn)


@modest
@given(some.text(max_size=60) | some.from_regex(r"(w[0-9]{1,2}@0x[0-9a-f]{1,2}( 0x[0-9a-f]{1,2}){0,4} ?){1,3}", fullmatch=True))
def test_command_lists_are_taken_or_refused(line):  # type: ignore[no-untyped-def]
    chip = Chip()
    chip.boot()
    try:
        chip.transfer(line)
    except Refused as error:
        assert error.number in (20, 21)
