"""A chip that stays: its words, its events, its bus."""
from __future__ import annotations

import pickle

import pytest
from common import SCENES, pack, raises

import toralinge
from toralinge import Chip, Ctrl2, Kind, Register, Stat


def test_document_01_by_words():  # type: ignore[no-untyped-def]
    chip = Chip("MS9920T", address=0x08, gain_code=10, offset=30, floor=1000)
    assert chip.asleep and chip.records == 1
    chip.boot()
    chip.scan([6144, 7952, 6144, 6144, 6144])
    assert chip.voltages[:2] == [2_204_976, 2_845_008]
    assert chip.transfer("w2@0x08 0x05 0x03") == ([], True)
    assert (chip.chg, chip.dsg, chip.alert) == (True, True, False)
    entry = chip.xready()
    assert entry.stat == Stat.XREADY and (entry.alert, entry.chg, entry.dsg) == (True, False, False)
    assert (chip.chg, chip.dsg, chip.alert) == (False, False, True)
    assert chip.registers["SYS_STAT"] == 0x20 and chip.registers["VC2"] == 7952 and chip.registers[0x51] == 30


@pytest.mark.parametrize("crc", (False, True))
def test_write_and_read_do_the_crc(crc):  # type: ignore[no-untyped-def]
    chip = Chip("9940", crc=crc, address=0x18, offset=-128)
    with pytest.raises(toralinge.NotAcknowledged):
        chip.write("SYS_CTRL2", 3)
    with pytest.raises(toralinge.NotAcknowledged):
        chip.read("SYS_CTRL2")
    chip.boot()
    chip.write("CELLBAL1", 1, 2, 4)
    chip.write("SYS_CTRL2", Ctrl2.CHG_ON | Ctrl2.DSG_ON | Ctrl2.CC_EN)
    chip.write(0x09, 0x80)
    assert chip.read("CELLBAL1", 3) == b"\1\2\4" and chip.read("SYS_CTRL2") == b"\x43"
    assert chip.registers["OV_TRIP"] == 0x80
    assert chip.count(0xC350).stat == Stat.CC_READY
    assert chip.registers["CC"] == 0xC350 and chip.read("CC", 2) == b"\xC3\x50"
    assert chip.read("VC1", 30) == bytes(30) and chip.read("ADCOFFSET") == b"\x80"
    assert all(chip.read(at) == bytes([chip.registers[at]]) for at in range(256))


def test_parts_by_name_and_number():  # type: ignore[no-untyped-def]
    for number, names in {1: ("MS9920T", "ms9920t", "9920", 9920), 2: ("MS9930T", "9930", 9930), 3: ("MS9940T", "9940", 9940)}.items():
        assert all(Chip(name).setup == Chip(number).setup and Chip(name).setup.part == number for name in names)


def test_a_wrong_crc_is_not_acknowledged():  # type: ignore[no-untyped-def]
    chip = Chip(crc=True)
    chip.boot()
    assert chip.transfer("w3@0x08 0x05 0x03 0xEA").acknowledged and chip.chg
    assert not chip.transfer("w3@0x08 0x05 0x00 0xE4").acknowledged and chip.chg
    assert chip.transfer("w1@0x08 0x00 r2@0x08") == ([b"\x00\x42"], True)


def test_refusals_carry_number_words_and_record():  # type: ignore[no-untyped-def]
    for given in ({"part": 4}, {"part": "MS1"}, {"address": 7}, {"gain_code": 32}, {"offset": 300}, {"floor": 4096}, {"address": 1 << 70}):
        with raises(1):
            Chip(**{"part": 1, **given})
    with raises(13):
        Chip("MS9940T", cells=10)
    chip = Chip()
    with raises(4, 1):
        chip.scan([0] * 5)
    chip.boot()
    for counts, number in (([0] * 4, 2), ([0] * 6, 2), ([16384] + [0] * 4, 3), ([-1] * 5, 3), ([1 << 80] * 5, 3)):
        with raises(number, 3):
            chip.scan(counts)
    for call, number in ((lambda: chip.sense(500_001), 3), (lambda: chip.sense(1, 16_777_217), 3), (lambda: chip.sense(1, 0), 3),
                         (lambda: chip.out(256), 3), (lambda: chip.transfer("w1@0x08"), 20), (lambda: chip.transfer("r1@0x78"), 21),
                         (lambda: chip.transfer(""), 20), (lambda: chip.voltage(6), 6), (lambda: chip.voltage(-1), 6), (lambda: chip.voltage(0), 6),
                         (lambda: chip.bleed(0), 3), (lambda: chip.bleed(1 << 32), 3), (lambda: chip.smart_battery("charge"), 23),
                         (lambda: chip.smart_battery("voltage", 101), 3), (lambda: chip.write(0x100, 1), 3), (lambda: chip.write(5, 256), 3),
                         (lambda: chip.voltage(1), 10), (chip.reading, 10), (lambda: chip.registers[256], 3)):
        with raises(number):
            call()
    assert str(toralinge.Refused(3, record=7)).startswith("record 7: refused, 3: ")


def test_a_refusal_changes_nothing():  # type: ignore[no-untyped-def]
    chip = Chip()
    chip.boot()
    before = bytes(chip)
    with raises(3):
        chip.scan([20_000] * 5)
    assert bytes(chip) == before


def test_everything_survives_pickling():  # type: ignore[no-untyped-def]
    error = toralinge.Refused(3, record=7)
    again = pickle.loads(pickle.dumps(error))
    assert again == error and (again.number, again.words, again.record) == (3, error.words, 7) and str(again) == str(error)
    chip = Chip("MS9930T", cells=8)
    chip.boot()
    chip.scan(range(9000, 9010))
    again = pickle.loads(pickle.dumps(chip))
    assert bytes(again) == bytes(chip) and again.voltages == chip.voltages and again.setup == chip.setup and again.records == chip.records
    report = toralinge.season(pack(1, 30))
    assert pickle.loads(pickle.dumps(report)) == report


def test_a_copy_stands_alone():  # type: ignore[no-untyped-def]
    chip = Chip()
    other = chip.copy()
    other.boot()
    assert chip.asleep and not other.asleep
    with raises(26):
        Chip.kept(b"\xff" * len(bytes(chip)), chip.setup)
    with raises(26):
        Chip.kept(b"", chip.setup)


def test_the_pack_of_fewer_cells_and_the_floor():  # type: ignore[no-untyped-def]
    chip = Chip("MS9940T", cells=13)
    chip.boot()
    chip.scan([9000] * 8 + [90] + [9000] * 4 + [90, 9000])
    assert chip.voltages == [toralinge.cell_microvolts(10, 30, 9000)] * 13
    bare = Chip("MS9940T")
    bare.boot()
    bare.scan([9000] * 8 + [90] + [9000] * 4 + [90, 9000])
    assert [cell for cell, voltage in enumerate(bare.voltages, 1) if voltage is None] == [9, 14]


def test_bleed_and_smart_battery():  # type: ignore[no-untyped-def]
    chip = Chip()
    chip.boot()
    chip.scan([9000, 9050, 9000, 9100, 9080])
    assert chip.bleed(10) == (0b01010, 0, 0) and chip.bleed(10).inputs == [2, 4]
    volts = chip.smart_battery("voltage")
    assert volts.value == int(chip.reading().total_microvolts) // 1000 and volts.data[:2] == volts.value.to_bytes(2, "little")
    chip.write("SYS_CTRL2", Ctrl2.CC_EN)
    chip.count(0xFC18)
    assert chip.smart_battery("current", 1).value == -8440 and chip.smart_battery(0x0A, 1).value == -8440


def test_ticks_choose_their_record():  # type: ignore[no-untyped-def]
    chip = Chip()
    chip.boot()
    kinds = [chip.sense(-100, times).kind for times in (1, 2, 4096, 4097, 16_777_216)]
    assert kinds == [Kind.SENSE, Kind.TICKS, Kind.TICKS, Kind.SOAK, Kind.SOAK]


def test_every_event_is_its_record():  # type: ignore[no-untyped-def]
    chip = Chip()
    done = [chip.boot(), chip.temp([1000]), chip.pin(), chip.load(True), chip.level(True), chip.level(False), chip.start(), chip.stop(), chip.por()]
    assert [entry.kind for entry in done] == [2, 4, 7, 8, 0x15, 0x15, 0x10, 0x13, 1]
    assert done[2].stat == Stat.OVRD_ALERT and chip.asleep
    chip.boot()
    chip.start()
    assert chip.out(0x10) and chip.out(0x09) and chip.start() and chip.out(0x11) and chip.in_(False) == 0xAC and chip.in_() == 0xFF


def test_pins_and_registers_agree_after_every_record():  # type: ignore[no-untyped-def]
    looked = 0
    for stream in [toralinge.stream_of(scene) for scene in SCENES] + [pack(seed, 120) for seed in range(4)]:
        run = toralinge.play(stream)
        if not run or run[0].number:
            continue
        chip = Chip.after(run.record(0))
        for entry in run[1:]:
            [fed] = chip.feed(run.record(entry.record))
            assert fed == entry
            assert (chip.stat, chip.alert, chip.chg, chip.dsg) == (entry.stat, entry.alert, entry.chg, entry.dsg)
            looked += 1
    assert looked > 500


def test_registers_are_a_mapping():  # type: ignore[no-untyped-def]
    chip = Chip()
    assert set(chip.registers) == set(Register.__members__) and len(chip.registers) == len(list(chip.registers))
    assert dict(chip.registers)["OV_TRIP"] == 0xAC and "OV_TRIP" in repr(chip.registers)
    with pytest.raises(KeyError):
        chip.registers["NONE"]
