"""Tables of many packs."""
from __future__ import annotations

import io
import os
import time

import pandas
import pytest
from common import ROOT, SCENES, model, pack, raises

import toralinge
from toralinge.library import library
from toralinge.tables import COLUMNS, NUMBERS

FORECAST = {"cell": "cell", "scans": "scans", "least count": "least_count", "scan of least count": "least_count_scan",
            "greatest count": "greatest_count", "scan of greatest count": "greatest_count_scan", "sum of counts": "total_counts",
            "scans connected": "connected_scans", "sum in microvolts": "total_microvolts"}


@pytest.mark.parametrize("streams", (range(0, 12), range(12, 24)))
def test_the_numbers_are_those_of_forecast(streams, tmp_path):  # type: ignore[no-untyped-def]
    """Every column that forecasting's lines have, for scenes and for packs."""
    for seed in streams:
        (tmp_path / f"{seed}.bytes").write_bytes(pack(seed, 40))
    paths = [*sorted(tmp_path.iterdir()), *SCENES]
    table = toralinge.seasons(paths)
    assert list(table.columns) == list(COLUMNS)
    held = 0
    for path in paths:
        text = model("season", str(path)).decode()
        rows = table[table["pack"] == str(path)]
        if text.startswith("no season, "):
            number = int(text.split(", ")[1])
            assert rows["refused_number"].tolist() == [number]
            assert rows["refused_words"].tolist() == [toralinge.words(number)]
            assert rows[list(NUMBERS)].isna().all(axis=None)
            continue
        wanted = pandas.read_csv(io.StringIO(text), dtype="Int64").rename(columns=FORECAST)
        pandas.testing.assert_frame_equal(rows[list(FORECAST.values())].reset_index(drop=True), wanted, check_names=False)
        held += len(wanted)
    assert held > 100


def test_voltages_are_those_of_the_scans():  # type: ignore[no-untyped-def]
    """Least and greatest in microvolts, over the scans in which a cell was connected, looked for in the scans themselves."""
    mixed = never = 0
    for seed in range(40):
        stream = pack(seed, 30)
        table, found = toralinge.seasons([stream]), list(toralinge.scans(stream))
        for row in table.itertuples():
            had = [(scan.microvolts[row.cell - 1], scan.scan) for scan in found if scan.microvolts[row.cell - 1] is not None]
            mixed += 0 < len(had) < len(found)
            never += not had
            assert row.connected_scans == len(had) and row.total_microvolts == sum(voltage for voltage, _ in had)
            if not had:
                assert all(value is pandas.NA for value in (row.least_microvolts, row.least_microvolts_scan, row.greatest_microvolts))
                continue
            assert (row.least_microvolts, row.least_microvolts_scan) == min(had)
            assert row.greatest_microvolts == max(had)[0]
            assert row.greatest_microvolts_scan == min(scan for voltage, scan in had if voltage == max(had)[0])
    assert mixed and never


def test_a_table_and_a_report_say_the_same():  # type: ignore[no-untyped-def]
    for seed in range(30):
        stream = pack(seed, 25)
        report = toralinge.season(stream).table()
        pandas.testing.assert_frame_equal(toralinge.seasons([stream])[list(NUMBERS)], report)
        parts = toralinge.seasons({"whole": [stream]})
        pandas.testing.assert_frame_equal(parts[list(NUMBERS)], report)


def test_parts_of_a_pack_are_joined_in_order(tmp_path):  # type: ignore[no-untyped-def]
    run = toralinge.play(pack(7, 60, 2))
    head = run.stream[:run.places[1].end]
    first = head + b"".join(run.record(at) for at in range(2, 30))
    second = head + b"".join(run.record(at) for at in range(30, len(run)))
    table = toralinge.seasons({"one": [first, second], "whole": run.stream, "other": [second, pack(8, 20, 3)], "none": []})
    one, whole = (table[table["pack"] == name][list(NUMBERS)].reset_index(drop=True) for name in ("one", "whole"))
    pandas.testing.assert_frame_equal(one, whole)
    other = table[table["pack"] == "other"]
    assert other["refused_number"].tolist() == [25] and other["refused_stream"].tolist() == ["stream 1"]
    assert table[table["pack"] == "none"]["refused_words"].tolist() == ["a pack of no streams"]


def test_broken_streams_stop_nothing(tmp_path):  # type: ignore[no-untyped-def]
    (tmp_path / "bad.hex").write_text("07 zz")
    given = [tmp_path / "missing", tmp_path / "bad.hex", ROOT / "examples/season.hex", b"", b"\1", pack(1, 10)[:60]]
    table = toralinge.seasons(given)
    broken = table.dropna(subset=["refused_words"])
    assert broken["refused_number"].astype(object).where(broken["refused_number"].notna(), None).tolist() == [None, None, 9, 9]
    assert broken["refused_words"].tolist()[0] == "No such file or directory" and "line 1" in broken["refused_words"].tolist()[1]
    assert len(table) > len(broken) + 4


def test_a_season_is_full_at_65535(tmp_path):  # type: ignore[no-untyped-def]
    head, scan = pack(3, 2, 1)[:15], toralinge.record(3, 1, [9000] * 5)
    half = toralinge.season(head + scan * 32_768)
    assert half.scans == 32_768
    with raises(22):
        half.join(half)
    assert half.join(toralinge.season(head + scan * 32_767)).scans == 65_535
    with raises(22):
        toralinge.season(head + scan * 65_536)
    assert len(toralinge.scans(head + scan * 65_536)) == 65_536


def test_csv_reads_back(tmp_path):  # type: ignore[no-untyped-def]
    table = toralinge.seasons([ROOT / "examples/season.hex", b""])
    table.to_csv(tmp_path / "out.csv", index=False)
    again = pandas.read_csv(tmp_path / "out.csv", dtype={name: "Int64" for name in (*NUMBERS, "refused_number")})
    assert again[list(NUMBERS)].equals(table[list(NUMBERS)])
    assert toralinge.play(ROOT / "examples/season.hex").table().shape == (28, 16)
    assert list(toralinge.scans(ROOT / "examples/season.hex").table()["cell_4_microvolts"])[-1] == 3_558_318


def test_parquet_where_pandas_can_write_it(tmp_path):  # type: ignore[no-untyped-def]
    table = toralinge.seasons([ROOT / "examples/season.hex"])
    try:
        import pyarrow  # noqa: F401
    except ImportError:
        with pytest.raises(ImportError):
            table.to_parquet(tmp_path / "out.parquet")
        return
    table.to_parquet(tmp_path / "out.parquet")
    assert pandas.read_parquet(tmp_path / "out.parquet").equals(table)


def worked() -> float:
    """The processor time that this process and the library's own, where it has one, have taken: a busy machine does not change it."""
    taken = time.process_time()
    process = getattr(library(), "_process", None)
    if process is not None:
        fields = open(f"/proc/{process.pid}/stat", encoding="ascii").read().rpartition(")")[2].split()
        taken += (int(fields[11]) + int(fields[12])) / os.sysconf("SC_CLK_TCK")
    return taken


def test_two_thousand_streams_take_less_than_a_second():  # type: ignore[no-untyped-def]
    """Engine and table, of some 300 records each; one of three tries. Under the emulator, whose times say nothing, ten seconds."""
    made = [pack(seed, 300) for seed in range(20)]
    streams = [made[at % 20] for at in range(2000)]
    most = 1 if getattr(library(), "_process", None) is None else 10
    took: list[float] = []
    while len(took) < 3 and min(took, default=most) >= most:
        begun = worked()
        table = toralinge.seasons(streams)
        took.append(worked() - begun)
    assert table["pack"].nunique() == 2000
    print(f"2,000 streams of {len(toralinge.play(made[0]))} records: {min(took):.2f} s")
    assert min(took) < most, took
