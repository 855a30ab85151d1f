"""The fleet on Dask: the same table as the plain loop, to the digit, whatever does the work and whoever dies."""
from __future__ import annotations

import os
import signal
import threading
import time

import pandas
import pytest
from common import pack

import toralinge


@pytest.fixture(scope="module")
def packs(tmp_path_factory):  # type: ignore[no-untyped-def]
    """Sixty packs of one stream, some broken, and packs of several parts, one of them of different chips."""
    place = tmp_path_factory.mktemp("fleet")
    given = {}
    for seed in range(60):
        stream = pack(seed, 40)
        path = place / f"{seed}.bytes"
        path.write_bytes(b"\2\0" + stream if seed % 13 == 5 else stream[:-3] if seed % 7 == 3 else stream)
        given[f"pack {seed}"] = [str(path)]
    run = toralinge.play(pack(99, 120, 2))
    head = run.stream[:run.places[1].end]
    parts = []
    for at in range(2, len(run), 10):
        path = place / f"part-{at}.bytes"
        path.write_bytes(head + b"".join(run.record(number) for number in range(at, min(at + 10, len(run)))))
        parts.append(str(path))
    given["in parts"] = parts
    given["of two chips"] = [*parts[:5], given["pack 1"][0], *parts[5:]]
    given["broken part"] = [*parts[:7], str(place / "missing"), *parts[7:]]
    given["gone"] = [str(place / "nowhere")]
    return given


@pytest.fixture(scope="module")
def plain(packs):  # type: ignore[no-untyped-def]
    table = toralinge.seasons(packs)
    assert table["refused_words"].notna().sum() >= 8 and len(table) > 400
    return table


@pytest.mark.parametrize("scheduler, chunk", [
    ("synchronous", 1), ("synchronous", 4), ("synchronous", 1000), ("threads", 1), ("threads", 4), ("threads", 1000), ("processes", 4)])
def test_same_table_by_chunks(packs, plain, scheduler, chunk):  # type: ignore[no-untyped-def]
    pandas.testing.assert_frame_equal(toralinge.fleet(packs, chunk=chunk, scheduler=scheduler), plain)


def test_a_bar_for_long_runs(packs, plain, capsys):  # type: ignore[no-untyped-def]
    pandas.testing.assert_frame_equal(toralinge.fleet(packs, progress=True), plain)
    assert "100% Completed" in capsys.readouterr().out


def test_no_packs():  # type: ignore[no-untyped-def]
    assert toralinge.fleet([]).empty and toralinge.seasons([]).empty


def test_a_cluster_of_two_workers_with_some_killed(packs, plain):  # type: ignore[no-untyped-def]
    """While the fleet is at work a worker is killed, twice: its nanny starts another, and its tasks are done again."""
    distributed = pytest.importorskip("distributed")
    with distributed.LocalCluster(n_workers=2, threads_per_worker=1, processes=True, dashboard_address=None, silence_logs=50) as cluster:
        with distributed.Client(cluster) as client:
            many = {f"{name} {again}": parts for again in range(16) for name, parts in packs.items()}
            at_work = threading.Event()
            at_work.set()
            killed: list[int] = []

            def kill() -> None:
                while at_work.is_set() and len(killed) < 2:
                    time.sleep(0.5)
                    nannies = [nanny.process for nanny in cluster.workers.values() if nanny.process is not None]
                    pids = [nanny.process.pid for nanny in nannies if nanny.process]
                    if pids and at_work.is_set():
                        os.kill(pids[-1], signal.SIGKILL)
                        killed.append(pids[-1])

            killer = threading.Thread(target=kill)
            killer.start()
            table = toralinge.fleet(many, chunk=1, scheduler=client)
            at_work.clear()
            killer.join()
            assert killed, "the fleet was done before a worker could be killed"
            pandas.testing.assert_frame_equal(table, toralinge.seasons(many))
            by_address = toralinge.fleet(packs, chunk=16, scheduler=client.scheduler.address)
            pandas.testing.assert_frame_equal(by_address, plain)
