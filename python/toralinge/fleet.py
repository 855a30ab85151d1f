"""The season of a fleet on Dask: the table of :func:`toralinge.seasons`, made by many threads, processes or machines."""
from __future__ import annotations

from contextlib import nullcontext
from typing import TYPE_CHECKING, Any, Optional, Sequence, Union

from .refused import Refused
from .season import Report
from .tables import Broken, Pack, Packs, Piece, packs_of, piece_of_report, pieces_of, report_of, table_of

if TYPE_CHECKING:
    import pandas


def _combined(pack: Pack, reports: Sequence[Union[Report, Broken]]) -> list[Piece]:
    """The piece of a pack whose parts were taken in several tasks. Where one is refused, the parts are gone through one by one, so
    that the refusal is the one that the plain loop finds."""
    whole: Optional[Report] = None
    for report in reports:
        try:
            if isinstance(report, Broken):
                return [piece_of_report(pack.name, report_of(pack))]
            whole = report if whole is None else whole.join(report)
        except Refused:
            return [piece_of_report(pack.name, report_of(pack))]
    assert whole is not None
    return [piece_of_report(pack.name, whole)]


def _tasks(packs: Sequence[Pack], chunk: int) -> list[Any]:
    """Tasks whose results, one after the other, are the table's pieces. A pack of more parts than a chunk is a tree of its own."""
    from dask import delayed

    take, fold, combine = delayed(pieces_of), delayed(report_of), delayed(_combined)
    tasks: list[Any] = []
    waiting: list[Pack] = []
    load = 0

    def flush() -> None:
        nonlocal waiting, load
        if waiting:
            tasks.append(take(waiting))
        waiting, load = [], 0

    for pack in packs:
        if len(pack.parts) > chunk:
            flush()
            parts = [pack.parts[at:at + chunk] for at in range(0, len(pack.parts), chunk)]
            tasks.append(combine(pack, [fold(Pack(pack.name, some)) for some in parts]))
            continue
        if load + len(pack.parts) > chunk:
            flush()
        waiting.append(pack)
        load += max(len(pack.parts), 1)
    flush()
    return tasks


def fleet(paths: Packs, *, chunk: int = 64, scheduler: Any = "threads", progress: bool = False) -> "pandas.DataFrame":
    """The season of many packs as one table, the same as :func:`toralinge.seasons` gives, made in chunks.

    :param paths: as for :func:`toralinge.seasons`
    :param chunk: how many streams a task takes
    :param scheduler: ``"threads"``, ``"processes"`` or ``"synchronous"`` on this machine, or a ``distributed.Client``, or the address of
        a scheduler as ``"tcp://host:8786"``. Workers must reach the files and have this package and its library. A task whose worker dies
        is done again by another.
    :param progress: shows a bar
    """
    packs = packs_of(paths)
    tasks = _tasks(packs, max(chunk, 1))
    if isinstance(scheduler, str) and "://" in scheduler:
        from distributed import Client

        with Client(scheduler) as client:
            return table_of(_gathered(client, tasks, progress))
    if not isinstance(scheduler, str):
        return table_of(_gathered(scheduler, tasks, progress))
    from dask import compute
    from dask.diagnostics import ProgressBar

    with ProgressBar() if progress else nullcontext():
        made = compute(*tasks, scheduler=scheduler)
    return table_of([piece for some in made for piece in some])


def _gathered(client: Any, tasks: Sequence[Any], progress: bool) -> list[Piece]:
    futures = client.compute(list(tasks))
    if progress:
        from distributed import progress as bar

        bar(futures, notebook=False)
    return [piece for some in client.gather(futures) for piece in some]
