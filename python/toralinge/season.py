"""The season of a pack: least, greatest and totals of each cell over the scans that were stored."""
from __future__ import annotations

import ctypes
from itertools import islice
from typing import TYPE_CHECKING, Any, Iterator, NamedTuple, Optional, Sequence, Union, overload

from .convert import cell_microvolts
from .library import call, constant, room
from .refused import checked, done
from .streams import Setup, Stream, places, setup_of, stream_of

if TYPE_CHECKING:
    import pandas

MOST_CELLS = 15


class CellSeason(NamedTuple):
    """The season of one cell. None stands where there is nothing: no scan, or none in which the cell was connected.

    Scans are numbered from 1. Counts are over all scans, voltages over those in which the cell was connected; a scan beside a count
    or a voltage is the first that had it.
    """

    cell: int
    scans: int
    least_count: Optional[int]
    least_count_scan: Optional[int]
    greatest_count: Optional[int]
    greatest_count_scan: Optional[int]
    total_counts: int
    connected_scans: int
    total_microvolts: int
    least_microvolts: Optional[int]
    least_microvolts_scan: Optional[int]
    greatest_microvolts: Optional[int]
    greatest_microvolts_scan: Optional[int]

    @property
    def mean_microvolts(self) -> Optional[float]:
        """The mean voltage over the scans in which the cell was connected."""
        return self.total_microvolts / self.connected_scans if self.connected_scans else None


class Scan(NamedTuple):
    """A stored scan: its number from 1, its record from 0, and the voltage of each cell in microvolts, None where not connected."""

    scan: int
    record: int
    microvolts: tuple[Optional[int], ...]


class Scans(Sequence[Scan]):
    """The stored scans of a stream, in order. A sequence, and a table."""

    def __init__(self, rows: Any, many: int, cells: int) -> None:
        self._rows, self._many, self.cells = rows, many, cells

    def __len__(self) -> int:
        return self._many

    @overload
    def __getitem__(self, at: int) -> Scan: ...
    @overload
    def __getitem__(self, at: slice) -> list[Scan]: ...

    def __getitem__(self, at: Union[int, slice]) -> Union[Scan, list[Scan]]:
        if isinstance(at, slice):
            return [self[one] for one in range(*at.indices(self._many))]
        number = range(self._many)[at]
        size = constant("TORALINGE_SCAN_SIZE")
        row = self._rows[size * number:size * number + size]
        return Scan(number + 1, row[0], tuple(row[2 + cell] if row[1] >> cell & 1 else None for cell in range(self.cells)))

    def __iter__(self) -> Iterator[Scan]:
        return (self[at] for at in range(self._many))

    def table(self) -> "pandas.DataFrame":
        """A row a scan: its number, its record, and a column a cell in microvolts, empty where not connected."""
        import pandas

        scans_ = list(self)
        columns = {"scan": pandas.array([one.scan for one in scans_], dtype="Int64"),
                   "record": pandas.array([one.record for one in scans_], dtype="Int64")}
        for cell in range(self.cells):
            columns[f"cell_{cell + 1}_microvolts"] = pandas.array([one.microvolts[cell] for one in scans_], dtype="Int64")
        return pandas.DataFrame(columns)


def scans(stream: Stream) -> Scans:
    """Each stored scan of a stream with the finished voltages of its cells.

    :raises Refused: 9, 1 or 2 where no chip stands
    """
    held = stream_of(stream)
    size = constant("TORALINGE_SCAN_SIZE")
    many = len(held) // 14 + 1      # a SCAN record has at least 14 bytes
    rows = room(ctypes.c_int64, many * size)
    count = checked(call("toralinge_scans", held or b"\0", len(held), rows, many * size))
    before = held if not count else held[:next(islice(places(held), rows[0], None)).at]
    return Scans(rows, count, len(season_rows(before)))     # the pack is settled before its first scan


def season_rows(held: bytes) -> list[list[int]]:
    """The library's own nine numbers for each cell of the pack."""
    size = constant("TORALINGE_SEASON_SIZE")
    rows = room(ctypes.c_int64, MOST_CELLS * size)
    cells = checked(call("toralinge_season", held or b"\0", len(held), rows, len(rows)))
    return [rows[size * cell:size * cell + size] for cell in range(cells)]


class Extreme(NamedTuple):
    """A voltage and the first scan that had it."""

    microvolts: int
    scan: int


Extremes = tuple[Optional[Extreme], Optional[Extreme]]


def extremes(found: Sequence[Scan], cell: int) -> Extremes:
    """The least and the greatest voltage of a cell, numbered from 1, over the scans in which it was connected."""
    had = [Extreme(voltage, one.scan) for one in found if (voltage := one.microvolts[cell - 1]) is not None]
    if not had:
        return None, None
    return min(had, key=lambda one: (one.microvolts, one.scan)), min(had, key=lambda one: (-one.microvolts, one.scan))


def cell_season(setup: Setup, cell: int, row: Sequence[int], mixed: Optional[Extremes]) -> CellSeason:
    """A cell's season from the library's nine numbers.

    Where the cell was connected in every scan, its least and greatest voltages are those of its least and greatest counts. Where it
    was connected in some of them only, they come from the scans themselves: ``mixed``.
    """
    place = row_places()
    seen, connected = bool(row[place.present]), row[place.connected]
    least: Optional[Extreme] = None
    greatest: Optional[Extreme] = None
    if seen and connected == row[place.scans]:
        least = Extreme(cell_microvolts(setup.gain_code, setup.offset, row[place.least]), row[place.least_scan])
        greatest = Extreme(cell_microvolts(setup.gain_code, setup.offset, row[place.greatest]), row[place.greatest_scan])
    elif connected and mixed is not None:
        least, greatest = mixed
    return CellSeason(
        cell, row[place.scans],
        row[place.least] if seen else None, row[place.least_scan] if seen else None,
        row[place.greatest] if seen else None, row[place.greatest_scan] if seen else None,
        row[place.sum], connected, row[place.microvolts],
        least.microvolts if least else None, least.scan if least else None,
        greatest.microvolts if greatest else None, greatest.scan if greatest else None)


class Places(NamedTuple):
    """Where each number stands in a row of the library."""

    scans: int
    present: int
    least: int
    least_scan: int
    greatest: int
    greatest_scan: int
    sum: int
    connected: int
    microvolts: int


def row_places() -> Places:
    """The places, as the header names them."""
    return Places(*(constant(f"TORALINGE_SEASON_{name.upper()}") for name in Places._fields))


class Report:
    """The season of a pack, or of a part of one. A value: joining makes a new one."""

    def __init__(self, kept: bytes, setup: Setup, mixed: dict[int, Extremes]) -> None:
        self._kept, self.setup, self._mixed = kept, setup, mixed

    @classmethod
    def of(cls, stream: Stream) -> "Report":
        """The report of every scan that a stream stores.

        :raises Refused: 9, 1 or 2 where no chip stands, 22 more than 65,535 scans
        """
        held = stream_of(stream)
        rows = season_rows(held)
        kept = room(ctypes.c_uint8, constant("TORALINGE_REPORT_SIZE"))
        chip = bytes(constant("TORALINGE_CHIP_SIZE"))
        checked(call("toralinge_grow", kept, len(kept), chip, len(chip), held, len(held)))
        return cls(bytes(kept), setup_of(held), mixed_of(held, rows))

    def join(self, second: "Report") -> "Report":
        """This part of a season and the one straight after it, by the proved join. Scan numbers go on.

        :raises Refused: 25 reports of different chips: part, gain, offset, row or floor; 22 more than 65,535 scans together
        """
        whole = room(ctypes.c_uint8, len(self._kept))
        done(call("toralinge_join", self._kept, len(self._kept), second._kept, len(second._kept), whole, len(whole)))
        before = self.scans
        mixed = {one.cell: _joined(one, other, before) for one, other in zip(self.cells, second.cells)}
        return Report(bytes(whole), self.setup, mixed)

    def __bytes__(self) -> bytes:
        return self._kept

    def __eq__(self, other: object) -> bool:
        return isinstance(other, Report) and self._kept == other._kept and self.cells == other.cells

    def __hash__(self) -> int:
        return hash(self._kept)

    @property
    def rows(self) -> list[list[int]]:
        """The library's own nine numbers for each cell."""
        size = constant("TORALINGE_SEASON_SIZE")
        rows = room(ctypes.c_int64, MOST_CELLS * size)
        cells = checked(call("toralinge_rows", self._kept, len(self._kept), rows, len(rows)))
        return [rows[size * cell:size * cell + size] for cell in range(cells)]

    @property
    def scans(self) -> int:
        """How many scans were stored."""
        return self.rows[0][row_places().scans]

    @property
    def cells(self) -> list[CellSeason]:
        """The season of each cell of the pack."""
        return [cell_season(self.setup, cell, row, self._mixed.get(cell)) for cell, row in enumerate(self.rows, 1)]

    def table(self) -> "pandas.DataFrame":
        """A row a cell; the columns are :class:`CellSeason`'s."""
        import pandas

        cells = self.cells
        return pandas.DataFrame({
            name: pandas.array([getattr(cell, name) for cell in cells], dtype="Int64") for name in CellSeason._fields})


def _joined(first: CellSeason, second: CellSeason, before: int) -> Extremes:
    """The least and greatest voltage of two parts; the first part's of equal ones."""
    def of(cell: CellSeason, which: str, moved: int) -> list[Extreme]:
        voltage, scan = getattr(cell, f"{which}_microvolts"), getattr(cell, f"{which}_microvolts_scan")
        return [] if voltage is None else [Extreme(voltage, scan + moved)]

    def height(one: Extreme) -> int:
        return one.microvolts

    least = of(first, "least", 0) + of(second, "least", before)
    greatest = of(first, "greatest", 0) + of(second, "greatest", before)
    return min(least, key=height) if least else None, max(greatest, key=height) if greatest else None


def is_mixed(row: Sequence[int]) -> bool:
    """Whether a cell was connected in some scans and not in others."""
    place = row_places()
    return 0 < row[place.connected] < row[place.scans]


def mixed_of(held: bytes, rows: Sequence[Sequence[int]]) -> dict[int, Extremes]:
    """The extremes of those cells that were connected in some scans and not in others."""
    wanted = [cell for cell, row in enumerate(rows, 1) if is_mixed(row)]
    if not wanted:
        return {}
    found = list(scans(held))
    return {cell: extremes(found, cell) for cell in wanted}


def season(stream: Stream) -> Report:
    """The season of a stream: :meth:`Report.of`."""
    return Report.of(stream)
