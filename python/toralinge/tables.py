"""Many packs in one table."""
from __future__ import annotations

import ctypes
import os
from itertools import accumulate
from typing import TYPE_CHECKING, Any, Iterable, Iterator, Mapping, NamedTuple, Optional, Sequence, Union

from .library import Spread, constant, library, room
from .refused import Refused
from .season import MOST_CELLS, CellSeason, Report, row_places
from .streams import Stream, stream_of

if TYPE_CHECKING:
    import numpy
    import pandas

Packs = Union[Iterable[Stream], Mapping[str, Union[Stream, Sequence[Stream]]]]
"""Streams, each a pack; or the streams of each pack by its name, where a pack has several they are parts of its season in order."""

NUMBERS = CellSeason._fields
"""The columns of whole numbers."""

COLUMNS = ("pack", *NUMBERS, "refused_number", "refused_words", "refused_stream")
"""All columns. A pack that cannot be read has one row, with nothing but the last three."""

TOGETHER = 512
"""How many streams are handed to the library at a time."""


class Pack(NamedTuple):
    """A pack's name and the streams of its season, in order."""

    name: str
    parts: tuple[Stream, ...]


class Broken(NamedTuple):
    """Why a pack has no season: the number (None where its stream cannot even be read), the words, and the stream."""

    number: Optional[int]
    words: str
    stream: str


class Piece(NamedTuple):
    """A piece of the table: whole numbers and where there are none, a row for each cell, and what belongs to each row."""

    packs: list[str]
    numbers: "numpy.ndarray[Any, Any]"
    nothing: "numpy.ndarray[Any, Any]"
    broken: list[Optional[Broken]]


def packs_of(paths: Packs) -> list[Pack]:
    """The packs that are asked for, in order."""
    if isinstance(paths, Mapping):
        return [Pack(str(name), _parts(given)) for name, given in paths.items()]
    return [Pack(_label(one, at), (one,)) for at, one in enumerate(paths)]


def _parts(given: Union[Stream, Sequence[Stream]]) -> tuple[Stream, ...]:
    if isinstance(given, (bytes, bytearray, memoryview, str, os.PathLike)):
        return (given,)
    return tuple(given)


def _label(stream: Stream, at: int) -> str:
    """The name of a stream: its file, or where it stands in the list."""
    return f"stream {at}" if isinstance(stream, (bytes, bytearray, memoryview)) else os.fspath(stream)


def _read(stream: Stream, at: int) -> Union[bytes, Broken]:
    try:
        return stream_of(stream)
    except (OSError, ValueError) as error:
        words = error.strerror if isinstance(error, OSError) and error.strerror else str(error)
        return Broken(None, words, _label(stream, at))


# ---- a pack of several parts ----------------------------------------------------------------------------------------------

def report_of(pack: Pack) -> Union[Report, Broken]:
    """The season of a pack: the reports of its parts, joined in order. The first part that cannot be joined breaks it."""
    whole: Optional[Report] = None
    for at, part in enumerate(pack.parts):
        held = _read(part, at)
        if isinstance(held, Broken):
            return held
        try:
            report = Report.of(held)
            whole = report if whole is None else whole.join(report)
        except Refused as error:
            return Broken(error.number, error.words, _label(part, at))
    return whole if whole is not None else Broken(None, "a pack of no streams", pack.name)


def piece_of_report(name: str, report: Union[Report, Broken]) -> Piece:
    """The piece of one pack's report."""
    if isinstance(report, Broken):
        return _broken_piece(name, report)
    return _cells_piece(name, report.cells)


def _cells_piece(name: str, cells: Sequence[CellSeason]) -> Piece:
    import numpy

    nothing = numpy.array([[number is None for number in cell] for cell in cells], dtype=bool)
    numbers = numpy.array([[0 if number is None else number for number in cell] for cell in cells], dtype=numpy.int64)
    return Piece([name] * len(cells), numbers, nothing, [None] * len(cells))


def _broken_piece(name: str, broken: Broken) -> Piece:
    import numpy

    return Piece([name], numpy.zeros((1, len(NUMBERS)), numpy.int64), numpy.ones((1, len(NUMBERS)), bool), [broken])


# ---- packs of one stream each, many at a time -----------------------------------------------------------------------------

def _single_piece(packs: Sequence[Pack]) -> Piece:
    """The piece of packs of one stream each: three rounds of calls for all of them together."""
    import numpy

    read = [_read(pack.parts[0], at) for at, pack in enumerate(packs)]
    held = [one if isinstance(one, bytes) else b"" for one in read]
    joined, starts, lengths = _joined(held)
    answers, rows = _season_calls(joined, starts, lengths)
    numbers, nothing = _columns(rows, _voltages(_codes(joined, starts, lengths), rows))
    cells = numpy.array(answers)
    broken: list[Optional[Broken]] = [None] * len(packs)
    for at in numpy.flatnonzero(cells < 0).tolist():
        one, name = read[at], packs[at].name
        refused = Refused(-answers[at])
        broken[at] = one._replace(stream=name) if isinstance(one, Broken) else Broken(refused.number, refused.words, name)
        nothing[at, 0] = True
    cells[cells < 0] = 1
    _put_mixed(joined, starts, lengths, rows, numbers, nothing)
    there = numpy.arange(MOST_CELLS) < cells[:, None]
    numbers[nothing] = 0
    return Piece([pack.name for pack, many in zip(packs, cells.tolist()) for _ in range(many)], numbers[there], nothing[there],
                 [one for one, many in zip(broken, cells.tolist()) for _ in range(many)])


def _joined(held: Sequence[bytes]) -> tuple[bytes, list[int], list[int]]:
    """Streams as one, where each begins, and how long each is."""
    lengths = [len(one) for one in held]
    return b"".join(held) + b"\0", [0, *accumulate(lengths)][:-1], lengths


def _season_calls(joined: bytes, starts: list[int], lengths: list[int]) -> tuple[list[int], Any]:
    """The library's answer for each stream, and its rows as an array: stream, cell, number."""
    import numpy

    size = constant("TORALINGE_SEASON_SIZE")
    many, each = len(starts), MOST_CELLS * size
    buffer = room(ctypes.c_int64, many * each)
    answers = library().each(
        "toralinge_season", many, Spread(joined, starts), lengths, Spread(buffer, range(0, 8 * many * each, 8 * each)), each)
    return answers, numpy.frombuffer(buffer, numpy.int64)[:many * each].reshape(many, MOST_CELLS, size)


def _codes(joined: bytes, starts: list[int], lengths: list[int]) -> Any:
    """The gain code and the offset, as a byte, of each stream's SETUP; 0 where there is none."""
    import numpy

    many, most = len(starts), 16
    kinds, values = room(ctypes.c_uint32, 1), room(ctypes.c_int64, many * most)
    library().each("toralinge_values", many, Spread(joined, starts), lengths, 0, Spread(kinds, [0] * many),
                   Spread(values, range(0, 8 * many * most, 8 * most)), most)
    return numpy.frombuffer(values, numpy.int64)[:many * most].reshape(many, most)[:, 3:5]


def _voltages(codes: Any, rows: Any) -> Any:
    """The voltages of each least and greatest count, by the library's conversion: each that occurs is asked for once."""
    import numpy

    place = row_places()
    counts = rows[:, :, (place.least, place.greatest)]
    asked = codes[:, 0] << 22 | codes[:, 1] << 14
    each, back = numpy.unique((asked[:, None, None] | counts).ravel(), return_inverse=True)
    converted = room(ctypes.c_int64, len(each))
    library().each("toralinge_cell_microvolts", len(each), (each >> 22).tolist(), (each >> 14 & 0xFF).tolist(), (each & 0x3FFF).tolist(),
                   Spread(converted, range(0, 8 * len(each), 8)))
    return numpy.frombuffer(converted, numpy.int64)[back].reshape(counts.shape)


def _columns(rows: Any, voltages: Any) -> tuple[Any, Any]:
    """The table's numbers of each stream and cell, and where there are none, for cells that were connected always or never."""
    import numpy

    place = row_places()
    seen = rows[:, :, place.present] != 0
    whole = seen & (rows[:, :, place.connected] == rows[:, :, place.scans])
    columns = {
        "cell": numpy.broadcast_to(numpy.arange(1, MOST_CELLS + 1), seen.shape), "scans": rows[:, :, place.scans],
        "least_count": rows[:, :, place.least], "least_count_scan": rows[:, :, place.least_scan],
        "greatest_count": rows[:, :, place.greatest], "greatest_count_scan": rows[:, :, place.greatest_scan],
        "total_counts": rows[:, :, place.sum], "connected_scans": rows[:, :, place.connected],
        "total_microvolts": rows[:, :, place.microvolts],
        "least_microvolts": voltages[:, :, 0], "least_microvolts_scan": rows[:, :, place.least_scan],
        "greatest_microvolts": voltages[:, :, 1], "greatest_microvolts_scan": rows[:, :, place.greatest_scan],
    }
    missing = {column: ~(whole if "microvolts" in column else seen) if column.startswith(("least", "greatest"))
               else numpy.zeros(seen.shape, bool) for column in NUMBERS}
    return numpy.stack([columns[column] for column in NUMBERS], axis=2), numpy.stack([missing[column] for column in NUMBERS], axis=2)


def _put_mixed(joined: bytes, starts: list[int], lengths: list[int], rows: Any, numbers: Any, nothing: Any) -> None:
    """Puts in the least and greatest voltages of cells that were connected in some scans and not in others, from the scans."""
    import numpy

    place = row_places()
    connected, scans = rows[:, :, place.connected], rows[:, :, place.scans]
    mixed = (connected > 0) & (connected < scans)
    packs = numpy.flatnonzero(mixed.any(axis=1)).tolist()
    if not packs:
        return
    size = constant("TORALINGE_SCAN_SIZE")
    rooms = [int(scans[at, 0]) * size for at in packs]
    buffer = room(ctypes.c_int64, sum(rooms))
    begins = [0, *accumulate(rooms)]
    library().each("toralinge_scans", len(packs), Spread(joined, [starts[at] for at in packs]), [lengths[at] for at in packs],
                   Spread(buffer, [8 * begin for begin in begins[:-1]]), rooms)
    held = numpy.frombuffer(buffer, numpy.int64)
    columns = [NUMBERS.index(name) for name in _VOLTAGES]
    for at, begin, end in zip(packs, begins, begins[1:]):
        found = held[begin:end].reshape(-1, size)
        for cell in numpy.flatnonzero(mixed[at]).tolist():
            numbers[at, cell, columns] = _found(found, cell)
            nothing[at, cell, columns] = False


_VOLTAGES = ("least_microvolts", "least_microvolts_scan", "greatest_microvolts", "greatest_microvolts_scan")


def _found(found: Any, cell: int) -> tuple[int, int, int, int]:
    """The least voltage of a cell, counted from 0, the first scan that had it, and the same of the greatest."""
    import numpy

    there = numpy.flatnonzero(found[:, 1] >> cell & 1)
    voltages = found[there, 2 + cell]
    least, greatest = int(voltages.argmin()), int(voltages.argmax())
    return int(voltages[least]), int(there[least]) + 1, int(voltages[greatest]), int(there[greatest]) + 1


# ---- the table ------------------------------------------------------------------------------------------------------------

def pieces_of(packs: Sequence[Pack]) -> list[Piece]:
    """The pieces of some packs, in order."""
    pieces: list[Piece] = []
    for alone, run in _runs(packs):
        if alone:
            pieces += [_single_piece(run[at:at + TOGETHER]) for at in range(0, len(run), TOGETHER)]
        else:
            pieces += [piece_of_report(pack.name, report_of(pack)) for pack in run]
    return pieces


def _runs(packs: Sequence[Pack]) -> Iterator[tuple[bool, list[Pack]]]:
    """Packs of one stream each, and packs of several, as they follow each other."""
    run: list[Pack] = []
    for pack in packs:
        if run and (len(run[0].parts) == 1) != (len(pack.parts) == 1):
            yield len(run[0].parts) == 1, run
            run = []
        run.append(pack)
    if run:
        yield len(run[0].parts) == 1, run


def table_of(pieces: Sequence[Piece]) -> "pandas.DataFrame":
    """The table of pieces, one after the other."""
    import numpy
    import pandas

    if not pieces:
        pieces = [Piece([], numpy.zeros((0, len(NUMBERS)), numpy.int64), numpy.zeros((0, len(NUMBERS)), bool), [])]
    numbers = numpy.concatenate([piece.numbers for piece in pieces])
    nothing = numpy.concatenate([piece.nothing for piece in pieces])
    broken = [one for piece in pieces for one in piece.broken]
    columns: dict[str, Any] = {"pack": pandas.array([name for piece in pieces for name in piece.packs], dtype="string")}
    for at, column in enumerate(NUMBERS):
        columns[column] = pandas.arrays.IntegerArray(numbers[:, at].copy(), nothing[:, at].copy())
    columns["refused_number"] = pandas.array([one.number if one else None for one in broken], dtype="Int64")
    columns["refused_words"] = pandas.array([one.words if one else None for one in broken], dtype="string")
    columns["refused_stream"] = pandas.array([one.stream if one else None for one in broken], dtype="string")
    return pandas.DataFrame(columns, columns=list(COLUMNS))


def seasons(paths: Packs) -> "pandas.DataFrame":
    """The season of many packs as one table: a row a pack and cell.

    :param paths: streams or the names of their files, each a pack; or, by pack, its streams: several are parts of its season, in
        order, and are joined

    Numbers are whole (``Int64``), and empty where there is nothing: ``least_microvolts`` and ``greatest_microvolts`` of a cell that was
    never connected, everything of a pack that cannot be read. Such a pack has one row, with ``refused_number`` (empty where the file
    itself cannot be read), ``refused_words`` and ``refused_stream``; it stops nothing.
    """
    return table_of(pieces_of(packs_of(paths)))
