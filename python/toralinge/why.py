"""Why a bit of SYS_STAT is up, and since when a drive is off: by the proved calls, which look back over the records.

A call plays the stream again up to its record. Asked of every rise of a run, :func:`rises` asks once for each rise of a judged fault, and
once for each kind of record of the other bits, which need no more.
"""
from __future__ import annotations

import ctypes
import struct
from dataclasses import dataclass
from typing import Iterator, Optional, Union

from .library import Call, Inside, call, constant, library, room, wide
from .names import By, Kind, Pin, Register, Stat
from .refused import Refused, checked
from .run import Run, entry_room, play
from .streams import Stream

REPLAYED_MOST = 1 << 28
"""So many bytes at most are played again for :func:`rises`; what rose later has no reason there, and :func:`why` gives it."""

_ROW = struct.Struct("<QQIIIIi")
_OFF = struct.Struct("<QI")
_NEVER = (1 << 64) - 1
_JUDGED = {
    Stat.OV: ((Register.OV_TRIP, 0xFF),),
    Stat.UV: ((Register.UV_TRIP, 0xFF),),
    Stat.SCD: ((Register.PROTECT1, 0x87),),
    Stat.OCD: ((Register.PROTECT1, 0x80), (Register.PROTECT2, 0x0F)),
}
"""The judged faults, and the bits of registers that choose the limit of each."""
_WORDS = {By.PIN: "ALERT was pulled up from outside", By.LEVEL: "the outside level is 1", By.XREADY: "XREADY was reported",
          By.COUNT: "a count of charge came"}


@dataclass(frozen=True)
class Rise:
    """Why a bit of SYS_STAT rose.

    :ivar bit: the bit
    :ivar rose: the record at which it rose
    :ivar first: the record of the first of the verdicts that made it due; ``rose`` where the bit is not judged
    :ivar cause: scans, ticks, PIN, the outside level, XREADY or a count of charge
    :ivar many: how many verdicts made it due, which is the delay then set; 0 where the bit is not judged
    :ivar limit: the limit at the last of them: a count for OV and UV, microvolts for SCD and OCD
    :ivar input: the lowest input outside at the last scan, from 1; 0 for ticks
    :ivar value: that input's count, or the last tick's microvolts with their sign
    :ivar records: the records that gave the verdicts, ``first`` to ``rose``
    :ivar words: the reason in words
    """

    bit: Stat
    rose: int
    first: int
    cause: By
    many: int
    limit: int
    input: int
    value: int
    records: tuple[int, ...]
    words: str

    @property
    def sentence(self) -> str:
        """The line of ``./why``: ``record 12: OV rose: ..``."""
        return f"record {self.rose}: {self.bit.name} rose: {self.words}"


@dataclass(frozen=True)
class Off:
    """A drive that is off.

    :ivar drive: CHG or DSG
    :ivar since: the record at which it went off; None where it has never been on
    :ivar held: the bits of SYS_STAT that hold it; none where nobody has asked for it since
    :ivar sentence: the same in words, as ``./why`` says it of a record
    """

    drive: Pin
    since: Optional[int]
    held: Stat
    sentence: str


def why(stream: Union[Stream, Run], record: int, bit: Union[Stat, str, int]) -> Rise:
    """Since when and why a bit of SYS_STAT is up after a record, numbered from 0.

    :param bit: as ``Stat.OV`` or ``"OV"``
    :raises Refused: 27 where there is no such record, 28 where the bit is not up after it
    """
    run = stream if isinstance(stream, Run) else play(stream)
    weight = Stat[bit] if isinstance(bit, str) else bit
    row = room(ctypes.c_uint8, constant("TORALINGE_WHY_SIZE"))
    checked(call("toralinge_why", run.stream or b"\0", len(run.stream), _record(record), wide(weight), row, len(row)))
    return _rise(run, Stat(weight), bytes(row))


def off(stream: Union[Stream, Run], record: int, drive: Union[Pin, str, int]) -> Off:
    """Since when a drive is off after a record, and which bits hold it.

    :param drive: ``Pin.CHG`` or ``Pin.DSG``, or its name
    :raises Refused: 27 where there is no such record, 28 where the drive is on, or is none
    """
    run = stream if isinstance(stream, Run) else play(stream)
    pin = Pin[drive] if isinstance(drive, str) else drive
    since, held = _off(run, record, wide(pin))
    name = Pin(pin).name
    if held:
        up = ", ".join(f"{bit.name} is up since record {why(run, record, bit).rose}" for bit in Stat if bit in held)
        return Off(Pin(pin), since, held, f"{name} is off: {up}")
    if since is None:
        return Off(Pin(pin), None, held, f"{name} is off: nobody has asked for it")
    return Off(Pin(pin), since, held, f"{name} is off since record {since}, by {_put_off(run, since, Pin(pin))}: nobody has asked for it since")


def rises(run: Run) -> dict[tuple[int, Stat], Rise]:
    """Why each bit rose, by record and bit, in one go."""
    asked, alike = _questions(run)
    size = constant("TORALINGE_WHY_SIZE")
    rows = room(ctypes.c_uint8, size * len(asked))
    calls: list[Call] = [("toralinge_why", (run.stream, run.places[record].end, record, int(bit), Inside(rows, size * at), size))
                         for at, (record, bit) in enumerate(asked)]
    for answer in library().calls(calls):
        checked(answer)
    given = bytes(rows)
    found = {one: _rise(run, one[1], given[size * at:size * at + size]) for at, one in enumerate(asked)}
    for (record, bit), like in alike.items():
        if like in found:
            same = found[like]
            found[record, bit] = Rise(bit, record, record, same.cause, 0, 0, 0, 0, (record,), same.words)
    return found


def held_off(run: Run) -> dict[tuple[int, Pin], Stat]:
    """The bits that rose with a drive's going off and hold it, by record and drive. They depend on SYS_STAT alone, and are asked once for each."""
    went, before = [], (Stat(0), Pin(0))
    for entry in run:
        for pin in (Pin.CHG, Pin.DSG):
            if pin in before[1] and pin not in entry.pins:
                went.append((entry.record, pin, entry.stat, entry.stat & ~before[0]))
        before = (entry.stat, entry.pins)
    asked = {(stat, pin): record for record, pin, stat, _ in reversed(went)}
    size = constant("TORALINGE_OFF_SIZE")
    rows = room(ctypes.c_uint8, size * len(asked))
    calls: list[Call] = [("toralinge_off", (run.stream, run.places[record].end, record, int(pin), Inside(rows, size * at), size))
                         for at, ((_, pin), record) in enumerate(asked.items())]
    for answer in library().calls(calls):
        checked(answer)
    held = {one: Stat(_OFF.unpack_from(rows, size * at)[1]) for at, one in enumerate(asked)}
    return {(record, pin): held[stat, pin] & rose for record, pin, stat, rose in went}


def _record(number: int) -> int:
    """A record's number for a call; one that no stream has is one that no stream has."""
    return number if 0 <= number < 1 << 63 else (1 << 63) - 1


def _risen(run: Run) -> Iterator[tuple[int, Stat]]:
    before = Stat(0)
    for entry in run:
        yield from ((entry.record, bit) for bit in Stat if bit in entry.stat & ~before)
        before = entry.stat


def _questions(run: Run) -> tuple[list[tuple[int, Stat]], dict[tuple[int, Stat], tuple[int, Stat]]]:
    """What is to be asked, as far as that is not too much; and for the other rises of bits that are not judged one that is like them."""
    asked: list[tuple[int, Stat]] = []
    alike: dict[tuple[int, Stat], tuple[int, Stat]] = {}
    known: dict[tuple[Stat, Optional[int]], tuple[int, Stat]] = {}
    left = REPLAYED_MOST
    for record, bit in _risen(run):
        like = known.get((bit, run.places[record].kind))
        if like is not None:
            alike[record, bit] = like
            continue
        left -= run.places[record].end
        if left < 0:
            break
        asked.append((record, bit))
        if bit not in _JUDGED:
            known[bit, run.places[record].kind] = (record, bit)
    return asked, alike


def _off(run: Run, record: int, drive: int) -> tuple[Optional[int], Stat]:
    row = room(ctypes.c_uint8, constant("TORALINGE_OFF_SIZE"))
    checked(call("toralinge_off", run.stream or b"\0", len(run.stream), _record(record), drive, row, len(row)))
    since, held = _OFF.unpack(bytes(row))
    return None if since == _NEVER else since, Stat(held)


def _put_off(run: Run, record: int, drive: Pin) -> str:
    """What put a drive off at a record: bits that rose with it, SHIP, or the host."""
    rose = run[record].stat & ~run[record - 1].stat
    by = [str(bit.name) for bit in Stat if bit in rose & _off(run, record, int(drive))[1]]
    if by:
        return ", ".join(by)
    chip, entries, voltage = room(ctypes.c_uint8, constant("TORALINGE_CHIP_SIZE")), room(ctypes.c_uint8, entry_room(len(run.stream))), room(ctypes.c_int64, 1)
    end = run.places[record].end
    answers = library().calls([("toralinge_feed", (chip, len(chip), run.stream, end, entries, len(entries))),
                               ("toralinge_voltage", (chip, len(chip), 1, voltage))])
    return "SHIP" if answers[1] == constant("TORALINGE_ASLEEP") else "the host"


def _rise(run: Run, bit: Stat, row: bytes) -> Rise:
    rose, first, cause, many, limit, input_, value = _ROW.unpack(row)
    by = By(cause)
    if by in _WORDS:
        return Rise(bit, rose, first, by, many, limit, input_, value, (rose,), _WORDS[by])
    moved = many > 1 and _moved(run, bit, first, rose)
    if by == By.SCANS:
        words = _by_scans(run, bit, (first, rose), many, limit, input_, value, moved)
        kinds: tuple[Kind, ...] = (Kind.SCAN,)
    else:
        words = _by_ticks((first, rose), many, limit, value, moved)
        kinds = (Kind.SENSE, Kind.TICKS, Kind.SOAK)
    records = tuple(at for at in range(first, rose + 1) if run.places[at].kind in kinds and not run[at].number)
    return Rise(bit, rose, first, by, many, limit, input_, value, records, words)


def _moved(run: Run, bit: Stat, first: int, rose: int) -> bool:
    """Whether what chooses a limit was written anew between two records. Only a byte of the host can do that."""
    chip, entries = room(ctypes.c_uint8, constant("TORALINGE_CHIP_SIZE")), room(ctypes.c_uint8, entry_room(len(run.stream)))
    stops = [first, *(at for at in range(first + 1, rose + 1) if run.places[at].kind == Kind.OUT)]
    watched = _JUDGED[bit]
    seen = room(ctypes.c_uint8, len(stops) * len(watched))
    calls: list[Call] = []
    begin = 0
    for at, stop in enumerate(stops):
        piece = run.stream[begin:run.places[stop].end]
        calls.append(("toralinge_feed", (chip, len(chip), piece, len(piece), entries, len(entries))))
        calls += [("toralinge_register", (chip, len(chip), int(register), Inside(seen, len(watched) * at + place)))
                  for place, (register, _) in enumerate(watched)]
        begin = run.places[stop].end
    library().calls(calls)
    masks = [mask for _, mask in watched]
    settings = {tuple(byte & mask for byte, mask in zip(seen[len(masks) * at:len(masks) * at + len(masks)], masks)) for at in range(len(stops))}
    return len(settings) > 1


def _by_scans(run: Run, bit: Stat, records: tuple[int, int], many: int, limit: int, input_: int, count: int, moved: bool) -> str:
    """Where a wiring record makes cells of inputs, inputs are named."""
    wired = any(run.places[at].kind == Kind.WIRING and not run[at].number for at in range(records[0]))
    some, one = ("an input", "input") if wired else ("a cell", "cell")
    than = "above" if bit == Stat.OV else "below"
    at = f"{one} {input_} at {count:,}"
    if many == 1:
        return f"one scan with {some} {than} {limit:,} is enough; {at}"
    scans = f"the last {many} scans (records {records[0]} to {records[1]}) each had {some} {than}"
    return f"{scans} the limit then set; {at}, {than} {limit:,}" if moved else f"{scans} {limit:,}; {at}"


def _by_ticks(records: tuple[int, int], many: int, limit: int, value: int, moved: bool) -> str:
    where = f"record {records[1]}" if records[0] == records[1] else f"records {records[0]} to {records[1]}"
    if many == 1:
        return f"one tick above {limit:,} microvolts is enough; it was at {-value:,}"
    ticks = f"the last {many:,} ticks ({where}) were each above"
    if moved:
        return f"{ticks} the limit then set; the last at {-value:,} microvolts, above {limit:,}"
    return f"{ticks} {limit:,} microvolts; the last at {-value:,}"
