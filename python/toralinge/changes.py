"""What changed in a run, record by record, as sentences.

The sentences say what the entries and the registers show: that a bit rose or fell, that a drive went on or off, that a setting moved,
that a record was refused. Why a bit rose, and which records made it due, comes from the proved calls; who knows better tells it as a
:data:`Why`.
"""
from __future__ import annotations

from typing import Callable, Iterator, NamedTuple, Optional

from .history import History, over_count, under_count
from .names import MEANINGS, Ctrl1, Ctrl2, Pin, Register, Stat
from .run import Entry
from .streams import Stream, kind_name
from .why import held_off, rises

WHAT = ("refused", "mode", "bit", "alert", "drive", "setting")
"""What can change."""
MARKED_MOST = 100
"""Where more records than these made a bit due, the first and the last stand for them."""


class Cause(NamedTuple):
    """Why a bit rose: in words that end its sentence, and the records that made it due."""

    words: str
    records: tuple[int, ...]


Why = Callable[[Entry, Stat], Optional[Cause]]
"""Tells why a bit rose at an entry; None where it does not know."""


class Change(NamedTuple):
    """A change at a record.

    :ivar record: the record after which it shows
    :ivar what: one of :data:`WHAT`
    :ivar name: the bit, pin or register; the number for a refusal
    :ivar now: whether it is up or on now; None where that is no question
    :ivar sentence: the change in words
    :ivar records: the records that made it: of a fault those of the verdicts that made it due, and of a drive that it put off these too
    """

    record: int
    what: str
    name: str
    now: Optional[bool]
    sentence: str
    records: tuple[int, ...]


def changes(stream: Stream, why: Optional[Why] = None) -> list[Change]:
    """Every change of a run, in order.

    :param why: tells why a bit rose, in place of the proved calls
    """
    return list(changes_of(History(stream), why))


def told_by_the_library(history: History) -> Why:
    """Why each bit of a run rose, by the proved calls."""
    found = rises(history.run)

    def why(entry: Entry, bit: Stat) -> Optional[Cause]:
        rise = found.get((entry.record, bit))
        if rise is None:
            return None
        return Cause(rise.words, rise.records if len(rise.records) <= MARKED_MOST else (rise.first, rise.rose))

    return why


def changes_of(history: History, why: Optional[Why] = None) -> Iterator[Change]:
    """Every change of a run that is already played."""
    stat, pins = Stat(0), Pin(0)
    why = told_by_the_library(history) if why is None else why
    held = held_off(history.run)
    for entry in history.run:
        if entry.number:
            yield _change(entry, "refused", str(entry.number), None, f"refused, {entry.number}: {_words(entry)}")
            continue
        if entry.record and history.setup is not None:
            yield from _mode(history, entry)
        for bit in Stat:
            if (entry.stat ^ stat) & bit:
                rose = bit in entry.stat
                cause = why(entry, bit) if rose else None
                said = f"{bit.name} {'rose' if rose else 'fell'} ({MEANINGS[bit]})"
                yield _change(entry, "bit", str(bit.name), rose, said if cause is None else f"{said}: {cause.words}", cause)
        if (entry.pins ^ pins) & Pin.ALERT:
            yield _change(entry, "alert", "ALERT", entry.alert, f"ALERT went {'up' if entry.alert else 'down'}")
        for pin, drive in ((Pin.CHG, "charge"), (Pin.DSG, "discharge")):
            if pin in entry.pins & ~pins:
                yield _change(entry, "drive", str(pin.name), True, f"{pin.name} went on ({drive} drive)")
            elif pin in pins & ~entry.pins:
                by = _put_off(history, entry, held[entry.record, pin], why)
                yield _change(entry, "drive", str(pin.name), False, f"{pin.name} went off ({drive} drive), by {by.words}", by)
        if entry.record and history.setup is not None:
            yield from _settings(history, entry)
        stat, pins = entry.stat, entry.pins


def _put_off(history: History, entry: Entry, bits: Stat, why: Why) -> Cause:
    """What put a drive off: bits, and the records that made these due; or the host, or SHIP."""
    if not bits:
        return Cause("the host" if history.moments[entry.record].awake else "SHIP", (entry.record,))
    causes = [why(entry, bit) for bit in Stat if bit in bits]
    records = {entry.record, *(at for cause in causes if cause is not None for at in cause.records)}
    return Cause(", ".join(str(bit.name) for bit in Stat if bit in bits), tuple(sorted(records)))


def _words(entry: Entry) -> str:
    refused = entry.refused
    return refused.words if refused is not None else ""


def _change(entry: Entry, what: str, name: str, now: Optional[bool], said: str, cause: Optional[Cause] = None) -> Change:
    return Change(entry.record, what, name, now, f"record {entry.record}, {kind_name(entry.kind)}: {said}",
                  (entry.record,) if cause is None else cause.records)


def _mode(history: History, entry: Entry) -> Iterator[Change]:
    before, after = history.moments[entry.record - 1].awake, history.moments[entry.record].awake
    if before != after:
        yield _change(entry, "mode", "SHIP", not after, "the chip woke" if after else "the chip went to SHIP")


def _settings(history: History, entry: Entry) -> Iterator[Change]:
    """Settings that moved while the chip was awake before and after."""
    before, after = history.moments[entry.record - 1], history.moments[entry.record]
    if not (before.awake and after.awake):
        return
    for register in after.registers:
        old, new = before.registers[register], after.registers[register]
        if register == Register.SYS_CTRL2:
            old, new = old & ~(Ctrl2.CHG_ON | Ctrl2.DSG_ON), new & ~(Ctrl2.CHG_ON | Ctrl2.DSG_ON)
        elif register == Register.SYS_CTRL1:
            old, new = old & ~Ctrl1.LOAD_PRESENT, new & ~Ctrl1.LOAD_PRESENT
        if old != new:
            yield _change(entry, "setting", register.name, None, f"{register.name} went from 0x{old:02X} to 0x{new:02X}{_means(register, old, new)}")


def _means(register: Register, old: int, new: int) -> str:
    """What a register's new value says: of its line, or which of its bits moved."""
    if register == Register.OV_TRIP:
        return f": a cell above {over_count(new):,} is over"
    if register == Register.UV_TRIP:
        return f": a cell below {under_count(new):,} is under"
    bits = {Register.SYS_CTRL1: Ctrl1, Register.SYS_CTRL2: Ctrl2}.get(register, ())
    moved = [f"{bit.name} {'on' if new & bit else 'off'}" for bit in bits if (old ^ new) & bit]
    return f": {', '.join(moved)}" if moved else ""
