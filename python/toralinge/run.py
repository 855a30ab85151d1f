"""Playing a whole stream: an entry for each record."""
from __future__ import annotations

import ctypes
from functools import cached_property
from typing import TYPE_CHECKING, Iterator, NamedTuple, Optional, Sequence, Union, overload

from .library import call, constant, room
from .names import Kind, Pin, Stat
from .refused import Refused, checked, words
from .streams import Place, Stream, Values, describe, kind_name, places, setup_of, stream_of, values

if TYPE_CHECKING:
    import pandas

    from .why import Off, Rise


class Entry(NamedTuple):
    """What the chip answers to one record.

    ``bus`` is for an OUT that was done 0 (acknowledged) or 1 (not), for an IN the byte given, else None.
    """

    record: int
    kind: Optional[int]
    number: int
    bus: Optional[int]
    stat: Stat
    pins: Pin

    @property
    def alert(self) -> bool:
        """ALERT is up."""
        return Pin.ALERT in self.pins

    @property
    def chg(self) -> bool:
        """The charge drive is on."""
        return Pin.CHG in self.pins

    @property
    def dsg(self) -> bool:
        """The discharge drive is on."""
        return Pin.DSG in self.pins

    @property
    def refused(self) -> Optional[Refused]:
        """The refusal, where the record was refused."""
        return Refused(self.number, record=self.record) if self.number else None


def entry_of(five: Sequence[int], record: int, kind: Optional[int]) -> Entry:
    """An entry from its five bytes, in the header's order."""
    number, flag, byte, stat, pins = five
    return Entry(record, kind, number, byte if flag else None, Stat(stat), Pin(pins))


def entry_size() -> int:
    """How many bytes an entry has."""
    return constant("TORALINGE_ENTRY_SIZE")


def entry_room(length: int) -> int:
    """How many bytes are always enough for the entries of so many bytes of records."""
    return (length // 4 + 1) * entry_size()


class Run(Sequence[Entry]):
    """The entries of a stream, one for each record. A sequence, and a table."""

    def __init__(self, stream: bytes, entries: bytes) -> None:
        self.stream = stream
        self._entries = entries
        self._many = len(entries) // entry_size()
        self.places: list[Place] = [place for place, _ in zip(places(stream), range(self._many))]

    def __len__(self) -> int:
        return self._many

    @overload
    def __getitem__(self, at: int) -> Entry: ...
    @overload
    def __getitem__(self, at: slice) -> list[Entry]: ...

    def __getitem__(self, at: Union[int, slice]) -> Union[Entry, list[Entry]]:
        if isinstance(at, slice):
            return [self[one] for one in range(*at.indices(self._many))]
        number = range(self._many)[at]
        size = entry_size()
        return entry_of(self._entries[size * number:size * number + size], number, self.places[number].kind)

    def __iter__(self) -> Iterator[Entry]:
        return (self[at] for at in range(self._many))

    @cached_property
    def part(self) -> int:
        """The part that the stream's SETUP names; 0 where no chip stands."""
        try:
            return setup_of(self.stream).part
        except Refused:
            return 0

    def record(self, number: int) -> bytes:
        """The bytes of a record."""
        place = self.places[number]
        return self.stream[place.at:place.end]

    def values(self, number: int) -> Optional[Values]:
        """What a record says; None where it cannot be read."""
        try:
            return values(self.record(number), self.part if number else 0)
        except Refused:
            return None

    def words(self, number: int) -> str:
        """A record in words, as ``OUT 0x10``."""
        said = self.values(number)
        return describe(self.places[number].kind, said.values if said else None)

    @property
    def refusals(self) -> list[Refused]:
        """Every refusal, in order."""
        found = (entry.refused for entry in self)
        return [one for one in found if one is not None]

    def why(self, record: int, bit: Union[Stat, str, int]) -> "Rise":
        """Since when and why a bit of SYS_STAT is up after a record, as :func:`toralinge.why` says it."""
        from .why import why

        return why(self, record, bit)

    def off(self, record: int, drive: Union[Pin, str, int]) -> "Off":
        """Since when a drive is off after a record, as :func:`toralinge.off` says it."""
        from .why import off

        return off(self, record, drive)

    def lines(self) -> str:
        """The lines that ``./play`` prints: record, kind, number, bus answer, SYS_STAT, then ALERT, CHG, DSG."""
        return "".join(
            f"{entry.record} {'----' if entry.kind is None else format(entry.kind, '04X')} {entry.number} "
            f"{'--' if entry.bus is None else format(entry.bus, '02X')} {int(entry.stat):02X} "
            f"{entry.alert:d}{entry.chg:d}{entry.dsg:d}\n" for entry in self)

    def table(self) -> "pandas.DataFrame":
        """A row a record: its kind, number and words, the bus answer, a column a bit and a pin."""
        import pandas

        entries = list(self)
        columns = {
            "record": pandas.array([entry.record for entry in entries], dtype="Int64"),
            "kind": [kind_name(entry.kind) for entry in entries],
            "number": pandas.array([entry.number for entry in entries], dtype="Int64"),
            "number_in_words": [words(entry.number) for entry in entries],
            "bus_acknowledged": pandas.array(
                [entry.bus == 0 if entry.kind == Kind.OUT and entry.bus is not None else None for entry in entries], dtype="boolean"),
            "bus_byte_given": pandas.array([entry.bus if entry.kind == Kind.IN else None for entry in entries], dtype="Int64"),
        }
        for bit in Stat:
            columns[str(bit.name)] = pandas.array([bit in entry.stat for entry in entries], dtype="boolean")
        for pin in Pin:
            columns[str(pin.name)] = pandas.array([pin in entry.pins for entry in entries], dtype="boolean")
        return pandas.DataFrame(columns)


def play(stream: Stream) -> Run:
    """Plays a stream on a new chip. Refused records are entries with their number and raise nothing."""
    held = stream_of(stream)
    room_ = entry_room(len(held))
    entries = room(ctypes.c_uint8, room_)
    many = checked(call("toralinge_play", held or b"\0", len(held), entries, room_))
    return Run(held, bytes(entries)[:many * entry_size()])
