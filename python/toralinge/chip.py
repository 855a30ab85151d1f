"""A chip that stays between calls."""
from __future__ import annotations

import ctypes
from typing import Any, Iterator, Mapping, NamedTuple, Optional, Sequence, Union

from .convert import crc8
from .library import call, constant, room, wide
from .names import PARTS, Ctrl2, Kind, Register, Stat
from .refused import Refused, checked, done
from .run import Entry, entry_of, entry_room, entry_size
from .streams import Setup, Stream, byte_of, places, record, setup_of, stream_of


class NotAcknowledged(Exception):
    """The chip did not acknowledge a byte of a frame: it is asleep, has another address, or saw a wrong CRC."""

    def __init__(self, what: str) -> None:
        self.what = what
        super().__init__(what)


class Reading(NamedTuple):
    """Forecasting's reading: finished voltages in microvolts, the coulomb counter in hundredths of one. Whole numbers as doubles."""

    least_microvolts: float
    greatest_microvolts: float
    total_microvolts: float
    charge_hundredths: float


class Bleed(NamedTuple):
    """The three CELLBAL bytes that are proposed."""

    cellbal1: int
    cellbal2: int
    cellbal3: int

    @property
    def inputs(self) -> list[int]:
        """The cell inputs to bleed, numbered from 1."""
        return [1 + bit + 5 * byte for byte in range(3) for bit in range(5) if self[byte] >> bit & 1]


class Reply(NamedTuple):
    """A Smart Battery word and the three bytes that carry it: low, high, PEC.

    The value is in tenths of a kelvin, millivolts or milliamperes.
    """

    value: int
    data: bytes


class Transfer(NamedTuple):
    """What a command list gave: the bytes that were read, message by message, and whether every byte was acknowledged."""

    read: list[bytes]
    acknowledged: bool


COMMANDS = {"temperature": 0x08, "voltage": 0x09, "current": 0x0A}
"""The Smart Battery commands by name."""


def _part(part: Union[int, str]) -> int:
    """1 to 3 for a part's name, as ``MS9920T`` or 9920; another number stays as it is."""
    for number, name in PARTS.items():
        if str(part).upper() in (name, name[2:6]):
            return number
    if isinstance(part, int):
        return part
    raise Refused(constant("TORALINGE_BAD_SETUP"))


class Registers(Mapping[str, int]):
    """The registers of a chip by name, as they stand. A pair, as VC1, is one number. An address does in place of a name."""

    def __init__(self, chip: "Chip") -> None:
        self._chip = chip

    def _byte(self, address: int) -> int:
        value = room(ctypes.c_uint8, 1)
        done(self._chip._call("toralinge_register", wide(address), value))
        return int(value[0])

    def __getitem__(self, name: Union[str, int]) -> int:
        if isinstance(name, str):
            register = Register[name]
            if register.pair:
                return int.from_bytes(bytes([self._byte(register), self._byte(register | 1)]), "big")
            return self._byte(register)
        return self._byte(name)

    def __iter__(self) -> Iterator[str]:
        return iter(Register.__members__)

    def __len__(self) -> int:
        return len(Register.__members__)

    def __repr__(self) -> str:
        return "\n".join(f"{name:10} 0x{self[name]:04X}" if Register[name].pair else f"{name:10} 0x{self[name]:02X}" for name in self)


class Chip:
    """A chip that is set up once and stays. After setup it is in SHIP: :meth:`boot` wakes it.

    :param part: ``"MS9920T"``, ``"MS9930T"`` or ``"MS9940T"``, or 9920, 9930, 9940, or 1 to 3: 5, 10 and 15 cell inputs
    :param crc: whether its bus uses a CRC
    :param address: on the bus, 0x08 to 0x77
    :param gain_code: 0 to 31, for 344 to 375 microvolts a count
    :param offset: in millivolts, -128 to 127
    :param floor: the under-voltage floor, 0 to 4,095 counts
    :param cells: how many cells the pack has, where some inputs are shorted
    :raises Refused: 1 a value out of range, 13 a number of cells that the part has no row for

    Each event is a method. A refused one raises :class:`Refused` and leaves the chip as it was. ``bytes(chip)`` are the chip:
    :meth:`kept` makes one of them, and a chip can be copied and pickled.
    """

    def __init__(self, part: Union[int, str] = "MS9920T", *, crc: bool = False, address: int = 0x08, gain_code: int = 10,
                 offset: int = 30, floor: int = 1000, cells: Optional[int] = None) -> None:
        self._clear()
        number = _part(part)
        setup = record(Kind.SETUP, 1, (number, int(crc), address, gain_code, byte_of(offset), floor))
        self._one(setup)
        if cells is not None:
            self._one(record(Kind.WIRING, number, (cells,)))

    def _clear(self) -> None:
        size = constant("TORALINGE_CHIP_SIZE")
        self._bytes = room(ctypes.c_uint8, size)
        self._records = 0
        self._setup: Optional[Setup] = None

    # ---- keeping it

    @classmethod
    def after(cls, stream: Stream) -> "Chip":
        """The chip that a stream leaves. Records that are refused are passed over.

        :raises Refused: with the number that refuses the first record, so that no chip stands; 9 for an empty stream
        """
        held = stream_of(stream)
        chip = cls.__new__(cls)
        chip._clear()
        entries = chip.feed(held)
        if not entries or chip._setup is None:
            raise Refused(entries[0].number if entries else constant("TORALINGE_CUT"), record=0 if entries else None)
        return chip

    @classmethod
    def kept(cls, bytes_: bytes, setup: Setup, records: int = 0) -> "Chip":
        """The chip of bytes that ``bytes(chip)`` gave.

        :raises Refused: 26 where they are no chip
        """
        chip = cls.__new__(cls)
        chip._clear()
        if len(bytes_) != len(chip._bytes):
            raise Refused(constant("TORALINGE_NO_CHIP"))
        ctypes.memmove(chip._bytes, bytes_, len(bytes_))
        chip._setup, chip._records = setup, records
        chip.registers["SYS_STAT"]
        return chip

    def __bytes__(self) -> bytes:
        return bytes(self._bytes)

    def __reduce__(self) -> tuple[Any, ...]:
        return Chip.kept, (bytes(self), self.setup, self._records)

    def copy(self) -> "Chip":
        """A chip of its own that stands as this one does."""
        return Chip.kept(bytes(self), self.setup, self._records)

    def __repr__(self) -> str:
        return f"<{self.setup.name} after {self._records} records, {'in SHIP' if self.asleep else f'SYS_STAT 0x{int(self.stat):02X}'}>"

    @property
    def setup(self) -> Setup:
        """What the chip was set up with."""
        if self._setup is None:
            raise Refused(constant("TORALINGE_CUT"))
        return self._setup

    @property
    def records(self) -> int:
        """How many records the chip has heard, refused ones too: the number of the next one."""
        return self._records

    def _call(self, name: str, *rest: Any) -> int:
        return call(name, self._bytes, len(self._bytes), *rest)

    # ---- records

    def feed(self, stream: Stream) -> list[Entry]:
        """Plays records on the chip and gives their entries. Refused ones are entries with their number and raise nothing."""
        held = stream_of(stream)
        room_ = entry_room(len(held))
        entries = room(ctypes.c_uint8, room_)
        many = checked(self._call("toralinge_feed", held or b"\0", len(held), entries, room_))
        size, given = entry_size(), []
        for at, place in zip(range(many), places(held)):
            given.append(entry_of(entries[size * at:size * at + size], self._records + at, place.kind))
        if self._setup is None and given and not given[0].number:
            self._setup = setup_of(held)
        self._records += many
        return given

    def _one(self, one: bytes) -> Entry:
        entry = self.feed(one)[0]
        done(entry.number, entry.record)
        return entry

    def _event(self, kind: Kind, *numbers: int) -> Entry:
        try:
            made = record(kind, self.setup.part, numbers)
        except Refused as error:
            raise Refused(error.number, error.words, self._records) from None
        return self._one(made)

    def por(self) -> Entry:
        """Power-on reset: the chip enters SHIP."""
        return self._event(Kind.POR)

    def boot(self) -> Entry:
        """Wakes a chip in SHIP; awake it changes nothing."""
        return self._event(Kind.BOOT)

    def scan(self, counts: Sequence[int]) -> Entry:
        """A scan: a count for each cell input, 0 to 16,383, shorted inputs too. It is stored while ADC_EN is 1."""
        return self._event(Kind.SCAN, *counts)

    def temp(self, counts: Sequence[int]) -> Entry:
        """Temperature counts, one for each five inputs."""
        return self._event(Kind.TEMP, *counts)

    def count(self, reading: int) -> Entry:
        """A reading of the coulomb counter, 16 bits raw."""
        return self._event(Kind.COUNT, reading)

    def sense(self, microvolts: int, times: int = 1) -> Entry:
        """Ticks of 31.25 µs at the sense resistor: SRP minus SRN, within ±500,000 µV, up to 16,777,216 times."""
        if times == 1:
            return self._event(Kind.SENSE, microvolts)
        return self._event(Kind.TICKS if times <= 4096 else Kind.SOAK, microvolts, times)

    def pin(self) -> Entry:
        """ALERT is pulled up from outside, an edge."""
        return self._event(Kind.PIN)

    def load(self, level: bool) -> Entry:
        """The load level at the CHG pin."""
        return self._event(Kind.LOAD, int(level))

    def xready(self) -> Entry:
        """The chip's own fault."""
        return self._event(Kind.XREADY)

    def level(self, level: bool) -> Entry:
        """The outside level: while it is 1 a second protector holds ALERT up."""
        return self._event(Kind.LEVEL, int(level))

    # ---- the bus

    def start(self) -> Entry:
        """START on the bus."""
        return self._event(Kind.START)

    def out(self, byte: int) -> bool:
        """The host sends a byte. Whether it was acknowledged."""
        return self._event(Kind.OUT, byte).bus == 0

    def in_(self, acknowledge: bool = True) -> int:
        """The host takes a byte and acknowledges it, or not."""
        given = self._event(Kind.IN, int(not acknowledge)).bus
        assert given is not None
        return given

    def stop(self) -> Entry:
        """STOP on the bus."""
        return self._event(Kind.STOP)

    def transfer(self, line: str) -> Transfer:
        """A command list of ``i2ctransfer``, as ``w2@0x08 0x05 0x03``. CRC bytes are as typed.

        :raises Refused: 20 not a list, 21 an address outside 0x08 to 0x77
        """
        typed = line.encode("utf-8")
        records = room(ctypes.c_uint8, 329 * (len(typed) // 7 + 1) + 4)
        length = checked(call("toralinge_list", typed or b"\0", len(typed), records, len(records)))
        return self._transferred(self.feed(bytes(records[:length])))

    @staticmethod
    def _transferred(entries: Sequence[Entry]) -> Transfer:
        read: list[bytearray] = []
        acknowledged = True
        for before, entry in zip([None, *entries], entries):
            if entry.kind == Kind.IN and entry.bus is not None:
                if before is None or before.kind != Kind.IN:
                    read.append(bytearray())
                read[-1].append(entry.bus)
            elif entry.kind == Kind.OUT:
                acknowledged = acknowledged and entry.bus == 0
        return Transfer([bytes(one) for one in read], acknowledged)

    def _frame(self, kinds: Sequence[tuple[Kind, Sequence[int]]]) -> list[Entry]:
        return self.feed(b"".join(record(kind, self.setup.part, numbers) for kind, numbers in kinds))

    def write(self, register: Union[str, int], *data: int) -> None:
        """Writes bytes to a register, by name or address, and the ones after it. The CRC is done for you.

        :raises NotAcknowledged: where the chip does not take a byte, as it does asleep
        :raises Refused: 3 for what is no byte
        """
        address, pointer = self.setup.address << 1, _address(register)
        bytes_: list[int] = []
        for at, byte in enumerate(data):
            if not 0 <= byte <= 0xFF:
                raise Refused(constant("TORALINGE_BAD_VALUE"))
            bytes_.append(byte)
            if self.setup.crc:
                bytes_.append(crc8(bytes([byte]) if at else bytes([address, pointer, byte])))
        sent = [(Kind.OUT, (byte,)) for byte in (address, pointer, *bytes_)]
        entries = self._frame([(Kind.START, ()), *sent, (Kind.STOP, ())])
        if not self._transferred(entries).acknowledged:
            raise NotAcknowledged(f"write to 0x{pointer:02X} is not acknowledged")

    def read(self, register: Union[str, int], many: int = 1) -> bytes:
        """Reads bytes over the bus from a register, by name or address, and the ones after it. The CRC is checked for you.

        :raises NotAcknowledged: where the chip does not answer, as it does asleep, or a CRC is wrong
        """
        address, pointer = self.setup.address << 1, _address(register)
        taken = max(many, 0) * (2 if self.setup.crc else 1)
        taking = [(Kind.IN, (int(at == taken - 1),)) for at in range(taken)]
        entries = self._frame([(Kind.START, ()), (Kind.OUT, (address,)), (Kind.OUT, (pointer,)),
                               (Kind.START, ()), (Kind.OUT, (address | 1,)), *taking, (Kind.STOP, ())])
        given = self._transferred(entries)
        data = given.read[0] if given.read else b""
        if not given.acknowledged:
            raise NotAcknowledged(f"read of 0x{pointer:02X} is not acknowledged")
        if self.setup.crc:
            for at in range(0, len(data), 2):
                covered = data[at:at + 1] if at else bytes([address | 1]) + data[:1]
                if crc8(covered) != data[at + 1]:
                    raise NotAcknowledged(f"read of 0x{pointer:02X} has a wrong CRC")
            data = data[::2]
        return data

    # ---- what it says

    @property
    def registers(self) -> Registers:
        """The registers by name, looked at without the bus. Asleep they have their reset values."""
        return Registers(self)

    @property
    def stat(self) -> Stat:
        """SYS_STAT."""
        return Stat(self.registers["SYS_STAT"])

    @property
    def alert(self) -> bool:
        """ALERT is up."""
        return self.stat != 0

    @property
    def chg(self) -> bool:
        """The charge drive is on."""
        return bool(self.registers["SYS_CTRL2"] & Ctrl2.CHG_ON)

    @property
    def dsg(self) -> bool:
        """The discharge drive is on."""
        return bool(self.registers["SYS_CTRL2"] & Ctrl2.DSG_ON)

    def _voltage(self, cell: int) -> tuple[int, int]:
        microvolts = room(ctypes.c_int64, 1)
        return self._call("toralinge_voltage", wide(cell), microvolts), int(microvolts[0])

    @property
    def asleep(self) -> bool:
        """The chip is in SHIP."""
        return self._voltage(1)[0] == constant("TORALINGE_ASLEEP")

    def voltage(self, cell: int) -> int:
        """The voltage of a cell of the pack in microvolts.

        :raises Refused: 4 in SHIP, 6 no such cell, 10 not connected
        """
        number, microvolts = self._voltage(cell)
        done(number)
        return microvolts

    @property
    def voltages(self) -> list[Optional[int]]:
        """The voltage of each cell of the pack in microvolts; None where a cell is not connected.

        :raises Refused: 4 in SHIP
        """
        given: list[Optional[int]] = []
        while True:
            number, microvolts = self._voltage(len(given) + 1)
            if number == constant("TORALINGE_NO_CELL"):
                return given
            if number == constant("TORALINGE_NOT_CONNECTED"):
                given.append(None)
                continue
            done(number)
            given.append(microvolts)

    def reading(self) -> Reading:
        """Forecasting's reading of the chip as it stands.

        :raises Refused: 4 in SHIP, 10 no cell is connected
        """
        given = room(ctypes.c_double, constant("TORALINGE_READING_SIZE"))
        done(self._call("toralinge_reading_of", given, len(given)))
        return Reading(*given)

    def bleed(self, margin: int) -> Bleed:
        """Which cells to bleed: those at least the margin, in counts, above the lowest, no two neighbours.

        :raises Refused: 3 the margin, 4 in SHIP, 10 no cell is connected
        """
        given = room(ctypes.c_uint8, constant("TORALINGE_CELLBAL_SIZE"))
        done(self._call("toralinge_bleed_of", wide(margin), given, len(given)))
        return Bleed(*given)

    def smart_battery(self, command: Union[str, int], milliohms: int = 1) -> Reply:
        """A reply in Smart Battery words: ``"temperature"``, ``"voltage"`` or ``"current"``, or the command's number.

        :param milliohms: the sense resistor, 1 to 100
        :raises Refused: 23, 3, 4, 12, 10 or 11
        """
        number = COMMANDS.get(command.lower(), -1) if isinstance(command, str) else command
        given = room(ctypes.c_uint8, constant("TORALINGE_REPLY_SIZE"))
        done(self._call("toralinge_reply_of", wide(number), wide(milliohms), given, len(given)))
        data = bytes(given)
        return Reply(int.from_bytes(data[:2], "little", signed=number == COMMANDS["current"]), data)


def _address(register: Union[str, int]) -> int:
    address = Register[register].value if isinstance(register, str) else register
    if not 0 <= address <= 0xFF:
        raise Refused(constant("TORALINGE_BAD_VALUE"))
    return address
