"""What stood after each record of a run: awake or in SHIP, and the settings."""
from __future__ import annotations

import ctypes
from typing import NamedTuple, Optional

from .convert import cell_microvolts
from .library import Call, Inside, constant, library, room
from .names import Ctrl1, Kind, Register
from .refused import Refused
from .run import Run, entry_size, play
from .season import Scan, Scans, scans
from .streams import Setup, Stream, setup_of

WATCHED = tuple(register for register in Register if Register.CELLBAL1 <= register <= Register.CC_CFG)
"""The registers that are looked at after each record."""


class Moment(NamedTuple):
    """The chip after a record."""

    awake: bool
    registers: dict[Register, int]


class History:
    """A stream that was played record by record.

    :ivar run: its entries
    :ivar setup: what the chip was set up with; None where no chip stands
    :ivar moments: the chip after each record
    :ivar scans: the scans that were stored
    """

    def __init__(self, stream: Stream) -> None:
        self.run: Run = play(stream)
        self.setup: Optional[Setup] = None
        self.moments: list[Moment] = []
        self.scans: list[Scan] = []
        self.cells = 0
        try:
            self.setup = setup_of(self.run.stream)
        except Refused:
            return
        self.moments = self._moments()
        stored: Scans = scans(self.run.stream)
        self.scans, self.cells = list(stored), stored.cells

    def _moments(self) -> list[Moment]:
        chip = room(ctypes.c_uint8, constant("TORALINGE_CHIP_SIZE"))
        entry, voltage = room(ctypes.c_uint8, 2 * entry_size()), room(ctypes.c_int64, 1)
        many = len(WATCHED)
        seen = room(ctypes.c_uint8, len(self.run) * many)
        calls: list[Call] = []
        for at in range(len(self.run)):
            one = self.run.record(at)
            calls.append(("toralinge_feed", (chip, len(chip), one, len(one), entry, len(entry))))
            calls += [("toralinge_register", (chip, len(chip), int(register), Inside(seen, many * at + place)))
                      for place, register in enumerate(WATCHED)]
            calls.append(("toralinge_voltage", (chip, len(chip), 1, voltage)))
        answers = library().calls(calls)
        asleep = constant("TORALINGE_ASLEEP")
        return [Moment(answers[(many + 2) * at + many + 1] != asleep, dict(zip(WATCHED, seen[many * at:many * at + many])))
                for at in range(len(self.run))]

    @property
    def not_stored(self) -> list[int]:
        """The records of scans that the chip took and did not store, ADC_EN being 0."""
        stored = {one.record for one in self.scans}
        return [entry.record for entry in self.run if entry.kind == Kind.SCAN and not entry.number and entry.record not in stored]

    def adc_on(self, record: int) -> bool:
        """Whether ADC_EN stood at 1 after a record."""
        return bool(self.moments[record].registers[Register.SYS_CTRL1] & Ctrl1.ADC_EN)

    def over_line(self, record: int) -> int:
        """The OV line as the registers had it after a record, in microvolts: a count above it is over."""
        return self._line(over_count(self.moments[record].registers[Register.OV_TRIP]))

    def under_line(self, record: int) -> int:
        """The UV line as the registers had it after a record, in microvolts: a count below it, and not below the floor, is under."""
        return self._line(under_count(self.moments[record].registers[Register.UV_TRIP]))

    def _line(self, count: int) -> int:
        assert self.setup is not None
        return cell_microvolts(self.setup.gain_code, self.setup.offset, count)


def over_count(code: int) -> int:
    """The count that OV_TRIP stands for."""
    return 8200 + 16 * code


def under_count(code: int) -> int:
    """The count that UV_TRIP stands for."""
    return 4096 + 16 * code
