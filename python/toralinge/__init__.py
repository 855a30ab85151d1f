"""Toralinge from Python: a proved software stand-in for the battery monitors MS9920T, MS9930T and MS9940T.

Voltages are whole microvolts (``int``) or finished doubles, straight from the proved library. The offset is in them, once; nothing
here or by you needs to add it.

    >>> import toralinge
    >>> chip = toralinge.Chip("MS9920T", gain_code=10, offset=30)
    >>> _ = chip.boot()
    >>> _ = chip.scan([6144, 6144, 6144, 6144, 6144])
    >>> chip.voltage(1)
    2204976

``play``, ``season``, ``scans``, ``changes``, ``why`` and ``off`` take a stream or the name of its file; ``seasons`` and ``fleet`` take many
files and give one table. What the library refuses is raised as :class:`Refused`, with its number and its words.
"""
from __future__ import annotations

from ._version import __version__
from .changes import Change, changes
from .chip import Bleed, Chip, NotAcknowledged, Reading, Registers, Reply, Transfer
from .convert import (
    cc_hundredths, cell_microvolts, crc8, die_temperature, over_voltage_code, thermistor_ohms, under_voltage_code,
)
from .fleet import fleet
from .library import NotThere, version
from .names import By, Ctrl1, Ctrl2, Kind, Pin, Register, Stat
from .refused import Refused, words
from .run import Entry, Run, play
from .season import CellSeason, Report, Scan, Scans, scans, season
from .streams import Setup, Stream, Values, bytes_of_hex, record, setup_of, stream_of, values
from .tables import seasons
from .why import Off, Rise, off, why

__all__ = [
    "Bleed", "By", "CellSeason", "Change", "Chip", "Ctrl1", "Ctrl2", "Entry", "Kind", "NotAcknowledged", "NotThere", "Off", "Pin", "Reading",
    "Refused", "Register", "Registers", "Reply", "Report", "Rise", "Run", "Scan", "Scans", "Setup", "Stat", "Stream", "Transfer", "Values",
    "__version__", "bytes_of_hex", "cc_hundredths", "cell_microvolts", "changes", "crc8", "die_temperature", "fleet",
    "off", "over_voltage_code", "play", "record", "scans", "season", "seasons", "setup_of", "stream_of", "thermistor_ohms",
    "under_voltage_code", "values", "version", "why", "words",
]
