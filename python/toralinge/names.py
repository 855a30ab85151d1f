"""The names that the papers give to kinds of records, registers and bits."""
from __future__ import annotations

from enum import IntEnum, IntFlag


class Kind(IntEnum):
    """Kinds of records."""

    SETUP = 0x0000
    POR = 0x0001
    BOOT = 0x0002
    SCAN = 0x0003
    TEMP = 0x0004
    COUNT = 0x0005
    SENSE = 0x0006
    PIN = 0x0007
    LOAD = 0x0008
    XREADY = 0x0009
    START = 0x0010
    OUT = 0x0011
    IN = 0x0012
    STOP = 0x0013
    TICKS = 0x0014
    LEVEL = 0x0015
    WIRING = 0x0016
    SOAK = 0x0017


class Register(IntEnum):
    """Register addresses of one byte each; a pair is named by the address of its high byte."""

    SYS_STAT = 0x00
    CELLBAL1 = 0x01
    CELLBAL2 = 0x02
    CELLBAL3 = 0x03
    SYS_CTRL1 = 0x04
    SYS_CTRL2 = 0x05
    PROTECT1 = 0x06
    PROTECT2 = 0x07
    PROTECT3 = 0x08
    OV_TRIP = 0x09
    UV_TRIP = 0x0A
    CC_CFG = 0x0B
    VC1 = 0x0C
    VC2 = 0x0E
    VC3 = 0x10
    VC4 = 0x12
    VC5 = 0x14
    VC6 = 0x16
    VC7 = 0x18
    VC8 = 0x1A
    VC9 = 0x1C
    VC10 = 0x1E
    VC11 = 0x20
    VC12 = 0x22
    VC13 = 0x24
    VC14 = 0x26
    VC15 = 0x28
    BAT = 0x2A
    TS1 = 0x2C
    TS2 = 0x2E
    TS3 = 0x30
    CC = 0x32
    ADCGAIN1 = 0x50
    ADCOFFSET = 0x51
    ADCGAIN2 = 0x59

    @property
    def pair(self) -> bool:
        """Whether the value takes two addresses, high byte first."""
        return Register.VC1 <= self <= Register.CC


class Stat(IntFlag):
    """Bits of SYS_STAT. ALERT is up while one of them is."""

    CC_READY = 0x80
    XREADY = 0x20
    OVRD_ALERT = 0x10
    UV = 0x08
    OV = 0x04
    SCD = 0x02
    OCD = 0x01


class Pin(IntFlag):
    """The pins in the last byte of an entry."""

    ALERT = 4
    CHG = 2
    DSG = 1


class By(IntEnum):
    """Why a bit of SYS_STAT rose."""

    SCANS = 1
    TICKS = 2
    PIN = 3
    LEVEL = 4
    XREADY = 5
    COUNT = 6


class Ctrl1(IntFlag):
    """Bits of SYS_CTRL1."""

    LOAD_PRESENT = 0x80
    ADC_EN = 0x10
    TEMP_SEL = 0x08
    SHUT_A = 0x02
    SHUT_B = 0x01


class Ctrl2(IntFlag):
    """Bits of SYS_CTRL2."""

    DELAY_DIS = 0x80
    CC_EN = 0x40
    CC_ONESHOT = 0x20
    DSG_ON = 0x02
    CHG_ON = 0x01


PARTS = {1: "MS9920T", 2: "MS9930T", 3: "MS9940T"}
"""The parts by their number in SETUP: 5, 10 and 15 cell inputs."""

MEANINGS = {
    Stat.CC_READY: "a new coulomb count is ready",
    Stat.XREADY: "the chip reports an internal fault",
    Stat.OVRD_ALERT: "ALERT is pulled up from outside",
    Stat.UV: "under-voltage",
    Stat.OV: "over-voltage",
    Stat.SCD: "short circuit in discharge",
    Stat.OCD: "over-current in discharge",
}
"""What a bit of SYS_STAT says, in words."""
