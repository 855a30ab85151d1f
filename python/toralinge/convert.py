"""The conversions on bare numbers, each a proved call. They are the only way from a count to a voltage."""
from __future__ import annotations

import ctypes
from typing import Any, Union

from .library import call, constant, long, room, wide
from .refused import Refused, done
from .streams import byte_of


def _byte(offset: int) -> int:
    byte = byte_of(offset)
    if byte > 0xFF:
        raise Refused(constant("TORALINGE_BAD_SETUP"))
    return byte


def _converted(name: str, kind: Any, *arguments: int) -> int:
    given = room(kind, 1)
    done(call(name, *arguments, given))
    return int(given[0])


def cell_microvolts(gain_code: int, offset: int, count: int) -> int:
    """The voltage of a cell in microvolts, offset in once.

    :param offset: in millivolts, -128 to 127, or as the register's byte
    :raises Refused: 1 gain code above 31, 3 count above 16,383
    """
    return _converted("toralinge_cell_microvolts", ctypes.c_int64, wide(gain_code), _byte(offset), wide(count))


def thermistor_ohms(count: int) -> int:
    """The resistance of a thermistor in ohms, rounded down.

    :raises Refused: 7 count 9,323 or more
    """
    return _converted("toralinge_thermistor_ohms", ctypes.c_uint64, wide(count))


def die_temperature(count: int) -> int:
    """The die temperature in half thousandths of a degree Celsius.

    :raises Refused: 3 count above 16,383
    """
    return _converted("toralinge_die_temperature", ctypes.c_int64, wide(count))


def over_voltage_code(gain_code: int, offset: int, wanted: int) -> int:
    """The OV_TRIP code for a wanted threshold in microvolts.

    :raises Refused: 1 gain code above 31, 8 threshold outside its window
    """
    return _converted("toralinge_over_voltage_code", ctypes.c_uint8, wide(gain_code), _byte(offset), long(wanted))


def under_voltage_code(gain_code: int, offset: int, wanted: int) -> int:
    """The UV_TRIP code for a wanted threshold in microvolts.

    :raises Refused: 1 gain code above 31, 8 threshold outside its window
    """
    return _converted("toralinge_under_voltage_code", ctypes.c_uint8, wide(gain_code), _byte(offset), long(wanted))


def cc_hundredths(reading: int) -> int:
    """The coulomb counter in hundredths of a microvolt, from its 16 bits.

    :raises Refused: 3 more than 16 bits
    """
    if not 0 <= reading <= 0xFFFF:
        raise Refused(constant("TORALINGE_BAD_VALUE"))
    return call("toralinge_cc_hundredths", reading)


def crc8(data: Union[bytes, bytearray, memoryview], start: int = 0) -> int:
    """The bus's CRC-8 of bytes, going on from the CRC of what came before.

    :raises Refused: 3 a start of more than 8 bits
    """
    if not 0 <= start <= 0xFF:
        raise Refused(constant("TORALINGE_BAD_VALUE"))
    held = bytes(data)
    return call("toralinge_crc8", start, held or b"\0", len(held))
