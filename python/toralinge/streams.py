"""Streams of records: where they come from, where each record stands, and what it says in words."""
from __future__ import annotations

import ctypes
import os
from pathlib import Path
from typing import Iterator, NamedTuple, Optional, Sequence, Union

from .library import call, constant, long, room, wide
from .names import PARTS, Kind
from .refused import Refused, checked

Stream = Union[bytes, bytearray, memoryview, str, "os.PathLike[str]"]
"""Bytes, or the name of a file: of bytes, or of hex text with white space and ``#`` comments."""


def stream_of(source: Stream) -> bytes:
    """The bytes of a stream. Hex text is taken from a file ``*.hex`` and from any other file that is hex text."""
    if isinstance(source, (bytes, bytearray, memoryview)):
        return bytes(source)
    path = Path(source)
    held = path.read_bytes()
    if path.suffix == ".hex":
        return bytes_of_hex(held, str(path))
    if held and b"\0" not in held:
        try:
            return bytes_of_hex(held, str(path))
        except ValueError:
            return held
    return held


def bytes_of_hex(text: Union[str, bytes], name: str = "hex text") -> bytes:
    """The bytes of hex text: white space between bytes, ``#`` begins a comment. ValueError names the line that is not."""
    if isinstance(text, bytes):
        try:
            text = text.decode("utf-8")
        except UnicodeDecodeError:
            raise ValueError(f"{name} is no text") from None
    bytes_ = bytearray()
    for number, line in enumerate(text.splitlines(), 1):
        for word in line.partition("#")[0].split():
            try:
                if not word.isascii():
                    raise ValueError
                bytes_ += bytes.fromhex(word)
            except ValueError:
                raise ValueError(f"{name}, line {number}: not hex, or an odd number of digits: {word}") from None
    return bytes(bytes_)


class Place(NamedTuple):
    """Where a record stands in its stream. A cut header has no kind; a cut record ends where the stream does."""

    at: int
    end: int
    kind: Optional[int]


def places(stream: bytes) -> Iterator[Place]:
    """Each record of a stream; a record that is cut short is the last."""
    at = 0
    while at < len(stream):
        head = stream[at:at + 4]
        if len(head) < 4:
            yield Place(at, len(stream), None)
            return
        end = at + 4 + int.from_bytes(head[:2], "little")
        yield Place(at, min(end, len(stream)), int.from_bytes(head[2:], "little"))
        at = end


def kind_name(kind: Optional[int]) -> str:
    """``SCAN`` for 3; ``kind 00FF`` for one that is not known, ``no header`` for None."""
    if kind is None:
        return "no header"
    try:
        return Kind(kind).name
    except ValueError:
        return f"kind {kind:04X}"


def record(kind: int, part: int, values: Sequence[int] = ()) -> bytes:
    """A record by the proved writer.

    :param part: of the chip that the record is for; any for SETUP
    :raises Refused: 1, 2, 3 or 13, as the chip would refuse the record
    """
    numbers = room(ctypes.c_int64, len(values))
    for at, value in enumerate(values):
        numbers[at] = long(value)
    written = room(ctypes.c_uint8, 64)
    length = checked(call("toralinge_record", wide(kind), wide(part), numbers, len(values), written, len(written)))
    return bytes(written[:length])


class Values(NamedTuple):
    """What a record says: its kind and its numbers, as :func:`record` takes them."""

    kind: int
    values: tuple[int, ...]


def values(record_: bytes, part: int) -> Values:
    """Takes a record apart by the proved reader. Part 0: no chip stands yet.

    :raises Refused: 9, 2, 1 or 3
    """
    kind, numbers = room(ctypes.c_uint32, 1), room(ctypes.c_int64, 16)
    many = checked(call("toralinge_values", bytes(record_) or b"\0", len(record_), wide(part), kind, numbers, len(numbers)))
    return Values(kind[0], tuple(numbers[:many]))


class Setup(NamedTuple):
    """What SETUP says. The offset is in millivolts, with its sign; the floor is a count."""

    part: int
    crc: bool
    address: int
    gain_code: int
    offset: int
    floor: int

    @property
    def name(self) -> str:
        """The part's name, as ``MS9920T``."""
        return PARTS[self.part]


def setup_of(stream: bytes) -> Setup:
    """What the SETUP that a stream begins with says.

    :raises Refused: 9 for an empty or cut stream, 2 or 1 where the first record is no SETUP that stands
    """
    if not stream:
        raise Refused(constant("TORALINGE_CUT"))
    kind, numbers = values(stream[:next(places(stream)).end], 0)
    if kind != Kind.SETUP:
        raise Refused(constant("TORALINGE_BAD_KIND"), record=0)
    part, crc, address, gain_code, byte, floor = numbers
    return Setup(part, bool(crc), address, gain_code, int.from_bytes(bytes([byte]), "little", signed=True), floor)


def byte_of(offset: int) -> int:
    """The offset as the byte that SETUP and the conversions take: two's complement. 256 where there is none."""
    return offset & 0xFF if -128 <= offset <= 255 else 256


def describe(kind: Optional[int], numbers: Optional[Sequence[int]]) -> str:
    """A record in words; without its numbers its kind alone."""
    name = kind_name(kind)
    if numbers is None or not numbers:
        return name
    first = numbers[0]
    if kind == Kind.SETUP:
        return f"SETUP {PARTS.get(first, first)}, CRC {'on' if numbers[1] else 'off'}, address 0x{numbers[2]:02X}"
    if kind in (Kind.SCAN, Kind.TEMP):
        return f"{name} {' '.join(str(count) for count in numbers)}"
    if kind == Kind.OUT:
        return f"OUT 0x{first:02X}"
    if kind == Kind.IN:
        return f"IN, {'not ' if first else ''}acknowledged by the host"
    if kind == Kind.SENSE:
        return f"SENSE {first} µV"
    if kind in (Kind.TICKS, Kind.SOAK):
        return f"{name} {first} µV, {numbers[1]:,} times"
    if kind == Kind.WIRING:
        return f"WIRING {first} cells"
    return f"{name} {first}"
