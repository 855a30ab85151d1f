"""Finding the proved library and calling it.

The calls are made with :mod:`ctypes`: it comes with Python, so the package is installed without a compiler and without a
network, and one file works with every Python. What a call takes and answers is read from ``toralinge.h``, the header that C
programs use, so nothing is declared a second time.

The library is for x86-64 Linux. A Python for another processor cannot load it; there a small program, the bridge
(``bridge.c``), loads it under the emulator ``qemu-x86_64`` and makes the calls in memory that both share. The callers of this
module do not see the difference.

The library is looked for in this order: the file that the environment variable ``TORALINGE_LIBRARY`` names,
``libtoralinge.so`` beside this package, ``target/libtoralinge.so`` of the tree that the package lies in, and what the
system's loader finds.
"""
from __future__ import annotations

import atexit
import ctypes
import ctypes.util
import mmap
import os
import platform
import re
import shutil
import struct
import subprocess
import threading
from itertools import repeat
from pathlib import Path
from typing import Any, Iterable, NamedTuple, Optional, Sequence, Union

HERE = Path(__file__).resolve().parent
TREE = HERE.parent.parent
FILE = "libtoralinge.so"
ADVICE = "run ./library in the tree of Toralinge to prove and build it"


class NotThere(RuntimeError):
    """The library, its header or one of its calls is not there. The words say what to do."""


# ---- the header ---------------------------------------------------------------------------------------------------------

class Signature(NamedTuple):
    """What a call answers and takes, as the header's C types without their names."""

    answer: str
    takes: tuple[str, ...]


class Header(NamedTuple):
    """The numbers that ``toralinge.h`` names and the calls that it declares."""

    numbers: dict[str, int]
    calls: dict[str, Signature]


def read_header(text: str) -> Header:
    """Takes the enumerators, the whole numbers defined by ``#define`` and the declarations from the header's text."""
    text = re.sub(r"/\*.*?\*/", " ", text, flags=re.S)
    numbers: dict[str, int] = {}
    for name, value in re.findall(r"^\s*#define\s+(TORALINGE_\w+)\s+(0[xX][0-9A-Fa-f]+|\d+)\s*$", text, flags=re.M):
        numbers[name] = int(value, 0)
    for body in re.findall(r"enum(?:\s+\w+)?\s*\{([^}]*)\}", text):
        following = 0
        for entry in body.split(","):
            name, _, value = (part.strip() for part in entry.partition("="))
            if not name:
                continue
            following = numbers[name] = int(value, 0) if value else following
            following += 1
    calls: dict[str, Signature] = {}
    for answer, name, takes in re.findall(r"((?:const\s+)?\w+\s*\*?)\s*\b(toralinge_\w+)\s*\(([^)]*)\)\s*;", text):
        arguments = [] if takes.strip() == "void" else takes.split(",")
        calls[name] = Signature(_c_type(answer + " x"), tuple(_c_type(one) for one in arguments))
    return Header(numbers, calls)


def _c_type(declared: str) -> str:
    """``const uint8_t *stream`` is ``uint8_t*``, ``size_t length`` is ``size_t``."""
    words = declared.replace("*", " * ").split()
    kind = next(word for word in words if word not in ("const", "*"))
    return kind + ("*" if "*" in words else "")


def _find_header() -> Header:
    for place in (HERE / "toralinge.h", TREE / "include" / "toralinge.h"):
        if place.is_file():
            return read_header(place.read_text(encoding="utf-8"))
    raise NotThere("toralinge.h is neither beside the package nor in include/ of the tree it lies in")


_header: Optional[Header] = None


def header() -> Header:
    """The header, read once."""
    global _header
    if _header is None:
        _header = _find_header()
    return _header


def constant(name: str) -> int:
    """A number that the header names, as ``constant("TORALINGE_CHIP_SIZE")``."""
    try:
        return header().numbers[name]
    except KeyError:
        raise NotThere(f"toralinge.h does not name {name}: the header is older than this package") from None


def signature(name: str) -> Signature:
    """What a call takes and answers."""
    try:
        return header().calls[name]
    except KeyError:
        raise NotThere(f"toralinge.h does not declare {name}: the header is older than this package") from None


# ---- arguments ------------------------------------------------------------------------------------------------------------

class Inside(NamedTuple):
    """A pointer into a buffer that is lent: so many bytes after its beginning."""

    buffer: Any
    place: int


class Spread(NamedTuple):
    """A pointer for each of many calls: into one buffer, so many bytes after its beginning."""

    buffer: Any
    places: Sequence[int]


Argument = Union[int, bytes, "ctypes.Array[Any]", Inside]
Call = tuple[str, Sequence[Argument]]
Column = Union[int, Sequence[int], Spread]

_WIDTHS = {
    "uint8_t": ctypes.c_uint8, "uint16_t": ctypes.c_uint16, "uint32_t": ctypes.c_uint32, "uint64_t": ctypes.c_uint64,
    "int64_t": ctypes.c_int64, "size_t": ctypes.c_size_t,
}


def room(kind: Any, many: int) -> "ctypes.Array[Any]":
    """A zeroed buffer of so many items of a ctypes type; at least one, so that there is always something to point at."""
    buffer: ctypes.Array[Any] = (kind * max(many, 1))()
    return buffer


def wide(value: int) -> int:
    """A number as ``uint32_t``. One that does not fit becomes the largest, which every call refuses by its own number."""
    return value if 0 <= value <= 0xFFFFFFFF else 0xFFFFFFFF


def long(value: int) -> int:
    """A number as ``int64_t``. One that does not fit becomes the nearest that does, which is as far out of every range."""
    return min(max(value, -(1 << 63)), (1 << 63) - 1)


# ---- the two ways to call -------------------------------------------------------------------------------------------------

class Library:
    """The library, loaded into this process."""

    def __init__(self, path: str) -> None:
        self.path = path
        self._loaded = ctypes.CDLL(path)
        self._functions: dict[str, Any] = {}

    def has(self, name: str) -> bool:
        """Whether both the header and the library have a call."""
        return name in header().calls and hasattr(self._loaded, name)

    def _function(self, name: str) -> Any:
        found = self._functions.get(name)
        if found is None:
            shape = signature(name)
            try:
                found = getattr(self._loaded, name)
            except AttributeError:
                raise NotThere(f"{self.path} has no call {name}: {ADVICE}") from None
            found.restype = ctypes.c_char_p if shape.answer == "char*" else _WIDTHS[shape.answer]
            found.argtypes = [ctypes.c_void_p if kind.endswith("*") else _WIDTHS[kind] for kind in shape.takes]
            self._functions[name] = found
        return found

    def call(self, name: str, *arguments: Argument) -> int:
        """Makes one call. ``bytes`` are lent to be read, ctypes arrays to be read and written."""
        handed = [ctypes.byref(one.buffer, one.place) if isinstance(one, Inside) else one for one in arguments]
        answer: int = self._function(name)(*handed)
        return answer

    def calls(self, many: Iterable[Call]) -> list[int]:
        """Makes calls one after the other and gives their answers."""
        return [self.call(name, *arguments) for name, arguments in many]

    def each(self, name: str, many: int, *columns: Column) -> list[int]:
        """Makes one call many times and gives its answers. An argument is the same number for all, or one for each."""
        return list(map(self._function(name), *(_column(one, many) for one in columns)))

    def text(self, name: str, *arguments: int) -> str:
        """Makes a call that answers text."""
        return bytes(self._function(name)(*arguments)).decode()


def _column(column: Column, many: int) -> Iterable[int]:
    """The numbers of an argument for many calls; pointers as addresses."""
    if isinstance(column, int):
        return repeat(column, many)
    if not isinstance(column, Spread):
        return column
    if isinstance(column.buffer, bytes):
        base = ctypes.cast(ctypes.c_char_p(column.buffer), ctypes.c_void_p).value or 0
    else:
        base = ctypes.addressof(column.buffer)
    return [base + place for place in column.places]


class _Lent:
    """The buffers that calls are lent, each with its place in the shared memory."""

    def __init__(self, following: int) -> None:
        self.following = following
        self.places: dict[int, tuple[int, Any]] = {}

    def place(self, buffer: Any) -> int:
        """Where a buffer stands; the same one always at the same place."""
        if id(buffer) not in self.places:
            self.places[id(buffer)] = (self.following, buffer)
            self.following += memoryview(buffer).nbytes + 15 & ~15
        return self.places[id(buffer)][0]


class Bridge(Library):
    """The library in a process of its own under the emulator. Buffers are copied to and from memory that both share."""

    RUNNER = "qemu-x86_64"
    LIBRARIES = "/usr/x86_64-linux-gnu/lib"
    _HEAD = struct.Struct("<QQQ")
    _ROW = struct.Struct("<10q")

    def __init__(self, path: str, program: str) -> None:
        self.path = path
        self._program = program
        self._lock = threading.RLock()
        self._process: Optional[subprocess.Popen[bytes]] = None
        self._start()

    def _start(self) -> None:
        runner = shutil.which(self.RUNNER)
        loader = f"{self.LIBRARIES}/ld-linux-x86-64.so.2"
        if runner is None or not os.path.exists(loader):
            raise NotThere(f"{self.path} is for x86-64: the packages qemu-user and libc6-amd64-cross are needed to run it here")
        self._owner = os.getpid()
        self._handles: dict[str, int] = {}
        self._size = 1 << 20
        self._shared = os.memfd_create("toralinge")
        os.ftruncate(self._shared, self._size)
        self._memory = mmap.mmap(self._shared, self._size)
        self._process = subprocess.Popen(
            [runner, loader, "--library-path", self.LIBRARIES, self._program, self.path, str(self._shared)],
            stdin=subprocess.PIPE, stdout=subprocess.PIPE, pass_fds=(self._shared,), start_new_session=True)
        atexit.register(self._end, self._process)

    @staticmethod
    def _end(process: "subprocess.Popen[bytes]") -> None:
        """Ends a process that this one has started. Closing its input is enough."""
        try:
            if process.stdin is not None:
                process.stdin.close()
            process.wait(timeout=5)
        except (OSError, subprocess.TimeoutExpired):
            process.kill()

    def _ask(self, many: int, place: int) -> int:
        """Has calls made and gives the answer. Whoever is interrupted meanwhile leaves no answer behind: the next call starts anew."""
        process, self._process = self._process, None
        assert process is not None and process.stdin is not None and process.stdout is not None
        try:
            process.stdin.write(self._HEAD.pack(many, place, self._size))
            process.stdin.flush()
            answer = process.stdout.read(8)
        except OSError:
            answer = b""
        except BaseException:
            process.kill()
            raise
        if len(answer) != 8:
            raise NotThere(f"the bridge {self._program} has ended: is {self.path} a library for x86-64 Linux?")
        self._process = process
        return int.from_bytes(answer, "little", signed=True)

    def _need(self, size: int) -> None:
        """The memory that is shared, at least so large. The other side maps it anew when it hears of the new size."""
        if size > self._size:
            self._size = max(size, 2 * self._size)
            os.ftruncate(self._shared, self._size)
            self._memory.close()
            self._memory = mmap.mmap(self._shared, self._size)

    def _handle(self, name: str) -> int:
        """The other side's number for a call; -1 where the library has no such call."""
        if name not in self._handles:
            self._memory[:len(name) + 1] = name.encode() + b"\0"
            self._handles[name] = self._ask(0, 0)
        return self._handles[name]

    def _here(self) -> None:
        """After a fork the pipes are the parent's, and a process may have ended: then another is started."""
        if self._owner != os.getpid() or self._process is None:
            self._start()

    def has(self, name: str) -> bool:
        if name not in header().calls:
            return False
        with self._lock:
            self._here()
            return self._handle(name) >= 0

    def call(self, name: str, *arguments: Argument) -> int:
        return self.calls([(name, arguments)])[0]

    def calls(self, many: Iterable[Call]) -> list[int]:
        with self._lock:
            self._here()
            listed = list(many)
            for name in {name for name, _ in listed}:
                if self._handle(name) < 0:
                    raise NotThere(f"{self.path} has no call {name}: {ADVICE}")
            if not listed:
                return []
            return self._made(listed)

    def each(self, name: str, many: int, *columns: Column) -> list[int]:
        with self._lock:
            self._here()
            if self._handle(name) < 0:
                raise NotThere(f"{self.path} has no call {name}: {ADVICE}")
            lent = _Lent(self._ROW.size * many)
            pointers, given = 0, [_column(0, many) for _ in range(6)]
            for at, column in enumerate(columns):
                if isinstance(column, Spread):
                    pointers |= 1 << at
                    base = lent.place(column.buffer)
                    given[at] = [base + place for place in column.places]
                else:
                    given[at] = _column(column, many)
            head = (self._handles[name], pointers, signature(name).answer == "uint8_t")
            pack = self._ROW.pack
            return self._together(b"".join([pack(*head, *six, 0) for six in zip(*given)]), lent)

    def _made(self, listed: list[Call]) -> list[int]:
        lent = _Lent(self._ROW.size * len(listed))
        rows = bytearray()
        for name, arguments in listed:
            pointers, numbers = 0, [0] * 6
            for at, one in enumerate(arguments):
                if isinstance(one, int):
                    numbers[at] = one
                    continue
                buffer, inside = (one.buffer, one.place) if isinstance(one, Inside) else (one, 0)
                pointers |= 1 << at
                numbers[at] = lent.place(buffer) + inside
            rows += self._ROW.pack(self._handles[name], pointers, signature(name).answer == "uint8_t", *numbers, 0)
        return self._together(bytes(rows), lent)

    def _together(self, rows: bytes, lent: "_Lent") -> list[int]:
        """Lays the calls and what they are lent into the shared memory, has them made, and takes back what was written."""
        self._need(lent.following)
        self._memory[:len(rows)] = rows
        for place, buffer in lent.places.values():
            held = memoryview(buffer).cast("B")
            self._memory[place:place + held.nbytes] = held
        self._ask(len(rows) // self._ROW.size, 0)
        for place, buffer in lent.places.values():
            if not isinstance(buffer, bytes):
                held = memoryview(buffer).cast("B")
                held[:] = self._memory[place:place + held.nbytes]
        return [row[-1] for row in self._ROW.iter_unpack(self._memory[:len(rows)])]

    def text(self, name: str, *arguments: int) -> str:
        with self._lock:
            answer = self.call(name, *arguments)
            self._memory[:8] = answer.to_bytes(8, "little", signed=True)
            length = self._ask(1 << 63, 0)
            return bytes(self._memory[:length]).decode()


# ---- finding it -----------------------------------------------------------------------------------------------------------

_MACHINES = {"x86_64": 0x3E, "aarch64": 0xB7}


def _machine(path: Path) -> Optional[int]:
    """The processor that a shared library is for, as its ELF header says it."""
    with path.open("rb") as file:
        head = file.read(20)
    return int.from_bytes(head[18:20], "little") if head[:4] == b"\x7fELF" and len(head) == 20 else None


def _load(path: Path) -> Library:
    wanted, here = _machine(path), _MACHINES.get(platform.machine())
    if wanted == _MACHINES["x86_64"] and wanted != here:
        program = path.parent / "toralinge-bridge"
        if not program.is_file():
            raise NotThere(f"{path} is for x86-64 and {program} is not there to run it under an emulator: {ADVICE}")
        return Bridge(str(path), str(program))
    try:
        return Library(str(path))
    except OSError as error:
        raise NotThere(f"{path} cannot be loaded ({error}): {ADVICE}") from error


def _find() -> Library:
    named = os.environ.get("TORALINGE_LIBRARY")
    if named:
        if not Path(named).is_file():
            raise NotThere(f"TORALINGE_LIBRARY names {named}, which is no file: {ADVICE}")
        return _load(Path(named).resolve())
    for place in (HERE / FILE, TREE / "target" / FILE):
        if place.is_file():
            return _load(place)
    found = ctypes.util.find_library("toralinge")
    if found is not None:
        return Library(found)
    raise NotThere(f"{FILE} is not there: {ADVICE}, or name it in the environment variable TORALINGE_LIBRARY")


_library: Optional[Library] = None
_finding = threading.Lock()


def library() -> Library:
    """The library, found and loaded once."""
    global _library
    with _finding:
        if _library is None:
            _library = _find()
        return _library


def call(name: str, *arguments: Argument) -> int:
    """Makes one call of the library."""
    return library().call(name, *arguments)


def version() -> str:
    """The library's version, as ``1.2.3``."""
    return library().text("toralinge_version")
