"""Finding the library, and what it says where something is not there."""
from __future__ import annotations

import ctypes.util
import os
import signal
import subprocess
import sys
from pathlib import Path

import pytest
from common import ROOT

import toralinge
from toralinge import By, Ctrl1, Ctrl2, Kind, Register, Stat, library, names, streams


def python(code: str, **environment: str) -> "subprocess.CompletedProcess[str]":
    """Runs Python with this package and another environment."""
    there = {**os.environ, "PYTHONPATH": str(Path(toralinge.__file__).parents[1]), **environment}
    return subprocess.run([sys.executable, "-c", code], env=there, capture_output=True, text=True)


def test_the_versions_agree():  # type: ignore[no-untyped-def]
    assert toralinge.version() == toralinge.__version__
    major, minor, patch = map(int, toralinge.__version__.split("."))
    assert library.constant("TORALINGE_VERSION_NUMBER") == 10_000 * major + 100 * minor + patch


def test_a_library_that_is_not_there():  # type: ignore[no-untyped-def]
    ran = python("import toralinge; toralinge.play(b'')", TORALINGE_LIBRARY="/nowhere/libtoralinge.so")
    assert ran.returncode and "NotThere" in ran.stderr and "run ./library" in ran.stderr


def test_a_library_without_the_calls():  # type: ignore[no-untyped-def]
    """Any other library: importing works, and each call says what is missing."""
    maths = ctypes.util.find_library("m")
    found = next(path for folder in ("/lib", "/usr/lib", "/lib64", "/usr/lib64") for path in Path(folder).rglob(str(maths)))
    ran = python("import toralinge\ntry:\n    toralinge.play(b'')\nexcept toralinge.NotThere as error:\n    print(error)\n"
                 "print(toralinge.words(3))", TORALINGE_LIBRARY=str(found))
    assert "has no call toralinge_play: run ./library" in ran.stdout and "number 3" in ran.stdout, ran


def test_a_call_that_the_header_does_not_declare():  # type: ignore[no-untyped-def]
    with pytest.raises(toralinge.NotThere, match="does not declare toralinge_none"):
        library.signature("toralinge_none")
    with pytest.raises(toralinge.NotThere, match="does not name TORALINGE_NONE"):
        library.constant("TORALINGE_NONE")
    assert not library.library().has("toralinge_none") and library.library().has("toralinge_play")


def test_the_header_is_read_as_c_reads_it():  # type: ignore[no-untyped-def]
    text = """#define TORALINGE_A 12
    /* enum { TORALINGE_NOT = 1 }; */ enum some { TORALINGE_B, TORALINGE_C = 0x10, TORALINGE_D };
    int64_t toralinge_one(const uint8_t *a, size_t b,
                          double *c); const char *toralinge_two(void); uint8_t toralinge_three(uint32_t a, int64_t *b);"""
    given = library.read_header(text)
    assert given.numbers == {"TORALINGE_A": 12, "TORALINGE_B": 0, "TORALINGE_C": 16, "TORALINGE_D": 17}
    assert given.calls == {"toralinge_one": ("int64_t", ("uint8_t*", "size_t", "double*")), "toralinge_two": ("char*", ()),
                           "toralinge_three": ("uint8_t", ("uint32_t", "int64_t*"))}


def test_names_are_the_header_s():  # type: ignore[no-untyped-def]
    numbers = library.header().numbers
    for prefix, listed in (("KIND", Kind), ("REG", Register), ("STAT", Stat), ("CTRL1", Ctrl1), ("CTRL2", Ctrl2), ("PIN", names.Pin), ("BY", By)):
        named = {name.removeprefix(f"TORALINGE_{prefix}_"): value for name, value in numbers.items() if name.startswith(f"TORALINGE_{prefix}_")}
        assert named and all(listed[name] == value for name, value in named.items()), prefix
    assert Register.CC.pair and not Register.ADCGAIN1.pair and not Register.CC_CFG.pair


def test_every_call_of_the_header_is_in_the_library():  # type: ignore[no-untyped-def]
    declared = set(library.header().calls)
    assert {"toralinge_play", "toralinge_season", "toralinge_crc8"} <= declared
    assert [name for name in sorted(declared) if not library.library().has(name)] == []


def test_hex_text_and_bytes(tmp_path):  # type: ignore[no-untyped-def]
    scene = ROOT / "examples/first-alert.hex"
    held = toralinge.stream_of(scene)
    for name, data in (("a.hex", scene.read_bytes()), ("b", scene.read_bytes()), ("c", held)):
        (tmp_path / name).write_bytes(data)
        assert toralinge.stream_of(tmp_path / name) == held
    (tmp_path / "d").write_bytes(b"no hex\xff")
    assert toralinge.stream_of(str(tmp_path / "d")) == b"no hex\xff"
    for text in ("0", "0g", "00 1", "٠٠"):
        with pytest.raises(ValueError, match="line 1"):
            toralinge.bytes_of_hex(text)
    assert toralinge.bytes_of_hex("00 ff # 12 zz\n\t01Ab") == b"\0\xff\x01\xab"
    assert streams.describe(None, None) == "no header" and streams.kind_name(0xFF) == "kind 00FF"


def test_one_more_process_after_a_fork():  # type: ignore[no-untyped-def]
    """A child of fork calls the library as its parent does."""
    expected = toralinge.cell_microvolts(10, 30, 6144)
    reading, writing = os.pipe()
    child = os.fork()
    if child == 0:
        os.write(writing, str(toralinge.cell_microvolts(10, 30, 6144)).encode())
        os._exit(0)
    os.waitpid(child, 0)
    assert int(os.read(reading, 100)) == expected == toralinge.cell_microvolts(10, 30, 6144) == 2_204_976


def test_an_interrupt_leaves_no_answer_behind():  # type: ignore[no-untyped-def]
    """A call that is broken off, by a key or an alarm, does not shift the answers of the next ones."""
    class Stopped(Exception):
        pass

    def stop(*given: object) -> None:
        raise Stopped

    before = signal.signal(signal.SIGALRM, stop)
    stream = toralinge.stream_of(ROOT / "examples/season.hex")
    try:
        for wait in (0.001, 0.003, 0.01, 0.02):
            signal.setitimer(signal.ITIMER_REAL, wait)
            with pytest.raises(Stopped):
                while True:
                    toralinge.season(stream)
            assert toralinge.cell_microvolts(10, 30, 6144) == 2_204_976 and toralinge.crc8(b"\x10\x05\x03") == 0xEA
    finally:
        signal.signal(signal.SIGALRM, before)


def test_a_bridge_that_ended_is_started_again():  # type: ignore[no-untyped-def]
    process = getattr(library.library(), "_process", None)
    if process is None:     # the library is in this process
        assert type(library.library()) is library.Library
        return
    process.kill()
    process.wait()
    with pytest.raises(toralinge.NotThere, match="has ended"):
        toralinge.cell_microvolts(10, 30, 6144)
    assert toralinge.cell_microvolts(10, 30, 6144) == 2_204_976
