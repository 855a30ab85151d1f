"""What the tests share: the tree, the model's answers, and streams to try."""
from __future__ import annotations

import os
import random
import subprocess
from pathlib import Path
from typing import Iterator

import toralinge
from toralinge import Kind, record

ROOT = Path(__file__).resolve().parents[2]
MODEL = Path(os.environ.get("TORALINGE_MODEL", ROOT / "target" / "tests" / "model"))
SCENES = sorted([*ROOT.glob("examples/*.hex"), *ROOT.glob("tests/play/*.hex")])
assert SCENES, "no scenes in the tree"


def model(*words: str, given: bytes = b"") -> bytes:
    """What the model prints."""
    assert MODEL.is_file(), f"{MODEL} is not there: tests/python builds it"
    return subprocess.run([str(MODEL), *words], input=given, stdout=subprocess.PIPE, check=True).stdout


def model_stream(number: int, seed: int = 1) -> bytes:
    """A stream that the model makes: valid, damaged or hostile."""
    return model("stream", "--seed", str(seed), "--first", str(number))


def told(stream: bytes) -> Iterator[list[str]]:
    """The lines that the model tells of a stream, as words."""
    for line in model("tell", given=stream).decode().splitlines():
        yield line.split()


def pack(seed: int, records: int = 300, part: int = 0, shorted: bool = True) -> bytes:
    """A stream of a pack in use: scans, current, clearing writes. Some have an input below the floor, for a while or always."""
    dice = random.Random(seed)
    part = part or dice.choice((1, 2, 3))
    made = [record(Kind.SETUP, 1, (part, 0, 8, dice.randrange(32), dice.randrange(256), 1000)), record(Kind.BOOT, part)]
    level = [dice.randrange(8800, 10500) for _ in range(5 * part)]
    low = dice.randrange(5 * part) if shorted and dice.random() < 0.3 else -1
    always = dice.random() < 0.5
    clear = [record(Kind.START, part), *(record(Kind.OUT, part, (byte,)) for byte in (0x10, 0x00, 0xFF)), record(Kind.STOP, part)]
    while len(made) < records:
        choice = dice.random()
        if choice < 0.6:
            counts = [count + dice.randrange(-300, 300) for count in level]
            if low >= 0 and (always or dice.random() < 0.2):
                counts[low] = dice.randrange(1000)
            made.append(record(Kind.SCAN, part, counts))
        elif choice < 0.9:
            made.append(record(Kind.SENSE, part, (dice.randrange(-8000, 1000),)))
        else:
            made += clear
    return b"".join(made)


def raises(number: int, record_: object = ...):  # type: ignore[no-untyped-def]
    """A context in which a refusal with this number must be raised."""
    import pytest

    class Held:
        def __enter__(self) -> None:
            self.inner = pytest.raises(toralinge.Refused)
            self.info = self.inner.__enter__()

        def __exit__(self, *given: object) -> bool:
            ended = bool(self.inner.__exit__(*given))  # type: ignore[arg-type]
            assert self.info.value.number == number
            assert self.info.value.words == toralinge.words(number)
            if record_ is not ...:
                assert self.info.value.record == record_
            return ended

    return Held()
