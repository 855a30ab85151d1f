"""The waves of a run as sigrok reads them: as many samples as records ask for, the levels of the model after each record, and on SCL and SDA
the bytes and acknowledgements of the records."""
import pathlib
import subprocess
import tempfile

import common
from common import BITS, PINS, hold

STEP = 32


def sigrok(path, *words):
    return subprocess.run(["sigrok-cli", "-I", "vcd", "-i", path, *words], stdout=subprocess.PIPE, check=True, text=True).stdout.splitlines()


def hold_levels(path, wave, lines):
    """The last sample of each record has the levels that the model has after it."""
    table = sigrok(wave, "-O", "csv")
    names = next(line.split("): ")[1].split(", ") for line in table if line.startswith("; Channels"))
    samples = [line for line in table if line[0] in "01"]
    hold(names == [*PINS, *BITS, "REFUSED", "SCL", "SDA"], f"{path}: signals {names}")
    hold(len(samples) == STEP * len(lines), f"{path}: {len(samples)} samples, not {STEP * len(lines)}")
    for line in lines:
        levels = samples[STEP * line.record + STEP - 1].split(",")
        wanted = [str(line.levels[name]) for name in names[:-3]] + [str(int(line.number != 0))]
        hold(levels[:-2] == wanted, f"{path}: after record {line.record} {levels[:-2]}, not {wanted}")
    return len(samples)


def sent(lines, payloads):
    """What is on the bus inside frames: S, P, and bytes with 0 for an acknowledgement and 1 for none. sigrok looks for a byte after a start
    and for nothing else, so a start or stop straight after a start is left out."""
    framed, last = False, "P"
    for line, payload in zip(lines, payloads):
        one = None
        if line.number == 0 and line.kind == "START":
            framed, one = True, "S"
        elif line.number == 0 and framed and line.kind == "STOP":
            framed, one = False, "P"
        elif line.number == 0 and framed and line.kind in ("OUT", "IN"):
            one = (payload[0], line.bus) if line.kind == "OUT" else (line.bus, payload[0])
        if one is not None and not (last == "S" and one in ("S", "P")):
            last = one
            yield one


def decoded(wave):
    """The same from sigrok's decoder of I2C."""
    byte = None
    for line in sigrok(wave, "-P", "i2c:scl=SCL:sda=SDA:address_format=unshifted", "-A", "i2c=addr-data"):
        said = line.split(": ", 1)[1]
        if said in ("Start", "Start repeat"):
            yield "S"
        elif said == "Stop":
            yield "P"
        elif said in ("ACK", "NACK"):
            yield byte, int(said == "NACK")
        elif ": " in said:
            kind, digits = said.split(": ")
            byte = int(digits, 16)
            hold(kind in ("Address write", "Address read", "Data write", "Data read"), f"sigrok says {said}")


def hold_wave(path, wave):
    status, text, _ = common.run("wave", path)
    wave.write_text(text)
    lines, payloads = common.lines(path), list(common.payloads(path))
    hold(status == int(bool(lines) and (lines[-1].number == 9 or lines[0].number != 0)), f"./wave {path} ends with {status}")
    if not lines:
        return 0, 0
    samples = hold_levels(path, wave, lines)
    wanted, got = list(sent(lines, payloads)), list(decoded(wave))
    for place, (one, other) in enumerate(zip(wanted, got)):
        hold(one == other, f"{path}: on the bus {wanted[place - 3:place + 2]}, and sigrok finds {got[place - 3:place + 2]}")
    hold(len(wanted) == len(got), f"{path}: {len(wanted)} things on the bus, and sigrok finds {len(got)}")
    return samples, len(wanted)


samples = found = 0
with tempfile.TemporaryDirectory() as name:
    room = pathlib.Path(name)
    paths = [*common.SCENES, *(path for path in common.streams(room, range(24)) if path.stat().st_size < 20_000)]
    for path in paths:
        more = hold_wave(path, room / "run.vcd")
        samples, found = samples + more[0], found + more[1]
hold(found > 1_000, "too little is on the bus")
print(f"tests/waves: sigrok reads {len(paths)} waves of {samples} samples,"
      f" and its I2C decoder finds {found} starts, stops and bytes as they were sent")
