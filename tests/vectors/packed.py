"""Records, packed for the questions that the scripts beside this ask (tests/c/asked.c answers them)."""

ADDRESS = 0x08
SETUP, POR, BOOT, SCAN, TEMP, COUNT, SENSE, PIN, LOAD, XREADY = range(0x0A)
START, OUT, IN, STOP, TICKS, LEVEL, WIRES, SOAK = range(0x10, 0x18)


def record(kind, payload=b""):
    return len(payload).to_bytes(2, "little") + kind.to_bytes(2, "little") + payload


def signed(value, size):
    return value.to_bytes(size, "little", signed=True)


def setup(part, gain=10, offset=30, floor=1000, crc=0, cells=None):
    """SETUP, and the wiring record of a pack of so many cells."""
    made = record(SETUP, bytes([part, crc, ADDRESS, gain, offset]) + floor.to_bytes(2, "little"))
    return made if cells is None else made + record(WIRES, bytes([cells]))


def counts(kind, numbers):
    return record(kind, b"".join(number.to_bytes(2, "little") for number in numbers))


def sense(value):
    return record(SENSE, signed(value, 4))


def ticks(value, repeat):
    return record(TICKS, signed(value, 4) + repeat.to_bytes(2, "little"))


def soak(value, repeat):
    return record(SOAK, signed(value, 4) + repeat.to_bytes(4, "little"))


def outs(*data):
    return b"".join(record(OUT, bytes([byte])) for byte in data)


def write(at, value):
    """A byte written to a register over the bus, without CRC."""
    return record(START) + outs(2 * ADDRESS, at, value) + record(STOP)


def put(*records):
    """Feeds a new chip, without asking for the entries."""
    print("slot 0")
    print("grow", b"".join(records).hex(), "= 0")


def ask(question, answer):
    print(question, "=", answer)
