"""What the tests of the commands share: the scenes, the model's lines, and a command run."""
import pathlib
import re
import subprocess
import sys

ROOT = pathlib.Path(__file__).resolve().parents[2]
MODEL = ROOT / "target/tests/model"
SCENES = sorted([*ROOT.glob("examples/*.hex"), *ROOT.glob("tests/play/*.hex")])
KINDS = {"0000": "SETUP", "0001": "POR", "0002": "BOOT", "0003": "SCAN", "0004": "TEMP", "0005": "COUNT", "0006": "SENSE", "0007": "PIN", "0008": "LOAD",
         "0009": "XREADY", "0010": "START", "0011": "OUT", "0012": "IN", "0013": "STOP", "0014": "TICKS", "0015": "LEVEL", "0016": "WIRING",
         "0017": "SOAK", "----": "cut"}
BITS = {"CC_READY": 7, "XREADY": 5, "OVRD_ALERT": 4, "UV": 3, "OV": 2, "SCD": 1, "OCD": 0}
PINS = ("ALERT", "CHG", "DSG")


class Line:
    """A record as the model has it: names for what ./play prints as digits."""

    def __init__(self, text):
        self.record, kind, self.number, bus, stat, pins = text.split()
        self.record, self.number, self.stat = int(self.record), int(self.number), int(stat, 16)
        self.kind = KINDS.get(kind, f"0x{kind}")
        self.bus = None if bus == "--" else int(bus, 16)
        self.levels = {**{name: self.stat >> place & 1 for name, place in BITS.items()}, **dict(zip(PINS, map(int, pins)))}

    def answer(self):
        """What the bus said, in words, or None."""
        if self.bus is None:
            return None
        return "given" if self.kind == "IN" else ("acknowledged", "not acknowledged")[self.bus]


def lines(path):
    """The model's lines of a stream of any length."""
    return [Line(text) for text in subprocess.run([MODEL, "lines", path], stdout=subprocess.PIPE, check=True, text=True).stdout.splitlines()]


def refusals(path):
    """Why each record that is refused is, by the model: `SCAN refused, 3: count 1 is 16,384, above 16,383` by the record's number."""
    said = subprocess.run([MODEL, "why", path], stdout=subprocess.PIPE, check=True, text=True).stdout
    return {int(record): rest for record, rest in re.findall(r"^record (\d+): (\S+ refused, .*)$", said, re.M)}


def payloads(path):
    """The payload bytes of each record of a stream, as far as they are there."""
    data = path.read_bytes()
    if path.suffix == ".hex":
        data = bytes.fromhex("".join(line.split("#")[0] for line in data.decode().splitlines()))
    at = 0
    while at < len(data):
        length = 4 + int.from_bytes(data[at:at + 2], "little")
        yield data[at + 4:at + length]
        at += length


def run(*words, **more):
    """The status of a command at the root, what it printed and what it said."""
    done = subprocess.run([f"./{words[0]}", *map(str, words[1:])], cwd=ROOT, stdout=subprocess.PIPE, stderr=subprocess.PIPE, text=True, **more)
    return done.returncode, done.stdout, done.stderr


def streams(room, numbers):
    """Streams of the model, as files."""
    for number in numbers:
        path = room / f"{number}.bytes"
        path.write_bytes(subprocess.run([MODEL, "stream", "--first", str(number)], stdout=subprocess.PIPE, check=True).stdout)
        yield path


def hold(right, text):
    if not right:
        sys.exit(f"{sys.argv[0]}: {text}")
