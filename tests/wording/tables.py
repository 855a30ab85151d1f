"""Every table that a command prints is read by pandas without an option, and holds what the model says, as do the lines in words."""
import io
import pathlib
import re
import subprocess
import tempfile

import common
import pandas
from common import BITS, PINS, ROOT, hold

COLUMNS = ["record", "kind", "number", "reason", "bus answer", "bus byte", *BITS, *PINS]
WORDS = re.compile(r"record (\d+): (\w+)(?:, 0x(\w\w) (given|acknowledged|not acknowledged)|, refused, (\d+): (.+?))?; (no bit|[A-Z_, ]+) up; "
                   r"ALERT (up|down), CHG (on|off), DSG (on|off)")


def wanted_byte(line, payload):
    if line.bus is None:
        return None
    return line.bus if line.kind == "IN" else payload[0]


def hold_table(path, lines, payloads):
    """./play --csv against the model, a column after the other."""
    status, text, _ = common.run("play", "--csv", path)
    table = pandas.read_csv(io.StringIO(text))
    hold(list(table.columns) == COLUMNS, f"{path}: columns {list(table.columns)}")
    hold(len(table) == len(lines), f"{path}: {len(table)} rows, not {len(lines)}")
    if not lines:
        return status
    for name in ("record", "number", *BITS, *PINS):
        hold(table[name].dtype == "int64", f"{path}: {name} is {table[name].dtype}")
        of = {"record": lambda line: line.record, "number": lambda line: line.number}.get(name, lambda line, name=name: line.levels[name])
        hold(table[name].tolist() == [of(line) for line in lines], f"{path}: {name} is not as the model has it")
    hold(table["kind"].tolist() == [line.kind for line in lines], f"{path}: kinds")
    hold((table["reason"] == "done").tolist() == [line.number == 0 for line in lines], f"{path}: reasons")
    answers = [None if pandas.isna(answer) else answer for answer in table["bus answer"]]
    hold(answers == [line.answer() for line in lines], f"{path}: answers of the bus")
    given = [None if pandas.isna(byte) else int(byte) for byte in table["bus byte"]]
    hold(given == [wanted_byte(*both) for both in zip(lines, payloads)], f"{path}: bytes of the bus")
    return status


def hold_words(path, lines, payloads):
    """./play --words against the model: each line says all that the model's line says, and why a record is refused in the model's words."""
    status, text, _ = common.run("play", "--words", path)
    said = text.splitlines()
    refused = common.refusals(path)
    hold(len(said) == len(lines), f"{path}: {len(said)} lines, not {len(lines)}")
    for got, line, payload in zip(said, lines, payloads):
        match = WORDS.fullmatch(got)
        hold(match, f"{path}: {got}")
        record, kind, byte, answer, number, reason, up, *pins = match.groups()
        hold(refused.get(int(record)) == (reason and f"{kind} refused, {number}: {reason}"), f"{path}: {got}")
        stat = sum(1 << BITS[name] for name in up.split(", ")) if up != "no bit" else 0
        same = (int(record), kind, int(number or 0), answer, stat, byte and int(byte, 16))
        hold(same == (line.record, line.kind, line.number, line.answer(), line.stat, wanted_byte(line, payload)), f"{path}: {got}")
        hold([pin in ("up", "on") for pin in pins] == [bool(line.levels[pin]) for pin in PINS], f"{path}: {got}")
    return status


def hold_run(path):
    lines, payloads = common.lines(path), list(common.payloads(path))
    ended = bool(lines) and (lines[-1].number == 9 or lines[0].number != 0)
    for status in (hold_table(path, lines, payloads), hold_words(path, lines, payloads)):
        hold(status == ended, f"{path}: the status is {status}")
    return len(lines)


def hold_forecast(path):
    """Each table of ./forecast: its columns are single, its numbers numbers."""
    for option in ("--season", "--reading", "--scans"):
        status, text, _ = common.run("forecast", option, path)
        if status == 1:
            hold(text == "", f"./forecast {option} {path} prints something where it has nothing to give")
            continue
        table = pandas.read_csv(io.StringIO(text))
        hold(list(table.columns) == text.splitlines()[0].split(","), f"{path}: columns {list(table.columns)}")
        hold(len(table) == len(text.splitlines()) - 1, f"{path}: {len(table)} rows")
        hold(all(kind.kind in "if" for kind in table.dtypes) or table.empty, f"{path}: {table.dtypes}")


def hold_full(path):
    """65,536 scans are too many for a season, and each has its line."""
    wired = bytes.fromhex("070000000100080a1ee803 0100160004 00000200")
    path.write_bytes(wired + (bytes.fromhex("0a000300") + bytes.fromhex("1c25") * 5) * 65_536)
    status, text, said = common.run("forecast", "--season", path)
    hold(status == 1 and text == "" and said.startswith("forecast: no season, 22: "), f"./forecast of 65,536 scans says {said}")
    status, text, _ = common.run("forecast", "--scans", path)
    table = pandas.read_csv(io.StringIO(text))
    hold(status == 0 and table.shape == (65_536, 6) and (table.iloc[:, 2:] == 354 * 9_500 + 30_000).all(axis=None), "65,536 scans are not printed")


def hold_reasons():
    """Why each record of tests/play is refused, in words, as it is stored: as the model says it, and as ./play --words does."""
    told = text = ""
    for path in sorted(ROOT.glob("tests/play/*.hex")):
        refused = [line for line in common.run("play", "--words", path)[1].splitlines() if ", refused, " in line]
        text += "".join(f"{path.stem} {line.split(';')[0]}\n" for line in refused)
        told += "".join(f"{path.stem} record {record}: {said.replace(' refused', ', refused', 1)}\n" for record, said in common.refusals(path).items())
    stored = ROOT / "tests/wording/reasons.expected"
    hold(told == stored.read_text(), f"the reasons of {stored.name} are not the model's:\n{told}")
    hold(text == told, f"./play --words gives other reasons than the model:\n{text}")


def most_memory(records):
    """The most memory, in KB, that a table of so many records from a pipe takes, and how many rows it has."""
    made = ("import sys\nout = sys.stdout.buffer\nout.write(bytes.fromhex('0700000001000800000000'))\n"
            f"for _ in range({records // 100}): out.write(b'\\0\\0\\2\\0' * 100)")
    with subprocess.Popen(["/usr/bin/python3", "-c", made], stdout=subprocess.PIPE) as source:
        counted = ("import resource, subprocess, sys\n"
                   "with subprocess.Popen(['./play', '--csv'], stdout=subprocess.PIPE) as play: rows = sum(1 for _ in play.stdout)\n"
                   "print(resource.getrusage(resource.RUSAGE_CHILDREN).ru_maxrss, rows - 1)")
        done = subprocess.run(["/usr/bin/python3", "-c", counted], cwd=ROOT, stdin=source.stdout, stdout=subprocess.PIPE, check=True)
    return map(int, done.stdout.split())


def hold_memory():
    few, _ = most_memory(1_000)
    many, rows = most_memory(250_000)
    hold(rows == 250_001, f"a stream of 250,001 records gives {rows} rows")
    hold(many < few + 1_000, f"250,001 records take {many} KB, 1,001 take {few}")
    return many - few


hold_reasons()
records = scenes = 0
with tempfile.TemporaryDirectory() as name:
    for path in [*common.SCENES, *common.streams(pathlib.Path(name), range(12))]:
        records += hold_run(path)
        scenes += 1
    hold_full(pathlib.Path(name) / "full.bytes")
for path in ROOT.glob("examples/*.hex"):
    hold_forecast(path)
print(f"tests/tables: {scenes} streams, {records} records, are read by pandas as the model has them;"
      f" 249,000 records more take {hold_memory()} KB more")
