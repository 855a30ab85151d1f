#!/usr/bin/env python3
"""Which cells of a fleet are tired, and how many would have been ordered with the offset added twice.

A fleet of sixty packs is made here, a stream of records each, as a logger would leave them. Run it from the tree:

    PYTHONPATH=python python3 examples/forecast.py

or in an environment with the package installed. Every cell below `# %%` can be run alone in an editor that knows such cells.
"""
# %% A fleet: sixty packs of thirteen cells. Their chips differ in gain and offset, as real ones do.
import random
import tempfile
from pathlib import Path

import toralinge
from toralinge import Kind, record
from toralinge.pictures import season_picture

dice = random.Random(2026)
fleet = Path(tempfile.mkdtemp(prefix="fleet-"))
offsets = {}
for number in range(60):
    pack = f"pack-{number:02}"
    gain_code, offset = dice.randrange(6, 16), dice.choice((-42, -30, -21, 18, 30, 41))
    stream = [record(Kind.SETUP, 3, (3, 0, 8, gain_code, offset & 0xFF, 1000)), record(Kind.WIRING, 3, (13,)), record(Kind.BOOT, 3)]
    # The counts near 3.30 V on this chip, by its threshold code for it. A tired cell sags more under load.
    near = 8192 + 16 * toralinge.over_voltage_code(gain_code, offset, 3_300_000)
    tired = {dice.randrange(15) for _ in range(dice.choice((0, 0, 0, 1, 2)))}
    for scan in range(200):
        load = dice.random()
        counts = [near + dice.randrange(-12, 13) - round(load * (620 if cell in tired else 300)) for cell in range(15)]
        counts[8], counts[13] = 60, 60          # the two inputs that a pack of thirteen shorts
        stream.append(record(Kind.SCAN, 3, counts))
    (fleet / f"{pack}.bytes").write_bytes(b"".join(stream))
    offsets[str(fleet / f"{pack}.bytes")] = offset
(fleet / "pack-60.bytes").write_bytes(b"\7\0\0")    # a logger that was pulled out

# %% One table: a row a pack and cell. A stream that is broken is a row with its number and words.
table = toralinge.fleet(sorted(fleet.iterdir()))
broken = table[table["refused_words"].notna()]
for row in broken.itertuples():
    print(f"{Path(row.pack).stem}: refused, {row.refused_number}: {row.refused_words}")
cells = table[table["refused_words"].isna()]
print(f"{cells['pack'].nunique()} packs, {len(cells)} cells, {int(cells['scans'].sum()):,} voltages")

# %% Tired: the cell went below 3.15 V. The voltages are finished; nothing is to be added.
LIMIT = 3_150_000
tired_cells = cells[cells["least_microvolts"] < LIMIT].sort_values("least_microvolts")
print(f"tired: {len(tired_cells)} cells in {tired_cells['pack'].nunique()} packs")
for row in tired_cells.head(5).itertuples():
    print(f"  {Path(row.pack).stem}, cell {row.cell}: {row.least_microvolts:,} µV in scan {row.least_microvolts_scan}")

# %% The sheet of last season took these finished voltages and added each chip's offset once more.
again = cells["least_microvolts"] + 1000 * cells["pack"].map(offsets).astype("Int64")
ordered = cells[again < LIMIT]
extra = len(set(ordered.index) - set(tired_cells.index))
missed = len(set(tired_cells.index) - set(ordered.index))
print(f"with the offset added twice: {len(ordered)} cells would have been ordered, {extra} of them good; {missed} tired ones missed")

# %% The weakest pack, as a picture.
weakest = tired_cells.iloc[0]["pack"]
season_picture(weakest, fleet / "weakest.png")
print(f"the weakest pack is drawn: {Path(weakest).stem}")

# %% The same with plain pandas: one line a pack.
summary = cells.groupby("pack").agg(weakest=("least_microvolts", "min"), mean=("total_microvolts", "sum"), scans=("connected_scans", "sum"))
summary["mean"] = (summary["mean"] / summary["scans"]).round().astype("Int64")
print(summary.rename(index=lambda name: Path(name).stem).sort_values("weakest").head(3).to_string())
