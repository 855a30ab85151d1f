"""``python3 -m toralinge``: pictures, pages and tables from the command line."""
from __future__ import annotations

import argparse
import sys
from typing import Optional, Sequence

from . import __version__
from .library import NotThere
from .refused import Refused


def _parser() -> argparse.ArgumentParser:
    parser = argparse.ArgumentParser(prog="python3 -m toralinge", description="Pictures, pages and tables of streams of records. A stream is a "
                                     "file of bytes, or of hex text with # comments.")
    parser.add_argument("-V", "--version", action="version", version=f"toralinge {__version__}")
    commands = parser.add_subparsers(dest="command", required=True, metavar="COMMAND")

    def command(name: str, said: str, many: bool, output: str) -> argparse.ArgumentParser:
        one = commands.add_parser(name, help=said, description=said[0].upper() + said[1:] + ".")
        one.add_argument("file", nargs="+" if many else 1, metavar="FILE", help="a stream")
        one.add_argument("-o", "--output", metavar="OUT", required=not many, help=output)
        return one

    drawn = "a .png, .svg or .pdf file"
    command("picture", "the picture of a run: cell voltages with the OV and UV lines, bits, ALERT, drives, refusals", False, drawn)
    command("season-picture", "the picture of a pack's season: least, mean and greatest of each cell, weak cells first", False, drawn)
    command("page", "the page of a run: picture, sentences, season, refusals and records in one HTML file", False, "an .html file")
    table = command("seasons", "the season of many packs as one table: a row a pack and cell", True,
                    "a .csv or .parquet file; without it CSV goes to standard output")
    table.add_argument("--joined", metavar="PACK", help="the files are parts of the season of one pack of this name, in order")
    table.add_argument("--fleet", choices=("threads", "processes"), help="work in chunks on Dask, with a progress bar on standard error")
    return parser


def _seasons(given: argparse.Namespace) -> int:
    from .fleet import fleet
    from .tables import Packs, seasons

    paths: Packs = {given.joined: given.file} if given.joined else given.file
    if given.fleet:
        from contextlib import redirect_stdout

        with redirect_stdout(sys.stderr):
            table = fleet(paths, scheduler=given.fleet, progress=True)
    else:
        table = seasons(paths)
    broken = table.dropna(subset=["refused_words"])
    for number, words, stream in zip(broken["refused_number"].astype(object), broken["refused_words"], broken["refused_stream"]):
        print(f"toralinge: {stream}: {f'refused, {number}: ' if isinstance(number, int) else ''}{words}", file=sys.stderr)
    if given.output is None:
        table.to_csv(sys.stdout, index=False)
    elif given.output.endswith(".parquet"):
        table.to_parquet(given.output, index=False)
    else:
        table.to_csv(given.output, index=False)
    return 1 if len(broken) else 0


def main(words: Optional[Sequence[str]] = None) -> int:
    """Runs a command; its status is 0, 1 where a stream is refused or cannot be read, 2 for wrong use."""
    given = _parser().parse_args(words)
    try:
        if given.command == "seasons":
            return _seasons(given)
        if given.command == "page":
            from .page import page

            page(given.file[0], given.output)
            return 0
        from .pictures import picture, season_picture

        (picture if given.command == "picture" else season_picture)(given.file[0], given.output)
        return 0
    except BrokenPipeError:
        return 1
    except (Refused, OSError, ValueError) as error:
        print(f"toralinge: {given.file[0]}: {error}", file=sys.stderr)
        return 1
    except (NotThere, ImportError) as error:
        print(f"toralinge: {error}", file=sys.stderr)
        return 1


if __name__ == "__main__":
    sys.exit(main())
