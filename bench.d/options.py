"""What ./bench is told: words with their ranges, all judged before anything is started."""
import os
import re
import shutil
import sys

import place

PARTS = {'9920': 1, '9930': 2, '9940': 3, 'ms9920t': 1, 'ms9930t': 2, 'ms9940t': 3}
NAMES = {1: 'MS9920T', 2: 'MS9930T', 3: 'MS9940T'}
CELLS = {1: (3, 5), 2: (6, 10), 3: (11, 15)}
HELP = '''usage: ./bench [OPTION ..] [-- COMMAND ..]
Makes a chip, boots it, and runs the command, or a shell, in which /dev/i2c-9 is that chip.

  --part PART      9920, 9930 or 9940; by default 9920
  --crc            the chip with CRC on
  --address N      its bus address, 0x08 to 0x77; by default 0x08
  --gain N         the gain code, 0 to 31; by default 10, which is 354 microvolts a count
  --offset N       millivolts, -128 to 127, or its byte as 0x00 to 0xFF; by default 30
  --floor N        the under-voltage floor, 0 to 4095 counts; by default 1000
  --cells N        the cells of the pack: 3 to 5, 6 to 10 or 11 to 15 by part; by default no wiring is told
  --bus N          /dev/i2c-N, 0 to 255; by default 9
  --record FILE    a new file that keeps every record as it happens
  -h, --help       this text
  -V, --version    the version

./bench-event makes things happen to the chip. docs/BENCH.md and man -l man/bench.1 say more.'''


class Options:
    """A plain class: what makes classes out of annotations takes longer to load than all else that ./bench-event does."""
    part = 1
    crc = 0
    address = 0x08
    gain = 10
    offset = 30
    floor = 1000
    cells = None
    bus = place.BUS
    record = None

    def __init__(self):
        self.command = []

    def name(self):
        return NAMES[self.part]

    def inputs(self):
        return 5 * self.part

    def signed_offset(self):
        return self.offset - 256 if self.offset > 127 else self.offset


class Wrong(Exception):
    """Words that make no sense; the text says what to do."""


def number(word):
    """A number in decimal or as 0x and hex digits, or None."""
    if not re.fullmatch(r'-?(0[xX][0-9A-Fa-f]{1,8}|[0-9]{1,9})', word):
        return None
    return int(word, 16 if 'x' in word.lower() else 10)


def ranged(name, word, least, most, shown='{}'):
    value = number(word)
    if value is None or not least <= value <= most:
        raise Wrong(f'{name} takes a number from {shown.format(least)} to {shown.format(most)}, not {word!r}')
    return value


def offset_of(name, word):
    if word.lower().startswith('0x'):
        return ranged(name, word, 0, 255, '0x{:02X}')
    return ranged(name, word, -128, 127) % 256


def part_of(name, word):
    if word.lower() not in PARTS:
        raise Wrong(f'{name} takes 9920, 9930 or 9940, not {word!r}')
    return PARTS[word.lower()]


TAKES = {
    '--part': ('part', part_of),
    '--address': ('address', lambda name, word: ranged(name, word, 0x08, 0x77, '0x{:02X}')),
    '--gain': ('gain', lambda name, word: ranged(name, word, 0, 31)),
    '--offset': ('offset', offset_of),
    '--floor': ('floor', lambda name, word: ranged(name, word, 0, 4095)),
    '--cells': ('cells', lambda name, word: ranged(name, word, 3, 15)),
    '--bus': ('bus', lambda name, word: ranged(name, word, 0, 255)),
    '--record': ('record', lambda _, word: word),
}


def options_of(words):
    """The options that the words say, or None for --help."""
    options, words, seen = Options(), list(words), set()
    while words:
        word = words.pop(0)
        name, given, value = word.partition('=')
        if name == '--':
            options.command = words
            break
        if name == '--help' or name == '-h':
            return None
        if name in seen:
            raise Wrong(f'{name} is given twice')
        seen.add(name)
        if name == '--crc' and not given:
            options.crc = 1
        elif name in TAKES:
            if not given and (not words or words[0] == '--'):
                raise Wrong(f'{name} takes a value: ./bench --help says which')
            attribute, reader = TAKES[name]
            setattr(options, attribute, reader(name, value if given else words.pop(0)))
        elif name.startswith('-'):
            raise Wrong(f'no option {word}: ./bench --help lists them')
        else:
            raise Wrong(f'a command comes after --, as in ./bench -- {word}')
    judge(options)
    return options


def judge(options):
    """What no single word shows."""
    least, most = CELLS[options.part]
    if options.cells is not None and not least <= options.cells <= most:
        raise Wrong(f'--cells of an {options.name()} takes a number from {least} to {most}, not {options.cells}')
    if options.record is not None:
        judge_file(options.record)


def judge_file(name):
    folder = os.path.dirname(name) or '.'
    if os.path.lexists(name):
        raise Wrong(f'--record takes a new file, and {name} exists: move it away or choose another name')
    if not os.path.isdir(folder) or not os.access(folder, os.W_OK):
        raise Wrong(f'--record cannot make {name}: {folder} is no folder that can be written')


def found(options):
    """Whether the command is there; i2c-tools are in /usr/sbin, and `path` is where the command will look."""
    if options.command and shutil.which(options.command[0], path=path()) is None:
        raise Wrong(f'no command {options.command[0]} to run')


def path():
    words = os.environ.get('PATH') or os.defpath
    return words if '/usr/sbin' in words.split(':') else f'{words}:/usr/sbin'


def say(text):
    """Prints for a reader who may have had enough."""
    try:
        print(text, flush=True)
    except BrokenPipeError:
        os.dup2(os.open(os.devnull, os.O_WRONLY), sys.stdout.fileno())


def judged(words, installed):
    """The options, None for --help; ends with one line and status 2 where they are wrong, or the bus number is in use, or, with all
    packages installed, there is no such command."""
    try:
        options = options_of(words)
        if options is not None:
            place.free(options.bus)
        if installed:
            found(options)
        return options
    except (Wrong, place.Taken) as error:
        print(f'bench: {error}', file=sys.stderr)
        sys.exit(2)
