"""What ./bench-event says to a running bench: words to records, `show`, `wait-alert`; over a socket in the bench's folder."""
import json
import re
import socketserver

import show
from chip import Gone, NUMBER, Refused
from options import number

PLAIN = ('pin', 'xready', 'por', 'boot')
LONGEST_WAIT = 86400
TICKS = 4096
LIST = 'scan COUNT .., temp COUNT .., count N, sense UV [xN], pin, load 0/1, level 0/1, xready, por, boot, show, wait-alert SECONDS'


class Wrong(Exception):
    """Words that make no event; the text says what to do."""


def wants(name, options):
    """What an event takes, in words."""
    return {
        'scan': f'{options.inputs()} counts from 0 to 16383, one for each input of an {options.name()}',
        'temp': f"{options.part} count{'s' if options.part > 1 else ''} from 0 to 16383",
        'count': 'one number from -32768 to 65535',
        'sense': 'microvolts from -500000 to 500000, then xN for N ticks, x1 to x16777216',
        'load': '0 or 1',
        'level': '0 or 1',
        'wait-alert': f'seconds from 0 to {LONGEST_WAIT}',
    }.get(name, 'no more words')


def record_of(chip, name, words):
    """The record for an event's words."""
    wrong = Wrong(f'{name} takes {wants(name, chip.options)}')
    repeat = None
    if name == 'sense' and len(words) == 2 and re.fullmatch(r'x[0-9]{1,9}', words[1]):
        repeat = int(words.pop()[1:])
    values = [number(word) for word in words]
    if None in values or name == 'sense' and len(values) != 1:
        raise wrong
    kind = name
    if name == 'count' and len(values) == 1 and -32768 <= values[0] < 0:
        values = [values[0] + 65536]
    if repeat is not None:
        kind, values = 'ticks' if repeat <= TICKS else 'soak', values + [repeat]
    try:
        return chip.record(kind, *values)
    except Refused:
        raise wrong from None


def waited(chip, words):
    seconds = words[0] if len(words) == 1 and re.fullmatch(r'[0-9]{1,6}(\.[0-9]{1,6})?', words[0]) else None
    if seconds is None or float(seconds) > LONGEST_WAIT:
        raise Wrong(f"wait-alert takes {wants('wait-alert', chip.options)}")
    if chip.wait_for_alert(float(seconds)):
        return 0, f'ALERT is up, SYS_STAT {chip.stat:02X} ({show.up(chip.stat, show.STATS)})'
    return 1, f'no ALERT within {seconds} seconds'


def done(chip, words):
    """Status and text of the answer."""
    if not words:
        raise Wrong(f'what is to happen? {LIST}')
    name, *words = words
    if name == 'show' and not words:
        return 0, show.whole(chip)
    if name == 'wait-alert':
        return waited(chip, words)
    if name not in PLAIN + ('scan', 'temp', 'count', 'sense', 'load', 'level'):
        raise Wrong(f'show takes {wants(name, chip.options)}' if name == 'show' else f'no event {name}: {LIST}')
    entry = chip.feed([record_of(chip, name, words)])[0]
    if entry[NUMBER]:
        return 1, show.refused(name, entry)
    return 0, show.left(entry)


class Handler(socketserver.StreamRequestHandler):
    """One question and its answer, each a line of JSON."""
    timeout = 10

    def handle(self):
        try:
            words = json.loads(self.rfile.readline(1 << 20))
            status, text = done(self.server.chip, [str(word) for word in words])
        except Wrong as error:
            status, text = 2, str(error)
        except Gone as error:
            status, text = 1, str(error)
        except (OSError, ValueError, TypeError):
            return
        try:
            self.wfile.write(json.dumps([status, text]).encode() + b'\n')
        except OSError:
            pass


class Server(socketserver.ThreadingUnixStreamServer):
    daemon_threads = True

    def __init__(self, path, chip):
        self.chip = chip
        super().__init__(path, Handler)

    def handle_error(self, *_):
        pass
