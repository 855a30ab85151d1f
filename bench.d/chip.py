"""The kept chip: bench.d/chip.c over pipes. The proved calls write, judge and play every record; nothing here knows their bytes."""
import os
import struct
import subprocess
import threading

KINDS = {
    'setup': 0x00, 'por': 0x01, 'boot': 0x02, 'scan': 0x03, 'temp': 0x04, 'count': 0x05, 'sense': 0x06, 'pin': 0x07, 'load': 0x08,
    'xready': 0x09, 'start': 0x10, 'out': 0x11, 'in': 0x12, 'stop': 0x13, 'ticks': 0x14, 'level': 0x15, 'wiring': 0x16, 'soak': 0x17,
}
NUMBER, FLAG, BYTE, STAT, PINS, ENTRY = 0, 1, 2, 3, 4, 5
ALERT, CHG, DSG = 4, 2, 1
CELLS = 15
UNWRITTEN = -1000
MOST_VALUES = 16
MOST = 1 << 62


class Refused(Exception):
    """A record that the library refuses to write; its number."""


class Gone(RuntimeError):
    """The chip can go on no more; the text says why."""


class Chip:
    """One chip from its SETUP on. `changed` is held by whoever plays records, and tells of every change of the pins."""

    def __init__(self, command, options, descriptor=None):
        words = command + ([str(descriptor)] if descriptor is not None else [])
        kept = [descriptor] if descriptor is not None else []
        self.program = subprocess.Popen(words, stdin=subprocess.PIPE, stdout=subprocess.PIPE, pass_fds=kept, start_new_session=True)
        self.options = options
        self.changed = threading.Condition(threading.RLock())
        self.stat = self.pins = self.rises = 0
        self.gone = None
        self.start, self.stop = self.record('start'), self.record('stop')
        self.outs = [self.record('out', byte) for byte in range(256)]
        self.ins = [self.record('in', level) for level in (0, 1)]
        first = [self.record('setup', options.part, options.crc, options.address, options.gain, options.offset, options.floor)]
        if options.cells is not None:
            first.append(self.record('wiring', options.cells))
        self.feed(first + [self.record('boot')])

    def ask(self, letter, payload=b''):
        with self.changed:
            if self.gone:
                raise Gone(self.gone)
            try:
                self.program.stdin.write(letter + struct.pack('<I', len(payload)) + payload)
                self.program.stdin.flush()
                result, length = struct.unpack('<qI', self.taken(12))
                answer = self.taken(length)
            except (OSError, struct.error):
                self.end('its program has ended')
            if result < UNWRITTEN:
                self.end(f'the record file cannot be written: {os.strerror(UNWRITTEN - result)}')
            return result, answer

    def taken(self, length):
        data = self.program.stdout.read(length)
        if len(data) != length:
            raise OSError
        return data

    def end(self, why):
        self.gone = f'the chip has stopped, {why}'
        self.changed.notify_all()
        raise Gone(self.gone)

    def record(self, name, *values):
        """The bytes of one record."""
        values = [max(-MOST, min(MOST, value)) for value in values[:MOST_VALUES]]
        result, data = self.ask(b'W', struct.pack(f'<II{len(values)}q', KINDS[name], self.options.part, *values))
        if result < 0:
            raise Refused(-result)
        return data

    def peek(self, records):
        """The entries that these records would have; nothing happens."""
        return entries(self.ask(b'P', b''.join(records)))

    def feed(self, records):
        """Plays the records and gives their entries. They are in the record file before this returns."""
        with self.changed:
            played = entries(self.ask(b'F', b''.join(records)))
            for entry in played:
                self.rises += bool(entry[PINS] & ALERT & ~self.pins)
                self.stat, self.pins = entry[STAT], entry[PINS]
            self.changed.notify_all()
            return played

    def state(self):
        """The registers, and for each cell its number and microvolts."""
        data = self.ask(b'S')[1]
        return data[:256], [struct.unpack_from('<Bq', data, 256 + 9 * cell) for cell in range(CELLS)]

    def wait_for_alert(self, seconds):
        """Whether ALERT is up, or rises within so many seconds."""
        with self.changed:
            seen = self.rises
            self.changed.wait_for(lambda: self.gone or self.pins & ALERT or self.rises > seen, seconds)
            return bool(self.pins & ALERT or self.rises > seen)

    def close(self):
        self.program.stdin.close()
        try:
            self.program.wait(5)
        except subprocess.TimeoutExpired:
            self.program.kill()


def entries(answer):
    count, data = answer
    if count < 0:
        raise Gone(f'the chip refuses its records with {-count}')
    return [data[ENTRY * at:ENTRY * at + ENTRY] for at in range(count)]
