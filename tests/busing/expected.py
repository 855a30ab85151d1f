"""What the real clients are to print: expected.py MODEL off|on [FILE]; and to the file, all that then has happened to the chip. The chip's answers come from tests/model, the CRCs from python3-crccheck,
the frames and SMBus forms from their specifications; no line is shared with bench.d/. tests/busing/off.text and on.text are what this prints,
and what the clients print is held to these."""
import struct
import subprocess
import sys

from crccheck.crc import Crc8Smbus

START, STOP = b'\0\0\x10\0', b'\0\0\x13\0'
TELLS = {'ENXIO': 'No such device or address', 'EIO': 'Input/output error', 'EBADMSG': 'Bad message'}
FAULTS = ((0x80, 'CC_READY'), (0x20, 'XREADY'), (0x10, 'OVRD_ALERT'), (0x08, 'UV'), (0x04, 'OV'), (0x02, 'SCD'), (0x01, 'OCD'))


def crc(*data):
    return Crc8Smbus.calc(bytes(data))


class Wire:
    """A chip of the model with a host on its bus. `stream` is all that happened."""

    def __init__(self, model, part, with_crc, address, cells=None):
        self.model, self.address = model, address
        self.stream = struct.pack('<HHBBBBBH', 7, 0, part, with_crc, address, 10, 30, 1000)
        if cells is not None:
            self.stream += struct.pack('<HHB', 1, 0x16, cells)
        self.stream += b'\0\0\x02\0'

    def lines(self, records):
        """The model's lines for records after the stream: number, bus answer, SYS_STAT, pins."""
        played = subprocess.run([self.model, 'play'], input=self.stream + b''.join(records), capture_output=True, check=True).stdout
        lines = [line.split() for line in played.decode().splitlines()]
        assert len(lines) > len(records), 'the stream is too long for the model'
        return lines[len(lines) - len(records):]

    def event(self, kind, payload=b''):
        record = struct.pack('<HH', len(payload), kind) + payload
        _, _, number, _, stat, pins = self.lines([record])[0]
        self.stream += record
        return int(number), int(stat, 16), pins

    def transfer(self, *messages):
        """Messages (address, bytes to write or how many to read): the bytes read, or the name of an errno."""
        records, roles = [], []
        for address, body in messages:
            reads = isinstance(body, int)
            outs = [address << 1 | reads] + ([] if reads else list(body))
            records += [START] + [b'\x01\0\x11\0' + bytes([byte]) for byte in outs]
            roles += [None] + ['ENXIO'] + ['EIO'] * (len(outs) - 1)
            if reads:
                records += [b'\x01\0\x12\0' + bytes([at + 1 == body]) for at in range(body)]
                roles += ['in'] * body
        given = []
        for place, (role, line) in enumerate(zip(roles, self.lines(records))):
            if role in TELLS and line[3] == '01':
                self.stream += b''.join(records[:place + 1]) + STOP
                return role
            if role == 'in':
                given.append(int(line[3], 16))
        self.stream += b''.join(records) + STOP
        return given


def smbus(wire, address, form, way, register=0, data=(), take=0, pec=False):
    """An SMBus transaction in the forms of its specification; what was read, or the name of an errno."""
    write, read = (address << 1), (address << 1 | 1)
    ends = lambda *sent: bytes(sent) + (bytes([crc(write, *sent)]) if pec else b'')
    more = 1 if pec else 0
    if form == 'block' and way == 'r':
        return block(wire, address, register, more)
    if form == 'proc':
        way, take = 'r', 2
    if form == 'quick':
        return wire.transfer((address, 0 if way == 'r' else b''))
    if form == 'byte' and way == 'w':
        return wire.transfer((address, ends(register)))
    if way == 'w':
        counted = [len(data)] if form == 'block' else []
        if form == 'i2c':
            return wire.transfer((address, bytes([register, *data])))
        return wire.transfer((address, ends(register, *counted, *data)))
    before = [] if form == 'byte' else [write, register, *data]
    messages = [(address, bytes(before[1:]))] if before else []
    given = wire.transfer(*messages, (address, take + more))
    if pec and not isinstance(given, str):
        if crc(*before, read, *given[:-1]) != given[-1]:
            return 'EBADMSG'
        given = given[:-1]
    return given


def block(wire, address, register, more):
    """A block read: the chip's byte says how many follow, 1 to 32, and the host ends it there where it is none."""
    before = wire.stream
    count = wire.transfer((address, bytes([register])), (address, 1))
    if isinstance(count, str):
        return count
    if not 1 <= count[0] <= 32:
        return 'EPROTO'
    wire.stream = before
    given = wire.transfer((address, bytes([register])), (address, 1 + count[0] + more))
    if more and crc(address << 1, register, address << 1 | 1, *given[:-1]) != given[-1]:
        return 'EBADMSG'
    return given[:1 + count[0]]


def text(command, lines, status=0):
    print(f'$ {command}')
    for line in lines:
        print(line)
    print(f'[{status}]')


def hexes(data, prefix='0x'):
    return ' '.join(f'{prefix}{byte:02x}' for byte in data)


def i2ctransfer(wire, *messages):
    words = []
    for address, body in messages:
        words.append(f'r{body}@0x{address:02x}' if isinstance(body, int) else f'w{len(body)}@0x{address:02x} {hexes(body)}')
    given = wire.transfer(*[(address, body if isinstance(body, int) else bytes(body)) for address, body in messages])
    failed = isinstance(given, str)
    reads = [body for _, body in messages if isinstance(body, int)]
    said = [f'Error: Sending messages failed: {TELLS[given]}'] if failed else []
    for count in [] if failed else reads:
        said.append(hexes(given[:count]))
        given = given[count:]
    text(f"i2ctransfer -y 9 {' '.join(words)}", said, 1 if failed else 0)


def i2cget(wire, address, register=None, mode='', take=1):
    form = {'': 'data', 'w': 'word', 'i': 'i2c', 'bp': 'data', 'c': 'byte'}[mode] if register is not None else 'byte'
    take = 2 if mode == 'w' else take
    given = smbus(wire, address, form, 'r', register or 0, take=take, pec=mode.endswith('p'))
    words = f'i2cget -y 9 0x{address:02x}' + ('' if register is None else f' 0x{register:02x}') + (f' {mode}' if mode else '')
    if mode == 'i':
        words += f' {take}'
    if isinstance(given, str):
        return text(words, ['Error: Read failed'], 2)
    text(words, [f'0x{given[1] << 8 | given[0]:04x}' if mode == 'w' else hexes(given)])


def i2cset(wire, address, register, data, mode=''):
    word = mode.startswith('w')
    form = {'': 'data', 'b': 'data', 'bp': 'data', 'w': 'word', 'wp': 'word', 'i': 'i2c', 's': 'block'}[mode]
    given = smbus(wire, address, form, 'w', register, data, pec=mode.endswith('p'))
    shown = f'0x{data[1] << 8 | data[0]:04x}' if word else hexes(data)
    failed = isinstance(given, str)
    text(f'i2cset -y 9 0x{address:02x} 0x{register:02x} {shown}' + (f' {mode}' if mode else ''), ['Error: Write failed'] if failed else [], int(failed))


def table(cells):
    """Sixteen to a line, as i2cdetect and i2cdump lay them out."""
    head = '     ' + '  '.join('0123456789abcdef')
    return [head] + [f'{row:02x}: ' + ''.join(f'{cell:<2} ' for cell in cells[row:row + 16]) for row in range(0, len(cells), 16)]


def i2cdetect(wire, flag=''):
    found = []
    for address in range(0x80):
        if not 0x08 <= address <= 0x77:
            found.append('')
            continue
        byte = flag == '-r' or not flag and (0x30 <= address <= 0x37 or 0x50 <= address <= 0x5F)
        given = wire.transfer((address, 1 if byte else b''))
        found.append('--' if isinstance(given, str) else f'{address:02x}')
    text(f"i2cdetect -y{' ' + flag if flag else ''} 9", table(found))


def i2cdump(wire, address, last):
    given = [smbus(wire, address, 'data', 'r', at, take=1)[0] for at in range(last + 1)]
    lines = table([f'{byte:02x}' for byte in given])
    lines[0] += '    0123456789abcdef'
    for row in range(len(lines) - 1):
        letters = ('.' if byte in (0, 0xFF) else chr(byte) if 0x20 <= byte < 0x7F else '?' for byte in given[16 * row:16 * row + 16])
        lines[row + 1] += '   ' + ''.join(letters)
    text(f'i2cdump -y -r 0x00-0x{last:02x} 9 0x{address:02x} b', lines)


def event(wire, words, kind, payload=b''):
    number, stat, pins = wire.event(kind, payload)
    names = ', '.join(name for bit, name in FAULTS if stat & bit) or 'none'
    if number:
        return text(f'./bench-event {words}', [f'bench-event: {words.split()[0]} is refused with {number}, {REFUSALS[number]}'], 1)
    level = ('down', 'up')[int(pins[0])]
    text(f'./bench-event {words}', [f"SYS_STAT {stat:02X} ({names}), ALERT {level}, CHG {('off', 'on')[int(pins[1])]}, DSG {('off', 'on')[int(pins[2])]}"])


REFUSALS = {4: 'the chip is in SHIP'}


def scan(wire, *counts):
    event(wire, f"scan {' '.join(map(str, counts))}", 3, struct.pack(f'<{len(counts)}H', *counts))


class File:
    """An open /dev/i2c-9 with the slave address and PEC that belong to it."""

    def __init__(self, wire):
        self.wire, self.slave, self.pec = wire, 0, False

    def call(self, words):
        """A call of tests/busing/driver.c, and what it says."""
        name, *rest = words.split(':')
        if name in ('slave', 'force'):
            if int(rest[0], 16) > 0x7F:
                return 'EINVAL'
            self.slave = int(rest[0], 16)
            return '0'
        if name == 'pec':
            self.pec = rest[0] == '1'
            return '0'
        if name in ('write', 'read'):
            body = bytes.fromhex(rest[0]) if name == 'write' else int(rest[0])
            return shown(self.wire.transfer((self.slave, body)), len(body) if name == 'write' else 0)
        if name == 'rdwr':
            return rdwr(self.wire, words.partition(':')[2])
        if name == 'lens':
            return shown(block(self.wire, int(rest[0], 16), int(rest[1], 16), 0), 0)
        if name in ('quick', 'byte', 'data', 'word', 'proc', 'block', 'i2c'):
            return self.smbus(name, *rest)
        return {'funcs': '0 0fff8009', 'other': 'ENOTTY'}[name]

    def smbus(self, form, way, register='0', data=''):
        register = int(register, 16)
        if way == 'w' or form in ('quick', 'block'):
            return shown(smbus(self.wire, self.slave, form, way, register, bytes.fromhex(data), pec=self.pec), 0)
        take = {'byte': 1, 'data': 1, 'word': 2, 'i2c': int(data or 0)}[form]
        given = smbus(self.wire, self.slave, form, 'r', register, take=take, pec=self.pec and form != 'i2c')
        return shown([take] + given if form == 'i2c' and not isinstance(given, str) else given, 0)


def rdwr(wire, words):
    messages = []
    for message in words.split(','):
        way, body = message.split(':')
        messages.append((int(way[1:], 16), int(body) if way[0] == 'r' else bytes.fromhex(body)))
    return shown(wire.transfer(*messages), len(messages))


def shown(given, number):
    return given if isinstance(given, str) else hexes(given, '') if given else str(number)


def driver(wire, *calls):
    opened = File(wire)
    text(f"driver /dev/i2c-9 {' '.join(calls)}", [f'{call} -> {opened.call(call)}' for call in calls])


def smbus2(wire, *calls):
    """Calls of tests/busing/smbus_client.py with the bytes that each is to send and take."""
    lines, pec = [], False
    for words, form, way, register, data, take in calls:
        if form == 'pec':
            pec = data
            lines.append(f'{words} -> {data}')
            continue
        if form == 'rdwr':
            lines.append(f"{words} -> {rdwr(wire, words.partition('=')[2])}")
            continue
        given = smbus(wire, data[0] if form == 'at' else wire.address, 'byte' if form == 'at' else form, way, register, () if form == 'at' else data,
                      take, pec and form != 'i2c')
        if not isinstance(given, str):
            given = given[1:] if form == 'block' else given
            given = given if way == 'r' and form in ('i2c', 'block') else int.from_bytes(bytes(given), 'little') if way == 'r' else None
        lines.append(f'{words} -> {given}')
    words = ' '.join(call[0] for call in calls)
    text(f'/usr/bin/python3 tests/busing/smbus_client.py 9 {words}', lines)


def listed(name):
    text('i2cdetect -l', [f'i2c-9\ti2c       \t{name:<32}\tI2C adapter'])


def off(model):
    """MS9920T, no CRC, address 0x08: all as it is by default."""
    wire = Wire(model, 1, 0, 0x08)
    listed('toralinge MS9920T')
    for part in (off_tools, off_events, off_clients, off_asleep):
        part(wire)
    return wire


def off_tools(wire):
    i2cdetect(wire)
    i2cget(wire, 0x08, 0x09)
    i2cset(wire, 0x08, 0x09, [0xF1])
    i2cget(wire, 0x08, 0x09)
    i2cget(wire, 0x08)
    i2ctransfer(wire, (0x08, [0x05, 0x03]))
    i2ctransfer(wire, (0x08, [0x05]), (0x08, 1))
    i2ctransfer(wire, (0x08, 3))
    i2ctransfer(wire, (0x09, [0x05]), (0x08, 1))
    i2ctransfer(wire, (0x08, [0x09]), (0x77, 1))
    i2cget(wire, 0x77, 0x00)
    i2cset(wire, 0x50, 0x00, [0x01])
    i2cset(wire, 0x08, 0x09, [0xAC, 0x97], 'w')
    i2cget(wire, 0x08, 0x09, 'w')
    i2cset(wire, 0x08, 0x06, [0x9F, 0x7F, 0xFF], 'i')
    i2cset(wire, 0x08, 0x06, [0x00, 0x00], 's')
    i2cget(wire, 0x08, 0x06, 'i', 4)


def off_events(wire):
    for count in (9000, 10953, 10953, 10953, 10953):
        scan(wire, count, 9001, 9002, 9003, 9004)
    i2cget(wire, 0x08, 0x00)
    i2cset(wire, 0x08, 0x00, [0x04])
    scan(wire, 9000, 9001, 9002, 9003, 9004)
    i2cset(wire, 0x08, 0x00, [0x04])
    i2cset(wire, 0x08, 0x05, [0x43])
    event(wire, 'count -1000', 5, struct.pack('<h', -1000))
    event(wire, 'temp 3000', 4, struct.pack('<H', 3000))
    i2cget(wire, 0x08, 0x0C, 'i', 10)
    i2cdump(wire, 0x08, 0x5F)
    event(wire, 'sense -18501', 6, struct.pack('<i', -18501))
    event(wire, 'sense -18501 x2', 0x14, struct.pack('<iH', -18501, 2))
    event(wire, 'sense -9501 x5000', 0x17, struct.pack('<iI', -9501, 5000))
    event(wire, 'load 1', 8, b'\1')
    event(wire, 'level 1', 0x15, b'\1')
    event(wire, 'level 0', 0x15, b'\0')
    event(wire, 'pin', 7)
    i2cset(wire, 0x08, 0x00, [0xFF])
    event(wire, 'pin', 7)
    event(wire, 'xready', 9)
    i2cdetect(wire, '-r')


def off_clients(wire):
    driver(wire, 'funcs', 'slave:08', 'write:0903', 'write:09', 'read:1', 'read:4', 'rdwr:w08:04,r08:2', 'data:r:0a', 'data:w:0a:97', 'word:r:09',
           'word:w:09:ac97', 'quick:w', 'quick:r', 'byte:w:0b', 'byte:r', 'i2c:r:09:3', 'i2c:w:01:1f1f', 'block:w:01:0102',
           'rdwr:w08:01,r08:4,w08:0b,r08:1', 'block:r:0b', 'read:1', 'block:r:0c', 'read:1', 'lens:08:0b', 'lens:08:00', 'lens:09:0b', 'proc:w:09:acb4',
           'pec:1', 'block:r:0b', 'proc:w:09:ac97', 'data:r:09', 'byte:r', 'pec:0', f'word:w:09:ac{crc(0x10, 0x09, 0x11, 0xAC):02x}', 'pec:1', 'data:r:09',
           'i2c:r:09:3', 'i2c:w:09:ac', 'quick:w', 'pec:0', 'data:w:0a:97')
    driver(wire, 'read:1', 'slave:80', 'slave:09', 'read:1', 'write:00', 'quick:w', 'data:r:00', 'rdwr:r09:1', 'force:08', 'data:r:09', 'other')
    smbus2(wire, ('read_byte_data=8,9', 'data', 'r', 9, (), 1), ('write_byte_data=8,9,0xf1', 'data', 'w', 9, (0xF1,), 0),
           ('read_word_data=8,9', 'word', 'r', 9, (), 2), ('read_i2c_block_data=8,0x0c,10', 'i2c', 'r', 0x0C, (), 10),
           ('write_i2c_block_data=8,1,1.2', 'i2c', 'w', 1, (1, 2), 0), ('write_block_data=8,1,3.4', 'block', 'w', 1, (3, 4), 0),
           ('read_block_data=8,0x0b', 'block', 'r', 0x0B, (), 0), ('read_block_data=8,0', 'block', 'r', 0, (), 0),
           ('write_quick=8', 'quick', 'w', 0, (), 0), ('read_byte=9', 'at', 'r', 0, (9,), 1), ('rdwr=w08:01,r08:3', 'rdwr', '', 0, (), 0), ('rdwr=w09:01', 'rdwr', '', 0, (), 0))


def off_asleep(wire):
    i2ctransfer(wire, (0x08, [0x04, 0x01]))
    i2ctransfer(wire, (0x08, [0x04, 0x02, 0x00]))
    event(wire, 'scan 9000 9000 9000 9000 9000', 3, struct.pack('<5H', *[9000] * 5))
    i2cget(wire, 0x08, 0x00)
    event(wire, 'boot', 2)
    i2cget(wire, 0x08, 0x09)
    event(wire, 'por', 1)
    i2ctransfer(wire, (0x08, [0x00]))


def on(model):
    """MS9940T with a pack of 13 cells, CRC on, address 0x18."""
    wire = Wire(model, 3, 1, 0x18, 13)
    listed('toralinge MS9940T')
    for part in (on_tools, on_events, on_clients, on_asleep):
        part(wire, 0x18, 0x30)
    return wire


def on_tools(wire, a, w):
    i2cdetect(wire)
    i2ctransfer(wire, (a, [0x05, 0x03, crc(w, 0x05, 0x03)]))
    i2ctransfer(wire, (a, [0x05]), (a, 2))
    i2ctransfer(wire, (a, [0x05, 0x00, 0x55]))
    i2ctransfer(wire, (a, [0x05, 0x00, 0x55, 0x00]), (a, 2))
    i2ctransfer(wire, (a, 2))
    i2ctransfer(wire, (a, [0x05]), (a, 4))
    i2ctransfer(wire, (a, [0x09, 0xF1, crc(w, 0x09, 0xF1), 0xB4, crc(0xB4)]))
    i2ctransfer(wire, (a, [0x09]), (a, 6))
    i2ctransfer(wire, (a, [0x09, 0x11, crc(w, 0x09, 0x11), 0x22, crc(0x23), 0x33]), (a, 2))
    i2ctransfer(wire, (a, [0x09]), (a, 4))
    i2cset(wire, a, 0x09, [0xAC], 'b')
    i2cget(wire, a, 0x09)
    i2cset(wire, a, 0x09, [0xAC], 'bp')
    i2cget(wire, a, 0x09)
    i2cget(wire, a, 0x09, 'bp')
    i2cset(wire, a, 0x09, [0xF1, 0xAC], 'wp')
    i2cset(wire, a, 0x09, [0xF1, crc(w, 0x09, 0xF1)], 'w')
    i2cget(wire, a, 0x09, 'w')
    i2cset(wire, a, 0x01, [0x05, crc(w, 0x01, 0x05), 0x0A, crc(0x0A)], 'i')
    i2cget(wire, a, 0x01, 'i', 6)


def on_events(wire, a, w):
    counts = [9000 + place for place in range(15)]
    scan(wire, *counts)
    scan(wire, *counts[:14], 12057)
    i2ctransfer(wire, (a, [0x0C]), (a, 8))
    i2ctransfer(wire, (a, [0x28]), (a, 8))
    i2ctransfer(wire, (a, [0x08, 0x10, crc(w, 0x08, 0x10)]))
    for _ in range(7):
        scan(wire, *counts[:14], 12057)
    event(wire, 'temp 3000 3001 3002', 4, struct.pack('<3H', 3000, 3001, 3002))
    i2ctransfer(wire, (a, [0x2C]), (a, 12))


def on_clients(wire, a, w):
    driver(wire, 'slave:18', f'write:0500{crc(w, 5, 0):02x}', 'write:05', 'read:2', 'write:050355', 'pec:1', 'data:w:05:03', 'byte:w:05', 'pec:0', 'read:2',
           'write:05', 'read:2', 'data:r:05', 'pec:1', 'data:r:05', 'word:r:05', 'pec:0', 'word:r:05', f'rdwr:w18:00ff{crc(w, 0, 0xFF):02x},w18:00,r18:2',
           'rdwr:w18:05,r18:2,w18:06ff00,r18:2')
    smbus2(wire, ('read_byte_data=0x18,9', 'data', 'r', 9, (), 1), ('pec=1', 'pec', '', 0, 1, 0), ('write_byte_data=0x18,5,3', 'data', 'w', 5, (3,), 0),
           ('read_byte_data=0x18,5', 'data', 'r', 5, (), 1), ('pec=0', 'pec', '', 0, 0, 0), ('read_i2c_block_data=0x18,5,4', 'i2c', 'r', 5, (), 4),
           ('read_byte=8', 'at', 'r', 0, (8,), 1), ('rdwr=w18:050055', 'rdwr', '', 0, (), 0), ('rdwr=w18:05,r18:2', 'rdwr', '', 0, (), 0))


def on_asleep(wire, a, w):
    i2ctransfer(wire, (a, [0x04, 0x01, crc(w, 0x04, 0x01)]))
    i2ctransfer(wire, (a, [0x04, 0x02, crc(w, 0x04, 0x02)]))
    i2ctransfer(wire, (a, [0x04]))
    event(wire, 'xready', 9)
    event(wire, 'boot', 2)
    i2ctransfer(wire, (a, [0x05]), (a, 2))


def main(model, name, file=None):
    wire = {'off': off, 'on': on}[name](model)
    if file is not None:
        with open(file, 'wb') as kept:
            kept.write(wire.stream)


if __name__ == '__main__':
    main(*sys.argv[1:])
