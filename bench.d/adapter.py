"""What Linux makes of a client's calls on /dev/i2c-N: i2c-dev's checks, the kernel's SMBus emulation, and an adapter that stops a
transfer at the first byte that is not acknowledged. Each function raises OSError with the errno that the client is to see."""
import errno
from typing import NamedTuple, Optional

from chip import BYTE

LONGEST = 8192          # bytes of a message, and of read() and write()
MESSAGES = 42           # of an I2C_RDWR
BLOCK = 32              # bytes of an SMBus block
READ, DMA_SAFE, RECV_LEN = 0x0001, 0x0200, 0x0400
QUICK, BYTE_ALONE, BYTE_DATA, WORD_DATA, PROC_CALL, BLOCK_DATA, BROKEN, BLOCK_PROC_CALL, I2C_BLOCK = range(9)
FUNCTIONS = 0x0FFF8009  # I2C_FUNC_I2C and I2C_FUNC_SMBUS_EMUL_ALL


class Message(NamedTuple):
    address: int
    data: bytes = b''            # what is written
    take: Optional[int] = None   # or how many bytes are read
    counted: bool = False        # the first of them says how many more there are


class Client:
    """What belongs to one open file: its slave address, and whether it wants PEC."""

    def __init__(self):
        self.address, self.pec, self.ten = 0, False, False

    def message(self, *words, **named):
        if self.ten:
            raise fault(errno.EOPNOTSUPP)
        return Message(self.address, *words, **named)


def fault(number):
    return OSError(number, errno.errorcode[number])


def transfer(chip, messages):
    """Plays the messages with a STOP after them, and gives the bytes of each one that reads. Where a byte is not acknowledged the
    STOP comes at once: ENXIO for an address, EIO for a data byte."""
    with chip.changed:
        steps, failure = frames(chip, messages)
        for place, entry in enumerate(chip.peek([record for record, _, _ in steps])):
            number = steps[place][1]
            if number and entry[BYTE] == 1:
                steps, failure = steps[:place + 1], number
                break
        played = chip.feed([record for record, _, _ in steps] + [chip.stop])
    if failure:
        raise fault(failure)
    given = [bytearray() for _ in messages]
    for (_, _, reader), entry in zip(steps, played):
        if reader is not None:
            given[reader].append(entry[BYTE])
    return [bytes(data) for data in given]


def frames(chip, messages):
    """The messages as steps: a record, the errno where it is a byte that may not be acknowledged, and which message takes its byte.
    And EPROTO where a block's own count is none: the steps then end at it."""
    steps = []
    for place, message in enumerate(messages):
        reads = message.take is not None
        steps.append((chip.start, None, None))
        steps.append((chip.outs[message.address << 1 | reads], errno.ENXIO, None))
        steps += [(chip.outs[byte], errno.EIO, None) for byte in message.data]
        take = message.take or 0
        if message.counted:
            count = chip.peek([record for record, _, _ in steps] + [chip.ins[0]])[-1][BYTE]
            if not 1 <= count <= BLOCK:
                steps.append((chip.ins[1], None, place))
                return steps, errno.EPROTO
            take += count
        steps += [(chip.ins[at + 1 == take], None, place) for at in range(take)]
    return steps, None


def crc8(data):
    rest = 0
    for byte in data:
        rest ^= byte
        for _ in range(8):
            rest = (rest << 1 ^ 0x107) if rest & 0x80 else rest << 1
    return rest


def smbus_messages(client, reads, command, size, data):
    """The messages of an SMBus call, as the kernel emulates it; data as union i2c_smbus_data has it."""
    asked = client.message(bytes([command]))
    count = data[0] if data else 0
    if size == QUICK:
        return [client.message(take=0) if reads else client.message()]
    if size == BYTE_ALONE:
        return [client.message(take=1) if reads else asked]
    if size == PROC_CALL:
        return [client.message(bytes([command]) + data[:2]), client.message(take=2)]
    if size in (BLOCK_PROC_CALL, I2C_BLOCK, BLOCK_DATA) and count > BLOCK and not (size == BLOCK_DATA and reads):
        raise fault(errno.EINVAL)
    if size == BLOCK_PROC_CALL:
        return [client.message(bytes([command]) + data[:count + 1]), client.message(take=1, counted=True)]
    if reads:
        take = {BYTE_DATA: 1, WORD_DATA: 2, BLOCK_DATA: 1, I2C_BLOCK: count}[size]
        return [asked, client.message(take=take, counted=size == BLOCK_DATA)]
    body = {BYTE_DATA: data[:1], WORD_DATA: data[:2], BLOCK_DATA: data[:count + 1], I2C_BLOCK: data[1:count + 1]}[size]
    return [client.message(bytes([command]) + body)]


def smbus(chip, client, reads, command, size, data):
    """An SMBus call; the bytes that go back into the union."""
    if size == BROKEN:
        size = I2C_BLOCK
        data = bytes([BLOCK]) + data[1:] if reads else data
    messages = smbus_messages(client, reads, command, size, data)
    pec = client.pec and size not in (QUICK, I2C_BLOCK)
    last = messages[-1]
    if pec and last.take is None:
        messages[-1] = last._replace(data=last.data + bytes([crc8(bytes([last.address << 1]) + last.data)]))
    elif pec:
        messages[-1] = last._replace(take=last.take + 1)
    given = transfer(chip, messages)[-1]
    if pec and last.take is not None:
        before = b''.join(bytes([one.address << 1]) + one.data for one in messages[:-1])
        if crc8(before + bytes([last.address << 1 | 1]) + given[:-1]) != given[-1]:
            raise fault(errno.EBADMSG)
        given = given[:-1]
    return bytes([len(given)]) + given if size == I2C_BLOCK and reads else given


def slave(client, address):
    if address > 0x3FF or address > 0x7F and not client.ten:
        raise fault(errno.EINVAL)
    client.address = address
