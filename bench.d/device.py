"""/dev/i2c-N by umockdev: takes the clients' calls out of their memory and hands the answers back. Every call is answered, whatever
happens: a client whose call is left open would hang."""
import errno
import os
import struct
import sys

import gi

gi.require_version('UMockdev', '1.0')
from gi.repository import GLib, UMockdev  # noqa: E402

import adapter  # noqa: E402
from chip import Gone  # noqa: E402

RETRIES, TIMEOUT, SLAVE, TENBIT, FUNCS, SLAVE_FORCE, RDWR, PEC, SMBUS = 0x701, 0x702, 0x703, 0x704, 0x705, 0x706, 0x707, 0x708, 0x720
SIZES = {adapter.BYTE_ALONE: 1, adapter.BYTE_DATA: 1, adapter.WORD_DATA: 2, adapter.PROC_CALL: 2}
MAJOR = 89


class Bus(UMockdev.IoctlBase):
    """One adapter with one chip. umockdev calls from one thread of its own, so that transfers come one after the other."""

    def __init__(self, chip):
        super().__init__()
        self.chip = chip

    def do_client_connected(self, client):
        client.mine = adapter.Client()      # ends with umockdev's own object, when the file is closed or its program killed

    def do_handle_ioctl(self, client):
        return self.answered(client, lambda mine, arg: self.ioctl(mine, client.get_request(), arg))

    def do_handle_read(self, client):
        return self.answered(client, self.read)

    def do_handle_write(self, client):
        return self.answered(client, self.write)

    def answered(self, client, call):
        result, number = -1, errno.EIO
        try:
            result, number = call(client.mine, client.get_arg()), 0
        except OSError as error:
            number = error.errno
        except (Gone, GLib.Error):      # the second: the client was killed in the middle of its call
            pass
        except Exception as error:  # a mistake of the bench's must not leave the client hanging
            print(f'bench: {type(error).__name__}: {error}', file=sys.stderr)
        client.complete(result, number)
        return True

    def read(self, client, arg):
        length = min(len(arg.retrieve()), adapter.LONGEST)
        arg.update(0, adapter.transfer(self.chip, [client.message(take=length)])[0])
        return length

    def write(self, client, arg):
        data = bytes(arg.retrieve())[:adapter.LONGEST]
        adapter.transfer(self.chip, [client.message(data)])
        return len(data)

    def ioctl(self, client, request, arg):
        value = int.from_bytes(bytes(arg.retrieve()), 'little')
        if request in (SLAVE, SLAVE_FORCE):
            adapter.slave(client, value)
        elif request == TENBIT:
            client.ten = value != 0
        elif request == PEC:
            client.pec = value != 0
        elif request in (RETRIES, TIMEOUT):
            if value > 0x7FFFFFFF:
                raise adapter.fault(errno.EINVAL)
        elif request == FUNCS:
            wanted(arg.resolve(0, 8), errno.EFAULT).update(0, struct.pack('<Q', adapter.FUNCTIONS))
        elif request == RDWR:
            return self.messages(wanted(arg.resolve(0, 16), errno.EFAULT))
        elif request == SMBUS:
            self.smbus(client, wanted(arg.resolve(0, 16), errno.EFAULT))
        else:
            raise adapter.fault(errno.ENOTTY)
        return 0

    def messages(self, arg):
        """I2C_RDWR: struct i2c_rdwr_ioctl_data."""
        count = struct.unpack_from('<I', bytes(arg.retrieve()), 8)[0]
        if not 1 <= count <= adapter.MESSAGES:
            raise adapter.fault(errno.EINVAL)
        table = wanted(arg.resolve(0, 16 * count), errno.EINVAL)
        lines, messages, buffers = bytes(table.retrieve()), [], []
        for place in range(count):
            address, flags, length = struct.unpack_from('<HHH', lines, 16 * place)
            if length > adapter.LONGEST:
                raise adapter.fault(errno.EINVAL)
            if flags & ~(adapter.READ | adapter.RECV_LEN | adapter.DMA_SAFE) or address > 0x7F:
                raise adapter.fault(errno.EOPNOTSUPP)
            buffer = table.resolve(16 * place + 8, length)
            if length:
                wanted(buffer, errno.EFAULT)
            messages.append(message_of(address, flags, length, buffer))
            buffers.append(buffer)
        for message, buffer, data in zip(messages, buffers, adapter.transfer(self.chip, messages)):
            if data:
                buffer.update(0, data)
        return count

    def smbus(self, client, arg):
        """I2C_SMBUS: struct i2c_smbus_ioctl_data."""
        reads, command, size = struct.unpack_from('<BBxxI', bytes(arg.retrieve()))
        if reads > 1 or size > adapter.I2C_BLOCK:
            raise adapter.fault(errno.EINVAL)
        alone = size == adapter.QUICK or size == adapter.BYTE_ALONE and not reads
        data = None if alone else wanted(arg.resolve(8, SIZES.get(size, adapter.BLOCK + 2)), errno.EINVAL)
        given = adapter.smbus(self.chip, client, reads == 1, command, size, b'' if alone else bytes(data.retrieve()))
        if given:
            data.update(0, given)


def wanted(data, number):
    """Memory that the client has to have lent."""
    if data is None:
        raise adapter.fault(number)
    return data


def message_of(address, flags, length, buffer):
    data = bytes(buffer.retrieve()) if length else b''
    if not flags & adapter.RECV_LEN:
        return adapter.Message(address, take=length) if flags & adapter.READ else adapter.Message(address, data)
    if not flags & adapter.READ or length < 1 or data[0] < 1 or length < data[0] + adapter.BLOCK:
        raise adapter.fault(errno.EINVAL)
    return adapter.Message(address, take=data[0], counted=True)


def heard(_domain, _level, text, *_):
    """umockdev's complaints, but for the one over a client that was killed in the middle of a call."""
    if 'open stream' not in text:
        print(f'bench: umockdev: {text}', file=sys.stderr)


class Device:
    """/dev/i2c-N in a testbed of its own, for every program that runs in `environment`."""

    def __init__(self, number, name, chip):
        GLib.log_set_handler(None, GLib.LogLevelFlags.LEVEL_CRITICAL | GLib.LogLevelFlags.LEVEL_WARNING, heard)
        self.testbed, self.bus = UMockdev.Testbed.new(), Bus(chip)
        self.testbed.add_from_string(
            f'P: /devices/i2c-{number}/i2c-dev/i2c-{number}\nN: i2c-{number}\nE: DEVNAME=/dev/i2c-{number}\nE: SUBSYSTEM=i2c-dev\n'
            f'E: MAJOR={MAJOR}\nE: MINOR={number}\nA: name={name}\\n\nA: dev={MAJOR}:{number}\\n\n')
        self.testbed.attach_ioctl(f'/dev/i2c-{number}', self.bus)

    def environment(self):
        before = os.environ.get('LD_PRELOAD')
        return {
            'LD_PRELOAD': 'libumockdev-preload.so.0' + (f':{before}' if before else ''),
            'UMOCKDEV_DIR': self.testbed.get_root_dir(),
        }
