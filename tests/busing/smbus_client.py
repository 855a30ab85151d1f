"""One bus object of python3-smbus2: each word is a call, METHOD=ARGUMENT,.. with lists as bytes joined by dots, or pec=0/1; a line
for each with what came back, or the name of its errno. rdwr=w08:05,r08:2 is i2c_rdwr with these messages."""
import errno
import sys

import smbus2


def argument(text):
    values = [int(part, 0) for part in text.split('.')]
    return values if '.' in text else values[0]


def message(text):
    body = text[4:]
    if text[0] == 'r':
        return smbus2.i2c_msg.read(int(text[1:3], 16), int(body))
    return smbus2.i2c_msg.write(int(text[1:3], 16), bytes.fromhex(body))


def said(bus, name, words):
    if name == 'pec':
        bus.pec = int(words)
        return bus.pec
    if name == 'rdwr':
        messages = [message(text) for text in words.split(',')]
        bus.i2c_rdwr(*messages)
        return ' '.join(f'{byte:02x}' for one, text in zip(messages, words.split(',')) if text[0] == 'r' for byte in one)
    return getattr(bus, name)(*map(argument, words.split(',')))


def main(number, *calls):
    with smbus2.SMBus(int(number)) as bus:
        for call in calls:
            name, _, words = call.partition('=')
            try:
                answer = said(bus, name, words)
            except OSError as error:
                answer = errno.errorcode[error.errno]
            print(call, '->', answer, flush=True)


main(*sys.argv[1:])
