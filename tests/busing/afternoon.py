"""An afternoon at the bench from a seed: `run SEED CRC` makes 150 transfers over smbus2 and 50 events over ./bench-event, and prints what
the host saw; `same SEEN PLAYED` holds that to the lines that the recorded stream plays to."""
import errno
import random
import re
import subprocess
import sys

from crccheck.crc import Crc8Smbus

ADDRESS, ELSEWHERE = 0x08, 0x33
FAULT = {'ALERT': {'up': 1, 'down': 0}, 'CHG': {'on': 1, 'off': 0}, 'DSG': {'on': 1, 'off': 0}}


def failure(bus, *messages):
    try:
        bus.i2c_rdwr(*messages)
        return None
    except OSError as error:
        return errno.errorcode[error.errno]


def transferred(smbus2, bus, chance, with_crc):
    """One transfer; the bus answers that the host saw, byte by byte."""
    register = chance.randrange(0x34)
    kind = chance.choice(['read', 'read', 'write', 'write', 'spoiled', 'elsewhere'])
    if kind == 'elsewhere':
        assert failure(bus, smbus2.i2c_msg.write(ELSEWHERE, [register])) == 'ENXIO'
        return ['01']
    if kind == 'read':
        taken = smbus2.i2c_msg.read(ADDRESS, chance.randrange(1, 9))
        assert failure(bus, smbus2.i2c_msg.write(ADDRESS, [register]), taken) is None
        return ['00'] * 3 + [f'{byte:02X}' for byte in taken]
    value = chance.randrange(256) & (0x18 if register == 0x04 else 0xFF)
    sent = [register, value]
    if with_crc:
        sent.append(Crc8Smbus.calc(bytes([ADDRESS << 1, *sent])) ^ (kind == 'spoiled'))
    spoiled = with_crc and kind == 'spoiled'
    assert failure(bus, smbus2.i2c_msg.write(ADDRESS, sent)) == ('EIO' if spoiled else None)
    return ['00'] * len(sent) + ['01' if spoiled else '00']


def happened(chance):
    """One event; SYS_STAT and the pins as ./bench-event tells them."""
    event = chance.choice(['scan'] * 6 + ['xready', 'pin', 'count 700', 'sense -40000 x5'])
    if event == 'scan':
        event += ''.join(f' {chance.choice((9000, 9100, 9200, 10953, 6500))}' for _ in range(5))
    said = subprocess.run(['./bench-event', *event.split()], capture_output=True, text=True, timeout=60)
    stat, alert, charge, discharge = re.fullmatch(r'SYS_STAT (..) \(.*\), ALERT (\w+), CHG (\w+), DSG (\w+)\n', said.stdout).groups()
    return [f"event {stat} {FAULT['ALERT'][alert]}{FAULT['CHG'][charge]}{FAULT['DSG'][discharge]}"]


def run(seed, with_crc):
    import smbus2
    chance, steps = random.Random(int(seed)), ['transfer'] * 150 + ['event'] * 50
    chance.shuffle(steps)
    with smbus2.SMBus(9) as bus:
        for step in steps:
            seen = happened(chance) if step == 'event' else transferred(smbus2, bus, chance, with_crc == '1')
            print('\n'.join(seen), flush=True)


def same(seen, played):
    told = []
    for line in open(played):
        _, kind, number, answer, stat, pins = line.split()
        assert number == '0', line
        if kind in ('0011', '0012'):
            told.append(answer)
        elif kind not in ('0000', '0002', '0010', '0013'):
            told.append(f'event {stat} {pins}')
    lines = open(seen).read().splitlines()
    for place, (one, other) in enumerate(zip(lines, told)):
        assert one == other, f'answer {place} was {one} and is {other} when it is played again'
    assert len(lines) == len(told) > 200, f'{len(lines)} answers were seen, {len(told)} are played'
    print(len(lines))


{'run': run, 'same': same}[sys.argv[1]](*sys.argv[2:])
