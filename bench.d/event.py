"""./bench-event: hands its words to a running bench and prints the answer."""
import json
import os
import socket
import sys

import place
from options import number, say

HELP = '''usage: ./bench-event [--bus N] EVENT ..
Makes something happen to the chip of a running ./bench, inside its shell or from another terminal.

  scan COUNT ..        a scan, one count for each cell input
  temp COUNT ..        temperatures, one count for each five inputs
  count N              the coulomb counter's reading
  sense UV [xN]        SRP minus SRN in microvolts, for one tick or N of them
  pin                  ALERT is pulled up from outside, an edge
  level 0/1            a second protector lets go of ALERT, or holds it up
  load 0/1             no load, or a load
  xready, por, boot    an internal fault, power-on reset, booting from SHIP
  show                 mode, registers by name, faults, drives, ALERT and cell voltages
  wait-alert SECONDS   until ALERT is up; status 1 where it stays down
  -h, --help           this text
  -V, --version        the version

Status 0: done; 1: the chip refused it, or ALERT stayed down; 2: wrong words, or no bench.'''
PATIENCE = 30


def give_up(status, text):
    print(f'bench-event: {text}', file=sys.stderr)
    sys.exit(status)


def bus_and_words(words):
    bus = os.environ.get(place.INSIDE, str(place.BUS))
    if words[:1] == ['--bus']:
        if len(words) < 2:
            give_up(2, '--bus takes a number from 0 to 255')
        bus, words = words[1], words[2:]
    if number(bus) is None or not 0 <= number(bus) <= 255:
        give_up(2, f'--bus takes a number from 0 to 255, not {bus!r}')
    if words[:1] and words[0].startswith('--'):
        give_up(2, f'no option {words[0]}: ./bench-event --help lists what there is')
    return number(bus), words


def patience(words):
    """How long an answer may take: a wait as long as it says, and some seconds."""
    try:
        return float(words[1]) + PATIENCE if words[:1] == ['wait-alert'] else PATIENCE
    except (IndexError, ValueError):
        return PATIENCE


def answer(bus, words):
    with socket.socket(socket.AF_UNIX) as line:
        line.settimeout(PATIENCE)
        try:
            line.connect(place.socket_of(bus))
        except OSError:
            give_up(2, f'no bench runs on bus {bus}: start ./bench, or say --bus N')
        line.settimeout(min(patience(words), 1 << 20))
        try:
            line.sendall(json.dumps(words).encode() + b'\n')
            with line.makefile() as answers:
                return json.loads(answers.readline())
        except TimeoutError:
            give_up(1, 'the bench does not answer')
        except (OSError, ValueError):
            give_up(1, 'the bench has ended')


def main(words):
    if words[:1] in (['--help'], ['-h']):
        say(HELP)
        return 0
    status, text = answer(*bus_and_words(words))
    if status == 0:
        say(text)
        return 0
    give_up(status, text)


if __name__ == '__main__':
    sys.exit(main(sys.argv[1:]))
