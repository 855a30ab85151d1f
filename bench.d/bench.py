"""./bench. `check WORD ..` judges the words and starts nothing; `run PROGRAM .. --- WORD ..` makes the chip, the bus and the place
where events come in, and runs the command."""
import os
import signal
import subprocess
import sys
import threading

import place
from options import HELP, judged, path, say

HELPED = 64             # what `check` ends with after the help
PATIENCE = 5


class Ended(Exception):
    """A signal asked the bench to end."""


def ended(number, _):
    raise Ended(number)


def watch(chip, command):
    """Ends the command where the chip cannot go on."""
    with chip.changed:
        chip.changed.wait_for(lambda: chip.gone)
    command.send_signal(signal.SIGHUP)


def waited(command):
    """Waits for the command; its status as a shell has it."""
    try:
        status = command.wait()
    except Ended as signalled:
        command.send_signal(signal.SIGHUP)
        try:
            command.wait(PATIENCE)
        except subprocess.TimeoutExpired:
            command.kill()
            command.wait()
        return 128 + signalled.args[0]
    return 128 - status if status < 0 else status


def opened(options):
    """The record file's descriptor."""
    if options.record is None:
        return None
    try:
        return os.open(options.record, os.O_WRONLY | os.O_CREAT | os.O_EXCL | os.O_APPEND, 0o666)
    except OSError as error:
        print(f'bench: --record cannot make {options.record}: {error.strerror}', file=sys.stderr)
        sys.exit(2)


def surroundings(device, bus, temporary):
    """What the command finds in its environment: the bench's, with the bus, and i2c-tools on the path."""
    found = {**os.environ, **device.environment(), 'PATH': path(), place.INSIDE: str(bus)}
    found.pop('TMPDIR')
    if temporary is not None:
        found['TMPDIR'] = temporary
    return found


def command_of(options):
    """The command, or a shell that is told where it is; it hears a hang-up where the bench is killed."""
    words = options.command
    if not words:
        words = [os.environ.get('SHELL') or '/bin/sh']
        if sys.stdin.isatty():
            print(f'bench: /dev/i2c-{options.bus} is an {options.name()} at 0x{options.address:02X}; ./bench-event makes things happen'
                  ' to it; `exit` ends it', file=sys.stderr)
    return ['setpriv', '--pdeathsig', 'HUP', '--', *words]


def on_the_bus(options, program):
    """Makes the chip and its bus, and runs the command there."""
    descriptor = opened(options)
    temporary = os.environ.get('TMPDIR')
    os.environ['TMPDIR'] = place.folder(options.bus)      # umockdev's folder is made, and cleared, with ours
    from chip import Chip
    from device import Device
    from events import Server
    chip = Chip(program, options, descriptor)
    device = Device(options.bus, f'toralinge {options.name()}', chip)
    server = Server(place.socket_of(options.bus), chip)
    threading.Thread(target=server.serve_forever, daemon=True).start()
    command = subprocess.Popen(command_of(options), env=surroundings(device, options.bus, temporary))
    threading.Thread(target=watch, args=(chip, command), daemon=True).start()
    status = waited(command)
    if chip.gone:
        raise RuntimeError(chip.gone)
    chip.close()
    return status


def run(options, program):
    try:
        lock = place.hold(options.bus)
    except place.Taken as error:
        print(f'bench: {error}', file=sys.stderr)
        return 2
    signal.signal(signal.SIGINT, lambda *_: None)      # it is for the command
    for number in (signal.SIGTERM, signal.SIGHUP):
        signal.signal(number, ended)
    try:
        return on_the_bus(options, program)
    except Ended as signalled:
        return 128 + signalled.args[0]
    except (RuntimeError, OSError) as error:
        print(f'bench: {error}', file=sys.stderr)
        return 1
    finally:
        place.leave(options.bus, lock)


def main(verb, *words):
    if verb == 'check':
        if judged(words, False) is None:
            say(HELP)
            return HELPED
        return 0
    at = words.index('---')
    return run(judged(words[at + 1:], True), list(words[:at]))


if __name__ == '__main__':
    status = main(*sys.argv[1:])
    sys.stdout.flush()
    os._exit(status)      # umockdev's thread would wait for clients that are still open
