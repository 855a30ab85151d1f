"""Where a bench can be found: a folder of this user's for each bus number, held by a lock that ends with its process."""
import fcntl
import os
import shutil
import stat
import time

BUS = 9
INSIDE = 'TORALINGE_BENCH_BUS'      # set for what runs in a bench
TRIES, PAUSE = 20, 0.05             # for a lock that another bench only looks at


class Taken(Exception):
    """The bus number cannot be had; the text says why."""


def ours():
    """/tmp and not $TMPDIR: another terminal must find it, and a socket's path has to be short."""
    return f'/tmp/toralinge-bench-{os.getuid()}'


def folder(bus):
    return os.path.join(ours(), str(bus))


def socket_of(bus):
    return os.path.join(folder(bus), 'socket')


def free(bus):
    """Refuses a number that an adapter or another bench has; starts and leaves nothing."""
    if os.environ.get(INSIDE):
        raise Taken(f'this shell is in a bench already, on bus {os.environ[INSIDE]}: leave it first')
    if os.path.lexists(f'/dev/i2c-{bus}') or os.path.lexists(f'/sys/class/i2c-dev/i2c-{bus}'):
        raise Taken(f'bus {bus} is in use, there is an adapter /dev/i2c-{bus}: --bus takes another number')
    if os.path.lexists(ours()):
        kept = os.lstat(ours())
        if not stat.S_ISDIR(kept.st_mode) or kept.st_uid != os.getuid():
            raise Taken(f'{ours()} is not this user\'s folder: remove it')
    try:
        with open(lock_of(bus)) as lock:
            fcntl.flock(lock, fcntl.LOCK_SH | fcntl.LOCK_NB)
    except FileNotFoundError:
        pass
    except BlockingIOError:
        raise in_use(bus) from None


def in_use(bus):
    return Taken(f'bus {bus} is in use by another bench: --bus takes another number')


def lock_of(bus):
    return f'{folder(bus)}.lock'


def locked(bus):
    """The lock file, held; None where it cannot be had now, or was removed by the one who had it."""
    lock = None
    try:
        lock = open(lock_of(bus), 'w')
        fcntl.flock(lock, fcntl.LOCK_EX | fcntl.LOCK_NB)
        if os.fstat(lock.fileno()).st_ino == os.stat(lock_of(bus)).st_ino:
            return lock
    except (BlockingIOError, FileNotFoundError):
        pass
    if lock is not None:
        lock.close()
    return None


def hold(bus):
    """Takes the number until this process ends, clears what a killed bench left there, and gives the lock to be kept."""
    for _ in range(TRIES):
        os.makedirs(ours(), mode=0o700, exist_ok=True)
        lock = locked(bus)
        if lock is not None:
            shutil.rmtree(folder(bus), ignore_errors=True)
            os.mkdir(folder(bus), mode=0o700)
            return lock
        time.sleep(PAUSE)
    raise in_use(bus)


def leave(bus, lock):
    shutil.rmtree(folder(bus), ignore_errors=True)
    os.unlink(lock_of(bus))
    lock.close()
    try:
        os.rmdir(ours())
    except OSError:
        pass      # another bench is there
