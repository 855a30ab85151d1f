"""Inside ./bench: COUNT transfers in a row, and for each thousand the processor time that the bench and its chip took; status 1 where
the cheapest of the last twenty costs half as much again as the cheapest of the first twenty (other work on the machine moves the rest),
or where the bench grows by more than 8 MB after its first thousand."""
import os
import subprocess
import sys

TICK = os.sysconf('SC_CLK_TCK')
PAGE = os.sysconf('SC_PAGE_SIZE')


def fields(pid):
    with open(f'/proc/{pid}/stat') as stat:
        return stat.read().rpartition(')')[2].split()


def chip_of(bench):
    for name in os.listdir('/proc'):
        if name.isdigit() and int(name) != os.getpid() and int(fields(name)[1]) == bench:
            return int(name)
    sys.exit('load: the chip is not found')


def used(pids):
    """Milliseconds of all, and the pages of the first."""
    return sum(1000 / TICK * (int(fields(pid)[11]) + int(fields(pid)[12])) for pid in pids), int(fields(pids[0])[21])


def main(count):
    bench = os.getppid()
    pids = [bench, chip_of(bench)]
    driver = subprocess.Popen(['driver', '/dev/i2c-9', 'loop', str(count), 'rdwr:w08:09,r08:1'], stdout=subprocess.PIPE, text=True)
    times, sizes = [used(pids)[0]], []
    for line in driver.stdout:
        if not line.strip().isdigit():
            assert line == 'rdwr:w08:09,r08:1 -> ac\n', line
            continue
        time, pages = used(pids)
        times.append(time)
        sizes.append(pages * PAGE)
    assert driver.wait() == 0 and len(sizes) == count // 1000, 'the driver ends early'
    costs = [after - before for before, after in zip(times, times[1:])]
    first, last = min(costs[:20]), min(costs[-20:])
    grown = sizes[-1] - sizes[0]
    print(f'{count} transfers: {first:.0f} ms of processor for the cheapest thousand at the beginning, {last:.0f} ms at the end; '
          f'the bench grew by {max(0, grown) // 1024} KB')
    sys.exit(0 if last <= 1.5 * first and grown <= 8 << 20 else 1)


main(int(sys.argv[1]))
