"""The chip in words: for `./bench-event show`, and a line for what an event left."""
from chip import ALERT, CHG, DSG, NUMBER, PINS, STAT

STATS = (('CC_READY', 7), ('XREADY', 5), ('OVRD_ALERT', 4), ('UV', 3), ('OV', 2), ('SCD', 1), ('OCD', 0))
CTRL1 = (('LOAD_PRESENT', 7), ('ADC_EN', 4), ('TEMP_SEL', 3), ('SHUT_A', 1), ('SHUT_B', 0))
CTRL2 = (('DELAY_DIS', 7), ('CC_EN', 6), ('CC_ONESHOT', 5), ('DSG_ON', 1), ('CHG_ON', 0))
# As the rules of judging have them: delays by code, and thresholds in microvolts by RSNS and code.
OV_SCANS, UV_SCANS = (4, 8, 16, 32), (4, 16, 32, 64)
SCD_TICKS, OCD_TICKS = (3, 4, 7, 13), (256, 640, 1280, 2560, 5120, 10240, 20480, 40960)
SCD_LIMITS = (
    (18500, 29000, 39000, 49000, 59000, 69500, 79500, 91000),
    (37000, 59000, 78500, 98000, 119000, 139000, 159000, 181500),
)
OCD_LIMITS = (
    (9500, 11500, 14500, 17500, 19500, 22500, 25000, 28000, 31500, 33000, 36500, 40500, 42000, 44500, 46000, 48000),
    (18500, 22500, 28500, 34500, 38500, 44500, 49500, 56500, 62500, 65000, 72500, 80500, 83500, 88500, 90500, 94000),
)
ASLEEP, NO_CELL = 4, 6


def up(value, names):
    return ', '.join(name for name, bit in names if value >> bit & 1) or 'none'


def fields(value, names):
    return ', '.join(f'{name} {value >> bit & 1}' for name, bit in names)


def drives(pins):
    return f"CHG {'on' if pins & CHG else 'off'}, DSG {'on' if pins & DSG else 'off'}"


def left(entry):
    """A line for the entry of a record that was done."""
    alert = 'up' if entry[PINS] & ALERT else 'down'
    return f'SYS_STAT {entry[STAT]:02X} ({up(entry[STAT], STATS)}), ALERT {alert}, {drives(entry[PINS])}'


def refused(name, entry):
    """A line for the entry of a record that was not; of whole and valid ones that is number 4."""
    why = ', the chip is in SHIP' if entry[NUMBER] == ASLEEP else ''
    return f'{name} is refused with {entry[NUMBER]}{why}'


def balanced(value, first):
    inputs = [str(first + bit) for bit in range(5) if value >> bit & 1]
    return f"inputs {', '.join(inputs)}" if inputs else 'none'


def settings(page):
    """Name and words of the registers that a host writes."""
    sense, scd, ocd = page[6] >> 7, page[6] & 7, page[7] & 15
    hasty = page[5] >> 7
    scans = ['1 scan, by DELAY_DIS' if hasty else f'{table[code]} scans'
             for table, code in ((UV_SCANS, page[8] >> 6), (OV_SCANS, page[8] >> 4 & 3))]
    ticks = ['1 tick, by DELAY_DIS' if hasty else f'{table[code]} ticks'
             for table, code in ((SCD_TICKS, page[6] >> 3 & 3), (OCD_TICKS, page[7] >> 4))]
    return [
        ('SYS_STAT', fields(page[0], STATS)),
        ('CELLBAL1', balanced(page[1], 1)), ('CELLBAL2', balanced(page[2], 6)), ('CELLBAL3', balanced(page[3], 11)),
        ('SYS_CTRL1', fields(page[4], CTRL1)),
        ('SYS_CTRL2', fields(page[5], CTRL2)),
        ('PROTECT1', f'RSNS {sense}, SCD above {SCD_LIMITS[sense][scd]} uV for {ticks[0]}'),
        ('PROTECT2', f'OCD above {OCD_LIMITS[sense][ocd]} uV for {ticks[1]}'),
        ('PROTECT3', f'UV for {scans[0]}, OV for {scans[1]}'),
        ('OV_TRIP', f'over above count {8200 + 16 * page[9]}'),
        ('UV_TRIP', f'under below count {4096 + 16 * page[10]}'),
        ('CC_CFG', f'{page[11]}'),
    ]


def pair(page, at):
    return page[at] << 8 | page[at + 1]


def measures(page, options):
    """Address, name and words of the words of two bytes that the chip measures, and of its calibration."""
    lines = [(0x0C + 2 * place, f'VC{place + 1}', f'{pair(page, 0x0C + 2 * place)}') for place in range(options.inputs())]
    lines.append((0x2A, 'BAT', f'{pair(page, 0x2A)}'))
    lines += [(0x2C + 2 * place, f'TS{place + 1}', f'{pair(page, 0x2C + 2 * place)}') for place in range(options.part)]
    charge = pair(page, 0x32)
    return lines + [(0x32, 'CC', f'{charge - 65536 if charge > 32767 else charge}')]


def cells(voltages):
    """A line for each cell of the pack; the numbers are 0, 10 for one that is not connected, and 6 past the last."""
    return [f'cell {place + 1:<3} ' + (f'{microvolts} uV' if number == 0 else 'not connected')
            for place, (number, microvolts) in enumerate(voltages) if number != NO_CELL]


def whole(chip):
    """Everything, a line a thing."""
    with chip.changed:
        (page, voltages), pins, options = chip.state(), chip.pins, chip.options
    asleep = voltages[0][0] == ASLEEP
    pack = 'no wiring told' if options.cells is None else f'a pack of {options.cells} cells'
    lines = [
        f"chip     {options.name()}, address 0x{options.address:02X}, CRC {'on' if options.crc else 'off'}, gain {344 + options.gain} uV,"
        f' offset {options.signed_offset()} mV, floor {options.floor}, {pack}',
        f"mode     {'SHIP' if asleep else 'NORMAL'}",
        f"ALERT    {'up' if pins & ALERT else 'down'}",
        f'faults   {up(page[0] & 0x7F, STATS)}',
        f'drives   {drives(pins)}',
    ]
    lines += [f'{at:02X} {name:<10} {page[at]:02X}    {words}' for at, (name, words) in enumerate(settings(page))]
    lines += [f'{at:02X} {name:<10} {page[at]:02X}{page[at + 1]:02X}  {words}' for at, name, words in measures(page, options)]
    gain = page[0x50] >> 2 << 3 | page[0x59] >> 5
    lines += [f'50 ADCGAIN1   {page[0x50]:02X}    gain code {gain}, with ADCGAIN2', f'51 ADCOFFSET  {page[0x51]:02X}    '
              f'{page[0x51] - 256 if page[0x51] > 127 else page[0x51]} mV', f'59 ADCGAIN2   {page[0x59]:02X}']
    return '\n'.join(lines + (['cells    none can be read in SHIP'] if asleep else cells(voltages)))
