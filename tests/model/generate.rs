//! Streams from a seed: valid, damaged and hostile ones. A model chip runs beside the stream that is made, so that counts,
//! currents and frames can be put on either side of the lines that stand at that moment.

use crate::chip::{Bus, Chip};
use crate::plant::{Fault, Plant};
use crate::stream::Session;
use crate::values::crc;

/// SplitMix64.
pub struct Rng(u64);

impl Rng {
    pub fn new(seed: u64, stream: u64) -> Rng {
        let mut rng = Rng(seed.wrapping_mul(0x9E37_79B9_7F4A_7C15) ^ stream.wrapping_mul(0xD1B5_4A32_D192_ED03));
        rng.next();
        rng
    }

    fn next(&mut self) -> u64 {
        self.0 = self.0.wrapping_add(0x9E37_79B9_7F4A_7C15);
        let mut z = self.0;
        z = (z ^ (z >> 30)).wrapping_mul(0xBF58_476D_1CE4_E5B9);
        z = (z ^ (z >> 27)).wrapping_mul(0x94D0_49BB_1331_11EB);
        z ^ (z >> 31)
    }

    fn below(&mut self, n: usize) -> usize {
        (self.next() % n as u64) as usize
    }

    /// True once in n times.
    fn once_in(&mut self, n: usize) -> bool {
        self.below(n) == 0
    }

    fn byte(&mut self) -> u8 {
        self.next() as u8
    }

    fn between(&mut self, low: usize, high: usize) -> usize {
        low + self.below(high - low + 1)
    }

    fn pick<T: Copy>(&mut self, from: &[T]) -> T {
        from[self.below(from.len())]
    }
}

const POR: u16 = 0x01;
const BOOT: u16 = 0x02;
const SCAN: u16 = 0x03;
const TEMP: u16 = 0x04;
const COUNT: u16 = 0x05;
const SENSE: u16 = 0x06;
const PIN: u16 = 0x07;
const LOAD: u16 = 0x08;
const XREADY: u16 = 0x09;
const START: u16 = 0x10;
const OUT: u16 = 0x11;
const IN: u16 = 0x12;
const STOP: u16 = 0x13;
const LEVEL: u16 = 0x15;
const TICKS: u16 = 0x14;
const SOAK: u16 = 0x17;
const WIRES: u16 = 0x16;

#[derive(Clone, Copy, PartialEq)]
enum Kind {
    Quiet,
    Over,
    Under,
    Both,
    Wild,
}

struct Maker {
    rng: Rng,
    bytes: Vec<u8>,
    session: Session,
}

impl Maker {
    fn push(&mut self, kind: u16, payload: &[u8]) {
        let at = self.bytes.len();
        self.bytes.extend((payload.len() as u16).to_le_bytes());
        self.bytes.extend(kind.to_le_bytes());
        self.bytes.extend(payload);
        if !self.session.ended {
            self.session.record(&self.bytes, at);
        }
    }

    fn chip(&self) -> &Chip {
        self.session.chip.as_ref().expect("the maker's setup is good")
    }

    fn setup(&mut self, part: u8, crc_on: bool) {
        let address = if self.rng.once_in(3) { self.rng.pick(&[0x08, 0x77]) } else { self.rng.between(8, 0x77) as u8 };
        let gain_code = self.rng.below(32) as u8;
        let offset = if self.rng.once_in(2) { self.rng.byte() } else { self.rng.pick(&[0, 30, 0x7F, 0x80, 0xFF]) };
        let floor =
            if self.rng.once_in(3) { self.rng.pick(&[0, 1, 1_000, 4_095]) } else { self.rng.below(4_096) as u16 };
        let mut payload = vec![part, u8::from(crc_on), address, gain_code, offset];
        payload.extend(floor.to_le_bytes());
        self.push(0, &payload);
    }

    fn begin(&mut self) {
        let part = self.rng.between(1, 3) as u8;
        let crc_on = self.rng.once_in(2);
        self.setup(part, crc_on);
        if self.rng.once_in(2) {
            self.wiring();
        }
        if self.rng.once_in(6) {
            self.asleep();
        }
        self.push(BOOT, &[]);
    }

    /// A number of cells that the part has a row for.
    fn row(&mut self) -> u8 {
        match self.chip().setup.part {
            1 => self.rng.between(3, 5) as u8,
            2 => self.rng.between(6, 10) as u8,
            _ => self.rng.between(11, 15) as u8,
        }
    }

    /// A wiring record; refused records, one that comes first, or a number without a row may stand before it, and another after it.
    fn wiring(&mut self) {
        for _ in 0..self.rng.below(3) {
            self.hostile();
        }
        if self.rng.once_in(6) {
            let kind = self.rng.pick(&[START, STOP, POR]);
            self.push(kind, &[]);
        }
        if self.rng.once_in(3) {
            let cells = self.rng.pick(&[0, 1, 2, 3, 5, 6, 10, 11, 15, 16, 255]);
            self.push(WIRES, &[cells]);
        }
        for _ in 0..self.rng.between(1, 2) {
            let cells = self.row();
            self.push(WIRES, &[cells]);
        }
    }

    // ---- bus

    fn out(&mut self, byte: u8) {
        self.push(OUT, &[byte]);
    }

    fn take(&mut self, answer: u8) {
        self.push(IN, &[answer]);
    }

    /// START, the write address and the pointer; what the first CRC covers.
    fn open_write(&mut self, at: u8) -> Vec<u8> {
        let address = self.chip().setup.address * 2;
        self.push(START, &[]);
        self.out(address);
        self.out(at);
        vec![address, at]
    }

    fn data(&mut self, covered: &mut Vec<u8>, value: u8) {
        covered.push(value);
        self.out(value);
        if self.chip().setup.crc {
            self.out(crc(0, covered));
        }
        covered.clear();
    }

    fn write(&mut self, at: u8, values: &[u8]) {
        let mut covered = self.open_write(at);
        for value in values {
            self.data(&mut covered, *value);
        }
        if !self.rng.once_in(8) {
            self.push(STOP, &[]);
        }
    }

    fn open_read(&mut self) {
        self.push(START, &[]);
        let address = self.chip().setup.address * 2 + 1;
        self.out(address);
    }

    /// Takes some data bytes; events may fall between, and the last byte may or may not be acknowledged.
    fn take_bytes(&mut self, many: usize, events: bool) {
        let steps = if self.chip().setup.crc { 2 } else { 1 };
        for byte in 0..many {
            for step in 0..steps {
                let last = byte + 1 == many && step + 1 == steps;
                let answer = u8::from(if last { self.rng.once_in(2) } else { self.rng.once_in(60) });
                self.take(answer);
                if events && self.rng.once_in(3) {
                    self.event();
                }
            }
        }
    }

    fn read(&mut self, at: u8, many: usize, events: bool) {
        self.open_write(at);
        if self.rng.once_in(4) {
            self.push(STOP, &[]);
        }
        self.open_read();
        self.take_bytes(many, events);
        if !self.rng.once_in(6) {
            self.push(STOP, &[]);
        }
    }

    fn read_where_pointer_stands(&mut self) {
        self.open_read();
        let many = self.rng.between(1, 5);
        self.take_bytes(many, false);
        self.push(STOP, &[]);
    }

    /// A read of pairs that new measurements, faults and a fresh START come between.
    fn read_pairs(&mut self) {
        let at = 0x0B + self.rng.below(0x29) as u8;
        let many = self.rng.between(2, 7);
        self.read(at, many, true);
        if self.rng.once_in(3) {
            let high = 0x0C + 2 * self.rng.below(20) as u8;
            self.open_write(high);
            self.open_read();
            self.take(0);
            if self.chip().setup.crc && self.rng.once_in(2) {
                self.take(0);
            }
            self.measure();
            if self.rng.once_in(2) {
                self.open_read();
            }
            self.take_bytes(3, true);
        }
        if self.rng.once_in(3) {
            self.read_where_pointer_stands();
        }
    }

    /// A write in which something goes wrong.
    fn spoiled_write(&mut self) {
        let at = self.some_register();
        let mut covered = self.open_write(at);
        for _ in 0..self.rng.below(3) {
            let value = self.value_for(at);
            self.data(&mut covered, value);
        }
        let value = self.value_for(at);
        if covered.is_empty() && self.rng.once_in(4) {
            // the CRC of a later byte with the address in it
            self.out(value);
            self.out(crc(0, &[self.chip().setup.address * 2, at, value]));
        }
        self.spoil(covered, value);
        for _ in 0..self.rng.below(3) {
            let byte = self.rng.byte();
            self.out(byte);
        }
        if self.rng.once_in(2) {
            self.read_where_pointer_stands();
        }
        let many = self.rng.between(1, 3);
        self.read(at, many, false);
    }

    /// A data byte, and a CRC that is wrong, comes late or comes to nothing.
    fn spoil(&mut self, mut covered: Vec<u8>, value: u8) {
        self.out(value);
        covered.push(value);
        let mut sum = crc(0, &covered);
        match self.rng.below(9) {
            0 | 1 => sum = self.rng.byte(),
            2 => sum = crc(0, &[value]),
            3 => self.push(STOP, &[]),
            4 => self.push(START, &[]),
            5 | 6 => {
                for _ in 0..self.rng.between(1, 3) {
                    self.event();
                }
            }
            7 => self.take_either(),
            _ => {
                self.take_either();
                sum ^= 1 << self.rng.below(8);
            }
        }
        self.out(sum);
    }

    /// An IN that the host acknowledges or not.
    fn take_either(&mut self) {
        let answer = self.rng.below(2) as u8;
        self.take(answer);
    }

    fn strange_frame(&mut self) {
        let address = self.chip().setup.address * 2;
        match self.rng.below(7) {
            0 => self.unmatched_frame(address),
            1 => {
                self.open_read();
                self.take(0);
                let byte = self.rng.pick(&[0, address, 0xFF]);
                self.out(byte);
                self.take(0);
            }
            2 => {
                self.push(STOP, &[]);
                let byte = self.rng.pick(&[0, address, address + 1]);
                self.out(byte);
                self.take_either();
            }
            3 => {
                self.open_read();
                self.take(0);
                self.take(1);
                self.take(0);
                self.read_where_pointer_stands();
            }
            4 => {
                self.read(0xFD, 6, false);
                self.write(0xFE, &[1, 2, 0, 4]);
                self.read_where_pointer_stands();
            }
            5 => self.takes_in_a_write(address),
            _ => self.any_frame(address),
        }
    }

    fn unmatched_frame(&mut self, address: u8) {
        self.push(START, &[]);
        let other = self.rng.pick(&[address + 2, address - 2, address ^ 0x80, 0]);
        self.out(other);
        self.out(address);
        self.take(0);
    }

    /// An IN in each place of a write.
    fn takes_in_a_write(&mut self, address: u8) {
        self.push(START, &[]);
        self.take(1);
        self.out(address);
        self.take(1);
        self.out(0x09);
        self.take(1);
        let value = self.rng.byte();
        self.data(&mut vec![address, 0x09], value);
        self.read(0x09, 1, false);
    }

    fn any_frame(&mut self, address: u8) {
        for _ in 0..self.rng.between(1, 8) {
            let byte = self.rng.pick(&[0, address, address + 1, 0x04, 0x05, 0x55]);
            match self.rng.below(5) {
                0 => self.push(START, &[]),
                1 => self.push(STOP, &[]),
                2 => self.take(byte & 1),
                _ => self.out(byte),
            }
        }
    }

    // ---- registers

    fn some_register(&mut self) -> u8 {
        if self.rng.once_in(8) {
            self.rng.byte()
        } else {
            self.rng.below(12) as u8
        }
    }

    /// A value for a register; the delays of current faults stay short, and the chip mostly awake.
    fn value_for(&mut self, at: u8) -> u8 {
        let value = self.rng.byte();
        match at {
            0x04 => {
                value & 0x1C
                    | if self.rng.once_in(6) { value & 3 } else { 0 }
                    | if self.rng.once_in(3) { 0 } else { 0x10 }
            }
            0x05 => value & 0x7F | if self.rng.once_in(3) { 0x80 } else { 0 },
            0x07 => value & 0x8F,
            _ => value,
        }
    }

    fn soak(&mut self) {
        let at = self.some_register();
        let many = self.rng.between(1, 4);
        let values: Vec<u8> = (0..many).map(|i| self.value_for(at.wrapping_add(i as u8))).collect();
        self.write(at, &values);
        let events = self.rng.once_in(3);
        self.read(at, many, events);
    }

    fn clear(&mut self) {
        let mask = if self.rng.once_in(2) { 0xFF } else { self.rng.byte() };
        self.write(0x00, &[mask]);
    }

    fn drives_on(&mut self) {
        let keep = if self.rng.once_in(4) { self.rng.byte() & 0xE0 } else { self.chip().read(0x05) & 0xC0 };
        self.write(0x05, &[keep | 3]);
    }

    // ---- events

    fn counts(&mut self, kind: Kind) -> Vec<u16> {
        let inputs = self.chip().setup.inputs();
        let (high, low, floor) = (self.chip().ov_line(), self.chip().uv_line(), self.chip().setup.floor);
        let mut counts: Vec<u16> = Vec::new();
        for _ in 0..inputs {
            let count = match kind {
                Kind::Wild => self.rng.below(16_384) as u16,
                _ => self.rng.between(usize::from(low), usize::from(high)) as u16,
            };
            counts.push(count);
        }
        if kind == Kind::Wild {
            return counts;
        }
        let mut place = if self.rng.once_in(2) { self.rng.pick(&[0, inputs - 1]) } else { self.rng.below(inputs) };
        if matches!(kind, Kind::Over | Kind::Both) {
            counts[place] =
                if self.rng.once_in(3) { self.rng.between(usize::from(high) + 1, 16_383) as u16 } else { high + 1 };
            place = (place + 1 + self.rng.below(inputs - 1)) % inputs;
        }
        if matches!(kind, Kind::Under | Kind::Both) {
            counts[place] = match self.rng.below(3) {
                0 => floor,
                1 => low - 1,
                _ => self.rng.between(usize::from(floor), usize::from(low) - 1) as u16,
            };
        }
        if kind == Kind::Quiet {
            counts[place] = match self.rng.below(4) {
                0 => high,
                1 => low,
                2 if floor > 0 => floor - 1,
                _ => counts[place],
            };
        }
        counts
    }

    fn push_words(&mut self, kind: u16, values: &[u16]) {
        let payload: Vec<u8> = values.iter().flat_map(|value| value.to_le_bytes()).collect();
        self.push(kind, &payload);
    }

    fn scan(&mut self, kind: Kind) {
        let counts = self.counts(kind);
        self.push_words(SCAN, &counts);
    }

    fn sense(&mut self, value: i64) {
        self.push(SENSE, &(value as i32).to_le_bytes());
    }

    fn some_value(&mut self) -> i64 {
        let (short, long) = (self.chip().scd_limit(), self.chip().ocd_limit());
        let any = self.rng.below(1_000_001) as i64 - 500_000;
        self.rng.pick(&[-short, -short - 1, -long, -long - 1, short + 1, 0, any, 500_000, -500_000])
    }

    fn some_sense(&mut self) {
        let value = self.some_value();
        self.sense(value);
    }

    fn ticks(&mut self, value: i64, repeat: usize) {
        let mut payload = (value as i32).to_le_bytes().to_vec();
        payload.extend((repeat as u16).to_le_bytes());
        self.push(TICKS, &payload);
    }

    fn soaked(&mut self, value: i64, repeat: usize) {
        let mut payload = (value as i32).to_le_bytes().to_vec();
        payload.extend((repeat as u32).to_le_bytes());
        self.push(SOAK, &payload);
    }

    fn some_ticks(&mut self) {
        let value = self.some_value();
        let any = self.rng.between(1, 300);
        let repeat = self.rng.pick(&[1, 2, 3, 4, 7, 13, 256, any]);
        if self.rng.once_in(3) {
            self.soaked(value, repeat);
        } else {
            self.ticks(value, repeat);
        }
    }

    /// That many ticks in records of as many as there may be, or cut in two or three by chance.
    fn ticks_in_parts(&mut self, value: i64, many: usize) {
        let mut left = many;
        while left > 0 {
            let most = left.min(4_096);
            let part = if self.rng.once_in(2) { most } else { self.rng.between(1, most) };
            match self.rng.below(4) {
                0 if part == 1 => self.sense(value),
                1 => self.soaked(value, part),
                _ => self.ticks(value, part),
            }
            left -= part;
        }
    }

    fn some_scan(&mut self) {
        let kind = self.rng.pick(&[Kind::Quiet, Kind::Over, Kind::Under, Kind::Both, Kind::Wild]);
        self.scan(kind);
    }

    fn temp(&mut self) {
        let groups = usize::from(self.chip().setup.part);
        let counts: Vec<u16> = (0..groups).map(|_| self.rng.below(16_384) as u16).collect();
        self.push_words(TEMP, &counts);
    }

    /// New values in all pairs that the settings let change.
    fn measure(&mut self) {
        self.some_scan();
        self.temp();
        let value = self.rng.next() as u16;
        self.push_words(COUNT, &[value]);
    }

    fn adc_off(&mut self) {
        self.write(0x04, &[0x00]);
        self.measure();
        self.read(0x2A, 8, false);
        self.write(0x04, &[0x10]);
        if self.rng.once_in(2) {
            self.measure();
            self.read(0x2A, 8, true);
        }
    }

    /// Any event but a bus event.
    fn event(&mut self) {
        match self.rng.below(17) {
            0..=3 => self.some_scan(),
            4 | 5 => self.temp(),
            6 | 7 => {
                let value = self.rng.next() as u16;
                self.push_words(COUNT, &[value]);
            }
            8..=10 => self.some_sense(),
            11 => self.push(PIN, &[]),
            12 => {
                let level = self.rng.below(2) as u8;
                self.push(LOAD, &[level]);
            }
            13 => self.push(XREADY, &[]),
            14 => self.push(BOOT, &[]),
            15 => self.some_ticks(),
            _ => self.hostile(),
        }
    }

    /// A record that is refused, but for a wiring record where it is taken.
    fn hostile(&mut self) {
        match self.rng.below(16) {
            0..=3 => self.wrong_kind_or_length(),
            13 | 14 => self.wrong_ticks(),
            15 => {
                let cells = if self.rng.once_in(2) { self.row() } else { self.rng.below(17) as u8 };
                self.push(WIRES, &[cells]);
            }
            4 => {
                let part = self.chip().setup.part;
                self.setup(part, true);
            }
            5 => self.push(0, &[9, 9, 9, 99, 9, 99, 99]),
            6 | 7 => {
                let kind = self.rng.pick(&[Kind::Over, Kind::Under, Kind::Quiet]);
                let counts = self.counts(kind);
                self.too_high(SCAN, counts);
            }
            8 => {
                let counts = vec![16_383; usize::from(self.chip().setup.part)];
                self.too_high(TEMP, counts);
            }
            9 | 10 => {
                let value = self.rng.pick(&[500_001, -500_001, i64::from(i32::MIN), i64::from(i32::MAX)]);
                self.sense(value);
            }
            _ => {
                let (kind, value) = (self.rng.pick(&[LOAD, IN, LEVEL]), self.rng.between(2, 255) as u8);
                self.push(kind, &[value]);
            }
        }
    }

    fn wrong_ticks(&mut self) {
        match self.rng.below(5) {
            0 => {
                let value = self.some_value();
                let repeat = self.rng.pick(&[0, 4_097, 65_535]);
                self.ticks(value, repeat);
            }
            3 => {
                let value = self.rng.pick(&[0, -1, 0, 500_001]);
                let repeat = self.rng.pick(&[0, 16_777_217, 16_777_217, 0xFFFF_FFFF]);
                self.soaked(value, repeat);
            }
            4 => {
                let payload = self.rng.pick(&[&[][..], &[0, 0, 0, 0, 1, 0], &[1; 7], &[1; 9]]);
                self.push(SOAK, payload);
            }
            1 => {
                let value = self.rng.pick(&[500_001, -500_001, i64::from(i32::MIN)]);
                let repeat = self.rng.pick(&[0, 1, 4_096]);
                self.ticks(value, repeat);
            }
            _ => {
                let payload = self.rng.pick(&[&[][..], &[0, 0, 0, 0], &[0; 5], &[1, 0, 0, 0, 1, 0, 0], &[1; 8]]);
                self.push(TICKS, payload);
            }
        }
    }

    fn wrong_kind_or_length(&mut self) {
        let long: Vec<u8> = (0..self.rng.below(32)).map(|_| self.rng.below(2) as u8).collect();
        match self.rng.below(5) {
            4 => {
                let kind = self.rng.pick(&[POR, PIN, XREADY, START, STOP]);
                let upper = self.rng.between(1, 255) as u16;
                self.push(kind + 256 * upper, &[]);
            }
            0 => {
                let kind = self.rng.pick(&[0x0A, 0x0D, 0x0F, 0x16, 0x18, 0x100, 0x1100, 0x1400, 0xFFFF, 0x0301]);
                self.push(kind, &long);
            }
            1 => {
                let kind = self.rng.between(0x0A, 0x0F) as u16;
                let payload = self.rng.pick(&[&[][..], &[0], &[1]]);
                self.push(kind, payload);
            }
            2 => {
                let kind = self.rng.below(0x15) as u16;
                self.push(kind, &long);
            }
            _ => {
                let kind = self.rng.pick(&[POR, BOOT, PIN, XREADY, START, STOP, OUT, IN, LOAD, COUNT, LEVEL]);
                self.push(kind, &[0, 1, 0]);
            }
        }
    }

    fn too_high(&mut self, kind: u16, mut counts: Vec<u16>) {
        let place = self.rng.below(counts.len());
        counts[place] = self.rng.pick(&[16_384, 16_384, 65_535, 32_768]);
        self.push_words(kind, &counts);
    }

    // ---- episodes

    /// Scans on one side of a line, as many as the delay wants, one fewer or one more; things may come between.
    fn scan_episode(&mut self, fault: Fault) {
        let delays = self.rng.byte() & 0xF0;
        self.write(0x08, &[delays]);
        if self.rng.once_in(3) {
            let trip = self.rng.byte();
            let at = if fault == Fault::Ov { 0x09 } else { 0x0A };
            self.write(at, &[trip]);
        }
        if self.rng.once_in(2) {
            self.clear();
        }
        if self.rng.once_in(3) {
            self.write(0x00, &[0xFF]);
            self.drives_on();
        }
        let kind = if fault == Fault::Ov { Kind::Over } else { Kind::Under };
        self.scan(Kind::Quiet);
        let needed = self.chip().needed(fault);
        let many = self.rng.pick(&[needed - 1, needed, needed, needed + 1, needed + 3]);
        let disturbed = if self.rng.once_in(2) { self.rng.below(many + 1) } else { usize::MAX };
        for scan in 0..many {
            if scan == disturbed {
                self.disturb(fault);
            }
            let kind = if self.rng.once_in(10) { Kind::Both } else { kind };
            self.scan(kind);
        }
        if self.rng.once_in(3) {
            self.drives_on();
        }
        if self.rng.once_in(2) {
            self.write(0x00, &[if fault == Fault::Ov { 0x04 } else { 0x08 }]);
            self.drives_on();
            self.scan(kind);
        }
        if self.rng.once_in(3) {
            self.clear();
            self.drives_on();
        }
    }

    fn disturb(&mut self, fault: Fault) {
        match self.rng.below(11) {
            0 => self.write(0x00, &[0xFF]),
            1 => {
                let delays = self.rng.byte();
                self.write(0x08, &[delays & 0x50]);
            }
            2 => self.hostile(),
            3 => {
                self.write(0x04, &[0x00]);
                if self.rng.once_in(2) {
                    self.scan(Kind::Over);
                }
                self.write(0x04, &[0x10]);
            }
            4 => self.push(BOOT, &[]),
            5 => self.scan(Kind::Quiet),
            6 => {
                let bits = self.rng.pick(&[0x80, 0x00, 0x83]);
                self.write(0x05, &[bits]);
            }
            7 => {
                let trip = self.rng.byte();
                self.write(if fault == Fault::Ov { 0x09 } else { 0x0A }, &[trip]);
            }
            8 => {
                let counts = vec![16_384; self.chip().setup.inputs()];
                self.push_words(SCAN, &counts);
            }
            9 => {
                self.push(POR, &[]);
                self.push(BOOT, &[]);
            }
            _ => self.event(),
        }
    }

    /// Ticks on one side of a current limit around its delay.
    fn current_episode(&mut self, fault: Fault) {
        let (at, limits) = if fault == Fault::Scd { (0x06, 0x9F) } else { (0x07, 0x1F) };
        let value = self.rng.byte() & limits;
        self.write(at, &[value]);
        if !self.rng.once_in(4) {
            self.write(0x05, &[0x03]);
        }
        if self.rng.once_in(2) {
            self.write(0x00, &[0xFF]);
            self.drives_on();
        }
        self.sense(0);
        let needed = self.chip().needed(fault);
        let many = self.rng.pick(&[needed - 1, needed, needed + 1]);
        let disturbed = if self.rng.once_in(2) { self.rng.below(many.max(1)) } else { usize::MAX };
        for tick in 0..many {
            if tick == disturbed {
                self.disturb_current(fault);
            }
            let limit = if fault == Fault::Scd { self.chip().scd_limit() } else { self.chip().ocd_limit() };
            self.sense(-limit - 1);
        }
        if self.rng.once_in(2) {
            self.drives_on();
        }
        if self.rng.once_in(2) {
            self.write(0x00, &[if fault == Fault::Scd { 0x02 } else { 0x01 }]);
            self.drives_on();
            let limit = if fault == Fault::Scd { self.chip().scd_limit() } else { self.chip().ocd_limit() };
            self.sense(-limit - 1);
        }
    }

    /// Repeated ticks on one side of a current limit, around any of its delays or with DELAY_DIS.
    fn ticks_episode(&mut self, fault: Fault) {
        let codes = if self.rng.once_in(6) { 8 } else { 5 };
        let (delay, limits) = (self.rng.below(codes) as u8, self.rng.byte());
        if fault == Fault::Scd {
            self.write(0x06, &[(delay & 3) << 3 | limits & 0x87]);
        } else {
            self.write(0x07, &[delay << 4 | limits & 0x0F]);
        }
        let control = if self.rng.once_in(5) { 0x83 } else { 0x03 };
        self.write(0x05, &[control]);
        if self.rng.once_in(2) {
            self.write(0x00, &[0xFF]);
            self.drives_on();
        }
        match self.rng.below(3) {
            0 => self.ticks(0, 4_096),
            1 => self.soaked(0, 1),
            _ => self.ticks(0, 40),
        }
        let limit = if fault == Fault::Scd { self.chip().scd_limit() } else { self.chip().ocd_limit() };
        let needed = self.chip().needed(fault);
        let many = self.rng.pick(&[needed - 1, needed, needed + 1, needed + 20]);
        if self.rng.once_in(5) {
            self.ticks_in_parts(-limit, many);
        }
        self.ticks_in_parts(-limit - 1, many / 2);
        if self.rng.once_in(3) {
            self.disturb_current(fault);
        }
        self.ticks_in_parts(-limit - 1, many - many / 2);
        if self.rng.once_in(8) {
            let long = self.rng.pick(&[4_097, 40_959, 65_536, 65_537, 16_777_216]);
            self.soaked(-limit - 1, long);
        }
        self.write(0x00, &[if fault == Fault::Scd { 0x02 } else { 0x01 }]);
        self.drives_on();
        let more = self.rng.between(1, 3);
        self.ticks(-limit - 1, more);
    }

    fn disturb_current(&mut self, fault: Fault) {
        match self.rng.below(9) {
            0 => self.write(0x00, &[0xFF]),
            1 => self.sense(-500_001),
            7 => self.wrong_ticks(),
            2 => {
                self.write(0x04, &[0x00]);
                self.scan(Kind::Over);
                self.write(0x04, &[0x10]);
            }
            3 => {
                let limit = if fault == Fault::Scd { self.chip().scd_limit() } else { self.chip().ocd_limit() };
                self.sense(-limit);
            }
            4 => self.write(0x05, &[0x83]),
            5 => {
                let value = self.rng.byte() & 0x87;
                self.write(0x06, &[value]);
            }
            _ => self.event(),
        }
    }

    /// Writes of SYS_CTRL1 that ship, or just do not.
    fn shipping(&mut self) {
        let pairs: &[u8] = match self.rng.below(9) {
            0..=2 => &[1, 2],
            3 => &[1, 1, 2],
            4 => &[1, 1, 1, 2],
            5 => &[2, 1, 3, 2],
            6 => &[1, 0, 2],
            7 => &[2, 2, 1, 3],
            _ => &[1, 3, 2, 1],
        };
        if self.rng.once_in(4) {
            self.push(LOAD, &[1]);
        }
        for pair in pairs {
            let upper = self.rng.byte() & 0x08 | 0x10;
            if self.rng.once_in(6) {
                // the shipping byte with a spoiled CRC, or without its CRC
                self.open_write(0x04);
                self.out(upper | pair);
                if self.rng.once_in(2) && self.chip().setup.crc {
                    self.out(0x00);
                }
            }
            self.write(0x04, &[upper | pair]);
            match self.rng.below(6) {
                0 => self.soak_elsewhere(),
                1 => self.read(0x04, 1, false),
                2 => self.event(),
                _ => {}
            }
        }
        if !self.chip().awake {
            self.asleep();
            self.push(BOOT, &[]);
        }
        if self.rng.once_in(2) {
            self.read_where_pointer_stands();
        }
        self.read(0x00, 12, false);
    }

    fn soak_elsewhere(&mut self) {
        let at = self.rng.pick(&[0x01, 0x05, 0x06, 0x09, 0x0B, 0x40]);
        let value = self.value_for(at);
        self.write(at, &[value]);
    }

    /// Records for a chip that sleeps.
    fn asleep(&mut self) {
        for _ in 0..self.rng.below(8) {
            match self.rng.below(6) {
                0 => self.read_where_pointer_stands(),
                1 => self.push(START, &[]),
                2 => self.hostile(),
                3 => self.soak(),
                4 => {
                    if self.rng.once_in(3) {
                        self.push(POR, &[]);
                    }
                }
                _ => self.awaking_free_event(),
            }
        }
        if self.rng.once_in(3) {
            self.push(START, &[]);
            self.push(BOOT, &[]);
            let address = self.chip().setup.address * 2;
            self.out(address + 1);
            self.take(0);
        }
    }

    fn awaking_free_event(&mut self) {
        match self.rng.below(7) {
            0 => self.some_scan(),
            1 => self.some_sense(),
            5 => self.some_ticks(),
            2 => self.push(PIN, &[]),
            3 => self.push(LOAD, &[1]),
            4 => self.push(LEVEL, &[1]),
            _ => self.push(XREADY, &[]),
        }
    }

    fn power_down(&mut self) {
        if self.rng.once_in(2) {
            self.push(LOAD, &[1]);
        }
        if self.rng.once_in(2) {
            let at = self.rng.byte();
            self.open_write(at);
        }
        self.push(POR, &[]);
        self.asleep();
        self.push(BOOT, &[]);
        self.read_where_pointer_stands();
        self.read(0x00, 12, false);
    }

    fn coulombs(&mut self) {
        if self.rng.once_in(2) {
            self.write(0x00, &[0x80]);
        }
        let control = self.rng.pick(&[0x40, 0x20, 0x60, 0x00, 0x43, 0x23, 0x03, 0x20]);
        self.write(0x05, &[control]);
        for _ in 0..self.rng.between(1, 3) {
            if self.rng.once_in(4) {
                let control = self.rng.pick(&[0x00, 0x20, 0x03, 0x60]);
                self.write(0x05, &[control]);
            }
            let value = self.rng.next() as u16;
            self.push_words(COUNT, &[value]);
            if self.rng.once_in(3) {
                self.push(PIN, &[]);
            }
            if self.rng.once_in(3) {
                self.read(0x05, 1, false);
            }
        }
        self.read(0x32, 2, true);
    }

    /// A write of SYS_CTRL2 whose conditions change before its CRC comes.
    fn late_conditions(&mut self) {
        self.write(0x00, &[0xFF]);
        let mut covered = self.open_write(0x05);
        let value = self.rng.pick(&[0x03, 0x23, 0x83, 0x01, 0x02]);
        self.out(value);
        match self.rng.below(3) {
            0 => self.push(XREADY, &[]),
            1 => self.push(PIN, &[]),
            _ => self.event(),
        }
        covered.push(value);
        self.out(crc(0, &covered));
        self.read(0x04, 2, true);
    }

    fn alerts(&mut self) {
        let balance: Vec<u8> = (0..3).map(|_| self.rng.byte()).collect();
        self.write(0x01, &balance);
        self.write(0x00, &[0xFF]);
        self.drives_on();
        match self.rng.below(4) {
            0 => self.push(PIN, &[]),
            1 => {
                self.push(XREADY, &[]);
                self.write(0x01, &balance);
                self.push(XREADY, &[]);
            }
            2 => {
                self.push(PIN, &[]);
                self.push(XREADY, &[]);
                self.push(PIN, &[]);
            }
            _ => {
                let level = self.rng.below(2) as u8;
                self.push(LOAD, &[level]);
                self.read(0x04, 1, false);
                self.write(0x05, &[0x02]);
                self.read(0x04, 1, false);
            }
        }
        let events = self.rng.once_in(2);
        self.read(0x00, 6, events);
        let keep = self.rng.byte() & 0x30;
        self.write(0x00, &[keep]);
        self.drives_on();
        let at = self.rng.pick(&[0x00, 0x02, 0x04]);
        self.read(at, 2, true);
    }

    /// A second protector holds ALERT up through what a host and a pack may do, and lets go or not.
    fn held(&mut self) {
        if self.rng.once_in(2) {
            self.clear();
            self.drives_on();
        }
        self.push(LEVEL, &[1]);
        for _ in 0..self.rng.between(1, 6) {
            match self.rng.below(9) {
                0..=2 => self.clear(),
                3 => self.drives_on(),
                4 => self.push(PIN, &[]),
                5 => {
                    // a fault in one scan, then only OVRD_ALERT cleared, then all
                    self.write(0x05, &[0x83]);
                    self.scan(Kind::Both);
                    self.write(0x00, &[0x10]);
                    self.drives_on();
                    self.write(0x00, &[0xFF]);
                }
                6 => self.spoiled_write(),
                7 => self.read(0x00, 1, false),
                _ => self.event(),
            }
        }
        match self.rng.below(6) {
            0 => self.push(POR, &[]),
            1 => {
                self.write(0x04, &[0x11]);
                self.write(0x04, &[0x12]);
            }
            2 => {}
            _ => self.push(LEVEL, &[0]),
        }
        self.push(BOOT, &[]);
        self.write(0x00, &[0xFF]);
        self.drives_on();
    }

    fn session(&mut self, records: usize) {
        let wanted = self.bytes.len() + 6 * records;
        while self.bytes.len() < wanted {
            if !self.chip().awake {
                self.push(BOOT, &[]);
            }
            match self.rng.below(32) {
                29 | 30 => self.ticks_episode(Fault::Scd),
                31 => self.ticks_episode(Fault::Ocd),
                0..=2 => self.scan_episode(Fault::Ov),
                3 | 4 => self.scan_episode(Fault::Uv),
                5 | 6 => self.current_episode(Fault::Scd),
                7 => {
                    if self.rng.once_in(4) {
                        self.current_episode(Fault::Ocd);
                    }
                }
                8 | 9 => self.read_pairs(),
                10..=12 => self.spoiled_write(),
                13 | 14 => self.strange_frame(),
                15 | 16 => self.soak(),
                17 => self.clear(),
                18 => self.shipping(),
                19 => self.power_down(),
                20 | 21 => self.coulombs(),
                22 => self.alerts(),
                23 => self.hostile(),
                24 => self.late_conditions(),
                25 => self.adc_off(),
                26 => self.held(),
                _ => {
                    for _ in 0..self.rng.between(1, 6) {
                        self.event();
                    }
                }
            }
        }
    }

    // ---- sweeps over the tables

    /// A run of ticks just over a limit, from a tick that is not.
    /// A pack to bleed and to charge: counts near each other, some of them equal or just below the floor, a die value and a coulomb count.
    fn pack(&mut self) {
        self.push(BOOT, &[]);
        let select = self.rng.pick(&[0x10, 0x10, 0x10, 0x18]);
        self.write(0x04, &[select]);
        self.write(0x05, &[0x40]);
        let floor = usize::from(self.chip().setup.floor);
        let base = self.rng.pick(&[floor, floor.saturating_sub(10), 8_000, 16_300]);
        let (step, steps) = self.rng.pick(&[(10, 4), (1, 3), (7, 12), (32, 2)]);
        let counts: Vec<u16> =
            (0..self.chip().setup.inputs()).map(|_| (base + step * self.rng.below(steps)).min(16_383) as u16).collect();
        self.push_words(SCAN, &counts);
        let warm = self.rng.pick(&[0, 3_000, 6_928, 6_929, 16_383]);
        let groups = usize::from(self.chip().setup.part);
        self.push_words(TEMP, &vec![warm; groups]);
        let count = self.rng.next() as u16;
        let count = self.rng.pick(&[0, 1, 0x7FFF, 0x8000, 0xFFFF, count, count % 2_000, count | 0xF000]);
        self.push_words(COUNT, &[count]);
    }

    fn run(&mut self, ticks: usize, value: i64) {
        self.sense(0);
        for _ in 0..ticks {
            self.sense(value);
        }
    }

    fn ocd_limits(&mut self, rsns: u8) {
        self.write(0x06, &[rsns << 7 | 7]);
        for code in 0..16 {
            self.write(0x07, &[code]);
            let limit = self.chip().ocd_limit();
            self.run(256, -limit);
            self.run(256, -limit - 1);
            self.write(0x00, &[0xFF]);
        }
    }

    fn scd_limits(&mut self) {
        self.write(0x07, &[0x7F]);
        for setting in 0..64u8 {
            self.write(0x06, &[setting & 0x1F | (setting & 0x20) << 2]);
            let (limit, needed) = (self.chip().scd_limit(), self.chip().needed(Fault::Scd));
            self.run(needed, -limit);
            self.run(needed, -limit - 1);
            self.write(0x00, &[0xFF]);
        }
    }

    fn ocd_delays(&mut self, codes: &[u8]) {
        self.write(0x06, &[0x87]);
        for code in codes {
            let limit_code = self.rng.below(16) as u8;
            self.write(0x07, &[code << 4 | limit_code]);
            self.drives_on();
            let (limit, needed) = (self.chip().ocd_limit(), self.chip().needed(Fault::Ocd));
            if *code < 5 {
                self.run(needed - 1, -limit - 1);
            }
            self.run(needed, -limit - 1);
            self.drives_on();
            self.sense(-limit - 1);
            self.write(0x00, &[0xFF]);
            self.drives_on();
            self.sense(-limit - 1);
            self.write(0x00, &[0xFF]);
        }
    }

    fn scan_delays(&mut self) {
        for code in 0..4u8 {
            for (fault, kind) in [(Fault::Ov, Kind::Over), (Fault::Uv, Kind::Under)] {
                self.write(0x08, &[code << 6 | code << 4]);
                self.write(0x00, &[0xFF]);
                self.drives_on();
                self.scan(Kind::Quiet);
                for _ in 0..self.chip().needed(fault) {
                    self.scan(kind);
                }
                self.read(0x00, 12, false);
                self.scan(Kind::Quiet);
            }
        }
    }

    /// Every address written, then every address read.
    fn registers(&mut self) {
        self.some_scan();
        let values: Vec<u8> = (0..=255).map(|at| self.value_for(at)).collect();
        for (at, value) in values.iter().enumerate() {
            let value = if at == 4 { value & !3 } else { *value };
            self.write(at as u8, &[value]);
        }
        self.read_all();
        let calm: Vec<u8> = values.iter().enumerate().map(|(at, v)| if at == 4 { 0x18 } else { *v }).collect();
        self.write(0x00, &calm);
        self.read_all();
    }

    /// Every byte of the page, each acknowledged.
    fn read_all(&mut self) {
        self.open_write(0x00);
        self.open_read();
        for _ in 0..if self.chip().setup.crc { 512 } else { 256 } {
            self.take(0);
        }
    }
}

fn refused_first(rng: &mut Rng) -> Vec<u8> {
    let mut bytes = vec![7, 0, 0, 0, 1, 0, 8, 10, 30, 0xE8, 3];
    match rng.below(14) {
        0 => return Vec::new(),
        1 => bytes[4] = rng.pick(&[0, 4, 255]),
        2 => bytes[5] = rng.pick(&[2, 255]),
        3 => bytes[6] = rng.pick(&[0, 7, 0x78, 0x80, 255]),
        4 => bytes[7] = rng.pick(&[32, 255]),
        5 => bytes[10] = rng.pick(&[16, 255]),
        6 => bytes[2] = rng.between(1, 255) as u8,
        7 => bytes[3] = 1,
        8 => bytes[0] = rng.pick(&[6, 8, 0]),
        9 => bytes[1] = 1,
        10 => bytes.truncate(rng.between(1, 10)),
        11 => return vec![0, 0, rng.pick(&[1, 2, 3, 0x10, 0x13, 0x14]), 0, 0, 0, 2, 0],
        12 => {
            bytes[4] = 9;
            bytes[2] = 3;
        }
        _ => return (0..rng.between(1, 40)).map(|_| rng.below(9) as u8).collect(),
    }
    bytes.extend([0, 0, 2, 0, 0, 0, 9, 0]);
    bytes
}

fn cut(rng: &mut Rng, bytes: &mut Vec<u8>) {
    let less = rng.between(1, 11).min(bytes.len());
    bytes.truncate(bytes.len() - less);
}

fn damage(rng: &mut Rng, bytes: &mut [u8]) {
    for _ in 0..rng.between(1, 12) {
        let place = rng.between(11, bytes.len() - 1);
        bytes[place] = match rng.below(3) {
            0 => rng.byte(),
            1 => bytes[place] ^ 1 << rng.below(8),
            _ => rng.below(20) as u8,
        };
    }
}

/// Bytes whose CRC is asked, and what it goes on from; the length is the number.
pub fn message(seed: u64, number: u64) -> (u8, Vec<u8>) {
    let mut rng = Rng::new(!seed, number);
    let start = if rng.once_in(2) { 0 } else { rng.byte() };
    (start, (0..number).map(|_| rng.byte()).collect())
}

/// How many streams go by before the kinds of streams begin again.
const ROUND: u64 = 80;

/// Stream number `stream` of a seed.
pub fn stream(seed: u64, stream: u64) -> Vec<u8> {
    let mut rng = Rng::new(seed, stream);
    if matches!(stream % ROUND, 8..=15) {
        return refused_first(&mut rng);
    }
    let records = rng.pick(&[20, 100, 300, 300, 600]);
    let mut maker = Maker { rng, bytes: Vec::new(), session: Session::new(Plant::None) };
    maker.begin();
    match stream % ROUND {
        0 => maker.ocd_limits(0),
        1 => maker.ocd_limits(1),
        2 => maker.scd_limits(),
        3 => maker.ocd_delays(&[0, 1, 2, 3, 4, 5]),
        4 => maker.ocd_delays(&[6]),
        5 => maker.ocd_delays(&[7]),
        6 => maker.registers(),
        7 => maker.scan_delays(),
        _ => maker.session(records),
    }
    if stream % ROUND >= 40 {
        maker.pack();
    }
    let ends_open = matches!(maker.session.chip.as_ref().map(|chip| &chip.bus), Some(Bus::Idle));
    let Maker { mut rng, mut bytes, .. } = maker;
    match stream % ROUND {
        16..=23 => damage(&mut rng, &mut bytes),
        24..=31 => cut(&mut rng, &mut bytes),
        32..=35 if ends_open => bytes.extend([0, 0, POR as u8, 0]),
        36 => {
            // the longest record there is, of a kind that is not
            bytes.extend([0xFF, 0xFF, 0x1F, 0x00]);
            bytes.extend((0..0xFFFF).map(|_| rng.byte()));
            bytes.extend([0, 0, XREADY as u8, 0]);
        }
        _ => {}
    }
    bytes
}
