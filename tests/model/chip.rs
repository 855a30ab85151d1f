//! The chip of docs/CHIP.md, written a second time from its rules alone: registers as one plain page of bytes, and for
//! each fault the list of all verdicts since the chip woke, so that no run is ever counted. Beside the list stands which record gave which of them.

use crate::plant::{Fault, Plant, FAULTS};
use crate::values;

pub const CC_READY: u8 = 0x80;
pub const XREADY: u8 = 0x20;
pub const OVRD_ALERT: u8 = 0x10;
pub const UV: u8 = 0x08;
pub const OV: u8 = 0x04;
pub const SCD: u8 = 0x02;
pub const OCD: u8 = 0x01;

pub const CHG_ON: u8 = 0x01;
pub const DSG_ON: u8 = 0x02;
const CC_ONESHOT: u8 = 0x20;
const CC_EN: u8 = 0x40;
const DELAY_DIS: u8 = 0x80;
const ADC_EN: u8 = 0x10;

const SCD_LIMITS: [[i64; 8]; 2] = [
    [18500, 29000, 39000, 49000, 59000, 69500, 79500, 91000],
    [37000, 59000, 78500, 98000, 119000, 139000, 159000, 181500],
];
const OCD_LIMITS: [[i64; 16]; 2] = [
    [9500, 11500, 14500, 17500, 19500, 22500, 25000, 28000, 31500, 33000, 36500, 40500, 42000, 44500, 46000, 48000],
    [18500, 22500, 28500, 34500, 38500, 44500, 49500, 56500, 62500, 65000, 72500, 80500, 83500, 88500, 90500, 94000],
];

#[derive(Clone, PartialEq, Debug)]
pub struct Setup {
    pub part: u8,
    pub crc: bool,
    pub address: u8,
    pub gain_code: u8,
    pub offset: u8,
    pub floor: u16,
    /// The number of cells of a wiring record.
    pub cells: Option<u8>,
}

/// The rows of CHIP W2, a digit an input, input 1 first: 1 has a cell, 0 is shorted.
const WIRINGS: [(u8, u8, &str); 13] = [
    (1, 3, "11001"),
    (1, 4, "11101"),
    (1, 5, "11111"),
    (2, 6, "1100111001"),
    (2, 7, "1110111001"),
    (2, 8, "1110111101"),
    (2, 9, "1111111101"),
    (2, 10, "1111111111"),
    (3, 11, "111011110111001"),
    (3, 12, "111011110111101"),
    (3, 13, "111111110111101"),
    (3, 14, "111111111111101"),
    (3, 15, "111111111111111"),
];

/// The inputs that have a cell, where the part has a row for that many.
pub fn wiring(part: u8, cells: u8) -> Option<Vec<usize>> {
    let row = WIRINGS.iter().find(|row| row.0 == part && row.1 == cells)?;
    Some(row.2.bytes().enumerate().filter(|(_, digit)| *digit == b'1').map(|(input, _)| input).collect())
}

impl Setup {
    pub fn inputs(&self) -> usize {
        5 * usize::from(self.part)
    }

    /// The inputs of the pack's cells, cell 1's first.
    pub fn wired(&self, plant: Plant) -> Vec<usize> {
        let all = (0..self.inputs()).collect();
        let Some(cells) = self.cells else { return all };
        let mut row = wiring(self.part, cells).unwrap_or(all);
        if plant == (Plant::WrongRow { part: self.part, cells }) {
            row.remove(0);
        }
        row
    }
}

/// Where a frame stands. `before` is what the next CRC covers ahead of its data byte.
#[derive(Clone, PartialEq, Debug)]
pub enum Bus {
    Idle,
    Address,
    Pointer { address: u8 },
    Data { before: Vec<u8> },
    Check { before: Vec<u8>, data: u8, allowed: u8 },
    Read { before: Vec<u8>, low: Option<u8>, owed: Option<(u8, u8)> },
}

/// The verdicts of a fault since the chip woke.
#[derive(Clone, Default)]
pub struct Verdicts {
    all: Vec<bool>,
    /// For each record that gave some: its number, and how many verdicts there were with it.
    records: Vec<(usize, usize)>,
}

impl Verdicts {
    fn push(&mut self, record: usize, verdict: bool) {
        self.all.push(verdict);
        match self.records.last_mut() {
            Some(last) if last.0 == record => last.1 += 1,
            _ => self.records.push((record, self.all.len())),
        }
    }

    fn clear(&mut self) {
        *self = Verdicts::default();
    }

    /// Whether the newest ones, so many, are all there and true.
    fn ends_with(&self, many: usize) -> bool {
        self.all.len() >= many && self.all[self.all.len() - many..].iter().rev().all(|verdict| *verdict)
    }

    /// How many there were before those of a record.
    pub fn before(&self, record: usize) -> usize {
        let place = self.records.partition_point(|one| one.0 < record);
        if place == 0 { 0 } else { self.records[place - 1].1 }
    }

    pub fn many(&self) -> usize {
        self.all.len()
    }

    /// How many of the first `end` are true without a gap, looked at from the newest of them on; no more than `most`.
    pub fn true_before(&self, end: usize, most: usize) -> usize {
        self.all[..end].iter().rev().take(most).take_while(|verdict| **verdict).count()
    }

    /// The record that gave a verdict.
    pub fn record_of(&self, place: usize) -> usize {
        self.records[self.records.partition_point(|one| one.1 <= place)].0
    }

    /// The records that gave verdicts, the newest last.
    pub fn given_by(&self) -> impl DoubleEndedIterator<Item = usize> + '_ {
        self.records.iter().map(|one| one.0)
    }
}

#[derive(Clone)]
pub struct Chip {
    plant: Plant,
    /// The number of the record at hand.
    pub record: usize,
    pub setup: Setup,
    pub awake: bool,
    pub bus: Bus,
    pub pointer: u8,
    page: [u8; 256],
    load: bool,
    outside: bool,
    verdicts: [Verdicts; 4],
    stale: Option<u8>,
    old_ov_trip: u8,
    /// Every scan that was stored, also before the chip last woke.
    pub scans: Vec<Vec<u16>>,
}

fn page_after_reset(setup: &Setup, plant: Plant) -> [u8; 256] {
    let mut page = [0; 256];
    page[0x04] = if plant == Plant::ResetAdcOff { 0 } else { 0x10 };
    page[0x09] = if plant == Plant::ResetOvTrip { 0xAB } else { 0xAC };
    page[0x0A] = if plant == Plant::ResetUvTrip { 0x98 } else { 0x97 };
    page[0x0B] = if plant == Plant::ResetCcCfg { 0x19 } else { 0x17 };
    let (upper, lower) = (setup.gain_code / 8, setup.gain_code % 8);
    page[0x50] = if plant == Plant::GainBitsSwapped { (lower % 4) * 4 } else { upper * 4 };
    page[0x51] = setup.offset;
    page[0x59] = lower * 32;
    page
}

impl Chip {
    pub fn new(setup: Setup, plant: Plant) -> Chip {
        let page = page_after_reset(&setup, plant);
        Chip {
            plant,
            record: 0,
            setup,
            awake: false,
            bus: Bus::Idle,
            pointer: 0,
            page,
            load: false,
            outside: false,
            verdicts: Default::default(),
            stale: None,
            old_ov_trip: 0xAC,
            scans: Vec::new(),
        }
    }

    fn planted(&self, plant: Plant) -> bool {
        self.plant == plant
    }

    pub fn stat(&self) -> u8 {
        self.page[0]
    }

    pub fn pins(&self) -> u8 {
        let unseen = if self.planted(Plant::CcReadyNotInAlert) { CC_READY } else { 0 };
        let alert = if self.page[0] & !unseen != 0 { 4 } else { 0 };
        let charge = if self.page[5] & CHG_ON != 0 { 2 } else { 0 };
        let discharge = if self.page[5] & DSG_ON != 0 { 1 } else { 0 };
        alert + charge + discharge
    }

    // ---- modes

    fn sleep(&mut self) {
        self.awake = false;
        if self.planted(Plant::WiringLostInShip) {
            self.setup.cells = None;
        }
        self.page = page_after_reset(&self.setup, self.plant);
        if !self.planted(Plant::RunsOutliveShip) {
            self.verdicts = Default::default();
        }
        if !self.planted(Plant::LoadOutlivesPor) {
            self.load = false;
        }
        if !self.planted(Plant::LevelOutlivesShip) {
            self.outside = false;
        }
        self.pointer = 0;
        self.bus = Bus::Idle;
        self.stale = None;
        self.old_ov_trip = self.page[0x09];
    }

    pub fn por(&mut self) {
        let (pointer, awake) = (self.pointer, self.awake);
        self.sleep();
        if self.planted(Plant::SeasonEndsAtPor) {
            self.scans.clear();
        }
        if self.planted(Plant::PorKeepsPointer) {
            self.pointer = pointer;
        }
        if self.planted(Plant::PorStaysAwake) {
            self.awake = awake;
        }
    }

    pub fn wire(&mut self, cells: u8) {
        self.setup.cells = Some(cells);
    }

    pub fn boot(&mut self) {
        if self.awake {
            match self.plant {
                Plant::BootResets => self.sleep(),
                Plant::BootIdlesBus => self.bus = Bus::Idle,
                Plant::BootEndsRuns => self.verdicts = Default::default(),
                _ => {}
            }
        }
        self.awake = true;
    }

    // ---- registers

    /// The byte at an address as the bus gives it.
    pub fn read(&self, at: u8) -> u8 {
        let kept = self.page[usize::from(at)];
        match at {
            0x04 => {
                let charging = self.page[5] & CHG_ON != 0 && !self.planted(Plant::LoadDespiteCharge);
                let hidden = if self.planted(Plant::PairNeverShown) { 3 } else { 0 };
                kept & !hidden | if self.load && !charging { 0x80 } else { 0 }
            }
            0x0C..=0x33 if self.planted(Plant::LowByteFirst) => self.page[usize::from(at ^ 1)],
            _ => kept,
        }
    }

    /// What SYS_STAT lets a write of SYS_CTRL2 store, by the drives' and the single count's conditions.
    fn allowed(&self) -> u8 {
        let stat = self.page[0];
        let mut charge_bits = OV | OVRD_ALERT | XREADY;
        let mut discharge_bits = UV | OCD | SCD | OVRD_ALERT | XREADY;
        match self.plant {
            Plant::ChargeDespite(bit) => charge_bits &= !(1 << bit),
            Plant::DischargeDespite(bit) => discharge_bits &= !(1 << bit),
            Plant::ChargeHeldByUv => charge_bits |= UV,
            Plant::DischargeHeldByOv => discharge_bits |= OV,
            _ => {}
        }
        let mut mask = DELAY_DIS | CC_EN;
        if stat & charge_bits == 0 {
            mask |= CHG_ON;
        }
        if stat & discharge_bits == 0 {
            mask |= DSG_ON;
        }
        if stat & CC_READY == 0 || self.planted(Plant::OneshotDespiteReady) {
            mask |= CC_ONESHOT;
        }
        mask
    }

    /// An accepted write; true where it ships.
    fn write(&mut self, at: u8, value: u8, allowed: u8) -> bool {
        if at != 0x04 && self.planted(Plant::OtherWriteDropsPair) {
            self.page[4] &= !3;
        }
        match at {
            0x00 => self.clear_status(value),
            0x04 => return self.write_control_1(value),
            0x05 => self.write_control_2(value, allowed),
            _ => self.write_plain(at, value),
        }
        false
    }

    /// The bits that a write stores in a register with no rule of its own.
    fn stored_bits(&self, at: u8) -> u8 {
        match (at, self.plant) {
            (0x01..=0x03, Plant::BalanceAllBits) if at <= self.setup.part => 0xFF,
            (0x01..=0x03, Plant::BalanceOfLackingInputs) => 0x1F,
            (0x01..=0x03, _) if at <= self.setup.part => 0x1F,
            (0x06..=0x08, Plant::ProtectAllBits) => 0xFF,
            (0x06, _) => 0x9F,
            (0x07, _) => 0x7F,
            (0x08, _) => 0xF0,
            (0x09 | 0x0A, _) => 0xFF,
            (0x0B, Plant::CcCfgAllBits) => 0xFF,
            (0x0B, _) => 0x3F,
            (0x0C..=0x33, Plant::CellsWritable) => 0xFF,
            (0x51, Plant::OffsetWritable) => 0xFF,
            _ => 0,
        }
    }

    fn write_plain(&mut self, at: u8, value: u8) {
        let bits = self.stored_bits(at);
        if bits == 0 {
            return;
        }
        if at == 0x09 {
            self.old_ov_trip = self.page[0x09];
        }
        self.page[usize::from(at)] = value & bits;
        if (0x06..=0x0A).contains(&at) && self.planted(Plant::ThresholdWriteEndsRuns) {
            self.verdicts = Default::default();
        }
        if at == 0x08 && self.planted(Plant::ShorterDelayActsAtOnce) {
            self.raise_where_run_is_full(Fault::Ov);
            self.raise_where_run_is_full(Fault::Uv);
        }
    }

    fn clear_status(&mut self, ones: u8) {
        if self.planted(Plant::ClearingReturnsCharge) && self.page[0] & ones & OV != 0 {
            self.page[5] |= CHG_ON;
        }
        match self.plant {
            Plant::StatusWriteStores => self.page[0] = ones & 0xBF,
            Plant::ClearingAlsoByZeros => self.page[0] = 0,
            _ => self.page[0] &= !ones,
        }
        for fault in FAULTS {
            if self.planted(Plant::ClearingEndsRun(fault)) && ones & bit_of(fault) != 0 {
                self.verdicts[fault as usize].clear();
            }
        }
    }

    fn write_control_1(&mut self, value: u8) -> bool {
        let (held, pair) = (self.page[4] & 3, value & 3);
        let ships = pair == 2 && (held == 1 || self.planted(Plant::ShipByTwoAlone));
        if ships {
            self.sleep();
            return true;
        }
        let mut kept = if pair == 1 && held == 0 { 1 } else { 0 };
        if pair == 1 && self.planted(Plant::ShipAfterTwiceOne) {
            kept = 1;
        }
        if pair == 0 && held == 1 && self.planted(Plant::PairZeroKeepsOne) {
            kept = 1;
        }
        self.page[4] = value & 0x18 | kept;
        if value & ADC_EN == 0 && self.planted(Plant::AdcOffEndsRuns) {
            self.verdicts[0].clear();
            self.verdicts[1].clear();
        }
        false
    }

    fn write_control_2(&mut self, value: u8, allowed: u8) {
        let mut bits = allowed;
        if value & CC_EN != 0 && !self.planted(Plant::OneshotDespiteEnable) {
            bits &= !CC_ONESHOT;
        }
        let waiting = if self.planted(Plant::WaitingOneshotKept) { self.page[5] & CC_ONESHOT } else { 0 };
        self.page[5] = value & bits | waiting;
    }

    fn put_pair(&mut self, at: usize, value: u16) {
        self.page[at] = (value >> 8) as u8;
        self.page[at + 1] = (value & 0xFF) as u8;
    }

    pub fn pair(&self, at: usize) -> u16 {
        u16::from(self.page[at]) * 256 + u16::from(self.page[at + 1])
    }

    // ---- judging

    pub fn ov_line(&self) -> u16 {
        let trip = if self.planted(Plant::TripAtOldSetting) { self.old_ov_trip } else { self.page[0x09] };
        8_200 + 16 * u16::from(trip)
    }

    pub fn uv_line(&self) -> u16 {
        4_096 + 16 * u16::from(self.page[0x0A])
    }

    /// The limit of a fault by the settings that stand now: counts, or microvolts.
    pub fn limit(&self, fault: Fault) -> i64 {
        match fault {
            Fault::Ov => i64::from(self.ov_line()),
            Fault::Uv => i64::from(self.uv_line()),
            Fault::Scd => self.scd_limit(),
            Fault::Ocd => self.ocd_limit(),
        }
    }

    /// The bits of the registers that choose the limit of a fault.
    pub fn limit_setting(&self, fault: Fault) -> (u8, u8) {
        match fault {
            Fault::Ov => (0, self.page[0x09]),
            Fault::Uv => (0, self.page[0x0A]),
            Fault::Scd => (self.rsns(), self.page[6] & 7),
            Fault::Ocd => (self.rsns(), self.page[7] & 15),
        }
    }

    fn rsns(&self) -> u8 {
        self.page[6] >> 7
    }

    pub fn scd_limit(&self) -> i64 {
        let (rsns, code) = (self.rsns(), self.page[6] & 7);
        let limit = SCD_LIMITS[usize::from(rsns)][usize::from(code)];
        if self.planted(Plant::ScdLimitHigher { rsns, code }) {
            limit + 1
        } else if self.planted(Plant::ScdLimitLower { rsns, code }) {
            limit - 1
        } else {
            limit
        }
    }

    pub fn ocd_limit(&self) -> i64 {
        let (rsns, code) = (self.rsns(), self.page[7] & 15);
        let limit = OCD_LIMITS[usize::from(rsns)][usize::from(code)];
        if self.planted(Plant::OcdLimitHigher { rsns, code }) {
            limit + 1
        } else if self.planted(Plant::OcdLimitLower { rsns, code }) {
            limit - 1
        } else {
            limit
        }
    }

    /// How many verdicts in a row raise a fault, by the settings that stand now.
    pub fn needed(&self, fault: Fault) -> usize {
        let (code, table): (u8, &[usize]) = match fault {
            Fault::Ov => (self.page[8] >> 4 & 3, &[4, 8, 16, 32]),
            Fault::Uv => (self.page[8] >> 6, &[4, 16, 32, 64]),
            Fault::Scd => (self.page[6] >> 3 & 3, &[3, 4, 7, 13]),
            Fault::Ocd => (self.page[7] >> 4, &[256, 640, 1_280, 2_560, 5_120, 10_240, 20_480, 40_960]),
        };
        let by_scans = matches!(fault, Fault::Ov | Fault::Uv) || !self.planted(Plant::DelayDisForScansOnly);
        if self.page[5] & DELAY_DIS != 0 && by_scans && !self.planted(Plant::DelayDisForgotten(fault)) {
            return 1;
        }
        let needed = table[usize::from(code & 7)];
        if self.planted(Plant::DelayLonger(fault, code)) {
            needed + 1
        } else if self.planted(Plant::DelayShorter(fault, code)) {
            needed - 1
        } else {
            needed
        }
    }

    pub fn verdicts(&self, fault: Fault) -> &Verdicts {
        &self.verdicts[fault as usize]
    }

    fn note(&mut self, fault: Fault, verdict: bool) {
        self.verdicts[fault as usize].push(self.record, verdict);
    }

    fn judge(&mut self, fault: Fault, over: bool) {
        if self.planted(Plant::SetBitStopsRun(fault)) && self.page[0] & bit_of(fault) != 0 {
            self.verdicts[fault as usize].clear();
            return;
        }
        self.note(fault, over);
        if over {
            self.raise_where_run_is_full(fault);
        }
    }

    fn raise_where_run_is_full(&mut self, fault: Fault) {
        if self.verdicts(fault).ends_with(self.needed(fault)) {
            self.raise(bit_of(fault));
        }
    }

    fn raise(&mut self, bit: u8) {
        self.page[0] |= bit;
        let mut off = match bit {
            OV => CHG_ON,
            UV | OCD | SCD => DSG_ON,
            OVRD_ALERT | XREADY => CHG_ON | DSG_ON,
            _ => 0,
        };
        match (self.plant, bit) {
            (Plant::OvPutsOffDischarge, OV) => off = DSG_ON,
            (Plant::OvLeavesCharge, OV) => off = 0,
            (Plant::UvPutsOffCharge, UV) => off = CHG_ON | DSG_ON,
            (Plant::UvLeavesDischarge, UV) => off = 0,
            (Plant::OcdLeavesDischarge, OCD) => off = 0,
            (Plant::ScdLeavesDischarge, SCD) => off = 0,
            (Plant::OverrideLeavesCharge, OVRD_ALERT) => off = DSG_ON,
            (Plant::OverrideLeavesDischarge, OVRD_ALERT) => off = CHG_ON,
            (Plant::XreadyLeavesCharge, XREADY) => off = DSG_ON,
            (Plant::XreadyLeavesDischarge, XREADY) => off = CHG_ON,
            (Plant::CcReadyPutsOff, CC_READY) => off = CHG_ON | DSG_ON,
            _ => {}
        }
        self.page[5] &= !off;
    }

    pub fn scan(&mut self, counts: &[u16]) {
        self.load &= !self.planted(Plant::ScanDropsLoad);
        if self.page[4] & ADC_EN == 0 {
            self.silent_scan(counts);
            return;
        }
        self.store_scan(counts);
        let judged = match self.plant {
            Plant::OnlyFirstInputJudged => counts[..1].to_vec(),
            Plant::LastInputNotJudged => counts[..counts.len() - 1].to_vec(),
            Plant::ShortedNotJudged => self.setup.wired(self.plant).iter().map(|input| counts[*input]).collect(),
            _ => counts.to_vec(),
        };
        let (over, under) = (self.is_over(&judged), self.is_under(&judged));
        self.judge(Fault::Ov, over);
        self.judge(Fault::Uv, under);
    }

    fn silent_scan(&mut self, counts: &[u16]) {
        if self.planted(Plant::SilentScanCounted) {
            self.scans.push(counts.to_vec());
        }
        if self.planted(Plant::SilentScanStores) {
            self.store_scan(counts);
        }
        if !self.planted(Plant::SilentScanKeepsRuns) {
            self.note(Fault::Ov, false);
            self.note(Fault::Uv, false);
        }
        if self.planted(Plant::SilentScanEndsCurrentRuns) {
            self.note(Fault::Scd, false);
            self.note(Fault::Ocd, false);
        }
    }

    fn store_scan(&mut self, counts: &[u16]) {
        self.scans.push(counts.to_vec());
        for (input, count) in counts.iter().enumerate() {
            self.put_pair(0x0C + 2 * input, *count);
        }
        let summed = if self.planted(Plant::BatOfFirstFive) { &counts[..5] } else { counts };
        let sum: u32 = summed.iter().map(|count| u32::from(*count)).sum();
        let up = if self.planted(Plant::BatRoundedUp) { 3 } else { 0 };
        self.put_pair(0x2A, ((sum + up) / 4) as u16);
    }

    fn is_over(&self, counts: &[u16]) -> bool {
        let line = self.ov_line();
        counts.iter().any(|c| *c > line || *c == line && self.planted(Plant::OverAtLine))
    }

    fn is_under(&self, counts: &[u16]) -> bool {
        let (line, floor) = (self.uv_line(), self.setup.floor);
        let is_low = |c: &u16| *c < line || *c == line && self.planted(Plant::UnderAtLine);
        let is_cell = |c: &u16| match self.plant {
            Plant::FloorItselfLeftOut => *c > floor,
            Plant::UnderIgnoresFloor => true,
            _ => *c >= floor,
        };
        if self.planted(Plant::UnderByTwoCells) {
            return counts.iter().any(is_cell) && counts.iter().any(is_low);
        }
        counts.iter().any(|c| is_cell(c) && is_low(c))
    }

    pub fn sense(&mut self, value: i32) {
        let drawn = if self.planted(Plant::SenseNegativeMeansCharge) { i64::from(value) } else { -i64::from(value) };
        self.judge(Fault::Scd, drawn > self.scd_limit());
        self.judge(Fault::Ocd, drawn > self.ocd_limit());
    }

    /// That many ticks, one after the other. After 41,000 alike every run is longer than any delay, and one more moves nothing.
    pub fn ticks(&mut self, value: i32, repeat: u32) {
        let many = match self.plant {
            Plant::TicksCountedOnce => 1,
            Plant::TicksOneFewer => repeat.saturating_sub(1),
            Plant::TicksOneMore => repeat + 1,
            _ => repeat,
        };
        if self.planted(Plant::TicksEndRuns) {
            self.note(Fault::Scd, false);
            self.note(Fault::Ocd, false);
        }
        for _ in 0..many.min(41_000) {
            self.sense(value);
        }
    }

    /// For the plants in which a refused record touches the runs.
    pub fn refused(&mut self, kind: u16) {
        let ended = match (self.plant, kind) {
            (Plant::RefusedScanEndsRuns, 3) => [Fault::Ov, Fault::Uv],
            (Plant::RefusedSenseEndsRuns, 6) => [Fault::Scd, Fault::Ocd],
            (Plant::RefusedTicksEndRuns, 0x14 | 0x17) => [Fault::Scd, Fault::Ocd],
            _ => return,
        };
        for fault in ended {
            self.note(fault, false);
        }
    }

    pub fn temp(&mut self, counts: &[u16]) {
        if self.page[4] & ADC_EN != 0 || self.planted(Plant::TempWithAdcOff) {
            for (place, count) in counts.iter().enumerate() {
                self.put_pair(0x2C + 2 * place, *count);
            }
        }
    }

    pub fn count(&mut self, value: u16) {
        self.load &= !self.planted(Plant::CountDropsLoad);
        let enables = if self.planted(Plant::CountIgnoresOneshot) { CC_EN } else { CC_EN | CC_ONESHOT };
        if self.page[5] & enables != 0 || self.planted(Plant::CountWithoutEnable) {
            self.put_pair(0x32, value);
            self.raise(CC_READY);
            if !self.planted(Plant::OneshotNotDropped) {
                self.page[5] &= !CC_ONESHOT;
            }
        }
    }

    pub fn pin(&mut self) {
        self.outside |= self.planted(Plant::PinTakenForLevel);
        let ignored = match self.plant {
            Plant::PinWithStatusUp => 0xFF,
            Plant::PinOverCcReady => CC_READY,
            _ => 0,
        };
        if self.page[0] & !ignored == 0 {
            self.raise(OVRD_ALERT);
        }
    }

    pub fn load(&mut self, level: bool) {
        self.load = level != self.planted(Plant::LoadInverted);
    }

    /// The outside level: a second protector holds ALERT up, or lets go.
    pub fn level(&mut self, level: bool) {
        self.outside = level;
        if !level && self.planted(Plant::LettingGoClears) {
            self.page[0] &= !OVRD_ALERT;
        }
    }

    /// After an event of this kind that was done: in NORMAL the outside level is looked at.
    pub fn after(&mut self, kind: u16) {
        let late = match self.plant {
            Plant::LevelAtItsEventOnly => kind != 0x15,
            Plant::LevelNotAtBusEvents => (0x10..=0x13).contains(&kind),
            _ => false,
        };
        let ignored = if self.planted(Plant::LevelWithStatusUp) { 0xFF } else { 0 };
        if !self.awake || !self.outside || late || self.page[0] & !ignored != 0 {
            return;
        }
        let drives = self.page[5] & (CHG_ON | DSG_ON);
        self.raise(OVRD_ALERT);
        match self.plant {
            Plant::LevelLeavesCharge => self.page[5] |= drives & CHG_ON,
            Plant::LevelLeavesDischarge => self.page[5] |= drives & DSG_ON,
            _ => {}
        }
    }

    pub fn xready(&mut self) {
        let kept = match self.plant {
            Plant::XreadyKeepsBalance => true,
            Plant::XreadyClearsBalanceOnce => self.page[0] & XREADY != 0,
            _ => false,
        };
        self.raise(XREADY);
        if !kept {
            self.page[1..4].fill(0);
        }
        if self.planted(Plant::XreadyResetsSettings) {
            self.page[6..0x0C].copy_from_slice(&page_after_reset(&self.setup, self.plant)[6..0x0C]);
        }
    }

    // ---- bus

    pub fn start(&mut self) {
        if !self.awake && !self.planted(Plant::StartAsleepCounts) {
            return;
        }
        if self.planted(Plant::StartKeepsWaitingByte) && matches!(self.bus, Bus::Check { .. }) {
            return;
        }
        if let Bus::Read { low, .. } = &self.bus {
            self.stale = *low;
        }
        self.bus = Bus::Address;
    }

    pub fn stop(&mut self) {
        if self.planted(Plant::StopKeepsFrame) {
            return;
        }
        self.bus = Bus::Idle;
        self.stale = None;
        if self.planted(Plant::PointerForgottenAtStop) {
            self.pointer = 0;
        }
    }

    fn grow(&mut self) {
        if self.pointer == 0xFF && self.planted(Plant::PointerStopsAtEnd) {
            return;
        }
        self.pointer = self.pointer.wrapping_add(1);
    }

    /// The host sends a byte; true where the chip acknowledges it.
    pub fn out(&mut self, byte: u8) -> bool {
        if !self.awake {
            return false;
        }
        match std::mem::replace(&mut self.bus, Bus::Idle) {
            Bus::Idle => false,
            Bus::Address => self.out_address(byte),
            Bus::Pointer { address } => {
                self.pointer = byte;
                self.bus = Bus::Data { before: vec![address, byte] };
                true
            }
            Bus::Data { before } if self.setup.crc => {
                let allowed = self.allowed();
                if self.planted(Plant::WriteBeforeCrc) && self.write(self.pointer, byte, allowed) {
                    return true;
                }
                self.bus = Bus::Check { before, data: byte, allowed };
                true
            }
            Bus::Data { before } => self.accept(before, byte, self.allowed()),
            Bus::Check { before, data, allowed } => self.out_crc(before, data, allowed, byte),
            Bus::Read { before, low, owed } => {
                if self.planted(Plant::OutWhileReadingKept) {
                    self.bus = Bus::Read { before, low, owed };
                }
                false
            }
        }
    }

    fn out_address(&mut self, byte: u8) -> bool {
        let own = self.setup.address * 2;
        if byte == own {
            self.bus = Bus::Pointer { address: byte };
            true
        } else if byte == own + 1 {
            let first = if self.planted(Plant::WriteAddressInReadCrc) { own } else { byte };
            let low = if self.planted(Plant::LowByteOutlivesStart) { self.stale.take() } else { None };
            self.bus = Bus::Read { before: vec![first], low, owed: None };
            true
        } else {
            if self.planted(Plant::UnmatchedStaysOpen) {
                self.bus = Bus::Address;
            }
            false
        }
    }

    fn out_crc(&mut self, before: Vec<u8>, data: u8, allowed: u8, byte: u8) -> bool {
        let mut covered = before.clone();
        covered.push(data);
        let whole = values::crc(0, &covered);
        let alone = values::crc(0, &[data]);
        if byte == whole || byte == alone && self.planted(Plant::CrcStartsAgain) {
            if self.planted(Plant::WriteBeforeCrc) {
                self.grow();
                self.bus = Bus::Data { before: Vec::new() };
                return true;
            }
            let allowed = if self.planted(Plant::ConditionsAtDataByte) { allowed } else { self.allowed() };
            return self.accept(before, data, allowed);
        }
        if self.planted(Plant::PointerGrowsOnWrongCrc) {
            self.grow();
        }
        if self.planted(Plant::WrongCrcStaysInFrame) {
            self.bus = Bus::Data { before: Vec::new() };
        }
        if self.planted(Plant::CrcBytePassesForData) {
            self.write(self.pointer, byte, allowed);
        }
        self.planted(Plant::WrongCrcAcknowledged)
    }

    /// Takes a data byte of a write: the register, then the pointer, unless the byte ships.
    fn accept(&mut self, before: Vec<u8>, data: u8, allowed: u8) -> bool {
        if self.write(self.pointer, data, allowed) {
            if self.planted(Plant::ShippingGrowsPointer) {
                self.grow();
            }
            return !self.planted(Plant::ShippingByteRefused);
        }
        self.grow();
        let before = if self.planted(Plant::AddressInEveryWriteCrc) { before } else { Vec::new() };
        self.bus = Bus::Data { before };
        true
    }

    /// The host takes a byte, and acknowledges it or not.
    pub fn take(&mut self, acknowledged: bool) -> u8 {
        if !self.awake {
            return 0xFF;
        }
        let given = match self.bus.clone() {
            Bus::Read { before, low, owed: Some((sum, at)) } => self.give_sum(before, low, sum, at),
            Bus::Read { before, low, owed: None } => self.give_data(before, low, acknowledged),
            _ => {
                if !acknowledged && self.planted(Plant::InOutsideReadIdles) {
                    self.bus = Bus::Idle;
                }
                return 0xFF;
            }
        };
        if !acknowledged && !self.planted(Plant::UnackedKeepsReading) {
            self.bus = Bus::Idle;
        }
        given
    }

    fn give_sum(&mut self, before: Vec<u8>, low: Option<u8>, sum: u8, at: u8) -> u8 {
        let mut given = sum;
        if self.planted(Plant::OwedCrcOfByteNow) {
            let mut covered = before.clone();
            covered.push(self.read(at));
            given = values::crc(0, &covered);
        }
        let before = if self.planted(Plant::AddressInEveryReadCrc) { before } else { Vec::new() };
        self.bus = Bus::Read { before, low, owed: None };
        given
    }

    fn give_data(&mut self, before: Vec<u8>, low: Option<u8>, acknowledged: bool) -> u8 {
        let at = self.pointer;
        let given = match low {
            Some(kept) if !self.planted(Plant::LowByteReadAgain) => kept,
            _ => self.read(at),
        };
        let pairs = if self.planted(Plant::LowByteKeptBelowPairs) { 0x00..=0x32 } else { 0x0C..=0x32 };
        let keeps = low.is_none() && at % 2 == 0 && pairs.contains(&at);
        let low = if keeps { Some(self.read(at + 1)) } else { None };
        if acknowledged || !self.planted(Plant::RefusedByteDoesNotGrow) {
            self.grow();
        }
        let mut covered = before.clone();
        covered.push(given);
        let owed = if self.setup.crc { Some((values::crc(0, &covered), at)) } else { None };
        self.bus = Bus::Read { before, low, owed };
        given
    }

    // ---- forecasting's reading

    /// Whether a cell of the pack is connected: a wired one always is, and without a wiring record one below the floor is not.
    fn connected(&self, input: usize) -> bool {
        let above = self.pair(0x0C + 2 * input) >= self.setup.floor;
        match self.plant {
            Plant::WiredBelowFloorLeftOut => above,
            Plant::UnwiredBelowFloorRead => true,
            Plant::FloorNotConnected => self.setup.cells.is_some() || self.pair(0x0C + 2 * input) > self.setup.floor,
            _ => self.setup.cells.is_some() || above,
        }
    }

    /// The connected cells: their inputs, counted from 0, and counts.
    pub fn linked(&self) -> Vec<(usize, u16)> {
        let wired = self.setup.wired(self.plant).into_iter().filter(|input| self.connected(*input));
        wired.map(|input| (input, self.pair(0x0C + 2 * input))).collect()
    }

    /// Whether TEMP_SEL is 1.
    pub fn external(&self) -> bool {
        self.page[4] & 0x08 != 0
    }

    /// Least, greatest and total cell µV, and CC in hundredths; or 4, or 10.
    pub fn reading(&self) -> Result<[f64; 4], u8> {
        if !self.awake && !self.planted(Plant::ReadingAsleepGiven) {
            return Err(4);
        }
        let inputs = match self.plant {
            Plant::ReadingAllInputs => (0..15).collect(),
            Plant::ReadingOfShorted => (0..self.setup.inputs()).collect(),
            _ => self.setup.wired(self.plant),
        };
        let mut volts: Vec<i64> = Vec::new();
        for input in inputs {
            if !self.connected(input) {
                continue;
            }
            let offset = if self.planted(Plant::ReadingOffsetUnsigned) {
                i64::from(self.setup.offset)
            } else {
                i64::from(self.setup.offset as i8)
            };
            let gain = 344 + i64::from(self.setup.gain_code);
            volts.push(gain * i64::from(self.pair(0x0C + 2 * input)) + 1_000 * offset);
        }
        if volts.is_empty() && !self.planted(Plant::NoCellRead) {
            return Err(10);
        }
        if volts.is_empty() {
            volts.push(0);
        }
        volts.sort_unstable();
        let total: i64 = volts.iter().sum();
        let raw = self.pair(0x32);
        let cc = if self.planted(Plant::ReadingCcUnsigned) { 844 * i64::from(raw) } else { values::cc(raw) };
        Ok([volts[0] as f64, volts[volts.len() - 1] as f64, total as f64, cc as f64])
    }
}

pub fn bit_of(fault: Fault) -> u8 {
    match fault {
        Fault::Ov => OV,
        Fault::Uv => UV,
        Fault::Scd => SCD,
        Fault::Ocd => OCD,
    }
}
