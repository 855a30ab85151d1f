//! CHIP P17 and P18: what `toralinge_why` and `toralinge_off` answer, by looking back: every record's entry is kept, and of each bit that rose what
//! the lists of verdicts then held.

use crate::chip::{bit_of, Chip};
use crate::plant::{Fault, Plant, FAULTS};
use crate::stream::{sensed, words, Entry, Session};

pub const BY_SCANS: u32 = 1;
pub const BY_TICKS: u32 = 2;
pub const BY_PIN: u32 = 3;
pub const BY_LEVEL: u32 = 4;
pub const BY_XREADY: u32 = 5;
pub const BY_COUNT: u32 = 6;

pub const BITS: [u8; 7] = [0x80, 0x20, 0x10, 0x08, 0x04, 0x02, 0x01];

/// A row of `toralinge_why`: why a bit rose.
#[derive(Clone, Copy, PartialEq, Debug)]
pub struct Row {
    pub rose: u64,
    pub first: u64,
    pub cause: u32,
    pub many: u32,
    pub limit: u32,
    pub input: u32,
    pub value: i32,
}

/// A row of `toralinge_off`: since when a drive is off, and the bits that hold it.
#[derive(Clone, Copy, PartialEq, Debug)]
pub struct Off {
    pub since: u64,
    pub held: u32,
}

impl Row {
    fn bytes(&self) -> Vec<u8> {
        let mut bytes = [self.rose.to_le_bytes(), self.first.to_le_bytes()].concat();
        for number in [self.cause, self.many, self.limit, self.input] {
            bytes.extend(number.to_le_bytes());
        }
        bytes.extend(self.value.to_le_bytes());
        bytes
    }
}

impl Off {
    fn bytes(&self) -> Vec<u8> {
        let mut bytes = self.since.to_le_bytes().to_vec();
        bytes.extend(self.held.to_le_bytes());
        bytes
    }
}

/// The limit and the delay of each fault after a record, and the bits that choose the limit.
#[derive(Clone, Copy, PartialEq)]
struct Set {
    limits: [i64; 4],
    delays: [usize; 4],
    settings: [(u8, u8); 4],
}

/// All that a stream did, as far as somebody may ask why.
pub struct Past {
    plant: Plant,
    pub entries: Vec<Entry>,
    rises: Vec<(u8, Row)>,
    after: Vec<Option<Set>>,
}

fn fault_of(bit: u8) -> Option<Fault> {
    FAULTS.into_iter().find(|fault| bit_of(*fault) == bit)
}

fn bare(record: u64, cause: u32) -> Row {
    Row { rose: record, first: record, cause, many: 0, limit: 0, input: 0, value: 0 }
}

/// The lowest input, from 1, with a count outside, and the count.
fn outside(chip: &Chip, counts: &[u16], fault: Fault, plant: Plant) -> (u32, i32) {
    let limit = chip.limit(fault);
    let is_out = |count: u16| match fault {
        Fault::Ov => i64::from(count) > limit,
        _ => i64::from(count) < limit && (count >= chip.setup.floor || plant == Plant::WhyFloorUnseen),
    };
    let mut inputs = counts.iter().enumerate().filter(|(_, count)| is_out(**count));
    let found = if plant == Plant::WhyHighestInput { inputs.last() } else { inputs.next() };
    found.map_or((0, 0), |(input, count)| (input as u32 + 1, i32::from(*count)))
}

/// The row of a fault that rose at the record that the chip has just been given.
fn judged(chip: &Chip, payload: &[u8], fault: Fault, plant: Plant) -> Row {
    let (record, many, all) = (chip.record, chip.needed(fault), chip.verdicts(fault));
    let scans = matches!(fault, Fault::Ov | Fault::Uv);
    let before = all.before(record);
    let last = match plant {
        Plant::WhyFromRecordsEnd if !scans => all.many() - 1,
        _ => before + many - 1 - all.true_before(before, many - 1),
    };
    let first = match plant {
        Plant::WhyFirstLate => all.record_of((last + 2 - many).min(last)),
        Plant::WhyFirstEarly => all.record_of((last + 1 - many).saturating_sub(1)),
        Plant::WhyWholeRun => all.record_of(before - all.true_before(before, before).min(before)),
        Plant::WhyTicksOnceARecord if !scans => all.given_by().rev().nth(many - 1).unwrap_or(0),
        _ => all.record_of(last + 1 - many),
    };
    let (input, value) = match scans {
        true => outside(chip, &words(payload), fault, plant),
        false if plant == Plant::WhyValueDrawn => (0, -sensed(payload)),
        false => (0, sensed(payload)),
    };
    let limit = chip.limit(fault) as u32;
    Row { rose: record as u64, first: first as u64, cause: if scans { BY_SCANS } else { BY_TICKS }, many: many as u32, limit, input, value }
}

fn row(chip: &Chip, bit: u8, kind: u16, payload: &[u8], plant: Plant) -> Row {
    let record = chip.record as u64;
    match (fault_of(bit), bit) {
        (Some(fault), _) => judged(chip, payload, fault, plant),
        (_, 0x80) => bare(record, BY_COUNT),
        (_, 0x20) => bare(record, BY_XREADY),
        _ if kind == 7 || plant == Plant::WhyAlwaysPin => bare(record, BY_PIN),
        _ => bare(record, BY_LEVEL),
    }
}

impl Past {
    /// Plays a stream on a chip without errors; the one that is given is in what is said of it.
    pub fn of(bytes: &[u8], plant: Plant) -> Past {
        let mut session = Session::new(Plant::None);
        let mut past = Past { plant, entries: Vec::new(), rises: Vec::new(), after: Vec::new() };
        let (mut at, mut stat) = (0, 0);
        while at < bytes.len() && !session.ended {
            let played = session.record(bytes, at);
            if let Some(chip) = &session.chip {
                for bit in BITS.into_iter().filter(|bit| chip.stat() & !stat & bit != 0) {
                    let payload = &bytes[at + 4..played.next];
                    past.rises.push((bit, row(chip, bit, played.kind.unwrap_or(0), payload, plant)));
                }
                stat = chip.stat();
            }
            past.after.push(session.chip.as_ref().map(|chip| Set {
                limits: FAULTS.map(|fault| chip.limit(fault)),
                delays: FAULTS.map(|fault| chip.needed(fault)),
                settings: FAULTS.map(|fault| chip.limit_setting(fault)),
            }));
            past.entries.push(played.entry);
            at = played.next;
        }
        past
    }

    fn entry(&self, record: u64) -> Result<&Entry, u8> {
        let most = self.entries.len() - usize::from(self.plant == Plant::WhyLastLeftOut && !self.entries.is_empty());
        usize::try_from(record).ok().and_then(|at| self.entries[..most].get(at)).ok_or(27)
    }

    /// Why a bit is up after a record: 27, then 28.
    pub fn why(&self, record: u64, bit: u32) -> Result<Row, u8> {
        if self.plant == Plant::WhyBitFirst && !BITS.iter().any(|one| u32::from(*one) == bit) {
            return Err(28);
        }
        let stat = self.entry(record)?[3];
        let known = BITS.into_iter().find(|one| u32::from(*one) == bit && stat & one != 0).ok_or(28)?;
        let mut rises = self.rises.iter().filter(|(bit, row)| *bit == known && row.rose <= record);
        let found = if self.plant == Plant::WhyFirstRise { rises.next() } else { rises.last() };
        let mut row = found.ok_or(28)?.1;
        if let (Some(fault), Some(set)) = (fault_of(known), &self.after[record as usize]) {
            match self.plant {
                Plant::WhyLimitNow => row.limit = set.limits[fault as usize] as u32,
                Plant::WhyDelayNow => row.many = set.delays[fault as usize] as u32,
                _ => {}
            }
        }
        if self.plant == Plant::WhyRefusedLeftOut {
            row.rose = self.entries[..row.rose as usize].iter().filter(|entry| entry[0] == 0).count() as u64;
        }
        Ok(row)
    }

    /// Since when a drive is off, and what holds it after a record: 27, then 28.
    pub fn off(&self, record: u64, drive: u32) -> Result<Off, u8> {
        let entry = *self.entry(record)?;
        let (chg, dsg) = if self.plant == Plant::OffBitsOfControl { (1, 2) } else { (2, 1) };
        let (pin, holding) = match drive {
            _ if drive == chg => (2, 0x34),
            _ if drive == dsg => (1, 0x3B),
            _ => return Err(28),
        };
        if entry[4] & pin != 0 {
            return Err(28);
        }
        let off = |at: &usize| self.entries[*at][4] & pin == 0 && *at > 0 && self.entries[*at - 1][4] & pin != 0;
        let mut went = (0..=record as usize).filter(off);
        let since = if self.plant == Plant::OffSinceFirst { went.next() } else { went.last() };
        let held = match self.plant {
            Plant::OffHeldByAll => entry[3],
            Plant::OffHeldThen => self.entries[since.unwrap_or(0)][3] & holding,
            Plant::OffHeldByBoth => entry[3] & 0x3F,
            _ => entry[3] & holding,
        };
        let never = if self.plant == Plant::OffNeverNought { 0 } else { u64::MAX };
        Ok(Off { since: since.map_or(never, |at| at as u64), held: u32::from(held) })
    }

    /// Whether the bits that choose the limit of a bit were other ones after some record from `first` to `rose`.
    pub fn moved(&self, bit: u8, row: &Row) -> bool {
        let Some(fault) = fault_of(bit) else { return false };
        let setting = |set: &Option<Set>| set.as_ref().map(|set| set.settings[fault as usize]);
        let between = &self.after[row.first as usize..=row.rose as usize];
        between.iter().any(|set| setting(set) != setting(&between[0]))
    }
}

/// A question: `w` of a bit or `o` of a drive after a record, and the row, or the number that refuses it.
#[derive(Clone, PartialEq, Debug)]
pub struct Asked {
    pub call: u8,
    pub record: u64,
    pub of: u32,
    pub answer: Result<Vec<u8>, u8>,
}

/// The first, the middle and the last of a list.
fn some(list: &[usize]) -> Vec<usize> {
    let mut places = vec![0, list.len() / 2, list.len().saturating_sub(1)];
    places.dedup();
    places.into_iter().filter_map(|place| list.get(place).copied()).collect()
}

/// What is asked of a stream, by its entries alone: where a bit rises or a drive goes off, a record before it, and as long as it stays so.
fn questions(entries: &[Entry]) -> Vec<(u8, u64, u32)> {
    let (many, mut list) = (entries.len() as u64, Vec::new());
    let mut ask = |call: u8, of: u32, is: &dyn Fn(&Entry) -> bool| {
        let begins: Vec<usize> = (0..entries.len()).filter(|at| is(&entries[*at]) && (*at == 0 || !is(&entries[*at - 1]))).collect();
        for at in some(&begins) {
            let more = entries[at..].iter().take_while(|entry| is(entry)).count() as u64;
            let at = at as u64;
            list.extend([(call, at, of), (call, at.wrapping_sub(1), of), (call, at + more / 2, of), (call, at + more - 1, of), (call, at + more, of)]);
        }
    };
    for bit in BITS {
        ask(b'w', u32::from(bit), &|entry| entry[3] & bit != 0);
    }
    for pin in [1, 2] {
        ask(b'o', u32::from(pin), &|entry| entry[4] & pin == 0);
    }
    for record in [0, many.wrapping_sub(1), many, u64::MAX, 1 << 32, (1 << 32) | (many / 2)] {
        list.extend([0, 4, 0x40, 0x0C, 0x104, u32::MAX].map(|of| (b'w', record, of)));
        list.extend([0, 1, 2, 3, 4, 0x102, u32::MAX].map(|of| (b'o', record, of)));
    }
    list.sort_unstable();
    list.dedup();
    list
}

/// All questions to a stream with their answers.
pub fn all(past: &Past) -> Vec<Asked> {
    let answer = |(call, record, of): (u8, u64, u32)| {
        let answer = match call {
            b'w' => past.why(record, of).map(|row| row.bytes()),
            _ => past.off(record, of).map(|off| off.bytes()),
        };
        Asked { call, record, of, answer }
    };
    questions(&past.entries).into_iter().map(answer).collect()
}
