//! Records, entries and the lines of the program, as CHIP R1 to R8 and P1 to P13 give them.

use crate::chip::{wiring, Chip, Setup};
use crate::plant::Plant;

pub type Entry = [u8; 5];

/// A stream being played: the chip that stands, if any.
pub struct Session {
    plant: Plant,
    pub chip: Option<Chip>,
    /// Only SETUP and refused records came so far.
    fresh: bool,
    pub ended: bool,
    /// How many records were played.
    pub records: usize,
}

/// What one record did: its kind where the header is whole, its entry, and the place after it.
pub struct Played {
    pub kind: Option<u16>,
    pub entry: Entry,
    pub next: usize,
}

fn word(bytes: &[u8], at: usize) -> u16 {
    u16::from(bytes[at]) + 256 * u16::from(bytes[at + 1])
}

pub fn words(payload: &[u8]) -> Vec<u16> {
    payload.chunks(2).map(|two| word(two, 0)).collect()
}

fn setup_of(payload: &[u8]) -> Option<Setup> {
    let setup = Setup {
        part: payload[0],
        crc: payload[1] == 1,
        address: payload[2],
        gain_code: payload[3],
        offset: payload[4],
        floor: word(payload, 5),
        cells: None,
    };
    let good = (1..=3).contains(&setup.part)
        && payload[1] <= 1
        && (0x08..=0x77).contains(&setup.address)
        && setup.gain_code <= 31
        && setup.floor <= 4_095;
    good.then_some(setup)
}

/// The payload length of a kind that may follow SETUP.
pub fn length_of(kind: u16, part: usize) -> Option<usize> {
    match kind {
        0x0001 | 0x0002 | 0x0007 | 0x0009 | 0x0010 | 0x0013 => Some(0),
        0x0003 => Some(10 * part),
        0x0004 => Some(2 * part),
        0x0005 => Some(2),
        0x0006 => Some(4),
        0x0008 | 0x0011 | 0x0012 | 0x0015 | 0x0016 => Some(1),
        0x0014 => Some(6),
        0x0017 => Some(8),
        _ => None,
    }
}

fn in_range(kind: u16, payload: &[u8], plant: Plant) -> bool {
    match kind {
        0x0003 | 0x0004 => words(payload).iter().all(|count| *count <= 16_383) || plant == Plant::RangeNotChecked,
        0x0006 => sense_in_range(payload, plant),
        0x0008 | 0x0012 | 0x0015 => payload[0] <= 1,
        0x0014 | 0x0017 => sense_in_range(payload, plant) && repeat_in_range(kind, repeat_of(payload, plant), plant),
        _ => true,
    }
}

fn sense_in_range(payload: &[u8], plant: Plant) -> bool {
    let value = i64::from(sensed(payload));
    let most = if plant == Plant::SenseEndsLeftOut { 499_999 } else { 500_000 };
    (-most..=most).contains(&value)
}

/// The number after the four bytes of a value: two bytes, or four.
fn repeat_of(payload: &[u8], plant: Plant) -> u32 {
    let low = u32::from(word(payload, 4));
    if payload.len() == 6 || plant == Plant::SoakLowHalfOnly {
        return low;
    }
    low + 65_536 * u32::from(word(payload, 6))
}

fn repeat_in_range(kind: u16, repeat: u32, plant: Plant) -> bool {
    let most = match (kind, plant) {
        (0x0014, Plant::TicksMostLower) => 4_095,
        (0x0014, Plant::TicksMostHigher) => 4_097,
        (0x0014, _) => 4_096,
        (_, Plant::SoakMostLower) => 16_777_215,
        (_, Plant::SoakMostHigher) => 16_777_217,
        (_, Plant::SoakMostOfTicks) => 4_096,
        _ => 16_777_216,
    };
    let least = if plant == Plant::NoTicksTaken { 0 } else { 1 };
    (least..=most).contains(&repeat)
}

pub fn sensed(payload: &[u8]) -> i32 {
    i32::from_le_bytes([payload[0], payload[1], payload[2], payload[3]])
}

/// The number for a record that follows SETUP: 2, then 3, then 4; or 0.
fn refusal(chip: &Chip, kind: u16, payload: &[u8], plant: Plant) -> u8 {
    let wants_waking = (3..=9).contains(&kind)
        || kind == 0x15 && plant != Plant::LevelTakenAsleep
        || matches!(kind, 0x14 | 0x17) && plant != Plant::TicksTakenAsleep;
    let asleep = !chip.awake && wants_waking;
    if asleep && plant == Plant::AsleepBeforeLength {
        return 4;
    }
    if length_of(kind, usize::from(chip.setup.part)) != Some(payload.len()) {
        return 2;
    }
    if asleep && plant == Plant::AsleepBeforeRange {
        return 4;
    }
    if !in_range(kind, payload, plant) {
        return 3;
    }
    if asleep || !chip.awake && (0x10..=0x13).contains(&kind) && plant == Plant::BusRefusedAsleep {
        return 4;
    }
    if chip.awake && kind == 2 && plant == Plant::BootRefusedAwake {
        return 2;
    }
    0
}

/// The number for a wiring record of the right length: 2 where it is not straight after SETUP, then 13; or 0.
fn wiring_refusal(chip: &Chip, fresh: bool, cells: u8, plant: Plant) -> u8 {
    let row = wiring(chip.setup.part, cells).is_some();
    match plant {
        Plant::RowBeforePlace if !row => 13,
        _ if !fresh => 2,
        Plant::RowsOfAnyPart if (1..=3).any(|part| wiring(part, cells).is_some()) => 0,
        _ if !row => 13,
        _ => 0,
    }
}

/// Gives the event to the chip; the bus's answer where it has one.
fn act(chip: &mut Chip, kind: u16, payload: &[u8], plant: Plant) -> Option<u8> {
    match kind {
        0x0001 => chip.por(),
        0x0002 => chip.boot(),
        0x0003 => chip.scan(&words(payload)),
        0x0004 => chip.temp(&words(payload)),
        0x0005 => chip.count(word(payload, 0)),
        0x0006 => chip.sense(sensed(payload)),
        0x0007 => chip.pin(),
        0x0008 => chip.load(payload[0] == 1),
        0x0009 => chip.xready(),
        0x0010 => chip.start(),
        0x0011 => return Some(if chip.out(payload[0]) { 0 } else { 1 }),
        0x0012 => return Some(chip.take(payload[0] == 0)),
        0x0015 => chip.level(payload[0] == 1),
        0x0014 | 0x0017 => chip.ticks(sensed(payload), repeat_of(payload, plant)),
        0x0016 => chip.wire(payload[0]),
        _ => chip.stop(),
    }
    None
}

impl Session {
    pub fn new(plant: Plant) -> Session {
        Session { plant, chip: None, fresh: false, ended: false, records: 0 }
    }

    fn entry(&self, number: u8, bus: Option<u8>) -> Entry {
        let (stat, pins) = self.chip.as_ref().map_or((0, 0), |chip| (chip.stat(), chip.pins()));
        [number, u8::from(bus.is_some()), bus.unwrap_or(0), stat, pins]
    }

    /// A header's payload length and kind, where all four bytes stand there.
    fn header(&self, rest: &[u8]) -> Option<(usize, u16)> {
        if rest.len() < 4 {
            return None;
        }
        let (mut length, mut kind) = (usize::from(word(rest, 0)), word(rest, 2));
        match self.plant {
            Plant::LengthLowByteOnly => length %= 256,
            Plant::KindLowByteOnly => kind %= 256,
            _ => {}
        }
        Some((length, kind))
    }

    /// Plays the record at a place before the end of the bytes.
    pub fn record(&mut self, bytes: &[u8], at: usize) -> Played {
        let rest = &bytes[at..];
        if let Some(chip) = self.chip.as_mut() {
            chip.record = self.records;
        }
        self.records += 1;
        match self.header(rest) {
            Some((length, kind)) if 4 + length <= rest.len() => {
                let entry = self.whole(kind, &rest[4..4 + length]);
                Played { kind: Some(kind), entry, next: at + 4 + length }
            }
            header => {
                let kind = header.map(|(_, kind)| kind);
                Played { kind, entry: self.cut(kind), next: bytes.len() }
            }
        }
    }

    fn cut(&mut self, kind: Option<u16>) -> Entry {
        self.ended = true;
        match (self.plant, kind) {
            (Plant::CutEntryBlank, _) => [9, 0, 0, 0, 0],
            (Plant::CutAfterKind, Some(kind)) if kind != 0 && length_of(kind, 1).is_none() => self.entry(2, None),
            _ => self.entry(9, None),
        }
    }

    fn whole(&mut self, kind: u16, payload: &[u8]) -> Entry {
        let (number, bus) = match self.done(kind, payload) {
            Ok(bus) => (0, bus),
            Err(number) => (number, None),
        };
        if self.chip.is_none() && self.plant != Plant::RefusedFirstGoesOn {
            self.ended = true;
        }
        if self.plant == Plant::UnknownKindEndsStream && kind != 0 && length_of(kind, 1).is_none() {
            self.ended = true;
        }
        let mut entry = self.entry(number, bus);
        if number != 0 && self.plant == Plant::FlagOnRefused && matches!(kind, 0x11 | 0x12) {
            entry[1] = 1;
        }
        entry
    }

    /// Does a whole record: the bus's answer where it has one, or the number that refuses it.
    fn done(&mut self, kind: u16, payload: &[u8]) -> Result<Option<u8>, u8> {
        let plant = self.plant;
        let kind = match kind {
            0x000A..=0x000D if plant == Plant::KindsDecimal => kind + 6,
            _ => kind,
        };
        if kind == 0 && (self.chip.is_none() || plant == Plant::SecondSetupTaken) {
            if payload.len() != 7 {
                return Err(2);
            }
            let setup = setup_of(payload).ok_or(1)?;
            self.chip = Some(Chip::new(setup, plant));
            self.fresh = true;
            return Ok(None);
        }
        let fresh = self.fresh;
        let chip = self.chip.as_mut().ok_or(2)?;
        let number = match refusal(chip, kind, payload, plant) {
            0 if kind == 0x16 => wiring_refusal(chip, fresh, payload[0], plant),
            number => number,
        };
        self.fresh = match plant {
            Plant::WiringTakenLate => fresh && kind != 0x16 || fresh && number != 0,
            Plant::SecondWiringTaken => fresh && (number != 0 || kind == 0x16),
            Plant::RefusedEndsWiring => false,
            _ => fresh && number != 0,
        };
        if number == 3 {
            chip.refused(kind);
        }
        if number != 0 {
            return Err(number);
        }
        let bus = act(chip, kind, payload, plant);
        chip.after(kind);
        Ok(bus)
    }
}

/// A whole stream played: kinds and entries, the chip afterwards or the number where none stands, and forecasting's reading of it.
pub struct Outcome {
    pub kinds: Vec<Option<u16>>,
    pub entries: Vec<Entry>,
    pub chip: Result<Chip, u8>,
    pub reading: Result<[f64; 4], u8>,
}

pub fn play(bytes: &[u8], plant: Plant) -> Outcome {
    let mut session = Session::new(plant);
    let (mut kinds, mut entries) = (Vec::new(), Vec::new());
    let mut at = 0;
    while at < bytes.len() && !session.ended {
        let played = session.record(bytes, at);
        kinds.push(played.kind);
        entries.push(played.entry);
        at = played.next;
    }
    let cut = entries.last().map_or(false, |entry| entry[0] == 9);
    let chip = session.chip.ok_or_else(|| entries.first().map_or(9, |entry| entry[0]));
    let reading = match &chip {
        Ok(_) if cut && plant == Plant::ReadingRefusedWhereCut => Err(9),
        Ok(chip) => chip.reading(),
        Err(number) => Err(*number),
    };
    Outcome { kinds, entries, chip, reading }
}

/// What the program prints for its input.
pub fn lines(bytes: &[u8]) -> String {
    if bytes.len() > 65_536 {
        return "too long\n".to_string();
    }
    all_lines(bytes)
}

/// The lines of an input of any length.
pub fn all_lines(bytes: &[u8]) -> String {
    let outcome = play(bytes, Plant::None);
    let mut text = String::new();
    for (record, (kind, entry)) in outcome.kinds.iter().zip(&outcome.entries).enumerate() {
        let kind = kind.map_or("----".to_string(), |kind| format!("{kind:04X}"));
        let [number, flag, byte, stat, pins] = *entry;
        let bus = if flag == 1 { format!("{byte:02X}") } else { "--".to_string() };
        text += &format!("{record} {kind} {number} {bus} {stat:02X} {pins:03b}\n");
    }
    text
}

/// Bytes of a hex text: `#` begins a comment, white space parts words of whole bytes.
pub fn bytes_of_hex(text: &str) -> Result<Vec<u8>, String> {
    let mut bytes = Vec::new();
    for (number, line) in text.lines().enumerate() {
        for part in line.split('#').next().unwrap_or("").split_whitespace() {
            let digits: Option<Vec<u32>> = part.chars().map(|c| c.to_digit(16)).collect();
            let digits = digits.ok_or(format!("line {}: not hex: {part}", number + 1))?;
            if digits.len() % 2 == 1 {
                return Err(format!("line {}: odd number of digits: {part}", number + 1));
            }
            bytes.extend(digits.chunks(2).map(|two| (16 * two[0] + two[1]) as u8));
        }
    }
    Ok(bytes)
}
