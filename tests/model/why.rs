//! The sentences that ./why says of a stream: each change of a bit of SYS_STAT, of ALERT or of a drive, and each refusal; or those of one record, and
//! what stands after it.

use crate::chip::{Bus, Chip};
use crate::plant::Plant;
use crate::reasons::{grouped, name_of, reason};
use crate::rises::{Past, Row, BY_COUNT, BY_LEVEL, BY_PIN, BY_SCANS, BY_TICKS};
use crate::stream::{Entry, Session};

const BITS: [(&str, u8); 7] =
    [("CC_READY", 0x80), ("XREADY", 0x20), ("OVRD_ALERT", 0x10), ("UV", 0x08), ("OV", 0x04), ("SCD", 0x02), ("OCD", 0x01)];
/// A drive's name, its pin, and its bit of SYS_CTRL2.
const DRIVES: [(&str, u8, u8); 2] = [("CHG", 2, 1), ("DSG", 1, 2)];

/// What is said of a stream, and what it did.
struct Told {
    text: String,
    past: Past,
}

/// A record that was done: the chip's SYS_STAT and pins before it, and what it wrote at which address, if anything.
struct Step {
    record: usize,
    stat: u8,
    pins: u8,
    wrote: Option<(u8, u8)>,
}

/// Where cells and inputs are not the same, in a pack with a wiring record, inputs are named.
fn by_scans(row: &Row, over: bool, moved: bool, wired: bool) -> String {
    let (some, one) = if wired { ("an input", "input") } else { ("a cell", "cell") };
    let than = if over { "above" } else { "below" };
    let (limit, at) = (grouped(row.limit.into()), format!("{one} {} at {}", row.input, grouped(row.value.into())));
    match (row.many, moved) {
        (1, _) => format!("one scan with {some} {than} {limit} is enough; {at}"),
        (many, false) => format!("the last {many} scans (records {} to {}) each had {some} {than} {limit}; {at}", row.first, row.rose),
        (many, true) => format!(
            "the last {many} scans (records {} to {}) each had {some} {than} the limit then set; {at}, {than} {limit}",
            row.first, row.rose
        ),
    }
}

fn by_ticks(row: &Row, moved: bool) -> String {
    let (limit, at) = (grouped(row.limit.into()), grouped(-i64::from(row.value)));
    let records = match row.first == row.rose {
        true => format!("record {}", row.rose),
        false => format!("records {} to {}", row.first, row.rose),
    };
    let many = grouped(row.many.into());
    match (row.many, moved) {
        (1, _) => format!("one tick above {limit} microvolts is enough; it was at {at}"),
        (_, false) => format!("the last {many} ticks ({records}) were each above {limit} microvolts; the last at {at}"),
        _ => format!("the last {many} ticks ({records}) were each above the limit then set; the last at {at} microvolts, above {limit}"),
    }
}

impl Told {
    fn say(&mut self, record: usize, sentence: &str) {
        self.text += &format!("record {record}: {sentence}\n");
    }

    fn row(&self, record: usize, bit: u8) -> Row {
        self.past.why(record as u64, bit.into()).expect("the bit is up after the record")
    }

    fn reason(&self, record: usize, bit: u8, chip: &Chip) -> String {
        let row = self.row(record, bit);
        let moved = self.past.moved(bit, &row);
        match row.cause {
            BY_SCANS => by_scans(&row, bit == 4, moved, chip.setup.cells.is_some()),
            BY_TICKS => by_ticks(&row, moved),
            BY_PIN => "ALERT was pulled up from outside".to_string(),
            BY_LEVEL => "the outside level is 1".to_string(),
            BY_COUNT => "a count of charge came".to_string(),
            _ => "XREADY was reported".to_string(),
        }
    }

    /// Who moved what no fault moved.
    fn mover(step: &Step, address: u8) -> &'static str {
        if matches!(step.wrote, Some((at, _)) if at == address) { "the host" } else { "SHIP" }
    }

    fn bits(&mut self, step: &Step, chip: &Chip) {
        for (name, bit) in BITS {
            let (was, is) = (step.stat & bit != 0, chip.stat() & bit != 0);
            if is && !was {
                let why = self.reason(step.record, bit, chip);
                self.say(step.record, &format!("{name} rose: {why}"));
            } else if was && !is {
                self.say(step.record, &format!("{name} fell, by {}", Self::mover(step, 0)));
            }
        }
    }

    /// The bits that hold a drive after a record.
    fn holding(&self, record: usize, pin: u8) -> Vec<(&'static str, u8)> {
        let held = self.past.off(record as u64, pin.into()).expect("the drive is off after the record").held;
        BITS.into_iter().filter(|(_, bit)| held & u32::from(*bit) != 0).collect()
    }

    fn drives(&mut self, step: &Step, chip: &Chip) {
        for (name, pin, bit) in DRIVES {
            let (was, is) = (step.pins & pin != 0, chip.pins() & pin != 0);
            let asked = matches!(step.wrote, Some((5, value)) if value & bit != 0);
            if is && !was {
                self.say(step.record, &format!("{name} on, by the host"));
            } else if was && !is {
                let rose = self.holding(step.record, pin).into_iter().filter(|(_, bit)| step.stat & bit == 0);
                let mut by: Vec<&str> = rose.map(|(name, _)| name).collect();
                if by.is_empty() {
                    by.push(Self::mover(step, 5));
                }
                self.say(step.record, &format!("{name} off, by {}", by.join(", ")));
            } else if !is && asked {
                let since = |(name, bit)| format!("{name} is up since record {}", self.row(step.record, bit).rose);
                let holding: Vec<String> = self.holding(step.record, pin).into_iter().map(since).collect();
                self.say(step.record, &format!("{name} stays off: {}", holding.join(", ")));
            }
        }
    }

    fn record(&mut self, step: &Step, chip: &Chip) {
        self.bits(step, chip);
        if (step.pins ^ chip.pins()) & 4 != 0 {
            self.say(step.record, if chip.pins() & 4 != 0 { "ALERT up" } else { "ALERT down" });
        }
        self.drives(step, chip);
    }
}

/// What an OUT that was acknowledged wrote, by where the frame stood before it.
fn wrote(bus: &Bus, pointer: u8, crc: bool, kind: u16, payload: &[u8], entry: &Entry) -> Option<(u8, u8)> {
    match bus {
        _ if kind != 0x11 || entry[2] != 0 => None,
        Bus::Data { .. } if !crc => Some((pointer, payload[0])),
        Bus::Check { data, .. } => Some((pointer, *data)),
        _ => None,
    }
}

impl Told {
    /// What the sentence of a drive that went off at a record ends with.
    fn put_off(&self, since: u64, name: &str) -> &str {
        let begins = format!("record {since}: {name} off, by ");
        self.text.lines().find_map(|line| line.strip_prefix(&begins)).unwrap_or("?")
    }

    fn drive_stands(&self, record: u64, name: &str, pin: u8) -> String {
        let Ok(off) = self.past.off(record, pin.into()) else { return format!("{name} is on") };
        let held: Vec<String> = BITS
            .into_iter()
            .filter(|(_, bit)| off.held & u32::from(*bit) != 0)
            .map(|(name, bit)| format!("{name} is up since record {}", self.row(record as usize, bit).rose))
            .collect();
        match off.since {
            _ if !held.is_empty() => format!("{name} is off: {}", held.join(", ")),
            u64::MAX => format!("{name} is off: nobody has asked for it"),
            since => format!("{name} is off since record {since}, by {}: nobody has asked for it since", self.put_off(since, name)),
        }
    }
}

/// The sentences of one record, and what then stands; nothing where the stream has no such record.
pub fn why_of(bytes: &[u8], record: usize) -> String {
    let (told, chip) = tell(bytes);
    let Some(entry) = told.past.entries.get(record) else { return String::new() };
    let begins = format!("record {record}: ");
    let mut text: String = told.text.lines().filter(|line| line.starts_with(&begins)).map(|line| format!("{line}\n")).collect();
    text += &format!("after record {record}:\n");
    if let Some(chip) = chip {
        for (name, bit) in BITS.into_iter().filter(|(_, bit)| entry[3] & bit != 0) {
            text += &format!("{name} is up since record {}: {}\n", told.row(record, bit).rose, told.reason(record, bit, &chip));
        }
    }
    for (name, pin, _) in DRIVES {
        text += &format!("{}\n", told.drive_stands(record as u64, name, pin));
    }
    text
}

pub fn why(bytes: &[u8]) -> String {
    tell(bytes).0.text
}

/// All that is said of a stream, and the chip that it leaves.
fn tell(bytes: &[u8]) -> (Told, Option<Chip>) {
    let mut session = Session::new(Plant::None);
    let mut told = Told { text: String::new(), past: Past::of(bytes, Plant::None) };
    let mut at = 0;
    while at < bytes.len() && !session.ended {
        let record = session.records;
        let setup = session.chip.as_ref().map(|chip| chip.setup.clone());
        let before = session.chip.as_ref().map(|chip| (chip.stat(), chip.pins(), chip.bus.clone(), chip.pointer));
        let (stat, pins, bus, pointer) = before.unwrap_or((0, 0, Bus::Idle, 0));
        let played = session.record(bytes, at);
        match (&session.chip, played.kind, played.entry[0]) {
            (Some(chip), Some(kind), 0) => {
                let wrote = wrote(&bus, pointer, chip.setup.crc, kind, &bytes[at + 4..played.next], &played.entry);
                told.record(&Step { record, stat, pins, wrote }, chip);
            }
            (_, kind, number) => {
                let why = reason(number, setup.as_ref(), &bytes[at..played.next]);
                told.say(record, &format!("{} refused, {number}: {why}", name_of(kind)));
            }
        }
        at = played.next;
    }
    (told, session.chip)
}
