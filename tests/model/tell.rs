//! Everything that can be asked of a stream and of bare numbers, as lines of text for tests that are not in C.

use crate::asks;
use crate::chip::Chip;
use crate::plant::Plant;
use crate::rises::{self, Past};
use crate::season;
use crate::stream::{self, Session};
use crate::values;

/// The voltage of a cell of the pack, numbered from 1: 4, then 6, then 10.
fn voltage(chip: &Chip, cell: usize) -> Result<i64, u8> {
    if !chip.awake {
        return Err(4);
    }
    let wired = chip.setup.wired(Plant::None);
    let input = *cell.checked_sub(1).and_then(|place| wired.get(place)).ok_or(6)?;
    let (_, count) = *chip.linked().iter().find(|(linked, _)| *linked == input).ok_or(10)?;
    values::cell(chip.setup.gain_code, chip.setup.offset, count, Plant::None)
}

/// Each stored scan: its record, its connected cells as bits, and the microvolts of cells 1 to 15, 0 where there are none.
pub fn scans(bytes: &[u8]) -> Vec<(usize, u32, [i64; 15])> {
    let mut session = Session::new(Plant::None);
    let (mut list, mut at, mut record) = (Vec::new(), 0, 0);
    while at < bytes.len() && !session.ended {
        at = session.record(bytes, at).next;
        if let Some(chip) = &session.chip {
            if chip.scans.len() > list.len() {
                let (mut bits, mut row) = (0, [0; 15]);
                for cell in 1..=15 {
                    if let Ok(microvolts) = voltage(chip, cell) {
                        bits |= 1 << (cell - 1);
                        row[cell - 1] = microvolts;
                    }
                }
                list.push((record, bits, row));
            }
        }
        record += 1;
    }
    list
}

fn bytes_of(answer: &Result<[u8; 3], u8>) -> String {
    match answer {
        Ok([a, b, c]) => format!("0 {a} {b} {c}"),
        Err(number) => format!("{number}"),
    }
}

fn spaced(numbers: &[i64]) -> String {
    numbers.iter().map(|number| number.to_string()).collect::<Vec<_>>().join(" ")
}

/// Why bits are up and drives off, for each of the questions of `rises`: record, bit or drive, and a row's numbers, or the number that refuses it.
fn whys(bytes: &[u8]) -> String {
    let past = Past::of(bytes, Plant::None);
    let mut text = String::new();
    for asked in rises::all(&past) {
        let (record, of) = (asked.record, asked.of);
        text += &match asked.call {
            b'w' => match past.why(record, of) {
                Ok(r) => format!("why {record} {of} 0 {} {} {} {} {} {} {}\n", r.rose, r.first, r.cause, r.many, r.limit, r.input, r.value),
                Err(number) => format!("why {record} {of} {number}\n"),
            },
            _ => match past.off(record, of) {
                Ok(off) => format!("off {record} {of} 0 {} {}\n", off.since, off.held),
                Err(number) => format!("off {record} {of} {number}\n"),
            },
        };
    }
    text
}

/// The chip that a stream leaves, its reading, what is asked of it, its scans, its season and why its bits rose; a line each.
pub fn tell(bytes: &[u8]) -> String {
    let outcome = stream::play(bytes, Plant::None);
    let mut text = String::new();
    let chip = match &outcome.chip {
        Ok(chip) => chip,
        Err(number) => return format!("none {number}\n"),
    };
    let registers: Vec<i64> = (0..=255).map(|at| i64::from(chip.read(at))).collect();
    text += &format!("awake {}\nregisters {}\n", u8::from(chip.awake), spaced(&registers));
    for cell in 0..=17 {
        text += &match voltage(chip, cell) {
            Ok(microvolts) => format!("voltage {cell} 0 {microvolts}\n"),
            Err(number) => format!("voltage {cell} {number}\n"),
        };
    }
    text += &match outcome.reading {
        Ok(reading) => format!("reading 0 {}\n", spaced(&reading.map(|one| one as i64))),
        Err(number) => format!("reading {number}\n"),
    };
    for one in asks::all(&outcome.chip, Plant::None) {
        let name = if one.command == asks::BLEED { "bleed".to_string() } else { format!("reply {}", one.command) };
        text += &format!("{name} {} {}\n", one.with, bytes_of(&one.answer));
    }
    for (record, bits, row) in scans(bytes) {
        text += &format!("scan {record} {bits} {}\n", spaced(&row));
    }
    match season::rows(&outcome.chip, Plant::None) {
        Ok(rows) => rows.iter().for_each(|row| text += &format!("season {}\n", spaced(row))),
        Err(number) => text += &format!("season refused {number}\n"),
    }
    text + &whys(bytes)
}

/// The conversions' grid: call, gain code, offset, count, wanted, number, value.
pub fn grid() -> String {
    let mut text = String::new();
    for one in values::grid(Plant::None) {
        let call = char::from(one.call);
        text += &format!("{call} {} {} {} {} {} {}\n", one.gain_code, one.offset, one.count, one.wanted, one.number, one.value);
    }
    text
}
