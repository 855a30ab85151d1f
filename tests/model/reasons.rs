//! Why a record is refused, in words, as `./play --words` and `./why` say it: from the table of records of CHIP R3 and the number given back.

use crate::chip::Setup;
use crate::stream::{length_of, sensed};

const KINDS: [&str; 24] = [
    "SETUP", "POR", "BOOT", "SCAN", "TEMP", "COUNT", "SENSE", "PIN", "LOAD", "XREADY", "", "", "", "", "", "", "START", "OUT", "IN", "STOP", "TICKS",
    "LEVEL", "WIRING", "SOAK",
];

/// A number with commas between its thousands.
pub fn grouped(number: i64) -> String {
    let digits = number.abs().to_string();
    let mut text = String::new();
    for (place, digit) in digits.chars().enumerate() {
        if place > 0 && (digits.len() - place) % 3 == 0 {
            text.push(',');
        }
        text.push(digit);
    }
    if number < 0 { format!("-{text}") } else { text }
}

/// A record's name: that of its kind, or the kind in hex, or `cut` where its header is.
pub fn name_of(kind: Option<u16>) -> String {
    match kind {
        None => "cut".to_string(),
        Some(kind) => match KINDS.get(usize::from(kind)) {
            Some(name) if !name.is_empty() => name.to_string(),
            _ => format!("0x{kind:04X}"),
        },
    }
}

fn pair(payload: &[u8], at: usize) -> u32 {
    u32::from(payload[at]) + 256 * u32::from(payload[at + 1])
}

/// The value of SETUP that is out of range, the first one.
fn of_setup(payload: &[u8]) -> String {
    let (part, crc, address, gain, floor) = (payload[0], payload[1], payload[2], payload[3], pair(payload, 5));
    if !(1..=3).contains(&part) {
        format!("part {part} is outside 1 to 3")
    } else if crc > 1 {
        format!("CRC {crc} is neither 0 nor 1")
    } else if !(0x08..=0x77).contains(&address) {
        format!("address 0x{address:02X} is outside 0x08 to 0x77")
    } else if gain > 31 {
        format!("gain code {gain} is above 31")
    } else {
        format!("floor {} is above 4,095", grouped(i64::from(floor)))
    }
}

/// Number 2: the record does not belong where it stands, or has another length.
fn of_kind(setup: Option<&Setup>, kind: u16, length: usize) -> String {
    let wanted = if kind == 0 { Some(7) } else { length_of(kind, setup.map_or(0, |setup| usize::from(setup.part))) };
    match (setup, kind, wanted) {
        (None, 1.., _) => "the first record is not SETUP".to_string(),
        (Some(_), 0, _) => "SETUP is not the first record".to_string(),
        (_, _, None) => "there is no such kind".to_string(),
        (_, _, Some(wanted)) if wanted != length => {
            format!("its payload has {} byte{} in place of {wanted}", grouped(length as i64), if length == 1 { "" } else { "s" })
        }
        _ => "WIRING is not straight after SETUP".to_string(),
    }
}

/// Number 3: the value that is out of range, the first one.
fn of_value(kind: u16, payload: &[u8]) -> String {
    match kind {
        3 | 4 => {
            let counts = (0..payload.len() / 2).map(|place| (place + 1, pair(payload, 2 * place)));
            let found = counts.into_iter().find(|(_, count)| *count > 16_383);
            found.map_or(String::new(), |(place, count)| format!("count {place} is {}, above 16,383", grouped(i64::from(count))))
        }
        6 | 0x14 | 0x17 => {
            let value = i64::from(sensed(payload));
            let (repeat, most) = match kind {
                0x17 => (pair(payload, 4) as i64 + 65_536 * pair(payload, 6) as i64, 16_777_216),
                0x14 => (pair(payload, 4) as i64, 4_096),
                _ => (1, 1),
            };
            if !(-500_000..=500_000).contains(&value) {
                format!("{} microvolts are outside -500,000 to 500,000", grouped(value))
            } else {
                format!("repeat {} is outside 1 to {}", grouped(repeat), grouped(most))
            }
        }
        _ => format!("{} is neither 0 nor 1", payload[0]),
    }
}

/// Number 9: how much there is of the record.
fn of_cut(rest: &[u8]) -> String {
    match rest.len() {
        0..=3 => format!("cut after {} of the 4 bytes of a header", rest.len()),
        there => format!("cut after {} of {} bytes of its payload", grouped(there as i64 - 4), grouped(i64::from(pair(rest, 0)))),
    }
}

/// Why a record is refused with a number, by the setup of the chip that stands, if any. The record's bytes, as far as they are there.
pub fn reason(number: u8, setup: Option<&Setup>, record: &[u8]) -> String {
    if number == 9 {
        return of_cut(record);
    }
    let (kind, payload) = (pair(record, 2) as u16, &record[4..]);
    match number {
        1 => of_setup(payload),
        2 => of_kind(setup, kind, payload.len()),
        3 => of_value(kind, payload),
        13 => format!("part {} has no row for {} cells", setup.map_or(0, |setup| setup.part), payload[0]),
        _ => "the chip is in SHIP".to_string(),
    }
}
