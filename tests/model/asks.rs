//! CHIP E1 to E5 and C1 to C6: cells to bleed, by trying every choice, and Smart Battery words, in 128 bits so that nothing can wrap.

use crate::chip::Chip;
use crate::plant::Plant;
use crate::values;

/// What `command` is for a question about cells to bleed.
pub const BLEED: u8 = 0;

/// A question with its margin or resistor: three bytes, or the number that refuses it.
#[derive(Clone, PartialEq, Debug)]
pub struct Asked {
    pub command: u8,
    pub with: u32,
    pub answer: Result<[u8; 3], u8>,
}

const MARGINS: [u32; 12] = [0, 1, 2, 10, 11, 30, 3_000, 16_383, 16_384, 65_535, 65_537, u32::MAX];

const WORDS: [(u8, &[u32]); 7] = [
    (0x07, &[0, 1]),
    (0x08, &[0, 1, 100, 101]),
    (0x09, &[0, 1, 100, 65_537]),
    (0x0A, &[0, 1, 3, 5, 10, 64, 100, 101, 65_546, u32::MAX]),
    (0x0B, &[0, 1]),
    (0x16, &[1]),
    (0xFF, &[1]),
];

/// All questions to the chip that a stream leaves, or the number where none stands.
pub fn all(chip: &Result<Chip, u8>, plant: Plant) -> Vec<Asked> {
    let mut list: Vec<Asked> = Vec::new();
    for with in MARGINS {
        let answer = match chip {
            Err(_) if plant == Plant::AskedBeforeChip && !(1..=16_383).contains(&with) => Err(3),
            Err(number) => Err(*number),
            Ok(chip) => bleed(chip, with, plant),
        };
        list.push(Asked { command: BLEED, with, answer });
    }
    for (command, resistors) in WORDS {
        for with in resistors.iter().copied() {
            let answer = match chip {
                Err(_) if plant == Plant::AskedBeforeChip && !(8..=10).contains(&command) => Err(23),
                Err(number) => Err(*number),
                Ok(chip) => word(chip, command, with, plant).map(|word| reply(command, word, plant)),
            };
            list.push(Asked { command, with, answer });
        }
    }
    list
}

/// Whether a choice, a number of fifteen bits with input 1 lowest, has two neighbours within 1 to 5, 6 to 10 or 11 to 15.
fn neighbours(choice: u32, plant: Plant) -> bool {
    if plant == Plant::BleedNeighboursTogether {
        return false;
    }
    (0..14).any(|low| choice >> low & 3 == 3 && (low % 5 != 4 || plant == Plant::BleedGroupsJoined))
}

/// Every choice is tried, smaller numbers first.
fn bleed(chip: &Chip, margin: u32, plant: Plant) -> Result<[u8; 3], u8> {
    let margin = if plant == Plant::BleedMarginCut { margin % 65_536 } else { margin };
    if !chip.awake && plant == Plant::BleedAsleepFirst {
        return Err(4);
    }
    if !(1..=16_383).contains(&margin) {
        return Err(3);
    }
    if !chip.awake {
        return Err(4);
    }
    let cells = chip.linked();
    let mut lowest = cells.iter().map(|cell| cell.1).min().ok_or(10)?;
    if plant == Plant::BleedLowestOfAll {
        lowest = (0..chip.setup.inputs()).map(|input| chip.pair(0x0C + 2 * input)).min().unwrap_or(lowest);
    }
    let far = margin + if plant == Plant::BleedMarginPassed { 1 } else { 0 };
    let mut excess = [0u32; 15];
    for (input, count) in cells {
        if u32::from(count - lowest) >= far {
            excess[input] = u32::from(count - lowest);
        }
    }
    let best = if plant == Plant::BleedHighestFirst { highest_first(&excess) } else { largest(&excess, plant) };
    Ok([best as u8 % 32, (best >> 5) as u8 % 32, (best >> 10) as u8])
}

fn largest(excess: &[u32; 15], plant: Plant) -> u32 {
    let (mut best, mut most) = (0, 0);
    let may: u32 = (0..15).filter(|input| excess[*input] > 0).map(|input| 1 << input).sum();
    for choice in (0..1u32 << 15).filter(|choice| choice & !may == 0) {
        let total: u32 = (0..15).filter(|input| choice >> input & 1 == 1).map(|input| excess[input]).sum();
        let more = total > most || total == most && plant == Plant::BleedLastOfEquals;
        if more && !neighbours(choice, plant) {
            (best, most) = (choice, total);
        }
    }
    best
}

/// The planted way to choose: the highest cell first, then the next that is no neighbour.
fn highest_first(excess: &[u32; 15]) -> u32 {
    let mut inputs: Vec<usize> = (0..15).filter(|input| excess[*input] > 0).collect();
    inputs.sort_by_key(|input| std::cmp::Reverse(excess[*input]));
    let mut choice = 0;
    for input in inputs {
        if !neighbours(choice | 1 << input, Plant::None) {
            choice |= 1 << input;
        }
    }
    choice
}

fn word(chip: &Chip, command: u8, milliohms: u32, plant: Plant) -> Result<u16, u8> {
    if !(0x08..=0x0A).contains(&command) {
        return Err(23);
    }
    let judged = command == 0x0A || plant != Plant::ResistorForCurrentOnly;
    if judged && !(1..=100).contains(&milliohms) {
        return Err(3);
    }
    if !chip.awake {
        return Err(4);
    }
    let (value, range) = match command {
        0x08 => (tenths_of_kelvin(chip, plant)?, 0..=65_535),
        0x09 => (millivolts(chip)?, 0..=65_535),
        _ => (milliamps(chip, milliohms, plant), -32_768..=32_767),
    };
    if !range.contains(&value) && plant != Plant::WordCut {
        return Err(11);
    }
    Ok(value.rem_euclid(65_536) as u16)
}

fn tenths_of_kelvin(chip: &Chip, plant: Plant) -> Result<i128, u8> {
    if chip.external() && plant != Plant::TemperatureDespiteSelect {
        return Err(12);
    }
    let die = i128::from(values::die(chip.pair(0x2C), Plant::None)?);
    Ok((die + 546_300).div_euclid(200))
}

fn millivolts(chip: &Chip) -> Result<i128, u8> {
    let cells = chip.linked();
    if cells.is_empty() {
        return Err(10);
    }
    let mut total = 0;
    for (_, count) in cells {
        total += i128::from(values::cell(chip.setup.gain_code, chip.setup.offset, count, Plant::None)?);
    }
    Ok(total.div_euclid(1_000))
}

fn milliamps(chip: &Chip, milliohms: u32, plant: Plant) -> i128 {
    let reading = chip.pair(0x32);
    let hundredths = i128::from(match plant {
        Plant::CurrentUnsigned => 844 * i64::from(reading),
        _ => values::cc(reading),
    });
    let by = 100 * i128::from(milliohms);
    match plant {
        Plant::CurrentRoundedDown => hundredths.div_euclid(by),
        _ => hundredths / by,
    }
}

/// Low byte, high byte and the packet error code.
fn reply(command: u8, word: u16, plant: Plant) -> [u8; 3] {
    let [low, high] = word.to_le_bytes();
    let pec = match plant {
        Plant::PecWithoutReadAddress => values::crc(0, &[0x16, command, low, high]),
        Plant::PecWithoutCommand => values::crc(0, &[0x16, 0x17, low, high]),
        _ => values::crc(0, &[0x16, command, 0x17, low, high]),
    };
    [low, high, pec]
}
