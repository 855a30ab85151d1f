//! CHIP V1 to V8: the conversions on bare numbers, in 128 bits so that nothing can wrap.

use crate::plant::Plant;

fn signed(offset: u8) -> i128 {
    i128::from(offset) - if offset >= 128 { 256 } else { 0 }
}

fn gain(code: u8, plant: Plant) -> i128 {
    i128::from(code) + if plant == Plant::GainFrom343 { 343 } else { 344 }
}

pub fn cell(gain_code: u8, offset: u8, count: u16, plant: Plant) -> Result<i64, u8> {
    if gain_code > 31 {
        return Err(1);
    }
    if count > 16_383 {
        return Err(3);
    }
    Ok((gain(gain_code, plant) * i128::from(count) + 1_000 * signed(offset)) as i64)
}

pub fn ohms(count: u16, plant: Plant) -> Result<u64, u8> {
    let limit = if plant == Plant::ThermistorLimit { 9_322 } else { 9_323 };
    if count >= limit {
        return Err(7);
    }
    let v = 354 * i128::from(count);
    let rest = 3_300_000 - v;
    let half = if plant == Plant::ThermistorNearest { rest / 2 } else { 0 };
    Ok(((10_000 * v + half) / rest) as u64)
}

pub fn die(count: u16, plant: Plant) -> Result<i64, u8> {
    let most = if plant == Plant::DieLimit { 16_384 } else { 16_383 };
    if count > most {
        return Err(3);
    }
    Ok(680_000 - 177 * i64::from(count))
}

/// The code for a wanted threshold; `start` is 8,192 for over-voltage, 4,096 for under-voltage.
pub fn code(start: i128, gain_code: u8, offset: u8, wanted: i64, plant: Plant) -> Result<u8, u8> {
    if gain_code > 31 {
        return Err(1);
    }
    let side = if plant == Plant::CodeOffsetAdded { 1 } else { -1 };
    let full = (i128::from(wanted) + side * 1_000 * signed(offset)).div_euclid(gain(gain_code, plant));
    let mut last = start + 4_095;
    if plant == Plant::OvWindowWider && start == 8_192 {
        last += 1;
    }
    if plant == Plant::UvWindowNarrower && start == 4_096 {
        last -= 1;
    }
    if full < start || full > last {
        return Err(8);
    }
    Ok(((full - start) / 16) as u8)
}

pub fn cc(reading: u16) -> i64 {
    let wide = i64::from(reading);
    844 * if wide >= 32_768 { wide - 65_536 } else { wide }
}

/// CRC-8 as the remainder of a division by x^8 + x^2 + x + 1, one bit of the message at a time.
pub fn crc(start: u8, bytes: &[u8]) -> u8 {
    let mut rest = u16::from(start);
    for byte in bytes {
        rest ^= u16::from(*byte);
        for _ in 0..8 {
            rest <<= 1;
            if rest & 0x100 != 0 {
                rest ^= 0x107;
            }
        }
    }
    rest as u8
}

/// One conversion asked of the library: which call, its arguments, the number and the value expected.
#[derive(Clone, PartialEq, Debug)]
pub struct Asked {
    pub call: u8,
    pub gain_code: u8,
    pub offset: u8,
    pub count: u16,
    pub wanted: i64,
    pub number: u8,
    pub value: i64,
}

fn asked(call: u8, gain_code: u8, offset: u8, count: u16, wanted: i64, plant: Plant) -> Asked {
    let answer: Result<i64, u8> = match call {
        b'm' => cell(gain_code, offset, count, plant),
        b't' => ohms(count, plant).map(|o| o as i64),
        b'd' => die(count, plant),
        b'o' => code(8_192, gain_code, offset, wanted, plant).map(i64::from),
        b'u' => code(4_096, gain_code, offset, wanted, plant).map(i64::from),
        _ => Ok(cc(count)),
    };
    let (number, value) = match answer {
        Ok(value) => (0, value),
        Err(number) => (number, 0),
    };
    Asked { call, gain_code, offset, count, wanted, number, value }
}

/// The grids: every count for the calls of one argument, both sides of each line and corners for the others.
pub fn grid(plant: Plant) -> Vec<Asked> {
    let mut list = Vec::new();
    for count in 0..=u16::MAX {
        for call in [b't', b'd', b'c'] {
            list.push(asked(call, 0, 0, count, 0, plant));
        }
    }
    let offsets = [0u8, 1, 30, 0x7F, 0x80, 0x81, 0xFF];
    for gain_code in (0..=33).chain([63, 64, 128, 255]) {
        for offset in offsets {
            for count in [0u16, 1, 6_144, 7_952, 10_952, 16_382, 16_383, 16_384, 32_767, 32_768, 65_535] {
                list.push(asked(b'm', gain_code, offset, count, 0, plant));
            }
            for (call, start) in [(b'o', 8_192i128), (b'u', 4_096)] {
                let line = |full: i128| (full * (344 + i128::from(gain_code)) + 1_000 * signed(offset)) as i64;
                let mut wants = vec![i64::MIN, i64::MIN + 1, -1, 0, 1, 2_500_000, 4_300_000, i64::MAX - 1, i64::MAX];
                for step in [0, 1, 15, 16, 17, 2_048, 3_871, 4_079, 4_080, 4_095, 4_096, 4_111] {
                    let at = line(start + step);
                    wants.extend([at - 1, at, at + 1]);
                }
                for wanted in wants {
                    list.push(asked(call, gain_code, offset, 0, wanted, plant));
                }
            }
        }
    }
    list
}
