//! CHIP X1 to X8, the worked examples and both sides of each line, asked of the model.

use crate::plant::Plant;
use crate::stream::{bytes_of_hex, lines, play};
use crate::values::{cc, cell, code, crc, die, ohms};

const EXAMPLE: &str = "0700 0000 01 00 08 0A 1E E803  0000 0200  0000 1000  0100 1100 10
    0100 1100 05  0100 1100 03  0000 1300  0000 0900";

const PRINTED: &str = "0 0000 0 -- 00 000
1 0002 0 -- 00 000
2 0010 0 -- 00 000
3 0011 0 00 00 000
4 0011 0 00 00 000
5 0011 0 00 00 011
6 0013 0 -- 00 011
7 0009 0 -- 20 100
";

const AWAKE: &str = "0700 0000 01 00 08 0A 1E E803  0000 0200 ";

/// A record of kind SCAN for five inputs, the last at `count` and the others quiet.
fn scan(count: u16) -> Vec<u8> {
    let mut bytes = vec![10, 0, 3, 0];
    for value in [8_200, 8_200, 8_200, 8_200, count] {
        bytes.extend(u16::to_le_bytes(value));
    }
    bytes
}

fn sense(value: i32) -> Vec<u8> {
    let mut bytes = vec![4, 0, 6, 0];
    bytes.extend(value.to_le_bytes());
    bytes
}

fn ticks(value: i32, repeat: u16) -> Vec<u8> {
    let mut bytes = vec![6, 0, 0x14, 0];
    bytes.extend(value.to_le_bytes());
    bytes.extend(repeat.to_le_bytes());
    bytes
}

fn soak(value: i32, repeat: u32) -> Vec<u8> {
    let mut bytes = vec![8, 0, 0x17, 0];
    bytes.extend(value.to_le_bytes());
    bytes.extend(repeat.to_le_bytes());
    bytes
}

/// SYS_STAT after the waking chip was given the same record some times.
fn stat_after(record: &[u8], times: usize) -> u8 {
    let mut bytes = bytes_of_hex(AWAKE).unwrap();
    for _ in 0..times {
        bytes.extend(record);
    }
    let outcome = play(&bytes, Plant::None);
    assert!(outcome.entries.iter().all(|entry| entry[0] == 0));
    outcome.entries.last().unwrap()[3]
}

pub fn check() -> usize {
    let mut made = 0;
    let mut same = |what: &str, is: i128, wanted: i128| {
        made += 1;
        assert!(is == wanted, "{what}: the model gives {is}, docs/CHIP.md {wanted}");
    };
    let none = Plant::None;
    same("cell 6,144", cell(10, 30, 6_144, none).unwrap().into(), 2_204_976);
    same("cell 7,952", cell(10, 30, 7_952, none).unwrap().into(), 2_845_008);
    same("cell 0 at offset 0x80", cell(31, 0x80, 0, none).unwrap().into(), -128_000);
    same("gain code 32", cell(32, 0, 16_384, none).unwrap_err().into(), 1);
    same("count 16,384", cell(31, 0, 16_384, none).unwrap_err().into(), 3);
    same("CC 0xC350", cc(0xC350).into(), -13_112_384);
    same("CC 0xFFFF", cc(0xFFFF).into(), -844);
    same("thermistor 9,322", ohms(9_322, none).unwrap().into(), 2_749_990_000);
    same("thermistor 9,323", ohms(9_323, none).unwrap_err().into(), 7);
    same("die 16,384", die(16_384, none).unwrap_err().into(), 3);
    same("CRC 10 05 03", crc(0, &[0x10, 0x05, 0x03]).into(), 0xEA);
    same("CRC 03", crc(0, &[0x03]).into(), 0x09);
    same("CRC 11 00", crc(0, &[0x11, 0x00]).into(), 0x42);
    same("CRC 123456789", crc(0, b"123456789").into(), 0xF4);
    same("OV code", code(8_192, 10, 30, 4_300_000, none).unwrap().into(), 0xF1);
    same("UV code", code(4_096, 10, 30, 2_500_000, none).unwrap().into(), 0xB4);
    same("10,952 four times", stat_after(&scan(10_952), 4).into(), 0x00);
    same("10,953 three times", stat_after(&scan(10_953), 3).into(), 0x00);
    same("10,953 four times", stat_after(&scan(10_953), 4).into(), 0x04);
    same("6,512 four times", stat_after(&scan(6_512), 4).into(), 0x00);
    same("6,511 four times", stat_after(&scan(6_511), 4).into(), 0x08);
    same("SENSE -18,500", stat_after(&sense(-18_500), 3).into(), 0x00);
    same("SENSE -18,501 twice", stat_after(&sense(-18_501), 2).into(), 0x00);
    same("SENSE -18,501", stat_after(&sense(-18_501), 3).into(), 0x02);
    same("two ticks of -18,501", stat_after(&ticks(-18_501, 2), 1).into(), 0x00);
    same("three ticks of -18,501", stat_after(&ticks(-18_501, 3), 1).into(), 0x02);
    same("255 ticks of -9,501", stat_after(&ticks(-9_501, 255), 1).into(), 0x00);
    same("256 ticks of -9,501", stat_after(&ticks(-9_501, 256), 1).into(), 0x01);
    same("128 ticks of -9,501, twice", stat_after(&ticks(-9_501, 128), 2).into(), 0x01);
    same("one soak of 255", stat_after(&soak(-9_501, 255), 1).into(), 0x00);
    same("one soak of 256", stat_after(&soak(-9_501, 256), 1).into(), 0x01);
    same("a soak of 16,777,216", stat_after(&soak(-9_501, 16_777_216), 1).into(), 0x01);
    let example = bytes_of_hex(EXAMPLE).unwrap();
    same("the printed example", (lines(&example) == PRINTED).into(), 1);
    same("no input", lines(&[]).len() as i128, 0);
    same("65,537 bytes", (lines(&vec![0; 65_537]) == "too long\n").into(), 1);
    same("a cut header", (lines(&[7, 0, 0]) == "0 ---- 9 -- 00 000\n").into(), 1);
    same("a cut payload", (lines(&[7, 0, 0xEF, 0xBE, 1]) == "0 BEEF 9 -- 00 000\n").into(), 1);
    made
}
