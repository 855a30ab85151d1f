//! A second Toralinge, written from the rules alone, to hold the proved library against. See ../README.md.

mod asks;
mod cases;
mod chip;
mod generate;
mod plant;
mod reasons;
mod rises;
mod season;
mod stream;
mod tables;
mod tell;
mod values;
mod why;

use plant::Plant;
use std::io::{BufWriter, Read, Write};
use std::process::ExitCode;

const USAGE: &str =
    "usage: model cases | plants [--seed S] [--streams N] | generate [--seed S] [--streams N] [--first K]
    | stream [--seed S] [--first K] | play [FILE] | lines [FILE] | season [FILE] | reading [FILE] | scans [FILE] | why [FILE [RECORD]] | tell [FILE] | values";

struct Options {
    seed: u64,
    streams: u64,
    first: u64,
}

fn options(words: &[String]) -> Result<Options, String> {
    let mut options = Options { seed: 1, streams: 320, first: 0 };
    for two in words.chunks(2) {
        let (name, value) = (&two[0], two.get(1).ok_or(USAGE)?);
        let value = value.parse().map_err(|_| format!("model: {name} wants a number, not {value}"))?;
        match name.as_str() {
            "--seed" => options.seed = value,
            "--streams" => options.streams = value,
            "--first" => options.first = value,
            _ => return Err(USAGE.to_string()),
        }
    }
    Ok(options)
}

fn same_reading(a: &Result<[f64; 4], u8>, b: &Result<[f64; 4], u8>) -> bool {
    match (a, b) {
        (Ok(a), Ok(b)) => a.iter().zip(b).all(|(a, b)| a.to_bits() == b.to_bits()),
        (Err(a), Err(b)) => a == b,
        _ => false,
    }
}

/// Plants every error in turn and looks for a stream, or a conversion, that shows it.
fn plants(options: &Options) -> Result<String, String> {
    let streams: Vec<Vec<u8>> = (0..options.streams).map(|s| generate::stream(options.seed, s)).collect();
    let expected: Vec<stream::Outcome> = streams.iter().map(|bytes| stream::play(bytes, Plant::None)).collect();
    let grid = values::grid(Plant::None);
    let plants = plant::all();
    let mut missed = Vec::new();
    for plant in plant::ASKS {
        let shown = |outcome: &stream::Outcome| {
            asks::all(&outcome.chip, *plant) != asks::all(&outcome.chip, Plant::None)
                || season::rows(&outcome.chip, *plant) != season::rows(&outcome.chip, Plant::None)
        };
        if !expected.iter().any(shown) {
            missed.push(format!("{plant:?}"));
        }
    }
    let rises: Vec<Vec<rises::Asked>> = streams.iter().map(|bytes| rises::all(&rises::Past::of(bytes, Plant::None))).collect();
    for plant in plant::RISES {
        let shown = |(bytes, wanted): (&Vec<u8>, &Vec<rises::Asked>)| rises::all(&rises::Past::of(bytes, *plant)) != *wanted;
        if !streams.iter().zip(&rises).any(shown) {
            missed.push(format!("{plant:?}"));
        }
    }
    // The short ones are tried first, and before them those that showed the errors before: what shows one mostly shows the next.
    let (mut places, long): (Vec<usize>, Vec<usize>) = (0..streams.len()).partition(|at| streams[*at].len() < 60_000);
    places.extend(long);
    for plant in &plants {
        let shown = |at: &usize| {
            let outcome = stream::play(&streams[*at], *plant);
            outcome.entries != expected[*at].entries
                || !same_reading(&outcome.reading, &expected[*at].reading)
                || season::rows(&outcome.chip, Plant::None) != season::rows(&expected[*at].chip, Plant::None)
        };
        if values::grid(*plant) != grid {
            continue;
        }
        match places.iter().position(shown) {
            Some(at) => places[..=at].rotate_right(1),
            None => missed.push(format!("{plant:?}")),
        }
    }
    let many = plants.len() + plant::ASKS.len() + plant::RISES.len();
    if missed.is_empty() {
        Ok(format!("model: all {many} planted errors are shown by {} streams of seed {}", streams.len(), options.seed))
    } else {
        Err(format!("model: {} of {many} planted errors are not shown: {}", missed.len(), missed.join(", ")))
    }
}

/// Writes streams with what is expected of them, and the conversions' grids, for tests/c/driver.c.
fn generate(options: &Options) -> std::io::Result<()> {
    let mut to = BufWriter::new(std::io::stdout().lock());
    for number in options.first..options.first + options.streams {
        let bytes = generate::stream(options.seed, number);
        let outcome = stream::play(&bytes, Plant::None);
        to.write_all(b"S")?;
        to.write_all(&options.seed.to_le_bytes())?;
        to.write_all(&number.to_le_bytes())?;
        to.write_all(&(bytes.len() as u64).to_le_bytes())?;
        to.write_all(&bytes)?;
        to.write_all(&(outcome.entries.len() as u64).to_le_bytes())?;
        for entry in &outcome.entries {
            to.write_all(entry)?;
        }
        let (number, reading) = match outcome.reading {
            Ok(reading) => (0, reading),
            Err(number) => (number, [0.0; 4]),
        };
        to.write_all(&[number])?;
        for value in reading {
            to.write_all(&value.to_bits().to_le_bytes())?;
        }
        let asked = asks::all(&outcome.chip, Plant::None);
        to.write_all(&(asked.len() as u64).to_le_bytes())?;
        for one in asked {
            to.write_all(&[one.command])?;
            to.write_all(&one.with.to_le_bytes())?;
            to.write_all(&[one.answer.err().unwrap_or(0)])?;
            to.write_all(&one.answer.unwrap_or([0; 3]))?;
        }
        let season = season::rows(&outcome.chip, Plant::None);
        to.write_all(&[*season.as_ref().err().unwrap_or(&0)])?;
        let rows = season.unwrap_or_default();
        to.write_all(&[rows.len() as u8])?;
        for number in rows.iter().flatten() {
            to.write_all(&number.to_le_bytes())?;
        }
        let asked = rises::all(&rises::Past::of(&bytes, Plant::None));
        to.write_all(&(asked.len() as u64).to_le_bytes())?;
        for one in asked {
            to.write_all(&[one.call])?;
            to.write_all(&one.record.to_le_bytes())?;
            to.write_all(&one.of.to_le_bytes())?;
            to.write_all(&[*one.answer.as_ref().err().unwrap_or(&0)])?;
            to.write_all(&one.answer.unwrap_or_default())?;
        }
    }
    for asked in values::grid(Plant::None) {
        to.write_all(&[b'V', asked.call, asked.gain_code, asked.offset])?;
        to.write_all(&asked.count.to_le_bytes())?;
        to.write_all(&asked.wanted.to_le_bytes())?;
        to.write_all(&[asked.number])?;
        to.write_all(&asked.value.to_le_bytes())?;
    }
    for number in 0..300 {
        let (start, bytes) = generate::message(options.seed, number);
        to.write_all(&[b'K', start])?;
        to.write_all(&(bytes.len() as u64).to_le_bytes())?;
        to.write_all(&bytes)?;
        to.write_all(&[values::crc(start, &bytes)])?;
    }
    to.write_all(b"E")?;
    to.flush()
}

/// The stream of a file, or of standard input.
fn stream_of(words: &[String]) -> Result<Vec<u8>, String> {
    let mut bytes = Vec::new();
    match words {
        [] => {
            std::io::stdin().read_to_end(&mut bytes).map_err(|e| format!("model: {e}"))?;
        }
        [name] => {
            bytes = std::fs::read(name).map_err(|e| format!("model: {name}: {e}"))?;
            if name.ends_with(".hex") {
                let text = String::from_utf8(bytes).map_err(|_| format!("model: {name} is no text"))?;
                bytes = stream::bytes_of_hex(&text).map_err(|e| format!("model: {name}: {e}"))?;
            }
        }
        _ => return Err(USAGE.to_string()),
    }
    Ok(bytes)
}

fn run(words: &[String]) -> Result<(), String> {
    let (mode, rest) = words.split_first().ok_or(USAGE)?;
    match mode.as_str() {
        "cases" => println!("model: {} cases of docs/CHIP.md hold", cases::check()),
        "plants" => println!("{}", plants(&options(rest)?)?),
        "generate" => generate(&options(rest)?).map_err(|e| format!("model: {e}"))?,
        "stream" => {
            let options = options(rest)?;
            let bytes = generate::stream(options.seed, options.first);
            std::io::stdout().write_all(&bytes).map_err(|e| format!("model: {e}"))?;
        }
        "play" => print!("{}", stream::lines(&stream_of(rest)?)),
        "lines" => print!("{}", stream::all_lines(&stream_of(rest)?)),
        "season" => print!("{}", tables::season(&stream_of(rest)?)),
        "reading" => print!("{}", tables::reading(&stream_of(rest)?)),
        "why" => match rest {
            [file, record] => {
                let record = record.parse().map_err(|_| format!("model: no record number: {record}"))?;
                print!("{}", why::why_of(&stream_of(std::slice::from_ref(file))?, record));
            }
            _ => print!("{}", why::why(&stream_of(rest)?)),
        },
        "scans" => print!("{}", tables::scans(&stream_of(rest)?)),
        "tell" => print!("{}", tell::tell(&stream_of(rest)?)),
        "values" => print!("{}", tell::grid()),
        _ => return Err(USAGE.to_string()),
    }
    Ok(())
}

fn main() -> ExitCode {
    let words: Vec<String> = std::env::args().skip(1).collect();
    match run(&words) {
        Ok(()) => ExitCode::SUCCESS,
        Err(message) => {
            eprintln!("{message}");
            ExitCode::FAILURE
        }
    }
}
