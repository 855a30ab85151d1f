//! The tables that ./forecast prints of a stream; a line `no season, 9` where it has nothing to give.

use crate::plant::Plant;
use crate::season;
use crate::stream;
use crate::tell;

fn joined(numbers: &[String]) -> String {
    numbers.join(",") + "\n"
}

pub fn reading(bytes: &[u8]) -> String {
    match stream::play(bytes, Plant::None).reading {
        Ok([least, greatest, total, charge]) => format!(
            "least cell in microvolts,greatest cell in microvolts,total in microvolts,coulomb counter in hundredths of a microvolt
{least},{greatest},{total},{charge}\n"
        ),
        Err(number) => format!("no reading, {number}\n"),
    }
}

/// A line a cell; of no scans the places of least and greatest are empty.
pub fn season(bytes: &[u8]) -> String {
    let rows = match season::rows(&stream::play(bytes, Plant::None).chip, Plant::None) {
        Ok(rows) => rows,
        Err(number) => return format!("no season, {number}\n"),
    };
    let mut text = "cell,scans,least count,scan of least count,greatest count,scan of greatest count,".to_string();
    text += "sum of counts,scans connected,sum in microvolts\n";
    for (place, row) in rows.iter().enumerate() {
        let told = |at: usize| if row[1] == 0 && (2..6).contains(&at) { String::new() } else { row[at].to_string() };
        let numbers: Vec<String> = [0, 2, 3, 4, 5, 6, 7, 8].into_iter().map(told).collect();
        text += &format!("{},{}", place + 1, joined(&numbers));
    }
    text
}

/// A line a stored scan; the place of a cell that was not connected is empty.
pub fn scans(bytes: &[u8]) -> String {
    let chip = match stream::play(bytes, Plant::None).chip {
        Ok(chip) => chip,
        Err(number) => return format!("no scans, {number}\n"),
    };
    let cells = chip.setup.wired(Plant::None).len();
    let mut text = "scan,record".to_string();
    for cell in 1..=cells {
        text += &format!(",cell {cell} in microvolts");
    }
    text += "\n";
    for (place, (record, bits, row)) in tell::scans(bytes).iter().enumerate() {
        let told = |cell: usize| if bits >> cell & 1 == 0 { String::new() } else { row[cell].to_string() };
        let numbers: Vec<String> = (0..cells).map(told).collect();
        text += &format!("{},{record},{}", place + 1, joined(&numbers));
    }
    text
}
