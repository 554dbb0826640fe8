//! Order 14.

use crate::line::{Line, decimal};
use orders::desk::{Desk, Record, Slot, ask};

const RECORDS_ROOM: usize = 600;

pub fn respond(line: &Line) -> Option<String> {
    let (&[first, second, third, day, house], &[records]) = (line.numbers.as_slice(), line.lists.as_slice()) else {
        return None;
    };
    let says = |status: u32, matinee: bool, evening: bool, either: bool| {
        format!("status {status} matinee {} evening {} either {}", matinee as u32, evening as u32, either as u32)
    };
    Some(match ask(&read(records)?, day, house, [first, second, third]) {
        Desk::Says { matinee, evening, either } => says(0, matinee, evening, either),
        Desk::RanOut => says(11, false, false, false),
        Desk::OutOfRange => says(24, false, false, false),
    })
}

fn read(records: &str) -> Option<Vec<Record>> {
    if records == "-" {
        return Some(Vec::new());
    }
    let records: Vec<Record> = records.split(' ').map(record).collect::<Option<_>>()?;
    (records.len() <= RECORDS_ROOM).then_some(records)
}

fn record(text: &str) -> Option<Record> {
    let parts: Vec<&str> = text.split(':').collect();
    let &[day, house, slot] = parts.as_slice() else {
        return None;
    };
    let slot = match slot {
        "m" => Slot::Matinee,
        "e" => Slot::Evening,
        "x" => Slot::Either,
        "?" => Slot::Unknown,
        _ => return None,
    };
    Some(Record { day: decimal(day)?, house: decimal(house)?, slot })
}
