//! Order 12.

use crate::buffers::{FILLER, hex, mark, untouched};
use crate::line::{FILE_ROOM, Line, length, words};
use orders::slim::{Slimmed, slim};

const NUMBERS_ROOM: usize = 600;

pub fn respond(line: &Line) -> Option<String> {
    let (&[file_room, numbers_room], &[file]) = (line.numbers.as_slice(), line.lists.as_slice()) else {
        return None;
    };
    let file = words(file, FILE_ROOM)?;
    let mut slimmer = vec![FILLER; length(file_room, FILE_ROOM)?];
    let mut numbers = vec![FILLER; length(numbers_room, NUMBERS_ROOM)?];
    let Slimmed { status, place, words, clauses } = slim(&file, &mut slimmer, &mut numbers);
    let (slimmer, slimmer_rest) = slimmer.split_at(words as usize);
    let (numbers, numbers_rest) = numbers.split_at(clauses as usize);
    let intact = untouched(slimmer_rest) && untouched(numbers_rest);
    let lists = format!("{} / {}", hex(slimmer), hex(numbers));
    Some(format!("status {} place {place} words {words} clauses {clauses} / {lists}{}", status as u32, mark(intact)))
}
