//! Orders 1 and 2.

use crate::buffers::{Bytes, FILLER, hex, mark, untouched};
use crate::line::{FILE_ROOM, Line, TEXT_ROOM, bytes, length, words};
use orders::tptp::writer::write;
use orders::tptp::{TextRead, read};

pub fn respond_in(line: &Line) -> Option<String> {
    let (&[room], &[text]) = (line.numbers.as_slice(), line.lists.as_slice()) else {
        return None;
    };
    let mut file = vec![FILLER; length(room, FILE_ROOM)?];
    let TextRead { status, place, words } = read(&bytes(text)?, &mut file);
    let (file, rest) = file.split_at(words as usize);
    Some(format!("status {status} place {place} words {words} / {}{}", hex(file), mark(untouched(rest))))
}

pub fn respond_out(line: &Line) -> Option<String> {
    let (&[room], &[file]) = (line.numbers.as_slice(), line.lists.as_slice()) else {
        return None;
    };
    let file = words(file, FILE_ROOM)?;
    let mut text = Bytes::filled(length(room, TEXT_ROOM)?);
    let written = write(&file, text.lend());
    Some(text.outcome(&written, true))
}
