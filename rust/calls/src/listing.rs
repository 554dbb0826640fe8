//! Order 7.

use crate::buffers::{Buffers, Bytes};
use crate::line::{FILE_ROOM, Line, OFFERED_ROOM, TEXT_ROOM, WORK_ROOM, length, words};
use engine::Status;
use orders::listing::listing;

pub fn respond(line: &Line) -> Option<String> {
    let (&[bound, work, room], &[offered, file]) = (line.numbers.as_slice(), line.lists.as_slice()) else {
        return None;
    };
    let (offered, file) = (words(offered, OFFERED_ROOM)?, words(file, FILE_ROOM)?);
    let mut buffers = Buffers::filled(length(work, WORK_ROOM)?, 0, 0);
    let mut text = Bytes::filled(length(room, TEXT_ROOM)?);
    let written = listing(&file, bound, &offered, buffers.lend().work, text.lend());
    Some(text.outcome(&written, buffers.work_as_promised(written.status == Status::WorkTooShort)))
}
