//! The calls of document 01, of both desks and both readings.

use crate::buffers::{Buffers, hex};
use crate::line::{ANSWER_ROOM, FILE_ROOM, Line, OFFERED_ROOM, PROOF_ROOM, WORK_ROOM, length, words};
use crate::{Engine, Lent};
use engine::{Asker, Report};
use std::ops::Range;

pub fn lookup(engine: &mut impl Engine, line: &Line) -> Option<String> {
    let (&[number], &[file]) = (line.numbers.as_slice(), line.lists.as_slice()) else {
        return None;
    };
    let file = words(file, FILE_ROOM)?;
    Some(match engine.lookup(&file, number) {
        Some(Range { start, end }) => format!("start {start} length {} / {}", end - start, hex(&file[start..end])),
        None => "start - length 0 / -".to_owned(),
    })
}

pub fn search(engine: &mut impl Engine, asker: Asker, line: &Line) -> Option<String> {
    searched(line, |file, bound, budget, lent| engine.search(asker, file, bound, budget, lent))
}

/// A request with the numbers and the list of a search, answered by a call with its buffers.
pub fn searched(line: &Line, call: impl FnOnce(&[u32], u32, u32, Lent) -> Report) -> Option<String> {
    let (&[bound, budget, work, proof, answer], &[file]) = (line.numbers.as_slice(), line.lists.as_slice()) else {
        return None;
    };
    let file = words(file, FILE_ROOM)?;
    let mut buffers =
        Buffers::filled(length(work, WORK_ROOM)?, length(proof, PROOF_ROOM)?, length(answer, ANSWER_ROOM)?);
    let report = call(&file, bound, budget, buffers.lend());
    Some(buffers.outcome(&report, report.proof_words as usize))
}

pub fn check(engine: &mut impl Engine, asker: Asker, line: &Line) -> Option<String> {
    let (&[bound, work, answer], &[offered, file]) = (line.numbers.as_slice(), line.lists.as_slice()) else {
        return None;
    };
    let (offered, file) = (words(offered, OFFERED_ROOM)?, words(file, FILE_ROOM)?);
    let mut buffers = Buffers::filled(length(work, WORK_ROOM)?, 0, length(answer, ANSWER_ROOM)?);
    let report = engine.check(asker, &file, &offered, bound, buffers.lend());
    Some(buffers.outcome(&report, 0))
}
