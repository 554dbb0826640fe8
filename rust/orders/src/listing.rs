//! Order 7: the clauses behind an accepted proof.

use crate::tptp::writer::{TextWritten, line};
use engine::file;
use engine::step::Step;
use engine::syntax::Table;
use engine::{Reading, Report, Status};
use std::collections::BTreeMap;

/// The answer plays no part: none is written, so the checker is lent no room for one.
pub fn listing(file: &[u32], bound: u32, offered: &[u32], work: &mut [u32], buffer: &mut [u8]) -> TextWritten {
    let Report { status, place, .. } = engine::check(file, offered, bound, work, &mut []);
    if !matches!(status, Status::Proved | Status::AnswerTooLong) {
        return TextWritten::refused(status, place);
    }
    let table = file::read(file).expect("the checker accepted the file").table;
    TextWritten::of(&lines(&table, offered), buffer)
}

fn lines(table: &Table, proof: &[u32]) -> String {
    copies(table, proof).iter().map(|(&clause, copies)| format!("{clause} {copies} {}", line(table, clause))).collect()
}

/// How often each clause was copied, those that were not left out.
fn copies(table: &Table, proof: &[u32]) -> BTreeMap<usize, usize> {
    let mut copies = BTreeMap::from([(table.question_number(), 1)]);
    for &word in proof {
        if let Some(Step::Extension { clause, .. }) = Step::decode(Reading::Base, word) {
            *copies.entry(clause as usize).or_insert(0) += 1;
        }
    }
    copies
}
