//! Order 13: many questions put to one table, by single searches in turn.

use engine::file::{self, TRAILER, with_trailer};
use engine::{PROOF_WORDS, Report, Status, WORK_WORDS};

pub const MOST_ENTRIES: usize = 4_096;

/// A status of document 02 that the base has no name for.
pub const ENTRIES: u32 = 23;

const ENTRY_WORDS: usize = 4;

#[derive(Clone, Copy)]
pub struct Asked<'a> {
    /// A question file.
    pub table: &'a [u32],
    /// Four words each: the place and length of a question's words in the list, a bound and a budget.
    pub entries: &'a [u32],
    pub list: &'a [u32],
}

#[derive(Clone, Copy, Debug, Default, PartialEq, Eq)]
pub struct Season {
    pub status: u32,
    pub place: u32,
    pub definite: u32,
    pub indefinite: u32,
    pub none: u32,
    pub ran_out: u32,
    pub too_long: u32,
    pub refused: u32,
    pub tries: u64,
}

/// `search` is a search of document 01: file, bound, budget; work, proof and answer buffers.
pub fn season(
    asked: Asked,
    work: &mut [u32],
    proof: &mut [u32],
    answer: &mut [u32],
    mut search: impl FnMut(&[u32], u32, u32, &mut [u32], &mut [u32], &mut [u32]) -> Report,
) -> Season {
    let refused = |status, place| Season { status, place, ..Season::default() };
    if work.len() < WORK_WORDS {
        return refused(Status::WorkTooShort as u32, 0);
    }
    work[..WORK_WORDS].fill(0);
    if proof.len() < PROOF_WORDS {
        return refused(Status::ProofTooShort as u32, 0);
    }
    if let Err(Report { status, place, .. }) = file::read(asked.table) {
        return refused(status as u32, place);
    }
    if !asked.entries.len().is_multiple_of(ENTRY_WORDS) || asked.entries.len() / ENTRY_WORDS > MOST_ENTRIES {
        return refused(ENTRIES, 0);
    }
    let mut season = Season::default();
    for entry in asked.entries.chunks(ENTRY_WORDS) {
        match question(asked.list, entry[0], entry[1]) {
            Some(question) => {
                let file = asking(asked.table, question);
                season.count(&search(&file, entry[2], entry[3], work, proof, answer));
            }
            None => season.refused += 1,
        }
    }
    season
}

/// The question's words, unless they would go past the list.
fn question(list: &[u32], place: u32, length: u32) -> Option<&[u32]> {
    let end = u64::from(place) + u64::from(length);
    list.get(place as usize..usize::try_from(end).ok()?)
}

/// The table with these words in place of its question.
fn asking(table: &[u32], question: &[u32]) -> Vec<u32> {
    let trailer = table.len() - TRAILER;
    let [start, count] = [table[trailer], table[trailer + 1]];
    with_trailer([&table[..start as usize], question].concat(), start, count)
}

impl Season {
    fn count(&mut self, report: &Report) {
        let counted = match report.status {
            Status::Proved if report.disjuncts == 1 => &mut self.definite,
            Status::Proved => &mut self.indefinite,
            Status::NoProof => &mut self.none,
            Status::RanOut => &mut self.ran_out,
            Status::AnswerTooLong => &mut self.too_long,
            _ => &mut self.refused,
        };
        *counted += 1;
        self.tries += u64::from(report.tries);
    }
}
