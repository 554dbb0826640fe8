//! Order 12: a file without repeats and dead clauses.

use engine::file::{self, QuestionFile};
use engine::syntax::{Clause, Literal};
use engine::{Report, Status};

#[derive(Clone, Copy, Debug, PartialEq, Eq)]
pub struct Slimmed {
    pub status: Status,
    pub place: u32,
    pub words: u32,
    pub clauses: u32,
}

/// Writes the slimmer file, and the old number of each clause that it keeps.
pub fn slim(old: &[u32], slimmer: &mut [u32], numbers: &mut [u32]) -> Slimmed {
    let read = match file::read(old) {
        Ok(read) => read,
        Err(Report { status, place, .. }) => return Slimmed { status, place, words: 0, clauses: 0 },
    };
    let kept = kept(old, &read);
    let body: Vec<u32> = kept.iter().flat_map(|&number| &old[read.ranges[number].clone()]).copied().collect();
    let question_at = body.len() - read.ranges[read.table.question_number()].len();
    let new = file::with_trailer(body, question_at as u32, kept.len() as u32);
    if slimmer.len() < new.len() || numbers.len() < kept.len() {
        return Slimmed { status: Status::AnswerTooLong, place: 0, words: 0, clauses: 0 };
    }
    slimmer[..new.len()].copy_from_slice(&new);
    for (place, &number) in kept.iter().enumerate() {
        numbers[place] = number as u32;
    }
    Slimmed { status: Status::Proved, place: 0, words: new.len() as u32, clauses: kept.len() as u32 }
}

/// One clause is dropped at a time, any that may be, until none may.
fn kept(old: &[u32], read: &QuestionFile) -> Vec<usize> {
    let question = read.table.question_number();
    let words = |number: usize| &old[read.ranges[number].clone()];
    let mut kept: Vec<usize> = (0..=question).collect();
    loop {
        let droppable = kept.iter().position(|&number| {
            let repeat = || kept.iter().any(|&earlier| earlier < number && words(earlier) == words(number));
            let dead = || read.table.clauses[number].literals.iter().any(|literal| !partner(literal, &kept, read));
            number != question && (repeat() || dead())
        });
        match droppable {
            Some(place) => kept.remove(place),
            None => return kept,
        };
    }
}

/// A clause still present has a literal of opposite sign with the same predicate and arity.
fn partner(literal: &Literal, kept: &[usize], read: &QuestionFile) -> bool {
    let opposite = |other: &Literal| other.negative != literal.negative && other.predicate == literal.predicate;
    let has = |clause: &Clause| clause.literals.iter().any(opposite);
    kept.iter().any(|&number| has(&read.table.clauses[number]))
}
