//! The rule engine of document 01, written plainly: clauses are owned values, and the terms of a tableau
//! are nodes in classes of equal terms.
//!
//! The buffers are the caller's, as in the document. This engine keeps its state in memory of its own, so the
//! work words are only wiped.

mod answer;
mod asker;
mod equations;
pub mod file;
mod list;
pub mod owned;
pub mod report;
mod sameness;
mod search;
pub mod step;
pub mod syntax;
pub mod tableau;
pub mod word;

pub use asker::{Asker, Desk, Reading};
pub use equations::Unequal;
use file::QuestionFile;
pub use report::{Report, Status};
use search::{End, Search};
use std::ops::Range;
use step::Step;
use syntax::Table;
use tableau::{Obstacle, Tableau};

pub const WORK_WORDS: usize = 16_384;
pub const PROOF_WORDS: usize = 199;
pub const RESTART_PROOF_WORDS: usize = 231;
pub const LARGEST_BOUND: u32 = 32;

/// The words of a clause as a part of the file; empty where the file or the number is refused.
pub fn lookup(file: &[u32], number: u32) -> &[u32] {
    clause_range(file, number).map_or(&[], |range| &file[range])
}

pub fn clause_range(file: &[u32], number: u32) -> Option<Range<usize>> {
    file::read(file).ok()?.ranges.get(number as usize).cloned()
}

pub fn search(
    file: &[u32],
    bound: u32,
    budget: u32,
    work: &mut [u32],
    proof: &mut [u32],
    answer: &mut [u32],
) -> Report {
    search_for(Asker::BASE, file, bound, budget, work, proof, answer)
}

pub fn search_for(
    asker: impl Into<Asker>,
    file: &[u32],
    bound: u32,
    budget: u32,
    work: &mut [u32],
    proof: &mut [u32],
    answer: &mut [u32],
) -> Report {
    if !wipe(work) {
        return Report::of(Status::WorkTooShort);
    }
    let asker = asker.into();
    if proof.len() < asker.reading.proof_words() {
        return Report::of(Status::ProofTooShort);
    }
    match admit(asker, file, bound) {
        Ok(table) => search_table(Tableau::read(&table, bound, asker.reading), budget, proof, answer),
        Err(report) => report,
    }
}

pub fn check(file: &[u32], offered: &[u32], bound: u32, work: &mut [u32], answer: &mut [u32]) -> Report {
    check_for(Asker::BASE, file, offered, bound, work, answer)
}

pub fn check_for(
    asker: impl Into<Asker>,
    file: &[u32],
    offered: &[u32],
    bound: u32,
    work: &mut [u32],
    answer: &mut [u32],
) -> Report {
    if !wipe(work) {
        return Report::of(Status::WorkTooShort);
    }
    let asker = asker.into();
    match admit(asker, file, bound) {
        Ok(table) => check_table(Tableau::read(&table, bound, asker.reading), offered, answer),
        Err(report) => report,
    }
}

/// Zeroes the work words, unless there are too few of them.
fn wipe(work: &mut [u32]) -> bool {
    let Some(used) = work.get_mut(..WORK_WORDS) else {
        return false;
    };
    used.fill(0);
    true
}

/// The table that the desk sees, after the checks 3 to 9, 21 and 22 of the whole file.
fn admit(asker: Asker, file: &[u32], bound: u32) -> Result<Table, Report> {
    if bound > LARGEST_BOUND {
        return Err(Report::of(Status::BoundTooLarge));
    }
    let read = file::read(file)?;
    if asker.reading == Reading::Restart {
        enterable(&read)?;
    }
    Ok(match asker.desk {
        Desk::Collections => read.table,
        Desk::Education => read.table.unrestricted(),
    })
}

/// Refuses the first clause other than the question without a positive literal: no step could copy it.
fn enterable(file: &QuestionFile) -> Result<(), Report> {
    let clauses = &file.table.clauses[..file.table.question_number()];
    let negative = clauses.iter().position(|clause| clause.literals.iter().all(|literal| literal.negative));
    negative.map_or(Ok(()), |clause| Err(Report::at(Status::NoPositiveLiteral, file.ranges[clause].start)))
}

fn search_table(tableau: Tableau, budget: u32, proof: &mut [u32], answer: &mut [u32]) -> Report {
    let mut search = Search::new(tableau, budget);
    let end = search.run();
    let tries = search.tries;
    match end {
        End::NoProof => Report::after(Status::NoProof, tries),
        End::RanOut => Report::after(Status::RanOut, tries),
        End::Found => {
            let report = write_answer(&search.tableau, search.steps.len(), answer);
            if report.status == Status::Proved {
                for (word, step) in proof.iter_mut().zip(&search.steps) {
                    *word = step.encode();
                }
            }
            Report { tries, ..report }
        }
    }
}

fn check_table(mut tableau: Tableau, offered: &[u32], answer: &mut [u32]) -> Report {
    for (place, &word) in offered.iter().enumerate() {
        let Some(step) = Step::decode(tableau.reading(), word) else {
            return Report::at(Status::MalformedStep, place);
        };
        match tableau.perform(step) {
            Ok(()) => {}
            Err(Obstacle::NotAllowed) => return Report::at(Status::StepNotAllowed, place),
            Err(Obstacle::Unequal(Unequal::Clash)) => return Report::at(Status::Clash, place),
            Err(Obstacle::Unequal(Unequal::Circle)) => return Report::at(Status::Circle, place),
        }
    }
    if !tableau.closed() {
        return Report::at(Status::LeavesOpen, offered.len());
    }
    write_answer(&tableau, offered.len(), answer)
}

fn write_answer(tableau: &Tableau, steps: usize, buffer: &mut [u32]) -> Report {
    let Some(answer) = answer::answer(tableau, buffer.len()) else {
        return Report::of(Status::AnswerTooLong);
    };
    buffer[..answer.words.len()].copy_from_slice(&answer.words);
    Report {
        proof_words: steps as u32,
        disjuncts: answer.disjuncts as u32,
        answer_words: answer.words.len() as u32,
        ..Report::of(Status::Proved)
    }
}
