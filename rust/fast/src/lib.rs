//! The calls of document 01 with structure sharing, all state in the lent work words: the same results as the plain engine,
//! as fast as can be, as a mark to measure against.

mod answer;
mod check;
mod index;
mod memory;
mod read;
mod search;
mod tableau;
mod terms;
mod words;

use calls::{Engine, Lent, Plain};
use engine::{Asker, Desk, LARGEST_BOUND, PROOF_WORDS, Reading, Report, Status, WORK_WORDS};
use index::{Index, Notes};
use memory::Work;
use read::{Accepted, accept};
use search::End;
use std::cell::RefCell;
use std::ops::Range;
use words::following;

thread_local! {
    static NOTES: RefCell<Notes> = RefCell::default();
}

pub fn clause_range(file: &[u32], number: u32) -> Option<Range<usize>> {
    let body = accept(file).ok()?.body;
    let mut start = 0;
    for _ in 0..number {
        start += 1 + following(*body.get(start)?);
    }
    Some(start..start + 1 + following(*body.get(start)?))
}

pub fn search(
    file: &[u32],
    bound: u32,
    budget: u32,
    work: &mut [u32],
    proof: &mut [u32],
    answer: &mut [u32],
) -> Report {
    search_for(Desk::Collections, file, bound, budget, work, proof, answer)
}

fn search_for(
    desk: Desk,
    file: &[u32],
    bound: u32,
    budget: u32,
    work: &mut [u32],
    proof: &mut [u32],
    answer: &mut [u32],
) -> Report {
    let Some(work) = work.first_chunk_mut::<WORK_WORDS>() else {
        return Report::of(Status::WorkTooShort);
    };
    let report = if proof.len() < PROOF_WORDS {
        Report::of(Status::ProofTooShort)
    } else {
        admit(desk, file, bound)
            .map_or_else(|report| report, |file| search_file(&file, bound, budget, work, proof, answer))
    };
    work.fill(0);
    report
}

pub fn check(file: &[u32], offered: &[u32], bound: u32, work: &mut [u32], answer: &mut [u32]) -> Report {
    check_for(Desk::Collections, file, offered, bound, work, answer)
}

fn check_for(desk: Desk, file: &[u32], offered: &[u32], bound: u32, work: &mut [u32], answer: &mut [u32]) -> Report {
    let Some(work) = work.first_chunk_mut::<WORK_WORDS>() else {
        return Report::of(Status::WorkTooShort);
    };
    let report =
        admit(desk, file, bound).map_or_else(|report| report, |file| check_file(&file, offered, bound, work, answer));
    work.fill(0);
    report
}

fn admit(desk: Desk, file: &[u32], bound: u32) -> Result<Accepted<'_>, Report> {
    if bound > LARGEST_BOUND {
        return Err(Report::of(Status::BoundTooLarge));
    }
    let file = accept(file)?;
    Ok(match desk {
        Desk::Collections => file,
        Desk::Education => file.unrestricted(),
    })
}

fn search_file(
    file: &Accepted,
    bound: u32,
    budget: u32,
    work: &mut Work,
    proof: &mut [u32],
    answer: &mut [u32],
) -> Report {
    if bound == 0 {
        return Report::of(Status::NoProof);
    }
    NOTES.with_borrow_mut(|notes| {
        search_index(&notes.index(&file.body), file.question, bound, budget, work, proof, answer)
    })
}

fn search_index(
    index: &Index,
    question: usize,
    bound: u32,
    budget: u32,
    work: &mut Work,
    proof: &mut [u32],
    answer: &mut [u32],
) -> Report {
    match search::search(index, question, bound, budget, work) {
        End::NoProof { tries } => Report::after(Status::NoProof, tries),
        End::RanOut => Report::after(Status::RanOut, budget),
        End::Found { steps, copies, tries } => {
            let report = write_answer(index, steps, copies, work, answer);
            for (step, word) in proof.iter_mut().take(report.proof_words as usize).enumerate() {
                *word = search::step_word(index, work, step);
            }
            Report { tries, ..report }
        }
    }
}

fn check_file(file: &Accepted, offered: &[u32], bound: u32, work: &mut Work, answer: &mut [u32]) -> Report {
    NOTES.with_borrow_mut(|notes| {
        let index = notes.index(&file.body);
        match check::check(&index, file.question, bound, offered, work) {
            Ok(copies) => write_answer(&index, offered.len(), copies, work, answer),
            Err((status, place)) => Report::at(status, place),
        }
    })
}

fn write_answer(index: &Index, steps: usize, copies: u32, work: &mut Work, buffer: &mut [u32]) -> Report {
    let Some(written) = answer::write(index, copies, work, buffer) else {
        return Report::of(Status::AnswerTooLong);
    };
    Report {
        proof_words: steps as u32,
        disjuncts: written.disjuncts,
        answer_words: written.words as u32,
        ..Report::of(Status::Proved)
    }
}

/// The restart reading is not measured: the plain engine answers.
pub struct Fast;

impl Engine for Fast {
    fn lookup(&mut self, file: &[u32], number: u32) -> Option<Range<usize>> {
        clause_range(file, number)
    }

    fn search(&mut self, asker: Asker, file: &[u32], bound: u32, budget: u32, lent: Lent) -> Report {
        match asker.reading {
            Reading::Base => search_for(asker.desk, file, bound, budget, lent.work, lent.proof, lent.answer),
            Reading::Restart => Plain.search(asker, file, bound, budget, lent),
        }
    }

    fn check(&mut self, asker: Asker, file: &[u32], offered: &[u32], bound: u32, lent: Lent) -> Report {
        match asker.reading {
            Reading::Base => check_for(asker.desk, file, offered, bound, lent.work, lent.answer),
            Reading::Restart => Plain.check(asker, file, offered, bound, lent),
        }
    }
}
