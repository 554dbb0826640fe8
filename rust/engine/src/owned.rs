//! The calls with buffers of their own, long enough for anything but a giant answer.

use crate::{Asker, Report, WORK_WORDS};

pub const ANSWER_WORDS: usize = 20_000;

/// `proof` and `answer` are the words that were written.
#[derive(Clone, Debug, PartialEq, Eq)]
pub struct Outcome {
    pub report: Report,
    pub proof: Vec<u32>,
    pub answer: Vec<u32>,
}

pub fn search(file: &[u32], bound: u32, budget: u32) -> Outcome {
    search_for(Asker::BASE, file, bound, budget)
}

pub fn search_for(asker: impl Into<Asker>, file: &[u32], bound: u32, budget: u32) -> Outcome {
    let asker = asker.into();
    let mut proof = vec![0; asker.reading.proof_words()];
    let mut answer = vec![0; ANSWER_WORDS];
    let report = crate::search_for(asker, file, bound, budget, &mut [0; WORK_WORDS], &mut proof, &mut answer);
    proof.truncate(report.proof_words as usize);
    answer.truncate(report.answer_words as usize);
    Outcome { report, proof, answer }
}

pub fn check(file: &[u32], offered: &[u32], bound: u32) -> Outcome {
    check_for(Asker::BASE, file, offered, bound)
}

pub fn check_for(asker: impl Into<Asker>, file: &[u32], offered: &[u32], bound: u32) -> Outcome {
    let mut answer = vec![0; ANSWER_WORDS];
    let report = crate::check_for(asker, file, offered, bound, &mut [0; WORK_WORDS], &mut answer);
    answer.truncate(report.answer_words as usize);
    Outcome { report, proof: Vec::new(), answer }
}
