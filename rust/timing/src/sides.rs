//! The engines that are measured, behind one call.

use crate::workloads::Workload;
use engine::{PROOF_WORDS, Report, WORK_WORDS};
use hukolearu::Outcome;

const ANSWER_WORDS: usize = 4_096;

/// The buffers that a call is lent.
#[derive(PartialEq)]
pub struct Lent {
    work: Vec<u32>,
    proof: Vec<u32>,
    answer: Vec<u32>,
}

impl Lent {
    pub fn new() -> Lent {
        Lent { work: vec![9; WORK_WORDS], proof: vec![9; PROOF_WORDS], answer: vec![9; ANSWER_WORDS] }
    }
}

#[derive(Clone, Copy)]
pub struct Side {
    pub name: &'static str,
    search: fn(&Workload, &mut Lent) -> Outcome,
}

impl Side {
    /// Not inlined, so that the instructions of a call can be counted by this name.
    #[inline(never)]
    pub fn call(self, workload: &Workload, lent: &mut Lent) -> Outcome {
        (self.search)(workload, lent)
    }
}

pub const SIDES: &[Side] = &[
    Side { name: "proved", search: proved },
    #[cfg(feature = "before")]
    Side { name: "before", search: before },
    Side { name: "transcribed", search: transcribed },
    Side { name: "checked", search: checked },
    Side { name: "unchecked", search: unchecked },
];

/// A side that is an archive's call, as in the header but for the place of the result, which x86-64 passes first: the engine's module has it so,
/// and where the module is compiled for another processor the call must say so itself.
macro_rules! archived {
    ($side:ident, $symbol:ident) => {
        fn $side(workload: &Workload, lent: &mut Lent) -> Outcome {
            unsafe extern "C" {
                fn $symbol(
                    outcome: *mut Outcome,
                    file: *const u32,
                    file_words: usize,
                    bound: u32,
                    budget: u32,
                    proof: *mut u32,
                    proof_words: usize,
                    answer: *mut u32,
                    answer_words: usize,
                    work: *mut u32,
                    work_words: usize,
                ) -> *mut Outcome;
            }
            let Workload { file, bound, budget, .. } = workload;
            let Lent { work, proof, answer } = lent;
            let mut outcome = Outcome { status: 0, place: 0, proof: 0, disjuncts: 0, answer: 0, tries: 0 };
            // SAFETY: the slices are valid for their lengths and do not overlap, and the call reads and writes within them (proved).
            unsafe {
                $symbol(
                    &mut outcome,
                    file.as_ptr(),
                    file.len(),
                    *bound,
                    *budget,
                    proof.as_mut_ptr(),
                    proof.len(),
                    answer.as_mut_ptr(),
                    answer.len(),
                    work.as_mut_ptr(),
                    work.len(),
                );
            }
            outcome
        }
    };
}

archived!(proved, hukolearu_search);
#[cfg(feature = "before")]
archived!(before, before_search);

/// The proved engine's own text, compiled by rustc.
fn transcribed(workload: &Workload, lent: &mut Lent) -> Outcome {
    let Lent { work, proof, answer } = lent;
    let result = transcribed::search(&workload.file, workload.bound, workload.budget, proof, answer, work);
    let transcribed::Outcome { status, place, proof, disjuncts, answer, tries } = result;
    Outcome { status, place, proof, disjuncts, answer, tries }
}

fn checked(workload: &Workload, lent: &mut Lent) -> Outcome {
    let Lent { work, proof, answer } = lent;
    outcome(fast::search(&workload.file, workload.bound, workload.budget, work, proof, answer))
}

fn unchecked(workload: &Workload, lent: &mut Lent) -> Outcome {
    let Lent { work, proof, answer } = lent;
    outcome(unchecked::search(&workload.file, workload.bound, workload.budget, work, proof, answer))
}

fn outcome(report: Report) -> Outcome {
    let Report { status, place, proof_words, disjuncts, answer_words, tries } = report;
    Outcome { status: status as u32, place, proof: proof_words, disjuncts, answer: answer_words, tries }
}
