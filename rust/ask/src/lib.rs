//! The program of document 01, from input bytes to printed text.

use engine::{PROOF_WORDS, Report, Status, WORK_WORDS, file, search, word};
use std::fmt::Write;

const ANSWER_WORDS: usize = 4_096;

pub fn run(input: &[u8]) -> String {
    let Some((bound, budget, file)) = read(input) else {
        return summary(&Report::of(Status::FileLength));
    };
    let mut work = vec![0; WORK_WORDS];
    let mut proof = [0; PROOF_WORDS];
    let mut answer = [0; ANSWER_WORDS];
    let report = search(&file, bound, budget, &mut work, &mut proof, &mut answer);
    if report.status != Status::Proved {
        return summary(&report);
    }
    let proof = &proof[..report.proof_words as usize];
    let answer = &answer[..report.answer_words as usize];
    let literals = question_literals(&file);
    summary(&report) + &line("proof", proof) + &disjuncts(answer, literals)
}

/// K, budget and file; nothing where the input is no multiple of 4 bytes, under 2 or over 16,002 words.
fn read(input: &[u8]) -> Option<(u32, u32, Vec<u32>)> {
    let (quads, []) = input.as_chunks::<4>() else {
        return None;
    };
    let words: Vec<u32> = quads.iter().map(|quad| u32::from_le_bytes(*quad)).collect();
    match words.as_slice() {
        [bound, budget, file @ ..] if words.len() <= 16_002 => Some((*bound, *budget, file.to_vec())),
        _ => None,
    }
}

fn summary(report: &Report) -> String {
    format!("status {} place {} tries {}\n", report.status as u32, report.place, report.tries)
}

fn line(name: &str, words: &[u32]) -> String {
    words.iter().fold(name.to_owned(), |mut line, word| {
        write!(line, " {word:08X}").expect("a string takes text");
        line
    }) + "\n"
}

fn question_literals(file: &[u32]) -> usize {
    file::read(file).expect("a file with an answer").table.question().literals.len()
}

/// One line for each disjunct, which has as many literals as the question.
fn disjuncts(answer: &[u32], literals: usize) -> String {
    let starts: Vec<usize> = (0..answer.len())
        .filter(|&place| matches!(word::decode(answer[place]), Some(word::Word::Literal { .. })))
        .step_by(literals)
        .collect();
    let ends = starts.iter().skip(1).copied().chain([answer.len()]);
    starts.iter().zip(ends).map(|(&start, end)| line("or", &answer[start..end])).collect()
}
